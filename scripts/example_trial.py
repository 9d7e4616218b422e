#!/usr/bin/env python3
"""Runs the examples and the commands of the pages with the built worldd, and compares what they print.

    scripts/example_trial.py crates/worldd/out/worldd

It runs examples/session.txt as a script, each block of a page that is marked as run, and the client in C on a connection
that breaks before the answer comes. Then it lets both games play for ten seconds on a server that is killed. Each turn has to
count once, and no step may wait for the server. Port 7070 stands for a free port. It needs a C compiler, as cc.
"""
import contextlib
import dataclasses
import os
import pathlib
import re
import signal
import socket
import subprocess
import sys
import tempfile
import threading
import time

from check_docs import Block, pages
from map import TOP
from trial import QUIET, Words, Wrong, begun, compare, create, free_port, parser_of, pipe, status_of

import cektaulis

EXAMPLES, CLIENTS = TOP / "examples", TOP / "clients"
SECONDS = 60
PORT = "7070"
IN_C = "cc", "-Wall", "-Wextra", "-Werror", f"-I{CLIENTS}/c"
# What examples/game.py and examples/game.c play for, and their first cells. Each has 602, and gives a player so much gold.
GAME_SECONDS, GAMES, PLAYERS, GOLD = 10, {"game.py": 0, "game.c": 602}, 300, 1000
GAME_LINE = r"steps (\d+), turns (\d+), late (\d+), losses (\d+), sent again (\d+), longest step (\d+) ms\n"
# For so many seconds the server is away once in a while. No step of a game may take as long as the bound in milliseconds.
AWAY_SECONDS, STEP_BOUND = 0.8, 600


def run_session(worldd: str) -> None:
    """The script answers as its file says."""
    script = (EXAMPLES / "session.txt").read_text()
    run = subprocess.run([worldd, "steps"], input=script, capture_output=True, text=True, timeout=SECONDS, check=True)
    compare("examples/session.txt", run.stdout, (EXAMPLES / "session.expected").read_text())


def run_block(worldd: str, page: str, block: Block, room: pathlib.Path) -> None:
    """Runs the commands of a block in one shell, each once the lines of the one before were printed."""
    room.mkdir()
    (room / "worldd").symlink_to(worldd)
    (room / "examples").symlink_to(EXAMPLES)
    (room / "clients").symlink_to(CLIENTS)
    environment, both = os.environ | {"PATH": f"{room}:{os.environ['PATH']}"}, subprocess.PIPE
    shell = subprocess.Popen(
        ["sh"], cwd=room, env=environment, stdin=both, stdout=both, stderr=QUIET, text=True, bufsize=1, start_new_session=True
    )
    watch = threading.Timer(SECONDS, os.killpg, (shell.pid, signal.SIGKILL))
    watch.start()
    try:
        for line in block.text.replace(PORT, str(free_port())).splitlines():
            if line.startswith("$ "):
                pipe(shell.stdin).write(line.removeprefix("$ ") + "\n")
            else:
                compare(f"{page}:{block.line}", pipe(shell.stdout).readline(), line + "\n")
        pipe(shell.stdin).close()
        compare(f"{page}:{block.line}", pipe(shell.stdout).read(), "")
        if shell.wait():
            raise Wrong(f"{page}:{block.line}: its last command fails")
    finally:
        watch.cancel()
        # What it started in the background has ended, unless something is wrong.
        with contextlib.suppress(ProcessLookupError):
            os.killpg(shell.pid, signal.SIGKILL)
        shell.wait()


@dataclasses.dataclass(frozen=True)
class Step:
    """A batch that a server of the trial's own expects, and its answer after so many seconds. None: it ends the connection."""

    batch: str
    answer: str | None
    seconds: float = 0


class Script:
    """A server that expects the steps of one connection after another."""

    def __init__(self, *connections: list[Step], path: pathlib.Path | None = None) -> None:
        self.connections, self.wrong, self.served = connections, "", 0
        if path:
            self.listener, self.address = socket.create_server(str(path), family=socket.AF_UNIX), str(path)
        else:
            self.listener = socket.create_server(("127.0.0.1", 0))
            self.address = str(self.listener.getsockname()[1])
        self.thread = threading.Thread(target=self.serve, daemon=True)
        self.thread.start()

    def serve(self) -> None:
        with self.listener, contextlib.suppress(ConnectionResetError):
            for steps in self.connections:
                with self.listener.accept()[0] as stream, stream.makefile("r") as lines:
                    for step in steps:
                        batch = ", ".join(line[:-1] for line in iter(lines.readline, "end\n") if line)
                        if batch != step.batch:
                            self.wrong = f"`{batch}` comes in place of `{step.batch}`"
                            return
                        time.sleep(step.seconds)
                        self.served += 1
                        if step.answer is None:
                            break
                        stream.sendall(f"{step.answer}\n".encode())

    def end(self) -> None:
        """Refuses a batch that wasn't expected, and connections that didn't come."""
        self.thread.join(SECONDS)
        if self.wrong or self.thread.is_alive():
            raise Wrong(self.wrong or "a connection or a batch doesn't come")


def try_reconnect(room: pathlib.Path) -> None:
    """The client in C plays a batch once on a connection that breaks, and prints what is known of it."""
    client = room / "client"
    subprocess.run([*IN_C, "-o", client, EXAMPLES / "client.c"], check=True)
    broken = [Step("get 1", "tick 1: =4"), Step("set 1 5, add 0 5", None)]
    ready = Step("", "tick 2:")
    lost = "the batch was played, and its answer is lost\n"
    for number, (steps, printed, status) in enumerate((
        ([Step("get 1", "tick 3: =4"), Step("set 1 5, add 0 5", "tick 4: + +")], "tick 4: +\n", 0),
        ([Step("get 1", "tick 3: =5")], lost, 0),
        ([Step("get 1", "fault 21")], "", 3),
    )):
        for path in (None, room / f"socket-{number}"):
            script = Script(broken, [ready, *steps], path=path)
            run = subprocess.run([client, script.address, "1", "5", "add 0 5"], capture_output=True, text=True, timeout=SECONDS)
            compare("examples/client.c", f"{run.stdout}status {run.returncode}\n", f"{printed}status {status}\n")
            script.end()


def try_mistakes(room: pathlib.Path) -> None:
    """Both clients refuse what is no port and no line."""
    in_c, in_python = room / "client", EXAMPLES / "client.py"
    ports, no_lines = ("0", "65536", "72928"), (["x", "1"], ["1", "x"], ["1", "0"], ["1", "1", "get 0 1"], ["1", "1", "set 1 2"])
    commands: list[Words] = [[in_c, port, "1", "1"] for port in ports]
    commands += [[in_c, PORT, *rest] for rest in no_lines]
    commands += [[sys.executable, in_python, port] for port in ports]
    for command in commands:
        run = subprocess.run(command, stderr=subprocess.DEVNULL, timeout=SECONDS)
        compare(" ".join(map(str, command)), f"status {run.returncode}\n", "status 2\n")


def serve(worldd: str, folder: pathlib.Path) -> subprocess.Popen[str]:
    """A server of a folder, at its file `socket`, once it listens."""
    command: Words = [worldd, "serve", "--dir", folder, *"--method zigzag --clients 100000 --socket".split(), folder / "socket"]
    server = subprocess.Popen(command, stdout=subprocess.PIPE, stderr=subprocess.DEVNULL, text=True)
    begun(server)
    return server


def lose(server: subprocess.Popen[str], games: list[subprocess.Popen[str]], way: int) -> None:
    """Kills the server of some games: at once; when it has turns that it hasn't played, for longer; or when it has played turns
    whose answers no game has seen."""
    if way:
        server.send_signal(signal.SIGSTOP)
        time.sleep(0.1)
    if way == 2:
        for game in games:
            game.send_signal(signal.SIGSTOP)
        server.send_signal(signal.SIGCONT)
        time.sleep(0.2)
    server.kill()
    server.communicate()
    for game in games:
        game.send_signal(signal.SIGCONT)
    time.sleep(AWAY_SECONDS if way == 1 else 0.1)


def try_games(worldd: str, room: pathlib.Path) -> None:
    """Both games play at once while their server is killed. Prints what they print."""
    folder, in_c = room / "games", room / "game"
    subprocess.run([*IN_C, "-o", in_c, EXAMPLES / "game.c"], check=True)
    create(worldd, folder, 1204)
    programs: dict[str, Words] = {"game.py": [sys.executable, EXAMPLES / "game.py"], "game.c": [in_c]}
    environment = os.environ | {"PYTHONPATH": str(CLIENTS / "python"), "PYTHONDONTWRITEBYTECODE": "1"}
    server, kills, end = serve(worldd, folder), 0, time.monotonic() + GAME_SECONDS - 1
    games = {}
    for name, first in GAMES.items():
        command: Words = [*programs[name], folder / "socket", str(GAME_SECONDS), str(first)]
        games[name] = subprocess.Popen(command, stdout=subprocess.PIPE, text=True, env=environment)
    try:
        # A game that begins late has its words before the first kill.
        time.sleep(2)
        while time.monotonic() < end:
            lose(server, list(games.values()), kills % 3)
            server, kills = serve(worldd, folder), kills + 1
            time.sleep(0.7)
        print(f"games: the server is killed {kills} times")
        if kills < 3:
            raise Wrong("the server wasn't killed in each way")
        for name, game in games.items():
            line = game.communicate(timeout=SECONDS)[0]
            if game.returncode or not (found := re.fullmatch(GAME_LINE, line)):
                raise Wrong(f"{name} ends with {game.returncode}, and prints {line}")
            steps, turns, late, losses, again, longest = map(int, found.groups())
            print(f"  {name}: {line}", end="")
            if not (0 < turns <= steps and late and losses and again):
                raise Wrong(f"{name} never met a turn, a late one, a lost connection or a turn that is sent again")
            if longest >= STEP_BOUND:
                raise Wrong(f"{name} waits for the server: a step takes {longest} ms")
            first = GAMES[name]
            with cektaulis.World(folder / "socket", SECONDS) as world:
                words = world.read(range(first, first + 2 + 2 * PLAYERS))
            if words[:2] != [turns, turns] or sum(words[2 + PLAYERS :]) != PLAYERS * GOLD:
                raise Wrong(f"{name} has played {turns} turns: the words are {words}")
    finally:
        for process in (server, *games.values()):
            process.kill()
            process.communicate()


def main() -> int:
    """Runs all examples."""
    worldd = parser_of(__doc__).parse_args().worldd
    blocks = [(page.name, block) for page in pages() for block in page.blocks if block.marker == "run"]

    def run() -> str:
        with tempfile.TemporaryDirectory(prefix="example-trial-") as folder:
            room = pathlib.Path(folder)
            run_session(worldd)
            for number, (page, block) in enumerate(blocks):
                run_block(worldd, page, block, room / str(number))
            try_reconnect(room)
            try_mistakes(room)
            try_games(worldd, room)
        return f"examples: the script, a lost connection, the games and {len(blocks)} blocks of commands do what their pages say"

    return status_of("example_trial", run)


if __name__ == "__main__":
    sys.exit(main())
