#!/usr/bin/env python3
"""Runs the built world_load against servers that answer rightly, wrongly or not at all, and compares what it reports.

    scripts/load_trial.py crates/world_load/out/world_load

A stand-in for worldd takes each client and gives prepared answers. Each run has its wanted error and exit status. It prints how
often each way to end was seen, and fails where a run ended otherwise, or where a way to end was never seen.
"""
import argparse
import pathlib
import re
import socket
import subprocess
import sys
import tempfile
import threading
import time
from collections.abc import Callable
from typing import BinaryIO

from trial import Runs, absolute

SECONDS = 60
LINES, TWO_BATCHES = 2, ("--batches", "2")
CELLS = 3
# What is printed in front of the waits, with its counts.
HEAD = r"(.*), (.*) a batch, \d+\.\d{3} s\n(.*), \d+ a second\n(.*), \d+ a second\nmilliseconds: p50 "
WRONG = "a wrong answer after tick "
CLOSED = "the server closed a connection: it has ended, or had no thread or memory for this client"
CUT_OFF = "the server closed a connection in the midst of an answer: "
REFUSED = "the server refused a batch: "
TOO_FEW_CELLS = f"the world has fewer than {CELLS} cells: --cells is to be at most that of `worldd create`"


# After the first of two answers that come so late, a second has passed.
PAUSE, PROGRESS = 0.7, "1 s: 1 tick, 1 of them since 0 s\n"


def counted(count: int, noun: str) -> str:
    """A count with its noun."""
    return f"{count} {noun}" + "s" * (count != 1)


class Server:
    """A stand-in for worldd on a port or on a socket, in its own thread."""

    def __init__(self, answers: "Answers", lines: int, path: pathlib.Path | None):
        if path is None:
            self.listener = socket.create_server(("127.0.0.1", 0))
            self.flags = ("--port", str(self.listener.getsockname()[1]))
        else:
            self.listener = socket.create_server(str(path), family=socket.AF_UNIX)
            self.flags = ("--socket", str(path))
        self.path = path
        self.lines = lines
        self.batches: list[list[bytes]] = []
        self.thread = threading.Thread(target=answers, args=(self,))
        self.thread.start()

    def read_batch(self, reader: BinaryIO) -> bool:
        """Reads a batch, and keeps its lines. False: the client has gone."""
        batch = [reader.readline() for _ in range(self.lines + 1)]
        self.batches.append(batch)
        return batch[-1] == b"end\n"

    def end(self) -> None:
        """Waits for the thread."""
        self.thread.join(SECONDS)
        self.listener.close()
        if self.path is not None:
            self.path.unlink()


# The work of a server.
Answers = Callable[[Server], None]


def giving(answers: tuple[str, ...], pause: float = 0) -> Answers:
    """A server's work: it takes a client, and answers its batches so, each after a pause."""

    def serve(server: Server) -> None:
        client, _ = server.listener.accept()
        with client, client.makefile("rb") as reader:
            for answer in answers:
                if not server.read_batch(reader):
                    return
                time.sleep(pause)
                client.sendall(answer.encode())

    return serve


def one_wrong(server: Server) -> None:
    """A server's work: the second client gets a wrong answer, the first one right ones until it goes."""
    right, _ = server.listener.accept()
    wrong, _ = server.listener.accept()
    with right, wrong, right.makefile("rb") as reader:
        wrong.sendall(b"no\n")
        tick = 0
        try:
            while server.read_batch(reader):
                tick += 1
                right.sendall(f"tick {tick}: + +\n".encode())
        except OSError:
            return


class Trial(Runs):
    """Runs against servers, of which those at a socket have this path, and what was seen of them."""

    def __init__(self, program: str, path: pathlib.Path):
        super().__init__(program)
        self.path = path

    def run(self, *words: str) -> subprocess.CompletedProcess[str]:
        """Runs the program with these words."""
        self.runs += 1
        return subprocess.run([self.program, *words], capture_output=True, text=True, timeout=SECONDS)

    def load(
        self, what: str, serve: Answers, want: str | int, kind: str, lines: int = LINES, more: tuple[str, ...] = TWO_BATCHES
    ) -> None:
        """Loads a server at a port and one at a socket."""
        for path in (None, self.path):
            self.load_at(path, what, serve, want, kind, lines, more)

    def load_at(
        self, path: pathlib.Path | None, what: str, serve: Answers, want: str | int, kind: str, lines: int, more: tuple[str, ...]
    ) -> None:
        """Loads a server, and compares the error, or what is printed of so many ticks where the load ends well."""
        server = Server(serve, lines, path)
        run = self.run(*server.flags, "--lines", str(lines), "--cells", str(CELLS), *more)
        server.end()
        self.seen[kind] += 1
        if isinstance(want, int):
            head = re.match(HEAD, run.stdout)
            counts = "1 connection", counted(lines, "line"), counted(want, "tick"), counted(want * lines, "action")
            self.check(what, (head and head.groups(), run.returncode), (counts, 0))
            self.check(f"{what}: its progress", run.stderr, PROGRESS if kind == "slow" else "")
            for batch in server.batches:
                cells = [re.fullmatch(rb"set (\d+) \d+\n", line) for line in batch[:-1]]
                self.check(f"{what}: a batch", [bool(cell and int(cell[1]) < CELLS) for cell in cells], [True] * lines)
        else:
            self.check(what, (run.stdout, run.stderr, run.returncode), ("", f"error: {want}\n", 1))


def try_answers(trial: Trial) -> None:
    """Answers that are right, wrong, cut off, or refusals."""
    tries: tuple[tuple[tuple[str, ...], str | int, str], ...] = (
        (("tick 1: + +\n", "tick 5: + +\n"), 2, "right"),
        (("tick 2: + +\n", "tick 2: + +\n"), f"{WRONG}2: tick 2: + +", "wrong"),
        (("tick 0: + +\n",), f"{WRONG}0: tick 0: + +", "wrong"),
        (("tick 1: +\n",), f"{WRONG}0: tick 1: +", "wrong"),
        (("tick 1: + -12\n",), f"{WRONG}0: tick 1: + -12", "wrong"),
        (("tick 01: + +\n",), f"{WRONG}0: tick 01: + +", "wrong"),
        (("fault 99\n",), f"{WRONG}0: fault 99", "wrong"),
        (("\x1b[31m\n",), f"{WRONG}0: \\u{{1b}}[31m", "wrong"),
        (("\x1b[31m",), f"{CUT_OFF}\\u{{1b}}[31m", "cut off"),
        (("fault 12\n",), f"{REFUSED}the log can't be written since the device failed: restart", "refused"),
        (("tick 1: + +\n", "fault 17\n"), f"{REFUSED}there is no memory left", "refused"),
        (("tick 1: + -1\n",), TOO_FEW_CELLS, "too few cells"),
        ((), CLOSED, "closed"),
        (("tick 1: + +\n", ""), CLOSED, "closed"),
        (("tick 1: +",), f"{CUT_OFF}tick 1: +", "cut off"),
        (("tick 1: + +",), f"{CUT_OFF}tick 1: + +", "cut off"),
    )
    for answers, want, kind in tries:
        trial.load(f"answers {answers}", giving(answers), want, kind)
    trial.load("batches without lines", giving(("tick 1:\n", "tick 2:\n")), 2, "right", lines=0)
    trial.load("one batch of a line", giving(("tick 1: +\n",)), 1, "right", lines=1, more=("--batches", "1"))
    trial.load("slow answers", giving(("tick 1: + +\n", "tick 2: + +\n"), PAUSE), 2, "slow")
    trial.load("one client of two", one_wrong, f"{WRONG}0: no", "wrong", more=("--connections", "2", "--seconds", "86400"))


def try_no_server(trial: Trial) -> None:
    """A port on which nobody listens, and a socket that isn't there."""
    with socket.create_server(("127.0.0.1", 0)) as listener:
        port = listener.getsockname()[1]
    run = trial.run("--port", str(port))
    want = f"error: can't connect to port {port} of 127.0.0.1: Connection refused (os error 111)\n"
    trial.check("no server", (run.stdout, run.stderr, run.returncode), ("", want, 1))
    trial.seen["no server"] += 1
    for path, shown in ((str(trial.path), str(trial.path)), (f"{trial.path}\x1b[31m", f"{trial.path}\\u{{1b}}[31m")):
        run = trial.run("--socket", path)
        want = f"error: can't connect to {shown}: No such file or directory (os error 2)\n"
        trial.check("no socket", (run.stdout, run.stderr, run.returncode), ("", want, 1))
        trial.seen["no server"] += 1


def try_command_lines(trial: Trial) -> None:
    """Wrong command lines, and the defaults that help shows."""
    for words in ("", "--port 0", "--port 7070 --socket s", "--port 7070 --lines 257", "--socket s --connections 0"):
        run = trial.run(*words.split())
        trial.check(f"world_load {words}", (run.stdout, run.returncode), ("", 2))
        trial.seen["mistaken"] += 1
    run = trial.run("--help")
    for flag, default in (("--connections <K>", "1"), ("--lines <L>", "1"), ("--cells <N>", "1"), ("--seconds <S>", "10")):
        found = re.search(rf"{flag}.*\[default: (\d+)\]", run.stdout)
        trial.check(f"the default of {flag}", found and found[1], default)
    trial.check("world_load --help", (run.stderr, run.returncode), ("", 0))
    trial.seen["help"] += 1


def main() -> int:
    """Runs all, and prints what was seen."""
    parser = argparse.ArgumentParser(description=__doc__.splitlines()[0])
    parser.add_argument("program", type=absolute, help="the built world_load")
    program = parser.parse_args().program
    with tempfile.TemporaryDirectory(prefix="load-trial-") as folder:
        trial = Trial(program, pathlib.Path(folder) / "socket")
        for part in (try_answers, try_no_server, try_command_lines):
            part(trial)
    kinds = ("right", "slow", "wrong", "refused", "too few cells", "closed", "cut off", "no server", "mistaken", "help")
    print("  " + ", ".join(f"{kind}: {trial.seen[kind]}" for kind in kinds))
    return trial.status("load", kinds)


if __name__ == "__main__":
    sys.exit(main())
