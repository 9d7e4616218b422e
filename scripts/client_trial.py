#!/usr/bin/env python3
"""Tries the clients of clients/ in Python, C and Rust on a serving worldd, and on its own servers that answer badly.

    scripts/client_trial.py crates/worldd/out/worldd
    scripts/client_trial.py WORLDD --kills 200

Each client meets each code and each limit, over a port and over a socket. Its server is killed before a connection, before a
batch, while a batch is on its way, in the midst of an answer and after one. It sends 1,000 batches before it receives an answer,
plays 5,000 random lines that a plain model answers too, and reads and loads cells over lost connections. The client in Python is
run at a pseudo-terminal.
Then two clients count and two trade while the server is killed again and again. Each batch of `play_once` has to count once. The
trial prints how often it met what, and fails if anything was never met. It needs a C compiler, as cc. It compiles the header by
each of gcc, g++, clang and clang++ that is there, builds the package with flit_core, and leaves Rust out without rustc.
"""
import argparse
import collections
import concurrent.futures
import contextlib
import dataclasses
import functools
import importlib.util
import itertools
import os
import pathlib
import pty
import random
import re
import select
import shutil
import signal
import socket
import subprocess
import sys
import tempfile
import threading
import time
import zipfile
from collections.abc import Callable, Sequence
from typing import Any, TypeVar

from check_docs import python_version
from client_players import (
    ACTION_REFUSED, ANSWER_LOST, BAD_ACTION, BAD_ADDRESS, GARBLED, MARKER_REFUSED, NONE, NOT_CONNECTED, SECONDS, TOO_LARGE,
    UNANSWERED, CPlayer, Player, PythonPlayer, RustPlayer, build_players, compile_header, lessen_buffers,
)
from example_trial import Script, Step
from kill_trial import Request, answer as answer_of_model
from map import TOP
from trial import PORT, QUIET, TRANSPORTS, Words, Wrong
from trial import all_met, ask, begun, create, found_in_text, free_port, parser_of, pipe, status_of

import cektaulis
from cektaulis import Action, Add, Cap, Get, Move, Set, Swap, Unanswered

# How long a client waits that is to see a silent server.
SHORT = 0.3
# How long one waits that is to see a silent server and to be answered by another one.
TURN = 2
# How long a call tries that is to give up. A server of the trial's own answers meanwhile: on a busy system the next bound holds.
BOUNDS = 1, 5, 20
# How long each client's server is killed again and again, unless `--kills` says how often. On a busy system it is killed for
# longer, until batches have come to each end.
KILLING_SECONDS, MOST_KILLING_SECONDS = 5, 60
AHEAD = 1000
MODEL_LINES = 5000
OWN = 0
LIMIT = cektaulis.LIMIT
KEPT, MODEL = "answers kept over a loss", "lines as the model"
ELSEWHERE = "found at another address", "left a silent address", "left a silent server for one that serves"
WANTED = (
    *(f"refusal {refusal.code}" for refusal in cektaulis.Refusal),
    *(f"fault {fault.code}" for fault in cektaulis.Fault),
    *("done", "value", UNANSWERED, NOT_CONNECTED, GARBLED, TOO_LARGE, "played", "not played"),
    *(ANSWER_LOST, MARKER_REFUSED, BAD_ADDRESS, BAD_ACTION, NONE, ACTION_REFUSED, KEPT, MODEL, *ELSEWHERE),
)
# How a batch of `play_once` came to its end while the server was killed.
ANSWERED, ANSWERED_LATER = "answered", "answered after a loss"
ENDS = (ANSWERED, ANSWERED_LATER, ANSWER_LOST)
# The clients that are killed have a marker each, from cell 0 on. Two count in a cell. Two trade, by a purse each, with one shop.
COUNTERS, TRADERS = (0, 1), (2, 3)
COUNT, SHOP, PURSES = 4, 5, {2: 6, 3: 7}
GOLD = 10**9


Refusing = TypeVar("Refusing", bound=Exception)


class World:
    """A world with the server that serves it, and how often each kind of answer was met."""

    # It is there once the world is served.
    server: subprocess.Popen[str]

    def __init__(self, worldd: str, room: pathlib.Path, transport: str, cells: int) -> None:
        self.worldd, self.room, self.transport = worldd, room, transport
        self.met: collections.Counter[str] = collections.Counter()
        # The address stays, so that a client finds the server again.
        self.address = str(free_port() if transport == PORT else room / "socket")
        create(worldd, room, cells)

    def serve(self, address: str | None = None, room: pathlib.Path | None = None) -> None:
        """Starts the server, at its address and in its folder unless it gets others."""
        flags = [f"--{self.transport}", address or self.address, "--clients", "1000", "--every", "8", "--method", "zigzag"]
        command: Words = [self.worldd, "serve", "--dir", room or self.room, *flags]
        self.server = subprocess.Popen(command, stdout=subprocess.PIPE, stderr=subprocess.DEVNULL, text=True)
        begun(self.server)

    def kill(self) -> None:
        """Kills the server, running or held, unless it was killed."""
        if pipe(self.server.stdout).closed:
            return
        self.server.kill()
        self.server.communicate()

    def hold(self) -> None:
        """Stops the server, and waits until all of its threads stand."""
        self.server.send_signal(signal.SIGSTOP)
        os.waitid(os.P_PID, self.server.pid, os.WSTOPPED)


class Trial(World):
    """The tries of one client."""

    def __init__(self, player: Player, worldd: str, room: pathlib.Path, transport: str, cells: int = 4) -> None:
        super().__init__(worldd, room, transport, cells)
        self.player = player

    def note(self, got: str) -> str:
        """Counts what an answer has."""
        for word in got.replace("(", " (").split(" "):
            if word.startswith("-") and word[1:].isdigit():
                self.met[f"refusal {word[1:]}"] += 1
            elif word.startswith("="):
                self.met["value"] += 1
            elif word == "+":
                self.met["done"] += 1
        kinds = {"yes": "played", "no": "not played"}
        self.met[kinds.get(got, got.partition(":")[0])] += 1
        return got

    def expect(self, got: str, wanted: str) -> None:
        """Counts an answer, and refuses one that differs."""
        if self.note(got) != wanted:
            raise Wrong(f"{type(self.player).__name__} answers `{got}` in place of `{wanted}`")

    def play(self, *batch: Action) -> str:
        """What came of a batch."""
        sent = self.player.send(list(batch))
        return self.player.receive(len(batch)) if sent == "ok" else sent

    def open(self, address: str | None = None, seconds: float = SECONDS) -> None:
        """Connects, which has to go well."""
        self.expect(self.player.open(address or self.address, seconds), "ok")

    def expect_later(self, call: Callable[[], str], wanted: str, event: Callable[[], None]) -> None:
        """Expects an answer of a call that doesn't wait once something was done, and none before it."""
        self.expect(call(), NONE)
        event()
        deadline = time.monotonic() + SECONDS
        while (got := call()) == NONE and time.monotonic() < deadline:
            time.sleep(0.001)
        self.expect(re.sub(r"tick \d+:", "tick:", got), wanted)


def text_of_refusal(code: int) -> str:
    """A refusal with its text, as docs/CLIENT.md has it."""
    return f"-{code}({TEXTS[code]})"


def texts_of_page() -> dict[int, str]:
    """The texts of the tables of docs/CLIENT.md: of refusals by their codes, of faults by their codes below 0."""
    texts: dict[int, str] = {}
    for line in (TOP / "docs" / "CLIENT.md").read_text().splitlines():
        cells = [cell.strip() for cell in line.strip("|").split("|")]
        if line.startswith("| ") and cells[0].isdigit():
            code = -int(cells[0]) if len(cells) == 3 else int(cells[0])
            texts[code] = cells[1]
    return texts


TEXTS = texts_of_page()
# Where the client in Python runs as a program.
BY_HAND = os.environ | {"PYTHONPATH": str(TOP / "clients" / "python"), "PYTHONDONTWRITEBYTECODE": "1", "TERM": "vt100"}


def try_codes(trial: Trial) -> None:
    """Each refusal that a world of four cells gives, and its greatest numbers."""
    trial.open()
    trial.expect(trial.play(Set(0, 5), Get(0), Move(0, 1, 2), Swap(0, 1), Cap(1, 1), Get(1)), "tick 1: + =5 + + + =1")
    refused = Get(4), Set(0, LIMIT + 1), Add(0, -9), Move(2, 2, 0), Set(2**32 - 1, 0), Set(0, 2**64 - 1), Add(0, 1 - 2**63)
    words = " ".join(map(text_of_refusal, (1, 2, 3, 4, 1, 2, 2)))
    trial.expect(trial.play(*refused), f"tick 2: {words}")
    trial.expect(trial.play(Set(3, LIMIT), Get(3), Add(3, 1)), f"tick 3: + ={LIMIT} {text_of_refusal(3)}")
    trial.expect(trial.play(), "tick 4:")


def try_limits(trial: Trial) -> None:
    """The longest batches are played, and longer ones aren't sent."""
    trial.open()
    trial.expect(trial.play(*[Get(2)] * 1024), "tick 5:" + " =0" * 1024)
    trial.expect(trial.play(*[Add(2, 1)] * 256, Get(2)), "tick 6:" + " +" * 256 + " =256")
    trial.expect(trial.play(*[Get(2)] * 1025), TOO_LARGE)
    trial.expect(trial.play(*[Add(2, 1)] * 257), TOO_LARGE)
    trial.expect(trial.play(Get(2)), "tick 7: =256")
    lengths = [(600, 0, 256), (0, 2000, 1024), (256, 900, 1024), (100, 100, 200)]
    for sets, gets, wanted in lengths:
        actions: list[Action] = [Set(0, 1)] * sets
        actions += [Get(0)] * gets
        if trial.player.batch(actions) != wanted:
            raise Wrong(f"{sets} sets and {gets} gets make another batch than one of {wanted}")


def try_pipeline(trial: Trial) -> None:
    """Batches that are sent one after the other are answered in order."""
    trial.open()
    for _ in range(20):
        trial.expect(trial.player.send([Add(3, -1), Get(3)]), "ok")
    for number in range(20):
        trial.expect(trial.player.receive(2), f"tick {8 + number}: + ={LIMIT - 1 - number}")


def try_model(trial: Trial, chance: random.Random) -> None:
    """Random lines are answered as by a plain model."""
    trial.open()
    words, lines = [10, 20, 30, 40], 0
    trial.expect(trial.play(*itertools.starmap(Set, enumerate(words))).partition(":")[2], " +" * 4)
    while lines < MODEL_LINES:
        batch = [random_action(chance) for _ in range(chance.choice((1, 3, 20, 256)))]
        line = answer_of_model(words, tuple(map(request_of, batch)), 0)
        line = re.sub(r" -(\d+)", lambda found: f" {text_of_refusal(int(found[1]))}", line)
        trial.expect(trial.play(*batch).partition(":")[2], line.partition(":")[2])
        lines += len(batch)
        trial.met[MODEL] += len(batch)


def request_of(action: Action) -> Request:
    """An action for the plain model."""
    kind, *numbers = str(action).split()
    return kind, *map(int, numbers)


def random_action(chance: random.Random) -> Action:
    """An action on a world of four cells, which may be refused."""
    cell, other = chance.choices((0, 1, 2, 3, 4), (30, 30, 30, 30, 1), k=2)
    amount = chance.choice((0, 1, 7, 50, 1000, LIMIT - 30, LIMIT, LIMIT + 1, 2**63 - 1))
    kinds: list[Action] = [Set(cell, amount), Add(cell, chance.choice((1, -1)) * amount), Move(cell, other, amount)]
    kinds += [Swap(cell, other), Move(cell, other, amount % 100), Add(cell, -(amount % 60)), Cap(cell, amount), Get(cell)]
    return chance.choice(kinds)


def try_polls(trial: Trial) -> None:
    """Calls that don't wait: for an answer, and for a server that comes back."""
    player = trial.player
    trial.open()
    trial.expect(trial.play(Set(1, 5)).partition(":")[2], " +")
    trial.hold()
    trial.expect(player.send([Add(1, 1), Get(1)]), "ok")
    trial.expect(player.poll(2), NONE)
    trial.expect_later(lambda: player.poll(2), "tick: + =6", lambda: trial.server.send_signal(signal.SIGCONT))
    trial.hold()
    trial.expect(player.send([Get(1)]), "ok")
    trial.expect(player.poll(1), NONE)
    trial.expect_later(lambda: player.poll(1), UNANSWERED, trial.kill)
    trial.expect_later(player.step, "ok", trial.serve)
    trial.expect(trial.play(Get(1)).partition(":")[2], " =6")


def try_kept(trial: Trial) -> None:
    """Answers that came before the connection broke are received after `reconnect`, and before later ones. A call that plays
    a batch meanwhile returns its own answer."""
    added, got, played, again, later = "tick 1: +", "tick 2: =1", "tick 3: =1", "tick 4: +", "tick 5: =1"
    before = Step("add 1 1", added), Step("get 1", got)
    after = Step("get 1", played), Step("set 1 1", again), Step("get 1", later)
    for last in (Step("get 2", None), Step("get 2", "fault 12")):
        script = Script([*before, last], [LOST_PROBE], [READY, *after])
        trial.open(script.address)
        actions: tuple[Action, ...] = Add(1, 1), Get(1), Get(2)
        for action in actions:
            trial.expect(trial.player.send([action]), "ok")
        deadline = time.monotonic() + SECONDS
        while script.served < 3 and time.monotonic() < deadline:
            time.sleep(0.001)
        # The last answer may be on its way.
        time.sleep(0.05)
        trial.expect(trial.player.reconnect(SECONDS), "ok")
        trial.expect(trial.player.play([Get(1)]), played)
        trial.expect(trial.player.again(SECONDS, [Set(1, 1)]), again)
        trial.expect(trial.player.send([Get(1)]), "ok")
        for answer in (added, got, later):
            trial.expect(trial.player.receive(1), answer)
        trial.met[KEPT] += 2
        script.end()


def lost(step: Step) -> Step:
    """A step whose answer is lost."""
    return dataclasses.replace(step, answer=None)


def try_bulk(trial: Trial) -> None:
    """Many cells are set and read, over lost connections and refusals that pass."""
    words = [number * 7 for number in range(1100)]
    sets = [[str(Set(cell, words[cell])) for cell in range(it, min(it + 256, 600))] for it in range(0, 600, 256)]
    gets = [[str(Get(cell)) for cell in range(it, min(it + 1024, 1100))] for it in (0, 1024)]
    set_steps = [Step(", ".join(it), f"tick 1:{' +' * len(it)}") for it in sets]
    read_steps = [Step(", ".join(it), "tick 2:" + "".join(f" ={7 * int(line[4:])}" for line in it)) for it in gets]
    full = dataclasses.replace(set_steps[2], answer="fault 6")
    script = Script(
        [set_steps[0], lost(set_steps[1])],
        [READY, set_steps[1], full, set_steps[2], lost(read_steps[0])],
        [LOST_PROBE],
        [READY, *read_steps, Step("set 9 1", "tick 3: -1"), Step("get 9", "tick 3: -1"), Step("set 1 5", "tick 4: +")],
    )
    trial.open(script.address)
    trial.expect(trial.player.load(0, words[:600]), "ok")
    if trial.player.read(list(range(1100))) != " ".join(map(str, words)):
        raise Wrong("a long read gives other words")
    trial.expect(trial.player.load(9, [1]), f"{ACTION_REFUSED}: {TEXTS[1]}")
    trial.expect(trial.player.read([9]), f"{ACTION_REFUSED}: {TEXTS[1]}")
    trial.expect(trial.player.again(SECONDS, [Add(1, 1)]), BAD_ACTION)
    trial.expect(trial.player.again(SECONDS, [Set(1, 5)]), "tick 4: +")
    script.end()


def answering(trial: Trial, answers: list[bytes]) -> None:
    """Connects to a server of the trial's own, which answers a batch by each of these and then closes the connection."""
    listener = socket.create_server(("127.0.0.1", 0))

    def serve() -> None:
        with listener, listener.accept()[0] as stream, stream.makefile("rb") as lines:
            for answer in answers:
                while lines.readline() not in (b"end\n", b""):
                    pass
                stream.sendall(answer)

    threading.Thread(target=serve, daemon=True).start()
    trial.open(str(listener.getsockname()[1]))


def try_answers(trial: Trial) -> None:
    """What a server of the trial's own answers, among it what a worldd would never send."""
    codes = [code for code in TEXTS if code > 0]
    answering(trial, [f"tick 1: -{code}\n".encode() for code in codes])
    for code in codes:
        trial.expect(trial.play(Get(0)), f"tick 1: {text_of_refusal(code)}")
    longest = f"tick {10**18}:" + f" ={LIMIT}" * cektaulis.BATCH_LINES
    if f"{len(longest) + 1:,} bytes" not in (TOP / "docs" / "CLIENT.md").read_text():
        raise Wrong(f"the page doesn't say that an answer has at most {len(longest) + 1:,} bytes")
    answering(trial, [f"{longest}\n".encode()])
    trial.expect(trial.play(*[Get(0)] * cektaulis.BATCH_LINES), longest)
    faults = [fault.code for fault in cektaulis.Fault]
    for code in faults:
        answering(trial, [f"fault {code}\n".encode()])
        trial.expect(trial.play(Get(0)), f"fault {code}: {TEXTS[-code]}")
    garbled = b"hello\n", b"tick 1: + +\n", b"tick 1:\n", b"tick x: +\n", b"tick 1: -7\n", b"fault 5\n", b"tick 1: =\n"
    for answer in (*garbled, b"tick 1: x\n", b"tick 1:" + b" " * 70_000):
        answering(trial, [answer])
        trial.expect(trial.play(Get(0)), GARBLED)
        trial.expect(trial.player.send([Get(0)]), NOT_CONNECTED)
    for half in (b"", b"t", b"tick", b"tick 1: ", b"tick 1: +", b"tick 1: =12", b"fault ", b"fault 12"):
        answering(trial, [half])
        trial.expect(trial.play(Get(0)), UNANSWERED)


def try_kills(trial: Trial) -> None:
    """The server is killed at each point of a conversation."""
    trial.open()
    trial.kill()
    trial.expect(trial.play(Set(OWN, 1)), UNANSWERED)
    trial.expect(trial.player.open(trial.address, SECONDS), NOT_CONNECTED)
    trial.expect(trial.player.open(str(trial.room / "none"), SECONDS), NOT_CONNECTED)
    trial.serve()
    trial.open()
    # A server that is held has the batch, and is killed before it plays it.
    trial.expect(trial.play(Set(OWN, 100)).partition(":")[2], " +")
    trial.hold()
    trial.expect(trial.player.send([Set(OWN, 101)]), "ok")
    trial.kill()
    trial.expect(trial.player.receive(1), UNANSWERED)
    trial.serve()
    trial.expect(trial.player.reconnect(SECONDS), "ok")
    trial.expect(trial.player.played(OWN, 101), "no")
    trial.expect(trial.player.played(OWN, 100), "yes")
    try_silence(trial)


def try_silence(trial: Trial) -> None:
    """A batch of a server that is silent for too long is played later."""
    trial.open(seconds=SHORT)
    trial.hold()
    trial.expect(trial.play(Set(OWN, 102)), UNANSWERED)
    trial.server.send_signal(signal.SIGCONT)
    trial.expect(trial.player.reconnect(SECONDS), "ok")
    deadline = time.monotonic() + SECONDS
    while trial.note(trial.player.played(OWN, 102)) != "yes":
        if time.monotonic() > deadline:
            raise Wrong("a batch that had arrived wasn't played")


def try_addresses(trial: Trial) -> None:
    """Of several addresses a client finds the one that serves. It leaves one that is silent."""
    other = str(free_port() if trial.transport == PORT else trial.room / "other")
    trial.expect(trial.player.open_any([other, trial.address], SECONDS), "ok")
    trial.expect(trial.play(Set(OWN, 400)).partition(":")[2], " +")
    trial.kill()
    trial.serve(other)
    trial.expect(trial.play(Get(OWN)), UNANSWERED)
    trial.expect(trial.player.reconnect(SECONDS), "ok")
    trial.expect(trial.play(Get(OWN)).partition(":")[2], " =400")
    trial.met[ELSEWHERE[0]] += 1
    with contextlib.closing(silent_at(trial)):
        trial.kill()
        trial.serve(other)
        trial.expect(trial.player.open_any([trial.address, other], TURN), "ok")
        trial.expect(trial.play(Get(OWN)), UNANSWERED)
        trial.expect(trial.player.reconnect(SECONDS), "ok")
        trial.expect(trial.play(Get(OWN)).partition(":")[2], " =400")
        trial.met[ELSEWHERE[1]] += 1
    trial.kill()
    pathlib.Path(trial.address).unlink(missing_ok=True)
    trial.serve()
    try_silent_server(trial, other)


def silent_at(world: World) -> socket.socket:
    """A server at the address of a world that never answers."""
    if world.transport == PORT:
        return socket.create_server(("127.0.0.1", int(world.address)))
    pathlib.Path(world.address).unlink(missing_ok=True)
    return socket.create_server(world.address, family=socket.AF_UNIX)


def try_silent_server(trial: Trial, other: str) -> None:
    """A server is held. Another one serves a copy of its world, and gets the batch."""
    trial.expect(trial.player.open_any([trial.address, other], TURN), "ok")
    trial.expect(trial.player.once(OWN, 401, SECONDS, [Set(1, 5)]).partition(":")[2], " +")
    trial.hold()
    held, copy = trial.server, trial.room.with_suffix(".copy")
    copy.mkdir()
    ask(trial.worldd, "backup", trial.room, "--to", str(copy))
    late = threading.Timer(TURN / 2, trial.serve, [other, copy])
    late.start()
    trial.expect(trial.player.once(OWN, 402, SECONDS, [Add(1, 1), Get(1)]).partition(":")[2], " + =6")
    late.join()
    trial.met[ELSEWHERE[2]] += 1
    held.kill()
    held.communicate()
    trial.kill()
    trial.serve()


def try_ahead(trial: Trial) -> None:
    """A client sends many batches before it receives an answer, with the smallest buffers: to worldd, and to a server of the
    trial's own whose buffers are the smallest too."""
    trial.open()
    trial.expect(trial.play(Set(2, LIMIT)).partition(":")[2], " +")
    play_ahead(trial)
    listener = socket.create_server(("127.0.0.1", 0))
    if trial.transport != PORT:
        listener = socket.create_server(str(trial.room / "small"), family=socket.AF_UNIX)
    threading.Thread(target=answer_slowly, args=(listener,), daemon=True).start()
    address = listener.getsockname()
    trial.open(str(address[1]) if trial.transport == PORT else address)
    play_ahead(trial)


def play_ahead(trial: Trial) -> None:
    """Sends batches that read, and then receives their answers."""
    trial.player.lessen_buffers()
    for _ in range(AHEAD):
        trial.expect(trial.player.send([Get(2)] * 4), "ok")
    for _ in range(AHEAD):
        trial.expect(trial.player.receive(4).partition(":")[2], f" ={LIMIT}" * 4)


def answer_slowly(listener: socket.socket) -> None:
    """A server's work: it answers batches of four reads, and reads no more while an answer can't be written."""
    lessen_buffers(listener)
    with contextlib.suppress(ConnectionError), listener, listener.accept()[0] as stream:
        lessen_buffers(stream)
        with stream.makefile("r") as lines:
            for line in lines:
                if line == "end\n":
                    stream.sendall(b"tick 1:" + f" ={LIMIT}".encode() * 4 + b"\n")


def try_mistakes(trial: Trial) -> None:
    """What is no address, no action, no batch or no marker is refused, and nothing is sent."""
    for address in ("0", "65536", "72928", "9" * 30, "x" * 108):
        trial.expect(trial.player.open(address, SECONDS), BAD_ADDRESS)
    trial.open()
    trial.expect(trial.play(Set(OWN, 200), Set(1, 0)).partition(":")[2], " + +")
    trial.expect(trial.player.no_action(), BAD_ACTION)
    actions: tuple[Action, ...] = Set(OWN, 1), Swap(1, OWN), Move(OWN, 1, 1)
    mistakes: list[tuple[int, Action]] = [(0, Get(1)), (LIMIT + 1, Get(1)), *((201, action) for action in actions)]
    for number, action in mistakes:
        trial.expect(trial.player.once(OWN, number, SECONDS, [action]), BAD_ACTION)
    trial.expect(trial.player.once(OWN, 201, SECONDS, [Add(1, 1)] * 256), TOO_LARGE)
    trial.expect(trial.player.once(OWN, 199, SECONDS, [Add(1, 1)]), MARKER_REFUSED)
    trial.expect(trial.player.once(OWN, 200, SECONDS, [Add(1, 1)]), ANSWER_LOST)
    trial.expect(trial.player.once(4, 1, SECONDS, [Add(1, 1)]), MARKER_REFUSED)
    trial.expect(trial.player.played(4, 1), MARKER_REFUSED)
    for number in (0, LIMIT + 1):
        trial.expect(trial.player.played(OWN, number), BAD_ACTION)
    trial.expect(trial.player.once(OWN, 201, SECONDS, [Get(1)]).partition(":")[2], " =0")


def try_python_mistakes(world: cektaulis.World) -> None:
    """What the client in Python refuses, as its types can't."""
    # The types forbid such calls.
    it: Any = world
    no_batch: Any = ["get 0"]
    calls: list[Callable[[], object]] = [
        lambda: it.play("end"),
        lambda: it.play([Set(0, 1)]),
        lambda: it.send(None),
        lambda: list(it.play_all(["set 0 1"])),
        lambda: it.play_again("get 0"),
        lambda: it.play_once(OWN, 10**9, (Get(0),)),
        lambda: cektaulis.does_no_harm_twice(no_batch),
    ]
    for call in calls:
        refuses(TypeError, call)
    addresses: tuple[int | str, ...] = 0, 65536, 72928, "72928", ""
    for address in addresses:
        refuses(ValueError, functools.partial(cektaulis.World, address))
    refuses(ValueError, lambda: cektaulis.World("7070", timeout=0))


def run_by_hand(trial: Trial, *flags: str, given: pathlib.Path = pathlib.Path("/dev/null")) -> str:
    """What the client in Python prints and reports, run as a program."""
    command = [sys.executable, "-m", "cektaulis", trial.address, *flags]
    with given.open() as file:
        run = subprocess.run(command, env=BY_HAND, stdin=file, capture_output=True, text=True, timeout=SECONDS)
    return run.stdout + run.stderr + f"status {run.returncode}"


def try_files(trial: Trial) -> None:
    """The client in Python plays a file of batches, and dumps and loads cells."""
    trial.open()
    trial.expect(trial.play(Set(1, 7), Set(2, 8)).partition(":")[2], " + +")
    path, words = trial.room / "batches", trial.room / "words"
    path.write_bytes(b"set 1 7\r\nadd 1 1\r\nget 1\r\nend\r\nget 9\nend\nadd 1 1\n")
    want = f"tick\n  set 1 7: done\n  add 1 1: done\n  get 1: 8\ntick\n  get 9: refused: {TEXTS[1]}\n"
    for name in (str(path), "-"):
        got = re.sub(r"tick \d+", "tick", run_by_hand(trial, "--file", name, given=path))
        if got != f"{want}cektaulis: {name}: its last lines have no `end`, and weren't played\nstatus 1":
            raise Wrong(f"a file of batches prints {got}")
    for flag, done in (("--dump", "dumped"), ("--load", "loaded"), ("--dump", "dumped")):
        if (got := run_by_hand(trial, flag, str(words))) != f"{done} 4 of 4 cells\nstatus 0":
            raise Wrong(f"{flag} prints {got}")
        held = words.read_text().split()
        if held[1:3] != ["8", "8"] or len(held) != 4:
            raise Wrong(f"{flag}: the words are {held}")
    words.write_text("1\n" * 5)
    if "`set 4 1` is refused" not in run_by_hand(trial, "--load", str(words)):
        raise Wrong("a load of more words than cells isn't refused")


def try_prompt(trial: Trial) -> None:
    """The client in Python plays lines at a terminal, keeps a history, and survives a kill."""
    terminal, end = pty.openpty()
    command = [sys.executable, "-m", "cektaulis", trial.address]
    process = subprocess.Popen(command, env=BY_HAND, stdin=end, stdout=end, stderr=end)
    os.close(end)

    def read_to(*wanted: str) -> None:
        """Reads until each text has come after the one before."""
        got, deadline = "", time.monotonic() + SECONDS
        while not re.search(".*".join(map(re.escape, wanted)), got, re.DOTALL):
            if time.monotonic() > deadline or not select.select([terminal], [], [], SECONDS)[0]:
                raise Wrong(f"the prompt prints {got!r} in place of {wanted}")
            got += os.read(terminal, 4096).decode("ascii", "replace")

    try:
        read_to("> ")
        os.write(terminal, b"set 1 5, add 1 1, get 1, move 1 1 1\r\n")
        read_to("get 1: 6", f"refused: {TEXTS[4]}", "> ")
        os.write(terminal, b"begin\r\nadd 1 1, add 1 1\r\n")
        read_to(". ", ". ")
        os.write(terminal, b"foo\nget 1\nend\n")
        read_to("this line isn't in the batch", "get 1: 8", "> ")
        os.write(terminal, b"foo\n")
        read_to("`foo` is no action", "> ")
        if importlib.util.find_spec("readline"):
            os.write(terminal, b"\x1b[A" * 7 + b"\n")
            read_to("get 1: 6", "> ")
        else:
            print("client_trial: this Python has no readline, so the history isn't tried")
        trial.kill()
        trial.serve()
        os.write(terminal, b"get 1\n")
        read_to("nobody knows", "connected again", "> ")
        os.write(terminal, b"get 1\n")
        read_to("get 1: 6", "> ")
        os.write(terminal, b"\x04")
        if process.wait(SECONDS):
            raise Wrong(f"the prompt ends with status {process.returncode}")
    finally:
        process.kill()
        process.wait()
        os.close(terminal)


def refuses(kind: type[Refusing], call: Callable[[], object]) -> Refusing:
    """What a call raises, which has to be of this kind."""
    try:
        got = call()
    except kind as error:
        return error
    raise Wrong(f"{got!r} comes of a call that has to raise {kind.__name__}")


# What a server of the trial's own is asked for, connection by connection, and what has to come of it.
Try = tuple[str, list[list[Step]]]
LOOK, PROBE, BATCH = "get 0", "", "set 0 5, add 1 1"
NO, YES, READY, PLAYED = Step(LOOK, "tick 1: =4"), Step(LOOK, "tick 4: =5"), Step(PROBE, "tick 2:"), Step(BATCH, "tick 3: + +")
LOST, LOST_LOOK, LOST_PROBE = Step(BATCH, None), Step(LOOK, None), Step(PROBE, None)
FULL, DOWN = Step(BATCH, "fault 6"), Step(BATCH, "fault 12")


def try_once(trial: Trial) -> None:
    """Each way of a batch that is to be played once, on servers of the trial's own."""
    played = "tick 3: +"
    tries: list[Try] = [
        (played, [[NO, PLAYED]]),
        (played, [[LOST_LOOK], [READY, NO, PLAYED]]),
        (played, [[NO, LOST], [READY, NO, PLAYED]]),
        (ANSWER_LOST, [[NO, LOST], [READY, YES]]),
        (ANSWER_LOST, [[NO, LOST], [LOST_PROBE], [READY, LOST_LOOK], [LOST_PROBE], [READY, YES]]),
        (played, [[NO, DOWN], [Step(PROBE, "fault 12")], [READY, Step(LOOK, "fault 12")], [READY, NO, PLAYED]]),
        (played, [[NO, FULL, Step(BATCH, "fault 17"), PLAYED]]),
        (played, [[NO, LOST], [Step(PROBE, "fault 6"), Step(LOOK, "fault 17"), NO, PLAYED]]),
        (f"fault 21: {TEXTS[-21]}", [[NO, Step(BATCH, "fault 21")]]),
        (UNANSWERED, [[NO, LOST], [READY, Step(LOOK, "fault 21")]]),
        (MARKER_REFUSED, [[Step(LOOK, "tick 1: -1")]]),
        (MARKER_REFUSED, [[Step(LOOK, "tick 1: =6")]]),
        (MARKER_REFUSED, [[NO, Step(BATCH, "tick 3: -1 +")]]),
        (ANSWER_LOST, [[YES]]),
        (GARBLED, [[NO, Step(BATCH, "hello")]]),
        # An answer that is late isn't a loss.
        (played, [[NO, dataclasses.replace(PLAYED, seconds=2 * SHORT)]]),
    ]
    for wanted, connections in tries:
        script = Script(*connections)
        trial.open(script.address, SHORT)
        trial.expect(trial.player.once(OWN, 5, SECONDS, [Add(1, 1)]), wanted)
        script.end()


def try_bounds(trial: Trial) -> None:
    """Calls that connect again end in time, with what is known."""
    silent = socket.create_server(("127.0.0.1", 0))
    tries: list[Try] = [
        (NOT_CONNECTED, [[LOST_LOOK]]),
        (UNANSWERED, [[NO, LOST]]),
        (f"fault 6: {TEXTS[-6]}", [[NO] + [FULL] * 100]),
        (UNANSWERED, [[NO, LOST], [READY] + [Step(LOOK, "fault 6")] * 100]),
    ]
    with silent:
        trial.open(str(silent.getsockname()[1]))
        expect_in_time(trial, [SHORT], NOT_CONNECTED, trial.player.reconnect)

        def play(connections: list[list[Step]], bound: float) -> str:
            trial.open(Script(*connections).address)
            return trial.player.once(OWN, 5, bound, [Add(1, 1)])

        for wanted, connections in tries:
            expect_in_time(trial, BOUNDS, wanted, functools.partial(play, connections))


def expect_in_time(trial: Trial, bounds: Sequence[float], wanted: str, call: Callable[[float], str]) -> None:
    """Expects an answer of a call that gives up after the first or a later of some bounds."""
    for bound in bounds:
        start = time.monotonic()
        got = call(bound)
        if time.monotonic() - start > bound + SECONDS / 3:
            raise Wrong(f"a call that gives up after {bound} seconds doesn't")
        if got == wanted:
            break
    trial.expect(got, wanted)


def try_going_on(trial: Trial) -> None:
    """A call that gave up goes on when it is made again."""
    trial.open()
    trial.expect(trial.player.once(OWN, 300, SECONDS, [Set(1, 0)]).partition(":")[2], " +")
    trial.hold()
    trial.expect(trial.player.once(OWN, 301, SHORT, [Add(1, 1)]), UNANSWERED)
    trial.kill()
    trial.serve()
    trial.expect(trial.player.once(OWN, 301, SECONDS, [Add(1, 1), Get(1)]).partition(":")[2], " + =1")
    trial.expect(trial.player.once(OWN, 301, SECONDS, [Add(1, 1)]), ANSWER_LOST)


def try_doubt(seconds: float) -> None:
    """The client in Python keeps a batch of which nobody knows whether it was played, however often the server dies."""
    batch = (Add(1, 1),)
    script = Script([Step("add 1 1", None)], [LOST_PROBE], [READY, LOST_LOOK], [READY, NO, Step("get 1", None)], [READY])
    world = cektaulis.World(script.address, seconds)
    calls: list[Callable[[], object]] = [lambda: world.play(*batch), world.receive]
    for call in calls:
        why = refuses(Unanswered, call)
        if why.batches != [batch] or "reconnect" not in str(why):
            raise Wrong(f"{why} keeps {why.batches}")
    calls = [lambda: world.play(Get(1)), lambda: world.send(Get(1)), lambda: world.was_played(OWN, 5)]
    for call in calls:
        if "reconnect" not in str(refuses(cektaulis.NotConnected, call)):
            raise Wrong("a call without a connection doesn't name the way back")
    got: list[object] = [world.reconnect(seconds)]
    refuses(Unanswered, lambda: world.was_played(OWN, 5))
    got += [world.reconnect(seconds), world.was_played(OWN, 5)]
    refuses(Unanswered, lambda: world.play(Get(1)))
    got += [world.reconnect(seconds)]
    script.end()
    if got != [[batch], [batch], False, [batch, (Get(1),)]]:
        raise Wrong(f"a batch is lost: {got}")
    try_doubt_after_answers(seconds)


def try_doubt_after_answers(seconds: float) -> None:
    """The client in Python doubts the batches after answers that it keeps, and no others."""
    get = Step("get 1", "tick 1: =4")
    script = Script([get, get, Step("add 1 1", "fault 12")], [READY, Step("get 1", None)], [READY])
    world = cektaulis.World(script.address, seconds)
    actions: tuple[Action, ...] = Get(1), Get(1), Add(1, 1)
    for action in actions:
        world.send(action)
    first = world.receive()
    deadline = time.monotonic() + SECONDS
    while script.served < 3 and time.monotonic() < deadline:
        time.sleep(0.001)
    time.sleep(0.05)
    doubtful = [world.reconnect(seconds)]
    kept = world.waiting, world.receive(), world.waiting
    refuses(Unanswered, lambda: world.play(Get(1)))
    doubtful.append(world.reconnect(seconds))
    script.end()
    if kept != (1, first, 0) or doubtful != [[(Add(1, 1),)], [(Add(1, 1),), (Get(1),)]]:
        raise Wrong(f"{kept} is kept, and {doubtful} is in doubt")


Ends = dict[int, collections.Counter[str]]


def killing(trial: Trial, chance: random.Random, kills: int | None, ends: Ends, done: threading.Event) -> int:
    """Kills the server and starts it again, so often or for some seconds. Returns how often."""
    count, start = 0, time.monotonic()

    def is_enough() -> bool:
        seconds = time.monotonic() - start
        is_met = all(any(it[end] for it in ends.values()) for end in ENDS)
        return seconds > (KILLING_SECONDS if is_met else MOST_KILLING_SECONDS)

    try:
        while not is_enough() if kills is None else count < kills:
            before = sum(it.total() for it in ends.values())
            time.sleep(chance.uniform(0.01, 0.1))
            # On a busy system a server may be killed too early for any batch. Every second one plays some.
            while count % 2 and before == sum(it.total() for it in ends.values()) and not done.wait(0.01):
                pass
            trial.kill()
            trial.serve()
            count += 1
    finally:
        done.set()
    return count


def turn(client: int, number: int) -> Action:
    """What a client does in a batch."""
    if client in COUNTERS:
        return Add(COUNT, 1)
    return Move(SHOP, PURSES[client], 3) if number % 2 else Move(PURSES[client], SHOP, 2)


def playing(player: Player, client: int, ends: collections.Counter[str], done: threading.Event) -> None:
    """Plays batches, each once, until the server is killed no more. Counts how they ended."""
    while not done.is_set():
        number, before = ends.total() + 1, player.connections()
        answer = player.once(client, number, 4 * SECONDS, [turn(client, number)])
        if answer != ANSWER_LOST and not (answer.startswith("tick ") and answer.endswith(": +")):
            raise Wrong(f"a batch ends by `{answer}`")
        later = ANSWERED_LATER if player.connections() > before else ANSWERED
        ends[ANSWER_LOST if answer == ANSWER_LOST else later] += 1


def words_after(batches: dict[int, int]) -> dict[int, int]:
    """What cells hold once each client has played so many batches, each once."""
    words = dict(batches)
    words[COUNT] = sum(batches[client] for client in COUNTERS)
    for client in TRADERS:
        words[PURSES[client]] = GOLD + (batches[client] + 1) // 2 * 3 - batches[client] // 2 * 2
    words[SHOP] = 3 * GOLD - sum(words[PURSES[client]] for client in TRADERS)
    return words


def try_kills_of_many(
    kind: type[Player], trial: Trial, chance: random.Random, kills: int | None
) -> tuple[int, collections.Counter[str]]:
    """Two clients count and two trade while the server is killed. Returns how often that was, and how batches ended."""
    players = {client: kind() for client in (*COUNTERS, *TRADERS)}
    ends: Ends = {client: collections.Counter() for client in players}
    done = threading.Event()
    trial.serve()
    try:
        trial.open()
        trial.expect(trial.play(*(Set(cell, GOLD) for cell in (SHOP, *PURSES.values()))), "tick 1: + + +")
        for player in players.values():
            trial.expect(player.open(trial.address, SECONDS), "ok")
        with concurrent.futures.ThreadPoolExecutor() as threads:
            killer = threads.submit(killing, trial, chance, kills, ends, done)
            runs = [threads.submit(playing, player, it, ends[it], done) for it, player in players.items()]
            try:
                for run in runs:
                    run.result()
            finally:
                done.set()
            kills = killer.result()
        trial.expect(trial.player.reconnect(SECONDS), "ok")
        words = words_after({client: it.total() for client, it in ends.items()})
        trial.expect(trial.play(*map(Get, range(8))).partition(":")[2], "".join(f" ={words[cell]}" for cell in range(8)))
    finally:
        done.set()
        trial.kill()
        for player in (*players.values(), trial.player):
            player.close()
    return kills, sum(ends.values(), collections.Counter())


def try_client(trial: Trial, chance: random.Random) -> None:
    """Tries all but the kills of many clients."""
    trial.serve()
    try:
        for part in (try_codes, try_limits, try_pipeline, try_ahead, try_mistakes, try_kept, try_bulk):
            part(trial)
        try_model(trial, chance)
        if isinstance(trial.player, PythonPlayer):
            try_python_mistakes(trial.player.world)
            try_doubt(SECONDS)
            try_files(trial)
            try_prompt(trial)
        for part in (try_answers, try_once, try_bounds, try_kills, try_polls, try_going_on, try_addresses):
            part(trial)
    finally:
        trial.kill()
        trial.player.close()


def try_both(name: str, kind: type[Player], given: argparse.Namespace, room: pathlib.Path, transport: str) -> None:
    """Tries a client over a port or a socket, and prints what was met."""
    folder = room / f"{name}-{transport}"
    trial = Trial(kind(), given.worldd, folder, transport)
    try_client(trial, random.Random(given.seed))
    many = Trial(kind(), given.worldd, folder.with_suffix(".many"), transport, 8)
    kills, ends = try_kills_of_many(kind, many, random.Random(given.seed), given.kills)
    met = ", ".join(f"{it} {trial.met[it]}" for it in WANTED)
    print(f"client in {name} over a {transport}: {met}")
    print(f"  {kills} kills, {ends.total()} batches of four clients, each counted once: "
          + ", ".join(f"{it} {ends[it]}" for it in ENDS))
    all_met(trial.met, WANTED)
    all_met(ends, ENDS)


# The cells of the patterns: two markers of a turn and two cells of each of its batches; a marker of trades, purses and goods.
BEGUN, COMPLETE, FIRST, SECOND = 0, 1, (2, 3), (4, 5)
TRADE, BUYER, ESCROW, SELLER, STOCK, BOUGHT = range(6, 12)


def try_patterns(worldd: str, room: pathlib.Path) -> None:
    """Two patterns of docs/CLIENT.md: a turn over two batches with a kill in between, and trades by escrow."""
    trial = Trial(PythonPlayer(), worldd, room / "patterns", PORT, 3000)
    trial.serve()
    try:
        try_progress(trial)
        halves = try_turns_of_two_batches(trial)
        world = cektaulis.World(trial.address, SECONDS)
        world.play(Set(BUYER, 10), Set(STOCK, 1))
        trades = [trade(world, 10 * number, price) for number, price in enumerate((4, 4, 100), 1)]
        if trades != ["bought", "paid back", "too poor"] or world.read(range(BUYER, 12)) != [6, 0, 4, 0, 1]:
            raise Wrong(f"the trades end as {trades}, with {world.read(range(BUYER, 12))}")
    finally:
        trial.kill()
    print(f"patterns: {halves} turns over two batches were halved by a kill and made whole; trades: {', '.join(trades)}")


def try_progress(trial: Trial) -> None:
    """The client in Python reports at a terminal how many cells it has loaded and dumped."""
    given, got = trial.room / "given", trial.room / "got"
    given.write_text("".join(f"{number * number}\n" for number in range(3000)))
    for flag, path, done, step in (("--load", given, "loaded", 256), ("--dump", got, "dumped", 1024)):
        terminal, end = pty.openpty()
        run = subprocess.Popen([sys.executable, "-m", "cektaulis", trial.address, flag, path], env=BY_HAND, stderr=end)
        os.close(end)
        printed = b""
        # The read of a terminal that nobody writes any more fails.
        with contextlib.suppress(OSError):
            while piece := os.read(terminal, 4096):
                printed += piece
        os.close(terminal)
        counts = (*range(step, 3000, step), 3000)
        wanted = "".join(f"\r{done} {count} of 3000 cells" for count in counts) + "\r\n"
        if run.wait(SECONDS) or printed.decode() != wanted:
            raise Wrong(f"{flag} prints {printed!r}")
    if got.read_text() != given.read_text():
        raise Wrong("a dump differs from what was loaded")
    with cektaulis.World(trial.address, SECONDS) as world:
        world.load([0] * 12)


def try_turns_of_two_batches(trial: Trial) -> int:
    """Plays turns over two batches. Returns how many were found half played."""
    halves, world = 0, cektaulis.World(trial.address, SECONDS)
    for number in range(1, 6):
        world.play_once(BEGUN, number, *(Set(cell, number) for cell in FIRST))
        if number % 2:
            trial.kill()
            trial.serve()
            world = cektaulis.World(trial.address, SECONDS)
            begun, complete = world.play(Get(BEGUN), Get(COMPLETE)).answers
            halves += (begun, complete) == (number, number - 1)
        world.play_once(COMPLETE, number, *(Set(cell, number) for cell in SECOND))
        if (words := world.read((BEGUN, COMPLETE, *FIRST, *SECOND))) != [number] * 6:
            raise Wrong(f"a turn over two batches leaves {words}")
    if halves != 3:
        raise Wrong(f"{halves} turns were found half played, in place of 3")
    return halves


def is_done(tick: cektaulis.Tick | None) -> bool:
    """Whether the only action of a batch was done. Its answer may not be lost."""
    if tick is None:
        raise Wrong("the answer of a trade is lost")
    return tick.answers[0] is None


def trade(world: cektaulis.World, number: int, price: int) -> str:
    """Buys one piece by escrow, in three batches."""
    if not is_done(world.play_once(TRADE, number, Move(BUYER, ESCROW, price))):
        return "too poor"
    is_bought = is_done(world.play_once(TRADE, number + 1, Move(STOCK, BOUGHT, 1)))
    world.play_once(TRADE, number + 2, Move(ESCROW, SELLER if is_bought else BUYER, price))
    return "bought" if is_bought else "paid back"


PACKAGE = TOP / "clients" / "python"
# Builds a wheel in the folder of its command line, as pip does.
BUILD = "import sys, flit_core.buildapi as it; print(it.build_wheel(sys.argv[1]))"


def try_package(room: pathlib.Path, version: str) -> None:
    """The client in Python makes a package with its types, which leaves nothing behind and runs. Versions are all the same."""
    pkg_config = found_in_text(r"^Version: (.*)$", (TOP / "clients" / "c" / "cektaulis.pc").read_text())
    in_python = python_version(version)
    if (cektaulis.__version__, pkg_config[1]) != (in_python, version):
        raise Wrong(f"the versions differ: {version}, {cektaulis.__version__} in Python, {pkg_config[1]} for pkg-config")
    pythons = sys.executable, "/usr/bin/python3"
    has_builder = [it for it in pythons if not subprocess.run([it, "-c", "import flit_core"], stderr=QUIET).returncode]
    if not has_builder:
        print("client_trial: there is no flit_core, so the package isn't tried")
        return
    before = sorted(PACKAGE.rglob("*"))
    build: Words = [has_builder[0], "-c", BUILD, room]
    run = subprocess.run(build, cwd=PACKAGE, env=BY_HAND, capture_output=True, text=True, check=True)
    if left := set(PACKAGE.rglob("*")) - set(before):
        raise Wrong(f"the build of the package leaves {left}")
    with zipfile.ZipFile(room / run.stdout.strip()) as wheel:
        names = set(wheel.namelist())
        wheel.extractall(room / "installed")
    wanted = {f"cektaulis/{path.name}" for path in (PACKAGE / "cektaulis").glob("*.*") if path.is_file()}
    if not wanted | {f"cektaulis-{in_python}.dist-info/METADATA"} <= names or "cektaulis/py.typed" not in names:
        raise Wrong(f"the package has {names}")
    command, path = [sys.executable, "-m", "cektaulis", "--version"], {"PYTHONPATH": str(room / "installed")}
    printed = subprocess.run(command, cwd=room, env=BY_HAND | path, capture_output=True, text=True, check=True).stdout
    if printed != f"cektaulis {in_python}\n":
        raise Wrong(f"the package prints {printed}")
    print(f"package: {run.stdout.strip()} has its types, runs and leaves nothing behind")


def main() -> int:
    """Tries all clients."""
    parser = parser_of(__doc__)
    parser.add_argument("--seed", type=int, default=1)
    parser.add_argument("--kills", type=int, help=f"how often each server is killed, in place of {KILLING_SECONDS} seconds")
    given = parser.parse_args()

    def prepare() -> None:
        printed = subprocess.run([given.worldd, "--version"], capture_output=True, text=True, check=True).stdout
        try_package(room, printed.split()[1])
        try_patterns(given.worldd, room)
        build_players(room)
        compile_header()

    with tempfile.TemporaryDirectory(prefix="client-trial-") as folder:
        room = pathlib.Path(folder)
        status = status_of("client_trial", prepare)
        kinds: dict[str, type[Player]] = {"python": PythonPlayer, "c": CPlayer}
        if shutil.which("rustc"):
            kinds["rust"] = RustPlayer
        for (name, kind), transport in itertools.product(kinds.items(), TRANSPORTS):
            run = functools.partial(try_both, name, kind, given, room, transport)
            status = status or status_of(f"client_trial: {name} over a {transport}", run)
    return status


if __name__ == "__main__":
    sys.exit(main())
