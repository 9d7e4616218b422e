#!/usr/bin/env python3
"""Lets a crowd of clients play on a serving worldd at once, among them some that keep to no rule.

    scripts/crowd_trial.py crates/worldd/out/worldd

First two clients come one after the other, and what they and the program print is known to the byte. Then 50 clients
send 200 batches each, while one leaves in half a batch, one sends 10 MB without a newline, and one sends its batch byte
by byte and ends it last. Each tick must be answered once, and all answers, by tick, must be those of one plain model.
Each method serves over a port and over a socket.
"""
import itertools
import pathlib
import random
import re
import socket
import sys
import threading
from typing import NamedTuple

from kill_trial import CELLS, Batch, answer, random_request, text_of
from trial import METHODS, PATIENCE_SECONDS, TRANSPORTS, Served, Wrong
from trial import answer_to, connect, create, flags_of, parser_of, status_in_folder

CLIENTS, BATCHES = 50, 200
FLOOD = 10_000_000
COUNT = 0
CLOSED = "worldd: the {} is closed: no more clients can come\n"
ROW = b"set 0 5\nget 0\nmove 0 1 9\nfoo\nend\n"


class Way(NamedTuple):
    """How a world is served: by which method, over which transport."""

    method: str
    transport: str

    def __str__(self) -> str:
        return f"{self.method}-{self.transport}"


class Server(Served):
    """A server of a new world."""

    def __init__(self, worldd: str, folder: pathlib.Path, way: "Way", cells: int, every: int, clients: int) -> None:
        create(worldd, folder, cells)
        where = flags_of(way.transport, folder.with_suffix(".socket"))
        flags = ["--method", way.method, "--every", str(every), "--clients", str(clients), *where]
        super().__init__([worldd, "serve", "--dir", folder, *flags], folder.with_suffix(".errors"))
        self.begin("recovered 0 from 0")
        self.address = self.listen()

    def connect(self) -> socket.socket:
        """A client's connection."""
        return connect(self.address)

    def end(self, ticks: int) -> str:
        """Waits for its end after so many ticks, and gives what it printed for people."""
        printed, _ = self.process.communicate(timeout=PATIENCE_SECONDS)
        if printed != f"stopped tick {ticks} acked {ticks}\n" or self.process.returncode:
            raise Wrong(f"worldd ended with status {self.process.returncode} and `{printed}`")
        return self.errors.read_text()


def try_row(worldd: str, room: pathlib.Path, way: Way) -> None:
    """Two clients come one after the other."""
    server = Server(worldd, room / f"row-{way}", way, 2, 64, 2)
    for tick in (1, 2):
        line = answer_to(server.connect(), ROW)
        if line != f"tick {tick}: + =5 -3 -16\n":
            raise Wrong(f"the client of tick {tick} was answered `{line}`")
    errors = server.end(2)
    if errors != CLOSED.format(way.transport):
        raise Wrong(f"worldd printed `{errors}`")


def batch_of(chance: random.Random) -> Batch:
    """A batch that looks at the count and adds to it."""
    lines = (random_request(chance) for _ in range(chance.randrange(6)))
    return ("get", COUNT), ("add", COUNT, 1), *lines, ("get", COUNT)


class Client(threading.Thread):
    """A client of the crowd, with what it was answered."""

    def __init__(self, stream: socket.socket, chance: random.Random) -> None:
        super().__init__(daemon=True)
        self.stream, self.chance = stream, chance
        self.answered: list[tuple[Batch, str]] = []

    def run(self) -> None:
        """Sends each batch once the one before is answered."""
        with self.stream, self.stream.makefile(encoding="ascii") as reader:
            for _ in range(BATCHES):
                batch = batch_of(self.chance)
                self.stream.sendall(text_of(batch))
                self.answered.append((batch, reader.readline().removesuffix("\n")))


def flood(stream: socket.socket) -> None:
    """Sends a line without an end, and leaves."""
    with stream:
        for _ in range(100):
            stream.sendall(b"x" * (FLOOD // 100))


def leave(stream: socket.socket) -> None:
    """Sends half a batch, and leaves."""
    with stream:
        stream.sendall(b"add 0 1000\nadd 0 1")


def judge(answered: list[tuple[Batch, str]], ticks: int) -> None:
    """Holds all answers, by tick, to the plain model."""
    words = [0] * CELLS
    numbers = {}
    for batch, line in answered:
        match = re.match(r"tick ([0-9]+):", line)
        if not match or int(match[1]) in numbers:
            raise Wrong(f"a batch was answered `{line}`")
        numbers[int(match[1])] = batch, line
    if sorted(numbers) != list(range(1, ticks + 1)):
        raise Wrong(f"{len(numbers)} ticks were answered, up to {max(numbers)}")
    for number in range(1, ticks + 1):
        batch, line = numbers[number]
        wanted = answer(words, batch, number)
        if line != wanted:
            raise Wrong(f"tick {number} was answered `{line}`, and the model has `{wanted}`")


def try_crowd(worldd: str, room: pathlib.Path, way: Way, seed: int) -> int:
    """A crowd plays at once, and gives how many images were opened meanwhile."""
    server = Server(worldd, room / f"crowd-{way}", way, CELLS, 8, CLIENTS + 3)
    slow, last = server.connect(), (("add", COUNT, 1), ("get", COUNT))
    text = text_of(last)
    rude = [threading.Thread(target=act, args=(server.connect(),), daemon=True) for act in (flood, leave)]
    clients = [Client(server.connect(), random.Random(f"{seed} {client}")) for client in range(CLIENTS)]
    for thread in [*rude, *clients]:
        thread.start()
    for byte in text[:-1]:
        slow.sendall(bytes([byte]))
    for thread in [*rude, *clients]:
        thread.join()
    answered = [one for client in clients for one in client.answered]
    answered.append((last, answer_to(slow, text[-1:]).removesuffix("\n")))
    judge(answered, CLIENTS * BATCHES + 1)
    errors = server.end(CLIENTS * BATCHES + 1)
    opened = len(re.findall(r"image of tick [0-9]+ opened", errors))
    if opened + 1 != errors.count("\n") or errors.count(CLOSED.format(way.transport)) != 1 or not opened:
        raise Wrong(f"worldd printed `{errors[-500:]}`")
    return opened


def main() -> int:
    """Runs the trial, and keeps the files where it fails."""
    parser = parser_of(__doc__)
    parser.add_argument("--seed", type=int, default=1, help="of the batches")
    given = parser.parse_args()

    def run(room: pathlib.Path) -> None:
        for way in itertools.starmap(Way, itertools.product(METHODS, TRANSPORTS)):
            try_row(given.worldd, room, way)
            opened = try_crowd(given.worldd, room, way, given.seed)
            print(f"{way}: {CLIENTS * BATCHES + 1} ticks answered once each to one world, {opened} images opened meanwhile")

    return status_in_folder("crowd_trial", given, run)


if __name__ == "__main__":
    sys.exit(main())
