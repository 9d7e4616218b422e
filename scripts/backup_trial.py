#!/usr/bin/env python3
"""Backs up a world again and again while a server plays on it, and holds each copy to a plain model.

    scripts/backup_trial.py crates/worldd/out/worldd
    scripts/backup_trial.py WORLDD --backups 1000 --seed 7 --dir /mnt/disk

Four clients send random batches at full speed, with an image after each tick, after 8 and after 64, by both methods. Each
copy has to hold a world not older than the greatest tick that was answered before it began, with the words after whole
ticks. `worldd status` has to report no older one either. Images have many pages, so a copy of half an image would show.
At the end of each play a copy is served.
"""

import collections
import dataclasses
import itertools
import pathlib
import random
import re
import shutil
import sys
import threading
from collections.abc import Iterator

import kill_trial
from kill_trial import Batch, Client, Request, Server, answer, collected, until_stopped
from trial import METHODS, SOCKET, TRANSPORTS, Wrong, ask, connect, create, flags_of, parser_of, status_in_folder, summary

EVERY = 1, 8, 64
CLIENTS = 4
# An image of them has 40 pages.
CELLS = 20_000
FIRST_MARK, COUNT, LAST_MARK = 0, 1, CELLS - 1
PLAYED = range(COUNT + 1, LAST_MARK)
# What came of the copies; each count but the last has to grow.
SUMMARY = (
    "backup trial: {copies} copies and {figures} figures of {answered} ticks, none older than an answer; {ahead} had ticks that "
    "were answered later; {with_log} had ticks of the log; {from_a} from image.a and {from_b} from image.b; {served} were "
    "served; begun anew {anew} times"
)
FIGURES = (
    r"recovered (\d+) from (\d+) in image\.[ab]\nlog: (\d+) ticks? after the image, (.*)\nbytes: .*, together (\d+)\n"
    r"server: running, log up, images up\n"
)


def random_request(chance: random.Random) -> Request:
    """A line on cells of any page."""
    cell, amount = chance.choice(PLAYED), chance.randrange(10**18)
    match chance.choice(("set", "set", "move", "swap", "cap")):
        case "set":
            return "set", cell, amount
        case "move":
            return "move", cell, chance.choice(PLAYED), chance.randrange(1000)
        case "swap":
            return "swap", cell, chance.choice(PLAYED)
        case _:
            return "cap", cell, amount


def batches(seed: str, client: int) -> Iterator[Batch]:
    """The batches of a client: random lines between two marks, of which each image has both."""
    chance = random.Random(seed)
    for serial in itertools.count(1):
        mark = serial * CLIENTS + client
        lines = (random_request(chance) for _ in range(chance.randrange(20)))
        yield ("get", FIRST_MARK), ("set", FIRST_MARK, mark), ("add", COUNT, 1), *lines, ("set", LAST_MARK, mark)


@dataclasses.dataclass(frozen=True)
class Copy:
    """What a copy holds, and which ticks had been answered before it began."""

    floor: int
    tick: int
    words: list[int]


class Trial:
    """A world in a folder, and the counts so far."""

    def __init__(self, worldd: str, room: pathlib.Path, seed: int) -> None:
        self.worldd, self.room, self.seed = worldd, room, seed
        self.tally: collections.Counter[str] = collections.Counter()

    def figures(self, world: pathlib.Path, floor: int) -> None:
        """What `status` reports of a world that is served: no tick is missing that was answered."""
        printed = ask(self.worldd, "status", world).stdout
        match = re.fullmatch(FIGURES, printed)
        if not match or int(match[1]) - int(match[2]) != int(match[3]):
            raise Wrong(f"status prints {printed!r}")
        if int(match[1]) < floor:
            raise Wrong(f"status prints {printed!r}, and tick {floor} was answered before")
        self.tally["figures"] += 1

    def copy(self, world: pathlib.Path, to: pathlib.Path, floor: int) -> Copy:
        """Backs the world up, and reads what the copy holds."""
        to.mkdir()
        ended = ask(self.worldd, "backup", world, "--to", str(to), kill_trial.REFUSE)
        match = re.fullmatch(r"backed up (\d+) from (\d+)\n", ended.stdout)
        begun = re.fullmatch(r"(?:worldd: it was begun (\d+) times\n)?", ended.stderr)
        if not match or not begun:
            raise Wrong(f"backup prints {ended.stdout!r} and {ended.stderr!r}")
        lines = ask(self.worldd, "inspect", to, "--words").stdout.splitlines()
        found = kill_trial.found_in(f"recovered {match[1]} from {match[2]}", lines)
        if found.tick < floor:
            raise Wrong(f"{found.line}, and tick {floor} was answered before")
        self.tally.update(copies=1, anew=int(begun[1] or 1) - 1, with_log=found.tick > found.base)
        self.tally[f"from_{found.image[-1]}"] += 1
        return Copy(floor, found.tick, found.words)

    def serve_copy(self, to: pathlib.Path, tick: int, method: str) -> None:
        """A copy is a world that goes on."""
        flags = ["--method", method, "--clients", "1", kill_trial.REFUSE, *flags_of(SOCKET, to.with_suffix(".socket"))]
        with Server([self.worldd, "serve", "--dir", str(to), *flags], self.room / "complaints") as server:
            server.line()
            with connect(server.listen()) as client, client.makefile("r") as reader:
                client.sendall(b"add 1 0\nend\n")
                line = reader.readline()
        if line != f"tick {tick + 1}: +\n":
            raise Wrong(f"a served copy of tick {tick} answers {line!r}")
        self.tally["served"] += 1

    def copies(self, world: pathlib.Path, clients: list[Client], count: int) -> Iterator[Copy]:
        """So many copies, one after another. The last one stays."""
        for number in range(count):
            floor = max(max(list(client.answered), default=0) for client in clients)
            to = self.room / "copy"
            shutil.rmtree(to, ignore_errors=True)
            yield self.copy(world, to, floor)
            if number % 4 == 0:
                self.figures(world, floor)

    def play(self, number: int, method: str, every: int, count: int) -> None:
        """Lets clients play, and takes so many copies meanwhile."""
        world = self.room / f"world{number}"
        create(self.worldd, world, CELLS)
        flags = ["--method", method, "--every", str(every), "--clients", str(CLIENTS)]
        flags += flags_of(TRANSPORTS[number % 2], self.room / f"socket{number}")
        with Server([self.worldd, "serve", "--dir", str(world), *flags], self.room / "complaints") as server:
            server.watch.cancel()
            server.line()
            address, stop = server.listen(), threading.Event()
            plans = [until_stopped(batches(f"{self.seed} {number} {n}", n), stop) for n in range(CLIENTS)]
            clients = [Client(address, plan, server.killed) for plan in plans]
            for client in clients:
                client.start()
            try:
                taken = list(self.copies(world, clients, count))
            finally:
                stop.set()
            answered, _ = collected(clients, 0)
            said = server.end()
        if said != f"stopped tick {len(answered)} acked {len(answered)}":
            raise Wrong(f"serve ended with `{said}` after tick {len(answered)}")
        self.judge(taken, answered)
        self.serve_copy(self.room / "copy", taken[-1].tick, method)
        shutil.rmtree(world)

    def judge(self, taken: list[Copy], answered: kill_trial.Answered) -> None:
        """Holds each copy to the plain model of the ticks that were answered in the end."""
        words, number = [0] * CELLS, 0
        for copy in sorted(taken, key=lambda copy: copy.tick):
            while number < copy.tick:
                number += 1
                if number not in answered:
                    raise Wrong(f"a copy has tick {copy.tick}, and tick {number} was never answered")
                batch, line = answered[number]
                if answer(words, batch, number) != line:
                    raise Wrong(f"tick {number} was answered otherwise than the model does")
            if words != copy.words:
                cell = next(cell for cell in range(CELLS) if words[cell] != copy.words[cell])
                raise Wrong(f"a copy of tick {number} has {copy.words[cell]} in cell {cell}, and the model {words[cell]}")
            self.tally["ahead"] += copy.tick > copy.floor
        self.tally["answered"] += len(answered)

    def run(self, count: int) -> str:
        """Takes so many copies in all, as many by each method and after each number of ticks."""
        kinds = list(itertools.product(METHODS, EVERY))
        for number, (method, every) in enumerate(kinds):
            self.play(number, method, every, -(-count // len(kinds)))
        return summary(SUMMARY, self.tally, "anew")


def main() -> int:
    """Runs the trial, and keeps the files where it fails."""
    parser = parser_of(__doc__, "of the batches", has_dir=True)
    parser.add_argument("--backups", type=int, default=60, help="how many copies are taken (60)")
    given = parser.parse_args()
    return status_in_folder("backup_trial", given, lambda room: Trial(given.worldd, room, given.seed).run(given.backups))


if __name__ == "__main__":
    sys.exit(main())
