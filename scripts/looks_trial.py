#!/usr/bin/env python3
"""Looks at a world again and again while a server plays on it, by each command that only reads it.

    scripts/looks_trial.py crates/worldd/out/worldd
    scripts/looks_trial.py WORLDD --looks 4000 --seed 7 --dir /mnt/disk

Four clients send random batches at full speed, to worlds with many pages and to small ones, by both methods. `recover`,
`inspect`, `status` and `backup` look in turn. Where images are rare a library slows their reads, so that the log grows under
them. None may end with a fault, and none may report a tick that is older than the greatest one that was answered before it
began. backup_trial.py compares what copies hold.
"""
import collections
import pathlib
import re
import shutil
import sys
import threading
from collections.abc import Iterator

import backup_trial
import kill_trial
from kill_trial import CLIENTS, Batch, Client, Server, until_stopped
from trial import METHODS, TRANSPORTS, Wrong, ask, create, flags_of, library_of, parser_of, status_in_folder

# The worlds: how many cells they have, and after how many ticks an image is written. With images so rare looks are slowed:
# else none would end between two images. A slow look waits so long at most after each read.
RARE, SLOWED_MICROSECONDS = 20_000, 20_000
WORLDS = (200_000, 1), (kill_trial.CELLS, 1), (200_000, 64), (kill_trial.CELLS, 8), (kill_trial.CELLS, RARE)
# The line of each command that reports the tick.
LINES = {
    "recover": r"recovered (\d+) from \d+\n",
    "inspect": r"(?s:.*)\nrecovered (\d+) from \d+ in image\.[ab]\n",
    "status": r"recovered (\d+) from \d+ in image\.[ab]\nlog: (?s:.*)",
    "backup": r"backed up (\d+) from \d+\n",
}


class Player(Client):
    """A client that keeps only its last tick."""

    last = 0

    def take(self, batch: Batch, line: str) -> None:
        match = re.match(r"tick ([0-9]+):", line)
        if not match or int(match[1]) <= self.last:
            raise Wrong(f"a batch was answered `{line}` after tick {self.last}")
        self.last = int(match[1])


def batches(seed: str, client: int, cells: int) -> Iterator[Batch]:
    """The batches of a client on a world of so many cells."""
    return backup_trial.batches(seed, client) if cells > kill_trial.CELLS else kill_trial.batches(seed, client, 0)


class Trial:
    """Worlds in a folder, and the counts so far."""

    def __init__(self, worldd: str, room: pathlib.Path, seed: int) -> None:
        self.worldd, self.room, self.seed, self.library = worldd, room, seed, library_of("slow_reads.c", room)
        self.tally: collections.Counter[str] = collections.Counter()
        self.wrong: collections.Counter[str] = collections.Counter()

    def look(self, command: str, world: pathlib.Path, clients: list[Player], is_slow: bool) -> int:
        """Looks at a world, and gives the tick that is reported. A look that goes wrong is counted, and gives 0."""
        floor, to = max(client.last for client in clients), self.room / "copy"
        if command == "backup":
            shutil.rmtree(to, ignore_errors=True)
            to.mkdir()
        slowed = {"LD_PRELOAD": str(self.library), "READS_SLOWED": str(SLOWED_MICROSECONDS)} if is_slow else {}
        self.tally.update([command, *["slowed"] * is_slow])
        try:
            printed = ask(self.worldd, command, world, *(["--to", str(to)] if command == "backup" else []), **slowed).stdout
        except Wrong as wrong:
            self.wrong[str(wrong)] += 1
            return 0
        match = re.fullmatch(LINES[command], printed)
        if not match:
            raise Wrong(f"{command} prints {printed!r}")
        self.wrong[f"{command} reported a tick older than an answer"] += int(match[1]) < floor
        self.tally["ahead of the answers"] += int(match[1]) > floor
        return int(match[1])

    def play(self, number: int, method: str, looks: int) -> None:
        """Lets clients play on a world, and looks so often meanwhile."""
        (cells, every), world, stop = WORLDS[number % len(WORLDS)], self.room / f"world{number}", threading.Event()
        create(self.worldd, world, cells)
        flags = ["--method", method, "--every", str(every), "--clients", str(CLIENTS)]
        flags += flags_of(TRANSPORTS[number % 2], self.room / f"socket{number}")
        with Server([self.worldd, "serve", "--dir", str(world), *flags], self.room / "complaints") as server:
            server.watch.cancel()
            server.line()
            address = server.listen()
            plans = [until_stopped(batches(f"{self.seed} {number} {n}", n, cells), stop) for n in range(CLIENTS)]
            clients = [Player(address, plan, server.killed) for plan in plans]
            for client in clients:
                client.start()
            try:
                seen = [self.look(list(LINES)[look % len(LINES)], world, clients, every == RARE) for look in range(looks)]
            finally:
                stop.set()
            for client in clients:
                client.join()
                if client.wrong:
                    raise Wrong(client.wrong)
            said, last = server.end(), max(client.last for client in clients)
        if said != f"stopped tick {last} acked {last}" or max(seen) > last:
            raise Wrong(f"serve ended with `{said}` after tick {last}, and a look reported tick {max(seen)}")
        self.tally.update({"ticks answered": last, f"on {cells} cells": looks, "images written": last // every})
        shutil.rmtree(world)

    def run(self, looks: int) -> str:
        """Looks so often in all, as often on each world by each method."""
        plays = len(WORLDS) * len(METHODS)
        for number in range(plays):
            self.play(number, METHODS[number // len(WORLDS)], -(-looks // plays))
        counts = "; ".join(f"{name} {count}" for name, count in self.tally.items())
        if +self.wrong:
            raise Wrong("; ".join(f"{count} times {wrong}" for wrong, count in (+self.wrong).items()) + f": {counts}")
        return f"looks trial: {counts}; none older than an answer"


def main() -> int:
    """Runs the trial, and keeps the files where it fails."""
    parser = parser_of(__doc__, "of the batches", has_dir=True)
    parser.add_argument("--looks", type=int, default=160, help="how often a world is looked at (160)")
    given = parser.parse_args()
    return status_in_folder("looks_trial", given, lambda room: Trial(given.worldd, room, given.seed).run(given.looks))


if __name__ == "__main__":
    sys.exit(main())
