#!/usr/bin/env python3
"""Damages the files of worlds, lets `worldd salvage` save what it can, and looks at what it saved.

    scripts/salvage_trial.py crates/worldd/out/worldd
    scripts/salvage_trial.py WORLDD --worlds 200 --seed 7

Worlds of a plain model are written as a server leaves them, with images of two ticks and up to two segments of the log. Each is
damaged in each way. `salvage` has to end by itself, and to leave the damaged files as they are. Its last line has to name each
file of which it dropped something, and its status has to say if it did. What it saved has to be recovered. It has to be the world
after some of its first ticks, except if a number in a file was changed: no file has a checksum.
"""
import collections
import pathlib
import random
import shutil
import struct
import subprocess
import sys

from kill_trial import CELLS, Request, changes, random_request
from trial import NAMES, Wrong, parser_of, ran, status_in_folder, want

SECTOR, MARK = 512, 0x20 << 56
KINDS = {"set": (1, "IQ"), "add": (2, "Iq"), "move": (3, "IIQ"), "swap": (4, "II"), "cap": (5, "IQ")}
# The exit status if something was dropped, and what the line on a file says then.
MAY_BE_OLDER, DROPPED = 14, ("lost: ", "damaged", "nothing is taken")
# What may come of it: all of the world, a part, another world since a number was changed, or nothing.
WHOLE, PART, CHANGED, NONE = "whole", "in part", "changed", "nothing saved"


class World:
    """The files of a world that a server left, and its words after each tick. Gates are places of bytes that aren't numbers."""

    def __init__(self, chance: random.Random) -> None:
        self.chance, self.words = chance, [[0] * CELLS]
        ticks = [self.tick() for _ in range(chance.randrange(2, 40))]
        older, newer = sorted(chance.sample(range(len(ticks) + 1), 2))
        images = [self.image(older), self.image(newer)]
        logs = [self.segment(older, ticks[older:newer]), self.segment(newer, ticks[newer:])]
        # A switch closes no segment before an image covers it. The files change their parts from one image to the next.
        turn = chance.choice((1, -1))
        self.files = dict(zip(NAMES, [*images[::turn], *logs[:: chance.choice((1, -1))]]))

    def tick(self) -> list[Request]:
        """Plays a tick of random actions, and gives those that were accepted."""
        words, taken = list(self.words[-1]), list[Request]()
        for request in (random_request(self.chance) for _ in range(self.chance.randrange(1, 9))):
            changed = changes(words, request) if request[0] in KINDS else 0
            if isinstance(changed, dict):
                taken.append(request)
                for cell, word in changed.items():
                    words[cell] = word
        self.words.append(words)
        return taken

    def image(self, tick: int) -> bytes:
        """The image of this tick."""
        return struct.pack("<BQQ", 1, CELLS | MARK, tick) + struct.pack(f"<{CELLS}Q", *self.words[tick])

    def segment(self, base: int, ticks: list[list[Request]]) -> bytes:
        """The segment of these ticks, in groups."""
        made, left = struct.pack("<BQ", 1, base | MARK), list(ticks)
        while left:
            group, left = left[: (count := self.chance.randrange(1, 4))], left[count:]
            made += struct.pack("<BH", 1, len(group))
            for tick in group:
                made += struct.pack("<H", len(tick))
                made += b"".join(struct.pack(f"<B{KINDS[str(kind)][1]}", KINDS[str(kind)][0], *rest) for kind, *rest in tick)
        return made + b"\0"

    def has_gate(self, name: str, place: int) -> bool:
        """Whether a byte of a file is a gate."""
        if place == 0 or name.startswith("image"):
            return place == 0
        at, data = 9, self.files[name]
        while at < place and data[at] == 1:
            count, at = struct.unpack_from("<H", data, at + 1)[0], at + 3
            for _ in range(count):
                actions, at = struct.unpack_from("<H", data, at)[0], at + 2
                for _ in range(actions):
                    at += 1 + struct.calcsize("<" + dict(KINDS.values())[data[at]])
        return at == place


Files = dict[str, bytes]


def flipped(chance: random.Random, files: Files, name: str) -> None:
    """Flips one to three bits of a file."""
    data = bytearray(files[name])
    for _ in range(chance.randrange(1, 4)):
        data[chance.randrange(len(data))] ^= 1 << chance.randrange(8)
    files[name] = bytes(data)


def closed(chance: random.Random, files: Files, name: str) -> None:
    """Flips a bit of a file's gate."""
    files[name] = bytes([files[name][0] ^ 1 << chance.randrange(8)]) + files[name][1:]


def cut(chance: random.Random, files: Files, name: str) -> None:
    """Cuts the tail of a file off."""
    files[name] = files[name][: chance.randrange(len(files[name]))]


def lost(chance: random.Random, files: Files, name: str) -> None:
    """Removes a file."""
    del files[name]


def emptied(chance: random.Random, files: Files, name: str) -> None:
    """Leaves an empty file."""
    files[name] = b""


def zeroed(chance: random.Random, files: Files, name: str) -> None:
    """Fills a sector of a file with zeros."""
    data = files[name]
    at = SECTOR * chance.randrange(-(-len(data) // SECTOR))
    files[name] = data[:at] + bytes(len(data[at : at + SECTOR])) + data[at + SECTOR :]


def tailed(chance: random.Random, files: Files, name: str) -> None:
    """Leaves bytes of something else after a file."""
    files[name] += chance.randbytes(chance.randrange(1, 2 * SECTOR))


WAYS = {
    "bits flipped": flipped, "gate flipped": closed, "tail cut": cut, "file lost": lost, "file emptied": emptied,
    "sector zeroed": zeroed, "bytes after": tailed,
}


def has_any(line: str, parts: tuple[str, ...]) -> bool:
    """Whether a line has one of these parts."""
    return any(part in line for part in parts)


class Trial:
    """Damaged worlds in a folder, and the counts so far."""

    def __init__(self, worldd: str, room: pathlib.Path, chance: random.Random) -> None:
        self.worldd, self.room, self.chance = worldd, room, chance
        self.tally: collections.Counter[tuple[str, str]] = collections.Counter()

    def ask(self, command: str, folder: pathlib.Path, *flags: str) -> subprocess.CompletedProcess[str]:
        """Runs a command, which has to end by itself: with status 0, with a fault, or with what it dropped."""
        ended = ran(self.worldd, command, folder, *flags)
        done = (0, MAY_BE_OLDER) if command == "salvage" else (0,)
        is_so = ended.returncode in (*done, 1) and (ended.returncode == 1) == ended.stderr.startswith("fault ")
        want(is_so, f"{command} ended with status {ended.returncode}: {' '.join(ended.stderr.split())}")
        return ended

    def try_one(self, world: World, way: str, count: int) -> None:
        """Damages so many files of a world in one way, and holds what was saved to the model."""
        files = dict(world.files)
        for name in self.chance.sample(NAMES, count):
            WAYS[way](self.chance, files, name)
        damaged, saved = self.room / "damaged", self.room / "saved"
        for folder in (damaged, saved):
            shutil.rmtree(folder, ignore_errors=True)
            folder.mkdir()
        for name, data in files.items():
            (damaged / name).write_bytes(data)
        ended = self.ask("salvage", damaged, "--to", str(saved))
        if {path.name: path.read_bytes() for path in damaged.iterdir()} != files:
            raise Wrong(f"salvage changed the damaged files: {way}")
        if ended.returncode == 1:
            self.tally[way, NONE] += 1
            return
        self.check_dropped(files, ended)
        self.tally[way, self.saved(world, files, saved)] += 1

    def check_dropped(self, files: Files, ended: subprocess.CompletedProcess[str]) -> None:
        """The last line names each file of which something was dropped, as the lines on files say, or which is empty."""
        *lines, _, last = ended.stdout.splitlines()
        newest = max(int(line.split()[-1]) for line in lines if ": whole, tick " in line)
        dropped = {name for name in NAMES if any(line.startswith(name) and has_any(line, DROPPED) for line in lines)}
        for name in NAMES:
            if files.get(name) == b"" and (name.startswith("log") or newest > 0):
                dropped.add(name)
        wanted = ", ".join(name for name in NAMES if name in dropped) or "nothing"
        want(last == f"dropped: {wanted}", f"salvage ended by {last}, and not with {wanted}: {lines}")
        want(ended.returncode == (MAY_BE_OLDER if dropped else 0), f"status {ended.returncode} after {last}")
        self.tally["dropped", "something" if dropped else "nothing"] += 1

    def saved(self, world: World, files: Files, saved: pathlib.Path) -> str:
        """How much was saved, which recovers."""
        recovered, looked = self.ask("recover", saved), self.ask("inspect", saved, "--words")
        if recovered.returncode or looked.returncode:
            raise Wrong(f"what was saved isn't recovered: {' '.join(recovered.stderr.split())}")
        tick, words = int(recovered.stdout.split()[1]), [int(word) for word in looked.stdout.splitlines()[-1].split()]
        if tick < len(world.words) and words == world.words[tick]:
            return WHOLE if tick == len(world.words) - 1 else PART
        for name, data in files.items():
            pairs = enumerate(zip(data, world.files[name]))
            if any(one != other and not world.has_gate(name, place) for place, (one, other) in pairs):
                return CHANGED
        raise Wrong(f"tick {tick} was saved, and no ticks lead to its words")

    def run(self, worlds: int) -> str:
        """Damages so many worlds in each way. In one of four worlds two files are damaged."""
        for number in range(worlds):
            world = World(self.chance)
            for way in WAYS:
                self.try_one(world, way, 2 if number % 4 == 3 else 1)
        counts = [f"{way}: " + ", ".join(f"{how} {self.tally[way, how]}" for how in (WHOLE, PART, CHANGED, NONE)) for way in WAYS]
        met = {how for _, how in self.tally}
        if len(met) < 6:
            raise Wrong(f"only {', '.join(sorted(met))} came of it")
        counts.append(", ".join(f"{how} dropped {self.tally['dropped', how]}" for how in ("nothing", "something")))
        return f"salvage trial: {'; '.join(counts)}"


def main() -> int:
    """Runs the trial, and keeps the files where it fails."""
    parser = parser_of(__doc__, "of the worlds and of the damage")
    parser.add_argument("--worlds", type=int, default=40, help="how many worlds are damaged in each way (40)")
    given = parser.parse_args()
    chance = random.Random(given.seed)
    return status_in_folder("salvage_trial", given, lambda room: Trial(given.worldd, room, chance).run(given.worlds))


if __name__ == "__main__":
    sys.exit(main())
