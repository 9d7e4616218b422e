#!/usr/bin/env python3
"""Lays four files of each kind into folders, and compares what worldd makes of them with a plain model of the formats.

    scripts/files_trial.py crates/worldd/out/worldd
    scripts/files_trial.py WORLDD --sets 20000 --seed 7

Known files have known answers, as in docs/FORMATS.md. Random ones are whole, torn, hostile, emptied or mixed, in both formats.
Commands that read have to print the answer of file_model.py, and to write nothing. `create`, a start and a batch have to leave
its bytes. What looks lost is named on standard error, and is refused only with --refuse-losses.
"""
import collections
import concurrent.futures
import itertools
import pathlib
import random
import re
import resource
import shutil
import struct
import subprocess
import sys
from collections.abc import Iterator
from typing import NamedTuple

from file_model import MARK, MOST_KIND, TICK_MAX, Files, Found, Refused, Tick, image_at, image_of, logged, losses, printed, put
from file_model import recovery_of, segment_at, segment_of, started
from kill_trial import LIMIT, Batch, Request, Server, answer, changes, text_of
from salvage_trial import KINDS
from trial import METHODS, NAMES, QUIET, TRANSPORTS, Wrong, answer_to, compare, connect, flags_of, parser_of, ran
from trial import status_in_folder, summary, want

THREADS, SECONDS = 4, 60
READS = ("recover",), ("inspect", "--words"), ("status",), ("backup",)
SERVE, REFUSE = ("--every", "64", "--clients", "1"), "--refuse-losses"
# One of so many random sets of files is looked at by all that reads, and one of so many is served.
LOOKED, SERVED = 10, 12
# Files of more bytes are looked at by one command alone. A file may only grow to the limit where room is short.
LONG, LIMITED = 1 << 16, 1 << 16
# What was met. Each count has to grow.
SUMMARY = (
    "files trial: {rows} known and {sets} random sets: recovered from an image {alone} times, with a segment {one} and with both "
    "{two}; refused with 13 {none}, with 14 {image}, with 15 for a segment {log} and for an action {action}; of format 1 {old}, "
    "of format 2 {new}, of both {both}; looked lost: images {lost_image}, logs {lost_log}, ticks before a log {gap}; closed as "
    "no crash leaves them: images {odd_image}, log.a {odd_log_a}, log.a without a header {headless}, log.b {odd_log_b}; "
    "refused by the flag {refused}; served {served}, copied {copied}; {created} worlds made, {batches} batches logged, "
    "{statuses} statuses"
)


def check_errors(what: str, errors: str, files: Files, found: Found | Refused, refuses: bool) -> None:
    """A refusal has its code and a reason, which may be known. Else the first file that looks lost is named, and nothing more. If
    losses are refused, a log that is empty before any tick is named."""
    said = [line for line in errors.splitlines() if not re.search(" image of tick | the (port|socket) is closed", line)]
    if isinstance(found, Refused):
        wanted = [f"fault {found.code}", f"worldd: {found.reason}" if found.reason else "".join(said[1:])]
    else:
        named = [loss.reason.partition(": ")[2] for loss in losses(files, found, refuses)]
        if refuses and found.tick == 0:
            empty = [name for name, data in zip(NAMES[2:], files[2:]) if not data]
            named = [f"{name} is empty: if this world was played, its ticks are lost" for name in empty]
        wanted = [f"worldd: {name}" for name in named[:1]]
    compare(f"the errors of {what}", said, wanted)


# Known files, with what they recover to: a code, or the tick, that of the image, and the words.

Row = tuple[str, Files, int | tuple[int, int, list[int]]]
EMPTY, SHUT, SET = b"", b"\0", ("set", 0, 5)
NO_FILES = (EMPTY,) * 4
OLD_IMAGE = bytes.fromhex("01 0200000000000000 0300000000000000 0500000000000000 0700000000000000")
NEW_IMAGE = bytes.fromhex("01 0200000000000020 0300000000000000 0500000000000000 0700000000000000")
ZERO = bytes.fromhex("01 0100000000000000 0000000000000000 0000000000000000")
OLD_LOG = bytes.fromhex("01 0000000000000000 01 0100 0100 01 00000000 0500000000000000 00")
NEXT_LOG = bytes.fromhex("01 0100000000000000 01 0100 0100 02 00000000 0200000000000000 00")
SWAPS = bytes.fromhex("01 0000000000000020 01 0100 0200 04 00000000 01000000 05 00000000 0300000000000000 00")
LAST_LOG = segment_at(TICK_MAX - 1, ((),))
BAD_IMAGES = {
    "no cells": "01 0000000000000000 0000000000000000 0000000000000000",
    "no cells of format 2": "01 0000000000000020 0000000000000000 0000000000000000",
    "65,537 cells of format 1": "01 0100010000000000 0000000000000000" + "00" * 8 * 65_537,
    "1,048,577 cells": "01 0100100000000020 0000000000000000" + "00" * 8 * 1_048_577,
    "the greatest number of cells": "01 ffffffffffffffff 0000000000000000 0000000000000000",
    "a word above the greatest": "01 0100000000000000 0000000000000000 000064a7b3b6e00d",
    "a tick above the greatest": "01 0100000000000000 010064a7b3b6e00d 0000000000000000",
}
BAD_LOGS = {
    "a base above the greatest tick": "01 010064a7b3b6e00d 00",
    "a tick above the greatest": "01 000064a7b3b6e00d 01 0100 0000 00",
    "a group of no ticks": "01 0000000000000000 01 0000 00",
    "a group of 33 ticks": "01 0000000000000000 01 2100" + "0000" * 33 + "00",
    "a tick of 257 actions": "01 0000000000000000 01 0100 0101" + "01 00000000 0500000000000000" * 257 + "00",
    "65,537 ticks": "01 0000000000000000" + ("01 2000" + "0000" * 32) * 2048 + "01 0100 0000 00",
    "kind 0": "01 0000000000000000 01 0100 0100 00 00000000 0500000000000000 00",
    "kind 4 in format 1": "01 0000000000000000 01 0100 0100 04 00000000 01000000 00",
    "kind 5 in format 1": "01 0000000000000000 01 0100 0100 05 00000000 0500000000000000 00",
    "kind 6": "01 0000000000000020 01 0100 0100 06 00000000 0500000000000000 00",
}
ROWS: tuple[Row, ...] = (
    ("four empty files", NO_FILES, 13),
    ("one open gate", (b"\1", EMPTY, EMPTY, EMPTY), 13),
    ("a log alone", (EMPTY, EMPTY, OLD_LOG, EMPTY), 13),
    ("two images of a tick", (image_at(0, 1), image_at(0, 2), EMPTY, EMPTY), (0, 0, [1])),
    ("two images", (image_at(4, 1), image_at(5, 2, form=1), EMPTY, EMPTY), (5, 5, [2])),
    ("an image in image.a alone", (OLD_IMAGE, EMPTY, EMPTY, EMPTY), (3, 3, [5, 7])),
    ("an image in image.b alone", (EMPTY, NEW_IMAGE, EMPTY, EMPTY), (3, 3, [5, 7])),
    ("bytes after the words", (NEW_IMAGE + b"\1" * 9, SHUT, EMPTY, SHUT), (3, 3, [5, 7])),
    ("an image ahead of the log", (image_at(0, 0), image_at(2, 9), OLD_LOG, SHUT), (2, 2, [9])),
    ("a segment", (ZERO, EMPTY, OLD_LOG, EMPTY), (1, 0, [5])),
    ("bytes after the last gate", (ZERO, EMPTY, OLD_LOG + b"\1" * 9, SHUT), (1, 0, [5])),
    ("two segments", (ZERO, EMPTY, OLD_LOG, NEXT_LOG), (2, 0, [7])),
    ("two segments in the other order", (EMPTY, ZERO, NEXT_LOG, OLD_LOG), (2, 0, [7])),
    ("a segment without ticks before another", (ZERO, EMPTY, segment_at(0, form=1), OLD_LOG), (1, 0, [5])),
    ("two segments of one base", (ZERO, EMPTY, segment_at(0, ((("add", 0, 1),),)), OLD_LOG), (1, 0, [1])),
    ("an action that is refused", (ZERO, EMPTY, segment_at(0, ((("move", 0, 0, 0),),)), EMPTY), 15),
    ("less than nothing", (ZERO, EMPTY, OLD_LOG, put(NEXT_LOG, 19, struct.pack("<q", -6))), 15),
    ("a base one above", (ZERO, EMPTY, OLD_LOG, put(NEXT_LOG, 1, b"\2")), (1, 0, [5])),
    ("a closed log before another", (ZERO, EMPTY, put(OLD_LOG, 0, SHUT), NEXT_LOG), (0, 0, [0])),
    ("a base far above", (ZERO, EMPTY, OLD_LOG, segment_at(TICK_MAX)), (1, 0, [5])),
    ("both logs ahead", (ZERO, EMPTY, segment_at(3, ((SET,),)), segment_at(4)), (0, 0, [0])),
    ("a swap and a cap", (image_at(0, 5, 7), EMPTY, SWAPS, EMPTY), (1, 0, [3, 5])),
    ("an old image, and a swap and a cap", (image_at(0, 5, 7, form=1), EMPTY, SWAPS, EMPTY), (1, 0, [3, 5])),
    ("a swap of format 1", (image_at(0, 5, 7), EMPTY, put(SWAPS, 8, SHUT), EMPTY), 15),
    ("a new image and old logs", (image_at(0, 0), EMPTY, OLD_LOG, NEXT_LOG), (2, 0, [7])),
    ("logs of two formats", (ZERO, EMPTY, OLD_LOG, segment_at(1, ((("cap", 0, 2),),))), (2, 0, [2])),
    ("the last tick", (image_at(TICK_MAX, 0, form=1), EMPTY, EMPTY, EMPTY), (TICK_MAX, TICK_MAX, [0])),
    ("a base of the last tick", (image_at(TICK_MAX, 0), SHUT, segment_at(TICK_MAX), SHUT), (TICK_MAX, TICK_MAX, [0])),
    ("the last tick in a log", (image_at(TICK_MAX - 1, 0), SHUT, LAST_LOG, SHUT), (TICK_MAX, TICK_MAX - 1, [0])),
    ("three chunks", (image_at(0, *range(130)), SHUT, segment_at(0, ((SET,), ()), ((),)), SHUT), (3, 0, [5, *range(1, 130)])),
    ("the longest log", (image_at(0, 0), SHUT, segment_at(0, *[((),) * 32] * 2048), SHUT), (65_536, 0, [0])),
    ("the most cells of format 1", (image_at(0, *[7] * 65_536, form=1), EMPTY, EMPTY, SHUT), (0, 0, [7] * 65_536)),
    ("more cells", (image_at(0, *[7] * 65_537), EMPTY, OLD_LOG, SHUT), (1, 0, [5, *[7] * 65_536])),
    ("the most cells", (image_at(0, *[7] * 1_048_576), EMPTY, EMPTY, SHUT), (0, 0, [7] * 1_048_576)),
)


def rows() -> Iterator[Row]:
    """All known files: those above, bad ones, cut ones, and those with other gates and marks."""
    yield from ROWS
    for what, text in BAD_IMAGES.items():
        yield f"an image of {what}", (bytes.fromhex(text), EMPTY, EMPTY, EMPTY), 14
        yield f"an image beside one of {what}", (ZERO, bytes.fromhex(text), segment_at(0), SHUT), 14
        yield f"a bad segment beside an image of {what}", (ZERO, bytes.fromhex(text), b"\1" * 20, EMPTY), 14
    for what, text in BAD_LOGS.items():
        yield f"a segment of {what}", (ZERO, EMPTY, bytes.fromhex(text), EMPTY), 15
        yield f"no image beside a segment of {what}", (EMPTY, EMPTY, OLD_LOG, bytes.fromhex(text)), 15
    for length in range(len(OLD_IMAGE) + 1):
        found: int | tuple[int, int, list[int]] = 13 if length < 17 else 14 if length < 33 else (3, 3, [5, 7])
        yield f"an image cut to {length} bytes", (OLD_IMAGE[:length], EMPTY, EMPTY, EMPTY), found
    for length in range(len(OLD_LOG) + 1):
        found = (0, 0, [0]) if length < 10 else 15 if length < 27 else (1, 0, [5])
        yield f"a segment cut to {length} bytes", (ZERO, EMPTY, OLD_LOG[:length], EMPTY), found
    for mark in b"\x0f\x10\x1f\x2f\x30\x7f\x80\xff":
        yield f"an image of byte 8 {mark:02x}", (put(NEW_IMAGE, 8, bytes([mark])), EMPTY, EMPTY, EMPTY), 14
        yield f"a segment of byte 8 {mark:02x}", (ZERO, EMPTY, put(OLD_LOG, 8, bytes([mark])), EMPTY), 15
    for gate in b"\x00\x02\x10\x81\xff":
        yield f"an image with gate {gate:02x}", (put(OLD_IMAGE, 0, bytes([gate])), ZERO, OLD_LOG, SHUT), (1, 0, [5])
        yield f"a segment with gate {gate:02x}", (ZERO, EMPTY, put(OLD_LOG, 0, bytes([gate])), OLD_LOG), (1, 0, [5])
        yield f"a group with gate {gate:02x}", (ZERO, EMPTY, put(OLD_LOG, 9, bytes([gate])), SHUT), (0, 0, [0])


# Random files.

WAYS = "whole", "torn", "hostile", "emptied", "mixed"
# Places of numbers in an image and in a segment, with their sizes, and numbers at a limit.
PLACES = ((1, 8), (8, 1), (9, 8), (17, 8)), ((1, 8), (8, 1), (10, 2), (12, 2), (14, 1), (15, 4), (19, 8))
EDGES = 0, 1, 2, 3, 4, 5, 6, 32, 33, 256, 257, 65_536, 65_537, 1 << 20, LIMIT, TICK_MAX, TICK_MAX + 1, 1 << 60, (1 << 62) + 1


class World:
    """A small world, and files that a server may leave of it."""

    def __init__(self, chance: random.Random) -> None:
        self.chance, self.is_wild = chance, chance.random() < 0.1
        self.words = [chance.choice((0, chance.randrange(100), LIMIT)) for _ in range(chance.randrange(1, 4))]
        self.tick = chance.choice((0, 0, 0, 0, 1, 2, 3, 4, TICK_MAX - 3, TICK_MAX))
        is_new, images, logs = self.tick == 0, list[bytes](), list[bytes]()
        for _ in range(2):
            images.append(image_at(self.tick, *self.words, form=chance.choice((1, 2))))
            logs.append(self.segment(chance.choice((1, 2))))
        match chance.choice(("both images", "a round", "a start", "a switch")):
            case "a round":
                images[1] = (SHUT + images[1][1:])[: chance.randrange(1, len(images[1]) + 1)]
            case "a start":
                images[1], logs[1] = EMPTY if is_new else SHUT + images[1][1:], chance.choice((SHUT, b"\7" + logs[1][1:]))
            case "a switch":
                logs[1] = SHUT + logs[1][1:]
        self.files = *images[:: chance.choice((1, -1))], *logs[:: chance.choice((1, -1))]

    def segment(self, form: int) -> bytes:
        """The segment of some ticks, which are played."""
        base, groups = self.tick, list[tuple[Tick, ...]]()
        while self.chance.random() < 0.6 and self.tick < TICK_MAX:
            count = min(self.chance.randrange(1, 3), TICK_MAX - self.tick)
            groups.append(tuple(tuple(self.actions(form)) for _ in range(count)))
            self.tick += count
        return segment_at(base, *groups, form=form)

    def actions(self, form: int) -> Iterator[Request]:
        """The actions of a tick. Those of a wild world may be refused."""
        for _ in range(self.chance.randrange(4)):
            action = random_action(self.chance, len(self.words), form)
            changed = changes(self.words, action)
            for cell, word in changed.items() if isinstance(changed, dict) else ():
                self.words[cell] = word
            if self.is_wild or isinstance(changed, dict):
                yield action


def random_action(chance: random.Random, cells: int, form: int) -> Request:
    """An action of a format on so many cells, which may be beyond a bound."""
    kind = chance.choice([name for name, (number, _) in KINDS.items() if number <= MOST_KIND[form]])
    first, second = (chance.randrange(cells) if chance.random() < 0.95 else chance.choice((cells, 2**32 - 1)) for _ in "ab")
    amount = chance.randrange(10) if chance.random() < 0.9 else chance.choice((LIMIT, LIMIT + 1))
    match kind:
        case "add":
            return kind, first, chance.choice((1, -1)) * amount
        case "move":
            return kind, first, second, amount
        case "swap":
            return kind, first, second
        case _:
            return kind, first, amount


def random_files(chance: random.Random, way: str) -> Files:
    """Files that a server left, and perhaps what was made of them."""
    files = list(World(chance).files)
    if way == "mixed":
        return tuple(map(chance.choice, zip(files, World(chance).files)))
    for place in chance.sample(range(4), chance.choice((1, 1, 2, 3))):
        data, end = files[place], chance.randrange(len(files[place]) + 1)
        match way:
            case "torn":
                filled = data[:end] + chance.choice((b"\0", b"\1", b"\xff")) * (len(data) - end)
                files[place] = chance.choice((data[:end], filled, data + chance.randbytes(30), chance.randbytes(1) + data[1:]))
            case "hostile":
                at, size = chance.choice(PLACES[place // 2])
                number = chance.randrange(8) << chance.choice((0, 4))
                if size > 1:
                    number = chance.choice(EDGES) + chance.choice((0, MARK))
                if at + size <= len(data):
                    files[place] = put(data, at, number.to_bytes(8, "little")[:size])
            case "emptied":
                files[place] = chance.choice((EMPTY, EMPTY, SHUT))
    return tuple(files)


def random_batch(chance: random.Random, cells: int) -> Batch:
    """A look at each cell, some actions, and a look at each cell again."""
    looks = [("get", cell) for cell in range(cells)]
    return *looks, *(random_action(chance, cells, 2) for _ in range(chance.randrange(6))), *looks


# The trial.


def status_of_look(files: Files, found: Found | Refused, refuses: bool) -> int:
    """The exit status of a command that reads. If losses are refused, the world may be older beside a log that is empty before
    any tick."""
    if isinstance(found, Refused):
        return 1
    return 14 if refuses and found.tick == 0 and not all(files[2:]) else 0


class Set(NamedTuple):
    """Four files, the name of their folder, how many commands look at them, and whether they are served."""

    name: str
    files: Files
    looks: int
    is_served: bool


class Trial:
    """Folders with files, and the counts so far."""

    def __init__(self, worldd: str, room: pathlib.Path, seed: int) -> None:
        self.worldd, self.room, self.seed = worldd, room, seed
        self.tally: collections.Counter[str] = collections.Counter()

    def folder(self, name: str, files: Files = ()) -> pathlib.Path:
        """A new folder with these files."""
        folder = self.room / name
        folder.mkdir()
        for file, data in zip(NAMES, files):
            (folder / file).write_bytes(data)
        return folder

    def look(self, folder: pathlib.Path, files: Files, found: Found | Refused, *words: str) -> None:
        """A command that reads prints what the model has found."""
        command, *flags = words
        copy = self.folder(f"{folder.name}, copy") if command == "backup" else None
        ended = ran(self.worldd, command, folder, *flags, *(["--to", str(copy)] if copy else []))
        wanted = status_of_look(files, found, REFUSE in flags), printed(command, files, found)
        compare(" ".join(words), (ended.returncode, ended.stdout), wanted)
        check_errors(" ".join(words), ended.stderr, files, found, REFUSE in flags)
        if copy:
            if isinstance(found, Found):
                compare("a copy", recovery_of(read(copy)), found)
            shutil.rmtree(copy)

    def serve(self, folder: pathlib.Path, files: Files, found: Found | Refused, chance: random.Random, *flags: str) -> None:
        """A server starts on the files, plays a batch, and leaves the bytes of the model after each of both."""
        flags = *self.listening(folder, chance.choice(METHODS), chance.choice(TRANSPORTS)), *flags
        if isinstance(found, Refused):
            ended = ran(self.worldd, "serve", folder, *flags)
            compare("serve", (ended.returncode, ended.stdout), (1, ""))
            check_errors("serve", ended.stderr, files, found, REFUSE in flags)
            return
        left, words, batch, last = started(files, found), list(found.words), random_batch(chance, len(found.words)), found.tick
        line = "fault 21"
        with Server([self.worldd, "serve", "--dir", folder, *flags], folder.with_suffix(".errors")) as server:
            server.begin(f"recovered {found.tick} from {found.source}")
            address = server.listen()
            compare("the files after the start", read(folder), left)
            if found.tick < TICK_MAX:
                last += 1
                line = answer(words, batch, last)
                left, _ = logged(left, 9, batch, line)
            compare("the answer", answer_to(connect(address), text_of(batch)), f"{line}\n")
            compare("the end", server.end(), f"stopped tick {last} acked {last}")
        check_errors("serve", server.errors.read_text(), files, found, REFUSE in flags)
        compare("the files after a batch", read(folder), left)

    def listening(self, folder: pathlib.Path, method: str, transport: str) -> list[str]:
        """The flags of a server of this method that listens, for one client."""
        return ["--method", method, *SERVE, *flags_of(transport, self.room / f"socket of {folder.name.split(',')[0]}")]

    def try_set(self, tried: Set) -> tuple[collections.Counter[str], str]:
        """Tries four files. It gives what was met, and what was wrong if anything was; the folder stays then."""
        name, files, looks, is_served = tried
        found, chance, met = recovery_of(files), random.Random(f"{self.seed} {name}"), collections.Counter[str]()
        lost = [] if isinstance(found, Refused) else losses(files, found, refuses=True)
        met.update({loss.why for loss in lost})
        if isinstance(found, Refused):
            met[found.why] += 1
        else:
            forms = {held.form for held in (*map(image_of, files[:2]), *map(segment_of, files[2:])) if held}
            met.update([("alone", "one", "two")[found.parts], "both" if len(forms) == 2 else "old" if forms == {1} else "new"])
        folder = self.folder(name, files)
        try:
            for words in READS[:looks]:
                self.look(folder, files, found, *words)
                if lost or looks == len(READS):
                    self.look(folder, files, lost[0] if lost else found, *words, REFUSE)
            if is_served and lost:
                self.serve(folder, files, lost[0], chance, REFUSE)
            compare("the files after looks", read(folder), files)
            if is_served:
                self.serve(folder, files, found, chance, *[REFUSE] * (not lost and chance.random() < 0.5))
        except (Wrong, OSError, subprocess.SubprocessError) as wrong:
            return met, f"{name}: {wrong}"
        shutil.rmtree(folder)
        is_found = isinstance(found, Found)
        met.update(refused=len(lost) > 0, served=is_served and is_found, copied=looks == len(READS) and is_found)
        return met, ""

    def try_sets(self, sets: int) -> None:
        """Tries all known files and so many random ones, some at once."""
        tried = list[Set]()
        for number, (what, files, wanted) in enumerate(rows()):
            found = recovery_of(files)
            compare(f"the model of {what}", found[0] if isinstance(found, Refused) else (*found[:2], found[3]), wanted)
            is_long = sum(map(len, files)) > LONG
            tried.append(Set(f"row {number}, {what}", files, 1 if is_long else len(READS), number < len(ROWS) and not is_long))
        self.tally.update(rows=len(tried), sets=sets)
        for number in range(sets):
            way = WAYS[number % len(WAYS)]
            files = random_files(random.Random(f"{self.seed} {number}"), way)
            looks = len(READS) if number // len(WAYS) % LOOKED == 0 else 2
            tried.append(Set(f"set {number}, {way}", files, looks, number % SERVED == 0))
        with concurrent.futures.ThreadPoolExecutor(THREADS) as pool:
            outcomes = list(pool.map(self.try_set, tried))
        for met, _ in outcomes:
            self.tally.update(met)
        wrong = [wrong for _, wrong in outcomes if wrong]
        want(not wrong, f"{len(wrong)} of {len(tried)} sets: " + "\n".join(wrong[:10]))

    def try_creating(self) -> None:
        """New worlds, also over closed files, have the bytes of the model."""
        closed = b"\0" * 20, b"\7" + NEW_IMAGE[1:], b"\2" + OLD_LOG[1:], SHUT + NEXT_LOG[1:]
        short = OLD_IMAGE[:16], OLD_IMAGE[:1], OLD_LOG[:9], NEXT_LOG[:9]
        for number, (cells, files) in enumerate(itertools.product((1, 2, 63, 64, 65, 1000), ((), closed, short))):
            folder = self.folder(f"new {number}", files)
            ended = ran(self.worldd, "create", folder, "--cells", str(cells))
            compare("create", (ended.returncode, ended.stdout, ended.stderr), (0, f"created {cells}\n", ""))
            compare(f"{cells} new cells over {files}", read(folder), started(files or NO_FILES, None, cells))
            self.tally["created"] += 1

    def try_batches(self) -> None:
        """A server logs each batch of a client as one group. The first batch leaves the bytes of docs/FORMATS.md."""
        chance = random.Random(self.seed)
        batches: list[Batch] = [(("swap", 0, 1), ("cap", 0, 3)), (SET,), (), (("foo",), ("get", 0))]
        batches += (random_batch(chance, 2) for _ in range(40))
        for method, transport in itertools.product(METHODS, TRANSPORTS):
            folder = self.folder(f"{method} {transport}")
            want(ran(self.worldd, "create", folder, "--cells", "2").returncode == 0, "no world is made")
            files, words, at = started(NO_FILES, None, 2), [0] * 2, 9
            flags = self.listening(folder, method, transport)
            with Server([self.worldd, "serve", "--dir", folder, *flags], folder.with_suffix(".errors")) as server:
                server.begin("recovered 0 from 0")
                with connect(server.listen()) as client, client.makefile(encoding="ascii") as reader:
                    for tick, batch in enumerate(batches, 1):
                        client.sendall(text_of(batch))
                        line = answer(words, batch, tick)
                        compare("the answer", reader.readline(), f"{line}\n")
                        files, at = logged(files, at, batch, line)
                        compare(f"the files after tick {tick}", read(folder), files)
                        want(tick > 1 or files[2] == SWAPS, "the first batch has other bytes")
                compare("the end", server.end(), f"stopped tick {len(batches)} acked {len(batches)}")
            self.tally["batches"] += len(batches)

    def status(self, status: int, begin: str, line: str, most: int = 0) -> None:
        """The status of a command line, and the beginning of what it prints on standard error. A file may have a most length."""
        limit = (lambda: resource.setrlimit(resource.RLIMIT_FSIZE, (most, most))) if most else None
        pipe, command = subprocess.PIPE, [self.worldd, *line.split()]
        ended = subprocess.run(command, stdin=QUIET, stdout=pipe, stderr=pipe, timeout=SECONDS, cwd=self.room, preexec_fn=limit)
        compare(f"worldd {line}", (ended.returncode, ended.stderr[: len(begin)].decode()), (status, begin))
        self.tally["statuses"] += 1

    def try_statuses(self) -> None:
        """Wrong command lines have status 2, faults have 1, and a shortage has 13 only if detailed statuses are asked for."""
        worlds = {"none": NO_FILES, "image": (OLD_IMAGE[:20], *NO_FILES[:3]), "log": (ZERO, EMPTY, OLD_LOG[:20], EMPTY)}
        for name, files in (worlds | dict.fromkeys(("made", "empty", "large", "filled"), ())).items():
            self.folder(name, files)
        (self.room / "filled" / "notes").touch()
        self.status(0, "", "create --dir made --cells 2")
        serve, largest = "serve --method zigzag --clients 1 --socket s", "create --dir large --cells 1048576"
        reading = "recover", "inspect", "status", "backup --to empty", serve
        for line in (*reading, "create --cells 2", "salvage --to empty"):
            for flags in ("", " --dir made --statuses all", " --dir made --refuse", " --dir made more"):
                self.status(2, "error: ", line + flags)
        for line, detailed in itertools.product(reading, ("", " --statuses detailed")):
            for name, code in ("none", 13), ("image", 14), ("log", 15), ("absent", 18):
                self.status(1, f"fault {code}\n", f"{line} --dir {name}{detailed}")
        for line in "", "stepz", "steps more", "create --dir made --cells 0", f"{serve} --dir made --every 0":
            self.status(2, "error: ", line)
        for line in "create --dir made --cells 2", "backup --dir made --to filled", "salvage --dir made --to filled":
            self.status(1, "fault 22\n", line)
        self.status(1, "fault 18\n", largest, LIMITED)
        self.status(13, "fault 18\n", f"{largest} --statuses detailed", LIMITED)

    def run(self, sets: int) -> str:
        """Tries all that is known, and so many random sets."""
        self.try_creating()
        self.try_batches()
        self.try_statuses()
        self.try_sets(sets)
        return summary(SUMMARY, self.tally)


def read(folder: pathlib.Path) -> Files:
    """The bytes of the four files in a folder, which has no other."""
    want({path.name for path in folder.iterdir()} == set(NAMES), f"{folder} has other files")
    return tuple((folder / name).read_bytes() for name in NAMES)


def main() -> int:
    """Runs the trial, and keeps the files where it fails."""
    parser = parser_of(__doc__, "of the files and of the batches", has_dir=True)
    parser.add_argument("--sets", type=int, default=2000, help="how many random sets of files are tried (2,000)")
    given = parser.parse_args()
    return status_in_folder("files_trial", given, lambda room: Trial(given.worldd, room, given.seed).run(given.sets))


if __name__ == "__main__":
    sys.exit(main())
