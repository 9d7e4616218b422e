#!/usr/bin/env python3
"""Tries the guard of a world: the file by which `worldd` knows that older files were put in the place of newer ones.

    scripts/guard_trial.py crates/worldd/out/worldd
    scripts/guard_trial.py WORLDD --rounds 40 --seed 7
    scripts/guard_trial.py WORLDD --all
    scripts/guard_trial.py WORLDD --only mixtures

Files of older backups are put beside newer ones in each way. A start has to refuse what is older than the guard. Servers are
killed, and calls on the guard fail: no world may be refused then, and no answered tick may be lost. The guard is read again and
again while clients play. It has to be whole, and never ahead of the world. Parts wait for guards, so two of them run at once.
"""
import collections
import concurrent.futures
import contextlib
import errno
import functools
import itertools
import os
import pathlib
import random
import re
import shutil
import signal
import struct
import subprocess
import sys
import threading
import time
from collections.abc import Callable, Iterator, Sequence
from typing import NamedTuple

import kill_trial
import surroundings_trial
from kill_trial import collected, judge
from trial import METHODS, NAMES, PATIENCE_SECONDS, PORT, Words, Wrong, all_met, ask, compare, flags_of, found_in_text
from trial import library_of, parser_of, pipe, ran, status_in_folder, want

GUARD, NEW_GUARD = "guard", "guard.new"
ALL_NAMES = {*NAMES, GUARD}
# The mark at the front of a guard, and how many bytes one has.
MARK, BYTES = 0x6472_6175_6764_6C72, 48
# A batch plays with one of the first cells, and counts in the next one.
PLAYED = 20
COUNT, CELLS = PLAYED, PLAYED + 4
# The exit status of a world that is named as older.
OLDER = 14
ACCEPT, ASK = "--accept-loss", "--guard"
LOOKS = "recover", "inspect", "status", "backup", "salvage"
COPYING = "backup", "salvage"
NOT_A_GUARD = "it isn't the guard of a world: remove it to go on without one"
NOT_WRITTEN = "worldd: the guard wasn't written: "
ACCEPTED = "worldd: the loss is accepted: numbers after tick %d are given again, since a log has no gap"
# What recovery itself says of four files that don't belong together: no image is open, or a file is damaged.
OF_RECOVERY = "fault 13", "fault 14", "fault 15"

# The histories: how often images are due, how a backup is taken, how many ticks are played before it, how many after it, and
# if the server is killed and started again before these. A copy under a server that stands still is tried with fewer.
EVERY, TAKING, BACKUP, COPY = (1, 4, 16, 4096), ("backup", "copy"), "backup", "copy"
AFTER = (1, False), (3, False), (7, False), (25, False), (80, False), (7, True), (25, True)
BEFORE, FEWER_BEFORE, FEWER_AFTER = (0, 5, 18), (0, 5), tuple(AFTER[place] for place in (0, 2, 3, 5, 6))
# The histories of two branches: ticks before the backup, and after it in the world and in the served backup.
FORKED_BEFORE, BRANCHES = (3, 18), ((3, 3), (3, 9), (12, 9), (40, 25))
# The mark of a tick is this and its number, so that each branch has words of its own.
BASE, WORLD, BACKED_UP = 1, 1_000, 1_000_000
# All proper subsets of the files.
SUBSETS = [subset for size in range(1, len(NAMES)) for subset in itertools.combinations(NAMES, size)]
SETTLING_SECONDS = 0.05
# How long after files were replaced their server has seen it, and after which time it would have written a guard.
NOTICED_SECONDS, WRITTEN_SECONDS = 0.8, 1.3

# How long a guard is looked at, and a server plays before it is killed.
SAMPLED_SECONDS, PLAY_SECONDS = 3.2, (0.05, 2.0)
# How many copies of a served world are taken. A slow one, while images are rare, waits so long at most after each read. Its
# client pauses longer after each batch, since a copy begins anew if a tick is played before its last read.
COPIES, SLOW_COPIES, SLOWED_MICROSECONDS = 8, 4, 15_000
PAUSE_SECONDS, LONGER_SECONDS = 0.001, 0.02
# After how many samples other commands look at the world.
LOOKED = 200
# The calls by which a guard is written. The folder has the name ".".
FOLDER = "."
CALLS = *((call, NEW_GUARD) for call in ("open", "write", "fsync", "rename")), ("open", FOLDER), ("fsync", FOLDER)
# Those after the rename. A guard has its place then, though its name isn't synced.
LATE = CALLS[4:]
READS = ("statx", GUARD), ("open", GUARD), ("read", GUARD)
# Which call of each kind is that of a start's guard, of the first one in play, and of the one at the stop. A start opens its
# folder once before, to sync it, and once after.
START, PLAY, STOP = MOMENTS = "at a start", "in play", "at the stop"
PLACES = {
    **{call: dict(zip(MOMENTS, (1, 2, 3))) for call in CALLS},
    ("open", FOLDER): dict(zip(MOMENTS, (2, 4, 5))),
    ("fsync", FOLDER): dict(zip(MOMENTS, (2, 3, 4))),
}
ERRORS = errno.EIO, errno.ENOSPC, errno.EMFILE
# The errors by which a process is killed in place of a call, and by which a call never ends.
KILLED, NEVER = 0, -1
# So many calls fail where all of them do, and that is looked at for so long.
ALWAYS, FAILING_SECONDS = 1_000, 2.7
# The sync of the log that fails, and how many batches are sent after it.
FAILED_PLACE, SENT_ON = 12, 10
# Few images, so that none wakes the writer of the guard.
RARE = 65_536
# What is printed of a checked world, and the status. A hang is known after so many seconds, and a world that is well again after
# fewer.
WELL, UNGUARDED = ("well", 0), ("well, except that it has no guard to show a hang", 0)
IMAGES_DOWN, LOG_DOWN, REPLACED = ("images down", 11), ("log down", 12), ("files were removed or replaced", 12)
NOT_SERVED, HANGS = ("not served", 15), (r"hangs: no sign of life for \d+ seconds", 16)
HANGS_SECONDS, AGAIN_SECONDS = 10, 3

# Variables of a process, beside those of the trial.
Variables = dict[str, str]
NONE: Variables = {}


class Guard(NamedTuple):
    """The fields of a guard."""

    world: int
    starts: int
    acked: int
    image: int
    seconds: int


def guard_of(folder: pathlib.Path) -> Guard:
    """The guard in a folder. It is whole at any moment, since it takes its place by a rename."""
    data = (folder / GUARD).read_bytes()
    want(len(data) == BYTES, f"{folder / GUARD} has {len(data)} bytes")
    mark, *fields = struct.unpack("<6Q", data)
    want(mark == MARK, f"{folder / GUARD} begins with {mark:#x}")
    return Guard(*fields)


def older_line(tick: int, guard: Guard) -> str:
    """What is printed of a world of this tick that is older than its guard."""
    found = f"worldd: tick {tick} was recovered, and the guard has tick {guard.acked} at @{guard.seconds}"
    return f"{found}: restore newer files, or serve them by --accept-loss\n"


def status_line(guard: Guard) -> str:
    """What `status` prints of a guard."""
    tick = f"guard: tick {guard.acked} at @{guard.seconds}, image of tick {guard.image}"
    return f"{tick}, start {guard.starts} of world {guard.world}"


def reason_of(error: int) -> str:
    """What is printed of an error."""
    return "the disk is full" if error == errno.ENOSPC else f"{os.strerror(error)} (os error {error})"


def call_text(call: str, name: str) -> str:
    """The words for a call."""
    return f"{call} of {'the folder' if name == FOLDER else name}"


def names_in(folder: pathlib.Path) -> set[str]:
    """The names of all files of a folder."""
    return {path.name for path in folder.iterdir()}


def words_of(marks: Sequence[int]) -> list[int]:
    """The words after ticks of these marks."""
    words = [0] * CELLS
    for place, mark in enumerate(marks):
        words[place % PLAYED] += mark
    words[COUNT] = len(marks)
    return words


def copy_files(world: pathlib.Path, to: pathlib.Path, names: Sequence[str] = NAMES) -> None:
    """Copies files of a world over those of another folder."""
    for name in names:
        shutil.copyfile(world / name, to / name)


def awaited_guard(folder: pathlib.Path, tick: int) -> Guard:
    """The guard of a served world once it has this tick, at which the world stays."""
    end = time.monotonic() + PATIENCE_SECONDS
    while (guard := guard_of(folder)).acked != tick:
        want(time.monotonic() < end and guard.acked < tick, f"the guard has tick {guard.acked}, and the world tick {tick}")
        time.sleep(0.02)
    return guard


CASES = (
    "made by create", "made with words", "no guard unasked", "made by serve", "kept by serve", "start counted",
    "line of status", "guard of a stop", "read in play", "grown in play", "looked at in play", "hung", "log down",
    "whole", "older named", "older refused", "same bytes", "fork whole", "fork older named", "copied over", "replaced",
    "copied over and refused", "killed", "killed after a guard in play", "start killed",
    *(f"calls killed {moment}" for moment in (START, PLAY)), *(f"calls failed {moment}" for moment in MOMENTS),
    *(f"failed by {errno.errorcode[error]}" for error in ERRORS), "reads tried again", "reads failed twice", "named once",
    "create without its guard", "copied in play", "slowly copied in play", "copy of an older world refused",
    "salvaged without one", "copy taken back", *(f"{command} names an older world" for command in LOOKS), "loss refused",
    "loss accepted", "nothing to accept", "loss not accepted before its guard",
    *(f"{command} refuses what is no guard" for command in (*LOOKS, "serve")), "gone on without one",
    *(f"checked as {what}" for what in (
        "well", "unguarded", "not served", "older", "log down", "images down", "replaced", "hung at its log", "stopped",
        "gone on", "idle",
    )),
)
# What has to be met of each call, and isn't printed.
CALL_CASES = (
    *(f"{call_text(*call)} killed {moment}" for call in CALLS for moment in (START, PLAY)),
    *(f"{call_text(*call)} failed {moment}" for call in CALLS for moment in MOMENTS),
    *(f"{call_text(*call)} {how}" for call in READS for how in ("tried again", "failed twice")),
)


class Server(kill_trial.Server):
    """A server that has begun: the tick that it recovered, and where it listens."""

    def __init__(self, command: Words, errors: pathlib.Path) -> None:
        super().__init__(command, errors)
        try:
            line = self.line()
            match = re.fullmatch(r"recovered (\d+) from \d+", line)
            if match is None:
                raise Wrong(f"serve began with `{line}`{self.complaint()}")
            self.tick, self.address = int(match[1]), self.listen()
        except Wrong:
            self.__exit__()
            raise

    def __enter__(self) -> "Server":
        return self

    def ended(self, tick: int) -> None:
        """Waits until it ends well after this tick."""
        compare("the end", self.end(), f"stopped tick {tick} acked {tick}")


class Client(surroundings_trial.Client):
    """A connection that plays ticks of known marks."""

    def __init__(self, server: Server, marks: list[int]) -> None:
        super().__init__(server.address)
        self.marks = marks

    def play_on(self, count: int, base: int = BASE) -> None:
        """Plays so many ticks, each of which has to be the next one."""
        for _ in range(count):
            place = len(self.marks)
            mark = base + place
            line = self.play(b"add %d %d\nadd %d 1\n" % (place % PLAYED, mark, COUNT))
            want(line == b"tick %d: + +\n" % (place + 1), f"tick {place + 1} was answered {line!r}")
            self.marks.append(mark)


class Kills(kill_trial.Trial):
    """A world with a guard whose servers are killed at random moments, by the plain model of kill_trial.py."""

    def serve(self, run: int) -> kill_trial.Server:
        """Starts a server by either method. The first one makes the guard."""
        settings = ["--method", METHODS[run % 2], "--every", str(kill_trial.EVERY), "--clients", str(kill_trial.CLIENTS)]
        flags = [*settings, *flags_of(PORT, self.socket), *[ASK] * (run == 0)]
        return kill_trial.Server([self.worldd, "serve", "--dir", str(self.room / "world"), *flags], self.room / "complaints")

    def guarded(self, starts: range) -> Guard:
        """What is recovered is never older than the guard, which has counted so many starts."""
        guard, self.found = guard_of(self.room / "world"), self.look()
        want(guard.acked <= self.found.tick, f"{self.found.line}, and the guard has tick {guard.acked}")
        want(guard.starts in starts, f"the guard has start {guard.starts}, and not one of {starts}")
        return guard

    def kill_guarded(self, run: int, starts: int) -> bool:
        """Kills a server at a random moment of play. It says if the guard was written in play before."""
        before = self.found
        with self.serve(run) as server:
            clients, end = self.play(server, run, None), time.monotonic() + PATIENCE_SECONDS
            # The first one is killed after a guard in play for certain.
            while run == 0 and guard_of(self.room / "world").acked <= before.tick:
                want(time.monotonic() < end, "no guard is written in play")
                time.sleep(SETTLING_SECONDS)
            time.sleep(self.chance.uniform(*PLAY_SECONDS))
            server.kill()
            answered, unanswered = collected(clients, before.tick)
        guard = self.guarded(range(starts, starts + 1))
        judge(before, self.found, answered, unanswered)
        return guard.acked > before.tick

    def kill_guarded_start(self, run: int, starts: int) -> int:
        """Kills a server at a random moment of its start. It gives how many starts are counted."""
        with self.serve(run) as server:
            time.sleep(self.chance.uniform(0, self.start_seconds))
            server.kill()
        return self.guarded(range(starts, starts + 2)).starts


class Trial:
    """The parts, and how often each case was met."""

    def __init__(self, worldd: str, room: pathlib.Path, seed: int, rounds: int, tries_all: bool) -> None:
        self.worldd, self.room, self.seed, self.rounds, self.tries_all = worldd, room, seed, rounds, tries_all
        self.met: collections.Counter[str] = collections.Counter()
        self.lock, self.folders = threading.Lock(), itertools.count()
        self.library, self.slow = library_of("failed_call.c", room), library_of("slow_reads.c", room)

    # What parts share.

    def meet(self, *cases: str) -> None:
        """Counts these cases."""
        with self.lock:
            self.met.update(cases)

    def chance(self, part: str) -> random.Random:
        """The random choices of a part, which are the same whatever runs beside it."""
        return random.Random(f"{self.seed} {part}")

    def folder(self) -> pathlib.Path:
        """A new folder."""
        folder = self.room / f"folder{next(self.folders)}"
        folder.mkdir()
        return folder

    def world(self, *flags: str) -> pathlib.Path:
        """A folder with a new world."""
        folder = self.folder()
        compare("create", ask(self.worldd, "create", folder, "--cells", str(CELLS), *flags).stdout, f"created {CELLS}\n")
        return folder

    def failing(self, call: str, name: str, place: int, error: int, count: int = 1) -> tuple[Variables, pathlib.Path]:
        """The variables of a process of which so many calls fail by this error, and the file that is there from then on."""
        failed = self.room / f"failed{next(self.folders)}"
        variables = {"FAILED_CALL": f"{call} {name} {place} {error} {count}", "FAILED_ONCE": str(failed)}
        return variables | {"LD_PRELOAD": str(self.library)}, failed

    def command(
        self, folder: pathlib.Path, *flags: str, every: int = EVERY[1], clients: int = 1, variables: Variables = NONE
    ) -> Words:
        """The command of a server that lets the system choose its port."""
        settings = ["env", *(f"{name}={value}" for name, value in variables.items())] if variables else []
        method = ["--method", METHODS[next(self.folders) % 2], "--every", str(every)]
        return [*settings, self.worldd, "serve", "--dir", folder, *method, "--port", "0", "--clients", str(clients), *flags]

    def starting(
        self, folder: pathlib.Path, *flags: str, every: int = EVERY[1], variables: Variables = NONE
    ) -> kill_trial.Server:
        """A server that may not come to its beginning."""
        command = self.command(folder, *flags, every=every, variables=variables)
        return kill_trial.Server(command, self.room / f"errors{next(self.folders)}")

    def serve(
        self, folder: pathlib.Path, *flags: str, every: int = EVERY[1], clients: int = 1, variables: Variables = NONE
    ) -> Server:
        """A server of a world."""
        command = self.command(folder, *flags, every=every, clients=clients, variables=variables)
        return Server(command, self.room / f"errors{next(self.folders)}")

    def refused(self, folder: pathlib.Path, *flags: str, variables: Variables = NONE) -> str:
        """What a start prints on standard error that has to be refused before it has found a world."""
        with self.starting(folder, *flags, variables=variables) as server:
            line = server.line()
            want(not line, f"a start isn't refused, and began with `{line}`{server.complaint()}")
            compare("the status of a start that is refused", server.process.wait(), 1)
        return server.errors.read_text()

    def refused_as_older(self, folder: pathlib.Path, tick: int, guard: Guard, *flags: str) -> None:
        """A start is refused that recovers this tick. It leaves the guard as it is."""
        wanted = older_line(tick, guard).replace("worldd: ", "fault 15\nworldd: a log file is damaged: ", 1)
        compare("a start of an older world", self.refused(folder, *flags), wanted)
        compare("the guard after a refused start", guard_of(folder), guard)

    def look(
        self, command: str, folder: pathlib.Path, to: pathlib.Path, *flags: str, variables: Variables = NONE
    ) -> subprocess.CompletedProcess[str]:
        """Runs a command that reads a world, and that may copy it into a folder."""
        copying = ("--to", str(to)) if command in COPYING else ()
        return ran(self.worldd, command, folder, *flags, *copying, **variables)

    def serve_on(
        self, folder: pathlib.Path, marks: list[int], *flags: str, count: int = 1, every: int = EVERY[1]
    ) -> Guard:
        """A world goes on for so many ticks, and its server ends well. It gives the guard that is left."""
        with self.serve(folder, *flags, every=every) as server:
            compare("the tick of a start", server.tick, len(marks))
            client = Client(server, marks)
            client.play_on(count)
            client.leave()
            server.ended(len(marks))
        compare("what a server says", server.said(), [])
        guard = guard_of(folder)
        compare("the tick of the guard after a stop", guard.acked, len(marks))
        return guard

    @contextlib.contextmanager
    def played(self, server: Server, pause: float = 0) -> Iterator[kill_trial.Client]:
        """A client that plays meanwhile, with a pause of so many seconds after each batch."""
        stop = threading.Event()
        plan = ((("add", 0, 1),) for _ in itertools.takewhile(lambda _: not stop.wait(pause), itertools.count()))
        player = kill_trial.Client(server.address, plan, server.killed)
        player.start()
        try:
            yield player
        finally:
            stop.set()
            player.join()
            want(player.wrong is None, f"a client: {player.wrong}")

    # 1. Flags and fields.

    def made(self) -> None:
        """`create` makes a guard if it is asked to, and each has a number of its own."""
        words = self.room / "words"
        words.write_text("5 9\n")
        numbers = []
        for flag, value, case in ("--cells", "2", "made by create"), ("--words", str(words), "made with words"):
            folder, before = self.folder(), int(time.time())
            ended = ask(self.worldd, "create", folder, flag, value, ASK)
            compare("create", (ended.stdout, ended.stderr), ("created 2\n", ""))
            compare("the files of a new world", names_in(folder), ALL_NAMES)
            guard = guard_of(folder)
            compare("a new guard", guard[1:4], (0, 0, 0))
            want(before <= guard.seconds <= time.time(), f"a new guard has the time {guard.seconds}")
            numbers.append(guard.world)
            self.meet(case)
        want(numbers[0] != numbers[1], f"two worlds have the number {numbers[0]}")

    def unasked(self) -> None:
        """A world without a guard gets none, and nothing is printed of one."""
        folder, marks = self.world(), list[int]()
        with self.serve(folder) as server:
            client = Client(server, marks)
            client.play_on(9)
            client.leave()
            server.ended(9)
        compare("what a server says without a guard", server.said(), [])
        for command in LOOKS:
            ended = self.look(command, folder, self.folder())
            is_silent = GUARD not in ended.stdout and not ended.stderr
            want(ended.returncode == 0 and is_silent, f"{command} without a guard: {ended.stdout}{ended.stderr}")
        compare("the files of a world without a guard", names_in(folder), set(NAMES))
        first = self.serve_on(folder, marks, ASK)
        compare("the starts of a guard that serve made", first.starts, 1)
        self.meet("no guard unasked")
        self.meet("made by serve")
        again = self.serve_on(folder, marks)
        compare("the start of a world with a guard", (again.starts, again.world), (2, first.world))
        self.meet("kept by serve")

    def fields(self) -> None:
        """Each start and each stop leaves the fields of its world in the guard, and `status` prints them."""
        for at_create, at_start in ("", ASK), (ASK, ""):
            folder, marks = self.world(*at_create.split()), list[int]()
            world = guard_of(folder).world if at_create else None
            for starts, count in enumerate((9, 0, 1, 30), 1):
                with self.serve(folder, *at_start.split()) as server:
                    guard, image = guard_of(folder), self.image_of(folder)
                    compare("the guard of a start", guard[1:4], (starts, len(marks), image))
                    want(world in (None, guard.world), f"the number {guard.world} in place of {world}")
                    world = guard.world
                    self.meet("start counted")
                    client = Client(server, marks)
                    client.play_on(count)
                    client.leave()
                    server.ended(len(marks))
                compare("what a server says", server.said(), [])
                left = guard_of(folder)
                compare("the guard of a stop", left[:4], (world, starts, len(marks), self.image_of(folder)))
                want(guard.seconds <= left.seconds <= time.time(), f"the time {left.seconds} after {guard.seconds}")
                self.meet("guard of a stop")
                *_, line, last = ask(self.worldd, "status", folder).stdout.splitlines()
                compare("status", (line, last), (status_line(left), "server: none"))
                self.meet("line of status")
                compare("the files of a world with a guard", names_in(folder), ALL_NAMES)

    def image_of(self, folder: pathlib.Path) -> int:
        """The tick of the newest image."""
        return int(found_in_text(r"^recovered \d+ from (\d+) in", ask(self.worldd, "status", folder).stdout)[1])

    def sampled(self) -> None:
        """The guard is read again and again in play: it grows once a second at most, and is never ahead of the world."""
        for every in 4, RARE:
            folder = self.world(ASK)
            begun = time.monotonic()
            with self.serve(folder, every=every, clients=2) as server:
                with self.played(server) as player:
                    asker = surroundings_trial.Client(server.address)
                    self.sample(folder, asker, begun)
                    asker.leave()
                said, tick = server.end(), guard_of(folder).acked
            compare("the end of play", said, f"stopped tick {tick} acked {tick}")
            want(tick >= max(player.answered), f"tick {max(player.answered)} was answered, and the guard has tick {tick}")

    def sample(self, folder: pathlib.Path, asker: surroundings_trial.Client, begun: float) -> None:
        """Reads the guard in play, and asks the server for its tick after that."""
        last, changes = guard_of(folder), 1
        while (passed := time.monotonic() - begun) < SAMPLED_SECONDS:
            guard = guard_of(folder)
            tick = int(found_in_text(r"^tick (\d+):", asker.play(b"get 0\n").decode())[1])
            # All that was acknowledged before the guard was read had ended before this batch.
            want(guard.acked < tick, f"the guard had tick {guard.acked} before tick {tick} was played")
            want(guard.image < tick, f"the guard had the image of tick {guard.image} before tick {tick} was played")
            grows = guard[:2] == last[:2] and all(old <= new for old, new in zip(last[2:], guard[2:]))
            want(grows, f"{guard} after {last}")
            changes += guard != last
            want(changes <= passed + 2, f"{changes} guards in {passed} seconds")
            last = guard
            self.meet("read in play")
            if self.met["read in play"] % LOOKED == 0:
                self.look_in_play(folder)
        if changes > 2:
            self.meet("grown in play")

    def look_in_play(self, folder: pathlib.Path) -> None:
        """No look at a world that is served finds it older than its guard."""
        for command in "recover", "status":
            ended = ask(self.worldd, command, folder)
            want(not ended.stderr, f"{command} of a served world prints {ended.stderr}")
        self.meet("looked at in play")

    def hung(self) -> None:
        """A write of the guard never ends: play goes on, and the stop doesn't wait for it for long."""
        folder, marks = self.world(ASK), list[int]()
        variables, failed = self.failing("fsync", NEW_GUARD, PLACES["fsync", NEW_GUARD][PLAY], NEVER)
        with self.serve(folder, variables=variables) as server:
            client, end = Client(server, marks), time.monotonic() + 1.5
            while time.monotonic() < end:
                client.play_on(5)
                time.sleep(0.01)
            compare("a guard whose write hangs", (guard_of(folder)[1:3], failed.exists()), ((1, 0), True))
            client.leave()
            begun = time.monotonic()
            server.ended(len(marks))
            want(time.monotonic() - begun < PATIENCE_SECONDS / 2, "a stop waits for its guard")
        self.serve_on(folder, marks)
        self.meet("hung")

    def log_down(self) -> None:
        """A log goes down: the guard has the tick that was acknowledged, and not the one that play came to."""
        for call, error in ("fdatasync", errno.EIO), ("pwrite", errno.ENOSPC):
            folder, last = self.world(ASK), 0
            variables, failed = self.failing(call, "log.a", FAILED_PLACE, error)
            with self.serve(folder, every=RARE, variables=variables) as server:
                client, end = surroundings_trial.Client(server.address), time.monotonic() + PATIENCE_SECONDS
                while (line := client.play()).startswith(b"tick"):
                    last += 1
                    want(time.monotonic() < end, "no call of the log fails")
                for _ in range(SENT_ON):
                    line = client.play()
                    compare("the answer of a log that is down", line, b"fault 12\n")
                client.leave()
                output, status = pipe(server.process.stdout).read(), server.process.wait()
            match = found_in_text(r"^stopped tick (\d+) acked (\d+)$", output)
            is_so = status == 12 and failed.exists() and int(match[2]) == last < int(match[1])
            want(is_so, f"the end of a log that is down, after tick {last}: {status} {output}")
            compare("the guard of a log that is down", guard_of(folder).acked, last)
            with self.serve(folder) as server:
                want(server.tick >= last, f"tick {server.tick} was recovered after tick {last} was answered")
            self.meet("log down")

    # 2. Files of older backups beside newer ones.

    def histories(self) -> list[tuple[str, int, int, int, bool]]:
        """The histories: all of them, or some of each way to take a backup and of each number of ticks between images."""
        taken: dict[str, Sequence[tuple[int, tuple[int, bool]]]] = {
            BACKUP: list(itertools.product(BEFORE, AFTER)), COPY: list(itertools.product(FEWER_BEFORE, FEWER_AFTER)),
        }
        chance, histories = self.chance("histories"), list[tuple[str, int, int, int, bool]]()
        for taking, every in itertools.product(TAKING, EVERY):
            some = list(taken[taking])
            count = len(some) if self.tries_all else min(len(some), -(-self.rounds // (len(TAKING) * len(EVERY))))
            histories += [(taking, every, before, *after) for before, after in chance.sample(some, count)]
        return histories

    def mixtures(self) -> None:
        """Some files of a world are replaced by those of an older backup, and the guard stays."""
        for number, history in enumerate(self.histories()):
            world, backup, marks = self.lived(*history, ends_well=number % 2 == 0)
            guard = guard_of(world)
            compare(f"the tick of the guard after {history}", guard.acked, len(marks))
            for subset in SUBSETS:
                mixed = self.mixed(world, backup, subset)
                same = all((mixed / name).read_bytes() == (world / name).read_bytes() for name in NAMES)
                kind, tick, words = self.judged(mixed, guard, f"{subset} of an older backup after {history}")
                is_right = not words or words == words_of(marks[:tick])
                want(is_right, f"{subset} of an older backup after {history}: tick {tick} has the words {words}")
                want(not same or kind == "whole", f"the same bytes are {kind}")
                self.meet("same bytes" if same else kind)
                shutil.rmtree(mixed)

    def lived(
        self, taking: str, every: int, before: int, after: int, restarts: bool, ends_well: bool
    ) -> tuple[pathlib.Path, pathlib.Path, list[int]]:
        """Plays a world through a history. It gives the world, its older backup and its marks."""
        world, backup, marks = self.world(ASK), self.folder(), list[int]()
        with self.serve(world, every=every) as server:
            client = Client(server, marks)
            client.play_on(before)
            time.sleep(SETTLING_SECONDS)
            self.back_up(server, world, backup, taking)
            if not restarts:
                self.play_last(server, client, world, after, ends_well)
                return world, backup, marks
            server.kill()
        with self.serve(world, every=every) as server:
            self.play_last(server, Client(server, marks), world, after, ends_well)
        return world, backup, marks

    def back_up(self, server: Server, world: pathlib.Path, backup: pathlib.Path, taking: str) -> None:
        """Takes a backup of a served world, by the command or by copies of a world that stands still."""
        if taking == BACKUP:
            ask(self.worldd, "backup", world, "--to", str(backup))
            return
        server.process.send_signal(signal.SIGSTOP)
        copy_files(world, backup)
        server.process.send_signal(signal.SIGCONT)

    def play_last(self, server: Server, client: Client, world: pathlib.Path, count: int, ends_well: bool) -> None:
        """Plays the last ticks of a server. Its end is a stop, or a kill once the guard has the last tick."""
        client.play_on(count)
        time.sleep(SETTLING_SECONDS)
        if ends_well:
            client.leave()
            server.ended(len(client.marks))
        else:
            awaited_guard(world, len(client.marks))
            server.kill()
            client.leave()

    def mixed(self, world: pathlib.Path, backup: pathlib.Path, subset: Sequence[str]) -> pathlib.Path:
        """A world with some files of a backup, and its own guard."""
        mixed = self.folder()
        copy_files(world, mixed, [*NAMES, GUARD])
        copy_files(backup, mixed, subset)
        return mixed

    def judged(self, folder: pathlib.Path, guard: Guard, what: str) -> tuple[str, int, list[int]]:
        """What becomes of files under a guard: refused, older and named, or whole. It gives the tick and the words."""
        looked, shown = ran(self.worldd, "recover", folder), ran(self.worldd, "inspect", folder, "--words")
        compare(f"inspect and recover of {what}", (shown.returncode, shown.stderr), (looked.returncode, looked.stderr))
        if looked.returncode == 1:
            why = looked.stderr.partition("\n")[0]
            want(why in OF_RECOVERY, f"{what}: recover ends by {looked.stderr}")
            want(self.refused(folder).startswith(f"{why}\n"), f"{what}: a start isn't refused by {why}")
            return "refused", 0, []
        tick = int(found_in_text(r"^recovered (\d+) from \d+$", looked.stdout)[1])
        words = [int(word) for word in shown.stdout.splitlines()[-1].split()]
        if tick < guard.acked:
            compare(f"recover of {what}", (looked.returncode, looked.stderr), (OLDER, older_line(tick, guard)))
            self.refused_as_older(folder, tick, guard)
            self.meet("older refused")
            return "older named", tick, words
        compare(f"recover of {what}", looked.returncode, 0)
        with self.serve(folder) as server:
            compare(f"the start of {what}", server.tick, tick)
            line = surroundings_trial.Client(server.address).play(b"get 0\n")
            compare(f"a batch after {what}", line, b"tick %d: =%d\n" % (tick + 1, words[0]))
        return "whole", tick, words

    def forks(self) -> None:
        """A backup was played on as its world was. Some files of the world are replaced by those of the backup."""
        chance, forks = self.chance("forks"), list(itertools.product(EVERY, FORKED_BEFORE, BRANCHES))
        count = len(forks) if self.tries_all else max(2, self.rounds // 4)
        # Logs of a backup that was played less far are older, if no image was due.
        older = [fork for fork in forks if fork[0] == EVERY[-1] and fork[2][0] > fork[2][1]]
        chosen = dict.fromkeys((chance.choice(older), *chance.sample(forks, len(forks))))
        for every, before, (here, there) in itertools.islice(chosen, count):
            world, marks, backup = self.world(ASK), list[int](), self.folder()
            self.serve_on(world, marks, every=every, count=before)
            ask(self.worldd, "backup", world, "--to", str(backup))
            branches = []
            for folder, played, base in (world, here, WORLD), (backup, there, BACKED_UP):
                branch = list(marks)
                with self.serve(folder, every=every) as server:
                    client = Client(server, branch)
                    client.play_on(played, base)
                    client.leave()
                    server.ended(len(branch))
                branches.append(branch)
            guard = guard_of(world)
            compare("the tick of the guard of a branch", guard.acked, len(branches[0]))
            compare("the number of a branch", guard_of(backup).world, guard.world)
            for subset in SUBSETS:
                mixed = self.mixed(world, backup, subset)
                kind, tick, words = self.judged(mixed, guard, f"{subset} of the other branch")
                self.meet(f"fork {kind}")
                if kind == "whole":
                    of = [name for name, branch in zip(("world", "backup"), branches) if words == words_of(branch[:tick])]
                    self.meet(f"fork with words of the {' and '.join(of) or 'mixed branches'}")
                shutil.rmtree(mixed)

    # 3. A backup over the files of a running server.

    def copied_over(self) -> None:
        """A backup is copied over the files of a server, or takes their places. The server plays on, and is killed."""
        chance = self.chance("copied over")
        for number in range(max(4, self.rounds)):
            world, backup, marks = self.world(ASK), self.folder(), list[int]()
            with self.serve(world, every=chance.choice((4, 16, 64, 4096))) as server:
                client = Client(server, marks)
                client.play_on(chance.choice((1, 5)))
                ask(self.worldd, "backup", world, "--to", str(backup))
                client.play_on(chance.choice((3, 12, 40)))
                if number % 2:
                    copy_files(backup, world)
                    client.play_on(chance.choice((2, 7)))
                    guard = awaited_guard(world, len(marks))
                else:
                    guard = awaited_guard(world, len(marks))
                    for name in NAMES:
                        shutil.copyfile(backup / name, world / "other")
                        (world / "other").rename(world / name)
                    time.sleep(NOTICED_SECONDS)
                    client.play_on(chance.choice((2, 7)))
                    time.sleep(WRITTEN_SECONDS)
                    compare("a guard beside files that were replaced", guard_of(world), guard)
                server.process.kill()
                client.leave()
            kind, tick, words = self.judged(world, guard, "a backup over the files of a server")
            self.meet("copied over" if number % 2 else "replaced")
            if kind == "whole":
                self.meet("copied over and whole" if words == words_of(marks[:tick]) else "copied over with other words")
            else:
                self.meet("copied over and refused")

    # 4. Kills.

    def kills(self) -> None:
        """Servers are killed in play and in their starts: none is refused later, and no answered tick is lost."""
        trial = Kills(self.worldd, self.folder(), self.seed)
        starts = 0
        for run in range(self.rounds):
            starts += 1
            if trial.kill_guarded(run, starts):
                self.meet("killed after a guard in play")
            self.meet("killed")
            starts = trial.kill_guarded_start(run + 1, starts)
            self.meet("start killed")

    def killed_in_calls(self) -> None:
        """A server is killed in place of each call by which it writes its guard, at its start and in play."""
        for (call, name), moment in itertools.product(CALLS, (START, PLAY)):
            folder, marks = self.world(ASK), list[int]()
            self.serve_on(folder, marks, count=6)
            place = PLACES[call, name][moment]
            variables, failed = self.failing(call, folder.name if name == FOLDER else name, place, KILLED)
            ticks = len(marks)
            with self.starting(folder, every=RARE, variables=variables) as server:
                # A line that was printed right before the kill may still be on its way.
                line = server.line()
                is_so = line == "recovered 6 from 4" or (moment == START and not line)
                want(is_so, f"serve began with `{line}`{server.complaint()}")
                if moment == PLAY:
                    client = surroundings_trial.Client(server.listen())
                    while client.play().startswith(b"tick"):
                        ticks += 1
                    client.leave()
                ended = server.process.wait(), failed.exists()
                compare(f"a {call} of {name} {moment}", ended, (-signal.SIGKILL, True))
            guard = guard_of(folder)
            found = ask(self.worldd, "recover", folder)
            tick = int(found.stdout.split()[1])
            is_so = guard.acked <= ticks <= tick and not found.stderr
            want(is_so, f"{found.stdout} after tick {ticks} and {guard}{found.stderr}")
            with self.serve(folder) as again:
                compare("the tick of a start", again.tick, tick)
                compare("the guard of a start", guard_of(folder)[:3], (guard.world, guard.starts + 1, tick))
            compare("the files after a start", names_in(folder), ALL_NAMES)
            self.meet(f"calls killed {moment}", f"{call_text(call, name)} killed {moment}")

    # 5. Calls that fail.

    def failed_calls(self) -> None:
        """Each call by which a server writes its guard fails once: the server goes on, says so, and loses nothing."""
        tried = list(itertools.product(CALLS, MOMENTS))
        for number, ((call, name), moment) in enumerate(tried):
            turn = number // len(MOMENTS) + number
            for error in ERRORS if self.tries_all else [ERRORS[turn % len(ERRORS)]]:
                self.failed_once(call, name, moment, error)

    def failed_once(self, call: str, name: str, moment: str, error: int) -> None:
        """One call fails by this error."""
        folder, marks = self.world(ASK), list[int]()
        world = guard_of(folder).world
        place = PLACES[call, name][moment]
        variables, failed = self.failing(call, folder.name if name == FOLDER else name, place, error)
        what = f"a {call} of {name} that fails by {error} {moment}"
        with self.serve(folder, every=RARE, variables=variables) as server:
            compare(what, failed.exists(), moment == START)
            starts = 0 if moment == START and (call, name) not in LATE else 1
            compare(f"the guard after {what}", guard_of(folder)[:3], (world, starts, 0))
            client = Client(server, marks)
            client.play_on(1)
            awaited_guard(folder, 1)
            if moment == PLAY and (call, name) in LATE:
                time.sleep(SETTLING_SECONDS)
            client.play_on(1)
            client.leave()
            server.ended(2)
        want(failed.exists(), f"there is no {call} of {name} {moment}")
        compare(what, server.said(), [f"{NOT_WRITTEN}{reason_of(error)}"])
        guard = guard_of(folder)
        want(guard[:2] == (world, 1) and guard.acked in ((1, 2) if moment == STOP else (2,)), f"{guard} after {what}")
        compare(f"the files after {what}", names_in(folder), ALL_NAMES)
        compare(f"the starts after {what}", self.serve_on(folder, marks)[:2], (world, 2))
        cases = f"calls failed {moment}", f"{call_text(call, name)} failed {moment}", f"failed by {errno.errorcode[error]}"
        self.meet(*cases)

    def failed_for_good(self) -> None:
        """No guard can be written any more: that is named once, and play goes on."""
        folder, marks = self.world(ASK), list[int]()
        for has_begun in True, False:
            place = 2 if has_begun else 1
            variables, failed = self.failing("write", NEW_GUARD, place, errno.ENOSPC, ALWAYS)
            before = guard_of(folder)
            with self.serve(folder, variables=variables) as server:
                client, end = Client(server, marks), time.monotonic() + FAILING_SECONDS
                while time.monotonic() < end:
                    client.play_on(1)
                    time.sleep(0.05)
                client.leave()
                server.ended(len(marks))
            compare("what a server says", server.said(), [f"{NOT_WRITTEN}{reason_of(errno.ENOSPC)}"])
            want(failed.exists(), "no write of a guard fails")
            wanted = (before.world, before.starts + has_begun, before.acked)
            compare("a guard that is never written", guard_of(folder)[:3], wanted)
            compare("the files beside it", names_in(folder), ALL_NAMES)
            self.serve_on(folder, marks)
            self.meet("named once")

    def failed_reads(self) -> None:
        """A read of the guard fails once, and is tried again, or twice, and is named."""
        for (call, name), error, count in itertools.product(READS, ERRORS, (1, 2)):
            folder, marks = self.world(ASK), list[int]()
            failing = functools.partial(self.failing, call, name, 1, error, count)
            named = f"fault 18\nworldd: {folder}/{GUARD}: {reason_of(error)}\n"
            for command in LOOKS if error == errno.EIO or self.tries_all else ():
                variables, failed = failing()
                ended = self.look(command, folder, self.folder(), variables=variables)
                got, wanted = (ended.returncode, ended.stderr), (0, "") if count == 1 else (1, named)
                compare(f"{command} after {count} failed {call}", (*got, failed.exists()), (*wanted, True))
            variables, failed = failing()
            if count == 2:
                compare(f"a start after two failed {call}", self.refused(folder, variables=variables), named)
                self.meet("reads failed twice", f"{call_text(call, name)} failed twice")
                self.serve_on(folder, marks)
                continue
            with self.serve(folder, variables=variables) as server:
                compare("the guard of a start", guard_of(folder).starts, 1)
                compare("what a start says", server.said(), [])
            want(failed.exists(), f"there is no {call} of {name}")
            self.meet("reads tried again", f"{call_text(call, name)} tried again")

    def failed_creation(self) -> None:
        """The guard of a new world can't be written: that is named, and the world can be served with one."""
        for number, (call, name) in enumerate(CALLS):
            folder, error = self.folder(), ERRORS[number % len(ERRORS)]
            place = 2 if name == FOLDER else 1
            variables, failed = self.failing(call, folder.name if name == FOLDER else name, place, error)
            made = ran(self.worldd, "create", folder, "--cells", str(CELLS), ASK, **variables)
            begins = f"fault 18\nworldd: {folder}/{GUARD}: {reason_of(error)}"
            is_so = made.returncode == 1 and made.stderr.startswith(begins) and failed.exists()
            want(is_so, f"a new world after a {call} of {name} that fails: {made}")
            want(NEW_GUARD not in names_in(folder), f"a new world after a {call} of {name} that fails has {names_in(folder)}")
            if names_in(folder) >= set(NAMES):
                self.serve_on(folder, [], ASK)
            self.meet("create without its guard")

    # 6. Copies.

    def copies(self) -> None:
        """A copy of a served world has the guard as it was before, and is never older."""
        for every, is_slow, count in (EVERY[1], False, COPIES), (RARE, True, SLOW_COPIES):
            folder = self.world(ASK)
            with self.serve(folder, every=every) as server:
                with self.played(server, LONGER_SECONDS if is_slow else PAUSE_SECONDS):
                    tried, end = 0, time.monotonic() + PATIENCE_SECONDS
                    while tried < count or (is_slow and not self.met["slowly copied in play"] and time.monotonic() < end):
                        to, tried = self.copied_in_play(folder, is_slow), tried + 1
                server.end()
            copied = guard_of(to)
            with self.serve(to) as server:
                compare("the start of a copy", guard_of(to)[:3], (copied.world, copied.starts + 1, server.tick))

    def copied_in_play(self, folder: pathlib.Path, is_slow: bool) -> pathlib.Path:
        """Backs up a served world, perhaps so slowly that the guard grows meanwhile, and gives the copy."""
        slowed = {"LD_PRELOAD": str(self.slow), "READS_SLOWED": str(SLOWED_MICROSECONDS)} if is_slow else {}
        to, before = self.folder(), guard_of(folder)
        ended = ask(self.worldd, "backup", folder, "--to", str(to), **slowed)
        copied, after = guard_of(to), guard_of(folder)
        compare("the number of a copy", copied.world, before.world)
        want(before.acked <= copied.acked <= after.acked, f"a copy has {copied}, between {before} and {after}")
        tick = int(found_in_text(r"^backed up (\d+) from", ended.stdout)[1])
        want(copied.acked <= tick, f"a copy of tick {tick} has {copied}")
        compare("the files of a copy", names_in(to), ALL_NAMES)
        found = ask(self.worldd, "recover", to)
        want(found.stdout.startswith(f"recovered {tick} ") and not found.stderr, f"a copy: {found.stdout}{found.stderr}")
        self.meet("copied in play")
        if is_slow and after != before:
            self.meet("slowly copied in play")
        return to

    def older_world(self, chance: random.Random) -> tuple[pathlib.Path, int, Guard]:
        """A world of older files under a newer guard: its folder, the tick of the files, and the guard."""
        folder, backup, marks = self.world(ASK), self.folder(), list[int]()
        self.serve_on(folder, marks, count=chance.choice((0, 1, 10)))
        tick = len(marks)
        copy_files(folder, backup)
        guard = self.serve_on(folder, marks, count=chance.choice((1, 30)))
        copy_files(backup, folder)
        return folder, tick, guard

    def older(self) -> None:
        """Each command names an older world. Its copy is refused too, and what is salvaged goes on."""
        chance = self.chance("older")
        for _ in range(max(3, self.rounds // 4)):
            folder, tick, guard = self.older_world(chance)
            for command, flags in itertools.product(LOOKS, ("", "--statuses detailed")):
                to = self.folder()
                ended = self.look(command, folder, to, *flags.split())
                compare(command, (ended.returncode, ended.stderr), (OLDER, older_line(tick, guard)))
                self.meet(f"{command} names an older world")
                if command == "status":
                    want(status_line(guard) in ended.stdout.splitlines(), f"status of an older world: {ended.stdout}")
                elif command == "backup":
                    compare("the guard of a copy", guard_of(to), guard)
                    self.refused_as_older(to, tick, guard)
                    self.meet("copy of an older world refused")
                elif command == "salvage":
                    compare("the files that are salvaged", names_in(to), set(NAMES))
                    with self.serve(to) as server:
                        compare("the tick of what was salvaged", server.tick, tick)
                    self.meet("salvaged without one")

    def failed_copies(self) -> None:
        """The guard of a copy can't be written: the copy is taken back, and leaves its folder empty."""
        folder = self.world(ASK)
        self.serve_on(folder, [], count=6)
        for number, (call, name) in enumerate(CALLS):
            to, error = self.folder(), ERRORS[number % len(ERRORS)]
            place = 2 if name == FOLDER else 1
            variables, failed = self.failing(call, to.name if name == FOLDER else name, place, error)
            ended = ran(self.worldd, "backup", folder, "--to", str(to), **variables)
            wanted = 1, f"fault 18\nworldd: {to}/{GUARD}: {reason_of(error)}\n"
            what = f"a backup after a {call} of {name} that fails"
            compare(what, (ended.returncode, ended.stderr, failed.exists()), (*wanted, True))
            compare(f"the files of {what}", names_in(to), set())
            self.meet("copy taken back")

    # 7. Losses that are accepted, and damage.

    def accepted(self) -> None:
        """A start of an older world is refused, unless the loss is accepted: then the world gets another number."""
        chance = self.chance("accepted")
        for number in range(max(3, self.rounds // 4)):
            folder, tick, guard = self.older_world(chance)
            for flags in "", "--statuses detailed", ASK, "--refuse-losses":
                self.refused_as_older(folder, tick, guard, *flags.split())
                self.meet("loss refused")
            if number == 0:
                self.killed_before_acceptance(folder, tick, guard)
            marks = [BASE + place for place in range(tick)]
            with self.serve(folder, ACCEPT, *["--refuse-losses"] * (number % 2)) as server:
                compare("the tick of an accepted loss", server.tick, tick)
                new = guard_of(folder)
                want(new.world != guard.world, f"an accepted loss keeps the number {new.world}")
                compare("the guard of an accepted loss", new[1:3], (1, tick))
                client = Client(server, marks)
                client.play_on(3)
                client.leave()
                server.ended(tick + 3)
            compare("what is said of an accepted loss", server.said(), [older_line(tick, guard).strip(), ACCEPTED % tick])
            self.meet("loss accepted")
            for count, flags in enumerate(("", ACCEPT), 2):
                left = self.serve_on(folder, marks, *flags.split())
                compare("the guard after an accepted loss", left[:2], (new.world, count))
            self.meet("nothing to accept")

    def killed_before_acceptance(self, folder: pathlib.Path, tick: int, guard: Guard) -> None:
        """A start is killed before its guard has its place: the loss isn't accepted yet."""
        variables, failed = self.failing("rename", NEW_GUARD, 1, KILLED)
        with self.starting(folder, ACCEPT, variables=variables) as server:
            # A line that was printed right before the kill may still be on its way.
            printed = pipe(server.process.stdout).read()
            want(not printed or printed.startswith(f"recovered {tick} "), f"a start that accepts a loss: {printed}")
            compare("a killed start", (server.process.wait(), failed.exists()), (-signal.SIGKILL, True))
        self.refused_as_older(folder, tick, guard)
        self.meet("loss not accepted before its guard")

    def damage(self) -> None:
        """What is no guard is refused by each command. Once it is removed, the world goes on without one."""
        folder, marks = self.world(ASK), list[int]()
        self.serve_on(folder, marks, count=6)
        guard, files = (folder / GUARD).read_bytes(), [(folder / name).read_bytes() for name in NAMES]
        bad = b"", guard[:-1], guard[:8], guard + b"\0", guard * 100, bytes(BYTES), guard[:7] + b"\0" + guard[8:], None
        for data in bad:
            (folder / GUARD).unlink()
            if data is None:
                (folder / GUARD).mkdir()
            else:
                (folder / GUARD).write_bytes(data)
            named = f"fault 18\nworldd: {folder}/{GUARD}: {NOT_A_GUARD}\n"
            for command in LOOKS:
                to = self.folder()
                ended = self.look(command, folder, to)
                compare(command, (ended.returncode, ended.stderr), (1, named))
                compare("the folder of a copy", names_in(to), set())
                self.meet(f"{command} refuses what is no guard")
            for flags in "", ASK, ACCEPT:
                compare("serve", self.refused(folder, *flags.split()), named)
                self.meet("serve refuses what is no guard")
            kept = data is None or (folder / GUARD).read_bytes() == data
            want(kept and [(folder / name).read_bytes() for name in NAMES] == files, "what is no guard has files changed")
        (folder / GUARD).rmdir()
        with self.serve(folder) as server:
            compare("a start without a guard", (server.tick, names_in(folder)), (6, set(NAMES)))
            self.meet("gone on without one")
        compare("the starts of a new guard", self.serve_on(folder, marks, ASK).starts, 1)

    # 8. Checks of a served world.

    def checked(self, folder: pathlib.Path, what: str, wanted: tuple[str, int], server: str) -> None:
        """Checks a world. The last lines say this of its server, and how it is."""
        ended = ran(self.worldd, "status", folder, "--check")
        *_, line, last = ended.stdout.splitlines()
        is_so = re.fullmatch(f"check: {wanted[0]}", last) and line == f"server: {server}"
        want(bool(is_so) and ended.returncode == wanted[1], f"the check of a world that is {what}: {ended}")
        plain = ran(self.worldd, "status", folder)
        compare(f"status of a world that is {what}", (plain.returncode, "check:" in plain.stdout), (0, False))
        self.meet(f"checked as {what}")

    def awaited(self, folder: pathlib.Path, status: int, least: float, most: float) -> None:
        """Checks a world until it ends with this status, which takes so many seconds at least and at most."""
        begun = time.monotonic()
        while ran(self.worldd, "status", folder, "--check").returncode != status:
            want(time.monotonic() - begun < most, f"a check doesn't end with {status} within {most} seconds")
            time.sleep(0.1)
        want(time.monotonic() - begun >= least, f"a check ends with {status} in less than {least} seconds")

    def checks(self) -> None:
        """A world is checked while its server is well, or down in part, or gone."""
        folder, marks = self.world(), list[int]()
        self.checked(folder, "not served", NOT_SERVED, "none")
        with self.serve(folder):
            self.checked(folder, "unguarded", UNGUARDED, "running, log up, images up")
        with self.serve(folder, ASK) as server:
            client = Client(server, marks)
            client.play_on(3)
            self.checked(folder, "well", WELL, "running, log up, images up")
            copy_files(folder, copies := self.folder())
            for name in NAMES:
                os.replace(copies / name, folder / name)
            time.sleep(NOTICED_SECONDS)
            self.checked(folder, "replaced", REPLACED, "running, on files that were removed or replaced")
        for name, place, wanted, parts in (
            ("log.a", FAILED_PLACE, LOG_DOWN, "log down, images up"), ("image.b", 2, IMAGES_DOWN, "log up, images down"),
        ):
            folder = self.world(ASK)
            variables, _ = self.failing("fdatasync", name, place, errno.EIO)
            with self.serve(folder, variables=variables) as server:
                sender, end = surroundings_trial.Client(server.address), time.monotonic() + PATIENCE_SECONDS
                while f"worldd: {wanted[0]}" not in server.errors.read_text():
                    sender.play()
                    want(time.monotonic() < end, f"no sync of {name} fails")
                self.checked(folder, wanted[0], wanted, f"running, {parts}")
        folder, tick, guard = self.older_world(self.chance("checks"))
        ended = ran(self.worldd, "status", folder, "--check")
        got = ended.returncode, ended.stderr, ended.stdout.splitlines()[-1]
        compare("the check of an older world", got, (OLDER, older_line(tick, guard), "check: not served"))
        self.meet("checked as older")

    def stopped(self) -> None:
        """A server that is idle is well. One that is stopped hangs, until it goes on."""
        folder = self.world(ASK)
        with self.serve(folder) as server:
            time.sleep(HANGS_SECONDS + AGAIN_SECONDS)
            self.checked(folder, "idle", WELL, "running, log up, images up")
            server.process.send_signal(signal.SIGSTOP)
            self.awaited(folder, HANGS[1], HANGS_SECONDS - AGAIN_SECONDS, HANGS_SECONDS + AGAIN_SECONDS)
            self.checked(folder, "stopped", HANGS, "running, log up, images up")
            server.process.send_signal(signal.SIGCONT)
            self.awaited(folder, WELL[1], 0, AGAIN_SECONDS)
            self.checked(folder, "gone on", WELL, "running, log up, images up")

    def hung_at_its_log(self) -> None:
        """A sync of the log never ends: the server hangs while a batch waits, though its other threads run."""
        folder, marks = self.world(ASK), list[int]()
        variables, failed = self.failing("fdatasync", "log.a", FAILED_PLACE, NEVER)
        with self.serve(folder, every=RARE, variables=variables) as server:
            client = Client(server, marks)
            while not failed.exists():
                client.socket.sendall(b"add 0 1\nend\n")
                time.sleep(0.05)
            self.awaited(folder, HANGS[1], HANGS_SECONDS - AGAIN_SECONDS, HANGS_SECONDS + AGAIN_SECONDS)
            self.checked(folder, "hung at its log", HANGS, "running, log up, images up")

    def parts(self) -> dict[str, Callable[[], None]]:
        """Every part by its name. The longest are first."""
        parts = (
            self.mixtures, self.failed_calls, self.kills, self.copied_over, self.killed_in_calls, self.forks, self.sampled,
            self.stopped, self.hung_at_its_log, self.failed_for_good, self.failed_reads, self.fields, self.copies, self.older,
            self.accepted, self.damage, self.checks, self.hung, self.log_down, self.made, self.unasked, self.failed_creation,
            self.failed_copies,
        )
        return {part.__name__: part for part in parts}

    def run(self, only: str | None) -> str | None:
        """Runs one part, or all of them, two at once."""
        parts = self.parts()
        if only:
            parts[only]()
        else:
            with concurrent.futures.ThreadPoolExecutor(2) as pool:
                futures = {name: pool.submit(part) for name, part in parts.items()}
            wrong = {name: future.exception() for name, future in futures.items()}
            want(not any(wrong.values()), "\n".join(f"{name}: {error}" for name, error in wrong.items() if error))
            all_met(self.met, (*CASES, *CALL_CASES))
        others = sorted(self.met.keys() - {*CASES, *CALL_CASES})
        return "guard trial: " + ", ".join(f"{case} {self.met[case]}" for case in (*CASES, *others) if self.met[case])


def main() -> int:
    """Runs the trial, and keeps the files where it fails."""
    parser = parser_of(__doc__, "of the histories and of the moments", has_dir=True)
    parser.add_argument("--rounds", type=int, default=8, help="how many kills and histories are tried (8)")
    parser.add_argument("--all", action="store_true", help="tries all 124 histories, all 32 of two branches, and all errors")
    parser.add_argument("--only", metavar="PART", help="the one part to try, by the name of its function")
    given = parser.parse_args()

    def run(room: pathlib.Path) -> str | None:
        return Trial(given.worldd, room, given.seed, given.rounds, given.all).run(given.only)

    return status_in_folder("guard_trial", given, run)


if __name__ == "__main__":
    sys.exit(main())
