#!/usr/bin/env python3
"""Refuses worldd each of its allocations in turn, and looks at what it answers and at what stands in its files then.

    scripts/memory_trial.py crates/worldd/out/worldd

First the calls of the program trial_memory that take memory; then a script over each store, create, recover and
inspect, and serve, by either method over a port and over a socket: each is run again and again, the Nth time with its Nth
allocation refused, until it has none left to refuse. It needs a C compiler, as cc.
"""
import collections
import dataclasses
import itertools
import os
import pathlib
import re
import shutil
import subprocess
import sys
from collections.abc import Iterator
from typing import Any

from kill_trial import Batch, answer, text_of
from trial import METHODS, PATIENCE_SECONDS, QUIET, TRANSPORTS, Words, Wrong
from trial import begun, connect, flags_of, library_of, parser_of, status_in_folder

STORES = "plain", "zigzag", "pingpong", "zigzag-shared", "pingpong-shared"
SCRIPT = """\
open {store} 2
set 0 5
move 0 1 2
get 1
end
mark
image*
set 0 6
end
log*
crash keep
image*
log*
world
set 1 9
end
mark
image*
log*
crash lose
world
"""
# The image is ahead of the log; and a cell that stays as it is comes from the other image.
AHEAD = """\
open {store} 1
set 0 5
end
mark
set 0 9
end
image*
crash lose
get 0
"""
OTHER_IMAGE = """\
open {store} 2
set 0 5
set 1 7
end
mark
image*
set 1 8
end
mark
image*
crash lose
world
"""
# What is printed if a growth of a file in memory was refused; in a start the lines before it are refused too.
REFUSED_LINES = "image down", "log down"
STARTING = "- 19"
FAULT = "fault 17"
UNREADABLE = ": unreadable: out of memory"
BATCHES: tuple[Batch, ...] = (
    (("set", 0, 5), ("get", 0), ("move", 0, 1, 9), ("foo",)),
    (("set", 0, 5), ("get", 0), ("move", 0, 1, 2)),
    (("add", 1, 1),) * 40,
    (("get", 0), ("get", 1), ("foo",)),
    (("set", 1, 3), ("get", 1)),
)
# One more than those that may be closed: one of them loses its connection.
CLIENTS = 3
EVERY = 2
TOP = pathlib.Path(__file__).resolve().parent.parent
CALLS = TOP / "crates" / "trial_memory" / "out" / "trial_memory"
CALL_REFUSED = re.compile(r"refused with (\d+), and answered then")
CALL_ANSWERED, CALLS_MADE = "answered", "made"
NO_MEMORY = "17"
# What the calls answer that make files in memory grow, where a growth is refused: lack of memory, or a device that failed.
GROWING = {
    "ModelFile::write_at": ("18",),
    "fresh_files of files that grow": (NO_MEMORY, "18"),
    "SerialWorld::open of files that grow": (NO_MEMORY, "18"),
    "SerialWorld::batch of files that grow": (NO_MEMORY, "12"),
    "SerialWorld::play of files that grow": (NO_MEMORY, "12"),
}


@dataclasses.dataclass(frozen=True)
class Run:
    """A run: its status, what it printed on both streams, and whether an allocation was refused."""

    status: int
    printed: str
    errors: str
    was_refused: bool


class Refuser:
    """Refuses an allocation of each program that it starts."""

    def __init__(self, room: pathlib.Path) -> None:
        self.library = library_of("watched_allocations.c", room)

    def start(
        self, command: Words, number: int, which: str = "REFUSED_ALLOCATION", **files: Any
    ) -> tuple[subprocess.Popen[str], int]:
        """A program whose allocation of this number is refused, and where that is reported."""
        reader, writer = os.pipe()
        refused = {"LD_PRELOAD": str(self.library), which: str(number), "REFUSED_TO": str(writer)}
        with open(writer, closefd=True):
            process = subprocess.Popen(
                command, env=os.environ | refused, pass_fds=[writer], stdout=subprocess.PIPE, text=True, **files
            )
        return process, reader

    def run(self, command: Words, number: int, script: str = "", **which: str) -> Run:
        """A run whose allocation of this number is refused, 0 for none."""
        process, reader = self.start(command, number, **which, stdin=subprocess.PIPE, stderr=subprocess.PIPE)
        printed, errors = process.communicate(script, PATIENCE_SECONDS)
        return Run(process.returncode, printed, errors, was_refused(reader))

    def runs(self, command: Words, script: str = "") -> Iterator[Run]:
        """A run for each allocation, which is refused, and a last one for which none is."""
        for number in itertools.count(1):
            run = self.run(command, number, script)
            yield run
            if not run.was_refused:
                return


def was_refused(reader: int) -> bool:
    """Whether an allocation was refused, as is reported up to the program's end."""
    with open(reader, "rb") as reports:
        return bool(reports.read())


def is_fault(run: Run) -> bool:
    """Whether lack of memory ended the run, and was reported so."""
    return run.status == 1 and run.errors.partition("\n")[0] == FAULT


def require(seen: collections.Counter[str], *kinds: str) -> None:
    """Each of these kinds must have been seen."""
    missing = ", ".join(set(kinds) - set(seen))
    if missing:
        raise Wrong(f"never {missing}")


# The calls.


def code_of(kind: str) -> str | None:
    """The code with which a call was refused, whose answer then is right."""
    refused = CALL_REFUSED.fullmatch(kind)
    return refused[1] if refused else None


def try_calls(refuser: Refuser) -> collections.Counter[str]:
    """Makes the calls that take memory, and gives how often each was refused, and with which code."""
    refused: collections.Counter[str] = collections.Counter()
    for number in itertools.count(1):
        run = refuser.run([CALLS], number, which="REFUSED_IN_STRETCH")
        answers = dict(line.split(": ") for line in run.printed.splitlines())
        codes = {call: code for call, kind in answers.items() if (code := code_of(kind))}
        if run.status or {kind for call, kind in answers.items() if call not in codes} - {CALL_ANSWERED, CALLS_MADE}:
            raise Wrong(f"with allocation {number} of each call refused: `{run.printed}`")
        if not codes:
            calls = [call for call, kind in answers.items() if kind == CALL_ANSWERED]
            require(refused, *(f"{call} with {code}" for call in calls for code in GROWING.get(call, (NO_MEMORY,))))
            return refused
        refused.update(f"{call} with {code}" for call, code in codes.items())
    raise AssertionError


# A script.


def kind_of(run: Run, whole: str) -> str:
    """How a script went, whose answers with ample memory are known."""
    if run.printed == whole and run.status == 0:
        return "whole"
    if is_fault(run) and whole.startswith(run.printed) and run.printed[-1:] in ("", "\n"):
        return "ended by the fault"
    given, wanted = run.printed.splitlines(), whole.splitlines()
    others = [line for line, right in zip(given, wanted) if line != right]
    refused = next((line for line in others if line in REFUSED_LINES), STARTING)
    if others and others[0] in (refused, STARTING) and len(given) == len(wanted) and run.status == 0:
        return f"gone on after `{refused}`"
    raise Wrong(f"a script ended with status {run.status}, `{run.printed}` and `{run.errors}`")


def try_script(worldd: str, refuser: Refuser, script: str) -> collections.Counter[str]:
    """Runs a script."""
    command = [worldd, "steps"]
    whole = refuser.run(command, 0, script).printed
    kinds = collections.Counter(kind_of(run, whole) for run in refuser.runs(command, script))
    require(kinds, "whole", "ended by the fault")
    return kinds


def try_scripts(worldd: str, refuser: Refuser, store: str) -> collections.Counter[str]:
    """Runs each script over a store."""
    kinds: collections.Counter[str] = collections.Counter()
    for script in (SCRIPT, AHEAD, OTHER_IMAGE):
        kinds += try_script(worldd, refuser, script.format(store=store))
    require(kinds, *(f"gone on after `{line}`" for line in REFUSED_LINES))
    return kinds


# A folder.


def lines_of(worldd: str, folder: pathlib.Path) -> list[str]:
    """The lines of `inspect` for a folder, with ample memory."""
    run = subprocess.run([worldd, "inspect", "--words", "--dir", folder], capture_output=True, text=True, check=True)
    return run.stdout.splitlines()


def try_create(worldd: str, refuser: Refuser, room: pathlib.Path) -> int:
    """Makes a world, and once more where that was refused: it stands then, or is made."""
    for number in itertools.count(1):
        folder = room / f"create-{number}"
        folder.mkdir()
        command: Words = [worldd, "create", "--dir", folder, "--cells", "2"]
        run = refuser.run(command, number)
        if not (is_fault(run) if run.printed != "created 2\n" else run.status == 0):
            raise Wrong(f"create ended with status {run.status} and `{run.errors}`")
        if is_fault(run):
            subprocess.run(command, check=True, capture_output=True)
        if lines_of(worldd, folder)[-2:] != ["recovered 0 from 0 in image.a", "0 0"]:
            raise Wrong(f"create left `{lines_of(worldd, folder)}` in {folder}")
        if not run.was_refused:
            return number - 1
    raise AssertionError


def try_reading(worldd: str, refuser: Refuser, folder: pathlib.Path, command: str, *flags: str) -> int:
    """Reads a folder, and must leave it as it is."""
    words: Words = [worldd, command, "--dir", folder, *flags]
    whole, before = refuser.run(words, 0).printed, lines_of(worldd, folder)
    refused = 0
    for run in refuser.runs(words):
        pairs = zip(run.printed.splitlines(), whole.splitlines())
        is_front = all(line == right or line.endswith(UNREADABLE) for line, right in pairs)
        if not (is_fault(run) and is_front) and (run.status, run.printed) != (0, whole):
            raise Wrong(f"{command} ended with status {run.status}, `{run.printed}` and `{run.errors}`")
        refused += is_fault(run)
    if lines_of(worldd, folder) != before or not refused:
        raise Wrong(f"{command} was refused {refused} times, and left `{lines_of(worldd, folder)}`")
    return refused


# A server.


class World:
    """The model of a served world: its words by tick, and the batch that may have been run unanswered."""

    def __init__(self, line: str, words: list[int]) -> None:
        self.tick, self.words = int(line.split(" ")[1]), words
        self.unanswered: Batch | None = None

    def run(self, batch: Batch) -> str:
        """Runs a batch, and gives its answer."""
        self.tick += 1
        return answer(self.words, batch, self.tick)

    def take(self, batch: Batch, line: str) -> None:
        """Holds the answer of a batch to the model: one that was sent before, unanswered, may have been run."""
        if line.startswith(f"tick {self.tick + 2}:"):
            self.run(batch)
        self.unanswered = None
        wanted = self.run(batch)
        if line != wanted:
            raise Wrong(f"a batch was answered `{line}` in place of `{wanted}`")

    def judge(self, lines: list[str]) -> None:
        """Holds what stands in the files to the model."""
        if self.unanswered and lines[-2].startswith(f"recovered {self.tick + 1} "):
            self.run(self.unanswered)
        line, words = lines[-2:]
        if not line.startswith(f"recovered {self.tick} ") or words != " ".join(map(str, self.words)):
            raise Wrong(f"`{line}` and `{words}` stand after tick {self.tick}, whose words are {self.words}")


def play(address: str, world: World, batches: collections.deque[Batch], seen: collections.Counter[str]) -> None:
    """Sends what is left of the batches, until all are sent or the connection is closed."""
    with connect(address) as stream:
        reader = stream.makefile(encoding="ascii")
        while batches:
            world.unanswered = batches[0]
            stream.sendall(text_of(batches[0]))
            line = reader.readline().removesuffix("\n")
            if not line:
                raise ConnectionError
            if line == FAULT:
                seen["batches refused"] += 1
                world.unanswered = None
            else:
                world.take(batches[0], line)
            batches.popleft()


def play_all(address: str, world: World, seen: collections.Counter[str]) -> bool:
    """Plays by one connection after another, as many as the server takes, and returns whether all batches were sent."""
    batches = collections.deque(BATCHES)
    for _ in range(CLIENTS):
        try:
            play(address, world, batches, seen)
        except (ConnectionError, FileNotFoundError):
            seen["connections closed"] += 1
    return not batches


def try_server(
    worldd: str, refuser: Refuser, folder: pathlib.Path, flags: list[str], number: int, seen: collections.Counter[str]
) -> bool:
    """Serves a folder while an allocation is refused, and returns whether one was. No socket is left."""
    before = lines_of(worldd, folder)
    world = World(before[-2], [int(word) for word in before[-1].split(" ")])
    errors = folder.with_suffix(".errors")
    with errors.open("w") as file:
        command: Words = [worldd, "serve", "--dir", folder, *flags]
        process, reader = refuser.start(command, number, stdin=QUIET, stderr=file)
    lines = begun(process)
    is_whole = lines[1].startswith("listening ") and play_all(lines[1].split()[1], world, seen)
    last, _ = process.communicate(timeout=PATIENCE_SECONDS)
    run = Run(process.returncode, last, errors.read_text(), was_refused(reader))
    world.judge(lines_of(worldd, folder))
    if left := list(folder.glob("socket*")):
        raise Wrong(f"serve ended and left {left}")
    if is_fault(run):
        seen["ended by the fault"] += 1
    elif (run.status, last) == (0, f"stopped tick {world.tick} acked {world.tick}\n") and is_whole:
        seen["served to its end"] += 1
    else:
        raise Wrong(f"serve ended with status {run.status}, `{lines}`, `{last}` and `{run.errors}`")
    return run.was_refused


def try_serving(
    worldd: str, refuser: Refuser, room: pathlib.Path, method: str, transport: str
) -> collections.Counter[str]:
    """Serves a world again and again."""
    seen: collections.Counter[str] = collections.Counter()
    for number in itertools.count(1):
        folder = room / f"serve-{method}-{transport}-{number}"
        shutil.copytree(room / "create-1", folder)
        flags = ["--method", method, "--every", str(EVERY), "--clients", str(CLIENTS)]
        flags += flags_of(transport, folder / "socket")
        if not try_server(worldd, refuser, folder, flags, number, seen):
            require(seen, "connections closed", "batches refused", "served to its end", "ended by the fault")
            return seen
        shutil.rmtree(folder)
    raise AssertionError


def line_of(kinds: collections.Counter[str]) -> str:
    """What was seen, and how often."""
    return ", ".join(f"{count} {kind}" for kind, count in sorted(kinds.items()))


def main() -> int:
    """Runs the trial, and keeps the files where it fails."""
    given = parser_of(__doc__).parse_args()

    def run(room: pathlib.Path) -> None:
        refuser = Refuser(room)
        calls = try_calls(refuser)
        print(f"calls refused {calls.total()} times, and answered then: {line_of(calls)}")
        for store in STORES:
            print(f"steps over {store}: {line_of(try_scripts(given.worldd, refuser, store))}")
        print(f"create: refused {try_create(given.worldd, refuser, room)} times, and made once there was memory")
        for command, *flags in (("recover",), ("inspect", "--words")):
            print(f"{command}: refused {try_reading(given.worldd, refuser, room / 'create-1', command, *flags)} times")
        for method, transport in itertools.product(METHODS, TRANSPORTS):
            seen = try_serving(given.worldd, refuser, room, method, transport)
            print(f"serve by {method} over a {transport}: {line_of(seen)}")

    return status_in_folder("memory_trial", given, run)


if __name__ == "__main__":
    sys.exit(main())
