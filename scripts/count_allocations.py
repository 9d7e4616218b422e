#!/usr/bin/env python3
"""Counts the allocations of calls, and of a served batch.

    scripts/count_allocations.py crates/measures/out/measures crates/worldd/out/worldd

`measures allocations` makes each of its calls in its own stretch, and prints its name with the most allocations that
it is to make. A library that is loaded before the program counts those that it makes. A call that makes more fails the
script. A serving worldd has all its allocations counted: those of many batches, once a few were served. It needs a C
compiler, as cc.
"""
import argparse
import os
import pathlib
import socket
import subprocess
import sys
import tempfile

from trial import PATIENCE_SECONDS, Words, absolute, begun, connect, create, library_of

MOST = ": at most "
# The batches that are counted, how many lines each has, and how often it may allocate. The buffers have grown before.
FEW, MANY, LINES = 200, 2200, 16
MOST_SERVED = 1


def counts_of(measures: str, library: pathlib.Path) -> tuple[list[str], list[int]]:
    """What the program prints of each call, and how many allocations the call makes."""
    reader, writer = os.pipe()
    watched = {"LD_PRELOAD": str(library), "COUNTED_TO": str(writer)}
    with open(reader, encoding="ascii") as counts:
        with open(writer, closefd=True):
            command, seconds, pipe = [measures, "allocations"], 2 * PATIENCE_SECONDS, subprocess.PIPE
            environment = os.environ | watched
            run = subprocess.run(command, env=environment, pass_fds=[writer], stdout=pipe, text=True, timeout=seconds, check=True)
        return run.stdout.splitlines(), [int(count) for count in counts]


def is_within(line: str, count: int) -> bool:
    """Prints how many allocations a call makes, and returns whether that is as few as the line says."""
    call, most = line.split(MOST)
    print(f"{call}: {count} of at most {most} allocations")
    return count <= int(most)


def play(stream: socket.socket, numbers: range) -> None:
    """Sends batches, each once the one before is answered."""
    batch = "".join(f"add {cell} 1\n" for cell in range(LINES)) + "end\n"
    with stream.makefile(encoding="ascii") as answers:
        for number in numbers:
            stream.sendall(batch.encode("ascii"))
            if not answers.readline().startswith(f"tick {number}: +"):
                raise RuntimeError(f"batch {number} wasn't answered")


def count_served(worldd: str, library: pathlib.Path, room: pathlib.Path) -> bool:
    """Prints how many allocations a served batch makes, and returns whether that is as few as it may."""
    folder, counter = room / "world", room / "counter"
    create(worldd, folder, LINES)
    counter.write_bytes(bytes(8))
    flags = ["--method", "zigzag", "--port", "0", "--clients", "1", "--every", str(MANY)]
    watched = os.environ | {"LD_PRELOAD": str(library), "COUNTED_IN": str(counter)}
    command: Words = [worldd, "serve", "--dir", folder, *flags]
    with subprocess.Popen(command, env=watched, stdout=subprocess.PIPE, stderr=subprocess.DEVNULL, text=True) as server:
        with connect(begun(server)[1].split()[1]) as stream:
            play(stream, range(1, FEW))
            before = int.from_bytes(counter.read_bytes(), sys.byteorder)
            play(stream, range(FEW, MANY))
            after = int.from_bytes(counter.read_bytes(), sys.byteorder)
    count = (after - before) / (MANY - FEW)
    print(f"a batch of {LINES} lines served by worldd: {count:g} of at most {MOST_SERVED} allocations")
    return before > 0 and count <= MOST_SERVED


def main() -> int:
    """Counts the allocations of each call, and of a served batch."""
    parser = argparse.ArgumentParser(description=__doc__.splitlines()[0])
    parser.add_argument("measures", type=absolute, help="the built program that makes the calls")
    parser.add_argument("worldd", type=absolute, help="the built server")
    given = parser.parse_args()
    with tempfile.TemporaryDirectory() as folder:
        room = pathlib.Path(folder)
        library = library_of("watched_allocations.c", room)
        lines, counts = counts_of(given.measures, library)
        held = [is_within(line, count) for line, count in zip(lines, counts, strict=True)]
        held.append(count_served(given.worldd, library, room))
    return 0 if len(held) > 1 and all(held) else 1


if __name__ == "__main__":
    sys.exit(main())
