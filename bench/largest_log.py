#!/usr/bin/env python3
"""Measures the recovery of the largest world with the longest log, beside one reading of the log's bytes.

    bench/largest_log.py crates/worldd/out/worldd
    bench/largest_log.py WORLDD --runs 9 --dir /mnt/disk

The log has 65,536 ticks of 256 transfers each: from a cell to the next one, and then between random cells. Each run reads the log
once from the device, by calls of 1 MiB, and then recovers the world in a process of its own, which reads it from the device too.
"""
import argparse
import os
import pathlib
import random
import statistics
import struct
import subprocess
import tempfile
import time
from collections.abc import Callable, Iterable, Iterator

CELLS, TICKS, GROUP_TICKS, TICK_ACTIONS = 1 << 20, 1 << 16, 32, 256
SECOND_FORMAT = 0x20 << 56
TRANSFER = 3
ACTION = struct.Struct("<BIIQ")


def in_order(tick: int) -> bytes:
    """The transfers of a tick, each from a cell to the next one."""
    first = tick * TICK_ACTIONS % (CELLS - TICK_ACTIONS)
    return b"".join(ACTION.pack(TRANSFER, cell, cell + 1, 0) for cell in range(first, first + TICK_ACTIONS))


def between_any(tick: int) -> bytes:
    """The transfers of a tick, each from a random even cell to a random odd one."""
    chance = random.Random(tick)
    cells = [chance.getrandbits(20) for _ in range(2 * TICK_ACTIONS)]
    return b"".join(ACTION.pack(TRANSFER, a & ~1, b | 1, 0) for a, b in zip(cells[::2], cells[1::2]))


def write(folder: pathlib.Path, name: str, pieces: Iterable[bytes]) -> None:
    """Writes a file piece by piece, and syncs it."""
    with open(os.open(folder / name, os.O_WRONLY | os.O_CREAT | os.O_TRUNC, 0o600), "wb") as file:
        file.writelines(pieces)
        file.flush()
        os.fsync(file.fileno())


def log_of(actions_of: Callable[[int], bytes]) -> Iterator[bytes]:
    """The bytes of a log with all its ticks."""
    yield struct.pack("<BQ", 1, SECOND_FORMAT)
    for tick in range(TICKS):
        if tick % GROUP_TICKS == 0:
            yield struct.pack("<BH", 1, GROUP_TICKS)
        yield struct.pack("<H", TICK_ACTIONS) + actions_of(tick)
    yield b"\0"


def fill(folder: pathlib.Path, actions_of: Callable[[int], bytes]) -> None:
    """Writes the files of a world of zeros, and its log."""
    write(folder, "image.a", [struct.pack("<BQQ", 1, CELLS | SECOND_FORMAT, 0), bytes(8 * CELLS)])
    write(folder, "log.a", log_of(actions_of))
    for name in ("image.b", "log.b"):
        write(folder, name, [b"\0"])


def read_once(path: pathlib.Path) -> float:
    """The seconds in which the file is read from the device."""
    piece = bytearray(1 << 20)
    begun = time.perf_counter()
    with open(path, "rb", buffering=0) as file:
        os.posix_fadvise(file.fileno(), 0, 0, os.POSIX_FADV_DONTNEED)
        while file.readinto(piece):
            pass
    return time.perf_counter() - begun


def recover(worldd: pathlib.Path, folder: pathlib.Path) -> tuple[float, float]:
    """The seconds of a recovery, and the most memory that it had, in MB."""
    begun = time.perf_counter()
    process = subprocess.Popen([worldd, "recover", "--dir", folder], stdout=subprocess.DEVNULL)
    _, status, usage = os.wait4(process.pid, 0)
    seconds = time.perf_counter() - begun
    if status:
        raise SystemExit(f"the recovery ended with status {os.waitstatus_to_exitcode(status)}")
    return seconds, usage.ru_maxrss * 1024 / 1e6


def measure(worldd: pathlib.Path, folder: pathlib.Path, runs: int) -> str:
    """What some runs over the files of a folder took."""
    reads, recoveries = [], []
    for _ in range(runs):
        reads.append(read_once(folder / "log.a"))
        recoveries.append(recover(worldd, folder))
    read, recovered = statistics.median(reads), statistics.median(seconds for seconds, _ in recoveries)
    most = max(memory for _, memory in recoveries)
    length = os.path.getsize(folder / "log.a")
    return (
        f"{length:,} bytes read in {read:.3f} s, recovered in {recovered:.3f} s, "
        f"{recovered / read:.2f} times as long, with {most:.0f} MB"
    )


def main() -> None:
    parser = argparse.ArgumentParser(description=__doc__.splitlines()[0])
    parser.add_argument("worldd", type=pathlib.Path, help="the built program")
    parser.add_argument("--runs", type=int, default=5, help="how many runs (5)")
    parser.add_argument("--dir", help="where the files are made (the system's folder for temporary files)")
    given = parser.parse_args()
    for order, actions_of in (("to the next cell", in_order), ("between random cells", between_any)):
        with tempfile.TemporaryDirectory(dir=given.dir) as name:
            folder = pathlib.Path(name)
            fill(folder, actions_of)
            print(f"transfers {order}: {measure(given.worldd.absolute(), folder, given.runs)}")


if __name__ == "__main__":
    main()
