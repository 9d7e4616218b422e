#!/usr/bin/env python3
"""Measures a serving worldd beside Redis, PostgreSQL and SQLite: in turn, in one folder, under the same number of clients. Each
syncs a batch before it is answered: Redis its append-only file (appendfsync always), PostgreSQL its log
(synchronous_commit=on), SQLite its log (WAL, synchronous=FULL). A batch is one tick or one transaction of 1 or 16 sets, and
Redis gets as many sets in a pipeline. A system that isn't installed is skipped.

Each row has the medians of its runs: sets a second, batches a second, their ratio to those of Redis, the median of a batch's
wait, the system's processor time a batch, and its ratio to that of Redis. Each run is divided by the run of Redis just before
it over the same transport, and a ratio is the median of these quotients. SQLite runs in the process of its clients, so its
processor time includes theirs, and its ratios are to Redis over the first transport. So are those of the last two rows. `device
calls` has only the calls by which worldd makes a group of ticks durable, without a client: no batch can wait less. `session
threads` has them behind a thread for each client, and no world.
"""
import argparse
import csv
import dataclasses
import pathlib
import resource
import shutil
import statistics
import tempfile

from systems import LIBRARY, PORT, SOCKET, Load, Sample, System, systems

COLUMNS = "system", "transport", "clients", "lines", "sets", "batches", "ratio", "wait", "processor", "processor_ratio"
HEAD = f"{'':<21} {'sets/s':>10} {'batches/s':>10} {'ratio':>6} {'p50, ms':>9} {'us/batch':>9} {'ratio':>6}"


def figures_of(runs: list[Sample], field: str) -> list[float]:
    """A figure of some runs."""
    return [getattr(run, field) for run in runs]


@dataclasses.dataclass
class Series:
    """The runs of one system under one load, each with the run of Redis just before it."""

    system: System
    transport: str
    runs: list[Sample]
    beside: list[Sample]

    def median(self, field: str) -> float:
        """The median of a figure."""
        return statistics.median(figures_of(self.runs, field))

    def ratio(self, field: str) -> float | None:
        """The median of a figure's quotients by those of Redis."""
        if not self.beside:
            return None
        pairs = zip(figures_of(self.runs, field), figures_of(self.beside, field))
        return statistics.median(own / other for own, other in pairs)

    def row(self, load: Load) -> list[str]:
        """A row of the table, in the order of its columns."""
        batches, ratio, processor_ratio = self.median("batches"), self.ratio("batches"), self.ratio("processor")
        figures = f"{batches * load.lines:.0f}", f"{batches:.0f}", ratio_text(ratio), f"{self.median('wait'):.3f}"
        processor = f"{self.median('processor'):.1f}", ratio_text(processor_ratio)
        return [self.system.name, self.transport, str(load.clients), str(load.lines), *figures, *processor]


def ratio_text(ratio: float | None) -> str:
    """A ratio as it is printed; empty if there is none."""
    return "" if ratio is None else f"{ratio:.2f}"


def run_in(folder: pathlib.Path, system: System, load: Load) -> Sample:
    """A run of a system in a folder that is empty before and after it."""
    try:
        return system.run(folder, load)
    finally:
        for file in folder.iterdir():
            shutil.rmtree(file) if file.is_dir() else file.unlink()


def measure(folder: pathlib.Path, found: list[System], loads: list[Load], runs: int) -> list[Series]:
    """Measures one load over each of its transports: all series, those of Redis first."""
    redis, *others = found
    all_redis = [Series(redis, load.transport, [], []) for load in loads]
    series = [Series(it, load.transport, [], []) for load in loads for it in others if load.transport in it.transports]
    series += [Series(system, LIBRARY, [], []) for system in others if LIBRARY in system.transports]
    for _ in range(runs):
        for one in series:
            load = next((load for load in loads if load.transport == one.transport), loads[0])
            if not redis.lacks:
                beside = run_in(folder, redis, load)
                one.beside.append(beside)
                all_redis[loads.index(load)].runs.append(beside)
            one.runs.append(run_in(folder, one.system, load))
    for one in all_redis:
        one.beside = one.runs
    return [one for one in all_redis + series if one.runs]


def print_rows(load: Load, rows: list[list[str]]) -> None:
    """Prints the table of one load."""
    for transport in dict.fromkeys(row[1] for row in rows):
        print(f"{load.clients} clients, {load.lines} sets a batch, {transport}")
        print(HEAD)
        for name, _, _, _, sets, batches, ratio, wait, processor, processor_ratio in (row for row in rows if row[1] == transport):
            print(f"{name:<21} {sets:>10} {batches:>10} {ratio:>6} {wait:>9} {processor:>9} {processor_ratio:>6}")
        print(flush=True)


def write_table(path: pathlib.Path, rows: list[list[str]]) -> None:
    """Writes the table so far."""
    with path.open("w", newline="") as file:
        csv.writer(file, lineterminator="\n").writerows([COLUMNS, *rows])


def raise_descriptors() -> None:
    """Lets each program open as many files as the system allows."""
    _, most = resource.getrlimit(resource.RLIMIT_NOFILE)
    resource.setrlimit(resource.RLIMIT_NOFILE, (most, most))


def arguments() -> argparse.Namespace:
    """What the command line asks for."""
    parser = argparse.ArgumentParser(description=__doc__, formatter_class=argparse.RawDescriptionHelpFormatter)
    parser.add_argument("worldd")
    parser.add_argument("world_load")
    parser.add_argument("--clients", type=int, nargs="+", default=[1, 8, 50, 200, 1000])
    parser.add_argument("--lines", type=int, nargs="+", default=[1, 16], help="how many sets a batch has")
    parser.add_argument("--transport", nargs="+", choices=(PORT, SOCKET), default=[PORT, SOCKET])
    parser.add_argument("--every", type=int, nargs="+", default=[4096], help="after how many ticks worldd makes an image")
    parser.add_argument("--guard", action="store_true", help="measure worldd with a guard, too")
    parser.add_argument("--only", nargs="+", metavar="WORD", help="the systems beside Redis whose names begin so")
    parser.add_argument("--runs", type=int, default=5, help="how many runs of each kind")
    parser.add_argument("--seconds", type=int, default=3, help="how long a run takes")
    parser.add_argument("--dir", help="where the folder is made that all write in")
    parser.add_argument("--csv", type=pathlib.Path, help="a file for the table, from which bench/plot.py draws")
    return parser.parse_args()


def installed(found: list[System], only: list[str] | None) -> list[System]:
    """Redis, and those of the others that are wanted and installed."""
    for system in found:
        if system.lacks:
            print(f"bench: {system.name} is skipped, since {' and '.join(system.lacks)} isn't installed")
    redis, *others = found
    wanted = [system for system in others if not only or system.name.startswith(tuple(only))]
    return [redis, *(system for system in wanted if not system.lacks)]


def main() -> None:
    """Measures each load."""
    given = arguments()
    raise_descriptors()
    rows = []
    with tempfile.TemporaryDirectory(dir=given.dir) as room:
        # PostgreSQL has its own user if this one is root.
        pathlib.Path(room).chmod(0o711)
        folder = pathlib.Path(room) / "data"
        folder.mkdir()
        guards: list[list[str]] = [[], ["--guard"]] if given.guard else [[]]
        found = installed(systems((given.worldd, given.world_load), given.every, guards, room), given.only)
        for clients in given.clients:
            for lines in given.lines:
                loads = [Load(transport, clients, lines, given.seconds) for transport in given.transport]
                more = [one.row(loads[0]) for one in measure(folder, found, loads, given.runs)]
                print_rows(loads[0], more)
                rows += more
                if given.csv:
                    write_table(given.csv, rows)


main()
