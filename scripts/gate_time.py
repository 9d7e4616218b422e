#!/usr/bin/env python3
"""Measures the gate's processor time, by crate and by kind of work.

    scripts/gate_time.py watch PID        records the checks below a process until it ends (`.ci/run` does this)
    scripts/gate_time.py total PID LOG    prints the cost so far of that process, and how much of it was kept work
    scripts/gate_time.py dearest          prints the dearest crates of the last run
    scripts/gate_time.py groups           prints what a change in each group of crates.txt costs, by the last run

Times are processor seconds, user and system.
"""
import argparse
import collections
import os
import pathlib
import re
import sys
import time

from map import below, read_crates

TOP = pathlib.Path(__file__).resolve().parent.parent
# Written by a run of the gate: seconds by crate and kind.
TIMES = TOP / "out" / "gate_times"
TICKS = os.sysconf("SC_CLK_TCK")
KINDS = ("proof", "tests", "wrong bodies", "programs")


def fields_of(pid: int) -> list[str]:
    """The fields of /proc/PID/stat after the command's name."""
    return pathlib.Path(f"/proc/{pid}/stat").read_text().rpartition(")")[2].split()


def seconds_of(fields: list[str]) -> float:
    """Processor seconds of a process and of its children that have ended."""
    return sum(int(ticks) for ticks in fields[11:15]) / TICKS


def work_of(pid: int) -> tuple[str, str] | None:
    """Crate and kind of a check, or None for another process."""
    words = pathlib.Path(f"/proc/{pid}/cmdline").read_bytes().decode(errors="replace").split("\0")
    if not words[0].endswith("/rattle") or "--crate-name" not in words:
        return None
    if os.readlink(f"/proc/{pid}/cwd").startswith("/tmp/rt-edit-"):
        kind = "wrong bodies"
    elif "--test" in words:
        kind = "tests"
    elif "--crate-checked" in words:
        kind = "programs"
    else:
        kind = "proof"
    return words[words.index("--crate-name") + 1], kind


def is_below(pid: int, top: int) -> bool:
    """Whether a process descends from another one."""
    while pid > 1 and pid != top:
        pid = int(fields_of(pid)[1])
    return pid == top


def watch(top: int) -> None:
    """Records each check below a process, once a second, until that process ends."""
    seen: dict[tuple[int, str], tuple[str, str]] = {}
    others: set[tuple[int, str]] = set()
    seconds: dict[tuple[int, str], float] = {}
    while os.path.exists(f"/proc/{top}"):
        for name in os.listdir("/proc"):
            if not name.isdigit():
                continue
            try:
                fields = fields_of(int(name))
                key = int(name), fields[19]
                if key in others:
                    continue
                if key not in seen:
                    work = work_of(int(name))
                    if work is None or not is_below(int(name), top):
                        # A process shows its parent's words until it runs its own program.
                        if time.time() - os.stat(f"/proc/{name}").st_ctime > 5:
                            others.add(key)
                        continue
                    seen[key] = work
                seconds[key] = seconds_of(fields)
            except (OSError, ValueError, IndexError):
                continue
        write_times(seen, seconds)
        time.sleep(1)


def write_times(seen: dict[tuple[int, str], tuple[str, str]], seconds: dict[tuple[int, str], float]) -> None:
    """Writes the sums by crate and kind, replacing the file in one step."""
    sums: dict[tuple[str, str], float] = collections.defaultdict(float)
    for key, work in seen.items():
        sums[work] += seconds.get(key, 0)
    TIMES.parent.mkdir(exist_ok=True)
    new = TIMES.with_suffix(".new")
    new.write_text("".join(f"{crate}\t{kind}\t{sum:.1f}\n" for (crate, kind), sum in sorted(sums.items())))
    new.replace(TIMES)


def read_times() -> dict[str, dict[str, float]]:
    """Seconds by crate and kind of the last run."""
    found: dict[str, dict[str, float]] = collections.defaultdict(dict)
    for line in TIMES.read_text().splitlines():
        crate, kind, seconds = line.split("\t")
        found[crate][kind] = float(seconds)
    return found


def kept_of(log: str) -> str:
    """What was done in a run of `rt ci` and what was kept, by its log."""
    crates = len(re.findall(r"^rt: \S+ is kept: ", log, re.M))
    every = sum(not line.startswith("#") and ":" in line for line in (TOP / "crates.txt").read_text().splitlines())
    bodies = len(list(TOP.glob("crates/*/must-fail/*.edit")))
    tried = re.search(r"and (\d+) of the \d+ must-fail edits", log)
    if tried:
        done = int(tried[1])
    elif "every proof and must-fail edit was done in this run" in log:
        done = bodies
    elif not crates:
        # A kit that keeps nothing says nothing of it.
        done = len(re.findall(r"^rt: must-fail \S+: refused", log, re.M))
    else:
        done = 0
    return (
        f"done in this run: {every - crates} of {every} crates, {done} of {bodies} wrong bodies; "
        f"kept from an earlier run: {crates} crates, {bodies - done} wrong bodies"
    )


def total(pid: int, log: pathlib.Path) -> None:
    """Prints wall and processor minutes of a process's children, and what was kept."""
    fields = fields_of(pid)
    uptime = float(pathlib.Path("/proc/uptime").read_text().split()[0])
    wall = uptime - int(fields[19]) / TICKS
    processor = sum(int(ticks) for ticks in fields[13:15]) / TICKS
    print(f"gate: {wall / 60:.1f} minutes, {processor / 60:.1f} processor minutes; {kept_of(log.read_text())}")


def dearest(most: int) -> None:
    """Prints the dearest crates of the last run."""
    found = read_times()
    print(f"{'crate':16}" + "".join(f"{kind:>14}" for kind in (*KINDS, "all")))
    sums = collections.Counter({crate: sum(kinds.values()) for crate, kinds in found.items()})
    for crate, seconds in sums.most_common(most):
        print(f"{crate:16}" + "".join(f"{found[crate].get(kind, 0):14.0f}" for kind in KINDS) + f"{seconds:14.0f}")
    whole = [sum(kinds.get(kind, 0) for kinds in found.values()) for kind in KINDS]
    print(f"{'all':16}" + "".join(f"{seconds:14.0f}" for seconds in (*whole, sum(whole))))


def groups() -> None:
    """Prints what a change in each group of crates costs: its crates and all that stand on them are checked again."""
    crates, found = read_crates(), read_times()
    lower = below(crates)
    print(f"{'group':12}{'crates again':>14}{'minutes':>10}{'wrong bodies again':>20}{'minutes':>10}")
    for group in dict.fromkeys(crate.group for crate in crates.values()):
        own = {name for name, crate in crates.items() if crate.group == group}
        again = own | {name for name in crates if lower[name] & own}
        bodies = sum(len(list((TOP / "crates" / name / "must-fail").glob("*.edit"))) for name in again)
        tries = sum(found[name].get("wrong bodies", 0) for name in again)
        checks = sum(sum(found[name].values()) for name in again) - tries
        print(f"{group:12}{len(again):14}{checks / 60:10.0f}{bodies:20}{tries / 60:10.0f}")


def main() -> int:
    """Does what the command line asks for."""
    parser = argparse.ArgumentParser(description=__doc__.splitlines()[0])
    commands = parser.add_subparsers(dest="command", required=True)
    commands.add_parser("watch", help="record the checks below a process until it ends").add_argument("pid", type=int)
    whole = commands.add_parser("total", help="print the cost so far of a process's children")
    whole.add_argument("pid", type=int)
    whole.add_argument("log", type=pathlib.Path)
    commands.add_parser("dearest", help="print the dearest crates of the last run").add_argument("--most", type=int, default=20)
    commands.add_parser("groups", help="print what a change in each group of crates costs, by the last run")
    given = parser.parse_args()
    if given.command == "watch":
        watch(given.pid)
    elif given.command == "total":
        total(given.pid, given.log)
    elif given.command == "dearest":
        dearest(given.most)
    else:
        groups()
    return 0


if __name__ == "__main__":
    sys.exit(main())
