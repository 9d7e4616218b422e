#!/usr/bin/env python3
"""Cuts the power of a machine whose worldd serves, at many recorded moments, and looks at what stands in the files each time.

    scripts/power_trial.py crates/worldd/out/worldd --fs ext4 --options data=journal --cuts 500 --seed 7

A machine's disk keeps its writes and flushes in one order with what clients were answered. A cut leaves the writes that a
flush had covered, and of the others any, whole or torn at sectors. A second machine recovers what is left: each answered tick
must be there, as kill_trial.py judges it. The next run begins with such a disk. With --show each kind of sync must matter.
"""
import argparse
import pathlib
import random
import re
import struct
import sys
import time

from kill_trial import CELLS, CLIENTS, COUNT, Answered, Batch, Found, batches, found_in, judge, text_of
from power_machine import DISK, MEGABYTES, MOUNTED, WAYS, WHOLE, Machine, Rig, lacking, parser_of, status_of, world_of
from trial import METHODS, Wrong, all_met

# The disk of a file system, and the sectors at which its writes are torn: btrfs has no current copy of its 4,096-byte superblock.
# udf brings no name along with a sync of a new file, so the syncs of folders are left out there. Nothing mends its map of free
# blocks after a cut: each run has a new disk, cuts begin once the world was created, and the system's own writing is put off.
SECTORS, UDF, EVERY = {"btrfs": 4096}, {"fs": "udf", "options": "rw"}, (1, 8, 64)
CUTS_OF_A_RUN, RUNS_OF_A_DISK, PATIENCE_SECONDS, WRITE_SECONDS = 60, 4, 600, 0.001
# How likely the power is cut after a request of the disk, and before a flush is done: until clients are served, and then.
NEVER, EARLY, LATE = {"request": 0.0, "flush": 0.0}, {"request": 0.06, "flush": 0.4}, {"request": 0.02, "flush": 0.1}
# In every other run a write with these bytes, which the log has of each tick, takes so much longer: covers come by that. Until
# one was met, each cut in play lets it take longer still, up to a bound: an image takes seconds on a slow machine.
SLOW_LOG, SLOW_SECONDS, SLOWER, SLOWEST_SECONDS = struct.pack("<BIq", 2, COUNT, 1), 0.05, 1.2, 2.0
# A disk that drops flushes keeps so many writes back. To show that a sync matters may take so many times the cuts.
KEPT_BACK, SHOWN = 64, 5
CREATE, MOUNT, PARTS = "in create", "in a mount", {"created": "just created", "recovered": "in a start", "listening": "in play"}
STOOD = "in a round", "in a switch", "covered", "tail of log.a", "tail of log.b", "from image.a", "from image.b", "kept more"
KINDS, MENDED = (*WAYS, CREATE, MOUNT, *PARTS.values(), "no world", *STOOD), "mended by e2fsck"
UNMET = {"covered": "data=journal", CREATE: "udf", MOUNT: "udf", "in a start": "udf", "no world": "udf"}
SYNCS, FOLDERS, FLUSHES = ("log body", "log gate", "image body", "image gate"), ("folder", "folder above"), "flushes"
LOG = re.compile(r"log\.([ab]): open, format \d, base (\d+), \d+ groups?, (\d+) ticks?,")
SERVES = f"""echo {{wakes}} >/proc/sys/vm/dirty_writeback_centisecs; echo 20 >/proc/sys/vm/dirty_expire_centisecs
{MOUNTED} >/dev/null
mkdir -p /mnt/w; export LD_PRELOAD={{library}} SYNCS_LEFT_OUT="{{fault}}"
worldd recover --dir /mnt/w 2>/dev/null || worldd create --dir /mnt/w --cells {{cells}}
(while :; do dd if=/dev/urandom of=/mnt/n bs=4k count=20; mv /mnt/n /mnt/o; sleep 1; rm /mnt/o; done) 2>/dev/null &
for port in /dev/vport*; do (until nc 127.0.0.1 7070; do sleep 0.1; done) <>$port >&0 2>/dev/null & done
worldd serve --dir /mnt/w --method {{method}} --every {{every}} --port 7070 --clients 1000
"""


class Trial(Rig):
    """A trial on a file system. A library leaves a sync out, if that is the fault."""

    def __init__(self, given: argparse.Namespace, folder: pathlib.Path, fault: str) -> None:
        super().__init__(given, folder, "" if fault in ("", FLUSHES) else "left_out_syncs.c", fault)
        self.fresh, self.is_udf = Found("recovered 0 from 0", 0, 0, "image.a", [0] * given.cells, False), given.fs == "udf"
        self.slow_seconds = SLOW_SECONDS

    def serve(self, run: int, image: bytearray, before: Found | None, cuts: int) -> tuple[bytearray, Found | None]:
        """Lets a machine serve until the power was cut so often, and gives a disk that was left, with the world on it."""
        words = {"method": self.given.method or METHODS[run % 2], "every": self.given.every or EVERY[run % 3]}
        plans = [batches(f"{self.given.seed} {run} {client}", client, run) for client in range(CLIENTS)]
        end, kept, chances = time.monotonic() + PATIENCE_SECONDS, random.randrange(1 + cuts // 2), NEVER if self.is_udf else EARLY
        self.before, self.part = before or self.fresh, MOUNT if before else CREATE
        self.answered: Answered = {}
        self.waiting: dict[int, Batch] = {}
        with self.machine(SERVES, bytearray(image), CLIENTS, **words, wakes=60_000 if self.is_udf else 10) as machine:
            machine.kept_back = KEPT_BACK * (self.fault == FLUSHES)
            while cuts and time.monotonic() < end:
                machine.slow = (SLOW_LOG, self.slow_seconds) if run % 4 in (0, 3) else (b"", 0)
                for port, line in machine.events(WRITE_SECONDS):
                    match, word = re.match(r"tick (\d+):", line), line.partition(" ")[0]
                    if port == DISK and cuts and random.random() < chances[word]:
                        found, cuts = self.found_after(machine), cuts - 1
                        image, before = (bytearray(self.left), found) if cuts == kept else (image, before)
                    elif match:
                        self.answered[int(match[1])] = self.waiting[port], line
                    elif word in ("created", "listening") or line == self.before.line:
                        self.part, chances = PARTS[word], LATE if word == "listening" else EARLY
                    elif port > 0 or re.search("fault|recovered|down|refused|panic", line):
                        raise Wrong(f"the machine printed `{line}`")
                    # A client sends its first batch once it listens, and each other one once the one before is answered.
                    for client in range(1, 1 + CLIENTS) if word == "listening" else [port] if port > 0 else ():
                        self.waiting[client] = next(plans[client - 1])
                        machine.streams[client].sendall(text_of(self.waiting[client]))
        if cuts:
            raise Wrong(f"the machine is too slow: {cuts} cuts are left")
        self.tally["ticks answered"] += len(self.answered)
        return image, before

    def found_after(self, machine: Machine) -> Found | None:
        """Cuts the power, judges what another machine recovers then, and gives the world on the disk that was left."""
        way, (is_torn, share) = random.choice(list(WAYS.items()))
        size = self.given.sector or SECTORS.get(self.given.fs, 512) if is_torn else WHOLE
        lines = self.cut(machine, self.reader, size, random.random() if share is None else share)
        self.tally.update({"cuts": 1, way: 1, self.part: 1, MENDED: "\n".join(lines).count("FILE SYSTEM WAS MODIFIED")})
        lines = world_of(lines)
        is_unmade = self.part == CREATE and lines[0] in ("fault 13", "fault 18") and f"created {self.given.cells}" in lines[1:2]
        lines = [self.fresh.line, *lines[2:]] if is_unmade else lines
        if not lines[0].startswith("recovered"):
            raise Wrong(f"recovered no world: {lines[0]}")
        found = found_in(lines[0], lines)
        judge(self.before, found, self.answered, frozenset(self.waiting.values()))
        self.tally.update([*["no world"] * is_unmade, *self.stood(found, lines)])
        if machine.slow[0] and self.part == PARTS["listening"] and not self.tally["covered"]:
            self.slow_seconds = min(SLOWER * self.slow_seconds, SLOWEST_SECONDS)
        return None if is_unmade else found

    def stood(self, found: Found, lines: list[str]) -> list[str]:
        """The kinds of what stands in the files."""
        logs = sorted((int(base), int(ticks), name) for name, base, ticks in LOG.findall("\n".join(lines))) or [(0, 0, "")]
        (base, ticks, _), (last, tail, name), first = logs[0], logs[-1], self.before.tick
        kinds = [f"from {found.image}", *["in a round"] * found.in_round, *[f"tail of log.{name}"] * (tail > 0)]
        kinds += ["in a switch"] * (len(logs) == 1 and base > first) + ["covered"] * (first <= base and base + ticks < last)
        return kinds + ["kept more"] * (found.tick > max(self.answered, default=first))

    def run(self, cuts: int) -> str:
        """Cuts as often as was asked, and gives the counts, which have to grow. One journal of data lets no image lead."""
        with self.reading() as self.reader:
            for run, done in enumerate(range(0, cuts, CUTS_OF_A_RUN)):
                if run % RUNS_OF_A_DISK == 0 or self.is_udf:
                    image, before = self.new_disk(), None
                image, before = self.serve(run, image, before, min(CUTS_OF_A_RUN, cuts - done))
        counts = "; ".join(f"{name} {self.tally[name]}" for name in ("cuts", "ticks answered", *KINDS, MENDED))
        kinds = [kind for kind in KINDS if UNMET.get(kind) not in (self.given.fs, self.given.options)]
        all_met(self.tally, [] if self.given.show else kinds, after=f": {counts}")
        return counts


def result_of(given: argparse.Namespace, folder: pathlib.Path, fault: str) -> str:
    """What came of a trial, which without some syncs, or without flushes, has to be a loss."""
    trial = Trial(argparse.Namespace(**vars(given) | (UDF if given.show and fault in ("", *FOLDERS) else {})), folder, fault)
    try:
        counts = trial.run(given.cuts * (SHOWN if fault in SYNCS else 1))
    except Wrong as wrong:
        if fault and str(wrong).startswith("recovered"):
            return f"without {fault} on {trial.given.fs}: seen at cut {trial.tally['cuts']}: {wrong}"
        (folder / "left").write_bytes(trial.left)
        raise
    if fault:
        raise Wrong(f"without {fault} on {trial.given.fs}: not seen in {trial.tally['cuts']} cuts")
    return f"with each sync on {trial.given.fs}: {counts}" if given.show else counts


def main() -> int:
    """Runs the trial, and keeps the files where it fails."""
    parser = parser_of(__doc__)
    parser.add_argument("--cells", type=int, default=600, help=f"of the world, {CELLS} at least (600)")
    parser.add_argument("--fs", choices=MEGABYTES, default="ext4", help="the file system (ext4)")
    parser.add_argument("--options", default="rw", help="of its mount, as data=journal (rw)")
    parser.add_argument("--method", choices=METHODS, help="in place of both in turn")
    parser.add_argument("--every", type=int, help="in place of 1, 8 and 64 in turn")
    parser.add_argument("--cuts", type=int, default=120, help="how often the power is cut (120)")
    parser.add_argument("--sector", type=int, help="at how many bytes a write is torn (512, and 4096 of btrfs)")
    parser.add_argument("--show", action="store_true", help="leave syncs and flushes out, one after another")
    given = parser.parse_args()

    def run(folder: pathlib.Path) -> None:
        for fault in (*SYNCS, "", *FOLDERS, FLUSHES) if given.show else ("",):
            print(result_of(given, folder, fault), flush=True)

    return status_of("power_trial", given, lambda: lacking(given.kernel), run)


if __name__ == "__main__":
    sys.exit(main())
