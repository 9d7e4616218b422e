#!/usr/bin/env python3
"""Lets calls on the files of a serving worldd fail, starts it again, cuts the power, and looks at what stands in the files.

    scripts/device_trial.py crates/worldd/out/worldd --fs xfs --failures 200 --seed 7

A machine's disk refuses a write, a flush or a read under one call of the server, or a library fails the call itself. The files
are a world's, in a round, a group, a switch or a start. Then the server goes on as docs/OPERATIONS.md says: it is stopped, and
started again over the caches of the same system. It plays, and the power is cut. A second machine recovers what is left: each
answered tick must be there, as kill_trial.py judges it. With --show the server keeps the system's copies of its files at a
start, which has to lose ticks.
"""
import argparse
import collections
import contextlib
import itertools
import pathlib
import random
import re
import sys
import time
from collections.abc import Callable

import here_machine
from kill_trial import CELLS, CLIENTS, Answered, Batch, Found, batches, found_in, judge, text_of
from power_machine import DISK, FLUSH, MOUNTED, READ, SECTOR, WAYS, WHOLE, WRITE, Machine, Rig
from power_machine import lacking, parser_of, status_of, world_of
from trial import METHODS, Wrong

FS, SMALL_MEGABYTES = ("ext4", "xfs"), 32
# The ports of the clients are in front of the one on which calls are asked, and the one that starts the server again.
ASKED, AGAIN = CLIENTS + 1, CLIENTS + 2
FAILURES_OF_A_MACHINE, PATIENCE_SECONDS, WRITE_SECONDS, EVERY = 60, 600, 0.0005, (3, 4, 8)
# So many ticks are played for a call that is to fail, at most, after a failure of images, and in a server that was started again.
SEARCHED, PLAYED_ON, PLAYED = 40, 5, 6
# How many starts are tried for a call that is to fail, and how likely each of the writes of a sync is refused.
STARTS, LIKELY = 3, 0.7
# How likely the power is cut right after a failure, and in the start after it. It is cut in the play after that, too.
CUTS = {"after a failure": 0.3, "in a start": 0.5}
# A write of a journal begins so. One that fails stops the whole file system, until it is mounted again.
JOURNALS = b"\xc0\x3b\x39\x98", b"\xfe\xed\xba\xbe"
CALL, JOURNAL = "call", "journal"
REFUSED = {"write": WRITE, "flush": FLUSH, "read": READ, JOURNAL: WRITE}
START, PLAY = "start", "play"
# The words of the system for a refused write.
IO_ERROR = "Input/output error"
SETTLED = "dmesg -n 1; echo 60000 >/proc/sys/vm/dirty_writeback_centisecs; echo 4 >/sys/block/vda/queue/max_sectors_kb"
SERVES = f"""{{settled}}
{MOUNTED} >/dev/null
touch /mnt/t; mkdir /mnt/w; worldd create --dir /mnt/w --cells {{cells}}
for port in $(seq {CLIENTS}); do
    (while :; do echo gone; nc 127.0.0.1 {{port}}; sleep 0.05; done) <>$(ls /dev/vport*p$port) >&0 2>/dev/null &
done
exec 3<>$(ls /dev/vport*p{AGAIN})
while read word <&3; do
    [ "$server" ] && {{{{ kill -9 $server; wait $server; }}}} 2>/dev/null
    {{{{ rm /mnt/t && touch /mnt/t; }}}} 2>/dev/null || {{{{ echo stopped; umount /mnt; {MOUNTED}; }}}}
    {{fault}} CALLS_ASKED=$(ls /dev/vport*p{ASKED}) LD_PRELOAD={{library}} worldd serve --dir /mnt/w --method {{method}} \\
        --every {{every}} --port {{port}} --clients 1000 &
    server=$!
done
"""

# A call that is to fail: in a start or in play, on a file, in a step, and by the call itself or by what the disk refuses.
Failure = tuple[str, str, str, str]


def failures() -> list[Failure]:
    """All of them, as far as each is to be met."""
    steps = {"image": ("close", "header", "words", "open"), "log": ("close", "header", "open", "body", "gate")}
    taken = [(START, name, "opening", "flush") for name in ("image.a", "image.b", "log.a", "log.b")]
    taken += [(START, name, "read", way) for _, name, _, _ in taken for way in (CALL, "read")]
    taken += [(START, "image.a", "opening", JOURNAL)]
    for phase, file, kind in [(phase, file, kind) for phase in (START, PLAY) for kind in steps for file in "ab"]:
        # A start begins log.a anew, and only closes log.b.
        made = {"loga": steps["log"][:3], "logb": ("close",)}.get(kind + file, steps[kind]) if phase == START else steps[kind]
        synced = [step for step in made if step != "header" or kind == "log"]
        taken += [(phase, f"{kind}.{file}", step, CALL) for step in made]
        taken += [(phase, f"{kind}.{file}", step, way) for step in synced for way in ("write", "flush")]
    return taken


def step_of(name: str, at: int, count: int, first: int) -> str:
    """The step of a write to a file: of its gate, its header, the words of an image, or a group of a log or the gate of one."""
    if at == 0:
        return "open" if first else "close"
    if at == 1:
        return "header"
    return "words" if name.startswith("image") else "gate" if count == 1 else "body"


class Strayed(Exception):
    """The disk also refused a write of another file, which failed by it at a later sync."""


class Trial(Rig):
    """A trial on a file system: what was answered, what waits, and the call that is to fail."""

    running: Machine | here_machine.Here
    reader: Machine | None
    # The ticks that were answered, the batches that wait and those that were refused, and the world before them.
    answered: Answered
    waiting: dict[int, Batch]
    dead: list[Batch]
    before: Found
    # The clients that have no connection any more, what is down, and the step of each file's last write.
    gone: set[int]
    down: str | None
    last: dict[str, str]
    # The call that is to fail, those that may, and the one that has failed.
    wanted: Failure | None
    wanted_now: set[Failure]
    failed_now: Failure | None
    way: str | None
    until_cut: int

    def __init__(self, given: argparse.Namespace, folder: pathlib.Path, fault: str) -> None:
        super().__init__(given, folder, "asked_calls.c", fault)
        if given.here and given.fs == "ext4":
            self.left = self.left[: SMALL_MEGABYTES << 20]
        # The system's copies matter most for a gate that only they have open.
        self.kinds = [kind for kind in failures() if not given.show or kind[2:] == ("open", "write")]
        self.failed: collections.Counter[Failure] = collections.Counter()
        self.way, self.hits, self.share, self.is_journal = None, 0, 0.0, False

    def take(self, port: int, line: str) -> None:
        """Takes a line of the machine, or a request of its disk."""
        if port == DISK:
            self.until_cut -= 1
            if self.until_cut == 0:
                self.look("in a start")
        elif port == ASKED:
            self.asked(line)
        elif port > 0:
            self.answer_came(port, line)
        elif found := re.fullmatch(r"recovered (\d+) from \d+", line):
            self.restarted = int(found[1])
            if self.restarted < max(self.answered, default=self.before.tick):
                raise Wrong(f"{line}, and tick {max(self.answered, default=self.before.tick)} was answered before")
        elif line.startswith("listening"):
            self.phase, self.until_cut = PLAY, 0
        elif down := re.search(r"fault \d+|images down|log down|refused|panic|stopped$", line):
            self.tally["file system stopped"] += down[0] == "stopped"
            self.down = self.down if down[0] == "stopped" else down[0]
        elif line.startswith("worldd: ") and not re.search(" image of tick ", line):
            self.server_line = line

    def answer_came(self, port: int, line: str) -> None:
        """A batch was answered, or refused since the log is down. The client sends the next one as long as all play. It has
        no connection to an old server once the program that makes it is gone."""
        if line == "gone":
            self.gone.add(port)
            return
        batch, match = self.waiting.pop(port), re.match(r"tick (\d+):", line)
        if match and int(match[1]) not in self.answered:
            self.answered[int(match[1])] = batch, line
            self.tally["ticks answered"] += 1
            self.ticks += 1
        elif line == "fault 12":
            self.dead.append(batch)
            self.tally["batches refused"] += 1
            self.down = "log down"
        else:
            raise Wrong(f"a batch was answered `{line}`")
        if self.is_sending and self.down != "log down":
            self.send(port)

    def asked(self, line: str) -> None:
        """Answers the question of a call, or takes what came of it."""
        call, *words = line.split(" ")
        if call == "begin":
            self.is_held, self.is_asked, self.last, self.down = False, False, {}, None
        elif self.is_held:
            return
        elif call == "did":
            if self.wanted and int(words[0]) < 0 and (self.hits or self.way is None):
                self.failed_now, self.wanted_now = self.wanted, set()
                self.failed[self.wanted] += 1
            if self.hits:
                # A refused write may be of another file. That file reports it at its next sync: in this case or in the next one.
                self.strayed = 2
            self.wanted, self.way, self.hits, self.is_journal, self.is_asked = None, None, 0, False, False
        else:
            self.is_asked = True
            self.running.streams[ASKED].sendall(self.verdict(call, words[0], *map(int, words[1:])))

    def verdict(self, call: str, name: str, at: int, count: int, first: int) -> bytes:
        """Whether a call is to fail by itself. What the disk has to refuse under it is kept."""
        if call == "write":
            self.last[name] = step_of(name, at, count, first)
        step = "read" if call == "read" else self.last.get(name, "opening")
        ways = {"write": (CALL,), "read": (CALL, "read"), "sync": ("write", "flush", JOURNAL)}[call]
        chosen = [(self.phase, name, step, way) for way in ways if (self.phase, name, step, way) in self.wanted_now]
        if not chosen:
            return b"."
        wanted = self.wanted = random.choice(chosen)
        if wanted[3] == CALL:
            return random.choice((b"0", b"1", b"2")) if call == "write" else b"0"
        self.way, self.share = wanted[3], random.choice((0, 0.5, 1))
        return b"."

    def refused(self, kind: int, data: bytes) -> float | None:
        """Whether the disk refuses a request, and how much of it is done nevertheless. Other writes spare the journal."""
        self.is_journal |= data[:4] in JOURNALS
        if self.is_journal != (self.way == JOURNAL) or kind != REFUSED.get(self.way or "") or (kind == FLUSH and self.hits):
            return None
        if self.way == "write" and random.random() > LIKELY:
            return None
        self.hits += 1
        return self.share

    def until(self, done: Callable[[], object], what: str) -> None:
        """Serves the machine until this is so."""
        end = time.monotonic() + PATIENCE_SECONDS
        while not done():
            for port, line in self.running.events(WRITE_SECONDS):
                self.take(port, line)
            if time.monotonic() > end:
                raise Wrong(f"the machine is too slow: {what}, after {self.failed_now}")

    def send(self, client: int) -> None:
        """Sends the next batch of a client."""
        self.waiting[client] = next(self.plans[client - 1])
        self.running.streams[client].sendall(text_of(self.waiting[client]))

    def play(self, ticks: int, is_failing: bool = False) -> None:
        """Plays so many ticks with all clients, or until a call has failed or the log is down."""
        self.ticks, self.is_sending = 0, True
        for client in range(1, 1 + CLIENTS):
            if client not in self.waiting:
                self.send(client)
        self.until(lambda: self.ticks >= ticks or self.down == "log down" or (is_failing and self.failed_now), "in play")
        self.look_at_fall()

    def again(self) -> None:
        """Stops the server once no batch waits, and starts it again."""
        self.is_sending = False
        self.until(lambda: not self.waiting, "batches wait")
        self.phase, self.is_held = START, True
        self.running.streams[AGAIN].sendall(b"again\n")
        self.until(lambda: not self.is_held and (len(self.gone) == CLIENTS if self.phase == PLAY else self.down), "in a start")
        if self.phase == PLAY:
            self.gone = set()
        self.look_at_fall()

    def look_at_fall(self) -> None:
        """Nothing is down if no call failed. What came of the call may arrive after the line that something is down."""
        if self.down and not self.failed_now:
            self.until(lambda: not self.is_asked, "a call goes on")
            if not self.failed_now and self.strayed and IO_ERROR in self.server_line:
                raise Strayed
            if not self.failed_now:
                raise Wrong(f"{self.down} in {self.phase}, though no call failed: {self.server_line}")

    def left_by_cut(self, size: int, share: float) -> list[str]:
        """Cuts the power of the disk, and reports what is left: by this machine if the disk is its own, or by another one."""
        if isinstance(self.running, Machine):
            assert self.reader
            return self.cut(self.running, self.reader, size, share)
        with self.running.guard:
            self.running.cut(self.left, size, share)
        return here_machine.lines_of(self.folder, self.given.worldd, self.given.fs, self.left)

    def start(self, **words: object) -> contextlib.AbstractContextManager[Machine | here_machine.Here]:
        """Starts a machine with a new disk: this one, or one of QEMU's."""
        if not self.given.here:
            return self.machine(SERVES, self.new_disk(), AGAIN, **words, settled=SETTLED, port=7070)
        return contextlib.closing(here_machine.here(self, SERVES, AGAIN, **words, settled=":"))

    def look(self, moment: str) -> Found:
        """Cuts the power, and judges what another machine recovers then."""
        way, (is_torn, share) = random.choice(list(WAYS.items()))
        lines = world_of(self.left_by_cut(SECTOR if is_torn else WHOLE, random.random() if share is None else share))
        self.tally.update(["cuts", moment, way])
        if not lines[0].startswith("recovered"):
            raise Wrong(f"recovered no world: {lines[0]}, {moment}" + (f", of {self.failed_now}" if self.failed_now else ""))
        found = found_in(lines[0], lines)
        judge(self.before, found, self.answered, frozenset([*self.waiting.values(), *self.dead]))
        return found

    def fail(self) -> bool:
        """Lets a call fail, of those that failed least or never. Whether it came to it."""
        least = min(self.failed[kind] for kind in self.kinds)
        target = random.choice([kind for kind in self.kinds if self.failed[kind] == least])
        wanted = {target, *(kind for kind in self.kinds if kind[0] == target[0] and not self.failed[kind])}
        self.failed_now, self.wanted_now = None, wanted
        if target[0] == PLAY:
            self.play(SEARCHED, True)
        for _ in range(STARTS if target[0] == START else 0):
            self.wanted_now = set()
            self.play(random.randrange(1, 2 * PLAYED))
            self.wanted_now = wanted
            self.again()
            if self.failed_now:
                break
        self.wanted_now = set()
        return self.failed_now is not None

    def case(self) -> None:
        """Lets a call fail, does what the manual says, starts the server again, and cuts the power."""
        self.strayed = max(self.strayed - 1, 0)
        if not self.fail():
            self.tally["not met"] += 1
            return
        self.until(lambda: self.down, "nothing is down")
        assert self.failed_now and self.down
        self.tally.update(["failed calls", f"by a {self.failed_now[3]}", self.down])
        if random.random() < CUTS["after a failure"]:
            self.look("after a failure")
        if self.down == "images down":
            self.play(random.randrange(PLAYED_ON))
        self.failed_now = None
        self.until_cut = random.randrange(1, 25) if random.random() < CUTS["in a start"] else 0
        self.again()
        self.play(random.randrange(1, PLAYED))
        found = self.look("in play")
        # What was not answered before the start is in this world or nowhere.
        self.before, self.dead = found, []
        self.answered = {tick: answer for tick, answer in self.answered.items() if tick > found.tick}

    def serve(self, run: int, upto: int) -> None:
        """Lets calls fail in a new machine. One whose server fell by a refusal that strayed is judged, and left."""
        self.plans = [batches(f"{self.given.seed} {run} {client}", client, run) for client in range(CLIENTS)]
        self.before = Found("recovered 0 from 0", 0, 0, "image.a", [0] * self.given.cells, False)
        self.answered, self.waiting, self.dead, self.gone = {}, {}, [], set()
        self.wanted, self.wanted_now, self.failed_now, self.server_line, self.until_cut = None, set(), None, "", 0
        self.strayed = 0
        words = {"method": METHODS[run % 2], "every": random.choice(EVERY)}
        with self.start(**words) as self.running:
            self.running.refused = self.refused
            try:
                self.again()
                while self.tally["failed calls"] < upto:
                    self.case()
            except Strayed:
                self.tally["failed elsewhere"] += 1
                self.look("elsewhere")

    def run(self, count: int) -> str:
        """Lets so many calls fail, and gives the counts. Each kind has to be met."""
        with contextlib.nullcontext() if self.given.here else self.reading() as self.reader:
            for run in itertools.count():
                if self.tally["failed calls"] >= count:
                    break
                self.serve(run, min(self.tally["failed calls"] + FAILURES_OF_A_MACHINE, count))
        never = [" ".join(kind) for kind in self.kinds if not self.failed[kind]]
        if never:
            raise Wrong(f"never met: {', '.join(never)}: {self.counts()}")
        return self.counts()

    def counts(self) -> str:
        """What was met: all in all, and of each file in each step, in starts and in play."""
        names = ("failed calls", *(f"by a {way}" for way in (CALL, *REFUSED)), "images down", "log down", "fault 18")
        names += ("file system stopped", "failed elsewhere", "not met", "batches refused", "ticks answered")
        names += ("cuts", *CUTS, "in play", "elsewhere", *WAYS)
        counts = [f"{name} {self.tally[name]}" for name in names]
        for phase, file in dict.fromkeys(kind[:2] for kind in self.kinds):
            steps = dict.fromkeys(kind[2] for kind in self.kinds if kind[:2] == (phase, file))
            met = {it: [f"{kind[3]} {self.failed[kind]}" for kind in self.kinds if kind[:3] == (phase, file, it)] for it in steps}
            counts.append(f"{file} in {phase}: " + ", ".join(f"{step} ({', '.join(each)})" for step, each in met.items()))
        return "; ".join(counts)


def main() -> int:
    """Runs the trial, and keeps the files where it fails."""
    parser = parser_of(__doc__)
    parser.add_argument("--cells", type=int, default=600, help=f"of the world, {CELLS} at least (600)")
    parser.add_argument("--fs", choices=FS, default=FS[0], help="the file system (ext4)")
    parser.add_argument("--options", default="rw", help="of its mount (rw)")
    parser.add_argument("--failures", type=int, default=150, help="how many calls fail (150)")
    parser.add_argument("--here", action="store_true", help="on this machine as root, by FUSE and a loop device, without QEMU")
    parser.add_argument("--show", action="store_true", help="keep the system's copies of the files at a start")
    given = parser.parse_args()

    def run(folder: pathlib.Path) -> None:
        trial = Trial(given, folder, "DROP_LEFT_OUT=1" if given.show else "")
        try:
            with here_machine.writing_late() if given.here else contextlib.nullcontext():
                print(trial.run(given.failures))
        except Wrong as wrong:
            if given.show and str(wrong).startswith("recovered"):
                print(f"without the drop on {given.fs}: seen at failed call {trial.tally['failed calls']}: {wrong}")
                return
            (folder / "left").write_bytes(trial.left)
            raise
        if given.show:
            raise Wrong("no loss was seen without the drop of copies")

    given.dir = here_machine.MEMORY if given.here else None
    missing = here_machine.lacking if given.here else lambda: lacking(given.kernel)
    return status_of("device_trial", given, missing, run)


if __name__ == "__main__":
    sys.exit(main())
