#!/usr/bin/env python3
"""Takes the power of the machine that serves a mirrored world, and serves it on the other one.

    scripts/failover_trial.py crates/worldd/out/worldd --kernel out/kernel --failovers 100 --seed 7

Two machines of QEMU's mirror a disk by DRBD, by the commands of docs/STANDBY.md. The machine that serves dies right after an
answer or a moment later, and the other one is promoted. Each answered tick must be there, as kill_trial.py judges it. The dead
machine comes back and catches up, and is the next one to take over. Disks, the wire and the other machine fail, too. With --both
both machines lose power, and the secondary comes back without the other one. With --show what has to lose ticks loses some.
"""
import argparse
import itertools
import pathlib
import random
import re
import statistics
import sys
import tempfile
import threading
import time
from collections.abc import Callable

from check_docs import commands_after
from kill_trial import CELLS, CLIENTS, Batch, Client, Found, batches, collected, found_in, judge, left_in_round
from mirror_machine import CONSOLE, CREATE, FENCED, PACKAGES, PAGE, PATIENCE_SECONDS, PEER, PROMOTE, SERVICE, STEP_DOWN, UP
from mirror_machine import Edits, Pair
from power_machine import lacking, parser_of, status_of
from trial import METHODS, Wrong, all_met, want

from cektaulis import Add, World

EVERY, PLAY_SECONDS, FROZEN_SECONDS, LIBRARY_BATCHES, LIBRARY_SECONDS = (1, 8, 64), 2.5, 4, 40, 150
# The wire's time for a packet where a delayed one is wanted. Clients wait so long before each batch while a machine starts. A
# start is killed so soon after its first line, and a machine so soon after an answer, at most.
SLOW, PAUSE_SECONDS, START_SECONDS, ANSWER_SECONDS = (0.15, 0.3), 0.7, 0.05, 0.1
# The cells of the page's world, and the one of the library's marker, after those of the model's clients. The next one counts
# batches.
WORLD_CELLS, MARKER = 1000, CELLS + 1
FORCE, UP_TO_DATE = "drbdadm primary --force world", "ds:UpToDate/UpToDate"
MET = "in a round", "in a start", FENCED, "ticks while one caught up", "library batches"


class Trial(Pair):
    """A mirrored world, what its clients were answered, and the counts so far."""

    def __init__(self, given: argparse.Namespace, folder: pathlib.Path, edits: Edits) -> None:
        super().__init__(given, folder, edits)
        self.begun, self.primary, self.runs = time.monotonic(), "alpha", 0
        self.before = self.found = Found("recovered 0 from 0", 0, 0, "image.a", [0] * WORLD_CELLS, False)
        self.is_held, self.pause = False, 0.0
        self.clients: list[Client] = []
        self.seconds: list[float] = []

    def goes_on(self, _batch: Batch) -> bool:
        """Whether a client plays its next batch, after a pause."""
        time.sleep(self.pause)
        return not self.is_held

    def printed(self) -> list[str]:
        """The lines of the service."""
        return self.lines[self.primary, SERVICE]

    def answered(self) -> int:
        """How many batches are answered. Nothing may have gone wrong."""
        wrong = [client.wrong for client in self.clients if client.wrong]
        wrong += re.findall(".*(?:fault|down|refused|panic).*", "\n".join(self.printed()))
        want(not wrong, "; ".join(wrong))
        return sum(len(client.answered) for client in self.clients)

    def setup(self) -> None:
        """Sets both up by the page, and plays."""
        self.boot(PEER, CREATE, UP)
        self.until_state("alpha", "cs:Connected")
        self.sh("alpha", self.flags(), *commands_after("**Only on alpha**", PAGE))
        self.play()

    def flags(self) -> str:
        """Chooses how the world is served next, and gives the command for it."""
        self.runs += 1
        method, every = METHODS[self.runs % 2], EVERY[self.runs // 2 % len(EVERY)]
        self.tally.update([method, f"every {every}"])
        return f"echo --method {method} --every {every} >/run/flags"

    def promote(self, name: str, *first: str) -> Found:
        """Promotes a machine, after these commands, and gives what stood in the files then."""
        self.primary, self.lines[name, SERVICE] = name, []
        lines = self.sh(name, self.flags(), *first, PROMOTE)
        self.tally["mended by e2fsck"] += any("MODIFIED" in line for line in lines)
        self.found = found_in("".join(line for line in lines if re.fullmatch(r"recovered \d+ from \d+", line)), lines)
        return self.found

    def refused(self, name: str, why: str) -> None:
        """A machine can't be promoted for this reason, and doesn't ask its fence."""
        asked = self.tally[FENCED]
        lines = self.sh(name, "! drbdadm primary world", f"! {PROMOTE}")
        want(why in "\n".join(lines) and self.tally[FENCED] == asked, f"{name} isn't refused as {why}: {lines}")

    def judge(self, found: Found) -> None:
        """Holds what was found to the plain model. No answered tick may be lost. From then on it is what was there before."""
        lost, answered = self.lost(found)
        want(lost == 0, f"{found.line}, and {lost} of {answered} answered ticks are lost")
        self.tally.update({"ticks compared": answered, "kept more": found.tick - self.before.tick > answered})
        self.before, self.clients = found, []

    def lost(self, found: Found) -> tuple[int, int]:
        """How many answered ticks are lost, and of how many. What is there must be an earlier world of the model."""
        answered, waiting = collected(self.clients, self.before.tick)
        kept = {tick: line for tick, line in answered.items() if tick <= found.tick}
        judge(self.before, found, kept, waiting)
        return len(answered) - len(kept), len(answered)

    def play(self) -> None:
        """Lets the clients play, until each was answered."""
        self.until(lambda: "listening 7070" in self.printed(), "the service doesn't listen")
        want(self.printed()[0] == self.found.line, f"the service printed {self.printed()} after {self.found.line}")
        self.is_held, port, dead = False, self.ports[self.primary], self.is_dead[self.primary]
        plans = [batches(f"{self.given.seed} {self.runs} {client}", client, self.runs) for client in range(CLIENTS)]
        self.clients = [Client(port, itertools.takewhile(self.goes_on, plan), dead) for plan in plans]
        for client in self.clients:
            client.stream.settimeout(PATIENCE_SECONDS)
            client.start()
        self.until(lambda: self.answered() and all(c.answered for c in self.clients), "no answers")

    def until_answered(self, count: int = 1) -> None:
        """Waits until so many more batches are answered."""
        count += self.answered()
        self.until(lambda: self.answered() >= count, "nothing is answered")

    def hold(self) -> None:
        """Lets the clients play no more, until all are answered."""
        self.is_held = True
        self.until(lambda: not any(client.is_alive() for client in self.clients), "batches wait")

    def take_over(self, name: str) -> None:
        """Serves on this machine."""
        self.judge(self.promote(name))
        self.play()

    def fail_over(self) -> str:
        """Kills the machine that serves, serves on the other one, and gives the dead one."""
        dead, begun = self.primary, time.monotonic()
        self.kill(dead)
        self.take_over(PEER[dead])
        self.seconds.append(time.monotonic() - begun)
        self.tally["failovers"] += 1
        return dead

    def back(self, name: str) -> None:
        """Starts a dead machine, and waits until it has caught up."""
        self.pause, count = PAUSE_SECONDS, self.answered()
        self.boot([name], UP)
        for each in PEER:
            self.until_state(each, f"cs:Connected .* {UP_TO_DATE}")
        self.pause = 0.0
        self.tally["ticks while one caught up"] += self.answered() - count

    # The kinds. Each begins and ends with both up to date, and the clients play.

    def machine_dies(self) -> None:
        """The machine that serves dies right after an answer or in the tick after it, comes back, and catches up."""
        self.wait(random.uniform(0, PLAY_SECONDS))
        self.until_answered()
        self.wait(random.choice((0, random.uniform(0, ANSWER_SECONDS))))
        before, dead = self.before, self.fail_over()
        self.tally["in a round"] += left_in_round(before, self.before)
        self.back(dead)

    def disk_fails(self) -> None:
        """The serving machine loses its disk. Play goes on by the other disk. Then it dies."""
        self.machines[self.primary].refused = lambda kind, data: 0
        self.until_state(self.primary, "ds:Diskless/UpToDate")
        self.until_answered(CLIENTS)
        self.machine_dies()

    def secondary_dies(self) -> None:
        """The other machine dies. Play goes on after the fence. It comes back, and catches up."""
        asked = self.tally[FENCED]
        self.kill(PEER[self.primary])
        self.until(lambda: self.tally[FENCED] > asked, "the fence isn't asked")
        self.until_answered(CLIENTS)
        self.back(PEER[self.primary])

    def wire_is_cut(self) -> None:
        """The wire is cut. Nothing is answered until the fence has switched the other one off."""
        asked, self.has_fence, self.is_cut = self.tally[FENCED], False, True
        self.until(lambda: self.tally[FENCED] > asked, "the fence isn't asked")
        self.wait(1)
        count = self.answered()
        self.wait(FROZEN_SECONDS)
        want(self.answered() == count, "play goes on, and the fence hasn't answered")
        self.has_fence = True
        self.fence(self.primary)
        self.until_answered(CLIENTS)
        self.is_cut = False
        self.back(PEER[self.primary])

    def switch(self) -> None:
        """A planned switch, which asks no fence."""
        self.hand_over()
        self.play()

    def hand_over(self) -> None:
        """Ends the service, and starts it on the other machine, which is promoted without a fence."""
        self.hold()
        asked = self.tally[FENCED]
        self.sh(self.primary, STEP_DOWN)
        self.judge(self.promote(PEER[self.primary]))
        want(self.tally[FENCED] == asked, "a planned switch asked the fence")

    def start_is_killed(self) -> None:
        """A planned switch to a machine that dies while its service starts."""
        self.hand_over()
        self.until(self.printed, "the service prints nothing")
        self.wait(random.uniform(0, START_SECONDS))
        self.tally["in a start"] += len(self.printed()) == 1
        self.back(self.fail_over())

    def library_plays(self) -> None:
        """A client of clients/python plays each batch once, though the machine that serves dies."""
        self.hold()
        self.judge(self.look())
        old, words, played = self.primary, self.before.words, [self.before.words[MARKER]]
        end, addresses = played[0] + LIBRARY_BATCHES, [int(port) for port in self.ports.values()]

        def play() -> None:
            with World(addresses, timeout=2) as world:
                for number in range(played[0] + 1, end + 1):
                    world.play_once(MARKER, number, Add(MARKER + 1, 1), patience=LIBRARY_SECONDS)
                    played.append(number)
                self.tally["library connected"] += world.connections

        thread = threading.Thread(target=play, daemon=True)
        thread.start()
        self.until(lambda: len(played) > LIBRARY_BATCHES // 4 or not thread.is_alive(), "no answer")
        self.kill(old)
        last = played[-1]
        want(self.promote(PEER[old]).words[MARKER] >= last, f"{self.found.line}: batch {last} of the library was answered")
        self.until(lambda: not thread.is_alive(), "the library waits")
        self.before = self.look()
        is_right = self.before.words == [*words[:MARKER], end, end, *words[MARKER + 2 :]] and played[-1] == end
        want(is_right, f"the library ends with batch {played[-1]}, and the cells with {self.before.words[MARKER : MARKER + 2]}")
        self.tally.update({"library batches": LIBRARY_BATCHES, "failovers": 1})
        self.play()
        self.back(old)

    def look(self) -> Found:
        """What stands in the files of the world that is served."""
        lines = self.sh(self.primary, "worldd inspect --dir /var/lib/world --words")
        return found_in(lines[-2].partition(" in ")[0], lines)

    def both_lose_power(self, is_kept: bool) -> None:
        """Both lose power, and the writes that no flush covered, unless their drives keep what has ended. The secondary comes
        back first, and is forced. Then from the same moment both do."""
        self.wait(random.uniform(0, PLAY_SECONDS))
        self.until_answered()
        old, other = self.primary, PEER[self.primary]
        for name in PEER:
            self.kill(name, is_kept, random.choice((0, random.random())) if is_kept else 0)
        image, kind = bytes(self.images[other]), f"caches {'kept' if is_kept else 'lost'}"
        self.boot([other], UP)
        self.refused(other, "Consistent")
        lost, _ = self.lost(self.promote(other, FORCE))
        self.tally.update({kind: 1, f"{kind}: lost some": lost > 0, f"{kind}: ticks lost": lost})
        want(not (is_kept and lost), f"{lost} answered ticks are lost, though the drives kept what had ended")
        self.kill(other)
        self.images[other][:] = image
        self.boot(PEER, UP)
        self.until_state(old, f"cs:Connected .* {UP_TO_DATE}")
        self.take_over(random.choice([*PEER]))

    def series(self) -> str:
        """Lets machines fail so often, and gives the counts. Each kind has to be met, which may take three times as many."""
        self.delay = self.given.delay / 2, self.given.delay
        for number in range(self.given.both):
            self.both_lose_power(number % 2 == 1)
            print(self.counts(), flush=True)
        others = self.disk_fails, self.secondary_dies, self.switch, self.start_is_killed, self.wire_is_cut, self.library_plays
        kinds = itertools.cycle(kind for other in others for kind in (other, self.machine_dies))
        met = *MET, *METHODS, *(f"every {every}" for every in EVERY), *(kind.__name__ for kind in (self.machine_dies, *others))
        least, most = self.given.failovers, 3 * self.given.failovers
        while self.tally["failovers"] < (least if all(self.tally[kind] for kind in met) else most):
            kind = next(kinds)
            kind()
            self.tally[kind.__name__] += 1
            print(self.counts(), flush=True)
        all_met(self.tally, met if self.given.failovers else (), after=f": {self.counts()}")
        return self.counts()

    def counts(self) -> str:
        """What was met so far, and how long a failover took."""
        counts = [f"{name} {count}" for name, count in sorted(self.tally.items())]
        if self.seconds:
            counts.append(f"answered again after {statistics.median(self.seconds):.1f} s, at most {max(self.seconds):.1f}")
        return f"{time.monotonic() - self.begun:.0f} s: {'; '.join(counts)}"


# What has to be seen.


def loss(trial: Trial, name: str, *first: str) -> str:
    """What serving on this machine loses."""
    lost, answered = trial.lost(trial.promote(name, *first))
    want(lost > 0, "nothing is lost")
    return f"{lost} of {answered} answered ticks lost"


def late_mirror(trial: Trial) -> str:
    """Protocol A doesn't wait for the other machine."""
    trial.delay = SLOW
    trial.until_answered(2 * CLIENTS)
    trial.kill(trial.primary)
    return loss(trial, PEER[trial.primary])


def no_fence(trial: Trial) -> str:
    """Without fencing the machine that serves plays on. It comes back to a split brain, which the page's commands end."""
    trial.is_cut, old = True, trial.primary
    trial.until_answered(30)
    trial.kill(old)
    lost, trial.is_cut = loss(trial, PEER[old]), False
    trial.boot([old], UP)
    trial.until_state(old, "cs:StandAlone")
    for name, title in ((old, "**On the other one**"), (PEER[old], "**On the one that stays**")):
        trial.sh(name, *(f"{command} || :" for command in commands_after(title, PAGE)))
    trial.until_state(old, UP_TO_DATE)
    return f"{lost}; a split brain, which was mended"


def catching_up(trial: Trial) -> str:
    """The machine that serves dies while the other one catches up."""
    old, other = trial.primary, PEER[trial.primary]
    slow = "drbdadm disk-options --resync-rate=40k --c-plan-ahead=0 world"
    trial.kill(other)
    trial.until_answered(4 * CLIENTS)
    trial.sh(old, slow)
    trial.boot([other], f"{UP}; {slow}")
    trial.until_state(other, "cs:SyncTarget")
    trial.kill(old)
    trial.until_state(other, "cs:WFConnection")
    trial.refused(other, "Inconsistent")
    trial.boot([old], UP)
    trial.until_state(old, "ds:UpToDate/")
    trial.take_over(old)
    return "refused (Inconsistent), and the other machine has each tick"


def stale_machine(trial: Trial) -> str:
    """A machine comes back that lacks ticks, and the one that has them is off."""
    old, other = trial.primary, PEER[trial.primary]
    trial.sh(other, "drbdadm disconnect world")
    trial.until_state(other, "ds:Outdated/")
    trial.refused(other, "Outdated")
    trial.sh(other, "drbdadm connect world")
    trial.until_state(old, UP_TO_DATE)
    trial.kill(other)
    trial.until_answered(2 * CLIENTS)
    trial.kill(old)
    trial.boot([other], UP)
    trial.refused(other, "Consistent")
    return f"refused (Outdated, Consistent); by force {loss(trial, other, FORCE)}"


def raw_disk(trial: Trial) -> str:
    """The disk of a machine that comes back holds an old world."""
    old = trial.fail_over()
    trial.until_answered(2 * CLIENTS)
    trial.pause = PAUSE_SECONDS
    trial.boot([old])
    last = max(tick for client in trial.clients for tick in client.answered)
    line = trial.sh(old, "mount -t ext4 /dev/vda /mnt", "worldd recover --dir /mnt")[-1]
    want(int(line.split(" ")[1]) < last, f"the raw disk has {line}")
    return f"it has `{line}`, and tick {last} is answered"


# DRBD refuses protocol A with `resource-and-stonith`.
NO_FENCE = {"resource-and-stonith": "dont-care"}
Scenes = dict[str, tuple[Callable[[Trial], str], Edits]]
CONTROLS: Scenes = {
    "protocol A with a slow wire": (late_mirror, {"protocol C": "protocol A"} | NO_FENCE),
    "fencing dont-care with a cut wire": (no_fence, NO_FENCE),
    "a promotion while catching up": (catching_up, {}),
    "a stale machine": (stale_machine, {}),
    "a raw disk": (raw_disk, {}),
}


def main() -> int:
    """Runs the trial, or shows what has to be seen."""
    parser = parser_of(__doc__)
    parser.add_argument("--failovers", type=int, default=9, help="how many servers die (9)")
    parser.add_argument("--both", type=int, default=0, help="how often both lose power first (0)")
    parser.add_argument("--delay", type=float, default=0, help="of a packet, in seconds (0)")
    parser.add_argument("--show", action="store_true", help="show what loses ticks, or is refused")
    given = parser.parse_args()
    scenes: Scenes = CONTROLS if given.show else {"the series": (Trial.series, {})}

    def run(folder: pathlib.Path) -> None:
        for name, (scene, edits) in scenes.items():
            trial = Trial(given, pathlib.Path(tempfile.mkdtemp(dir=folder)), edits)
            try:
                trial.setup()
                print(f"{name}: {scene(trial)}", flush=True)
            except Wrong as wrong:
                shown = "\n".join(line for who in PEER for line in trial.lines[who, CONSOLE][-20:])
                raise Wrong(f"{name}: {wrong}\n{trial.counts()}\n{shown}") from wrong
            finally:
                for machine in [*trial.machines]:
                    trial.kill(machine)

    return status_of("failover_trial", given, lambda: lacking(given.kernel, PACKAGES, "drbd"), run)


if __name__ == "__main__":
    sys.exit(main())
