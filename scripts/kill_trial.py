#!/usr/bin/env python3
"""Kills a serving worldd again and again, and looks at what stands in the files each time.

    scripts/kill_trial.py crates/worldd/out/worldd
    scripts/kill_trial.py WORLDD --kills 1000 --seed 7 --dir /mnt/disk

Four clients send random batches at full speed while images are written all the time. After each kill the
files must hold the world after whole ticks, each answered one among them, and each answer must be the one
of a plain model. A start is killed after every fourth kill. A kill ends the program and not the system, so
this tries the order of what is written and answered, and not whether it was synced. Two servers in a row
listen on a port, and the next two on a socket, whose file the kill leaves.
"""

import collections
import dataclasses
import io
import itertools
import pathlib
import random
import re
import signal
import sys
import threading
import time
from collections.abc import Iterator

from trial import METHODS, PATIENCE_SECONDS, SOCKET, TRANSPORTS, Served, Words, Wrong
from trial import ask, connect, create, flags_of, parser_of, pipe, status_in_folder, summary

LIMIT = 999_999_999_999_999_999
TICK_ACTIONS = 256
BAD_CELL, BAD_VALUE, OUT_OF_RANGE, SAME_CELL, TICK_FULL, BAD_LINE = 1, 2, 3, 4, 5, 16

CLIENTS = 4
EVERY = 8
# The ends of a server that is well never come. No kill leaves files that look lost or changed.
REFUSE = "--refuse-losses"
EXITS = ("--exit-when-log-down", "--exit-when-images-down", "0", "--exit-when-replaced", REFUSE)
# An image of them is written in two chunks.
CELLS = 70
# Cells for marks and for a count; the clients' own are 1 to CLIENTS, and those between are played with.
FIRST_MARK, COUNT, LAST_MARK = 0, CLIENTS + 1, CELLS - 1
PLAYED = range(COUNT + 1, LAST_MARK)
BAD_LINES = "foo", "", "get", "set 06 1", "move 6 7", "swap 6", "cap 6 -1", "add 6 +1", "end ", f"get {6:080}"
# So many lines beside the others make the longest batch. They fill a tick, though some are refused.
LONG_LINES = 1_019
LOAD_SECONDS = 0.005, 0.150
LAST_BATCHES = 100
# What came of the kills; each count has to grow.
SUMMARY = (
    "{kills} kills, {in_round} of them in an open round; {answered} ticks answered, none lost; unanswered batches kept by {kept} "
    "kills and lost by {lost}; recovered {from_a} times from image.a and {from_b} from image.b; {starts} starts killed; "
    "{replaced} sockets of killed servers replaced"
)

Request = tuple[str | int, ...]
Batch = tuple[Request, ...]
Answered = dict[int, tuple[Batch, str]]


# The plain model.


def changes(words: list[int], action: Request) -> dict[int, int] | int:
    """The words that an action changes, or the code of its refusal."""
    kind, numbers = action[0], numbers_of(action)
    count = 2 if kind in ("move", "swap") else 1
    cells, amount = numbers[:count], sum(numbers[count:])
    if any(cell >= len(words) for cell in cells):
        return BAD_CELL
    if abs(amount) > LIMIT:
        return BAD_VALUE
    if len(set(cells)) < count:
        return SAME_CELL
    held = [words[cell] for cell in cells]
    match kind:
        case "set":
            left = [amount]
        case "add":
            left = [held[0] + amount]
        case "cap":
            left = [min(held[0], amount)]
        case "swap":
            left = [held[1], held[0]]
        case _:
            left = [held[0] - amount, held[1] + amount]
    return dict(zip(cells, left)) if all(0 <= word <= LIMIT for word in left) else OUT_OF_RANGE


def numbers_of(request: Request) -> list[int]:
    """What stands after the kind of a request."""
    return [int(number) for number in request[1:]]


def answer(words: list[int], batch: Batch, number: int) -> str:
    """Runs a batch on the words as the tick of this number, and gives the line that answers it."""
    replies, accepted = [f"tick {number}:"], 0
    for request in batch:
        match request:
            case (_,):
                replies.append(f"-{BAD_LINE}")
            case ("get", int(cell)):
                replies.append(f"={words[cell]}" if cell < len(words) else f"-{BAD_CELL}")
            case action:
                changed = changes(words, action) if accepted < TICK_ACTIONS else TICK_FULL
                if isinstance(changed, int):
                    replies.append(f"-{changed}")
                    continue
                for cell, word in changed.items():
                    words[cell] = word
                accepted += 1
                replies.append("+")
    return " ".join(replies)


# The batches.


def random_request(chance: random.Random) -> Request:
    """A line on the cells that are played with, some of which are to be refused."""
    cell = chance.choice(PLAYED) if chance.random() < 0.97 else CELLS
    amount = chance.randrange(1000) if chance.random() < 0.95 else chance.choice((LIMIT, LIMIT + 1))
    match chance.choice(("set", "add", "add", "move", "move", "move", "swap", "swap", "cap", "get", "bad")):
        case "set":
            return "set", cell, amount
        case "add":
            return "add", cell, chance.choice((1, -1)) * amount
        case "move":
            return "move", cell, chance.choice(PLAYED), amount
        case "swap":
            return "swap", cell, chance.choice(PLAYED)
        case "cap":
            return "cap", cell, amount
        case "get":
            return "get", cell
        case _:
            return (chance.choice(BAD_LINES),)


def batches(seed: str, client: int, run: int) -> Iterator[Batch]:
    """The batches of a client: random lines between marks that no other batch sets, and a look at the tick before."""
    chance = random.Random(seed)
    for serial in itertools.count(1):
        mark = (run * 1_000_000 + serial) * CLIENTS + client
        lines = LONG_LINES if chance.random() < 0.02 else chance.randrange(8)
        begin = ("get", FIRST_MARK), ("set", FIRST_MARK, mark), ("add", COUNT, 1), ("set", 1 + client, mark)
        yield *begin, *(random_request(chance) for _ in range(lines)), ("set", LAST_MARK, mark)


def until_stopped(plan: Iterator[Batch], stop: threading.Event) -> Iterator[Batch]:
    """The batches of a plan until it is to stop."""
    return itertools.takewhile(lambda _: not stop.is_set(), plan)


def line_of(request: Request) -> str:
    """The line that asks for it."""
    return " ".join(map(str, request))


def text_of(batch: Batch) -> bytes:
    """The lines that a client sends."""
    return "".join(f"{line}\n" for line in [*map(line_of, batch), "end"]).encode()


class Client(threading.Thread):
    """A client in its thread: what it was answered, the batch that waits for its answer, and what went wrong."""

    def __init__(self, address: str, plan: Iterator[Batch], killed: threading.Event) -> None:
        super().__init__(daemon=True)
        self.stream = connect(address)
        self.plan, self.killed = plan, killed
        self.answered: Answered = {}
        self.waiting: Batch | None = None
        self.wrong: str | None = None

    def run(self) -> None:
        """Plays until the plan ends or the kill does it."""
        try:
            with self.stream, self.stream.makefile("r", encoding="ascii", errors="replace", newline="\n") as reader:
                self.play(reader)
        except Wrong as wrong:
            self.wrong = str(wrong)
        except OSError as error:
            if not self.killed.is_set():
                self.wrong = f"a session failed while worldd ran: {error}"

    def play(self, reader: io.TextIOBase) -> None:
        """Sends each batch once the one before is answered."""
        for batch in self.plan:
            self.waiting = batch
            self.stream.sendall(text_of(batch))
            line = reader.readline()
            if not line.endswith("\n"):
                raise ConnectionError("the connection was closed")
            self.take(batch, line.removesuffix("\n"))
            self.waiting = None

    def take(self, batch: Batch, line: str) -> None:
        """Keeps what a batch was answered."""
        match = re.match(r"tick ([0-9]+):", line)
        if not match:
            raise Wrong(f"a batch was answered `{line}`")
        number = int(match[1])
        if number <= max(self.answered, default=0):
            raise Wrong(f"tick {number} was answered to a client after its tick {max(self.answered)}")
        self.answered[number] = batch, line


def collected(clients: list[Client], ended: int) -> tuple[Answered, frozenset[Batch]]:
    """What all clients were answered after so many ticks had ended, and the batches that were not answered."""
    answered: Answered = {}
    for client in clients:
        client.join()
        if client.wrong:
            raise Wrong(client.wrong)
        for number in client.answered:
            if number in answered or number <= ended:
                raise Wrong(f"two ticks were answered with the number {number}")
        answered |= client.answered
    return answered, frozenset(client.waiting for client in clients if client.waiting)


# What stands in the files.


@dataclasses.dataclass(frozen=True)
class Found:
    """What `recover` and `inspect` print: the line of the world, its tick, its image's tick and file, and the words."""

    line: str
    tick: int
    base: int
    image: str
    words: list[int]
    in_round: bool


def found_in(recovered: str, lines: list[str]) -> Found:
    """What stands in the files, from the line of `recover` and the lines of `inspect`."""
    form = r"(recovered ([0-9]+) from ([0-9]+)) in (image\.[ab])\n([0-9]+(?: [0-9]+)*)"
    match = re.fullmatch(form, "\n".join(lines[-2:]))
    if not match or match[1] != recovered:
        raise Wrong(f"inspect ends with {lines[-2:]}, and recover prints `{recovered}`")
    # A round's image is closed, and has bytes already.
    in_round = any(re.match(r"image\.[ab]: closed, [1-9]", line) for line in lines)
    words = [int(word) for word in match[5].split(" ")]
    return Found(match[1], int(match[2]), int(match[3]), match[4], words, in_round)


def left_in_round(before: Found, after: Found) -> bool:
    """Whether a kill left an open round. With no tick in the log a start writes no image, and leaves the one closed that an
    earlier kill had left so."""
    return after.in_round and not (before.in_round and before.tick == before.base)


def leads_to(after: Found, words: list[int], number: int, answered: Answered, unanswered: frozenset[Batch]) -> bool:
    """Whether the ticks after this one lead to the words found, for some of the unanswered batches in some order."""
    words = list(words)
    while number < after.tick:
        number += 1
        if number not in answered:
            return any(
                leads_to(after, ran(words, batch), number, answered, unanswered - {batch}) for batch in unanswered
            )
        batch, line = answered[number]
        if answer(words, batch, number) != line:
            return False
    return words == after.words


def ran(words: list[int], batch: Batch) -> list[int]:
    """The words after a batch."""
    words = list(words)
    answer(words, batch, 0)
    return words


def judge(before: Found, after: Found, answered: Answered, unanswered: frozenset[Batch]) -> None:
    """Holds what stands in the files, and each answer, to the plain model."""
    last = max(answered, default=before.tick)
    if after.tick < last:
        raise Wrong(f"{after.line}, and tick {last} was there before the kill")
    words, number = list(before.words), before.tick
    while number + 1 in answered:
        number += 1
        batch, line = answered[number]
        wanted = answer(words, batch, number)
        if line != wanted:
            raise Wrong(difference(batch, line, wanted))
    if not leads_to(after, words, number, answered, unanswered):
        raise Wrong(f"{after.line}, and {reason(after, words, number, len(unanswered))}")


def difference(batch: Batch, line: str, wanted: str) -> str:
    """The first reply of an answer that isn't the model's."""
    tick = wanted.partition(":")[0]
    replies = itertools.zip_longest(batch, line.split(" ")[2:], wanted.split(" ")[2:])
    for request, given, right in replies:
        if given != right:
            return f"`{line_of(request or ())}` of {tick} was answered `{given}`, and the model has `{right}`"
    return f"{tick} was answered by a line that is spaced wrong"


def reason(after: Found, words: list[int], number: int, unanswered: int) -> str:
    """Why these words of the model, after this tick, don't lead to what was found."""
    if number < after.tick:
        return f"no order of the {unanswered} unanswered batches leads from tick {number} to these words"
    if len(words) != len(after.words):
        return f"there are {len(after.words)} words"
    cell = next(cell for cell in range(len(words)) if words[cell] != after.words[cell])
    return f"cell {cell} has {after.words[cell]}, and the model {words[cell]}"


# The trial.


class Server(Served):
    """A server that is killed, for which it has a limited time unless its watch is cancelled."""

    def __init__(self, command: Words, errors: pathlib.Path) -> None:
        self.killed, self.begun = threading.Event(), time.monotonic()
        super().__init__(command, errors)
        self.watch = threading.Timer(2 * PATIENCE_SECONDS, self.process.kill)
        self.watch.start()

    def __enter__(self) -> "Server":
        return self

    def __exit__(self, *_: object) -> None:
        self.watch.cancel()
        self.process.kill()
        self.process.wait()
        pipe(self.process.stdout).close()

    def kill(self) -> str:
        """Kills it, and gives what it had printed since."""
        self.killed.set()
        self.process.kill()
        printed, status = pipe(self.process.stdout).read(), self.process.wait()
        if status != -signal.SIGKILL:
            raise Wrong(f"serve ended by itself with status {status}{self.complaint()}")
        self.look_at_complaints()
        return printed

    def end(self) -> str:
        """The line with which it ends by itself."""
        printed, status = pipe(self.process.stdout).read(), self.process.wait()
        if status:
            raise Wrong(f"serve ended with status {status}{self.complaint()}")
        self.look_at_complaints()
        return printed.removesuffix("\n")

    def look_at_complaints(self) -> None:
        """A keeper that is down and a session that is refused are reported on standard error."""
        if re.search("down|refused|fault", self.complaint()):
            raise Wrong(f"serve went on{self.complaint()}")


class Trial:
    """A world in a folder, what stands in its files, and the counts so far."""

    def __init__(self, worldd: str, room: pathlib.Path, seed: int) -> None:
        self.worldd, self.room, self.seed, self.socket = worldd, room, seed, room / "socket"
        self.chance, self.start_seconds = random.Random(seed), 0.0
        self.tally: collections.Counter[str] = collections.Counter()
        create(worldd, room / "world", CELLS)
        self.found = self.look()
        if self.found.tick or any(self.found.words) or len(self.found.words) != CELLS:
            raise Wrong(f"create made a world that isn't {CELLS} zeros at tick 0: {self.found.line}")

    def ask(self, command: str, *flags: str) -> list[str]:
        """The lines that a command prints."""
        return ask(self.worldd, command, self.room / "world", *flags).stdout.splitlines()

    def look(self) -> Found:
        """What stands in the files now."""
        return found_in("".join(self.ask("recover", REFUSE)), self.ask("inspect", "--words"))

    def serve(self, run: int) -> Server:
        """Starts a server, by either method and over either transport in turn."""
        method, transport = METHODS[run % 2], TRANSPORTS[run // 2 % 2]
        self.tally["replaced"] += transport == SOCKET and self.socket.exists()
        flags = ["--method", method, "--every", str(EVERY), "--clients", str(CLIENTS), *flags_of(transport, self.socket), *EXITS]
        return Server([self.worldd, "serve", "--dir", str(self.room / "world"), *flags], self.room / "complaints")

    def play(self, server: Server, run: int, most: int | None) -> list[Client]:
        """Lets clients send their batches, each so many at most."""
        server.begin(self.found.line)
        address = server.listen()
        self.start_seconds = time.monotonic() - server.begun
        plans = [batches(f"{self.seed} {run} {client}", client, run) for client in range(CLIENTS)]
        clients = [Client(address, itertools.islice(plan, most), server.killed) for plan in plans]
        for client in clients:
            client.start()
        return clients

    def kill_play(self, run: int) -> None:
        """Kills a server at a random moment of play, and judges what it leaves."""
        with self.serve(run) as server:
            clients = self.play(server, run, None)
            time.sleep(self.chance.uniform(*LOAD_SECONDS))
            server.kill()
            answered, unanswered = collected(clients, self.found.tick)
        after = self.look()
        judge(self.found, after, answered, unanswered)
        self.count(after, len(answered), len(unanswered))
        self.found = after

    def count(self, after: Found, answered: int, unanswered: int) -> None:
        """Counts what came of a kill."""
        kept = after.tick - self.found.tick - answered
        self.tally.update(kills=1, answered=answered, kept=kept > 0, lost=unanswered > kept)
        self.tally["in_round"] += left_in_round(self.found, after)
        self.tally[f"from_{after.image[-1]}"] += 1

    def kill_start(self, run: int) -> None:
        """Kills a server in its start, which must leave the same world."""
        with self.serve(run) as server:
            time.sleep(self.chance.uniform(0, self.start_seconds))
            printed = server.kill()
        after = self.look()
        judge(self.found, after, {}, frozenset())
        self.tally["starts"] += "listening" not in printed
        self.found = after

    def end_play(self, run: int) -> None:
        """Lets a server end by itself once its clients have left. It removes its socket."""
        with self.serve(run) as server:
            answered, _ = collected(self.play(server, run, LAST_BATCHES), self.found.tick)
            said, tick = server.end(), self.found.tick + len(answered)
        if said != f"stopped tick {tick} acked {tick}":
            raise Wrong(f"serve ended with `{said}` after tick {tick}")
        if run // 2 % 2 and (left := list(self.room.glob("socket*"))):
            raise Wrong(f"serve ended and left {left}")
        after = self.look()
        judge(self.found, after, answered, frozenset())
        self.found = after

    def run(self, kills: int, seconds: float) -> str:
        """Kills so many times, for so long at most, and lets a server of each method end over each transport."""
        begun = time.monotonic()
        for run in range(kills):
            if time.monotonic() - begun > seconds:
                break
            self.kill_play(run)
            if run % 4 == 3:
                self.kill_start(run // 4)
        for run in range(len(METHODS) * len(TRANSPORTS)):
            self.end_play(kills + run)
        return summary(SUMMARY, self.tally)


def main() -> int:
    """Runs the trial, and keeps the files where it fails."""
    parser = parser_of(__doc__, "of the batches and the moments", has_dir=True)
    parser.add_argument("--kills", type=int, default=200, help="how many times a serving worldd is killed (200)")
    parser.add_argument("--seconds", type=float, default=float("inf"), help="begin no kill after so many seconds")
    given = parser.parse_args()
    most = given.kills, given.seconds
    return status_in_folder("kill_trial", given, lambda room: Trial(given.worldd, room, given.seed).run(*most))


if __name__ == "__main__":
    sys.exit(main())
