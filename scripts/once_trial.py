#!/usr/bin/env python3
"""Ten sessions send marked batches at once: each has to be played once, in its session's order, and answered by its own answer.

    scripts/once_trial.py crates/worldd/out/worldd --ticks 1000000

A batch adds 1 to its session's cell and reads the cell, so the answer to the k-th batch has k. Each session sends batches ahead.
The ticks of all answers have to be 1, 2 and so on, each once, and those of a session have to rise.
"""
import array
import itertools
import pathlib
import socket
import sys
import threading

from crowd_trial import Server, Way
from trial import METHODS, TRANSPORTS, Wrong, parser_of, status_in_folder

SESSIONS, EVERY, AHEAD = 10, 4096, 200


class Session(threading.Thread):
    """A session that sends so many batches, and the ticks of its answers."""

    def __init__(self, stream: socket.socket, cell: int, batches: int) -> None:
        super().__init__(daemon=True)
        self.stream, self.batches, self.ticks, self.wrong = stream, batches, array.array("Q"), ""
        self.text = f"add {cell} 1\nget {cell}\nend\n".encode()

    def run(self) -> None:
        """Sends some batches, and takes their answers."""
        with self.stream, self.stream.makefile("rb") as reader:
            while not self.wrong and (left := self.batches - len(self.ticks)):
                self.stream.sendall(self.text * min(left, AHEAD))
                for _ in range(min(left, AHEAD)):
                    self.take(reader.readline())

    def take(self, line: bytes) -> None:
        """Takes an answer: it has to be that of the next batch, and of a later tick."""
        tick, _, answer = line.partition(b": ")
        number = int(tick[5:]) if tick[:5] == b"tick " and tick[5:].isdigit() else 0
        if answer != b"+ =%d\n" % (len(self.ticks) + 1) or number <= (self.ticks[-1] if self.ticks else 0):
            self.wrong = self.wrong or f"batch {len(self.ticks) + 1} was answered {line!r}"
        self.ticks.append(number)


def try_way(worldd: str, room: pathlib.Path, way: Way, ticks: int) -> None:
    """All sessions play at once."""
    server = Server(worldd, room / str(way), way, SESSIONS, EVERY, SESSIONS)
    sessions = [Session(server.connect(), cell, ticks // SESSIONS) for cell in range(SESSIONS)]
    for session in sessions:
        session.start()
    for session in sessions:
        session.join()
    if wrong := [session.wrong for session in sessions if session.wrong]:
        raise Wrong(wrong[0])
    seen = bytearray(ticks + 1)
    for number in itertools.chain.from_iterable(session.ticks for session in sessions):
        if number > ticks or seen[number]:
            raise Wrong(f"tick {number} was answered twice, or is one too many")
        seen[number] = 1
    server.end(ticks)


def main() -> int:
    """Runs the trial, and keeps the files where it fails."""
    parser = parser_of(__doc__)
    parser.add_argument("--ticks", type=int, default=20_000, help="of each way to serve (20,000)")
    given = parser.parse_args()
    ticks = given.ticks // SESSIONS * SESSIONS

    def run(room: pathlib.Path) -> None:
        for way in itertools.starmap(Way, itertools.product(METHODS, TRANSPORTS)):
            try_way(given.worldd, room, way, ticks)
            print(f"{way}: {ticks} batches of {SESSIONS} sessions, each played once, in order, and answered by its own answer")

    return status_in_folder("once_trial", given, run)


if __name__ == "__main__":
    sys.exit(main())
