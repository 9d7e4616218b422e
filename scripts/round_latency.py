#!/usr/bin/env python3
"""Measures how long batches wait for their answers while an image of a large world is written, and while none is.

    scripts/round_latency.py crates/worldd/out/worldd
    scripts/round_latency.py WORLDD --cells 65536 --every 4096 --seconds 30 --dir /mnt/disk

One client sends batches of random sets, each once the last one is answered. A round goes from the answer of its tick,
after which its mark comes, to the line that reports its image as opened.
"""
import argparse
import bisect
import pathlib
import random
import re
import socket
import subprocess
import tempfile
import threading
import time

from trial import METHODS, Words, absolute, begun, create, pipe

LINES = 16


class Server:
    """A serving worldd over a new world, and when it reported its images."""

    def __init__(self, worldd: str, folder: pathlib.Path, method: str, cells: int, every: int) -> None:
        create(worldd, folder, cells)
        flags = ["--method", method, "--every", str(every), "--port", "0", "--clients", "1"]
        command: Words = [worldd, "serve", "--dir", folder, *flags]
        self.process = subprocess.Popen(command, stdout=subprocess.PIPE, stderr=subprocess.PIPE, text=True)
        self.port = int(begun(self.process)[1].split()[1])
        self.opened: dict[int, float] = {}
        self.listener = threading.Thread(target=self.hear)
        self.listener.start()

    def hear(self) -> None:
        """Notes when each image was opened."""
        for line in pipe(self.process.stderr):
            match = re.fullmatch(r"worldd: image of tick (\d+) opened\n", line)
            if match:
                self.opened[int(match[1])] = time.perf_counter()

    def close(self) -> None:
        """Waits for its end."""
        self.process.wait()
        self.listener.join()


def play(port: int, cells: int, seconds: float) -> list[tuple[float, float]]:
    """When each batch was sent and when it was answered, in order of the ticks from 1 on."""
    chance, times = random.Random(7), []
    with socket.create_connection(("127.0.0.1", port)) as stream, stream.makefile("rb") as answers:
        stream.setsockopt(socket.IPPROTO_TCP, socket.TCP_NODELAY, 1)
        ends = time.perf_counter() + seconds
        while time.perf_counter() < ends:
            sets = (f"set {chance.randrange(cells)} {chance.randrange(10**18)}\n" for _ in range(LINES))
            batch = ("".join(sets) + "end\n").encode()
            sent = time.perf_counter()
            stream.sendall(batch)
            line = answers.readline()
            times.append((sent, time.perf_counter()))
            if line != b"tick %d:" % len(times) + b" +" * LINES + b"\n":
                raise SystemExit(f"tick {len(times)} was answered {line!r}")
    return times


def text_of(name: str, waits: list[float]) -> str:
    """Median, 99th percentile and greatest of these waits, in milliseconds."""
    if not waits:
        return f"{name}: none"
    waits = sorted(waits)
    median, high = waits[len(waits) // 2], waits[len(waits) * 99 // 100]
    return f"{name}: {len(waits)} batches, p50 {1e3 * median:.3f} ms, p99 {1e3 * high:.3f} ms, max {1e3 * waits[-1]:.3f} ms"


def measure(worldd: str, folder: pathlib.Path, method: str, cells: int, every: int, seconds: float) -> None:
    """Prints what the batches of one run waited."""
    server = Server(worldd, folder, method, cells, every)
    times = play(server.port, cells, seconds)
    server.close()
    rounds = sorted((times[tick - 1][1], opened) for tick, opened in server.opened.items() if 1 <= tick <= len(times))
    begins = [begin for begin, _ in rounds]
    inside: list[float] = []
    between: list[float] = []
    for sent, answered in times:
        at = bisect.bisect_right(begins, answered) - 1
        in_round = at >= 0 and sent < rounds[at][1]
        (inside if in_round else between).append(answered - sent)
    lasted = sorted(opened - begin for begin, opened in rounds)
    middle = 1e3 * lasted[len(lasted) // 2] if lasted else 0
    print(f"{method}, {cells} cells, an image every {every} ticks: {len(rounds)} rounds of {middle:.0f} ms")
    print("  " + text_of("in a round", inside))
    print("  " + text_of("between rounds", between))


def main() -> None:
    """Measures both methods."""
    parser = argparse.ArgumentParser(description=__doc__, formatter_class=argparse.RawDescriptionHelpFormatter)
    parser.add_argument("worldd", type=absolute)
    parser.add_argument("--cells", type=int, default=1_048_576)
    parser.add_argument("--every", type=int, default=4096)
    parser.add_argument("--seconds", type=float, default=20)
    parser.add_argument("--dir")
    given = parser.parse_args()
    for method in METHODS:
        with tempfile.TemporaryDirectory(dir=given.dir) as folder:
            measure(given.worldd, pathlib.Path(folder) / "world", method, given.cells, given.every, given.seconds)


main()
