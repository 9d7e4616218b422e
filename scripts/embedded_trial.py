#!/usr/bin/env python3
"""Runs crates/embedded, the example of a program that serves a world by itself, and judges what it prints and leaves.

    scripts/embedded_trial.py crates/embedded/out/embedded crates/worldd/out/worldd

It plays two batches, twice, and `worldd recover` has to find each tick. Of two that run at once one is refused, and the other
goes on. With each set of standard streams closed, the files have to stay a world.
"""
import argparse
import functools
import itertools
import pathlib
import subprocess
import sys
import tempfile
from typing import Any

from trial import absolute, close_all, compare, create, pipe, ran, status_of, want

SECONDS = 60
CELLS = 2
BATCHES = "add 0 5\nget 0\nend\nmove 0 1 2\nget 1\nget 2\nend\n"


class Trial:
    """A world in a folder, and the programs that work on it."""

    def __init__(self, embedded: str, worldd: str, folder: pathlib.Path) -> None:
        self.embedded, self.worldd, self.folder = embedded, worldd, folder
        create(worldd, folder / "world", CELLS)

    def start(self, **streams: Any) -> subprocess.Popen[str]:
        """The program, with pipes unless its streams are said."""
        how: dict[str, Any] = dict.fromkeys(("stdin", "stdout", "stderr"), subprocess.PIPE)
        return subprocess.Popen([self.embedded], text=True, cwd=self.folder, **(how | streams))

    def tick(self) -> int:
        """The tick that recovery finds."""
        run = ran(self.worldd, "recover", self.folder / "world")
        compare("status of worldd recover", (run.returncode, run.stderr), (0, ""))
        return int(run.stdout.split()[1])

    def play(self, first: int, total: int, moved: int) -> None:
        """Two batches are answered, and are there afterwards."""
        said, errors = self.start().communicate(BATCHES, timeout=SECONDS)
        compare("answers", said, f"tick {first}: + ={total}\ntick {first + 1}: + ={moved} -1\n")
        compare("standard error", errors, "")
        compare("recovered tick", self.tick(), first + 1)

    def play_two(self) -> None:
        """Of two at once the second is refused, and the first goes on."""
        one = self.start()
        pipe(one.stdin).write("get 0\nend\n")
        pipe(one.stdin).flush()
        answer = pipe(one.stdout).readline()
        two = self.start()
        said, errors = two.communicate(BATCHES, timeout=SECONDS)
        compare("the second program", (two.returncode, said), (1, ""))
        want("another program writes this world" in errors, f"the second program said {errors!r}")
        one.communicate(timeout=SECONDS)
        compare("the first program", (one.returncode, answer.startswith("tick ")), (0, True))

    def play_closed(self, closed: tuple[int, ...]) -> None:
        """With these standard streams closed, no text gets into a file, and no tick is lost."""
        before = self.tick()
        streams = {("stdin", "stdout", "stderr")[at]: subprocess.DEVNULL for at in closed}
        program = self.start(**streams, preexec_fn=functools.partial(close_all, closed))
        program.communicate(None if 0 in closed else BATCHES, timeout=SECONDS)
        ticks = self.tick() - before
        want(ticks in ((0,) if 0 in closed else (0, 1, 2)), f"with {closed} closed {ticks} ticks came")


def run(given: argparse.Namespace) -> str:
    """Runs all of it, and gives the counts."""
    sets = [closed for count in (1, 2, 3) for closed in itertools.combinations(range(3), count)]
    with tempfile.TemporaryDirectory() as folder:
        trial = Trial(given.embedded, given.worldd, pathlib.Path(folder))
        trial.play(1, 5, 2)
        trial.play(3, 8, 4)
        trial.play_two()
        for closed in sets:
            trial.play_closed(closed)
    return f"embedded: 2 runs, 2 at once, {len(sets)} sets of closed streams, nothing wrong"


def main() -> int:
    """Runs the trial."""
    parser = argparse.ArgumentParser(description=__doc__.splitlines()[0])
    parser.add_argument("embedded", type=absolute, help="the built example")
    parser.add_argument("worldd", type=absolute, help="the built worldd")
    given = parser.parse_args()
    return status_of("embedded_trial", lambda: run(given))


if __name__ == "__main__":
    sys.exit(main())
