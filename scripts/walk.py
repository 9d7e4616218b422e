#!/usr/bin/env python3
"""Prints the walks of a tick and of a checkpoint that docs/ARCHITECTURE.md has, with the line of each function.

    scripts/walk.py            prints crate, file, line and function, and then how many functions and files each walk has

A row of a walk's table has a thread, a file and functions of that file in the order of their first call. The status is 1 if a
file lacks one of its functions. `scripts/check_docs.py` looks for that too, and compares the totals.
"""
import dataclasses
import pathlib
import re
import sys
from collections.abc import Iterator

TOP = pathlib.Path(__file__).resolve().parent.parent
PAGE = "docs/ARCHITECTURE.md"
ROW = re.compile(r"\| ([\w' ]*) \| `(\w+)/([\w/]+\.rt)` \| (.*) \|")
TOTAL = re.compile(r"(\d+) functions\s+in (\d+) files")
HEADING = re.compile(r"## A (\w+) through the code")


@dataclasses.dataclass(frozen=True)
class Step:
    """A function of a walk: the walk, the line of the page that names it, its crate and file, its name, and where it begins,
    0 if the file doesn't have it."""

    walk: str
    row: int
    crate: str
    file: str
    name: str
    line: int


def lines_of(crate: str, file: str) -> list[str]:
    """The lines of a source file, none if there is no such file."""
    path = TOP / "crates" / crate / "src" / file
    return path.read_text().splitlines() if path.is_file() else []


def line_of(lines: list[str], name: str) -> int:
    """The line where a function of this name begins."""
    begins = re.compile(rf"\s*(?:pub |pub\(\w+\) )?fn {name}\b")
    return next((number for number, line in enumerate(lines, 1) if begins.match(line)), 0)


def steps(page: str) -> Iterator[Step]:
    """The functions of the walks, in the order of the page."""
    walk = ""
    for number, text in enumerate(page.splitlines(), 1):
        if text.startswith("## "):
            heading = HEADING.fullmatch(text)
            walk = heading[1] if heading else ""
        elif walk and (row := ROW.fullmatch(text)):
            lines = lines_of(row[2], row[3])
            for name in re.findall(r"`(\w+)`", row[4]):
                yield Step(walk, number, row[2], row[3], name, line_of(lines, name))


def counts(every: list[Step]) -> dict[str, tuple[int, int]]:
    """How many functions each walk has, and in how many files."""
    walks = dict.fromkeys(step.walk for step in every)
    of = {walk: [step for step in every if step.walk == walk] for walk in walks}
    return {walk: (len(of[walk]), len({(step.crate, step.file) for step in of[walk]})) for walk in walks}


def findings() -> Iterator[tuple[int, str]]:
    """What the page states of the walks that isn't so, with its line."""
    page = (TOP / PAGE).read_text()
    every = list(steps(page))
    for step in every:
        if not step.line:
            yield step.row, f"{step.crate}/{step.file} has no function {step.name}"
    found = counts(every)
    for heading in HEADING.finditer(page):
        total = TOTAL.search(page, heading.end())
        of_walk = found.get(heading[1], (0, 0))
        if not total or (int(total[1]), int(total[2])) != of_walk:
            stated = " ".join(total[0].split()) if total else "no total"
            yield page.count("\n", 0, heading.start()) + 1, f"`{stated}`: the walk has {of_walk[0]} in {of_walk[1]}"


def main() -> int:
    """Prints the walks."""
    every = list(steps((TOP / PAGE).read_text()))
    for walk, (functions, files) in counts(every).items():
        for step in every:
            if step.walk == walk:
                print(f"{step.crate}/{step.file}:{step.line} {step.name}")
        print(f"a {walk}: {functions} functions in {files} files")
    wrong = list(findings())
    for line, reason in wrong:
        print(f"{PAGE}:{line}: {reason}", file=sys.stderr)
    return 1 if wrong else 0


if __name__ == "__main__":
    sys.exit(main())
