#!/usr/bin/env python3
"""Writes the map of the crates in docs/ARCHITECTURE.md from crates.txt.

    scripts/map.py            writes the drawing between its two markers
    scripts/map.py --check    fails if it is not what it would write (`.ci/run` does this)

In crates.txt the comment right above a crate says what that crate does. Any other comment is the heading of a group. A
crate uses only crates that come before it, so the drawing shows each crate above those that it uses.
"""
import argparse
import dataclasses
import pathlib
import sys

TOP = pathlib.Path(__file__).resolve().parent.parent
LIST = TOP / "crates.txt"
PAGE = TOP / "docs" / "ARCHITECTURE.md"
BEGIN, END = "<!-- map: begin, written by scripts/map.py -->\n", "<!-- map: end -->\n"


class Refused(Exception):
    """Why no map can be made."""


@dataclasses.dataclass(frozen=True)
class Crate:
    """A line of crates.txt with its heading. `uses` leaves out the crates of the kit."""

    name: str
    group: str
    uses: tuple[str, ...]


def read_crates() -> dict[str, Crate]:
    """The crates by name, in the order of crates.txt."""
    found: dict[str, Crate] = {}
    lines = LIST.read_text().splitlines()
    names = [line.partition(":")[0] for line in lines if ":" in line and not line.startswith("#")]
    group, comment = "", ""
    for line in filter(None, lines):
        if line.startswith("#"):
            group, comment = comment or group, line.removeprefix("# ")
            continue
        name, _, libraries = line.partition(":")
        uses = tuple(library for library in libraries.split() if library in names)
        if not comment or not group:
            raise Refused(f"{name}: crates.txt has no comment above it, or no heading")
        late = [library for library in uses if library not in found]
        if late:
            raise Refused(f"{name}: it comes before {late[0]}, which it uses")
        found[name] = Crate(name, group, uses)
        comment = ""
    folders = {folder.name for folder in (TOP / "crates").iterdir() if (folder / "src").is_dir()}
    if folders != found.keys():
        raise Refused(f"crates.txt and crates/ differ: {' '.join(sorted(folders ^ found.keys()))}")
    return found


def below(crates: dict[str, Crate]) -> dict[str, set[str]]:
    """For each crate all those that it stands on."""
    found: dict[str, set[str]] = {}
    for crate in crates.values():
        found[crate.name] = set(crate.uses).union(*(found[use] for use in crate.uses))
    return found


def rows_of(crates: dict[str, Crate], group: str) -> list[list[str]]:
    """The crates of a group in rows, the lowest first: each crate is above those of its group that it uses."""
    heights: dict[str, int] = {}
    for crate in crates.values():
        if crate.group == group:
            heights[crate.name] = 1 + max((heights[use] for use in crate.uses if use in heights), default=-1)
    return [[name for name, height in heights.items() if height == row] for row in range(1 + max(heights.values()))]


def drawing(crates: dict[str, Crate]) -> str:
    """The groups, the topmost first, with a line for each row."""
    lines = []
    for group in reversed(list(dict.fromkeys(crate.group for crate in crates.values()))):
        for at, row in enumerate(reversed(rows_of(crates, group))):
            lines.append(f"    {group if at == 0 else '':<12}{'   '.join(row)}\n")
    return "".join(lines)


def with_map(page: str) -> str:
    """The page with the map as crates.txt has it."""
    before, begin, rest = page.partition(BEGIN)
    _, end, after = rest.partition(END)
    if not begin or not end:
        raise Refused(f"{PAGE.name} lacks a marker of the map")
    return f"{before}{BEGIN}\n{drawing(read_crates())}\n{END}{after}"


def main() -> int:
    """Writes or checks the map."""
    parser = argparse.ArgumentParser(description=__doc__.splitlines()[0])
    parser.add_argument("--check", action="store_true", help="write nothing, and fail if the map is an old one")
    given = parser.parse_args()
    page = PAGE.read_text()
    try:
        new = with_map(page)
    except Refused as refused:
        print(f"map: {refused}", file=sys.stderr)
        return 1
    if given.check and new != page:
        print(f"map: {PAGE.name} differs from crates.txt: run scripts/map.py", file=sys.stderr)
        return 1
    if not given.check:
        PAGE.write_text(new)
    return 0


if __name__ == "__main__":
    sys.exit(main())
