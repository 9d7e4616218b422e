"""Which functions `main` of worldd reaches, by their names. check_docs.py looks up those that README promises something of.

It goes by the text: a call of a name reaches each function of that name in worldd's crates, of whatever type. So it may find too
many, and never too few.
"""
import re
from collections.abc import Iterator

from code_names import TOP
from map import below, read_crates

FUNCTION = re.compile(r"^( *)(?:pub |pub\(\w+\) )?fn (\w+)")
CALL = re.compile(r"\b(\w+)(?:::<[^;{}]*?>)?\(")
NAMED = re.compile(r"`(?:\w+::)?([a-z]\w*)`")
# Functions of README's table that worldd doesn't call, and why.
OTHERS = {"images_stay": "a law: it has no body"}


def bodies() -> Iterator[tuple[str, str]]:
    """Each function of worldd's crates, with the text of its body."""
    crates = read_crates()
    for crate in ["worldd", *sorted(below(crates)["worldd"])]:
        for path in sorted((TOP / "crates" / crate / "src").rglob("*.rt")):
            lines = path.read_text().splitlines()
            for at, line in enumerate(lines):
                if head := FUNCTION.match(line):
                    yield head[2], body_of(lines[at:], head[1])


def body_of(lines: list[str], margin: str) -> str:
    """The body of the function that begins these lines. One that is only declared has none."""
    for at, line in enumerate(lines):
        if line.endswith(";"):
            break
        if line.endswith("{") and not line.lstrip().startswith(("requires", "ensures")):
            return "\n".join(lines[at : lines.index(f"{margin}}}", at)])
    return ""


def reached() -> set[str]:
    """The names of all functions that `main` reaches."""
    called: dict[str, set[str]] = {}
    for name, body in bodies():
        called.setdefault(name, set()).update(CALL.findall(body))
    found, left = set(), ["main"]
    while left:
        name = left.pop()
        if name in called and name not in found:
            found.add(name)
            left += called[name]
    return found


def unreached(contract: str, found: set[str], functions: set[str]) -> Iterator[str]:
    """The functions in a cell of README's table that `main` doesn't reach."""
    for name in NAMED.findall(re.sub(r"`: (?:`\w+`(?:, )?)+", "`", contract)):
        if name in functions and name not in found and name not in OTHERS:
            yield name
