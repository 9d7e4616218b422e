#!/usr/bin/env python3
"""Checks what the pages state against the tree: scripts/check_docs.py

It takes seconds, and prints the page, the line and the reason of each of these:

- a number of crates, of wrong bodies or of things in the gate that is not the number of the tree
- a name in backquotes that no crate, client or unit has, or a clause that its function does not have
- a definition that the file named beside it in docs/MODEL.md does not have
- a link, an anchor, a page, a folder or a script that does not exist
- a block of code that differs from the file that it quotes
- a wrong body of the gate that scripts/wrong_bodies.tsv lacks, and a line there on a body, a function or a clause that is
  not in the tree
- a function of the walk of a tick or of a checkpoint that its file does not have
- a function that README promises something of, and that worldd does not call
- a page that has more words than its budget, or a page of docs/ that no budget has
- a version of the programs, of a client or of a manual page that isn't the first one of CHANGELOG.md

A block between fences is a quote, whole or in part: of the file in a marker on a line above it, `<!-- examples/FILE -->` or
`<!-- clients/.. -->`, or without a language of any file in src/ or specs/ of a crate. An indented block is text. The marker
`<!-- run -->` makes it commands with their output, which scripts/example_trial.py runs.

The words of a page are those outside of its blocks. Those of tables count too; the lines between their heads and rows don't.
"""
import dataclasses
import pathlib
import re
import sys
from collections.abc import Iterator

from code_names import TOP, Names
from map import Refused, below, read_crates
import reached
import trusted_lines
import walk
from wrong_bodies import PROMISES, read_promises

# Names in backquotes that no file here has: words of contracts, words in place of a name, and names of the system. A name of
# one or two letters is a variable or a command.
NOT_OF_CRATES = {"requires", "ensures", "decreases", "function", "clause", "PATH", "foo", "args", "stdout", "Makefile"}
NOT_OF_CRATES |= {"pwrite", "fdatasync", "rename", "O_NOFOLLOW", "AF_UNIX", "nobarrier", "chown", "dmesg", "readlink", "sysctl"}
NOT_OF_CRATES |= {"fs::read", "postgresql", "UpToDate", "StandAlone"}
# Files beside the crates whose words pages name, and files of which they name words in quotes: commands, arguments and lines.
WORDED = ("clients/**/*.py", "clients/**/*.h", "clients/**/*.rs", "examples/*.*", "worldd.service")
QUOTED = ("scripts/*.py", "crates/*/src/**/*.rt")
# What may be counted before or after these words. A number after "at most" is a bound.
COUNTED = (
    (r"{} of the (?:\d+) crates", ("crates of worldd", "other crates")),
    (r"(?:other {} (?:crates|test)|{} other crates)", ("crates of worldd", "other crates")),
    (r"(?<!at most ){} crates", ("crates",)),
    (r"\| crates \| {} \|", ("crates",)),
    (
        r"(?<!at most ){} (?:\w+ly )?wrong (?:function )?bodies",
        ("all wrong bodies", "wrong bodies of the gate", "wrong bodies beside it"),
    ),
    (r"\| wrong bodies that it tries \| {} \|", ("wrong bodies of the gate",)),
    (r"{} of `must-fail/`", ("wrong bodies of the gate",)),
    (r"(?:other {} are in `wrong-bodies/`|{} others\b)", ("wrong bodies beside it",)),
    (r"{} passed", ("things in the gate",)),
)
NUMBER = r"(?<![\d,.])(\d[\d,]*)"
# How many words a page may have, or the pages together that one reader reads. A folder has its pages that no other entry names.
BUDGETS = {
    ("README.md",): 1_250,
    ("docs/OPERATIONS.md",): 4_800,
    ("docs/CLIENT.md",): 2_200,
    ("docs/FORMATS.md",): 2_500,
    ("docs/DISK.md",): 2_000,
    ("docs/ARCHITECTURE.md", "docs/LIBRARIES.md"): 4_300,
    ("docs/HEADLINE.md",): 2_000,
    ("docs/PROOFS.md", "docs/proofs/cost.md"): 1_500,
    ("docs/proofs/",): 12_000,
    ("docs/MODEL.md",): 2_500,
    ("docs/DECISIONS.md",): 4_000,
    ("docs/PERFORMANCE.md",): 2_000,
    ("docs/CONTRIBUTING.md",): 2_000,
    ("docs/STANDBY.md",): 1_200,
}
# How many columns a line of a crate has at most, and files with a help text, a table in a text or one long attribute.
WIDTHS = {"src": 100, "specs": 100, "proofs": 200}
WITH_TABLES = (
    "crates/action_log/src/reader/ticks.rt",
    "crates/measures/src/arguments.rt",
    "crates/test_files/src/tests/recovered_cases.rt",
)
# The lines that state the version of this tree. Python has its own form for one that isn't released.
VERSIONS = (
    ("crates/command_line/src/version.rt", r'pub const VERSION\w*: &str = "([^" ]*)'),
    ("clients/python/cektaulis/__init__.py", r'__version__ = "(.*)"'),
    ("clients/c/cektaulis.pc", r"Version: (.*)"),
    ("man/worldd.1", r'\.TH .*"worldd (.*)"'),
    ("man/world_load.1", r'\.TH .*"worldd (.*)"'),
    ("docs/OPERATIONS.md", r" {4}worldd (\d\S*) \("),
    ("scripts/program_trial.py", r'.*"worldd (\d\S*) \('),
)
# What follows these words speaks of an earlier tree.
PAST = re.compile(r"\b(?:[Bb]efore|Until then),[^.|\n]*")
# A path of the repository. What a program's folder out/ has is made by a run of the gate.
PATH = re.compile(r"(?<![\w/.-])((?:docs|scripts|bench|examples|clients|crates|\.ci)/[\w./*-]*[\w*/])")
MADE = re.compile(r"crates/\w+/out/.*")
FOLDERS = (
    ".", "docs", "docs/proofs", "scripts", "bench", "examples", *(f"clients/{it}" for it in ("python", "c", "rust", "javascript"))
)
FILE = re.compile(r"(?<![\w/.*-])(\w+\.(?:md|py|sh|c))\b")
PLACEHOLDERS = re.compile(r"\b(?:NAME|CRATE|FILE)\b")
LINK = re.compile(r"\[[^\]\n]*\]\(([^)\s]+)\)")
DEFINED = re.compile(r"^ *(?:(?:unfoldable|opaque|abbrev|pub|record|data) +)*(\w+)", re.MULTILINE)
MARKER = re.compile(r"<!-- (run|(?:examples|clients)/[\w./]+) -->")
FENCE = re.compile(r"```(\w*)")
# A block between fences that name no language.
CODE = "code"


@dataclasses.dataclass(frozen=True)
class Block:
    """A block of code, with the line where it begins, its language and the marker above it."""

    line: int
    language: str
    marker: str
    text: str


@dataclasses.dataclass(frozen=True)
class Page:
    """A page: its name, its lines outside of blocks, and its blocks."""

    name: str
    prose: str
    blocks: tuple[Block, ...]

    def line_of(self, place: int) -> int:
        """The line of a place in the prose."""
        return self.prose.count("\n", 0, place) + 1


Finding = tuple[str, int, str]


def block_at(lines: list[str], at: int) -> tuple[int, str, list[str]]:
    """The end of the block of code that begins at a line, its language and its lines. The end is that line if none begins."""
    fence, end = FENCE.match(lines[at]), at
    if fence:
        end = [*lines, "```"].index("```", at + 1)
        return end + 1, fence[1] or CODE, lines[at + 1 : end]
    while end < len(lines) and (lines[end].startswith("    ") or end > at and is_gap(lines[end : end + 2])):
        end += 1
    return end, "", [line[4:] for line in lines[at:end]]


def is_gap(lines: list[str]) -> bool:
    """Whether an empty line has a line of an indented block after it."""
    return len(lines) == 2 and not lines[0] and lines[1].startswith("    ")


def read_page(path: pathlib.Path) -> Page:
    """Reads a page. In its prose the lines of blocks are empty."""
    prose, blocks, marker, lines, at = [], [], "", path.read_text().splitlines(), 0
    while at < len(lines):
        end, language, body = block_at(lines, at)
        if end > at:
            blocks.append(Block(at + 1, language, marker, "".join(f"{line}\n" for line in body)))
            prose += [""] * (end - at)
            marker, at = "", end
            continue
        found = MARKER.fullmatch(lines[at])
        if found or lines[at]:
            marker = found[1] if found else ""
        prose.append(lines[at])
        at += 1
    return Page(str(path.relative_to(TOP)), "\n".join(prose), tuple(blocks))


def commands_after(words: str, text: str) -> list[str]:
    """The commands of a page's first block after these words."""
    lines = text.partition(words)[2].splitlines()
    begin = next((at for at, line in enumerate(lines) if line.startswith("    ")), None)
    if begin is None:
        raise LookupError(f"the page has no commands after `{words}`")
    return block_at(lines, begin)[2]


def pages() -> list[Page]:
    """All pages of the repository."""
    return [read_page(path) for path in sorted([*TOP.glob("*.md"), *TOP.glob("docs/**/*.md")])]


def sentences(prose: str) -> str:
    """The prose with the lines of a paragraph joined. No place moves."""
    return re.sub(r"(?<!\n)\n(?!\n|\||#|\s*(?:[-*]|\d+\.) )", " ", prose)


def tree_counts() -> dict[str, int]:
    """The numbers that pages may state."""
    crates = read_crates()
    gate = len(list(TOP.glob("crates/*/must-fail/*.edit")))
    beside = len(list(TOP.glob("crates/*/wrong-bodies/*.edit")))
    program = 1 + len(below(crates)["worldd"])
    return {
        "crates": len(crates),
        "crates of worldd": program,
        "other crates": len(crates) - program,
        "all wrong bodies": gate + beside,
        "wrong bodies of the gate": gate,
        "wrong bodies beside it": beside,
        "things in the gate": len(crates) + gate,
    }


def wrong_counts(page: Page, counts: dict[str, int]) -> Iterator[Finding]:
    """Numbers that are not those of the tree."""
    text = PAST.sub(lambda past: " " * len(past[0]), sentences(page.prose))
    for pattern, names in COUNTED:
        for found in re.finditer(pattern.replace("{}", NUMBER), text):
            number = next(group for group in found.groups() if group)
            if int(number.replace(",", "")) not in [counts[name] for name in names]:
                known = ", ".join(f"{counts[name]} {name}" for name in names)
                yield page.name, page.line_of(found.start()), f"`{found[0]}`: the tree has {known}"


def rows_of(page: Page) -> Iterator[tuple[int, dict[str, str]]]:
    """The rows of all tables, each with its line, by the heads of the columns."""
    head: list[str] = []
    for number, line in enumerate(page.prose.splitlines(), 1):
        cells = [cell.strip() for cell in line.strip().strip("|").split("|")] if line.startswith("|") else []
        if not cells or not head:
            head = cells
        elif not line.startswith("|---"):
            yield number, dict(zip(head, cells))


def wrong_tables(every: list[Page]) -> Iterator[Finding]:
    """Rows on a crate's number of wrong bodies that is not that of the tree."""
    head = "wrong bodies of the gate"
    for page in every:
        for line, row in rows_of(page):
            if head in row:
                count = len(list((TOP / "crates" / row["crate"] / "must-fail").glob("*.edit")))
                if row[head] != str(count):
                    yield page.name, line, f"must-fail/ of {row['crate']} has {count} wrong bodies, not {row[head]}"


def wrong_promises(names: Names) -> Iterator[Finding]:
    """Lines on wrong bodies of the gate that are not those of the tree, and wrong bodies without a line."""
    page, known = str(PROMISES.relative_to(TOP)), set()
    for it in read_promises():
        known.add((it.crate, it.body))
        if it.body not in names.bodies[it.crate]:
            yield page, it.line, f"must-fail/ of {it.crate} has no wrong body {it.body}"
        function, _, clauses = it.refused_by.partition(": ")
        if function not in names.functions[it.crate]:
            yield page, it.line, f"{it.crate} has no function {function}"
        # What a function that it calls requires.
        callee, requires, named = clauses.partition(" requires")
        if requires:
            function, clauses = callee, named
        # A method of a trait has its clauses where the trait is, and what is called may be of another crate.
        own = names.contracts[it.crate, function] or names.clauses[function]
        for clause in re.findall(r"\w+", re.sub(r"(loop|type) invariant", "", clauses)):
            if clause not in own:
                yield page, it.line, f"{function} has no clause {clause}"
    for crate, bodies in names.bodies.items():
        for body in sorted(bodies):
            if (crate, body) not in known:
                yield page, 1, f"the wrong body {crate}/{body} is missing"


def other_names() -> set[str]:
    """What pages may name beside the crates' items: other words of code, words in quotes, and the crates' libraries."""
    found = set(NOT_OF_CRATES)
    for path in (path for pattern in WORDED for path in TOP.glob(pattern)):
        found |= set(re.findall(r"\w+", path.read_text()))
    for path in (path for pattern in QUOTED for path in TOP.glob(pattern)):
        text = re.sub(r"//.*", "", path.read_text())
        for words in (r"\b(\w+)\(", r"libc::(\w+)", r"\"(\w+)[\" ]"):
            found |= set(re.findall(words, text))
    lines = (TOP / "crates.txt").read_text().splitlines()
    return found | {word for line in lines if not line.startswith("#") for word in line.partition(":")[2].split()}


def wrong_citations(page: Page, names: Names, others: set[str]) -> Iterator[Finding]:
    """Names in backquotes that the crates don't have, and clauses that a function doesn't have."""
    text = sentences(page.prose)
    for found in re.finditer(r"`([A-Za-z_]\w*(?:::\w+)*)(?:\(\))?`", text):
        is_other = found[1] in others or found[1].endswith("_") and any(name.startswith(found[1]) for name in others)
        if len(found[1]) > 2 and not is_other and not names.has_path(found[1]):
            yield page.name, page.line_of(found.start()), f"`{found[1]}` is the name of nothing here"
    for found in re.finditer(r"`([A-Za-z_][\w:]*)`(?:'s? type)?: ((?:`[a-z]\w*`(?:, )?)+)(?! [a-z])", text):
        for clause in re.findall(r"`(\w+)`", found[2]):
            if clause not in NOT_OF_CRATES and names.has_path(found[1]) and not names.has_clause(found[1], clause):
                yield page.name, page.line_of(found.start()), f"`{found[1]}` has no clause `{clause}`"


def wrong_glossary(page: Page) -> Iterator[Finding]:
    """Definitions beside a file of specs/ that doesn't have them. The file is of one of the crates in the last bold words."""
    text, crates = sentences(page.prose), set(read_crates())
    heads = [(found.start(), found[1].split(", ")) for found in re.finditer(r"\*\*(\w+(?:, \w+)*)\*\*", text)]
    heads = [(place, words) for place, words in heads if crates.issuperset(words)]
    for found in re.finditer(r"\b([A-Z]\w+)(?: \(inside\))?: ((?:`\w+`(?:, )?)+)", text):
        here = [words for place, words in heads if place < found.start()][-1:]
        files = [TOP / "crates" / crate / "specs" / f"{found[1]}.antt" for words in here for crate in words]
        known = set().union(*(DEFINED.findall(file.read_text()) for file in files if file.is_file()))
        for name in re.findall(r"`(\w+)`", found[2]):
            if name not in known:
                yield page.name, page.line_of(found.start()), f"specs/{found[1]} has no `{name}`"


def uncalled(page: Page, names: Names) -> Iterator[Finding]:
    """Rows on promises of functions that worldd does not call."""
    called, functions = reached.reached(), set().union(*names.functions.values())
    for line, row in rows_of(page):
        for name in reached.unreached(row.get("contract", ""), called, functions):
            yield page.name, line, f"`main` of worldd does not reach `{name}`"


def anchors(text: str) -> set[str]:
    """The anchors of a page's headings."""
    heads = re.findall(r"^#+ (.*)$", text, re.MULTILINE)
    return {re.sub(r"[^\w\- ]", "", head.lower()).replace(" ", "-") for head in heads}


def wrong_links(page: Page) -> Iterator[Finding]:
    """Links, paths and names of files that lead to nothing."""
    for found in LINK.finditer(page.prose):
        file, _, anchor = found[1].partition("#")
        if re.match(r"\w+:", file):
            continue
        target = (TOP / page.name).parent / file if file else TOP / page.name
        if not target.exists():
            yield page.name, page.line_of(found.start()), f"the link {found[1]} leads to no file"
        elif anchor and anchor not in anchors(target.read_text()):
            yield page.name, page.line_of(found.start()), f"the link {found[1]} leads to no heading"
    whole = (TOP / page.name).read_text()
    for found in PATH.finditer(whole):
        path = found[1] if not MADE.fullmatch(found[1]) else str(pathlib.Path(found[1]).parent.parent)
        if not PLACEHOLDERS.search(path) and not any(TOP.glob(path.rstrip("/"))):
            yield page.name, whole.count("\n", 0, found.start()) + 1, f"there is no {found[1]}"
    known = {path.name for folder in FOLDERS for path in (TOP / folder).glob("*")}
    for found in FILE.finditer(whole):
        if found[1] not in known:
            yield page.name, whole.count("\n", 0, found.start()) + 1, f"no folder has a file {found[1]}"


def wrong_quotes(page: Page, code: list[str]) -> Iterator[Finding]:
    """Blocks between fences that are not in the file that they quote."""
    for block in page.blocks:
        file = TOP / block.marker
        if block.marker.startswith(("examples/", "clients/")):
            if not file.is_file():
                yield page.name, block.line, f"there is no {block.marker}"
            elif f"\n{block.text}" not in f"\n{file.read_text()}":
                yield page.name, block.line, f"the block differs from {block.marker}"
        elif block.language == CODE and not any(block.text in text for text in code):
            yield page.name, block.line, "no file in src/ or specs/ of a crate has this block"
        elif block.language not in ("", CODE):
            yield page.name, block.line, "the block has no marker with the file that it quotes"


def words_of(page: Page) -> int:
    """How many words a page has outside of its blocks."""
    return sum(1 for word in page.prose.split() if re.search(r"\w", word))


def over_budget(every: list[Page]) -> Iterator[Finding]:
    """Pages with more words than their budget, and pages of docs/ without one."""
    named = {name for names in BUDGETS for name in names}
    words: dict[str, int] = {}
    for page in every:
        name = page.name if page.name in named else f"{pathlib.Path(page.name).parent}/"
        words[name] = words.get(name, 0) + words_of(page)
        if name not in named and name != "./":
            yield page.name, 1, "no budget has this page"
    for names, budget in BUDGETS.items():
        found = {name: words[name] for name in names if name in words}
        if sum(found.values()) > budget:
            yield names[0], 1, f"{sum(found.values()):,} words in {', '.join(found)}: the budget is {budget:,}"


def wide_lines() -> Iterator[Finding]:
    """Lines of crates with more columns than docs/CONTRIBUTING.md allows. Texts aren't broken, nor are the tables in texts."""
    for folder, columns in WIDTHS.items():
        for path in sorted(TOP.glob(f"crates/*/{folder}/**/*")):
            if path.suffix in (".rt", ".antt") and str(path.relative_to(TOP)) not in WITH_TABLES:
                for number, line in enumerate(path.read_text().splitlines(), 1):
                    if len(line) > columns and '"' not in line:
                        yield str(path.relative_to(TOP)), number, f"{len(line)} columns: at most {columns} are wanted"


def python_version(version: str) -> str:
    """A version as Python writes it."""
    return version.replace("-dev", ".dev0")


def wrong_versions() -> Iterator[Finding]:
    """Versions that differ from that of the changelog's first section, and files that state none."""
    newest = re.findall(r"^## (.*)$", (TOP / "CHANGELOG.md").read_text(), re.MULTILINE)[0]
    for file, pattern in VERSIONS:
        want, found = python_version(newest) if file.endswith("__init__.py") else newest, False
        for number, line in enumerate((TOP / file).read_text().splitlines(), 1):
            if stated := re.match(pattern, line.replace("\\-", "-")):
                found = True
                if stated[1] != want:
                    yield file, number, f"the version is {stated[1]}, and CHANGELOG.md has {want}"
        if not found:
            yield file, 1, "no line states the version"


def unnamed_files(every: list[Page]) -> Iterator[Finding]:
    """Scripts that the index does not have, and examples that no page names."""
    texts = {page.name: (TOP / page.name).read_text() for page in every}
    for path in sorted(path for folder in ("scripts", "bench") for path in (TOP / folder).glob("*.*")):
        if path != PROMISES and path.name not in texts["docs/CONTRIBUTING.md"]:
            yield "docs/CONTRIBUTING.md", 1, f"the index lacks {path.parent.name}/{path.name}"
    for path in sorted((TOP / "examples").glob("*")):
        if not any(f"examples/{path.name}" in text for text in texts.values()):
            yield "README.md", 1, f"no page names examples/{path.name}"


def findings() -> Iterator[Finding]:
    """All that is wrong."""
    every, names, counts = pages(), Names(), tree_counts()
    code = [path.read_text() for kind in ("src/**/*.rt", "specs/**/*.antt") for path in TOP.glob(f"crates/*/{kind}")]
    others = other_names()
    for page in every:
        if page.name != "CHANGELOG.md":
            yield from wrong_counts(page, counts)
            yield from wrong_citations(page, names, others)
        if page.name == "docs/MODEL.md":
            yield from wrong_glossary(page)
        if page.name == "README.md":
            yield from uncalled(page, names)
        yield from wrong_links(page)
        yield from wrong_quotes(page, code)
    yield from ((walk.PAGE, line, reason) for line, reason in walk.findings())
    yield from ((trusted_lines.PAGE, line, reason) for line, reason in trusted_lines.findings())
    yield from wrong_tables(every)
    yield from wrong_promises(names)
    yield from wrong_versions()
    yield from wide_lines()
    yield from unnamed_files(every)
    yield from over_budget(every)


def main() -> int:
    """Prints what is wrong."""
    try:
        found = list(findings())
    except Refused as refused:
        print(f"check_docs: {refused}", file=sys.stderr)
        return 1
    for page, line, reason in found:
        print(f"{page}:{line}: {reason}", file=sys.stderr)
    if not found:
        print("docs: numbers, names, links, quotes and versions are those of the tree")
    return 1 if found else 0


if __name__ == "__main__":
    sys.exit(main())
