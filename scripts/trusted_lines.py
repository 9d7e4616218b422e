#!/usr/bin/env python3
"""Counts the lines that a reader has to believe. Run at the top of the repository:

    scripts/trusted_lines.py                  for README's promises, and for all that its crates hand out
    scripts/trusted_lines.py unreached        the definitions that no contract of a crate reaches, too
    scripts/trusted_lines.py of CRATE NAME    for one function's contract, as `step` or `Together::step`

For README's promises, its theorems and its table, these are the contracts that they cite, those of all traits, which are
premises on disks, folders and sessions, and the definitions in specs/, the types and the constants that they reach. The
prover shows these contracts from those of the functions below them, which need no belief. The other count has the
contracts of all that each crate hands out.

Lines are those of the crates that worldd is made of: tests, trials and tools don't count. A line counts unless it is
blank, a comment, an attribute or an import. It goes by the text: a name stands for the definition that its file has or
imports.
"""
import collections
import dataclasses
import pathlib
import re
import sys
from collections.abc import Callable, Iterator

from map import below, read_crates

# A definition: its crate, its file and its name. And of each definition how many lines it has, and what it stands on.
Name = tuple[str, str, str]
Known = dict[Name, tuple[int, set[Name]]]
# A function or a type, with its owner.
Item = tuple[str, str]
NAME = re.compile(r"[^\s(){}\[\],;.:λ∀×→⊎¬=]+")
IMPORT = re.compile(r"use Rattle\.(\w+)\.specs\.(\w+)((?:\.\w+)*)\.\{([^}]*)\}")
# All variants of a type of the code, under one name; and the types that a file of the code imports.
VARIANTS = re.compile(r"use Rattle\.(\w+)\.specs\.declared\.(?:\w+\.)*(\w+)\.TheVariants as (\w+)")
TYPES_USED = re.compile(r"^use (\w+)(?:::\w+)*::(?:\{([^}]*)\}|(\w+));", re.MULTILINE)
# A type or a constant of the code. The specs know it by this word in place of a file.
TYPE = re.compile(r"pub (?:struct|enum|const) (\w+)")
DECLARED = "declared"
EXPORT = re.compile(r"^pub use ([\w:]+)::(?:\{([^}]*)\}|(\w+));", re.MULTILINE)
DEFINITION = re.compile(r"(?:unfoldable |abbrev )?pub (?:record |data )?([^\s:({]+)")
CASE = re.compile(r"  (\w+) :")
ITEM = re.compile(r"(pub |pub\(\w+\) )?(?:const )?(fn|trait|struct|enum) (\w+)")
IMPL = re.compile(r"impl(?:<.*?>)? (?:(\w[\w:]*)(?:<.*>)? for )?(\w+)")
# The lines that say what proves README's theorems; its table of promises, and the contracts of a row. Names of clauses follow a
# colon.
THEOREMS = re.compile(r"^`serve_world`.*?(?=^Images are made)", re.MULTILINE | re.DOTALL)
TABLE = re.compile(r"^## What is proved$(.*?)^## ", re.MULTILINE | re.DOTALL)
ROW = re.compile(r"^\| .* \| (`.*`) \|$", re.MULTILINE)
CLAUSES = re.compile(r"(?<=`): (?:`\w+`(?:, )?)+")
CITED = re.compile(r"`(?:(\w+)::)?(\w+)`")
# The figures of the page on proofs: for README's promises, for all that crates hand out, and for one function.
PAGE = "docs/PROOFS.md"
README_FIGURE = re.compile(r"they are (?P<lines>[\d,]+) of [\d,]+ lines, (?P<share>[\d.]+)%")
ALL_FIGURE = re.compile(r"are (?P<lines>[\d,]+)\s+lines, (?P<share>[\d.]+)%")
ONE_FIGURE = re.compile(r"^\| [^|]*`(\w+)::(?:\w+::)?(\w+)` \| (?P<lines>[\d,]+) \|$", re.MULTILINE)
CLAUSE = re.compile(r"(?:requires|ensures|decreases|ghost (?!use))")


def counts(line: str) -> bool:
    text = line.strip()
    return bool(text) and not re.match(r"//|--|#!?\[|(ghost |pub )?use |(pub )?mod ", text)


def imported(text: str) -> dict[str, Name]:
    """What each name that a file imports stands for: crate, file, definition. A variant stands for its type."""
    found = {alias: (crate, DECLARED, name) for crate, name, alias in VARIANTS.findall(text)}
    for crate, file, path, names in IMPORT.findall(text):
        variants_of = path.split(".")[-2] if path.endswith(".TheVariants") else None
        for name in names.split(","):
            name, _, alias = name.strip().partition(" as ")
            found[alias.strip() or name] = (crate, file, variants_of or name)
    return found


def declared(crate: str, path: pathlib.Path) -> Known:
    """The types and constants of a file of the code: for each how many lines it has, and which types it names."""
    text = path.read_text()
    found: Known = {}
    names: dict[str, Name] = {}
    for owner, group, one in TYPES_USED.findall(text):
        home = crate if owner == "crate" else owner
        names |= {name.strip(): (home, DECLARED, name.strip()) for name in (group or one).split(",")}
    lines = text.splitlines()
    for at, line in enumerate(lines):
        start = TYPE.match(line)
        if start:
            end = next(i for i in range(at, len(lines)) if lines[i].endswith(";") or lines[i][-1:] == "}" and lines[i][0] != " ")
            body = [line for line in lines[at : end + 1] if counts(line)]
            used = {names.get(word, (crate, DECLARED, word)) for word in re.findall(r"\w+", "\n".join(body))}
            found[(crate, DECLARED, start[1])] = len(body), used - {(crate, DECLARED, start[1])}
    return found


def out_of_modules(text: str) -> str:
    """The text with what stands in a module at the margin."""
    inside, lines = False, []
    for line in text.splitlines():
        if line[:1].strip():
            inside = line.startswith("module ")
        lines.append(line[2:] if inside and line.startswith("  ") else line)
    return "\n".join(lines)


def definitions(crate: str, path: pathlib.Path) -> Known:
    """The definitions of a file: for each how many lines it has, and what it stands on."""
    text = out_of_modules(path.read_text())
    lines: dict[str, list[str]] = collections.defaultdict(list)
    same: dict[str, str] = {}
    name = ""
    for line in text.splitlines():
        start = DEFINITION.match(line)
        if start:
            name = start[1]
        elif line[:1].strip() and not (name and line.startswith(name)):
            name = ""
        if name and counts(line):
            lines[name].append(line)
            case = CASE.match(line)
            if case and lines[name][0].startswith("pub data"):
                same[case[1]] = name
    here = {name: (crate, path.stem, name) for name in lines} | {case: (crate, path.stem, name) for case, name in same.items()}
    names = imported(text) | here
    return {
        here[name]: (len(body), {names[word] for word in NAME.findall("\n".join(body)) if word in names})
        for name, body in lines.items()
    } | {(crate, path.stem, case): (0, {here[case]}) for case in same}


def clauses(path: pathlib.Path, exported: set[str]) -> list[tuple[Item, str]]:
    """The clauses of a file's items that the crate hands out, each with the item's owner and its name. An item by itself owns
    itself."""
    found: list[tuple[Item, str]] = []
    name, owner, is_trait, public, open_braces = "", "", False, False, 0
    for line in path.read_text().splitlines():
        text = line.strip()
        if open_braces > 0:
            found.append(((owner, name), line))
            open_braces += text.count("{") - text.count("}")
            continue
        block, item = IMPL.match(line), ITEM.match(text)
        name = item[3] if item else name
        if block:
            owner, is_trait, public = block[2], bool(block[1]), block[2] in exported
        elif item and line[0] != " ":
            owner, is_trait = item[3], item[2] == "trait"
            public = item[3] in exported and item[1] == "pub "
        elif item and item[2] == "fn":
            public = owner in exported and (is_trait or item[1] == "pub ")
        if public and CLAUSE.match(text):
            found.append(((owner, name), line))
            open_braces = text.count("{") - text.count("}")
    return found


def cited_in_readme() -> set[Item]:
    """The functions and types whose contracts README's table cites, each with its owner."""
    table = TABLE.findall(pathlib.Path("README.md").read_text())[0]
    cited = [pair for row in ROW.findall(table) for pair in CITED.findall(CLAUSES.sub("", row))]
    return {(owner or name, name) for owner, name in cited}


def theorems_of_readme() -> set[tuple[str, Item]]:
    """The functions whose contracts README's theorems are, each with its crate if that is named."""
    text = THEOREMS.findall(pathlib.Path("README.md").read_text())[0]
    cited = CITED.findall(CLAUSES.sub("", text))
    return {(owner, (name, name)) if owner.islower() else ("", (owner or name, name)) for owner, name in cited}


def of_traits(path: pathlib.Path) -> set[str]:
    """The names of a file's traits and of their functions."""
    found, inside = set(), False
    for line in path.read_text().splitlines():
        item = ITEM.match(line.strip())
        if line[:1].strip():
            inside = item is not None and item[2] == "trait"
        if inside and item:
            found.add(item[3])
    return found


def sources(crate: pathlib.Path, kind: str = "src", pattern: str = "*.rt") -> list[pathlib.Path]:
    """The files of a folder of a crate, except its tests."""
    return [path for path in (crate / kind).rglob(pattern) if path.stem != "tests" and "tests" not in path.parts]


def reached_from(names: list[Name], known: Known) -> set[Name]:
    """The definitions that these names have."""
    reached, waiting = set(), list(names)
    while waiting:
        name = waiting.pop()
        if name in known and name not in reached:
            reached.add(name)
            waiting += known[name][1]
    return reached


@dataclasses.dataclass(frozen=True)
class Clause:
    """A line of a contract: its crate, its item with the item's owner, and the definitions that it names."""

    crate: str
    item: Item
    names: tuple[Name, ...]
    is_of_trait: bool
    is_handed_out: bool


# Whether a line of a contract is to be believed.
Wanted = Callable[[Clause], bool]


class Tree:
    """The lines of all crates, their definitions, and their contracts."""

    def __init__(self) -> None:
        self.known: Known = {}
        self.lines: collections.Counter[str] = collections.Counter()
        self.clauses: list[Clause] = []
        self.cited = cited_in_readme()
        self.theorems = theorems_of_readme()
        self.served = {"worldd"} | below(read_crates())["worldd"]
        for crate in sorted(pathlib.Path("crates").iterdir()):
            for kind in ("src", "specs", "proofs"):
                for path in sources(crate, kind, "*.*t*") if crate.name in self.served else ():
                    self.lines[kind] += sum(map(counts, path.read_text().splitlines()))
            for path in (crate / "specs").rglob("*.antt"):
                self.known |= definitions(crate.name, path)
            for path in sources(crate):
                self.known |= declared(crate.name, path)
            self.read_contracts(crate)

    def read_contracts(self, crate: pathlib.Path) -> None:
        """The contracts of what a crate hands out. A program hands nothing out, and the table cites its functions."""
        lib = crate / "src" / "lib.rt"
        exported = {owner for owner, _ in self.cited}
        if lib.exists():
            exported = {name.strip() for _, group, one in EXPORT.findall(lib.read_text()) for name in (group or one).split(",")}
        for path in sources(crate):
            traits, names = of_traits(path), imported(path.read_text())
            for item, line in clauses(path, exported):
                named = tuple(names[word] for word in NAME.findall(line) if word in names)
                is_handed_out = lib.exists() and crate.name in self.served
                self.clauses.append(Clause(crate.name, item, named, item[1] in traits, is_handed_out))

    def everything(self) -> int:
        """How many lines the product has."""
        return sum(self.lines.values())

    def reached(self, wanted: Wanted) -> tuple[list[Clause], set[Name]]:
        """The contracts for which this holds, and the definitions that they reach."""
        own = [clause for clause in self.clauses if wanted(clause)]
        return own, reached_from([name for clause in own for name in clause.names], self.known)

    def believed(self, wanted: Wanted) -> tuple[int, int]:
        """The lines of these contracts, and of their definitions."""
        own, names = self.reached(wanted)
        return len(own), sum(self.known[name][0] for name in names)

    def of_readme(self, clause: Clause) -> bool:
        """Whether README's theorems or its table ask for this line."""
        is_cited = clause.item in self.cited or ("", clause.item) in self.theorems
        return clause.is_of_trait or (clause.crate in self.served and is_cited) or (clause.crate, clause.item) in self.theorems


def handed_out(clause: Clause) -> bool:
    """Whether a crate hands this line to the next."""
    return clause.is_handed_out


def of_one(crate: str, name: str) -> Wanted:
    """Whether a line is of the functions of this name of a crate."""
    return lambda clause: (clause.crate, clause.item[1]) == (crate, name)


def is_near(stated: str, found: int) -> bool:
    """Whether a figure of a page is that of the tree, up to one in a hundred."""
    return abs(int(stated.replace(",", "")) - found) * 100 <= found


def findings() -> Iterator[tuple[int, str]]:
    """The figures of the page on proofs that aren't those of the tree, each with its line."""
    tree, text = Tree(), pathlib.Path(PAGE).read_text()
    figures: list[tuple[re.Match[str] | None, Wanted, str]] = [
        (README_FIGURE.search(text), tree.of_readme, "README's promises"),
        (ALL_FIGURE.search(text), handed_out, "all that crates hand out"),
        *((row, of_one(row[1], row[2]), row[2]) for row in ONE_FIGURE.finditer(text)),
    ]
    for found, rule, what in figures:
        believed = sum(tree.believed(rule))
        share = f"{100 * believed / tree.everything():.1f}"
        if not found or not is_near(found["lines"], believed) or found.groupdict().get("share", share) != share:
            line = text[: found.start()].count("\n") + 1 if found else 1
            yield line, f"for {what} one has to believe {believed:,} lines, {share}%"


def main() -> None:
    tree, one = Tree(), sys.argv[2:4] if sys.argv[1:2] == ["of"] else None
    print(f"code {tree.lines['src']}, specs {tree.lines['specs']}, proofs {tree.lines['proofs']}: {tree.everything()} lines")
    asked: dict[str, Wanted] = {"the promises of README": tree.of_readme, "all that crates hand out": handed_out}
    for which, wanted in {" ".join(one): of_one(one[0], one[1].split("::")[-1])}.items() if one else asked.items():
        contracts, defined = tree.believed(wanted)
        if not contracts:
            sys.exit(f"trusted_lines.py: there is no {which}")
        share = 100 * (contracts + defined) / tree.everything()
        print(f"to believe for {which}: {contracts + defined} lines, {share:.1f}%: contracts {contracts}, definitions {defined}")
    if sys.argv[1:] == ["unreached"]:
        _, names = tree.reached(handed_out)
        for crate, file, name in sorted(name for name in tree.known if tree.known[name][0] and name not in names):
            print(f"{crate}/specs/{file}.antt: {name}")


if __name__ == "__main__":
    main()
