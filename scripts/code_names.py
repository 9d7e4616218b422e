"""What the crates name: functions, types, clauses, definitions, fields and wrong bodies. check_docs.py looks them up.

It goes by the text of src/, specs/ and proofs/: a line that begins an item, a clause or a definition names it, and an import
names what it imports.
"""
import collections
import pathlib
import re

TOP = pathlib.Path(__file__).resolve().parent.parent
ITEM = re.compile(r"\s*(?:pub |pub\(\w+\) )?(?:const )?(fn|trait|struct|enum|const|static|type|mod) (\w+)")
IMPL = re.compile(r"impl(?:<.*?>)? (?:(\w[\w:]*)(?:<.*?>)? for )?(\w+)")
CLAUSE = re.compile(r"\s*(?:requires|ensures|decreases) (\w+) \{")
FIELD = re.compile(r"\s+(?:pub |pub\(\w+\) )?(?:ghost )?(\w+)\s*(?:[:,({=]|$)")
DEFINITION = re.compile(r"\s*(?:(?:unfoldable|opaque|abbrev|pub|record|data) )+([^\s:({]+)|([^\s:({]+) :")
IMPORT = re.compile(r"\s*(?:ghost |pub )?use .*")
EXPORT = re.compile(r"^pub use [\w:]+::(?:\{([^}]*)\}|(\w+(?: as \w+)?));", re.MULTILINE)
OWNERS = "trait", "struct", "enum"


class Names:
    """All names, and which of them belong to what."""

    def __init__(self) -> None:
        self.all: set[str] = set()
        # What can follow `NAME::`, of a crate, a type or a trait.
        self.members: dict[str, set[str]] = collections.defaultdict(set)
        # What can follow "`NAME`:", of a function, a type or a definition.
        self.clauses: dict[str, set[str]] = collections.defaultdict(set)
        self.functions: dict[str, set[str]] = collections.defaultdict(set)
        # The clauses of the functions of a crate that have a name, by crate and name.
        self.contracts: dict[tuple[str, str], set[str]] = collections.defaultdict(set)
        self.bodies: dict[str, set[str]] = collections.defaultdict(set)
        for crate in sorted(folder for folder in (TOP / "crates").iterdir() if (folder / "src").is_dir()):
            self.add_crate(crate)

    def add_crate(self, crate: pathlib.Path) -> None:
        """Adds the names of a crate."""
        self.all.add(crate.name)
        for path in sorted((crate / "src").rglob("*.rt")):
            self.add_source(crate.name, path)
        for part in ("specs", "proofs"):
            for path in sorted((crate / part).rglob("*.antt")):
                self.add_definitions(path)
        self.bodies[crate.name] = {body.stem for body in crate.glob("must-fail/*.edit")}
        self.all |= {body.stem for folder in ("must-fail", "wrong-bodies") for body in crate.glob(f"{folder}/*.edit")}

    def add_source(self, crate: str, path: pathlib.Path) -> None:
        """Adds the items of a file, with their clauses."""
        self.all.add(path.stem)
        owners: tuple[str, ...] = ()
        function: tuple[str, ...] = ()
        text = path.read_text()
        # An item that is handed on has the last name: the one after `as`, if there is one.
        exports = [item.split() for group, one in EXPORT.findall(text) for item in (group or one).split(",")]
        self.members[crate] |= {words[-1] for words in exports if words}
        self.all |= {words[-1] for words in exports if words}
        for line in text.splitlines():
            item, block = ITEM.match(line), IMPL.match(line)
            if IMPORT.match(line):
                self.all |= set(re.findall(r"\w+", line))
            elif block:
                owners = tuple(name for name in block.groups() if name)
            elif item:
                kind, name = item.groups()
                inside = owners if line[0] == " " else (crate,)
                owners = (name,) if kind in OWNERS else owners
                self.all.add(name)
                for owner in inside:
                    self.members[owner].add(name)
                if kind == "fn":
                    self.functions[crate].add(name)
                    function = (name, *inside, *(f"{owner}::{name}" for owner in inside))
            elif clause := CLAUSE.match(line):
                self.all.add(clause[1])
                self.contracts[crate, function[0]].add(clause[1])
                for name in function:
                    self.clauses[name].add(clause[1])
            elif field := FIELD.match(line):
                self.all.add(field[1])
                for owner in owners:
                    self.members[owner].add(field[1])

    def add_definitions(self, path: pathlib.Path) -> None:
        """Adds the definitions of a file, with their fields and cases."""
        self.all.add(path.stem)
        owner, margin = "", 0
        for line in path.read_text().splitlines():
            found = DEFINITION.match(line)
            if line.startswith("module "):
                owner = ""
            elif found:
                indent, name = len(line) - len(line.lstrip()), found[1] or found[2]
                self.all.add(name)
                if owner and indent > margin:
                    self.members[owner].add(name)
                else:
                    owner, margin = name, indent

    def has_path(self, path: str) -> bool:
        """Whether each part of `a::b::c` belongs to the part before it."""
        parts = path.split("::")
        return parts[0] in self.all and all(low in self.members[high] for high, low in zip(parts, parts[1:]))

    def has_clause(self, name: str, clause: str) -> bool:
        """Whether a function, a type or a definition has a clause, a field or a ghost member of this name."""
        owner, _, last = name.rpartition("::")
        owners = [owner] if owner else [owner for owner, members in self.members.items() if name in members]
        # A ghost member of a trait's implementation says what the trait's functions do.
        of_owner = last[:1].islower() and any(clause in self.members[owner] for owner in owners)
        return of_owner or clause in self.clauses[name] or clause in self.members[name]
