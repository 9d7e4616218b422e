#!/usr/bin/env python3
"""Tries the wrong bodies that the gate does not try: the prover has to refuse each one.

    scripts/wrong_bodies.py action_log recovery     those of two crates
    scripts/wrong_bodies.py --since main            those of the crates that changed since a commit
    scripts/wrong_bodies.py --all --jobs 4          those of every crate, four crates at a time (hours)
    scripts/wrong_bodies.py --can-be-applied        only whether each can still be applied (seconds; `.ci/run` asks)
    scripts/wrong_bodies.py --list action_log       prints those of a crate, the gate's too, and tries nothing

The name of a wrong body says what its bug is. `--list` prints the file and the function that it edits. Of each that the gate
tries it also prints the promise that it breaks, and what refuses it. scripts/wrong_bodies.tsv has these.

The gate tries crates/*/must-fail one by one; this tries crates/*/wrong-bodies by `rt check` on a copy of the repository. A
function is proved from the contracts of those that it calls. So wrong bodies of different functions are tried in one check,
and each has to fail a goal of its own function, which is printed. If anything else fails, the check is made again in halves.
A body that fails nothing is tried again alone, and so is an edit outside a body.
"""
import argparse
import collections
import dataclasses
import itertools
import pathlib
import re
import shutil
import subprocess
import sys
import tempfile
from concurrent.futures import ThreadPoolExecutor

from map import below, read_crates

TOP = pathlib.Path(__file__).resolve().parent.parent
# The wrong bodies of the gate: of each the crate, the name, the bug, the promise that it breaks, and what refuses it. That is
# a function, alone or with one of these: a clause of its contract, an invariant, or what a function that it calls requires.
PROMISES = TOP / "scripts" / "wrong_bodies.tsv"
FOLDERS = ("must-fail", "wrong-bodies", "trial-bodies")
# The most wrong bodies in one check.
MOST = 40
# The most goals that are printed for one wrong body.
GOALS_SHOWN = 3
# A goal that isn't proved, and an error, by the place that they name.
OPEN_GOAL = re.compile(r"`(\S+)` of (?:\./)?proofs/(\S+)/\w+\.antt must prove")
REFUSED_PROOF = re.compile(r"^(?:\./)?proofs/(\S+)/\w+\.antt:\d+:\d+: error(?:: `(\S+)`)?", re.M)


@dataclasses.dataclass(frozen=True)
class Function:
    """A function of a file of src/, and the lines of its body."""

    file: str
    name: str
    first: int
    last: int

    def holds(self, path: str) -> bool:
        """Whether a folder of proofs/ belongs to it. A method's proofs stand in its type's module, which may be one above."""
        module = "" if self.file in ("lib.rt", "main.rt") else self.file.removesuffix(".rt") + "/"
        modules = [module] + [f"{above}/" for above in pathlib.PurePath(self.file).parents[:-1]]
        return any(path.startswith(it) and self.name in path.removeprefix(it).split("/") for it in modules)


# Wrong bodies that are tried in one check, each with the functions that it changes.
Group = dict[pathlib.Path, set[Function | None]]


@dataclasses.dataclass(frozen=True)
class Promise:
    """A line of PROMISES, with its number."""

    line: int
    crate: str
    body: str
    bug: str
    promise: str
    refused_by: str


def read_promises() -> list[Promise]:
    """The lines of PROMISES below its head."""
    lines = PROMISES.read_text().splitlines()[1:]
    return [Promise(number, *line.split("\t")) for number, line in enumerate(lines, 2)]


def bodies_of(crate: pathlib.Path, folder: str = "wrong-bodies") -> list[pathlib.Path]:
    """The wrong bodies in a folder of a crate."""
    return sorted((crate / folder).glob("*.edit"))


def apply(body: pathlib.Path, crate: pathlib.Path) -> dict[pathlib.Path, str]:
    """The texts of the files that a wrong body changes. ValueError says why it can't be applied."""
    texts: dict[pathlib.Path, str] = {}
    were: dict[pathlib.Path, str] = {}
    file, old = crate, ""
    for line in body.read_text().splitlines():
        kind, _, text = line.partition(": ")
        if kind == "file":
            file = crate / text
            if file not in texts:
                texts[file] = were[file] = file.read_text() if file.is_file() else ""
        elif kind == "old":
            old = text
        elif kind.removesuffix(":") == "new":
            found = texts[file].count(old) if file in texts and old else 0
            if found != 1:
                raise ValueError(f"`{old}` stands {found} times in {file.name if file in texts else 'no file'}")
            texts[file] = texts[file].replace(old, text)
    if texts == were:
        raise ValueError("it changes nothing")
    return texts


def can_be_applied() -> int:
    """Prints each wrong body that can't be applied, and one that stands in two folders."""
    bad = count = 0
    for crate in sorted((TOP / "crates").iterdir()):
        names: collections.Counter[str] = collections.Counter()
        for body in [body for folder in FOLDERS for body in bodies_of(crate, folder)]:
            count += 1
            names[body.name] += 1
            try:
                apply(body, crate)
                if names[body.name] > 1:
                    raise ValueError("it stands in two folders")
            except ValueError as error:
                bad += 1
                print(f"{body.relative_to(TOP)}: {error}")
    print(f"wrong bodies: {count - bad} of {count} can be applied")
    return 1 if bad else 0


def changed_since(commit: str) -> list[str]:
    """The crates of which a file changed since a commit, in the work tree too."""
    command = ["git", "diff", "--name-only", commit, "--", "crates"]
    run = subprocess.run(command, cwd=TOP, capture_output=True, text=True, check=True)
    parts = ("src", "specs", "proofs", "wrong-bodies")
    paths = [pathlib.PurePath(line).parts for line in run.stdout.splitlines()]
    return sorted({path[1] for path in paths if len(path) > 3 and path[2] in parts})


def left_out(folder: str, names: list[str]) -> set[str]:
    """What a copy of the repository doesn't have. It has the libraries that checks have built."""
    if pathlib.Path(folder).name == "out":
        return set(names) - {"rlib"}
    return set(names) & {".git", "must-fail"}


def lay(crates: list[str], copy: pathlib.Path) -> None:
    """Lays a copy of the repository, and builds there the libraries below these crates, unless checks have built them."""
    shutil.copytree(TOP, copy, ignore=left_out)
    lower = below(read_crates())
    for crate in read_crates():
        if any(crate in lower[name] for name in crates):
            subprocess.run(["rt", "lib"], cwd=copy / "crates" / crate, capture_output=True, check=True)


def functions_of(file: str, text: str) -> list[Function]:
    """The functions of a source file that have bodies, as `rt fmt` lays them out."""
    found, lines = [], text.splitlines()
    for at, line in enumerate(lines):
        head = re.match(r"( *)(?:pub(?:\(\w+\))? )?(?:const )?fn (\w+)", line)
        if not head:
            continue
        margin = head[1]
        heads = [i for i in range(at, len(lines)) if re.match(margin + r"\S", lines[i]) and lines[i][-1] in "{};"]
        if heads and lines[heads[0]].endswith("{"):
            last = next(i for i in range(heads[0], len(lines)) if lines[i] == margin + "}")
            found.append(Function(file, head[2], heads[0] + 2, last))
    return found


def function_of(file: str, text: str, line: int) -> Function | None:
    """The function whose body has this line, counted from 1."""
    holding = [it for it in functions_of(file, text) if it.first <= line <= it.last]
    return max(holding, key=lambda it: it.first) if holding else None


def changed_by(body: pathlib.Path, crate: pathlib.Path) -> set[Function | None]:
    """The functions that a wrong body changes. None stands for a place outside a function's body."""
    found: set[Function | None] = set()
    for path, text in apply(body, crate).items():
        name, old = str(path.relative_to(crate)), path.read_text()
        for at, (one, other) in enumerate(itertools.zip_longest(old.splitlines(), text.splitlines()), 1):
            if one != other:
                found.add(function_of(name.removeprefix("src/"), old, at) if name.startswith("src/") else None)
    return found


def print_bodies(crates: list[str]) -> None:
    """Prints the wrong bodies of some crates: those that the gate tries, and then the others."""
    promises = {(it.crate, it.body): it for it in read_promises()}
    for crate in (TOP / "crates" / name for name in crates):
        for body in [body for folder in FOLDERS for body in bodies_of(crate, folder)]:
            functions = sorted({it.name if it else "a place outside of bodies" for it in changed_by(body, crate)})
            print(f"{body.relative_to(TOP)}: edits {', '.join(functions)}")
            if it := promises.get((crate.name, body.stem)):
                print(f"    the bug: {it.bug}\n    breaks: {it.promise}\n    refused by {it.refused_by}")


def groups_of(bodies: list[pathlib.Path], crate: pathlib.Path) -> list[Group]:
    """Wrong bodies by the check in which they are tried: those of a check change different functions, or it has one."""
    groups: list[Group] = []
    for body in bodies:
        changed = changed_by(body, crate)
        names = {(it.file, it.name) if it else None for it in changed}
        for group in groups:
            others = {(it.file, it.name) if it else None for them in group.values() for it in them}
            if None not in names | others and not names & others and len(group) < MOST:
                group[body] = changed
                break
        else:
            groups.append({body: changed})
    return groups


def halves_of(group: Group) -> list[Group]:
    """A group as two, one of which lacks the wrong body that fails another function than its own."""
    items = list(group.items())
    return [dict(items[: len(items) // 2]), dict(items[len(items) // 2 :])]


def check(crate: pathlib.Path, bodies: list[pathlib.Path]) -> subprocess.CompletedProcess[str]:
    """Checks a crate of the copy with these wrong bodies, and takes them away again."""
    were: dict[pathlib.Path, str] = {}
    try:
        for body in bodies:
            for file, text in apply(body, crate).items():
                were.setdefault(file, file.read_text())
                file.write_text(text)
        command, pipe = ["rt", "check", "--jobs", "1"], subprocess.PIPE
        return subprocess.run(command, cwd=crate, stdout=pipe, stderr=subprocess.STDOUT, text=True)
    finally:
        for file, text in were.items():
            file.write_text(text)


def failed_in(run: subprocess.CompletedProcess[str]) -> dict[str, set[str]]:
    """The folders of proofs/ of which a check names an open goal or an error, and these goals."""
    failed: dict[str, set[str]] = collections.defaultdict(set)
    for goal, path in OPEN_GOAL.findall(run.stdout):
        failed[path].add(goal)
    for path, goal in REFUSED_PROOF.findall(run.stdout):
        failed[path].add(goal or "its proof")
    return failed


def refused_by(failed: dict[str, set[str]]) -> str:
    """The answer `refused`, with the goals that failed and their functions."""
    goals = [f"{path.rpartition('/')[2]}: {goal}" for path, goals in sorted(failed.items()) for goal in sorted(goals)]
    more = f" and {len(goals) - GOALS_SHOWN} more" if len(goals) > GOALS_SHOWN else ""
    return ", ".join(["refused", *goals[:GOALS_SHOWN]]) + more


def refused_together(crate: pathlib.Path, group: Group) -> dict[pathlib.Path, str]:
    """Those of a group that one check refuses, each by goals of a function that only it changes; none if another failed."""
    try:
        run = check(crate, list(group))
    except ValueError:
        return {}
    failed = failed_in(run)
    changed = {it for them in group.values() for it in them if it}
    if run.returncode != 1 or not all(any(it.holds(path) for it in changed) for path in failed):
        return {}
    refused = {}
    for body, them in group.items():
        if goals := {path: failed[path] for path in failed if any(it and it.holds(path) for it in them)}:
            refused[body] = refused_by(goals)
    return refused


def own_copy(name: str, copy: pathlib.Path) -> pathlib.Path:
    """A crate in its own copy, with the work that its checks kept. Checks in one copy would wait for one another."""
    own = copy.with_name(name)
    shutil.copytree(copy, own)
    kept = TOP / "crates" / name / "out" / "incremental"
    if kept.is_dir():
        shutil.copytree(kept, own / "crates" / name / "out" / "incremental")
    return own / "crates" / name


def attempt_crate(name: str, copy: pathlib.Path) -> collections.Counter[str]:
    """Tries the wrong bodies of a crate, prints what came of each, and counts the answers."""
    crate = own_copy(name, copy)
    counts: collections.Counter[str] = collections.Counter()
    bodies = bodies_of(crate)
    if bodies and check(crate, []).returncode:
        print(f"{name}: the crate itself isn't proved", flush=True)
        return counts
    groups = groups_of(bodies, crate)
    while groups:
        group = groups.pop(0)
        refused = refused_together(crate, group) if len(group) > 1 else {}
        if len(group) > 1 and not refused:
            groups[:0] = halves_of(group)
            continue
        for body in group:
            answer = refused.get(body) or attempt_alone(crate, body)
            counts[answer.partition(",")[0]] += 1
            print(f"{name}/{body.stem}: {answer}", flush=True)
    shutil.rmtree(crate.parent.parent)
    return counts


def attempt_alone(crate: pathlib.Path, body: pathlib.Path) -> str:
    """Tries one wrong body, and says what came of it."""
    run = check(crate, [body])
    if run.returncode == 0:
        return "let through"
    if "logic=not-proved" not in run.stdout:
        return f"not tried, {run.stdout[-300:]!r}"
    names = r"^(?!.*must prove).*proofs/.*(has no field|is not in scope|has no `|was not admitted)"
    by_name = re.search(names, run.stdout, re.M) and not OPEN_GOAL.search(run.stdout)
    return "refused, only because a proof names what it takes away" if by_name else refused_by(failed_in(run))


def attempt(crates: list[str], jobs: int) -> int:
    """Tries the wrong bodies of some crates, so many crates at a time."""
    with tempfile.TemporaryDirectory(prefix="wrong-bodies-") as folder:
        copy = pathlib.Path(folder) / "copy"
        count = sum(len(bodies_of(TOP / "crates" / crate)) for crate in crates)
        if not count:
            print("no wrong body to try")
            return 0
        lay(crates, copy)
        with ThreadPoolExecutor(jobs) as pool:
            counts = sum(pool.map(lambda crate: attempt_crate(crate, copy), crates), collections.Counter[str]())
    print(f"wrong bodies: {counts['refused']} of {count} refused ({' '.join(crates)})")
    return 0 if counts["refused"] == count else 1


def main() -> int:
    """Tries what the command line names."""
    parser = argparse.ArgumentParser(description=__doc__.splitlines()[0])
    parser.add_argument("crates", nargs="*", help="crates whose wrong bodies are tried")
    parser.add_argument("--since", metavar="COMMIT", help="try those of the crates that changed since this commit")
    parser.add_argument("--all", action="store_true", help="try those of every crate")
    parser.add_argument("--can-be-applied", action="store_true", help="only check that each can still be applied")
    parser.add_argument("--list", action="store_true", help="print them, and the gate's, and try none")
    parser.add_argument("--jobs", type=int, default=1, help="how many crates are tried at a time")
    given = parser.parse_args()
    if given.can_be_applied:
        return can_be_applied()
    every = sorted(crate.name for crate in (TOP / "crates").iterdir() if bodies_of(crate))
    unknown = [crate for crate in given.crates if not (TOP / "crates" / crate / "src").is_dir()]
    if unknown:
        parser.error(f"no crate {unknown[0]}")
    if given.all:
        crates = every
    elif given.since:
        crates = [crate for crate in changed_since(given.since) if crate in every]
    else:
        crates = given.crates
    if not crates and not given.since:
        parser.error("name a crate, or give --since COMMIT or --all")
    if given.list:
        print_bodies(crates)
        return 0
    return attempt(crates, given.jobs)


if __name__ == "__main__":
    sys.exit(main())
