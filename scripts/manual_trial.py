#!/usr/bin/env python3
"""Compares the manual pages and the completions with what the built programs print for --help.

    scripts/manual_trial.py crates/worldd/out/worldd crates/world_load/out/world_load

Pages have to have each command, each flag with its value and its text, each usage and each status, and nothing else. The
completions of bash, zsh and fish have to offer each command, each flag and each value that is listed, and nothing else. Those of
bash and fish are asked, and those of zsh are run with stand-ins for its functions. A shell that isn't there is named, and only
the text of its file is compared. Groff, if it is there, has to print the pages without a warning.
"""
import dataclasses
import pathlib
import re
import shutil
import subprocess
import sys

from map import TOP
from trial import absolute, compare, parser_of, status_of

PAGES, COMPLETIONS = TOP / "man", TOP / "completions"
SECONDS = 60


@dataclasses.dataclass(frozen=True)
class Flag:
    """A flag of the help: how a page names it, its value, its text there, and the values that are listed."""

    name: str
    value: str
    text: str
    values: tuple[str, ...]

    @property
    def long(self) -> str:
        return self.name.split(", ")[-1]


@dataclasses.dataclass(frozen=True)
class Help:
    """What a program prints for --help, alone or after a command: its usage, its flags, and the commands with their texts."""

    about: str
    usage: str
    flags: tuple[Flag, ...]
    commands: dict[str, str]
    statuses: frozenset[str]


def flag_of(line: str) -> Flag:
    """The flag of a line of the help."""
    found = re.fullmatch(r" +(?:(-\w), )?(--[\w-]+)(?: (\[?<\w+>\]?))? +(.*)", line)
    assert found is not None, f"a flag of the help has the line `{line}`"
    short, long, value, text = found.groups()
    listed = re.search(r" \[possible values: (.*?)\]", text)
    values = tuple(listed[1].split(", ")) if listed else ()
    text = text.replace(listed[0], "") if listed else text
    text += "" if text.endswith("]") else "."
    if values:
        text += f" It is {', '.join(values[:-1])} or {values[-1]}."
    return Flag(f"{short}, {long}" if short else long, re.sub("[<>]", "", value or ""), text, values)


def help_of(program: str, name: str, *command: str) -> Help:
    """What a program prints for --help."""
    run = subprocess.run([program, *command, "--help"], capture_output=True, text=True, timeout=SECONDS, check=True)
    parts = dict(re.findall(r"^(Usage|Commands|Options):\s(.*?)(?:\n\n|\Z)", run.stdout, re.MULTILINE | re.DOTALL))
    commands = dict(re.findall(r"^  (\w+) +(.*)$", parts.get("Commands", ""), re.MULTILINE))
    usage = " ".join([name, *parts["Usage"].split()[1:]])
    flags = tuple(map(flag_of, parts["Options"].strip("\n").splitlines()))
    # The codes of faults follow the sentence with the statuses.
    stated = re.search(r"Its status is(.*?)(?:After 1 and 13|After a fault|\Z)", run.stdout, re.DOTALL)
    statuses = frozenset(re.findall(r"\b\d+\b", stated[1])) if stated else frozenset()
    return Help(run.stdout.partition("\n")[0], usage, flags, commands, statuses)


def helps_of(program: str, name: str) -> dict[str, Help]:
    """What a program prints for --help, after each command and alone."""
    top = help_of(program, name)
    return {"": top} | {command: help_of(program, name, command) for command in top.commands if command != "help"}


# The manual pages.


def entries(text: str) -> list[tuple[str, str, str]]:
    """The tagged paragraphs of a part of a page: each name, value and text."""
    found = re.findall(r'^\.TP\n\.BI? (?:"(.+?) ?"|(\S+))(?: ([\w[\]]+))?\n((?:(?!\.).*\n)*)', text, re.MULTILINE)
    return [(quoted or plain, value, " ".join(lines.split())) for quoted, plain, value, lines in found]


def check_page(name: str, helps: dict[str, Help]) -> int:
    """Compares a page with the help, and returns how many flags it has."""
    path, top = PAGES / f"{name}.1", helps[""]
    page = path.read_text().replace("\\-", "-")
    sections = dict(re.findall(r"^\.SH (.*)\n((?:(?!\.SH).*\n)*)", page, re.MULTILINE))
    compare(f"{path}: NAME", sections["NAME"].lower(), f"{name} - {top.about}\n".lower())
    usages = [it.usage for command, it in helps.items() if command or len(helps) == 1]
    compare(f"{path}: SYNOPSIS", sections["SYNOPSIS"].splitlines()[1:-1], usages)
    parts = {"": sections["OPTIONS"]}
    for command, text in re.findall(r"^\.SS (\w+)\n((?:(?!\.SS).*\n)*)", sections.get("COMMANDS", ""), re.MULTILINE):
        parts[command] = text
    compare(f"{path}: its commands", [it for it in parts if it], list(top.commands))
    for command, text in parts.items():
        if command:
            compare(f"{path}: {command}", text.partition("\n")[0], f"{top.commands[command]}.")
        flags = helps[command].flags if command in helps else ()
        compare(f"{path}: {command or 'OPTIONS'}", entries(text), [(it.name, it.value, it.text) for it in flags])
    statuses = frozenset().union(*(it.statuses for it in helps.values()))
    compare(f"{path}: EXIT STATUS", {name for name, _, _ in entries(sections["EXIT STATUS"])}, statuses)
    if shutil.which("groff"):
        run = subprocess.run(["groff", "-man", "-Tutf8", "-ww", path], capture_output=True, text=True, timeout=SECONDS)
        compare(f"groff of {path}", (run.returncode, run.stderr), (0, ""))
    return sum(len(it.flags) for it in helps.values())


# The completions.

# Asks the completion of bash for a command line, whose last word is being written.
ASK_BASH = 'source "$1"; shift; COMP_WORDS=("$@") COMP_CWORD=$(($# - 1)); "_$1"; printf "%s\\n" "${COMPREPLY[@]}"'
# Runs the file of zsh with functions that print what they are given.
ASK_ZSH = """_arguments() { print -rl -- "$@" }; _describe() { print -rl -- "${(@P)2}" }
ask() { local file=$1; shift; local -a words=("$@"); local CURRENT=$#; source $file }; ask "$@" """


class Shell:
    """A shell: what it offers after some words, the last of which is being written."""

    def __init__(self, name: str, program: str) -> None:
        self.name, self.program = name, program

    def file(self) -> pathlib.Path:
        return COMPLETIONS / (f"_{self.program}" if self.name == "zsh" else f"{self.program}.{self.name}")

    def offers(self, *words: str) -> set[str]:
        """What it offers."""
        line = (self.program, *words)
        command = {
            "bash": ["bash", "-c", ASK_BASH, "bash", str(self.file()), *line],
            "zsh": ["zsh", "-f", "-c", ASK_ZSH, "zsh", str(self.file()), *line],
            "fish": ["fish", "--no-config", "-c", "source $argv[1]; complete -C $argv[2]", str(self.file()), " ".join(line)],
        }[self.name]
        run = subprocess.run(command, capture_output=True, text=True, timeout=SECONDS)
        compare(f"{self.file()}: the run of {self.name}", (run.returncode, run.stderr), (0, ""))
        offered = {re.split(r"\t|(?<=\w)[:\[]", it)[0] for it in run.stdout.splitlines() if it}
        return {it for it in offered if it.startswith("-") or not words[-1]}

    def values(self, command: str, flag: str) -> set[str]:
        """What it offers after a flag."""
        words = (*([command] if command else []), flag, "")
        if self.name != "zsh":
            return self.offers(*words)
        specs = re.findall(rf"'{flag}\[[^']*\]:\w+:\((.*?)\)'", self.file().read_text())
        return set(specs[0].split()) if specs else set()


def check_shell(shell: Shell, helps: dict[str, Help]) -> int:
    """Compares what a shell offers with the help, and returns how many words that are."""
    top, count = helps[""], 0
    for command, it in helps.items():
        before = (command,) if command else ()
        want = {flag.long for flag in it.flags}
        got = {word for word in shell.offers(*before, "-" if shell.name == "fish" else "--") if word.startswith("--")}
        compare(f"{shell.file()}: {command or 'the flags'}", sorted(got), sorted(want))
        count += len(want)
        for flag in it.flags:
            if flag.values:
                compare(f"{shell.file()}: {flag.long}", shell.values(command, flag.long), set(flag.values))
                count += len(flag.values)
    if top.commands:
        got = {word for word in shell.offers("") if not word.startswith("-")}
        compare(f"{shell.file()}: its commands", sorted(got), sorted(top.commands))
        count += len(top.commands)
    return count


def check_text(shell: Shell, helps: dict[str, Help]) -> None:
    """Compares the text of a shell's file with the help, if the shell isn't there."""
    text = shell.file().read_text()
    flags = {flag.long for it in helps.values() for flag in it.flags}
    pattern = r"-l ([\w-]+)" if shell.name == "fish" else r"(--[\w-]+)"
    got = {f"--{it.removeprefix('--')}" for it in re.findall(pattern, text)}
    compare(str(shell.file()), got, flags)
    missing = [it for it in helps[""].commands if not re.search(rf"\b{it}\b", text)]
    compare(f"{shell.file()}: commands that it lacks", missing, [])


def main() -> int:
    """Compares everything."""
    parser = parser_of(__doc__)
    parser.add_argument("world_load", type=absolute, help="the built world_load")
    given = parser.parse_args()

    def run() -> None:
        for name, program in (("worldd", given.worldd), ("world_load", given.world_load)):
            helps = helps_of(program, name)
            words = [f"{check_page(name, helps)} flags in its page"]
            for shell in (Shell(it, name) for it in ("bash", "zsh", "fish")):
                check_text(shell, helps)
                there = shutil.which(shell.name)
                words.append(f"{check_shell(shell, helps)} words in {shell.name}" if there else f"there is no {shell.name}")
            print(f"manual of {name}: {', '.join(words)}")

    return status_of("manual_trial", run)


if __name__ == "__main__":
    sys.exit(main())
