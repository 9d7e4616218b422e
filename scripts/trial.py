"""What trials share: how one is called, fails and counts, how worldd is run and served, and how a client connects to it. A script
that imports this finds the client in Python, too."""
import argparse
import collections
import os
import pathlib
import re
import shutil
import socket
import string
import subprocess
import sys
import tempfile
import time
from collections.abc import Callable, Iterable, Sequence
from typing import IO, Any, AnyStr

from map import TOP

sys.path.insert(0, str(TOP / "clients" / "python"))

METHODS = "zigzag", "pingpong"
PORT, SOCKET = TRANSPORTS = "port", "socket"
NAMES = "image.a", "image.b", "log.a", "log.b"
# How long an answer is waited for; a command has twice that.
PATIENCE_SECONDS = 30
QUIET = subprocess.DEVNULL

# A command.
Words = Sequence[str | pathlib.Path]


class Wrong(Exception):
    """What a program should not have done."""


def want(is_so: bool, what: str) -> None:
    """Fails unless it is so."""
    if not is_so:
        raise Wrong(what)


def compare(what: str, got: object, wanted: object) -> None:
    """Refuses an answer that differs."""
    want(got == wanted, f"{what}: {got!r}\nin place of {wanted!r}")


# The trial.


def parser_of(about: str, seeds: str = "", has_dir: bool = False) -> argparse.ArgumentParser:
    """A parser of the command line of a trial of worldd, with the first line on it. A seed has a flag, if it seeds anything, and
    so may the place of the files."""
    parser = argparse.ArgumentParser(description=about.splitlines()[0])
    parser.add_argument("worldd", type=absolute, help="the built program")
    if seeds:
        parser.add_argument("--seed", type=int, default=time.time_ns() % 10**9, help=seeds)
    if has_dir:
        parser.add_argument("--dir", help="where the files are made (the system's folder for temporary files)")
    return parser


def absolute(path: str) -> str:
    """The path of a program of the command line, for any folder."""
    return os.path.abspath(path)


def status_of(name: str, run: Callable[[], str | None], more: str = "") -> int:
    """Runs a trial, prints what it gives, and returns the exit status. A failure is printed with more that helps."""
    try:
        if printed := run():
            print(printed, flush=True)
    except (Wrong, OSError, subprocess.SubprocessError) as wrong:
        print(f"{name}: {wrong}{more}", file=sys.stderr)
        return 1
    return 0


def status_in_folder(name: str, given: argparse.Namespace, run: Callable[[pathlib.Path], str | None]) -> int:
    """The same in a new folder, which stays if the trial fails. It is made in the folder `dir`, if there is such a flag."""
    room = pathlib.Path(tempfile.mkdtemp(prefix=f"{name.replace('_', '-')}-", dir=vars(given).get("dir")))
    seeded = f"seed {given.seed}, " if "seed" in given else ""
    status = status_of(name, lambda: run(room), f"\n{name}: {seeded}files in {room}")
    if status == 0:
        shutil.rmtree(room)
    return status


def all_met(met: collections.Counter[str], names: Iterable[str], before: str = "", after: str = "") -> None:
    """Fails if one of these was never met."""
    missed = [name for name in names if not met[name]]
    want(not missed, f"{before}never met: {', '.join(missed)}{after}")


def summary(text: str, tally: collections.Counter[str], rare: str = "") -> str:
    """The text with each count in its place. Each has to be met, except the rare one."""
    filled = text.format_map(tally)
    names = [name for _, name, _, _ in string.Formatter().parse(text) if name]
    all_met(tally, [name for name in names if name != rare], after=f": {filled}")
    return filled


class Runs:
    """Runs of one program, how many were wrong, and how often each kind was seen."""

    def __init__(self, program: str) -> None:
        self.program, self.runs, self.wrong = program, 0, 0
        self.seen: collections.Counter[str] = collections.Counter()

    def check(self, what: str, got: object, wanted: object) -> None:
        """Compares what was got, and prints what is wrong."""
        if got != wanted:
            self.wrong += 1
            print(f"WRONG: {what}:\n  got  {got!r}\n  want {wanted!r}", file=sys.stderr)

    def status(self, name: str, kinds: Iterable[str]) -> int:
        """Prints what came of the runs, in which each kind has to be seen, and gives the exit status."""
        never = [kind for kind in kinds if not self.seen[kind]]
        print(f"{name} trial: {self.runs} runs, {self.wrong} wrong" + (f", never seen: {never}" if never else ""))
        return 1 if self.wrong or never else 0


# Programs.


def pipe(stream: IO[AnyStr] | None) -> IO[AnyStr]:
    """A stream of a process that is a pipe."""
    assert stream is not None
    return stream


def found_in_text(pattern: str, text: str) -> re.Match[str]:
    """The first match of a pattern, which has to be there."""
    match = re.search(pattern, text, re.MULTILINE)
    if match is None:
        raise Wrong(f"`{pattern}` isn't in {text}")
    return match


def as_user(user: int | str) -> dict[str, Any]:
    """How a program is started that runs as a user."""
    return {"user": user, "group": user, "extra_groups": []}


def close_all(descriptors: tuple[int, ...]) -> None:
    """Closes these descriptors in a new process."""
    for descriptor in descriptors:
        os.close(descriptor)


def library_of(source: str, room: pathlib.Path) -> pathlib.Path:
    """A library of scripts/ in C, which is loaded before a program."""
    library = room / pathlib.Path(source).with_suffix(".so")
    subprocess.run(["cc", "-shared", "-fPIC", "-O1", "-o", library, TOP / "scripts" / source], check=True)
    return library


def ran(worldd: str, command: str, folder: pathlib.Path, *flags: str, **variables: str) -> subprocess.CompletedProcess[str]:
    """Runs a command on the files of a folder to its end."""
    words: Words = [worldd, command, "--dir", folder, *flags]
    seconds, environment = 2 * PATIENCE_SECONDS, os.environ | variables
    return subprocess.run(words, stdin=QUIET, capture_output=True, text=True, timeout=seconds, env=environment)


def ask(worldd: str, command: str, folder: pathlib.Path, *flags: str, **variables: str) -> subprocess.CompletedProcess[str]:
    """The same, and it has to end well."""
    ended = ran(worldd, command, folder, *flags, **variables)
    want(ended.returncode == 0, f"{command} ended with status {ended.returncode}: {' '.join(ended.stderr.split())}")
    return ended


def create(worldd: str, folder: pathlib.Path, cells: int) -> None:
    """Makes a folder with a new world of so many cells."""
    folder.mkdir()
    ask(worldd, "create", folder, "--cells", str(cells))


# Servers.


def free_port() -> int:
    """A port that nobody listens on."""
    with socket.create_server(("127.0.0.1", 0)) as probe:
        port: int = probe.getsockname()[1]
    return port


def flags_of(transport: str, path: pathlib.Path) -> list[str]:
    """The flags of a server that lets the system choose its port, or that has a socket at this path."""
    return ["--port", "0"] if transport == PORT else ["--socket", str(path)]


def connect(address: str) -> socket.socket:
    """A connection to a server that printed this port or this path."""
    if address.isdigit():
        return socket.create_connection(("127.0.0.1", int(address)), PATIENCE_SECONDS)
    stream = socket.socket(socket.AF_UNIX)
    stream.settimeout(PATIENCE_SECONDS)
    try:
        stream.connect(address)
    except OSError:
        stream.close()
        raise
    return stream


def answer_to(stream: socket.socket, text: bytes) -> str:
    """All that a client gets that sends this and no more."""
    with stream:
        stream.sendall(text)
        stream.shutdown(socket.SHUT_WR)
        return stream.makefile(encoding="ascii").read()


def begun(server: subprocess.Popen[AnyStr]) -> list[AnyStr]:
    """The two lines with which a server begins: the world that it found, and where it listens."""
    return [pipe(server.stdout).readline() for _ in range(2)]


class Served:
    """A serving worldd, from its start on. What it prints on standard error goes to a file."""

    def __init__(self, command: Words, errors: pathlib.Path) -> None:
        self.errors = errors
        with errors.open("w") as file:
            self.process = subprocess.Popen(command, stdin=QUIET, stdout=subprocess.PIPE, stderr=file, text=True)

    def line(self) -> str:
        """The next line that it prints."""
        return pipe(self.process.stdout).readline().removesuffix("\n")

    def begin(self, found: str) -> None:
        """Waits until it prints the world that it has found, which has to be this one."""
        line = self.line()
        want(line == found, f"serve began with `{line}` after `{found}`{self.complaint()}")

    def listen(self) -> str:
        """Its port or its socket, once its start has ended."""
        line = self.line()
        want(line.startswith("listening "), f"serve printed `{line}` in place of where it listens{self.complaint()}")
        return line.removeprefix("listening ")

    def said(self) -> list[str]:
        """The lines that it printed on standard error, except of opened images and the closed port or socket."""
        lines = self.errors.read_text().splitlines()
        return [line for line in lines if not re.search(" image of tick | the (port|socket) is closed", line)]

    def complaint(self) -> str:
        """The same lines, as the end of a sentence."""
        said = self.said()
        return f", and said `{'; '.join(said)}`" if said else ""
