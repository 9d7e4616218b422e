#!/usr/bin/env python3
"""Runs the built worldd on command lines, scripts and folders, and compares what it prints and how it ends.

    scripts/program_trial.py crates/worldd/out/worldd

Each run has its wanted output, errors and exit status. It prints how often each way to end was seen, and fails where a run
ended otherwise, or where a way to end was never seen.
"""
import argparse
import collections
import contextlib
import fcntl
import functools
import itertools
import os
import pathlib
import re
import resource
import socket
import struct
import subprocess
import sys
import tempfile
import time
from collections.abc import Iterator
from typing import Any, BinaryIO

from trial import METHODS, NAMES, SOCKET, TRANSPORTS, Runs, absolute, answer_to, begun, connect, free_port

SECONDS = 60
# How long figures may take to be those that are wanted. They come each second.
PATIENCE_SECONDS = 20
# How many ticks a run of the largest world plays, each of 255 actions.
LARGEST_TICKS = 64
# A limit on a file's size that the log reaches soon.
FILE_LIMIT = 400

# Images of two cells: new ones of both words 0, and of 5 7 at tick 3 in format 1, of 5 9 at tick 2 in format 2.
NEW_IMAGE = b"\1" + struct.pack("<QQQQ", 2 + (0x20 << 56), 0, 0, 0)
IMAGE_OF_3 = b"\1" + struct.pack("<QQQQ", 2, 3, 5, 7)
IMAGE_OF_2 = b"\1" + struct.pack("<QQQQ", 2 + (0x20 << 56), 2, 5, 9)
# An image of one cell, 0, at tick 0, and an open one of too many cells.
SMALL_IMAGE = b"\1" + struct.pack("<QQQ", 1, 0, 0)
BAD_IMAGE = b"\1" * 17
# An image of two cells without its words.
CUT_IMAGE = b"\1" + struct.pack("<QQ", 2, 9)
# Segments: of no group (format 2 and base 0, format 1 and base 3), and one whose group is cut off.
NEW_LOG = b"\1" + struct.pack("<QB", 0x20 << 56, 0)
NEW_LOG_OF_3 = b"\1" + struct.pack("<QB", 3, 0)
BAD_LOG = b"\1" + struct.pack("<QB", 0, 1)
# Of tick 3, which adds -2 to cell 1; of tick 4, which moves 2 from cell 0 to cell 1; of tick 1, which takes 1 from cell 0.
LOG_OF_3 = b"\1" + struct.pack("<QBHHBIqB", 2, 1, 1, 1, 2, 1, -2, 0)
LOG_OF_4 = b"\1" + struct.pack("<QBHHBIIQB", 3 + (0x20 << 56), 1, 1, 1, 3, 0, 1, 2, 0)
TAKING_LOG = b"\1" + struct.pack("<QBHHBIqB", 0, 1, 1, 1, 2, 0, -1, 0)
# A group of tick 1, one of ticks 2 and 3, with no actions, and a closed group after them.
LOG_OF_GROUPS = b"\1" + struct.pack("<QBHHBHHHB", 0, 1, 1, 0, 1, 2, 0, 0, 0)
# An open gate, and no header that it could have.
GARBAGE = b"\1" * 20

NO_FILE = "No such file or directory (os error 2)"
NOT_A_FILE = "not a regular file"
HELD = "another program writes this world"
NO_SERVER = "server: none\n"
HOLDS_A_WORLD = "a file already holds a world: choose an empty folder"
FULL = "fault 18\nworldd: standard output: the disk is full\n"
MORE = "For more information, try '--help'.\n"

Outcome = collections.namedtuple("Outcome", "output errors status")


class Trial(Runs):
    """Runs on command lines, scripts and folders, and what was seen of them."""

    def run(
        self, *words: str | bytes, full: bool = False, script: bytes = b"", memory: int = 0, longest: int = 0
    ) -> Outcome:
        """Runs the program with these words, with so many bytes of memory, or in a file, if a number is given. A full output
        takes no byte."""
        kind, most = (resource.RLIMIT_AS, memory) if memory else (resource.RLIMIT_FSIZE, longest)
        limit = (lambda: resource.setrlimit(kind, (most, most))) if most else None
        with open("/dev/full", "wb") as device:
            output: BinaryIO | int = device if full else subprocess.PIPE
            command = [self.program, *words]
            pipe = subprocess.PIPE
            run = subprocess.run(command, input=script, stdout=output, stderr=pipe, timeout=SECONDS, preexec_fn=limit)
        outcome = Outcome((run.stdout or b"").decode(), run.stderr.decode(), run.returncode)
        self.runs += 1
        first = outcome.errors.partition("\n")[0]
        self.seen[f"status {outcome.status}" + (f", {first}" if first.startswith("fault ") else "")] += 1
        return outcome

    def ends(self, what: str, got: Outcome, output: str, errors: str, status: int) -> None:
        """Compares a whole outcome."""
        self.check(what, got, Outcome(output, errors, status))


@contextlib.contextmanager
def new_folder(*files: bytes) -> Iterator[pathlib.Path]:
    """A folder with these bytes in the files of a world, in their order; with none, no file."""
    with tempfile.TemporaryDirectory(prefix="worldd-trial-") as name:
        folder = pathlib.Path(name)
        put(folder, *files)
        yield folder


def put(folder: pathlib.Path, *files: bytes) -> None:
    """Writes the files of a world, in their order."""
    for name, data in zip(NAMES, files):
        (folder / name).write_bytes(data)


def files_of(folder: pathlib.Path) -> tuple[bytes, ...]:
    """The bytes of the files of a world."""
    return tuple((folder / name).read_bytes() for name in NAMES)


def fault_of(folder: pathlib.Path, code: int, name: str, why: str) -> str:
    """The errors of a fault that names a file."""
    return f"fault {code}\nworldd: {folder}/{name}: {why}\n"


def try_command_lines(trial: Trial) -> None:
    """Wrong command lines, help, the version, and words that aren't text."""
    serve = "Usage: worldd serve --dir <FOLDER> --method <METHOD> <--port <P>|--socket <PATH>> "
    serve += "<--clients <K>|--unlimited-clients>"
    make = "Usage: worldd create --dir <FOLDER> <--cells <N>|--words <FILE>>"
    lacking = "the following required arguments were not provided:\n  "
    whole = "serve --dir world --method zigzag --clients 1"
    needed = "--method <METHOD>\n  <--port <P>|--socket <PATH>>\n  <--clients <K>|--unlimited-clients>"
    for words, text in (
        (
            "",
            "'worldd' requires a subcommand but one was not provided\n  [subcommands: steps, create, recover, inspect, status, "
            "backup, salvage, serve, help]\n\nUsage: worldd <COMMAND>",
        ),
        ("stepz", "unrecognized subcommand 'stepz'\n\n  tip: a similar subcommand exists: 'steps'\n\nUsage: worldd <COMMAND>"),
        ("steps extra", "unexpected argument 'extra' found\n\nUsage: worldd steps [OPTIONS]"),
        ("create --cells 1", f"{lacking}--dir <FOLDER>\n\n{make}"),
        ("create --dir world", f"{lacking}<--cells <N>|--words <FILE>>\n\n{make}"),
        ("create --dir world --cells 0", "invalid value '0' for '--cells <N>': 0 is not in 1..=1048576"),
        ("create --dir world --cells 1048577", "invalid value '1048577' for '--cells <N>': 1048577 is not in 1..=1048576"),
        ("create --dir world --cells two", "invalid value 'two' for '--cells <N>': invalid digit found in string"),
        ("recover", f"{lacking}--dir <FOLDER>\n\nUsage: worldd recover --dir <FOLDER>"),
        ("status", f"{lacking}--dir <FOLDER>\n\nUsage: worldd status --dir <FOLDER>"),
        ("backup --dir world", f"{lacking}--to <FOLDER>\n\nUsage: worldd backup --dir <FOLDER> --to <FOLDER>"),
        ("salvage --dir world", f"{lacking}--to <FOLDER>\n\nUsage: worldd salvage --dir <FOLDER> --to <FOLDER>"),
        ("inspect --words", f"{lacking}--dir <FOLDER>\n\nUsage: worldd inspect --dir <FOLDER> --words"),
        ("serve --dir world", f"{lacking}{needed}\n\n{serve}"),
        (f"{whole}", f"{lacking}<--port <P>|--socket <PATH>>\n\n{serve}"),
        (f"{whole} --port 0 --socket s", f"the argument '--port <P>' cannot be used with '--socket <PATH>'\n\n{serve}"),
        (
            f"{whole} --port 0 --unlimited-clients",
            f"the argument '--clients <K>' cannot be used with '--unlimited-clients'\n\n{serve}",
        ),
        (
            f"{whole} --port 0 --socket-mode 0660",
            f"the argument '--port <P>' cannot be used with '--socket-mode <MODE>'\n\n{serve}",
        ),
        ("serve --socket-mode all", "invalid value 'all' for '--socket-mode <MODE>'\n  [possible values: 0600, 0660, 0666]"),
        ("serve --method plain", "invalid value 'plain' for '--method <METHOD>'\n  [possible values: zigzag, pingpong]"),
        ("serve --every 0", "invalid value '0' for '--every <E>': 0 is not in 1..=65536"),
        ("serve --every 65537", "invalid value '65537' for '--every <E>': 65537 is not in 1..=65536"),
        ("serve --port 65536", "invalid value '65536' for '--port <P>': 65536 is not in 0..=65535"),
        ("serve --idle 0", "invalid value '0' for '--idle <SECONDS>': 0 is not in 1..=86400"),
        ("serve --idle 86401", "invalid value '86401' for '--idle <SECONDS>': 86401 is not in 1..=86400"),
        ("serve --report 86401", "invalid value '86401' for '--report <SECONDS>': 86401 is not in 0..=86400"),
        ("serve --exit-when-closed 86401", "invalid value '86401' for '--exit-when-closed <SECONDS>': 86401 is not in 0..=86400"),
        ("recover --statuses all", "invalid value 'all' for '--statuses <WHICH>'\n  [possible values: plain, detailed]"),
        ("serve --clients 100001", "invalid value '100001' for '--clients <K>': 100001 is not in 1..=100000"),
    ):
        trial.ends(f"worldd {words}", trial.run(*words.split()), "", f"error: {text}\n\n{MORE}", 2)
    no_text = "error: a word of the command line isn't UTF-8: a path has to be\n"
    trial.ends("bytes that are no text", trial.run(b"\xff"), "", no_text, 2)
    for flag in ("--version", "-V"):
        trial.ends(flag, trial.run(flag), "worldd 0.3.0-dev (reads file formats 1 and 2, writes 2)\n", "", 0)
    for words in ("--version", "--help", "serve --help"):
        trial.ends(f"{words} to a full output", trial.run(*words.split(), full=True), "", FULL, 1)
    escaped = "fault 18\nworldd: no\\x1b[31m\\x07\\x0a\\x7f\\x9b\u00e9/image.a: " + NO_FILE + "\n"
    trial.ends("control characters of a path", trial.run("recover", "--dir", "no\x1b[31m\a\n\x7f\x9b\u00e9"), "", escaped, 1)
    usage = "\n\nUsage: worldd"
    for words, start, end in (
        ("", f"A main-memory world server with asynchronous checkpoints{usage} <COMMAND>\n", "  -V, --version  Print version\n"),
        (
            "steps",
            f"Runs the script on standard input, over a world in memory{usage} steps [OPTIONS]\n",
            "21 no tick numbers are left\n",
        ),
        (
            "create",
            f"Makes the files of a new world in a folder\n\n{make.replace('create --dir', 'create [OPTIONS] --dir')}\n",
            "\n  its own, or another program writes this world, 22 a file may hold a world: nothing\n  was written\n",
        ),
        (
            "recover",
            "Prints which world the files of a folder hold\n\nUsage: worldd recover [OPTIONS] --dir <FOLDER>\n",
            "  17 there is no memory, 18 a file is missing or can't be read\n",
        ),
        (
            "inspect",
            "Prints what each file of a folder holds, and which world they hold together\n\n"
            "Usage: worldd inspect [OPTIONS] --dir <FOLDER>\n",
            "\nfrom the image of tick T. If they hold no world it ends as `recover` does.\n",
        ),
        (
            "status",
            "Prints figures of the world in a folder, also while it is served\n\nUsage: worldd status [OPTIONS] --dir <FOLDER>\n",
            "\n  16 check: hangs: no sign of life for S seconds\n"
            "After ten seconds without one it hangs. Without a guard that isn't known.\n",
        ),
        (
            "backup",
            f"Copies the world in a folder, also while it is served{usage} backup [OPTIONS] --dir <FOLDER> --to <FOLDER>\n",
            "\n  began a new image under each of 1000 tries, 22 the folder of the copy isn't empty, or\n"
            "  lies in that of the world\n",
        ),
        (
            "salvage",
            f"Makes a world of what can be read of damaged or lost files{usage} salvage [OPTIONS] --dir <FOLDER> --to <FOLDER>\n",
            "\n  22 the folder of the new files isn't empty, or lies in that of the world\n",
        ),
        (
            "serve",
            "Serves the world in the files of a folder to clients of a port or of a socket\n\n"
            f"{serve.replace('serve --dir', 'serve [OPTIONS] --dir')}\n",
            "\n  can't be listened on, or a line couldn't be printed\n",
        ),
    ):
        got = trial.run(*words.split(), "--help")
        trial.check(f"worldd {words} --help", (got.output[: len(start)], got.output[-len(end) :]), (start, end))
        trial.check(f"worldd {words} --help", got[1:], ("", 0))


def try_scripts(trial: Trial) -> None:
    """A script, and one whose output is full."""
    trial.ends("a script", trial.run("steps", script=b"open plain 1\nget 0\n"), "ready 0\n= 0\n", "", 0)
    trial.ends("a full output", trial.run("steps", script=b"open plain 1\n", full=True), "", FULL, 1)


def create(trial: Trial, folder: pathlib.Path, cells: int = 2, full: bool = False) -> Outcome:
    """Makes a world in a folder."""
    return trial.run("create", "--dir", str(folder), "--cells", str(cells), full=full)


def check_made(trial: Trial, what: str, got: Outcome, folder: pathlib.Path) -> None:
    """A world of two cells was made, and these are its files."""
    trial.ends(what, got, "created 2\n", "", 0)
    trial.check(what, files_of(folder), (NEW_IMAGE, b"", NEW_LOG, b"\0"))


def try_creating(trial: Trial) -> None:
    """Worlds that are made: what is made, and what stays."""
    with new_folder() as folder:
        check_made(trial, "a new world", create(trial, folder), folder)
        trial.ends("the new world", trial.run("recover", "--dir", str(folder)), "recovered 0 from 0\n", "", 0)
        trial.ends("made again", create(trial, folder), "", fault_of(folder, 22, "image.a", HOLDS_A_WORLD), 1)
        trial.check("made again", files_of(folder), (NEW_IMAGE, b"", NEW_LOG, b"\0"))
    with new_folder() as folder:
        trial.ends("the most cells", create(trial, folder, 1_048_576), "created 1048576\n", "", 0)
        lines = (
            "image.a: open, format 2, 1048576 cells, tick 0, 8388625 bytes\n"
            "image.b: closed, 0 bytes\n"
            "log.a: open, format 2, base 0, 0 groups, 0 ticks, 10 bytes\n"
            "log.b: closed, 1 byte\n"
            "recovered 0 from 0 in image.a\n"
        )
        trial.ends("the most cells", trial.run("inspect", "--dir", str(folder)), lines, "", 0)
    with new_folder() as folder:
        (folder / "notes").write_bytes(b"of another program")
        (folder / "image.c").write_bytes(GARBAGE)
        check_made(trial, "beside other files", create(trial, folder), folder)
        others = (folder / "notes").read_bytes(), (folder / "image.c").read_bytes()
        trial.check("other files", others, (b"of another program", GARBAGE))
    with new_folder() as folder:
        trial.ends("a full output", create(trial, folder, full=True), "", FULL, 1)
        trial.check("a full output", files_of(folder), (NEW_IMAGE, b"", NEW_LOG, b"\0"))


def try_completing(trial: Trial) -> None:
    """Each of the four files is missing, closed or open. With an open one none is made and none is written."""
    opened = NEW_IMAGE, IMAGE_OF_2, NEW_LOG, LOG_OF_4
    for files in itertools.product(*((None, b"\0", whole) for whole in opened)):
        with new_folder() as folder:
            there = {name: file for name, file in zip(NAMES, files) if file is not None}
            for name, file in there.items():
                (folder / name).write_bytes(file)
            what = "create, " + ", ".join(f"{name} {'open' if there[name][0] else 'closed'}" for name in there)
            got, first = create(trial, folder), next((name for name, file in there.items() if file != b"\0"), None)
            if first:
                trial.ends(what, got, "", fault_of(folder, 22, first, HOLDS_A_WORLD), 1)
                trial.check(what, {path.name: path.read_bytes() for path in folder.iterdir()}, there)
            else:
                trial.ends(what, got, "created 2\n", "", 0)
                trial.ends(what, trial.run("recover", "--dir", str(folder)), "recovered 0 from 0\n", "", 0)


def try_not_creating(trial: Trial) -> None:
    """Worlds that aren't made: the file is named, and nothing is written."""
    for files, name in (
        ((GARBAGE, b"", b"", b""), "image.a"),
        ((b"", GARBAGE, b"", b""), "image.b"),
        ((b"", b"", GARBAGE, b""), "log.a"),
        ((b"", b"", b"", GARBAGE), "log.b"),
        ((b"", NEW_IMAGE, b"", b""), "image.b"),
        ((b"", b"", NEW_LOG, b""), "log.a"),
        ((b"\0", b"", GARBAGE, NEW_LOG), "log.a"),
    ):
        with new_folder(*files) as folder:
            trial.ends(f"over {name}", create(trial, folder), "", fault_of(folder, 22, name, HOLDS_A_WORLD), 1)
            trial.check(f"over {name}", files_of(folder), files)
    for name in NAMES:
        with new_folder() as folder:
            (folder / name).mkdir()
            trial.ends(f"a folder {name}", create(trial, folder), "", fault_of(folder, 18, name, NOT_A_FILE), 1)
    with new_folder() as folder:
        none = folder / "none"
        trial.ends("no folder", create(trial, none), "", fault_of(none, 18, "image.a", NO_FILE), 1)
        trial.check("no folder", none.exists(), False)
    files = b"", b"\0", b"\0\7", b""
    with new_folder(*files) as folder:
        with open(folder / "image.a", "r+b") as held:
            fcntl.flock(held, fcntl.LOCK_EX | fcntl.LOCK_NB)
            trial.ends("a held world", create(trial, folder), "", fault_of(folder, 18, "image.a", HELD), 1)
            trial.check("a held world", files_of(folder), files)
        trial.check("a world that was held", create(trial, folder).status, 0)
    with new_folder() as folder:
        line = "create", "--dir", str(folder)
        for more in ((), ("--cells", "0"), ("--cells", "1048577"), ("--cells", "4294967296")):
            got = trial.run(*line, *more)
            trial.check(f"create {more}", (got.output, got.status), ("", 2))
        trial.check("a wrong number of cells", list(folder.iterdir()), [])


def try_words(trial: Trial) -> None:
    """Worlds that are made of the words in a file, and files that list none: the line is named, and nothing is made."""
    most = 999_999_999_999_999_999
    lists = ("5\n7\n", (5, 7)), ("5 7\n", (5, 7)), (f"0\n{most}\n", (0, most)), ("1 2\n3\n4 5\n6\n", (1, 2, 3, 4, 5, 6))
    for text, words in lists:
        with new_folder() as folder:
            listed = folder / "words"
            listed.write_text(text)
            line = "create", "--dir", str(folder), "--words", str(listed)
            refusal = f"fault 16\nworldd: {listed}: --cells isn't the number of its words, {len(words)}\n"
            for asked in (len(words) - 1, len(words) + 1):
                trial.ends(f"{asked} of the words {text!r}", trial.run(*line, "--cells", str(asked)), "", refusal, 1)
            trial.check(f"another number of the words {text!r}", list(folder.iterdir()), [listed])
            count = ("--cells", str(len(words))) if len(words) > 2 else ()
            trial.ends(f"the words {text!r}", trial.run(*line, *count), f"created {len(words)}\n", "", 0)
            image = b"\1" + struct.pack(f"<QQ{len(words)}Q", len(words) + (0x20 << 56), 0, *words)
            trial.check(f"the words {text!r}", files_of(folder), (image, b"", b"", b""))
            found = trial.run("inspect", "--words", "--dir", str(folder)).output.splitlines()
            trial.check(f"the words {text!r}", found[-2:], ["recovered 0 from 0 in image.a", " ".join(map(str, words))])
    bad = f"has something other than numbers from 0 to {most} with one space between them"
    for text, why in (
        ("", "it has no word"),
        ("foo\n", f"line 1 {bad}"),
        ("1\n\n2\n", f"line 2 {bad}"),
        ("1\n2\n 3\n", f"line 3 {bad}"),
        ("1\n2  3\n", f"line 2 {bad}"),
        ("1\n02\n", f"line 2 {bad}"),
        ("1\n-2\n", f"line 2 {bad}"),
        ("1\r\n", f"line 1 {bad}"),
        (f"{most + 1}\n", f"line 1 {bad}"),
        (f"1\n2\n{1 << 64}", f"line 3 {bad}"),
        ("1\n2\n1000", "its last line has no newline, so it may be cut off"),
        ("1\n2 ", "its last line has no newline, so it may be cut off"),
        ("7", "its last line has no newline, so it may be cut off"),
        ("0\n" * 1_048_577, "it has more than 1048576 words"),
    ):
        with new_folder() as folder:
            listed = folder / "words"
            listed.write_text(text)
            got = trial.run("create", "--dir", str(folder), "--words", str(listed))
            trial.ends(f"the words {text[:20]!r}", got, "", f"fault 16\nworldd: {listed}: {why}\n", 1)
            trial.check(f"the words {text[:20]!r}", list(folder.iterdir()), [listed])
    with new_folder(b"", NEW_IMAGE, b"", b"") as folder, new_folder(b"7\n") as other:
        create = "create", "--dir", str(folder), "--words"
        occupied = trial.run(*create, str(other / "image.a"))
        trial.ends("words over a world", occupied, "", fault_of(folder, 22, "image.b", HOLDS_A_WORLD), 1)
        trial.check("words over a world", files_of(folder), (b"", NEW_IMAGE, b"", b""))
        trial.ends("no words", trial.run(*create, str(other / "none")), "", fault_of(other, 18, "none", NO_FILE), 1)


def try_larger(trial: Trial) -> None:
    """A world is made larger: its words are printed, more are appended, and a new one is made."""
    with new_folder(IMAGE_OF_3, IMAGE_OF_2, LOG_OF_3, LOG_OF_4) as folder, new_folder() as larger:
        printed = trial.run("inspect", "--words", "--dir", str(folder)).output.splitlines()[-1]
        (larger / "words").write_text(f"{printed}\n0\n11\n")
        made = trial.run("create", "--dir", str(larger), "--words", str(larger / "words"), "--cells", "4")
        trial.ends("a larger world", made, "created 4\n", "", 0)
        found = trial.run("inspect", "--words", "--dir", str(larger)).output.splitlines()
        trial.check("a larger world", found[-2:], ["recovered 0 from 0 in image.a", "3 9 0 11"])


def try_figures(trial: Trial) -> None:
    """Figures of worlds, and of folders with none."""
    for files, lines in (
        (
            (IMAGE_OF_3, IMAGE_OF_2, LOG_OF_3, LOG_OF_4),
            "recovered 4 from 3 in image.a\nlog: 1 tick after the image, log.b has 1 of 65536\n"
            "bytes: image.a 33, image.b 33, log.a 28, log.b 32, together 126\n",
        ),
        (
            (b"", NEW_IMAGE, b"", b"\0"),
            "recovered 0 from 0 in image.b\nlog: 0 ticks after the image, no segment is open\n"
            "bytes: image.a 0, image.b 33, log.a 0, log.b 1, together 34\n",
        ),
        (
            (NEW_IMAGE, b"", LOG_OF_GROUPS, NEW_LOG_OF_3),
            "recovered 3 from 0 in image.a\nlog: 3 ticks after the image, log.b has 0 of 65536\n"
            "bytes: image.a 33, image.b 0, log.a 22, log.b 10, together 65\n",
        ),
        (
            (NEW_IMAGE, GARBAGE[:16], LOG_OF_GROUPS, b"\0"),
            "recovered 3 from 0 in image.a\nlog: 3 ticks after the image, log.a has 3 of 65536\n"
            "bytes: image.a 33, image.b 16, log.a 22, log.b 1, together 72\n",
        ),
    ):
        with new_folder(*files) as folder:
            trial.ends(f"figures {lines[:20]}", trial.run("status", "--dir", str(folder)), lines + NO_SERVER, "", 0)
            trial.check("figures write nothing", files_of(folder), files)
    for what, files, fault in NO_WORLDS:
        with new_folder(*files) as folder:
            trial.ends(f"figures of {what}", trial.run("status", "--dir", str(folder)), NO_SERVER, f"fault {fault}\n", 1)
    with new_folder(NEW_IMAGE, b"", b"") as folder:
        fault = fault_of(folder, 18, "log.b", NO_FILE)
        trial.ends("figures of three files", trial.run("status", "--dir", str(folder)), NO_SERVER, fault, 1)
    with new_folder() as folder:
        fault = fault_of(folder, 18, "image.a", NO_FILE)
        trial.ends("figures of no files", trial.run("status", "--dir", str(folder)), "server: unknown\n", fault, 1)


# Folders that hold no world.
NO_WORLDS = (
    ("closed files", (b"", b"", b"", b""), "13\nworldd: there is no image to recover from"),
    ("a damaged image", (CUT_IMAGE, IMAGE_OF_3, b"", b""), "14\nworldd: an image file is damaged: image.a"),
    ("a damaged log", (NEW_IMAGE, b"", b"", GARBAGE), "15\nworldd: a log file is damaged: log.b"),
)


def try_copies(trial: Trial) -> None:
    """Copies of worlds, and copies that aren't made: nothing is written then."""
    files = IMAGE_OF_2, IMAGE_OF_3, LOG_OF_3, LOG_OF_4
    with new_folder(*files) as folder, new_folder() as to:
        line = "backup", "--dir", str(folder), "--to", str(to)
        trial.ends("a copy", trial.run(*line), "backed up 4 from 3\n", "", 0)
        trial.check("a copy", files_of(to), (b"\0", IMAGE_OF_3, LOG_OF_3, LOG_OF_4))
        trial.check("a copy's modes", {(to / name).stat().st_mode & 0o777 for name in NAMES}, {0o600})
        trial.check("a copied world", files_of(folder), files)
        filled = f"fault 22\nworldd: {to}: the folder isn't empty: choose an empty one\n"
        trial.ends("a copy over a copy", trial.run(*line), "", filled, 1)
    with new_folder(*files) as folder:
        here = f"fault 22\nworldd: {folder}: the folder isn't empty: choose an empty one\n"
        trial.ends("a copy over its world", trial.run("backup", "--dir", str(folder), "--to", str(folder)), "", here, 1)
        none = f"fault 18\nworldd: {folder}/none: {NO_FILE}\n"
        trial.ends("a copy to no folder", trial.run("backup", "--dir", str(folder), "--to", str(folder / "none")), "", none, 1)
        trial.check("a copied world", files_of(folder), files)
    for what, files, fault in NO_WORLDS:
        with new_folder(*files) as folder, new_folder() as to:
            got = trial.run("backup", "--dir", str(folder), "--to", str(to))
            trial.ends(f"a copy of {what}", got, "", f"fault {fault}\n", 1)
            trial.check(f"a copy of {what}", list(to.iterdir()), [])
    with new_folder(*files) as folder, new_folder() as to, open(folder / "image.a", "r+b") as held:
        put(folder, NEW_IMAGE, b"", NEW_LOG, b"\0")
        fcntl.flock(held, fcntl.LOCK_EX | fcntl.LOCK_NB)
        got = trial.run("backup", "--dir", str(folder), "--to", str(to), full=True)
        trial.ends("a copy of a held world, and a full output", got, "", FULL, 1)
        trial.check("a copy that wasn't reported", list(to.iterdir()), [])
    try_copies_inside(trial)
    try_failed_copies(trial)


def try_copies_inside(trial: Trial) -> None:
    """Copies into a folder that lies in the world's own, by whatever path: nothing is made there."""
    for command, last in ("backup", "backed up 4 from 3\n"), ("salvage", "dropped: nothing\n"):
        with new_folder(IMAGE_OF_2, IMAGE_OF_3, LOG_OF_3, LOG_OF_4) as folder, new_folder() as other:
            inside = folder / "copies" / "of today"
            inside.mkdir(parents=True)
            (other / "link").symlink_to(inside)
            (other / "world").symlink_to(folder)
            for world, to in (
                (folder, inside), (folder, folder / "copies"), (folder, other / "link"), (other / "world", inside),
                (folder, f"{folder}/../{folder.name}/copies/"),
            ):
                got = trial.run(command, "--dir", str(world), "--to", str(to))
                why = f"fault 22\nworldd: {to}: it lies in the world's folder: choose one outside\n"
                trial.ends(f"{command} into its world", got, "", why, 1)
            trial.check(f"{command} into its world", (list(inside.iterdir()), files_of(folder)[0]), ([], IMAGE_OF_2))
            beside = other / "beside" / folder.name
            beside.mkdir(parents=True)
            got = trial.run(command, "--dir", str(folder), "--to", str(beside))
            trial.check(f"{command} beside its world", (got.output.endswith(last), got.errors, got.status), (True, "", 0))


def try_failed_copies(trial: Trial) -> None:
    """Copies whose files fail take them away again, so that the same command can be run again."""
    limit, why = 30, "the disk is full, or the file has reached a limit on its size"
    for command, failing in ("backup", "log.b"), ("salvage", "image.a"):
        with new_folder(IMAGE_OF_2, IMAGE_OF_3, LOG_OF_3, LOG_OF_4) as folder, new_folder() as to:
            line = command, "--dir", str(folder), "--to", str(to)
            got = trial.run(*line, longest=limit)
            trial.check(f"a failed {command}", (got.errors, got.status), (f"fault 18\nworldd: {to}/{failing}: {why}\n", 1))
            trial.check(f"a failed {command}", list(to.iterdir()), [])
            trial.check(f"{command} again", trial.run(*line).status, 0)
            trial.check(f"{command} over its copy", (trial.run(*line).status, len(list(to.iterdir()))), (1, 4))


# Damaged files, what `salvage` prints of each, the tick of the world it makes, and of which files something was dropped.
SALVAGED = (
    (
        (IMAGE_OF_2, IMAGE_OF_3, LOG_OF_3, LOG_OF_4),
        ("whole, tick 2", "whole, tick 3", "whole, 1 tick after tick 2", "whole, 1 tick after tick 3"), "4", "nothing",
    ),
    ((NEW_IMAGE, b"", b"\0", b"\0"), ("whole, tick 0", *("closed",) * 3), "0", "nothing"),
    ((NEW_IMAGE, b"", b"", b""), ("whole, tick 0", *("closed",) * 3), "0", "log.a, log.b"),
    ((NEW_IMAGE, b"", LOG_OF_GROUPS, b""), ("whole, tick 0", "closed", "whole, 3 ticks after tick 0", "closed"), "3", "log.b"),
    ((b"", IMAGE_OF_3, b"\0", LOG_OF_4), ("closed", "whole, tick 3", "closed", "whole, 1 tick after tick 3"), "4", "image.a"),
    (
        (IMAGE_OF_2, GARBAGE, b"\0", LOG_OF_4),
        (
            "whole, tick 2", "damaged, nothing is taken", "closed",
            "whole, 1 tick after tick 3, which is lost: nothing is taken",
        ), "2", "image.b, log.b",
    ),
    (
        (IMAGE_OF_2, b"\0", LOG_OF_3[:-1] + b"\1", BAD_LOG),
        ("whole, tick 2", "closed", "damaged from byte 27 on, 1 tick after tick 2", "damaged, nothing is taken"),
        "3", "log.a, log.b",
    ),
    ((GARBAGE, IMAGE_OF_3, b"", GARBAGE), ("damaged, nothing is taken", "whole, tick 3", "closed", "damaged, nothing is taken"),
     "3", "image.a, log.a, log.b"),
)


def try_salvaged(trial: Trial) -> None:
    """Worlds of damaged files: the last line names what was dropped, and the status says if anything was."""
    for files, parts, tick, dropped in SALVAGED:
        with new_folder(*files) as folder, new_folder() as to:
            lines = "".join(f"{name}: {part}\n" for name, part in zip(NAMES, parts))
            printed = f"{lines}salvaged {tick} from {tick}\ndropped: {dropped}\n"
            line, status = ("salvage", "--dir", str(folder), "--to", str(to)), 0 if dropped == "nothing" else 14
            trial.ends(f"salvage: {dropped}", trial.run(*line), printed, "", status)
            trial.check(f"salvage: {dropped}", files_of(folder), files)
            trial.ends("a salvaged world", trial.run("recover", "--dir", str(to)), f"recovered {tick} from {tick}\n", "", 0)
    with new_folder(IMAGE_OF_2, IMAGE_OF_3, LOG_OF_3, LOG_OF_4) as folder, new_folder() as to:
        (folder / "image.a").unlink()
        got = trial.run("salvage", "--dir", str(folder), "--to", str(to), "--statuses", "detailed")
        lost, last = f"image.a: lost: {NO_FILE}", "dropped: image.a"
        lines = got.output.splitlines()
        trial.check("salvage of a lost file", (lines[0], lines[-1], got.errors, got.status), (lost, last, "", 14))


def both(trial: Trial, folder: pathlib.Path, full: bool = False) -> tuple[Outcome, Outcome]:
    """`recover` and `inspect` of a folder."""
    return trial.run("recover", "--dir", str(folder), full=full), trial.run("inspect", "--dir", str(folder), full=full)


def check_found(trial: Trial, what: str, folder: pathlib.Path, recovered: str, lines: str) -> None:
    """Both end well, recover with this line, and inspect with these lines."""
    trial.check(what, both(trial, folder), (Outcome(recovered, "", 0), Outcome(lines, "", 0)))


def check_fault(trial: Trial, what: str, folder: pathlib.Path, fault: str, lines: str) -> None:
    """Both end with this fault, inspect after these lines."""
    trial.check(what, both(trial, folder), (Outcome("", fault, 1), Outcome(lines, fault, 1)))


def try_found(trial: Trial) -> None:
    """Folders in which a world stands."""
    with new_folder(IMAGE_OF_3, IMAGE_OF_2, LOG_OF_3, LOG_OF_4) as folder:
        lines = (
            "image.a: open, format 1, 2 cells, tick 3, 33 bytes\n"
            "image.b: open, format 2, 2 cells, tick 2, 33 bytes\n"
            "log.a: open, format 1, base 2, 1 group, 1 tick, 28 bytes\n"
            "log.b: open, format 2, base 3, 1 group, 1 tick, 32 bytes\n"
            "recovered 4 from 3 in image.a\n"
        )
        check_found(trial, "a world", folder, "recovered 4 from 3\n", lines)
        words = trial.run("inspect", "--words", "--dir", str(folder))
        trial.ends("the words of a world", words, f"{lines}3 9\n", "", 0)
        trial.check("nothing is written", files_of(folder), (IMAGE_OF_3, IMAGE_OF_2, LOG_OF_3, LOG_OF_4))
    with new_folder(b"", NEW_IMAGE, b"", b"\0") as folder:
        lines = (
            "image.a: closed, 0 bytes\n"
            "image.b: open, format 2, 2 cells, tick 0, 33 bytes\n"
            "log.a: closed, 0 bytes\n"
            "log.b: closed, 1 byte\n"
            "recovered 0 from 0 in image.b\n"
        )
        check_found(trial, "a world in image.b", folder, "recovered 0 from 0\n", lines)
    with new_folder(NEW_IMAGE, b"", LOG_OF_GROUPS, NEW_LOG_OF_3) as folder:
        lines = (
            "image.a: open, format 2, 2 cells, tick 0, 33 bytes\n"
            "image.b: closed, 0 bytes\n"
            "log.a: open, format 1, base 0, 2 groups, 3 ticks, 22 bytes\n"
            "log.b: open, format 1, base 3, 0 groups, 0 ticks, 10 bytes\n"
            "recovered 3 from 0 in image.a\n"
        )
        check_found(trial, "groups and ticks", folder, "recovered 3 from 0\n", lines)


# Files of which one was lost, as no crash leaves them: an empty one beside an image of tick 3, and a log that begins after the
# recovered tick. Of each the code by which it is refused, what is lost, and what recovery answers.
LOST = (
    ((b"", IMAGE_OF_3, LOG_OF_3, LOG_OF_4), 14, "image.a is empty, so it was lost", "4 from 3"),
    ((IMAGE_OF_3, b"", LOG_OF_3, LOG_OF_4), 14, "image.b is empty, so it was lost", "4 from 3"),
    ((IMAGE_OF_3, b"", b"", b""), 14, "image.b is empty, so it was lost", "3 from 3"),
    ((IMAGE_OF_3, IMAGE_OF_2, b"", LOG_OF_4), 15, "log.a is empty, so it was lost", "4 from 3"),
    ((IMAGE_OF_3, IMAGE_OF_2, LOG_OF_3, b""), 15, "log.b is empty, so it was lost", "3 from 3"),
    ((IMAGE_OF_2, b"\0", b"\0", LOG_OF_4), 15, "log.b begins after ticks that were lost", "2 from 2"),
    ((b"\0", IMAGE_OF_2, NEW_LOG_OF_3, b"\0"), 15, "log.a begins after ticks that were lost", "2 from 2"),
    ((NEW_IMAGE, b"", NEW_LOG, NEW_LOG_OF_3), 15, "log.b begins after ticks that were lost", "0 from 0"),
    # Closed as no crash leaves them.
    ((b"\7" + IMAGE_OF_2[1:], IMAGE_OF_3, LOG_OF_3, LOG_OF_4), 14, "image.a is closed as no crash leaves it", "4 from 3"),
    ((IMAGE_OF_3, IMAGE_OF_2[:16], LOG_OF_3, b"\7"), 14, "image.b is closed as no crash leaves it", "3 from 3"),
    ((IMAGE_OF_3, b"\0", b"\7", LOG_OF_4), 15, "log.a is closed as no crash leaves it", "4 from 3"),
    ((NEW_IMAGE, b"", LOG_OF_GROUPS, b"\2" + LOG_OF_4[1:]), 15, "log.b is closed as no crash leaves it", "3 from 0"),
    ((IMAGE_OF_3, b"\0", LOG_OF_4, LOG_OF_3[:9]), 15, "log.b is closed as no crash leaves it", "4 from 3"),
    ((IMAGE_OF_3, b"\0", bytes(20), b"\0" + LOG_OF_4[1:]), 15, "log.a is closed as no crash leaves it", "3 from 3"),
    ((IMAGE_OF_3, b"\0", b"\0" + NEW_LOG[1:9], LOG_OF_4), 15, "log.a is closed as no crash leaves it", "4 from 3"),
)
# Closed as a crash, a copy or a new world leaves them: nothing is noted.
WHOLE = (
    ((IMAGE_OF_3, b"\0", b"\0", b"\0"), "3 from 3"),
    ((bytes(20), IMAGE_OF_3, b"\0", b"\0"), "3 from 3"),
    ((IMAGE_OF_3, IMAGE_OF_2[:16].replace(b"\1", b"\0"), LOG_OF_4, bytes(20)), "4 from 3"),
    ((IMAGE_OF_3, b"\0" + IMAGE_OF_2[1:], LOG_OF_4, b"\7" + BAD_IMAGE), "4 from 3"),
    ((IMAGE_OF_3, b"\0", bytes(20), NEW_LOG_OF_3), "3 from 3"),
    ((NEW_IMAGE, b"\7", LOG_OF_GROUPS, b"\7"), "3 from 0"),
    ((NEW_IMAGE, b"", LOG_OF_GROUPS, b"\7" + NEW_LOG_OF_3[1:]), "3 from 0"),
    ((NEW_IMAGE, CUT_IMAGE[:9], b"\7", b"\7" + LOG_OF_4[1:]), "0 from 0"),
)
# Refused with 15 by the flag, and not noted without it: an empty log beside an image of tick 0, of which ticks were recovered.
LOST_EARLY = (
    ((NEW_IMAGE, b"", LOG_OF_GROUPS, b""), "log.b is empty, so it was lost", "3 from 0"),
    ((NEW_IMAGE, b"", b"", LOG_OF_GROUPS), "log.a is empty, so it was lost", "3 from 0"),
)
DAMAGED = {14: "an image file is damaged", 15: "a log file is damaged"}
REFUSE = "--refuse-losses"


def serve_once(trial: Trial, folder: pathlib.Path, *more: str) -> tuple[str, str]:
    """What a server prints first, and what it notes of empty or lost files, by the end of its one batch."""
    line = f"serve --dir {folder} --method zigzag --port 0 --clients 1".split()
    with subprocess.Popen([trial.program, *line, *more], stdout=subprocess.PIPE, stderr=subprocess.PIPE, text=True) as server:
        first, listening = begun(server)
        trial.check(f"serve {more}", answer_to(connect(listening.split()[-1]), b"end\n")[:5], "tick ")
        _, errors = server.communicate(timeout=SECONDS)
    trial.runs += 1
    return first, "".join(line for line in errors.splitlines(True) if re.search(" empty| lost| closed as ", line))


def try_lost(trial: Trial) -> None:
    """Files of which one was lost: each command answers as recovery does and names it, or refuses it if that is asked for."""
    for files, code, why, answer in LOST:
        try_loss(trial, files, code, why, answer, f"worldd: {why}\n")
    for files, why, answer in LOST_EARLY:
        try_loss(trial, files, 15, why, answer, "")
    for files, answer in WHOLE:
        with new_folder(*files) as folder:
            trial.ends(f"recover {files}", trial.run("recover", REFUSE, "--dir", str(folder)), f"recovered {answer}\n", "", 0)
            trial.check(f"serve {files}", serve_once(trial, folder, REFUSE), (f"recovered {answer}\n", ""))
            trial.seen["served beside a closed file"] += 1


def try_loss(trial: Trial, files: tuple[bytes, ...], code: int, why: str, answer: str, note: str) -> None:
    """Files that are refused by the flag, and what is noted of them without it."""
    fault, serve = f"fault {code}\nworldd: {DAMAGED[code]}: {why}\n", ("--method", "zigzag", "--port", "0", "--clients", "1")
    with new_folder(*files) as folder, new_folder() as to:
        for line in (("recover",), ("status",), ("serve", *serve), ("backup", "--to", str(to))):
            printed = NO_SERVER if line == ("status",) else ""
            trial.ends(f"{line[0]} refused: {why}", trial.run(*line, REFUSE, "--dir", str(folder)), printed, fault, 1)
        got = trial.run("inspect", REFUSE, "--dir", str(folder))
        trial.check(f"inspect refused: {why}", (got.output.count("\n"), got.errors, got.status), (4, fault, 1))
        trial.check(why, (files_of(folder), list(to.iterdir())), (files, []))
        trial.ends(f"recover: {why}", trial.run("recover", "--dir", str(folder)), f"recovered {answer}\n", note, 0)
        copy = trial.run("backup", "--to", str(to), "--dir", str(folder))
        trial.ends(f"backup: {why}", copy, f"backed up {answer}\n", note, 0)
        for command, place in (("status", 0), ("inspect", 4)):
            got = trial.run(command, "--dir", str(folder))
            line = got.output.splitlines()[place].partition(" in ")[0]
            trial.check(f"{command}: {why}", (line, got.errors, got.status), (f"recovered {answer}", note, 0))
        trial.check(why, files_of(folder), files)
        trial.check(f"serve: {why}", serve_once(trial, folder), (f"recovered {answer}\n", note))
        trial.seen["served beside a lost file"] += 1


def doubtful(name: str) -> str:
    """The note on a log that may have been lost."""
    return f"worldd: {name} is empty: if this world was played, its ticks are lost\n"


def try_doubtful(trial: Trial) -> None:
    """Worlds at tick 0 of which a log may have been lost: they are read and served. If losses are refused, the log is named,
    and the status of a command says so."""
    for logs, note in (
        ((b"", b""), doubtful("log.a")),
        ((b"", b"\0"), doubtful("log.a")),
        ((NEW_LOG, b""), doubtful("log.b")),
        ((NEW_LOG, b"\0"), ""),
        ((b"\0", b"\0"), ""),
    ):
        for more, named in (((), ""), ((REFUSE,), note)):
            with new_folder(NEW_IMAGE, b"", *logs) as folder, new_folder() as to:
                recovered, status = "recovered 0 from 0\n", 14 if named else 0
                on = *more, "--dir", str(folder)
                trial.ends(f"recover beside {logs}", trial.run("recover", *on), recovered, named, status)
                copied = trial.run("backup", *on, "--to", str(to))
                trial.ends(f"backup beside {logs}", copied, "backed up 0 from 0\n", named, status)
                for command in "inspect", "status":
                    got = trial.run(command, *on, "--statuses", "detailed")
                    trial.check(f"{command} beside {logs}", (got.errors, got.status), (named, status))
                trial.check(f"serve beside {logs}", serve_once(trial, folder, *more), (recovered, named))
                trial.seen["served beside an empty log" if named else "served"] += 1


def try_long(trial: Trial) -> None:
    """Files with bytes that no format reads, more than there is memory for: they aren't read."""
    limit = 256 << 20
    files = IMAGE_OF_3, IMAGE_OF_2, LOG_OF_3, LOG_OF_4
    with new_folder(*files) as folder, new_folder() as to:
        for name in NAMES:
            os.truncate(folder / name, 3 << 30)
        trial.ends("long files", trial.run("recover", "--dir", str(folder), memory=limit), "recovered 4 from 3\n", "", 0)
        got = trial.run("status", "--dir", str(folder), memory=limit)
        sizes = ", ".join(f"{name} {3 << 30}" for name in NAMES)
        trial.check("figures of long files", got.output.splitlines()[-2], f"bytes: {sizes}, together {12 << 30}")
        got = trial.run("backup", "--dir", str(folder), "--to", str(to), memory=limit)
        trial.ends("a copy of long files", got, "backed up 4 from 3\n", "", 0)
        trial.check("a copy of long files", files_of(to), (IMAGE_OF_3, b"\0", LOG_OF_3, LOG_OF_4))
        got = trial.run("inspect", "--dir", str(folder), memory=limit)
        trial.check("long files", (got.output.splitlines()[-1], got.status), ("recovered 4 from 3 in image.a", 0))
    for closed, flag in itertools.product((b"", b"\7" * 20), ("--cells", "--words")):
        try_long_closed(trial, closed, flag, limit)


def try_long_closed(trial: Trial, closed: bytes, flag: str, limit: int) -> None:
    """Worlds that are to be made over files that begin so, and are longer than there is memory for."""
    what = f"create {flag} over long files of {closed!r}"
    with new_folder(closed, closed, closed, LOG_OF_3) as folder:
        words = folder / "words"
        words.write_text("0 0\n")
        for name in NAMES:
            os.truncate(folder / name, 3 << 30)
        command = "create", "--dir", str(folder), flag, "2" if flag == "--cells" else str(words)
        got = trial.run(*command, memory=limit)
        trial.ends(f"{what} and an open one", got, "", fault_of(folder, 22, "log.b", HOLDS_A_WORLD), 1)
        (folder / "log.b").write_bytes(closed)
        os.truncate(folder / "log.b", 3 << 30)
        trial.ends(what, trial.run(*command, memory=limit), "created 2\n", "", 0)
        trial.check(what, [(folder / name).stat().st_size for name in NAMES], [3 << 30] * 4)
        with (folder / "image.a").open("rb") as file:
            trial.check(what, file.read(len(NEW_IMAGE)), NEW_IMAGE)
        got = trial.run("recover", "--dir", str(folder), memory=limit)
        trial.ends(f"{what}, then recover", got, "recovered 0 from 0\n", "", 0)


def try_missing(trial: Trial) -> None:
    """Folders in which a file is missing, or isn't one."""
    unreadable = "".join(f"{name}: unreadable: {NO_FILE}\n" for name in NAMES)
    rest = "image.a: open, format 2, 2 cells, tick 0, 33 bytes\nimage.b: closed, 0 bytes\nlog.a: closed, 0 bytes\n"
    with new_folder() as folder:
        none = fault_of(folder, 18, "image.a", NO_FILE)
        check_fault(trial, "an empty folder", folder, none, unreadable)
        (folder / "notes").write_bytes(b"of another program")
        check_fault(trial, "a folder of another program", folder, none, unreadable)
        put(folder, NEW_IMAGE, b"", b"")
        one = fault_of(folder, 18, "log.b", NO_FILE)
        check_fault(trial, "log.b is missing", folder, one, f"{rest}log.b: unreadable: {NO_FILE}\n")
        (folder / "log.b").mkdir()
        other = fault_of(folder, 18, "log.b", NOT_A_FILE)
        check_fault(trial, "a folder log.b", folder, other, f"{rest}log.b: unreadable: {NOT_A_FILE}\n")
        gone = trial.run("recover", "--dir", str(folder / "gone"))
        trial.check("no folder", (gone.errors[:17], gone.status), ("fault 18\nworldd: ", 1))
    with new_folder(NEW_IMAGE, b"", NEW_LOG, b"\0") as folder:
        closed = both(trial, folder, full=True)
        trial.check("a full output", closed, (Outcome("", FULL, 1),) * 2)


def try_damaged(trial: Trial) -> None:
    """Folders in which files are damaged: each is named."""
    new = "open, format 2, 2 cells, tick 0, 33 bytes"
    closed, damaged = "closed, 0 bytes", "damaged, 20 bytes"
    for files, lines, fault in (
        ((b"", b"", b"", b""), (closed,) * 4, "13\nworldd: there is no image to recover from"),
        ((GARBAGE, NEW_IMAGE, b"", b""), (damaged, new, closed, closed), "14\nworldd: an image file is damaged: image.a"),
        ((NEW_IMAGE, b"", b"", GARBAGE), (new, closed, closed, damaged), "15\nworldd: a log file is damaged: log.b"),
        ((GARBAGE,) * 4, (damaged,) * 4, "14\nworldd: an image file is damaged: image.a and image.b"),
    ):
        with new_folder(*files) as folder:
            printed = "".join(f"{name}: {line}\n" for name, line in zip(NAMES, lines))
            check_fault(trial, f"fault {fault}", folder, f"fault {fault}\n", printed)
    for files, fault in (
        ((b"", b"", b"", b""), "13\nworldd: there is no image to recover from"),
        ((BAD_IMAGE, SMALL_IMAGE, b"", b""), "14\nworldd: an image file is damaged: image.a"),
        ((SMALL_IMAGE, BAD_IMAGE, BAD_LOG, b""), "14\nworldd: an image file is damaged: image.b"),
        ((BAD_IMAGE, BAD_IMAGE, b"", b""), "14\nworldd: an image file is damaged: image.a and image.b"),
        ((SMALL_IMAGE, b"", BAD_LOG, b""), "15\nworldd: a log file is damaged: log.a"),
        ((SMALL_IMAGE, b"", TAKING_LOG, BAD_LOG), "15\nworldd: a log file is damaged: log.b"),
        ((b"", b"", BAD_LOG, BAD_LOG), "15\nworldd: a log file is damaged: log.a and log.b"),
        ((b"", SMALL_IMAGE, TAKING_LOG, b""), "15\nworldd: a log file is damaged: an action of the log is refused in replay"),
    ):
        with new_folder(*files) as folder:
            got = trial.run("recover", "--dir", str(folder))
            trial.ends(f"fault {fault}", got, "", f"fault {fault}\n", 1)


def try_not_serving(trial: Trial) -> None:
    """Worlds that aren't served: the reason is printed, and no file is made."""

    def refused(what: str, folder: pathlib.Path, fault: str) -> None:
        for method in METHODS:
            line = f"serve --dir {folder} --method {method} --port 0 --clients 1".split()
            trial.ends(f"{what}, {method}", trial.run(*line), "", fault, 1)

    for missing in NAMES:
        with new_folder(NEW_IMAGE, b"", b"", b"") as folder:
            (folder / missing).unlink()
            refused(f"{missing} is missing", folder, fault_of(folder, 18, missing, NO_FILE))
            trial.check(f"{missing} is missing", (folder / missing).exists(), False)
    with new_folder(NEW_IMAGE, b"", b"", b"") as folder, open(folder / "image.a", "r+b") as held:
        fcntl.flock(held, fcntl.LOCK_EX | fcntl.LOCK_NB)
        refused("a held world", folder, fault_of(folder, 18, "image.a", HELD))
    for files, fault in (
        ((b"", b"", b"", b""), "13\nworldd: there is no image to recover from"),
        ((b"", GARBAGE, b"", b""), "14\nworldd: an image file is damaged: image.b"),
        ((NEW_IMAGE, b"", GARBAGE, b""), "15\nworldd: a log file is damaged: log.a"),
    ):
        with new_folder(*files) as folder:
            refused(f"fault {fault}", folder, f"fault {fault}\n")


# A server without `--every` prints it once its world is open.
MANY_IMAGES = "worldd: an image every 64 ticks can halve the speed: give --every, for example 4096"


def serve_two(trial: Trial, folder: pathlib.Path, method: str, transport: str, more: tuple[str, ...]) -> None:
    """Serves a world to two clients, and compares answers and output."""
    address = str(folder / "socket") if transport == SOCKET else str(free_port())
    line = f"serve --dir {folder} --method {method} --{transport} {address} --clients 2".split()
    with subprocess.Popen([trial.program, *line, *more], stdout=subprocess.PIPE, stderr=subprocess.PIPE, text=True) as server:
        trial.check(f"serve {more}", begun(server), ["recovered 0 from 0\n", f"listening {address}\n"])
        batch = b"set 0 5\nget 0\nmove 0 1 9\nfoo\nend\n"
        second, answer = (b"add 0 1\nget 0\nend\n", "tick 2: + =6\n") if more else (batch, "tick 2: + =5 -3 -16\n")
        answers = answer_to(connect(address), batch), answer_to(connect(address), second)
        trial.check(f"answers {more}", answers, ("tick 1: + =5 -3 -16\n", answer))
        output, errors = server.communicate(timeout=SECONDS)
    trial.runs += 1
    trial.seen["served"] += 1
    trial.check(f"the end of serve {more}", (output, server.returncode), ("stopped tick 2 acked 2\n", 0))
    trial.check(f"what images cost {more}", errors.splitlines().count(MANY_IMAGES), 0 if more else 1)


def try_serving(trial: Trial) -> None:
    """Worlds that are served: by each method and transport, with an image after each tick, and after as many as by default."""
    for method, transport in itertools.product(METHODS, TRANSPORTS):
        with new_folder(NEW_IMAGE, b"", b"", b"") as folder:
            serve_two(trial, folder, method, transport, ())
            trial.ends("no image", trial.run("recover", "--dir", str(folder)), "recovered 2 from 0\n", "", 0)
        with new_folder(NEW_IMAGE, b"", b"", b"") as folder:
            serve_two(trial, folder, method, transport, ("--every", "1"))
            recovered = trial.run("recover", "--dir", str(folder))
            trial.check("an image", recovered.output in ("recovered 2 from 1\n", "recovered 2 from 2\n"), True)


def try_largest(trial: Trial) -> None:
    """The largest world, with a log of many actions: it is made, served, recovered, and served again."""
    last = 1_048_575
    batch = "".join(f"add {cell} 1\n" for cell in range(last - 254, last + 1)) + f"get {last}\nend\n"
    with new_folder() as folder:
        trial.ends("the largest world", create(trial, folder, last + 1), f"created {last + 1}\n", "", 0)
        port = str(free_port())
        line = f"serve --dir {folder} --method zigzag --every 65536 --port {port} --clients 1".split()
        for first in (0, LARGEST_TICKS):
            with subprocess.Popen([trial.program, *line], stdout=subprocess.PIPE, stderr=subprocess.DEVNULL, text=True) as server:
                lines = begun(server)
                trial.check("the largest world", lines, [f"recovered {first} from 0\n", f"listening {port}\n"])
                answers = answer_to(connect(port), batch.encode() * LARGEST_TICKS) if lines[1] else ""
                want = [f"tick {n}:{' +' * 255} ={n}" for n in range(first + 1, first + LARGEST_TICKS + 1)]
                trial.check("answers of the largest world", answers.splitlines() == want, True)
                output, _ = server.communicate(timeout=SECONDS)
            ended = first + LARGEST_TICKS
            trial.check("the end of the largest world", (output, server.returncode), (f"stopped tick {ended} acked {ended}\n", 0))
        trial.runs += 2
    trial.seen["served"] += 1


@contextlib.contextmanager
def reporting(trial: Trial, *flags: str, **process: Any) -> Iterator[tuple[str, pathlib.Path]]:
    """A server that prints its figures each second: its address, and the file of what it prints."""
    with new_folder(NEW_IMAGE, b"", b"", b"") as folder, open(folder / "errors", "w") as errors:
        line = f"serve --dir {folder} --method zigzag --port 0 --report 1".split()
        command = [trial.program, *line, *flags]
        with subprocess.Popen(command, stdout=subprocess.PIPE, stderr=errors, text=True, **process) as server:
            yield begun(server)[1].split()[-1], folder / "errors"
            server.communicate(timeout=SECONDS)
        trial.runs += 1


def last_report(errors: pathlib.Path, want: str) -> str:
    """The last figures in this file, once they are these, or after a while."""
    until = time.monotonic() + PATIENCE_SECONDS
    while True:
        reports = [line for line in errors.read_text().splitlines() if " acked " in line]
        if reports[-1:] == [want] or time.monotonic() > until:
            return "".join(reports[-1:])
        time.sleep(0.1)


def try_lasting(trial: Trial, client: socket.socket, errors: pathlib.Path) -> None:
    """Plays until figures say for how many seconds the room lasts: at as many ticks as have ended since the figures before."""
    figure = re.compile(r"worldd: tick (\d+) .* room (\d+)(?: lasts (\d+))?\n")
    until = time.monotonic() + PATIENCE_SECONDS
    with client.makefile() as reader:
        while " lasts " not in errors.read_text() and time.monotonic() < until:
            client.sendall(b"end\n")
            reader.readline()
    before, last = figure.findall(errors.read_text())[-2:]
    ticks = int(last[0]) - int(before[0])
    trial.check("how long the room lasts", last[2], str(int(last[1]) // ticks) if ticks else "")


def try_reporting(trial: Trial) -> None:
    """Figures that a server prints: the last answered tick, its newest image, its clients and what waits."""
    with reporting(trial, "--clients", "2", "--every", "3") as (address, errors):
        trial.check("a first client", answer_to(connect(address), b"end\nend\nend\n"), "tick 1:\ntick 2:\ntick 3:\n")
        with connect(address) as client, client.makefile() as reader:
            client.sendall(b"end\n")
            trial.check("a second client", reader.readline(), "tick 4:\n")
            want = "worldd: tick 4 acked 4 image 3 sessions 1 batches/s 0 waiting 0 room 65535"
            trial.check("reports", last_report(errors, want), want)
            try_lasting(trial, client, errors)
    trial.seen["served"] += 1


def try_reporting_down(trial: Trial) -> None:
    """The same once the log is down: the tick that ended last was not acknowledged."""
    limit = functools.partial(resource.setrlimit, resource.RLIMIT_FSIZE, (FILE_LIMIT, FILE_LIMIT))
    with reporting(trial, "--clients", "1", "--every", "65536", preexec_fn=limit) as (address, errors):
        with connect(address) as client, client.makefile() as reader:
            answers: list[str] = []
            while not answers or answers[-1].startswith("tick"):
                client.sendall(b"add 0 1\nend\n")
                answers.append(reader.readline())
            ended = len(answers)
            want = f"worldd: tick {ended} acked {ended - 1} image 0 sessions 1 batches/s 0 waiting 0 room {65_536 - ended}"
            trial.check("reports", last_report(errors, want), want)
    trial.check("the log's end", answers[-1], "fault 12\n")
    trial.seen["reported with its log down"] += 1


PARTS = (
    try_command_lines, try_scripts, try_creating, try_completing, try_not_creating, try_words, try_larger, try_found,
    try_figures, try_copies, try_salvaged, try_lost, try_doubtful, try_long, try_missing, try_damaged, try_not_serving,
    try_serving, try_largest, try_reporting, try_reporting_down,
)


# What has to be seen.
SEEN = (
    "status 0", "status 2", "status 14", *(f"status 1, fault {code}" for code in (13, 14, 15, 16, 18, 22)),
    "served", "served beside an empty log", "served beside a lost file", "served beside a closed file",
    "reported with its log down",
)


def main() -> int:
    """Runs all, and prints what was seen."""
    parser = argparse.ArgumentParser(description=__doc__.splitlines()[0])
    parser.add_argument("program", type=absolute, help="the built worldd")
    parser.add_argument("--only", metavar="PART", help="the one part to try, by the name of its function")
    given = parser.parse_args()
    trial = Trial(given.program)
    for part in PARTS:
        if given.only in (None, part.__name__):
            part(trial)
    if given.only:
        return 1 if trial.wrong or not trial.runs else 0
    for kind, count in sorted(trial.seen.items()):
        print(f"  {kind}: {count}")
    return trial.status("program", SEEN)


if __name__ == "__main__":
    sys.exit(main())
