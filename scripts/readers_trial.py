#!/usr/bin/env python3
"""Runs worldd on worlds that it may only read: on read-only file systems, and on files of other users.

    scripts/readers_trial.py crates/worldd/out/worldd

`recover`, `inspect`, `status`, `backup` and `salvage` must print what they print of the same world in a folder that can be
written, and copy the same bytes. Commands that write there must be refused with the system's own reason, and no file may change.
The file systems are mounted in a separate mount namespace: as root, or as a user by a user namespace. A file system that
can't be made here is named in one line, and isn't tried.
"""
import collections
import contextlib
import os
import pathlib
import re
import shutil
import signal
import subprocess
import sys
import tempfile
from collections.abc import Iterator
from typing import Any

from surroundings_trial import OWNER, STRANGER, Client, Server, is_root
from trial import Words, all_met, as_user, parser_of, status_of, want

TICKS, SECONDS = 30, 30
READS = ("recover",), ("inspect",), ("inspect", "--words"), ("status",)
COPIES = "backup", "salvage"
# What has to be met in each way: each command that reads did its work, and more.
DONE = *dict.fromkeys(words[0] for words in READS), *COPIES
MET = *DONE, "refused alike", "serve refused", "create refused", "copies to it refused"
WORLDS, EMPTY, SERVED = ("played", "new", "damaged", "lost"), "empty", "served"
READ_ONLY, DENIED = "Read-only file system (os error 30)", "Permission denied (os error 13)"
MEBIBYTES = 16
NO_HEADER = b"\1" + b"\xff" * 16
# Ways in which a user may read files and not write them.
ANOTHERS, ITS_OWN = "files of another user", "files of its own with mode 0444"
# The argument of a run in a namespace.
INSIDE = "--inside"

Outcome = collections.namedtuple("Outcome", "status output errors copied")


class Lacking(Exception):
    """Why a file system can't be made here."""


def make(*command: object) -> None:
    """Runs a command that makes a part of a file system."""
    try:
        run = subprocess.run([str(word) for word in command], capture_output=True, text=True)
    except FileNotFoundError:
        raise Lacking(f"there is no {command[0]}") from None
    if run.returncode:
        raise Lacking(" ".join(run.stderr.split()))


@contextlib.contextmanager
def unmounted(place: pathlib.Path) -> Iterator[None]:
    """Unmounts what was mounted at a place."""
    try:
        yield
    finally:
        subprocess.run(["umount", place], check=True)


@contextlib.contextmanager
def bound(source: pathlib.Path, place: pathlib.Path) -> Iterator[None]:
    """The folder itself, mounted again, and read-only there."""
    make("mount", "--bind", source, place)
    with unmounted(place):
        make("mount", "-o", "remount,bind,ro", place)
        yield


@contextlib.contextmanager
def in_memory(source: pathlib.Path, place: pathlib.Path) -> Iterator[None]:
    """A file system in memory, which is read-only once it is filled."""
    make("mount", "-t", "tmpfs", "tmpfs", place)
    with unmounted(place):
        shutil.copytree(source, place, dirs_exist_ok=True)
        make("mount", "-o", "remount,ro", place)
        yield


@contextlib.contextmanager
def filled(source: pathlib.Path, place: pathlib.Path) -> Iterator[pathlib.Path]:
    """A file with an ext4 that is mounted and filled."""
    file = place.with_suffix(".ext4")
    file.touch()
    os.truncate(file, MEBIBYTES << 20)
    make("mkfs.ext4", "-q", file)
    make("mount", "-o", "loop,errors=remount-ro", file, place)
    with unmounted(place):
        shutil.copytree(source, place, dirs_exist_ok=True)
        os.sync()
        yield file


@contextlib.contextmanager
def remounted(source: pathlib.Path, place: pathlib.Path) -> Iterator[None]:
    """An ext4 that becomes read-only once it is filled."""
    with filled(source, place):
        make("mount", "-o", "remount,ro", place)
        yield


@contextlib.contextmanager
def stopped(source: pathlib.Path, place: pathlib.Path) -> Iterator[None]:
    """An ext4 that made itself read-only by an error, as after a device that failed. A sync is refused there."""
    with filled(source, place) as file:
        make("mount", "-t", "sysfs", "sysfs", place.with_suffix(".sys"))
        with unmounted(place.with_suffix(".sys")):
            find: Words = ["losetup", "--noheadings", "--output", "NAME", "--associated", file]
            loop = pathlib.Path(subprocess.run(find, capture_output=True, text=True).stdout.strip()).name
            (place.with_suffix(".sys") / "fs/ext4" / loop / "trigger_fs_error").write_text("1")
        yield


@contextlib.contextmanager
def mounted(source: pathlib.Path, place: pathlib.Path) -> Iterator[None]:
    """An ext4 that is mounted read-only."""
    with filled(source, place) as file:
        pass
    make("mount", "-o", "loop,ro", file, place)
    with unmounted(place):
        yield


def packed(source: pathlib.Path, place: pathlib.Path) -> pathlib.Path:
    """A file with a squashfs."""
    file = place.with_suffix(".squashfs")
    make("mksquashfs", source, file, "-quiet", "-no-progress")
    return file


@contextlib.contextmanager
def squashed(source: pathlib.Path, place: pathlib.Path) -> Iterator[None]:
    """A squashfs of the system."""
    make("mount", "-t", "squashfs", "-o", "loop", packed(source, place), place)
    with unmounted(place):
        yield


@contextlib.contextmanager
def squashed_by_fuse(source: pathlib.Path, place: pathlib.Path) -> Iterator[None]:
    """A squashfs by a program."""
    make("squashfuse", packed(source, place), place)
    with unmounted(place):
        yield


WAYS = {
    "a folder bound read-only": bound, "a tmpfs remounted read-only": in_memory, "an ext4 remounted read-only": remounted,
    "an ext4 mounted read-only": mounted, "an ext4 stopped by an error": stopped, "a squashfs": squashed,
    "a squashfs by FUSE": squashed_by_fuse,
}


class Trial:
    """Worlds in a folder, and what was met in each way in which they can only be read."""

    def __init__(self, worldd: str, room: pathlib.Path) -> None:
        self.room, self.worlds, self.worldd = room, room / "worlds", room / "worldd"
        shutil.copy(worldd, self.worldd)
        self.worldd.chmod(0o755)
        room.chmod(0o755)
        self.as_user: dict[str, Any] = {}
        self.met: dict[str, collections.Counter[str]] = {}
        self.copies = 0

    def run(self, *words: object) -> Outcome:
        """Runs a command to its end, as the user whose turn it is."""
        command = [str(word) for word in (self.worldd, *words)]
        run = subprocess.run(command, stdin=subprocess.DEVNULL, capture_output=True, text=True, timeout=SECONDS, **self.as_user)
        return Outcome(run.returncode, run.stdout, run.stderr, None)

    def make_worlds(self) -> None:
        """A world that was played, a new one, one whose newest log is damaged, one that lost a file, and an empty folder."""
        self.worlds.mkdir()
        (self.worlds / EMPTY).mkdir()
        server = Server(str(self.worldd), self.worlds / "played", "--every", "8", path=self.room / "socket")
        try:
            played(server.client(), TICKS)
        finally:
            server.kill()
        printed = self.run("inspect", "--dir", self.worlds / "played").output
        newest = max((int(base), name) for name, base in re.findall(r"(log\..): open, format 2, base (\d+),", printed))[1]
        for name in ("new", SERVED):
            (self.worlds / name).mkdir()
            want(self.run("create", "--dir", self.worlds / name, "--cells", 10).status == 0, "a new world isn't made")
        for name in ("damaged", "lost"):
            shutil.copytree(self.worlds / "played", self.worlds / name)
        with (self.worlds / "damaged" / newest).open("r+b") as log:
            log.write(NO_HEADER)
        (self.worlds / "lost" / "log.b").unlink()

    def looks(self, world: pathlib.Path) -> dict[str, Outcome]:
        """What each command that only reads makes of a world."""
        found = {" ".join(words): self.run(*words, "--dir", world) for words in READS}
        for command in COPIES:
            to = self.new_folder()
            outcome = self.run(command, "--dir", world, "--to", to)
            copied = {file.name: file.read_bytes() for file in to.iterdir()}
            found[command] = without_path(outcome._replace(copied=copied), to)
        return {name: without_path(outcome, world) for name, outcome in found.items()}

    def new_folder(self) -> pathlib.Path:
        """An empty folder in which the user whose turn it is may write."""
        self.copies += 1
        folder = self.room / f"copy{self.copies}"
        folder.mkdir()
        if self.as_user:
            os.chown(folder, self.as_user["user"], self.as_user["group"])
        return folder

    def only_read(self, way: str, place: pathlib.Path, reason: str) -> None:
        """The worlds at a place, which can only be read there for this reason, beside those that can be written."""
        met = self.met.setdefault(way, collections.Counter())
        before = contents(place)
        want(before == contents(self.worlds), f"{way} has other files")
        for name in WORLDS:
            for command, outcome in self.looks(place / name).items():
                wanted = self.wanted[name][command]
                want(outcome == wanted, f"{command} of the {name} world on {way}: {outcome}, and not {wanted}")
                met[command.split()[0] if outcome.status == 0 else "refused alike"] += 1
        self.writes(way, place, reason)
        want(contents(place) == before == contents(self.worlds), f"{way}: a file was changed")

    def writes(self, way: str, place: pathlib.Path, reason: str) -> None:
        """Commands that write there are refused with the reason."""
        words = self.room / "words"
        words.write_text("1 2 3\n")
        words.chmod(0o644)
        serve = "serve", "--method", "zigzag", "--port", 0, "--clients", 1
        zeros, listed = ("create", "--cells", 2), ("create", "--words", words)
        for command, folder in ((serve, "played"), (serve, "new"), (zeros, EMPTY), (listed, EMPTY), (zeros, "new")):
            outcome = self.run(*command, "--dir", place / folder)
            wanted = Outcome(1, "", f"fault 18\nworldd: {place / folder}/image.a: {reason}\n", None)
            want(outcome == wanted, f"{command[0]} on {way}: {outcome}")
            self.met[way][f"{command[0]} refused"] += 1
        for copying, world in (("backup", "played"), ("salvage", "damaged")):
            outcome = self.run(copying, "--dir", place / world, "--to", place / EMPTY)
            form = rf"fault 18\nworldd: {re.escape(str(place / EMPTY))}/(image|log)\.[ab]: {re.escape(reason)}\n"
            want(outcome.status == 1 and bool(re.fullmatch(form, outcome.errors)), f"{copying} to {way}: {outcome}")
            self.met[way]["copies to it refused"] += 1

    def served(self, way: str, place: pathlib.Path) -> None:
        """A world that is served, and can only be read at a place: each look has every answered tick."""
        server = Server(str(self.worldd), self.worlds / SERVED, "--every", "8", path=self.room / "socket")
        client = server.client()
        try:
            for ticks in range(TICKS, 4 * TICKS, TICKS):
                played(client, TICKS, ticks - TICKS)
                for command, outcome in self.looks(place / SERVED).items():
                    if command != "salvage":
                        match = re.search(rf"^(recovered|backed up) {ticks} from ", outcome.output, re.MULTILINE)
                        want(bool(match), f"{command} of a served world on {way}, after tick {ticks}: {outcome}")
                        self.met[way]["looks at a served world"] += 1
        finally:
            client.leave()
            server.kill()

    def file_systems(self) -> None:
        """Each read-only file system that can be made here."""
        for number, (way, of) in enumerate(WAYS.items()):
            place = self.room / f"place{number}"
            place.mkdir()
            place.with_suffix(".sys").mkdir()
            try:
                with of(self.worlds, place):
                    self.only_read(way, place, READ_ONLY)
                    if of is bound:
                        self.served(way, place)
            except Lacking as lacking:
                print(f"readers: not tried: {way}: {lacking}")

    def users(self) -> None:
        """Users who may read the files and not write them. Only root can try another user than its own."""
        users = {ANOTHERS: STRANGER, ITS_OWN: OWNER} if is_root() else {ITS_OWN: 0}
        place = self.room / "read"
        shutil.copytree(self.worlds, place)
        for path in (place, *place.rglob("*")):
            path.chmod(0o555 if path.is_dir() else 0o444)
            if is_root():
                os.chown(path, OWNER, OWNER)
        for way, user in users.items():
            self.as_user = as_user(user) if user else {}
            self.only_read(way, place, DENIED)
            if user == STRANGER:
                for path in (self.worlds / SERVED).iterdir():
                    path.chmod(0o644)
                self.served(way, self.worlds)
        self.as_user = {}
        for path in (place, *place.rglob("*")):
            path.chmod(0o755)

    def all(self, is_inside: bool) -> None:
        """What can be tried in a namespace, or outside of one."""
        self.make_worlds()
        self.wanted = {name: self.looks(self.worlds / name) for name in WORLDS}
        line = self.wanted["played"]["recover"].output
        want(line.startswith(f"recovered {TICKS} from "), f"the world of {TICKS} ticks is another: {line}")
        if is_inside:
            self.file_systems()
        else:
            self.users()
        for way, met in self.met.items():
            print(f"readers: {way}: {', '.join(f'{name} {count}' for name, count in met.items())}")
            all_met(met, MET, f"{way}: ")


def played(client: Client, ticks: int, before: int = 0) -> None:
    """Plays so many ticks."""
    for tick in range(before + 1, before + ticks + 1):
        want(client.play(b"add %d 3\n" % (tick % 10)).startswith(b"tick %d:" % tick), f"tick {tick} wasn't answered")


def without_path(outcome: Outcome, folder: pathlib.Path) -> Outcome:
    """What was printed, whatever the path of a folder is."""
    output, errors = (text.replace(str(folder), "D") for text in (outcome.output, outcome.errors))
    return outcome._replace(output=output, errors=errors)


def contents(place: pathlib.Path) -> dict[str, bytes]:
    """All files of the worlds that aren't served, with their bytes."""
    files = (path for name in (*WORLDS, EMPTY) for path in (place / name).iterdir())
    return {str(path.relative_to(place)): path.read_bytes() for path in files}


def main() -> int:
    """Runs it outside of a namespace, and then in one."""
    parser = parser_of(__doc__)
    parser.add_argument(INSIDE, action="store_true", help="only the file systems, which are mounted in this namespace")
    given = parser.parse_args()
    os.environ["PATH"] += ":/usr/sbin:/sbin"
    signal.signal(signal.SIGPIPE, signal.SIG_IGN)
    with tempfile.TemporaryDirectory(prefix="readers") as room:
        status = status_of("readers", lambda: Trial(given.worldd, pathlib.Path(room)).all(given.inside))
    if given.inside or status:
        return status
    inside = ["unshare", "--mount", *["--map-root-user"] * (not is_root())]
    if subprocess.run([*inside, "true"], capture_output=True).returncode:
        print("readers: not tried: file systems, since there is no mount namespace here")
        return 0
    sys.stdout.flush()
    return subprocess.run([*inside, sys.executable, __file__, given.worldd, INSIDE]).returncode


if __name__ == "__main__":
    sys.exit(main())
