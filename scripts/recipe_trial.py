#!/usr/bin/env python3
"""Runs recipes of docs/OPERATIONS.md word by word, as root and as the user of a world.

    scripts/recipe_trial.py crates/worldd/out/worldd

The manual makes a user and a world, and a larger world of its words. The world is served as that user, and a client plays. The
manual takes a backup meanwhile and restores it. Then the files are removed under the server, and the manual saves them. What
comes of both has to belong to the user, to be served by it, and to hold each tick that was answered before. All of it runs in a
mount namespace in which the folders of the system are copies or empty. This needs root; else it says so and doesn't try it.
Before that install.sh runs on odd prefixes, over a stand-in for the kit: each gets a unit with its path and each file that
install.sh names, or is refused and nothing is made. A program in C includes the header that was installed.
"""

import collections
import itertools
import os
import pathlib
import re
import shlex
import shutil
import signal
import stat
import subprocess
import sys
import tempfile
import threading
import time
from typing import Any

from check_docs import commands_after
from map import TOP
from surroundings_trial import Client, is_root
from trial import NAMES, Words, Wrong, all_met, as_user, begun, found_in_text, parser_of, status_of, want

MANUAL = (TOP / "docs" / "OPERATIONS.md").read_text()
# Prefixes that a unit can have, and others.
RIGHT = "plain", "with a space", "\u00e9", "a;b#c*d~e"
ODD = (
    "tab\t", "new\nline", "escape\x1b[31m", "quo'te", 'quo"te', "per%cent", "dol$lar", "back\\slash", "and&", "bar|",
    "not \udcff text",
)
# What install.sh writes, and nothing else.
INSTALLED = {"include/cektaulis.h", "share/pkgconfig/cektaulis.pc", "share/worldd/worldd.service"}.union(*(
    {
        f"bin/{name}", f"share/man/man1/{name}.1", f"share/bash-completion/completions/{name}",
        f"share/zsh/site-functions/_{name}", f"share/fish/vendor_completions.d/{name}.fish",
    }
    for name in ("worldd", "world_load")
))
STANDBY = {"promote", "step-down", "fence-peer", "standby.conf", "world.res"}
# The words of the manual in front of each recipe.
MAKING, BACKUP = "**2. Make a user, its folder, and a world**", "**While it serves**"
RESTORE, SAVING, LARGER = "**Restore.**", "**Files are removed**", "**A world gets more cells**"
USER, PROGRAM = "world", "/usr/local/bin/worldd"
AS_USER = as_user(USER)
WORLD, OTHER, COPY = (pathlib.Path(path) for path in ("/var/lib/world", "/var/lib/world2", "/var/backups/world.1"))
# The folder of the sockets, in the namespace.
SOCKETS = pathlib.Path("/var/sockets")
ROUNDS, SECONDS, INSIDE = 3, 60, "--inside"
CASES = (
    "worlds made", "worlds made larger", "copies while it serves", "copies ahead of the answers", "copies restored",
    "lost files saved", "worlds served again",
)


def follow(name: str, room: pathlib.Path | None = None, **words: object) -> str:
    """Runs the commands of a recipe as root, or in a folder as the user of the world, with these words in their places. It gives
    what they print."""
    text = "\n".join(commands_after(name, MANUAL))
    for word, given in words.items():
        want(word in text, f"the recipe after `{name}` has no {word}")
        text = re.sub(rf"\b{word}\b", str(given), text)
    who: dict[str, Any] = AS_USER | {"cwd": room} if room else {}
    run = subprocess.run(["sh", "-e", "-u", "-c", text], capture_output=True, text=True, timeout=SECONDS, **who)
    want(run.returncode == 0, f"the recipe after `{name}` ends with {run.returncode}: {run.stdout}{run.stderr}")
    return str(run.stdout)


class Player(threading.Thread):
    """A client that adds 1 to cell 0 in each tick, until the server is gone. It keeps the greatest tick that was answered."""

    def __init__(self, address: str) -> None:
        super().__init__(daemon=True)
        self.client, self.answered = Client(address), 0
        self.start()

    def run(self) -> None:
        while match := re.match(rb"tick (\d+): \+\n", self.client.play()):
            self.answered = int(match[1])


class Trial:
    """The servers and the counts so far."""

    def __init__(self) -> None:
        self.met: collections.Counter[str] = collections.Counter()
        self.sockets = itertools.count()
        self.servers: list[subprocess.Popen[str]] = []

    def serve(self, folder: pathlib.Path) -> tuple[subprocess.Popen[str], int, Player]:
        """A server of a folder, as the user of the world: its process, the tick that it recovered, and a client that plays."""
        place = SOCKETS / str(next(self.sockets))
        command: Words = [PROGRAM, "serve", "--dir", folder, *"--method zigzag --every 8 --clients 10 --socket".split(), place]
        server = subprocess.Popen(command, stdout=subprocess.PIPE, stderr=subprocess.DEVNULL, text=True, **AS_USER)
        self.servers.append(server)
        lines = begun(server)
        match = re.fullmatch(rf"recovered (\d+) from \d+\nlistening {place}\n", "".join(lines))
        if not match:
            raise Wrong(f"the user can't serve {folder}: {lines}")
        player = Player(str(place))
        end = time.monotonic() + SECONDS
        while player.answered < int(match[1]) + 50:
            want(player.is_alive() and time.monotonic() < end, f"no answers of a server of {folder}")
            time.sleep(0.001)
        return server, int(match[1]), player

    def holds(self, folder: pathlib.Path, floor: int) -> int:
        """A folder has to belong to the user, and to hold each tick up to this one with its words. It gives the tick."""
        owner = WORLD.stat()
        for path, mode in ((folder, 0o700), *((folder / name, 0o600) for name in NAMES)):
            of_path = path.stat()
            want((of_path.st_uid, of_path.st_gid) == (owner.st_uid, owner.st_gid), f"{path} belongs to another user")
            want(stat.S_IMODE(of_path.st_mode) == mode, f"{path} has the mode {stat.S_IMODE(of_path.st_mode):o}")
        run = subprocess.run([PROGRAM, "inspect", "--dir", folder, "--words"], capture_output=True, text=True)
        found = re.search(r"^recovered (\d+) from \d+ in image\.[ab]\n(\d+) ", run.stdout, re.MULTILINE)
        if not found or found[1] != found[2]:
            raise Wrong(f"{folder} holds other words: {run.stdout[:300]}{run.stderr}")
        want(int(found[1]) >= floor, f"{folder} holds tick {found[1]}, and tick {floor} was answered")
        return int(found[1])

    def end(self) -> None:
        """Ends each server that still runs."""
        for server in self.servers:
            server.kill()
            server.wait()

    def serves_again(self, folder: pathlib.Path, tick: int) -> None:
        """The user serves what a recipe made, from this tick on. Then the folder is removed."""
        server, recovered, _ = self.serve(folder)
        server.kill()
        server.wait()
        want(recovered == tick, f"a server of {folder} recovered {recovered}, and not {tick}")
        self.met["worlds served again"] += 1
        shutil.rmtree(folder)

    def enlarge(self) -> None:
        """The user makes a larger world of the words of this one, and serves it."""
        want(follow(LARGER, SOCKETS) == "created 2000\n", "the manual made no larger world")
        self.holds(SOCKETS / "larger", 0)
        self.met["worlds made larger"] += 1
        (SOCKETS / "words").unlink()
        self.serves_again(SOCKETS / "larger", 0)

    def round(self) -> None:
        """A backup under a server, its restore, and files that are removed under the server."""
        server, _, player = self.serve(WORLD)
        floor = player.answered
        copied = int(found_in_text(r"^backed up (\d+) from \d+$", follow(BACKUP))[1])
        want(copied >= floor, f"tick {floor} was answered before a copy of {copied}")
        self.met["copies while it serves"] += 1
        self.met["copies ahead of the answers"] += copied > floor
        follow(RESTORE)
        want(self.holds(OTHER, floor) == copied, "what was restored is another tick")
        self.met["copies restored"] += 1
        self.serves_again(OTHER, copied)
        shutil.rmtree(COPY)
        for name in NAMES:
            (WORLD / name).unlink()
        follow(SAVING, PID=server.pid)
        server.wait()
        player.join()
        tick = self.holds(OTHER, player.answered)
        self.met["lost files saved"] += 1
        self.serves_again(OTHER, tick)

    def run(self) -> str:
        """Each round begins with its own user and its own world."""
        for _ in range(ROUNDS):
            want(follow(MAKING) == "created 1000\n", "the manual made no world")
            self.met["worlds made"] += 1
            shutil.chown(SOCKETS, USER, USER)
            self.enlarge()
            self.round()
            shutil.rmtree(WORLD)
            subprocess.run(["userdel", USER], check=True, capture_output=True)
        all_met(self.met, CASES)
        return "; ".join(f"{case} {self.met[case]}" for case in CASES)


def install(worldd: str, room: pathlib.Path) -> str:
    """Installs the program with each prefix, over a command `rt` that does nothing."""
    top, kit = room / "top", room / "kit"
    kit.mkdir()
    (kit / "rt").write_text("#!/bin/sh\n")
    (kit / "rt").chmod(0o755)
    for program in ("worldd", "world_load"):
        (top / "crates" / program / "out").mkdir(parents=True)
        shutil.copy(worldd, top / "crates" / program / "out" / program)
    for name in ("install.sh", "worldd.service"):
        shutil.copy(TOP / name, top / name)
    for name in ("clients/c", "man", "completions", "scripts/standby"):
        shutil.copytree(TOP / name, top / name)
    for name in (*RIGHT, *ODD):
        prefix = room / "prefix" / name
        command, path = [top / "install.sh", prefix], f"{kit}:{os.environ['PATH']}"
        run = subprocess.run(command, capture_output=True, text=True, errors="surrogateescape", env=os.environ | {"PATH": path})
        if name in RIGHT:
            unit = (prefix / "share" / "worldd" / "worldd.service").read_text() if run.returncode == 0 else ""
            want(f'\nExecStart="{prefix}/bin/worldd" serve ' in unit and "@PREFIX@" not in unit, f"no unit with {prefix}: {run}")
            printed = subprocess.run([prefix / "bin" / "worldd", "--version"], capture_output=True, text=True).stdout
            want(printed.startswith("worldd "), f"no program with {prefix}: {printed}")
            include_header(prefix)
            installed = {str(path.relative_to(prefix)) for path in prefix.rglob("*") if path.is_file()}
            want(installed == INSTALLED, f"what was installed differs by {sorted(installed ^ INSTALLED)}")
            uninstall(top, prefix)
        else:
            match = re.fullmatch("install.sh: a unit can't have the path [^\0-\x1f]*\n", run.stderr)
            want(run.returncode == 2 and bool(match) and not prefix.exists(), f"a prefix wasn't refused: {run}")
    return f"recipes: prefixes with a unit {len(RIGHT)}; prefixes refused {len(ODD)}"


def run_installer(top: pathlib.Path, flag: str, prefix: pathlib.Path) -> None:
    """Runs install.sh with a flag, without the kit."""
    subprocess.run([top / "install.sh", flag, prefix], check=True, stdout=subprocess.DEVNULL, env={"PATH": "/usr/bin:/bin"})


def install_standby(top: pathlib.Path, prefix: pathlib.Path) -> None:
    """Installs the files of a standby."""
    run_installer(top, "--standby", prefix)
    folder = prefix / "share" / "worldd" / "standby"
    files = {path.name: path.read_text() for path in folder.iterdir()}
    want(set(files) == STANDBY, f"what was installed for a standby differs by {sorted(set(files) ^ STANDBY)}")
    want(f'"{prefix}/bin/worldd" recover' in files["promote"], f"promote with {prefix}")
    is_fenced = f'"\'{folder}/fence-peer\'"' in files["world.res"] and os.access(folder / "fence-peer", os.X_OK)
    want(is_fenced, f"world.res with {prefix}")
    want("@PREFIX@" not in "".join(files.values()), f"a file with {prefix}")


def uninstall(top: pathlib.Path, prefix: pathlib.Path) -> None:
    """Removes all that was installed, and no file that isn't of it."""
    install_standby(top, prefix)
    other = prefix / "share" / "worldd" / "other"
    other.write_text("kept")
    run_installer(top, "--uninstall", prefix)
    left = [path for path in prefix.rglob("*") if path.is_file()]
    want(left == [other], f"of what was installed {left} are left")


def include_header(prefix: pathlib.Path) -> None:
    """The client in C is found by pkg-config, if that is there."""
    flags = [f"-I{prefix}/include"]
    if shutil.which("pkg-config"):
        ask, path = ["pkg-config", "--cflags", "cektaulis"], {"PKG_CONFIG_PATH": str(prefix / "share" / "pkgconfig")}
        run = subprocess.run(ask, env=os.environ | path, capture_output=True, text=True, errors="surrogateescape", check=True)
        flags = shlex.split(run.stdout)
        want(len(flags) == 1, f"pkg-config answers {flags} with {prefix}")
    command = ["cc", *flags, "-fsyntax-only", "-x", "c", "-"]
    subprocess.run(command, input=b"#include <cektaulis.h>\n", check=True)


def furnish(worldd: str, room: pathlib.Path) -> None:
    """Puts a copy of /etc, an empty /var and only the program in /usr/local/bin over those of the system, in this namespace."""
    shutil.copytree("/etc", room / "etc", symlinks=True, ignore_dangling_symlinks=True)
    (room / "bin").mkdir()
    shutil.copy(worldd, room / "bin" / "worldd")
    (room / "bin" / "worldd").chmod(0o755)
    mounts: tuple[Words, ...] = (
        ("--bind", room / "etc", "/etc"), ("--bind", room / "bin", "/usr/local/bin"), ("-t", "tmpfs", "tmpfs", "/var"),
    )
    for words in mounts:
        subprocess.run(["mount", *words], check=True)
    for folder in (WORLD.parent, COPY.parent, SOCKETS):
        folder.mkdir()


def inside(worldd: str, room: pathlib.Path) -> str:
    """Runs the trial in this namespace."""
    trial = Trial()
    try:
        furnish(worldd, room)
        return f"recipes: {trial.run()}"
    finally:
        trial.end()


def main() -> int:
    """Runs the trial in its own namespace."""
    parser = parser_of(__doc__)
    parser.add_argument(INSIDE, type=pathlib.Path, metavar="ROOM", help="with a folder for its files, in this namespace")
    given = parser.parse_args()
    os.environ["PATH"] += ":/usr/sbin:/sbin"
    signal.signal(signal.SIGPIPE, signal.SIG_IGN)
    if given.inside:
        return status_of("recipes", lambda: inside(given.worldd, given.inside))
    with tempfile.TemporaryDirectory(prefix="recipes") as room:
        status = status_of("recipes", lambda: install(given.worldd, pathlib.Path(room)))
    if status:
        return status
    lacking = [name for name in ("unshare", "useradd", "userdel", "runuser") if not shutil.which(name)]
    if not is_root() or lacking or subprocess.run(["unshare", "--mount", "true"]).returncode:
        print(f"recipes: not tried: {f'there is no {lacking[0]}' if lacking else 'only root can, with a mount namespace'}")
        return 0
    with tempfile.TemporaryDirectory(prefix="recipes") as room:
        pathlib.Path(room).chmod(0o755)
        return subprocess.run(["unshare", "--mount", sys.executable, __file__, given.worldd, INSIDE, room]).returncode


if __name__ == "__main__":
    sys.exit(main())
