#!/usr/bin/env python3
"""Runs the built worldd in bad surroundings: closed and unread streams, shortages, links, silent clients, other users.

    scripts/surroundings_trial.py crates/worldd/out/worldd
    scripts/surroundings_trial.py WORLDD --connections 70000

No answered tick may be lost, no file of a world may get a byte that isn't a world's, and the server must go on or end
with its reason. It prints how often each case was met, and fails if one was never met. Other users of the machine can be
tried only by root.
"""
import collections
import contextlib
import ctypes
import errno
import fcntl
import functools
import itertools
import mmap
import multiprocessing
import os
import pathlib
import re
import resource
import shutil
import signal
import socket
import stat
import subprocess
import sys
import tempfile
import threading
import time
from collections.abc import Callable, Iterator
from typing import Any

from trial import NAMES, PATIENCE_SECONDS, PORT, QUIET, SOCKET, TRANSPORTS, Words, Wrong, all_met, as_user, begun, close_all
from trial import connect, create, found_in_text, free_port, library_of, parser_of, pipe, ran, status_of, want

CELLS = 1000
# Text that worldd prints, of which a file of a world has none.
FOREIGN = (b"recovered", b"listening", b"worldd", b"created", b"stopped")
EXIT = ("--exit-when-log-down",)
# The flags of a server that starts beside others.
SERVE = "--method", "zigzag", "--port", "0", "--clients", "1"
# The exit statuses of a shortage that passes, and of a listener that failed.
SHORTAGE, LOST_LISTENER, DETAILED = 13, 10, ("--statuses", "detailed")
# How many clients come while there is no room for threads: more than there are stacks to use again.
CROWD = 20
# How many clients come and go while stacks are counted, and what the stack of a session's thread takes. So many sessions may
# overlap on a loaded machine. The C library keeps a stack and its guard of each for those that follow.
ENDED_SESSIONS, STACK_BYTES, OVERLAP = 500, 256 << 10, 10
# How many clients leave at once, and how many of their threads may end without the next connection.
LEAVING, ENDS = 1_100, 1_024
# How many bytes more one server may take than another one.
MORE_BYTES = 64 << 20
# Room for what a batch takes, and not for the stack of a thread.
LESS_THAN_A_STACK = 200 << 10
SMALL_PIPE = 4096
LINES_WAITING = 256
# How many clients send batches that are too long, and lines after them.
LONG_BATCHES, SENT_AFTER = 45, 100_000
# A limit on a file's size that no write ends at.
FILE_LIMIT = 20_011
# One that the image of a start passes.
START_LIMIT = 4_011
# One that an image of a larger world passes, and a full log doesn't.
LARGE_WORLD, LARGE_LIMIT = 400_000, 2_000_011
# How many ticks may end without an image, the room by which a server ends, and how many clients use it up.
ROOM, LAST_ROOM, PLAYERS = 65_536, 8_192, 64
# The lines on the room for ticks.
ROOM_LEFT = "worldd: images down: %d more ticks can end, then each batch is refused with 6\n"
ROOM_USED_UP = "worldd: each batch is refused with 6: no image has opened for 65536 ticks\n"
IMAGES_DOWN = 11
# How long after a file was removed or replaced a server may still answer.
NOTICED_SECONDS = 1.5
NO_ROOM, LIMITED = "the disk is full", "the file has reached a limit on its size"
SHORT = f"{NO_ROOM}, or {LIMITED}"
# The last line of `status`.
UP, NO_LOG = (f"server: running, log {log}, images up" for log in ("up", "down"))
NO_IMAGES, NEITHER = (f"server: running, log {log}, images down" for log in ("up", "down"))
NO_SERVER, UNKNOWN, UNKNOWN_PARTS = "server: none", "server: unknown", "server: running, log unknown, images unknown"
REPLACED = "server: running, on files that were removed or replaced"
SERVER_LINES = UP, NO_LOG, NO_IMAGES, NEITHER, NO_SERVER, UNKNOWN, UNKNOWN_PARTS, REPLACED
HELD, KEPT = "another program writes this world", "a program that looks at this world keeps its lock"
# The calls of a start that a shortage may refuse, and its errors. The world's folder has the name ".".
SHORTAGES = (
    *itertools.product(("open",), (*NAMES, "."), (errno.ENFILE, errno.EMFILE)),
    *itertools.product(("socket",), ("socket",), (errno.ENFILE, errno.EMFILE, errno.ENOBUFS)),
    ("flock", "image.a", errno.ENOLCK),
)
# Of the syncs or the writes of a file the one that fails, and how often a batch is sent after it.
FAILED_PLACE, SENT_ON = 8, 20
FAILED = "Input/output error (os error 5)"
# Calls that fail, and the end of what each command prints whose second try succeeds. `status` and `backup` sync no file first.
RECOVERED, NOTHING_DROPPED = "recovered 0 from 0\n", "salvaged 0 from 0\ndropped: nothing\n"
SYNCING = {"recover": RECOVERED, "inspect": "recovered 0 from 0 in image.a\n"}
READING = SYNCING | {"status": f"{NO_SERVER}\n", "backup": "backed up 0 from 0\n"}
SALVAGING = {"salvage": NOTHING_DROPPED}
FAILED_CALLS = {("fsync", "log.a"): SYNCING | SALVAGING, ("pread", "log.a"): READING | SALVAGING, ("pread", "image.a"): READING}
# How many servers start beside looks, and how many pairs of them at once; how many threads look.
LOOKED_AT, PAIRS, LOOKERS = 300, 25, 2
CASES = (
    *(f"{command} with closed streams" for command in ("create", "recover", "inspect", "steps", "serve")),
    "short connections", "ended sessions", "clients left at once", "no room for clients to come", "descriptors exhausted",
    "descriptors freed", "errors unread", "lines dropped",
    "output full", "output broken", "port closed", "socket closed", "silent client ended", "link refused", "mode of a new file",
    "short write named", "ended by its log", "start that fails", "no thread named",
    "socket with its mode", "socket removed", "old socket replaced", "socket in use kept", "socket's place taken",
    "other file kept", "next server's socket kept", "fault 16 not reset",
    "client refused", "listener lost", "left when closed", "left at once when closed", "left with its log down",
    "lost file named", "left for a lost file", "room named", "refused without room", "images down ended it",
    "little room ended it", "ended by no image that is up", "sync interrupted", "fsync failed", "fdatasync failed",
    "pwrite failed", "create without room",
    "made meanwhile", "shortage at a start", "read tried again", "read failed again", "file of a copy left", *SERVER_LINES,
    "second server refused", "reader waited for", "reader too slow", "start beside looks", "one of two servers",
)
CASES_OF_ROOT = ("user let in", "user refused", "socket never open to others", "shortage of room", "no /dev/null")
# Users and groups, which the system need not know. The server's own are the first ones.
OWNER, STRANGER = 61_001, 61_002
AS_OWNER, AS_STRANGER = as_user(OWNER), as_user(STRANGER)
LET_IN, REFUSED = 0, 13
# How many servers start at each mode while a stranger tries to connect.
STARTS = 25
FORK = multiprocessing.get_context("fork")


def limiting(kind: int, most: int) -> Callable[[], None]:
    """Limits a resource of a new process."""
    return lambda: resource.setrlimit(kind, (most, most))


class Client:
    """A connection that plays."""

    def __init__(self, address: str) -> None:
        self.socket = connect(address)
        self.answers = self.socket.makefile("rb")

    def play(self, lines: bytes = b"add 0 1\n") -> bytes:
        """Sends a batch, and returns its answer, which is empty after the end of the session."""
        try:
            self.socket.sendall(lines + b"end\n")
            return self.answers.readline()
        except OSError:
            return b""

    def leave(self) -> None:
        """Closes the connection."""
        self.answers.close()
        self.socket.close()


class Server:
    """A serving worldd on its own world."""

    def __init__(
        self, worldd: str, folder: pathlib.Path, *flags: str, clients: int | None = None, transport: str = "port",
        path: pathlib.Path | None = None, **process: Any
    ) -> None:
        self.worldd, self.folder, self.path = worldd, folder, path or folder.with_suffix(".socket")
        if not folder.exists():
            create(worldd, folder, CELLS)
        self.address = str(self.path) if transport == SOCKET else str(free_port())
        admission = ("--clients", str(clients)) if clients else ("--unlimited-clients",)
        fixed = ("--method", "zigzag", f"--{transport}", self.address, *admission)
        flags = flags if "--every" in flags else ("--every", "4096", *flags)
        flags = flags if "--statuses" in flags else (*DETAILED, *flags)
        process = {"stdout": subprocess.PIPE, "stderr": subprocess.PIPE, **process}
        command: Words = [worldd, "serve", "--dir", folder, *fixed, *flags]
        self.process: subprocess.Popen[bytes] = subprocess.Popen(command, **process)

    def client(self) -> Client:
        """A new client, once the server listens."""
        end = time.monotonic() + PATIENCE_SECONDS
        while True:
            try:
                return Client(self.address)
            except (ConnectionRefusedError, FileNotFoundError):
                want(time.monotonic() < end and self.process.poll() is None, f"no server at {self.folder}")
                time.sleep(0.01)

    def wait_until_closed(self) -> None:
        """Waits until a further client is refused."""
        end = time.monotonic() + PATIENCE_SECONDS
        while True:
            try:
                Client(self.address).leave()
            except ConnectionRefusedError:
                return
            want(time.monotonic() < end, f"{self.address} stays open")

    def kill(self) -> None:
        """Kills it, and checks the files: they must hold each tick that was answered, and no other text."""
        self.process.kill()
        self.process.communicate()

    def end(self) -> tuple[int, str, str]:
        """Waits for its end: status, output and errors."""
        output, errors = self.process.communicate(timeout=PATIENCE_SECONDS)
        return self.process.returncode, (output or b"").decode(), (errors or b"").decode()

    def holds(self, ticks: int) -> None:
        """The files must hold the world after so many ticks or more, and nothing else."""
        run = ran(self.worldd, "recover", self.folder)
        found = re.fullmatch(r"recovered (\d+) from \d+\n", run.stdout)
        want(found is not None and int(found[1]) >= ticks, f"{ticks} ticks were answered: {run.stdout}{run.stderr}")
        has_no_text(self.folder)


def has_no_text(folder: pathlib.Path) -> None:
    """No file of a world may hold text of the program."""
    for name in NAMES:
        held = (folder / name).read_bytes()
        want(not any(text in held for text in FOREIGN), f"{folder / name} holds text")


class Trial:
    """The cases, and how often each was met."""

    def __init__(self, worldd: str, scratch: pathlib.Path) -> None:
        self.worldd, self.scratch = worldd, scratch
        self.met: collections.Counter[str] = collections.Counter()
        self.folders = itertools.count()

    def folder(self) -> pathlib.Path:
        """A folder that isn't there yet."""
        return self.scratch / f"world{next(self.folders)}"

    def world(self) -> pathlib.Path:
        """A folder with a new world of two cells."""
        folder = self.folder()
        create(self.worldd, folder, 2)
        return folder

    def server(self, *flags: str, **process: Any) -> Server:
        """A server of a new world."""
        return Server(self.worldd, self.folder(), *flags, **process)

    def run(self, *words: object, **process: Any) -> subprocess.CompletedProcess[Any]:
        """Runs a command to its end."""
        return subprocess.run([self.worldd, *map(str, words)], timeout=PATIENCE_SECONDS, **process)

    def closed_streams(self) -> None:
        """Each command with each combination of closed standard streams."""
        for count in (1, 2, 3):
            for closed in itertools.combinations(range(3), count):
                self.commands_without(closed)
                self.serve_without(closed)

    def commands_without(self, closed: tuple[int, ...]) -> None:
        """The commands that end by themselves, with these descriptors closed."""
        whole, folder = self.world(), self.folder()
        folder.mkdir()
        on_folder = ("create", "--cells", 2), ("recover",), ("inspect",)
        for command in (*((*words, "--dir", folder) for words in on_folder), ("steps",)):
            run = self.run(*command, preexec_fn=functools.partial(close_all, closed), stdin=QUIET, stdout=QUIET, stderr=QUIET)
            want(run.returncode == 0, f"{command[0]} without {closed}: {run.returncode}")
            for name in NAMES:
                want((folder / name).read_bytes() == (whole / name).read_bytes(), f"{command[0]} without {closed}: {name}")
            self.met[f"{command[0]} with closed streams"] += 1

    def serve_without(self, closed: tuple[int, ...]) -> None:
        """A server with these descriptors closed, killed under load."""
        closes = functools.partial(close_all, closed)
        server = self.server("--every", "8", preexec_fn=closes, stdin=QUIET, stdout=QUIET, stderr=QUIET)
        client = server.client()
        for tick in range(1, 101):
            want(client.play().startswith(b"tick %d:" % tick), f"tick {tick} without {closed}")
        server.kill()
        client.leave()
        server.holds(100)
        self.met["serve with closed streams"] += 1

    def come_and_go(self, count: int, transport: str) -> tuple["Footprint", "Footprint"]:
        """What a server has of the system before so many clients come and go, and after."""
        server = self.server("--every", "65536", stderr=subprocess.DEVNULL, transport=transport)
        for _ in range(50):
            client = server.client()
            client.play()
            client.leave()
        before = footprint(server.process.pid)
        for _ in range(count):
            client = Client(server.address)
            want(client.play().startswith(b"tick"), "a short connection got no answer")
            client.leave()
            self.met["short connections"] += 1
        after = footprint(server.process.pid)
        print(f"surroundings: {count} short connections to a {transport}: {before} before, {after} after")
        server.kill()
        return before, after

    def ended_sessions(self) -> None:
        """The sessions of clients that have gone are joined as others come, so that the system takes their stacks back."""
        before, after = self.come_and_go(ENDED_SESSIONS, PORT)
        want(after.stacks <= before.stacks + OVERLAP, "ended sessions keep their stacks")
        self.met["ended sessions"] += ENDED_SESSIONS

    def short_connections(self, count: int, transport: str) -> None:
        """So many clients come and go. The process must not grow by those that have gone."""
        before, after = self.come_and_go(count, transport)
        want(after.maps <= before.maps + 2 * OVERLAP, "ended sessions keep maps")
        want(after.threads <= before.threads + 2, "ended sessions keep threads")
        want(after.descriptors <= before.descriptors + 4, "ended sessions keep descriptors")
        want(after.kilobytes <= before.kilobytes + 2_048, "ended sessions keep memory")

    def left_at_once(self) -> None:
        """More clients leave at once than threads end without the next connection. It is served, and all threads end."""
        most = resource.getrlimit(resource.RLIMIT_NOFILE)[1]
        resource.setrlimit(resource.RLIMIT_NOFILE, (most, most))
        server = self.server("--every", "65536", clients=LEAVING + 1)
        crowd = [server.client() for _ in range(LEAVING)]
        want(crowd[-1].play() == b"tick 1: +\n", "no answer in a crowd")
        for client in crowd:
            client.leave()
        end = time.monotonic() + PATIENCE_SECONDS
        while (threads := footprint(server.process.pid).threads) > LEAVING - ENDS + OVERLAP:
            want(time.monotonic() < end, f"{threads} threads stay after {LEAVING} clients have left")
            time.sleep(0.01)
        if threads >= LEAVING - ENDS:
            self.met["clients left at once"] += 1
        last = server.client()
        want(last.play() == b"tick 2: +\n", "no answer after clients that left at once")
        last.leave()
        status, output, _ = server.end()
        want(status == 0 and "stopped tick 2 " in output, f"the end after clients that left at once: {status} {output}")

    def unlimited_clients(self) -> None:
        """A server takes no memory for clients that may come."""
        sizes = []
        for clients in (1, None):
            server = self.server(clients=clients)
            first = server.client()
            want(first.play() == b"tick 1: +\n", "no answer of a first client")
            sizes.append(footprint(server.process.pid).size)
            server.kill()
        want(sizes[1] - sizes[0] < MORE_BYTES, f"clients that may come take memory: {sizes}")
        self.met["no room for clients to come"] += 1

    def descriptors(self) -> None:
        """Clients take all descriptors, and leave."""
        server = self.server(preexec_fn=limiting(resource.RLIMIT_NOFILE, 24))
        crowd = [server.client() for _ in range(40)]
        for client in crowd[:4]:
            want(client.play().startswith(b"tick"), "a client that came first got no answer")
        line = pipe(server.process.stderr).readline()
        want(line.startswith(b"worldd: clients wait: Too many open files"), f"no line of a shortage: {line!r}")
        self.met["descriptors exhausted"] += 1
        spent = processor_seconds(server.process.pid)
        time.sleep(1)
        want(processor_seconds(server.process.pid) - spent < 0.5, "a shortage takes a processor")
        for client in crowd:
            client.leave()
        late = server.client()
        want(late.play().startswith(b"tick"), "no answer after a shortage")
        line = pipe(server.process.stderr).readline()
        want(line == b"worldd: clients no longer wait\n", f"no line of the end of a shortage: {line!r}")
        self.met["descriptors freed"] += 1
        server.kill()
        server.holds(5)

    def refused_clients(self) -> None:
        """There is no room for the thread of a client: it is closed unanswered, a line says so, and others play on."""
        server = self.server()
        first = server.client()
        want(first.play() == b"tick 1: +\n", "no answer of a first client")
        room = footprint(server.process.pid).size + LESS_THAN_A_STACK
        resource.prlimit(server.process.pid, resource.RLIMIT_AS, (room, resource.RLIM_INFINITY))
        crowd = [server.client() for _ in range(CROWD)]
        closed = sum(client.play() == b"" for client in crowd)
        want(first.play().startswith(b"tick"), "no answer beside refused clients")
        resource.prlimit(server.process.pid, resource.RLIMIT_AS, (resource.RLIM_INFINITY, resource.RLIM_INFINITY))
        want(server.client().play().startswith(b"tick"), "no answer once there is room")
        for client in (first, *crowd):
            client.leave()
        server.process.kill()
        _, _, errors = server.end()
        refused = len(re.findall(r"^worldd: session refused: there is no (?:thread|memory)$", errors, re.MULTILINE))
        want(0 < closed == refused, f"{closed} clients were closed unanswered: {errors}")
        self.met["client refused"] += closed
        server.holds(CROWD - closed + 3)

    def lost_listener(self) -> None:
        """The listener fails after two clients: a line says so, they play on, and the server ends once they have left."""
        library = library_of("lost_listener.c", self.scratch)
        for transport, statuses in itertools.product(TRANSPORTS, ("detailed", "plain")):
            process = {"env": os.environ | {"LD_PRELOAD": str(library), "ACCEPTS": "2"}}
            server = self.server("--statuses", statuses, transport=transport, **process)
            first, second = server.client(), server.client()
            want(first.play().startswith(b"tick") and second.play().startswith(b"tick"), "no answer of two clients")
            server.wait_until_closed()
            want(first.play().startswith(b"tick"), "no answer after a listener that failed")
            for client in (first, second):
                client.leave()
            status, output, errors = server.end()
            wanted, fault = (LOST_LISTENER, 0) if statuses == "detailed" else (1, 1)
            named = errors.count("fault 18\nworldd: the listener failed\n")
            is_ended = (status, named) == (wanted, fault) and output.endswith("stopped tick 3 acked 3\n")
            want(is_ended, f"the end by its listener: {status} {output}")
            want("worldd: listener failed: Invalid argument (os error 22)\n" in errors, f"a failed listener: {errors}")
            self.met["listener lost"] += 1
            server.holds(3)

    def unread_errors(self) -> None:
        """Nobody reads standard error for ten thousand ticks and many images."""
        server = self.server("--every", "1", clients=1)
        fcntl.fcntl(pipe(server.process.stderr), fcntl.F_SETPIPE_SZ, SMALL_PIPE)
        client = server.client()
        for tick in range(1, 10_001):
            want(client.play().startswith(b"tick %d:" % tick), f"tick {tick} with errors unread")
        images = self.run("inspect", "--dir", server.folder, capture_output=True, text=True).stdout
        newest = max(map(int, re.findall(r"cells, tick (\d+),", images)), default=0)
        want(newest > 9_000, f"images stopped with errors unread: {images}")
        self.met["errors unread"] += 1
        client.leave()
        begun = time.monotonic()
        status = server.process.wait(PATIENCE_SECONDS)
        want(status == 0 and time.monotonic() - begun < 10, f"the end with errors unread: {status}")
        errors = pipe(server.process.stderr).read().decode()
        want(0 < errors.count("opened") < 9_000, "lines were not dropped")
        self.met["lines dropped"] += 1
        server.holds(10_000)

    def broken_output(self) -> None:
        """Standard output is full, or its reader has gone."""
        reader, broken = os.pipe()
        os.close(reader)
        for case, output in (("output full", os.open("/dev/full", os.O_WRONLY)), ("output broken", broken)):
            server = self.server(stdout=output, clients=1)
            os.close(output)
            client = server.client()
            want(client.play() == b"tick 1: +\n", f"no answer with {case}")
            client.leave()
            status, _, errors = server.end()
            want(status == 1 and "fault 18\nworldd: standard output: " in errors, f"{case}: {status} {errors}")
            server.holds(1)
            self.met[case] += 1

    def door(self, transport: str) -> None:
        """The port or socket is closed after the last client, and a silent client is sent away."""
        server = self.server("--idle", "1", clients=3, transport=transport)
        first, second, third = (server.client() for _ in range(3))
        want(first.play() == b"tick 1: +\n" and third.play() == b"tick 2: +\n", "no answer of three clients")
        server.wait_until_closed()
        self.met[f"{transport} closed"] += 1
        want(second.answers.readline() == b"", "a silent client stays")
        self.met["silent client ended"] += 1
        status, output, errors = server.end()
        want(status == 0 and output.endswith("stopped tick 2 acked 2\n"), f"the end by silence: {status} {output}")
        want(f"worldd: the {transport} is closed" in errors, f"nothing was printed of the {transport}: {errors}")

    def overstayed(self) -> None:
        """Clients stay connected after the last one has come: the server ends without them, after its seconds and not before."""
        for seconds, transport in ((2, "port"), (3, SOCKET), (0, SOCKET)):
            server = self.server("--exit-when-closed", str(seconds), clients=2, transport=transport)
            first = server.client()
            want(first.play() == b"tick 1: +\n", "no answer of a client that stays")
            begun = time.monotonic()
            server.client()
            if seconds:
                want(first.play() == b"tick 2: +\n", "no answer after a closed door")
                self.met["left when closed"] += 1
            else:
                self.met["left at once when closed"] += 1
            status, output, errors = server.end()
            passed = time.monotonic() - begun
            want(status == 0 and "stopped" not in output, f"the end with clients that stay: {status} {output}")
            is_in_time = seconds <= passed < seconds + PATIENCE_SECONDS / 2
            want(is_in_time, f"it ended {passed} seconds after its door was closed, and not {seconds}")
            want(f"worldd: the {transport} is closed" in errors, f"nothing was printed of the {transport}: {errors}")
            server.holds(2 if seconds else 1)
        self.overstayed_with_no_log()

    def overstayed_with_no_log(self) -> None:
        """The same with a log that is down: the status says so."""
        limit = limiting(resource.RLIMIT_FSIZE, FILE_LIMIT)
        server = self.server("--every", "65536", "--exit-when-closed", "1", clients=2, preexec_fn=limit)
        client, ticks = server.client(), 0
        while client.play(b"add 0 1\n" * 16).startswith(b"tick"):
            ticks += 1
        server.client()
        want(server.end()[0] == 12, "the end with a client that stays and a log that is down")
        self.met["left with its log down"] += 1
        server.holds(ticks)

    def shortage(self) -> None:
        """The disk is full: a new world and a start end with their own status, and room mends it."""
        full = self.scratch / "full"
        full.mkdir()
        mount = ("mount", "-t", "tmpfs", "-o", "size=64k", "tmpfs", full)
        if not is_root() or subprocess.run(mount, capture_output=True).returncode:
            return
        try:
            line = "create", "--dir", full, "--cells", "100000"
            made = self.run(*line, capture_output=True, text=True)
            want(made.returncode == 1 and made.stderr.startswith("fault 18\n"), f"create by plain statuses: {made}")
            for file in full.iterdir():
                file.unlink()
            made = self.run(*line, *DETAILED, capture_output=True, text=True)
            want(made.returncode == SHORTAGE and made.stderr.startswith("fault 18\n"), f"create on a full disk: {made}")
            self.met["shortage of room"] += 1
            for file in full.iterdir():
                file.unlink()
            made = self.run("create", "--dir", full, "--cells", "10", capture_output=True, text=True)
            want(made.returncode == 0, f"create on a disk with room: {made}")
        finally:
            subprocess.run(("umount", full), check=True)

    def lost_files(self) -> None:
        """A file is removed under a server, or another is moved over it: a line says so once."""
        server = self.server("--every", "1", transport=SOCKET, clients=1)
        client = server.client()
        want(client.play() == b"tick 1: +\n", "no answer")
        (server.folder / "log.b").unlink()
        (server.folder / "other").write_bytes(b"")
        (server.folder / "other").rename(server.folder / "image.a")
        for tick in range(2, 51):
            want(client.play().startswith(b"tick %d:" % tick), f"tick {tick} without two files")
        time.sleep(NOTICED_SECONDS)
        client.leave()
        status, _, errors = server.end()
        want(status == 0, f"the end without two files: {status}")
        again = self.server()
        self.becomes(again.folder, NO_SERVER, UP)
        shutil.copyfile(again.folder / "image.a", again.folder / "other")
        (again.folder / "other").rename(again.folder / "image.a")
        self.becomes(again.folder, NO_SERVER, REPLACED)
        again.kill()
        self.becomes(again.folder, NO_SERVER, NO_SERVER)
        for name in NAMES:
            line = f"worldd: {server.folder}/{name} was removed or replaced: save the files before the server ends\n"
            wanted = 1 if name in ("log.b", "image.a") else 0
            want(errors.count(line) == wanted, f"{name}, {wanted} lines wanted: {errors}")
            self.met["lost file named"] += wanted

    def left_for_lost_files(self) -> None:
        """With its flag a server ends with 12 once a file was removed or replaced, or its folder renamed: no tick is lost."""
        def remove(folder: pathlib.Path) -> pathlib.Path:
            (folder / "image.b").unlink()
            return folder

        def replace(folder: pathlib.Path) -> pathlib.Path:
            shutil.copyfile(folder / "log.b", folder / "other")
            (folder / "other").rename(folder / "log.b")
            return folder

        def rename(folder: pathlib.Path) -> pathlib.Path:
            return folder.rename(folder.with_suffix(".moved"))

        for harm, plays in itertools.product((remove, replace, rename), (True, False)):
            server = self.server("--exit-when-replaced", "--exit-when-log-down")
            client = server.client()
            want(client.play() == b"tick 1: +\n", "no answer")
            moved, begun_at, ticks = harm(server.folder), time.monotonic(), 1
            while plays and client.play().startswith(b"tick"):
                ticks += 1
            status, _, errors = server.end()
            took = time.monotonic() - begun_at
            want(status == 12 and took < NOTICED_SECONDS, f"{harm.__name__}: ended with {status} after {took} s: {errors}")
            want(" was removed or replaced: save" in errors, f"{harm.__name__}: no line: {errors}")
            if harm is rename:
                want(errors.count(" was removed or replaced: save") == len(NAMES), f"{harm.__name__}: {errors}")
                server.folder = moved
                server.holds(ticks)
            self.met["left for a lost file"] += 1

    def without_images(self, *flags: str) -> tuple[Server, int, collections.Counter[bytes]]:
        """A server of a large world whose images fail once it listens: how many ticks its clients were answered, and their
        faults."""
        folder = self.folder()
        create(self.worldd, folder, LARGE_WORLD)
        server = Server(self.worldd, folder, "--every", "4096", *flags)
        clients = [server.client() for _ in range(PLAYERS)]
        resource.prlimit(server.process.pid, resource.RLIMIT_FSIZE, (LARGE_LIMIT, LARGE_LIMIT))
        given: collections.Counter[bytes] = collections.Counter()

        def play(client: Client) -> None:
            while answer := client.play():
                given[answer.partition(b":")[0] if answer.startswith(b"fault") else b"tick"] += 1
                if answer.startswith(b"fault"):
                    return

        threads = [threading.Thread(target=play, args=(client,)) for client in clients]
        for thread in threads:
            thread.start()
        for thread in threads:
            thread.join()
        return server, given.pop(b"tick"), given

    def images_down(self) -> None:
        """Images fail for good: lines say how much room is left, and a server ends by its flag, or refuses in the end."""
        server, ticks, faults = self.without_images()
        want(ticks > ROOM and {*faults} == {b"fault 6\n"}, f"without images {ticks} ticks were answered, and {faults}")
        server.process.terminate()
        errors = server.end()[2]
        for quarter in range(1, 4):
            want(errors.count(ROOM_LEFT % (ROOM // 4 * quarter)) == 1, f"quarter {quarter} of the room: {errors}")
            self.met["room named"] += 1
        want(errors.count(ROOM_USED_UP) == 1 and "images down: /" in errors, f"no room is left: {errors}")
        self.met["refused without room"] += 1
        server.holds(ticks)
        server, ticks, faults = self.without_images("--exit-when-images-down", "86400")
        status, _, errors = server.end()
        want(status == IMAGES_DOWN and not faults, f"it ended with {status} and {faults}: {errors}")
        want(ROOM - LAST_ROOM <= ticks, f"it ended after {ticks} ticks")
        self.met["little room ended it"] += 1
        server.holds(ticks)
        for seconds in (0, 2):
            # The limit may come within an image. Its next write fails then: the server ignores SIGXFSZ, as Python does.
            server = self.server("--every", "1", "--exit-when-images-down", str(seconds), restore_signals=False)
            client, ticks = server.client(), 0
            while ticks < 100:
                ticks += client.play().startswith(b"tick")
            want(server.process.poll() is None, "it ended although its images are up")
            self.met["ended by no image that is up"] += 1
            resource.prlimit(server.process.pid, resource.RLIMIT_FSIZE, (START_LIMIT, START_LIMIT))
            begun_at = time.monotonic()
            while client.play().startswith(b"tick"):
                ticks += 1
                time.sleep(0.02)
            status, took = server.end()[0], time.monotonic() - begun_at
            is_so = status == IMAGES_DOWN and seconds <= took < seconds + 3
            want(is_so, f"it ended with {status} after {took} s and not {seconds}")
            self.met["images down ended it"] += 1
            server.holds(ticks)

    @functools.cached_property
    def failed_call(self) -> pathlib.Path:
        """The library by which calls of a process fail."""
        return library_of("failed_call.c", self.scratch)

    def failing(self, call: str, name: str, place: int, number: int, count: int = 1) -> tuple[dict[str, Any], pathlib.Path]:
        """How a process is run of which so many calls fail by this error, and the file that is there from then on."""
        failed = self.folder()
        variables = {"FAILED_CALL": f"{call} {name} {place} {number} {count}", "FAILED_ONCE": str(failed)}
        return {"env": os.environ | variables | {"LD_PRELOAD": str(self.failed_call)}}, failed

    def syncs(self) -> None:
        """The first sync of each file as it is opened, and a later one, are interrupted or fail."""
        for name in NAMES:
            self.interrupted_sync("fsync", name, 1)
            self.interrupted_sync("fdatasync", name, FAILED_PLACE)
            self.failed_start_by_sync(name)
            self.down_by("fdatasync", name, FAILED_PLACE, errno.EIO, FAILED)

    def interrupted_sync(self, call: str, name: str, place: int) -> None:
        """A sync that is interrupted is called again, and nobody notices."""
        process, failed = self.failing(call, name, place, errno.EINTR)
        server = self.server("--every", "8", clients=1, **process)
        ticks = self.play_past(server, failed)
        status, _, errors = server.end()
        lines = [line for line in errors.splitlines() if not re.search(" image of tick | the port is closed", line)]
        want(status == 0 and not lines, f"an interrupted {call} of {name} is reported: {status} {errors}")
        self.met["sync interrupted"] += 1
        server.holds(ticks)

    def down_by(self, call: str, name: str, place: int, number: int, reason: str) -> None:
        """The log or the images are down after a call that fails, for this reason."""
        process, failed = self.failing(call, name, place, number)
        server = self.server("--every", "8", clients=1, **process)
        ticks = self.play_past(server, failed)
        status, _, errors = server.end()
        down, wanted = (f"log down after tick {ticks}", 12) if name.startswith("log") else ("images down", 11)
        reported = f"worldd: {down}: {server.folder}/{name}: {reason}\n"
        want(status == wanted and errors.count(reported) == 1, f"a failed {call} of {name}: {status} {errors}")
        self.met[f"{call} failed"] += 1
        server.holds(ticks)

    def failed_start_by_sync(self, name: str) -> None:
        """A server ends whose start meets a sync that fails."""
        process, failed = self.failing("fsync", name, 1, errno.EIO)
        server = self.server(**process)
        status, output, errors = server.end()
        reported = f"fault 18\nworldd: {server.folder}/{name}: {FAILED}\n"
        want((status, output, errors) == (1, "", reported) and failed.exists(), f"a start with a failed sync: {status} {errors}")
        self.met["fsync failed"] += 1
        server.holds(0)

    def reasons(self) -> None:
        """A full disk and a file at its limit have a text each, whatever writes."""
        for number, reason in ((errno.ENOSPC, NO_ROOM), (errno.EFBIG, LIMITED)):
            for name in NAMES:
                self.down_by("pwrite", name, FAILED_PLACE, number, reason)
            folder = self.folder()
            folder.mkdir()
            process, _ = self.failing("pwrite", "image.a", 1, number)
            run = self.run("create", "--dir", folder, "--cells", 2, capture_output=True, text=True, **process)
            refused = run.returncode == 1 and run.stderr.startswith(f"fault 18\nworldd: {folder}/image.a: {reason}")
            want(refused, f"create without room: {run}")
            self.met["create without room"] += 1

    def passing_shortages(self) -> None:
        """A start meets a shortage of descriptors, buffers or locks: it has the status of a shortage by the flag alone."""
        for (call, name, number), statuses in itertools.product(SHORTAGES, (DETAILED, ())):
            folder = self.world()
            process, failed = self.failing(call, folder.name if name == "." else name, 1, number)
            run = self.run("serve", "--dir", folder, *SERVE, *statuses, capture_output=True, text=True, **process)
            want(failed.exists(), f"a start without a {call} of {name}: {run}")
            reported = run.stderr.startswith("fault 18\n") and f"(os error {number})" in run.stderr
            wanted = SHORTAGE if statuses else 1
            want(run.returncode == wanted and reported, f"a start whose {call} of {name} fails by {number}: {run}")
            self.met["shortage at a start"] += 1

    def made_meanwhile(self) -> None:
        """Another program makes a file of a world after `create` has looked for it."""
        for name in NAMES:
            folder = self.folder()
            folder.mkdir()
            process, failed = self.failing("open", name, 1, errno.EEXIST)
            run = self.run("create", "--dir", folder, "--cells", 2, capture_output=True, text=True, **process)
            refused = run.returncode == 1 and run.stderr.startswith(f"fault 18\nworldd: {folder}/{name}: {HELD}")
            want(refused and failed.exists(), f"create beside a program that makes {name}: {run}")
            self.met["made meanwhile"] += 1

    def play_past(self, server: Server, failed: pathlib.Path) -> int:
        """Plays until a call has failed and some batches longer. Returns the last tick that was answered."""
        client, tick, left = server.client(), 0, SENT_ON
        end = time.monotonic() + PATIENCE_SECONDS
        while left:
            answer = client.play()
            if answer.startswith(b"tick"):
                tick += 1
                want(answer == b"tick %d: +\n" % tick, f"the answer of tick {tick}: {answer!r}")
            else:
                want(answer == b"fault 12\n" and failed.exists(), f"the answer after tick {tick}: {answer!r}")
            left -= failed.exists()
            want(time.monotonic() < end, "no call fails")
        client.leave()
        return tick

    def failed_reads(self) -> None:
        """A sync or a read of a file fails once, and each command says that it read again; or twice, and the file is lost."""
        for (call, name), commands in FAILED_CALLS.items():
            for command, printed in commands.items():
                for count in 1, 2:
                    world, copy = self.world(), self.folder()
                    copy.mkdir()
                    flags = ("--to", copy) if command in ("backup", "salvage") else ()
                    process, _ = self.failing(call, name, 1, errno.EIO, count)
                    run = self.run(command, "--dir", world, *flags, capture_output=True, text=True, **process)
                    again = f"worldd: {world}/{name}: a read failed, and was tried again: {FAILED}\n"
                    lost, dropped = f"{name}: lost: {FAILED}\n", f"dropped: {name}\n"
                    if count == 1:
                        is_so = (run.returncode, run.stderr) == (0, again) and run.stdout.endswith(printed)
                    elif command == "salvage":
                        is_so = (run.returncode, run.stderr) == (14, "") and lost in run.stdout and run.stdout.endswith(dropped)
                    else:
                        is_so = (run.returncode, run.stderr) == (1, f"fault 18\nworldd: {world}/{name}: {FAILED}\n")
                    want(is_so, f"{command} with {count} {call} of {name} failed: {run.returncode} {run.stdout}{run.stderr}")
                    self.met["read tried again" if count == 1 else "read failed again"] += 1

    def failed_copies(self) -> None:
        """A copy that fails, and a file of it that can't be removed: that one is named, and the others are gone."""
        for command, made, failing in ("backup", "log.a", "image.a"), ("salvage", "log.b", "image.a"):
            world, copy = self.world(), self.folder()
            copy.mkdir()
            process, _ = self.failing("unlink", made, 1, errno.EACCES)
            limit = limiting(resource.RLIMIT_FSIZE, 20)
            words: Words = [command, "--dir", world, "--to", copy]
            run = self.run(*words, capture_output=True, text=True, preexec_fn=limit, **process)
            wanted = f"fault 18\nworldd: {copy}/{failing}: {SHORT}; {made} was made\n"
            want((run.returncode, run.stderr) == (1, wanted), f"a failed {command}: {run.returncode} {run.stderr}")
            want([path.name for path in copy.iterdir()] == [made], f"a failed {command} leaves {list(copy.iterdir())}")
            self.met["file of a copy left"] += 1

    def server_line(self, folder: pathlib.Path, **process: Any) -> str:
        """What `status` prints of the server of a world."""
        command = (process.pop("program", self.worldd), "status", "--dir", folder)
        run = subprocess.run(command, capture_output=True, text=True, timeout=PATIENCE_SECONDS, **process)
        line: str = run.stdout.splitlines()[-1] if run.stdout else ""
        unread = run.returncode == 1 and ": Permission denied (os error 13)\n" in run.stderr
        want(line in SERVER_LINES and (run.returncode == 0 or unread), f"status prints {run.stdout}{run.stderr}")
        self.met[line] += 1
        return line

    def becomes(self, folder: pathlib.Path, before: str, line: str, play: Callable[[], object] = lambda: None) -> None:
        """Plays until `status` prints this line. It may print the one before it until then, and no other."""
        end = time.monotonic() + PATIENCE_SECONDS
        while (found := self.server_line(folder)) != line:
            want(found == before and time.monotonic() < end, f"`{line}` is wanted, and `status` prints `{found}`")
            play()

    def server_lines(self) -> None:
        """`status` prints whether a world is served and what of its server is down, up to the server's end."""
        server = self.server("--every", "64")
        client = server.client()
        self.becomes(server.folder, UP, UP)
        second = ran(self.worldd, "serve", server.folder, *SERVE)
        is_refused = second.returncode == 1 and second.stderr == f"fault 18\nworldd: {server.folder}/image.a: {HELD}\n"
        want(is_refused, f"a second server: {second}")
        self.met["second server refused"] += 1
        resource.prlimit(server.process.pid, resource.RLIMIT_FSIZE, (START_LIMIT, START_LIMIT))
        self.becomes(server.folder, UP, NO_IMAGES, client.play)
        self.end_log(server, client)
        self.becomes(server.folder, NO_IMAGES, NEITHER)
        server.kill()
        self.becomes(server.folder, NO_SERVER, NO_SERVER)
        again = Server(self.worldd, server.folder, "--every", "65536")
        client = again.client()
        self.becomes(server.folder, UP, UP)
        self.end_log(again, client)
        self.becomes(server.folder, UP, NO_LOG)
        again.kill()
        self.becomes(server.folder, NO_SERVER, NO_SERVER)

    def end_log(self, server: Server, client: Client) -> None:
        """Plays until the log is down, since its file may hardly grow."""
        figures = self.run("status", "--dir", server.folder, capture_output=True, text=True).stdout
        most = (server.folder / found_in_text(r"(log\.[ab]) has", figures)[1]).stat().st_size + 3
        resource.prlimit(server.process.pid, resource.RLIMIT_FSIZE, (most, most))
        end = time.monotonic() + PATIENCE_SECONDS
        while client.play().startswith(b"tick"):
            want(time.monotonic() < end, "a log grows over its limit")
        want(client.play() == b"fault 12\n", "no `fault 12` of a log that is down")

    def unread_files(self) -> None:
        """The same if this user may not read the files, and if it may read only image.a."""
        self.scratch.chmod(0o755)
        worldd = self.scratch / "worldd"
        shutil.copy(self.worldd, worldd)
        worldd.chmod(0o755)
        how: dict[str, Any] = {"program": worldd, **(AS_STRANGER if is_root() else {})}
        server = self.server()
        server.client().play()
        for name in NAMES:
            (server.folder / name).chmod(0)
        want(self.server_line(server.folder, **how) == UNKNOWN, "files that can't be read have a server")
        (server.folder / "image.a").chmod(0o444)
        want(self.server_line(server.folder, **how) == UNKNOWN_PARTS, "one file that can be read has no server")
        server.kill()
        want(self.server_line(server.folder, **how) == NO_SERVER, "one file that can be read has a server")

    def slow_readers(self) -> None:
        """A program that looks at a world keeps its lock: whoever writes the world waits for it, and not for long."""
        for command in (("serve", *SERVE), ("create", "--cells", "2")):
            folder = self.world() if command[0] == "serve" else self.folder()
            folder.mkdir(exist_ok=True)
            (folder / "image.a").touch()
            with open(folder / "image.a", "rb") as reader:
                fcntl.flock(reader, fcntl.LOCK_SH)
                run = self.run(*command, "--dir", folder, capture_output=True, text=True)
                refused = run.returncode == 1 and run.stderr.startswith(f"fault 18\nworldd: {folder}/image.a: {KEPT}")
                want(refused, f"{command[0]} beside a slow reader: {run}")
                self.met["reader too slow"] += 1
                process = subprocess.Popen((self.worldd, *command, "--dir", folder), stdout=subprocess.PIPE)
                time.sleep(0.2)
                want(process.poll() is None, f"{command[0]} ended beside a reader")
            line = pipe(process.stdout).readline()
            want(line in (b"recovered 0 from 0\n", b"created 2\n"), f"{command[0]} beside a reader that has gone: {line!r}")
            process.kill()
            process.communicate()
            self.met["reader waited for"] += 1

    def starts_beside_looks(self) -> None:
        """Others look all the time while servers start. None is refused, and none is reported with a part that is down."""
        folder = self.world()
        command: Words = (self.worldd, "serve", "--dir", folder, *SERVE)
        with Lookers(self, folder):
            for _ in range(LOOKED_AT):
                self.starts(command, 1)
                self.met["start beside looks"] += 1
            for _ in range(PAIRS):
                self.starts(command, 2)
                self.met["one of two servers"] += 1

    def starts(self, command: Words, count: int) -> None:
        """So many servers of one world start at once: one of them serves it."""
        servers = [subprocess.Popen(command, stdout=subprocess.PIPE, stderr=subprocess.PIPE) for _ in range(count)]
        serving = [server for server in servers if pipe(server.stdout).readline().startswith(b"recovered")]
        for server in servers:
            if server not in serving:
                errors = server.communicate()[1].decode()
                want(errors.endswith(f": {HELD}\n"), f"a start was refused: {errors}")
        want(len(serving) == 1, f"{len(serving)} of {count} servers serve one world")
        line = pipe(serving[0].stdout).readline()
        serving[0].kill()
        errors = serving[0].communicate()[1].decode()
        want(line.startswith(b"listening"), f"a server ended beside looks: {errors}")

    def no_null(self) -> None:
        """There is no /dev/null: it is wanted only in place of a stream that is closed."""
        room = self.folder()
        room.mkdir()
        worldd = shutil.copy(self.worldd, room / "worldd")
        for file in re.findall(r"(/\S+) \(0x", subprocess.run(("ldd", worldd), capture_output=True, text=True).stdout):
            (room / file[1:]).parent.mkdir(parents=True, exist_ok=True)
            shutil.copy(file, room / file[1:])
        if not is_root():
            return
        command = ("chroot", room, "/worldd", "--version")
        run = subprocess.run(command, capture_output=True, text=True)
        want(run.returncode == 0 and run.stdout.startswith("worldd "), f"without /dev/null: {run}")
        run = subprocess.run(("sh", "-c", 'exec "$@" 0<&-', "sh", *command), capture_output=True, text=True)
        want(run.returncode == 1 and "worldd: /dev/null: " in run.stderr, f"without /dev/null and input: {run}")
        self.met["no /dev/null"] += 1

    def links(self) -> None:
        """Files that aren't ordinary files with one name, for those that write a world."""
        symbolic, hard = "a symbolic link", "it has another name, by a hard link"
        for command in (("serve", *SERVE), ("create", "--cells", "2")):
            for name, other, reason in (
                ("image.a", None, symbolic), ("log.b", None, symbolic), ("image.b", "image.a", hard), ("log.b", "log.a", hard),
            ):
                folder = self.world() if command[0] == "serve" else self.folder()
                folder.mkdir(exist_ok=True)
                aside = folder.with_suffix(".aside")
                if command[0] == "serve":
                    (folder / name).rename(aside)
                else:
                    aside.write_bytes(b"")
                if other is None:
                    (folder / name).symlink_to(aside)
                else:
                    (folder / other).touch()
                    os.link(folder / other, folder / name)
                before = aside.read_bytes()
                run = self.run(command[0], "--dir", folder, *command[1:], capture_output=True, text=True)
                refused = run.returncode == 1 and run.stderr.startswith("fault 18\n") and reason in run.stderr
                want(refused, f"{command[0]} over {name}: {run.stderr}")
                want(aside.read_bytes() == before, f"{command[0]} wrote through {name}")
                self.met["link refused"] += 1
        folder = self.folder()
        folder.mkdir()
        self.run("create", "--dir", folder, "--cells", 2, preexec_fn=lambda: os.umask(0), capture_output=True)
        for name in NAMES:
            want((folder / name).stat().st_mode & 0o777 == 0o600, f"{name} is open to others")
            self.met["mode of a new file"] += 1

    def full_file(self) -> None:
        """The log reaches a limit on its size: a line names the cause, and the program ends if it is asked to."""
        # A server that is to end at once waits for its second client's end then, or for a third client.
        for flags, clients, transport in (((), 2, "port"), (EXIT, 2, "port"), (EXIT, 3, "port"), (EXIT, 3, SOCKET)):
            limit = limiting(resource.RLIMIT_FSIZE, FILE_LIMIT)
            server = self.server("--every", "65536", *flags, clients=clients, transport=transport, preexec_fn=limit)
            client, idle = server.client(), server.client()
            ticks = 0
            while (answer := client.play(b"add 0 1\n" * 16)).startswith(b"tick"):
                ticks += 1
            if flags:
                status, _, errors = server.end()
                want(status == 12 and not server.path.exists(), f"the end by the log: {status}")
                self.met["ended by its log"] += 1
            else:
                want(answer == b"fault 12\n", f"the answer after the log is down: {answer!r}")
                idle.leave()
                client.leave()
                status, _, errors = server.end()
                want(status == 12, f"the end after the log is down: {status}")
            want(f"worldd: log down after tick {ticks}: " in errors and SHORT in errors, f"no cause of the log: {errors}")
            self.met["short write named"] += 1
            server.holds(ticks)

    def failed_start(self) -> None:
        """A start can't write its image: the world that was recovered is printed, and the program ends with the fault."""
        first = self.server()
        first.client().play()
        first.kill()
        again = Server(self.worldd, first.folder, preexec_fn=limiting(resource.RLIMIT_FSIZE, START_LIMIT))
        status, output, errors = again.end()
        want((status, output) == (SHORTAGE, "recovered 1 from 0\n"), f"a start that fails: {status} {output}")
        want(errors.startswith("fault 18\n") and SHORT in errors, f"no cause of the start: {errors}")
        self.met["start that fails"] += 1
        again.holds(1)

    def threads(self) -> None:
        """There is room for some threads, and not for all."""
        for megabytes in range(8, 80, 4):
            server = self.server(preexec_fn=limiting(resource.RLIMIT_AS, megabytes << 20))
            time.sleep(0.05)
            if server.process.poll() is None:
                server.kill()
                break
            status, output, errors = server.end()
            want("listening" not in output, "it listened without its threads")
            if "there is no thread for the server" in errors:
                want(status == SHORTAGE and errors.startswith("fault 17\n"), f"no thread: {status} {errors}")
                want(output == "recovered 0 from 0\n", f"no thread before the world was recovered: {output}")
                self.met["no thread named"] += 1

    def socket_modes(self) -> None:
        """A socket has the mode that is asked for, whatever the mask of the process is, and is removed at the end."""
        for mode, mask in itertools.product((None, "0600", "0660", "0666"), (0, 0o077)):
            flags = ("--socket-mode", mode) if mode else ()
            server = self.server(*flags, clients=1, transport=SOCKET, umask=mask)
            client = server.client()
            found = stat.S_IMODE(server.path.stat().st_mode)
            want(found == int(mode or "0600", 8), f"a socket of mode {mode} has {found:o}")
            want(client.play() == b"tick 1: +\n", "no answer by a socket")
            client.leave()
            self.met["socket with its mode"] += 1
            status, output, _ = server.end()
            want(status == 0 and f"listening {server.path}\n" in output, f"the end at a socket: {status} {output}")
            self.nothing_left(server.path)

    def nothing_left(self, path: pathlib.Path) -> None:
        """Neither a socket nor the folder in which it was made is left."""
        left = list(path.parent.glob(f"{path.name}*"))
        want(not left, f"a server left {left}")
        self.met["socket removed"] += 1

    def old_sockets(self) -> None:
        """A socket that nobody listens on is replaced, also beside the folder of a start that was killed."""
        server = self.server(transport=SOCKET)
        client = server.client()
        want(client.play() == b"tick 1: +\n", "no answer by a new socket")
        server.kill()
        client.leave()
        room = server.path.with_name(f"{server.path.name}.new")
        room.mkdir()
        socket.socket(socket.AF_UNIX).bind(str(room / "s"))
        again = Server(self.worldd, server.folder, clients=1, transport=SOCKET)
        client = again.client()
        want(client.play() == b"tick 2: +\n", "no answer by a socket that was replaced")
        client.leave()
        want(again.end()[0] == 0, "the end at a socket that was replaced")
        self.nothing_left(server.path)
        self.met["old socket replaced"] += 1

    def refused(self, path: pathlib.Path, reason: str) -> None:
        """A server at this path ends with its reason."""
        folder = self.world()
        flags = ("--method", "zigzag", "--socket", path, "--clients", 1)
        run = self.run("serve", "--dir", folder, *flags, capture_output=True, text=True)
        wanted = f"fault 18\nworldd: {path}: {reason}"
        want(run.returncode == 1 and run.stderr.startswith(wanted), f"at {path}: {run.returncode} {run.stderr}")
        want("listening" not in run.stdout, f"it listened at {path}")

    def taken_places(self) -> None:
        """A server leaves what it finds at its path, and whoever listens there."""
        room = self.folder()
        room.mkdir()
        file, folder, link, pipe, blocked = (room / name for name in ("file", "folder", "link", "pipe", "blocked"))
        file.write_bytes(b"kept")
        folder.mkdir()
        link.symlink_to(room / "nothing")
        os.mkfifo(pipe)
        for path, what in ((file, "a file"), (folder, "a folder"), (link, "a symbolic link"), (pipe, "a pipe or a device")):
            before = path.lstat()
            self.refused(path, f"{what} is in the socket's place\n")
            want(path.lstat() == before, f"{path} isn't what it was")
            self.met["socket's place taken"] += 1
        want(file.read_bytes() == b"kept" and not (room / "nothing").exists(), "a file was written by its socket's server")
        (room / "blocked.new").write_bytes(b"kept")
        self.refused(blocked, "this name with `.new` after it already exists\n")
        self.refused(room / ("x" * (102 - len(f"{room}/"))), "a socket's path has at most 101 bytes\n")
        self.refused(room / "missing" / "socket", "No such file or directory (os error 2)\n")
        self.refused(file / "socket", "Not a directory (os error 20)\n")
        left = sorted(path.name for path in room.iterdir())
        want(left == ["blocked.new", "file", "folder", "link", "pipe"], f"servers that were refused left {left}")

    def socket_in_use(self) -> None:
        """A second server at a path is refused. A file that takes a socket's place stays there."""
        server = self.server(transport=SOCKET)
        client = server.client()
        self.refused(server.path, "another program listens there\n")
        want(client.play() == b"tick 1: +\n", "no answer beside a server that was refused")
        want(server.client().play() == b"tick 2: +\n", "no second client beside a server that was refused")
        self.met["socket in use kept"] += 1
        server.kill()
        server = self.server(transport=SOCKET, clients=2)
        client, aside = server.client(), server.path.with_suffix(".aside")
        server.path.rename(aside)
        server.path.write_bytes(b"kept")
        for one in (client, Client(str(aside))):
            want(one.play().startswith(b"tick"), "no answer by a socket that was renamed")
            one.leave()
        want(server.end()[0] == 0 and server.path.read_bytes() == b"kept", "a server removed another file")
        self.met["other file kept"] += 1

    def next_server(self) -> None:
        """A server takes the path of one that is closed and still plays, and keeps it after the other's end."""
        first = self.server(transport=SOCKET, clients=1)
        client = first.client()
        want(client.play() == b"tick 1: +\n", "no answer by a socket")
        first.wait_until_closed()
        second = self.server(transport=SOCKET, path=first.path)
        want(second.client().play() == b"tick 1: +\n", "no answer by the next server")
        want(client.play() == b"tick 2: +\n", "no answer of the server before")
        client.leave()
        want(first.end()[0] == 0, "the end of the server before")
        want(second.client().play() == b"tick 2: +\n", "a server removed the socket of the next one")
        second.kill()
        self.met["next server's socket kept"] += 1

    def too_long(self, transport: str) -> None:
        """Clients that send on after a batch that is too long read why it is refused. No connection is reset."""
        server = self.server(transport=transport, clients=LONG_BATCHES)
        for number in range(LONG_BATCHES):
            client = server.client()
            client.socket.sendall(b"get 0\n" * (1_025 + number % 3 * SENT_AFTER))
            want(client.answers.read() == b"fault 16\n", f"no `fault 16` by a {transport}")
            self.met["fault 16 not reset"] += 1
            client.leave()
        want(server.end()[0] == 0, "the end after batches that were too long")

    def longest_path(self) -> None:
        """A path of as many bytes as a socket may have."""
        folder = self.scratch / ("x" * (101 - len(f"{self.scratch}/.socket")))
        server = Server(self.worldd, folder, clients=1, transport=SOCKET)
        client = server.client()
        want(client.play() == b"tick 1: +\n", "no answer by a socket of a long path")
        client.leave()
        want(server.end()[0] == 0, "the end at a socket of a long path")
        self.nothing_left(server.path)

    def users(self) -> None:
        """The mode of a socket says which users may connect, from its first moment on."""
        self.scratch.chmod(0o755)
        worldd, room = self.scratch / "worldd", self.folder()
        shutil.copy(self.worldd, worldd)
        worldd.chmod(0o755)
        room.mkdir()
        os.chown(room, OWNER, OWNER)
        subprocess.run([worldd, "create", "--dir", room, "--cells", "2"], check=True, capture_output=True, **AS_OWNER)
        path = room / "socket"
        fixed = (worldd, "serve", "--dir", room, "--method", "zigzag", "--clients", "100000", "--socket", path)
        for mode, of_group, of_all in (("0600", False, False), ("0660", True, False), ("0666", True, True)):
            command: Words = (*fixed, "--socket-mode", mode)
            with serving(command):
                for user, group, may in ((OWNER, OWNER, True), (STRANGER, OWNER, of_group), (STRANGER, STRANGER, of_all)):
                    self.enter(path, mode, user, group, may)
            self.knocked(command, path, of_all)

    def knocked(self, command: Words, path: pathlib.Path, may: bool) -> None:
        """A stranger tries to connect all the time while servers start at a path. It comes in if it may, and else never."""
        with Stranger(path) as stranger:
            for _ in range(STARTS):
                tries = stranger.tries.value
                with serving(command):
                    if may:
                        stranger.process.join(PATIENCE_SECONDS)
                    else:
                        want(not stranger.came_in.value, f"a stranger came in as a server started: {command}")
                        # On a busy machine the stranger may sleep through a start, which then doesn't count.
                        if stranger.tries.value > tries:
                            self.met["socket never open to others"] += 1
            came_in = bool(stranger.came_in.value)
        want(came_in == may, f"a stranger {'came in' if came_in else 'stayed outside'}: {command}")

    def enter(self, path: pathlib.Path, mode: str, user: int, group: int, may: bool) -> None:
        """A user connects, or is refused."""
        process = FORK.Process(target=play_as, args=(str(path), user, group))
        process.start()
        process.join()
        want(process.exitcode == (LET_IN if may else REFUSED), f"user {user} of group {group} at mode {mode}: {process.exitcode}")
        self.met["user let in" if may else "user refused"] += 1

    def parts(self, connections: int) -> dict[str, Callable[[], object]]:
        """Every case, by the names of the parts that try them."""
        single = (
            self.ended_sessions, self.left_at_once, self.unlimited_clients, self.closed_streams, self.overstayed, self.shortage,
            self.lost_files, self.left_for_lost_files, self.images_down, self.syncs, self.reasons, self.made_meanwhile,
            self.passing_shortages, self.failed_reads, self.failed_copies, self.server_lines,
            self.unread_files, self.slow_readers, self.starts_beside_looks, self.no_null, self.descriptors, self.refused_clients,
            self.lost_listener, self.unread_errors, self.broken_output, self.links, self.full_file, self.failed_start,
            self.threads, self.socket_modes, self.old_sockets, self.taken_places, self.socket_in_use, self.next_server,
            self.longest_path, *((self.users,) if is_root() else ()),
        )
        return {
            "short_connections": lambda: [*map(functools.partial(self.short_connections, connections), TRANSPORTS)],
            "door": lambda: [*map(self.door, TRANSPORTS)],
            **{part.__name__: part for part in single},
            "too_long": lambda: [*map(self.too_long, TRANSPORTS)],
        }


def become(user: int, group: int) -> None:
    """This process goes on as another user."""
    os.setgroups([])
    os.setgid(group)
    os.setuid(user)


def play_as(path: str, user: int, group: int) -> None:
    """The work of a process: a user plays at a socket."""
    become(user, group)
    try:
        sys.exit(LET_IN if Client(path).play(b"get 0\n").startswith(b"tick") else 1)
    except PermissionError:
        sys.exit(REFUSED)


def knock(path: str, tries: ctypes.c_long, came_in: ctypes.c_byte) -> None:
    """The work of a process: a stranger tries to connect, also while the socket is made, again and again until it may."""
    become(STRANGER, STRANGER)
    while not came_in.value:
        for place in (path, f"{path}.new/s"):
            try:
                connect(place).close()
                came_in.value = 1
            except OSError:
                pass
        tries.value += 1


class Stranger:
    """A process of another user that tries to connect to a path."""

    def __init__(self, path: pathlib.Path) -> None:
        self.tries, self.came_in = FORK.RawValue("l"), FORK.RawValue("b")
        self.process = FORK.Process(target=knock, args=(str(path), self.tries, self.came_in), daemon=True)

    def __enter__(self) -> "Stranger":
        self.process.start()
        while not self.tries.value:
            want(self.process.is_alive(), "there is no stranger")
            time.sleep(0.001)
        return self

    def __exit__(self, *_: object) -> None:
        self.process.kill()
        self.process.join()


def ask_on(path: pathlib.Path) -> None:
    """The work of a process: it asks for the lock of a file as `status` does, again and again."""
    with open(path, "rb") as file:
        while True:
            with contextlib.suppress(BlockingIOError):
                fcntl.flock(file, fcntl.LOCK_SH | fcntl.LOCK_NB)
                fcntl.flock(file, fcntl.LOCK_UN)


class Lookers:
    """Threads that look at the server of a world again and again, and a process that does nothing else than ask for its lock."""

    def __init__(self, trial: Trial, folder: pathlib.Path) -> None:
        self.trial, self.folder, self.is_over, self.wrong = trial, folder, threading.Event(), ""
        self.threads = [threading.Thread(target=self.look) for _ in range(LOOKERS)]
        self.process = FORK.Process(target=ask_on, args=(folder / "image.a",), daemon=True)

    def look(self) -> None:
        """The work of a thread: no server is reported with a part that is down."""
        while not self.is_over.is_set():
            try:
                line = self.trial.server_line(self.folder)
                want(line in (UP, NO_SERVER), f"a server that starts is reported as `{line}`")
            except (Wrong, subprocess.SubprocessError) as wrong:
                self.wrong = str(wrong)

    def __enter__(self) -> None:
        self.process.start()
        for thread in self.threads:
            thread.start()

    def __exit__(self, *_: object) -> None:
        self.is_over.set()
        for thread in self.threads:
            thread.join()
        self.process.kill()
        self.process.join()
        want(not self.wrong, self.wrong)


@contextlib.contextmanager
def serving(command: Words) -> Iterator[None]:
    """A server of the owner, whose process has no mask, from the line that it listens on."""
    server: subprocess.Popen[bytes] = subprocess.Popen(
        command, umask=0, stdout=subprocess.PIPE, stderr=subprocess.DEVNULL, **AS_OWNER
    )
    try:
        lines = [line[:9] for line in begun(server)]
        want(lines == [b"recovered", b"listening"], f"no server of another user: {command}")
        yield
    finally:
        server.kill()
        server.communicate()


def processor_seconds(pid: int) -> float:
    """How long a process has run on processors."""
    fields = pathlib.Path(f"/proc/{pid}/stat").read_text().rpartition(")")[2].split()
    return (int(fields[11]) + int(fields[12])) / os.sysconf("SC_CLK_TCK")


def is_root() -> bool:
    """Whether other users can be tried."""
    return os.geteuid() == 0


# The stacks are those of sessions.
Footprint = collections.namedtuple("Footprint", "maps stacks threads kilobytes descriptors size")


def footprint(pid: int) -> Footprint:
    """What a process has of the system."""
    process = pathlib.Path(f"/proc/{pid}")
    status = dict(line.split(":\t", 1) for line in (process / "status").read_text().splitlines())
    maps = [line.split() for line in (process / "maps").read_text().splitlines()]
    bounds = [[int(end, 16) for end in row[0].split("-")] for row in maps if row[1] == "rw-p" and len(row) == 5]
    stacks = sum(0 <= STACK_BYTES - (end - start) <= mmap.PAGESIZE for start, end in bounds)
    kilobytes, size = (int(status[name].split()[0]) for name in ("VmRSS", "VmSize"))
    return Footprint(len(maps), stacks, int(status["Threads"]), kilobytes, len(os.listdir(process / "fd")), size << 10)


def report(met: collections.Counter[str]) -> None:
    """Prints how often each case was met."""
    cases = CASES + CASES_OF_ROOT if is_root() else CASES
    for case in cases:
        print(f"surroundings: {case}: {met[case]}")
    if not is_root():
        print(f"surroundings: not tried, since only root can: {', '.join(CASES_OF_ROOT)}")
    all_met(met, cases)


def main() -> int:
    """Runs every case in its own folder."""
    parser = parser_of(__doc__)
    parser.add_argument("--connections", type=int, default=3_000, help="how many short connections come in a row")
    parser.add_argument("--only", metavar="PART", help="the one part to try, by the name of its function")
    given = parser.parse_args()
    signal.signal(signal.SIGPIPE, signal.SIG_IGN)

    def run() -> None:
        with tempfile.TemporaryDirectory(prefix="surroundings") as scratch:
            trial = Trial(given.worldd, pathlib.Path(scratch))
            parts = trial.parts(given.connections)
            for part in [parts[given.only]] if given.only else parts.values():
                part()
        if not given.only:
            report(trial.met)

    return status_of("surroundings", run)


if __name__ == "__main__":
    sys.exit(main())
