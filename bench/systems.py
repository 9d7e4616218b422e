"""The systems that bench/beside.py measures: each makes its data in an empty folder, serves it to so many clients that wait
for each answer, and syncs each batch before it is answered.
"""
import contextlib
import csv
import dataclasses
import functools
import itertools
import os
import pathlib
import pwd
import re
import shutil
import signal
import socket
import statistics
import subprocess
import time
from collections.abc import Callable, Iterator
from typing import Any

PORT, SOCKET, LIBRARY = "port", "socket", "library"
CELLS = 65_536
VALUE_BYTES = 6
FIRST_SETS = 2_000
START_SECONDS = 60
TICKS_A_SECOND = os.sysconf("SC_CLK_TCK")
QUIET = subprocess.DEVNULL
HERE = pathlib.Path(__file__).parent


@dataclasses.dataclass(frozen=True)
class Load:
    """What is played: how the clients reach the system, how many there are, sets a batch, and for how many seconds."""

    transport: str
    clients: int
    lines: int
    seconds: int


@dataclasses.dataclass(frozen=True)
class Sample:
    """One run: batches a second, the median of a batch's wait in milliseconds, and microseconds of processor time a batch."""

    batches: float
    wait: float
    processor: float


@dataclasses.dataclass(frozen=True)
class System:
    """A system: its name, its transports, what of it isn't installed, and what runs a load in an empty folder."""

    name: str
    transports: tuple[str, ...]
    lacks: list[str]
    run: Callable[[pathlib.Path, Load], Sample]


def missing(*commands: str) -> list[str]:
    """Those of the commands that aren't installed."""
    return [command for command in commands if not shutil.which(command)]


def free_port() -> int:
    """A port that nobody listens on."""
    with socket.socket() as probe:
        probe.bind(("127.0.0.1", 0))
        port: int = probe.getsockname()[1]
        return port


def processor_seconds(pid: int) -> float:
    """How long a process, its children and those that it has waited for have kept processors busy."""
    try:
        fields = pathlib.Path(f"/proc/{pid}/stat").read_text().rsplit(")", 1)[1].split()
        children = pathlib.Path(f"/proc/{pid}/task/{pid}/children").read_text().split()
    except OSError:
        return 0.0
    return sum(map(int, fields[11:15])) / TICKS_A_SECOND + sum(processor_seconds(int(child)) for child in children)


@contextlib.contextmanager
def running(command: list[str], folder: pathlib.Path, user: str | None = None) -> Iterator[subprocess.Popen[str]]:
    """A server that runs in a folder until it is killed."""
    # A server of processes ends them if it is asked to.
    ending = signal.SIGINT if user else signal.SIGKILL
    process = subprocess.Popen(command, cwd=folder, stdout=subprocess.PIPE, stderr=QUIET, text=True, **as_user(user))
    try:
        yield process
    finally:
        process.send_signal(ending)
        process.wait()


def as_user(user: str | None) -> dict[str, Any]:
    """What makes a command run as this user."""
    return {"user": user, "group": pwd.getpwnam(user).pw_gid} if user and os.geteuid() == 0 else {}


def printed_by(command: list[str], folder: pathlib.Path) -> str:
    """What a command prints that plays a load in a folder."""
    ran = subprocess.run(command, cwd=folder, capture_output=True, text=True)
    if ran.returncode:
        raise SystemExit(f"bench: {' '.join(command)} ended with status {ran.returncode}: {ran.stdout}{ran.stderr}")
    return ran.stdout


def driver_of(name: str, room: str, *libraries: str) -> str:
    """A driver in C, compiled. It is empty if that fails, since a header or a library isn't there."""
    driver = f"{room}/{name}"
    command = ["cc", "-O2", "-pthread", "-o", driver, str(HERE / f"{name}.c"), *libraries]
    return "" if subprocess.run(command, stdout=QUIET, stderr=QUIET).returncode else driver


def until(succeeds: list[str], server: subprocess.Popen[str]) -> None:
    """Waits until this command succeeds: the server is up."""
    end = time.monotonic() + START_SECONDS
    while subprocess.run(succeeds, stdout=QUIET, stderr=QUIET).returncode:
        if server.poll() is not None or time.monotonic() > end:
            raise SystemExit(f"bench: the server of {succeeds[0]} doesn't start")
        time.sleep(0.05)


# Redis


def redis_sets(folder: pathlib.Path, at: list[str], load: Load, count: int) -> tuple[float, float]:
    """Sets a second over so many, and the median of a pipeline's wait in milliseconds."""
    command = ["redis-benchmark", *at, "-c", str(load.clients), "-P", str(load.lines), "-n", str(count)]
    keys = ["-r", str(CELLS), "-d", str(VALUE_BYTES), "-t", "set", "--csv"]
    printed = printed_by([*command, *keys], folder)
    row = next(csv.DictReader(printed.splitlines()))
    return float(row["rps"]), float(row["p50_latency_ms"])


def run_redis(folder: pathlib.Path, load: Load) -> Sample:
    """A run of Redis: its append-only file is synced before each answer."""
    port, path = free_port(), folder / "redis.socket"
    listening, at = {
        PORT: (["--port", str(port)], ["-p", str(port)]),
        SOCKET: (["--port", "0", "--unixsocket", str(path)], ["-s", str(path)]),
    }[load.transport]
    durable = ["--save", "", "--appendonly", "yes", "--appendfsync", "always", "--auto-aof-rewrite-percentage", "0"]
    with running(["redis-server", *listening, "--tcp-backlog", "4096", *durable], folder) as server:
        until(["redis-cli", *at, "ping"], server)
        rate, _ = redis_sets(folder, at, load, FIRST_SETS * load.lines)
        count = load.lines * max(int(rate * load.seconds / load.lines), load.clients)
        before = processor_seconds(server.pid)
        rate, wait = redis_sets(folder, at, load, count)
        used = processor_seconds(server.pid) - before
    return Sample(rate / load.lines, wait, 1e6 * used * load.lines / count)


# worldd


def run_worldd(programs: tuple[str, str], method: str, every: int, guard: list[str], folder: pathlib.Path, load: Load) -> Sample:
    """A run of worldd by this method, with an image after every so many ticks. It may keep a guard."""
    worldd, world_load = programs
    subprocess.run([worldd, "create", "--dir", ".", "--cells", str(CELLS), *guard], cwd=folder, check=True, stdout=QUIET)
    path = str(folder / "worldd.socket")
    listening = {PORT: ["--port", "0"], SOCKET: ["--socket", path]}[load.transport]
    # One client more than play, so that it doesn't end before its processor time is read.
    flags = ["--method", method, "--every", str(every), "--clients", str(load.clients + 1), *guard, *listening]
    with running([worldd, "serve", "--dir", ".", *flags], folder) as server:
        assert server.stdout is not None
        address = [server.stdout.readline() for _ in range(2)][1].split()[1]
        before = processor_seconds(server.pid)
        playing = ["--connections", str(load.clients), "--lines", str(load.lines), "--cells", str(CELLS)]
        command = [world_load, f"--{load.transport}", address, *playing, "--seconds", str(load.seconds)]
        printed = printed_by(command, folder)
        used = processor_seconds(server.pid) - before
    ticks, rate = map(int, re.findall(r"(\d+) ticks, (\d+) a second", printed)[0])
    return Sample(rate, float(re.findall(r"p50 (\S+)", printed)[0]), 1e6 * used / ticks)


# SQLite


def run_sqlite(driver: str, folder: pathlib.Path, load: Load) -> Sample:
    """A run of SQLite in the driver's own process: the processor time includes that of its clients."""
    numbers = map(str, (load.clients, load.lines, CELLS, load.seconds))
    return Sample(*map(float, printed_by([driver, "cells.db", *numbers], folder).split()))


# The device calls of a group, which no server that makes them can outrun, and those behind a thread for each client


def run_calls(driver: str, folder: pathlib.Path, load: Load) -> Sample:
    """A run of a driver that makes the four calls of a group, in which each client has a tick."""
    numbers = map(str, (load.clients, load.lines, load.seconds))
    return Sample(*map(float, printed_by([driver, "segment", *numbers], folder).split()))


# PostgreSQL


def postgres_script(lines: int) -> str:
    """A script of pgbench for one batch: one prepared update, which is a transaction. Its cells are in order, so that no two of
    them wait for each other."""
    draws = "".join(f"\\set c{line} random(1, {CELLS})\n\\set w{line} random(0, 999999)\n" for line in range(lines))
    if lines == 1:
        return f"{draws}UPDATE cells SET word = :w0 WHERE cell = :c0;\n"
    cells, words = (", ".join(f":{name}{line}" for line in range(lines)) for name in "cw")
    pairs = f"SELECT * FROM unnest(ARRAY[{cells}]::int[], ARRAY[{words}]::bigint[]) AS pair(cell, word) ORDER BY cell"
    return f"{draws}UPDATE cells SET word = given.word FROM ({pairs}) AS given WHERE cells.cell = given.cell;\n"


def postgres_folder(folder: pathlib.Path, user: str) -> pathlib.Path:
    """A new database in a folder of the user's own."""
    data = folder / "postgres"
    data.mkdir()
    if os.geteuid() == 0:
        shutil.chown(data, user)
    command = ["initdb", "--no-sync", "--auth", "trust", "--username", "bench", "--pgdata", str(data / "data")]
    subprocess.run(command, cwd=data, check=True, stdout=QUIET, **as_user(user))
    return data


def run_postgres(user: str, folder: pathlib.Path, load: Load) -> Sample:
    """A run of PostgreSQL, with a process for each client."""
    data, port = postgres_folder(folder, user), free_port()
    at = ["--host", {PORT: "127.0.0.1", SOCKET: str(data)}[load.transport], "--port", str(port), "--username", "bench"]
    settings = ["synchronous_commit=on", "listen_addresses=127.0.0.1", f"max_connections={load.clients + 20}"]
    flags = [word for setting in settings for word in ("-c", setting)]
    (folder / "batch.sql").write_text(postgres_script(load.lines))
    table = f"CREATE TABLE cells AS SELECT cell, 0::bigint AS word FROM generate_series(1, {CELLS}) AS cell"
    with running(["postgres", "-D", str(data / "data"), "-p", str(port), "-k", str(data), *flags], data, user) as server:
        until(["pg_isready", *at[:4]], server)
        for statement in (table, "ALTER TABLE cells ADD PRIMARY KEY (cell)", "VACUUM ANALYZE cells", "CHECKPOINT"):
            subprocess.run(["psql", *at, "--quiet", "--dbname", "postgres", "--command", statement], check=True)
        threads = str(min(load.clients, os.cpu_count() or 1))
        command = ["pgbench", *at, "--no-vacuum", "--protocol", "prepared", "--client", str(load.clients), "--jobs", threads]
        playing = ["--time", str(load.seconds), "--file", "batch.sql", "--log", "--log-prefix", "waits", "postgres"]
        before = processor_seconds(server.pid)
        printed = printed_by([*command, *playing], folder)
        used = processor_seconds(server.pid) - before
    rate = float(re.findall(r"tps = (\S+) \(without", printed)[0])
    waits = [int(line.split()[2]) for file in folder.glob("waits.*") for line in file.read_text().splitlines()]
    return Sample(rate, statistics.median(waits) / 1000, 1e6 * used / len(waits))


def postgres_user() -> str:
    """Whose process PostgreSQL is, which refuses to be root's."""
    if os.geteuid() != 0:
        return pwd.getpwuid(os.geteuid()).pw_name
    names = {entry.pw_name for entry in pwd.getpwall()}
    return "postgres" if "postgres" in names else "nobody"


def systems(programs: tuple[str, str], every: list[int], guards: list[list[str]], room: str) -> list[System]:
    """All systems, worldd by each of these flags. The others are measured beside Redis, which is the first one."""
    both = PORT, SOCKET
    found = [System("Redis", both, missing("redis-server", "redis-cli", "redis-benchmark"), run_redis)]
    for method in ("zigzag", "pingpong"):
        for ticks, guard in itertools.product(every, guards):
            run = functools.partial(run_worldd, programs, method, ticks, guard)
            found.append(System(" ".join([method, str(ticks), *guard]), both, [], run))
    lacks = missing("postgres", "initdb", "pg_isready", "psql", "pgbench")
    found.append(System("PostgreSQL", both, lacks, functools.partial(run_postgres, postgres_user())))
    compiler = missing("cc")
    driver = "" if compiler else driver_of("sqlite_sets", room, "-lsqlite3")
    lacks = compiler or ([] if driver else ["libsqlite3-dev"])
    found.append(System("SQLite", (LIBRARY,), lacks, functools.partial(run_sqlite, driver)))
    for name in ("device calls", "session threads"):
        driver = "" if compiler else driver_of(name.replace(" ", "_"), room)
        found.append(System(name, (LIBRARY,), compiler, functools.partial(run_calls, driver)))
    return found
