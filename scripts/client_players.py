"""The clients of clients/ as players of client_trial.py, which all have the same calls."""
import ctypes
import os
import pathlib
import shutil
import socket
import subprocess
from collections.abc import Callable
from typing import Any

from map import TOP
from trial import Words, pipe

import cektaulis
from cektaulis import Action, Set

SECONDS = 30
# What came of a call, in the words of scripts/client_player.c.
UNANSWERED, NOT_CONNECTED, GARBLED, TOO_LARGE = "unanswered", "not connected", "garbled", "too large"
ANSWER_LOST, MARKER_REFUSED, BAD_ADDRESS, BAD_ACTION = "answer lost", "marker refused", "bad address", "bad action"
NONE, ACTION_REFUSED = "none", "action refused"
# The number of the system's call that takes a descriptor of another process.
PIDFD_GETFD = 438
STRICT = "-Wall", "-Wextra", "-Wpedantic", "-Werror", f"-I{TOP}/clients/c"
IN_C = "-std=c11", "-D_POSIX_C_SOURCE=200809L"


class PythonPlayer:
    """The client in Python. Its calls return what came of them in the words of scripts/client_player.c."""

    # It is there once the client has connected.
    world: cektaulis.World

    def open_any(self, addresses: list[str], seconds: float) -> str:
        return self.open(addresses, seconds)

    def open(self, address: str | list[str], seconds: float) -> str:
        try:
            self.world = cektaulis.World(address, seconds)
        except OSError:
            return NOT_CONNECTED
        except ValueError:
            return BAD_ADDRESS
        return "ok"

    def reconnect(self, seconds: float) -> str:
        return self.answer(lambda: (self.world.reconnect(seconds), "ok")[1])

    def send(self, batch: list[Action]) -> str:
        return self.sent(*batch)

    def sent(self, *actions: Any) -> str:
        """Sends what may be no action."""

        def call() -> str:
            self.world.send(*actions)
            return "ok"

        return self.answer(call)

    def receive(self, _count: int) -> str:
        return self.answer(lambda: text_of(self.world.receive()))

    def play(self, batch: list[Action]) -> str:
        return self.answer(lambda: text_of(self.world.play(*batch)))

    def poll(self, _count: int) -> str:
        return self.answer(lambda: text_of(tick) if (tick := self.world.receive(wait=False)) else NONE)

    def step(self) -> str:
        return self.answer(lambda: NONE if self.world.reconnect(wait=False) is None else "ok")

    def again(self, seconds: float, batch: list[Action]) -> str:
        return self.answer(lambda: text_of(self.world.play_again(*batch, patience=seconds)))

    def read(self, cells: list[int]) -> str:
        return self.answer(lambda: " ".join(map(str, self.world.read(cells))))

    def load(self, first: int, words: list[int]) -> str:
        return self.answer(lambda: "ok" if self.world.load(words, first) == len(words) else "too few")

    def once(self, cell: int, number: int, seconds: float, batch: list[Action]) -> str:
        def call() -> str:
            tick = self.world.play_once(cell, number, *batch, patience=seconds)
            return text_of(tick) if tick else ANSWER_LOST

        return self.answer(call)

    def connections(self) -> int:
        return self.world.connections

    def lessen_buffers(self) -> None:
        with socket.socket(fileno=os.dup(self.world.fileno())) as stream:
            lessen_buffers(stream)

    def no_action(self) -> str:
        return self.sent([Set(0, 1)])

    def played(self, cell: int, number: int) -> str:
        return self.answer(lambda: "yes" if self.world.was_played(cell, number) else "no")

    def batch(self, actions: list[Action]) -> int:
        return len(next(cektaulis.batches(actions)))

    def close(self) -> None:
        if hasattr(self, "world"):
            self.world.close()

    def answer(self, call: Callable[[], str]) -> str:
        try:
            return call()
        except cektaulis.BatchRefused as refused:
            return f"fault {refused.fault.code}: {refused.fault.text}"
        except cektaulis.TooLarge:
            return TOO_LARGE
        except cektaulis.MarkerRefused:
            return MARKER_REFUSED
        except cektaulis.ActionRefused as refused:
            return f"{ACTION_REFUSED}: {refused.refusal.text}"
        except (TypeError, ValueError):
            return BAD_ACTION
        except cektaulis.LogDown:
            return f"fault 12: {cektaulis.Fault.LOG_DOWN.text}"
        except cektaulis.Unanswered:
            return UNANSWERED
        except cektaulis.Garbled:
            return GARBLED
        except OSError:
            return NOT_CONNECTED


class CPlayer:
    """The client in C, by scripts/client_player.c."""

    program: pathlib.Path

    def __init__(self) -> None:
        self.process = subprocess.Popen([self.program], stdin=subprocess.PIPE, stdout=subprocess.PIPE, text=True, bufsize=1)

    def ask(self, command: str) -> str:
        pipe(self.process.stdin).write(f"{command}\n")
        return pipe(self.process.stdout).readline().removesuffix("\n")

    def open(self, address: str, seconds: float) -> str:
        return self.ask(f"open {address} {seconds * 1000:.0f}")

    def open_any(self, addresses: list[str], seconds: float) -> str:
        return self.ask(f"open any {' '.join(addresses)} {seconds * 1000:.0f}")

    def reconnect(self, seconds: float) -> str:
        return self.ask(f"reconnect {seconds * 1000:.0f}")

    def send(self, batch: list[Action]) -> str:
        return self.ask(f"send {', '.join(map(str, batch))}")

    def receive(self, count: int) -> str:
        return self.ask(f"receive {count}")

    def play(self, batch: list[Action]) -> str:
        return self.ask(f"play {', '.join(map(str, batch))}")

    def poll(self, count: int) -> str:
        return self.ask(f"poll {count}")

    def step(self) -> str:
        return self.ask("step")

    def again(self, seconds: float, batch: list[Action]) -> str:
        return self.ask(f"again {seconds * 1000:.0f} {', '.join(map(str, batch))}")

    def read(self, cells: list[int]) -> str:
        return self.ask(f"read {' '.join(map(str, cells))}")

    def load(self, first: int, words: list[int]) -> str:
        return self.ask(f"load {first} {' '.join(map(str, words))}")

    def once(self, cell: int, number: int, seconds: float, batch: list[Action]) -> str:
        return self.ask(f"once {cell} {number} {seconds * 1000:.0f} {', '.join(map(str, batch))}")

    def connections(self) -> int:
        return int(self.ask("connections"))

    def lessen_buffers(self) -> None:
        self.ask("least buffers")

    def no_action(self) -> str:
        return self.ask("no action")

    def played(self, cell: int, number: int) -> str:
        return self.ask(f"played {cell} {number}")

    def batch(self, actions: list[Action]) -> int:
        return int(self.ask(f"batch {', '.join(map(str, actions))}"))

    def close(self) -> None:
        pipe(self.process.stdin).close()
        self.process.wait(SECONDS)


class RustPlayer(CPlayer):
    """The client in Rust, by scripts/client_player.rs."""

    program: pathlib.Path

    def lessen_buffers(self) -> None:
        """The standard library of Rust can't, so this takes the client's connection."""
        process = os.pidfd_open(self.process.pid)
        taken = ctypes.CDLL(None, use_errno=True).syscall(PIDFD_GETFD, process, int(self.ask("descriptor")), 0)
        os.close(process)
        if taken < 0:
            raise OSError(ctypes.get_errno(), "pidfd_getfd")
        with socket.socket(fileno=taken) as stream:
            lessen_buffers(stream)


# A client, by which a trial plays.
Player = PythonPlayer | CPlayer


def text_of(tick: cektaulis.Tick) -> str:
    """A tick in the words of the protocol, each refusal with its text."""
    words = (
        "+" if it is None else f"-{it.code}({it.text})" if isinstance(it, cektaulis.Refusal) else f"={it}"
        for it in tick.answers
    )
    return " ".join((f"tick {tick.number}:", *words))


def lessen_buffers(stream: socket.socket) -> None:
    """Makes the buffers of a connection as small as the system allows."""
    for buffer in (socket.SO_SNDBUF, socket.SO_RCVBUF):
        stream.setsockopt(socket.SOL_SOCKET, buffer, 1)


def build_players(room: pathlib.Path) -> None:
    """Compiles the players in C and, with rustc, in Rust."""
    CPlayer.program, RustPlayer.program = room / "player-c", room / "player-rust"
    subprocess.run(["cc", *IN_C, "-O2", *STRICT, "-o", CPlayer.program, TOP / "scripts" / "client_player.c"], check=True)
    if not shutil.which("rustc"):
        print("client_trial: there is no rustc, so the client in Rust isn't tried")
        return
    build: Words = ["rustc", "--edition", "2021", "-O", "-D", "warnings", "-o", RustPlayer.program]
    subprocess.run([*build, TOP / "scripts" / "client_player.rs"], check=True)


def compile_header() -> None:
    """Compiles only the header by each compiler that is there, as C and as C++."""
    in_cpp = ((compiler, "c++", (f"-std={by}",)) for compiler in ("g++", "clang++") for by in ("c++17", "c++20"))
    ways = ("gcc", "c", IN_C), ("clang", "c", IN_C), *in_cpp
    tried = [(compiler, language, flags) for compiler, language, flags in ways if shutil.which(compiler)]
    for compiler, language, flags in tried:
        command = [compiler, *flags, *STRICT, "-fsyntax-only", "-x", language, "-"]
        subprocess.run(command, input=b'#include "cektaulis.h"\n', check=True)
    print("header: compiles by " + ", ".join(f"{compiler} {flags[0]}" for compiler, _, flags in tried))
