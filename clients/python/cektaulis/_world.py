"""The connection to a server."""
from __future__ import annotations

import collections
import contextlib
import os
import select
import socket
import time
from collections.abc import Callable, Iterable, Iterator
from typing import Literal, TypeVar, Union, overload

from ._actions import (
    BATCH_LINES, CELLS, Action, Get, Set, Tick, batch_of, batches, changes_cell, check, does_no_harm_twice, marker_of, read_answer,
)
from ._errors import (
    ActionRefused, BatchRefused, Fault, Garbled, LogDown, MarkerRefused, NotConnected, Refusal, Unanswered,
)

# No answer is that long: it has at most 1,024 words of 20 bytes.
_ANSWER_BYTES = 65_536
# The most bytes that the path of a socket has.
_MOST_PATH = 107
# How many seconds lie between two tries: at first, and at most.
_PAUSE_SECONDS, _LONGEST_PAUSE_SECONDS = 0.01, 1.0
# How long a step of `reconnect` may take to connect, which takes no time on one machine.
_STEP_SECONDS = 0.001
# How long a silent server is waited for before another address is tried, if no timeout says it.
_TURN_SECONDS = 5.0

_Address = Union[int, str, "os.PathLike[str]"]
_Batch = tuple[Action, ...]
_Result = TypeVar("_Result")


def _port_or_path(address: _Address | bytes) -> int | str:
    """An address as a port or as a path. A text of digits is a port."""
    if isinstance(address, str) and address.isascii() and address.isdigit():
        address = int(address)
    if isinstance(address, int):
        check("port", address, 1, 65_535)
        return address
    path = os.fsdecode(address)
    if not 0 < len(os.fsencode(path)) <= _MOST_PATH:
        raise ValueError(f"the path of a socket has 1 to {_MOST_PATH} bytes")
    return path


def _no_server(error: Exception) -> NotConnected:
    """What says that nobody answers, and why."""
    return NotConnected(f"no server answers: {error.why if isinstance(error, Unanswered) else error}")


class World:
    """A connection to a server, by the port of this machine or by the path of its socket. A text of digits is a port.

    `timeout` is how many seconds of silence a call bears; None waits for ever. A connection that broke stays broken until
    `reconnect`: until then nothing is sent. One thread uses it at a time.

    A list of addresses is for one world that at most one of them serves at a time. They are tried in turn. A server that is
    silent for `timeout` seconds, or for 5, is left for the next address. `play_once` and `play_again` leave one only if
    another address answers.
    """

    def __init__(self, address: _Address | Iterable[_Address], timeout: float | None = None) -> None:
        if timeout is not None and not timeout > 0:
            raise ValueError(f"timeout is {timeout!r}: it is above 0, or None")
        several = [address] if isinstance(address, (int, str, bytes, os.PathLike)) else list(address)
        if not several:
            raise ValueError("there is no address")
        # The first one is that of the connection, or of the next one.
        self._addresses = collections.deque(map(_port_or_path, several))
        self.timeout = timeout
        self._turn_seconds = timeout or _TURN_SECONDS
        self._insists = False
        #: How often it connected.
        self.connections = 1
        # Answers that have come and weren't received, of which so many are of earlier connections.
        self._answers: collections.deque[Tick | Fault] = collections.deque()
        self._kept = 0
        # Batches of this connection without an answer, and batches of earlier ones whose end nobody knows.
        self._sent: collections.deque[_Batch] = collections.deque()
        self._doubtful: list[_Batch] = []
        # The numbers that cells of markers are known to hold.
        self._marks: dict[int, int] = {}
        # The connection, and one on which the server wasn't heard yet.
        self._coming: socket.socket | None = None
        self._coming_until = 0.0
        self._rest = bytearray()
        self._stream: socket.socket | None = self._dial_any()

    def __enter__(self) -> World:
        return self

    def __exit__(self, *_why: object) -> None:
        self.close()

    @property
    def address(self) -> int | str:
        """The address of the connection, or the one that is tried next."""
        return self._addresses[0]

    @property
    def waiting(self) -> int:
        """How many batches were sent whose answers weren't received yet."""
        return len(self._answers) + len(self._sent)

    def fileno(self) -> int:
        """The descriptor of the connection, for an event loop. It can be read when an answer comes, or the connection breaks.
        Call `receive(wait=False)` until it returns None before you wait for it."""
        return self._connected().fileno()

    def close(self) -> None:
        """Ends the connection. It does nothing if there is none."""
        for stream in (self._stream, self._coming):
            if stream is not None:
                stream.close()
        self._stream = self._coming = None

    def play(self, *actions: Action) -> Tick:
        """Plays a batch and returns its tick. Answers that still wait are to be received first."""
        tick = self._play(batch_of(actions), self.timeout)
        self._doubtful.clear()
        return tick

    def play_all(self, actions: Iterable[Action], ahead: int = 16) -> Iterator[Tick]:
        """Plays any number of actions in batches, and yields their ticks in order. Up to `ahead` batches are sent before
        the first of them is answered."""
        if self.waiting:
            raise RuntimeError(f"{self.waiting} batches wait for their answers: receive them first")
        for batch in batches(actions):
            if self.waiting >= max(ahead, 1):
                yield self.receive()
            self.send(*batch)
        while self.waiting:
            yield self.receive()

    def play_once(self, cell: int, number: int, *actions: Action, patience: float = 30.0) -> Tick | None:
        """Plays a batch exactly once, though its connection breaks, and returns its tick. None: it was played, and its
        answer is lost.

        The batch gets the marker `Set(cell, number)`. Only this client writes the cell, with ever greater numbers. If the
        connection breaks, it connects again and looks at the cell. The batch is sent again if it wasn't played, or was
        refused for now (faults 6 and 17). Nothing is sent if the cell holds the number at the beginning.

        It gives up after `patience` seconds: by `Unanswered` if the batch may have been played. The same call goes on once
        the server was started again. `MarkerRefused` if the world has no such cell, or if it holds a greater number.
        """
        batch = batch_of((marker_of(cell, number), *actions))
        if any(changes_cell(action, cell) for action in actions):
            raise ValueError(f"an action of the batch changes cell {cell}, which is for the marker")
        return self._insist(lambda seconds: self._play_once(cell, number, batch, seconds), patience)

    def play_again(self, *actions: Action, patience: float = 30.0) -> Tick:
        """Plays a batch that does no harm twice. If the connection breaks, it connects again and sends the batch again.

        It gives up after `patience` seconds. No other client should write these cells meanwhile.
        """
        batch = batch_of(actions)
        if not does_no_harm_twice(batch):
            raise ValueError("a batch with an Add, a Move or a Swap changes the world again if it is played twice")

        def play(seconds: float) -> Tick:
            self._settle(lambda doubtful: doubtful == batch)
            return self._play(batch, seconds)

        return self._insist(play, patience)

    def cells(self, patience: float = 30.0) -> int:
        """How many cells the world has. It takes two ticks, which read."""
        blocks = self.play_again(*map(Get, range(0, CELLS, BATCH_LINES)), patience=patience)
        last = BATCH_LINES * (sum(isinstance(word, int) for word in blocks.answers) - 1)
        block = self.play_again(*(Get(last + cell) for cell in range(BATCH_LINES)), patience=patience)
        return last + sum(isinstance(word, int) for word in block.answers)

    def read(self, cells: Iterable[int], patience: float = 30.0, progress: Callable[[int], object] | None = None) -> list[int]:
        """Reads any number of cells, 1,024 in a tick. Other clients may play between two ticks.

        If the connection breaks, it connects again and reads on. It gives up if that takes `patience` seconds. After each
        tick `progress` gets the number of cells so far. `ActionRefused` if the world has no such cell.
        """
        words: list[int] = []
        for tick in self._play_through(map(Get, cells), patience, progress):
            words += (word for word in tick.answers if isinstance(word, int))
        return words

    def load(
        self, words: Iterable[int], first: int = 0, patience: float = 30.0, progress: Callable[[int], object] | None = None
    ) -> int:
        """Sets the cells from `first` on to any number of words, 256 in a tick, and returns how many these are. No other
        client should write these cells meanwhile. The rest is as for `read`."""
        sets = (Set(cell, word) for cell, word in enumerate(words, first))
        return sum(len(tick.answers) for tick in self._play_through(sets, patience, progress))

    def send(self, *actions: Action) -> None:
        """Sends a batch, whose answer `receive` returns later. The server answers the batches of a connection in order."""
        self._send(batch_of(actions), self.timeout)

    @overload
    def receive(self, wait: Literal[True] = True) -> Tick: ...

    @overload
    def receive(self, wait: bool) -> Tick | None: ...

    def receive(self, wait: bool = True) -> Tick | None:
        """The answer to the oldest batch that waits for one. `BatchRefused` if the server refused it. With `wait=False` it
        doesn't wait, and returns None if no answer has come."""
        if wait and not self.waiting:
            raise RuntimeError("no batch waits for an answer")
        while not self._answers:
            if not self.waiting:
                return None
            came = self._take_some(self.timeout if wait else 0)
            if not came:
                return None
        if self._kept:
            self._kept -= 1
        else:
            self._doubtful.clear()
        return self._received(self._answers.popleft())

    @overload
    def reconnect(self, patience: float = 30.0, wait: Literal[True] = True) -> list[_Batch]: ...

    @overload
    def reconnect(self, patience: float = 30.0, *, wait: bool) -> list[_Batch] | None: ...

    def reconnect(self, patience: float = 30.0, wait: bool = True) -> list[_Batch] | None:
        """Connects again, waits until the server answers an empty batch, and returns the batches that weren't answered. It
        tries for `patience` seconds, and raises `NotConnected` then. With `wait=False` it makes one step of this, doesn't
        wait, and returns None until the server has answered. Several addresses are tried in turn.

        Each of these batches was played as a whole or not at all. `was_played` finds out which. If the connection breaks
        again before another batch is answered, the next call returns them again. Answers that had come stay for `receive`.
        """
        if self._coming is None:
            self._leave()
        deadline, pause = time.monotonic() + patience, _PAUSE_SECONDS
        while (why := self._comes_back()) is not None:
            left = deadline - time.monotonic()
            if not wait:
                return None
            if self._coming is not None and left > 0:
                self._is_readable(self._coming, min(left, self._turn_seconds) if len(self._addresses) > 1 else left)
                continue
            if pause >= left:
                self.close()
                raise _no_server(why) from why
            time.sleep(pause)
            pause = min(2 * pause, _LONGEST_PAUSE_SECONDS)
        return list(self._doubtful)

    def was_played(self, cell: int, number: int) -> bool:
        """Whether a batch with `Set(cell, number)` in it was played, if only this client writes the cell, with ever greater
        numbers. `MarkerRefused` if the world has no such cell.

        True is certain. False is certain once the server was started again. If only the connection broke, a batch that
        had arrived may still be played later.
        """
        marker = marker_of(cell, number)
        held = self._held(cell, self.timeout)
        self._settle(lambda batch: marker in batch)
        return held >= number

    def _dial_any(self) -> socket.socket:
        """Connects to the first address of which somebody is there. OSError if there is none."""
        for _ in range(len(self._addresses) - 1):
            try:
                return self._dial(self._turn_seconds)
            except OSError:
                self._addresses.rotate(-1)
        return self._dial(self.timeout)

    def _dial(self, seconds: float | None) -> socket.socket:
        """Connects to the address. OSError if nobody is there."""
        is_port = isinstance(self.address, int)
        stream = socket.socket(socket.AF_INET if is_port else socket.AF_UNIX)
        try:
            stream.settimeout(seconds)
            if is_port:
                stream.setsockopt(socket.IPPROTO_TCP, socket.TCP_NODELAY, 1)
            stream.connect(("127.0.0.1", self.address) if isinstance(self.address, int) else self.address)
            if is_port and stream.getsockname() == stream.getpeername():
                # The system chose the port of the server, which isn't there, for the client.
                raise ConnectionRefusedError("nobody is there")
            stream.setblocking(False)
        except OSError:
            stream.close()
            raise
        return stream

    def _leave(self) -> None:
        """Leaves the connection. Answers that have come stay, and batches without one are in doubt."""
        self._drain()
        self.close()
        self._doubtful = self._unanswered()
        self._sent.clear()
        self._kept = len(self._answers)

    def _comes_back(self) -> OSError | None:
        """One step of `reconnect`, which doesn't wait. It returns why the server wasn't heard yet."""
        try:
            if self._coming is None:
                self._rest.clear()
                self._coming = self._dial(_STEP_SECONDS)
                self._coming_until = time.monotonic() + self._turn_seconds
                self._coming.sendall(b"end\n")
            self._take(self._coming)
            line, end, _ = self._rest.partition(b"\n")
            if not end and len(self._rest) <= _ANSWER_BYTES:
                silent = TimeoutError("the server is silent")
                if len(self._addresses) > 1 and time.monotonic() >= self._coming_until:
                    raise silent
                return silent
            answer = read_answer(line.decode("ascii", "replace"), 0)
            if answer is None:
                raise self._garbled()
            if answer is Fault.LOG_DOWN:
                raise ConnectionError(f"fault {answer.code}: {answer.text}")
        except Garbled:
            raise
        except OSError as error:
            self.close()
            self._addresses.rotate(-1)
            return error
        self._stream, self._coming = self._coming, None
        self._rest.clear()
        self.connections += 1
        return None

    def _insist(self, call: Callable[[float], _Result], patience: float) -> _Result:
        """What a call returns. It is called again if the connection breaks, and after a refusal that passes. It gets the
        seconds that are left: a server that is silent has the batch, so nothing is sent again before the connection ends, or
        another address serves."""
        deadline, pause = time.monotonic() + patience, _PAUSE_SECONDS
        while True:
            try:
                if self._stream is None:
                    self.reconnect(deadline - time.monotonic())
                self._insists = len(self._addresses) > 1
                return call(max(deadline - time.monotonic(), _PAUSE_SECONDS))
            except (BatchRefused, NotConnected, Unanswered) as error:
                passes = not isinstance(error, BatchRefused) or error.fault in (Fault.SEGMENT_FULL, Fault.NO_MEMORY)
                if not passes or time.monotonic() + pause >= deadline:
                    raise self._given_up(error)
            finally:
                self._insists = False
            time.sleep(pause)
            pause = min(2 * pause, _LONGEST_PAUSE_SECONDS)

    def _given_up(self, error: Exception) -> Exception:
        """What a call raises that gives up for an error. `Unanswered` if a batch is in doubt."""
        if not self._unanswered():
            return _no_server(error) if isinstance(error, Unanswered) else error
        return error if isinstance(error, Unanswered) else self._broken(str(error))

    def _play_through(
        self, actions: Iterable[Action], patience: float, progress: Callable[[int], object] | None
    ) -> Iterator[Tick]:
        """Plays actions that do no harm twice, and yields their ticks. `ActionRefused` once the server refuses one."""
        count = 0
        for batch in batches(actions):
            tick = self.play_again(*batch, patience=patience)
            for action, answer in zip(batch, tick.answers):
                if isinstance(answer, Refusal):
                    raise ActionRefused(action, answer)
            count += len(batch)
            if progress is not None:
                progress(count)
            yield tick

    def _play_once(self, cell: int, number: int, batch: _Batch, seconds: float) -> Tick | None:
        """Plays a batch with a marker, unless the marker shows that it was played."""
        if cell not in self._marks:
            self._marks[cell] = self._held(cell, seconds)
        if self._marks[cell] > number:
            raise MarkerRefused(f"cell {cell} holds {self._marks[cell]}, and {number} isn't greater")
        self._settle(lambda doubtful: batch[0] in doubtful)
        if self._marks[cell] == number:
            return None
        held = self._marks.pop(cell)
        try:
            tick = self._play(batch, seconds)
        except BatchRefused:
            self._marks[cell] = held
            raise
        if tick.answers[0] is not None:
            raise MarkerRefused(f"the batch was played as tick {tick.number}, and its marker was refused")
        self._marks[cell] = number
        return Tick(tick.number, tick.answers[1:])

    def _held(self, cell: int, seconds: float | None) -> int:
        """What a marker's cell holds. Such a batch changes nothing, so it leaves nothing in doubt if its answer is lost."""
        try:
            held = self._play((Get(cell),), seconds).answers[0]
        except (Garbled, Unanswered) as lost:
            self._sent.clear()
            if isinstance(lost, Unanswered):
                lost.batches = self._unanswered()
            raise
        if not isinstance(held, int):
            raise MarkerRefused(f"cell {cell} holds no marker: {held.text if held else 'it was written'}")
        return held

    def _play(self, batch: _Batch, seconds: float | None) -> Tick:
        """Plays a batch, and bears so many seconds of silence."""
        if self._stream is not None and self.waiting > self._kept:
            raise RuntimeError(f"{self.waiting - self._kept} batches wait for their answers: receive them first")
        try:
            self._send(batch, seconds)
            while self._sent:
                self._take_some(seconds)
        except Unanswered:
            # The answer may have come just before the connection was closed.
            if self._sent:
                raise
        return self._received(self._answers.pop())

    def _received(self, answer: Tick | Fault) -> Tick:
        """The tick of an answer. `BatchRefused` if it has none."""
        if isinstance(answer, Fault):
            raise BatchRefused(answer)
        return answer

    def _connected(self) -> socket.socket:
        """The connection. `NotConnected` if there is none."""
        if self._stream is None:
            raise NotConnected("there is no connection: `reconnect` connects again")
        return self._stream

    def _send(self, batch: _Batch, seconds: float | None) -> None:
        """Sends a batch, and takes what the server sends meanwhile. So no answer that nobody receives holds up the server,
        which would read no more."""
        stream = self._connected()
        self._sent.append(batch)
        left = memoryview(("".join(f"{action}\n" for action in batch) + "end\n").encode("ascii"))
        ready = select.poll()
        ready.register(stream, select.POLLIN | select.POLLOUT)
        try:
            while left:
                self._take(stream)
                with contextlib.suppress(BlockingIOError):
                    left = left[stream.send(left) :]
                    continue
                events = ready.poll(None if seconds is None else seconds * 1000)
                if not events:
                    raise TimeoutError("the server is silent")
        except OSError as error:
            raise self._broken(str(error)) from error
        finally:
            # A batch that was sent in part can't be ended by another call.
            if left:
                self.close()
        self._sort()

    def _take_some(self, seconds: float | None) -> bool:
        """Waits so long for what the server sends, and takes it. False: nothing has come, and nothing was to be waited for."""
        self._refuse_answer()
        if self._stream is None:
            raise self._broken("the connection is closed")
        try:
            if not self._is_heard(self._stream, seconds):
                if seconds == 0:
                    return False
                raise TimeoutError("the server is silent")
            self._take(self._stream)
        except OSError as error:
            raise self._broken(str(error)) from error
        self._sort()
        return True

    def _is_heard(self, stream: socket.socket, seconds: float | None) -> bool:
        """Waits so long until a connection can be read or has ended. A call that insists ends the wait if another address
        serves: this server is off then."""
        if not self._insists or seconds is None:
            return self._is_readable(stream, seconds)
        deadline = time.monotonic() + seconds
        while (left := deadline - time.monotonic()) > 0:
            if self._is_readable(stream, min(left, self._turn_seconds)):
                return True
            if self._serves_elsewhere():
                break
        return False

    def _serves_elsewhere(self) -> bool:
        """Whether another address answers an empty batch. It is the next one then."""
        for _ in range(len(self._addresses) - 1):
            self._addresses.rotate(-1)
            with contextlib.suppress(OSError), self._dial(_STEP_SECONDS) as stream:
                stream.settimeout(self._turn_seconds)
                stream.sendall(b"end\n")
                if stream.recv(1) == b"t":
                    return True
        self._addresses.rotate(-1)
        return False

    def _is_readable(self, stream: socket.socket, seconds: float | None) -> bool:
        """Waits so long until a connection can be read or has ended."""
        ready = select.poll()
        ready.register(stream, select.POLLIN)
        return bool(ready.poll(None if seconds is None else seconds * 1000))

    def _take(self, stream: socket.socket) -> None:
        """Takes what the server sent."""
        with contextlib.suppress(BlockingIOError):
            piece = stream.recv(_ANSWER_BYTES)
            if not piece:
                raise ConnectionResetError("the server closed the connection")
            self._rest += piece

    def _drain(self) -> None:
        """Takes all that the server has sent, before the connection is closed."""
        with contextlib.suppress(OSError):
            while self._stream is not None:
                before = len(self._rest)
                self._take(self._stream)
                if len(self._rest) == before:
                    break
        self._sort()

    def _sort(self) -> None:
        """Makes answers of the lines that have come, up to one that `_refuse_answer` refuses."""
        while self._sent and (end := self._rest.find(b"\n")) >= 0:
            answer = read_answer(self._rest[:end].decode("ascii", "replace"), len(self._sent[0]))
            if answer is None or answer is Fault.LOG_DOWN:
                break
            del self._rest[: end + 1]
            self._sent.popleft()
            self._answers.append(answer)

    def _refuse_answer(self) -> None:
        """Raises what a line says that is no answer, or leaves its batch in doubt."""
        line, end, _ = self._rest.partition(b"\n")
        if line == f"fault {Fault.LOG_DOWN.code}".encode() and end:
            raise self._broken(f"fault {Fault.LOG_DOWN.code}: {Fault.LOG_DOWN.text}", LogDown)
        if end or len(self._rest) > _ANSWER_BYTES:
            raise self._garbled()

    def _unanswered(self) -> list[_Batch]:
        """The batches of which no answer came, the oldest first."""
        return self._doubtful + list(self._sent)

    def _settle(self, is_known: Callable[[_Batch], bool]) -> None:
        """Forgets the doubtful batches of which it is known whether they were played."""
        self._doubtful = [batch for batch in self._doubtful if not is_known(batch)]

    def _broken(self, why: str, kind: type[Unanswered] = Unanswered) -> Unanswered:
        """Closes the connection, and returns what says so. Its batches are kept for `reconnect`."""
        self._drain()
        self.close()
        self._rest.clear()
        return kind(why, self._unanswered())

    def _garbled(self) -> Garbled:
        """Closes the connection, and returns what says why."""
        line = bytes(self._rest[:80])
        self._rest.clear()
        self.close()
        return Garbled(f"the answer is {line!r}")
