"""What a server refuses by its codes, and what the calls of a `World` raise."""
from __future__ import annotations

import enum
from typing import TYPE_CHECKING

if TYPE_CHECKING:
    from ._actions import Action


class Refusal(enum.Enum):
    """Why one action of a batch was refused. It changed nothing; the other actions of its batch count."""

    BAD_CELL = 1, "there is no such cell"
    BAD_VALUE = 2, "a number is out of range"
    OUT_OF_RANGE = 3, "a result would be below 0 or above 999,999,999,999,999,999"
    SAME_CELL = 4, "one cell is named twice"
    TICK_FULL = 5, "the batch has 256 accepted actions already"
    BAD_LINE = 16, "the line isn't understood"

    def __init__(self, code: int, text: str) -> None:
        self.code = code
        self.text = text


class Fault(enum.Enum):
    """Why a whole batch was refused."""

    SEGMENT_FULL = 6, "65,536 ticks have ended since the last image was begun: images are too slow, or down"
    LOG_DOWN = 12, "the log failed. Nobody knows whether the tick of this batch is there after a restart"
    BATCH_TOO_LONG = 16, "the batch has more than 1,024 lines; the session is closed"
    NO_MEMORY = 17, "there was no memory for the batch"
    TICKS_ENDED = 21, "the greatest tick number, 10^18, has been reached"

    def __init__(self, code: int, text: str) -> None:
        self.code = code
        self.text = text


class BatchRefused(Exception):
    """The server refused a whole batch, which changed nothing. `fault` says why."""

    def __init__(self, fault: Fault) -> None:
        super().__init__(f"fault {fault.code}: {fault.text}")
        self.fault = fault


class TooLarge(ValueError):
    """A batch has more actions or more changes than a batch may have. Nothing was sent."""


class MarkerRefused(ValueError):
    """A marker shows nothing: the world has no such cell, or the cell holds a greater number."""


class NotConnected(ConnectionError):
    """The connection was closed, or broke earlier. Nothing was sent."""


class Unanswered(ConnectionError):
    """The connection broke, or was silent for too long, before an answer came. It is closed.

    Each batch that wasn't answered was played as a whole or not at all. `batches` has them, the oldest first.
    """

    def __init__(self, why: str, batches: list[tuple[Action, ...]]) -> None:
        super().__init__(f"{why}: `reconnect` connects again, and returns the batches that aren't answered")
        self.why = why
        self.batches = batches


class LogDown(Unanswered):
    """The server answered `fault 12`: nobody knows whether the batch is there after a restart."""


class Garbled(ConnectionError):
    """The other side answered with a line that no `worldd` sends."""


class ActionRefused(ValueError):
    """The server refused an action of `read` or `load`. Those of earlier ticks count, and others of its own tick."""

    def __init__(self, action: Action, refusal: Refusal) -> None:
        super().__init__(f"`{action}` is refused: {refusal.text}")
        self.action = action
        self.refusal = refusal
