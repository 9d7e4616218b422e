"""Actions, batches of them, and their answers."""
from __future__ import annotations

import dataclasses
from collections.abc import Callable, Iterable, Iterator
from typing import Union, get_args

from ._errors import Fault, Refusal, TooLarge

#: The greatest number that a cell holds.
LIMIT = 999_999_999_999_999_999
#: The most cells that a world has.
CELLS = 1_048_576
#: The most actions of a batch, `Get`s among them.
BATCH_LINES = 1_024
#: The most changes of a batch, which are all actions except `Get`.
BATCH_CHANGES = 256

# The greatest numbers of which a line is understood: of a cell, of a value or an amount, and of a difference.
_MOST_CELL = 2**32 - 1
_MOST_VALUE = 2**64 - 1
_MOST_DIFFERENCE = 2**63 - 1


def check(what: str, number: int, least: int, most: int) -> None:
    """Refuses a number of which the server understands no line."""
    if not isinstance(number, int) or not least <= number <= most:
        raise ValueError(f"{what} is {number!r}: it is a whole number from {least} to {most}")


@dataclasses.dataclass(frozen=True)
class Set:
    """Puts `value` into a cell."""

    cell: int
    value: int

    def __post_init__(self) -> None:
        check("cell", self.cell, 0, _MOST_CELL)
        check("value", self.value, 0, _MOST_VALUE)

    def __str__(self) -> str:
        return f"set {self.cell:d} {self.value:d}"


@dataclasses.dataclass(frozen=True)
class Add:
    """Adds `difference`, which may be below 0, to a cell."""

    cell: int
    difference: int

    def __post_init__(self) -> None:
        check("cell", self.cell, 0, _MOST_CELL)
        check("difference", self.difference, -_MOST_DIFFERENCE, _MOST_DIFFERENCE)

    def __str__(self) -> str:
        return f"add {self.cell:d} {self.difference:d}"


@dataclasses.dataclass(frozen=True)
class Move:
    """Takes `amount` from the cell `source` and adds it to the cell `target`."""

    source: int
    target: int
    amount: int

    def __post_init__(self) -> None:
        check("source", self.source, 0, _MOST_CELL)
        check("target", self.target, 0, _MOST_CELL)
        check("amount", self.amount, 0, _MOST_VALUE)

    def __str__(self) -> str:
        return f"move {self.source:d} {self.target:d} {self.amount:d}"


@dataclasses.dataclass(frozen=True)
class Swap:
    """Exchanges the words of two cells."""

    first: int
    second: int

    def __post_init__(self) -> None:
        check("first", self.first, 0, _MOST_CELL)
        check("second", self.second, 0, _MOST_CELL)

    def __str__(self) -> str:
        return f"swap {self.first:d} {self.second:d}"


@dataclasses.dataclass(frozen=True)
class Cap:
    """Lowers a cell to `value` if it holds more."""

    cell: int
    value: int

    def __post_init__(self) -> None:
        check("cell", self.cell, 0, _MOST_CELL)
        check("value", self.value, 0, _MOST_VALUE)

    def __str__(self) -> str:
        return f"cap {self.cell:d} {self.value:d}"


@dataclasses.dataclass(frozen=True)
class Get:
    """Reads a cell as it is at this place of the batch."""

    cell: int

    def __post_init__(self) -> None:
        check("cell", self.cell, 0, _MOST_CELL)

    def __str__(self) -> str:
        return f"get {self.cell:d}"


Action = Union[Set, Add, Move, Swap, Cap, Get]
_ACTIONS = get_args(Action)

#: What came of one action: None if it was done, the number that a `Get` read, or why it was refused.
Answer = Union[None, int, Refusal]


@dataclasses.dataclass(frozen=True)
class Tick:
    """The answer to a batch: the number of its tick, which is durable, and what came of each action, in order."""

    number: int
    answers: tuple[Answer, ...]


def _checked(action: Action) -> Action:
    """Refuses what is no action."""
    if not isinstance(action, _ACTIONS):
        raise TypeError(f"{action!r:.80} is no action")
    return action


_KINDS: dict[str, Callable[..., Action]] = {"set": Set, "add": Add, "move": Move, "swap": Swap, "cap": Cap, "get": Get}


def parse(line: str) -> Action:
    """The action of a line of the protocol, such as `move 0 1 5`. ValueError if it has none."""
    kind, *words = line.split() or [""]
    try:
        return _KINDS[kind](*map(int, words))
    except (KeyError, TypeError) as error:
        raise ValueError(f"`{line}` is no action such as `set 0 5`") from error


def batch_of(actions: tuple[Action, ...]) -> tuple[Action, ...]:
    """A batch of these actions. TooLarge if there are too many."""
    changes = sum(not isinstance(_checked(action), Get) for action in actions)
    if len(actions) > BATCH_LINES or changes > BATCH_CHANGES:
        raise TooLarge(f"the batch has {len(actions)} actions, of which {changes} are changes")
    return actions


def marker_of(cell: int, number: int) -> Set:
    """A marker, whose number is one that a cell holds once it was written."""
    check("number", number, 1, LIMIT)
    return Set(cell, number)


def changes_cell(action: Action, cell: int) -> bool:
    """Whether an action may change a cell."""
    if isinstance(action, Move):
        return cell in (action.source, action.target)
    if isinstance(action, Swap):
        return cell in (action.first, action.second)
    return not isinstance(action, Get) and action.cell == cell


def batches(actions: Iterable[Action]) -> Iterator[tuple[Action, ...]]:
    """Cuts actions into batches that are as long as they may be. Each batch is its own tick."""
    batch: list[Action] = []
    changes = 0
    for action in actions:
        is_change = not isinstance(_checked(action), Get)
        if len(batch) == BATCH_LINES or is_change and changes == BATCH_CHANGES:
            yield tuple(batch)
            batch, changes = [], 0
        batch.append(action)
        changes += is_change
    if batch:
        yield tuple(batch)


def does_no_harm_twice(actions: Iterable[Action]) -> bool:
    """Whether these actions leave the same world if they are played twice, with nothing in between."""
    return all(isinstance(_checked(action), (Set, Cap, Get)) for action in actions)


_FAULTS = {fault.code: fault for fault in Fault}
_REFUSALS = {refusal.code: refusal for refusal in Refusal}


def read_answer(line: str, count: int) -> Tick | Fault | None:
    """What a line says of a batch of so many actions. None: no `worldd` sends it."""
    try:
        if line.startswith("fault "):
            return _FAULTS[int(line[6:])]
        head, _, words = line.partition(":")
        answers = tuple(map(_answer, words.split(" ")[1:]))
        if len(answers) == count and head.startswith("tick "):
            return Tick(int(head[5:]), answers)
    except (KeyError, ValueError):
        pass
    return None


def _answer(word: str) -> Answer:
    """What a word of an answer says. KeyError or ValueError if it says nothing."""
    if word == "+":
        return None
    if word.startswith("="):
        return int(word[1:])
    if word.startswith("-"):
        return _REFUSALS[int(word[1:])]
    raise ValueError(word)
