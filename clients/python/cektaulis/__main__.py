"""Plays by hand: `python3 -m cektaulis ADDRESS`."""
from __future__ import annotations

import argparse
import contextlib
import os
import sys
from collections.abc import Callable, Iterable, Iterator

from . import Action, Answer, BatchRefused, Refusal, Unanswered, World, __version__, parse


def _text(answer: Answer) -> str:
    """An answer in words."""
    if isinstance(answer, Refusal):
        return f"refused: {answer.text}"
    return "done" if answer is None else str(answer)


def _show(world: World, actions: list[Action]) -> None:
    """Plays a batch, and prints what came of each action."""
    tick = world.play(*actions)
    print(f"tick {tick.number}")
    for action, answer in zip(actions, tick.answers):
        print(f"  {action}: {_text(answer)}")


def _typed(sign: str) -> str:
    """A line of the input, without what ends it."""
    return input(sign if sys.stdin.isatty() else "").strip()


def _actions_of(line: str) -> list[Action]:
    """The actions of a line, between commas."""
    return [parse(part) for part in line.split(",") if part.strip()]


def _typed_batch(line: str) -> list[Action]:
    """The actions of a batch that begins with a line: those of the line, or of all lines up to an `end` after a `begin`."""
    if line != "begin":
        return _actions_of(line)
    actions: list[Action] = []
    while (line := _typed(". ")) != "end":
        try:
            actions += _actions_of(line)
        except ValueError as error:
            print(f"{error}: this line isn't in the batch")
    return actions


def _prompt(world: World) -> None:
    """Plays batches until the input ends."""
    with contextlib.suppress(ImportError):
        import readline  # noqa: F401 - it gives `input` a history
    while True:
        try:
            line = _typed("> ")
            if line:
                _show(world, _typed_batch(line))
        except EOFError:
            return
        except (BatchRefused, ValueError) as error:
            print(error)
        except Unanswered as error:
            print(f"{error.why}: nobody knows whether the batch was played")
            world.reconnect()
            print("connected again")


@contextlib.contextmanager
def _lines(path: str) -> Iterator[Iterable[str]]:
    """The lines of a file, or of the input for `-`."""
    if path == "-":
        yield sys.stdin
        return
    with open(path, encoding="ascii") as file:
        yield file


def _play_file(world: World, path: str) -> None:
    """Plays the batches of a file, whose lines are those of the protocol. A line may end with CR LF."""
    actions: list[Action] = []
    with _lines(path) as lines:
        for number, line in enumerate(lines, 1):
            if line.strip() == "end":
                _show(world, actions)
                actions = []
                continue
            try:
                actions.append(parse(line.strip()))
            except ValueError as error:
                raise ValueError(f"{path}:{number}: {error}") from error
    if actions:
        raise ValueError(f"{path}: its last lines have no `end`, and weren't played")


def _progress(what: str, whole: int) -> Callable[[int], None]:
    """Reports how many of all cells are done: at a terminal again and again, else at the end."""
    is_terminal = sys.stderr.isatty()

    def report(count: int) -> None:
        if is_terminal or count == whole:
            begin, end = "\r" if is_terminal else "", "\n" if count == whole else ""
            print(f"{begin}{what} {count} of {whole} cells", end=end, file=sys.stderr, flush=True)

    return report


def _dump(world: World, path: str) -> None:
    """Writes the words of all cells to a file, a word a line, as `worldd create --words` reads them."""
    cells = world.cells()
    words = world.read(range(cells), progress=_progress("dumped", cells))
    with open(f"{path}.new", "w", encoding="ascii") as file:
        file.writelines(f"{word}\n" for word in words)
    os.replace(f"{path}.new", path)


def _load(world: World, path: str) -> None:
    """Sets the cells from 0 on to the words of a file."""
    with _lines(path) as lines:
        words = [int(word) for line in lines for word in line.split()]
    world.load(words, progress=_progress("loaded", len(words)))


def main() -> int:
    """Plays by hand on a serving `worldd`."""
    parser = argparse.ArgumentParser(prog="python3 -m cektaulis", description=main.__doc__,
        epilog="Without a flag each line of the input is a batch, with commas between its actions: set 0 5, get 0. "
               "A line `begin` begins a batch of many lines, which `end` ends.")
    parser.add_argument("address", help="a port of this machine, or the path of a socket")
    parser.add_argument("--version", action="version", version=f"cektaulis {__version__}")
    ways = parser.add_mutually_exclusive_group()
    ways.add_argument("--file", help="play the batches of a file, in which `end` ends each; - is the input")
    ways.add_argument("--dump", metavar="FILE", help="write the words of all cells to a file, 1,024 in a tick")
    ways.add_argument("--load", metavar="FILE", help="set the cells to the words of a file, 256 in a tick; - is the input")
    given = parser.parse_args()
    try:
        with World(given.address) as world:
            if given.file:
                _play_file(world, given.file)
            elif given.dump:
                _dump(world, given.dump)
            elif given.load:
                _load(world, given.load)
            else:
                _prompt(world)
    except (OSError, ValueError, BatchRefused) as error:
        print(f"cektaulis: {error}", file=sys.stderr)
        return 1
    except KeyboardInterrupt:
        return 130
    return 0


if __name__ == "__main__":
    sys.exit(main())
