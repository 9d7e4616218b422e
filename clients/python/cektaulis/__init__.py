"""A client of `worldd`, the world server Cektaulis. It needs Python 3.9 and nothing else.

    from cektaulis import Add, Get, Move, Set, World

    with World("/run/worldd/socket") as world:
        tick = world.play(Set(0, 5), Move(0, 1, 2), Get(1))
        print(tick.number, tick.answers)        # 1 (None, None, 2)

        world.play_once(9, 1, Add(0, 1))        # counts once, though the server is killed meanwhile

A batch is the actions of one tick. Its answer comes once the tick is durable. The page docs/CLIENT.md of the server has the
protocol and the worth of an answer. `python3 -m cektaulis ADDRESS` plays lines by hand.
"""
from ._actions import (
    BATCH_CHANGES, BATCH_LINES, CELLS, LIMIT, Action, Add, Answer, Cap, Get, Move, Set, Swap, Tick, batches, does_no_harm_twice,
    parse,
)
from ._errors import (
    ActionRefused, BatchRefused, Fault, Garbled, LogDown, MarkerRefused, NotConnected, Refusal, TooLarge, Unanswered,
)
from ._world import World

__version__ = "0.3.0.dev0"

__all__ = [
    "BATCH_CHANGES", "BATCH_LINES", "CELLS", "LIMIT", "Action", "ActionRefused", "Add", "Answer", "BatchRefused", "Cap", "Fault",
    "Garbled", "Get", "LogDown", "MarkerRefused", "Move", "NotConnected", "Refusal", "Set", "Swap", "Tick", "TooLarge",
    "Unanswered", "World", "batches", "does_no_harm_twice", "parse",
]
