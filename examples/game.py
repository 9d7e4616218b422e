#!/usr/bin/env python3
"""A game of 300 players on a serving worldd, at 60 turns a second: it plays a turn while those before it are on their way.

    PYTHONPATH=clients/python python3 examples/game.py ADDRESS SECONDS [FIRST]

The players walk about, and pass gold to one another. Each turn is one batch: the positions that have changed, gold that moves,
and the number of the turn, which is the marker. The loop never waits for the server. If the connection breaks, the players walk
on, and the turns that weren't played are sent again, in order. It prints how many turns were answered late. The game has the
cells from FIRST on: a marker, a count of turns, and for each player a place and a purse.
"""
import collections
import enum
import random
import select
import sys
import time

from cektaulis import Action, Add, Get, Move, NotConnected, Set, Unanswered, World

TURNS_A_SECOND, PLAYERS, WIDTH, GOLD = 60, 300, 10_000, 1000
# The most positions of a turn.
PLACES = 240
# How many seconds the last turns may take.
PATIENCE = 30
# So many turns may be on their way. Positions that change meanwhile go with a later turn.
AHEAD = 16


class State(enum.Enum):
    """How the game stands with the server: without a connection, waiting for a look at the marker, or in play."""

    AWAY, LOOKING, PLAYING = range(3)


class Game:
    """The players, and the turns that aren't answered yet."""

    def __init__(self, address: str, first: int) -> None:
        self.chance = random.Random(first)
        self.marker, self.count, self.place, self.purse = first, first + 1, first + 2, first + 2 + PLAYERS
        self.at = [(self.chance.randrange(WIDTH), self.chance.randrange(WIDTH)) for _ in range(PLAYERS)]
        self.moved = set(range(PLAYERS))
        self.turn = self.late = self.losses = self.again = 0
        # Turns without an answer, each with its batch and its time. The first so many were sent.
        self.turns: collections.deque[tuple[int, tuple[Action, ...], float]] = collections.deque()
        self.sent = 0
        self.world, self.state = World(address, timeout=5), State.PLAYING
        self.world.load([GOLD] * PLAYERS, first=self.purse)
        self.world.load([0, 0], first=first)

    def walk(self) -> None:
        """Moves two of three players by a step."""
        for player in self.chance.sample(range(PLAYERS), 2 * PLAYERS // 3):
            x, y = self.at[player]
            self.at[player] = (x + self.chance.choice((-1, 1))) % WIDTH, (y + self.chance.choice((-1, 1))) % WIDTH
            self.moved.add(player)

    def batch(self) -> tuple[Action, ...]:
        """The batch of the next turn. A cell holds both numbers of a place."""
        moved = sorted(self.moved)[:PLACES]
        self.moved.difference_update(moved)
        places = (Set(self.place + player, self.at[player][0] * 1_000_000 + self.at[player][1]) for player in moved)
        giver, taker = self.chance.sample(range(PLAYERS), 2)
        return Set(self.marker, self.turn), Add(self.count, 1), Move(self.purse + giver, self.purse + taker, 1), *places

    def play(self) -> None:
        """Plays a turn, unless too many are on their way."""
        self.walk()
        if self.state is State.PLAYING and len(self.turns) < AHEAD:
            self.turn += 1
            self.turns.append((self.turn, self.batch(), time.monotonic()))

    def send_turns(self) -> None:
        """Sends the turns that weren't sent, while the connection has room for one."""
        while self.state is State.PLAYING and self.sent < len(self.turns) and select.select((), (self.world,), (), 0)[1]:
            self.world.send(*self.turns[self.sent][1])
            self.sent += 1

    def take_answers(self) -> None:
        """Takes the answers that have come."""
        while self.state is not State.AWAY and (tick := self.world.receive(wait=False)):
            first = tick.answers[0]
            if self.state is State.LOOKING and isinstance(first, int):
                self.go_on(first)
                continue
            _, _, begin = self.turns.popleft()
            self.sent -= 1
            self.late += time.monotonic() - begin > 1 / TURNS_A_SECOND

    def come_back(self) -> None:
        """Makes a step towards a new connection. Once there is one, it asks for the marker."""
        if self.world.reconnect(wait=False) is None:
            return
        # The marker shows which turns were played, so no answer from before the loss is needed.
        while self.world.waiting:
            self.world.receive()
        self.state = State.LOOKING
        self.world.send(Get(self.marker))

    def go_on(self, held: int) -> None:
        """Forgets the turns that the marker shows. All others are to be sent again, in their order."""
        while self.turns and self.turns[0][0] <= held:
            self.turns.popleft()
            self.sent -= 1
            self.late += 1
        self.again += self.sent
        self.sent, self.state = 0, State.PLAYING

    def step(self, is_last: bool = False) -> None:
        """What the loop does 60 times a second. The last steps only wait for answers."""
        try:
            if self.state is State.AWAY:
                self.come_back()
            self.take_answers()
            if not is_last:
                self.play()
            self.send_turns()
        except (NotConnected, Unanswered):
            self.losses += self.state is State.PLAYING
            self.state = State.AWAY


def main() -> int:
    """Plays for some seconds."""
    if len(sys.argv) not in (3, 4):
        print(__doc__.strip(), file=sys.stderr)
        return 2
    game = Game(sys.argv[1], int(sys.argv[3]) if len(sys.argv) == 4 else 0)
    begin, longest, steps = time.monotonic(), 0.0, 0
    while time.monotonic() < begin + float(sys.argv[2]):
        start = time.monotonic()
        game.step()
        longest, steps = max(longest, time.monotonic() - start), steps + 1
        time.sleep(max(begin + steps / TURNS_A_SECOND - time.monotonic(), 0))
    while game.turns and time.monotonic() < begin + float(sys.argv[2]) + PATIENCE:
        game.step(is_last=True)
        time.sleep(0.001)
    print(f"steps {steps}, turns {game.turn}, late {game.late}, losses {game.losses}, sent again {game.again}, "
          f"longest step {longest * 1000:.0f} ms")
    return 1 if game.turns else 0


if __name__ == "__main__":
    sys.exit(main())
