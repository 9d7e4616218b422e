#!/usr/bin/env python3
"""Tries the client in JavaScript, clients/javascript/cektaulis.mjs, on a serving worldd.

    scripts/javascript_trial.py crates/worldd/out/worldd
    scripts/javascript_trial.py WORLDD --kills 200

Over a port and over a socket, it plays 5,000 random lines that a plain model answers too. Some are bad, and some numbers are at
or over their bounds. A server of the trial's own answers each code. Then the server is killed again and again while a client
counts: each batch of `playOnce` has to count once. At last it serves at another address. The trial prints how often it met what,
and fails if an answer was never met. Without node it only says so.
"""
import json
import pathlib
import random
import shutil
import subprocess
import sys
import tempfile
import time

from client_trial import ELSEWHERE, MODEL, MODEL_LINES, MOST_KILLING_SECONDS, TEXTS, TURN, World, silent_at
from example_trial import Script, Step
from kill_trial import CELLS, LIMIT, Batch, Request, answer, difference, random_request
from map import TOP
from trial import PATIENCE_SECONDS, PORT, TRANSPORTS, Words, Wrong
from trial import all_met, ask, free_port, parser_of, pipe, status_of

CLIENT = TOP / "clients" / "javascript" / "cektaulis.mjs"
MARKER, COUNT, BATCHES = 0, 1, 100
LOST = "played, and the answer is lost"
CODES = [f"fault {-code}" if code < 0 else f"tick 1: -{code}" for code in TEXTS]
WANTED = "+", "value", *(code.removeprefix("tick 1: ") for code in CODES), MODEL, "kills", "counted once", LOST, *ELSEWHERE
# Those of one word are bad lines for the model. They are sent as they are.
EDGES: tuple[Request, ...] = (
    ("set", 6, LIMIT), ("get", 6), ("add", 6, 1), ("add", 6, -LIMIT), ("set", 7, 2**53 + 1), ("get", 7), ("set", 6, 2**64 - 1),
    ("add", 6, 2**63 - 1), ("add", 6, 1 - 2**63), ("get", 2**32 - 1), ("set 6 18446744073709551616",), ("cap 6 1e3",),
    ("add 6 -9223372036854775808",), ("get 4294967296",), ("get 6\r",), ("end\r",), ("add 6 -0",), ("mark",), ("\0",), ("é",),
)
# Plays each line of its input, a batch in JSON, and prints what came of it.
PLAYER = """
import { createInterface } from "node:readline";
import * as client from "CLIENT";
const world = await client.World.connect(process.argv[1]);
const request = ([kind, ...numbers]) => numbers.length ? client[kind](...numbers.map(BigInt)) : new client.Action(kind);
const word = (answer) => answer === null ? " +" : answer instanceof client.Refused ? ` -${answer.code}` : ` =${answer}`;
for await (const line of createInterface({ input: process.stdin })) {
  await world.play(...JSON.parse(line).map(request)).then(
    ({ number, answers }) => console.log(`tick ${number}:${answers.map(word).join("")}\\t${answers[0]?.text}`),
    (error) => console.log(`${error.name} ${error.code ?? error.certain}\\t${error.message}`));
}
await world.close();
""".replace("CLIENT", CLIENT.as_uri())
# Counts once for each number of its input, which is its marker, and prints the count.
COUNTER = """
import { createInterface } from "node:readline";
import * as client from "CLIENT";
const world = await client.World.connect(process.argv.slice(1, 3), 60, process.argv[3]);
for await (const number of createInterface({ input: process.stdin })) {
  const tick = await world.playOnce(MARKER, BigInt(number), client.add(COUNT, 1), client.get(COUNT));
  console.log(tick ? String(tick.answers[1]) : "lost");
}
await world.close();
""".replace("CLIENT", CLIENT.as_uri()).replace("MARKER", str(MARKER)).replace("COUNT", str(COUNT))


def play(address: str, batches: list[Batch]) -> list[list[str]]:
    """What comes of batches: each answer, and its text if it is a refusal."""
    given = "".join(json.dumps([[str(word) for word in request] for request in batch]) + "\n" for batch in batches)
    run = ["node", "--input-type=module", "--eval", PLAYER, address]
    ended = subprocess.run(run, input=given, capture_output=True, text=True, timeout=2 * PATIENCE_SECONDS)
    answers = [line.split("\t") for line in ended.stdout.splitlines()]
    if ended.returncode or len(answers) != len(batches):
        raise Wrong(f"the player ended with status {ended.returncode} after {len(answers)} batches: {ended.stderr}")
    return answers


def try_model(trial: World, chance: random.Random) -> None:
    """Random lines are answered as by a plain model."""
    batches, words = [EDGES], [0] * CELLS
    while sum(map(len, batches)) < MODEL_LINES:
        lines = range(chance.choice((0, 1, 3, 20, 600, 1024)))
        batches.append(tuple(chance.choice(EDGES) if chance.random() < 0.1 else random_request(chance) for _ in lines))
    for number, (batch, (line, _)) in enumerate(zip(batches, play(trial.address, batches)), 1):
        if line != (wanted := answer(words, batch, number)):
            raise Wrong(difference(batch, line, wanted))
        trial.met.update("value" if word[0] == "=" else word for word in line.split(" ")[2:])
        trial.met[MODEL] += len(batch)


def try_codes(trial: World) -> None:
    """Each code comes back with the text of docs/CLIENT.md, and so does the end of the connection."""
    server = Script([Step("get 0", line) for line in (*CODES, None)])
    answers = play(server.address, [(("get", 0),)] * (len(CODES) + 1))
    server.end()
    wanted = [[code.replace("fault", "BatchRefused"), text] for code, text in zip(CODES, TEXTS.values())]
    if answers != [*wanted, ["Unanswered true", "the server closed the connection"]]:
        raise Wrong(f"codes come back as {answers}")
    trial.met.update(code for code in CODES if "fault" in code)


def try_kills(trial: World, chance: random.Random, kills: int) -> int:
    """Each batch of `playOnce` counts once, though the server is killed so often or more. Gives how many counted."""
    given, answers, played, begun = trial.room / "batches", trial.room / "answers", 0, time.monotonic()
    given.write_text(f"add {COUNT} 1, get {COUNT}\n" * BATCHES)
    while trial.met["kills"] < kills or not trial.met[LOST] and time.monotonic() - begun < MOST_KILLING_SECONDS:
        with given.open() as batches, answers.open("w") as output:
            run: Words = ["node", CLIENT, trial.address, str(MARKER), str(played + 1)]
            client = subprocess.Popen(run, stdin=batches, stdout=output)
        while client.poll() is None:
            time.sleep(chance.uniform(0, 0.2))
            if answers.stat().st_size:
                trial.kill()
                trial.serve()
                trial.met["kills"] += 1
        for played, line in enumerate(answers.read_text().splitlines(), played + 1):
            if line != LOST and not line.endswith(f": + ={played}"):
                raise Wrong(f"batch {played} was answered `{line}`")
            trial.met[LOST if line == LOST else "counted once"] += 1
        if client.returncode or played % BATCHES:
            raise Wrong(f"the client ended with status {client.returncode} after batch {played}")
    line, _ = play(trial.address, [(("get", MARKER), ("get", COUNT))])[0]
    if not line.endswith(f": ={played} ={played}"):
        raise Wrong(f"{played} batches left the marker and the count as `{line}`")
    return played


def try_addresses(trial: World, count: int) -> None:
    """Of two addresses a client finds the one that serves. It leaves one that is silent. It has counted up to a number before."""
    other, copy = str(free_port() if trial.transport == PORT else trial.room / "other"), trial.room.with_suffix(".copy")
    run: Words = ["node", "--input-type=module", "--eval", COUNTER, other, trial.address, str(TURN)]
    with subprocess.Popen(run, stdin=subprocess.PIPE, stdout=subprocess.PIPE, text=True, bufsize=1) as client:

        def counts(kind: str = "counted once") -> None:
            nonlocal count
            count += 1
            pipe(client.stdin).write(f"{count}\n")
            if (line := pipe(client.stdout).readline()) != f"{count}\n":
                raise Wrong(f"batch {count} was answered `{line}`")
            trial.met[kind] += 1

        counts()
        trial.kill()
        trial.serve(other)
        counts(ELSEWHERE[0])
        trial.kill()
        with silent_at(trial):
            trial.serve(other)
            counts(ELSEWHERE[1])
        pathlib.Path(trial.address).unlink(missing_ok=True)
        trial.hold()
        held = trial.server
        copy.mkdir()
        ask(trial.worldd, "backup", trial.room, "--to", str(copy))
        trial.serve(room=copy)
        counts(ELSEWHERE[2])
        held.kill()
        held.communicate()
        pipe(client.stdin).close()


def try_over(trial: World, seed: str, kills: int) -> None:
    """Tries the client over a transport, and prints what was met."""
    chance = random.Random(seed)
    trial.serve()
    try:
        try_model(trial, chance)
        try_codes(trial)
        try_addresses(trial, try_kills(trial, chance, kills))
    finally:
        trial.kill()
    print(f"javascript over a {trial.transport}: {', '.join(f'{name} {trial.met[name]}' for name in WANTED)}")
    all_met(trial.met, WANTED)


def main() -> int:
    """Runs the trial over each transport."""
    parser = parser_of(__doc__, "of the lines and the moments")
    parser.add_argument("--kills", type=int, default=10, help="how often a server is killed at least, over each transport (10)")
    given = parser.parse_args()
    if not shutil.which("node"):
        print("javascript_trial: there is no node, so the client in JavaScript isn't tried")
        return 0

    def run() -> None:
        for transport in TRANSPORTS:
            with tempfile.TemporaryDirectory(prefix="javascript-trial-") as folder:
                world = World(given.worldd, pathlib.Path(folder) / "world", transport, CELLS)
                try_over(world, f"{given.seed} {transport}", given.kills)

    return status_of(f"javascript_trial: with seed {given.seed}", run)


if __name__ == "__main__":
    sys.exit(main())
