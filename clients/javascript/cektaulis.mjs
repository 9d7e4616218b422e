/// A client of `worldd` for Node 18 or later, without packages. docs/CLIENT.md has the protocol and its patterns.
///
///     import { World, set, move, get } from "./cektaulis.mjs";
///     const world = await World.connect(7070);   // a port, or the path of a socket
///     const tick = await world.play(set(0, 5), move(0, 1, 2), get(1));
///     console.log(tick.number, tick.answers);    // 1n [ null, null, 2n ]
///     await world.close();
///
/// Numbers are given as a number or a BigInt, and come back as BigInts. A batch is sent at once: call `play` again before the
/// answer came to have several batches on their way. The program at the end plays by hand: `node cektaulis.mjs ADDRESS`.

import { once } from "node:events";
import net from "node:net";
import { pathToFileURL } from "node:url";
import { setTimeout as sleep } from "node:timers/promises";

export const GREATEST = 999_999_999_999_999_999n;   // the greatest number that a cell holds
export const LINES = 1024;                          // the most lines of a batch

const REFUSALS = {
  1: ["NoSuchCell", "there is no such cell"],
  2: ["OutOfRange", "a number is out of range"],
  3: ["ResultOutOfRange", "a result would be below 0 or above 999,999,999,999,999,999"],
  4: ["SameCell", "one cell is named twice"],
  5: ["BatchFull", "the batch has 256 accepted actions already"],
  16: ["NotUnderstood", "the line isn't understood"],
};
const FAULTS = {
  6: ["LogFull", "65,536 ticks have ended since the last image was begun: images are too slow, or down"],
  12: ["LogDown", "the log failed. Nobody knows whether the tick of this batch is there after a restart"],
  16: ["TooManyLines", "the batch has more than 1,024 lines; the session is closed"],
  17: ["NoMemory", "there was no memory for the batch"],
  21: ["WorldEnded", "the greatest tick number, 10^18, has been reached"],
};

/// The answer to a line that was refused and changed nothing: its `code`, the `name` of the reason, and a `text` for people.
export class Refused {
  constructor(code) {
    const [name, text] = REFUSALS[code] ?? ["Unknown", `refused with ${code}`];
    Object.assign(this, { code, name, text });
  }
}

/// A batch was refused as a whole, and changed nothing, except perhaps after fault 12. `fault` is the name of the reason.
export class BatchRefused extends Error {
  constructor(code) {
    const [fault, text] = FAULTS[code] ?? ["Unknown", `refused with ${code}`];
    Object.assign(super(text), { name: "BatchRefused", code, fault });
  }
}

/// The connection ended before the answer came: the batch was played as a whole or not at all. If `certain`, the server ended
/// it, and a marker that doesn't show the batch means that it wasn't played.
export class Unanswered extends Error {
  constructor(reason, certain) {
    Object.assign(super(reason), { name: "Unanswered", certain });
  }
}

/// One line of a batch, made by the functions below. `new Action(TEXT)` is any line as it stands, understood or not.
export class Action {
  constructor(line) {
    if (typeof line !== "string" || line === "end" || line.includes("\n")) throw new TypeError(`no line of a batch: ${line}`);
    this.line = line;
  }
}

function whole(value, least, most) {
  if (typeof value !== "bigint" && !Number.isSafeInteger(value)) throw new TypeError(`${value} isn't exact: use a BigInt`);
  if (value < least || value > most) throw new RangeError(`${value} is not from ${least} to ${most}`);
  return BigInt(value);
}
const cellNumber = (cell) => whole(cell, 0n, 2n ** 32n - 1n);
const amount = (value) => whole(value, 0n, 2n ** 64n - 1n);

export const set = (cell, value) => new Action(`set ${cellNumber(cell)} ${amount(value)}`);
export const add = (cell, difference) =>
  new Action(`add ${cellNumber(cell)} ${whole(difference, 1n - 2n ** 63n, 2n ** 63n - 1n)}`);
export const move = (from, to, value) => new Action(`move ${cellNumber(from)} ${cellNumber(to)} ${amount(value)}`);
export const swap = (one, other) => new Action(`swap ${cellNumber(one)} ${cellNumber(other)}`);
export const cap = (cell, value) => new Action(`cap ${cellNumber(cell)} ${amount(value)}`);
export const get = (cell) => new Action(`get ${cellNumber(cell)}`);

/// Reads an answer to a batch of `count` lines. Returns null if it is none.
function parse(line, count) {
  const fault = /^fault ([0-9]+)$/.exec(line);
  if (fault) return new BatchRefused(Number(fault[1]));
  const tick = /^tick ([0-9]+):((?: (?:\+|[=-][0-9]+))*)$/.exec(line);
  const words = tick?.[2].split(" ").slice(1);
  if (words?.length !== count) return null;
  const answers = words.map((word) =>
    word === "+" ? null : word[0] === "=" ? BigInt(word.slice(1)) : new Refused(Number(word.slice(1))));
  return { number: BigInt(tick[1]), answers };
}

export class World {
  #addresses;                                          // the first one is that of the connection, or of the next one
  #socket = null;
  #connecting = null;
  #received = "";
  #lost = new Unanswered("not connected yet", true);   // why there is no connection; null if there is one
  #pending = [];                                       // the batches on their way
  #unanswered = [];                                    // those of lost connections, for `reconnect`

  /// `patience` is how many seconds `reconnect` and `playOnce` wait for the server.
  ///
  /// An array of addresses is for one world that at most one of them serves at a time. They are tried in turn. A server that is
  /// silent for `silence` seconds is left for the next address. `playOnce` leaves one only if another address answers.
  constructor(address, patience = 30, silence = 5) {
    this.#addresses = [address].flat().map((it) =>
      /^[0-9]+$/.test(String(it)) ? { host: "127.0.0.1", port: Number(it) } : { path: it });
    if (this.#addresses.length === 0) throw new RangeError("there is no address");
    Object.assign(this, { patience, silence });
  }

  /// Connects once, to the first address at which somebody is.
  static async connect(address, patience, silence) {
    const world = new World(address, patience, silence);
    for (let left = world.#addresses.length - 1; ; left--) {
      try {
        await world.#connect();
        return world;
      } catch (error) {
        if (left === 0) throw error;
        world.#next();
      }
    }
  }

  #next() {
    this.#addresses.push(this.#addresses.shift());
  }

  async #connect() {
    const socket = net.connect({ ...this.#addresses[0], noDelay: true });
    await once(socket, "connect");
    [this.#socket, this.#received, this.#lost] = [socket, "", null];
    socket.on("data", (bytes) => this.#take(bytes));
    socket.on("end", () => this.#lose("the server closed the connection", true));
    socket.on("error", (error) => this.#lose(error.message, ["ECONNRESET", "EPIPE"].includes(error.code)));
  }

  #lose(reason, certain) {
    if (this.#lost) return;
    this.#lost = new Unanswered(reason, certain);
    this.#socket.destroy();
    for (const { actions, kept, reject } of this.#pending.splice(0)) {
      if (kept) this.#unanswered.push(actions);
      reject(this.#lost);
    }
  }

  #take(bytes) {
    const lines = (this.#received + bytes.toString("latin1")).split("\n");
    this.#received = lines.pop();
    for (const line of lines) {
      const answer = this.#pending.length > 0 ? parse(line, this.#pending[0].actions.length) : null;
      if (answer === null) return this.#lose(`no answer of worldd: ${line.slice(0, 80)}`, false);
      const { resolve, reject } = this.#pending.shift();
      (answer instanceof BatchRefused ? reject : resolve)(answer);
    }
    if (this.#received.length > 20_506) this.#lose("an answer of worldd is never that long", false);
  }

  /// Plays a batch. Returns its tick: its number, and for each line null if it was done, what was read, or a `Refused`.
  /// Throws BatchRefused, or Unanswered; then `reconnect` or `playOnce` continues.
  play(...actions) {
    return this.#send(actions, true);
  }

  #send(actions, kept) {
    return new Promise((resolve, reject) => {
      if (!actions.every((action) => action instanceof Action)) throw new TypeError("a batch has actions only");
      if (actions.length > LINES) throw new RangeError(`a batch has at most ${LINES} lines`);
      if (this.#lost) throw this.#lost;
      if (this.#socket.writableEnded) throw new Unanswered("the client closed the connection", true);
      this.#pending.push({ actions, kept, resolve, reject });
      this.#socket.write(actions.map((action) => action.line + "\n").join("") + "end\n");
    });
  }

  /// Was the batch with `set(cell, number)`, or one with a greater number, played? Only its client writes this cell.
  async wasPlayed(cell, number) {
    const [value] = (await this.#send([get(cell)], false)).answers;
    if (value instanceof Refused) throw new RangeError(`no marker: ${value.text}`);
    return value >= BigInt(number);
  }

  /// Connects again once a server is there. Returns the batches of `play` that weren't answered, in order, and forgets them.
  async reconnect() {
    await this.#wait(performance.now() + this.patience * 1000);
    return this.#unanswered.splice(0);
  }

  async #wait(until) {
    while (this.#lost) {
      this.#connecting ??= this.#reach().finally(() => { this.#connecting = null; });
      await this.#connecting.catch((error) => {
        if ((error.code === "EACCES" && this.#addresses.length === 1) || performance.now() > until) throw error;
        return sleep(20);
      });
    }
  }

  /// Connects to the first address. Of several its server has to answer an empty batch, or the next one is the first.
  async #reach() {
    try {
      await this.#connect();
      if (this.#addresses.length > 1) await this.#within(performance.now() + this.silence * 1000, this.#send([], false));
    } catch (error) {
      if (this.#socket) this.#lose(error.message, true);
      this.#next();
      throw error;
    }
  }

  /// Whether another address answers an empty batch. It is the first one then.
  async #servesElsewhere() {
    for (let left = this.#addresses.length - 1; left > 0; left--) {
      this.#next();
      const other = new World("", this.patience, this.silence);
      other.#addresses = [this.#addresses[0]];
      const answer = other.#connect().then(() => other.#within(performance.now() + this.silence * 1000, other.#send([], false)));
      const serves = await answer.then(() => true, () => false);
      other.#socket?.destroy();
      if (serves) return true;
    }
    this.#next();
    return false;
  }

  /// Plays a batch exactly once, over lost connections. It begins with `set(cell, number)`. Only this object writes that cell,
  /// one call at a time, and each batch has a greater number. Returns null if the batch was played and its answer is lost. After
  /// `patience` seconds it throws: the batch is doubtful then, and only the same call on this object continues.
  async playOnce(cell, number, ...actions) {
    const batch = [set(cell, whole(number, 1n, GREATEST)), ...actions];
    const until = performance.now() + this.patience * 1000;
    for (let pause = 1; ; pause = Math.min(2 * pause, 500)) {
      if (this.#lost && !this.#lost.certain) throw this.#lost;
      try {
        await this.#wait(until);
        if (await this.#heard(until, this.wasPlayed(cell, number))) return null;
        const tick = await this.#heard(until, this.#send(batch, false));
        return { number: tick.number, answers: tick.answers.slice(1) };
      } catch (error) {
        const again = error instanceof BatchRefused ? [6, 12, 17].includes(error.code) : error.certain;
        if (!again || performance.now() > until) throw error;
        await sleep(pause);
      }
    }
  }

  /// Waits for an answer until a time. If another address serves meanwhile, the connection is lost: its server is off then.
  async #heard(until, answer) {
    const silent = Symbol("silent");
    answer.catch(() => {});
    while (this.#addresses.length > 1 && performance.now() + this.silence * 1000 < until) {
      const first = await Promise.race([answer, sleep(this.silence * 1000, silent, { ref: false })]);
      if (first !== silent) return first;
      if (await this.#servesElsewhere()) this.#lose("another server serves", true);
    }
    return this.#within(until, answer);
  }

  /// Waits for an answer until a time. The batch stays on its way: a later one of this connection is played after it.
  #within(until, answer) {
    let timer;
    const silence = new Promise((_, reject) => {
      timer = setTimeout(() => reject(new Unanswered("the server is silent", false)), Math.max(0, until - performance.now()));
    });
    return Promise.race([answer, silence]).finally(() => clearTimeout(timer));
  }

  /// Ends the session, once the batches that were sent are answered.
  async close() {
    if (this.#lost) return;
    this.#socket.end();
    await once(this.#socket, "close");
  }
}

/// Plays by hand: each line of the input is a batch, with commas between its lines. Prints the answers. With CELL and NUMBER
/// each batch is played exactly once, with NUMBER, NUMBER + 1 and so on as markers in that cell.
async function playByHand(address, cell, number) {
  const world = await World.connect(address);
  const word = (answer) => (answer === null ? " +" : answer instanceof Refused ? ` -${answer.code}` : ` =${answer}`);
  const show = async (text) => {
    const actions = text.split(/, ?/).map((line) => new Action(line));
    const tick = await (cell ? world.playOnce(BigInt(cell), number++, ...actions) : world.play(...actions));
    console.log(tick ? `tick ${tick.number}:${tick.answers.map(word).join("")}` : "played, and the answer is lost");
  };
  let rest = "";
  for await (const chunk of process.stdin.setEncoding("utf8")) {
    const lines = (rest + chunk).split("\n");
    rest = lines.pop();
    for (const line of lines) await show(line);
  }
  if (rest !== "") await show(rest);
  await world.close();
}

if (import.meta.url === pathToFileURL(process.argv[1] ?? "").href) {
  const [address, cell, number] = process.argv.slice(2);
  await playByHand(address, cell, BigInt(number ?? 0));
}
