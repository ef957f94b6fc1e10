"use strict";
// Reads a trace of `gossipmpi run --trace`, line by line (docs/TRACE.md). What it makes is plain data, which a page can keep as JSON:
//   processes  how many there are
//   calls      each call's name, as "world 0", in the order in which they come into the run
//   turns      from turn 1 on: { sent: [from, to, bytes, lost], taken: [from, to, again, change], results: [rank, line], posts: [rank, call, line, words] }
//   said       the lines that are no events
// A change is what a frame brought: "0:6 -1" where its process now has the posts of ranks 1 and 2 (as bits: 6) to call 0, and none to call 1 any more.

const MOST_PROCESSES = 64, MOST_SAID = 200, MOST_SKIPPED = 1000;
const EVENTS = [
  ["sent", /^turn ([0-9]+): ([0-9]+) -> ([0-9]+) (sent|lost) ([0-9]+) bytes$/],
  ["taken", /^turn ([0-9]+): ([0-9]+) -> ([0-9]+) (taken|again): [0-9]+ has (nothing|[^ ]+ [0-9]+:(?: [0-9]+)+(?: \| [^ ]+ [0-9]+:(?: [0-9]+)+)*)$/],
  ["posts", /^turn ([0-9]+): rank ([0-9]+) posts ([^ ]+ [0-9]+), line ([0-9]+): (.*)$/],
  ["result", /^turn ([0-9]+): rank ([0-9]+) result (.*)$/],
];
const OF_A_TRANSCRIPT = /^[0-9]+: /;

// Why a trace can't be shown.
class Unreadable extends Error {}

class TraceReader {
  constructor() {
    Object.assign(this, { processes: 0, turns: [], said: [], names: new Map(), held: [], parts: new Map(), count: 0 });
  }

  // Takes a line, and answers whether it is an event.
  add(line) {
    for (const [kind, form] of EVENTS) {
      const found = form.exec(line);
      if (found) {
        this[kind](...found.slice(1));
        this.count += 1;
        return true;
      }
    }
    if (line && !line.startsWith("turn ") && !OF_A_TRANSCRIPT.test(line) && this.said.length < MOST_SAID) this.said.push(line);
    return false;
  }

  // The turn with this number, in which these processes do something.
  turn(text, ...processes) {
    const number = Number(text), most = Math.max(...processes);
    if (most >= MOST_PROCESSES) throw new Unreadable(`process ${most}: there are at most ${MOST_PROCESSES}`);
    if (number < 1 || number > this.turns.length + MOST_SKIPPED) throw new Unreadable(`turn ${text} follows turn ${this.turns.length}`);
    while (this.turns.length < number) this.turns.push({ sent: [], taken: [], results: [], posts: [] });
    while (this.processes <= most) this.held[this.processes++] = new Map();
    return this.turns[number - 1];
  }

  sent(turn, from, to, what, bytes) {
    this.turn(turn, Number(from), Number(to)).sent.push([Number(from), Number(to), Number(bytes), what === "lost" ? 1 : 0]);
  }

  taken(turn, from, to, what, held) {
    const here = this.turn(turn, Number(from), Number(to));
    here.taken.push([Number(from), Number(to), what === "again" ? 1 : 0, this.change(Number(to), held)]);
  }

  posts(turn, rank, call, line, words) {
    this.turn(turn, Number(rank)).posts.push([Number(rank), this.call(call), Number(line), words]);
  }

  result(turn, rank, line) {
    this.turn(turn, Number(rank)).results.push([Number(rank), line]);
  }

  call(name) {
    if (!this.names.has(name)) this.names.set(name, this.names.size);
    return this.names.get(name);
  }

  // A call and whose posts to it a process has. The same text comes often, and is read once.
  part(text) {
    if (!this.parts.has(text)) {
      const [name, ranks] = text.split(":"), list = ranks.trim().split(" ").map(Number);
      if (Math.max(...list) >= MOST_PROCESSES) throw new Unreadable(`a post of process ${Math.max(...list)}`);
      this.parts.set(text, [this.call(name), setOf(list)]);
    }
    return this.parts.get(text);
  }

  change(process, held) {
    const before = this.held[process], now = new Map(held === "nothing" ? [] : held.split(" | ").map((text) => this.part(text)));
    const brought = [...now].map(([call, ranks]) => [call, ranks & ~(before.get(call) || 0n)]).filter(([, ranks]) => ranks);
    const gone = [...before.keys()].filter((call) => !now.has(call));
    this.held[process] = now;
    return [...brought.map(([call, ranks]) => `${call}:${ranks.toString(16)}`), ...gone.map((call) => "-" + call)].join(" ");
  }

  events() {
    return { processes: this.processes, calls: [...this.names.keys()], turns: this.turns, said: this.said };
  }
}

// What the text of a trace says.
function eventsOf(text) {
  const reader = new TraceReader(), lines = text.split("\n").map((line) => line.replace(/\r$/, ""));
  const isLast = (place) => lines.slice(place + 1).every((line) => !line);
  lines.forEach((line, place) => {
    if (!reader.add(line) && line.startsWith("turn ") && isLast(place)) throw new Unreadable(`the trace is cut off in line ${place + 1}: ${line.slice(0, 60)}`);
  });
  if (!reader.count) throw new Unreadable("the trace has no event: is it what 'gossipmpi run --trace' writes on the standard error?");
  return reader.events();
}
