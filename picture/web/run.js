"use strict";
// A run: what every process has after any turn. `runOf` makes it of the events of a trace (read.js), of the script, and of what else the program says.
// It is asked by functions that change nothing; nothing here draws, or knows of a page.

const WAITS_FOR = /^rank ([0-9]+), line ([0-9]+): (.*): waits for (R(?:, R)*)$/.source.replaceAll("R", "ranks? [0-9]+(?: to [0-9]+)?(?: \\([^()]*\\))?");
const SIZE = /^comm ([0-9]+) [0-9]+$/;

// The ranks of a list as "rank 0 (at line 4), ranks 2 to 4 (finished)".
function ranksIn(text) {
  return text.replace(/\([^)]*\)|ranks? /g, "").split(",").flatMap((part) => {
    const [from, to] = part.split(" to ").map(Number);
    return numbers((to === undefined ? from : to) - from + 1).map((rank) => rank + from);
  });
}

// What the program says of the run itself, and not of the script's evaluation.
function saidOfRun(said) {
  const end = said.findIndex((line) => line.startsWith("in the evaluation"));
  return end < 0 ? said : said.slice(0, end);
}

// Who waits for whom when the run is over, as `--explain` says it.
function saidWaits(said) {
  const found = saidOfRun(said).map((line) => new RegExp(WAITS_FOR).exec(line)).filter(Boolean);
  return found.map(([, rank, line, call, others]) => ({ rank: Number(rank), line: Number(line), call, others: ranksIn(others).filter((it) => it < MOST_PROCESSES), words: others }));
}

// The ranks that the program names at the end: a rank without any call is seen nowhere else.
function waitingIn(said) {
  const line = said.find((it) => it.startsWith("waiting:")) || "";
  return line.slice(8).trim().split(" ").filter((word) => /^[0-9]{1,2}$/.test(word)).map(Number);
}

// From "0:6 -1": the calls with the ranks whose posts came, and the calls that are dropped.
function changeOf(text) {
  const brought = [], dropped = [];
  for (const word of text ? text.split(" ") : []) {
    const [call, ranks] = word.split(":");
    if (ranks) brought.push([Number(call), BigInt("0x" + ranks)]);
    else dropped.push(-Number(call));
  }
  return { brought, dropped };
}

// How many ranks there are: the script says it; else those that are seen to do what only ranks do.
function ranksOf(run, events) {
  const most = seenRanks(run, events);
  if (run.script.ranks && most > run.script.ranks) throw new Unreadable(`the trace has a rank ${most - 1}, and the script ${run.script.ranks} ranks`);
  return run.script.ranks || most;
}

// Refuses a script that isn't the trace's, as far as one can see. The trace's last line may be cut.
function holdScript(run, events) {
  for (const [rank, , line, words] of run.script.ranks ? events.turns.flatMap(({ posts }) => posts) : []) {
    const statement = run.script.statements[rank].find((it) => it.line === line);
    if (!statement || !statement.text.startsWith(words)) throw new Unreadable(`line ${line} of the script isn't '${words}', as the trace has it`);
  }
}

function seenRanks(run, events) {
  const seen = [...waitingIn(run.said), ...run.waits.flatMap(({ rank, others }) => [rank, ...others])];
  for (const { taken, results, posts } of events.turns) {
    for (const [, , , change] of taken) for (const [, ranks] of changeOf(change).brought) seen.push(ranks.toString(2).length - 1);
    for (const [rank] of [...results, ...posts]) seen.push(rank);
  }
  return seen.reduce((most, rank) => Math.max(most, rank), -1) + 1;
}

function without(run, ranks, process) {
  return process < run.ranks ? ranks & ~bit(process) : ranks;
}

// Notes in which turn a post to a call is made, or is first seen.
function notePost(run, call, rank, turn) {
  if (!run.posted[call][rank]) run.posted[call][rank] = turn;
  run.newest[turn] = Math.max(run.newest[turn], call);
}

function noteTaken(run, number, [from, process, again, text]) {
  const { brought, dropped } = changeOf(text);
  for (const [call, ranks] of brought) {
    if (!run.held[process].has(call)) run.held[process].set(call, []);
    run.held[process].get(call).push([number, ranks]);
    run.newest[number] = Math.max(run.newest[number], call);
    if (!run.knowsPosts) listed(ranks).forEach((rank) => rank < run.ranks && notePost(run, call, rank, number));
  }
  for (const call of dropped) if (!run.gone[process].has(call)) run.gone[process].set(call, number);
  return { from, to: process, again, dropped, brought: brought.map(([call, ranks]) => [call, without(run, ranks, process)]).filter(([, ranks]) => ranks) };
}

function noteLine(run, number, rank, line) {
  run.printed[rank].push([number, line]);
  run.lines[number][rank] += 1;
}

// Goes through a turn once. A process has its own post before it hears from anybody, so what others bring is kept without it.
function noteTurn(run, { sent, taken, results, posts }, number) {
  run.newest[number] = run.newest[number - 1];
  run.lines[number] = results.length ? run.lines[number - 1].slice() : run.lines[number - 1];
  for (const [rank, line] of results) noteLine(run, number, rank, line);
  const made = posts.map(([rank, call, line, text]) => ({ turn: number, rank, call, line, text, words: text.split(/[ \t]+/) }));
  for (const post of made) {
    run.posts[post.rank].push(post);
    notePost(run, post.call, post.rank, number);
  }
  run.turns.push({ sent: sent.map(([from, to, bytes, lost]) => ({ from, to, bytes, lost })), taken: taken.map((it) => noteTaken(run, number, it)), results, posts: made });
}

// Lines of a transcript that no event of the trace has, as of a run without one: they are printed in the last turn.
function noteTranscript(run, text) {
  const more = numbers(run.ranks).map(() => []);
  for (const line of text.split("\n")) {
    const found = /^([0-9]{1,2}): (.*?)\r?$/.exec(line);
    if (found && Number(found[1]) < run.ranks) more[Number(found[1])].push(found[2]);
  }
  run.lines[run.last] = run.lines[run.last].slice();
  more.forEach((lines, rank) => lines.slice(run.printed[rank].length).forEach((line) => noteLine(run, run.last, rank, line)));
}

function sizesOf(run) {
  const sizes = new Map();
  run.printed.forEach((lines, rank) => lines.forEach(([, line]) => {
    const found = SIZE.exec(line);
    if (found) sizes.set(rank, (sizes.get(rank) || new Set()).add(Number(found[1])));
  }));
  return sizes;
}

// Each call's members, as a set; and each communicator's.
function noteMembers(run) {
  const posts = new Map(), seen = new Map();
  for (const post of run.posts.flat()) posts.set(run.calls[post.call], [...(posts.get(run.calls[post.call]) || []), post]);
  run.calls.forEach((name, call) => {
    const ranks = numbers(run.ranks).filter((rank) => run.posted[call][rank]);
    seen.set(nameIn(name), new Set([...(seen.get(nameIn(name)) || []), ...ranks]));
  });
  run.communicators = membersOf({ ranks: run.ranks, calls: run.calls, posts, seen, sizes: sizesOf(run) });
  run.members = run.calls.map((name) => setOf(run.communicators.get(nameIn(name))));
}

// The run, of what `eventsOf` answers, the text of its script and of its output, where there are such.
function runOf({ title = "", script = "", transcript = "", events }) {
  const run = { title, calls: events.calls, said: events.said, turns: [], last: events.turns.length, script: scriptOf(script), waits: saidWaits(events.said) };
  run.ranks = ranksOf(run, events);
  holdScript(run, events);
  run.processes = Math.max(events.processes, run.ranks);
  run.knowsPosts = events.turns.some(({ posts }) => posts.length > 0);
  run.posted = run.calls.map(() => new Array(run.ranks).fill(0)); // by call: the turn in which each rank posts, or is first seen to have posted
  run.posts = numbers(run.ranks).map(() => []); // of each rank, where the trace tells them
  run.held = numbers(run.processes).map(() => new Map()); // of each process by call: [turn, the ranks whose posts came then]
  run.gone = numbers(run.processes).map(() => new Map()); // of each process by call: the turn in which it was dropped
  run.newest = [0]; // by turn: the call that came into the run last
  run.lines = [numbers(run.ranks).map(() => 0)]; // by turn: how many lines each rank has
  run.printed = numbers(run.ranks).map(() => []); // of each rank: [turn, line]
  events.turns.forEach((turn, place) => noteTurn(run, turn, place + 1));
  if (transcript) noteTranscript(run, transcript);
  noteMembers(run);
  noteStatements(run);
  return run;
}

// Whether the rank has posted to the call by then. Where the trace tells no posts: whether it or another is seen to hold that post.
function hasPosted(run, call, rank, turn) {
  return rank < run.ranks && run.posted[call][rank] > 0 && run.posted[call][rank] <= turn;
}

// What a process has of a call after a turn: the ranks whose posts it has, those that came in this turn, and whether it has dropped the call.
function boardOf(run, process, call, turn) {
  let ranks = hasPosted(run, call, process, turn) ? bit(process) : 0n, fresh = 0n;
  for (const [came, brought] of run.held[process].get(call) || []) {
    if (came > turn) break;
    ranks |= brought;
    if (came === turn) fresh |= without(run, brought, process);
  }
  return { ranks, fresh, dropped: run.gone[process].has(call) && run.gone[process].get(call) <= turn };
}

// Whose posts a rank lacks that has itself posted to the call.
function lacksOf(run, rank, call, turn) {
  const board = boardOf(run, rank, call, turn);
  return hasPosted(run, call, rank, turn) && !board.dropped ? run.members[call] & ~board.ranks : 0n;
}
