"use strict";
// Where each rank is, who waits, and for whom. That goes by the posts that the trace tells, and by the script. Where the trace tells none, only
// what the program says at the end is known.

// Of each rank, how many lines it has printed once a statement is done; and by line the rank's post. A request that isn't posted was refused, and
// prints that.
function noteStatements(run) {
  run.postAt = run.posts.map((posts) => new Map(posts.map((post) => [post.line, post])));
  run.until = run.script.statements.map((list, rank) => {
    let count = 0;
    return list.map((statement) => (count += statement.kind === "request" && !run.postAt[rank].has(statement.line) ? 1 : printedBy(statement)));
  });
}

// Whether the trace and the script say at which statement each rank is.
function knowsPlaces(run) {
  return run.knowsPosts && run.script.ranks > 0;
}

// The statement at which a rank is after a turn; none where it has finished.
function statementAt(run, rank, turn) {
  const count = turn ? run.lines[turn][rank] : -1;
  const place = run.until[rank].findIndex((until) => until > count);
  return place < 0 ? null : run.script.statements[rank][place];
}

// The calls for which a rank waits at a statement: its own, or those of its requests.
function callsOf(run, rank, statement, turn) {
  const mine = run.posts[rank].filter((post) => post.turn <= turn);
  if (statement.kind === "wait") return mine.filter(({ words }) => words[0].startsWith("i") && statement.words.slice(1).includes(words[words.length - 1])).map(({ call }) => call);
  return mine.filter(({ line }) => line === statement.line).map(({ call }) => call);
}

// The calls of a communicator up to this one: a call is done once those before it are.
function upTo(run, call) {
  const name = nameIn(run.calls[call]), number = Number(run.calls[call].slice(name.length + 1));
  return run.calls.map((_, it) => it).filter((it) => nameIn(run.calls[it]) === name && Number(run.calls[it].slice(name.length + 1)) <= number);
}

// For whom a rank waits in a call: `unmade` are the members that haven't called, `unheard` those whose posts it hasn't heard of.
function waitIn(run, rank, call, turn) {
  const lacks = upTo(run, call).reduce((set, it) => set | lacksOf(run, rank, it, turn), 0n);
  const unmade = setOf(listed(run.members[call]).filter((other) => !hasPosted(run, call, other, turn)));
  return { call, unmade: listed(lacks & unmade), unheard: listed(lacks & ~unmade) };
}

// The calls in which a rank is after a turn: of a trace without its script only the last one, if it blocks.
function openCalls(run, rank, turn) {
  if (knowsPlaces(run)) {
    const statement = statementAt(run, rank, turn);
    return statement ? { line: statement.line, text: statement.text, calls: callsOf(run, rank, statement, turn) } : null;
  }
  const post = run.posts[rank].filter((it) => it.turn <= turn).pop();
  return post && !post.words[0].startsWith("i") ? { line: post.line, text: post.text, calls: [post.call] } : null;
}

// Every rank that waits after a turn: its line and statement, and by call for whom it waits.
function waitsAfter(run, turn) {
  if (run.lastAsked && run.lastAsked.turn === turn) return run.lastAsked.waits;
  const waits = [];
  for (const rank of run.knowsPosts ? numbers(run.ranks) : []) {
    const open = openCalls(run, rank, turn);
    const lacks = open ? open.calls.map((call) => waitIn(run, rank, call, turn)).filter(({ unmade, unheard }) => unmade.length + unheard.length) : [];
    if (lacks.length) waits.push({ rank, line: open.line, text: open.text, lacks });
  }
  run.lastAsked = { turn, waits };
  return waits;
}

// Whether the program itself says who waits after this turn: at the end, by --explain.
function isSaid(run, turn) {
  return turn === run.last && run.waits.length > 0;
}

// The pairs of ranks [who waits, who hasn't called]: the arrows. In the last turn of a trace that tells no posts they are the program's own.
function arrowsAfter(run, turn) {
  const pairs = run.knowsPosts ? waitsAfter(run, turn).flatMap(({ rank, lacks }) => lacks.flatMap(({ unmade }) => unmade.map((other) => [rank, other])))
    : isSaid(run, turn) ? run.waits.flatMap(({ rank, others }) => others.map((other) => [rank, other])) : [];
  return [...new Map(pairs.map((pair) => [pair.join(">"), pair])).values()];
}

// The ranks that wait for each other: those that a walk along the arrows, forward or back, never gets out of.
function inCircle(arrows) {
  let left = arrows;
  for (let before = -1; before !== left.length; ) {
    before = left.length;
    left = left.filter(([from, to]) => left.some(([it]) => it === to) && left.some(([, it]) => it === from));
  }
  return [...new Set(left.flat())].sort((one, other) => one - other);
}

// What holds the run up after a turn: ranks that wait for each other, or those that don't wait for a call, and for which others do.
function heldUp(run, turn) {
  const arrows = arrowsAfter(run, turn), waiting = new Set(arrows.map(([from]) => from));
  const last = [...new Set(arrows.map(([, to]) => to))].filter((rank) => !waiting.has(rank)).sort((one, other) => one - other);
  return { arrows, circle: inCircle(arrows), last, waiting: [...waiting] };
}
