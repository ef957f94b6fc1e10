"use strict";
// What a run has, in words: each function answers text.

// Numbers as text, with three or more in a row as one: "0 to 5, 7 and 9".
function spoken(ranks) {
  const parts = [];
  for (let from = 0; from < ranks.length; ) {
    let to = from;
    while (to + 1 < ranks.length && ranks[to + 1] === ranks[to] + 1) to++;
    if (to - from >= 2) parts.push(ranks[from] + " to " + ranks[to]);
    else for (let place = from; place <= to; place++) parts.push(String(ranks[place]));
    from = to + 1;
  }
  return joined(parts);
}

function joined(parts) {
  return parts.length < 2 ? parts.join("") : parts.slice(0, -1).join(", ") + " and " + parts[parts.length - 1];
}

function counted(count, one, many) {
  return count + " " + (count === 1 ? one : many);
}

function ranksWords(ranks) {
  return (ranks.length === 1 ? "rank " : "ranks ") + spoken(ranks);
}

function capital(text) {
  return text.charAt(0).toUpperCase() + text.slice(1);
}

function shortened(text, most) {
  return text.length <= most ? text : text.slice(0, Math.max(most - 1, 0)) + "…";
}

function nameOf(run, process) {
  return (process < run.ranks ? "rank " : "relay ") + process;
}

function theTurn(turn) {
  return turn ? "turn " + turn : "the start";
}

// "world/0.0 3" is call 3 of world/0.0.
function callName(run, call) {
  const name = run.calls[call], communicator = nameIn(name);
  return "call " + name.slice(communicator.length + 1) + " of " + communicator;
}

function postsTo(run, call) {
  return run.posts.flatMap((posts) => posts.filter((post) => post.call === call));
}

// What the script calls it: "allreduce half", or "barrier a or bcast a" where ranks call different things. Empty where the trace doesn't tell it.
function callTitle(run, call) {
  const titles = [...new Set(postsTo(run, call).map(({ words }) => words.slice(0, 2).join(" ")))];
  return titles.length > 2 ? titles.slice(0, 2).join(" or ") + " or others" : titles.join(" or ");
}

// The call as the script names it, with its number: "allreduce half (call 0 of world/1.0)".
function callInFull(run, call) {
  const title = callTitle(run, call);
  return title ? `${title} (${callName(run, call)})` : callName(run, call);
}

// The lines of the script that make the call.
function callLines(run, call) {
  const lines = [...new Set(postsTo(run, call).map(({ line }) => line))].sort((one, other) => one - other);
  return lines.length ? (lines.length === 1 ? "line " : "lines ") + spoken(lines) : "";
}

function postsOf(ranks) {
  const list = listed(ranks);
  return list.length === 1 ? "the post of rank " + list[0] : "the posts of ranks " + spoken(list);
}

function bringsOf(run, brought) {
  return joined(brought.map(([call, ranks]) => postsOf(ranks) + " to " + callInFull(run, call)));
}

// By process, what a turn's frames brought it that it hadn't.
function learned(run, turn) {
  const news = new Map();
  for (const { to, brought } of run.turns[turn - 1].taken) {
    for (const [call, ranks] of brought) {
      if (!news.has(to)) news.set(to, new Map());
      news.get(to).set(call, (news.get(to).get(call) || 0n) | ranks);
    }
  }
  return news;
}

function resultWords(results) {
  const ranks = [...new Set(results.map(([rank]) => rank))];
  if (ranks.length > 4) return [counted(ranks.length, "rank prints", "ranks print") + " a result."];
  return ranks.map((rank) => "Rank " + rank + " prints " + shortened(results.filter(([who]) => who === rank).map(([, line]) => line).join("; "), 80) + ".");
}

function frameWords(run, turn) {
  const { sent, taken } = run.turns[turn - 1];
  const lost = sent.filter((frame) => frame.lost).length, again = taken.filter((frame) => frame.again).length;
  if (!sent.length && !again) return [];
  const words = [counted(sent.length, "frame goes", "frames go") + " out, " + (lost ? counted(lost, "is", "are") + " lost." : "none is lost.")];
  if (again) words.push(counted(again, "earlier frame comes", "earlier frames come") + " once more.");
  return words;
}

function newsWords(run, turn) {
  const news = [...learned(run, turn)].sort(([one], [other]) => one - other);
  if (!news.length) return run.turns[turn - 1].sent.length ? ["No process learns a new post."] : [];
  if (news.length > 4) return [news.length + " processes learn new posts."];
  return news.map(([process, calls]) => capital(nameOf(run, process)) + " learns " + bringsOf(run, [...calls]) + ".");
}

// Why the run ends, as the program says it; and whether the ranks that wait do so in every run.
function endWords(run) {
  const ranks = waitingIn(run.said), says = (words) => run.said.some((line) => line.startsWith(words));
  if (!ranks.length) return ["The trace ends here."];
  const why = says("turns used up") ? "The turns are used up" : says("every frame was lost") ? "Every frame was lost" : "The run ends here";
  const always = says("deadlock:") || says("in the evaluation these ranks wait there too") ? (ranks.length === 1 ? ["It waits in every run."] : ["They wait in every run."]) : [];
  const finish = run.said.filter((line) => /^(with .* all ranks would finish|the script lets all ranks finish)$/.test(line)).map((line) => capital(line) + ".");
  return [`${why}, and ${ranksWords(ranks)}${ranks.length === 1 ? " waits." : " wait."}`, ...always, ...finish];
}

// The turn in words, as the page says it aloud.
function sentence(run, turn) {
  if (!turn) return "Before turn 1 of " + run.last + ". Nothing has been sent yet.";
  const words = ["Turn " + turn + " of " + run.last + "."];
  words.push(...resultWords(run.turns[turn - 1].results), ...frameWords(run, turn), ...newsWords(run, turn));
  if (turn === run.last) words.push(...endWords(run));
  return words.join(" ");
}

// What the page says of the whole run.
function summary(run) {
  const frames = run.turns.reduce((sum, turn) => sum + turn.sent.length, 0);
  const lost = run.turns.reduce((sum, turn) => sum + turn.sent.filter((frame) => frame.lost).length, 0);
  const relays = run.processes - run.ranks;
  const who = counted(run.ranks, "rank", "ranks") + (relays ? " and " + counted(relays, "relay", "relays") : "");
  return [who, counted(run.last, "turn", "turns"), counted(run.calls.length, "call", "calls"), counted(frames, "frame", "frames") + ", " + lost + " lost"].join(" · ");
}

// What a process has of a call, in words.
function boardWords(run, process, call, turn) {
  const board = boardOf(run, process, call, turn), all = run.members[call];
  if (board.dropped) return "dropped";
  if (!board.ranks) return "none";
  const whole = (all & ~board.ranks) === 0n ? "all: " : "";
  const fresh = board.fresh ? "; new: " + spoken(listed(board.fresh)) : "";
  return whole + spoken(listed(board.ranks)) + fresh;
}

// Where a rank is after a turn, in a few words: "line 13, waits for 2". Where the trace tells no posts it is what the program says at the end.
function statusOf(run, rank, turn) {
  if (rank >= run.ranks || !turn) return "";
  const said = !run.knowsPosts && isSaid(run, turn) ? run.waits.find((it) => it.rank === rank) : null;
  if (said) return `line ${said.line}, waits for ${few(said.others)}`;
  const wait = waitsAfter(run, turn).find((it) => it.rank === rank);
  if (wait) return `line ${wait.line}, ` + (waitsFor(wait).length ? "waits for " + few(waitsFor(wait)) : "hasn't heard of " + few(unheardBy(wait)));
  if (!knowsPlaces(run)) return "";
  const statement = statementAt(run, rank, turn);
  return statement ? `line ${statement.line}, goes on` : "finished";
}

// The ranks, or how many there are of them.
function few(ranks) {
  const text = spoken(ranks);
  return text.length > 14 ? ranks.length + " ranks" : text;
}

// For whom a rank waits: who hasn't called what it waits for.
function waitsFor(wait) {
  return [...new Set(wait.lacks.flatMap(({ unmade }) => unmade))].sort((one, other) => one - other);
}

function unheardBy(wait) {
  return [...new Set(wait.lacks.flatMap(({ unheard }) => unheard))].sort((one, other) => one - other);
}

// Where the ranks are that hold others up: "it is still at line 13 (allreduce half)".
function whereWords(run, ranks, turn) {
  const places = ranks.map((rank) => (knowsPlaces(run) ? statementAt(run, rank, turn) : run.posts[rank].filter((post) => post.turn <= turn).pop()));
  const lines = [...new Set(places.filter(Boolean).map(({ line }) => line))].sort((one, other) => one - other);
  if (!lines.length) return knowsPlaces(run) ? (ranks.length === 1 ? "it has finished" : "they have finished") : "";
  const still = knowsPlaces(run) ? (ranks.length === 1 ? "it is still at " : "they are still at ") : ranks.length === 1 ? "its last call is at " : "their last calls are at ";
  const name = lines.length === 1 ? ` (${places.find(Boolean).words.slice(0, 2).join(" ")})` : "";
  return still + (lines.length === 1 ? "line " : "lines ") + spoken(lines) + name;
}

// What holds the run up after a turn, in one sentence.
function heldWords(run, turn) {
  if (!run.knowsPosts && !isSaid(run, turn)) return turn === run.last ? "" : "This trace doesn't say when ranks call: who waits is known at the end only.";
  const { arrows, circle, last, waiting } = heldUp(run, turn);
  if (circle.length) return `${capital(ranksWords(circle))} wait for each other: a deadlock.`;
  if (!arrows.length) {
    const waits = waitsAfter(run, turn);
    if (waits.length) return `All have called what others wait for. Posts are on their way to ${ranksWords(waits.map(({ rank }) => rank))}.`;
    return turn === run.last && waitingIn(run.said).length ? `All posts have come. The run ends before ${goOnWords(waitingIn(run.said))}.` : turn ? "Nobody waits." : "";
  }
  const isAll = numbers(run.ranks).every((rank) => last.includes(rank) || waiting.includes(rank)), where = last.length > 6 ? "" : whereWords(run, last, turn);
  const whom = isAll ? "everybody" : waiting.length > 6 ? "others" : spokenWaiting(waiting), who = last.length > 6 ? last.length + " ranks" : capital(ranksWords(last));
  return `${who} ${last.length === 1 ? "holds" : "hold"} ${whom} up${where ? ": " + where : ""}.`;
}

function goOnWords(ranks) {
  return ranksWords(ranks) + (ranks.length === 1 ? " goes on" : " go on");
}

function spokenWaiting(waiting) {
  return ranksWords(waiting.slice().sort((one, other) => one - other));
}
