"use strict";
// The tables beneath the picture: they say in text what it shows.

function put(parent, ...children) {
  parent.replaceChildren(...children);
}

function make(kind, attributes, ...children) {
  const made = document.createElement(kind);
  for (const [name, value] of Object.entries(attributes)) made.setAttribute(name, value);
  made.append(...children);
  return made;
}

function headRow(...names) {
  return make("thead", {}, make("tr", {}, ...names.map((name) => make("th", { scope: "col" }, name))));
}

function row(name, ...cells) {
  return make("tr", {}, make("th", { scope: "row" }, name), ...cells.map((cell) => make("td", {}, cell)));
}

function table(caption, head, rows) {
  return make("table", {}, make("caption", {}, caption), head, make("tbody", {}, ...rows));
}

// What became of each frame of the turn.
function framesTable(run, turn) {
  const { sent, taken } = run.turns[turn - 1] || { sent: [], taken: [] };
  const rows = sent.filter((frame) => frame.lost).map(({ from, to, bytes }) => [from, to, "lost", bytes + " bytes"]);
  for (const { from, to, again, brought } of taken) {
    const bytes = sent.filter((frame) => !again && frame.from === from && frame.to === to && !frame.lost).map((frame) => frame.bytes + " bytes");
    rows.push([from, to, (again ? "once more; " : "") + (brought.length ? "brings " + bringsOf(run, brought) : "nothing new"), bytes[0] || ""]);
  }
  rows.sort((one, other) => one[0] - other[0]);
  return table("Frames of " + theTurn(turn), headRow("From", "To", "What becomes of it", "Size"), rows.map(([from, to, ...cells]) => row(nameOf(run, from), nameOf(run, to), ...cells)));
}

// What every process has of the calls that the picture shows.
function boardsTable(run, turn, calls) {
  const rows = numbers(run.processes).map((process) => row(nameOf(run, process), ...calls.map((call) => boardWords(run, process, call, turn))));
  return table("Whose posts each process has after " + theTurn(turn), headRow("Process", ...calls.map((call) => callInFull(run, call))), rows);
}

// By call for which ranks wait: who waits, who hasn't called it, and who hasn't heard of whom.
function waitsByCall(run, turn) {
  const calls = new Map();
  for (const { rank, lacks } of waitsAfter(run, turn)) {
    for (const { call, unmade, unheard } of lacks) {
      const told = calls.get(call) || { ranks: [], unmade, unheard: [] };
      told.ranks.push(rank);
      if (unheard.length) told.unheard.push([rank, unheard]);
      calls.set(call, told);
    }
  }
  return [...calls].sort(([one], [other]) => one - other);
}

function unheardWords(unheard) {
  return unheard.length > 4 ? counted(unheard.length, "rank lacks", "ranks lack") + " some" : joined(unheard.map(([rank, others]) => `${rank} lacks ${spoken(others)}`));
}

// Who waits for whom. The last turn's are the program's own, where it says them.
function waitsTable(run, turn) {
  if (isSaid(run, turn)) {
    const rows = run.waits.map(({ rank, line, call, words }) => row("rank " + rank, `${call} (line ${line})`, words));
    return table("At the end, as the program says it", headRow("Rank", "Waits in", "Waits for"), rows);
  }
  const rows = waitsByCall(run, turn).map(([call, { ranks, unmade, unheard }]) => {
    const name = make("th", { scope: "row" }, make("strong", {}, callTitle(run, call)), make("br", {}), make("span", { class: "note" }, [callName(run, call), callLines(run, call)].filter(Boolean).join(", ")));
    return make("tr", {}, name, ...[spoken(ranks), spoken(unmade) || "-", unheardWords(unheard) || "-"].map((cell) => make("td", {}, cell)));
  });
  return rows.length ? table("After " + theTurn(turn), headRow("Call", "Waiting in it", "Not called yet by", "Called, not heard yet"), rows) : "";
}

// A cell of the chosen process's board: one post.
function postCell(board, all, rank) {
  const one = bit(rank), kind = !(all & one) ? "out" : board.dropped ? "over" : board.fresh & one ? "fresh" : board.ranks & one ? "has" : "none";
  const words = { out: "no member", over: "dropped", fresh: "new", has: "has", none: "lacks" }[kind];
  return make("td", { class: "post " + kind, title: words }, make("span", { class: "unseen" }, words));
}

// The chosen process's board: a row for each call that it has posts of, or dropped in this turn, newest first.
function boardTable(run, process, turn) {
  const everyone = numbers(run.ranks), calls = run.calls.map((_, call) => call).filter((call) => {
    const board = boardOf(run, process, call, turn);
    return board.ranks && (!board.dropped || run.gone[process].get(call) === turn);
  });
  const rows = calls.reverse().map((call) => {
    const board = boardOf(run, process, call, turn), posts = everyone.map((rank) => postCell(board, run.members[call], rank));
    return make("tr", {}, make("th", { scope: "row" }, callInFull(run, call)), ...posts, make("td", {}, boardWords(run, process, call, turn)));
  });
  const over = [...run.gone[process].values()].filter((when) => when <= turn).length;
  const caption = `What ${nameOf(run, process)} has after ${theTurn(turn)}` + (over ? `; ${counted(over, "call is", "calls are")} dropped by then` : "");
  if (!rows.length) return make("p", {}, caption + ": it isn't known to have any post.");
  const number = (rank) => make("span", run.ranks <= 16 || rank % 8 === 0 ? {} : { class: "unseen" }, String(rank));
  const head = headRow("Call", ...everyone.map((rank) => make("span", {}, make("span", { class: "unseen" }, "rank "), number(rank))), "In words");
  return make("div", { class: run.ranks <= 16 ? "scrolls" : "scrolls many", tabindex: "0", role: "region", "aria-label": caption }, table(caption, head, rows));
}

// A rank's lines so far; those of this turn are marked. Of many the last ones.
function lineList(run, rank, turn, most) {
  const count = run.lines[turn][rank], begin = Math.max(0, count - most), list = make("ol", { start: String(begin + 1) });
  for (const [when, line] of run.printed[rank].slice(begin, count)) {
    const item = make("li", when === turn ? { class: "now" } : {}, make("code", {}, line));
    if (when === turn) item.append(make("span", { class: "unseen" }, " (new)"));
    list.append(item);
  }
  return list;
}

// The transcript: each rank's lines, of many ranks the last three.
function transcriptTable(run, turn) {
  const most = run.ranks <= 8 ? 12 : 3;
  const rows = numbers(run.ranks).map((rank) => row("rank " + rank, String(run.lines[turn][rank]), lineList(run, rank, turn, most)));
  return table(`What ranks have printed after ${theTurn(turn)}, the last ${most} lines of each`, headRow("Rank", "Lines", "The last ones"), rows);
}

// The script, and beside each line the ranks that are there.
function scriptList(run, turn) {
  const here = new Map();
  for (const rank of turn && knowsPlaces(run) ? numbers(run.ranks) : []) {
    const statement = statementAt(run, rank, turn);
    if (statement) here.set(statement.line, [...(here.get(statement.line) || []), rank]);
  }
  return run.script.text.trimEnd().split("\n").map((line, place) => {
    const ranks = here.get(place + 1);
    return make("li", ranks ? { class: "now" } : {}, make("code", {}, line.trimEnd() || " "), ...(ranks ? [make("span", { class: "here" }, " ◂ " + ranksWords(ranks))] : []));
  });
}
