"use strict";
// The picture of a turn, as SVG: processes as rows, frames as arrows from left to right, then what each process has of the calls, and where it is.

const SIZES = [ // up to so many processes: height of a row, side of a square, width of the arrows, size of text
  [4, 54, 18, 260, 14], [8, 42, 16, 260, 14], [16, 28, 12, 280, 13], [32, 20, 10, 300, 12], [64, 16, 8, 300, 12],
];
const NARROW = 640, MOST_BLOCKS = 12, GAP = 16;

function blockWide(run, call, side, isNarrow) {
  return Math.max(listed(run.members[call]).length * side, isNarrow || run.processes > 16 ? 98 : 128) + GAP;
}

// The blocks of squares that are shown: those of the chosen call and of the ones after it, or of the newest ones; as many as fit.
function blocksOf(run, turn, chosen, room, side, begin, isNarrow) {
  const calls = chosen >= 0 ? run.calls.map((_, call) => call).filter((call) => call >= chosen) : numbers(run.newest[turn] + 1).reverse();
  const blocks = [];
  let left = room;
  for (const call of calls.filter((it) => it < run.calls.length)) {
    const wide = blockWide(run, call, side, isNarrow);
    if (blocks.length && (wide > left || blocks.length === MOST_BLOCKS)) break;
    blocks.push({ call, wide, ranks: listed(run.members[call]) });
    left -= wide;
  }
  blocks.sort((one, other) => one.call - other.call);
  blocks.reduce((x, block) => ((block.x = x), x + block.wide), begin);
  return blocks;
}

// Where all parts of the picture of a turn are, in a picture of this width. In a narrow one a row has its text above its arrow.
function layoutOf(run, wide, turn, chosen) {
  const isNarrow = wide < NARROW, [, row, most, arrowsWide, size] = SIZES.find(([many]) => run.processes <= many);
  const name = isNarrow ? 6 : 70, status = isNarrow ? 0 : 230, from = name + 8, least = isNarrow ? 96 : wide < 1000 ? 180 : arrowsWide;
  const widest = Math.max(1, ...run.members.map((members) => listed(members).length)), room = wide - from - least - 16 - status;
  const side = Math.max(3, Math.min(most, Math.floor((room - GAP) / widest)));
  const needed = run.calls.map((_, call) => blockWide(run, call, side, isNarrow)).sort((one, other) => other - one).slice(0, MOST_BLOCKS).reduce((sum, it) => sum + it, 0);
  const arrows = isNarrow ? least : Math.max(least, Math.min(480, least + room - needed));
  const to = from + arrows, boards = to + 16, left = isNarrow ? 74 : wide - 2 - status;
  const blocks = blocksOf(run, turn, chosen, (isNarrow ? wide + GAP : left) - boards, side, boards, isNarrow), end = blocks.reduce((x, block) => Math.max(x, block.x + block.wide), boards);
  const high = isNarrow ? Math.max(34, Math.min(row, 48)) : row, top = 62;
  return { isNarrow, row: high, side, tall: Math.min(most, isNarrow ? high - 22 : row), size, from, to, boards, blocks, left: Math.max(left, isNarrow ? 0 : end), top,
    wide: Math.max(wide - 2, isNarrow ? end - GAP : end + status), high: top + high * run.processes + 8, status: isNarrow ? wide - 80 : status };
}

// The middle of a process's arrows and squares, and that of its text.
function middle(layout, process) {
  return layout.top + layout.row * (process + 0.5) + (layout.isNarrow ? 8 : 0);
}

function textMiddle(layout, process) {
  return layout.isNarrow ? layout.top + layout.row * process + 9 : middle(layout, process);
}

function escaped(text) {
  return text.replace(/&/g, "&amp;").replace(/</g, "&lt;").replace(/"/g, "&quot;");
}

function label(x, y, text, kind = "") {
  return `<text x="${x.toFixed(1)}" y="${y.toFixed(1)}" class="${kind}">${escaped(text)}</text>`;
}

function drawing(wide, high, marks) {
  return `<svg xmlns="http://www.w3.org/2000/svg" width="${wide}" height="${high}" viewBox="0 0 ${wide} ${high}" aria-hidden="true">${marks}</svg>`;
}

function stroke(x1, y1, x2, y2, kind) {
  return `<line x1="${x1.toFixed(1)}" y1="${y1.toFixed(1)}" x2="${x2.toFixed(1)}" y2="${y2.toFixed(1)}" class="${kind}"/>`;
}

// An arrow with its head. One that is late begins on the way, with a ring, is dashed, and goes in a bow beside the straight one.
function arrow(layout, sender, to, kind, late) {
  const y1 = middle(layout, sender), y2 = middle(layout, to), part = late ? 0.3 : 0;
  const x = layout.from + part * (layout.to - layout.from), y = y1 + part * (y2 - y1) - (late ? 9 : 0);
  const turnX = (x + layout.to) / 2, turnY = (y + y2) / 2 - (late ? 12 : 0);
  const long = Math.hypot(layout.to - turnX, y2 - turnY), dx = (layout.to - turnX) / long, dy = (y2 - turnY) / long, head = layout.row > 20 ? 9 : 7;
  const tip = (side) => `${(layout.to - head * dx - side * head * 0.5 * dy).toFixed(1)},${(y2 - head * dy + side * head * 0.5 * dx).toFixed(1)}`;
  const tail = `${(layout.to - head * dx).toFixed(1)} ${(y2 - head * dy).toFixed(1)}`, begin = `M${x.toFixed(1)} ${y.toFixed(1)}`;
  const line = late ? `${begin}Q${turnX.toFixed(1)} ${turnY.toFixed(1)} ${tail}` : `${begin}L${tail}`;
  const ring = late ? `<circle cx="${x.toFixed(1)}" cy="${y.toFixed(1)}" r="3.5" class="${kind} ring"/>` : "";
  const point = `<polygon points="${layout.to},${y2} ${tip(1)} ${tip(-1)}" class="${kind} head"/>`;
  return `<path d="${line}" class="line ${kind}${late ? " late" : ""}"/>${ring}${point}`;
}

// An arrow that ends on its way, with a cross.
function broken(layout, sender, to) {
  const y1 = middle(layout, sender), y2 = middle(layout, to);
  const x = layout.from + 0.4 * (layout.to - layout.from), y = y1 + 0.4 * (y2 - y1), arm = layout.row > 20 ? 5 : 4;
  const cross = stroke(x - arm, y - arm, x + arm, y + arm, "lost cross") + stroke(x - arm, y + arm, x + arm, y - arm, "lost cross");
  return stroke(layout.from, y1, x, y, "lost") + cross;
}

// A turn's frames: those that bring something new above the others. Of many processes, those of the chosen one stand out.
function frameMarks(run, layout, turn, chosen) {
  const marks = [], { sent, taken } = run.turns[turn - 1] || { sent: [], taken: [] };
  const dim = (sender, to) => (chosen >= 0 && sender !== chosen && to !== chosen ? " dim" : "");
  const mark = (order, sender, to, drawn, told) => {
    const title = `<title>${escaped(`${nameOf(run, sender)} to ${nameOf(run, to)}${told}`)}</title>`;
    marks.push([order + (dim(sender, to) ? 0 : 10), `<g class="frame${dim(sender, to)}">${title}${drawn}</g>`]);
  };
  for (const { from, to, bytes, lost } of sent) if (lost) mark(2, from, to, broken(layout, from, to), `, ${bytes} bytes: lost`);
  for (const { from, to, again, brought } of taken) {
    const kind = brought.length ? "new" : "old";
    const told = (again ? ", once more" : "") + ": brings " + (brought.length ? bringsOf(run, brought) : "nothing new");
    mark(kind === "new" ? 3 : 1, from, to, arrow(layout, from, to, kind, again), told);
  }
  return marks.sort(([one], [other]) => one - other).map(([, text]) => text).join("");
}

// Squares of one kind in one path, at these places. Whole ones may have a hole; outlines have room for their line.
function squares(layout, x, y, places, kind, hole = 0, inset = 0) {
  if (!places.length) return "";
  const gap = layout.side > 10 ? 3 : layout.side > 5 ? 1.5 : 0.5, wide = layout.side - gap, high = layout.tall - gap;
  const box = (w, h) => [-w / 2, ` ${y - h / 2}h${w}v${h}h${-w}z`], middle = x + wide / 2;
  const [left, whole] = box(wide - 2 * inset, high - 2 * inset), [within, inner] = box(Math.round(wide * hole * 4) / 4, Math.round(high * hole * 4) / 4);
  const path = places.map((place) => "M" + (middle + place * layout.side + left) + whole + (hole ? "M" + (middle + place * layout.side + within) + inner : ""));
  return `<path d="${path.join("")}" class="${kind}"/>`;
}

// What a process has of a call: a square for each member. What a rank lacks that has called is told apart by whether that member has called, too.
function boardMarks(run, layout, process, { call, x, ranks }, turn) {
  const board = boardOf(run, process, call, turn), y = middle(layout, process), has = (set) => (rank) => (set & bit(rank)) !== 0n;
  const title = `<title>${escaped(`${nameOf(run, process)}, ${callInFull(run, call)}: ${boardWords(run, process, call, turn)}`)}</title>`;
  const draw = (test, ...rest) => squares(layout, x, y, ranks.map((rank, place) => (test(rank) ? place : -1)).filter((place) => place >= 0), ...rest);
  if (board.dropped) return `<g>${title}${draw(() => true, "over")}</g>`;
  const waits = hasPosted(run, call, process, turn), made = (rank) => hasPosted(run, call, rank, turn), lacks = (rank) => !has(board.ranks)(rank);
  const parts = [draw(has(board.ranks & ~board.fresh), "has"), draw(has(board.fresh), "fresh", 0.34)];
  if (!waits) parts.push(draw(lacks, "none", 0, 0.5));
  if (waits) parts.push(draw((rank) => lacks(rank) && made(rank), "lacks", 0, 0.75));
  if (waits) parts.push(draw((rank) => lacks(rank) && !made(rank), "missing", 0.3, 0.75));
  return `<g>${title}${parts.join("")}</g>`;
}

// Of how many squares one has its rank's number above it: of each, where the numbers have room.
function numberedEvery(layout, ranks) {
  const room = 6.2 * String(Math.max(0, ...ranks)).length + 4;
  return [1, 4, 8].find((step) => step * layout.side >= room) || 16;
}

// The head of a block of squares: what the script calls it, its communicator and number, and ranks.
function blockHead(run, layout, { call, x, wide, ranks }) {
  const letters = (size) => Math.floor((wide - 8) / size), name = nameIn(run.calls[call]), number = run.calls[call].slice(name.length + 1);
  const title = callTitle(run, call), most = letters(6.4) - `call ${number} of `.length, end = name.slice(1 - Math.max(most, 2));
  const short = name.length <= most ? name : "…" + end.slice(Math.max(0, end.indexOf("/")));
  const step = numberedEvery(layout, ranks), numbered = ranks.map((rank, place) => (place % step ? "" : label(x + (place + 0.42) * layout.side, layout.top - 6, String(rank), "small middle")));
  return `<g><title>${escaped(callInFull(run, call))}</title>` + label(x, 16, title ? shortened(title, letters(8.4)) : `call ${number}`, "strong") +
    label(x, 33, title ? `call ${number} of ${short}` : short, "small") + numbered.join("") + "</g>";
}

// Of a process: what it prints in this turn, and where it then is.
function rowEnd(run, layout, process, turn) {
  const lines = run.turns[turn - 1] ? run.turns[turn - 1].results.filter(([rank]) => rank === process).map(([, line]) => line) : [];
  const status = statusOf(run, process, turn), isTwo = lines.length && status && !layout.isNarrow && layout.row > 40;
  const y = textMiddle(layout, process), letter = layout.size * 0.61, most = Math.floor((layout.status - 12) / letter), parts = [];
  const text = shortened(lines.join("; "), isTwo || !status ? most : Math.max(10, most - 4 - Math.ceil(status.length * 0.9))), wide = text.length * letter + 10;
  if (lines.length) {
    const here = isTwo ? y - 11 : y, high = Math.min(layout.size * 1.35, layout.row - 2);
    parts.push(`<rect x="${layout.left - 5}" y="${here - high / 2}" width="${wide.toFixed(1)}" height="${high}" rx="3" class="result"/>` + label(layout.left, here + layout.size * 0.35, text, "value"));
  }
  const x = layout.left + (lines.length && !isTwo ? wide : 0), room = Math.floor((layout.left + layout.status - x) / (layout.size * 0.53));
  const full = `<title>${escaped(`${nameOf(run, process)}: ${[...lines, status].join("; ")}`)}</title>`;
  if (status) parts.push(label(x, (isTwo ? y + 12 : y) + layout.size * 0.35, shortened(status, room), status.includes("waits") ? "wait over-arrows" : "quiet over-arrows"));
  return parts.length ? `<g>${full}${parts.join("")}</g>` : "";
}

// Each process's name, its dots, and a stripe where it is the chosen one.
function rowStart(run, layout, process, chosen) {
  const y = middle(layout, process), stripe = process === chosen ? "chosen" : process % 2 ? "odd" : "even";
  return `<g class="row" data-process="${process}"><rect x="0" y="${layout.top + layout.row * process}" width="${layout.wide}" height="${layout.row}" class="stripe ${stripe}"/>` +
    (layout.isNarrow ? "" : nameMark(run, layout, process, chosen)) +
    `<circle cx="${layout.from}" cy="${y}" r="2.5" class="dot"/><circle cx="${layout.to}" cy="${y}" r="2.5" class="dot"/></g>`;
}

function nameMark(run, layout, process, chosen) {
  return label(6, textMiddle(layout, process) + layout.size * 0.35, nameOf(run, process), process === chosen ? "strong over-arrows" : "over-arrows");
}

// The whole picture after a turn. In a narrow one names and texts are above the arrows.
function pictureOf(run, layout, turn, chosen) {
  const processes = numbers(run.processes);
  const head = (layout.isNarrow ? "" : label(layout.from - 4, 33, "frames of " + theTurn(turn), "strong")) + label(layout.from - 4, layout.top - 6, "from", "small") +
    label(layout.to - 10, layout.top - 6, "to", "small") + (layout.isNarrow ? "" : label(layout.left, 33, "prints, and where it is", "strong")) +
    layout.blocks.map((block) => blockHead(run, layout, block)).join("");
  const rows = processes.map((it) => rowStart(run, layout, it, chosen)).join("");
  const boards = processes.map((it) => layout.blocks.map((block) => boardMarks(run, layout, it, block, turn)).join("")).join("");
  const ends = processes.map((it) => (layout.isNarrow ? nameMark(run, layout, it, chosen) : "") + rowEnd(run, layout, it, turn)).join("");
  const marks = head + rows + frameMarks(run, layout, turn, chosen) + boards + ends;
  return drawing(layout.wide, layout.high, `<g style="font-size: ${layout.size}px"${layout.isNarrow ? ' class="narrow"' : ""}>${marks}</g>`);
}
