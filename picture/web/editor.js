"use strict";
// The editor of a script: a text area with line numbers, in which lines can be marked. Only the lines in sight are drawn, so that a long script stays quick.

const LINE = 20, ABOVE = 6; // pixels: a line's height, and the room above the first one; as in try.css

// Words that Tab completes, besides those of the script itself.
const WORDS = ["ranks", "world", "wait", "waitall", "free", "dup", "split", "create", "create_group", "dist_graph", "dist_graph_adjacent", "sources", "destinations",
  "compare", "translate", "undefined", "null", "sum", "prod", "min", "max", "land", "band", "lor", "bor", "lxor", "bxor", "maxloc", "minloc", "2int",
  ..."i8 i16 i32 i64 u8 u16 u32 u64".split(" "),
  ...("barrier bcast gather gatherv scatter scatterv allgather allgatherv alltoall alltoallv reduce allreduce reduce_scatter reduce_scatter_block scan exscan " +
    "neighbor_allgather neighbor_allgatherv neighbor_alltoall neighbor_alltoallv").split(" ").flatMap((name) => [name, "i" + name])];

// What a word can be completed by: what all words that begin so have in common.
function completion(begin, words) {
  const found = [...new Set(words)].filter((word) => word.startsWith(begin) && word !== begin);
  if (begin.length < 2 || !found.length) return "";
  let end = found[0].length;
  for (const word of found) while (!word.startsWith(found[0].slice(0, end))) end--;
  return found[0].slice(begin.length, end);
}

class Editor {
  constructor(root, onInput) {
    this.area = root.querySelector("textarea");
    Object.assign(this, { numbers: root.querySelector(".numbers"), behind: root.querySelector(".behind"), marks: new Map(), count: 1, onInput });
    this.area.addEventListener("input", () => { this.changed(); onInput(); });
    for (const kind of ["scroll", "click", "keyup", "focus"]) this.area.addEventListener(kind, () => this.draw());
    this.area.addEventListener("keydown", (event) => this.onKey(event));
    new ResizeObserver(() => this.draw()).observe(root);
  }

  get text() {
    return this.area.value;
  }

  set text(text) {
    this.area.value = text;
    this.area.setSelectionRange(0, 0);
    this.area.scrollTo(0, 0);
    this.mark(new Map());
    this.changed();
  }

  changed() {
    this.count = this.text.split("\n").length;
    this.draw();
  }

  // The line of the caret, from 1 on.
  get line() {
    return this.text.slice(0, this.area.selectionStart).split("\n").length;
  }

  // Marks lines: each has { kind, text }.
  mark(marks) {
    this.marks = marks;
    this.draw();
  }

  draw() {
    const { scrollTop, clientHeight } = this.area, first = Math.max(1, Math.floor((scrollTop - ABOVE) / LINE)), last = Math.min(this.count, first + Math.ceil(clientHeight / LINE) + 1);
    const lines = numbers(Math.max(0, last - first + 1)).map((place) => first + place), here = this.line;
    const place = (line) => `top: ${ABOVE + (line - 1) * LINE - scrollTop}px`;
    const title = (line) => (this.marks.has(line) ? { title: this.marks.get(line).texts.join("\n") } : {});
    this.numbers.style.width = `${Math.max(3, String(this.count).length + 1)}ch`;
    put(this.numbers, ...lines.map((line) => make("div", { style: place(line), class: this.marks.has(line) ? this.marks.get(line).kind : "", ...title(line) }, String(line))));
    const bars = lines.filter((line) => this.marks.has(line) || line === here);
    put(this.behind, ...bars.map((line) => make("div", { style: place(line), class: this.marks.has(line) ? this.marks.get(line).kind : "here" })));
  }

  // Brings a line into sight, with the caret on it.
  goTo(line) {
    const lines = this.text.split("\n"), begin = lines.slice(0, line - 1).reduce((sum, it) => sum + it.length + 1, 0);
    this.area.focus({ preventScroll: true });
    this.area.setSelectionRange(begin, begin + (lines[line - 1] || "").length);
    this.area.scrollTop = Math.max(0, ABOVE + (line - 1) * LINE - this.area.clientHeight / 2);
    this.area.scrollIntoView({ block: "nearest" });
    this.draw();
  }

  // The next marked line after the caret, or before it; around the end where there is none.
  step(back) {
    const lines = [...this.marks.keys()].sort((one, other) => (back ? other - one : one - other)), here = this.line;
    const next = lines.find((line) => (back ? line < here : line > here)) || lines[0];
    if (next) this.goTo(next);
  }

  // Completes the word before the caret, and answers whether it did.
  complete() {
    const { selectionStart: at, selectionEnd: end } = this.area, before = /[a-z][a-z0-9_]*$/.exec(this.text.slice(Math.max(0, at - 40), at));
    if (at !== end || !before || /[a-z0-9_]/.test(this.text.charAt(at))) return false;
    const own = this.text.slice(0, 1 << 17).match(/-> *[a-z][a-z0-9_]*/g) || [], more = completion(before[0], [...WORDS, ...own.map((word) => word.replace(/^-> */, ""))]);
    if (!more) return false;
    // (the only way by which a browser keeps what can be undone)
    if (!document.execCommand("insertText", false, more)) this.area.setRangeText(more, at, at, "end");
    return true;
  }

  onKey(event) {
    if (event.key === "Tab" && !event.shiftKey && !event.ctrlKey && !event.altKey && this.complete()) event.preventDefault();
    else if (event.key === "F8") {
      event.preventDefault();
      this.step(event.shiftKey);
    }
  }
}
