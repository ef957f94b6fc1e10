"use strict";
// The view of a run: which turn is shown, the controls, and the keys. It fills the parts of view.html, on whichever page they are:
//   const view = new View(document); view.open(runOf({ events, script }));
// `open` may be called again, with another run, and `close` with none. `onTurn` is called with each turn that is shown.

class View {
  constructor(root, onTurn = () => {}) {
    Object.assign(this, { root, onTurn, run: null, turn: 0, process: -1, call: -1, timer: 0, chosen: "" });
    this.listen();
  }

  at(name) {
    return this.root.querySelector("#" + name);
  }

  // Shows a run from this turn on: from its last one if ranks wait there.
  open(run, turn = firstShown(run)) {
    if (this.timer) this.play(false);
    Object.assign(this, { run, process: -1, call: -1, chosen: "" });
    this.fill();
    this.goTo(turn);
  }

  // Shows no run any more.
  close() {
    if (this.timer) this.play(false);
    this.run = null;
  }

  layout() {
    return layoutOf(this.run, Math.max(300, this.at("picture").clientWidth), this.turn, this.call);
  }

  // Shows the turn everywhere. What is in a closed part is made when that is opened.
  show() {
    const { run, turn, process } = this, layout = this.layout();
    this.at("turn").value = turn;
    this.at("turn").setAttribute("aria-valuetext", `turn ${turn} of ${run.last}`);
    this.at("number").textContent = `${turn} of ${run.last}`;
    this.at("now").textContent = this.chosen || sentence(run, turn);
    this.at("picture").innerHTML = pictureOf(run, layout, turn, process);
    this.at("ring").innerHTML = ringOf(run, turn);
    this.at("held").textContent = heldWords(run, turn);
    put(this.at("waits"), waitsTable(run, turn));
    put(this.at("transcript"), transcriptTable(run, turn));
    this.showProcess();
    this.showOpen(layout);
    this.at("said").hidden = turn < run.last;
    for (const name of ["first", "back"]) this.at(name).setAttribute("aria-disabled", String(!turn));
    for (const name of ["on", "end"]) this.at(name).setAttribute("aria-disabled", String(turn === run.last));
  }

  showProcess() {
    const { run, turn, process } = this;
    this.at("process").value = process;
    put(this.at("board"), ...(process < 0 ? [] : [boardTable(run, process, turn)]));
    put(this.at("own"));
    if (process < 0 || process >= run.ranks) return;
    this.at("own").append(make("h3", {}, `What rank ${process} has printed`), run.lines[turn][process] ? lineList(run, process, turn, 2000) : make("p", {}, "Nothing yet."));
  }

  showOpen(layout) {
    const { run, turn } = this;
    if (this.at("boards").open) put(this.at("boards").lastElementChild, boardsTable(run, turn, layout.blocks.map(({ call }) => call)));
    if (this.at("frames").open) put(this.at("frames").lastElementChild, framesTable(run, turn));
    if (this.at("script").open) put(this.at("script").lastElementChild, ...scriptList(run, turn));
  }

  goTo(turn) {
    this.turn = Math.max(0, Math.min(this.run.last, turn));
    this.chosen = "";
    this.show();
    this.onTurn(this.turn);
  }

  // Chooses a process, and says so.
  choose(process) {
    const { run, turn } = this;
    this.process = process < -1 ? run.processes - 1 : process >= run.processes ? -1 : process;
    const status = this.process < 0 ? "" : statusOf(run, this.process, turn);
    this.chosen = this.process < 0 ? "No process is chosen." : `${capital(nameOf(run, this.process))} is chosen${status ? ": " + status : ""}.`;
    this.show();
  }

  // Plays on, or stops. While it plays fast, turns aren't said aloud one by one.
  play(on) {
    clearInterval(this.timer);
    this.timer = 0;
    const pause = Number(this.at("speed").value);
    if (on && this.turn === this.run.last) this.turn = 0;
    this.at("now").setAttribute("aria-live", on && pause < 1000 ? "off" : "polite");
    if (on) this.timer = setInterval(() => (this.turn < this.run.last ? this.goTo(this.turn + 1) : this.play(false)), pause);
    this.at("play").textContent = on ? "Stop" : "Play";
    this.chosen = "";
    this.show();
  }

  step(turn) {
    if (this.timer) this.play(false);
    this.goTo(turn);
  }

  // Keys: a control that uses a key itself keeps it.
  onKey(event) {
    if (event.ctrlKey || event.altKey || event.metaKey || !this.run) return;
    const here = event.target, inPicture = here === this.at("picture"), { turn, run } = this;
    const isControl = here.closest("select, textarea, .scrolls, input:not(#turn)"), isButton = here.closest("button, summary");
    const steps = { ArrowLeft: -1, ArrowRight: 1 }, far = { PageUp: -10, PageDown: 10 }, chosen = { ArrowUp: -1, ArrowDown: 1 };
    if (event.key === "Escape") {
      if (this.timer) this.play(false);
      else if (inPicture) this.choose(-1);
      return;
    }
    if (isControl || (here === this.at("turn") && event.key !== " ")) return;
    if (event.key in steps) this.step(turn + steps[event.key]);
    else if (event.key === "Home") this.step(0);
    else if (event.key === "End") this.step(run.last);
    else if (event.key === " " && !isButton) this.play(!this.timer);
    else if (inPicture && event.key in far) this.step(turn + far[event.key]);
    else if (inPicture && event.key in chosen) this.choose(this.process + chosen[event.key]);
    else return;
    event.preventDefault();
  }

  // What doesn't change from turn to turn.
  fill() {
    const { run } = this, option = (value, text) => make("option", { value: String(value) }, text);
    this.at("summary").textContent = summary(run);
    this.at("turn").max = run.last;
    put(this.at("calls"), option(-1, "the newest"), ...run.calls.map((_, call) => option(call, "from " + callInFull(run, call))));
    put(this.at("process"), option(-1, "none chosen"), ...numbers(run.processes).map((process) => option(process, nameOf(run, process))));
    put(this.at("said"), ...(run.said.length ? [make("h3", {}, "What the program says at the end"), make("pre", { class: "scrolls", tabindex: "0" }, run.said.join("\n"))] : []));
    this.at("script").hidden = !run.script.text;
    this.at("legend-lacks").textContent = run.knowsPosts ? "waiting: called, not heard yet" : "waiting: some process has it";
    this.at("legend-missing").textContent = run.knowsPosts ? "waiting: not called yet" : "waiting: not seen anywhere yet";
    this.at("calls").value = this.call;
  }

  listen() {
    const on = (name, kind, what) => this.at(name).addEventListener(kind, what);
    on("first", "click", () => this.step(0));
    on("back", "click", () => this.step(this.turn - 1));
    on("on", "click", () => this.step(this.turn + 1));
    on("end", "click", () => this.step(this.run.last));
    on("play", "click", () => this.play(!this.timer));
    on("turn", "input", () => this.step(Number(this.at("turn").value)));
    on("speed", "change", () => this.timer && this.play(true));
    on("calls", "change", () => { this.call = Number(this.at("calls").value); this.show(); });
    on("process", "change", () => this.choose(Number(this.at("process").value)));
    on("picture", "click", (event) => {
      const row = event.target.closest("[data-process]");
      if (row) this.choose(Number(row.dataset.process) === this.process ? -1 : Number(row.dataset.process));
    });
    for (const name of ["boards", "frames", "script"]) on(name, "toggle", () => this.run && this.showOpen(this.layout()));
    document.addEventListener("keydown", (event) => this.onKey(event));
    addEventListener("resize", () => this.run && this.show());
  }
}

// The turn at which a page opens: where something is to be seen.
function firstShown(run) {
  return waitingIn(run.said).length || run.waits.length ? run.last : Math.min(1, run.last);
}
