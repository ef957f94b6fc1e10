"use strict";
// The page on which a script is written, run and stepped through: it hands the script to the program, and shows what comes of it.

const OPTIONS = ["seed", "loss", "relays", "turns"], USUAL = { command: "run", seed: "27", loss: "40", relays: "", turns: "", memory: "1024" };
const MOST_LINES = 100, MOST_CHECKED = 200000, CHECK_AFTER = 400, CHECK_FOR = 4000; // lines of a rank, letters of a script, milliseconds
const NEEDED = "This browser lacks what the page needs. Chrome and Edge have it from 103 on, Firefox from 113 on, and Safari from 16.4 on.";

const at = (name) => document.getElementById(name);
const examples = JSON.parse(at("examples").textContent); // by group: [name, script]
const scripts = new Map(Object.values(examples).flat());
const editor = new Editor(at("editor"), typed), view = new View(document, () => keepAddress());
const runs = { count: 0, begun: 0, far: "", ticking: 0 }, checks = { count: 0, timer: 0 }, address = { timer: 0, kept: "" };
let runner = null, checker = null, example = "";

function options() {
  return Object.fromEntries(["command", ...OPTIONS, "memory"].map((name) => [name, at(name).value.trim()]));
}

// The words that a run gets: what isn't filled in is left out.
function wordsOf({ command, ...given }) {
  const network = command === "run" ? OPTIONS.filter((name) => given[name]).flatMap((name) => ["--" + name, given[name]]) : [];
  return ["gossipmpi", command, ...network];
}

function fill(script, given) {
  editor.text = script;
  for (const [name, value] of Object.entries({ ...USUAL, ...given })) if (name in USUAL) at(name).value = value;
  showOptions();
}

// An evaluation has no network: its options aren't asked for.
function showOptions() {
  for (const name of OPTIONS) at(name).disabled = at("command").value === "eval";
}

function chooseExample(name) {
  example = name;
  at("example").value = name;
  editor.text = scripts.get(name);
}

// The address follows what the page shows, once it rests: browsers refuse many changes at once.
function keepAddress() {
  clearTimeout(address.timer);
  address.timer = setTimeout(putAddress, 200);
}

// Writes the address, and answers whether it holds the script.
async function putAddress() {
  const text = await addressOf(editor.text, example, { ...options(), turn: view.run ? view.turn : "" });
  address.kept = text;
  history.replaceState(null, "", text || "#");
  return text !== "";
}

function typed() {
  example = "";
  at("example").value = "";
  changed();
  checkSoon();
}

// What is shown came of another script or other options.
function changed() {
  keepAddress();
  if (runner && !runner.ask) at("far").textContent = "You changed the script or an option after this run. Run shows what comes of it now.";
}

// What the program explains of the script, a while after the last key: an evaluation that takes too long is given up.
function checkSoon() {
  clearTimeout(checks.timer);
  checks.timer = setTimeout(check, CHECK_AFTER);
}

async function check() {
  const script = editor.text, mine = ++checks.count;
  if (!checker) return;
  if (script.length > MOST_CHECKED) return showMarks(new Map(), "A script of this length is checked by its run only.");
  const late = setTimeout(() => checker.stop(), CHECK_FOR), { status, events } = await checker.run({ words: ["gossipmpi", "eval", "--explain"], script, memory: 512 });
  clearTimeout(late);
  if (mine !== checks.count || editor.text !== script) return;
  const marks = marksOf(events.said);
  showMarks(marks, status === undefined ? "The evaluation of this script takes long: run it." : marksWords(marks));
}

function showMarks(marks, words) {
  editor.mark(marks);
  if (at("checked").textContent !== words) at("checked").textContent = words;
  at("checked").className = [...marks.values()].some(({ kind }) => kind === "refused") ? "wrong" : "";
  put(at("problems"), ...marksList(marks, (line) => editor.goTo(line)));
}

// Whether a run is under way.
function setRunning(isRunning) {
  at("stop").setAttribute("aria-disabled", String(!isRunning));
  clearInterval(runs.ticking);
  Object.assign(runs, { begun: performance.now(), far: "", ticking: isRunning ? setInterval(showFar, 200) : 0 });
  at("far").textContent = "";
}

function showFar() {
  const seconds = (performance.now() - runs.begun) / 1000;
  if (seconds > 0.3) at("far").textContent = `Running for ${seconds.toFixed(0)} s${runs.far ? ": " + runs.far : ""}. Stop ends it.`;
}

// Runs the script by the options, and shows what comes of it; from this turn on, where one is named. A trace that is too long for a page isn't asked for.
async function run(turn) {
  if (!runner) return;
  const script = editor.text, given = options(), words = wordsOf(given), memory = Number(given.memory || USUAL.memory);
  if (!(memory >= 1 && memory <= 4000)) return say("Memory is a number from 1 to 4000, in MB.", true);
  const mine = ++runs.count;
  let came = null, hasTrace = given.command === "run";
  for (const more of hasTrace ? [["--trace", "--workers", "1"], ["--workers", "1"]] : [[]]) {
    setRunning(true);
    say("The program runs.");
    came = await runner.run({ script, memory, words: [...words, "--explain", ...more] }, (text) => (runs.far = text));
    if (mine !== runs.count) return;
    if (!came.isTooLong) break;
    hasTrace = false;
  }
  setRunning(false);
  show(came, { script, given, words, memory, turn, hasTrace });
}

function say(words, isWrong = false) {
  at("outcome").textContent = words;
  at("outcome").className = isWrong ? "wrong" : "";
}

// What came of a run, in a sentence or two.
function outcomeOf({ status, events, failure, isStopped, unread }, { given, memory, hasTrace }) {
  const turns = events.turns.length, ranks = waitingIn(events.said), after = given.command === "run" && turns ? ` after ${counted(turns, "turn", "turns")}` : "";
  const wrong = new Map([...marksOf(events.said)].filter(([, { kind }]) => kind === "refused" || kind === "fault"));
  const more = (wrong.size ? ` ${marksWords(wrong)}` : "") + (given.command === "run" && !hasTrace ? " Its trace is too long for a page of its turns." : "");
  if (isStopped) return [turns ? `Stopped in turn ${turns}. What came until then is shown.` : "Stopped. Nothing had come until then.", true];
  if (failure) return [`The run failed: ${failure}.`, true];
  if (unread) return [`The trace can't be shown: ${unread}.`, true];
  if (status === 0) return [`All ranks finish${after}.${more}`, false];
  const always = given.command === "eval" || events.said.some((line) => line.startsWith("deadlock:")) ? ", and in every run" : "";
  if (status === 3) return [`${capital(ranksWords(ranks))} ${ranks.length === 1 ? "waits" : "wait"}${after}${always}.${more}`, true];
  if (status === 2) return [`The script is refused: ${(events.said[0] || "").replace(/^script /, "")}.`, true];
  if (status === 4) return [`Out of memory: this needs more than ${memory} MB. Memory above is what it may have.`, true];
  if (status === 1) return ["These options are refused.", true];
  return [`The program ended with status ${status}.`, true];
}

function show(came, asked) {
  say(...outcomeOf(came, asked));
  at("as-command").textContent = [...asked.words, "--explain", "<", (example || "my") + ".job"].join(" ");
  put(at("lines"), linesTable(came.out));
  const said = came.events.said;
  put(at("explained"), said.length ? saidList(said, (line) => editor.goTo(line)) : make("p", { class: "note" }, "Nothing: no rank waits, no call is refused, and all calls match."));
  showRun(came, asked);
  keepAddress();
}

// The page of the run beneath, where there is a trace.
function showRun({ out, events }, { script, words, turn }) {
  at("view").hidden = !events.turns.length;
  view.close();
  if (!events.turns.length) return;
  try {
    view.open(runOf({ title: words.join(" "), script, transcript: out, events }), turn);
  } catch (why) {
    if (!(why instanceof Unreadable)) throw why;
    at("view").hidden = true;
    say(`The run can't be shown turn by turn: ${why.message}.`, true);
  }
}

// What each rank gets: of a rank with many lines the first ones.
function linesTable(out) {
  const ranks = new Map();
  for (const line of out.split("\n")) {
    const found = /^([0-9]{1,2}): (.*)$/.exec(line);
    if (found) ranks.set(found[1], [...(ranks.get(found[1]) || []).slice(0, MOST_LINES), found[2]]);
  }
  if (!ranks.size) return make("p", { class: "note" }, "Nothing.");
  const list = (lines) => make("ol", {}, ...lines.slice(0, MOST_LINES).map((line) => make("li", {}, make("code", {}, line))), ...(lines.length > MOST_LINES ? [make("li", {}, "and more")] : []));
  return table("Each rank's lines, in the order of its statements", headRow("Rank", "Lines"), [...ranks].map(([rank, lines]) => row("rank " + rank, list(lines))));
}

async function copyLink() {
  const tell = (words) => (at("checked").textContent = words);
  if (!(await putAddress())) return tell("The script is too long for a link.");
  try {
    await navigator.clipboard.writeText(location.href);
    tell("The link is copied. It opens this script and its run." + (location.protocol === "file:" ? " On another machine, put its part from # on after the address of the page there." : ""));
  } catch {
    tell("The address of the page is the link: copy it from there.");
  }
}

// Shows what the address holds, and runs it.
async function fromAddress() {
  const { script, example: named, turn, ...given } = await readAddress(location.hash);
  if (script === null) return say("The address can't be read. It may have lost its end.", true);
  example = script !== undefined ? "" : scripts.has(named) ? named : [...scripts.keys()][0];
  at("example").value = example;
  fill(script === undefined ? scripts.get(example) : script, given);
  check();
  run(turn ? Number(turn) : undefined);
}

function listen() {
  const on = (name, kind, what) => at(name).addEventListener(kind, what);
  on("options", "submit", (event) => { event.preventDefault(); run(); });
  on("command", "change", () => { showOptions(); run(); });
  on("stop", "click", () => runner && runner.ask && runner.stop());
  on("link", "click", copyLink);
  on("example", "change", () => { if (scripts.has(at("example").value)) { chooseExample(at("example").value); check(); run(); } });
  for (const name of [...OPTIONS, "memory"]) on(name, "input", changed);
  document.addEventListener("keydown", (event) => {
    if (event.key === "Enter" && (event.ctrlKey || event.metaKey)) { event.preventDefault(); run(); }
    if (event.key === "Escape" && runner && runner.ask) runner.stop();
  });
  addEventListener("hashchange", () => location.hash !== address.kept && fromAddress());
}

function fillExamples() {
  const groups = Object.entries(examples).map(([label, list]) => make("optgroup", { label }, ...list.map(([name]) => make("option", { value: name }, name))));
  put(at("example"), make("option", { value: "" }, "your own"), ...groups);
}

// Where something is missing, the page says which browsers have it.
async function start() {
  frame();
  fillExamples();
  listen();
  if (typeof WebAssembly === "undefined" || typeof BigInt === "undefined" || typeof DecompressionStream === "undefined") return say(NEEDED, true);
  try {
    const module = await WebAssembly.compile(await through(bytesOf(at("module").textContent.trim()), new DecompressionStream("gzip")));
    [runner, checker] = [0, 1].map(() => new Runner(at("worker").textContent, module));
  } catch (why) {
    return say(`${NEEDED} (${why.message})`, true);
  }
  await fromAddress();
}

const started = start();
