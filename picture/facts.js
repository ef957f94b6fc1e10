"use strict";
// What the page's code makes of runs, for picture/test: it reads a JSON list of { trace, script } from the standard input, and writes of each, as JSON,
// the events, who is in a communicator, and what each turn shows. It needs Node.js, from 16 on.
const fs = require("fs"), path = require("path"), vm = require("vm");

const files = process.argv.slice(2).map((name) => fs.readFileSync(path.join(__dirname, "web", name), "utf8"));
const page = vm.createContext({});
vm.runInContext(files.join("\n") + "\nthis.page = { eventsOf, runOf, boardOf, listed, numbers, waitsAfter, arrowsAfter, heldWords, statusOf, sentence, layoutOf, pictureOf, ringOf, callTitle, firstShown, Unreadable };", page);
const { eventsOf, runOf, boardOf, listed, numbers, waitsAfter, arrowsAfter, heldWords, statusOf, sentence, layoutOf, pictureOf, ringOf, callTitle, firstShown, Unreadable } = page.page;

function count(text, mark) {
  return text.split(mark).length - 1;
}

function turnOf(run, turn) {
  const drawn = [1280, 400].map((wide) => pictureOf(run, layoutOf(run, wide, turn, -1), turn, -1));
  return {
    boards: numbers(run.processes).map((process) => run.calls.map((_, call) => [boardOf(run, process, call, turn)].map(({ dropped, ranks }) => (dropped ? "dropped" : listed(ranks)))[0])),
    waits: waitsAfter(run, turn).map(({ rank, line, lacks }) => [rank, line, lacks.map(({ call, unmade, unheard }) => [run.calls[call], unmade, unheard])]),
    arrows: arrowsAfter(run, turn), held: heldWords(run, turn), says: sentence(run, turn), statuses: numbers(run.ranks).map((rank) => statusOf(run, rank, turn)),
    marks: drawn.map((text) => [count(text, 'cross"'), count(text, 'head"'), count(text, 'ring"')]), ring: count(ringOf(run, turn), "<polygon"),
    isWhole: drawn.every((text) => !/NaN|undefined|Infinity/.test(text)),
  };
}

function factsOf({ trace, script, transcript }) {
  try {
    const events = eventsOf(trace), run = runOf({ title: "", script, transcript, events });
    return {
      events, ranks: run.ranks, processes: run.processes, opens: firstShown(run), titles: run.calls.map((_, call) => callTitle(run, call)), printed: run.printed,
      members: Object.fromEntries(run.communicators), turns: numbers(run.last + 1).map((turn) => turnOf(run, turn)),
    };
  } catch (why) {
    if (why instanceof Unreadable) return { error: why.message };
    throw why;
  }
}

process.stdout.write(JSON.stringify(JSON.parse(fs.readFileSync(0, "utf8")).map(factsOf)));
