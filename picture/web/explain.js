"use strict";
// What the program says of a script by --explain: which lines it marks, and how it is shown, so that its lines lead to those of the script.

const MARKS = [
  ["refused", /^script line ([0-9]+): (.*)$/, (found) => found[2]],
  ["refused", /^rank ([0-9]+), line ([0-9]+): (refused .*)$/, (found) => `rank ${found[1]}: ${found[3]}`],
  ["fault", /^rank ([0-9]+), line ([0-9]+): (fault .*)$/, (found) => `rank ${found[1]}: ${found[3]}`],
  ["waits", /^rank ([0-9]+), line ([0-9]+): .*: (waits for .*)$/, (found) => `rank ${found[1]} ${found[3]}`],
  ["past", /^rank ([0-9]+), line ([0-9]+): (.* is past .*)$/, (found) => `rank ${found[1]}: ${found[3]}`],
];
const ORDER = MARKS.map(([kind]) => kind);

// By line of the script: the worst kind of what is said of it, and the texts.
function marksOf(said) {
  const marks = new Map();
  let last = null;
  for (const line of said) {
    const found = MARKS.map(([kind, form, words]) => [kind, form.exec(line), words]).find(([, it]) => it);
    if (found) {
      const number = Number(found[1][found[1].length === 3 ? 1 : 2]), mark = marks.get(number) || { kind: found[0], texts: [] };
      if (ORDER.indexOf(found[0]) < ORDER.indexOf(mark.kind)) mark.kind = found[0];
      mark.texts.push(found[2](found[1]));
      marks.set(number, mark);
      last = mark;
    } else if (last && line.startsWith("  ")) last.texts.push(line.trim());
    else last = null;
  }
  return marks;
}

// A line of what is said, with a button for each line of the script that it names.
function withLines(text, onLine) {
  return text.split(/(\blines? [0-9]+(?:, [0-9]+)*)/).map((part) => {
    const found = /^lines? ([0-9]+)/.exec(part);
    if (!found) return part;
    const made = make("button", { type: "button", class: "line" }, part);
    made.addEventListener("click", () => onLine(Number(found[1])));
    return made;
  });
}

// All that is said, as a list. What is indented belongs to the line above it.
function saidList(said, onLine) {
  const items = [];
  for (const line of said) {
    if (line.startsWith("  ") && items.length) items[items.length - 1].append(make("div", { class: "more" }, line.trim()));
    else items.push(make("li", {}, ...withLines(line, onLine)));
  }
  return make("ul", { class: "said" }, ...items);
}

// What is wrong with marked lines, as a list.
function marksList(marks, onLine) {
  const rows = [...marks].sort(([one], [other]) => one - other).slice(0, 100);
  return rows.map(([line, { kind, texts }]) => {
    const shown = texts.length > 4 ? [...texts.slice(0, 3), `and ${texts.length - 3} more`] : texts;
    return make("li", { class: kind }, ...withLines(`line ${line}`, onLine), ": " + shown.join("; "));
  });
}

// How many lines are marked, in words.
function marksWords(marks) {
  const kinds = [...marks.values()].map(({ kind }) => kind), count = (kind) => kinds.filter((it) => it === kind).length;
  const words = [["refused", " refused"], ["fault", " where calls don't match"], ["waits", " where ranks wait"], ["past", " with a result past its type"]].filter(([kind]) => count(kind));
  return words.length ? joined(words.map(([kind, text]) => counted(count(kind), "line", "lines") + text)) + "." : "No line is refused, and nobody waits in the end.";
}
