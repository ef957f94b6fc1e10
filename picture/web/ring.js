"use strict";
// Who waits for whom as a ring of ranks, as SVG: an arrow from each rank that waits to each that hasn't called what it waits for.

const MOST_IN_RING = 16;

function ringOf(run, turn) {
  const { arrows, circle, last } = heldUp(run, turn), ranks = [...new Set(arrows.flat())].sort((one, other) => one - other);
  if (!ranks.length || ranks.length > MOST_IN_RING) return "";
  const size = 250, places = new Map(ranks.map((rank, place) => {
    const turned = (2 * Math.PI * place) / ranks.length - Math.PI / 2;
    return [rank, [size / 2 + 100 * Math.cos(turned), size / 2 + 100 * Math.sin(turned)]];
  }));
  const high = Math.max(...[...places.values()].map(([, y]) => y)) + 20;
  const knot = ([rank, [x, y]]) => `<circle cx="${x.toFixed(1)}" cy="${y.toFixed(1)}" r="14" class="knot${circle.includes(rank) || last.includes(rank) ? " holds" : ""}"/>` + label(x, y + 5, String(rank), "middle");
  return drawing(size, Math.ceil(high), arrows.map(([from, to]) => wayOf(places.get(from), places.get(to))).join("") + [...places].map(knot).join(""));
}

// An arrow in a bow, so that two that go back and forth are apart.
function wayOf([x1, y1], [x2, y2]) {
  const long = Math.hypot(x2 - x1, y2 - y1), dx = (x2 - x1) / long, dy = (y2 - y1) / long, text = (...all) => all.map((it) => it.toFixed(1)).join(" ");
  const bow = [(x1 + x2) / 2 - dy * 14, (y1 + y2) / 2 + dx * 14], [x, y] = [x2 - dx * 18 - dy * 3, y2 - dy * 18 + dx * 3];
  const line = `M${text(x1 + dx * 16, y1 + dy * 16)}Q${text(...bow, x - 6 * dx, y - 6 * dy)}`;
  return `<path d="${line}" class="wayward"/><polygon points="${text(x, y, x - 9 * dx - 5 * dy, y - 9 * dy + 5 * dx, x - 9 * dx + 4 * dy, y - 9 * dy - 4 * dx)}" class="wayhead"/>`;
}
