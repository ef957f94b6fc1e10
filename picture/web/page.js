"use strict";
// The page of one run: it shows the run that the page has, and keeps the turn in the address (`run.html#12`).

function turnInAddress() {
  const turn = Number.parseInt(location.hash.slice(1), 10);
  return Number.isNaN(turn) ? undefined : turn;
}

// The address follows the turn, once it rests: browsers refuse many changes at once.
let resting = 0;
function keepAddress(turn) {
  clearTimeout(resting);
  if (turn !== turnInAddress()) resting = setTimeout(() => history.replaceState(null, "", "#" + turn), 200);
}

const view = new View(document, keepAddress);
addEventListener("hashchange", () => turnInAddress() !== undefined && view.goTo(turnInAddress()));
frame();
view.open(runOf(JSON.parse(document.getElementById("story").textContent)), turnInAddress());
