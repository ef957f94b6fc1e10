"use strict";
// What every page has: the switch for dark and light, and controls that fold on a narrow window.

const SYSTEM = matchMedia("(prefers-color-scheme: dark)"), WIDE = matchMedia("(min-width: 700px)");

// The switch for dark and light goes before what the system asks for. It names what it brings.
function nameTheme() {
  const theme = document.documentElement.dataset.theme, isDark = theme ? theme === "dark" : SYSTEM.matches;
  document.getElementById("theme").textContent = isDark ? "Light" : "Dark";
  return isDark;
}

function switchTheme() {
  document.documentElement.dataset.theme = nameTheme() ? "light" : "dark";
  nameTheme();
}

// On a narrow window the rarer controls are folded.
function foldControls() {
  document.getElementById("more").open = WIDE.matches;
}

function frame() {
  document.getElementById("theme").addEventListener("click", switchTheme);
  SYSTEM.addEventListener("change", nameTheme);
  WIDE.addEventListener("change", foldControls);
  nameTheme();
  foldControls();
}
