// Keys for all of the page. The list of keys in page.html says what each does.

import { byId, handleKey } from "./elements.js";
import { lanes } from "./lanes.js";
import { choose, openTab, showSide, state } from "./state.js";
import { strikes } from "./strike.js";
import { timeline } from "./timeline.js";

// Where the browser remembers that single keys are turned off.
const SETTING = "histdesk.letters";
const TEXT_BOXES = "input:not([type=checkbox])";

export const KEYS = {
  "/": () => byId("filter").focus(),
  t: () => byId("trigger").focus(),
  h: () => byId("bars").focus(),
  w: () => byId("worst-rows").focus(),
  a: () => goTo("timeline", "#timeline-lanes"),
  o: () => goTo("time", "#time-points"),
  l: () => goTo("wait", "#lanes"),
  n: () => (byId("timeline").hidden ? lanes : timeline).next(),
  s: () => goTo("strike", "#ticks input"),
  r: () => goTo("table", "#table .scrolls"),
  p: () => goTo("script", "#script-text"),
  g: () => cycle("by"),
  c: () => cycle("form"),
  x: () => cycle("scale"),
  y: () => cycle("heights"),
  d: () => cycle("theme"),
  v: () => state.sides.length > 1 && showSide(1 - state.current),
  u: () => strikes.undo(),
  "?": () => byId("help").showModal(),
  Escape: () => choose(null, null),
};
// Where Enter goes on to from a text box: to what the box chooses.
const NEXT = { filter: KEYS.w, trigger: KEYS.r };

// Opens a tab, and focuses something in it.
export function goTo(name, selector) {
  openTab(name);
  document.querySelector(selector)?.focus();
}

// Chooses the next option.
function cycle(id) {
  const box = byId(id);
  box.selectedIndex = (box.selectedIndex + 1) % box.options.length;
  box.dispatchEvent(new Event("change"));
}

export function listenToKeys() {
  const letters = byId("letters");
  letters.checked = recall(SETTING) !== "off";
  letters.addEventListener("change", () => remember(SETTING, letters.checked ? "on" : "off"));
  document.addEventListener("keydown", (event) => {
    if (byId("help").open) return;
    const { target, key } = event;
    if (target.matches(TEXT_BOXES)) leave(event);
    else if (letters.checked || key.length > 1) handleKey(event, KEYS[key]);
  });
}

// Enter goes on from a text box unless its text was refused, and Escape leaves it; its text stays.
function leave(event) {
  const { target, key } = event;
  if (key === "Escape") handleKey(event, () => target.blur());
  else if (key === "Enter" && NEXT[target.id] && !isRefused(target)) handleKey(event, NEXT[target.id]);
}

// Whether exactly this text was refused; an answer that is not there yet may be a good one.
const isRefused = ({ ariaInvalid, dataset, value }) => ariaInvalid === "true" && dataset.refused === value.trim();

// A browser may store nothing for a file, or for any page.
function recall(name) {
  try {
    return localStorage.getItem(name);
  } catch {
    return null;
  }
}

function remember(name, value) {
  try {
    localStorage.setItem(name, value);
  } catch {
    // The setting holds until the page is closed.
  }
}
