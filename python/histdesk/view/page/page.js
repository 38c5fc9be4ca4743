// The page: it asks for the recordings, and starts the panels and what listens to clicks and keys.

import { Asker } from "./asker.js";
import { forgetStyles } from "./canvas.js";
import { alignMessage, all, byId, element, handleKey, report } from "./elements.js";
import { histogram } from "./histogram.js";
import { goTo, KEYS, listenToKeys } from "./keys.js";
import { lanes } from "./lanes.js";
import { duration, plural } from "./numbers.js";
import { startPalette } from "./palette.js";
import { question } from "./question.js";
import { ask, columnsOf, SAVED } from "./source.js";
import { arrange, nameOf, openTab, openTabBeside, recount, redraw, regroup, showSide, state } from "./state.js";
import { strikes } from "./strike.js";
import { overTime } from "./time.js";
import { timeline } from "./timeline.js";
import { Waits } from "./waits.js";
import { worst } from "./worst.js";

// The panels, in the order in which they are drawn. Those that have a time axis are zoomed by the buttons above them.
const PANELS = [histogram, worst, timeline, overTime, lanes];
const ZOOMED = { timeline, time: overTime, wait: lanes };

function restyle() {
  forgetStyles();
  redraw();
}

function listen() {
  startPalette();
  const changes = { by: regroup, scale: arrange, theme: restyle, doubtful: recount, form: recount, heights: recount };
  for (const [id, work] of Object.entries(changes)) byId(id).addEventListener("change", work);
  for (const id of ["filter", "trigger", "strike-text"]) byId(id).addEventListener("scroll", () => alignMessage(id));
  for (const button of all("[data-side]")) {
    button.addEventListener("click", () => showSide(Number(button.dataset.side)));
  }
  for (const button of all("[data-key]")) button.addEventListener("click", () => KEYS[button.dataset.key]());
  for (const button of all("[data-zoom]")) button.addEventListener("click", () => zoom(button.dataset.zoom));
  for (const button of all("[data-copy]")) button.addEventListener("click", () => copy(button.dataset.copy));
  for (const tabs of all(".tabs")) listenToTabs(tabs);
  listenToKeys();
  new ResizeObserver(restyle).observe(document.body);
  matchMedia("(prefers-color-scheme: dark)").addEventListener("change", restyle);
}

// Tabs open by a click, and by the keys left and right.
function listenToTabs(tabs) {
  const buttons = [...tabs.children];
  const panelOf = (button) => button.getAttribute("aria-controls");
  for (const button of buttons) button.addEventListener("click", () => openTab(panelOf(button)));
  tabs.addEventListener("keydown", (event) => {
    const step = { ArrowLeft: -1, ArrowRight: 1 }[event.key];
    if (!step) return;
    const next = buttons.at((buttons.indexOf(event.target) + step) % buttons.length);
    handleKey(event, () => goTo(panelOf(next), `#${next.id}`));
  });
}

// Zooms the picture of time that is in sight; without a factor it shows all of it.
function zoom(factor) {
  const axis = ZOOMED[openTabBeside("time")]?.axis;
  if (factor) axis?.zoom(Number(factor));
  else axis?.goHome();
}

function copy(id) {
  getSelection().selectAllChildren(byId(id));
  report(document.execCommand("copy") ? "copied" : "Ctrl+C copies the selected text");
}

// Says what the recordings are, and what is missing in them.
function describe() {
  const abouts = state.recordings.map(({ about }) => about);
  const lines = abouts.map(({ path, events, waits, first, last, cpus }) => {
    const length = `${plural(events, "event")} in ${duration(last - first)} on ${plural(cpus.length, "CPU")}`;
    return `${nameOf(path)}: ${length}, ${plural(waits, "wait")}`;
  });
  Object.assign(byId("about"), { textContent: lines.join("; "), title: lines.join("\n") });
  document.title = `Waits: ${abouts.map(({ path }) => nameOf(path)).join(", ")}`;
  warn(abouts.flatMap(({ warning, remarks }) => [warning, ...remarks]).filter(Boolean));
}

// Shows the first warning at the top of the page, and all of them if it is opened.
function warn(warnings) {
  const lines = warnings.flatMap((warning) => warning.split("\n"));
  const box = byId("warnings");
  box.hidden = !lines.length;
  box.querySelector("b").textContent = `⚠ ${plural(lines.length, "remark")}`;
  box.querySelector("span").textContent = lines[0];
  box.querySelector("ul").replaceChildren(...lines.map((line) => element("li", {}, line)));
}

// Asks for what is known of the recordings, and at the same time for the waits of the first one.
async function load() {
  const [about, first] = await Promise.all([SAVED ? SAVED.about : ask("about"), columnsOf(0)]);
  const columns = await Promise.all(about.recordings.map((_, at) => (at ? columnsOf(at) : first)));
  state.schema = about.schema;
  state.recordings = about.recordings.map((one, at) => ({ about: one, waits: new Waits(columns[at], one.waits) }));
}

async function begin() {
  await load();
  const isTwo = state.recordings.length > 1;
  if (isTwo) byId("heights").value = "share";
  if (SAVED) {
    for (const control of all(":is(#line, #strike .left) :is(input, select, button)")) control.disabled = true;
  }
  describe();
  listen();
  for (const panel of PANELS) panel.start();
  question.start();
  regroup();
  strikes.start();
  document.body.classList.add("ready");
}

new Asker("the recordings", ["main"], begin).ask();
