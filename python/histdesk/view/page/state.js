// What the page shows now, and what follows if that changes. Panels and parts of the page import this module, and register
// here what they draw and what they do after a change; nothing here knows them.

import { byId } from "./elements.js";
import { number, plural } from "./numbers.js";
import { ask, decodeBase64, decodeMask } from "./source.js";
import { Groups, Scale, summarize } from "./summary.js";
import { Side, Waits } from "./waits.js";

export const state = {
  // What the server says of events, fields and kinds of waits.
  schema: null,
  // For each recording, its `waits` and what is known `about` it.
  recordings: [],
  // The strikes that were answered, each an event and the text of a filter, and the waits that are new after them; null without
  // strikes.
  struck: [],
  fresh: null,
  // What is compared: the recordings, or the waits before and after strikes; and which of these is listed.
  sides: [],
  current: 0,
  // What is counted of each side; see `summarize`.
  summaries: [],
  groups: null,
  scale: null,
  // The bar and the group that are chosen; null is all.
  bar: null,
  group: null,
  // The wait that is explained.
  wait: null,
  // The strikes that are wanted.
  strikes: [],
  // The filter that the counted waits pass, and the event to which it applies.
  filter: "",
  event: "",
};

export const side = () => state.sides[state.current];
export const kindName = (code) => state.schema.kinds[code].name;
export const nameOf = (path) => (path || "-").split("/").pop();

// ---- changes: "counts" of waits; the "choice" of bar or group; the "wait" that is explained; the "tab" that is open; the
// "question", which is anything that the trigger's table and the script depend on

const followers = {};

export function after(change, work) {
  (followers[change] ??= []).push(work);
}

export function announce(change) {
  for (const work of followers[change] || []) work();
}

// ---- panels: each has the id of an element, and draws if that is in sight

const panels = {};
const stale = new Set();

export function addPanel(id, panel) {
  panels[id] = panel;
}

// Draws some panels, or all, before the next picture of the screen.
export function redraw(...ids) {
  if (!stale.size) requestAnimationFrame(drawStale);
  for (const id of ids.length ? ids : Object.keys(panels)) stale.add(id);
}

function drawStale() {
  const ids = [...stale];
  stale.clear();
  for (const id of ids) {
    if (state.summaries.length && !byId(id).hidden) panels[id]?.draw();
  }
}

// ---- what is counted

export function recount() {
  const withDoubtful = byId("doubtful").checked;
  state.summaries = state.sides.map((one) => summarize(one, state.scale, state.groups, withDoubtful));
  const { count } = state.summaries[state.current];
  const total = side().parts.reduce((sum, part) => sum + part.count, 0);
  byId("count").textContent = state.filter ? `${number(count)} of ${plural(total, "wait")}` : plural(count, "wait");
  announce("counts");
  redraw();
}

// Makes groups, and thereby colours, anew.
export function regroup() {
  state.groups = new Groups(byId("by").value, state.recordings, kindName);
  for (const { waits, about } of state.recordings) state.groups.mark(waits, about);
  state.group = null;
  arrange();
}

// Makes sides and bars anew.
export function arrange() {
  const { recordings, fresh, scale: before } = state;
  const [{ waits, about }] = recordings;
  if (fresh) {
    state.sides = [new Side("before", 0, about, [waits]), new Side("after", 0, about, [waits, fresh], true)];
    state.groups.mark(fresh, about);
  } else {
    const title = (recording) => (recordings.length > 1 ? nameOf(recording.about.path) : "waits");
    state.sides = recordings.map((one, at) => new Side(title(one), at, one.about, [one.waits]));
  }
  const parts = [...recordings.map((one) => one.waits), ...(fresh ? [fresh] : [])];
  state.scale = new Scale(byId("scale").value === "linear", parts);
  if (state.bar >= state.scale.count || before?.low(state.bar) !== state.scale.low(state.bar)) state.bar = null;
  showSide(Math.min(state.current, state.sides.length - 1));
}

// Lists the waits of a side, and draws them over time.
export function showSide(at) {
  state.current = at;
  byId("sides").hidden = state.sides.length < 2;
  [...byId("sides").children].forEach((button, index) => {
    button.setAttribute("aria-pressed", index === at);
    button.lastChild.textContent = state.sides[index]?.title || "";
  });
  recount();
  announce("question");
}

// Takes over the waits after strikes from the server's answer, and applies the filter to the new ones.
export async function applyStrikes(strikes, { changed }) {
  const [{ waits, about }] = state.recordings;
  const { filter: text, event } = state;
  const fresh = strikes.length ? new Waits(decodeBase64(changed.new).buffer, changed.count) : null;
  if (fresh && text) {
    const { new: mask } = await ask("filter", { recording: 0, event, text, strikes });
    fresh.passes = decodeMask(mask, fresh.count);
  }
  Object.assign(about.tasks, changed.tasks);
  waits.strikes.fill(0);
  if (fresh) for (const index of new Uint32Array(decodeBase64(changed.taken).buffer)) waits.strikes[index] = 1;
  Object.assign(state, { struck: strikes, fresh });
  arrange();
}

// ---- what is chosen

// Lists the waits of a bar, or of a group; null is all.
export function choose(bar, group) {
  Object.assign(state, { bar, group });
  announce("choice");
  redraw("histogram", "time");
}

// Explains a wait of the current side, by its number; null is none.
export function chooseWait(at) {
  if (at === null) return;
  const one = side();
  const value = (column) => one.value(column, at);
  const isFresh = at >= one.parts[0].count;
  state.wait = {
    recording: one.recording,
    cpu: value("endCpu"),
    line: value("endLine"),
    from: value("beginCpu"),
    pid: value("pid"),
    task: one.task(at),
    kind: kindName(value("kind")),
    micros: value("micros"),
    end: one.end(at),
    strikes: isFresh ? state.struck : [],
  };
  openTab("wait");
  announce("wait");
  redraw("worst", "time");
}

// ---- tabs

// Opens a tab, by the id of its panel.
export function openTab(name) {
  for (const button of byId(`tab-${name}`).parentElement.children) {
    const isOpen = button.id === `tab-${name}`;
    Object.assign(button, { ariaSelected: isOpen, tabIndex: isOpen ? 0 : -1 });
    byId(button.getAttribute("aria-controls")).hidden = !isOpen;
  }
  redraw(name);
  announce("question");
}

// The name of the open tab beside one with this name.
export function openTabBeside(name) {
  const open = [...byId(`tab-${name}`).parentElement.children].find((button) => button.ariaSelected === "true");
  return open.getAttribute("aria-controls");
}
