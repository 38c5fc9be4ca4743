// What is asked at the top of the page: the filter of waits, and the trigger with its table and script.

import { Asker, inTurn } from "./asker.js";
import { byId, element, explainBox, rejectBox, speak } from "./elements.js";
import { number } from "./numbers.js";
import { ask, decodeMask, SAVED } from "./source.js";
import { after, announce, openTab, recount, side, state } from "./state.js";
import { suggestFields } from "./suggest.js";

export const question = {
  start() {
    const events = byId("event");
    const names = state.schema.events.map(({ name }) => name);
    // The event that ends waits comes first.
    const { ends_with: last } = state.schema;
    const option = (name) => element("option", {}, name);
    events.replaceChildren(...[last, ...names.filter((name) => name !== last)].map(option));
    byId("strike-event").replaceChildren(...names.map(option));
    byId("trigger").value = firstTrigger(events.value);
    byId("filter").addEventListener("input", () => filterAsker.ask());
    byId("filter").addEventListener("keydown", ({ key }) => key === "Enter" && filterAsker.error && filterAsker.again());
    byId("trigger").addEventListener("input", () => openTab("table"));
    events.addEventListener("change", () => {
      const isUntouched = names.map(firstTrigger).includes(byId("trigger").value);
      if (isUntouched) byId("trigger").value = firstTrigger(events.value);
      filterAsker.ask();
    });
    suggestFields("filter", () => events.value);
    suggestFields("strike-text", () => byId("strike-event").value);
    after("question", askTrigger);
  },
};

// The field that has the name of the task that waits.
const taskField = (event) => state.schema.events.find(({ name }) => name === event).task;
const firstTrigger = (event) => `hist:keys=${taskField(event)}:sort=hitcount.descending`;

const filterAsker = new Asker("the waits that pass the filter", ["histogram", "worst", "time"], () =>
  inTurn(applyFilter).catch((error) => {
    rejectBox("filter", error.message);
    markCount(true);
    throw error;
  }),
);

async function applyFilter() {
  const event = byId("event").value;
  const typed = byId("filter").value;
  const text = typed.trim();
  const { recordings, struck, fresh } = state;
  // Events are struck from the first recording.
  const filter = (_, recording) => ask("filter", { recording, event, text: typed, strikes: recording ? [] : struck });
  const answers = text ? await Promise.all(recordings.map(filter)) : [];
  const wrong = answers.find((answer) => answer.refused);
  explainBox("filter", wrong);
  byId("filter").dataset.refused = wrong ? text : "";
  markCount(Boolean(wrong));
  if (wrong) return;
  Object.assign(state, { filter: text, event });
  recordings.forEach(({ waits }, at) => pass(waits, answers[at]?.chosen));
  if (fresh) pass(fresh, answers[0]?.new);
  recount();
  announce("question");
  speak(byId("count").textContent);
}

// Whether the number of waits is that of the filter before.
function markCount(isStale) {
  byId("count").classList.toggle("stale", isStale);
}

// Applies a mask to waits; without one all pass.
function pass(waits, mask) {
  waits.passes = mask ? decodeMask(mask, waits.count) : new Uint8Array(waits.count).fill(1);
}

const tableAsker = new Asker("the trigger's table", ["table"], () =>
  showTable().catch((error) => {
    rejectBox("trigger", error.message);
    fillTable([], [], "");
    throw error;
  }),
);

const scriptAsker = new Asker("the script", ["script"], () =>
  showScript().catch((error) => {
    fillScript({});
    throw error;
  }),
);

// What the table and the script are asked for.
function asked() {
  const event = byId("event").value;
  const trigger = byId("trigger").value.trim();
  return { recording: side().recording, event, trigger, filter: state.filter, strikes: state.struck };
}

function askTrigger() {
  const example = `a filter of waits, as ${taskField(byId("event").value)} == "make"`;
  byId("filter").placeholder = SAVED ? `only with ${SAVED.about.command}` : example;
  if (!byId("script").hidden) scriptAsker.ask();
  if (!SAVED && !byId("table").hidden) tableAsker.ask();
}

async function showScript() {
  fillScript(SAVED ? SAVED.script || SAVED.about : await ask("script", asked()));
}

function fillScript({ script, refused, command, of }) {
  byId("script-text").textContent = script || refused || "";
  byId("script-command").textContent = command || "";
  byId("script-of").textContent = of ? `, of ${of}` : "";
}

async function showTable() {
  const { recording, event, trigger, filter, strikes } = asked();
  const text = filter ? `${trigger} if ${filter}` : trigger;
  const answer = await ask("trigger", { recording, event, text, strikes });
  const { refused, columns, rows, totals, more, of } = answer;
  byId("trigger").dataset.refused = refused ? trigger : "";
  if (refused) return explainBox("trigger", answer);
  const summary = `${number(totals.entries)} rows of ${number(totals.hits)} hits, ${number(totals.dropped)} dropped`;
  const remarks = [summary, of && `of ${of}`, more && `the last ${number(more)} are not shown`];
  explainBox("trigger", null, summary);
  return fillTable(columns, rows, remarks.filter(Boolean).join("; "));
}

function fillTable(columns, rows, summary) {
  const isNumber = columns.map((_, column) => rows.every((row) => typeof row[column] === "number"));
  const line = (name, row) => {
    const cells = row.map((cell, column) => element(name, { class: isNumber[column] ? "n" : "" }, `${cell}`));
    return element("tr", {}, ...cells);
  };
  const table = byId("table-rows");
  table.tHead.replaceChildren(line("th", columns));
  table.tBodies[0].replaceChildren(...rows.map((row) => line("td", row)));
  byId("table-summary").textContent = summary;
}
