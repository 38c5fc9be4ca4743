// The waits without some events: what can be ticked, what is struck, and which rows that changes.

import { Asker, inTurn } from "./asker.js";
import { all, byId, element, explainBox, report, sentenceOf, speak } from "./elements.js";
import { number, plural } from "./numbers.js";
import { ask, SAVED } from "./source.js";
import { applyStrikes, nameOf, state } from "./state.js";

// How many rows are shown at most, and how many tasks can be ticked at most.
const ROWS = 100;
const TASKS = 300;
const FIGURES = ["count", "p50", "p99", "max"];
// What shows the waits without some events.
const PANELS = ["strike", "histogram", "worst", "time"];
// Tasks that handle interrupts.
const HANDLERS = /^(irq\/|ksoftirqd)/;

export const strikes = {
  // What can be ticked: sections by title, and filters that were typed.
  sections: [],
  own: [],
  // The strikes before each change, for undo; what these were when strikes were answered last; and how many events each of the
  // answered strikes has.
  history: [],
  answered: [],
  counts: [],
  // The texts of the rows that differ, by their keys; the rows that differ without strikes, null if they are not known; and all
  // rows, for sorting.
  rowTexts: new Map(),
  differences: null,
  rows: [],

  start() {
    byId("strike-any").addEventListener("submit", (event) => {
      event.preventDefault();
      const text = byId("strike-text").value.trim();
      if (text) this.toggle({ event: byId("strike-event").value, text });
    });
    for (const head of all("[data-change]")) {
      head.addEventListener("click", () => this.showRows(this.rows, head.dataset.change));
    }
    const work = (list, history) => inTurn(() => this.strike(list, history));
    this.asker = new Asker("the waits without these events", PANELS, work, () => this.takeBack());
    this.differenceAsker = new Asker("what differs", ["strike"], () => this.compare());
    if (SAVED) byId("rows-empty").textContent = `To leave events out, run ${SAVED.about.command}`;
    else this.offer();
    if (state.recordings.length > 1) this.differenceAsker.ask();
  },

  async strike(list, history) {
    const answer = await ask("strike", { strikes: list });
    if (answer.refused) return this.refuse(list, answer);
    await applyStrikes(list, answer);
    Object.assign(this, { answered: history, counts: answer.struck });
    this.showRows(list.length ? answer.rows : this.differences ?? []);
    if (!list.length && !this.differences && state.recordings.length > 1) this.differenceAsker.ask();
    return speak(this.summary());
  },

  // Shows the strikes that were answered last, since those after them have no answer.
  takeBack() {
    state.strikes = state.struck;
    this.history = [...this.answered];
    this.check();
  },

  // Shows how two recordings differ, unless something is struck.
  async compare() {
    this.differences ??= (SAVED ? SAVED.differences : await ask("differences")).rows;
    if (!state.struck.length) this.showRows(this.differences);
  },

  // Offers wakings of the tasks with most waits, those by interrupts, and those on each CPU.
  offer() {
    const [{ waits, about }] = state.recordings;
    const tasks = new Map();
    for (let index = 0; index < waits.count; index++) {
      const pid = waits.pid[index];
      if (!tasks.has(pid)) tasks.set(pid, { pid, count: 0, name: 0 });
      const task = tasks.get(pid);
      task.count++;
      task.name = waits.name[index];
    }
    const event = state.schema.kinds[0].begins_with;
    const waking = (title, text) => ({ event, text, title });
    const most = [...tasks.values()]
      .sort((one, other) => other.count - one.count)
      .map(({ pid, name }) => ({ pid, name: about.tasks[name] }));
    const handlers = most.filter(({ name }) => HANDLERS.test(name));
    const wakings = most.slice(0, TASKS).map(({ pid, name }) => waking(`${name} ${pid}`, `pid == ${pid}`));
    const wakers = handlers.map(({ pid, name }) => waking(name, `common_pid == ${pid}`));
    const cpus = about.cpus.map((cpu) => waking(`CPU ${cpu}`, `common_cpu == ${cpu}`));
    this.sections = [
      ["without wakings of", wakings],
      ["without wakings by", [waking("interrupts upon idle", "common_pid == 0"), ...wakers]],
      ["without wakings on", cpus],
    ];
    this.list();
  },

  key: ({ event, text }) => `${event} if ${text}`,

  // Shows what can be ticked, own filters first.
  list() {
    const section = ([title, ticks]) =>
      ticks.length ? [element("h3", {}, title), ...ticks.map((one) => this.tick(one))] : [];
    byId("ticks").replaceChildren(...[["without", this.own], ...this.sections].flatMap(section));
    this.check();
  },

  tick(one) {
    const key = this.key(one);
    const input = element("input", { type: "checkbox", "data-strike": key });
    input.addEventListener("change", () => this.toggle(one));
    const title = element("span", { class: "grows" }, one.title || key);
    return element("label", { title: `strike ${key}` }, input, title, element("span"));
  },

  // Ticks what is to be struck, and shows how many events each strike has.
  check() {
    const wanted = new Set(state.strikes.map((one) => this.key(one)));
    const counts = new Map(state.struck.map((one, at) => [this.key(one), this.counts[at]]));
    for (const input of byId("ticks").querySelectorAll("input")) {
      const count = counts.get(input.dataset.strike);
      const text = count === undefined ? "" : number(count);
      const { lastChild } = input.parentElement;
      input.checked = wanted.has(input.dataset.strike);
      if (lastChild.textContent !== text) lastChild.textContent = text;
    }
    // A button that is focused and gets disabled would lose the focus to nothing.
    if (!this.history.length && document.activeElement.id === "undo") byId("tab-strike").focus();
    byId("undo").disabled = !this.history.length;
    byId("side-summary").textContent = this.summary();
  },

  summary() {
    const { recordings } = state;
    const count = this.counts.reduce((sum, one) => sum + one, 0);
    const rows = this.rowTexts.size;
    const most = rows > ROWS ? `, ${ROWS} shown` : "";
    const differences = `${plural(rows, "row")} differ${rows === 1 ? "s" : ""}${most}`;
    if (!state.struck.length) return rows ? differences : "";
    const of = recordings.length > 1 ? ` of ${nameOf(recordings[0].about.path)}` : "";
    return `${plural(count, "event")}${of} struck, ${differences}`;
  },

  // Strikes some events, or inserts them again.
  toggle(one) {
    explainBox("strike-text");
    const key = this.key(one);
    const left = state.strikes.filter((other) => this.key(other) !== key);
    if (!byId("ticks").querySelector(`[data-strike="${CSS.escape(key)}"]`)) {
      this.own.push(one);
      this.list();
    }
    this.history.push(state.strikes);
    const isStruck = left.length < state.strikes.length;
    this.set(isStruck ? left : [...left, { event: one.event, text: one.text }]);
  },

  set(list) {
    state.strikes = list;
    this.asker.ask(list, [...this.history]);
  },

  undo() {
    if (this.history.length) this.set(this.history.pop());
  },

  // Explains below its box why a filter cannot be read, and takes it out of the strikes.
  refuse(list, refusal) {
    const wrong = this.key(list[refusal.strike ?? list.length - 1]);
    explainBox("strike-text", refusal);
    report(`This cannot be struck, ${wrong}: ${sentenceOf(refusal)}`, true);
    this.own = this.own.filter((one) => this.key(one) !== wrong);
    this.history.pop();
    this.set(state.strikes.filter((one) => this.key(one) !== wrong));
    this.list();
  },

  // Shows the rows that differ, first those in which a figure changed most; those that the last strike changed flash.
  showRows(rows, by = "count") {
    const change = (row) => Math.abs((row.before?.[by] || 0) - (row.after?.[by] || 0));
    const before = this.rowTexts;
    this.rows = rows.sort((one, other) => change(other) - change(one));
    this.rowTexts = new Map(rows.map((row) => [keyOf(row), JSON.stringify([row.before, row.after])]));
    for (const head of all("[data-change]")) head.ariaSort = head.dataset.change === by ? "descending" : "none";
    const isNew = (row) => state.struck.length && before.get(keyOf(row)) !== this.rowTexts.get(keyOf(row));
    byId("rows").tBodies[0].replaceChildren(...rows.slice(0, ROWS).map((row) => rowOf(row, isNew(row))));
    byId("rows").hidden = !rows.length;
    const none = state.struck.length ? "Without these events the waits are the same." : "Nothing is struck.";
    Object.assign(byId("rows-empty"), { hidden: rows.length > 0, textContent: none });
    this.check();
  },
};

const keyOf = (row) => `${row.pid ?? row.task} ${row.kind}`;

function rowOf(row, isNew) {
  const name = element("td", {}, `${row.task} ${row.pid ?? ""} `, element("i", {}, row.kind));
  const cells = FIGURES.map((figure) => {
    const [was, is] = [row.before, row.after].map((side) => number(side && side[figure]));
    if (was === is) return element("td", { class: "n" }, was);
    return element("td", { class: "n changed" }, `${was} → ${is}`);
  });
  return element("tr", { class: isNew ? "flash" : "", "data-row": keyOf(row) }, name, ...cells);
}
