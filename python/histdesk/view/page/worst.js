// The worst waits of a bar, or of all: a list of which only the rows in sight are in the document.

import { rem } from "./canvas.js";
import { all, byId, element, handleKey } from "./elements.js";
import { histogram } from "./histogram.js";
import { ascending, number, stamp } from "./numbers.js";
import { addPanel, after, chooseWait, kindName, redraw, side, state } from "./state.js";

// The text of each cell of a row; null stands for the number of the column with this name.
const CELLS = {
  micros: null,
  name: (one, wait) => one.task(wait),
  pid: (one, wait) => one.value("pid", wait),
  endCpu: null,
  prio: null,
  kind: (one, wait) => kindName(one.value("kind", wait)),
  end: (one, wait) => stamp(one.about.first + one.end(wait)),
  doubtful: (one, wait) => (one.value("doubtful", wait) ? "doubtful" : ""),
};
// These columns are first sorted from the least, all others from the greatest.
const UPWARDS = ["name", "end"];

export const worst = {
  // The column by which the rows are sorted, the waits in this order, and the row that keys have chosen.
  column: "micros",
  isDescending: true,
  numbers: new Uint32Array(0),
  at: 0,
  // The height of a row.
  high: 20,

  start() {
    addPanel("worst", this);
    after("counts", () => this.list());
    after("choice", () => this.list());
    const rows = byId("worst-rows");
    rows.addEventListener("scroll", () => redraw("worst"));
    rows.addEventListener("keydown", (event) => event.target === rows && this.key(event));
    byId("all-bars").addEventListener("click", () => rows.focus());
    for (const cell of all("[data-sort]")) cell.addEventListener("click", () => this.sortBy(cell.dataset.sort));
  },

  // Asks anew which waits are listed.
  list() {
    const { scale, bar, group } = state;
    const [low, high] = bar === null ? [-1, Infinity] : [scale.low(bar), scale.high(bar)];
    this.numbers = side().longest(low, high, group);
    if (this.column !== "micros" || !this.isDescending) {
      const keys = this.sortKeys();
      const order = ascending(this.isDescending ? keys.map((key) => ~key) : keys);
      this.numbers = order.map((place) => this.numbers[place]);
    }
    this.at = 0;
    byId("worst-rows").scrollTop = 0;
    redraw("worst");
  },

  // The numbers by which rows are sorted, below 2^32: for names, their places in alphabetical order; times are scaled if they
  // would not fit.
  sortKeys() {
    const one = side();
    const { first, last, tasks } = one.about;
    const scale = Math.min(1, 2 ** 32 / (last - first + 1));
    const places = [];
    if (this.column === "name") {
      const names = [...tasks.keys()].sort((left, right) => (tasks[left] < tasks[right] ? -1 : 1));
      names.forEach((name, at) => {
        places[name] = at;
      });
    }
    const keys = {
      name: (wait) => places[one.value("name", wait)],
      prio: (wait) => one.value("prio", wait) + 2 ** 31,
      end: (wait) => one.end(wait) * scale,
    };
    return this.numbers.map(keys[this.column] || ((wait) => one.value(this.column, wait)));
  },

  draw() {
    const rows = byId("worst-rows");
    const tall = rows.lastElementChild;
    const count = this.numbers.length;
    this.high = Math.round(1.6 * rem());
    const first = Math.max(Math.floor(rows.scrollTop / this.high) - 2, 0);
    const inSight = this.numbers.subarray(first, first + Math.ceil(rows.clientHeight / this.high) + 4);
    tall.style.height = `${count * this.high}px`;
    tall.replaceChildren(...Array.from(inSight, (wait, row) => this.row(wait, first + row)));
    // The header is a row, too.
    rows.setAttribute("aria-rowcount", count + 1);
    rows.setAttribute("aria-activedescendant", count ? `worst-${this.at}` : "");
    rows.style.setProperty("--digits", number(side().longestOfAll()).length);
    byId("worst-of").textContent = this.title();
    byId("all-bars").hidden = state.bar === null && state.group === null;
    Object.assign(byId("worst-empty"), { hidden: count > 0, textContent: this.whyEmpty() });
  },

  title() {
    const { bar, group, groups, sides } = state;
    return [
      number(this.numbers.length),
      group === null ? "" : `of ${groups.title(group)}`,
      bar === null ? "of all bars" : histogram.range(bar),
      sides.length > 1 ? side().title : "",
    ]
      .filter(Boolean)
      .join(" ");
  },

  whyEmpty() {
    const { parts } = side();
    const { ends_with: last, kinds } = state.schema;
    if (!parts[0].count) return `This recording has no wait: it needs ${last} and ${kinds[0].begins_with}.`;
    if (parts.some(({ passes }) => passes.includes(1))) return "No such wait is here: choose another bar, or all by Esc.";
    return "The filter passes no wait: change it, or empty it.";
  },

  row(wait, at) {
    const one = side();
    const cells = Object.entries(CELLS).map(([name, format]) => {
      const text = format ? format(one, wait) : number(one.value(name, wait));
      return element("span", { role: "gridcell", class: `c-${name}` }, text);
    });
    const isExplained = isSame(one, wait, state.wait);
    const attributes = {
      id: `worst-${at}`,
      role: "row",
      class: `row${at === this.at ? " at" : ""}${isExplained ? " chosen" : ""}`,
      "aria-rowindex": at + 2,
      "aria-selected": at === this.at,
      title: one.task(wait),
    };
    const row = element("div", attributes, ...cells);
    Object.assign(row.style, { top: `${at * this.high}px`, height: `${this.high}px` });
    row.addEventListener("click", () => this.choose(at, true));
    return row;
  },

  // Sorts by a column, or turns the order if it is sorted by this one.
  sortBy(column) {
    this.isDescending = this.column === column ? !this.isDescending : !UPWARDS.includes(column);
    this.column = column;
    for (const cell of byId("worst-head").children) {
      const order = this.isDescending ? "descending" : "ascending";
      cell.ariaSort = cell.dataset.sort === column ? order : "none";
    }
    this.list();
  },

  // Goes to a row, and explains its wait if that is asked for.
  choose(at, isExplained) {
    const rows = byId("worst-rows");
    this.at = Math.max(Math.min(at, this.numbers.length - 1), 0);
    const room = rows.clientHeight - byId("worst-head").offsetHeight;
    const [highest, lowest] = [this.at * this.high, (this.at + 1) * this.high - room];
    rows.scrollTop = Math.max(Math.min(rows.scrollTop, highest), lowest);
    if (isExplained && this.numbers.length) chooseWait(this.numbers[this.at]);
    redraw("worst");
  },

  key(event) {
    const page = Math.floor(byId("worst-rows").clientHeight / this.high) - 1;
    const moves = { ArrowUp: -1, ArrowDown: 1, PageUp: -page, PageDown: page, Home: -Infinity, End: Infinity };
    const move = moves[event.key];
    if (event.key === "Enter" || event.key === " ") handleKey(event, () => this.choose(this.at, true));
    else if (move !== undefined) handleKey(event, () => this.choose(this.at + move, false));
  },
};

// Whether a wait of a side is the one that is explained.
function isSame(one, wait, explained) {
  if (explained?.recording !== one.recording) return false;
  return explained.cpu === one.value("endCpu", wait) && explained.line === one.value("endLine", wait);
}
