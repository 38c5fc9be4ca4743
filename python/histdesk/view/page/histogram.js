// The histogram: bars by how long waits were, stacked by group, or those of two sides over each other; or the cumulative curve
// of each side; with percentiles, a legend, and a table of figures below.

import { groupColour, rem } from "./canvas.js";
import { byId, element, handleKey, tip } from "./elements.js";
import { duration, number, short, ticks } from "./numbers.js";
import { addPanel, choose, state } from "./state.js";
import { PERCENTILES } from "./summary.js";

// The heights that have marks if heights are logarithms, and the shares that have marks beside curves.
const POWERS = [1, 10, 100, 1e3, 1e4, 1e5, 1e6];
const SHARES = [0, 0.25, 0.5, 0.75, 0.9, 1];
const NINES = [0, 0.9, 0.99, 0.999, 0.9999, 0.99999];

export const histogram = {
  // The picture's area, and the width of a bar's room.
  area: null,
  slot: 1,

  draw() {
    const svg = byId("bars");
    const { width, height } = svg.getBoundingClientRect();
    const unit = rem();
    this.area = { left: 4.7 * unit, top: 3 * unit, width: width - 6.5 * unit, height: height - 5.6 * unit };
    this.slot = this.area.width / state.scale.count;
    const picture = byId("form").value === "curve" ? this.curves() : this.bars();
    svg.replaceChildren(...picture, ...this.lengths(), ...this.percentiles());
    svg.setAttribute("aria-activedescendant", state.bar === null ? "" : `bar-${state.bar}`);
    this.legend();
    this.figures();
  },

  x(micros) {
    return this.area.left + state.scale.place(micros) * this.slot;
  },

  // The bounds of the bars below the picture, as many as there is room for.
  lengths() {
    const { left, top, width, height } = this.area;
    const { scale } = state;
    const unit = rem();
    const bottom = top + height;
    const step = Math.ceil((3.6 * unit) / this.slot);
    const nodes = [svgLine(left, bottom, left + width, bottom, "axis")];
    for (let bar = 0; bar <= scale.count - scale.isOpen; bar += step) {
      const x = left + bar * this.slot;
      const text = duration(Math.max(scale.low(bar), 0));
      nodes.push(svgLine(x, bottom, x, bottom + 4, "axis"), svgText(x, bottom + 1.1 * unit, text));
    }
    if (scale.isOpen) nodes.push(svgText(left + width, bottom + 1.1 * unit, "more"));
    nodes.push(svgText(left + width / 2, bottom + 2.2 * unit, "how long a wait was"));
    return nodes;
  },

  // Lines across the picture, each with its value at the left, and above them what the values are.
  grid(marks, y, format, title) {
    const { left, top, width } = this.area;
    const nodes = marks.flatMap((mark) => [
      svgLine(left, y(mark), left + width, y(mark), "grid"),
      svgText(left - 6, y(mark), format(mark), "middle", "end"),
    ]);
    return [...nodes, svgText(6, top - 0.9 * rem(), title, "", "start")];
  },

  bars() {
    const { top, height } = this.area;
    const { summaries, groups, scale, current } = state;
    const form = byId("heights").value;
    const isShare = form === "share";
    // How many waits each bar of each side has, and by what these numbers are divided.
    const counts = summaries.map(({ stacks }) => countsOfBars(stacks, scale.count, groups.count));
    const divisors = summaries.map(({ figures }) => (isShare ? Math.max(figures.count, 1) / 100 : 1));
    const doubts = summaries[current].doubtful;
    const heights = counts.flatMap((bars, at) => bars.map((count) => count / divisors[at]));
    const highest = Math.max(...heights, ...doubts.map((count) => count / divisors[current]), isShare ? 1 : 4);
    const bend = form === "log" ? (value) => Math.log10(1 + value) : (value) => value;
    const size = (value) => (bend(value) / bend(highest)) * height;
    const y = (value) => top + height - size(value);
    const marks = form === "log" ? POWERS.filter((mark) => mark <= highest) : ticks(0, highest, 4);
    const format = isShare ? (mark) => `${mark} %` : short;
    const nodes = this.grid(marks, y, format, isShare ? "share of waits" : "waits");
    const isApart = doubts.some(Boolean);
    for (let bar = 0; bar < scale.count; bar++) {
      const sizes = counts.map((bars, at) => size(bars[bar] / divisors[at]));
      const parts = counts.length > 1 ? this.pair(bar, sizes) : this.stack(bar, counts[0][bar], sizes[0], isApart);
      if (doubts[bar]) {
        const doubtful = size(doubts[bar] / divisors[current]);
        parts.push(this.rectangle(bar, 0.8, 0.16, 0, doubtful, { class: "doubtful" }));
      }
      const sideCounts = counts.map((bars) => bars[bar]);
      nodes.push(this.option(bar, sideCounts, doubts[bar], parts));
    }
    return nodes;
  },

  // The bars of two sides: a wide one behind a narrow one.
  pair(bar, [before, after]) {
    return [
      this.rectangle(bar, 0.06, 0.88, 0, before, { class: "side-0" }),
      this.rectangle(bar, 0.3, 0.4, 0, after, { class: "side-1" }),
    ];
  },

  // A bar of one side, from group to group upwards, and its count above it if there is room.
  stack(bar, count, size, isApart) {
    if (!count) return [];
    const { groups, summaries, group } = state;
    const { left, top, height } = this.area;
    const { stacks } = summaries[0];
    const wide = isApart ? 0.7 : 0.88;
    const parts = [];
    let low = 0;
    for (let code = 0; code < groups.count; code++) {
      const part = (stacks[bar * groups.count + code] / count) * Math.max(size, 1.5);
      const attributes = { class: group === null || group === code ? "" : "dim", fill: groupColour(code) };
      if (part) parts.push(this.rectangle(bar, 0.06, wide, low, part, attributes));
      low += part;
    }
    if (this.slot > 2.2 * rem()) {
      const x = left + (bar + 0.06 + wide / 2) * this.slot;
      parts.push(svgText(x, top + height - size - 5, short(count), "value"));
    }
    return parts;
  },

  // A rectangle in a bar's room, from `low` upwards; unless its size is 0, it is high enough to be seen.
  rectangle(bar, from, wide, low, size, attributes) {
    const { left, top, height } = this.area;
    const tall = size ? Math.max(size, 1.5) : 0;
    const place = { x: left + (bar + from) * this.slot, y: top + height - low - tall };
    return element("svg:rect", { ...place, width: Math.max(wide * this.slot, 1), height: tall, ...attributes });
  },

  // All of a bar's room, which can be chosen.
  option(bar, counts, doubts, parts) {
    const { left, top, height } = this.area;
    const titles = counts.map((_, at) => (counts.length > 1 ? state.sides[at].title : "waits"));
    const lines = counts.map((count, at) => `${number(count)} ${titles[at]}`);
    if (doubts) lines.push(`${number(doubts)} doubtful apart`);
    const place = { x: left + bar * this.slot, y: top, width: this.slot, height: height + 1.6 * rem() };
    const attributes = {
      id: `bar-${bar}`,
      role: "option",
      "aria-label": `${this.range(bar)}: ${lines.join(", ")}`,
      "aria-selected": bar === state.bar,
    };
    const node = element("svg:g", attributes, element("svg:rect", { ...place, class: "room" }), ...parts);
    node.addEventListener("click", () => choose(state.bar === bar ? null : bar, state.group));
    node.addEventListener("pointermove", (event) => tip(event, this.range(bar), ...lines, "click: the worst of them"));
    node.addEventListener("pointerleave", (event) => tip(event));
    return node;
  },

  // The bounds of a bar in words.
  range(bar) {
    const low = Math.max(state.scale.low(bar), 0);
    const high = state.scale.high(bar);
    if (high === Infinity) return `above ${number(low)} µs`;
    return low ? `above ${number(low)} to ${number(high)} µs` : `up to ${number(high)} µs`;
  },

  // How many waits were no longer than x; with a logarithm, how many nines that share has.
  curves() {
    const { left, top, width, height } = this.area;
    const isLog = byId("heights").value === "log";
    const up = (share) => (isLog ? -Math.log10(Math.max(1 - share, 1e-6)) / 6 : share);
    const y = (share) => top + height - up(share) * height;
    const percent = (share) => `${+(share * 100).toFixed(3)} %`;
    const nodes = this.grid(isLog ? NINES : SHARES, y, percent, "waits no longer");
    state.summaries.forEach(({ spread, figures }, at) => {
      if (!spread.count) return;
      const points = Array.from({ length: Math.ceil(width) + 1 }, (_, x) => {
        const share = spread.share(state.scale.micros(x / this.slot));
        return `${left + x},${y(share).toFixed(1)}`;
      });
      nodes.push(element("svg:polyline", { points: points.join(" "), class: `curve line-${at}` }));
      for (const [name, share] of [["p50", 0.5], ["p99", 0.99]]) {
        const place = { cx: this.x(figures[name]), cy: y(share), r: rem() / 3 };
        nodes.push(element("svg:circle", { ...place, class: `dot-${at}` }));
      }
    });
    return nodes;
  },

  // Where p50 and p99 are, a row of texts for each side.
  percentiles() {
    return state.summaries.flatMap(({ figures }, at) =>
      figures.count ? [...this.percentile("p50", figures, at), ...this.percentile("p99", figures, at)] : [],
    );
  },

  percentile(name, figures, at) {
    const { left, top, width, height } = this.area;
    const unit = rem();
    const room = 6 * unit;
    const [x, last] = [this.x(figures[name]), this.x(figures.p99)];
    const y = top - (at ? 1.1 : 2.3) * unit;
    const isLeft = x > (name === "p50" ? room : left + width - room);
    // The text of p50 makes room for that of p99 if this one stands left of its line.
    const most = name === "p50" && last > left + width - room ? last - 5.5 * unit : Infinity;
    const text = `${name} ${duration(figures[name])}`;
    const place = Math.min(x, most) + (isLeft ? -4 : 4);
    return [
      svgLine(x, y - 0.5 * unit, x, top + height, `percentile line-${at}`),
      svgText(place, y, text, `middle text-${at}`, isLeft ? "end" : "start"),
    ];
  },

  legend() {
    const { groups, sides, summaries } = state;
    const isCurve = byId("form").value === "curve";
    const items =
      sides.length > 1 || isCurve
        ? sides.map((one, at) => legendOfSide(one, at, isCurve))
        : Array.from({ length: groups.count }, (_, code) => legendOfGroup(code));
    if (summaries.some(({ doubtful }) => doubtful.some(Boolean))) {
      items.push(element("span", {}, element("i", { class: "swatch striped" }), "doubtful"));
    }
    // Whoever uses keys stays at the same item.
    const legend = byId("legend");
    const focus = [...legend.children].indexOf(document.activeElement);
    legend.replaceChildren(...items);
    legend.children[focus]?.focus();
  },

  // The table of figures, a row for each side.
  figures() {
    const names = ["count", "mean", ...Object.keys(PERCENTILES), "max", "doubtful"];
    const row = ({ figures }, at) => {
      const cells = names.map((name) => {
        const text = name === "mean" ? tenths(figures.mean) : number(figures[name]);
        return element("td", { class: "n", "data-figure": name }, text);
      });
      return element("tr", {}, element("th", { class: `text-${at}` }, state.sides[at].title), ...cells);
    };
    byId("figures").tBodies[0].replaceChildren(...state.summaries.map(row));
  },

  key(event) {
    const last = state.scale.count - 1;
    const bar = state.bar ?? (event.key === "ArrowLeft" ? last + 1 : -1);
    const next = { ArrowLeft: Math.max(bar - 1, 0), ArrowRight: Math.min(bar + 1, last), Home: 0, End: last }[event.key];
    if (next !== undefined) handleKey(event, () => choose(next, state.group));
    else if (event.key === "Enter") handleKey(event, () => byId("worst-rows").focus());
  },

  start() {
    addPanel("histogram", this);
    byId("bars").addEventListener("keydown", (event) => this.key(event));
  },
};

const svgText = (x, y, text, kind = "", anchor = "middle") =>
  element("svg:text", { x, y, class: kind, "text-anchor": anchor }, text);
const svgLine = (x1, y1, x2, y2, kind) => element("svg:line", { x1, x2, y1, y2, class: kind });

const tenths = (value) =>
  value === null ? "-" : value.toLocaleString("en-US", { minimumFractionDigits: 1, maximumFractionDigits: 1 });

// How many waits each bar has, of all groups together.
function countsOfBars(stacks, bars, groups) {
  return Array.from({ length: bars }, (_, bar) =>
    stacks.subarray(bar * groups, (bar + 1) * groups).reduce((sum, count) => sum + count, 0),
  );
}

function legendOfSide({ title }, at, isCurve) {
  const form = isCurve || state.sides.length === 1 ? "" : [" (wide)", " (narrow)"][at];
  return element("span", {}, element("i", { class: `swatch side-${at}` }), title + form);
}

function legendOfGroup(code) {
  const swatch = element("i", { class: "swatch" });
  swatch.style.background = groupColour(code);
  const attributes = { "aria-pressed": state.group === code, title: "only this, or all" };
  const button = element("button", attributes, swatch, state.groups.title(code));
  button.addEventListener("click", () => choose(state.bar, state.group === code ? null : code));
  return button;
}
