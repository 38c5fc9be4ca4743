// All CPUs over time: what each ran, where it idled though a task waited for a processor, and how many tasks waited.

import { Asker } from "./asker.js";
import { clear, colour, drawTimes, fill, hatch, line, rem, rgb, within, write } from "./canvas.js";
import { byId, element, report, speak, tip } from "./elements.js";
import { duration, number, plural, stamp } from "./numbers.js";
import { IDLE, Overview, WHOLE } from "./overview.js";
import { overviewOf, SAVED } from "./source.js";
import { addPanel, after, chooseWait, openTab, redraw, side, state } from "./state.js";
import { TimeAxis } from "./time_axis.js";

// How many colours tasks have; each task has the same one everywhere and at all times.
const COLOURS = 12;
// How many pixels a lane has at least, and how many parts are asked for at most.
const LEAST = 1.5;
const WIDEST = 4096;
// A run that has fewer pixels than this is drawn with the part in which it lies.
const THIN = 1.5;
// How many tasks are in the legend at most.
const NAMES = 6;
// A click where many runs lie zooms in by this factor.
const CLOSER = 0.2;
// PIDs are multiplied by this number, so that those that follow one another get different colours.
const STREW = 0x9e3779b1;

// The number of a task's colour.
const colourNumber = (pid) => (Math.imul(pid, STREW) >>> 8) % COLOURS;

export const timeline = {
  // The server's last answer, the question that was asked last, and the pictures that are made of the answer.
  overview: null,
  question: "",
  pictures: null,
  // How many CPUs are skipped.
  skip: 0,

  start() {
    addPanel("timeline", this);
    this.canvas = byId("timeline-lanes");
    this.axis = new TimeAxis(this, this.canvas);
    this.canvas.addEventListener("click", (event) => this.axis.isMoved || this.click(event));
    byId("wait-place").addEventListener("click", () => this.goToWait());
    // The table takes its room from the picture.
    byId("timeline-list").addEventListener("toggle", () => redraw("timeline"));
    for (const change of ["question", "wait"]) after(change, () => this.showButton());
    const work = async (question) => this.take(question, await overviewOf(question));
    this.asker = new Asker("what each CPU ran", ["timeline"], work);
  },

  changed() {
    redraw("timeline");
  },

  colourOf: (pid) => colour(`run-${colourNumber(pid)}`),

  // Takes an answer over, if it is still about the recording that is shown.
  take({ recording, from, until }, answer) {
    if (recording !== side().recording) return;
    this.overview = new Overview(answer, side().about.first);
    this.pictures = null;
    const { busy, waited } = this.overview.shares();
    const what = `${percent(busy)} busy, ${percent(waited)} idle though a task waited`;
    // What doesn't fit is cut off, so the shares come first.
    this.title = `${what}: ${plural(this.overview.cpus.length, "CPU")} from ${stamp(from)} to ${stamp(until)}`;
    this.list();
    this.drawLegend();
    this.canvas.setAttribute("aria-label", `${this.title}. Enter explains the longest wait in sight.`);
    if (document.activeElement === this.canvas) speak(this.title);
    redraw("timeline");
  },

  // Asks for what is in sight, unless that was asked for last and was answered, or will be. A saved page has one answer.
  update() {
    const { about, recording } = side();
    const { axis } = this;
    const width = Math.min(Math.round(axis.width * (window.devicePixelRatio || 1)), WIDEST);
    const [from, until] = SAVED ? [about.first, about.last] : [axis.low, axis.high].map((at) => about.first + Math.round(at));
    const question = { recording, from, until: Math.max(until, from + 1), width: SAVED ? 0 : Math.max(width, 1) };
    if (this.question === JSON.stringify(question) && !this.asker.error) return;
    this.question = JSON.stringify(question);
    this.asker.ask(question);
  },

  draw() {
    const { context, width, height } = clear(this.canvas);
    const unit = rem();
    const { axis } = this;
    const { about } = side();
    if (this.about !== about) {
      Object.assign(this, { about, overview: null, question: "" });
      axis.set(0, (about.last ?? 0) - (about.first ?? 0));
    }
    Object.assign(axis, { left: 3.6 * unit, width: Math.max(width - 4.6 * unit, 1) });
    // Lanes, then how many tasks waited, then times.
    const queue = Math.min(3 * unit, height / 5);
    Object.assign(this, { top: 0.3 * unit, height: height - queue - 2.6 * unit, queue });
    if (about.first === null) return write(context, "This recording has no event.", width / 2, height / 2, "center");
    this.update();
    byId("view-title").textContent = this.overview ? this.title + this.remark() : "";
    if (this.overview?.width) this.drawAll(context, unit);
    context.strokeStyle = colour("grid");
    return drawTimes(context, axis, height - 1.7 * unit);
  },

  // What a saved page does not have.
  remark() {
    const { axis, overview } = this;
    const isCoarse = SAVED && (overview.width * axis.span) / (axis.most - axis.least) < axis.width / 4;
    return isCoarse ? `; this file has ${number(overview.width)} parts only, and ${SAVED.about.command} has all` : "";
  },

  drawAll(context, unit) {
    const { axis, overview, top } = this;
    const rows = this.rows();
    this.pictures ??= picturesOf(overview);
    // Another palette has other colours.
    if (this.pictures.palette !== paletteName()) this.pictures = picturesOf(overview);
    within(context, axis.left, 0, axis.width, this.canvas.clientHeight, () => {
      rows.forEach((lane, row) => this.lane(context, lane, top + row * this.tall));
      this.drawQueue(context);
      this.drawWait(context, rows);
    });
    this.labels(context, rows, unit);
  },

  // The lanes in sight, by their index. If there is no room for all, some are skipped, in turn.
  rows() {
    const count = this.overview.cpus.length;
    const room = Math.max(Math.floor(this.height / LEAST), 1);
    this.step = room;
    const first = count > room ? Math.min(this.skip % (Math.ceil(count / room) * room), count - 1) : 0;
    const rows = Array.from({ length: Math.min(room, count - first) }, (_, row) => first + row);
    this.tall = Math.min(this.height / rows.length, 3 * rem());
    return rows;
  },

  next() {
    this.skip += this.step;
    redraw("timeline");
  },

  lane(context, lane, top) {
    const { axis, overview, pictures } = this;
    const high = this.tall - (this.tall > 6 ? 2 : this.tall > 3 ? 1 : 0);
    const [from, until] = [axis.x(overview.low), axis.x(overview.high)];
    const place = [0, lane, overview.width, 1, from, top, until - from, high];
    context.imageSmoothingEnabled = false;
    context.drawImage(pictures.runs, ...place);
    for (let run = overview.starts[lane]; run < overview.starts[lane + 1]; run++) this.run(context, run, top, high);
    this.drawUnknown(context, lane, top, high);
    // Where it idled though a task waited, a band along the lane's lower edge.
    const band = Math.max(high * 0.35, Math.min(high, 2));
    context.drawImage(pictures.marks, ...place.slice(0, 5), top + high - band, until - from, band);
  },

  run(context, run, top, high) {
    const { begin, end, task } = this.overview.runs;
    const { axis } = this;
    const from = Math.max(axis.x(begin[run]), axis.left);
    const wide = Math.min(axis.x(end[run]), axis.left + axis.width) - from;
    if (wide < THIN) return;
    const { pid, name } = this.overview.tasks[task[run]];
    context.fillStyle = this.colourOf(pid);
    context.fillRect(from, top, wide > 4 ? wide - 1 : wide, high);
    if (wide < 2.5 * rem() || high < 0.9 * rem()) return;
    within(context, from, top, wide - 3, high, () => write(context, name, from + 4, top + high / 2, "left", "text"));
  },

  // Stripes where it is not known what ran.
  drawUnknown(context, lane, top, high) {
    const { axis, overview } = this;
    const { unknown, width } = overview;
    for (let part = 0; part < width; part++) {
      if (unknown[lane * width + part] < WHOLE / 2) continue;
      const first = part;
      while (part < width && unknown[lane * width + part] >= WHOLE / 2) part++;
      const from = Math.max(axis.x(overview.timeOf(first)), axis.left);
      const until = Math.min(axis.x(overview.timeOf(part)), axis.left + axis.width);
      if (until > from) hatch(context, from, top, until - from, high);
    }
  },

  // How many tasks waited: an area for the mean of each part, and a line for the most at once.
  drawQueue(context) {
    const { axis, overview } = this;
    const greatest = Math.max(this.greatest(), 1);
    const bottom = this.top + this.height + 0.6 * rem() + this.queue;
    const y = (count) => bottom - (count / greatest) * this.queue;
    const area = new Path2D(`M${axis.x(overview.low)} ${bottom}`);
    const edge = new Path2D();
    for (let part = 0; part < overview.width; part++) {
      const [from, until] = [part, part + 1].map((at) => axis.x(overview.timeOf(at)));
      area.lineTo(from, y(overview.mean[part]));
      area.lineTo(until, y(overview.mean[part]));
      if (part) edge.lineTo(from, y(overview.most[part]));
      else edge.moveTo(from, y(overview.most[part]));
      edge.lineTo(until, y(overview.most[part]));
    }
    area.lineTo(axis.x(overview.high), bottom);
    context.fillStyle = colour("side-0");
    context.fill(area);
    Object.assign(context, { strokeStyle: colour("text-1"), lineWidth: 1 });
    context.stroke(edge);
    this.bottom = bottom;
  },

  // The most tasks that waited at once in sight.
  greatest() {
    const { axis, overview } = this;
    const [first, last] = [axis.low, axis.high].map((time) => overview.partAt(time));
    return overview.most.subarray(first, last + 1).reduce((most, count) => Math.max(most, count), 0);
  },

  // A line from where and when the wait that is explained began to where and when it ended.
  drawWait(context, rows) {
    const { wait } = state;
    if (wait?.recording !== side().recording) return;
    const y = (cpu) => {
      const row = rows.findIndex((lane) => this.overview.cpus[lane] === cpu);
      return this.top + (row + 0.5) * this.tall;
    };
    const [from, until] = [wait.end - wait.micros, wait.end].map((time) => this.axis.x(time));
    Object.assign(context, { strokeStyle: colour("text"), fillStyle: colour("text"), lineWidth: 1.5 });
    context.setLineDash([5, 4]);
    line(context, from, y(wait.from), until, y(wait.cpu));
    context.setLineDash([]);
    for (const [x, cpu] of [[from, wait.from], [until, wait.cpu]]) context.fillRect(x - 3, y(cpu) - 3, 6, 6);
  },

  // The CPUs at the left, as many as there is room for, and what the lowest picture shows.
  labels(context, rows, unit) {
    const { axis, overview, tall, top } = this;
    const each = Math.ceil((0.95 * unit) / tall);
    rows.forEach((lane, row) => {
      if (row % each) return;
      const name = tall > 0.9 * unit ? `CPU ${overview.cpus[lane]}` : overview.cpus[lane];
      write(context, name, axis.left - 6, top + (row + 0.5) * tall, "right");
    });
    const middle = this.bottom - this.queue / 2;
    write(context, "waiting", axis.left - 6, middle + 0.5 * unit, "right");
    write(context, `≤ ${number(this.greatest())}`, axis.left - 6, middle - 0.5 * unit, "right");
    const left = overview.cpus.length - rows.length;
    if (left > 0) write(context, `${left} more CPUs: n`, axis.left + axis.width, top + this.height + 0.3 * unit, "right");
  },

  // What the colours mean, for the tasks that fill most parts in sight.
  drawLegend() {
    const swatch = (paint) => {
      const mark = element("i", { class: "swatch" });
      mark.style.background = paint;
      return mark;
    };
    const tasks = this.overview.greatestTasks(NAMES).map(({ pid, name }) => {
      return element("span", {}, swatch(`var(--run-${colourNumber(pid)})`), `${name} ${pid}`);
    });
    byId("timeline-tasks").replaceChildren(...tasks);
  },

  // The table of the worst stretches: a click on one goes there.
  list() {
    const { worst } = this.overview;
    const about = side().about;
    const row = ({ cpu, begin, end, micros, most }) => {
      const button = element("button", { title: "show it" }, stamp(about.first + begin));
      button.addEventListener("click", () => this.goTo(begin, end));
      const cells = [end - begin, micros, most].map((value) => element("td", { class: "n" }, number(value)));
      return element("tr", {}, element("td", {}, button), element("td", { class: "n" }, cpu), ...cells);
    };
    byId("timeline-worst").tBodies[0].replaceChildren(...worst.map(row));
    const count = worst.length ? `the ${plural(worst.length, "longest stretch").replace(/chs$/, "ches")} in sight` : "none in sight";
    byId("timeline-summary").textContent = `Idle though a task waited: ${count}`;
  },

  // Shows a stretch of time, and as much before it and after it.
  goTo(begin, end) {
    const span = Math.max(3 * (end - begin), 12);
    this.axis.go((begin + end - span) / 2, span);
  },

  goToWait() {
    const { wait } = state;
    openTab("timeline");
    // A tab that is opened for the first time knows nothing of the recording yet.
    this.draw();
    this.goTo(wait.end - wait.micros, wait.end);
    this.canvas.focus();
  },

  showButton() {
    byId("wait-place").hidden = !state.wait || byId("wait").hidden;
  },

  // ---- what is below the pointer

  // The lane's row and the time; null outside of the lanes.
  placeOf({ offsetX, offsetY }) {
    const { axis, overview, top } = this;
    if (!overview?.width) return null;
    const time = axis.timeAt(offsetX);
    if (time < Math.max(axis.low, overview.low) || time > Math.min(axis.high, overview.high)) return null;
    const rows = this.rows();
    const row = Math.floor((offsetY - top) / this.tall);
    return { time, lane: row >= 0 ? rows[row] : undefined, isQueue: offsetY > this.bottom - this.queue && offsetY <= this.bottom };
  },

  // The number of the wait that ended with the switch that began a run; null if none did.
  waitBefore(run) {
    const { lane, line: lines } = this.overview.runs;
    if (!lines[run]) return null;
    const cpu = this.overview.cpus[lane[run]];
    const { endCpu, endLine } = this.waits();
    for (let at = endLine.indexOf(lines[run]); at >= 0; at = endLine.indexOf(lines[run], at + 1)) {
      if (endCpu[at] === cpu) return at;
    }
    return null;
  },

  waits: () => state.recordings[side().recording].waits,

  // The longest wait that lasts at some time between two times; a doubtful one only if there is no other; null if none does.
  longestWait(low, high) {
    const { begin, count, doubtful, micros } = this.waits();
    let longest = null;
    for (let at = 0; at < count; at++) {
      if (begin[at] > high || begin[at] + micros[at] < low) continue;
      const isSurer = longest !== null && doubtful[at] !== doubtful[longest];
      if (longest === null || (isSurer ? doubtful[longest] : micros[at] > micros[longest])) longest = at;
    }
    return longest;
  },

  // The wait that a click explains; null if none.
  waitAt({ time, lane, isQueue }) {
    const { overview } = this;
    const size = this.axis.span / this.axis.width;
    if (isQueue) return this.longestWait(time - size, time + size);
    if (lane === undefined) return null;
    const run = overview.runAt(lane, time);
    if (run !== null) return this.waitBefore(run);
    const isMarked = overview.waited[lane * overview.width + overview.partAt(time)] > 0;
    return isMarked && this.isSingle(lane, time) ? this.longestWait(time - size, time + size) : null;
  },

  // Whether a part is all idle, or one run.
  isSingle(lane, time) {
    const { overview } = this;
    const cell = lane * overview.width + overview.partAt(time);
    return overview.runAt(lane, time) !== null || overview.idle[cell] === WHOLE || overview.task[cell] === IDLE;
  },

  click(event) {
    const place = this.placeOf(event);
    if (!place) return;
    const wait = this.waitAt(place);
    if (wait !== null) chooseWait(wait);
    else if (place.lane === undefined) return;
    else if (!this.isSingle(place.lane, place.time)) this.axis.zoom(CLOSER, place.time);
    else report("No wait that is known ended here.");
  },

  key({ key }) {
    return key === "Enter" ? () => chooseWait(this.longestWait(this.axis.low, this.axis.high)) : undefined;
  },

  point(event) {
    const place = event.buttons ? null : this.placeOf(event);
    this.canvas.style.cursor = "";
    if (!place || (place.lane === undefined && !place.isQueue)) return tip(event);
    const wait = this.waitAt(place);
    if (wait !== null) this.canvas.style.cursor = "pointer";
    const lines = place.isQueue ? this.describeQueue(place) : this.describeCell(place);
    return tip(event, ...lines, ...this.describeClick(place, wait));
  },

  describeQueue({ time }) {
    const part = this.overview.partAt(time);
    const mean = +this.overview.mean[part].toPrecision(3);
    return [`${number(this.overview.most[part])} tasks waited at most`, `${mean} on average, at ${duration(time)}`];
  },

  describeCell({ time, lane }) {
    const { overview } = this;
    const run = overview.runAt(lane, time);
    const cpu = `CPU ${overview.cpus[lane]}`;
    if (run !== null) {
      const { begin, end, task } = overview.runs;
      const { pid, name } = overview.tasks[task[run]];
      const from = stamp(side().about.first + begin[run]);
      return [`${name} ${pid}`, `${cpu}: ${number(end[run] - begin[run])} µs, from ${from} on`];
    }
    const cell = lane * overview.width + overview.partAt(time);
    const parts = [
      ["ran tasks", overview.busy(cell)],
      ["idle", overview.idle[cell]],
      ["idle though a task waited", overview.waited[cell]],
      ["not known: events were lost", overview.unknown[cell]],
    ];
    const lines = parts.filter(([, share]) => share).map(([what, share]) => `${percent(share / WHOLE)} ${what}`);
    const task = overview.tasks[overview.task[cell]];
    const longest = overview.task[cell] === IDLE ? [] : [`the longest run: ${task.name} ${task.pid}`];
    return [`${cpu} at ${duration(time)}`, ...lines, ...longest];
  },

  describeClick({ time, lane }, wait) {
    if (wait !== null) {
      const { micros } = this.waits();
      return [`waited ${duration(micros[wait])}: ${side().task(wait)} ${side().value("pid", wait)}`, "click: why"];
    }
    return lane === undefined || this.isSingle(lane, time) ? [] : ["click: closer"];
  },
};

const percent = (share) => `${share > 0 && share < 0.01 ? "< 1" : Math.round(share * 100)} %`;
const paletteName = () => colour("panel");

// Two pictures with a row for each CPU and a column for each part: what ran, and where a CPU idled though a task waited.
function picturesOf(overview) {
  const { cpus, task, tasks, unknown, waited, width } = overview;
  const runs = new ImageData(width, cpus.length);
  const marks = new ImageData(width, cpus.length);
  const [lane, lost, mark] = ["lane", "hatch", "wrong"].map((name) => rgb(colour(name)));
  const colours = tasks.map(({ pid }, at) => (at > 1 ? rgb(timeline.colourOf(pid)) : lane));
  for (let cell = 0; cell < task.length; cell++) {
    const busy = overview.busy(cell) / WHOLE;
    const gone = unknown[cell] / WHOLE / 2;
    const at = 4 * cell;
    for (let part = 0; part < 3; part++) {
      const base = lane[part] + (colours[task[cell]][part] - lane[part]) * busy;
      runs.data[at + part] = base + (lost[part] - base) * gone;
      marks.data[at + part] = mark[part];
    }
    runs.data[at + 3] = 255;
    // Any waiting at all can be seen.
    marks.data[at + 3] = waited[cell] && 40 + (waited[cell] * 215) / WHOLE;
  }
  return { palette: paletteName(), runs: canvasOf(runs), marks: canvasOf(marks) };
}

function canvasOf(image) {
  const canvas = new OffscreenCanvas(image.width, image.height);
  canvas.getContext("2d").putImageData(image, 0, 0);
  return canvas;
}
