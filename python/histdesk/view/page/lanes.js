// One wait: what ran on each CPU from a bit before it began to a bit after it ended, who woke the task, and all that in words.

import { Asker } from "./asker.js";
import { clear, colour, drawTimes, fill, hatch, line, rem, within, write } from "./canvas.js";
import { byId, element, speak, tip } from "./elements.js";
import { duration, number } from "./numbers.js";
import { SAVED, sceneOf } from "./source.js";
import { addPanel, after, redraw, state } from "./state.js";
import { TimeAxis } from "./time_axis.js";

// What began a wait of a kind, after the name of who did it.
const BEGINNINGS = { woken: "woke it", new: "forked it", preempted: "ran in its place" };

export const lanes = {
  // The wait that was answered last, and what the server says of it; null if that is nothing.
  answered: null,
  scene: null,
  // What is drawn where, for the pointer.
  boxes: [],
  // How many CPUs are skipped, and how many a key skips.
  skip: 0,
  step: 1,

  start() {
    addPanel("wait", this);
    this.canvas = byId("lanes");
    this.axis = new TimeAxis(this, this.canvas);
    this.asker = new Asker("what ran during this wait", ["wait"], (wait) => this.explain(wait));
    this.moreAsker = new Asker("more of what ran", ["wait"], () => this.askMore());
    after("wait", () => {
      byId("wait-empty").textContent = "";
      this.asker.ask(state.wait);
    });
  },

  changed() {
    redraw("wait");
    if (this.scene && !SAVED) this.moreAsker.ask();
  },

  // Shows what ran during a wait; if there is no answer, nothing, since what was shown is about another wait.
  async explain(wait) {
    try {
      this.show(wait, await sceneOf(wait));
    } catch (error) {
      this.setScene(null, null, "");
      byId("view-title").textContent = "";
      throw error;
    }
  },

  setScene(wait, scene, whyNone) {
    Object.assign(this, { answered: wait, scene });
    for (const id of ["lanes", "wait-text"]) byId(id).hidden = !scene;
    Object.assign(byId("wait-empty"), { hidden: Boolean(scene), textContent: whyNone });
  },

  show(wait, { refused, ...scene }) {
    this.setScene(wait, refused ? null : { ...scene, wait }, refused || "");
    redraw("wait");
    this.moreAsker.set({ error: null });
    speak(this.scene ? this.title() : refused);
    if (!this.scene) return;
    const { first, last } = state.recordings[wait.recording].about;
    this.axis.set(...[first, last, scene.from, scene.until].map((at) => at - scene.begin));
    const [reasons, steps] = scene.text.split("\n\n");
    const lines = reasons.split("\n").map((text) => element("p", {}, text));
    const note = element("p", { id: "wait-note" });
    byId("wait-text").replaceChildren(...lines, note, element("pre", {}, outdent(steps)), tableOf(scene));
    this.canvas.setAttribute("aria-label", `what ran on each CPU. ${reasons}`);
  },

  // Asks for what ran before and after, if that is in sight and not there yet; and for more of what is thinned, if less than
  // half of it is in sight.
  async askMore() {
    const { scene, axis } = this;
    if (!scene) return;
    const [from, until] = [axis.low, axis.high].map((at) => scene.begin + at);
    const isInside = from >= scene.from && until <= scene.until;
    const isOutside = !isInside && !scene.cut;
    const isCoarse = isInside && scene.thin && 2 * axis.span < scene.until - scene.from;
    if (!isOutside && !isCoarse) return;
    const { first, last } = state.recordings[scene.wait.recording].about;
    const margin = axis.span / 4;
    const window = {
      from: Math.max(Math.floor(from - margin), first),
      until: Math.min(Math.ceil(until + margin), last),
    };
    const more = await sceneOf(scene.wait, window);
    if (this.scene !== scene || more.refused) return;
    this.scene = { ...more, wait: scene.wait };
    redraw("wait");
  },

  // Shows the next CPUs, if there is no room for all.
  next() {
    this.skip += this.step;
    redraw("wait");
  },

  // The CPUs for which there is room: those of the wait come first, and others may be skipped, round and round.
  lanesInSight() {
    const { cpus, who, wait } = this.scene;
    const room = Math.max(Math.floor(this.height / (0.9 * rem())), 1);
    if (cpus.length <= room) return cpus;
    const isOfWait = ({ cpu }) => cpu === wait.cpu || cpu === who?.cpu;
    const others = cpus.filter((one) => !isOfWait(one));
    const at = this.skip % Math.max(others.length, 1);
    return [...cpus.filter(isOfWait), ...others.slice(at), ...others.slice(0, at)].slice(0, room);
  },

  draw() {
    byId("view-title").textContent = "";
    if (state.wait && this.answered !== state.wait && !this.asker.isBusy) this.asker.ask(state.wait);
    if (!this.scene) return;
    const { context, width, height } = clear(this.canvas);
    const { scene, axis } = this;
    const unit = rem();
    Object.assign(axis, { left: 4 * unit, width: width - 5 * unit });
    Object.assign(this, { top: 1.7 * unit, height: height - 5.2 * unit, boxes: [] });
    const cpus = this.lanesInSight();
    const left = scene.cpus.length - cpus.length;
    Object.assign(this, { tall: this.height / cpus.length, step: Math.max(cpus.length - 2, 1) });
    within(context, axis.left, 0, axis.width, height, () => {
      cpus.forEach((lane, at) => this.lane(context, lane, this.top + at * this.tall));
      this.bounds(context, cpus);
    });
    this.axes(context, cpus, unit);
    if (left) {
      const y = this.top + this.height + 3.1 * unit;
      write(context, `${left} more CPUs: n`, axis.left + axis.width, y, "right");
    }
    byId("view-title").textContent = this.title();
    byId("wait-note").textContent = this.note();
  },

  title() {
    const { wait, begin, end } = this.scene;
    return `${wait.task} ${wait.pid} waited ${number(end - begin)} µs for CPU ${wait.cpu}`;
  },

  // What the picture leaves out.
  note() {
    const { wait, cut, thin, cpus } = this.scene;
    const { about } = state.recordings[wait.recording];
    const notes = [];
    if (wait.strikes.length) notes.push("This is the wait without the struck events.");
    if (cpus.length < about.cpus.length) notes.push("The wait is so long that only its own CPUs are shown.");
    if (cut) notes.push("Only the time around the wait is shown: there are too many events.");
    if (thin) notes.push(`Grey stands for many short runs${SAVED ? "" : ": zoom in to see them"}.`);
    return notes.join(" ");
  },

  // What ran on a CPU.
  lane(context, { cpu, stretches }, top) {
    const { scene, axis } = this;
    const right = axis.left + axis.width;
    const high = this.tall - Math.min(4, this.tall / 4);
    const x = (at) => axis.x(at - scene.begin);
    fill(context, "lane", axis.left, top, axis.width, high);
    for (const stretch of stretches) {
      const from = Math.max(x(stretch.begin), axis.left);
      const wide = Math.min(x(stretch.end), right) - from;
      if (wide < 0) continue;
      this.boxes.push({ from, until: from + Math.max(wide, 2), top, bottom: top + high, cpu, stretch });
      if (stretch.count) this.many(context, stretch, from, wide, top, high);
      else if (stretch.lost) hatch(context, from, top, wide, high);
      else if (stretch.pid !== 0) this.stretch(context, stretch, from, wide, top, high);
    }
    for (const { after: last, before } of scene.holes.filter((hole) => hole.cpu === cpu)) {
      const from = last === null ? axis.left : x(last);
      const until = before === null ? right : x(before);
      hatch(context, from, top, until - from, high);
    }
  },

  // Stretches that were put together, as high as the share of time in which the CPU was busy.
  many(context, { begin, end, busy, lost }, x, wide, top, high) {
    const tall = (high * busy) / Math.max(end - begin, 1);
    fill(context, "many", x, top + high - tall, Math.max(wide, 1), tall);
    if (lost) hatch(context, x, top, Math.max(wide, 1), high);
  },

  // A stretch in which one task ran, with its name if there is room.
  stretch(context, { pid, task }, x, wide, top, high) {
    const { wait, who } = this.scene;
    const isTask = pid === wait.pid;
    const isWaker = pid === who?.pid;
    const name = isTask ? "side-1" : isWaker ? "side-0" : `task-${Math.abs(pid) % 4}`;
    fill(context, name, x, top, Math.max(wide - 1, 1), high);
    if (wide < 2 * rem() || high < 0.8 * rem()) return;
    within(context, x, top, wide - 3, high, () => {
      write(context, task, x + 4, top + high / 2, "left", isTask || isWaker ? "on-side" : "text");
    });
  },

  // When the wait begins and ends, and a line from the CPU where the task was woken to that where it ran; all else is paler.
  bounds(context, cpus) {
    const { scene, axis, top, height } = this;
    const [from, until] = [axis.x(0), axis.x(scene.end - scene.begin)];
    const right = axis.left + axis.width;
    const bottom = top + height;
    fill(context, "veil", axis.left, top, from - axis.left, height);
    fill(context, "veil", until, top, right - until, height);
    Object.assign(context, { strokeStyle: colour("text"), lineWidth: 1.5 });
    for (const x of [from, until]) line(context, x, top - 6, x, bottom);
    line(context, from, top - 6, until, top - 6);
    const middle = Math.min(Math.max((from + until) / 2, axis.left + 5 * rem()), right - 5 * rem());
    write(context, `waited ${duration(scene.end - scene.begin)}`, middle, top - 1.05 * rem(), "center", "text");
    const y = (cpu) => top + (cpus.findIndex((lane) => lane.cpu === cpu) + 0.78) * this.tall;
    const start = [from, y(scene.who?.cpu ?? scene.wait.from)];
    const end = [until, y(scene.wait.cpu)];
    context.setLineDash([5, 4]);
    line(context, ...start, ...end);
    context.setLineDash([]);
    for (const [x, middle] of [start, end]) context.fillRect(x - 4, middle - 4, 8, 8);
  },

  axes(context, cpus, unit) {
    const { axis, scene, top, height } = this;
    const { wait, who } = scene;
    const bottom = top + height;
    context.strokeStyle = colour("grid");
    cpus.forEach(({ cpu }, at) => {
      write(context, `CPU ${cpu}`, axis.left - 6, top + (at + 0.45) * this.tall, "right");
    });
    drawTimes(context, axis, bottom);
    const by = who?.context && who.context !== "task" ? `${who.context} upon ${who.task}` : who?.task;
    const began = BEGINNINGS[wait.kind] || "began it";
    write(context, who ? `■ ${by} ${began} at 0 µs` : "", axis.left, bottom + 2.1 * unit, "left", "text-0");
    write(context, `■ ${wait.task}, which waits`, axis.left, bottom + 3.1 * unit, "left", "text-1");
  },

  point(event) {
    const { offsetX: x, offsetY: y } = event;
    const isBelow = (box) => x >= box.from && x < box.until && y >= box.top && y < box.bottom;
    const box = event.buttons ? undefined : this.boxes.findLast(isBelow);
    return box ? tip(event, ...this.describe(box)) : tip(event);
  },

  // A stretch, or several that were put together, in words.
  describe({ cpu, stretch }) {
    const { task, pid, prio, begin, end, state: left, lost, count, busy } = stretch;
    const [from, until] = [begin, end].map((at) => number(at - this.scene.begin));
    const lines = [`CPU ${cpu}: ${number(end - begin)} µs, from ${from} to ${until} µs`];
    if (left) lines.push(`left in state ${left}`);
    if (count) return [`${number(count)} runs, busy for ${number(busy)} µs`, ...lines];
    if (lost) return ["not known: events were lost", ...lines];
    if (!pid) return ["idle", ...lines];
    return [`${task} ${pid}${prio === null ? "" : `, prio ${prio}`}`, ...lines];
  },
};

// Lines without the blanks that all of them begin with.
const outdent = (text) => text.replaceAll(/^ +/gm, "");

// Who ran on the CPU of the wait meanwhile, and how long.
function tableOf({ cpu, shares, begin, end }) {
  const head = element("tr", {});
  head.append(element("th", {}, `on CPU ${cpu}`));
  for (const title of ["prio", "µs", "%", "runs"]) head.append(element("th", { class: "n" }, title));
  const rows = shares.map(({ task, pid, prio, micros, runs }) => {
    const name = pid === null ? "not known" : pid ? `${task} ${pid}` : "idle";
    const figures = [number(prio), number(micros), Math.round((100 * micros) / Math.max(end - begin, 1)), number(runs)];
    return element("tr", {}, element("td", {}, name), ...figures.map((text) => element("td", { class: "n" }, text)));
  });
  const table = element("table", {}, element("thead", {}, head), element("tbody", {}, ...rows));
  return element("div", { class: "scrolls" }, table);
}
