// Waits over time: each is a point at the time when it ended, higher if it was longer; or shades show how many lie together.

import { clear, colour, drawTimes, groupColour, hatch, line, rem, within, write } from "./canvas.js";
import { byId, speak, tip } from "./elements.js";
import { duration, plural, short, stamp } from "./numbers.js";
import { addPanel, after, chooseWait, redraw, side, state } from "./state.js";
import { LONG } from "./summary.js";
import { TimeAxis } from "./time_axis.js";

// If there are more waits than this in sight, shades are drawn.
const POINTS = 8000;
const SHADES = 9;
// How high a point is, by its microseconds.
const LOGS = Float64Array.from({ length: LONG }, (_, micros) => Math.log10(micros + 1));
const logOf = (micros) => (micros < LONG ? LOGS[micros] : Math.log10(micros + 1));
// Keys go from column to column, each of this many pixels, and within a column from wait to wait.
const COLUMN = 8;
// The fractional part of the golden ratio strews numbers evenly.
const STREW = 0.618;

export const overTime = {
  // The number of the wait that keys have gone to; null is none.
  cursor: null,

  start() {
    addPanel("time", this);
    for (const change of ["counts", "choice"]) after(change, () => this.moveTo(null));
    this.canvas = byId("time-points");
    this.axis = new TimeAxis(this, this.canvas);
    this.canvas.addEventListener("click", (event) => this.axis.isMoved || chooseWait(this.nearest(event)));
  },

  changed() {
    redraw("time");
  },

  draw() {
    const { context, width, height } = clear(this.canvas);
    const unit = rem();
    const { axis } = this;
    const { about, order } = side();
    if (this.about !== about) axis.set(0, about.last - about.first);
    Object.assign(axis, { left: 3.6 * unit, width: width - 5 * unit });
    Object.assign(this, { about, top: 1.6 * unit, height: height - 4.1 * unit });
    this.logs = Math.log10(Math.max(side().longestOfAll(), 9) + 2);
    this.axes(context, unit);
    const count = this.count();
    within(context, axis.left - unit / 3, 0, axis.width + unit / 1.5, height, () => {
      this.holes(context);
      if (count > POINTS) this.density(context, unit);
      else this.points(context, count);
      this.frames(context, unit);
    });
    const [from, until] = [axis.low, axis.high].map((at) => stamp(about.first + at));
    byId("view-title").textContent = `${plural(count, "wait")} from ${from} to ${until}`;
    if (count) return;
    const why = order.length ? "No wait is here: zoom out, or change the filter." : "This recording has no wait.";
    write(context, why, axis.left + axis.width / 2, this.top + this.height / 2, "center");
  },

  y(micros) {
    return this.top + this.height * (1 - logOf(micros) / this.logs);
  },

  axes(context, unit) {
    const { axis, top, height, about } = this;
    const bottom = top + height;
    Object.assign(context, { strokeStyle: colour("grid"), lineWidth: 1 });
    for (let micros = 1; micros < 10 ** this.logs; micros *= 10) {
      line(context, axis.left, this.y(micros), axis.left + axis.width, this.y(micros));
      write(context, duration(micros), axis.left - 6, this.y(micros), "right");
    }
    drawTimes(context, axis, bottom);
    const title = `when it ended, since ${stamp(about.first)}`;
    write(context, title, axis.left + axis.width / 2, bottom + 2.1 * unit, "center");
    write(context, "how long", 6, 0.6 * unit, "left");
  },

  // Where events were lost, from top to bottom: that makes waits of all CPUs doubtful.
  holes(context) {
    const { about, axis } = this;
    for (const { after, before } of about.holes) {
      const [from, until] = [after ?? about.first, before ?? about.last].map((at) => axis.x(at - about.first));
      hatch(context, from, this.top, Math.max(until - from, 2), this.height);
    }
  },

  // Frames around the wait that is explained, and around the one that keys have gone to.
  frames(context, unit) {
    const { wait } = state;
    if (wait?.recording === side().recording) this.frame(context, wait.end, wait.micros, unit, "text");
    if (this.cursor === null) return;
    this.frame(context, side().end(this.cursor), side().value("micros", this.cursor), 1.4 * unit, "accent");
  },

  frame(context, end, micros, size, name) {
    Object.assign(context, { lineWidth: 2, strokeStyle: colour(name) });
    context.strokeRect(this.axis.x(end) - size / 2, this.y(micros) - size / 2, size, size);
  },

  // Calls a function for each wait in sight, with its part, its index, when it ended, and its number.
  each(work) {
    const { low, high } = this.axis;
    const { group } = state;
    const one = side();
    one.parts.forEach((part, at) => {
      const first = at * one.parts[0].count;
      for (let index = 0; index < part.count; index++) {
        const end = part.begin[index] + part.micros[index];
        if (end < low || end > high || !one.has(part, index)) continue;
        if (group === null || part.codes[index] === group) work(part, index, end, first + index);
      }
    });
  },

  // Counts the waits in sight, and those in each cell of a few pixels. Waits with the same number of microseconds are strewn
  // up to the next number, since any of these may be meant.
  count() {
    const { axis, height, logs } = this;
    this.size = Math.max(Math.round(rem() / 6.5), 2);
    const across = axis.width / axis.span / this.size;
    this.columns = Math.ceil(axis.width / this.size) + 1;
    this.cells = new Uint32Array(this.columns * (Math.ceil(height / this.size) + 1));
    let count = 0;
    this.each((part, index, end) => {
      const micros = part.micros[index];
      const low = logOf(micros);
      const log = low + (logOf(micros + 1) - low) * ((index * STREW) % 1);
      const row = Math.floor(((1 - log / logs) * height) / this.size);
      this.cells[row * this.columns + Math.floor((end - axis.low) * across)]++;
      count++;
    });
    return count;
  },

  density(context, unit) {
    const { axis, cells, columns, size, top } = this;
    const most = cells.reduce((greatest, count) => Math.max(greatest, count), 1);
    const shades = Array.from({ length: SHADES }, (_, at) => colour(`density-${at}`));
    const rows = cells.length / columns;
    const canvas = new OffscreenCanvas(columns, rows);
    const image = new ImageData(columns, rows);
    const pixels = new Uint32Array(image.data.buffer);
    const numbers = shades.map(pixelOf);
    const scale = SHADES / Math.log(most + 1);
    cells.forEach((count, cell) => {
      if (count) pixels[cell] = numbers[Math.floor(Math.log(count) * scale)];
    });
    canvas.getContext("2d").putImageData(image, 0, 0);
    context.imageSmoothingEnabled = false;
    context.drawImage(canvas, axis.left, top, size * columns, size * rows);
    const right = axis.left + axis.width - 3 * unit;
    shades.forEach((shade, at) => {
      context.fillStyle = shade;
      context.fillRect(right - (SHADES - at) * unit, 0.2 * unit, unit, 0.8 * unit);
    });
    // A narrow picture has no room for more beside its title.
    const label = right > 26 * unit ? "waits at one place: 1" : "1";
    write(context, label, right - (SHADES + 0.4) * unit, 0.6 * unit, "right");
    write(context, short(most), right + 0.4 * unit, 0.6 * unit, "left");
  },

  points(context, count) {
    const size = rem() / (count < 1000 ? 2.5 : 5);
    this.each((part, index, end) => {
      const x = this.axis.x(end) - size / 2;
      const y = this.y(part.micros[index]) - size / 2;
      context.fillStyle = context.strokeStyle = groupColour(part.codes[index]);
      if (part.doubtful[index]) context.strokeRect(x, y, size, size);
      else context.fillRect(x, y, size, size);
    });
  },

  // The number of the wait nearest to the pointer; null if none is near.
  nearest(event) {
    let nearest = null;
    let distance = rem() ** 2;
    this.each((part, index, end, wait) => {
      const away = (this.axis.x(end) - event.offsetX) ** 2 + (this.y(part.micros[index]) - event.offsetY) ** 2;
      if (away < distance) [nearest, distance] = [wait, away];
    });
    return nearest;
  },

  point(event) {
    const wait = event.buttons ? null : this.nearest(event);
    this.canvas.style.cursor = wait === null ? "" : "pointer";
    if (wait === null) return tip(event);
    return tip(event, ...this.describe(wait), "click: what ran meanwhile");
  },

  // What a key does here; undefined if nothing.
  key({ key, shiftKey }) {
    if (shiftKey) return undefined;
    if (key === "Enter" || key === " ") return () => chooseWait(this.cursor);
    const across = { ArrowLeft: -1, ArrowRight: 1 }[key];
    const up = { ArrowUp: 1, ArrowDown: -1 }[key];
    if (across) return () => this.moveTo(this.beside(across));
    return up && (() => this.moveTo(this.above(up)));
  },

  moveTo(wait) {
    if (this.cursor === wait) return;
    this.cursor = wait;
    redraw("time");
    if (wait !== null) speak(this.describe(wait).join(" "));
  },

  column(end) {
    return Math.floor((this.axis.x(end) - this.axis.left) / COLUMN);
  },

  // The column of the wait that keys have gone to; null if that is not in sight.
  cursorColumn() {
    if (this.cursor === null) return null;
    const end = side().end(this.cursor);
    return end < this.axis.low || end > this.axis.high ? null : this.column(end);
  },

  // The longest wait of the next column that has any, to the left or to the right; if the keys are in no column in sight, the
  // search begins at the edge.
  beside(step) {
    const start = this.cursorColumn() ?? (step < 0 ? Infinity : -1);
    let best = null;
    this.each((part, index, end, wait) => {
      const column = this.column(end);
      if ((column - start) * step <= 0) return;
      const micros = part.micros[index];
      const distance = best ? (best.column - column) * step : 1;
      if (distance > 0 || (distance === 0 && micros > best.micros)) best = { column, micros, wait };
    });
    return best ? best.wait : this.cursor;
  },

  // The next longer or shorter wait of the same column; if the keys are in no column in sight, the longest wait in sight.
  above(step) {
    const start = this.cursorColumn();
    const micros = start === null ? Infinity : side().value("micros", this.cursor);
    let best = null;
    this.each((part, index, end, wait) => {
      const length = part.micros[index];
      if (start !== null && this.column(end) !== start) return;
      // Waits of the same length are in the order of their numbers.
      const isBeyond = start === null || isAfter(length, wait, micros, this.cursor, step);
      if (!isBeyond) return;
      const isNearer = !best || isAfter(best.length, best.wait, length, wait, start === null ? -1 : step);
      if (isNearer) best = { length, wait };
    });
    return best ? best.wait : this.cursor;
  },

  // A wait in words.
  describe(wait) {
    const value = (column) => side().value(column, wait);
    const length = `waited ${duration(value("micros"))} for CPU ${value("endCpu")}`;
    return [`${side().task(wait)} ${value("pid")}`, length];
  },
};

// A colour as a pixel of an image: red in the first byte, opaque.
function pixelOf(shade) {
  const [red, green, blue] = shade.match(/\d+/g).map(Number);
  return new Uint32Array(new Uint8Array([red, green, blue, 255]).buffer)[0];
}

// Whether a wait comes after another one if they go upwards, or downwards if the step is -1.
function isAfter(length, wait, otherLength, otherWait, step) {
  return (length - otherLength || wait - otherWait) * step > 0;
}
