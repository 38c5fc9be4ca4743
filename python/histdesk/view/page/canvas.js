// Drawing on canvases, with the sizes and colours of the style sheet.

import { byId } from "./elements.js";
import { durations, ticks } from "./numbers.js";

// How many groups of waits have a colour of their own; all others share one.
export const COLOURS = 6;

// What the style sheet says, asked once for all that is drawn.
let styles = {};
export const forgetStyles = () => {
  styles = {};
};
export const rem = () => (styles.size ??= parseFloat(getComputedStyle(document.documentElement).fontSize));
export const colour = (name) => (styles[name] ??= resolveColour(name));
export const groupColour = (code) => colour(code < COLOURS ? `group-${code}` : "group-other");

// A colour of the style sheet as red, green and blue: a canvas does not know variables.
function resolveColour(name) {
  const probe = byId("probe");
  probe.style.color = `var(--${name})`;
  return getComputedStyle(probe).color;
}

// The parts of a colour: red, green and blue.
export const rgb = (shade) => shade.match(/\d+/g).map(Number);

// An empty canvas as sharp as the screen: its context, and its size in pixels of the page.
export function clear(canvas) {
  const ratio = window.devicePixelRatio || 1;
  const { clientWidth: width, clientHeight: height } = canvas;
  const context = canvas.getContext("2d");
  const [across, down] = [width, height].map((size) => Math.round(size * ratio));
  if (canvas.width !== across || canvas.height !== down) Object.assign(canvas, { width: across, height: down });
  context.reset();
  context.scale(ratio, ratio);
  const family = (styles.family ??= getComputedStyle(document.body).fontFamily);
  Object.assign(context, { font: `${rem() * 0.85}px ${family}`, textBaseline: "middle" });
  return { context, width, height };
}

export function fill(context, name, ...area) {
  context.fillStyle = colour(name);
  context.fillRect(...area);
}

export function line(context, x1, y1, x2, y2) {
  context.stroke(new Path2D(`M${x1} ${y1} L${x2} ${y2}`));
}

export function write(context, text, x, y, textAlign, name = "quiet") {
  Object.assign(context, { fillStyle: colour(name), textAlign });
  context.fillText(text, x, y);
}

// Draws only within a rectangle.
export function within(context, x, y, width, height, draw) {
  context.save();
  context.beginPath();
  context.rect(x, y, width, height);
  context.clip();
  draw();
  context.restore();
}

// Fills a rectangle with the stripes that mean lost or doubtful.
export function hatch(context, x, y, width, height) {
  within(context, x, y, width, height, () => {
    Object.assign(context, { strokeStyle: colour("hatch"), lineWidth: 1.5 });
    const first = x - height - ((x - height) % 6);
    for (let at = first; at < x + width; at += 6) line(context, at, y + height, at + height, y);
  });
}

// The marks of a time axis below its picture, with the time at each.
export function drawTimes(context, axis, bottom) {
  const times = ticks(axis.low, axis.high, Math.floor(axis.width / (6 * rem())));
  const texts = durations(times);
  times.forEach((at, number) => {
    line(context, axis.x(at), bottom, axis.x(at), bottom + 4);
    write(context, texts[number], axis.x(at), bottom + 1.1 * rem(), "center");
  });
}
