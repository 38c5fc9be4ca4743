// An axis of time from left to right that the wheel, dragging and keys zoom and move, within all of a recording.

import { handleKey, tip } from "./elements.js";

// A pointer that moves by fewer pixels than this while it is pressed is a click.
const TREMBLE = 4;

export class TimeAxis {
  // `picture.changed()` draws the picture anew, `picture.point(event)` explains what is below the pointer, and
  // `picture.key(event)`, if there is one, returns what a key does that the picture itself handles.
  constructor(picture, canvas) {
    Object.assign(this, { picture, canvas, left: 0, width: 1, low: 0, high: 1, least: 0, most: 1, grip: null });
    canvas.addEventListener("wheel", (event) => this.wheel(event), { passive: false });
    canvas.addEventListener("pointerdown", (event) => this.grab(event));
    canvas.addEventListener("pointermove", (event) => {
      if (!this.drag(event)) picture.point(event);
    });
    canvas.addEventListener("pointerleave", (event) => tip(event));
    canvas.addEventListener("keydown", (event) => this.key(event));
  }

  // Sets what there is, and what part of it is in sight at first.
  set(least, most, low = least, high = most) {
    Object.assign(this, { least, most: Math.max(most, least + 1), low, high: Math.max(high, low + 1) });
    this.home = [low, this.high - low];
  }

  get span() {
    return this.high - this.low;
  }

  // Whether the pointer was dragged since it was last pressed: then its release is no click.
  get isMoved() {
    return Boolean(this.grip?.isMoved);
  }

  x(time) {
    return this.left + ((time - this.low) / this.span) * this.width;
  }

  timeAt(x) {
    return this.low + ((x - this.left) / this.width) * this.span;
  }

  zoom(factor, about = (this.low + this.high) / 2) {
    const span = Math.min(Math.max(this.span * factor, 4), this.most - this.least);
    this.go(about - ((about - this.low) / this.span) * span, span);
  }

  go(low, span) {
    this.low = Math.max(Math.min(low, this.most - span), this.least);
    this.high = this.low + span;
    this.picture.changed();
  }

  move(share) {
    this.go(this.low + share * this.span, this.span);
  }

  goHome() {
    this.go(...this.home);
  }

  wheel(event) {
    event.preventDefault();
    const across = event.shiftKey ? event.deltaY || event.deltaX : event.deltaX;
    if (event.shiftKey || Math.abs(across) > Math.abs(event.deltaY)) this.move(across / 1000);
    else this.zoom(1.0015 ** event.deltaY, this.timeAt(event.offsetX));
  }

  grab(event) {
    this.grip = { x: event.offsetX, low: this.low, isMoved: false };
    this.canvas.setPointerCapture(event.pointerId);
  }

  // Moves with the pointer if it is pressed; returns whether it did.
  drag(event) {
    const { grip } = this;
    if (!grip || !event.buttons || (!grip.isMoved && Math.abs(event.offsetX - grip.x) < TREMBLE)) return false;
    grip.isMoved = true;
    this.go(grip.low - ((event.offsetX - grip.x) / this.width) * this.span, this.span);
    return true;
  }

  key(event) {
    const move = { ArrowLeft: -0.1, ArrowRight: 0.1, PageUp: -0.9, PageDown: 0.9 }[event.key];
    const zoom = { "+": 0.7, "=": 0.7, ArrowUp: 0.7, "-": 1 / 0.7, ArrowDown: 1 / 0.7 }[event.key];
    const own = this.picture.key?.(event);
    if (own) handleKey(event, own);
    else if (move) handleKey(event, () => this.move(move));
    else if (zoom) handleKey(event, () => this.zoom(zoom));
    else if (event.key === "0" || event.key === "Home") handleKey(event, () => this.goHome());
  }
}
