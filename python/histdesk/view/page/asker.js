// Askers: each asks one kind of question for a part of the page. Its panels say when they wait for an answer, and why there is
// none.

import { byId, element, report } from "./elements.js";

// After how many milliseconds without an answer a panel says what it waits for.
const PATIENCE = 300;
// What may have the focus in a panel.
const FOCUS = "[tabindex='0'], input, button";

const askers = [];
// The failure that the line at the bottom of the page shows.
let reported = "";
// The last piece of work that is done in turn.
let turn = Promise.resolve();

// No server answered.
export class NoAnswer extends Error {
  constructor() {
    super("the server does not answer; if it has ended, start it again");
  }
}

// Asks one question at a time. Of those that come meanwhile, only the newest waits, so that typing is never far ahead of the
// answers.
export class Asker {
  // `what` is asked for, and shown by the panels with these ids; `work` asks, and shows the answer. If there is none,
  // `takeBack` shows again what was asked before; without it, the first panel says so, and the question can be asked again.
  constructor(what, panels, work, takeBack = null) {
    Object.assign(this, { what, panels, work, takeBack, last: [], next: null });
    Object.assign(this, { isBusy: false, isLate: false, error: null });
    askers.push(this);
  }

  async ask(...words) {
    this.next = words;
    if (this.isBusy) return;
    this.set({ isBusy: true, error: null });
    while (this.next) {
      Object.assign(this, { last: this.next, next: null });
      const timer = setTimeout(() => this.set({ isLate: true }), PATIENCE);
      const failure = await this.work(...this.last).then(() => null, (error) => error);
      clearTimeout(timer);
      const error = this.next ? null : failure;
      if (error) this.takeBack?.();
      this.set({ isBusy: this.next !== null, isLate: false, error });
    }
  }

  // Asks the last question again.
  again() {
    return this.ask(...this.last);
  }

  // Why the last question has no answer; empty if it has one.
  get failure() {
    return this.error ? `${this.what[0].toUpperCase()}${this.what.slice(1)} could not be read: ${this.error.message}` : "";
  }

  set(state) {
    Object.assign(this, state);
    this.panels.forEach(showState);
    reportFailure();
  }
}

// Shows on a panel whether an answer is awaited, and if that takes long, which one; or what could not be read.
function showState(id) {
  const panel = byId(id);
  const own = askers.filter(({ panels }) => panels.includes(id));
  const before = panel.querySelector(":scope > .progress");
  const isFocused = before?.contains(document.activeElement);
  before?.remove();
  panel.ariaBusy = own.some(({ isBusy }) => isBusy);
  const late = own.find(({ isLate }) => isLate);
  panel.classList.toggle("late", Boolean(late));
  const failed = own.find(({ error, isBusy, panels, takeBack }) => error && !isBusy && panels[0] === id && !takeBack);
  if (late) panel.append(element("p", { class: "progress" }, `reading ${late.what} …`));
  else if (failed) panel.append(element("p", { class: "progress failed" }, `${failed.failure} `, buttonOf(failed)));
  if (isFocused) panel.querySelector(FOCUS)?.focus();
}

function buttonOf(asker) {
  const button = element("button", { type: "button" }, "ask again");
  button.addEventListener("click", () => asker.again());
  return button;
}

// Writes a failure at the bottom of the page, and takes it away once there is an answer.
function reportFailure() {
  const failure = askers.findLast(({ error }) => error)?.failure ?? "";
  if (failure === reported) return;
  if (failure || byId("status").textContent === reported) report(failure, Boolean(failure));
  reported = failure;
}

// The server answers, so what it did not answer before is asked again.
export function hearServer() {
  for (const asker of askers.filter(({ error }) => error instanceof NoAnswer)) {
    if (asker.takeBack) asker.set({ error: null });
    else asker.again();
  }
}

// Does pieces of work that change the same things one after the other.
export function inTurn(work) {
  turn = turn.then(work, work);
  return turn;
}
