// Elements of the document: how they are found and made, and how the page speaks to whoever uses it.

const SVG = "http://www.w3.org/2000/svg";
// How many milliseconds must pass without anything new before something is said.
const PATIENCE = 700;

export const byId = (id) => document.getElementById(id);
export const all = (selector) => [...document.querySelectorAll(selector)];

// An element of HTML, or of SVG if its name begins with "svg:", with attributes and children.
export function element(name, attributes = {}, ...children) {
  const isSvg = name.startsWith("svg:");
  const node = isSvg ? document.createElementNS(SVG, name.slice(4)) : document.createElement(name);
  for (const [key, value] of Object.entries(attributes)) node.setAttribute(key, value);
  node.append(...children);
  return node;
}

// Does the work of a key, if it has any here. Keys with Ctrl, Alt or Meta belong to the browser.
export function handleKey(event, work) {
  if (!work || event.ctrlKey || event.altKey || event.metaKey) return;
  event.preventDefault();
  event.stopPropagation();
  work();
}

// Shows a few lines beside the pointer, within the window; without lines it hides them.
export function tip(event, ...lines) {
  const box = byId("tip");
  box.hidden = !lines.length;
  box.replaceChildren(...lines.map((text) => element("div", {}, text)));
  const { width, height } = box.getBoundingClientRect();
  const isLow = event.clientY + 14 + height > innerHeight;
  box.style.left = `${Math.max(Math.min(event.clientX + 12, innerWidth - width - 4), 4)}px`;
  box.style.top = `${event.clientY + (isLow ? -height - 8 : 14)}px`;
}

// Says something to a screen reader, once nothing new was said for a while: whatever changes with each key is said once.
let patience;
export function speak(text) {
  clearTimeout(patience);
  patience = setTimeout(() => {
    byId("announcer").textContent = text;
  }, PATIENCE);
}

// Writes a line at the bottom of the page.
export function report(text, isError = false) {
  Object.assign(byId("status"), { textContent: text, className: isError ? "error" : "" });
}

// Writes a message below a text box: why its text is refused, with a caret below the character where it is wrong, and what was
// probably meant; or else a remark.
export function explainBox(id, refusal = null, remark = "") {
  const message = refusal ? withCaret(refusal) : remark;
  markBox(id, Boolean(refusal), message, refusal ? sentenceOf(refusal) : "");
  if (refusal) speak(sentenceOf(refusal));
}

// Says below a text box that its text is not applied.
export function rejectBox(id, why) {
  markBox(id, true, `not applied: ${why}`, why);
}

function markBox(id, isInvalid, text, title) {
  byId(id).setAttribute("aria-invalid", isInvalid);
  Object.assign(byId(`${id}-message`), { textContent: text, title });
  alignMessage(id);
}

export const sentenceOf = ({ refused, hint }) => refused + (hint || "");

// The caret stands before the message, or after it if there is room for all of it.
function withCaret(refusal) {
  const { at } = refusal;
  const sentence = sentenceOf(refusal);
  if (at === null || at === undefined) return sentence;
  return at > sentence.length ? `${sentence.padEnd(at)}^` : `${" ".repeat(at)}^ ${sentence}`;
}

// Keeps the caret below its character while a long text is scrolled.
export function alignMessage(id) {
  byId(`${id}-message`).style.textIndent = `${-byId(id).scrollLeft}px`;
}
