// Text boxes for filters suggest the fields of their event while a name is typed.

import { byId, element, handleKey } from "./elements.js";
import { state } from "./state.js";

// Where a field may stand: at the beginning, after a parenthesis, or after && and ||; and what was typed of its name.
const NAME = /(?:^|[(!]|&&|\|\|)\s*([A-Za-z_]\w*)?$/;

// Suggests fields in a text box; `eventOf` returns the name of the event to which the filter applies.
export function suggestFields(id, eventOf) {
  const box = byId(id);
  const list = element("ul", { id: `${id}-fields`, role: "listbox", class: "fields", "aria-label": "fields" });
  let active = -1;
  list.hidden = true;
  box.parentElement.append(list);
  const attributes = {
    role: "combobox",
    "aria-autocomplete": "list",
    "aria-expanded": "false",
    "aria-controls": list.id,
  };
  for (const [name, value] of Object.entries(attributes)) box.setAttribute(name, value);

  const activate = (at) => {
    active = at;
    [...list.children].forEach((item, place) => item.setAttribute("aria-selected", place === at));
    box.setAttribute("aria-activedescendant", at < 0 ? "" : list.children[at].id);
    list.children[at]?.scrollIntoView({ block: "nearest" });
  };
  const show = (fields) => {
    list.replaceChildren(...fields.map((field, at) => itemOf(field, at)));
    list.hidden = !fields.length;
    box.setAttribute("aria-expanded", !list.hidden);
    activate(-1);
  };
  const itemOf = (field, at) => {
    const item = element("li", { id: `${list.id}-${at}`, role: "option" }, field);
    // The box keeps the focus.
    item.addEventListener("pointerdown", (event) => event.preventDefault());
    item.addEventListener("click", () => take(field));
    return item;
  };
  const take = (field) => {
    const word = wordBefore(box) || "";
    box.setRangeText(field, box.selectionStart - word.length, box.selectionStart, "end");
    show([]);
    box.dispatchEvent(new Event("input", { bubbles: true }));
  };
  // Without a beginning all fields are suggested, if that is asked for.
  const suggest = (isAsked) => {
    const word = wordBefore(box);
    const isWanted = word !== null && (word || isAsked);
    const fields = isWanted ? fieldsOf(eventOf()).filter((field) => field.includes(word) && field !== word) : [];
    show(fields.sort((one, other) => other.startsWith(word) - one.startsWith(word)));
  };
  const move = (step) => {
    if (list.hidden) suggest(true);
    const { length } = list.children;
    if (length) activate((active + step + length + (active < 0 && step < 0)) % length);
  };

  box.addEventListener("input", (event) => event.isTrusted && suggest(false));
  box.addEventListener("blur", () => show([]));
  box.addEventListener("keydown", (event) => {
    const step = { ArrowDown: 1, ArrowUp: -1 }[event.key];
    if (step) handleKey(event, () => move(step));
    else if (list.hidden) return;
    else if (event.key === "Escape") handleKey(event, () => show([]));
    else if (active >= 0 && ["Enter", "Tab"].includes(event.key)) {
      handleKey(event, () => take(list.children[active].textContent));
    }
  });
}

const fieldsOf = (event) => state.schema.events.find(({ name }) => name === event).fields;

// What was typed of a field's name before the caret; null if no field may stand there.
function wordBefore(box) {
  if (box.selectionStart !== box.selectionEnd) return null;
  const text = box.value.slice(0, box.selectionStart);
  const isQuoted = (text.match(/["']/g) || []).length % 2;
  const place = isQuoted ? null : text.match(NAME);
  return place ? place[1] || "" : null;
}
