"""Where a fault of a trigger lies if the desk gives no place, for explain: the first part or item that has it, in the order of
docs/REFERENCE.md, Trigger faults. Each test asks only for its own fault: what comes before is known to be good."""

from __future__ import annotations

import re
from typing import Optional

from .._schema import TEXT_FIELDS, field_names
from .forms import ONMATCH, VARIABLE, variable_of
from .words import beginning, field_meant, near

# A place in a trigger's text, and a hint; None if the fault isn't there.
Fault = Optional[tuple[int, str]]
KINDS = {"keys": "keys", "key": "keys", "values": "vals", "vals": "vals", "val": "vals", "sort": "sort", "size": "size"}
LEFT_OUT = ["execname", "sym", "sym-offset", "syscall", "percent", "graph", "stacktrace"]
MODIFIERS = ["hex", "log2", "buckets=N"]


def offender(event: str, text: str, fault: int) -> Fault:
    """Return the place of a fault of a trigger on an event, and a hint; None if there is none."""
    head, at = beginning("[^ \t]*", text), 5
    seen: dict[str, list[str]] = {}
    for part in head[5:].split(":"):
        in_this = in_part(event, part, fault, seen)
        if in_this:
            place = at + in_this[0]
            name = beginning("[A-Za-z0-9_]*", head[place:])
            # The name of a variable needs a $, even if its own part is still wrong.
            is_own = fault == 3 and name not in KINDS and f":{name}=" in head
            return place, f"; did you mean ${name}?" if is_own else in_this[1]
        at += len(part) + 1
    return after_parts(head, fault)


def in_part(event: str, part: str, fault: int, seen: dict[str, list[str]]) -> Fault:
    """Return the place in a part of a trigger, and a hint, or None. `seen` has the items of the parts before, by kind."""
    word, sign, rest = part.partition("=")
    kind = KINDS.get(word) if sign else None
    action = ONMATCH.fullmatch(part)
    if action:
        return in_onmatch(event, action, fault, seen)
    if not kind:
        variable = VARIABLE.fullmatch(part)
        if fault == 6 and variable and (variable[1] in ["hitcount", *field_names(event)] or variable[1] == variable[2]):
            return 0, ": the variable has the name of a field, of hitcount or of what it reads"
        return None
    if kind in seen and fault == 6:
        return 0, f": this is the second part with {kind}"
    items: list[str] = []
    seen[kind] = items
    if kind == "size":
        return (len(word) + 1, "") if fault == 7 else None
    at = len(word) + 1
    for item in rest.split(","):
        hint = in_item(event, kind, item, fault, items)
        if hint is not None:
            return at, hint
        at += len(item) + 1
        items.append(item)
    return None


def in_onmatch(event: str, words: re.Match[str], fault: int, seen: dict[str, list[str]]) -> Fault:
    """Return the place in an onmatch part, and a hint, or None; its variable is tested after all parts."""
    if fault == 6 and "onmatch" in seen:
        return 0, ": this is the second onmatch part"
    seen["onmatch"] = []
    for number in (3, 4):
        if fault == 3 and words[number] not in field_names(event):
            return words.start(number), field_meant(words[number], event)
        if fault == 4 and words[number] in TEXT_FIELDS:
            return words.start(number), ""
    return None


def in_item(event: str, kind: str, item: str, fault: int, before: list[str]) -> str | None:
    """Return a hint about an item that has the fault, after some items of its part, or None."""
    name, _, modifier = item.partition(".")
    names = [other.partition(".")[0] for other in before]
    if fault == 5:
        count = len(before) if kind != "vals" else len([other for other in before if other != "hitcount"])
        is_counted = kind != "vals" or name != "hitcount"
        return "" if is_counted and count == (2 if kind == "sort" else 3) else None
    if fault == 6:
        return "" if (name in names if kind != "vals" else item in before) else None
    if kind == "sort":
        if fault == 8 and modifier not in ("", "ascending", "descending"):
            return f": after the name comes .ascending or .descending{near(modifier, ['ascending', 'descending'])}"
        return None
    is_unknown = not name.startswith("$") and name not in field_names(event) and name != "hitcount" * (kind == "vals")
    if fault == 3 and is_unknown:
        return field_meant(name, event)
    if fault == 4 and kind == "vals" and name in TEXT_FIELDS:
        return ""
    if fault == 9 and modifier and modifier not in LEFT_OUT:
        return bad_modifier(kind, name, modifier)
    return None


def bad_modifier(kind: str, name: str, modifier: str) -> str | None:
    """Return a hint about a modifier that isn't allowed there, or None."""
    if kind == "vals":
        return ": a value has no modifier"
    if name in TEXT_FIELDS:
        return f": {name} is a text, and a modifier needs a number"
    if modifier in ("hex", "log2"):
        return None
    if modifier.startswith("buckets="):
        digits = modifier[8:]
        is_good = re.fullmatch("[0-9]+", digits) and 1 <= int(digits[:30]) < 2**32
        return None if is_good else ": buckets= takes a number from 1 to 4,294,967,295"
    return near(modifier, MODIFIERS) or f": a key has .{', .'.join(MODIFIERS)} or none"


def after_parts(head: str, fault: int) -> Fault:
    """Return the place of a fault that is tested after all parts, and a hint, or None."""
    own, read = variable_of(head)
    argument, at = None, 5
    # The items of each kind by name, with their places.
    items: dict[str, list[tuple[int, str]]] = {"keys": [], "vals": [], "sort": []}
    for part in head[5:].split(":"):
        action = ONMATCH.fullmatch(part)
        argument = (at + action.start(2) - 1, action[2]) if action else argument
        word, sign, rest = part.partition("=")
        kind = KINDS.get(word) if sign else None
        place = at + len(word) + 1
        for item in rest.split(",") if kind in items else []:
            items[kind or ""].append((place, item.partition(".")[0]))
            place += len(item) + 1
        at += len(part) + 1
    if fault == 3:
        for place, name in items["vals"]:
            if name.startswith("$") and name[1:] != own:
                meant = near(name, [f"${own}"] if own else [])
                return place, f": a value with a $ is the trigger's own variable{meant}"
        if argument:
            meant = near(argument[1], [own] if own and read else [])
            return argument[0], f": the first argument has to be the own variable of a trigger that reads another one{meant}"
    names = ["hitcount", *(name for _, name in items["keys"] + items["vals"])]
    if fault == 8:
        for place, name in items["sort"]:
            if name not in names:
                return place, f": neither hitcount nor a key nor a value has this name{near(name, names)}"
    return None
