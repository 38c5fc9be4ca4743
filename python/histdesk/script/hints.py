"""What explain adds to the library's messages about faults of trace lines, filters and triggers: what was meant, what may be
there, and which tool converts the text. Each hint begins with a sign. Texts are Latin-1, a character for each byte."""

from __future__ import annotations

import contextlib
import re
import shlex
import zlib
from collections.abc import Mapping

from .._invocation import tool
from .._schema import MADE_EVENT, TEXT_FIELDS, TRACED_EVENTS
from ..trace.kind import EVENT_LINE, FRONT_ROOM, GZIP, first_bytes
from .commands import ONMATCH_FORM
from .forms import NAME, VARIABLE
from .trigger_faults import KINDS, offender
from .words import beginning, field_meant, nearest

VARIABLE_FORM = "NAME=common_timestamp.usecs or NAME=common_timestamp.usecs-$OTHER"
# The stamp of an event as somebody may write it, with its unit.
STAMP_LIKE = re.compile(r"(?:common_?)?(?:timestamps?|\btime|\bts)\b(\.[A-Za-z]*)?")
# The label of an event, with what stands before it on a line of a trace.
LABEL = re.compile(r"\[[0-9]+\] +(?:[^ :]+ +)?[0-9]+\.[0-9]{6}: +([^ :]+):")
SWITCH_LABEL = re.compile(rb": +sched_switch: ")
EATEN = "a $NAME is missing: a shell replaces it in double quotes, and keeps it in single quotes"


def lenient_hint(path: str | None) -> str:
    """Return what to do about a trace of which a line can't be read: to leave such lines out, unless its file shows that there
    would be no others."""
    hint = None if path is None else crlf_hint(path) or no_trace_hint(path) or unread_hint(path)
    return hint or "--lenient leaves such lines out"


def crlf_hint(path: str) -> str | None:
    """Return the hint that most lines of a file end with carriage returns, and what removes these; None if they don't."""
    lines = front_lines(path)
    if 2 * sum(line.endswith(b"\r") for line in lines) <= len(lines):
        return None
    name = shlex.quote(path)
    command = f"zcat {name} | tr -d '\\r'" if first_bytes(path).startswith(GZIP) else f"tr -d '\\r' <{name}"
    return f"its lines end with carriage returns (CR LF); {command} >my.trace removes them"


def no_trace_hint(path: str) -> str | None:
    """Return the hint that a file is no trace, or one of another layout; None if it may be a trace, by its first bytes."""
    from ..trace.event_lines import holds_event

    lines = front_lines(path)
    if not lines or any(EVENT_LINE.search(line) for line in lines) or holds_event(b"\n".join(lines)):
        return None
    if any(line.startswith(b"# tracer: ") for line in lines):
        return "it has the header of a trace, but no line that can be read as an event: it may have another layout or clock"
    return "it is no trace: none of its first lines is an event"


def unread_hint(path: str) -> str | None:
    """Return the hint that none of the events, or of the switches, with which a file begins can be read, so that without such
    lines nothing would be left; None if one can be read, or if there are none."""
    from ..trace.event_lines import holds_event

    lines = [line for line in front_lines(path) if EVENT_LINE.search(line)]
    for what, some in (("event", lines), ("switch", [line for line in lines if SWITCH_LABEL.search(line)])):
        if some and not holds_event(b"\n".join(some)):
            return f"no {what} in its first lines can be read: it may have another layout or clock"
    return None


def front_lines(path: str) -> list[bytes]:
    """Return the lines with which a file begins, as far as they are whole within 65,536 bytes; gzip may have packed it."""
    front = first_bytes(path)
    if front.startswith(GZIP):
        with contextlib.suppress(zlib.error):
            front = zlib.decompressobj(wbits=31).decompress(front, FRONT_ROOM)
    return front.split(b"\n")[:-1] or [front] * (len(front) >= FRONT_ROOM)


def line_hint(fault: int, line: str, is_cut: bool = False) -> str:
    """Return what is known of a trace line that has a fault: where it comes from, or which fields its event has.

    Parameters
    ----------
    fault
        The number of the fault.
    line
        The line, without its line break.
    is_cut
        Whether it lacks the line break that ends each line of a trace.
    """
    cut = "; the file ends in this line, and may have been cut off" if is_cut else ""
    if line.endswith("\r"):
        return "; the line ends with a carriage return"
    if fault == 7:
        return long_line_hint(line)
    if fault == 1 and re.search(r" +(?:-?[0-9]+/)?-?[0-9]+ +\[[0-9]+\] +[0-9]+\.[0-9]+: +[^ ]+:", line):
        return f"; it looks like a line of perf script, which {tool('from-perf')} converts"
    if fault == 1 and re.fullmatch(r"(cpus|version) ?= ?[0-9]+|CPU .*is empty|CPU:.*EVENTS DROPPED\]", line):
        return f"; it looks like a line of trace-cmd report, which {tool('from-trace-cmd')} converts"
    if fault == 3 and re.search(r" [0-9]+\.[0-9]{9}:", line):
        return f"; its stamp has nine digits, which {tool('from-trace-cmd')} rounds"
    event = re.search(rf": *({'|'.join(TRACED_EVENTS)}):(.*)", line, re.DOTALL)
    if fault == 4 and event:
        if not re.match(" *(prev_)?comm=", event[2]):
            return cut or f"; if trace-cmd printed it, {tool('from-trace-cmd')} converts it"
        order = "prev_comm prev_pid prev_prio prev_state ==> next_comm next_pid next_prio"
        if event[1] != "sched_switch":
            order = "comm pid prio target_cpu"
        return f": {event[1]} has {order}{cut}"
    return cut


def long_line_hint(line: str) -> str:
    """Return what is known of a line that is too long: which event it is, and which one follows without a line break."""
    first, *after = LABEL.findall(line) or [""]
    if not first or first in TRACED_EVENTS:
        return ""
    lost = [event for event in after if event in TRACED_EVENTS]
    also = f"; {lost[0]} on the same line is left out too" if lost else ""
    return f"; it is an event {first}, which no trigger counts: --lenient leaves the line out{also}"


def name_at(text: str, place: int) -> str:
    """Return the name that begins at a place of a text."""
    return beginning("[A-Za-z0-9_]*", text[place:])


def filter_hint(event: str | None, text: str, fault: int, place: int | None) -> str:
    """Return what is known of a filter that has a fault, if the fault has a place."""
    if place is None:
        return ""
    if fault == 2:
        return bad_syntax(text, place)
    if fault == 3:
        return field_meant(name_at(text, place), event)
    if fault == 4:
        return wrong_kind(text, place)
    return bad_glob(text, place) if fault == 5 else ""


def bad_syntax(text: str, place: int) -> str:
    """Return what is wrong at a place of a filter."""
    rest, before = text[place:], text[:place].rstrip(" \t")
    is_value = re.search("[=<>&~]$", before) is not None
    if not rest:
        what = "the filter is empty" if not text.strip(" \t") else "the filter ends too early"
        return f": {what}" + ("; a ) is missing" if text.count("(") > text.count(")") else "")
    if rest[0] in "'\"" and is_value:
        return ": this quote is not closed"
    run = beginning("-?[A-Za-z0-9_]*", rest)
    if is_value and re.match("[A-Za-z_]", run):
        return f': a text needs quotes; did you mean "{run}"?'
    if is_value and run:
        return ": a number is decimal without leading zeros, or 0x and hexadecimal digits"
    joins = {"and": "&&", "or": "||", "&": "&&", "|": "||"}
    for word, sign in joins.items():
        if re.match(rf"{re.escape(word)}(?![A-Za-z0-9_&|])", rest, re.IGNORECASE):
            return f"; did you mean {sign}?"
    if re.match("=(?!=)", rest):
        return ": = is not an operator; did you mean ==?"
    if rest[0] == ")" and text[:place].count("(") <= text[:place].count(")"):
        return ": there is no ( for it"
    if re.fullmatch("[A-Za-z_][A-Za-z0-9_]*", before.split(" ")[-1].lstrip("!(")):
        return ": an operator is expected here"
    return ""


def wrong_kind(text: str, place: int) -> str:
    """Return what is wrong with an operator or a value that doesn't suit a field."""
    sign = re.match("[=!<>&~]+", text[place:])
    if not sign:
        kind = "a number" if text[place] in "'\"" else "a text in quotes"
        return f": {kind} is expected here"
    field = re.split("[^A-Za-z0-9_]", text[:place].rstrip(" \t"))[-1]
    if field in TEXT_FIELDS:
        return f": {field} is a text, which takes == != ~"
    return f": {field} is a number, which takes == != < <= > >= &"


def bad_glob(text: str, place: int) -> str:
    """Return what is wrong with a pattern."""
    pattern = text[place + 1 :].partition(text[place])[0]
    if "\\" in pattern:
        return ": it contains a backslash"
    if pattern.startswith("!"):
        return ": it begins with !"
    return ": a class [..] in it is not closed or is empty, or has a descending range"


def filter_place(text: str) -> int:
    """Return at which byte of a trigger's text its filter begins."""
    return len(beginning("[^ \t]*[ \t]*if[ \t]*", text))


def trigger_hint(event: str, text: str, numbers: Mapping[str, int]) -> tuple[str, int | None]:
    """Return what is known of a trigger that has a fault, and the place of the fault.

    Parameters
    ----------
    event
        The event to which it should be attached.
    text
        The trigger.
    numbers
        The numbers of the refusal by their names. If they have no place, it is looked for here.
    """
    fault, place = numbers["fault"], numbers.get("at")
    if fault == 11:
        start = filter_place(text)
        return filter_hint(event, text[start:], numbers["filter"], place), None if place is None else start + place
    if fault == 2 and place is not None:
        return f": {form_hint(text, place)}", place
    if fault == 10 and place is not None:
        return left_out(event, text[place:]), place
    place, hint = offender(event, text, fault) or (None, "")
    return hint, place


def form_hint(text: str, place: int) -> str:
    """Return what is wrong at a place of a trigger that doesn't have the form of one."""
    head = beginning("[^ \t]*", text)
    if not head.startswith("hist:"):
        return "a trigger begins with hist:" + wrong_begin(text, head)
    if place > len(head):
        return "after the head comes if and a filter, or nothing; the head itself has no spaces"
    if place == len(head) and not re.search(":keys?=", head):
        return "it has no keys"
    before = head[:place]
    if before.endswith((",", "=")):
        return "an item is a field or a variable, perhaps with a modifier" + eaten(before, head[place:])
    part = head[place:].split(":")[0]
    if not part:
        return "an empty part"
    meant = nearest(part.partition("=")[0], ["keys", "vals", "values", "sort", "size", "pause"])
    return "no such part" + (f"; did you mean {meant}=?" if meant and meant != "pause" else "")


def wrong_begin(text: str, head: str) -> str:
    """Return what is known of a trigger that doesn't begin with hist:."""
    if text.startswith(("'", '"')):
        return "; quotes are for the shell: in a script, a trigger has none around it"
    return "; the head of a trigger has no spaces" if head == "hist" else ""


def eaten(before: str, rest: str) -> str:
    """Return what is known of an item of values or of sorting that has no name: a shell may have replaced its $NAME."""
    word = before.rpartition(":")[2].partition("=")[0]
    is_nameless = re.match(r"(\.ascending|\.descending)?([,:]|$)", rest)
    return f"; {EATEN}" if is_nameless and KINDS.get(word) in ("vals", "sort") else ""


def left_out(event: str, rest: str) -> str:
    """Return what is known of a part of the kernel's language that histdesk doesn't support."""
    word, sign, value = re.split("[:, \t]", rest)[0].partition("=")
    if rest.startswith("onmatch(") and event == MADE_EVENT:
        return f"; a trigger on {MADE_EVENT} makes no events"
    if rest.startswith("onmatch("):
        eaten_name = f"; {EATEN}" if re.search(r"\( *,", rest) else ""
        return f"; the one form of it is {ONMATCH_FORM}, with EVENT one of {', '.join(TRACED_EVENTS)}{eaten_name}"
    if not sign:
        return other_unit(STAMP_LIKE.match(word))
    if word in ("name", "clock"):
        return ""
    meant = nearest(word, ["keys", "vals", "values", "sort", "size"])
    if meant and not STAMP_LIKE.search(value):
        return f"; did you mean {meant}=?"
    if event == MADE_EVENT:
        return f"; a trigger on {MADE_EVENT} has no variable"
    return bad_variable(word, value)


def other_unit(stamp: re.Match[str] | None) -> str:
    """Return what is known of a stamp with a unit that the kernel doesn't have: to the library, it is the kernel's."""
    unit = stamp and stamp[1]
    return f"; but the kernel has only .usecs, and not {unit}" if unit and unit != ".usecs" else ""


def bad_variable(name: str, value: str) -> str:
    """Return what is wrong with a variable part NAME=VALUE that doesn't have the form of one, or is one too many."""
    stamp = STAMP_LIKE.search(value)
    if VARIABLE.fullmatch(f"{name}={value}"):
        return "; a trigger has one variable, and this is its second"
    if not stamp or not re.fullmatch(NAME, name):
        return f"; a variable is {VARIABLE_FORM}, and a trigger has one"
    unit = other_unit(stamp)
    rest = value[: stamp.start()] + value[stamp.end() :]
    other = re.fullmatch(rf"(-?)[$]?(?:[{{](?={NAME}[}}]))?({NAME})?[}}]?(-?)", rest)
    if not other or rest and not (other[1] or other[3]):
        return f"{unit}; a variable is {VARIABLE_FORM}"
    if rest and not other[2]:
        return f"{unit}; {EATEN}"
    return f"{unit}; did you mean {name}=common_timestamp.usecs{f'-${other[2]}' if rest else ''}?"
