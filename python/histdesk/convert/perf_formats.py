"""The formats of the scheduler's events as a recording of perf has them in its header, and the arguments by which perf_filter.c
learns them. If a format isn't known here, the recording is converted without the filter."""

from __future__ import annotations

import ast
import operator
import re
from collections.abc import Callable

from .. import _schema
from .perf_data import Unknown

# A system's name and an event's, and the text of the format.
Formats = dict[tuple[str, str], str]

# The fields whose places the filter needs, in its order, and how many bytes each has; None if that depends on the kernel.
WAKING: dict[str, int | None] = {**{field.name: field.size for field in _schema.event("sched_waking").fields}, "success": 4}
SWITCH: dict[str, int | None] = {field.name: field.size for field in _schema.event("sched_switch").fields}
FIELD = re.compile(r"field:[^;]*?(\w+)(?:\[\d*\])?;\s*offset:(\d+);\s*size:(\d+);")
# A field that is a text: its name, if it has room of its own, or that of a text whose place and length stand there.
TEXT_FIELD = re.compile(r"field:(?:char (\w+)\[\d+\]|__data_loc char\[\] (\w+));")
# How the kernel prints an event whose text is simple: a format without escapes, and its arguments, each of which is a field.
SIMPLE_TEXT = re.compile(r'"([^"\\]*)"((?:, [^,]+)*)')
CONVERSION = re.compile(r"%(?:(l|ll|L)?([dux])|s)")
NUMBER = re.compile(r"(?:\((?:unsigned )?(?:int|long|long long)\))?REC->(\w+)")
TEXT = re.compile(r"REC->(\w+)|__get_str\((\w+)\)")
# A field of four bytes without a sign, which may also be printed as one of eight.
UNSIGNED = re.compile(r"field:[^;]*?(\w+);\s*offset:\d+;\s*size:4;\s*signed:0;")
# How many other kinds of events the filter takes, and how many conversions the text of each may have.
MOST_OTHERS, MOST_CONVERSIONS = 64, 15
# What the kernel prints of a waking; older kernels print success too.
WAKING_TEXTS = (
    '"comm=%s pid=%d prio=%d target_cpu=%03d", REC->comm, REC->pid, REC->prio, REC->target_cpu',
    '"comm=%s pid=%d prio=%d success=%d target_cpu=%03d", REC->comm, REC->pid, REC->prio, REC->success, REC->target_cpu',
)
# What it prints of a switch, with two masks, the bits by their texts, and the mask for the plus.
SWITCH_TEXT = re.compile(
    r'"prev_comm=%s prev_pid=%d prev_prio=%d prev_state=%s%s ==> next_comm=%s next_pid=%d next_prio=%d", '
    r"REC->prev_comm, REC->prev_pid, REC->prev_prio, "
    r'(\(?)REC->prev_state & ([^?:{}",]+) \? __print_flags\(REC->prev_state & ([^?:{}",]+), "\|", ([^:]+)\) : "R", '
    r'REC->prev_state & ([^?:{}",]+) \? "\+" : "", REC->next_comm, REC->next_pid, REC->next_prio'
)
BIT = re.compile(r'\{ ?(0x[0-9a-f]{1,15}|[1-9][0-9]{0,14}), "([A-Za-z]{1,7})" ?\} ?(?:, ?)?')
BITS = re.compile(f"(?:{BIT.pattern})+")
OPERATORS: dict[type[ast.operator], Callable[[int, int], int]] = {
    ast.BitOr: operator.or_,
    ast.Add: operator.add,
    ast.Sub: operator.sub,
    ast.LShift: operator.lshift,
}


class Reader:
    """Bytes that are read from the front on."""

    def __init__(self, content: bytes) -> None:
        self.content, self.at = content, 0

    def take(self, size: int) -> bytes:
        """Return so many bytes."""
        content = self.content[self.at : self.at + size]
        if len(content) < size:
            raise Unknown("the formats end too early")
        self.at += size
        return content

    def number(self, size: int) -> int:
        """Return a number of so many bytes."""
        return int.from_bytes(self.take(size), "little")

    def block(self) -> bytes:
        """Return bytes that stand after their count."""
        return self.take(self.number(8))

    def word(self) -> bytes:
        """Return a text that ends with a zero."""
        end = self.content.find(b"\0", self.at)
        if end < 0:
            raise Unknown("the formats end too early")
        word, self.at = self.content[self.at : end], end + 1
        return word

    def expect(self, *parts: bytes) -> None:
        """Read bytes that have to be there."""
        for one in parts:
            if self.take(len(one)) != one:
                raise Unknown("the formats have another layout")


def formats(content: bytes) -> Formats:
    """Return the text of each event's format in tracing data. Raises `Unknown`."""
    reader = Reader(content)
    texts: Formats = {}
    reader.expect(b"\x17\x08\x44tracing")
    reader.word()
    # Little end first, words of eight bytes; then the size of a page.
    reader.expect(b"\0\x08")
    reader.number(4)
    for name in (b"header_page\0", b"header_event\0"):
        reader.expect(name)
        reader.block()
    for _ in range(reader.number(4)):
        reader.block()
    for _ in range(reader.number(4)):
        system = reader.word().decode("latin-1")
        for _ in range(reader.number(4)):
            text = reader.block().decode("latin-1")
            match = re.match(r"name: (\S+)\n", text)
            texts[system, match[1] if match else ""] = text
    return texts


def filter_arguments(texts: Formats) -> list[str]:
    """Return the arguments of the filter. Raises `Unknown`."""
    words = [event_argument(name, texts["sched", name]) for name in _schema.TRACED_EVENTS if ("sched", name) in texts]
    if not words:
        raise Unknown("no event of the scheduler")
    if ("sched", "sched_switch") in texts:
        words.append(states_argument(print_format(texts["sched", "sched_switch"])))
    names = [name for name in texts if name[0] != "sched" or name[1] not in _schema.TRACED_EVENTS]
    others = [other_argument(*name, texts[name]) for name in names]
    return words + [word for word in others if word is not None][:MOST_OTHERS]


def needs_symbols(texts: Formats) -> bool:
    """Return whether perf may print the kernel's symbols, as it does for pointers and for functions that were traced."""
    return any(system == "ftrace" or "%p" in text for (system, _), text in texts.items())


def print_format(text: str) -> str:
    """Return how a format says that the kernel prints the event."""
    match = re.search(r"^print fmt: (.*)$", text, re.MULTILINE)
    return match[1] if match else ""


def switch_place(texts: Formats) -> tuple[int, int]:
    """Return the number of the event of a switch, and the offset of the task that it leaves. Raises `Unknown`."""
    text = texts.get(("sched", "sched_switch"))
    if text is None:
        # No event has this number.
        return 0, 0
    number = re.search(r"^ID: (\d+)$", text, re.MULTILINE)
    places = {match[1]: int(match[2]) for match in FIELD.finditer(text) if match[3] == "4"}
    if not number or "prev_pid" not in places:
        raise Unknown("a switch has another layout")
    return int(number[1]), places["prev_pid"]


def event_argument(name: str, text: str) -> str:
    """Return the argument that says where the fields of an event are. Raises `Unknown`."""
    fields = SWITCH if name == "sched_switch" else WAKING
    number = re.search(r"^ID: (\d+)$", text, re.MULTILINE)
    places = {match[1]: (int(match[2]), int(match[3])) for match in FIELD.finditer(text)}
    if not number or places.get("common_type") != (0, 2):
        raise Unknown(f"{name} has no number")
    if fields is WAKING:
        if print_format(text) not in WAKING_TEXTS:
            raise Unknown(f"{name} is printed otherwise")
        if print_format(text) == WAKING_TEXTS[0]:
            places.pop("success", None)
    for field, size in fields.items():
        if field not in places and field == "success":
            places[field] = -1, 4
        if field not in places or places[field][1] not in ([size] if size else [4, 8]):
            raise Unknown(f"{name} has no {field} of that size")
    size = max(at + size for at, size in places.values())
    state_size = places["prev_state"][1] if fields is SWITCH else 0
    return f"{name}:{number[1]}:{size}:{state_size}:" + ",".join(str(places[field][0]) for field in fields)


def other_argument(system: str, name: str, text: str) -> str | None:
    """Return the argument that says how an event of another kind is printed, or None if its text isn't simple."""
    number = re.search(r"^ID: (\d+)$", text, re.MULTILINE)
    simple = SIMPLE_TEXT.fullmatch(print_format(text))
    if not number or not simple or not re.fullmatch(r"\w+:\w+", f"{system}:{name}"):
        return None
    places = {match[1]: (int(match[2]), int(match[3])) for match in FIELD.finditer(text)}
    letters = dict.fromkeys(UNSIGNED.findall(text), "u")
    letters.update({match[match.lastindex or 0]: "_st"[match.lastindex or 0] for match in TEXT_FIELD.finditer(text)})
    conversions, arguments = list(CONVERSION.finditer(simple[1])), simple[2].split(", ")[1:]
    if len(conversions) != len(arguments) or len(conversions) > MOST_CONVERSIONS:
        return None
    shown, at = "", 0
    for conversion, argument in zip(conversions, arguments):
        value = value_argument(conversion, argument, places, letters)
        if value is None:
            return None
        shown += simple[1][at : conversion.start()] + value
        at = conversion.end()
    shown += simple[1][at:]
    if shown.count("%") > len(conversions):
        return None
    return f"other:{system}:{name}:{number[1]}:{max(at + size for at, size in places.values())}:{shown}"


def value_argument(
    conversion: re.Match[str], argument: str, places: dict[str, tuple[int, int]], letters: dict[str, str]
) -> str | None:
    """Return what stands for a conversion of a format in the argument of the filter, or None if that isn't simple.

    Parameters
    ----------
    conversion, argument
        The conversion, and the kernel's expression of what is printed.
    places
        The offset of each field and its size, in bytes.
    letters
        The filter's letter for each field that is a text, and `u` for each of four bytes without a sign.
    """
    is_text = conversion[0] == "%s"
    match = (TEXT if is_text else NUMBER).fullmatch(argument)
    field = match[match.lastindex] if match and match.lastindex else ""
    letter, size = letters.get(field, ""), places.get(field, (0, 0))[1]
    if is_text:
        # A text of its own is named by itself, any other one by a call.
        is_simple = match is not None and letter == "_st"[match.lastindex or 0]
    elif size == 4 and conversion[1]:
        letter, is_simple = "x" if conversion[2] == "x" else "u", letter == "u"
    else:
        letter, is_simple = conversion[2], letter in ("", "u") and size == (8 if conversion[1] else 4)
    return f"%{letter}{places[field][0]}.{size};" if is_simple else None


def states_argument(text: str) -> str:
    """Return the argument that says how a state is printed. Raises `Unknown`."""
    match = SWITCH_TEXT.fullmatch(text)
    if not match or not BITS.fullmatch(match[4]):
        raise Unknown("a switch is printed otherwise")
    # The parenthesis before the first mask ends after it.
    mask, same, plus = map(constant, (match[2].removesuffix(")" if match[1] else ""), match[3], match[5]))
    if mask != same:
        raise Unknown("a state has two masks")
    bits = ",".join(f"{int(bit, 0)}={name}" for bit, name in BIT.findall(match[4]))
    return f"states:{mask}:{plus}:{bits}"


def constant(text: str) -> int:
    """Return the value of an expression in C, of numbers only. Raises `Unknown`."""
    if len(text) > 1000 or not re.fullmatch(r"[0-9a-fx()|+\-< ]+", text):
        raise Unknown("a mask that isn't known")
    try:
        value = value_of(ast.parse(text, mode="eval").body)
    except (SyntaxError, ValueError, RecursionError, MemoryError):
        raise Unknown("a mask that isn't known") from None
    if not 0 < value < 1 << 62:
        raise Unknown("a mask that isn't known")
    return value


def value_of(node: ast.expr) -> int:
    """Return the value of a part of an expression. Raises `ValueError`."""
    if isinstance(node, ast.Constant) and isinstance(node.value, int):
        return node.value
    if isinstance(node, ast.BinOp) and type(node.op) in OPERATORS:
        left, right = value_of(node.left), value_of(node.right)
        if isinstance(node.op, ast.LShift) and not 0 <= right < 62:
            raise ValueError
        value: int = OPERATORS[type(node.op)](left, right)
        return value
    raise ValueError
