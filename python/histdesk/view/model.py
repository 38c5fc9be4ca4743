"""What a page shows of the waits of one or two recordings, as plain data."""

from __future__ import annotations

import base64
import time
from functools import cached_property
from typing import TYPE_CHECKING, Any, Callable, Iterable, Iterator, NamedTuple, Sequence

import numpy as np

from ..compare.diff import SIDES, Difference, DifferenceRow, Figures
from ..compare.diff import Struck as Strike
from ..compare.fate import Change, Fate, FateRow, change_of, fate_rows_of
from ..compare.places import Places
from ..compare.without import Chosen, LeftOut, check_chosen
from ..desk.desk import Desk
from ..desk.recording import Recording
from ..desk.values import Bucket, Log2
from ..explain.explainer import Explainer, wait_of
from ..native import layout
from ..native.refusals import Refused, place_in
from ..script.made import AskedTrigger, check_loads, command_of, script_of
from ..waiting.waits import Waits, waits
from .hints import hint_of
from .schema import schema
from .sources import Matches, Selected, Whole
from .timeline import MOST, Json, Window, hole_json

if TYPE_CHECKING:
    from numpy.typing import NDArray

    from .overview import Overview

# The version of the form that answers have.
VERSION = 1
# The columns of waits, in little-endian numbers.
COLUMNS = (
    ("begin", "<f8"),
    ("micros", "<u4"),
    ("end_line", "<u4"),
    ("pid", "<i4"),
    ("name", "<u4"),
    ("prio", "<i4"),
    ("begin_line", "<u4"),
    ("begin_cpu", "<u2"),
    ("end_cpu", "<u2"),
    ("kind", "u1"),
    ("doubtful", "u1"),
)
# Each column begins at a multiple of this many bytes.
ALIGNED = 8
# The longest wait that is shown, in microseconds: more than 71 minutes. A longer one is shown as this long.
LONGEST = 2**32 - 1
# The figures that are reported of both sides of a row that differs.
FIGURES = ("count", "p50", "p99", "max")
# How many rows of a trigger's table are reported at most.
ROWS = 1000
# Of how many lists of strikes the answers are kept.
ANSWERS = 4
# How many parts the timeline of a saved page has at most: for each CPU, and for all CPUs together.
COARSE, CELLS = 1024, 1 << 16


# Strikes, as a question names them: the names of events, each with a filter that chooses which of them.
Strikes = Sequence[tuple[str, str]]


class View:
    """What a page shows of one or two recordings, which are numbered 0 and 1. Another number raises `ValueError`.

    A question that depends on strikes has them among its arguments, so several pages may ask, each with strikes of its own.
    Strikes of an event with which no wait begins or ends raise `ValueError`.

    A refusal is an answer, too: it says why, and at which character of a text. One of a strike has the number of the strike."""

    def __init__(self, sides: Sequence[Side], command: str = "", program: str = "./histdesk") -> None:
        """Take what a page shows.

        Parameters
        ----------
        sides
            The recordings.
        command
            The shell's line that shows this.
        program
            The program that runs scripts.
        """
        self.sides = list(sides)
        self.command, self.program = command, program

    def about(self) -> Json:
        """Return what is known of the recordings."""
        recordings = [side.about() for side in self.sides]
        return {"recordings": recordings, "schema": schema(), "command": self.command, "version": VERSION}

    def waits(self, recording: int) -> bytes:
        """Return the waits of a recording, column by column."""
        return self.side(recording).columns()

    def filter(self, recording: int, event: str, text: str, strikes: Strikes = ()) -> Json:
        """Return which waits end at a switch that passes a filter or, for an event of another name, begin at one that does.
        With strikes, `new` says which of the new waits of `strike` do."""
        side = self.side(recording)
        return without(strikes, lambda chosen: answered(text, lambda: side.filter(event, text, chosen), event))

    def trigger(self, recording: int, event: str, text: str, strikes: Strikes = ()) -> Json:
        """Return the table of a trigger, without the events that are struck. If a desk doesn't hold the whole recording, `of`
        says which events it holds; otherwise `of` is None."""
        side = self.side(recording)
        return without(strikes, lambda chosen: answered(text, lambda: side.trigger(event, text, chosen), event))

    def wait(self, recording: int, place: tuple[int, int], window: Window = Window(), strikes: Strikes = ()) -> Json:
        """Return a wait, and what ran around it.

        Parameters
        ----------
        recording
            The number of the recording.
        place
            The CPU and the line of the event that begins or ends the wait.
        window
            The stretch of time to report.
        strikes
            If the event ends a wait without these events, it is that wait.
        """
        side = self.side(recording)
        return without(strikes, lambda chosen: answered("", lambda: side.wait(place, window, chosen)))

    def overview(self, recording: int, start: int, until: int, width: int) -> Json:
        """Return what all CPUs did between two stamps, in so many equal parts of that time.

        Raises
        ------
        ValueError
            If `until` isn't after `start`, or if `width` is out of range.
        """
        return self.side(recording).overview.window(start, until, width)

    def differences(self) -> Json:
        """Return the names and kinds that differ between two recordings, with their figures in both, as `Difference.table` has
        them. If there is only one recording, there are none."""
        if len(self.sides) < 2:
            return {"rows": []}
        before, after = (side.waits for side in self.sides)
        return {"rows": [plain_difference(row) for row in Difference(before, after).table("name")]}

    def strike(self, strikes: Strikes) -> Json:
        """Return what differs from `waits` without some events of the first recording."""
        side, began = self.side(0), time.perf_counter()
        return without(strikes, lambda chosen: {**side.strike(chosen), "seconds": time.perf_counter() - began})

    def script(self, recording: int, asked: AskedTrigger, strikes: Strikes) -> Json:
        """Return the script that gives the table of the waits, and that of a trigger, without some events, and the shell's line
        that runs it. `of` is the same as in the answer of `trigger`."""
        side = self.side(recording)
        return without(strikes, lambda chosen: answered("", lambda: side.script(asked, chosen, self.program)))

    def prepare(self) -> Iterator[None]:
        """Do what later answers need, step by step."""
        for side in self.sides:
            yield from side.prepare()

    def side(self, number: int) -> Side:
        """Return a recording by its number. Raises `ValueError` if there is none."""
        if not 0 <= number < len(self.sides):
            raise ValueError(f"there is no recording {number}")
        return self.sides[number]


class Remainder(NamedTuple):
    """What is left of a recording without some events.

    Attributes
    ----------
    waits
        Its waits.
    change
        How these differ from the waits of all events.
    answer
        What `Side.strike` returns.
    """

    waits: Waits
    change: Change
    answer: Json


class Side:
    """A recording: its waits, and what is asked of them."""

    def __init__(self, trace: Waits | Recording, remarks: Iterable[str] = ()) -> None:
        """Take a recording.

        Parameters
        ----------
        trace
            All waits of a recording that can be read again, or what was selected of one.
        remarks
            What is to be known of it besides the remarks of its waits.

        Raises
        ------
        TypeError
            If the waits are of no recording that can be read again.
            It also raises what `waits` raises.
        """
        self._remarks = tuple(remarks)
        self.again: Whole | Selected
        if isinstance(trace, Waits):
            if trace.source is None:
                raise TypeError("these are waits of no recording that can be read again")
            self.waits, self.again = trace, Whole(trace, trace.source)
        else:
            self.waits, self.again = waits(trace), Selected(trace)
        # The numbers by which the page knows tasks, by their names.
        self._tasks: dict[str, int] = {name: number for number, name in enumerate(self.waits._names.tolist())}
        self._overview: Overview | None = None
        self._steps: Iterator[None] | None = None
        # What is left without the events of the last few questions, the newest last: taking a strike back takes no time.
        self._remainders: dict[tuple[Chosen, ...], Remainder] = {}

    @property
    def overview(self) -> Overview:
        """What its CPUs did from its beginning to its end. All events are read for it when it is first asked for."""
        for _ in self.prepare():
            pass
        assert self._overview is not None
        return self._overview

    def prepare(self) -> Iterator[None]:
        """Do what `overview` needs, and thereby what `filter` needs, step by step; go on after the steps that were done."""
        while self._overview is None:
            self._steps = self._steps or self._gather()
            try:
                next(self._steps, None)
            except BaseException:
                # Whoever asks next hears of it, too.
                self._steps = None
                raise
            yield

    def _gather(self) -> Iterator[None]:
        """Read what its CPUs ran, part by part."""
        from .overview import Overview
        from .runs import Gatherer

        gatherer, held, records = Gatherer(), self.waits.held, self.waits._records
        for events, lines in self.again.events():
            gatherer.add(events, lines)
            yield
        runs = gatherer.finish(held.cpus, held.first or 0, held.last or 0, self.waits.holes)
        # If the CPUs of a wait lost events during it, it may be false, and isn't counted.
        likely = records[records["doubt"] != layout.DOUBTFUL]
        self._overview = Overview(runs, likely["begin_stamp"], likely["end_stamp"])

    def coarse_overview(self) -> Json:
        """Return what its CPUs did from its beginning to its end, in few enough parts for a saved page."""
        runs = self.overview.runs
        width = max(min(COARSE, CELLS // max(len(runs.lanes), 1)), 1)
        return self.overview.window(runs.first, runs.first + max(runs.length, 1), width)

    def about(self) -> Json:
        """Return what is known of it."""
        held = self.waits.held
        return {
            "path": self.waits.path,
            "events": held.events,
            "first": held.first,
            "last": held.last,
            "cpus": list(held.cpus),
            "warning": self.waits.warning,
            "remarks": [*self._remarks, *self.waits.remarks()],
            "holes": [hole_json(hole) for hole in self.waits.holes],
            "tasks": list(self._tasks),
            "waits": len(self.waits),
        }

    def columns(self) -> bytes:
        """Return the waits, column by column."""
        return self._columns_of(self.waits, self._tasks)

    def _columns_of(self, some: Waits, tasks: dict[str, int]) -> bytes:
        """Return some waits, of all events or without some, column by column. `tasks` has the numbers of known names; others
        are added."""
        records = some._records
        names = [tasks.setdefault(name, len(tasks)) for name in some._names.tolist()]
        columns = {name: records[name] for name, _ in COLUMNS if name in (records.dtype.names or ())}
        columns["begin"] = records["begin_stamp"] - (self.waits.held.first or 0)
        columns["micros"] = np.minimum(some._column("micros"), LONGEST)
        columns["name"] = np.array(names, "u4")[records["name"]] if len(records) else records["name"]
        columns["doubtful"] = some._column("doubtful")
        return packed(columns)

    def filter(self, event: str, text: str, chosen: Sequence[Chosen] = ()) -> Json:
        """Return the waits that a filter chooses; an empty one chooses all of that event. If events are struck, also return
        which new waits of `strike` it chooses."""
        events = self.again.matching(Chosen(event, text if text.strip() else ""))
        is_end = event == "sched_switch"
        first = chosen_among(self._ends if is_end else self._begins, events, len(self.waits))
        answer: Json = {"count": int(first.sum()), "chosen": bits(first)}
        if chosen:
            remainder = self.without(chosen)
            new = remainder.waits[remainder.change.new]
            answer["new"] = bits(chosen_among(places_of(new, "end" if is_end else "begin"), events, len(new)))
        return answer

    @cached_property
    def _ends(self) -> Places:
        """Where its waits end."""
        return places_of(self.waits, "end")

    @cached_property
    def _begins(self) -> Places:
        """Where its waits begin."""
        return places_of(self.waits, "begin")

    def strike(self, chosen: Sequence[Chosen]) -> Json:
        """Return what differs from `columns` without some events."""
        if chosen:
            return self.without(chosen).answer
        return strike_answer([], [], {"taken": "", "new": "", "count": 0, "tasks": {}}, [], Fate(0, 0, 0))

    def without(self, chosen: Sequence[Chosen]) -> Remainder:
        """Return what is left of it without some events. That of the last few questions is kept."""
        key = tuple(chosen)
        remainder = self._remainders.pop(key, None) or self._remainder(key)
        # The newest one is kept longest.
        self._remainders[key] = remainder
        while len(self._remainders) > ANSWERS:
            del self._remainders[next(iter(self._remainders))]
        return remainder

    def _remainder(self, chosen: tuple[Chosen, ...]) -> Remainder:
        """Return what is left of it without some events, for which it is read again."""
        less, left_out = self.again.without(chosen)
        change, tasks = change_of(self.waits, less, self._ends), self._tasks.copy()
        changed = {
            "taken": text_of(change.taken.astype("<u4").tobytes()),
            "new": text_of(self._columns_of(less[change.new], tasks)),
            "count": len(change.new),
            "tasks": {number: name for name, number in tasks.items() if number >= len(self._tasks)},
        }
        rows = fate_rows_of(self.waits, less, change)
        return Remainder(less, change, strike_answer(chosen, left_out, changed, rows, change.fate))

    def trigger(self, event: str, text: str, chosen: Sequence[Chosen] = ()) -> Json:
        """Return the table of a trigger without some events."""
        # A trigger that can't be attached to a desk without triggers is refused.
        with Desk() as empty:
            empty.attach(event, text)
        trigger = self.again.held.without(chosen).attach(event, text)
        try:
            rows, totals = trigger.rows(), trigger.totals()
            return {
                "trigger": trigger.canonical,
                "columns": list(trigger.names),
                "rows": [[cell(value) for value in row] for row in rows[:ROWS]],
                "totals": totals._asdict(),
                "more": len(rows[ROWS:]),
                "of": self.again.held.description,
            }
        finally:
            trigger.remove()

    def wait(self, place: tuple[int, int], window: Window = Window(), chosen: Sequence[Chosen] = ()) -> Json:
        """Return a wait, and what ran around it; see `View.wait`."""
        changed = Explainer(self.without(chosen).waits).wait_with("end", *place) if chosen else None
        return self.again.strip(changed or self.again.teller.wait_at(*place), window, MOST)

    def strips(self, some: Waits, most: int) -> Iterator[tuple[tuple[int, int], Json]]:
        """Return what `wait` returns for some of its waits, with where each ends, in the order in which they begin."""
        rows = some[some._column("begin_stamp").argsort(kind="stable")].array
        ends = zip(rows.end_cpu.tolist(), rows.end_line.tolist())
        return zip(ends, self.again.strips([wait_of(row) for row in rows], most))

    def script(self, asked: AskedTrigger, chosen: Sequence[Chosen], program: str) -> Json:
        """Return a script, and the line that runs it."""
        held = self.again.held
        check_loads(held.recording, self.again.is_whole)
        asked = AskedTrigger(*(text.strip() for text in asked))
        script = script_of(held.places(chosen), asked)
        return {"script": script, "command": command_of(program, self.waits.path, held.lines), "of": held.description}


def strike_answer(
    chosen: Sequence[Chosen], left_out: Sequence[LeftOut], changed: Json, rows: Sequence[FateRow], fate: Fate
) -> Json:
    """Return what is said of strikes: how many events each struck, which waits changed, their rows, and a report in words."""
    lines = [Strike(one.event, one.text.strip() or None, part.count, part.of) for one, part in zip(chosen, left_out)]
    return {
        "struck": [part.count for part in left_out],
        "changed": changed,
        "rows": [plain_row(row) for row in rows],
        "report": [*(f"without {line}" for line in lines), str(fate)],
    }


def places_of(some: Waits, end: str) -> Places:
    """Return where some waits begin, or where they end."""
    return Places(some._records[f"{end}_cpu"], some._records[f"{end}_line"])


def chosen_among(places: Places, events: Matches, count: int) -> NDArray[np.bool_]:
    """Return which of so many waits are at the place of one of some events; `places` are those of the waits."""
    mask: NDArray[np.bool_] = np.zeros(count, bool)
    waits = places.index(events.cpus, events.lines)
    mask[waits[waits >= 0]] = True
    return mask


def without(strikes: Strikes, ask: Callable[[list[Chosen]], Json]) -> Json:
    """Return the answer of `ask`, which takes the events that strikes name, or why one of these can't be struck.

    Raises
    ------
    ValueError
        If no wait begins or ends with one of them.
        It also raises what `ask` raises.
    """
    chosen = [Chosen(event, text if text.strip() else "") for event, text in strikes]
    try:
        check_chosen(chosen)
    except Refused as refused:
        number = getattr(refused, "which", 0)
        event, text = strikes[number]
        return {**refusal(refused, text, event), "strike": number}
    return ask(chosen)


# ---- plain data


def packed(columns: Json) -> bytes:
    """Return columns of numbers, one after the other."""
    parts = (columns[name].astype(form).tobytes() for name, form in COLUMNS)
    return b"".join(part + bytes(-len(part) % ALIGNED) for part in parts)


def bits(mask: NDArray[np.bool_]) -> str:
    """Return a mask as text: eight values to a byte, the first one in the lowest bit."""
    return text_of(np.packbits(mask, bitorder="little").tobytes())


def text_of(content: bytes) -> str:
    """Return bytes as text, in base 64."""
    return base64.b64encode(content).decode()


def plain_row(row: FateRow) -> Json:
    """Return a row in which something changed, as plain data."""
    sides = {side: None if counted is None else counted._asdict() for side, counted in zip(SIDES, row[-2:])}
    return {"task": row.task, "pid": row.pid, "kind": row.kind, **sides}


def plain_difference(row: DifferenceRow) -> Json:
    """Return a row in which something differs, in the form of `plain_row`. In another recording, the same tasks have other
    PIDs."""

    def side(figures: Figures) -> Json | None:
        return {name: getattr(figures, name) for name in FIGURES} if figures.count else None

    task, kind = row.key
    return {"task": task, "pid": None, "kind": kind, **dict(zip(SIDES, map(side, (row.before, row.after))))}


def cell(value: Any) -> Any:
    """Return a part of a row: powers and buckets as text."""
    return str(value) if isinstance(value, (Log2, Bucket)) else value


def answered(text: str, ask: Callable[[], Json], event: str = "") -> Json:
    """Return an answer, or why there is none: in words, and at which character of a text on an event."""
    try:
        return ask()
    except Refused as refused:
        return refusal(refused, text, event)
    except LookupError as error:
        return {"refused": str(error.args[0]), "at": None, "hint": ""}


def refusal(refused: Refused, text: str, event: str) -> Json:
    """Return why there is no answer, at which character of a text on an event, and what was probably meant."""
    given = layout.encode(text)
    place = place_in(refused, given)
    at = None if place is None else characters(given[:place])
    return {"refused": str(refused), "at": at, "hint": hint_of(refused, event, text)}


def characters(text: bytes) -> int:
    """Return how many characters a browser counts in the beginning of a text."""
    return len(layout.decode(text).encode("utf-16-le", "surrogatepass")) // 2
