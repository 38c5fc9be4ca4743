"""Waits: how long each task that could run waited for a processor, from what made it runnable to the switch that ran it."""

from __future__ import annotations

import operator
import warnings
from collections.abc import Callable, Collection, Iterable, Iterator, Sequence
from typing import TYPE_CHECKING, Any, NamedTuple, TypeVar, overload

import numpy as np

from .._public import public
from .._schema import SPARE_EVENTS
from ..desk.desk import Desk, Trace
from ..desk.recording import Choice, Recording, cpu_numbers, path_of, read_whole
from ..desk.slices import Slice, Source
from ..desk.values import Wait
from ..native import layout
from ..native.arrays import PLACE_TYPE
from ..native.library import library
from ..native.refusals import MOST_SHOWN, Refused, at_later_line
from ..show import tables
from ..show.frames import Times, finished, from_codes
from ..trace import wait_records
from ..trace.kind import check_kind
from ..trace.losses import Hole, Losses, LossWarning, reported
from ..trace.places import Place
from ..trace.stream import CHUNK, Backwards, Read, ReadText, StreamWaits, line_at, read_pieces, read_waits, end_waits
from ..trace.stream import held_waits
from ..trace.text import KeptText, Piece, Text, is_read_once, pieces_of, text_again
from ..trace.times import Stamp
from ..trace.wait_records import ChosenWaits, lowest_doubts
from . import parallel
from .counts import Counts
from .tally import LastNames, Tally
from .wait_answer import KINDS, NAMES, About, Held, WaitAnswer, table_of

if TYPE_CHECKING:
    from numpy.typing import NDArray
    from pandas import DataFrame  # type: ignore[import]

    from ..trace.wait_records import Structs

AnyAnswer = TypeVar("AnyAnswer")

# The events that no wait needs, which are left out first if a trace has more events than a desk holds.
SPARE = SPARE_EVENTS

# The fields of a row of `array`, in order.
FIELDS = [
    ("kind", f"=U{max(map(len, KINDS))}"),
    ("pid", "=i4"),
    ("prio", "=i4"),
    *((f"{end}_{name}", kind) for end in ("begin", "end") for name, kind in layout.PLACE_FIELDS),
    ("micros", "=i8"),
    ("doubtful", "?"),
    ("likely", "?"),
]
# What pandas takes columns of a table for, if not for whole numbers.
FRAMED = {"task": "object", "name": "object", "kind": "object", "mean": "float64"}
# How many waits are counted at once.
BATCH = 1 << 14
# How many rows are shown in a notebook or at a prompt.
MOST_ROWS = 20


@public
class Waits(WaitAnswer):
    """Waits of tasks for a processor, in the order in which they ended; `waits` makes it.

    What a wait is, of which kind, and when it is doubtful or likely, is in docs/REFERENCE.md, Waits.

    | Form | What it gives |
    |---|---|
    | `for wait in waits`, `waits[3]` | a `Wait` |
    | `waits.array` | a numpy record array |
    | `waits.names`, `waits.name(3)` | the names of the tasks, as given by the switches that run them |
    | `waits.table("task")` | a row for each task and kind, the greatest wait first; or `"name"`, `"cpu"`, `"prio"`, `"kind"` |
    | `waits.counts("task")` | `Counts`, which add up exactly over many recordings, and have other percentiles and histograms |
    | `waits.only(kinds="woken", cpus=[2], tasks="init")` | those of a kind, that ended on a CPU, or of a task |
    | `waits.warning`, `waits.omissions()`, `waits.remarks()` | what was lost or left out, and what else has to be known |
    | `waits[mask]` | those of a numpy mask |
    | `waits.to_pandas()` | a DataFrame of the waits one by one; with a word, of that table |

    The fields of the array are `kind`, `pid`, `prio`, `begin_stamp`, `begin_cpu`, `begin_line`, the same of `end_`, `micros`,
    `doubtful` and `likely`. Stamps are in microseconds; a CPU and a line name an event of the whole recording.
    """

    def __init__(self, records: Structs, names: NDArray[np.object_], about: About, source: Source | None = None) -> None:
        """Take an array of what is kept of each (`wait_records.RECORD_FIELDS`), the names of tasks by their numbers, what else
        is known, and the recording that they are of, if it is a whole one that can be read again."""
        self._records = records
        self._names = names
        self._about = about
        self._source = source
        self._array: np.recarray[Any, np.dtype[np.void]] | None = None

    @property
    def array(self) -> np.recarray[Any, np.dtype[np.void]]:
        """The waits one by one, as a numpy record array."""
        if self._array is None:
            array = np.zeros(len(self), FIELDS).view(np.recarray)
            array["kind"] = np.array(KINDS)[self._records["kind"]]
            for field, _ in FIELDS[1:]:
                array[field] = self._column(field)
            # A change of it would change nothing else.
            array.flags.writeable = False
            self._array = array
        return self._array

    def _column(self, field: str) -> NDArray[Any]:
        """Return a field of all waits; `kind` by its number."""
        records = self._records
        column: NDArray[Any]
        if field == "micros":
            column = records["end_stamp"] - records["begin_stamp"]
        elif field == "doubtful":
            column = records["doubt"] != layout.SURE
        else:
            column = records["doubt"] == layout.LIKELY if field == "likely" else records[field]
        return column

    # ---- what is known

    @property
    def source(self) -> Source | None:
        """What they are of, to read slices of it: a whole recording, or a stretch of time of one; None if they are of what a
        desk holds. It isn't pickled with them."""
        return self._source

    def with_bad_lines(self, count: int, first: int | None) -> Waits:
        """Return the same waits, as those of a text of which lines were left out.

        Parameters
        ----------
        count
            How many lines were left out.
        first
            The first of them, from 1; None if there is none.

        Returns
        -------
        Waits
            The same waits.
        """
        return Waits(self._records, self._names, self._about._replace(bad_lines=count, first_bad_line=first), self._source)

    def __getstate__(self) -> dict[str, Any]:
        return {**self.__dict__, "_source": None}

    @property
    def doubtful(self) -> int:
        return int(self._column("doubtful").sum())

    @property
    def likely(self) -> int:
        return int(self._column("likely").sum())

    def __len__(self) -> int:
        return len(self._records)

    # ---- the waits

    @property
    def names(self) -> NDArray[np.object_]:
        """The name of each wait's task, as a numpy array of texts."""
        names: NDArray[np.object_] = self._names[self._records["name"]]
        return names

    def name(self, at: int) -> str:
        """Return the name of a wait's task.

        Parameters
        ----------
        at
            The index of the wait.

        Returns
        -------
        str
            The name.

        Raises
        ------
        IndexError
            If there is no such wait.
        """
        return str(self._names[self._records["name"][at]])

    @overload
    def __getitem__(self, chosen: int) -> Wait:
        """Return the wait at this index."""

    @overload
    def __getitem__(self, chosen: slice | Sequence[int] | NDArray[Any]) -> Waits:
        """Return the waits that a numpy mask, a list of indices or a slice chooses."""

    def __getitem__(self, chosen: int | slice | Sequence[int] | NDArray[Any]) -> Wait | Waits:
        if isinstance(chosen, (int, np.integer)):
            at = range(len(self))[chosen]
            return next(iter(self[at : at + 1]))
        return Waits(self._records[chosen], self._names, self._about, self._source)

    def __iter__(self) -> Iterator[Wait]:
        """Go through the waits, in the order in which they ended."""
        for start in range(0, len(self), BATCH):
            some = self._records[start : start + BATCH]
            names = self._names[some["name"]].tolist()
            for name, (*ends, pid, prio, _, kind, doubt, _, _) in zip(names, some.tolist()):
                end, begin = Place(Stamp(ends[0]), *ends[1:3]), Place(Stamp(ends[3]), *ends[4:])
                is_doubtful, is_likely = doubt != layout.SURE, doubt == layout.LIKELY
                yield Wait(name, pid, prio, KINDS[kind], begin, end, end.stamp - begin.stamp, is_doubtful, is_likely)

    def only(
        self,
        *,
        kinds: str | Collection[str] | None = None,
        cpus: int | Collection[int] | None = None,
        tasks: str | int | Collection[str | int] | None = None,
    ) -> Waits:
        """Return some of the waits.

        Parameters
        ----------
        kinds
            Their kinds, or one kind; None for all.
        cpus
            The CPUs on which they ended, or one CPU; None for all.
        tasks
            The names or PIDs of their tasks, or one of these; None for all.

        Returns
        -------
        Waits
            These waits, in the same order.

        Raises
        ------
        ValueError
            If there is no such kind.
        TypeError
            If a CPU is no number, or a task neither a name nor a number.
        """
        chosen = chosen_of(kinds, cpus, tasks)
        return self if chosen.is_all() else self[chosen.mask(self._records, chosen.name_numbers(self._names))]

    # ---- counted

    def counts(self, by: str = "task", doubtful: bool = False) -> Counts:
        tally = Tally(by, doubtful)
        for start in range(0, len(self), BATCH):
            tally.add(self._records[start : start + BATCH])
        return tally.counts(self._names)

    def _last_names(self) -> dict[int, str]:
        last = LastNames()
        last.add(self._records)
        return last.by_pid(self._names)

    def _by_kind(self, doubtful: bool) -> list[int]:
        kinds = self._records["kind"] if doubtful else self._records["kind"][~self._column("doubtful")]
        counts: list[int] = np.bincount(kinds, minlength=len(KINDS)).tolist()
        return counts

    def to_pandas(self, by: str | None = None, doubtful: bool = False, *, times: Times = "micros") -> DataFrame:
        """Return the waits as a DataFrame, with names and CPUs as categories.

        Parameters
        ----------
        by, doubtful
            None for the waits one by one, with the names of the tasks in a column `task`; otherwise as for `table`.
        times
            `"micros"` for whole microseconds, `"timedelta"` for `timedelta64`.

        Returns
        -------
        pandas.DataFrame
            A row for each wait, or for each row of `table`.

        Raises
        ------
        ImportError
            If there is no pandas.
        """
        import pandas

        if by is not None:
            rows = pandas.DataFrame(self.table(by, doubtful), columns=NAMES[by])
            return finished(rows.astype({name: FRAMED.get(name, "Int64") for name in NAMES[by]}), times)
        tasks = from_codes(self._records["name"].astype("i8"), self._names.tolist())
        columns = {name: self.array[name] for name, _ in FIELDS[1:]}
        kinds = from_codes(self._records["kind"].astype("i8"), KINDS)
        return finished(pandas.DataFrame({"task": tasks, "kind": kinds, **columns}), times)

    # ---- how they are shown

    def _display(self) -> tuple[list[str], list[tables.Table], list[str]]:
        """Return what is shown: lines, the table, and what it lacks."""
        return self.lines(), [table_of("task", self.table(), MOST_ROWS)], self.omissions()

    def __repr__(self) -> str:
        lines, shown, foot = self._display()
        return "\n".join(["histdesk.Waits of " + lines[0], *lines[1:], *map(tables.in_text, shown), *foot])

    def _repr_html_(self) -> str:
        lines, shown, foot = self._display()
        return tables.in_html("; ".join(lines), shown, "; ".join(foot))


# ---- how they are read


def kind_names(kinds: str | Collection[str] | None) -> list[str] | None:
    """Return kinds of waits that were asked for, as a list; None for all. Raises `ValueError` if there is no such kind."""
    if kinds is None:
        return None
    names = [kinds] if isinstance(kinds, str) else list(kinds)
    unknown = set(names) - set(KINDS)
    if unknown:
        raise ValueError(f"{min(unknown, key=str)!r} is no kind of wait; the kinds are {', '.join(KINDS)}")
    return names


def task_names(tasks: str | int | Collection[str | int] | None) -> list[str | int] | None:
    """Return names and PIDs of tasks that were asked for, as a list; None for all. Raises `TypeError` if one is neither."""
    if tasks is None:
        return None
    several: Iterable[Any] = [tasks] if isinstance(tasks, (str, bytes)) or not isinstance(tasks, Iterable) else tasks
    return [task if isinstance(task, str) else operator.index(task) for task in several]


def chosen_of(
    kinds: str | Collection[str] | None, cpus: int | Collection[int] | None, tasks: str | int | Collection[str | int] | None
) -> ChosenWaits:
    """Return which waits are chosen. Raises what `kind_names`, `cpu_numbers` and `task_names` raise."""
    return ChosenWaits(kind_names(kinds), cpu_numbers(cpus), task_names(tasks))


@public
def waits(trace: Trace | Recording | Desk, *, lenient: bool = False, jobs: int | None = None) -> Waits:
    """Return the waits of a recording, which may be of any length: it is read in pieces, and 48 bytes of each wait are kept.

    Parameters
    ----------
    trace
        A path, the bytes of a trace, or an open file, packed by gzip or not; what `read` has read; or a desk. What can be read
        only once is kept in a temporary file for `source`. If the events aren't in time order, a desk holds them: no more than
        it has room for, which `remarks` of the answer says. Of a `Recording`, the waits are those of all that was asked for,
        even if a desk holds less. A desk of yours stays as it was; a wait that a struck event began or ended is another one,
        or none.
    lenient
        Whether lines that can't be read are left out.
    jobs
        How many parts of a file that isn't packed are read at once, each by a thread, and joined exactly; by default 1, or as
        many as there are processors, up to 16, if it has more than 200 MB.

    Returns
    -------
    Waits
        The waits, in the order in which they ended.

    Warns
    -----
    LossWarning
        If lines report that events were lost.

    Raises
    ------
    Refused
        If a line can't be read.
    OSError
        If the file can't be read.
    ValueError
        If it is a recording of perf or trace-cmd, with the tool that converts it; if a `Recording` holds only some CPUs, since
        tasks are woken from any; or if `jobs` isn't from 1 to 512.
    TypeError
        If it is no trace, or `jobs` is no whole number.
    ImportError
        If there is no numpy.

    >>> answer = waits(b'''
    ... a-1 [0] 1.000100: sched_waking: comm=w pid=42 prio=120 target_cpu=000
    ... a-1 [0] 1.000150: sched_switch: prev_comm=a prev_pid=1 prev_prio=9 prev_state=R ==> next_comm=w next_pid=42 next_prio=8
    ... w-42 [0] 1.000170: sched_switch: prev_comm=w prev_pid=42 prev_prio=8 prev_state=S ==> next_comm=a next_pid=1 next_prio=9
    ... ''')  # doctest: +SKIP
    >>> answer  # doctest: +SKIP
    histdesk.Waits of 3 events from 1.000100 to 1.000170 (0.000070 s) on CPU 0
    2 waits: 1 woken, 0 new, 1 preempted; times in microseconds
    task  pid  kind       count  total  mean  p50  p90  p99  max        at  where
    w      42  woken          1     50  50.0   50   50   50   50  1.000150  0:2
    a       1  preempted      1     20  20.0   20   20   20   20  1.000170  0:3
    """
    jobs = parallel.check_jobs(jobs)
    if isinstance(trace, Desk):
        return waits_of(trace, None)
    if isinstance(trace, Recording):
        answer, is_reported = waits_of_recording(trace, lenient), trace.is_reported
        trace.is_reported = True
    else:
        answer, is_reported = waits_of_text(trace, ReadOptions(lenient, jobs=jobs)), False
    if answer.warning and not is_reported:
        warnings.warn(answer.warning, LossWarning, stacklevel=2)
    return answer


WatchCall = Callable[[Piece], None]


class ReadOptions(NamedTuple):
    """How a whole text is read.

    Attributes
    ----------
    lenient
        Whether lines that can't be read are left out.
    watch
        What is called with each piece before it is read, or None.
    path
        The path by which the text is called, or None.
    keeps
        Whether what can be read only once is kept in a temporary file meanwhile.
    jobs
        How many parts are read at once; if it is None, `parallel.jobs_for` decides. A text that is summed up has one part.
    sums
        Whether it is also summed up by task and by CPU.
    reread
        What returns a text that can be read only once, and isn't kept, once more, after all of it was read; or None.
    """

    lenient: bool = False
    watch: WatchCall | None = None
    path: str | None = None
    keeps: bool = True
    jobs: int | None = 1
    sums: bool = False
    reread: Callable[[], Text] | None = None


def waits_of_text(trace: Trace, options: ReadOptions = ReadOptions()) -> Waits:
    """Return the waits of a whole text, which is called by its own path unless `options` has another one."""
    if options.path is None:
        options = options._replace(path=path_of(trace))

    def answer(text: ReadText, again: Text | None) -> Waits:
        return waits_of_stream(options.path, end_waits(text), again, options.lenient)

    return answer_of(answer, keep_all, trace, options)


def keep_all() -> wait_records.Kept:
    """Return what keeps all waits in memory."""
    return wait_records.Kept(CHUNK)


def answer_of(
    answer: Callable[[ReadText, Text | None], AnyAnswer],
    make_sink: Callable[[], wait_records.WaitSink],
    trace: Trace,
    options: ReadOptions,
) -> AnyAnswer | Waits:
    """Return what `answer` makes of a whole text that was read, and of the text if it can be read again; or the waits that a
    desk finds, if the text isn't in the order of time. `make_sink` makes what takes its waits."""
    again: Text | None = None if is_read_once(trace) else text_again(trace)
    if again:
        check_kind(again, options.path)
    kept = KeptText() if again is None and options.keeps else None
    pieces = watch_pieces(pieces_of(again or trace), options.watch, kept)
    jobs = parallel.jobs_for(again, 1 if options.sums else options.jobs)
    try:
        if again and jobs > 1:
            return answer(parallel.read_in_parts(again, jobs, options.lenient, make_sink, options.watch), again)
        return answer(read_pieces(pieces, options.lenient, make_sink(), options.sums), again or kept)
    except Backwards as error:
        if options.sums:
            raise
        text = again or text_after(pieces, kept, options.reread)
        if text is None:
            what = f"line {error}: its stamp is before that of the event above it; such a trace must be a file"
            raise ValueError(what) from None
        return waits_in_any_order(options.path, text.read(), Choice(), options.lenient)
    except Refused as error:
        error.path = path_of(trace) if options.path is None else options.path
        if again:
            show_line(error, again)
        raise


def watch_pieces(pieces: Iterator[Piece], watch: WatchCall | None, kept: KeptText | None) -> Iterator[Piece]:
    """Yield pieces of a text, after `watch` is called with each and it is kept."""
    for piece in pieces:
        if watch:
            watch(piece)
        if kept:
            kept.add(piece)
        yield piece


def text_after(pieces: Iterator[Piece], kept: KeptText | None, reread: Callable[[], Text] | None) -> Text | None:
    """Read the rest of a text that can be read only once, and return the whole text: what was kept of it, or what `reread`
    returns. If there is neither, return None, and read nothing."""
    if kept is None and reread is None:
        return None
    for _ in pieces:
        pass
    return kept if reread is None else reread()


def show_line(error: Refused, text: Text) -> None:
    """Add the line that can't be read to an error."""
    if error.line and hasattr(error, "add_note"):
        error.add_note(tables.printable(layout.decode(line_at(text, error.line)[:MOST_SHOWN])))


def waits_of_recording(recording: Recording, lenient: bool = False, watch: WatchCall | None = None) -> Waits:
    """Return the waits of what was asked for of a trace, however many events these are.

    Raises
    ------
    ValueError
        If it holds only some CPUs.
    """
    if recording.choice.cpus is not None:
        raise ValueError("waits need the events of all CPUs, since tasks are woken from any; waits(..).only(cpus=[..]) chooses")
    part = recording._slice
    if part is None or recording.choice.events is not None:
        return waits_of_part(recording)
    try:
        stream = stream_slice(recording, part, lenient, watch)
    except Backwards:
        return waits_in_any_order(recording.path, part.whole.read(), recording.choice, lenient or part.lenient)
    return waits_of_stream(recording.path, stream, part.text, lenient or part.lenient, recording.lines_from)


def stream_slice(
    recording: Recording, part: Slice, lenient: bool = False, watch: WatchCall | None = None, sums: bool = False
) -> StreamWaits:
    """Return the waits of a recording's slice, judged by what is missing in its time.

    Parameters
    ----------
    recording, part
        A recording, and its slice. The `losses` of the recording are known afterwards.
    lenient, watch, sums
        As in `ReadOptions`.

    Raises
    ------
    Backwards
        If the text isn't in time order.
    Refused
        If a line can't be read.
    """
    try:
        stream = read_waits(watch_pieces(part.text.pieces(), watch, None), lenient or part.lenient, part.is_whole, sums)
    except Refused as error:
        error.path = recording.path
        show_line(error, part.text)
        raise at_later_line(error, part.lines_before()) from None
    inside = reported(stream.read.losses)
    if part.is_whole:
        recording.losses = inside
        return stream
    if recording._losses is None:
        recording.losses = part.losses(recording.choice, inside)
    losses = recording.losses
    if not recording.is_of_source:
        shown = part.shown(stream.read.losses)
        losses = losses._replace(holes=(*losses.holes, *shown), shown=len(shown))
    judge(stream.records, losses.holes)
    bad_line = stream.read.first_bad_line
    first_bad_line = None if bad_line is None else bad_line + part.lines_before()
    return stream._replace(read=stream.read._replace(losses=losses, first_bad_line=first_bad_line))


def waits_of_stream(
    path: str | None, stream: StreamWaits, text: Text | None, lenient: bool, lines_from: Stamp | None = None
) -> Waits:
    """Return the waits of a text by its stream, the path of its file, if it has one, and the stamp from which its lines are
    counted."""
    about = about_text(path, stream.read, unknown_kinds(stream.records), lines_from)
    source = None if text is None else Source(text, path, stream.read.losses, lenient, stream.checkpoints)
    return Waits(stream.records, stream.names, about, source)


def about_text(path: str | None, read: Read, unknown: tuple[str, ...], lines_from: Stamp | None = None) -> About:
    """Return what else is known of the waits of a text; `unknown` has the kinds of which no event began a wait."""
    held = Held(sum(read.events.values()), read.first, read.last, tuple(sorted(read.events)))
    return About(path, held, read.losses, None, unknown, 0, *read[-4:], lines_from)


def unknown_kinds(records: Structs) -> tuple[str, ...]:
    """Return the kinds of which no event began a wait; `preempted` is one of them only if there are no waits at all, since
    there may have been no preempted task."""
    return unknown_of(np.bincount(records["kind"], minlength=len(KINDS)).tolist())


def unknown_of(counts: Sequence[int]) -> tuple[str, ...]:
    """Return the same, by how many waits there are of each kind."""
    return tuple(kind for kind, count in zip(KINDS, counts) if not count and not (kind == "preempted" and any(counts)))


def waits_in_any_order(path: str | None, text: bytes, choice: Choice, lenient: bool) -> Waits:
    """Return the waits of a text that isn't in the order of time, of which a desk holds the events that are asked for."""
    recording = read_whole(path, text, choice._replace(spare=SPARE), lenient)
    # The waits have the warning.
    recording.is_reported = True
    return waits_of_part(recording)


def waits_of_part(recording: Recording) -> Waits:
    """Return the waits of what was read of a trace, of which a desk holds the events."""
    with recording.desk() as desk:
        waits = waits_of(desk, recording)
    bad = recording.bad_lines
    return waits.with_bad_lines(len(bad), bad[0] if bad else None)


def waits_of(desk: Desk, recording: Recording | None) -> Waits:
    """Return the waits of the events that a desk holds. If it was made for a recording, lines are those of the whole
    recording."""
    kept = held_waits(desk._session)
    records, losses = kept.records(), Losses(desk.holes) if recording is None else recording.losses
    judge(records, losses.holes)
    if recording is not None:
        for end in ("begin", "end"):
            records[f"{end}_line"] = recording.lines(records[f"{end}_cpu"], records[f"{end}_line"])
    about = about_held(desk, recording, losses)._replace(unknown=unknown_kinds(records))
    return Waits(records, kept.names(), about)


def judge(records: Structs, holes: Collection[Hole]) -> None:
    """Write to the records how sure waits are by some holes."""
    records["doubt"] = doubts_of(records, holes)


def doubts_of(records: Structs, holes: Collection[Hole]) -> NDArray[np.int64]:
    """Return how sure waits are: whether their tasks were left asleep after they began, and whether holes overlap them, also of
    the CPUs on which they began and ended."""
    begins, ends = records["begin_stamp"], records["end_stamp"]
    doubt = np.where(doubts(begins, ends, holes), layout.LIKELY, lowest_doubts(records))
    for cpu in sorted({hole.cpu for hole in holes if hole.cpu is not None}):
        there = (records["begin_cpu"] == cpu) | (records["end_cpu"] == cpu)
        doubt[there & doubts(begins, ends, [hole for hole in holes if hole.cpu == cpu])] = layout.DOUBTFUL
    return doubt


def about_held(desk: Desk, recording: Recording | None, losses: Losses) -> About:
    """Return what else is known of the waits that a desk holds."""
    if recording is None:
        return About(None, held_by(desk), losses, missing=None)
    rest = recording.taken.rest if recording.taken else None
    return About(recording.path, held_by(desk), losses, rest, missing=None, lines_from=recording.lines_from)


def held_by(desk: Desk) -> Held:
    """Return what a desk holds."""
    lanes = {cpu: lane_places_of(desk, cpu).stamp for cpu, count in sorted(desk.cpus().items()) if count}
    first = min((Stamp(stamps.min()) for stamps in lanes.values()), default=None)
    last = max((Stamp(stamps.max()) for stamps in lanes.values()), default=None)
    return Held(sum(map(len, lanes.values())), first, last, tuple(lanes))


def lane_places_of(desk: Desk, cpu: int) -> np.recarray[Any, np.dtype[Any]]:
    """Return where the events of a CPU stand, by line."""
    return desk._session.records(library.histdesk_places_copy, PLACE_TYPE, library.histdesk_lane, cpu, 1)


def numbers_of(cpus: NDArray[np.uint32], lines: NDArray[np.uint32]) -> NDArray[np.int64]:
    """Return one number for each CPU and line."""
    return cpus.astype("i8") << 32 | lines


def doubts(begins: NDArray[np.int64], ends: NDArray[np.int64], holes: Collection[Hole]) -> NDArray[np.bool_]:
    """Return which waits, by the stamps at which they begin and end, span a hole or a part of one."""
    if not holes:
        return np.zeros(len(begins), bool)
    first, last = -1, np.iinfo("int64").max
    bounds = sorted(
        (first if hole.after is None else hole.after, last if hole.before is None else hole.before) for hole in holes
    )
    afters, befores = np.array(bounds, "int64").T
    # How many holes begin before each end, and how far these reach.
    reach = np.concatenate([[first], np.maximum.accumulate(befores)])
    return reach[np.searchsorted(afters, ends)] > begins
