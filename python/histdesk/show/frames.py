"""Columns of DataFrames: names and CPUs as categories, and times as numbers or as `Timedelta`."""

from __future__ import annotations

from typing import TYPE_CHECKING, Literal, Sequence

if TYPE_CHECKING:
    import numpy as np
    from numpy.typing import NDArray
    from pandas import Categorical, DataFrame  # type: ignore[import]

# How times are in a DataFrame: as whole microseconds, or as `timedelta64`.
Times = Literal["micros", "timedelta"]

# Columns of names, of CPUs and of times, in whatever DataFrame they stand.
NAME_COLUMNS = frozenset(("task", "name", "kind", "comm", "prev_comm", "prev_state"))
CPU_COLUMNS = frozenset(("cpu", "target_cpu", *(f"{end}_cpu" for end in ("begin", "end", "saved", "read"))))
FIGURE_COLUMNS = ("total", "mean", "p50", "p90", "p99", "max")
TIMES = frozenset(
    (
        *("stamp", *(f"{end}_stamp" for end in ("begin", "end", "saved", "read")), "micros"),
        *(*FIGURE_COLUMNS, *(f"{figure}_{side}" for figure in FIGURE_COLUMNS for side in ("before", "after"))),
        *("run_time", "busy", "idle", "idle_with_waiters", "longest", "longest_from", "unknown"),
    )
)


def categories_of(texts: Sequence[str | None]) -> Categorical:
    """Return texts as categories, and None as nothing.

    pandas itself takes texts for equal that differ only after a zero byte.
    """
    import numpy as np

    numbers: dict[str, int] = {}
    codes = [-1 if text is None else numbers.setdefault(text, len(numbers)) for text in texts]
    return from_codes(np.array(codes, "i8"), list(numbers))


def from_codes(codes: NDArray[np.int64], texts: Sequence[str]) -> Categorical:
    """Return categories of those texts that are used, in order.

    Parameters
    ----------
    codes
        The index of each text among `texts`; -1 for nothing.
    texts
        Different texts.
    """
    import numpy as np
    import pandas

    used = np.flatnonzero(np.bincount(codes[codes >= 0], minlength=len(texts))).tolist()
    used.sort(key=lambda number: texts[number])
    # The last one is that of -1.
    places = np.full(len(texts) + 1, -1)
    places[used] = np.arange(len(used))
    categories = np.empty(len(used), object)
    categories[:] = [texts[number] for number in used]
    return pandas.Categorical.from_codes(places[codes], categories=categories)


def finished(frame: DataFrame, times: Times) -> DataFrame:
    """Return a DataFrame with its names and CPUs as categories; those of CPUs are ordered.

    Parameters
    ----------
    frame
        The DataFrame, whose times are numbers of microseconds.
    times
        `"micros"` to leave times as they are, `"timedelta"` for `timedelta64`.

    Raises
    ------
    ValueError
        If `times` is neither.
    """
    import pandas

    if times not in ("micros", "timedelta"):
        raise ValueError(f"times are 'micros' or 'timedelta', and not {times!r}")
    frame = frame.astype({column: pandas.CategoricalDtype(ordered=True) for column in frame.columns if column in CPU_COLUMNS})
    for column in frame.columns:
        if column in NAME_COLUMNS and str(frame[column].dtype) != "category":
            texts = frame[column].astype(object)
            frame[column] = categories_of(texts.where(texts.notna(), None).tolist())
    for column in [name for name in frame.columns if name in TIMES] if times == "timedelta" else ():
        if str(frame[column].dtype) == "float64":
            # Rounded to nanoseconds, since nothing finer is kept.
            frame[column] = pandas.to_timedelta((frame[column] * 1000).round().astype("Int64"), unit="ns")
        else:
            frame[column] = pandas.to_timedelta(frame[column], unit="us")
    return frame
