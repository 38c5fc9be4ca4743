"""What ran on a CPU, in at most so many stretches: if there are more, short ones that lie side by side are put together."""

from __future__ import annotations

from typing import TYPE_CHECKING, Any

import numpy as np

from ..explain.stretches import NOTHING, Stretch, Stretches

if TYPE_CHECKING:
    from numpy.typing import NDArray


def thin(stretches: Stretches, most: int, own: int) -> list[dict[str, Any]]:
    """Return the stretches of a CPU as plain data.

    Parameters
    ----------
    stretches
        What ran, in order, without gaps.
    most
        About how many are wanted. If there are more, the time is divided into half as many cells, and stretches that are
        shorter than a cell and begin in the same one are put together.
    own
        The PID of a task whose stretches are all wanted one by one.

    Returns
    -------
    list of dict
        A stretch as `stretch_of` has it, or what is put together: with the `count` of its stretches, for how many
        microseconds the CPU was `busy` with tasks, and `lost`, whether there is a stretch of which it isn't known what ran.
    """

    if len(stretches) <= most:
        return [stretch_of(one) for one in stretches]
    columns = stretches.columns
    first = group_starts(columns.begin, columns.end, columns.pid == own, most // 2)
    counts = np.diff(first, append=len(stretches))
    micros = stretches.micros
    busy = np.add.reduceat(np.where((columns.pid != 0) & (columns.pid != NOTHING), micros, 0), first)
    lost = np.add.reduceat(columns.pid == NOTHING, first)
    ends = columns.end[first + counts - 1]
    return [
        stretch_of(stretches[at])
        if count == 1
        else {"begin": begin, "end": end, "count": count, "busy": run, "lost": is_lost > 0}
        for at, begin, end, count, run, is_lost in zip(
            *(column.tolist() for column in (first, columns.begin[first], ends, counts, busy, lost))
        )
    ]


def group_starts(begins: NDArray[Any], ends: NDArray[Any], is_own: NDArray[Any], cells: int) -> NDArray[np.intp]:
    """Return the first stretch of each group of stretches that are put together, in order."""

    span = int(ends[-1] - begins[0])
    cell = (begins - begins[0]) * cells // max(span, 1)
    is_single = ((ends - begins) * cells >= span) | is_own
    is_first = np.ones(len(begins), bool)
    is_first[1:] = is_single[1:] | is_single[:-1] | (cell[1:] != cell[:-1])
    return np.flatnonzero(is_first)


def stretch_of(stretch: Stretch) -> dict[str, Any]:
    """Return a stretch in which one task ran as plain data; it is lost if it isn't known which."""
    return {
        "task": stretch.task,
        "pid": stretch.pid,
        "prio": stretch.prio,
        "begin": stretch.begin,
        "end": stretch.end,
        "state": stretch.left,
        "lost": stretch.pid is None,
    }
