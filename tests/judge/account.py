"""The kernel's own account of waits: `run_delay` of each task, the second number of /proc/PID/task/TID/schedstat.

It is how long the task has stood in a run queue without running, in nanoseconds. The kernel adds a wait when it ends, or when
the task is moved to another CPU. On a virtual machine, the time that its host took from each CPU is read too (`steal` of
/proc/stat): the kernel can't tell what happened meanwhile.
"""

import glob
import os
import time
from bisect import bisect_left, bisect_right
from collections import defaultdict
from typing import Dict, List, NamedTuple

# So many seconds lie between two readings.
PAUSE = 0.05
# The time that was taken from CPU n is read as the account of a task of this number less n, which none has.
TAKEN = -1
# How exact that is, in nanoseconds.
UNIT = 10**9 // os.sysconf("SC_CLK_TCK")


class Reading(NamedTuple):
    """The account of a task, read between two times of CLOCK_MONOTONIC; all in microseconds."""

    began: float
    delay: float
    ended: float


# The readings of each task, in order of time.
Readings = Dict[int, List[Reading]]


def now() -> int:
    return time.clock_gettime_ns(time.CLOCK_MONOTONIC)


def read_tasks(lines: List[str]) -> None:
    """Add a line for each task: its number, when its account was read, the account, and when that was done, in nanoseconds."""
    for path in glob.glob("/proc/[0-9]*/task/[0-9]*/schedstat"):
        began = now()
        try:
            with open(path, encoding="ascii") as file:
                delay = file.read().split()[1]
        except (OSError, IndexError):
            continue
        lines.append(f"{path.split('/')[4]} {began} {delay} {now()}\n")


def read_taken(lines: List[str]) -> None:
    """Add such a line for each CPU from which the machine's host has taken time."""
    began = now()
    with open("/proc/stat", encoding="ascii") as file:
        counts = [line.split() for line in file if line.startswith("cpu")]
    for name, *numbers in counts[1:]:
        if len(numbers) > 7 and numbers[7] != "0":
            lines.append(f"{TAKEN - int(name[3:])} {began} {int(numbers[7]) * UNIT} {now()}\n")


def watch(path: str, seconds: float) -> None:
    """Read the account of each task again and again for so long, and write the readings to a file."""
    lines: List[str] = []
    end = time.monotonic() + seconds
    read_taken(lines)
    while time.monotonic() < end:
        read_tasks(lines)
        read_taken(lines)
        time.sleep(PAUSE)
    with open(path, "w", encoding="ascii") as file:
        file.writelines(lines)


def readings_of(path: str) -> Readings:
    """Return what `watch` has written, without the tasks that have got the number of another one."""
    found: Readings = defaultdict(list)
    with open(path, encoding="ascii") as file:
        for line in file:
            pid, began, delay, ended = map(int, line.split())
            found[pid].append(Reading(began / 1000, delay / 1000, ended / 1000))
    return {pid: reads for pid, reads in found.items() if reads == sorted(reads, key=lambda read: read.delay)}


def taken(readings: Readings, begin: float, end: float) -> float:
    """Return how much of this time was taken from a CPU at most, in microseconds."""
    return max((taken_of(reads, begin, end) for pid, reads in readings.items() if pid <= TAKEN), default=0.0)


def taken_of(reads: List[Reading], begin: float, end: float) -> float:
    """Return how much of this time was taken at most from the CPU with these readings."""
    before = max(0, bisect_right([read.ended for read in reads], begin) - 1)
    after = min(len(reads) - 1, bisect_left([read.began for read in reads], end))
    return reads[after].delay - reads[before].delay + UNIT / 1000
