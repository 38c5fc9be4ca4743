#!/usr/bin/env python3
"""Times the library from Python beside the program: a load, latencies as numbers, rows as numbers.

    library.py [EVENTS]

Needs numpy. The program is ../histdesk or what HISTDESK names, the library what HISTDESK_LIBRARY names or the checkout's.
Each is run in turn, five times or as often as TIMES says, and the least time counts. Program and library have the same
pages: large ones, for which GLIBC_TUNABLES asks the C library.
"""

import os
import subprocess
import sys
import tempfile
import time

HERE = os.path.dirname(os.path.realpath(__file__))
PROGRAM = os.environ.get("HISTDESK") or os.path.join(HERE, "..", "histdesk")
TIMES = int(os.environ.get("TIMES", "5"))
# How many wakings there are, each with its switch: the most that a desk holds.
PAIRS = 524_288
# The most keys that a table holds.
KEYS = 131_072
SAVER = f"hist:keys=pid:size={KEYS}:ts{{n}}=common_timestamp.usecs"
READER = f"hist:keys=next_pid:size={KEYS}:lat=common_timestamp.usecs-$ts{{n}}"
TABLE = f"hist:keys=pid:size={KEYS}"


def large_pages():
    """Return the environment in which the C library asks for large pages."""
    given = os.environ.get("GLIBC_TUNABLES")
    return {**os.environ, "GLIBC_TUNABLES": ":".join(filter(None, [given, "glibc.malloc.hugetlb=1"]))}


def write_pairs(path):
    """Write wakings of KEYS tasks in turn, each followed by the switch to the task, 5 us later."""
    switch = "prev_comm=i prev_pid=0 prev_prio=120 prev_state=R ==> next_comm=w next_pid={pid} next_prio=120"
    with open(path, "w", encoding="ascii") as file:
        for at in range(PAIRS):
            pid, stamp = at % KEYS + 1, 10 * at
            seconds, micros = divmod(stamp, 1_000_000)
            file.write(f"a-1 [000] {seconds}.{micros:06}: sched_waking: comm=w pid={pid} prio=120 target_cpu=001\n")
            seconds, micros = divmod(stamp + 5, 1_000_000)
            file.write(f"i-0 [001] {seconds}.{micros:06}: sched_switch: {switch.format(pid=pid)}\n")


def by_program(script, trace):
    """Return the seconds that a run of the program takes."""
    begun = time.perf_counter()
    subprocess.run([PROGRAM, "-", trace], input=script.encode(), stdout=subprocess.DEVNULL, check=True, env=large_pages())
    return time.perf_counter() - begun


def by_package(what, trace):
    """Return what one of the functions below measures over this trace, in a process of its own."""
    words = [sys.executable, os.path.realpath(__file__), what, trace]
    ran = subprocess.run(words, stdout=subprocess.PIPE, check=True, env=large_pages())
    return [float(word) for word in ran.stdout.split()]


def desk_of(trace):
    sys.path.insert(0, os.path.join(HERE, "..", "python"))
    import histdesk

    desk = histdesk.Desk()
    begun = time.perf_counter()
    desk.load(trace)
    return desk, time.perf_counter() - begun


def load(trace):
    """Return the seconds that a load takes."""
    return [desk_of(trace)[1]]


def latencies(trace):
    """Return the seconds that it takes to get over a million latencies of two readers as arrays."""
    desk, _ = desk_of(trace)
    readers = []
    for n in (0, 1):
        desk.attach("sched_waking", SAVER.format(n=n))
        readers.append(desk.attach("sched_switch", READER.format(n=n)))
    import numpy

    numpy.zeros(1)
    begun = time.perf_counter()
    arrays = [reader.latencies() for reader in readers]
    took = time.perf_counter() - begun
    assert [len(array) for array in arrays] == [PAIRS, PAIRS] and all((array["micros"] == 5).all() for array in arrays)
    return [took]


def rows(trace):
    """Return the seconds that it takes to get the rows of a full table, and those for its text."""
    desk, _ = desk_of(trace)
    table = desk.attach("sched_waking", TABLE)
    table.totals()
    begun = time.perf_counter()
    count = len(table.rows())
    took = time.perf_counter() - begun
    begun = time.perf_counter()
    table.text()
    assert count == KEYS
    return [took, time.perf_counter() - begun]


def main():
    if sys.argv[1:2] and sys.argv[1] in ("load", "latencies", "rows"):
        print(*globals()[sys.argv[1]](sys.argv[2]))
        return
    events = sys.argv[1] if sys.argv[1:] else "1000000"
    with tempfile.TemporaryDirectory() as folder:
        trace, pairs = os.path.join(folder, "trace"), os.path.join(folder, "pairs")
        with open(trace, "wb") as file:
            subprocess.run([sys.executable, os.path.join(HERE, "make_trace.py"), events], stdout=file, check=True)
        write_pairs(pairs)
        listed = f"load @1\nattach sched_waking {SAVER.format(n=0)}\nattach sched_switch {READER.format(n=0)}\nlat 2\n"
        shown = f"load @1\nattach sched_waking {TABLE}\nhist 1\n"
        least = {}

        def keep(what, seconds):
            least[what] = min(least.get(what, seconds), seconds)

        for _ in range(TIMES):
            keep("load", by_program("load @1\n", trace))
            keep("package load", by_package("load", trace)[0])
            keep("listed", by_program(listed, pairs))
            keep("package latencies", by_package("latencies", pairs)[0])
            keep("shown", by_program(shown, pairs))
            in_numbers, as_text = by_package("rows", pairs)
            keep("package rows", in_numbers)
            keep("package text", as_text)
    print(f"the least of {TIMES} runs in turn, ms")
    print(
        f"load of {events} events: program {1e3 * least['load']:.0f}, package {1e3 * least['package load']:.0f}, "
        f"{least['package load'] / least['load']:.2f} times"
    )
    print(
        f"{2 * PAIRS} latencies of two readers as arrays: {1e3 * least['package latencies']:.0f}; the program's whole run "
        f"that lists the {PAIRS} of one: {1e3 * least['listed']:.0f}"
    )
    print(
        f"{KEYS} rows: {1e3 * least['package rows']:.0f} in numbers, {1e3 * least['package text']:.0f} as one text; the "
        f"program's whole run that prints them: {1e3 * least['shown']:.0f}"
    )


main()
