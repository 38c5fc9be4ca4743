#!/usr/bin/env python3
"""Refuses each growth of a program's memory in turn, while it runs the rows.

    growths.py PROGRAM LIBRARY ROW...

PROGRAM is `histdesk`, or `histwatch`, whose counts are not looked at. LIBRARY is built from refuse_growth.c, and ROW
is a folder with `script`, `trace1`.., `expected` and `status`. A run in which the growth N is refused, or each from N
on, prints the row's whole output and ends with its status; or it says that memory ran out, and has printed the whole
output of some first lines of the script. N goes from 1 to the last growth that a run makes.

It prints a line for each row that fails, and a last line with the counts.
"""

import concurrent.futures
import itertools
import os
import re
import subprocess
import sys
import tempfile

# What `histwatch` says last.
COUNTS = re.compile(rb"histwatch: \d+ edits, \d+ rows, \d+ without a report\n")
# A run that takes more seconds than this is ended, and its row fails.
LIMIT = 120
# Only a trace of thousands of lines takes more growths than MOST, one for every few lines, and such runs are slow. So only
# some of its growths are refused: the first, the last, and every EACH-th between them.
MOST, EACH = 300, 10


class Wrong(Exception):
    """What is wrong with a row."""


class Row:
    def __init__(self, program, library, path, folder):
        self.path, self.folder = path, folder
        self.program, self.library = os.path.abspath(program), os.path.abspath(library)
        self.no_memory = (2, os.path.basename(program).encode() + b": out of memory\n")
        self.script = self.bytes_of("script")
        self.expected = self.bytes_of("expected")
        self.status = int(self.bytes_of("status"))
        names = (os.path.join(path, f"trace{number}") for number in itertools.count(1))
        self.traces = list(itertools.takewhile(os.path.exists, names))

    def bytes_of(self, name):
        with open(os.path.join(self.path, name), "rb") as file:
            return file.read()

    def run(self, script, **more):
        """Return the status, standard error and output of a run."""
        command = [self.program, script, *self.traces]
        env = {**os.environ, **more}
        ran = subprocess.run(command, env=env, stdin=subprocess.DEVNULL, capture_output=True, timeout=LIMIT)
        return (ran.returncode, COUNTS.sub(b"", ran.stderr)), ran.stdout

    def run_counted(self, **more):
        """Run the row with growths refused, and return what `run` returns, and how many growths the run made."""
        path = os.path.join(self.folder, "count")
        ran = self.run(os.path.join(self.path, "script"), LD_PRELOAD=self.library, REFUSE_COUNT=path, **more)
        if not os.path.exists(path):
            raise Wrong(f"{more}: status {ran[0][0]}, no end by itself")
        with open(path) as file:
            count = int(file.read())
        os.remove(path)
        return ran, count

    def cuts(self):
        """Return how long the output is after each of the first lines of the script."""
        lines, lengths = re.findall(rb"[^\n]*\n|[^\n]+", self.script), set()
        path = os.path.join(self.folder, "script")
        for number in range(len(lines) + 1):
            with open(path, "wb") as file:
                file.write(b"".join(lines[:number]))
            _, printed = self.run(path)
            if not self.expected.startswith(printed):
                raise Wrong(f"another output of the first {number} lines")
            lengths.add(len(printed))
        return lengths

    def check(self):
        """Check the row, and return how many runs there were."""
        whole = ((self.status, b""), self.expected)
        ran, count = self.run_counted()
        if ran != whole:
            raise Wrong(f"nothing refused: {ran[0]}, or other output")
        cuts = self.cuts()
        numbers = numbers_to(count)
        for number, mode in itertools.product(numbers, ["REFUSE_AT", "REFUSE_FROM"]):
            ran, made = self.run_counted(**{mode: str(number)})
            is_cut = ran[0] == self.no_memory and len(ran[1]) in cuts and self.expected.startswith(ran[1])
            if made < number or not is_cut and ran != whole:
                raise Wrong(f"{mode}={number}: {ran[0]}, {len(ran[1])} bytes of output")
        return 2 * len(numbers)


def numbers_to(last):
    if last <= MOST:
        return range(1, last + 1)
    third = MOST // 3
    return [*range(1, third), *range(third, last - third, EACH), *range(last - third, last + 1)]


def check(program, library, path):
    """Return what is wrong with a row, or an empty text, and how many runs there were."""
    with tempfile.TemporaryDirectory() as folder:
        try:
            return "", Row(program, library, path, folder).check()
        except (Wrong, OSError, ValueError, subprocess.TimeoutExpired) as wrong:
            return str(wrong), 0


def main():
    program, library, *paths = sys.argv[1:]
    with concurrent.futures.ThreadPoolExecutor(len(os.sched_getaffinity(0))) as pool:
        results = list(pool.map(lambda path: check(program, library, path), paths))
    for path, (wrong, _) in zip(paths, results):
        if wrong:
            print(f"growths refused, {os.path.basename(path)}: {wrong}")
    good = sum(not wrong for wrong, _ in results)
    print(f"{good} of {len(paths)} rows hold, {sum(runs for _, runs in results)} runs")
    sys.exit(good < len(paths))


main()
