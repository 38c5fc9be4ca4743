"""bars [FILE]...: draws the tables with one key in the output of histdesk."""

from __future__ import annotations

import re
import sys
from typing import IO, Iterator, NamedTuple, Sequence

from . import arguments, process

DESCRIPTION = """\
Draws the tables with one key in the output of histdesk. Each row becomes the key, its count and a bar of @: 40 of them
for the largest count of the table, and at least one for any other. Sums are left out. If the key has .log2 or .buckets=,
rows without a bar show between which rows nothing was counted; two dots mean more than 20 of them, or any number
of them from 2^53 on. All other lines are printed as they are, including tables with several keys."""
# The longest bar, and how many rows fill a gap at most.
LONGEST, MOST_IN_GAP = 40, 20
HEADING = re.compile(rb"# trigger info: hist:keys=([^:]*)")
ROW = re.compile(rb"\{ (.*?) +\} hitcount: +([0-9]+)(?:  [A-Za-z_][A-Za-z0-9_]*: +[0-9]+)*")
# From this number on, no gap is filled.
LAST = 1 << 53


class Bar(NamedTuple):
    """A row of a table: its key and its hitcount."""

    key: bytes
    hits: int


class HistText:
    """A table with one key."""

    def __init__(self, key: bytes) -> None:
        """Begin a table of a key, as the trigger has it."""
        field, _, modifier = key.partition(b".")
        self.rows: list[Bar] = []
        # What precedes the number in a row, and the difference of the numbers of adjacent rows, or 0.
        self.front, self.step = field + b": ~ ", 0
        if modifier == b"log2":
            self.front, self.step = self.front + b"2^", 1
        elif modifier.startswith(b"buckets="):
            self.step = int(modifier[len(b"buckets=") :])

    def lines(self) -> Iterator[bytes]:
        """Go through the lines that are drawn."""
        most = max((row.hits for row in self.rows), default=0)
        width = max((len(row.key) for row in self.rows), default=0)
        before: Bar | None = None
        for row in self.rows:
            for filler in self.between(before, row) if before and self.step else ():
                yield b".." if filler is None else bar_of(filler, most, width)
            yield bar_of(row, most, width)
            before = row

    def number(self, row: Bar) -> int:
        """Return the exponent of a row, or the first number of its bucket."""
        digits = re.match(rb"[0-9]*", row.key[len(self.front) :].lstrip())
        return int(digits[0]) if digits and digits[0] else 0

    def between(self, before: Bar, after: Bar) -> Iterator[Bar | None]:
        """Go through the rows that are missing between two others; None for two dots."""
        start, end = self.number(before) + self.step, self.number(after)
        if end > start + MOST_IN_GAP * self.step or (end > start and end >= LAST):
            yield None
            return
        for number in range(start, end, self.step):
            last = b"" if self.front.endswith(b"^") else b"-%d" % (number + self.step - 1)
            yield Bar(b"%b%d%b" % (self.front, number, last), 0)


def bar_of(row: Bar, most: int, width: int) -> bytes:
    """Return the line that is drawn for a row.

    Parameters
    ----------
    row
        The row. Its bar is as long as its share of the largest count, rounded up.
    most
        The largest count of the table.
    width
        How many bytes its longest key has.
    """
    bar = b"@" * -(-LONGEST * row.hits // most) if most else b""
    return (b"%b %10d  %b" % (row.key.ljust(width), row.hits, bar)).rstrip(b" ")


def draw(file: IO[bytes], sink: IO[bytes]) -> None:
    """Print a file, with bars for the tables that have one key."""
    table: HistText | None = None
    for line in file:
        text = line.rstrip(b"\n")
        heading = HEADING.match(text)
        row = ROW.fullmatch(text) if table else None
        if table and row:
            table.rows.append(Bar(row[1], int(row[2])))
            continue
        if table and table.rows:
            sink.writelines(bar + b"\n" for bar in table.lines())
            table.rows = []
        if heading:
            table = None if b"," in heading[1] else HistText(heading[1])
        sink.write(text + b"\n")
    if table:
        sink.writelines(bar + b"\n" for bar in table.lines())


def work(argv: Sequence[str] | None) -> int:
    """Print the files, and return the exit status."""
    parser = arguments.parser("bars", DESCRIPTION)
    parser.add_argument(
        "files", metavar="FILE", nargs="*", help="the output of histdesk; by default, or if it is -, standard input"
    )
    for path in parser.parse_args(argv).files or ["-"]:
        if path == "-":
            draw(sys.stdin.buffer, sys.stdout.buffer)
        else:
            with open(path, "rb") as file:
                draw(file, sys.stdout.buffer)
    return process.SUCCESS


def main(argv: Sequence[str] | None = None) -> int:
    """Run the tool; see `process.run`."""
    return process.run("bars", lambda: work(argv))
