"""The texts whose lines begin with `COMM-PID [CPU] FLAGS STAMP: EVENT`, which are those of trace-cmd and of the kernel."""

from __future__ import annotations

import re
from collections.abc import Callable, Iterable

from .lines import OWN, Line, NotConvertible, round_stamp
from .report import Report
from .text_format import TextFormat

# The name is aligned to the right in 16 columns.
COLUMNS = 16
TAIL = rb"(-[0-9]+ +(?:\( *[0-9-]+\) +)?\[[0-9]+\] +(?:[^ :\n]+ +)?)([0-9]{1,10})\.([0-9]{6}|[0-9]{9}): *(.*)"
STRICT = re.compile(rb"(.{16})" + TAIL, re.DOTALL)
# If STRICT doesn't match, as for a longer name or if blanks were taken away, the line is cut as the desk does it.
LOOSE = re.compile(rb"( *[^\n]*?)" + TAIL, re.DOTALL)
LOST = re.compile(rb"CPU:([0-9]+) \[(?:LOST )?([0-9]+ )?EVENTS(?: DROPPED)?\]")
# What has a CPU and a stamp is no piece of a name.
FRONTED = re.compile(rb"-[0-9]+ +(?:\( *[0-9-]+\) +)?\[[0-9]+\] +(?:[^ :\n]+ +)?[0-9]+\.[0-9]{6}")


class ColumnFormat(TextFormat):
    """A text with the name, the dash and the number of the task in columns."""

    # Whether lines in which the name has other columns are converted.
    is_loose = True

    def aside(self, line: bytes, report: Report) -> bytes | None:
        lost = LOST.fullmatch(line)
        if lost:
            report.lose(int(lost[1]), int(lost[2]) if lost[2] else None)
            return b"CPU:%d [LOST %sEVENTS]\n" % (int(lost[1]), lost[2] or b"")
        return line + b"\n" if not line or line.startswith(b"#") else None

    def split(self, line: bytes) -> re.Match[bytes] | None:
        """Return the parts of a line as its pattern cuts it, or None."""
        return STRICT.fullmatch(line) or (LOOSE.fullmatch(line) if self.is_loose else None)

    def fields(self, label: bytes, text: bytes) -> bytes:
        """Return the fields of an event in the kernel's layout, by what stands after its label and the colon."""
        return text.strip(b" ")

    def parts(self, line: bytes, earlier: Callable[[], Iterable[bytes]]) -> Line:
        match = self.split(line)
        if not match:
            raise NotConvertible("not of the form COMM-PID [CPU] SECONDS.FRACTION: EVENT: FIELDS")
        task, middle, seconds, fraction, rest = match.groups()
        label, colon, text = rest.partition(b":")
        if not colon or b" " in label:
            label, text = b"", rest
        return Line(task.lstrip(b" "), middle, round_stamp(seconds, fraction), label, self.fields(label, text))

    def may_follow(self, text: bytes, piece: bytes | None) -> bool:
        match = self.split(text)
        if match:
            return bool(OWN.fullmatch(match[5].partition(b":")[0])) and not (piece and FRONTED.search(piece))
        return text.startswith(b" ") and len(text) < COLUMNS
