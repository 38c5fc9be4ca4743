"""The text of the kernel's trace file, in which names that would mislead the desk are masked."""

from __future__ import annotations

import re
from collections.abc import Callable, Iterable, Sequence
from typing import TYPE_CHECKING

from . import line_patterns
from .columns import ColumnFormat
from .lines import ODD, Line
from .report import Report

if TYPE_CHECKING:
    from .text_format import Groups

# Makes each digit a nine. If a line matches with nines in place of its digits, it also matches with its own digits, since every
# place of the pattern that takes a nine takes any digit. Of the lines that differ only in digits, one is looked at.
SHAPE = bytes.maketrans(b"012345678", b"9" * 9)
# How many shapes of plain lines are kept.
MOST = 1 << 16
PLAIN = rb"(?=[^\[\n]{16}-)" + line_patterns.SURE.pattern


class KernelFormat(ColumnFormat):
    """The text of the kernel's trace file: a line that the desk reads, with its name in columns, stays as it is."""

    pattern = re.compile(rb"^(%b\n)" % PLAIN + ODD, re.MULTILINE | re.VERBOSE)
    plain_line = re.compile(PLAIN, re.MULTILINE | re.VERBOSE)
    name = "the kernel's trace file"

    def __init__(self) -> None:
        # The shapes of plain lines.
        self.known: set[bytes] = set()

    def unchanged(self, text: bytes) -> int:
        shapes = text.translate(SHAPE).split(b"\n")
        shapes.pop()
        if not self.known.issuperset(shapes):
            if len(self.known) > MOST:
                self.known.clear()
            self.known.update(filter(self.plain_line.fullmatch, {*shapes}.difference(self.known)))
        return len(shapes) if self.known.issuperset(shapes) else 0

    def find(self, text: bytes) -> Sequence[Groups]:
        lines, shapes = text.split(b"\n")[:-1], text.translate(SHAPE).split(b"\n")
        return [
            (line + b"\n", b"") if shape in self.known or self.plain_line.fullmatch(line) else (b"", line)
            for line, shape in zip(lines, shapes)
        ]

    def plain(self, matches: Sequence[Groups]) -> list[bytes]:
        return [line for line, _ in matches]

    def aside(self, line: bytes, report: Report) -> bytes | None:
        return line + b"\n" if line_patterns.SKIPPED.fullmatch(line) and not line.startswith(b" ") else None

    def parts(self, line: bytes, earlier: Callable[[], Iterable[bytes]]) -> Line:
        # The blanks before the name stay too.
        return super().parts(line, earlier)._replace(lead=line[: len(line) - len(line.lstrip(b" "))])
