"""Tables as people read them, in a terminal and in a notebook."""

from __future__ import annotations

import html
from typing import Callable, NamedTuple, Sequence

# How many rows of a long table are printed from each end.
ENDS = 10
GAP = ".."


class Table(NamedTuple):
    """Some rows of a table, from both ends if it is long.

    Attributes
    ----------
    names
        The names of the columns.
    front, back
        The rows at the beginning, and those at the end.
    left_out
        How many rows are left out between them.
    """

    names: Sequence[str]
    front: Sequence[Sequence[object]]
    back: Sequence[Sequence[object]]
    left_out: int

    def rows(self) -> list[Sequence[object] | None]:
        """Return the rows, with None if some are left out there."""
        return [*self.front, *([None] if self.left_out else []), *self.back]


def table_of(names: Sequence[str], count: int, row: Callable[[int], Sequence[object]]) -> Table:
    """Return a table.

    Parameters
    ----------
    names
        The names of its columns.
    count
        How many rows it has.
    row
        Makes a row, by its index; it is called for those that are printed.
    """
    front = min(count, ENDS)
    back = max(count - ENDS, front)
    return Table(names, list(map(row, range(front))), list(map(row, range(back, count))), back - front)


def printable(value: object) -> str:
    """Return a value on one line, with characters that a terminal prints: others are escaped, and None is empty."""
    text = "" if value is None else str(value)
    return text if text.isprintable() else "".join(map(escape, text))


def count_of(count: int, what: str, ending: str = "s") -> str:
    """Return a number with what it counts, which is given in the singular: `1 line`, `2 lines`; `ending` makes the plural."""
    return f"{count} {what}{ending * (count != 1)}"


def are(count: int) -> str:
    """Return the verb for so many."""
    return "is" if count == 1 else "are"


def rate(number: float) -> str:
    """Return a number with the digits that matter."""
    return f"{number:.1f}" if abs(number) < 1000 else f"{number:.0f}"


def percent(share: float) -> str:
    """Return the share by which something grew."""
    return f"{share:+.1%}" if abs(share) < 0.1 else f"{share:+.0%}"


def escape(character: str) -> str:
    """Return a character as it can be printed; a byte that isn't UTF-8 as `\\xff`."""
    if character.isprintable():
        return character
    if "\udc80" <= character <= "\udcff":
        return f"\\x{ord(character) - 0xDC00:02x}"
    return character.encode("unicode_escape").decode("ascii")


# ---- in a terminal


def in_text(table: Table) -> str:
    """Return a table in columns, two spaces apart: numbers to the right, texts to the left."""
    rows = [[GAP] * len(table.names) if row is None else [printable(value) for value in row] for row in table.rows()]
    lines = [list(table.names), *rows]
    widths = [max(len(line[at]) for line in lines) for at in range(len(table.names))]
    right = [is_right(table, at) for at in range(len(table.names))]
    return "\n".join(pad(line, widths, right) for line in lines)


def pad(cells: Sequence[str], widths: Sequence[int], right: Sequence[bool]) -> str:
    """Return a line of a table from its cells, the widths of their columns, and which of these stand to the right."""
    sides = (cell.rjust(width) if side else cell.ljust(width) for cell, width, side in zip(cells, widths, right))
    return "  ".join(sides).rstrip()


def is_right(table: Table, at: int) -> bool:
    """Return whether a column, by its index, is of numbers."""
    values = [row[at] for row in [*table.front, *table.back]]
    return all(value is None or isinstance(value, (int, float)) for value in values)


# ---- in a notebook


def in_html(title: str, tables: Sequence[Table], foot: str = "") -> str:
    """Return tables between a title and a last line."""
    parts = [f"<p><code>{html.escape(printable(title))}</code></p>", *map(html_table, tables)]
    if foot:
        parts.append(f"<p>{html.escape(foot)}</p>")
    return "<div>" + "".join(parts) + "</div>"


def html_table(table: Table) -> str:
    """Return one table."""
    head = "".join(f"<th>{html.escape(name)}</th>" for name in table.names)
    body = "".join(map(html_row, (row or [GAP] * len(table.names) for row in table.rows())))
    return f"<table><thead><tr>{head}</tr></thead><tbody>{body}</tbody></table>"


def html_row(row: Sequence[object]) -> str:
    """Return a row of a table."""
    return "<tr>" + "".join(f"<td>{html.escape(printable(value))}</td>" for value in row) + "</tr>"
