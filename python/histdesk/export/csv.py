"""Tables as CSV and as JSON lines, from which the same values can be read back."""

from __future__ import annotations

import itertools
import json
import re
from typing import IO, Callable, Iterable, Iterator, Sequence

from .._public import public

# What stands for a byte in an escaped name.
ESCAPE = re.compile(rb"\\(?:x([0-9a-f]{2})|\\)")
# So many rows are written at once.
ROWS = 10000


@public
def escaped(text: str) -> str:
    r"""Return a name as the tools write it into CSV.

    Parameters
    ----------
    text
        The name; bytes that aren't UTF-8 as `surrogateescape` keeps them.

    Returns
    -------
    str
        The name with such bytes and control characters as `\xNN`, and a backslash as two. `unescaped` reverses this.

    Examples
    --------
    >>> print(escaped("a\tb\udcff\\"))
    a\x09b\xff\\
    """
    return text if text.isprintable() and "\\" not in text else "".join(map(escape_of, text))


def escape_of(character: str) -> str:
    """Return a character as `escaped` writes it."""
    number = ord(character)
    if character == "\\":
        return "\\\\"
    if 0xDC80 <= number <= 0xDCFF:
        return f"\\x{number - 0xDC00:02x}"
    # The control characters from 128 on are two bytes.
    if number < 0x20 or 0x7F <= number < 0xA0:
        return "".join(f"\\x{byte:02x}" for byte in character.encode())
    return character


@public
def unescaped(text: str) -> str:
    r"""Return the name that the tools write into CSV as this text.

    Parameters
    ----------
    text
        What `escaped` returned. Of another text, in which a backslash stands for itself, the answer may be another name.

    Returns
    -------
    str
        The name; bytes that aren't UTF-8 as `surrogateescape` keeps them.

    Examples
    --------
    >>> unescaped(r"a\x09b\xff\\") == "a\tb\udcff\\"
    True
    """
    raw = text.encode("utf-8", "surrogateescape")
    return ESCAPE.sub(unescape, raw).decode("utf-8", "surrogateescape")


def unescape(match: re.Match[bytes]) -> bytes:
    """Return what an escape stands for."""
    return bytes([int(match[1], 16)]) if match[1] else b"\\"


class CellTexts(dict[object, str]):
    """Texts of values, each made once."""

    def __init__(self, make: Callable[[object], str]) -> None:
        """Take what makes the text of a value."""
        super().__init__()
        self._make = make

    def __missing__(self, value: object) -> str:
        text = self[value] = self._make(value)
        return text


def write_csv(file: IO[bytes], names: Sequence[str], rows: Iterable[Sequence[object]]) -> None:
    """Write rows below the names of their columns, in UTF-8.

    Texts are escaped, None is nothing, and truth is `true` or `false`. Fields are quoted as RFC 4180 says, and lines end with a
    line feed only.

    Parameters
    ----------
    file
        Where they are written.
    names
        The names of the columns.
    rows
        The rows, of texts, numbers, truth and None.
    """
    file.write(",".join(map(quote, names)).encode() + b"\n")
    for part in batches_of(rows):
        columns = [cell_texts(column, csv_cell) for column in zip(*part)]
        file.write("".join(f"{line}\n" for line in map(",".join, zip(*columns))).encode())


def write_json_lines(file: IO[bytes], names: Sequence[str], rows: Iterable[Sequence[object]]) -> None:
    """Write each row as an object on a line of its own.

    What isn't ASCII is escaped; bytes that aren't UTF-8 are the lone surrogates as which `surrogateescape` keeps them. The
    parameters are those of `write_csv`.
    """
    fields = (json.dumps(name).replace("%", "%%") for name in names)
    line = "{" + ", ".join(f"{field}: %s" for field in fields) + "}\n"
    for part in batches_of(rows):
        columns = [cell_texts(column, json.dumps) for column in zip(*part)]
        file.write("".join(map(line.__mod__, zip(*columns))).encode())


def batches_of(rows: Iterable[Sequence[object]]) -> Iterator[list[Sequence[object]]]:
    """Go through rows in lists of at most `ROWS`."""
    left = iter(rows)
    while part := list(itertools.islice(left, ROWS)):
        yield part


def cell_texts(column: Sequence[object], make: Callable[[object], str]) -> Iterator[str]:
    """Go through the texts of a column's values. Names come often, and each is made once; numbers seldom do."""
    kinds = set(map(type, column))
    if kinds == {int}:
        return map(str, column)
    # What is equal to another value and is written otherwise, as True and 1, is made anew.
    return map(make, column) if kinds & {bool, float} else map(CellTexts(make).__getitem__, column)


def csv_cell(value: object) -> str:
    """Return a value as CSV has it."""
    if isinstance(value, str):
        return quote(escaped(value))
    return "" if value is None else json.dumps(value)


def quote(text: str) -> str:
    """Return a text without control characters, in quotes if it needs them."""
    return '"' + text.replace('"', '""') + '"' if '"' in text or "," in text else text
