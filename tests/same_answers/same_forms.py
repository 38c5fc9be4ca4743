"""Plain forms of what the package returns: the same bytes for the same value, whatever it is made of inside."""

from __future__ import annotations

import datetime
import fractions
import types
from collections.abc import Iterator, Mapping, Sequence, Set
from decimal import Decimal
from typing import Any

import numpy as np

# How deep values may be nested.
DEEPEST = 12


def plain(value: Any) -> list[str]:
    """Return a value in lines: a long one has a line for each of its parts."""
    if isinstance(value, np.ndarray):
        return of_array(value)
    if is_frame(value):
        return of_frame(value)
    if isinstance(value, Mapping):
        return [f"{named(value)} of {len(value)}:", *(f"  {inline(key)}: {inline(one)}" for key, one in value.items())]
    if isinstance(value, (list, tuple)) and not hasattr(value, "_fields"):
        return [f"{named(value)} of {len(value)}:", *(f"  {inline(one)}" for one in value)]
    if isinstance(value, types.GeneratorType) or (isinstance(value, Iterator) and not hasattr(value, "read")):
        return ["iterator:", *(f"  {inline(one)}" for one in value)]
    return inline(value).split("\n")


def named(value: Any) -> str:
    """Return the name of a value's type; a type of the package that isn't public is only told as `object`, unless its values
    print its name, as named tuples do."""
    kind = type(value)
    is_private = kind.__module__.startswith("histdesk.") and not hasattr(kind, "_fields")
    return "object" if is_private else kind.__name__


def inline(value: Any, depth: int = 0) -> str:
    """Return a value in a line, if its type doesn't print itself in several ones."""
    if depth > DEEPEST:
        return ".."
    if value is None or isinstance(value, (bool, str, bytes, Decimal, fractions.Fraction)):
        return ascii(value)
    if isinstance(value, int):
        return ascii(value) if type(value) is int else f"{named(value)}({int(value)}, printed {str(value)!a})"
    if isinstance(value, (float, complex, datetime.date, datetime.timedelta)):
        return repr(value)
    if isinstance(value, np.generic):
        return f"{value.dtype.name}({ascii(value.item())})"
    if isinstance(value, np.ndarray):
        return f"array({value.dtype}, {ascii(value.tolist())})"
    if isinstance(value, tuple) and hasattr(value, "_fields"):
        return f"{named(value)}({', '.join(f'{name}={inline(one, depth + 1)}' for name, one in zip(value._fields, value))})"
    if isinstance(value, (list, tuple, Set)) and type(value) in (list, tuple, set, frozenset):
        parts = sorted(value, key=repr) if isinstance(value, Set) else value
        return f"{named(value)}[{', '.join(inline(one, depth + 1) for one in parts)}]"
    if type(value) is dict:
        return "{" + ", ".join(f"{inline(key, depth + 1)}: {inline(one, depth + 1)}" for key, one in value.items()) + "}"
    if isinstance(value, BaseException):
        return error_line(value)
    if isinstance(value, Sequence) and named(value) == "object":
        return f"sequence[{', '.join(inline(one, depth + 1) for one in value)}]"
    return of_object(value)


def of_object(value: Any) -> str:
    """Return what an object prints for people, below the name of its type."""
    shown = repr(value)
    length = f" of {len(value)}" if isinstance(value, Sequence) else ""
    return "\n".join(
        [f"{named(value)}{length}:", *(f"  {line}" for line in shown.encode("ascii", "backslashreplace").decode().split("\n"))]
    )


def of_array(array: np.ndarray[Any, Any]) -> list[str]:
    """Return an array: its type, shape and fields, and a line for each of its rows."""
    dtype = array.dtype
    fields = [f"{name} {dtype[name].str}" for name in dtype.names] if dtype.names else [dtype.str]
    return [f"{named(array)} {array.shape} of {', '.join(fields)}:", *(f"  {ascii(row)}" for row in array.tolist())]


def is_frame(value: Any) -> bool:
    """Return whether a value is a DataFrame of pandas, which may not be installed."""
    return named(value) == "DataFrame" and hasattr(value, "to_csv")


def of_frame(frame: Any) -> list[str]:
    """Return a DataFrame: the types of its columns, and its rows."""
    types_of = [f"{name} {dtype}" for name, dtype in frame.dtypes.items()]
    return [
        f"DataFrame of {', '.join(types_of)}, index {frame.index.names}:",
        *ascii(frame.to_csv()).replace("\\n", "\n").split("\n"),
    ]


# ---- errors


def error_line(error: BaseException) -> str:
    """Return an error in a line: its type and its text."""
    return f"{named(error)}: {str(error).encode('ascii', 'backslashreplace').decode()}"


def of_error(error: BaseException) -> list[str]:
    """Return an error: its type, its text, its notes, and the attributes that its type declares."""
    declared = sorted(getattr(type(error), "__annotations__", {}))
    values = [(name, getattr(error, name)) for name in declared if not name.startswith("_") and hasattr(error, name)]
    notes = [f"  note: {note!a}" for note in getattr(error, "__notes__", ())]
    return [*f"raises {error_line(error)}".split("\n"), *notes, *(f"  {name}: {inline(value)}" for name, value in values)]
