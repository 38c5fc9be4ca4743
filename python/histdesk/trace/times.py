"""Times that callers pass, and timestamps that answers have."""

from __future__ import annotations

import datetime
import numbers
import operator
import re
from decimal import Decimal
from fractions import Fraction
from typing import Any, Union

import numpy as np

from .._public import public

# The greatest timestamp of a trace, in microseconds.
LATEST = 4_294_967_295_999_999
SECONDS_TEXT = re.compile(r"([0-9]{1,10})(?:\.([0-9]{1,6}))?")
MICROSECOND = datetime.timedelta(microseconds=1)

Time = Union[int, float, str, Decimal, Fraction, datetime.timedelta, "np.timedelta64", "Stamp"]


@public
class Stamp(int):
    """A timestamp in microseconds, printed as in a trace. Whatever takes a time takes it as it is.

    >>> rest = Stamp(6012001092)
    >>> print(rest, rest // 1000)
    6012.001092 6012001
    """

    def __str__(self) -> str:
        return f"{self // 1_000_000}.{self % 1_000_000:06}"

    def __format__(self, form: str) -> str:
        """Return it as `str` has it, in a field of this width; as a number of microseconds if the form is one of numbers."""
        return format(int(self), form) if form[-1:] in tuple("bcdeEfFgGnoxX%") else format(str(self), form)


def micros_of(time: Time | None, name: str) -> int | None:
    """Return a time of a trace in microseconds, rounded to the nearest one.

    Parameters
    ----------
    time
        A number or a text in seconds, as in the trace; a `timedelta` of the standard library, of numpy or of pandas; or a
        `Stamp`. None stays None.
    name
        What messages call it.

    Raises
    ------
    TypeError
        If it is none of these.
    ValueError
        If no trace has such a timestamp.
    """
    if time is None:
        return None
    micros = int(time) if isinstance(time, Stamp) else rounded(time, name)
    if not 0 <= micros <= LATEST:
        hint = "; microseconds are passed as timedelta(microseconds=..) or histdesk.Stamp" if is_plain(time) else ""
        raise ValueError(f"{name}={time!r} is no timestamp, which is from 0 to {Stamp(LATEST)} s{hint}")
    return micros


def rounded(time: Any, name: str) -> int:
    """Return a time, which is no `Stamp`, in microseconds."""
    if isinstance(time, datetime.timedelta):
        # A `timedelta` of pandas also has nanoseconds.
        return time // MICROSECOND + (getattr(time, "nanoseconds", 0) >= 500)
    if getattr(getattr(time, "dtype", None), "kind", "") == "m":
        return rounded_delta(time, name)
    if isinstance(time, str):
        match = SECONDS_TEXT.fullmatch(time)
        if not match:
            raise ValueError(f"{name}={time!r} is no timestamp, such as '6012.000100'")
        return int(match[1]) * 1_000_000 + int((match[2] or "").ljust(6, "0"))
    if isinstance(time, bool) or not isinstance(time, (numbers.Real, Decimal)):
        raise TypeError(f"{name} is a number of seconds, a text in seconds or a timedelta, and not {type(time).__name__}")
    try:
        if isinstance(time, (numbers.Rational, Decimal)):
            return round(Fraction(operator.index(time) if isinstance(time, numbers.Integral) else time) * 1_000_000)
        return round(Fraction(float(time)) * 1_000_000)
    except (OverflowError, ValueError):
        raise ValueError(f"{name}={time!r} is no timestamp") from None


def rounded_delta(time: np.timedelta64, name: str) -> int:
    """Return a `timedelta64` of numpy in microseconds."""
    if np.isnat(time) or np.datetime_data(time)[0] == "generic":
        raise ValueError(f"{name}={time!r} is no timestamp; a timedelta64 has a unit, such as 'us'")
    return round(Fraction(int(time.astype("m8[ns]").astype("i8")), 1000))


def is_plain(time: Time | None) -> bool:
    """Return whether a time is a whole number, which is taken for seconds."""
    return isinstance(time, numbers.Integral) and not isinstance(time, (Stamp, np.timedelta64))
