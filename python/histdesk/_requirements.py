"""What other packages histdesk needs, for the message about one that is missing."""

from __future__ import annotations

import sys
from collections.abc import Sequence

HOW_TO_GET = {"numpy": "apt-get install python3-numpy gives it to Debian's own python3, pip install numpy to any"}


def is_missing(error: Exception) -> bool:
    """Return whether an error says that a required package is missing."""
    return isinstance(error, ModuleNotFoundError) and error.name in HOW_TO_GET


def explained(error: ImportError, pythons: Sequence[str] = (sys.executable,)) -> ImportError:
    """Return an error that says how to get a required package, if one is missing, or the error itself.

    Parameters
    ----------
    error
        What was raised.
    pythons
        The Pythons that were tried, each of which lacks the package.
    """
    name = error.name or ""
    if not is_missing(error):
        return error
    who = f"{pythons[0]} has no" if len(pythons) == 1 else f"neither {' nor '.join(pythons)} has"
    return ModuleNotFoundError(f"{who} {name}, which is needed here: {HOW_TO_GET[name]}", name=name)
