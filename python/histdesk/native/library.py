"""Finds `libhistdesk.so.0`, and declares what each of its calls takes and returns."""

from __future__ import annotations

import ctypes
import os
from collections.abc import Callable
from pathlib import Path
from typing import TypeAlias

from . import layout

# A call of the library, with the types that `declare` gives it. One that returns nothing returns None.
Call: TypeAlias = Callable[..., int]

NAME = "libhistdesk.so.0"
VARIABLE = "HISTDESK_LIBRARY"
# The folder of the package histdesk.
PACKAGE = Path(__file__).resolve().parent.parent

# What each call returns, and what it takes.
CALLS = layout.CALLS


def candidates(package: Path) -> list[Path]:
    """Return where the library may stand, seen from the package's folder.

    That is in the folder itself; in `lib` of the prefix that the package is installed in, as
    `PREFIX/lib/python3/dist-packages/histdesk` or as `PREFIX/python/histdesk`; and where a checkout builds it.
    """
    above = [package, *package.parents, *[Path("/")] * 3]
    is_installed = package.parent.parent.name.startswith("python3")
    folders = [
        package,
        *([above[3]] if is_installed else []),
        above[2] / "lib",
        above[2] / "crates" / "ft_c" / "out",
    ]
    return [folder / NAME for folder in folders]


def library_path() -> str:
    """Return the library's path, or its bare name if the loader has to find it."""
    path = os.environ.get(VARIABLE)
    if path:
        return path
    return next((str(path) for path in candidates(PACKAGE) if path.exists()), NAME)


def search_report() -> str:
    """Return where the library is looked for, in lines."""
    if os.environ.get(VARIABLE):
        return f"{VARIABLE} names that file."
    return "\n  ".join(["It was looked for here:", *map(str, candidates(PACKAGE)), "the loader's folders"])


class Library:
    """The library, which is loaded at its first call. A call is an attribute of its name.

    Parameters
    ----------
    loader
        How ctypes loads it: `PyDLL`, with which no other thread runs Python code during a call, or `CDLL`, with which they do.

    Raises
    ------
    ImportError
        At the first call, if the library can't be loaded or lacks a call. It says what to do.
    """

    def __init__(self, loader: type[ctypes.CDLL]) -> None:
        self._loader = loader

    def load(self) -> None:
        """Load it now."""
        library = declare(self._open(library_path()))
        # They are found here from now on.
        self.__dict__.update((name, getattr(library, name)) for name in ("_name", *CALLS))

    def __getattr__(self, name: str) -> Call:
        if name in ("_name", *CALLS) and name not in self.__dict__:
            self.load()
            call: Call = self.__dict__[name]
            return call
        raise AttributeError(name)

    def _open(self, path: str) -> ctypes.CDLL:
        """Return the library at a path."""
        try:
            return self._loader(path)
        except OSError as error:
            raise ImportError(
                f"histdesk needs the library {NAME}, which can't be loaded:\n  {error}\n{search_report()}\n"
                "build/build makes it in a checkout of histdesk, build/install puts it where it is found, and the\n"
                f"environment variable {VARIABLE} may name the file.",
                name=NAME,
            ) from None


def declare(library: ctypes.CDLL) -> ctypes.CDLL:
    """Give the calls of a library their types, and return it.

    Raises
    ------
    ImportError
        If it lacks a call.
    """
    for name, (result, takes) in CALLS.items():
        try:
            call = getattr(library, name)
        except AttributeError:
            reason = f"{library._name} has no call {name}: it is of another version than this package"
            raise ImportError(reason, name=NAME) from None
        call.restype, call.argtypes = result, takes
    return library


# No other thread runs Python code during a call.
library = Library(ctypes.PyDLL)
# Other threads run meanwhile: this is for calls that take long, on a desk that no other thread knows.
unlocked = Library(ctypes.CDLL)
