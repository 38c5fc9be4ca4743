"""Marks what belongs to the public interface of the package."""

from __future__ import annotations

from typing import TypeVar

Thing = TypeVar("Thing")


def public(thing: Thing) -> Thing:
    """Have a class or a function known as `histdesk.NAME`, in tracebacks, in `help` and in pickles.

    Parameters
    ----------
    thing
        The class or function, whose name `histdesk/__init__.py` lists.

    Returns
    -------
    Thing
        The same.
    """
    thing.__module__ = __package__
    return thing
