"""How the user calls the programs and tools of histdesk, for messages that name one."""

from __future__ import annotations

import functools
import os
import re

PACKAGE = os.path.dirname(os.path.abspath(__file__))
# A tool or a program as it is called in a checkout, where the package is in `python`.
CALLED = re.compile(r"(?<![\w/.])(?:tools/(?=[a-z])|\./(?=hist(?:desk|watch)\b))")


@functools.lru_cache(maxsize=None)
def is_checkout() -> bool:
    """Return whether the package is in a checkout of the sources, and not installed."""
    return os.path.exists(os.path.join(os.path.dirname(PACKAGE), "pyproject.toml"))


def tool(name: str) -> str:
    """Return how a tool is called: `tools/NAME` in a checkout, and `histdesk-NAME` if histdesk is installed."""
    return f"tools/{name}" if is_checkout() else f"histdesk-{name}"


def program(name: str = "histdesk") -> str:
    """Return how a program is called: `./NAME` in a checkout, and `NAME` if histdesk is installed."""
    return f"./{name}" if is_checkout() else name


def as_called(text: str) -> str:
    """Return a text in which tools and programs, named as in a checkout, get the names by which they are called here."""
    if is_checkout():
        return text
    return CALLED.sub(lambda match: "histdesk-" if match[0] == "tools/" else "", text)
