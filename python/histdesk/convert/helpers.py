"""The programs in C that convert quickly, if they were compiled."""

from __future__ import annotations

from pathlib import Path

PACKAGE = Path(__file__).absolute().parent.parent


def helper(name: str) -> str | None:
    """Return the path of a compiled helper, or None if there is none.

    Both in a checkout and in an installation, they are in `helpers/out` beside the folder that has the package.
    """
    path = PACKAGE.parent.parent / "helpers" / "out" / name
    return str(path) if path.exists() else None
