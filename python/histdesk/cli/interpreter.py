"""Which Python runs a tool: the one that was started; or if it can't, the system's, or else the first `python3` on the PATH.

Whether it can is found out when the tool imports what it needs, so that a tool starts as quickly as without another choice.
"""

from __future__ import annotations

import importlib
import os
import sys

OLDEST = (3, 10)
SYSTEM = "/usr/bin/python3"
# The variable in which a Python that can't run the tool leaves to the next one which have been tried.
VARIABLE = "HISTDESK_TRIED"

# The Pythons before this one that couldn't run the tool; None if another one must not take its place.
_before: list[str] | None = None


def launch(tool: str) -> int:
    """Run a tool, here or by another Python, which then takes the place of this one.

    Parameters
    ----------
    tool
        The tool's name, such as `from-perf`. No module of a tool is imported before this Python is known to be new enough.

    Returns
    -------
    int
        The exit status.
    """
    global _before
    _before = list(filter(None, os.environ.pop(VARIABLE, "").split(os.pathsep)))
    if sys.version_info[:2] < OLDEST:
        run_next()
        oldest = ".".join(map(str, OLDEST))
        print(f"{tool}: needs Python {oldest} or later, and found {' and '.join(tried())}", file=sys.stderr)
        return 2
    status: int = importlib.import_module("." + tool.replace("-", "_"), __package__).main()
    return status


def tried() -> list[str]:
    """Return the Pythons that can't run the tool, each once: this one, and those before it."""
    return list(dict.fromkeys([*(_before or []), sys.executable]))


def run_next() -> None:
    """Let the next Python run the tool in place of this one. Return if there is none, or if no launcher runs the tool."""
    if _before is None:
        return
    # It takes some time to load, and few need it.
    import shutil

    words = sys.orig_argv[1:] if sys.version_info >= (3, 10) else sys.argv
    others = [SYSTEM, shutil.which("python3") or SYSTEM]
    # One that is called by another name here calls itself by its own, so that its number has to end this.
    for python in others[len(_before) :]:
        if python not in tried() and os.access(python, os.X_OK):
            os.environ[VARIABLE] = os.pathsep.join([*_before, sys.executable])
            os.execv(python, [python, *words])
