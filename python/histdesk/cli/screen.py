"""How desk shows answers: on a terminal without control bytes, and a long one page by page; elsewhere as they are."""

from __future__ import annotations

import os
import shlex
import shutil
import signal
import subprocess
import sys

from ..native import layout
from ..show import tables

# The options of less, unless LESS has others: end by itself if everything fits, and leave the text on the screen.
LESS_OPTIONS = "FRX"
# How many lines are kept at the beginning of an answer that is cut.
LINES_SHOWN = 10


def write(output: bytes) -> None:
    """Print an answer on standard output. Raises `OSError` if that fails."""
    if not sys.stdout.isatty():
        sys.stdout.buffer.write(output)
        sys.stdout.flush()
        return
    lines = [tables.printable(line) for line in layout.decode(output).split("\n")[:-1]]
    height = shutil.get_terminal_size().lines
    if len(lines) >= height:
        lines = [] if is_paged(lines) else cut(lines, height)
    print("".join(f"{line}\n" for line in lines), end="", flush=True)


def note(text: str) -> None:
    """Print a remark of one line or more on standard error."""
    sys.stdout.flush()
    print(text if not sys.stderr.isatty() else "\n".join(map(tables.printable, text.split("\n"))), file=sys.stderr, flush=True)


def is_paged(lines: list[str]) -> bool:
    """Show lines in the program that PAGER names, or less; return whether there is such a program."""
    command = shlex.split(os.environ.get("PAGER") or "less")
    try:
        pager = subprocess.Popen(command, stdin=subprocess.PIPE, env={"LESS": LESS_OPTIONS, **os.environ})
    except OSError:
        return False
    # Ctrl-C is for the pager.
    handler = signal.signal(signal.SIGINT, signal.SIG_IGN)
    try:
        pager.communicate("\n".join([*lines, ""]).encode("utf-8", "backslashreplace"))
    except BrokenPipeError:
        pass
    finally:
        pager.wait()
        signal.signal(signal.SIGINT, handler)
    return True


def cut(lines: list[str], height: int) -> list[str]:
    """Return the beginning and the end of a long answer, which fit on the screen, and how many lines are left out."""
    back = max(height - LINES_SHOWN - 3, 1)
    left_out = len(lines) - LINES_SHOWN - back
    return [*lines[:LINES_SHOWN], f".. {left_out} lines ..", *lines[-back:]]
