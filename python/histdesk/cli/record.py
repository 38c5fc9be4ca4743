"""record [OPTION].. SECONDS | record [OPTION].. -- COMMAND..: records the scheduler's events of this machine.

The tool itself is record.sh, in bash, so that it also runs on machines without Python.
"""

from __future__ import annotations

import os
import sys
from pathlib import Path
from typing import NoReturn, Sequence

from .._invocation import tool

SCRIPT = Path(__file__).resolve().with_name("record.sh")


def main(argv: Sequence[str] | None = None) -> NoReturn:
    """Run the tool in place of this process.

    Parameters
    ----------
    argv
        The arguments; by default, those of this process.
    """
    arguments = sys.argv[1:] if argv is None else argv
    # The shell that reads the script has the tool's name as its own.
    os.execvp("bash", ["bash", "-c", '. "$1" "${@:2}"', tool("record"), str(SCRIPT), *arguments])
