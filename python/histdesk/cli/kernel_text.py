"""kernel_text TOOL FILE: prints the text of the kernel's trace file, in which names that would mislead the desk are masked.

record.sh runs it as `python3 -m histdesk.cli.kernel_text`; messages begin with TOOL.
"""

from __future__ import annotations

import sys
from typing import Sequence

from ..convert.kernel_text import KernelFormat
from . import converting


def main(argv: Sequence[str] | None = None) -> int:
    """Run the program; see `process.run`."""
    tool, path = sys.argv[1:] if argv is None else argv
    return converting.run(tool, KernelFormat(), path)


if __name__ == "__main__":
    sys.exit(main())
