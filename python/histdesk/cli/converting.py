"""How the converters run: from-perf, from-trace-cmd, and that of record."""

from __future__ import annotations

from typing import TYPE_CHECKING

from . import process

if TYPE_CHECKING:
    from ..convert.text_format import TextFormat


def run(tool: str, form: TextFormat, path: str) -> int:
    """Convert a file onto standard output, and report what is left out or lost.

    Parameters
    ----------
    tool
        The name with which messages begin.
    form
        The format of the file's text.
    path
        The file; `-` is standard input.

    Returns
    -------
    int
        The exit status: 0, or 1 if something could not be converted.
    """
    from ..convert.conversion import convert_file
    from ..convert.report import ConversionError

    def work() -> int:
        try:
            return convert_file(form, tool, "/dev/stdin" if path == "-" else path)
        except BrokenPipeError:
            raise
        except (ConversionError, OSError) as error:
            raise process.Stop(process.message_of(error) or str(error), process.PARTIAL) from None

    return process.run(tool, work)
