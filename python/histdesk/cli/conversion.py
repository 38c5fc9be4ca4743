"""The text of a recording of perf or trace-cmd, which its converter makes while a tool runs."""

from __future__ import annotations

import argparse
import contextlib
import fcntl
import os
import subprocess
import sys
from pathlib import Path
from typing import IO

from ..trace.kind import FRONT_ROOM, first_bytes, origin_of, recording_origin
from .process import Stop, note_missing

# Linux's number of the call that sets how many bytes a pipe holds; Python 3.10 lacks a name for it on some systems.
SET_PIPE_SIZE = getattr(fcntl, "F_SETPIPE_SZ", 1031)
PIPE_SIZE = 1 << 20
# The memory files that hold texts, by the path of the recording.
_texts: dict[str, int] = {}
# The texts of converters that were started before anybody reads them, by the path of the recording.
_begun: dict[str, PipedText] = {}


def converter_of(path: str) -> str | None:
    """Return the tool that makes a trace of the file of that path, or None if it is a trace or no regular file."""
    if not Path(path).is_file():
        return None
    with open(path, "rb", buffering=0) as file:
        origin = origin_of(file.read(FRONT_ROOM) or b"")
    return origin and origin.converter


def converted_text(path: str, converter: str, is_repeated: bool = False) -> str:
    """Return the path of a recording's text, which is in memory until the tool ends, and can be read from any byte on.

    Parameters
    ----------
    path
        The recording.
    converter
        The tool that converts it, such as `from-perf`.
    is_repeated
        Whether the converter has already run to its end, so that it isn't to repeat what it has said.

    Raises
    ------
    Stop
        If the converter makes no text.
    OSError
        If it can't be run.
    """
    if path not in _texts:
        file = os.memfd_create("histdesk")
        errors = subprocess.DEVNULL if is_repeated else None
        words, null = command(converter, path), subprocess.DEVNULL
        run = subprocess.run(words, stdin=null, stdout=file, stderr=errors, env=environment(), check=False)
        note_end(path, run.returncode, os.fstat(file).st_size > 0)
        _texts[path] = file
    return f"/proc/self/fd/{_texts[path]}"


def begin(options: argparse.Namespace) -> None:
    """Start the converter of a recording that is read in passing, so that it works while numpy is imported.

    Parameters
    ----------
    options
        The tool's: `trace`, and those that choose a part of it, which is not read in passing.
    """
    is_part = any(getattr(options, name, None) is not None for name in ("start", "until", "events"))
    origin = None if is_part or options.trace == "-" else recording_origin(first_bytes(options.trace))
    if origin:
        # If it can't be run, this is reported when the text is read.
        with contextlib.suppress(OSError):
            _begun[options.trace] = PipedText(options.trace, origin.converter)


def piped_text(path: str, converter: str) -> PipedText:
    """Return the text of a recording, whose converter may have been started. Raises `OSError` if it can't be run."""
    return _begun.pop(path) if path in _begun else PipedText(path, converter)


class PipedText:
    """The text of a recording as an open file, which is read while the converter writes it."""

    def __init__(self, path: str, converter: str) -> None:
        """Start the converter of a recording. Raises `OSError` if it can't be run."""
        self._path = path
        self._process = subprocess.Popen(
            command(converter, path), stdin=subprocess.DEVNULL, stdout=subprocess.PIPE, env=environment()
        )
        assert self._process.stdout
        self._output: IO[bytes] = self._process.stdout
        self._has_text = False
        # The system may refuse more room.
        with contextlib.suppress(OSError):
            fcntl.fcntl(self._output, SET_PIPE_SIZE, PIPE_SIZE)

    def read(self, size: int) -> bytes:
        """Return the next bytes, at most `size` of them, and none at the end. Raises `Stop` if the converter makes no text."""
        piece = self._output.read(size)
        if not piece:
            note_end(self._path, self._process.wait(), self._has_text)
        self._has_text = True
        return piece


def note_end(path: str, status: int, has_text: bool) -> None:
    """Take note of the status with which a converter has ended.

    Parameters
    ----------
    path
        The recording.
    status
        The exit status of the converter.
    has_text
        Whether it has printed anything.

    Raises
    ------
    Stop
        If it failed without any text; it has said why on standard error.
    """
    if status and not has_text:
        raise Stop(f"{path} could not be converted; the lines above say why")
    if status:
        note_missing(f"only a part of {path} was converted; the lines above say why")


def command(converter: str, path: str) -> list[str]:
    """Return the command that converts the file of that path, by the Python that runs here."""
    module = f"{__package__}.{converter.replace('-', '_')}"
    return [sys.executable, *["-B"] * sys.dont_write_bytecode, "-m", module, path]


def environment() -> dict[str, str]:
    """Return the environment in which Python finds this package."""
    packages, others = str(Path(__file__).absolute().parents[2]), os.environ.get("PYTHONPATH")
    return {**os.environ, "PYTHONPATH": f"{packages}{os.pathsep}{others}" if others else packages}
