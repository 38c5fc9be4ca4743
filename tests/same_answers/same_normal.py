"""What can't be the same twice in an answer, and what stands for it instead."""

from __future__ import annotations

import fnmatch
import os
import re
from pathlib import Path
from typing import NamedTuple


class Rule(NamedTuple):
    """A part of answers that isn't compared.

    Attributes
    ----------
    sign
        Bytes that it always has, which are quickly found.
    pattern
        What it looks like.
    instead
        What stands for it.
    why
        Why it isn't the same twice.
    questions
        A pattern of the questions in whose answers it is looked for.
    """

    sign: bytes
    pattern: re.Pattern[bytes]
    instead: bytes
    why: str
    questions: str = "*"


# How names of requests to the page's server begin.
VISIT = "view *: "
RULES = [
    Rule(
        b"http://127.0.0.1",
        re.compile(rb"http://127\.0\.0\.1:[0-9]+/[\w-]{22}/"),
        b"http://ADDRESS/",
        "the port is any free one, and the word is random",
    ),
    Rule(
        b"Traceback (most recent",
        re.compile(rb"^(Traceback \(most recent call last\):\n)(?:  .*\n)+", re.M),
        rb"\1",
        "lines of sources move when they are edited; the error below them is compared",
    ),
    Rule(b"at 0x", re.compile(rb"\bat 0x[0-9a-f]{6,}\b"), b"at 0xADDRESS", "where an object lies in memory"),
    Rule(b"/proc/self/fd/", re.compile(rb"/proc/self/fd/[0-9]+"), b"/proc/self/fd/N", "it depends on which files are open"),
    Rule(b"SCRATCH/tmp/", re.compile(rb"SCRATCH/tmp/[^\s'\":]+"), b"SCRATCH/tmp/FILE", "names of temporary files are random"),
    Rule(b"Date: ", re.compile(rb"^Date: .*$", re.M), b"Date: TIME", "when it was answered", f"{VISIT}*"),
    Rule(b'"seconds"', re.compile(rb'"seconds": ?[0-9.e-]+'), b'"seconds":0', "how long it took", f"{VISIT}POST strike *"),
    Rule(
        b"Content-Length",
        re.compile(rb"^Content-Length: .*$", re.M),
        b"Content-Length: SIZE",
        "the time in the body has more digits or fewer",
        f"{VISIT}POST strike *",
    ),
]


class Normal:
    """Makes answers comparable: paths of this asking, and what the rules say."""

    def __init__(self, root: Path, inputs: Path, scratch: Path) -> None:
        """Take the checkout that is asked, the folder of the recordings, and that of temporary files. Each may be anywhere, and
        so may the program and the library that variables name."""
        named = [(os.environ.get("HISTDESK"), b"PROGRAM"), (os.environ.get("HISTDESK_LIBRARY"), b"LIBRARY")]
        places = [(inputs, b"INPUTS"), (scratch, b"SCRATCH"), (root, b"CHECKOUT"), *named]
        # The longest first, since one may be within another.
        pairs = ((str(path).encode(), instead) for path, instead in places if path)
        self._places = sorted(pairs, key=lambda pair: -len(pair[0]))

    def of(self, question: str, content: bytes) -> bytes:
        """Return an answer without what isn't the same twice."""
        for path, instead in self._places:
            content = content.replace(path, instead)
        for rule in RULES:
            if rule.sign in content and fnmatch.fnmatchcase(question, rule.questions):
                content = rule.pattern.sub(rule.instead, content)
        return content
