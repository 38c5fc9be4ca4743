"""A page as one file, with its styles, its modules, and the data that it shows."""

from __future__ import annotations

import contextlib
import gzip
import json
import os
import re
import tempfile
from pathlib import Path
from typing import IO, Any, Iterator
from urllib.parse import quote

import numpy as np

from ..script.made import AskedTrigger
from ..waiting.waits import Waits
from .model import Side, View, text_of
from .server import PAGES

# How many of the longest waits are explained at most, each in about how many stretches at most, and about how many events those
# after the longest one may have together.
WORST, STRETCHES, EVENTS = 200, 1000, 1 << 20
# How hard gzip tries: with more, columns of a million waits get a few per cent smaller, and take seconds.
LEVEL = 1
PAGE_FILE = "page.html"
STYLE = re.compile(r'<link rel="stylesheet" href="([a-z_.]+)">')
SCRIPT_TAG = re.compile(r'<script type="module" src="([a-z_.]+)"></script>')
# How a module imports another one that stands beside it.
IMPORT = re.compile(r' from "\./([a-z_]+\.js)";')
# A saved page fetches nothing.
POLICY = "default-src 'none'; img-src data:; script-src 'unsafe-inline' data:; style-src 'unsafe-inline'"
# What a URL of data may contain as it is.
UNQUOTED = " !$&'()*+,/:;=?@[]{|}`~"


def save(view: View, path: str) -> None:
    """Write a view as a file.

    Parameters
    ----------
    view
        What the page shows.
    path
        The file. If it can't be written, its content before stays.

    Raises
    ------
    OSError
        If the file can't be written.
    """
    try:
        with whole_file(path) as file:
            file.write(page_of(view).encode())
    except OSError as error:
        error.filename = path
        raise


@contextlib.contextmanager
def whole_file(path: str) -> Iterator[IO[bytes]]:
    """Open a file that gets its name once all is written. What is not a file, such as a pipe, is written directly."""
    if os.path.exists(path) and not os.path.isfile(path):
        with open(path, "wb") as file:
            yield file
        return
    path = os.path.realpath(path)
    number, part = tempfile.mkstemp(prefix=".view-", dir=os.path.dirname(path))
    try:
        with open(number, "wb") as file:
            yield file
        os.chmod(part, 0o666 & ~umask())
        os.replace(part, path)
    except BaseException:
        os.unlink(part)
        raise


def umask() -> int:
    """Return the permissions that new files don't get."""
    bits = os.umask(0o077)
    os.umask(bits)
    return bits


def page_of(view: View) -> str:
    """Return the page as one file.

    Modules are in an import map, each as a URL of data, and import each other by names of the map, since such a URL has no
    others beside it.
    """
    modules = {path.name: module_url(path.read_text("utf-8")) for path in sorted(Path(PAGES).glob("*.js"))}
    imports = f'<script type="importmap">{json_in({"imports": modules})}</script>'
    data = f'<script type="application/json" id="saved">{json_in(data_of(view))}</script>'
    policy = f'<meta http-equiv="Content-Security-Policy" content="{POLICY}">'
    page = page_text(PAGE_FILE).replace("<head>", f"<head>\n{policy}", 1).replace("<body>", f"<body>\n{data}", 1)
    page = STYLE.sub(lambda link: f"<style>\n{page_text(link[1])}</style>", page)
    return SCRIPT_TAG.sub(lambda script: f'{imports}\n<script type="module">import "{script[1]}";</script>', page)


def module_url(text: str) -> str:
    """Return a module as a URL of data."""
    return "data:text/javascript;charset=utf-8," + quote(IMPORT.sub(r' from "\1";', text), safe=UNQUOTED)


def json_in(value: Any) -> str:
    """Return a value as JSON that may stand in a script element."""
    return json.dumps(value, separators=(",", ":")).replace("<", "\\u003c")


def page_text(name: str) -> str:
    """Return a file of the page."""
    return Path(PAGES, name).read_text("utf-8")


def data_of(view: View) -> dict[str, Any]:
    """Return the answers to what the page asks, as far as they can be known. What is long is compressed."""
    script = view.script(0, AskedTrigger("sched_switch", "", ""), [])
    scenes = (json.dumps(scenes_of(side), separators=(",", ":")).encode() for side in view.sides)
    overviews = (json.dumps(side.coarse_overview(), separators=(",", ":")).encode() for side in view.sides)
    return {
        "about": view.about(),
        "differences": view.differences(),
        "packed": True,
        "waits": [compress(side.columns()) for side in view.sides],
        "scenes": [compress(content) for content in scenes],
        "overviews": [compress(content) for content in overviews],
        "script": None if "refused" in script else script,
    }


def compress(content: bytes) -> str:
    """Return bytes compressed by gzip, as text. The same bytes always give the same text."""
    return text_of(gzip.compress(content, LEVEL, mtime=0))


def scenes_of(side: Side) -> dict[str, Any]:
    """Return what ran during the longest waits, by the places at which they end."""
    return {"%d:%d" % place: strip for place, strip in side.strips(side.waits[longest_at(side.waits)], STRETCHES)}


def longest_at(waits: Waits) -> list[int]:
    """Return which waits are explained, in their order: the longest one, and of the next ones, those that together have few
    enough events, if events are strewn evenly."""
    micros, held = waits._column("micros"), waits.held
    worst = np.argsort(-micros, kind="stable")[:WORST].tolist()
    span = max((held.last or 0) - (held.first or 0), 1)
    chosen, left = worst[:1], EVENTS * span // max(held.events, 1)
    for at in worst[1:]:
        if micros[at] <= left:
            chosen.append(at)
            left -= int(micros[at])
    return sorted(chosen)
