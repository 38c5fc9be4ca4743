"""Asks the server of tools/view what a page asks it, and reads what a saved page holds."""

from __future__ import annotations

import base64
import contextlib
import gzip
import hashlib
import http.client
import json
import re
from typing import Any
from urllib.parse import urlsplit

from same_normal import Normal

# How many seconds an answer may take, and how many bytes of one that isn't text are shown in a line.
LIMIT, WIDTH = 600, 32
SAVED = re.compile(rb'<script type="application/json" id="saved">(.*?)</script>', re.S)
# The members of a saved page that gzip made smaller.
PACKED = ("waits", "scenes", "overviews")


def ask(address: str, request: str, normal: Normal, name: str) -> bytes:
    """Return the answer to a request in lines: its status, headers and body.

    Parameters
    ----------
    address
        The server's address.
    request
        A method, the path after the address, and perhaps a body; a path that begins with / is all of the path.
    normal
        Takes away what isn't the same twice.
    name
        The name of the question.
    """
    method, path, *bodies = request.split(" ", 2)
    parts = urlsplit(address)
    headers = {"Content-Type": "application/json"} if bodies else {}
    whole = path if path.startswith("/") else parts.path + path
    with contextlib.closing(http.client.HTTPConnection(parts.netloc, timeout=LIMIT)) as connection:
        connection.request(method, whole, bodies[0].encode() if bodies else None, headers)
        answer = connection.getresponse()
        body = normal.of(name, answer.read())
        lines = [f"status {answer.status}", *(f"{header}: {value}" for header, value in answer.getheaders())]
    kind = answer.getheader("Content-Type", "")
    text = "\n".join([*lines, f"body of sum {hashlib.sha256(body).hexdigest()[:16]}", *shown(body, kind), ""])
    return normal.of(name, text.encode("utf-8", "surrogateescape"))


def shown(body: bytes, kind: str) -> list[str]:
    """Return a body in lines. The sum above it covers the bytes that these leave out."""
    if kind.startswith("application/json"):
        try:
            return json.dumps(json.loads(body), indent=1).split("\n")
        except ValueError:
            return [ascii(body)]
    if kind.startswith("text/"):
        return []
    return [body[at : at + WIDTH].hex(" ", 4) for at in range(0, len(body), WIDTH)]


def saved_data(page: bytes) -> bytes:
    """Return what a saved page holds, in lines; another file is returned as it is."""
    found = SAVED.search(page)
    if not found:
        return page
    data: dict[str, Any] = json.loads(found[1])
    for name in PACKED:
        data[name] = [unpacked(text) for text in data.get(name, [])]
    return json.dumps(data, indent=1).encode()


def unpacked(text: str) -> Any:
    """Return what was packed: JSON, or else the bytes in lines."""
    content = gzip.decompress(base64.b64decode(text))
    try:
        return json.loads(content)
    except ValueError:
        return [content[at : at + WIDTH].hex(" ", 4) for at in range(0, len(content), WIDTH)]
