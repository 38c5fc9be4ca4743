"""A file that leads a browser to an address which other users of the machine must not see.

All users can see what a program is started with, but only one of them can read this file."""

from __future__ import annotations

import contextlib
import html
import json
import os
import tempfile
from pathlib import Path
from typing import Iterator

FILE_NAME = "open.html"
PAGE = """<!doctype html>
<html lang="en">
<head>
<meta charset="utf-8">
<meta name="referrer" content="no-referrer">
<meta http-equiv="refresh" content="0; url={address}">
<title>Waits</title>
<script>location.replace({text});</script>
</head>
<body><p><a href="{address}">The page</a></p></body>
</html>
"""


@contextlib.contextmanager
def redirect_to(address: str) -> Iterator[str]:
    """Make a file that leads a browser to an address, and remove it at the end.

    Parameters
    ----------
    address
        The address.

    Yields
    ------
    str
        The file's URL.

    Raises
    ------
    OSError
        If the file can't be written.
    """
    # Only this user may enter the folder.
    with tempfile.TemporaryDirectory(prefix="histdesk-view-", dir=folder()) as own:
        path = Path(own, FILE_NAME)
        with open(os.open(path, os.O_WRONLY | os.O_CREAT | os.O_EXCL, 0o600), "w", encoding="utf-8") as file:
            file.write(PAGE.format(address=html.escape(address), text=json.dumps(address)))
        yield path.as_uri()


def folder() -> str | None:
    """Return the folder for such files: the user's own one for the time of a login, if there is one. Browsers that are snaps
    read only what is in the home folder and not hidden there. None is the system's folder for temporary files."""
    home = os.path.expanduser("~")
    for path, is_wanted in ((home, os.path.isdir(os.path.join(home, "snap"))), (os.environ.get("XDG_RUNTIME_DIR"), True)):
        if path and is_wanted and os.access(path, os.W_OK | os.X_OK):
            return path
    return None
