#!/usr/bin/env python3
"""Checks that the licences of a Debian package and a wheel have the form that they should have.

    packages.py COPYRIGHT WHEEL > WHAT WENT WRONG

COPYRIGHT, Debian's file of that name, has paragraphs of fields; each licence of files has a paragraph with its text, and the
text of the Rattle kit's licence names each library of the kit that crates.txt names. WHEEL lists each of its files, with its
digest and its size; all files have the same time, each command leads to a tool that is there, and the name has the wheel's
tag. The last line says how many things hold.
"""

import base64
import csv
import hashlib
import os
import re
import sys
import zipfile
from typing import Dict, Iterator, List, Tuple

ROOT = os.path.realpath(os.path.join(os.path.dirname(os.path.realpath(__file__)), "..", ".."))
FORMAT = "https://www.debian.org/doc/packaging-manuals/copyright-format/1.0/"
# What is wrong if a thing isn't so, and whether it is so.
Things = Iterator[Tuple[str, bool]]


def text_of(path: str) -> str:
    """Return the text of a file.

    Parameters
    ----------
    path
        Its path.
    """
    with open(path, encoding="utf-8") as file:
        return file.read()


def kit_libraries() -> List[str]:
    """Return the names of the Rattle kit's libraries on which crates of the repository stand."""
    lines = [line.split(":") for line in text_of(os.path.join(ROOT, "crates.txt")).splitlines() if line[0] != "#"]
    own = {line[0].split()[0] for line in lines}
    return sorted({name for line in lines for name in line[1].split()} - own)


# ---- Debian's file


def paragraphs(text: str) -> List[Dict[str, str]]:
    """Return the fields of each paragraph of a file of fields.

    Parameters
    ----------
    text
        The file's text.
    """
    field = re.compile(r"^([A-Z][A-Za-z-]*):(.*(?:\n .*)*)", re.MULTILINE)
    return [dict(field.findall(part)) for part in text.strip("\n").split("\n\n")]


def copyright_things(path: str) -> Things:
    """Yield what has to hold of Debian's file.

    Parameters
    ----------
    path
        Its path.
    """
    text = text_of(path)
    fields = paragraphs(text)
    lines = [line for line in text.splitlines() if line and not re.match(r" \S| \.$|  |[A-Z][A-Za-z-]*:", line)]
    yield f"copyright has lines of no field: {lines}", not lines
    yield "copyright names no format", fields[0].get("Format", "").strip() == FORMAT
    texts = {one["License"].split("\n")[0].strip(): one["License"] for one in fields[1:] if "Files" not in one}
    for one in fields[1:]:
        if "Files" in one:
            yield f"copyright names nobody for {one['Files']}", bool(one.get("Copyright", "").strip())
            for name in re.split(r",? (?:or|and) ", one["License"].strip()):
                yield f"copyright has no text of the licence {name}", "\n" in texts.get(name, "")
    for name in kit_libraries():
        yield f"copyright doesn't name {name}", re.search(rf"^ {name}\b", texts["Rattle-kit"], re.MULTILINE) is not None


# ---- the wheel


def record_things(archive: zipfile.ZipFile, rows: List[List[str]]) -> Things:
    """Yield what has to hold of a wheel's list of files.

    Parameters
    ----------
    archive
        The wheel.
    rows
        The list.
    """
    names = [row[0] for row in rows]
    yield "RECORD doesn't list each file once", sorted(names) == sorted(archive.namelist())
    for name, digest, size in rows:
        text = archive.read(name)
        expected = "sha256=" + base64.urlsafe_b64encode(hashlib.sha256(text).digest()).rstrip(b"=").decode()
        is_right = (digest, size) == (expected, str(len(text))) if digest else name.endswith("/RECORD")
        yield f"RECORD has another digest or size of {name}", is_right


def wheel_things(path: str) -> Things:
    """Yield what has to hold of a wheel.

    Parameters
    ----------
    path
        Its path.
    """
    name, version, tag = os.path.basename(path)[: -len(".whl")].split("-", 2)
    with zipfile.ZipFile(path) as archive:
        texts = {one: archive.read(f"{name}-{version}.dist-info/{one}").decode() for one in ("RECORD", "WHEEL", "METADATA")}
        commands = archive.read(f"{name}-{version}.dist-info/entry_points.txt").decode()
        yield from record_things(archive, list(csv.reader(texts["RECORD"].splitlines())))
        yield "files of several times", len({one.date_time for one in archive.infolist()}) == 1
        there = archive.namelist()
    yield f"WHEEL has another tag than {tag}", f"\nTag: {tag}\n" in texts["WHEEL"]
    for line in ["numpy", 'pandas; extra == "pandas"', 'distributed; extra == "dask"']:
        yield f"METADATA doesn't require {line}", f"\nRequires-Dist: {line}\n" in texts["METADATA"]
    entries = re.findall(r"^histdesk-([a-z-]+) = histdesk\.cli\.([a-z_]+):main$", commands, re.MULTILINE)
    yield "no commands", len(entries) == commands.count(" = ") > 0
    for command, entry in entries:
        is_there = f"histdesk/cli/{entry}.py" in there and entry.replace("_", "-") == command
        yield f"no tool for {command}", is_there


def main() -> int:
    """Print what went wrong, and return the exit status."""
    things = [*copyright_things(sys.argv[1]), *wheel_things(sys.argv[2])]
    wrong = [message for message, is_so in things if not is_so]
    print("\n".join([*wrong, f"{len(things) - len(wrong)} of {len(things)} things hold"]))
    return 1 if wrong else 0


if __name__ == "__main__":
    sys.exit(main())
