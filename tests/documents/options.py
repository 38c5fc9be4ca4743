#!/usr/bin/env python3
"""Compares what tools/NAME --help lists with the man page, and the lists of tools with each other.

    options.py > WHAT WENT WRONG

Each tool of tools/ is in build/install, python/pyproject.toml, tools/README.md, docs/GUIDE.md and histdesk-tools(1), whose
synopsis has the options that its --help lists. What shows a percentile says what one is: --help of the tools with such
columns, the reference and that man page. The last line says how many things hold. It needs no library.
"""

import os
import re
import subprocess
import sys
from typing import Dict, Iterator, Set, Tuple

# Nothing is written beside the sources.
sys.dont_write_bytecode = True

from pages import ROOT, text_of

MAN = "man/histdesk-tools.1"
# What stands for several options in the synopsis, and an option that the page describes for all tools that read files.
PART = {"--from", "--until", "--cpu", "--events", "--lenient"}
SHARED = {"--jobs"}
# The tools that print percentiles.
PERCENTILES = ["diff", "summary", "waits"]
Thing = Tuple[str, bool]


def tools() -> Set[str]:
    """Return the names of the tools: the programs of tools/."""
    folder = os.path.join(ROOT, "tools")
    return {name for name in os.listdir(folder) if os.access(os.path.join(folder, name), os.X_OK)}


def synopses(page: str) -> Dict[str, Set[str]]:
    """Return the options of each tool in the synopsis of the man page, with `part` for the options that choose events."""
    section = re.search(r"^\.Sh SYNOPSIS\n(.*?)^\.Sh ", page, re.MULTILINE | re.DOTALL)
    forms: Dict[str, Set[str]] = {}
    for name, text in re.findall(r"^\.Nm histdesk-(\S+)\n((?:(?!\.Nm).*\n)*)", section[1] if section else "", re.MULTILINE):
        # `Fl -csv | -json` is two options.
        options = {f"-{option}" for option in re.findall(r"(?:Fl|\| (?=-)) ?(-?[a-z][a-z-]*)", text)}
        # A tool may have several forms.
        forms[name] = forms.get(name, set()) | options | (PART if "Op Ar part" in text else set())
    return forms


def usage(tool: str) -> str:
    """Return what --help of a tool prints."""
    command = [os.path.join(ROOT, "tools", tool), "--help"]
    ran = subprocess.run(command, stdout=subprocess.PIPE, env={**os.environ, "PYTHONDONTWRITEBYTECODE": "1"}, check=True)
    return ran.stdout.decode()


def options(tool: str) -> Set[str]:
    """Return the options that --help of a tool lists, except for --help."""
    return set(re.findall(r"^  (?:-\w, )?(--?[a-z][a-z-]*)", usage(tool), re.MULTILINE)) - {"-h", "--help"}


def things() -> Iterator[Thing]:
    """Go through what has to hold."""
    names, page = tools(), text_of(MAN)
    lists = {
        "build/install": re.search(r"^tools=\((.*)\)$", text_of("build/install"), re.MULTILINE)[1].split(),
        "python/pyproject.toml": re.findall(r"^histdesk-([a-z-]+) = ", text_of("python/pyproject.toml"), re.MULTILINE),
        MAN: re.findall(r"^\.Nm histdesk-(\S+)", page.partition(".Sh SYNOPSIS")[0], re.MULTILINE),
        "the descriptions of " + MAN: re.findall(r"^\.It Nm histdesk-(\S+)$", page, re.MULTILINE),
        "the synopsis of " + MAN: list(synopses(page)),
        "tools/README.md": re.findall(r"`([a-z-]+)`", text_of("tools/README.md").partition(" in use.")[0]),
    }
    for where, entries in lists.items():
        difference = names ^ set(entries)
        yield f"{where}: {' '.join(sorted(difference))}", not difference and len(entries) == len(names)
    for name in sorted(names):
        yield f"docs/GUIDE.md doesn't show tools/{name}", f"tools/{name}" in text_of("docs/GUIDE.md")
        difference = (options(name) ^ synopses(page).get(name, set())) - SHARED
        yield f"{MAN}: other options of {name}: {' '.join(sorted(difference))}", not difference
    percentiles = {f"tools/{name} --help": usage(name) for name in PERCENTILES}
    for where, text in {**percentiles, MAN: page, "docs/REFERENCE.md": text_of("docs/REFERENCE.md")}.items():
        yield f"{where} doesn't say what p99 is", "by nearest rank" in " ".join(text.split())


def main() -> int:
    """Print what went wrong, and return the exit status."""
    results = list(things())
    wrong = [message for message, holds in results if not holds]
    print("\n".join([*wrong, f"{len(results) - len(wrong)} of {len(results)} things hold"]))
    return 1 if wrong else 0


if __name__ == "__main__":
    sys.exit(main())
