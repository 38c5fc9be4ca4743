"""Compares the lists of questions with the sources of a checkout: what these offer and no question uses."""

from __future__ import annotations

import importlib
import inspect
import os
import re
import subprocess
from collections.abc import Iterator
from pathlib import Path
from types import ModuleType
from typing import NamedTuple

from same_questions import Lists

# How the page's server names its questions.
ASKED = re.compile(r'"([\w.]+)": Ask\(')
OPTION = re.compile(r"^  (?:-\w, )?(--?[a-z][a-z-]*)", re.M)


class Sources(NamedTuple):
    """What a checkout offers.

    Attributes
    ----------
    options
        The options of each tool.
    members
        The public names of the package, each with the public methods and properties of a class.
    page
        The questions that the server of tools/view answers.
    commands
        The commands of tools/desk.
    """

    options: dict[str, set[str]]
    members: dict[str, set[str]]
    page: set[str]
    commands: set[str]


def read_sources(root: Path, package: ModuleType) -> Sources:
    """Return what a checkout offers. Raises `ValueError` if the table of the page's questions isn't found.

    Parameters
    ----------
    root
        The checkout.
    package
        Its package, which is imported.
    """
    tools = sorted(path.name for path in (root / "tools").iterdir() if os.access(path, os.X_OK))
    texts = [path.read_text("utf-8") for path in sorted((root / "python" / "histdesk" / "view").glob("*.py"))]
    page = {name for text in texts for name in ASKED.findall(text)}
    if not page:
        raise ValueError("no table of the page's questions is found in python/histdesk/view")
    commands = importlib.import_module("histdesk.script.commands").COMMANDS
    members = {name: members_of(getattr(package, name)) for name in package.__all__}
    return Sources({tool: options_of(root / "tools" / tool) for tool in tools}, members, page, set(commands))


def options_of(tool: Path) -> set[str]:
    """Return the options that --help of a tool lists."""
    environment = {**os.environ, "PYTHONDONTWRITEBYTECODE": "1"}
    ran = subprocess.run([tool, "--help"], stdout=subprocess.PIPE, env=environment, check=False)
    return set(OPTION.findall(ran.stdout.decode())) - {"-h", "--help"}


def members_of(value: object) -> set[str]:
    """Return the public methods and properties of a public class, without the fields of a named tuple, which are told as they
    are."""
    if not inspect.isclass(value):
        return set()
    names = {name for kind in value.__mro__ if kind.__module__.startswith("histdesk") for name in vars(kind)}
    return {name for name in names if not name.startswith("_")} - set(getattr(value, "_fields", ()))


def lacking(sources: Sources, lists: Lists, scripts: str, told: str) -> Iterator[str]:
    """Go through what no question uses, in words.

    Parameters
    ----------
    sources
        What a checkout offers.
    lists
        The questions.
    scripts
        The text of the scripts that questions name.
    told
        The text of answers to the sessions, in which the types stand of what was returned.
    """
    lines = [line.removeprefix("tools/") for group in lists.runs.values() for line in group]
    servers = [server for group in lists.visits.values() for server, _ in group]
    for tool, options in sources.options.items():
        own = [line for line in [*lines, *servers] if line.split()[0] == tool]
        if not own:
            yield f"tools/{tool} is never asked"
        used = {word for line in own for word in line.split()}
        yield from (f"{option} of tools/{tool} is never given" for option in sorted(options - used))
    requests = [request.split()[1] for group in lists.visits.values() for _, all_of in group for request in all_of]
    asked = {path.partition("?")[0] for path in requests}
    yield from (f"{name} is never asked of the page's server" for name in sorted(sources.page - asked))
    code = "\n".join(session.code for group in lists.sessions.values() for session in group)
    known = set(re.findall(r"\w+", code)) | set(re.findall(r"\b(\w+)(?=\(| of |:)", told))
    yield from (f"histdesk.{name} is never asked, and no answer has one" for name in sorted(set(sources.members) - known))
    attributes = set(re.findall(r"\.(\w+)", code))
    for name, members in sources.members.items():
        yield from (f"{name}.{member} is never asked" for member in sorted(members - attributes))
    typed = {line.split()[0] for line in scripts.split("\n") if line.strip()}
    yield from (f"the command {name} of tools/desk is in no script" for name in sorted(sources.commands - typed))
