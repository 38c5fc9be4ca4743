"""What is asked: the lists of questions in the files beside this one, for each recording.

`tools.txt` has command lines, `calls.txt` sessions in Python, and `page.txt` requests to the server of tools/view."""

from __future__ import annotations

import itertools
import re
import shlex
from pathlib import Path
from typing import Iterator, NamedTuple

from same_inputs import Facts, Input

HERE = Path(__file__).resolve().parent
TOOLS, CALLS, PAGE = "tools.txt", "calls.txt", "page.txt"
# A recording also gets the questions of these groups.
ALSO = {"every": ("least", "every"), "some": ("least", "every", "some")}
# Words that stand for several ones, and one that stands for a file that a tool writes.
SEVERAL, WRITTEN = "TRACES", "OUT"
NAMES = "TRACE OTHER FROM MIDDLE UNTIL FIRST_US FROM_US UNTIL_US LAST_US CPU LINE BEGIN_CPU BEGIN_LINE TASK PID SCRIPT EXPECTED"
WORDS = re.compile(rf"\b({NAMES.replace(' ', '|')})\b")
CHOICES = re.compile(r"\{([^{}]*)\}")
# What stands above the questions of a group of recordings; a session and a server have a name, too.
CONTINUED = re.compile(r" *\\\n *")
HEADING = re.compile(r"\[([a-z]+(?:: .+)?)\]")


class Run(NamedTuple):
    """A question to a tool.

    Attributes
    ----------
    name
        The question, as its list has it.
    words
        The tool and its arguments.
    source
        The file that is its standard input, or None.
    """

    name: str
    words: tuple[str, ...]
    source: str | None

    @property
    def is_in_c(self) -> bool:
        """Whether a program over the C interface is asked."""
        return self.words[0].startswith("c/")

    @property
    def is_started(self) -> bool:
        """Whether the tool or program is started as a user does."""
        return self.words[0].startswith(("c/", "tools/"))


class Session(NamedTuple):
    """A question to the package: its name, and lines of Python."""

    name: str
    code: str


class Visit(NamedTuple):
    """Questions to the server of tools/view: the command line that starts it, and what is requested of it, in order."""

    server: Run
    requests: tuple[str, ...]

    def name_of(self, request: str) -> str:
        """Return the name of the question that a request is, as its list has it."""
        return f"{self.server.name}: {request}"


# ---- the lists


def sections(path: Path) -> Iterator[tuple[str, list[str]]]:
    """Go through the sections of a list: what stands in brackets above, and the lines below, without comments. A line that ends
    with a backslash goes on in the next one."""
    heading, lines = "", list[str]()
    for line in CONTINUED.sub(" ", path.read_text(encoding="utf-8")).split("\n"):
        found = HEADING.fullmatch(line)
        if found:
            if lines:
                yield heading, lines
            heading, lines = found[1], []
        elif line and not line.startswith("#"):
            lines.append(line)
    if lines:
        yield heading, lines


def expanded(line: str) -> list[str]:
    """Return the lines that a line with choices in braces stands for."""
    pieces = [piece.split("|") if at % 2 else [piece] for at, piece in enumerate(CHOICES.split(line))]
    return [" ".join("".join(chosen).split(" ")).replace("  ", " ").strip() for chosen in itertools.product(*pieces)]


class Lists(NamedTuple):
    """All questions by the groups of recordings of which they are asked; a visit's server and requests are as listed."""

    runs: dict[str, list[str]]
    sessions: dict[str, list[Session]]
    visits: dict[str, list[tuple[str, tuple[str, ...]]]]


def read_lists(folder: Path = HERE) -> Lists:
    """Return the questions of the lists in a folder. Raises `ValueError` if one stands there twice."""
    runs = {group: [one for line in lines for one in expanded(line)] for group, lines in sections(folder / TOOLS)}
    sessions: dict[str, list[Session]] = {}
    for heading, lines in sections(folder / CALLS):
        group, _, name = heading.partition(": ")
        sessions.setdefault(group, []).append(Session(name, "\n".join(lines)))
    visits: dict[str, list[tuple[str, tuple[str, ...]]]] = {}
    for heading, lines in sections(folder / PAGE):
        group, _, server = heading.partition(": ")
        visits.setdefault(group, []).append((server, tuple(lines)))
    lists = Lists(runs, sessions, visits)
    for group in {*runs, *sessions, *visits}:
        names = names_of(lists, group)
        twice = sorted({name for name in names if names.count(name) > 1})
        if twice:
            raise ValueError(f"twice among the questions of {group}: {twice[0]}")
    return lists


def names_of(lists: Lists, group: str) -> list[str]:
    """Return the names of the questions of a group."""
    visits = [f"{server}: {request}" for server, requests in lists.visits.get(group, []) for request in requests]
    return [*lists.runs.get(group, []), *(session.name for session in lists.sessions.get(group, [])), *visits]


# ---- the questions of a recording


def questions_of(lists: Lists, one: Input) -> Iterator[Run | Session | Visit]:
    """Go through what is asked of a recording. A command line with a word that stands for nothing there is left out."""
    for group in ALSO.get(one.group, (one.group,)):
        for line in lists.runs.get(group, []):
            run = run_of(line, one.facts)
            if run:
                yield run
        yield from lists.sessions.get(group, [])
        for server, requests in lists.visits.get(group, []):
            run = run_of(server, one.facts)
            if run:
                yield Visit(run, requests)


def run_of(line: str, facts: Facts) -> Run | None:
    """Return the question of a line, or None if it has a word that stands for nothing here."""
    words, source = list[str](), None
    for word in shlex.split(line):
        if word == SEVERAL:
            words += facts[SEVERAL].split()
            continue
        if any(name not in facts for name in WORDS.findall(word)):
            return None
        word = filled(word, facts)
        if word.startswith("<"):
            source = word[1:]
        else:
            words.append(word)
    return Run(line, tuple(words), source)


def filled(text: str, facts: Facts) -> str:
    """Return a text with what its words in capitals stand for."""
    return WORDS.sub(lambda word: facts[word[1]], text)
