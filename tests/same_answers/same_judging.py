"""Keeps answers in a folder, compares others with them, and tells of each difference whether it is meant."""

from __future__ import annotations

import difflib
import fnmatch
import hashlib
import json
import re
from collections.abc import Iterable, Iterator
from pathlib import Path
from typing import NamedTuple

from same_asking import Answer
from same_inputs import Input

INDEX, ANSWERS, INPUTS = "index.json", "answers", "inputs"
# How many lines of a difference are shown, how many characters of a line, and how many lines difflib looks at.
SHOWN, WIDTH, MOST = 12, 160, 400
# How many characters of a question are in the name of its file.
LONGEST = 100
# What stands between a question and its recording.
OF = " @ "


class Key(NamedTuple):
    """Which answer it is."""

    recording: str
    question: str

    def __str__(self) -> str:
        return f"{self.question}{OF}{self.recording}"


def matches(key: Key, pattern: str) -> bool:
    """Return whether an answer matches a pattern of questions, or one of questions and one of recordings with ` @ ` between."""
    question, _, recording = pattern.partition(OF)
    return fnmatch.fnmatchcase(key.question, question) and fnmatch.fnmatchcase(key.recording, recording or "*")


# ---- kept answers


def file_of(key: Key) -> str:
    """Return the name of the file that keeps an answer, below the folder of all answers."""
    words = re.sub(r"[^A-Za-z0-9._=,-]+", "_", key.question).strip("_")[:LONGEST]
    return f"{key.recording}/{words}.{hashlib.sha256(key.question.encode('utf-8', 'surrogateescape')).hexdigest()[:8]}"


class Kept:
    """A folder of answers.

    Attributes
    ----------
    folder
        The folder.
    environment
        What the answers depend on besides the checkout, such as the versions of Python and numpy.
    inputs
        What was asked about.
    keys
        The answers that there are.
    """

    def __init__(self, folder: Path, environment: dict[str, str], inputs: list[Input], keys: set[Key]) -> None:
        """Take what stands in the index."""
        self.folder, self.environment, self.inputs, self.keys = folder, environment, inputs, keys

    @classmethod
    def read(cls, folder: Path) -> Kept:
        """Read the index of a folder. Raises `OSError` or `ValueError` if it has none."""
        index = json.loads((folder / INDEX).read_text("utf-8"))
        inputs = [Input(**one) for one in index["inputs"]]
        return cls(folder, index["environment"], inputs, {Key(*one[:2]) for one in index["answers"]})

    def put(self, answer: Answer) -> None:
        """Keep an answer. Raises `ValueError` if there already is one."""
        key = Key(answer.recording, answer.question)
        if key in self.keys:
            raise ValueError(f"answered twice: {key}")
        self.keys.add(key)
        path = self.folder / ANSWERS / file_of(key)
        path.parent.mkdir(parents=True, exist_ok=True)
        path.write_bytes(answer.content)

    def content(self, key: Key) -> bytes:
        """Return an answer."""
        return (self.folder / ANSWERS / file_of(key)).read_bytes()

    def write(self) -> None:
        """Write the index."""
        inputs = [one._asdict() for one in self.inputs]
        answers = [[*key, f"{ANSWERS}/{file_of(key)}"] for key in sorted(self.keys)]
        content = {"environment": self.environment, "inputs": inputs, "answers": answers}
        (self.folder / INDEX).write_text(json.dumps(content, indent=1), "utf-8")


# ---- differences


class Meant(NamedTuple):
    """Differences that are meant: a pattern of their questions and recordings, and why."""

    pattern: str
    why: str


def read_meant(path: Path) -> list[Meant]:
    """Read the list of meant differences. Raises `ValueError` if a block lacks a part."""
    lines = [line for line in path.read_text("utf-8").split("\n") if not line.startswith("#")]
    front, *blocks = ("\n" + "\n".join(lines)).split("\n== ")
    if front.strip():
        raise ValueError(f"{path.name}: before the first pattern: {front.strip()}")
    meant = []
    for block in blocks:
        pattern, *rest = block.rstrip("\n").split("\n")
        sentences = [line for line in rest if line and not line.startswith(" ")]
        traces = [line for line in rest if line.startswith(" ") and line.strip()]
        if OF not in pattern or not sentences or not traces:
            raise ValueError(f"{path.name}: {pattern}: it needs a pattern with{OF}in it, a sentence and a smallest trace")
        meant.append(Meant(pattern, " ".join(sentences)))
    return meant


class Difference(NamedTuple):
    """An answer that isn't as it was, in lines, and why that is meant, or None."""

    key: Key
    lines: list[str]
    why: str | None


class Judge:
    """Compares answers with kept ones.

    Attributes
    ----------
    count
        How many answers were compared.
    differences
        Those that differ.
    """

    def __init__(self, before: Kept, meant: Iterable[Meant]) -> None:
        """Take the answers before, and the list of what is meant."""
        self._before, self._meant = before, list(meant)
        self._asked: set[Key] = set()
        self._matched: set[Meant] = set()
        self.count = 0
        self.differences: list[Difference] = []

    def see(self, answer: Answer) -> None:
        """Compare an answer."""
        key = Key(answer.recording, answer.question)
        self._asked.add(key)
        self.count += 1
        if key not in self._before.keys:
            self._add(key, ["it was not answered before:", *first_lines("+", lines_of(answer.content))])
            return
        before = self._before.content(key)
        if before != answer.content:
            self._add(key, short_difference(before, answer.content))

    def miss(self, wanted: Iterable[Key]) -> None:
        """Note which of these answers weren't seen."""
        for key in sorted(set(wanted) - self._asked):
            self._add(key, ["it is not answered any more:", *first_lines("-", lines_of(self._before.content(key)))])

    def _add(self, key: Key, lines: list[str]) -> None:
        """Note a difference."""
        covering = [one for one in self._meant if matches(key, one.pattern)]
        self._matched.update(covering)
        self.differences.append(Difference(key, lines, covering[0].why if covering else None))

    @property
    def unmeant(self) -> int:
        """How many differences aren't on the list."""
        return sum(one.why is None for one in self.differences)

    @property
    def idle(self) -> list[str]:
        """The patterns of the list that no difference matches."""
        return [one.pattern for one in self._meant if one not in self._matched]

    def report(self) -> Iterator[str]:
        """Go through the lines of a report: what isn't meant comes first, by questions."""
        for key, lines, why in sorted(self.differences, key=lambda one: (one.why is not None, one.key[::-1])):
            yield f"{'DIFFERS' if why is None else 'meant'}: {key}"
            if why is not None:
                yield f"    {why}"
            yield from (f"    {line}" for line in lines)


def lines_of(content: bytes) -> list[str]:
    """Return bytes in lines of printable ASCII."""
    lines = content.decode("utf-8", "surrogateescape").split("\n")
    return [ascii(line)[1:-1] for line in (lines if lines[-1] else lines[:-1])]


def first_lines(sign: str, lines: list[str]) -> list[str]:
    """Return the first lines of a text after a sign, and how many more there are."""
    more = [f"{sign} and {len(lines) - SHOWN} more lines"] if len(lines) > SHOWN else []
    return [*(f"{sign} {cut(line, 0)}" for line in lines[:SHOWN]), *more]


def cut(line: str, at: int) -> str:
    """Return as much of a line as is shown, with a place in it."""
    start = max(min(at - WIDTH // 2, len(line) - WIDTH), 0)
    return f"{'..' * (start > 0)}{line[start : start + WIDTH]}{'..' * (start + WIDTH < len(line))}"


def common(one: Iterable[object], other: Iterable[object]) -> int:
    """Return how many parts two sequences have in common at their beginning."""
    count = 0
    for left, right in zip(one, other):
        if left != right:
            break
        count += 1
    return count


def short_difference(before: bytes, after: bytes) -> list[str]:
    """Return the first lines in which two answers differ, with the line above."""
    old, new = lines_of(before), lines_of(after)
    first = common(old, new)
    last = common(reversed(old[first:]), reversed(new[first:]))
    old_part, new_part = old[first : len(old) - last], new[first : len(new) - last]
    place = f"line {first + 1}, {len(old_part)} lines before, {len(new_part)} now"
    above = [f"  {cut(old[first - 1], 0)}"] if first else []
    pairs = difference_lines(old_part[:MOST], new_part[:MOST])
    if not pairs:
        return [f"{place}: only line breaks or the last line's end differ"]
    more = [f"and {len(pairs) - SHOWN} more lines"] if len(pairs) > SHOWN else []
    return [place, *above, *pairs[:SHOWN], *more]


def difference_lines(old: list[str], new: list[str]) -> list[str]:
    """Return lines that differ, each after its sign; of a long line, the part around the first difference. If as many lines
    stand for some others, each stands below the one before."""
    lines = []
    matcher = difflib.SequenceMatcher(None, old, new, autojunk=False)
    for kind, old_from, old_to, new_from, new_to in matcher.get_opcodes():
        if kind == "equal":
            continue
        removed, added = old[old_from:old_to], new[new_from:new_to]
        if len(removed) == len(added):
            for one, other in zip(removed, added):
                at = common(one, other)
                lines += [f"- {cut(one, at)}", f"+ {cut(other, at)}"]
        else:
            lines += [*(f"- {cut(line, 0)}" for line in removed), *(f"+ {cut(line, 0)}" for line in added)]
    return lines
