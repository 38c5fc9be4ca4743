"""Tries the edits of a crate: what the prover checks for that, and what it has to say."""

import re
import shutil
import signal
import subprocess
import tempfile
from collections.abc import Callable, Iterable
from pathlib import Path
from threading import Lock
from typing import NamedTuple

import graph
import recipes
from mistakes import Edit, Sources, Way, edits_of

# What the prover says of a name that an edit has removed, and that a proof file mentions.
IS_GONE = re.compile(r"is not in scope|has no field|has no `|is no name|was not admitted")
# The lines that a check ends with, unless it ends early.
ENDS = re.compile(r"^(only=|holes=|logic=)", re.MULTILINE)
HOLE = """use Rattle.{crate}.proofs.{path}.Statement.{{statement}}

pub {name}_spec : {{M : Type 1}} → statement M
{name}_spec = ?
"""


class Verdict(NamedTuple):
    """What a trial has found out about an edit."""

    edit: Edit
    # Whether it is refused or, as a control, proved.
    is_right: bool
    # The goals that refuse it, or why it is not right.
    text: str


class Prover:
    """The prover, over the statements of crates that are proved.

    Parameters
    ----------
    kit
        The kit.
    below
        What each crate depends on.
    statements
        Where a crate has its statements.
    """

    def __init__(self, kit: recipes.Kit, below: graph.Below, statements: Callable[[str], Path]) -> None:
        self.kit, self.below, self.statements = kit, below, statements
        self.lock, self.running, self.is_ended = Lock(), set[subprocess.Popen[str]](), False

    def check(self, crate: str, room: Path, only: list[str]) -> str:
        """Return what a check of a crate prints whose files are in a folder.

        Parameters
        ----------
        crate
            The crate.
        room
            The folder.
        only
            The functions that are checked, with holes allowed in others; all if there are none.
        """
        words = recipes.rattle(self.kit, crate, 1, self.below, self.statements)
        words[1] = "check"
        words += ["src/lib.rt", *(["--allow-holes"] if only else []), *(f"--only={path}" for path in only)]
        if crate == graph.PRODUCTS["library"].crate:
            words += ["--crate-type", "staticlib"]
        with self.lock:
            if self.is_ended:
                return ""
            process = subprocess.Popen(
                words,
                cwd=room,
                stdin=subprocess.DEVNULL,
                stdout=subprocess.PIPE,
                stderr=subprocess.STDOUT,
                text=True,
                errors="replace",
            )
            self.running.add(process)
        said, _ = process.communicate()
        self.running.discard(process)
        return said

    def end(self) -> None:
        """End all checks."""
        with self.lock:
            self.is_ended = True
            for process in self.running:
                process.send_signal(signal.SIGTERM)


class Trial:
    """The trial of a crate's edits.

    A copy of each edited function, with the edit, is put beside the function, under another name and with the same clauses,
    attributes and proof files. So edits don't meet, and no caller changes. One check tries all copies. A hole stands for the
    proof of each other function that they call: its contract is taken as given.

    Parameters
    ----------
    prover
        The prover.
    crate
        The crate.
    is_control
        Try the functions as they are, in the same form.

    Raises
    ------
    BadEdit
        An edit can't be applied.
    """

    def __init__(self, prover: Prover, crate: str, is_control: bool = False) -> None:
        self.prover, self.crate, self.is_control = prover, crate, is_control
        self.home = graph.ROOT / "crates" / crate
        self.sources = Sources(self.home)
        self.edits = edits_of(crate, self.sources)
        # Functions that call themselves, which have their proofs elsewhere, so that no hole can stand for it.
        self.recursive: set[str] = set()

    def run(self) -> list[Verdict]:
        """Try the edits, and return a verdict on each of them; for a control, on each of the functions that are copied."""
        copies = [edit for edit in self.edits if edit.way == Way.COPY]
        if self.is_control:
            first = {tuple(edit.targets[0]): edit for edit in reversed(copies)}
            return self.judge(list(first.values()), [])
        verdicts: list[Verdict] = []
        for in_place in self.rounds():
            verdicts += self.judge(copies, in_place)
            copies = []
        return verdicts + [self.judge_alone(edit) for edit in self.edits if edit.way == Way.ALONE]

    def rounds(self) -> list[list[Edit]]:
        """Return the edits that are tried in place, in as few checks as they need so that none meets another one in a check."""
        rounds: list[list[Edit]] = [[]]
        for edit in (edit for edit in self.edits if edit.way == Way.IN_PLACE):
            free = (one for one in rounds if all(edit.units.isdisjoint(other.units) for other in one))
            found = next(free, None)
            if found is None:
                rounds.append([edit])
            else:
                found.append(edit)
        return rounds if self.edits else []

    def judge(self, copies: list[Edit], in_place: list[Edit]) -> list[Verdict]:
        """Try these edits in one check, and return a verdict on each."""
        if not copies and not in_place:
            return []
        changed = ["::".join(path) for edit in in_place for path in edit.targets]
        said = self.check(copies, in_place, [*(edit.copy_name for edit in copies), *changed])
        return [self.verdict(edit, said) for edit in [*copies, *in_place]]

    def judge_alone(self, edit: Edit) -> Verdict:
        """Try an edit in a check of the whole crate, and return the verdict: any goal or lemma may refuse it."""
        said = self.check([], [edit], [])
        found = re.findall(rf"^fn {self.crate}::(\S+): (.*)$", said, re.MULTILINE)
        goals = [f"{path}: {goal}" for path, line in found for goal in open_goals(path.replace("::", "."), said, [line])]
        errors = [line for line in said.split("\n") if re.match(r"\./proofs/\S+: error", line)]
        goals += [line[:100] for line in errors if not IS_GONE.search(line)]
        why = "it is proved" if "logic=proved" in said else "; ".join(line for _, line in found) or ended_early(said)
        return Verdict(edit, bool(goals), ", ".join(goals) or why)

    def check(self, copies: list[Edit], in_place: list[Edit], only: list[str]) -> str:
        """Return what a check of these functions prints, or of all if there are none."""
        while True:
            with tempfile.TemporaryDirectory(prefix="edits-") as folder:
                room = Path(folder)
                for part in ("src", "specs", "proofs"):
                    if (self.home / part).is_dir():
                        shutil.copytree(self.home / part, room / part)
                for edit in copies:
                    self.write_proofs(room, edit)
                if only:
                    self.leave_out(room, {"::".join(path) for edit in in_place for path in edit.targets})
                self.write_sources(room, copies, in_place)
                said = self.prover.check(self.crate, room, only)
            found = re.findall(r"^\./proofs/(\S+)/Proof\.antt: error\[reserved-name\]", said, re.MULTILINE)
            if not found:
                return said
            self.recursive.update(path.replace("/", "::") for path in found)

    def write_sources(self, room: Path, copies: list[Edit], in_place: list[Edit]) -> None:
        """Write the sources with these edits: first the copies, from the last one in a file on. No copy has an old text of the
        others, which are in other functions."""
        texts = dict(self.sources.texts)
        for edit in sorted(copies, key=lambda edit: -edit.place):
            text = texts[edit.file]
            texts[edit.file] = f"{text[: edit.place]}\n\n{edit.copy(self.is_control)}{text[edit.place :]}"
        for edit in in_place:
            for pair in edit.pairs:
                texts[edit.file] = texts[edit.file].replace(pair.old, pair.new)
        for file, text in texts.items():
            (room / file).write_text(text, encoding="utf-8")

    def write_proofs(self, room: Path, edit: Edit) -> None:
        """Write the proof files of a copy: those of the function, under the copy's name."""
        path, name = edit.targets[0], edit.targets[0][-1]
        of = room.joinpath("proofs", *path)
        if not of.is_dir():
            return
        shutil.copytree(of, of.with_name(edit.copy_name))
        old, new = re.escape(".".join(path)), ".".join([*path[:-1], edit.copy_name])
        for file in of.with_name(edit.copy_name).rglob("*.antt"):
            text = file.read_text(encoding="utf-8")
            text = re.sub(rf"\b(proofs|contracts)\.{old}(?=[.\s])", rf"\1.{new}", text)
            file.write_text(re.sub(rf"\b{name}_spec\b", f"{edit.copy_name}_spec", text), encoding="utf-8")

    def leave_out(self, room: Path, kept: Iterable[str]) -> None:
        """Have a hole stand for the proof of each function, except those that are kept, and methods of traits."""
        for file, functions in self.sources.functions.items():
            for function in functions:
                path = self.sources.path_of(file, function)
                if function.cycle or function.is_of_trait or "::".join(path) in {*kept, *self.recursive}:
                    continue
                folder = room.joinpath("proofs", *path)
                shutil.rmtree(folder, ignore_errors=True)
                folder.mkdir(parents=True)
                text = HOLE.format(crate=self.crate, path=".".join(path), name=path[-1])
                (folder / "Proof.antt").write_text(text, encoding="utf-8")

    def verdict(self, edit: Edit, said: str) -> Verdict:
        """Return the verdict on an edit that was tried with others, by what the check says of the functions that it changes."""
        paths = [edit.copy_name] if edit.way == Way.COPY else ["::".join(path) for path in edit.targets]
        goals: list[str] = []
        texts: list[str] = []
        for path in paths:
            found = re.findall(rf"^fn {self.crate}::(?:\S+::)?{path}: (.*)$", said, re.MULTILINE)
            texts += found or [ended_early(said)]
            goals += open_goals(path.replace("::", "."), said, found)
        if all(is_proved(text, edit.copy_name) for text in texts):
            return Verdict(edit, self.is_control, "it is proved")
        if self.is_control:
            return Verdict(edit, False, "; ".join(texts))
        return Verdict(edit, bool(goals), ", ".join(goals) or "; ".join(texts))


def open_goals(path: str, said: str, lines: list[str]) -> list[str]:
    """Return the goals of a function that are not proved, by these lines of a check. There are none if its proof files only
    mention names that an edit has removed, since that shows nothing."""
    goals: list[str] = []
    path = re.escape(path)
    for line in lines:
        stands = line.partition("it stands on")[2]
        goals += re.findall(rf"`Rattle\.\w+\.proofs\.(?:\S+\.)?{path}\.\w+\.([^`]+)`", stands)
        goals += re.findall(r"`search` did not prove ([^;]*)", line)
    folder = path.replace(r"\.", "/")
    errors = [line for line in said.split("\n") if re.match(rf"\./proofs/(\S+/)?{folder}/\S+ error", line)]
    return [] if errors and all(IS_GONE.search(line) for line in errors) else goals


def is_proved(text: str, copy: str) -> bool:
    """Return whether a copy is proved, if the functions that it calls are."""
    if text.startswith("depends on a hole in"):
        return f".{copy}." not in text
    return text.startswith(("proved", "no holes"))


def ended_early(said: str) -> str:
    """Return why a check says nothing of a function."""
    if ENDS.search(said):
        return "the check says nothing of it"
    lines = [line for line in said.split("\n") if line]
    errors = [line for line in lines if "error" in line]
    return "the check ended early: " + " / ".join([*errors[:2], *lines[-2:]])[:600]
