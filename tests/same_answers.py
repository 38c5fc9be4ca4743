#!/usr/bin/env python3
"""Compares all answers of a checkout with those that it, or another one, gave before: what each tool prints, what each call of
the package returns, what the server of a page answers, and what two programs in C print, byte for byte.

    same_answers.py --record FOLDER [RECORDING]...
    same_answers.py --against FOLDER

The first form asks, and keeps the answers and the recordings in a new folder. The second one asks the same of the same
recordings, and reports each difference, with the question and the recording, and whether it is on the list of meant ones,
same_answers/meant.txt. Its status is 1 if a difference isn't on the list, or a pattern of the list matches none.

Questions are in tools.txt, calls.txt and page.txt of the folder same_answers. The recordings are those of examples/ and of
tests/model, simulated and hostile ones, and those that are named: recordings of perf or trace-cmd, or texts. The library is
found as the package finds it, and the program as HISTDESK says. It needs numpy. All questions take some minutes of one
processor."""

from __future__ import annotations

import argparse
import fnmatch
import importlib.util
import os
import platform
import shutil
import subprocess
import sys
import tempfile
import time
from collections.abc import Iterator
from pathlib import Path

# Nothing is written beside the sources.
sys.dont_write_bytecode = True

HERE = Path(__file__).resolve().parent
ROOT = HERE.parent
sys.path[:0] = [str(HERE / "same_answers"), str(HERE / "model")]

if importlib.util.find_spec("numpy") is None:
    sys.exit(f"same_answers.py: {sys.executable} has no numpy; another Python may have it, such as /usr/bin/python3")

from same_asking import Answer, Asker, Place, preload
from same_inputs import Input, Maker
from same_judging import INPUTS, OF, Judge, Kept, Key, matches, read_meant
from same_questions import HERE as LISTS
from same_questions import Lists, Run, Session, Visit, questions_of, read_lists

# The variable with the folder of temporary files, which is set in the process that asks.
SCRATCH = "HISTDESK_SAME_ANSWERS"
# What questions could see of the user's settings.
UNWANTED = ("BROWSER", "COLUMNS", "DISPLAY", "LINES", "PAGER", "PYTHONWARNINGS", "WAYLAND_DISPLAY", "HISTDESK_TRIED")


def parsed(argv: list[str] | None = None) -> argparse.Namespace:
    """Return the arguments."""
    parser = argparse.ArgumentParser(
        description=__doc__, formatter_class=argparse.RawDescriptionHelpFormatter, allow_abbrev=False
    )
    what = parser.add_mutually_exclusive_group(required=True)
    what.add_argument("--record", metavar="FOLDER", type=Path, help="ask, and keep the answers in this new folder")
    what.add_argument("--against", metavar="FOLDER", type=Path, help="ask, and compare with the answers in this folder")
    parser.add_argument("recordings", metavar="RECORDING", type=Path, nargs="*", help="with --record: more recordings")
    jobs = len(os.sched_getaffinity(0))
    parser.add_argument("--jobs", metavar="N", type=int, default=jobs, help="ask so many questions at once (all processors)")
    parser.add_argument("--only", metavar="PATTERN", action="append", help=f"only questions like `waits TRACE*{OF}damaged_*`")
    parser.add_argument("--checkout", metavar="FOLDER", type=Path, default=ROOT, help="ask another checkout than this one")
    parser.add_argument("--lists", metavar="FOLDER", type=Path, default=LISTS, help="lists of questions and of what is meant")
    parser.add_argument("--keep", metavar="FOLDER", type=Path, help="with --against: keep the answers in this new folder")
    options = parser.parse_args(argv)
    if options.recordings and not options.record:
        parser.error("--against asks of the recordings that --record has kept")
    if options.keep and not options.against:
        parser.error("--keep goes with --against")
    if not 1 <= options.jobs <= jobs:
        parser.error(f"--jobs is from 1 to {jobs}, the number of processors")
    return options


def environment_of(scratch: Path, checkout: Path) -> dict[str, str]:
    """Return the environment in which questions are asked: nothing of it depends on the user or on chance."""
    kept = {name: value for name, value in os.environ.items() if name not in UNWANTED and not name.startswith("LC_")}
    library = {name: str(Path(kept[name]).absolute()) for name in ("HISTDESK", "HISTDESK_LIBRARY") if name in kept}
    folders = {name: str(scratch / "home") for name in ("HOME", "XDG_CACHE_HOME", "XDG_CONFIG_HOME", "XDG_STATE_HOME")}
    words = {"LANG": "C.UTF-8", "LC_ALL": "C.UTF-8", "TZ": "UTC", "PYTHONHASHSEED": "0", "OPENBLAS_NUM_THREADS": "1"}
    python = {"PYTHONPATH": str(checkout / "python"), "PYTHONDONTWRITEBYTECODE": "1"}
    return {**kept, **library, **folders, **words, **python, "TMPDIR": str(scratch / "tmp"), SCRATCH: str(scratch)}


def started(argv: list[str], options: argparse.Namespace) -> int:
    """Start the process that asks, and return its status. What it leaves is removed."""
    with tempfile.TemporaryDirectory(prefix="same-answers-") as folder:
        scratch = Path(folder).resolve()
        for name in ("home", "tmp"):
            (scratch / name).mkdir()
        environment = environment_of(scratch, options.checkout.resolve())
        return subprocess.run([sys.executable, "-B", __file__, *argv], env=environment, check=False).returncode


# ---- what is asked


def known_of(options: argparse.Namespace) -> dict[str, str]:
    """Return what answers depend on besides the checkout."""
    versions = {"python": platform.python_version()}
    for name in ("numpy", "pandas", "distributed"):
        try:
            versions[name] = str(__import__(name).__version__)
        except ImportError:
            versions[name] = "missing"
    program = os.environ.get("HISTDESK") or str(options.checkout / "crates" / "histdesk" / "out" / "histdesk")
    return {**versions, "cc": str(bool(shutil.which("cc"))), "program": str(Path(program).exists())}


def chosen(key: Key | str, patterns: list[str] | None) -> bool:
    """Return whether a question is among those that are asked, or any question of a recording with this name."""
    if patterns is None:
        return True
    if isinstance(key, Key):
        return any(matches(key, pattern) for pattern in patterns)
    return any(fnmatch.fnmatchcase(key, pattern.partition(OF)[2] or "*") for pattern in patterns)


def questions(inputs: list[Input], lists: Lists, patterns: list[str] | None) -> Iterator[tuple[Input, Run | Session | Visit]]:
    """Go through all questions, those that take long first. A visit is made as a whole."""
    for one in sorted(inputs, key=lambda one: one.group not in ("large", "real")):
        for question in questions_of(lists, one):
            names = (
                [question.server.name, *map(question.name_of, question.requests)]
                if isinstance(question, Visit)
                else [question.name]
            )
            if any(chosen(Key(one.name, name), patterns) for name in names):
                yield one, question


def answers(options: argparse.Namespace, folder: Path, inputs: list[Input]) -> Iterator[Answer]:
    """Ask, and go through the answers; `folder` has the recordings."""
    checkout = options.checkout.resolve()
    try:
        preload(checkout)
    except ImportError as error:
        sys.exit(f"same_answers.py: {error}")
    asker = Asker(Place(checkout, folder.resolve(), Path(os.environ[SCRATCH])), options.jobs)
    for answer in asker.ask_all(questions(inputs, read_lists(options.lists), options.only)):
        if chosen(Key(answer.recording, answer.question), options.only):
            yield answer


# ---- the two forms


def new_folder(path: Path) -> None:
    """Make a folder. Exits if there is something of that name."""
    if path.exists():
        sys.exit(f"same_answers.py: {path} is there already")
    path.mkdir(parents=True)


def record(options: argparse.Namespace) -> int:
    """Ask, and keep the answers."""
    new_folder(options.record)
    folder = options.record / INPUTS
    folder.mkdir()
    maker = Maker(ROOT, folder, lambda name: chosen(name, options.only))
    maker.add_all()
    try:
        maker.add_real(options.recordings)
    except (OSError, ValueError) as error:
        sys.exit(f"same_answers.py: {error}")
    kept = Kept(options.record, known_of(options), maker.inputs, set())
    for answer in answers(options, folder, maker.inputs):
        kept.put(answer)
    kept.write()
    print(f"{len(kept.keys)} answers about {len(kept.inputs)} recordings and scripts are in {options.record}")
    return 0


def compare(options: argparse.Namespace) -> int:
    """Ask again, and report what differs."""
    try:
        before, meant = Kept.read(options.against), read_meant(options.lists / "meant.txt")
    except (OSError, ValueError) as error:
        sys.exit(f"same_answers.py: {error}")
    known = known_of(options)
    other = [f"{name} is {known[name]}, and was {value}" for name, value in before.environment.items() if known[name] != value]
    if other:
        sys.exit(f"same_answers.py: what is not the checkout's would differ: {'; '.join(other)}")
    judge = Judge(before, meant)
    kept = None
    if options.keep:
        new_folder(options.keep)
        kept = Kept(options.keep, known, before.inputs, set())
    for answer in answers(options, options.against / INPUTS, before.inputs):
        judge.see(answer)
        if kept:
            kept.put(answer)
    if kept:
        shutil.copytree(options.against / INPUTS, options.keep / INPUTS)
        kept.write()
    judge.miss(key for key in before.keys if chosen(key, options.only))
    return reported(judge, is_whole=options.only is None)


def reported(judge: Judge, is_whole: bool) -> int:
    """Print a report, and return the status. Patterns of the list may match nothing if not all was asked."""
    for line in judge.report():
        print(line)
    idle = judge.idle if is_whole else []
    for pattern in idle:
        print(f"NO DIFFERENCE: {pattern}: remove it from meant.txt")
    meant = len(judge.differences) - judge.unmeant
    print(f"{judge.count} answers compared; {judge.unmeant} differ, and {meant} others as is meant")
    return 1 if judge.unmeant or idle else 0


def main() -> int:
    """Record or compare, and return the exit status."""
    options = parsed()
    if SCRATCH not in os.environ:
        return started(sys.argv[1:], options)
    began = time.monotonic()
    status = record(options) if options.record else compare(options)
    times = os.times()
    seconds = times.user + times.system + times.children_user + times.children_system
    print(f"{seconds:.0f} s of a processor, {time.monotonic() - began:.0f} s by the clock", file=sys.stderr)
    return status


if __name__ == "__main__":
    try:
        sys.exit(main())
    except KeyboardInterrupt:
        sys.exit(130)
