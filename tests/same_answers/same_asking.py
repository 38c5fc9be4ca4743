"""Asks all questions in processes side by side, and returns the answers.

A process loads the package once, and each question has a copy of it, by fork: so it meets no trace of another question, and
costs some milliseconds."""

from __future__ import annotations

import contextlib
import gc
import importlib
import io
import json
import os
import pkgutil
import shutil
import signal
import subprocess
import sys
import traceback
from collections.abc import Callable, Iterable, Iterator
from pathlib import Path
from typing import NamedTuple

import same_c
import same_calls
import same_page
from same_inputs import PROGRAMS, Input
from same_normal import Normal
from same_questions import WRITTEN, Run, Session, Visit, filled

# How many seconds may pass in which a question is asked and none ends. Time in which all processes are stopped doesn't count.
LIMIT = 120


class Answer(NamedTuple):
    """What was answered: the recording, the question and its answer in bytes."""

    recording: str
    question: str
    content: bytes


class Place(NamedTuple):
    """Where a question is asked.

    Attributes
    ----------
    root
        The checkout that is asked.
    inputs
        The folder of the recordings, which is the working folder.
    scratch
        The folder of temporary files.
    """

    root: Path
    inputs: Path
    scratch: Path


class Job(NamedTuple):
    """A question that is being asked: of which recording, at which idle second it began, and the folder of what is printed."""

    one: Input
    question: Run | Session | Visit
    since: int
    folder: Path


def preload(root: Path) -> None:
    """Load all of the package that can be loaded, so that no question has to. Raises `ImportError` without the library."""
    sys.path.insert(0, str(root / "python"))
    package = importlib.import_module("histdesk")
    # These load the library, and what is loaded at the first use of a call.
    package.Desk().close()
    package.waits(b"").table()
    package.summary(b"").table()
    for module in pkgutil.walk_packages(package.__path__, "histdesk."):
        # What can't be loaded shows in the answers of those who need it.
        with contextlib.suppress(Exception):
            importlib.import_module(module.name)
    gc.collect()
    gc.freeze()


class Asker:
    """Asks questions, so many at once."""

    def __init__(self, place: Place, jobs: int) -> None:
        """Take the place, and how many questions are asked at once."""
        self._place, self._jobs = place, jobs
        self._normal = Normal(place.root, place.inputs, place.scratch)
        self._running: dict[int, Job] = {}
        self._count = 0
        # How many seconds have passed in which no question ended.
        self._idle = 0

    def ask_all(self, questions: Iterable[tuple[Input, Run | Session | Visit]]) -> Iterator[Answer]:
        """Go through the answers as they come."""
        signal.pthread_sigmask(signal.SIG_BLOCK, [signal.SIGCHLD])
        try:
            for one, question in questions:
                while len(self._running) >= self._jobs:
                    yield from self._next()
                self._start(one, question)
            while self._running:
                yield from self._next()
        finally:
            for pid in self._running:
                os.killpg(pid, signal.SIGKILL)
            signal.pthread_sigmask(signal.SIG_UNBLOCK, [signal.SIGCHLD])

    def _start(self, one: Input, question: Run | Session | Visit) -> None:
        """Begin to ask a question."""
        programs = self._place.scratch / same_c.FOLDER
        if isinstance(question, Run) and question.is_in_c and not programs.exists():
            same_c.compile_all(self._place.root, programs)
        folder = self._place.scratch / str(self._count)
        folder.mkdir()
        for name in ("out", "err"):
            (folder / name).touch()
        self._count += 1
        sys.stdout.flush()
        sys.stderr.flush()
        pid = os.fork()
        if pid == 0:
            answer_in(self._place, Job(one, question, 0, folder), self._normal)
        with contextlib.suppress(OSError):
            # So that all that it starts can be ended, even if it hasn't come so far itself.
            os.setpgid(pid, pid)
        self._running[pid] = Job(one, question, self._idle, folder)

    def _next(self) -> Iterator[Answer]:
        """Wait until one is answered, or for a second, and return what was answered."""
        pid, status = os.waitpid(-1, os.WNOHANG)
        if pid == 0:
            self._idle += signal.sigtimedwait([signal.SIGCHLD], 1.0) is None
            pid, status = os.waitpid(-1, os.WNOHANG)
        for other, job in self._running.items():
            if self._idle - job.since > LIMIT:
                os.killpg(other, signal.SIGKILL)
        if pid in self._running:
            yield from self._answers(self._running.pop(pid), os.waitstatus_to_exitcode(status))

    def _answers(self, job: Job, status: int) -> Iterator[Answer]:
        """Return the answers of a question that has ended, without what isn't the same twice."""
        visits = job.folder / "visits"
        if visits.exists():
            for name, content in json.loads(visits.read_text("utf-8")):
                yield Answer(job.one.name, name, content.encode("utf-8", "surrogateescape"))
        name = job.question.server.name if isinstance(job.question, Visit) else job.question.name
        written = job.folder / WRITTEN
        contents = [(job.folder / file).read_bytes() for file in ("out", "err")]
        if written.exists():
            contents.append(same_page.saved_data(written.read_bytes()))
        shutil.rmtree(job.folder)
        plain = (content.replace(str(written).encode(), WRITTEN.encode()) for content in contents)
        yield Answer(job.one.name, name, told(status, *(self._normal.of(name, content) for content in plain)))


def told(status: int, out: bytes, err: bytes, written: bytes | None = None) -> bytes:
    """Return what a question came to: the status, each line of standard error after `2>`, standard output as it is, and the
    file that was written."""
    lines = [b"status %d\n" % status, *(b"2> " + line for line in err.splitlines(keepends=True))]
    if err and not err.endswith(b"\n"):
        lines.append(b"\n2: no line break at the end\n")
    return b"".join([*lines, b"stdout:\n", out, *([] if written is None else [b"written:\n", written])])


# ---- in a process of its own


def answer_in(place: Place, job: Job, normal: Normal) -> None:
    """Answer a question in this process, which ends."""
    status = 2
    try:
        os.setpgid(0, 0)
        signal.pthread_sigmask(signal.SIG_UNBLOCK, [signal.SIGCHLD])
        signal.signal(signal.SIGINT, signal.default_int_handler)
        os.chdir(place.inputs)
        if job.one.group == "converted":
            os.environ["PATH"] = f"{place.inputs / PROGRAMS}{os.pathsep}{os.environ['PATH']}"
        source = job.question.source if isinstance(job.question, Run) else None
        redirect(source or os.devnull, job.folder / "out", job.folder / "err")
        status = ended(work_of(place, job, normal))
    except OSError as error:
        # A file that the question names is missing.
        (job.folder / "err").write_text(f"not asked: {error}\n", "utf-8")
    finally:
        os._exit(status)


def work_of(place: Place, job: Job, normal: Normal) -> Callable[[], int]:
    """Return what answers a question; it returns the exit status."""
    question = job.question
    if isinstance(question, Session):
        code = question.code
        return lambda: same_calls.run(code, job.one.facts)
    if isinstance(question, Visit):
        visited = question
        return lambda: visit(visited, job, normal)
    words = [word.replace(WRITTEN, str(job.folder / WRITTEN)) if word == WRITTEN else word for word in question.words]
    if question.is_started:
        folder = place.scratch if question.is_in_c else place.root
        return lambda: subprocess.run([folder / words[0], *words[1:]], check=False).returncode
    return lambda: tool(words)


def redirect(source: str, out: Path, err: Path) -> None:
    """Have this process read from a file and write into two others, as if it had been started so."""
    files = (source, os.O_RDONLY), (str(out), os.O_WRONLY | os.O_CREAT), (str(err), os.O_WRONLY | os.O_CREAT)
    for number, (path, flags) in enumerate(files):
        opened = os.open(path, flags, 0o644)
        os.dup2(opened, number)
        os.close(opened)
    renew_streams()


def renew_streams() -> None:
    """Have Python's streams be what it makes of the open files 0, 1 and 2 when it begins."""
    form = sys.__stdout__.encoding, sys.__stdout__.errors
    sys.stdin = sys.__stdin__ = io.TextIOWrapper(open(0, "rb", closefd=False), *form)
    sys.stdout = sys.__stdout__ = io.TextIOWrapper(open(1, "wb", closefd=False), *form)
    stderr = io.TextIOWrapper(open(2, "wb", closefd=False), form[0], "backslashreplace", line_buffering=True)
    sys.stderr = sys.__stderr__ = stderr


def ended(work: Callable[[], int]) -> int:
    """Do some work, and return the status with which Python would end after it."""
    try:
        try:
            status = work()
        except SystemExit as end:
            if isinstance(end.code, str):
                print(end.code, file=sys.stderr)
            status = end.code if isinstance(end.code, int) else int(end.code is not None)
        except BaseException:
            traceback.print_exc()
            status = 1
        sys.stdout.flush()
        sys.stderr.flush()
    except OSError:
        status = 120
    return status & 0xFF


def tool(words: list[str]) -> int:
    """Run a tool in this process, and return its status."""
    module = importlib.import_module(f"histdesk.cli.{words[0].replace('-', '_')}")
    sys.argv = [words[0], *words[1:]]
    status: int = module.main(words[1:])
    return status


def visit(question: Visit, job: Job, normal: Normal) -> int:
    """Start the server of tools/view, make all requests, end it, and return its status."""
    read, write = os.pipe()
    sys.stdout.flush()
    pid = os.fork()
    if pid == 0:
        os.dup2(write, 1)
        os.close(read)
        os.close(write)
        renew_streams()
        os._exit(ended(lambda: tool(list(question.server.words))))
    os.close(write)
    with open(read, "rb") as printed:
        address = printed.readline()
        print(address.decode(), end="")
        answers = []
        for request in question.requests if address else ():
            name = question.name_of(request)
            try:
                content = same_page.ask(address.decode().strip(), filled(request, job.one.facts), normal, name)
            except OSError as error:
                content = f"no answer: {type(error).__name__}\n".encode()
            answers.append((name, content.decode("utf-8", "surrogateescape")))
        if address:
            os.kill(pid, signal.SIGINT)
        print(printed.read().decode("utf-8", "surrogateescape"), end="")
    (job.folder / "visits").write_text(json.dumps(answers), "utf-8")
    status = os.waitstatus_to_exitcode(os.waitpid(pid, 0)[1])
    # A signal ends it, which a shell reports so.
    return status if status >= 0 else 128 - status
