"""Recordings asked by this process, by processes of this machine, or by the workers of a Dask cluster."""

from __future__ import annotations

import collections
import concurrent.futures
import multiprocessing
import multiprocessing.context
import os
import pickle
import queue
import signal
import threading
import time
import traceback
import uuid
import warnings
from concurrent.futures.process import BrokenProcessPool
from multiprocessing.process import BaseProcess
from typing import TYPE_CHECKING, Any, Callable, Generator, Iterable, Iterator, Mapping, NamedTuple, Protocol, Sequence

from ..desk.recording import read
from ..native.refusals import Refused, refusal_words
from ..show import tables
from ..trace.losses import LossWarning
from .questions import Reply, Asked, Failed, Outcome

if TYPE_CHECKING:
    from .many import Question

# All threads share the filters of warnings.
READING = threading.Lock()
# How many seconds pass between two looks for workers in a cluster, and until these are taken to be gone for good.
LOOK, LONG = 5.0, 300.0
# How many recordings are handed to a cluster at once, at least.
ROOM = 100
# The states of a future whose worker was killed after it had an answer, and before anybody fetched that.
LOST = ("lost", "pending")


class Future(Protocol):
    """What this package needs of a future of Dask."""

    key: str
    status: str

    def result(self, timeout: float | None = None) -> Any:
        """Return what was computed."""

    def exception(self) -> BaseException:
        """Return why it failed."""

    def release(self) -> object:
        """Let the cluster forget it."""

    def add_done_callback(self, fn: Callable[[Future], object]) -> object:
        """Have a function called once it is done."""


class Client(Protocol):
    """What this package needs of a client of Dask (`distributed.Client`)."""

    asynchronous: bool

    def submit(self, func: Callable[..., object], *args: object, key: str | None = None, pure: bool = True) -> Future:
        """Have a worker call a function."""

    def nthreads(self) -> Mapping[str, int]:
        """Return how many threads each worker has."""

    def cancel(self, futures: Iterable[Future]) -> object:
        """Give up what isn't done."""


class WorkerTask(NamedTuple):
    """What a worker gets beside a path.

    Attributes
    ----------
    question
        The question, pickled.
    by_value
        Whether classes that the worker can't import are pickled as a whole.
    choice
        What part of each recording is read, by the keywords of `read`.
    """

    question: bytes
    by_value: bool
    choice: dict[str, Any]


# ---- what a worker does


def ask(question: Question, path: str, choice: dict[str, Any]) -> Outcome:
    """Return the answer of a recording. Whatever goes wrong is noted for the recording, and nothing is raised.

    A question that has `ask_path` reads the recording itself.
    """
    try:
        if hasattr(question, "ask_path"):
            outcome: Outcome = question.ask_path(path, **choice)
            return outcome
        # What is lost is reported for all recordings together.
        with READING, warnings.catch_warnings():
            warnings.simplefilter("ignore", LossWarning)
            recording = read(path, **getattr(question, "reading", {}), **choice)
        recording.is_reported = True
        answer = question.ask(recording)
        full = answer if isinstance(answer, Reply) else Reply(answer)
        # A long one that nobody has read wasn't cut either.
        bad, taken = (len(recording.bad_lines), recording.taken) if recording.is_read else (0, None)
        return Asked(path, recording.warning, full.doubtful, full.dropped, bad, taken), full.part
    except Exception as error:
        return failure(path, error), None


def failure(path: str, error: BaseException) -> Failed:
    """Return why a recording was left out."""
    detail = "".join(traceback.format_exception(type(error), error, error.__traceback__))
    return Failed(path, words_of(error), detail)


def words_of(error: BaseException) -> str:
    """Return what went wrong, in one line."""
    if isinstance(error, MemoryError):
        return refusal_words("refused 1")
    if isinstance(error, OSError):
        return tables.printable(error.strerror or str(error))
    words = error.words if isinstance(error, Refused) else str(error)
    is_plain = isinstance(error, ImportError) or type(error).__module__.startswith("histdesk")
    return tables.printable(words if words and is_plain else f"{type(error).__name__}: {words}")


def pack(thing: object, by_value: bool) -> bytes:
    """Return an object as it goes to another process."""
    if by_value:
        import cloudpickle  # type: ignore[import]

        return bytes(cloudpickle.dumps(thing))
    return pickle.dumps(thing)


def work(task: WorkerTask, path: str) -> bytes:
    """Return the answer of a recording, pickled: what a worker does."""
    outcome = ask(pickle.loads(task.question), path, task.choice)
    try:
        return pack(outcome, task.by_value)
    except Exception as error:
        return pack((failure(path, error), None), task.by_value)


def outcome_of(path: str, answer: Callable[[], bytes]) -> Outcome:
    """Return what a worker has answered of a recording; if there is no answer, why."""
    try:
        outcome: Outcome = pickle.loads(answer())
        return outcome
    except Exception as error:
        return failure(path, error), None


def why_not_ready(task: WorkerTask) -> str | None:
    """Return why a worker can't unpickle the question; None if it can."""
    try:
        pickle.loads(task.question)
    except Exception as error:
        return words_of(error)
    return None


def task_of(question: Question, choice: dict[str, Any], by_value: bool) -> WorkerTask:
    """Return what workers get.

    Raises
    ------
    TypeError
        If the question can't be pickled.
    """
    try:
        return WorkerTask(pack(question, by_value), by_value, choice)
    except Exception as error:
        raise TypeError(
            f"the question can't be handed to another process ({words_of(error)}): its class or function must be at the top "
            "level of a module; processes=0 asks in this process"
        ) from error


def check_ready(why_not: str | None) -> None:
    """Check that a worker can unpickle the question.

    Raises
    ------
    TypeError
        If there is a reason why not.
    """
    if why_not:
        raise TypeError(
            f"a worker can't read the question ({why_not}): its class or function must be in a module that workers can "
            "import; processes=0 asks in this process"
        )


# ---- in this process


def by_this_process(question: Question, paths: Sequence[str], choice: dict[str, Any]) -> Generator[Outcome, None, None]:
    """Ask one recording after the other."""
    for path in paths:
        yield ask(question, path, choice)


# ---- by processes of this machine


class Spawning(multiprocessing.context.SpawnContext):
    """Starts processes, and remembers them."""

    def __init__(self) -> None:
        """Begin without processes."""
        super().__init__()
        self.processes: list[BaseProcess] = []

    def Process(self, *arguments: Any, **named: Any) -> BaseProcess:  # type: ignore[override]
        """Return a new process, which isn't started yet."""
        self.processes.append(super().Process(*arguments, **named))
        return self.processes[-1]


def begin_worker() -> None:
    """Do what a worker does first: it leaves Ctrl-C to the process that made it, and ends when that ends."""
    signal.signal(signal.SIGINT, signal.SIG_IGN)
    parent = multiprocessing.parent_process()
    if parent:
        threading.Thread(target=end_with, args=(parent,), daemon=True).start()


def end_with(parent: BaseProcess) -> None:
    """End this process when another one has ended."""
    parent.join()
    os._exit(1)


class Pool:
    """Some processes, as a context manager that ends them. If one is killed, the standard library ends them all."""

    def __init__(self, task: WorkerTask, size: int) -> None:
        """Make so many processes for a task."""
        self.task, self.size = task, size
        self.context = Spawning()
        self.executor = concurrent.futures.ProcessPoolExecutor(size, self.context, begin_worker)

    def __enter__(self) -> Pool:
        return self

    def __exit__(self, kind: type[BaseException] | None, *_: object) -> None:
        # After an exception, nobody needs what they do.
        for process in self.context.processes if kind else ():
            if process.pid:
                process.kill()
        self.executor.shutdown()

    def check(self) -> None:
        """Check that workers can begin and unpickle the question.

        Raises
        ------
        TypeError
            If they can't unpickle it.
        RuntimeError
            If they can't begin.
        """
        try:
            check_ready(self.executor.submit(why_not_ready, self.task).result())
        except BrokenProcessPool:
            raise RuntimeError(
                'no worker can begin; a program must call many() under `if __name__ == "__main__":`, since workers read it anew'
            ) from None

    def ask(self, waiting: collections.deque[str], suspects: list[str]) -> Iterator[Outcome]:
        """Ask the recordings that wait, as many at a time as there are processes. If a process is killed, those that were being
        asked become suspects, and the others still wait."""
        flight: dict[concurrent.futures.Future[bytes], str] = {}
        while self.fill(waiting, flight) or flight:
            done, _ = concurrent.futures.wait(flight, return_when=concurrent.futures.FIRST_COMPLETED)
            for future in done:
                path = flight.pop(future)
                if isinstance(future.exception(), BrokenProcessPool):
                    suspects.append(path)
                else:
                    yield outcome_of(path, future.result)

    def fill(self, waiting: collections.deque[str], flight: dict[concurrent.futures.Future[bytes], str]) -> bool:
        """Hand recordings out as long as there are processes without one; return whether that worked and some are out."""
        try:
            while waiting and len(flight) < self.size:
                future = self.executor.submit(work, self.task, waiting[0])
                flight[future] = waiting.popleft()
        except BrokenProcessPool:
            return False
        return bool(flight)

    def end_of_first(self) -> str:
        """Return how its first process ended."""
        code = self.context.processes[0].exitcode
        return signal.Signals(-code).name if code is not None and code < 0 else f"status {code}"


def by_pool(task: WorkerTask, paths: Sequence[str], processes: int) -> Generator[Outcome, None, None]:
    """Ask with so many processes. If one is killed, the recordings that were being asked are asked again, each in a process of
    its own; a recording that kills that one too is left out."""
    waiting, size, is_checked = collections.deque(paths), processes, False
    while waiting:
        suspects: list[str] = []
        with Pool(task, min(size, len(waiting))) as pool:
            if not is_checked:
                pool.check()
            is_checked = True
            yield from pool.ask(waiting, suspects)
        outcomes = [ask_again(task, path) for path in suspects]
        yield from outcomes
        if suspects and not any(isinstance(known, Failed) for known, _ in outcomes):
            # None of them is to blame, so memory may have been short.
            size = max(size - 1, 1)


def ask_again(task: WorkerTask, path: str) -> Outcome:
    """Ask a recording again, in a process of its own."""
    suspects: list[str] = []
    with Pool(task, 1) as pool:
        outcomes = list(pool.ask(collections.deque([path]), suspects))
    if outcomes:
        return outcomes[0]
    why = f"the worker that asked it was killed, and so was a second one ({pool.end_of_first()}); memory may be short"
    return Failed(path, why), None


# ---- by a Dask cluster


def by_dask(client: Client, task: WorkerTask, paths: Sequence[str]) -> Generator[Outcome, None, None]:
    """Ask with the workers of a client's cluster. If one is killed, Dask itself asks again a few times; a recording that it
    gives up is asked once more by itself."""
    dask = Dask(client, task)
    dask.check()
    suspects: list[str] = []
    yield from dask.ask(paths, suspects)
    for path in suspects:
        again: list[str] = []
        yield from dask.ask([path], again)
        if again:
            yield Failed(path, "the workers that asked it were killed, again and again; memory may be short"), None


class Dask:
    """A client, and what its workers get."""

    def __init__(self, client: Client, task: WorkerTask) -> None:
        """Take a client, and the task of its workers."""
        self.client, self.task, self.name, self.count = client, task, f"histdesk-{uuid.uuid4().hex}", 0
        # How many recordings are handed out at a time, and when that was last computed.
        self.room, self.last_look = 0, -LOOK

    def check(self) -> None:
        """Check that a worker can begin and unpickle the question.

        Raises
        ------
        TypeError
            If it can't unpickle it.
        RuntimeError
            If it lacks this package.
        """
        try:
            why_not = self.client.submit(why_not_ready, self.task, pure=False).result()
        except Exception as error:
            raise RuntimeError(
                f"a worker of the client can't begin ({words_of(error)}): each needs this package and the library"
            ) from error
        check_ready(why_not)

    def most(self) -> int:
        """Return how many recordings are handed to the cluster at a time: so many that no worker waits for the next one, and
        that a cluster which grows with its work does so."""
        now = time.monotonic()
        if now >= self.last_look + LOOK:
            self.room, self.last_look = max(ROOM, 4 * sum(self.client.nthreads().values())), now
        return self.room

    def ask(self, paths: Sequence[str], suspects: list[str]) -> Iterator[Outcome]:
        """Ask recordings. Those whose workers are killed too often become suspects."""
        waiting = collections.deque(paths)
        done: queue.SimpleQueue[Future] = queue.SimpleQueue()
        flight: dict[str, tuple[Future, str]] = {}
        try:
            while waiting or flight:
                while waiting and len(flight) < self.most():
                    future = self.submit(waiting[0])
                    flight[future.key] = future, waiting.popleft()
                    future.add_done_callback(done.put)
                first = self.first(done)
                if first is None:
                    break
                future, path = flight.pop(first.key)
                if future.status in LOST:
                    waiting.append(path)
                else:
                    yield from self.outcome(future, path, suspects)
                future.release()
            for path in [*(path for _, path in flight.values()), *waiting]:
                yield Failed(path, "no worker of the cluster was left to ask it"), None
        finally:
            if flight:
                self.client.cancel([future for future, _ in flight.values()])

    def first(self, done: queue.SimpleQueue[Future]) -> Future | None:
        """Return the first future that is done; None if all workers have gone and none has come for a long time."""
        alone_since = None
        while True:
            try:
                return done.get(timeout=LOOK)
            except queue.Empty:
                now = time.monotonic()
                alone_since = None if self.client.nthreads() else alone_since or now
                if alone_since and now - alone_since >= LONG:
                    return None

    def outcome(self, future: Future, path: str, suspects: list[str]) -> Iterator[Outcome]:
        """Go through what a future that is done has: one outcome, or none if its recording became a suspect."""
        if future.status == "finished":
            yield outcome_of(path, lambda: bytes(future.result(LONG)))
        elif future.status != "error":
            yield Failed(path, f"the cluster has given it up: {future.status}"), None
        elif type(future.exception()).__name__ == "KilledWorker":
            suspects.append(path)
        else:
            yield failure(path, future.exception()), None

    def submit(self, path: str) -> Future:
        """Return the future of a recording's answer."""
        self.count += 1
        return self.client.submit(work, self.task, path, key=f"{self.name}-{self.count}", pure=False)
