"""Proves crates side by side, first those for which the longest chain of others waits."""

import os
import shutil
import signal
import subprocess
import sys
import tempfile
import time
from pathlib import Path
from typing import NamedTuple

import graph
import recipes
import schedule

# A job takes up to 2 GB, and there are up to two for each processor; /proc counts in KB.
MEMORY_PER_CRATE = 4_000_000
# After so many seconds a terminal is told anew how long the build still takes.
PAUSE = 20
# These end a build, unless whoever began it ignores them.
ENDS = {signal.SIGINT, signal.SIGTERM, signal.SIGHUP}


class Failure(Exception):
    """A crate is not proved."""


class Ended(Exception):
    """A signal ended the build."""

    def __init__(self, number: signal.Signals) -> None:
        super().__init__(number)
        self.number = number


class Job(NamedTuple):
    """A crate that is being proved."""

    name: str
    process: subprocess.Popen[bytes]
    since: str
    # By the clock of the build.
    begun: float

    def send(self, number: int) -> None:
        """Send a signal to all processes of the job."""
        try:
            os.killpg(self.process.pid, number)
        except ProcessLookupError:
            pass


class Progress:
    """Says on standard error how far the build is: on a terminal, in one line that the next one replaces."""

    def __init__(self) -> None:
        self.is_terminal = sys.stderr.isatty()

    def show(self, text: str) -> None:
        """Show where the build is."""
        line = f"build: {text}"
        if self.is_terminal:
            # A line that wraps would not be replaced as a whole. A terminal may not know its width, which is then 0.
            columns = os.get_terminal_size(sys.stderr.fileno()).columns
            line = "\r\x1b[K" + (line[: columns - 1] if columns else line)
        print(line, end="" if self.is_terminal else "\n", file=sys.stderr, flush=True)

    def end(self, text: str) -> None:
        """End the line of `show` on a terminal, by a text."""
        if self.is_terminal:
            print(text, end="", file=sys.stderr, flush=True)


def most_at_once() -> int:
    """Return how many crates are proved at a time."""
    lines = Path("/proc/meminfo").read_text(encoding="ascii").splitlines()
    free = next(int(line.split()[1]) for line in lines if line.startswith("MemAvailable:"))
    return max(1, min(len(os.sched_getaffinity(0)), free // MEMORY_PER_CRATE))


class Build:
    """The proof of some crates.

    Parameters
    ----------
    kit
        The kit.
    count
        How many crates there are of what is built, with those that needn't be proved.
    estimate
        What is to be proved, by which rules, and how long that takes.
    lock
        A descriptor that each job keeps, so that no other build begins before its end.
    """

    def __init__(self, kit: recipes.Kit, count: int, estimate: schedule.Estimate, lock: int) -> None:
        self.kit, self.all, self.estimate, self.rules, self.lock = kit, count, estimate, estimate.rules, lock
        self.left, self.waiting = set(estimate.names), list(estimate.names)
        self.running: list[Job] = []
        # By the clock of the build, the seconds that each crate took that is done.
        self.took: dict[str, float] = {}
        # For how many seconds the build was held.
        self.held = 0.0
        self.work = Path(tempfile.mkdtemp(prefix="build.", dir=graph.OUT))
        self.progress = Progress()

    def clock(self) -> float:
        """Return a time in seconds, which goes on except while the build is held."""
        return time.monotonic() - self.held

    def run(self) -> None:
        """Prove the crates.

        Raises
        ------
        Failure
            A crate is not proved.
        Ended
            A signal ended the build.
        """
        signals = {signal.SIGCHLD, signal.SIGTSTP, *ENDS}
        heard = {number for number in signals if signal.getsignal(number) != signal.SIG_IGN}
        # A signal is noticed only where this waits for one.
        signal.pthread_sigmask(signal.SIG_BLOCK, heard)
        try:
            self.prove(heard)
            self.progress.end("\r\x1b[K")
        finally:
            self.clear()

    def prove(self, heard: set[signal.Signals]) -> None:
        """Start what is ready, and wait, until nothing is left."""
        while self.left:
            for name in self.rules.ready(self.waiting, self.left)[: self.rules.most - len(self.running)]:
                self.start(name)
            number = self.show(heard)
            if number in ENDS:
                raise Ended(signal.Signals(number))
            if number == signal.SIGTSTP:
                self.hold()
            for job in [job for job in self.running if job.process.poll() is not None]:
                self.settle(job)

    def start(self, name: str) -> None:
        """Start a crate."""
        jobs, steps = self.rules.share(name, [job.name for job in self.running])

        def begin() -> None:
            # A group of processes for each job, by which it is ended with all that it started. A session of its own would set
            # the steps aside: the system may share out processors between sessions first.
            os.setpgid(0, 0)
            os.nice(steps)
            signal.pthread_sigmask(signal.SIG_SETMASK, ())

        (graph.OUT / f"{name}.proved").unlink(missing_ok=True)
        (self.work / f"{name}.started").touch()
        script = recipes.recipe(self.kit, name, self.rules.below, jobs, self.work)
        with open(self.work / f"{name}.log", "wb") as log:
            process = subprocess.Popen(
                ["sh", "-c", script],
                cwd=graph.ROOT / "crates" / name,
                stdin=subprocess.DEVNULL,
                stdout=log,
                stderr=subprocess.STDOUT,
                preexec_fn=begin,
                pass_fds=[self.lock],
            )
        self.waiting.remove(name)
        self.running.append(Job(name, process, time.strftime("%H:%M:%S"), self.clock()))

    def settle(self, job: Job) -> None:
        """Take note of a job that has ended: the crate is proved, or the build ends with what the job printed last."""
        self.running.remove(job)
        text = (self.work / f"{job.name}.log").read_text(encoding="utf-8", errors="replace")
        with open(graph.OUT / "log", "a", encoding="utf-8") as log:
            log.write(text)
        if job.process.returncode != 0:
            self.progress.end("\n")
            raise Failure("\n".join([*text.splitlines()[-20:], f"build: not built: {job.name} is not proved"]))
        (self.work / f"{job.name}.started").rename(graph.OUT / f"{job.name}.proved")
        self.left.remove(job.name)
        self.took[job.name] = self.clock() - job.begun

    def show(self, heard: set[signal.Signals]) -> int:
        """Show how far the build is until a signal comes, and return its number."""
        while True:
            now = self.clock()
            left = schedule.in_minutes(self.estimate.left(self.took, {job.name: now - job.begun for job in self.running}))
            running = ", ".join(f"{job.name} since {job.since}" for job in self.running)
            self.progress.show(f"{self.all - len(self.left)} of {self.all} crates proved, {left} left; proving {running}")
            if not self.progress.is_terminal:
                return signal.sigwait(heard)
            told = signal.sigtimedwait(heard, PAUSE)
            if told:
                return told.si_signo

    def hold(self) -> None:
        """Hold what runs as long as this is held: Ctrl-Z reaches only the terminal's own group of processes."""
        since = time.monotonic()
        self.send(signal.SIGSTOP)
        os.kill(os.getpid(), signal.SIGSTOP)
        self.send(signal.SIGCONT)
        self.held += time.monotonic() - since

    def send(self, number: int) -> None:
        """Send a signal to all jobs."""
        for job in self.running:
            job.send(number)

    def clear(self) -> None:
        """End what still runs, even if it is held, and remove the folder of this build."""
        self.send(signal.SIGTERM)
        self.send(signal.SIGCONT)
        for job in self.running:
            job.process.wait()
        shutil.rmtree(self.work)
