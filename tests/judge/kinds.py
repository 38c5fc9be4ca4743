"""The ways in which people record a machine.

Each is a function that records in a folder while it runs another function, and returns the text of the trace. The text has the
scheduler's events and the kernel's reports of who ran, with stamps of CLOCK_MONOTONIC.
"""

import os
import select
import signal
import subprocess
import time
from functools import partial
from typing import Callable, Dict, List, NamedTuple

from histdesk import _schema

During = Callable[[], None]

TOOLS = os.path.join(os.path.dirname(os.path.dirname(os.path.dirname(os.path.realpath(__file__)))), "tools")
TRACEFS = "/sys/kernel/tracing"
EVENTS = [*_schema.TRACED_EVENTS, "sched_stat_runtime"]
SCHED = [word for name in EVENTS for word in ("-e", f"sched:{name}")]
# A program that takes more seconds than this is ended.
LIMIT = 120

# A kernel may lack files that trace-cmd writes to: plain ones stand in for them, in a mount namespace of its own.
STAND_INS = """
cd -- "$0"
echo 1 >one
mount --bind one /proc/sys/kernel/ftrace_enabled
for name in set_{ftrace_filter,ftrace_notrace,graph_function,graph_notrace,ftrace_pid,ftrace_notrace_pid} set_event_{,no}pid; do
    file=/sys/kernel/tracing/$name
    [[ ! -e $file ]] || { : >"$name" && mount --bind "$name" "$file"; }
done
exec trace-cmd record "$@"
"""


class NotRecorded(Exception):
    """This machine can't record so."""


class Kind(NamedTuple):
    """A way to record.

    Attributes
    ----------
    record
        The function that records.
    is_ordinary
        Whether nearly all waits must be sure if the text reports no loss.
    """

    record: Callable[[str, During], bytes]
    is_ordinary: bool


def run_while(words: List[str], during: Callable[[int], None]) -> None:
    """Run a program that records until it is interrupted, and meanwhile a function, which is given its number."""
    tool = subprocess.Popen(words, stdin=subprocess.DEVNULL, stdout=subprocess.DEVNULL, stderr=subprocess.PIPE)
    try:
        during(tool.pid)
    finally:
        tool.send_signal(signal.SIGINT)
        try:
            _, said = tool.communicate(timeout=LIMIT)
        except subprocess.TimeoutExpired:
            tool.kill()
            raise
    if tool.returncode not in (0, 130, -signal.SIGINT):
        raise NotRecorded(f"{words[0]}: {said.decode(errors='replace').strip()[-300:]}")


def text_by(converter: str, path: str) -> bytes:
    """Return the text that one of our converters makes of a recording."""
    ran = subprocess.run([os.path.join(TOOLS, converter), path], capture_output=True, timeout=LIMIT)
    # A line that was left out is reported, and isn't judged here.
    if not ran.stdout:
        raise NotRecorded(f"{converter}: {ran.stderr.decode(errors='replace').strip()[-300:]}")
    return ran.stdout


def by_perf(options: List[str], folder: str, during: During) -> bytes:
    """perf, which on a busy machine may take seconds to begin: it is told to, and answers once all events are enabled."""
    path, asked, answered = (os.path.join(folder, name) for name in ("perf.data", "asked", "answered"))
    # Both are opened for reading too, so that nothing waits for perf.
    ends = [os.mkfifo(name) or os.open(name, os.O_RDWR) for name in (asked, answered)]

    def once_it_records(_: int) -> None:
        os.write(ends[0], b"enable\n")
        if not select.select([ends[1]], [], [], LIMIT)[0]:
            raise NotRecorded("perf doesn't begin")
        during()

    when = ["-D", "-1", "--control", f"fifo:{asked},{answered}"]
    try:
        run_while(["perf", "record", "-q", "-a", "-k", "CLOCK_MONOTONIC", "-o", path, *when, *options, *SCHED], once_it_records)
    finally:
        for end, name in zip(ends, (asked, answered)):
            os.close(end)
            os.remove(name)
    return text_by("from-perf", path)


def by_trace_cmd(kib: int, folder: str, during: During) -> bytes:
    path = os.path.join(folder, "trace.dat")
    words = ["-q", "-b", str(kib), "-C", "mono", "-o", path, *SCHED]
    run_while(["unshare", "-m", "bash", "-c", STAND_INS, folder, *words], lambda _: during())
    return text_by("from-trace-cmd", path)


def put(instance: str, settings: Dict[str, object]) -> None:
    """Change settings of an instance of tracefs."""
    for name, value in settings.items():
        with open(os.path.join(instance, name), "w", encoding="ascii") as file:
            file.write(str(value))


def by_tracefs(kib: int, overwrite: int, folder: str, during: During) -> bytes:
    instance = f"{TRACEFS}/instances/histdesk-judge.{os.getpid()}"
    os.mkdir(instance)
    try:
        put(instance, {"tracing_on": 0, "trace_clock": "mono", "options/overwrite": overwrite, "buffer_size_kb": kib})
        put(instance, {f"events/sched/{name}/enable": 1 for name in EVENTS})
        put(instance, {"tracing_on": 1})
        during()
        put(instance, {"tracing_on": 0})
        with open(f"{instance}/trace", "rb") as file:
            return file.read()
    finally:
        os.rmdir(instance)


def by_record(kib: int, folder: str, during: During) -> bytes:
    """tools/record, whose clock is changed as it begins, which empties its buffers."""
    path = os.path.join(folder, "recorded")

    def with_clock(pid: int) -> None:
        instance = f"{TRACEFS}/instances/histdesk.{pid}"
        end = time.monotonic() + LIMIT
        while not is_on(instance) and time.monotonic() < end:
            time.sleep(0.02)
        put(instance, {"trace_clock": "mono"})
        during()

    words = ["-o", path, "--buffer", str(kib), "--events", ",".join(EVENTS), str(LIMIT)]
    run_while([os.path.join(TOOLS, "record"), *words], with_clock)
    with open(path, "rb") as file:
        return file.read()


def is_on(instance: str) -> bool:
    """Return whether an instance records what tools/record is told to record, which turns it on last."""
    try:
        for name in (f"events/sched/{EVENTS[-1]}/enable", "tracing_on"):
            with open(f"{instance}/{name}", encoding="ascii") as file:
                if file.read().strip() != "1":
                    return False
    except OSError:
        return False
    return True


KINDS = {
    "perf": Kind(partial(by_perf, ["-m", "4096"]), True),
    "perf-small": Kind(partial(by_perf, ["-m", "16"]), True),
    "perf-overwrite": Kind(partial(by_perf, ["-m", "256", "--overwrite"]), False),
    "record": Kind(partial(by_record, 30000), True),
    "record-small": Kind(partial(by_record, 400), True),
    "tracefs": Kind(partial(by_tracefs, 30000, 1), True),
    "tracefs-small": Kind(partial(by_tracefs, 400, 1), True),
    "tracefs-full": Kind(partial(by_tracefs, 400, 0), False),
    "trace-cmd": Kind(partial(by_trace_cmd, 32768), True),
}
