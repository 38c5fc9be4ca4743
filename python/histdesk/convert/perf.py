"""The text of `perf script`."""

from __future__ import annotations

import os
import pwd
import re
import subprocess
from collections.abc import Callable, Iterable, Sequence

from . import perf_data
from .blocks import Starts, Writer
from .helpers import helper
from .lines import CARRIED, ODD, OWN, REST, ROUNDED, STAMP, Line, NotConvertible, round_stamp, round_up
from .report import ConversionError, Report
from .text_format import Groups, TextFormat

# The filter by which perf converts plain events itself; build/build makes it of helpers/perf_filter.c.
FILTER = "perf_filter.so"
# perf puts the name to the right in 16 columns, and the number in 5 or 7 after a space. If a name's line break tears the
# line, the [ of its second piece stands further to the left than any here.
PLAIN = (
    rb"^(?=[^\[\n]{23})(?![ ]*\#)([^\[\n]{16,31}?)[ ]{1,7}([0-9]{1,9}[ ]\[[0-7]?[0-9]{1,3}\])[ ]{1,9}"
    + STAMP + rb"[ ]{1,64}(?:sched:)?" + REST + ODD
)  # fmt: skip
# With -F +pid, the number of the process and a slash stand before that of the thread, which has 5 columns too.
WITH_PROCESS = re.compile(rb"^(?=[^\[\n]{29})([^\[\n]{16,31}?[ ]{1,7})[0-9]{1,9}/([0-9]{1,9} )[ ]*(?=\[)", re.MULTILINE)
# The same in a line that the line breaks of names have torn.
TORN_PROCESS = re.compile(rb"(.{16} )(?=[ 0-9-]{5,7}/) *-?[0-9]+/(-1|[0-9]+) +(?=\[)", re.DOTALL)
TAIL = rb"(\[[0-9]+\]) +([0-9]{1,10})\.([0-9]{6}|[0-9]{9}): +([^ \n]+):(?: (.*))?"
STRICT = re.compile(rb"(.{16}) (?=[ 0-9-]{5,7} \[) *(-1|[0-9]+) " + TAIL, re.DOTALL)
# If STRICT doesn't match, as for a longer name or if blanks were taken away, the name is the shortest that fits.
LOOSE = re.compile(rb" *([^\n]*?) +(?:-?[0-9]+/)?(-1|[0-9]+) +" + TAIL, re.DOTALL)
LOST = re.compile(rb".*\[([0-9]+)\] +[0-9]+\.[0-9]+: +PERF_RECORD_LOST lost ([0-9]+) *")
ASIDE = re.compile(rb"|#.*|.* [0-9]+\.[0-9]+: +PERF_RECORD_[A-Z_]+(?: .*)?")
# Whose switch it is, by its own fields.
LEAVES = re.compile(rb"prev_comm=(.*) prev_pid=([0-9]+) prev_prio=-?[0-9]+ prev_state=[^ ]+ ==> ", re.DOTALL)
COMES = re.compile(rb": sched_switch: prev_comm=.* ==> next_comm=(.*) next_pid=([0-9]+) next_prio=")
# The CPU of a converted line, and what looks like one in a name.
PLACE = re.compile(rb" (\[[0-9]+\])(?= )")
# What has a CPU and a stamp is no piece of a name.
FRONTED = re.compile(rb"[0-9]+ +\[[0-9]{3,}\] +[0-9]+\.[0-9]{6,9}:")
# A line: the name and the number of its task, its CPU, and what follows, with its event and what that says.
ANY = re.compile(rb"(?! *#)(.{16,31}?) +(-?[0-9]+) (\[[0-9]+\])( +[0-9]+\.[0-9]{6,9}: +(?:sched:)?([^ ]+)(.*))")
NUMBER = re.compile(rb"^(?! *#)(.{16,31}?) +-?[0-9]+ (?=\[[0-9]+\] +[0-9]+\.[0-9]{6,9}: )", re.MULTILINE)
# Of a switch, the task of its line and the one that it leaves; and the names and numbers of both of its tasks.
LEFT_TASK = re.compile(rb" ([0-9]+) \[[0-9]+\] +[0-9.]+: +(?:sched:)?sched_switch: +prev_comm=[^\n]*? prev_pid=([0-9]+) ")
BOTH = re.compile(rb" +prev_comm=(.*) prev_pid=([0-9]+) prev_prio=.* ==> next_comm=(.*) next_pid=([0-9]+) next_prio=.*")
# How many bytes of what perf prints first are looked at, if the samples of a recording aren't understood, as if it is packed.
FIRST = 1 << 18
# So many switches of tasks show whether the numbers of lines are those of the events' own.
SHOWN = 16
# How perf prints a task that has exited, and what stands for a task that nothing tells. Its number is that of no task.
GONE, NOBODY = (b":-1", b"-1"), (b"<...>", b"0")
STRANGE = "its numbers of tasks are those of a container: each event is attributed to the task that its CPU last switched to"
# perf prints this about each kind of event that holds no fields, whether or not there are events of that kind.
NOISE = re.compile(rb"'trace' not valid for .*|Warning:|")


def leaving(name: bytes, payload: bytes) -> tuple[bytes, bytes] | None:
    """Return the task whose last switch an event is, and its PID, by the switch's own fields; None if it is no switch."""
    match = LEAVES.match(payload) if name == b"sched_switch" else None
    return (match[1], match[2]) if match else None


def running(cpu: bytes, earlier: Callable[[], Iterable[bytes]]) -> tuple[bytes, bytes]:
    """Return the task that runs on a CPU, and its PID, as the last switch there says; `cpu` has its brackets."""
    front, lost = b" %s " % cpu, b"CPU:%d [" % int(cpu[1:-1])
    for line in earlier():
        if line.startswith(lost):
            break
        match = COMES.search(line) if front in line else None
        if match:
            return match[1], match[2]
    raise NotConvertible("perf knows no task of this event, and no switch before it tells one")


def switches_of(text: bytes) -> list[tuple[int, int]]:
    """Return of each switch in a text the task of its line, and the one that it leaves."""
    return [(int(task), int(left)) for task, left in LEFT_TASK.findall(text)]


def are_strange(switches: Iterable[tuple[int, int]]) -> bool | None:
    """Return whether the numbers of lines are those of another PID namespace than the events' own.

    Parameters
    ----------
    switches
        Of some switches, the task of the line, which is -1 if it has exited, and the one that the switch leaves. The kernel has
        one task there.

    Returns
    -------
    bool or None
        None if there are too few switches.
    """
    tasks = [(task, left) for task, left in switches if left > 0 and task != -1]
    return None if len(tasks) < SHOWN else 2 * sum(task != left for task, left in tasks) > len(tasks)


class PerfFormat(TextFormat):
    """The text of `perf script`.

    In a container, perf records the numbers that tasks have there, and 0 for a task that isn't in it, but the fields of events
    have the machine's numbers. Lines get these too."""

    pattern = re.compile(PLAIN, re.MULTILINE | re.VERBOSE)
    name = "perf script"
    advice = "take perf's plugins away"
    program = "perf"
    command = ("perf", "script", "--ns", "--show-lost-events", "-F", "comm,tid,cpu,time,event,trace", "-i")
    # Whether the lines have the numbers of processes, once that is known.
    has_processes: bool | None = None
    # Whether their numbers are of another PID namespace, once that is known.
    is_strange: bool | None = None
    # The recording, and whether its oldest events were overwritten.
    path = ""
    is_backward = False

    def __init__(self) -> None:
        # What each CPU runs, by its last switch, if the numbers of lines say nothing.
        self.tasks: dict[bytes, tuple[bytes, bytes]] = {}

    def begin(self, path: str) -> None:
        self.path, self.is_backward = path, perf_data.is_backward(path)

    def writer(self, sink: Writer) -> Writer:
        return Starts(sink) if self.is_backward else sink

    def prepared(self, text: bytes, has_all: bool = True) -> bytes:
        if self.has_processes is None and text:
            self.has_processes = bool(WITH_PROCESS.search(text))
        if self.has_processes:
            text = WITH_PROCESS.sub(rb"\1\2", text)
        if self.is_strange is None:
            self.is_strange = are_strange(switches_of(text))
        if self.is_strange:
            text = b"\n".join(map(self.attributed, text.split(b"\n"))) if has_all else NUMBER.sub(rb"\1    -1 ", text)
        return text

    def attributed(self, line: bytes) -> bytes:
        """Return the next line with the task that its CPU runs by the switches before it, or with one that has exited."""
        match = ANY.fullmatch(line)
        if not match:
            # It may be a piece of a switch that a name has torn.
            if line and not line.startswith(b"#"):
                self.tasks.clear()
            return line
        cpu, event = match[3], match[5]
        task = self.tasks.get(cpu, GONE)
        if event == b"sched_switch:":
            both = BOTH.fullmatch(match[6])
            task = (both[1], both[2]) if both else GONE
            self.tasks[cpu] = (both[3], both[4]) if both else GONE
        elif event == b"PERF_RECORD_LOST":
            self.tasks.pop(cpu, None)
        return b"%16s %5s %s%s" % (*task, cpu, match[4])

    def ended(self, report: Report) -> bytes:
        if self.is_strange:
            report.say(STRANGE)
        lines = b""
        # If a buffer is full until the end, no line reports what was lost then.
        for cpu, count in sorted(perf_data.lost_events(self.path).items() if self.path else ()):
            count -= report.lost.get(cpu, 0)
            if count > 0:
                report.lose(cpu, count)
                lines += b"CPU:%d [LOST %d EVENTS]\n" % (cpu, count)
        return lines

    def quick_command(self, path: str) -> list[str] | None:
        compiled = helper(FILTER)
        if compiled is None:
            return None
        from . import blocks, perf_formats

        try:
            formats = perf_formats.formats(perf_data.tracing_data(path))
            words = [part for word in perf_formats.filter_arguments(formats) for part in ("--dlarg", word)]
            self.is_strange = bool(are_strange(self.first_switches(path, *perf_formats.switch_place(formats))))
        except (perf_data.Unknown, OSError):
            return None
        if self.is_strange:
            words += ["--dlarg", "strange"]
        if not perf_formats.needs_symbols(formats):
            # Otherwise perf reads the kernel's symbols even if it needs none, which takes long.
            words.append("--kallsyms=/dev/null")
        return [*self.command[:-1], "--dlfilter", compiled, *words, "--dlarg", blocks.MEMORY, "-i", path]

    def first_switches(self, path: str, number: int, place: int) -> list[tuple[int, int]]:
        """Return the first switches of a recording, as `perf_data.switched` does, or as perf prints them if its samples aren't
        understood. Raises `OSError`."""
        try:
            return perf_data.switched(path, number, place)
        except perf_data.Unknown:
            null = subprocess.DEVNULL
        with subprocess.Popen([*self.command, path], stdin=null, stdout=subprocess.PIPE, stderr=null) as tool:
            assert tool.stdout
            text = tool.stdout.read(FIRST)
            tool.kill()
        return switches_of(text)

    def plain(self, matches: Sequence[Groups]) -> list[bytes]:
        return [
            b"%s-%s %s: %s" % (task.lstrip(b" "), middle, stem + ROUNDED[two] if two < CARRIED else round_up(stem), rest)
            for task, middle, stem, two, rest, _ in matches
        ]

    def places(self, line: bytes) -> Sequence[bytes]:
        if b" ==> next_comm=" in line:
            return PLACE.findall(line)
        return (line[: line.index(b" ")],) if line.startswith(b"CPU:") else ()

    def aside(self, line: bytes, report: Report) -> bytes | None:
        lost = LOST.fullmatch(line)
        if lost:
            report.lose(int(lost[1]), int(lost[2]))
            return b"CPU:%d [LOST %d EVENTS]\n" % (int(lost[1]), int(lost[2]))
        if ASIDE.fullmatch(line):
            return (b"# " if b"PERF_RECORD_" in line and not line.startswith(b"#") else b"") + line + b"\n"
        return None

    def split(self, line: bytes) -> re.Match[bytes] | None:
        """Return the parts of a line as its pattern cuts it, or None."""
        torn = TORN_PROCESS.match(line) if self.has_processes else None
        if torn:
            line = b"%b%5b %b" % (torn[1], torn[2], line[torn.end() :])
        return STRICT.fullmatch(line) or LOOSE.fullmatch(line)

    def parts(self, line: bytes, earlier: Callable[[], Iterable[bytes]]) -> Line:
        match = self.split(line)
        if not match:
            raise NotConvertible("not of the form COMM TID [CPU] SECONDS.FRACTION: EVENT: FIELDS")
        task, thread, cpu, seconds, fraction, name, payload = match.groups(b"")
        # An event of another system keeps the system's name, or it would be taken for the scheduler's own.
        name, payload = name.removeprefix(b"sched:"), payload.strip(b" ")
        if thread == b"-1" or self.is_strange:
            task, thread = leaving(name, payload) or self.running(cpu, earlier)
        return Line(task.lstrip(b" "), b"-%s %s " % (thread, cpu), round_stamp(seconds, fraction), name, payload)

    def running(self, cpu: bytes, earlier: Callable[[], Iterable[bytes]]) -> tuple[bytes, bytes]:
        """Return the task that runs on a CPU, and its PID. Raises `NotConvertible`."""
        try:
            return running(cpu, earlier)
        except NotConvertible:
            if self.is_strange:
                return NOBODY
            raise

    def may_follow(self, text: bytes, piece: bytes | None) -> bool:
        match = self.split(text)
        if match:
            return bool(OWN.fullmatch(match[6].removeprefix(b"sched:"))) and not (piece and FRONTED.search(piece))
        return text.startswith(b" ") and len(text) < 16

    def message(self, line: bytes, path: str) -> str | None:
        if b"not owned by current user or root" in line:
            raise ConversionError(
                f"{path} is of {owner(path)}, and perf reads only your own files and root's: copy or chown it first"
            )
        return None if NOISE.fullmatch(line) else super().message(line, path)


def owner(path: str) -> str:
    """Return whose file it is."""
    number = os.stat(path).st_uid
    try:
        return pwd.getpwuid(number).pw_name
    except KeyError:
        return f"user {number}"
