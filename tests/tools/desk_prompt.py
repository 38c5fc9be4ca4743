#!/usr/bin/env python3
"""Checks that tools/desk answers as the program does, from a pipe and on a terminal, and is a prompt for people.

    desk_prompt.py DESK ROW... > WHAT WENT WRONG

Each ROW is a folder like those of tests/rows. From a pipe, its script gives the row's whole output and its status, and on
standard error as many explanations as lines are refused. On a pseudo-terminal, the scripts that can be typed give the row's
whole output too, line by line. Each function below says what else the prompt does; what it should print is written by hand.
The last line says how many things hold. The library is found as the package finds it.
"""

import fcntl
import gzip
import os
import pty
import re
import select
import shlex
import signal
import struct
import subprocess
import sys
import tempfile
import termios
import time

# Nothing is written beside the sources.
sys.dont_write_bytecode = True
HERE = os.path.dirname(os.path.realpath(__file__))
DESK, ROWS = [sys.executable, os.path.realpath(sys.argv[1])], [os.path.realpath(row) for row in sys.argv[2:]]
EXAMPLES = os.path.join(HERE, "..", "..", "examples")
WAKEUPS = os.path.join(EXAMPLES, "wakeups.trace")
PROMPT = b"desk> "
# A run that takes more seconds than this is ended, and fails.
LIMIT = 60
# Scripts of more lines than this are not typed, nor are those with characters that nobody types.
MOST_TYPED = 40
SAVER = "attach sched_waking hist:keys=pid:ts0=common_timestamp.usecs"
READER = "attach sched_switch hist:keys=next_pid:vals=$lat:lat=common_timestamp.usecs-$ts0"
LOST = """# tracer: nop
a-1 [000] 1.000000: sched_waking: comm=b pid=2 prio=120 target_cpu=000
CPU:0 [LOST 7 EVENTS]
a-1 [000] 3.000000: sched_switch: prev_comm=a prev_pid=1 prev_prio=120 prev_state=S ==> next_comm=b next_pid=2 next_prio=120
"""


# A line up to the word that has begun, that word, and what it may become, with two traces, CPUs 0 and 3, and trigger 1, which
# saves ts0.
COMPLETED = [
    ("", "hi", ["hist "]),
    ("  ", "to", ["totals "]),
    ("attach ", "sched_wak", ["sched_waking ", "sched_wakeup ", "sched_wakeup_new "]),
    ("attach sched_switch ", "", ["hist:keys="]),
    ("attach sched_switch hist:", "s", ["sort=", "size="]),
    ("attach sched_switch hist:keys=", "next_", ["next_comm", "next_pid", "next_prio"]),
    ("attach wakeup_latency hist:keys=", "", ["lat", "pid", "prio", "common_pid", "common_cpu"]),
    ("attach sched_switch hist:keys=next_pid.", "", ["hex", "log2", "buckets="]),
    ("attach sched_switch hist:keys=next_pid:l=", "com", ["common_timestamp.usecs"]),
    ("attach sched_switch hist:keys=next_pid:l=common_timestamp.usecs-$", "", ["ts0"]),
    ("attach sched_switch hist:l=common_timestamp.usecs-$ts0:vals=$", "", ["l"]),
    ("attach sched_switch hist:keys=next_comm:vals=", "next_", ["next_pid", "next_prio"]),
    ("attach sched_switch hist:keys=next_pid:sort=hitcount.", "d", ["descending"]),
    ("attach sched_switch hist:onmatch(sched.", "sched_waking", ["sched_waking).wakeup_latency($lat,"]),
    ("attach sched_waking hist:keys=pid ", "", ["if "]),
    ("attach sched_waking hist:keys=pid if (", "pr", ["prio"]),
    ("filter ", "", ["1"]),
    ("filter 1 ", "", ["if ", "none"]),
    ("filter 1 if prio < 9 &&", "comm", ["common_pid", "common_cpu"]),
    ("hist ", "", ["1"]),
    ("hist 1 ", "", []),
    ("strike ", "", ["0", "3"]),
    ("strike 3:", "", []),
    ("load ", "", ["@1", "@2"]),
    ("load @", "", ["1", "2"]),
    ("help ", "st", ["strike"]),
    ("waits ", "na", ["name"]),
    ("why ", "", ["0", "3"]),
    ("insert ", "a", []),
]


class Wrong(Exception):
    """What doesn't hold."""


def same(what, got, expected):
    if got != expected:
        raise Wrong(f"{what}: {got!r:.1500}, and not {expected!r:.1500}")


def has(what, got, expected):
    if expected not in got:
        raise Wrong(f"{what}: {got!r:.1500} has no {expected!r}")


# ---- from a pipe


def run_from_pipe(script, *words, folder=None):
    """Return what desk prints for a script from a pipe, what it says on standard error, and its status."""
    data = script if isinstance(script, bytes) else "".join(f"{line}\n" for line in script).encode()
    ran = subprocess.run([*DESK, *words], input=data, capture_output=True, timeout=LIMIT, cwd=folder)
    return ran.stdout, ran.stderr.decode("utf-8", "surrogateescape"), ran.returncode


def traces_of(row):
    paths = []
    while os.path.exists(os.path.join(row, f"trace{len(paths) + 1}")):
        paths.append(os.path.join(row, f"trace{len(paths) + 1}"))
    return paths


def content(*parts):
    with open(os.path.join(*parts), "rb") as file:
        return file.read()


def row_from_a_pipe(row, folder):
    output, errors, status = run_from_pipe(content(row, "script"), *traces_of(row), folder=folder)
    same("the output", output, content(row, "expected"))
    same("the status", status, int(content(row, "status")))
    same("explanations", len(re.findall("(?m)^  line [0-9]+: ", errors)), len(re.findall(rb"(?m)^refused ", output)))


# ---- on a terminal


class Terminal:
    """A desk on a pseudo-terminal, at which lines are typed."""

    def __init__(self, *words, rows=1000, folder=None, **variables):
        self.master, slave = pty.openpty()
        fcntl.ioctl(slave, termios.TIOCSWINSZ, struct.pack("4H", rows, 9000, 0, 0))
        variables = {"TERM": "dumb", "PAGER": "cat", "XDG_STATE_HOME": os.path.join(folder or "/nonexistent"), **variables}
        self.errors = tempfile.TemporaryFile()
        self.errors_read = 0
        self.process = subprocess.Popen(
            [*DESK, *words], stdin=slave, stdout=slave, stderr=self.errors, cwd=folder, start_new_session=True,
            preexec_fn=lambda: fcntl.ioctl(0, termios.TIOCSCTTY, 0), env={**os.environ, **variables},
        )  # fmt: skip
        os.close(slave)
        self.screen()

    def screen(self, until=PROMPT, again=b""):
        """Return what the terminal shows up to the next prompt; while it shows nothing, type the keys of `again`."""
        text, end = b"", time.monotonic() + LIMIT
        while not text.endswith(until):
            if not select.select([self.master], [], [], 1)[0]:
                if time.monotonic() > end:
                    raise Wrong(f"no prompt, but {text[-500:]!r}")
                self.types(again)
                continue
            try:
                text += os.read(self.master, 65536)
            except OSError:
                raise Wrong(f"it ended: {text[-500:]!r}; {self.remarks()}")
        return text.replace(b"\r\n", b"\n")

    def types(self, text):
        """Type keys, without a look at what they do."""
        os.write(self.master, text if isinstance(text, bytes) else text.encode())

    def asks(self, line):
        """Type a line, and return what it prints on the terminal."""
        self.types(line + ("\n" if isinstance(line, str) else b"\n"))
        # The line is shown as it is typed.
        return self.screen().partition(b"\n")[2].removesuffix(PROMPT)

    def interrupted(self):
        """Type Ctrl-C, and return what the terminal shows after it. If it comes just before Python waits for input, Python
        notices it only when the next one comes."""
        self.types(b"\x03")
        return self.screen(again=b"\x03")

    def remarks(self):
        """Return what standard error got since the last call."""
        self.errors.seek(self.errors_read)
        text = self.errors.read()
        self.errors_read += len(text)
        return text.decode("utf-8", "surrogateescape")

    def ends(self, key=b"\x04"):
        """Type a key, which is Ctrl-D if none is given, and return the status with which the desk ends."""
        self.types(key)
        status = self.process.wait(LIMIT)
        os.close(self.master)
        self.errors.close()
        return status


def lines_to_type(row):
    """Return the lines of a row's script, or None if nobody types them."""
    lines = content(row, "script").split(b"\n")
    good = all(re.fullmatch(rb"[ -~]{0,400}", line) for line in lines) and re.fullmatch(rb"[ -~\n]*", content(row, "expected"))
    return lines[: -1 if not lines[-1] else None] if good and len(lines) <= MOST_TYPED else None


def row_on_a_terminal(row, folder):
    desk = Terminal(*traces_of(row), folder=folder)
    output = b"".join(desk.asks(line) for line in lines_to_type(row))
    same("the output", output, content(row, "expected"))
    same("the status", desk.ends(), 0)


# ---- what else it does


def loads_by_path(folder):
    """A trace is loaded by its path, packed or not, and gets a number; standard error says what it holds."""
    with gzip.open(os.path.join(folder, "my own.trace.gz"), "wb") as file:
        file.write(content(WAKEUPS))
    desk = Terminal(folder=folder)
    same("the output", desk.asks("load my own.trace.gz"), b"loaded 27\n")
    has("what it holds", desk.remarks(), "2 CPUs, from 6012.000176 to 6012.001959\n")
    same("unloaded", desk.asks("unload 0") + desk.asks("unload 1"), b"unloaded 15\nunloaded 12\n")
    same("by number", desk.asks("load @1"), b"loaded 27\n")
    same("the status", desk.ends(), 0)
    output, errors, status = run_from_pipe(["load none.trace", "load", "load 1", f"load {folder}"], folder=folder)
    same("no files", (output, status), (b"refused 16\n" * 4, 1))
    for line in ("there is no file none.trace; the form", "no trace is named", "did you mean load @1?", f"no file {folder}"):
        has("no files", errors, line)


def reports_losses(folder):
    """Losses of events are reported on standard error, from a pipe too, and `cpus` counts them."""
    with open(os.path.join(folder, "lost.trace"), "w") as file:
        file.write(LOST)
    output, errors, status = run_from_pipe(["load @1", "cpus"], "lost.trace", folder=folder)
    table = b"CPU  events  first     last      losses\n  0       2  1.000000  3.000000       1\n"
    same("the output", (output, status), (b"loaded 2\n" + table, 0))
    has("what is said", errors, "  lost.trace: events were lost: CPU 0 lost 7 between 1.000000 and 3.000000; ")


def explains_refusals(folder):
    """Each refusal is explained, with a caret under the place; it names what was typed, and no numbers of lines."""
    desk = Terminal(WAKEUPS, folder=folder)
    desk.remarks()
    same("refused", desk.asks("attach sched_waking hist:keys=comm,pids"), b"refused 8: fault 3\n")
    words = "the event has no such field, or the trigger has no such variable; did you mean pid?"
    command = "  attach sched_waking hist:keys=comm,pids"
    same("words", desk.remarks(), f"{command}\n{' ' * (len(command) - 4)}^\n  {words}\n")
    same("attached", desk.asks(SAVER), b"attached 1\n")
    same("no saver", desk.asks("attach sched_switch hist:keys=next_comm:l=common_timestamp.usecs-$ts0"), b"refused 14\n")
    has("no saver", desk.remarks(), "  its keys don't match those of the trigger that saves what it reads: trigger 1 saves ts0")
    same("taken", desk.asks(SAVER), b"refused 12: trigger 1\n")
    has("taken", desk.remarks(), "; trigger 1 is sched_waking hist:keys=pid:ts0=common_timestamp.usecs\n")
    same("like help", desk.asks("helo"), b"refused 16\n")
    has("like help", desk.remarks(), "did you mean help?")
    same("with a word", desk.asks("cpus 1"), b"refused 16\n")
    has("with a word", desk.remarks(), ": the form is cpus\n")
    same("other waits", desk.asks("waits nam"), b"refused 16\n")
    has("other waits", desk.remarks(), ": the form is waits [BY], and BY is task, name, cpu, prio, kind; did you mean name?\n")
    same("other traces", desk.asks("load @2"), b"refused 2\n")
    has("other traces", desk.remarks(), ": the only trace is @1\n")
    same("the status", desk.ends(), 0)


def goes_on_after_failures(folder):
    """A file that can't be read is reported. On a terminal, the desk goes on; a script ends there."""
    with open(os.path.join(folder, "torn.gz"), "wb") as file:
        file.write(gzip.compress(content(WAKEUPS))[:100])
    desk = Terminal("torn.gz", folder=folder)
    desk.remarks()
    same("torn", desk.asks("load @1"), b"")
    has("torn", desk.remarks(), "  torn.gz: Compressed file ended before the end-of-stream marker was reached\n")
    same("goes on", desk.asks("totals 1"), b"refused 10\n")
    same("the status", desk.ends(), 0)
    output, errors, status = run_from_pipe(["totals 1", "load @1", "totals 1"], "torn.gz", folder=folder)
    same("a script", (output, status), (b"refused 10\n", 2))
    has("a script", errors, "desk: line 2: torn.gz: Compressed file ended")


def knows_recordings(folder):
    """A recording of perf or trace-cmd is reported as such, with the tool that converts it."""
    for name, magic in (("perf.data", b"PERFILE2"), ("trace.dat", b"\x17\x08\x44tracing6")):
        with open(os.path.join(folder, name), "wb") as file:
            file.write(magic + bytes(100))
    output, errors, _ = run_from_pipe(["load perf.data", "load @1", "load trace.dat"], folder=folder)
    same("the output", output, b"refused 3: line 1 fault 1\n" * 3)
    words = " ".join(errors.split())
    same("perf", words.count("; it is a recording of perf; tools/from-perf perf.data >my.trace makes a trace of it"), 2)
    has("trace-cmd", words, "; it is a recording of trace-cmd; tools/from-trace-cmd trace.dat >my.trace makes")


def lists_triggers(folder):
    """`triggers` lists what is attached, `help` the commands and `help COMMAND` more, and `quit` ends."""
    output, errors, status = run_from_pipe(["triggers", "cpus", SAVER, READER, "triggers", "quit", "hist 1"], folder=folder)
    lines = output.decode().split("\n")
    same("nothing", lines[:2], ["no trigger is attached", "no events are held"])
    front = "hist:keys=next_pid:vals=hitcount,$lat:lat=common_timestamp.usecs-$ts0"
    same("the triggers", lines[4:7], [
        "id  event         trigger",
        " 1  sched_waking  hist:keys=pid:vals=hitcount:ts0=common_timestamp.usecs:sort=hitcount:size=2048",
        f" 2  sched_switch  {front}:sort=hitcount:size=2048",
    ])  # fmt: skip
    same("after quit", (lines[7:], errors, status), ([""], "", 0))
    output, errors, status = run_from_pipe(["help", "help lat", "help attahc"], folder=folder)
    for word in ("load @N", "load PATH", "attach EVENT TRIGGER", "triggers", "cpus", "quit", "0:9 -> 1:4: 204 us"):
        has("help", output.decode(), word)
    has("no command", output.decode(), "no command is called attahc; did you mean attach?")


def takes_a_part(folder):
    """`--from`, `--until` and `--lenient` choose what a `load` takes in."""
    script = ["load @1", "list 1"]
    output, errors, status = run_from_pipe(script, "--until", "6012.000130", WAKEUPS, folder=folder)
    if "numpy" in errors:
        print("not tried: parts of a trace, without numpy")
        return
    with open(WAKEUPS) as file:
        stamps = [float(found[1]) for found in re.finditer(r" ([0-9]+\.[0-9]{6}): ", file.read())]
    same("a part", output.partition(b"\n")[0], b"loaded %d" % sum(stamp < 6012.00013 for stamp in stamps))
    same("the status", status, 0 if b"refused" not in output else 1)
    torn = os.path.join(EXAMPLES, "torn.trace")
    output, errors, _ = run_from_pipe(["load @1"], "--lenient", torn, folder=folder)
    same("lenient", output, b"loaded 2\n")
    has("lenient", errors, "1 line can't be read and is left out: 15")


def answers_waits(folder):
    """`waits` and `why` answer for what is held now: a task waited two seconds, and without its waking no task did."""
    with open(os.path.join(folder, "held.trace"), "w") as file:
        file.write(LOST.replace("CPU:0 [LOST 7 EVENTS]\n", ""))
    script = ["load @1", "waits", "why 0:2", "strike 0:1", "waits", "why 0:99", "cpus"]
    output, errors, status = run_from_pipe(script, "held.trace", folder=folder)
    if b"refused 16" in output or "numpy" in errors:
        print("not tried: waits and why, which the package or numpy lacks")
        return
    first, second = output.decode().split("struck 0:1\n")
    has("waits", re.sub(" +", " ", first), "b 2 woken 1 2000000 2000000.0 2000000 2000000 2000000 2000000 3.000000 0:2\n")
    has("why", first, "b-2 (prio 120) waited 2000000 us for CPU 0")
    same("no waits", "woken 1 " in re.sub(" +", " ", second), False)
    same("the status", (status, errors[:22]), (1, "  line 6: no event of "))
    has("goes on", second, "CPU  events")


def remembers(folder):
    """Lines that were typed come back in the next run, from a file that others can't read."""
    desk = Terminal(folder=folder)
    desk.asks("totals 7")
    same("the status", desk.ends(), 0)
    path = os.path.join(folder, "histdesk", "history")
    same("the file", (content(path), os.stat(path).st_mode & 0o77), (b"totals 7\n", 0))
    desk = Terminal(folder=folder)
    desk.asks("cpus")
    # Ctrl-P is the line before.
    same("the line before", desk.asks(b"\x10\x10"), b"refused 10\n")
    desk.types("quit\n")
    same("the status", desk.process.wait(LIMIT), 0)
    same("the file", content(path), b"totals 7\ncpus\ntotals 7\nquit\n")


def completes(folder):
    """Tab completes commands, events, parts of triggers, fields and paths."""
    with open(os.path.join(folder, "long-name.trace"), "w") as file:
        file.write(LOST)
    desk = Terminal(WAKEUPS, folder=folder)
    same("an event and a part", desk.asks("att\tsched_sw\thi\tnext_pi\t,next_co\t"), b"attached 1\n")
    same("a path", desk.asks("load long\t"), b"loaded 2\n")
    same("a trigger", desk.asks("tot\t\t"), b"hits 1 entries 1 dropped 0\n")
    same("the status", desk.ends(), 0)


def opened_by_both(fifo):
    """Return the end of a pipe to which one writes, once somebody reads the pipe."""
    end = time.monotonic() + LIMIT
    while True:
        try:
            return os.open(fifo, os.O_WRONLY | os.O_NONBLOCK)
        except OSError:
            if time.monotonic() > end:
                raise Wrong("the pipe isn't read")
            time.sleep(0.01)


def knows_completions(_):
    """Tab completes the beginnings of words as COMPLETED says."""
    sys.path.insert(0, os.path.join(os.path.dirname(DESK[1]), os.pardir, "python"))
    from histdesk.cli.completion import Names, completions

    trigger = ("sched_waking", "hist:keys=pid:ts0=common_timestamp.usecs")
    names = Names(2, {1: trigger}, [0, 3])
    wrong = [(row, completions(row[0], row[1], names)) for row in COMPLETED if completions(row[0], row[1], names) != row[2]]
    same("completions", wrong, [])


def goes_on(folder):
    """Ctrl-C drops the line that is being typed, and ends a load that waits for its file; it doesn't end the desk."""
    fifo = os.path.join(folder, "fifo")
    os.mkfifo(fifo)
    desk = Terminal(folder=folder)
    same("attached", desk.asks(SAVER), b"attached 1\n")
    desk.types("remove 1")
    desk.screen(b"remove 1")
    desk.interrupted()
    same("dropped", desk.asks("totals 1"), b"hits 0 entries 0 dropped 0\n")
    desk.remarks()
    desk.types("load fifo\n")
    writer = opened_by_both(fifo)
    desk.interrupted()
    os.close(writer)
    same("interrupted", desk.remarks(), "  interrupted\n")
    same("goes on", desk.asks("totals 1"), b"hits 0 entries 0 dropped 0\n")
    same("the status", desk.ends(), 0)


def pages_long_answers(folder):
    """A table longer than the screen goes to PAGER; if that is no program, the terminal shows both ends of the table."""
    inserts = [f"insert a-1 [000] 1.000000: sched_waking: comm=x pid={pid} prio=1 target_cpu=000" for pid in range(100)]
    pager = os.path.join(folder, "pager")
    with open(pager, "w") as file:
        file.write('#!/bin/sh\necho "$LESS"; tail -n 3\n')
    os.chmod(pager, 0o755)
    for name, expected in ((pager, b"FRX\n    Hits: 100\n    Entries: 100\n    Dropped: 0\n"), ("/no/pager", None)):
        desk = Terminal(rows=24, folder=folder, PAGER=shlex.quote(name), LESS="FRX")
        for line in inserts:
            desk.asks(line)
        desk.asks("attach sched_waking hist:keys=pid")
        screen = desk.asks("hist 1")
        if expected:
            same("paged", screen, expected)
        else:
            lines = screen.decode().split("\n")[:-1]
            row = "{ pid:          0 } hitcount:          1"
            same("cut", (len(lines), lines[5], lines[10], lines[-1]), (22, row, ".. 89 lines ..", "    Dropped: 0"))
        same("the status", desk.ends(), 0)


def hides_what_steers(folder):
    """A task's name can't control the terminal."""
    with open(os.path.join(folder, "steers.trace"), "wb") as file:
        file.write(b"a\x1b[2J\xff-1 [000] 1.000000: sched_waking: comm=x\x07 pid=2 prio=1 target_cpu=000\n")
    desk = Terminal(folder=folder)
    desk.asks("load steers.trace")
    line = b"0:1 a\\x1b[2J\\xff-1 [000] 1.000000: sched_waking: comm=x\\x07 pid=2 prio=1 target_cpu=000\n"
    same("listed", desk.asks("list 0"), line)
    same("the status", desk.ends(), 0)


def ends_as_others(folder):
    """The desk ends as other programs do: quietly by the signal if its pipe is closed, with a line if the disk is full, and
    before it does anything if a trace isn't there."""
    script = "\n".join(["load @1"] + ["list 0"] * 20000)
    with open(os.path.join(folder, "many"), "w") as file:
        file.write(script)
    with open(os.path.join(folder, "many")) as source:
        desk = subprocess.Popen([*DESK, WAKEUPS], stdin=source, stdout=subprocess.PIPE, stderr=subprocess.PIPE)
    same("the first line", desk.stdout.readline(), b"loaded 27\n")
    desk.stdout.close()
    same("a closed pipe", (desk.wait(LIMIT), desk.stderr.read()), (-signal.SIGPIPE, b""))
    desk.stderr.close()
    with open("/dev/full", "wb") as full:
        ran = subprocess.run(DESK, input=b"totals 1\n", stdout=full, stderr=subprocess.PIPE)
    same("a full disk", (ran.returncode, ran.stderr), (2, b"desk: standard output: No space left on device\n"))
    output, errors, status = run_from_pipe(["totals 1"], "none", folder=folder)
    same("no trace", (output, errors, status), (b"", "desk: none: No such file or directory\n", 2))


OTHERS = [
    loads_by_path, reports_losses, explains_refusals, goes_on_after_failures, knows_recordings, lists_triggers, takes_a_part,
    answers_waits, remembers, completes, knows_completions, goes_on, pages_long_answers, hides_what_steers, ends_as_others,
]  # fmt: skip


def holds(name, test, *words):
    """Return whether a test holds, and print what doesn't."""
    with tempfile.TemporaryDirectory() as folder:
        try:
            test(*words, folder)
        except (Wrong, subprocess.SubprocessError) as wrong:
            print(f"desk_prompt, {name}: {wrong}")
            return False
    return True


def main():
    # Whoever runs this in the background may have it ignore interrupts, and the desk would ignore them too.
    signal.signal(signal.SIGINT, signal.default_int_handler)
    tests = [(f"{os.path.basename(row)} from a pipe", row_from_a_pipe, row) for row in ROWS]
    typed = [row for row in ROWS if lines_to_type(row) is not None]
    tests += [(f"{os.path.basename(row)} on a terminal", row_on_a_terminal, row) for row in typed]
    tests += [(test.__name__, test) for test in OTHERS]
    good = sum(holds(*test) for test in tests)
    print(f"{good} of {len(tests)} things hold")
    return 0 if good == len(tests) else 1


sys.exit(main())
