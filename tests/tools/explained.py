#!/usr/bin/env python3
"""Checks that `explain` explains each refusal and each fault in the library's words, with a hint from the text at hand.

    explained.py EXPLAIN FOLDER > WHAT WENT WRONG

A row is a command, the refusal that docs/REFERENCE.md gives it, a part of the hint beside the library's words, and the text
from the byte above the caret to the command's end, or None if there is no caret. No line has more than 80 columns. All rows are
one script, whose first commands are not refused. Each refusal and each fault that the library knows is in some row. The last
line says how many rows hold. FOLDER is for the script and its traces; HISTDESK names the program, as for explain, which may be
histwatch.
"""

import os
import re
import subprocess
import sys

sys.dont_write_bytecode = True
sys.path.insert(0, os.path.join(os.path.dirname(os.path.realpath(__file__)), "..", "..", "python"))
from histdesk import refusal_words

WAKE, TURN, MADE = "attach sched_waking hist:", "attach sched_switch hist:", "attach wakeup_latency hist:"
FIRST = ["load @1", "# one saver, one reader, one without", WAKE + "keys=pid:ts0=common_timestamp.usecs", ""]
FIRST += [TURN + "keys=next_pid:lat=common_timestamp.usecs-$ts0", "   ", WAKE + "keys=comm"]
# After each of these, histwatch prints rows.
FIRST += ["insert a-1 [003] 1.000000: sched_waking: comm=x pid=7 prio=1 target_cpu=000", "strike 3:1"]
TRACES = {"good.trace": "a-1 [001] 1.000000:\n", "bad.trace": "# tracer: nop\na-1 [001] 1.000000:\nb-2 [001] 1.00\n"}
# How the recordings of perf and of trace-cmd begin, and what gzip packs.
TRACES.update({"perf.data": "PERFILE2\0", "trace.dat": "\x17\x08Dtracing6\0", "my own.gz": "\x1f\x8b\x08\0"})
# Files that are cut off in their last line, and one that isn't.
SWITCH = "a-1 [001] 1.000000: sched_switch: "
TRACES.update({"cut1": SWITCH + "prev_c", "cut2": SWITCH + "prev_comm=a prev_pid=1", "cut3": SWITCH[:6]})
TRACES["whole"] = SWITCH + "prev_c\n"
# Files whose lines end with carriage returns, and files that are no trace, or one of another layout.
WAKING = "a-1 [001] 1.000000: sched_waking: comm=x pid=7 prio=1 target_cpu=000"
TRACES.update(
    {"crlf": f"{WAKING}\r\n" * 3, "noise": "\x00\x9f\xff" * 40 + "\n\x01\n", "latency": "# tracer: nop\nbash-1 0d..1 1us\n"}
)
CUT_OFF = "; the file ends in this line, and may have been cut off"
LINE = "insert a-1 [000] 1.000000: "
MAKER = TURN + "keys=next_pid:l=common_timestamp.usecs-$ts0:onmatch(sched.sched_"
SECOND = "onmatch(sched.sched_waking).wakeup_latency($l,pid,prio)"
STAMP, EATEN = "common_timestamp.usecs", ":lat=common_timestamp.usecs-$ts0"
NSECS = "but the kernel has only .usecs, and not .nsecs"
LONG = LINE + "sched_process_exec: filename=/" + "x" * 4096
BAD_SWITCH = LINE + "sched_switch: bash:1 [120] S ==> idle:0 [120]"

REFUSALS = [
    ("load @13", "2", "the traces are @1 to @12", None),
    ("load @1", "4: cpu 1", "unload 1 removes them", None),
    ("list 2", "5: cpu 2", "none was loaded or inserted", None),
    ("strike 1:09", "6", "no line 9", None),
    ("insert # x", "6", "which are skipped", None),
    ("hist 4", "10", "those that are: 1, 2, 3", None),
    ("remove 1", "11: trigger 2", "line 5 attached trigger 2", None),
    (WAKE + "keys=pid:ts0=common_timestamp.usecs", "12: trigger 1", "line 3 attached trigger 1", None),
    (TURN + "keys=next_pid:l=common_timestamp.usecs-$ts1", "13", "ts1; did you mean ts0?", None),
    (MAKER + "wakeup).wakeup_latency($l,next_pid,next_prio)", "13", "saves ts0, on sched_waking and not on", None),
    (TURN + "keys=next_comm:l=common_timestamp.usecs-$ts0", "14", "trigger 1 (line 3) saves ts0 by pid", None),
    ("lat 3", "17", "those that do: 2", None),
    ("lat 3 ", "17", "those that do: 2", None),
]
COMMANDS = [
    ("hits 1", "16", "did you mean hist?", "hits 1"),
    ("  # x", "16", "a comment begins at the line's first byte", None),
    ("hist\t1", "16", "words are separated by spaces, not by tabs", "\t1"),
    ("hist 1\r", "16", "a carriage return ends the line", "\r"),
    (" insert x", "16", "insert begins at the line's first byte", None),
    ("x" * 8193, "16", "more than 8,192 bytes", None),
    ("#" * 8193, "16", "more than 8,192 bytes", None),
    ("attach sched_wakin hist:keys=pid", "16", "did you mean sched_waking?", "sched_wakin hist:keys=pid"),
    ("attach  sched:sched_waking hist:", "16", "did you mean sched_waking?", "sched:sched_waking hist:"),
    ("attach wakeup_late hist:keys=lat", "16", "did you mean wakeup_latency?", "wakeup_late hist:keys=lat"),
    ("attach wakeup_new hist:keys=pid", "16", "did you mean sched_wakeup_new?", "wakeup_new hist:keys=pid"),
    ("load bad.trace", "16", "did you mean load @2?", "bad.trace"),
    ("load 1", "16", "did you mean load @1?", "1"),
    ("list 4294967296", "16", "4,294,967,295 at most", "4294967296"),
    ("strike 1 1", "16", "did you mean strike 1:1?", "1 1"),
    ("filter 1 pid == 1", "16", "did you mean filter 1 if pid == 1?", "pid == 1"),
    ("filter 1", "16", "filter ID if EXPR, or filter ID none", ""),
    ("hist @1", "16", "did you mean hist 1?", "@1"),
]
LINES = [
    ("load @2", "3: line 3 fault 3", "bad.trace, line 3: expected a timestamp", None),
    ("load @3", "3: line 1 fault 1", "recording of perf; tools/from-perf perf.data >my.trace makes a trace", None),
    ("load @4", "3: line 1 fault 1", "recording of trace-cmd; tools/from-trace-cmd trace.dat >my.trace", None),
    ("load @5", "3: line 1 fault 1", "it is packed by gzip; write <(zcat 'my own.gz') in its place", None),
    ("load @10", "3: line 1 fault 4", "(CR LF); tr -d '\\r' <crlf >my.trace removes them", None),
    ("load @11", "3: line 1 fault 1", "it is no trace: none of its first lines is an event", None),
    ("load @12", "3: line 2 fault 1", "it has the header of a trace, but no line", None),
    ("insert hello", "3: line 1 fault 1", "", None),
    ("insert a 1 [000] 1.000000: sched:x: y", "3: line 1 fault 1", "tools/from-perf", None),
    ("insert cpus=4", "3: line 1 fault 1", "tools/from-trace-cmd", None),
    ("insert a-1 [8192] 1.000000:", "3: line 1 fault 2", "", None),
    ("insert a-1 [000] 1.00000:", "3: line 1 fault 3", "", None),
    ("load @6", "3: line 1 fault 4", CUT_OFF, None),
    ("load @7", "3: line 1 fault 4", "next_prio" + CUT_OFF, None),
    ("load @8", "3: line 1 fault 1", CUT_OFF, None),
    ("load @9", "3: line 1 fault 4", "; if trace-cmd printed it, tools/from-trace-cmd converts it", None),
    ("insert a-1 [000] 1.000000000: x", "3: line 1 fault 3", "nine digits", None),
    ("insert a-1 [000] 1.000000:\r", "3: line 1 fault 3", "carriage return", None),
    (LINE + "sched_waking: comm=x", "3: line 1 fault 4", "comm pid prio target_cpu", None),
    (BAD_SWITCH, "3: line 1 fault 4", "if trace-cmd printed it, tools/from-trace-cmd converts it", None),
    ("insert a-2147483648 [000] 1.000000:", "3: line 1 fault 5", "", None),
    ("insert " + "a" * 32 + "-1 [000] 1.000000:", "3: line 1 fault 6", "", None),
    (LINE + " " * 4096, "3: line 1 fault 7", "", None),
    (
        LONG,
        "3: line 1 fault 7",
        "; it is an event sched_process_exec, which no trigger counts: --lenient leaves the line out",
        None,
    ),
    (
        LONG + LINE[6:] + "sched_switch: prev_comm=a",
        "3: line 1 fault 7",
        "; sched_switch on the same line is left out too",
        None,
    ),
]
# The filter, its fault and the rest, each tried after `filter 1 if` and in a trigger.
FILTERS = [
    ("", "2 at 0", "the filter is empty", ""),
    ("nope $", "3 at 0", "sched_waking has comm, pid", "nope $"),
    ("pids == 1", "3 at 0", "did you mean pid?", "pids == 1"),
    ("next_pid == 1", "3 at 0", "sched_switch has it", "next_pid == 1"),
    ("pid = 1", "2 at 4", "did you mean ==?", "= 1"),
    ("comm <", "4 at 5", "comm is a text, which takes == != ~", "<"),
    ("pid ~ 1", "4 at 4", "pid is a number, which takes", "~ 1"),
    ("comm == 5", "4 at 8", "a text in quotes is expected here", "5"),
    ("pid == '1'", "4 at 7", "a number is expected here", "'1'"),
    ("comm == bash", "2 at 8", 'did you mean "bash"?', "bash"),
    ("comm == 'a", "2 at 8", "this quote is not closed", "'a"),
    ("pid == 010", "2 at 7", "without leading zeros", "010"),
    ("pid == 1 and prio == 2", "2 at 9", "did you mean &&?", "and prio == 2"),
    ("pid == 1 | prio == 2", "2 at 9", "did you mean ||?", "| prio == 2"),
    ("pid == 9223372036854775808", "6 at 7", "", "9223372036854775808"),
    ('comm ~ "[a"', "5 at 7", "a class", '"[a"'),
    ('comm ~ "!a"', "5 at 7", "it begins with !", '"!a"'),
    ("(pid == 1", "2 at 9", "a ) is missing", ""),
    ("pid == 1)", "2 at 8", "there is no ( for it", ")"),
    ("pid == 1 &&", "2 at 11", "the filter ends too early", ""),
    ("(" * 33 + "pid==1" + ")" * 33, "7", "", None),
]
TRIGGERS = [
    ("attach sched_waking", "2 at 0", "a trigger begins with hist:", ""),
    ("attach sched_waking keys=prio", "2 at 0", "a trigger begins with hist:", "keys=prio"),
    ("attach sched_waking 'hist:keys=pid'", "2 at 0", "quotes are for the shell", "'hist:keys=pid'"),
    (WAKE + "keys=pid:", "2 at 14", "an empty part", ""),
    (WAKE + "keys=pid:szie", "2 at 14", "did you mean size=?", "szie"),
    (WAKE + "keys=pid,", "2 at 14", "an item is a field", ""),
    (WAKE + "vals=prio", "2 at 14", "it has no keys", ""),
    (TURN + "keys=next_pid:vals=:lat=common_timestamp.usecs-$ts0", "2 at 24", "a shell replaces it", EATEN),
    (TURN + "keys=next_pid:sort=.descending", "2 at 24", "a $NAME is missing", ".descending"),
    (WAKE + "keys=pid  if", "2 at 15", "after the head comes if and a filter", "if"),
    (WAKE + "keys=comm,pids", "3", "did you mean pid?", "pids"),
    (WAKE + "keys=next_pid", "3", "sched_switch has it", "next_pid"),
    (WAKE + "keys=pid:vals=$lat", "3", "the trigger's own variable", "$lat"),
    (TURN + "keys=next_pid:vals=la:la=common_timestamp.usecs-$ts0", "3", "did you mean $la?", f"la:la={STAMP}-$ts0"),
    (WAKE + "keys=pid:vals=comm", "4", "", "comm"),
    (WAKE + "keys=pid,prio,target_cpu,comm", "5", "", "comm"),
    (WAKE + "keys=pid:sort=pid,hitcount,prio", "5", "", "prio"),
    (WAKE + "keys=pid:keys=prio", "6", "the second part with keys", "keys=prio"),
    (WAKE + "keys=pid:vals=prio,prio", "6", "", "prio"),
    (WAKE + "keys=pid:prio=common_timestamp.usecs", "6", "the name of a field", "prio=common_timestamp.usecs"),
    (WAKE + "keys=pid:size=64", "7", "", "64"),
    (WAKE + "keys=pid:sort=prio", "8", "neither hitcount nor a key nor a value", "prio"),
    (WAKE + "keys=pid:sort=pid.descend", "8", "did you mean descending?", "pid.descend"),
    (WAKE + "keys=comm.hex", "9", "comm is a text, and a modifier needs a number", "comm.hex"),
    (WAKE + "keys=pid.log", "9", "did you mean log2?", "pid.log"),
    (WAKE + "keys=pid.buckets=0", "9", "a number from 1 to 4,294,967,295", "pid.buckets=0"),
    (WAKE + "keys=pid.execname", "10 at 10", "", "pid.execname"),
    (WAKE + "keys=pid:pause", "10 at 14", "", "pause"),
    (WAKE + "kyes=pid", "10 at 5", "did you mean keys=?", "kyes=pid"),
    (TURN + "keys=next_pid:l=common_timestamp.usecs-ts0", "10 at 19", f"mean l={STAMP}-$ts0?", f"l={STAMP}-ts0"),
    (TURN + "keys=next_pid:l=$ts0-common_timestamp.usecs", "10 at 19", f"mean l={STAMP}-$ts0?", f"l=$ts0-{STAMP}"),
    (TURN + "keys=next_pid:l=common_timestamp.usecs-", "10 at 19", "a shell replaces it", f"l={STAMP}-"),
    (WAKE + "keys=pid:t=common_timestamp.nsecs", "10 at 14", NSECS + f"; did you mean t={STAMP}?", "t=common_timestamp.nsecs"),
    (WAKE + "keys=pid:vals=common_timestamp.nsecs", "10 at 19", NSECS, "common_timestamp.nsecs"),
    (WAKE + f"keys=pid:t={STAMP}:u={STAMP}", "10 at 39", "and this is its second", f"u={STAMP}"),
    (MAKER + "waking).wakeup_latency($l,pid,next_prio)", "3", "the wake events have it; sched_switch", "pid,next_prio)"),
    (MAKER + "waking).wakeup_latency($l,next_pid,next_comm)", "4", "", "next_comm)"),
    (
        MAKER + "waking).wakeup_latency($t,next_pid,next_pid)",
        "3",
        "of a trigger that reads another one",
        "$t,next_pid,next_pid)",
    ),
    (MAKER + f"waking).wakeup_latency($l,next_pid,next_prio):{SECOND}", "6", "the second onmatch part", SECOND),
    (WAKE + "keys=pid,lat", "3", "wakeup_latency has it", "lat"),
    (MADE + "keys=comm", "3", "the wake events have it", "comm"),
    (MADE + "keys=lat:v=common_timestamp.usecs", "10 at 14", "has no variable", "v=common_timestamp.usecs"),
    (MADE + "keys=lat:onmatch(x).y()", "10 at 14", "makes no events", "onmatch(x).y()"),
    (MAKER + "waking).trace(x)", "10 at 49", "wakeup_latency($OWN,F,G)", "onmatch(sched.sched_waking).trace(x)"),
]


# How many columns the lines have at most, since they aren't printed on a terminal.
WIDTH = 80
# Refusals that no command here gets: out of memory, a full desk, a 65th trigger.
UNMET = {"1", "7", "15", "8: fault 1", "8: fault 11 filter 1", "9: filter 1"}


def all_rows():
    rows = REFUSALS + COMMANDS + LINES
    for text, fault, words, rest in FILTERS:
        rows.append((f"filter 1 if {text}", f"9: filter {fault}", words, rest))
        if text:
            rows.append((f"{WAKE}keys=pid  if  {text}", f"8: fault 11 filter {fault}", words, rest))
    return rows + [(command, f"8: fault {fault}", words, rest) for command, fault, words, rest in TRIGGERS]


def words_of(refusal):
    """Return the words of a refusal; of a refused line, trigger or filter, only those of its fault."""
    words = refusal_words(f"refused {refusal}")
    return words.partition(": ")[2] if re.match("[389]:", refusal) else words


def kind_of(refusal):
    """Return a refusal without the numbers of its line, CPU, trigger and place."""
    return re.sub("(line|cpu|trigger|at) [0-9]+", r"\1", refusal)


def untold(rows):
    """Return the kinds of refusals that the library has words for and no row has, or that a row has and the library has no
    words for."""
    faults = ["line 1 fault", "fault", "filter", "fault 11 filter"]
    numbered = [f": {fault} {number}{at}" for fault in faults for number in range(20) for at in ("", " at 0")]
    known = set()
    for number in range(30):
        for detail in ["", ": cpu 1", ": trigger 1", *numbered]:
            try:
                words_of(f"{number}{detail}")
                known.add(kind_of(f"{number}{detail}"))
            except ValueError:
                pass
    return known ^ UNMET ^ {kind_of(row[1]) for row in rows}


def escaped(text):
    return re.sub("[^ -~]", lambda byte: {"\t": "\\t", "\r": "\\r"}.get(byte[0], f"\\x{ord(byte[0]):02x}"), text)


def is_part(line, text):
    """Return whether a line shows a text, or a part of it between dots."""
    return line == text or len(text) > WIDTH - 20 and line.removeprefix("..").removesuffix("..") in text


def wrong_with(number, row, lines):
    """Return what is wrong with the lines that explain a row, or None."""
    command, refusal, hint, rest = row
    if lines[:1] != [f"refused {refusal}"]:
        return f"{lines[:1]}"
    front, text = f"  line {number}: ", escaped(command.strip(" "))
    if not lines[1:] or not lines[1].startswith(front) or max(map(len, lines)) > WIDTH:
        return f"{lines[1:]}"
    first, *others = lines[1].removeprefix(front), *lines[2:]
    at = [at for at, line in enumerate(others) if line.strip(" ") == "^"]
    column = others.pop(at[0]).index("^") - len(front) if at else None
    meaning = " ".join(line.strip(" ") for line in others)
    # A short explanation is on the line of the command.
    if first.startswith(text + ": "):
        first, meaning = text, " ".join([first[len(text) + 2 :], *[meaning] * bool(meaning)])
    if not is_part(first, text) or hint not in meaning:
        return f"{lines[1:]}"
    _, words, more = f": {meaning}".rpartition(f"{words_of(refusal)}")
    # The line of a trace follows.
    if not words or more[:1] not in ("", ":", ";", *[" "] * command.startswith("load")) or more[:1] in (":", ";") and not hint:
        return f"not the library's words: {lines[1:]}"
    if rest is None:
        return None if column is None else "a caret"
    shown, tail = first[column:] if column is not None else None, escaped(rest)
    is_there = shown is not None and (shown == tail or len(text) > WIDTH - 20 and tail.startswith(shown.removesuffix("..")))
    return None if is_there else f"{lines[1:]}"


def main():
    explain, folder = sys.argv[1:]
    if not os.environ.get("HISTDESK"):
        raise SystemExit("explained: HISTDESK names no program")
    rows = all_rows()
    os.chdir(folder)
    for name, text in TRACES.items():
        with open(name, "w", encoding="latin-1") as file:
            file.write(text)
    with open("script", "w", newline="") as file:
        file.write("\n".join(FIRST + [row[0] for row in rows]))
    done = subprocess.run([explain, "script", *TRACES], stdout=subprocess.PIPE)
    told = done.stdout.decode("latin-1").split("\n")[:-1]
    starts = [at for at, line in enumerate(told) if line.startswith("refused ")] + [len(told)]
    good = 0
    for at, row in enumerate(rows):
        lines = told[starts[at] : starts[at + 1]] if at + 1 < len(starts) else []
        wrong = wrong_with(len(FIRST) + 1 + at, row, lines)
        if wrong:
            print(f"explained {row[0][:80]!r}: {wrong}")
        else:
            good += 1
    missing = untold(rows)
    if missing:
        print(f"explained: in no row, or in no words: {missing}")
    print(f"{good} of {len(rows) + len(missing)} rows hold")


main()
