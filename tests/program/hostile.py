#!/usr/bin/env python3
"""Gives programs hostile bytes, and checks that they print what the plain model prints (model.py), with its exit status.

    hostile.py [--part N] [--start WORD] PROGRAM...

All is drawn from a fixed start (hostile_texts.py), so that each run is the same; another WORD gives other bytes. There
are 20,000 trace lines, inserted and in traces, 5,000 filters, 5,000 triggers and 2,000 scripts, in a hundred parts;
`--part N`, from 1 to 100, runs only that one. Many lines, filters or triggers stand in one script, which asks after each
accepted filter and trigger what the desk made of it, and at its end for all that is there.

If a program prints something else, a line says in which part, and after it stand the first command whose output
differs and both outputs. A whole run ends with how often the model gave each answer. The last line counts the programs'
runs.
"""

import argparse
import collections
import os
import random
import re
import subprocess
import sys
import tempfile

sys.dont_write_bytecode = True

sys.path.insert(0, os.path.join(os.path.dirname(os.path.realpath(__file__)), "..", "model"))
import hostile_texts as texts
from hostile_texts import ATTACHED
from model import Desk, Refused
from model_line import MADE, fields_of

PARTS = 100
LINES, FILTERS, TRIGGERS, SCRIPTS = 200, 50, 50, 20
# Lines of a trace, if many traces are loaded.
TRACE = 5
# A run that takes more seconds than this is ended, and fails.
LIMIT = 120
# How many bytes of an output are shown.
SHOWN = 200
# A trigger on switches that reads t and makes events.
MAKER = "hist:keys=next_pid:v=common_timestamp.usecs-$t"
MAKER += ":onmatch(sched.sched_waking).wakeup_latency($v,next_pid,next_prio)"


class Session:
    """A script as it grows, its traces, and what the model prints at each line."""

    def __init__(self, name, traces=()):
        self.name, self.traces, self.desk = name, list(traces), Desk()
        self.files = [lines_of(trace) for trace in self.traces]
        # Each line with its output, and whether a line was refused.
        self.told, self.is_refused, self.ending = [], False, "\n"

    def perform(self, line):
        """Add a line, and return whether it is accepted."""
        try:
            text, accepted = self.desk.perform(line, self.files), True
        except Refused as refused:
            text, accepted = f"refused {refused}", False
            self.is_refused = True
        self.told.append((line, text + "\n" if text else ""))
        return accepted

    def ask_lanes(self, take_away=False):
        for cpu in sorted(self.desk.lanes):
            self.perform(f"list {cpu}")
            if take_away:
                self.perform(f"unload {cpu}")

    def ask_trigger(self, number):
        for word in texts.ANSWERS:
            self.perform(f"{word} {number}")

    def ask_all(self):
        for number in sorted(self.desk.triggers):
            self.ask_trigger(number)
        self.ask_lanes()

    def attached(self):
        """Return the id of the trigger that the last line attached."""
        return self.desk.next_id - 1

    def script(self):
        return ("\n".join(line for line, _ in self.told) + self.ending).encode("latin-1")

    def output(self):
        return "".join(text for _, text in self.told).encode("latin-1")


def lines_of(text):
    lines = text.split("\n")
    return lines if lines[-1] else lines[:-1]


# ---- what is given to the programs


def lines_session(draw, name):
    """Return a session with lines that are inserted, and then loaded in traces of a few, of which those with a bad line are
    refused."""
    lines = texts.hostile_lines(draw, LINES)
    mixed = [texts.line(draw) if draw.random() < 0.8 else line for line in lines]
    traces = ["\n".join(mixed[at : at + TRACE]) + draw.choice(["\n", "", "\r\n"]) for at in range(0, len(mixed), TRACE)]
    session = Session(name, traces)
    session.perform("attach sched_switch hist:keys=next_comm,prev_state,prev_comm:vals=next_prio,prev_pid,next_pid")
    session.perform("attach sched_waking hist:keys=common_pid.hex,comm,prio.buckets=3:vals=pid,target_cpu")
    for line in lines:
        session.perform(f"insert {line}")
    session.ask_all()
    session.ask_lanes(take_away=True)
    for number in range(1, len(traces) + 1):
        session.perform(f"load @{number}")
        session.ask_lanes(take_away=True)
    return session


def held(draw, count):
    """Return a trace of which every line is an event, some with odd parts."""
    session, lines = Session("held"), []
    while len(lines) < count:
        line = texts.odd_line(draw, 2)
        if session.perform(f"insert {line}"):
            lines.append(line)
    return "\n".join(lines) + "\n"


def filters_session(draw, name):
    """Return a session with filters, for a trigger on each event and for triggers that are attached with them; tables have a
    row for each event that passes. Two triggers save and read, so that there are events that triggers make."""
    session = Session(name, [held(draw, 40)])
    session.perform("load @1")
    keys = {event: ",".join([fields_of(event)[2], fields_of(event)[3], "common_cpu"]) for event in ATTACHED}
    for event in ATTACHED:
        session.perform(f"attach {event} hist:keys={keys[event]}")
    session.perform("attach sched_waking hist:keys=pid:t=common_timestamp.usecs")
    session.perform(f"attach sched_switch {MAKER}")
    for _ in range(FILTERS):
        number = draw.randrange(len(ATTACHED))
        event = ATTACHED[number]
        text = texts.hostile_filter(draw, event)
        if draw.random() < 0.7:
            if session.perform(f"filter {number + 1} if {text}"):
                session.perform(f"hist {number + 1}")
        elif session.perform(f"attach {event} hist:keys={keys[event]} if {text}"):
            session.perform(f"hist {session.attached()}")
            session.perform(f"remove {session.attached()}")
    session.ask_all()
    return session


def triggers_session(draw, name):
    """Return a session with triggers beside two savers, whose variables they may read, and beside one on the event that they
    may make. Each trigger that is accepted is removed again."""
    session = Session(name, [held(draw, 40)])
    session.perform("load @1")
    session.perform("attach sched_waking hist:keys=pid:t=common_timestamp.usecs")
    session.perform("attach sched_switch hist:keys=next_comm,next_prio.log2:s=common_timestamp.usecs:size=128")
    session.perform(f"attach {MADE} hist:keys=lat,pid.log2:vals=prio")
    for _ in range(TRIGGERS):
        event = draw.choice(ATTACHED)
        if session.perform(f"attach {event} {texts.hostile_trigger(draw, event)}"):
            session.ask_trigger(session.attached())
            session.perform("hist 3")
            session.perform(f"remove {session.attached()}")
    session.ask_all()
    return session


def script_session(draw, name):
    """Return a session with a few commands, many of them a character away from good ones; some scripts end in mid-line."""
    traces = [texts.line(draw) + "\n" + texts.line(draw) + "\n" for _ in range(draw.randrange(1, 4))]
    if draw.random() < 0.3:
        traces[0] += draw.choice([texts.hostile_line(draw), texts.skipped_line(draw) + "\n"])
    session = Session(name, traces)
    for _ in range(draw.randrange(8, 25)):
        session.perform(texts.hostile_command(draw))
    session.ask_all()
    last = draw.choice([texts.command(draw), "#", " ", "list 0", "hist 1"])
    session.perform(last[: draw.randrange(1, len(last) + 2)])
    # A last line without its end is a line too, unless it is empty.
    session.ending = draw.choice(["\n", ""]) if session.told[-1][0] else "\n"
    return session


def sessions_of(start, part):
    """Yield the sessions that a part gives to each program, each drawn by itself."""
    kinds = [("lines", lines_session, 1), ("filters", filters_session, 1), ("triggers", triggers_session, 1)]
    for kind, make, count in [*kinds, ("script", script_session, SCRIPTS)]:
        for number in range(1, count + 1):
            name = f"part {part}, {kind}" + (f" {number}" if count > 1 else "")
            yield make(random.Random(f"{start} {name}"), name)


# ---- the programs


def written(folder, session):
    """Write the session's script and traces to files, and return their paths."""
    paths = []
    for number, content in enumerate([session.script(), *(trace.encode("latin-1") for trace in session.traces)]):
        paths.append(os.path.join(folder, f"trace{number}" if number else "script"))
        with open(paths[-1], "wb") as file:
            file.write(content)
    return paths


def differs(program, paths, session):
    """Return what a program gives that isn't the model's, or None."""
    try:
        ran = subprocess.run([program, *paths], stdin=subprocess.DEVNULL, capture_output=True, timeout=LIMIT)
    except subprocess.TimeoutExpired:
        return f"no end in {LIMIT} seconds"
    if ran.stdout != session.output():
        return first_difference(ran.stdout, session)
    if ran.returncode != session.is_refused or ran.stderr:
        return f"status {ran.returncode}, {ran.stderr}"
    return None


def first_difference(printed, session):
    at = 0
    for number, (line, text) in enumerate(session.told, 1):
        wanted = text.encode("latin-1")
        if not printed.startswith(wanted, at):
            break
        at += len(wanted)
    else:
        return f"more after its last line: {printed[at:]}"
    return f"line {number}\n  {line.encode('latin-1')}\n  prints {printed[at : at + SHOWN]}\n  not {wanted[:SHOWN]}"


def count_answers(session, counts):
    """Count the answers to the lines of a session, without places and the numbers of lines, CPUs and triggers."""
    for line, text in session.told:
        word = "accepted"
        if text.startswith("refused "):
            word = re.sub(r"( at|: line|: cpu|: trigger) \d+", "", text.strip())
        counts[word] += 1


def main():
    words = argparse.ArgumentParser()
    words.add_argument("--part", type=int, choices=range(1, PARTS + 1), metavar="N")
    words.add_argument("--start", default="hostile")
    words.add_argument("programs", nargs="+")
    words = words.parse_args()
    good, runs, counts = 0, 0, collections.Counter()
    with tempfile.TemporaryDirectory() as folder:
        for part in [words.part] if words.part else range(1, PARTS + 1):
            for session in sessions_of(words.start, part):
                count_answers(session, counts)
                paths = written(folder, session)
                for program in words.programs:
                    told = differs(os.path.abspath(program), paths, session)
                    runs += 1
                    good += told is None
                    if told is not None:
                        print(f"{session.name}, {os.path.basename(program)}: {told}")
    if not words.part:
        for word, count in sorted(counts.items()):
            print(f"{count:7} {word}")
    print(f"{good} of {runs} runs hold")
    sys.exit(good < runs)


main()
