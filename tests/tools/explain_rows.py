#!/usr/bin/env python3
"""Checks that `explain` explains each refusal of the rows at its place.

    explain_rows.py [--watched] EXPLAIN ROW... > WHAT WENT WRONG

The plain model, asked command by command, says which line of the script each output belongs to. An explanation stands
after each refused line of it, and nowhere else. It has that line's number and, if the refusal has a place, a caret
under that byte of the command; for a refused trace it has the trace's line. With --watched the program is histwatch, and
each accepted insert and strike is followed by the rows that it changed and by how many they are. The last line says how
many rows hold. HISTDESK names the program, as for explain.
"""

import os
import re
import subprocess
import sys

sys.dont_write_bytecode = True
words = sys.argv[1:]
is_watched = words[:1] == ["--watched"]
# The model is a program, which runs when it is imported: here with no commands.
sys.argv[1:] = [os.devnull]
sys.path.insert(0, os.path.join(os.path.dirname(os.path.realpath(__file__)), "..", "model"))
import model


# How many columns the lines have at most, since they aren't printed on a terminal.
WIDTH = 80


def escaped(text):
    return re.sub("[^ -~]", lambda byte: {"\t": "\\t", "\r": "\\r"}.get(byte[0], f"\\x{ord(byte[0]):02x}"), text)


def placed_text(line, refused):
    """Return the text in which a refusal's place counts, which is always the end of the command."""
    text = line.strip(" ")
    for _ in range(2 if text.startswith("attach") else 3):
        text = model.split(text)[1]
    if refused.startswith("refused 8: fault 11"):
        text = re.sub("^[^ \t]*[ \t]*if[ \t]*", "", text)
    return text


def answers(script, traces):
    """Yield the line number, the line and the output of each command that prints something."""
    desk = model.Desk()
    for number, line in enumerate(model.lines_of(script), 1):
        try:
            text = desk.perform(line, traces)
        except model.Refused as refused:
            text = f"refused {refused}"
        if text:
            yield number, line, text


def shows(line, front, text):
    """Return whether a line shows a text after `front`: whole, perhaps with an explanation after it, or, if the text is long,
    a part of it between dots."""
    if not line.startswith(front) or len(line) > WIDTH:
        return False
    line = line[len(front) :]
    if len(front) + len(text) <= WIDTH - 4:
        return line == text or line.startswith(text + ": ")
    return line.removeprefix("..").removesuffix("..") in text and len(line) >= WIDTH - len(front) - 8


def is_tail(shown, tail, command):
    """Return whether what a line shows from a caret on is the end of a command, which may be cut off, or have an explanation
    after it."""
    if command is not None:
        return shown.startswith(tail + ": ")
    return shown == tail or shown.endswith("..") and tail.startswith(shown.removesuffix(".."))


def behind_rows(told, at):
    """Return where the rows that changed end, with the line after them that says how many they are; None if it doesn't."""
    start = at
    while told[at : at + 1] and re.match("[-+] [0-9]+ { ", told[at]):
        at += 1
    # A row that has changed has two lines, which differ after its key.
    rows = {line[2:].rpartition(" } hitcount: ")[0] for line in told[start:at]}
    return at + 1 if told[at : at + 1] == [f"changed {len(rows)}"] else None


def first_wrong(row, told):
    """Return the first thing that is wrong in what explain printed for a row, or None."""
    traces = [os.path.join(row, f"trace{number}") for number in range(1, 10)]
    lines_of_traces = [model.lines_of(path) for path in traces if os.path.exists(path)]
    at = 0
    for number, line, text in answers(os.path.join(row, "script"), lines_of_traces):
        wanted = text.split("\n")
        if told[at : at + len(wanted)] != wanted:
            return f"line {number}: other output"
        at += len(wanted)
        if is_watched and re.match("inserted |struck ", text):
            at = behind_rows(told, at)
            if at is None:
                return f"line {number}: not how many rows changed"
        if not text.startswith("refused "):
            continue
        front = f"  line {number}: "
        command = escaped(line.strip(" "))
        if not told[at : at + 1] or not shows(told[at], front, command):
            return f"line {number}: not explained: {told[at : at + 1]}"
        is_whole = told[at].startswith(front + command + ": ")
        # If the desk gives no place, explain may have found one.
        caret = told[at + 1 : at + 2] if re.fullmatch(" +\\^", "".join(told[at + 1 : at + 2])) else []
        if " at " in text:
            tail = escaped(placed_text(line, text)[int(text.split(" at ")[1]) :])
            is_there = caret and is_tail(told[at][caret[0].index("^") :], tail, command if is_whole else None)
            if not is_there:
                return f"line {number}: no caret at its place: {told[at : at + 2]}"
        at += 1 + len(caret)
        start = at
        while told[at : at + 1] and told[at].startswith("    ") and len(told[at]) <= WIDTH:
            at += 1
        bad = re.fullmatch("refused 3: line ([0-9]+) fault [0-9]", text)
        is_load = bad and line.strip(" ").startswith("load")
        if at - start < (not is_whole) + bool(is_load):
            return f"line {number}: not explained: {told[start : at + 1]}"
        if is_load:
            trace = lines_of_traces[int(line.partition("@")[2]) - 1]
            if not shows(told[at - 1], "    ", escaped(trace[int(bad[1]) - 1])):
                return f"line {number}: not the trace's line: {told[at - 1]}"
    return None if at == len(told) else f"more is told: {told[at]}"


def wrong_with(explain, row):
    words = [os.path.join(row, "script")]
    while os.path.exists(os.path.join(row, f"trace{len(words)}")):
        words.append(os.path.join(row, f"trace{len(words)}"))
    done = subprocess.run([explain, *words], capture_output=True, stdin=subprocess.DEVNULL)
    with open(os.path.join(row, "status")) as status:
        if done.returncode != int(status.read()) or done.stderr:
            return f"status {done.returncode}, {done.stderr.decode('latin-1')}"
    told = done.stdout.decode("latin-1").split("\n")
    return first_wrong(row, told[:-1])


def main():
    # The launcher would start a build.
    if not os.environ.get("HISTDESK"):
        raise SystemExit("explain_rows: HISTDESK names no program")
    explain, *paths = words[is_watched:]
    good = 0
    for row in paths:
        wrong = wrong_with(explain, row)
        if wrong:
            print(f"{os.path.basename(row)}: {wrong}")
        else:
            good += 1
    print(f"{good} of {len(paths)} rows hold")


main()
