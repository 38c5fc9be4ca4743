#!/usr/bin/env python3
"""Checks what `histwatch` prints of rows that changed against the tables of `histdesk` before and after each edit.

    watched.py HISTDESK HISTWATCH [ASKAGAIN]

First come three scripts whose changes are written here by hand. Then come random edits, of all kinds (random_script.py) and
over full tables (crowded_script.py), some hundreds of them accepted. For each script, `histdesk` runs another one that has
`hist` of each attached trigger before and after each accepted insert and strike. These tables give the `-` and `+` lines
after each such edit, in order of trigger id, then key, and how many rows changed; `histwatch` must print the output of
`histdesk` with these lines, byte for byte, end with its status and say nothing on standard error. ASKAGAIN, if it is given,
watches over the board that keeps no tables, on which no edit has a report: for the shorter scripts it must print the same.
"""

import os
import re
import subprocess
import sys
import tempfile

MODEL = os.path.join(os.path.dirname(os.path.realpath(__file__)), "..", "model")
# A command that is always refused, and what it prints, by which the outputs of commands are told apart.
MARK, MARKED = b"unload 8191", b"refused 5: cpu 8191\n"
LATENCY = (
    b" sim-1 [000] d.h.. 1.000050: sched_waking: comm=v pid=7 prio=120 target_cpu=000\n"
    b" sim-1 [000] d.h.. 1.000100: sched_waking: comm=w pid=42 prio=120 target_cpu=000\n"
    b" sim-1 [000] d.h.. 1.000150: sched_switch: prev_comm=sim prev_pid=1 prev_prio=120 prev_state=S"
    b" ==> next_comm=w next_pid=42 next_prio=120\n"
    b" sim-1 [000] d.h.. 1.000170: sched_waking: comm=w pid=42 prio=120 target_cpu=000\n"
)
READER = b"hist:keys=next_pid:vals=$lat:lat=common_timestamp.usecs-$ts0"
MAKER = READER + b":onmatch(sched.sched_waking).wakeup_latency($lat,next_pid,next_prio)"
# The scripts, and what they print over the trace above.
BY_HAND = [
    # A saving goes, and with it the row of the only reading that found it.
    (
        b"load @1\nattach sched_waking hist:keys=pid:ts0=common_timestamp.usecs\nattach sched_switch " + READER + b"\n"
        b"strike 0:2\nstrike 0:2\n",
        b"loaded 4\nattached 1\nattached 2\nstruck 0:2\n"
        b"- 1 { pid:         42 } hitcount:          2\n"
        b"+ 1 { pid:         42 } hitcount:          1\n"
        b"- 2 { next_pid:         42 } hitcount:          1  lat:         50\n"
        b"changed 2\n"
        b"refused 6\n",
    ),
    # An event that readings make goes and another comes, as an earlier saving is found; and a task before all others
    # comes in.
    (
        b"attach sched_waking hist:keys=pid:ts0=common_timestamp.usecs\nload @1\nattach sched_switch " + MAKER + b"\n"
        b"attach wakeup_latency hist:keys=lat\n"
        b"insert a-1 [001] 1.000110: sched_waking: comm=w pid=42 prio=120 target_cpu=000\n"
        b"filter 1 if pid != 7\n"
        b"insert a-1 [001] 0.000001: sched_waking: comm=v pid=7 prio=120 target_cpu=000\n"
        b"filter 1 none\n"
        b"insert a-1 [001] 0.000001: sched_waking: comm=u pid=-1 prio=120 target_cpu=000\n",
        b"attached 1\nloaded 4\nattached 2\nattached 3\ninserted 1:1\n"
        b"- 1 { pid:         42 } hitcount:          2\n"
        b"+ 1 { pid:         42 } hitcount:          3\n"
        b"- 2 { next_pid:         42 } hitcount:          1  lat:         50\n"
        b"+ 2 { next_pid:         42 } hitcount:          1  lat:         40\n"
        b"+ 3 { lat:         40 } hitcount:          1\n"
        b"- 3 { lat:         50 } hitcount:          1\n"
        b"changed 4\n"
        b"refiltered 1\ninserted 1:2\nchanged 0\nrefiltered 1\ninserted 1:3\n"
        b"+ 1 { pid: 18446744073709551615 } hitcount:          1\n"
        b"changed 1\n",
    ),
    # An event that readings make changes within a row, and beside a table that doesn't count what changed; then it goes
    # with the reading. A switch that finds no saving changes nothing.
    (
        b"attach sched_waking hist:keys=pid:ts0=common_timestamp.usecs\nload @1\nattach sched_switch " + MAKER + b"\n"
        b"attach wakeup_latency hist:keys=lat.log2:vals=lat\nattach wakeup_latency hist:keys=pid\n"
        b"insert a-1 [001] 1.000110: sched_waking: comm=w pid=42 prio=120 target_cpu=000\n"
        b"strike 0:3\nstrike 0:3\n"
        b"insert a-1 [000] 1.000180: sched_switch: prev_comm=w prev_pid=42 prev_prio=120 prev_state=S"
        b" ==> next_comm=u next_pid=9 next_prio=120\n",
        b"attached 1\nloaded 4\nattached 2\nattached 3\nattached 4\ninserted 1:1\n"
        b"- 1 { pid:         42 } hitcount:          2\n"
        b"+ 1 { pid:         42 } hitcount:          3\n"
        b"- 2 { next_pid:         42 } hitcount:          1  lat:         50\n"
        b"+ 2 { next_pid:         42 } hitcount:          1  lat:         40\n"
        b"- 3 { lat: ~ 2^6  } hitcount:          1  lat:         50\n"
        b"+ 3 { lat: ~ 2^6  } hitcount:          1  lat:         40\n"
        b"changed 3\n"
        b"struck 0:3\n"
        b"- 2 { next_pid:         42 } hitcount:          1  lat:         40\n"
        b"- 3 { lat: ~ 2^6  } hitcount:          1  lat:         40\n"
        b"- 4 { pid:         42 } hitcount:          1\n"
        b"changed 3\n"
        b"refused 6\n"
        b"inserted 0:5\nchanged 0\n",
    ),
]


def demand(holds, otherwise):
    if not holds:
        sys.exit(f"watched: {otherwise}")


def run(words, script, traces):
    """Return the status, output and standard error of a program over a script."""
    with tempfile.TemporaryDirectory() as folder:
        paths = [os.path.join(folder, "script")] + [os.path.join(folder, f"trace{at + 1}") for at in range(len(traces))]
        for path, text in zip(paths, [script, *traces]):
            with open(path, "wb") as file:
                file.write(text)
        ran = subprocess.run([*words, *paths], stdin=subprocess.DEVNULL, capture_output=True, check=False)
    return ran.returncode, ran.stdout, ran.stderr


def outputs(histdesk, commands, traces):
    """Return what each command of a script prints."""
    script = b"".join(command + b"\n" + MARK + b"\n" for command in commands)
    _, output, error = run([histdesk], script, traces)
    demand(not error and output.endswith(MARKED), f"histdesk: {error}")
    # A mark stands where a line begins.
    texts = re.split(rb"^" + re.escape(MARKED), output, flags=re.MULTILINE)[:-1]
    demand(len(texts) == len(commands), f"{len(texts)} outputs of {len(commands)} commands")
    return texts


# ---- tables


def keys_of(head):
    """Return the names and modifiers of a table's keys, from its third line."""
    items = re.search(rb"^# trigger info: hist:keys=([^:]*):", head, re.MULTILINE)[1].split(b",")
    return [(item.partition(b".")[0], item.partition(b".")[2]) for item in items]


def component(modifier, text):
    """Return a key's component in the form by which it is ordered."""
    if modifier == b"log2":
        return int(text.removeprefix(b"~ 2^"))
    if modifier.startswith(b"buckets"):
        return int(text.removeprefix(b"~ ").split(b"-")[0])
    if modifier == b"hex" or re.fullmatch(rb" *\d+", text):
        value = int(text, 16 if modifier == b"hex" else 10)
        return value - 2**64 if value >= 2**63 else value
    # A text, with spaces after it.
    return text.rstrip(b" ")


def rows_of(text):
    """Return the lines of a table's rows, by key."""
    head, rows = text.split(b"\n\n", 1)
    keys = keys_of(head)
    form = rb"\{ " + rb", ".join(re.escape(name) + rb": (.*)" for name, _ in keys) + rb" \} hitcount: .*"
    found = {}
    for line in rows.split(b"\nTotals:\n")[0].splitlines():
        if line:
            parts = re.fullmatch(form, line).groups()
            found[tuple(component(modifier, part) for (_, modifier), part in zip(keys, parts))] = line
    return found


def changes(before, now):
    """Return the lines for the rows that differ, of tables by id, and the id of each such row's table."""
    lines, ids = b"", []
    for number in sorted(before):
        for key in sorted({**before[number], **now[number]}):
            old, new = before[number].get(key), now[number].get(key)
            if old != new:
                lines += b"" if old is None else b"- %d %s\n" % (number, old)
                lines += b"" if new is None else b"+ %d %s\n" % (number, new)
                ids.append(number)
    return lines + b"changed %d\n" % len(ids), ids


# ---- scripts


def attached_at(commands, texts):
    """Return the attached triggers' ids before each command, and the ids of those on the event that readings make."""
    ids, at, made = [], [], set()
    for command, text in zip(commands, texts):
        at.append(list(ids))
        found = re.fullmatch(rb"(attached|removed) (\d+)\n", text)
        if found and found[1] == b"attached":
            ids.append(int(found[2]))
            if command.split()[1] == b"wakeup_latency":
                made.add(ids[-1])
        elif found:
            ids.remove(int(found[2]))
    return at, made


def expected(histdesk, commands, traces):
    """Return what a script must print, how many edits report rows, how many rows changed, and how many of those count what
    readings make."""
    texts = outputs(histdesk, commands, traces)
    attached, made = attached_at(commands, texts)
    asked, edits = [], []
    for command, text, ids in zip(commands, texts, attached):
        hists = [b"hist %d" % number for number in ids]
        if re.match(rb"(inserted|struck) ", text):
            edits.append((len(asked), ids))
            asked += [*hists, command, *hists]
        else:
            asked.append(command)
    answers = outputs(histdesk, asked, traces)
    printed, last, rows = b"", 0, []
    for at, ids in edits:
        count = len(ids)
        tables = list(zip(ids, answers[at : at + count], answers[at + count + 1 : at + 2 * count + 1]))
        before = {number: rows_of(old) for number, old, new in tables if old != new}
        now = {number: rows_of(new) for number, old, new in tables if old != new}
        lines, changed = changes(before, now)
        printed += b"".join(answers[last:at]) + answers[at + count] + lines
        last, rows = at + 2 * count + 1, rows + changed
    return printed + b"".join(answers[last:]), len(edits), len(rows), len([number for number in rows if number in made])


def hold(words, script, traces, wanted, status):
    """Check what a program prints for a script, and how it ends."""
    ended, output, error = run(words, script, traces)
    if output != wanted:
        pairs = zip(output.splitlines(), wanted.splitlines())
        least = min(output.count(b"\n"), wanted.count(b"\n"))
        at = next((number for number, (one, other) in enumerate(pairs) if one != other), least)
        demand(False, f"{words}: line {at + 1}: {output.splitlines()[at : at + 2]}, not {wanted.splitlines()[at : at + 2]}")
    demand((ended, error) == (status, b""), f"{words}: status {ended}, {error}")


def by_hand(histwatch, plain):
    for script, wanted in BY_HAND:
        hold([histwatch], script, [LATENCY], wanted, int(b"refused" in wanted))
        if plain:
            hold(plain, script, [LATENCY], wanted, 0)


def made_by(words, folder):
    """Return the commands and traces of a script that a program writes."""
    os.mkdir(folder)
    subprocess.run([sys.executable, os.path.join(MODEL, words[0]), *words[1:], folder], check=True, stdout=subprocess.DEVNULL)

    def bytes_of(name):
        with open(os.path.join(folder, name), "rb") as file:
            return file.read()

    names = sorted(name for name in os.listdir(folder) if name.startswith("trace"))
    return bytes_of("script").splitlines(), [bytes_of(name) for name in names]


def by_chance(histdesk, histwatch, plain):
    """Check random scripts, and return how many edits reported rows, how many rows changed, and how many of those count what
    readings make."""
    scripts = [["random_script.py", "400", "600", "1"], ["crowded_script.py", "250", "2"]]
    # The plain board replays for each table, so its scripts are short.
    short = [["random_script.py", "400", "300", "5"], ["random_script.py", "300", "150", "8"]]
    edits = rows = made = 0
    with tempfile.TemporaryDirectory() as folder:
        for number, words in enumerate(scripts + short):
            commands, traces = made_by(words, os.path.join(folder, str(number)))
            wanted, told, changed, of_made = expected(histdesk, commands, traces)
            script = b"".join(command + b"\n" for command in commands)
            hold([histwatch], script, traces, wanted, run([histdesk], script, traces)[0])
            if plain and words in short:
                hold(plain, script, traces, wanted, 0)
            edits, rows, made = edits + told, rows + changed, made + of_made
    return edits, rows, made


def main():
    histdesk, histwatch = map(os.path.abspath, sys.argv[1:3])
    plain = [os.path.abspath(sys.argv[3]), "watch-plain"] if len(sys.argv) > 3 else None
    by_hand(histwatch, plain)
    edits, rows, made = by_chance(histdesk, histwatch, plain)
    demand(edits >= 500 and 2 * rows > edits, f"{edits} edits held, with {rows} rows that changed")
    demand(10 * made > edits, f"{edits} edits held, with {made} rows that changed of what readings make")
    print(f"watched: {edits} edits by chance, {rows} rows changed, {made} of them count what readings make")
    print(f"{edits + len(BY_HAND)} of {edits + len(BY_HAND)} edits hold")


main()
