#!/usr/bin/env python3
"""Checks that docs/REFERENCE.md says what the sources say and what the program answers.

    reference.py [HISTDESK] > WHAT WENT WRONG

From the sources: the number, the name and the words of each fault and each refusal, what the program says on standard
error, each limit, each field, and the words of the kernel's language that are left out. From the program: its answers to
the examples of lines, patterns, filters and triggers; without HISTDESK, the launcher is asked. sessions.py checks the
sessions in console blocks. The last line says how many things hold.
"""

import os
import re
import subprocess
import sys

ROOT = os.path.join(os.path.dirname(os.path.realpath(__file__)), "..", "..")
HISTDESK = os.path.realpath(sys.argv[1] if len(sys.argv) > 1 else os.path.join(ROOT, "histdesk"))

# The tables of faults and refusals, and the file of each.
FAULTS = {
    "Line faults": "ft_event/src/fault.rt",
    "Filter faults": "ft_filter/src/fault.rt",
    "Trigger faults": "ft_hist/src/fault.rt",
    "Refusals": "ft_base/src/refused.rt",
}
# Where each limit of the table stands in the sources: a constant's name, or the text around it.
LIMITS = {
    "bytes of a TRACE file": ("ft_script/src/files.rt", "FILE_LIMIT"),
    "reads of it": ("ft_script/src/files.rt", "READ_LIMIT"),
    "bytes of a trace line": ("ft_event/src/line.rt", "LONGEST_LINE"),
    "bytes of TASK, a name or a state": ("ft_event/src/line.rt", r"text\.len\(\) > (\d+)"),
    "bytes of LETTERS": ("ft_event/src/columns.rt", r"first\.len\(\) > (\d+)"),
    "seconds of STAMP": ("ft_event/src/columns.rt", r"\[\.\.point\], (u32::MAX)"),
    "CPU": ("ft_fields/src/event.rt", "LAST_CPU"),
    "PID, numbers of a payload": ("ft_event/src/parts.rt", r"number > (i32::MAX)"),
    "bytes of a script line": ("ft_script/src/script.rt", "LINE_LIMIT"),
    "digits of a number in it": ("ft_script/src/script.rt", "MOST_DIGITS"),
    "turns of the script's reader": ("ft_desk/src/running.rt", "ASKING_LIMIT"),
    "held events": ("ft_base/src/content.rt", "EVENT_LIMIT"),
    "line numbers": ("ft_base/src/content.rt", "LINE_LIMIT"),
    "attached triggers": ("ft_base/src/content.rt", "TRIGGER_LIMIT"),
    "ids": ("ft_base/src/content.rt", "ID_LIMIT"),
    "keys of a trigger": ("ft_head/src/lists.rt", "MOST_KEYS"),
    "values besides `hitcount`": ("ft_head/src/lists.rt", "MOST_VALUES"),
    "sort items": ("ft_head/src/lists.rt", "MOST_SORT_ITEMS"),
    "sizes of a table: least": ("ft_head/src/draft.rt", "LEAST_SIZE"),
    "greatest": ("ft_head/src/draft.rt", "MOST_SIZE"),
    "by default": ("ft_trigger/src/reading.rt", "DEFAULT_SIZE"),
    "N of `.buckets=N`": ("ft_head/src/lists.rt", r"number_in\(size, 1, (u32::MAX)\)"),
    "open `(` and `!` in a filter": ("ft_filter/src/reading.rt", "MOST_OPEN"),
}
MAXIMA = {"i32::MAX": 2**31 - 1, "u32::MAX": 2**32 - 1}
# The owners whose fields an event has, by the first words of the event's row of fields.
OWNERS = {
    "every event": ["Every"],
    "`sched_waking`, `sched_wakeup`, `sched_wakeup_new`": ["Woken", "Wakes"],
    "`sched_switch`": ["Switches"],
    "`wakeup_latency`": ["Latencies", "Woken"],
}
# How the words that are left out are written in the sources, except for those that a sort item and a value may have.
LEFT_OUT = re.compile(r'(?:is_same\((?:part|suffix|name), |part\.starts_with\()b"([\w=(-]+)"')
TAKEN = {"ascending", "descending", "keys=", "key=", "values=", "vals=", "val=", "sort=", "size=", "hitcount", "onmatch("}


def text_of(path):
    with open(os.path.join(ROOT, path), encoding="utf-8") as file:
        return file.read()


REFERENCE = text_of("docs/REFERENCE.md")


def source(path):
    return text_of(f"crates/{path}")


def section(name):
    """Return what stands below a heading, up to the next one."""
    return re.search(rf"^#+ {re.escape(name)}\n(.*?)(?=^##|\Z)", REFERENCE, re.DOTALL | re.MULTILINE)[1]


def rows(name):
    """Return the cells of the rows of a section's first table, without its head."""
    table = re.search(r"(?:^\|.*\n)+", section(name), re.MULTILINE)[0]
    return [[cell.strip() for cell in line.strip("|").split("|")] for line in table.split("\n")[2:-1]]


def compare(name, rows, expected):
    """Return how many things a table has to say, and what is wrong in it."""
    wrong = [f"{name} lacks {thing}" for thing in expected if thing not in rows]
    wrong += [f"{name} says {thing}" for thing in rows if thing not in expected]
    return len(expected), wrong + [f"{name} says {thing} twice" for thing in set(rows) if rows.count(thing) > 1]


# ---- what the sources say


def fault_table(name):
    """Compare numbers, names and words. What a program puts into the words is a word in capitals in the table."""
    text = source(FAULTS[name])
    # They stand at the variants, or in a function that matches them, after which one has the words of its filter's fault.
    words = {of: words for words, of in re.findall(r'#\[error\("([^"]*)"\)\]\s+(\w+)', text)}
    words.update(re.findall(r'\w+::(\w+)(?:\([_, ]+\))? =>\s+"([^"]*)"', text))
    for of in re.findall(r'\w+::(\w+)\(\w+\) => write!\(f, "\{\}: \{\w+\}", self\.text\(\)\)', text):
        words[of] += ": {0}"
    numbers = re.findall(r"\w+::(\w+)(?:\([_, ]+\))? => (\d+),", text)
    expected = [(number, f"`{of}`", re.sub(r"\{\d\}", "@", words[of])) for of, number in numbers]
    table = [(cells[0], cells[1], re.sub(r"\b(?:WORDS|ID|C|L)\b", "@", cells[2])) for cells in rows(name)]
    return compare(name, table, expected)


def standard_error():
    words = re.findall(r'#\[error\("([^"]*)"\)\]', source("ft_desk/src/program.rt"))
    expected = [f"`histdesk: {message}`".replace("{0}", "PATH") for message in words]
    return compare("The programs", [cells[0] for cells in rows("The programs")], expected)


def value(path, form):
    """Return a limit's value in a file."""
    text = re.search(form if "(" in form else rf"const {form}: \w+ = ([\w:]+);", source(path))[1]
    return MAXIMA[text] if text in MAXIMA else int(text.replace("_", ""))


def limits():
    table = []
    for what, limit, _ in rows("Limits"):
        if "^" not in limit:
            table += zip(what.split("; "), (int(number.replace(",", "")) for number in limit.split("; ")))
    return compare("Limits", table, [(what, value(*place)) for what, place in LIMITS.items()])


def fields():
    """Compare the fields, each as a pair of an event and of the field's kind and name."""
    owned = re.findall(r'=> (number|text)\(b"(\w+)", Owner::(\w+)\)', source("ft_fields/src/field.rt"))
    expected = [(event, f"{kind} {name}") for event, owners in OWNERS.items() for kind, name, owner in owned if owner in owners]
    table = []
    for event, numbers, texts in rows("Fields"):
        event = re.sub(", which .*", "", event)
        table += [(event, f"number {name}") for name in re.findall(r"`(\w+)`", numbers)]
        table += [(event, f"text {name}") for name in re.findall(r"`(\w+)`", texts)]
    return compare("Fields", table, expected)


def left_out():
    """Check that the words that are left out stand in the rules of faults and in the list."""
    words = {word for path in ("draft", "lists") for word in LEFT_OUT.findall(source(f"ft_head/src/{path}.rt"))} - TAKEN
    names = ["Trigger faults", "Left out"]
    lists = {name: re.findall(r"`\.?([^`]+)`", section(name)) for name in names}
    lists["Left out"] += [f"{word}(" for word in lists["Left out"]]
    wrong = [f"{name} lacks {word}" for name in names for word in sorted(words) if word not in lists[name]]
    return len(words) * len(names), wrong


# ---- what the program answers


def answers(*commands):
    """Return the lines that the program prints for these commands."""
    script = "".join(f"{command}\n" for command in commands).encode()
    ran = subprocess.run([HISTDESK], input=script, stdout=subprocess.PIPE, check=False)
    return ran.stdout.decode().split("\n")[:-1]


def canonical(lines):
    """Return the canonical text that hist has printed, or the last line if it has printed none."""
    texts = [line[len("# trigger info: ") : -len(" [active]")] for line in lines if line.startswith("# trigger info: ")]
    return texts[0] if texts else lines[-1]


def examples(kind):
    """Return the examples of a block, each with its answer: on the same line, or on one of its own, after four spaces."""
    block = re.search(rf"^```{kind}\n(.*?)^```$", REFERENCE, re.DOTALL | re.MULTILINE)[1]
    lines, pairs = block.split("\n")[:-1], []
    for line, after in zip(lines, [*lines[1:], ""]):
        if after.startswith("    "):
            pairs.append((line, after[4:]))
        elif not line.startswith("    "):
            pairs.append(re.fullmatch(r"(.*\S) {2,}(\S.*)", line).groups())
    return pairs


def of_line(line):
    answer = answers(f"insert {line}")[0]
    if answer == "refused 6":
        return "skipped"
    if answer.startswith("refused 3"):
        return answer.replace("refused 3: line 1 ", "")
    return answers(f"insert {line}", f"list {answer.split()[1].split(':')[0]}")[1].partition(" ")[2]


def of_pattern(pattern, answer):
    """Return which of the texts of the answer the pattern matches, in the answer's form."""
    texts = [name for part in answer[len("matches ") :].split("; not ") for name in part.split(", ")]
    line = "insert a-1 [0] 1.000000: sched_waking: comm={} pid=1 prio=1 target_cpu=0"
    kept = answers(*map(line.format, texts), f'attach sched_waking hist:keys=comm if comm ~ "{pattern}"', "hist 1")
    matched = {name[8:58].rstrip() for name in kept if name.startswith("{ comm: ")}
    parts = [", ".join(name for name in texts if (name in matched) == is_in) for is_in in (True, False)]
    return f"matches {'; not '.join(parts)}"


def of_filter(text):
    output = answers("attach sched_waking hist:keys=pid", f"filter 1 if {text.replace('(nothing)', '')}", "hist 1")
    refusal = output[1] if output[1].startswith("refused") else None
    return refusal.replace("refused 9: filter ", "") if refusal else canonical(output).partition(" if ")[2]


def of_trigger(text):
    saver = ["attach sched_waking hist:keys=pid:ts0=common_timestamp.usecs"] if "$ts0" in text else []
    output = answers(*saver, f"attach {text}", f"hist {len(saver) + 1}")
    refusals = [line.replace("refused 8: fault ", "") for line in output if line.startswith("refused")]
    return refusals[0] if refusals else canonical(output)


def of_part(part):
    return of_trigger(f"sched_switch hist:keys=next_pid:lat=common_timestamp.usecs-$ts0:{part}")


def wrong_answers(kind, ask):
    """Return how many examples a block has, and those that are answered otherwise."""
    # What is said of a fault after a colon is for the reader.
    expected = {example: re.sub(r"^((?:fault )?\d+(?: at \d+)?): .*", r"\1", answer) for example, answer in examples(kind)}
    replies = {example: ask(example) for example in expected}
    wrong = [f"{kind}: {of} gives {replies[of]}, not {answer}" for of, answer in expected.items() if replies[of] != answer]
    return len(expected), wrong


def patterns():
    triples = [(pattern, answer, of_pattern(pattern, answer)) for pattern, answer in examples("patterns")]
    return len(triples), [f"patterns: {of} {reply}" for of, answer, reply in triples if reply != answer]


def row_pattern():
    """Check that the pattern for rows reads the parts of a row whose task has a name like the rest of a row."""
    pattern, name = re.search(r"^```row\n(.*)$", REFERENCE, re.MULTILINE)[1], "w } hitcount: 7  prio: 8"
    line = f"insert a-1 [0] 1.000000: sched_waking: comm={name} pid=9 prio=5 target_cpu=0"
    row = next(line for line in answers(line, "attach sched_waking hist:keys=comm,pid:vals=prio", "hist 1") if line[:1] == "{")
    match = re.fullmatch(pattern, f"+ 1 {row}")
    expected = ("+", "1", f"comm: {name:50}, pid:          9", "1", "  prio:          5")
    return 1, [] if match and match.groups() == expected else [f"row: {row} is read as {match and match.groups()}"]


def deepest():
    """Check that a filter may have as many open levels as the table allows, and no more."""
    most = value(*LIMITS["open `(` and `!` in a filter"])
    texts = [text for count in (most, most + 1) for text in ("(" * count + "pid==1" + ")" * count, "!" * count + "pid==1")]
    results = ["7" == of_filter(text) for text in texts]
    return len(texts), [] if results == [False, False, True, True] else [f"levels: {results}"]


def main():
    results = [fault_table(name) for name in FAULTS]
    results += [standard_error(), limits(), fields(), left_out(), patterns(), deepest(), row_pattern()]
    questions = {"lines": of_line, "filters": of_filter, "canonical": of_filter, "triggers": of_trigger, "parts": of_part}
    results += [wrong_answers(kind, ask) for kind, ask in questions.items()]
    count, wrong = sum(count for count, _ in results), [line for _, lines in results for line in lines]
    print("\n".join([*wrong, f"{count - len(wrong)} of {count} things hold"]))
    return 1 if wrong or not all(count for count, _ in results) else 0


if __name__ == "__main__":
    sys.exit(main())
