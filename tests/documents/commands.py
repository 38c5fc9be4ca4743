#!/usr/bin/env python3
"""Compares the table of commands, python/histdesk/script/commands.py, with the program and with all other lists of commands.

    commands.py HISTDESK > WHAT WENT WRONG

The program accepts each form of a script's command, and prints what the table says; it refuses the commands of the prompt.
`--help` of the launchers (tools/words), the table of histdesk(1), the sections of histdesk(7) and the tables of
docs/REFERENCE.md have the same forms, in the same words if they describe them. histdesk-tools(1) names the commands of the
prompt. `help` describes each command within the width of a document. The last line says how many things hold.
"""

import os
import re
import subprocess
import sys
from pathlib import Path
from typing import Iterator, List, Tuple

# Nothing is written beside the sources.
sys.dont_write_bytecode = True

from pages import ROOT, text_of

sys.path.insert(0, os.path.join(ROOT, "python"))
from histdesk.cli.completion import Names, completions
from histdesk.cli.prompt_help import help_of
from histdesk.script.commands import ABOUT_EVENTS, ABOUT_TRIGGERS, COMMANDS, PROMPT_COMMANDS, SCRIPT_COMMANDS, list_of

# What is said if a thing doesn't hold, and whether it holds.
Thing = Tuple[str, bool]
# What stands for the arguments of forms, if a trace is held whose CPU 0 has a line 1, and two triggers are attached.
ARGUMENTS = {
    "N": "1",
    "C": "0",
    "L": "1",
    "LINE": "a-1 [000] 1.000000: sched_waking: comm=b pid=2 prio=1 target_cpu=000",
    "EVENT": "sched_switch",
    "TRIGGER": "hist:keys=next_pid:lat=common_timestamp.usecs-$ts0",
    "ID": "2",
    "EXPR": "next_pid > 0",
}
SAVER = "attach sched_waking hist:keys=pid:ts0=common_timestamp.usecs"
# The order in which a script can have each command once.
ORDER = ["load", "unload", "insert", "list", "strike", "attach", "filter", "hist", "totals", "lat", "remove"]
# The widest line of help, on a terminal of a usual width or a wide one.
WIDEST = 128


def script_forms() -> List[str]:
    """Return the forms that scripts have."""
    return [form.text for command in SCRIPT_COMMANDS.values() for form in command.forms if not form.is_typed]


# ---- the program


def filled(form: str) -> str:
    """Return a form with arguments in it."""
    return re.sub(r"\b[A-Z]+\b", lambda word: ARGUMENTS[word[0]], form)


def output_of(program: str, lines: List[str]) -> List[str]:
    """Return what the program prints for a script, over a trace that has CPU 0."""
    script = "".join(f"{line}\n" for line in lines)
    words = [program, "-", os.path.join(ROOT, "examples", "wakeups.trace")]
    return subprocess.run(words, input=script, stdout=subprocess.PIPE, text=True, check=False).stdout.splitlines()


def of_program(program: str) -> Iterator[Thing]:
    """The program and the table have the same commands."""
    yield f"the table has {list(SCRIPT_COMMANDS)}", sorted(ORDER) == sorted(SCRIPT_COMMANDS)
    lines = [filled(form.text) for name in ORDER for form in COMMANDS[name].forms if not form.is_typed]
    output = output_of(program, [SAVER, *lines])
    yield f"the program refuses one of {lines}: {output}", not any(line.startswith("refused") for line in output)
    for command in SCRIPT_COMMANDS.values():
        if command.answer:
            there = any(line.startswith(command.answer) for line in output)
            yield f"the program prints no line {command.answer}..", there
    for name in PROMPT_COMMANDS:
        yield f"the program knows {name}", output_of(program, [name]) == ["refused 16"]


# ---- the lists


def plain(text: str) -> str:
    """Return a line of mdoc without its macros."""
    words = re.findall(r'"[^"]*"|\S+', re.sub(r"\\&", "", text))
    kept = " ".join(word.strip('"') for word in words if word not in ("Li", "Ar", "No", "Sy", "Ic"))
    # A colon follows the word before it without a space.
    return kept.replace(" Ns ", "").replace(" :", ":")


def of_launchers() -> Iterator[Thing]:
    """The launchers list the commands of scripts as `help` does."""
    wanted = f"{list_of(ABOUT_EVENTS)}\n{list_of(ABOUT_TRIGGERS)}"
    yield f"tools/words doesn't have\n{wanted}", f"\n\n{wanted}\n" in text_of("tools/words")


def of_first_page() -> Iterator[Thing]:
    """histdesk(1) has a row for each form: the form, what is printed, and what it does."""
    table = re.search(r'^\.Bl -column "attach EVENT.*?^\.El$', text_of("man/histdesk.1"), re.MULTILINE | re.DOTALL)
    lines = table[0].split("\n")[2:-1] if table else []
    rows = [[plain(cell) for cell in re.split(r"\bTa\b", line.removeprefix(".It "))] for line in lines]
    rows = [[cell.strip() for cell in row] for row in rows]
    forms = {form.text: (command, form) for command in SCRIPT_COMMANDS.values() for form in command.forms if not form.is_typed}
    yield f"histdesk.1 has other forms: {[row[0] for row in rows]}", [row[0] for row in rows] == list(forms)
    for text, answer, summary in rows:
        command, form = forms.get(text, (None, None))
        yield f"histdesk.1 says of {text}: {summary}", form is not None and summary == form.summary
        if command and command.is_edit:
            yield f"histdesk.1 says that {text} prints {answer}", answer.startswith(str(command.answer))


def of_seventh_page() -> Iterator[Thing]:
    """histdesk(7) has a paragraph for each form."""
    section = re.search(r"^\.Sh SCRIPTS\n(.*?)^\.Sh ", text_of("man/histdesk.7"), re.MULTILINE | re.DOTALL)
    forms = [plain(line) for line in re.findall(r"^\.It (.*)$", section[1] if section else "", re.MULTILINE)]
    wanted = sorted(form.casefold() for form in script_forms())
    yield f"histdesk.7 has other forms: {forms}", sorted(form.replace("@ ", "@").casefold() for form in forms) == wanted


def of_tools_page() -> Iterator[Thing]:
    """histdesk-tools(1) names the commands that only the prompt has, and the form that only it has."""
    section = re.search(r"^\.It Nm histdesk-desk\n(.*?)^\.It ", text_of("man/histdesk-tools.1"), re.MULTILINE | re.DOTALL)
    names = [plain(line).split()[0] for line in re.findall(r"^\.Ic (.*?)(?: ,)?$", section[1] if section else "", re.MULTILINE)]
    yield f"histdesk-tools.1 names {names}", names == ["load", *PROMPT_COMMANDS]


def of_reference() -> Iterator[Thing]:
    """docs/REFERENCE.md has a row for each form, with what an edit prints."""
    section = re.search(r"^### Commands\n(.*?)^### ", text_of("docs/REFERENCE.md"), re.MULTILINE | re.DOTALL)
    rows = re.findall(r"^\| `([^`]+)`[^|]*\|(.*)$", section[1] if section else "", re.MULTILINE)
    yield f"REFERENCE.md has other forms: {[form for form, _ in rows]}", sorted(form for form, _ in rows) == sorted(
        script_forms()
    )
    for form, rest in rows:
        command = COMMANDS.get(form.split()[0])
        if command and command.is_edit:
            yield f"REFERENCE.md says that {form} prints{rest}", f"`{command.answer}" in rest


# ---- the prompt


def of_help() -> Iterator[Thing]:
    """`help` names each command, and describes it; Tab completes it."""
    overview, names = help_of(""), Names(1, {1: ("sched_waking", "hist:keys=pid")}, [0])
    for command in COMMANDS.values():
        for form in command.forms:
            yield f"help lacks {form.text}", f"  {form.text}  " in overview and form.summary in overview
        description = help_of(command.name)
        yield f"help {command.name} is {description}", description.startswith(command.forms[0].text) and "\n\n  " in description
        widths = [len(line) for line in description.splitlines()]
        yield f"help {command.name} has {max(widths)} columns", max(widths) <= WIDEST
        yield f"Tab doesn't complete {command.name}", f"{command.name} " in completions("", command.name[:-1], names)
        if command.argument in ("ID", "C", "C:L", "BY", "COMMAND"):
            yield f"Tab completes nothing after {command.name}", completions(f"{command.name} ", "", names) != []


def main() -> int:
    """Print what went wrong, and return the exit status."""
    things = [*of_program(str(Path(sys.argv[1]).resolve())), *of_launchers(), *of_first_page(), *of_seventh_page()]
    things += [*of_tools_page(), *of_reference(), *of_help()]
    wrong = [message for message, holds in things if not holds]
    print("\n".join([*wrong, f"{len(things) - len(wrong)} of {len(things)} things hold"]))
    return 1 if wrong else 0


if __name__ == "__main__":
    sys.exit(main())
