"""What `help` prints at the prompt of desk; the texts are those of the table of commands."""

from __future__ import annotations

import textwrap

from ..script.commands import ABOUT_EVENTS, ABOUT_TRIGGERS, COMMANDS, OF_PROMPT, Command, list_of
from ..script.words import near

EXAMPLE = """\
Measuring how long tasks wait from waking to running takes two triggers:

  attach sched_waking hist:keys=pid:ts0=common_timestamp.usecs
  attach sched_switch hist:keys=next_pid:vals=$lat:lat=common_timestamp.usecs-$ts0:sort=$lat.descending
  hist 2
"""


def overview() -> str:
    """Return what `help` prints: all commands, and an example."""
    groups = [list_of(group, is_typed=True) for group in (ABOUT_EVENTS, ABOUT_TRIGGERS, OF_PROMPT)]
    events, triggers, prompt = groups
    more = "`help COMMAND` describes a command; `help attach` lists events, fields and modifiers."
    return f"The commands of scripts:\n\n{events}\n{triggers}\nAnd in addition:\n\n{prompt}\n{more}\n\n{EXAMPLE}"


def description(command: Command) -> str:
    """Return what `help COMMAND` prints: the forms, and what the command does."""
    forms = "".join(f"{form.text}\n" for form in command.forms)
    return f"{forms}\n{textwrap.indent(command.details, '  ')}"


def help_of(name: str) -> str:
    """Return what `help` prints of a command, or of all if the name is empty."""
    if not name:
        return overview()
    if name in COMMANDS:
        return description(COMMANDS[name])
    return f"no command is called {name}{near(name, COMMANDS)}; help lists them all\n"
