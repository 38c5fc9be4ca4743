"""The table of commands: those of scripts, and those that only the prompt of desk has.

Help, completion and hints are made from it. `tests/documents/commands.py` compares it with the program, with the list that
`histdesk --help` prints (tools/words), with the man pages and with docs/REFERENCE.md.
"""

from __future__ import annotations

from typing import NamedTuple

from .._schema import ATTACHABLE_EVENTS, MADE_EVENT, WAIT_GROUPS, WAIT_KINDS, field_names

# The one form of the part `onmatch` of a trigger.
ONMATCH_FORM = "onmatch(sched.EVENT).wakeup_latency($OWN,F,G)"


class Form(NamedTuple):
    """A form of a command.

    Attributes
    ----------
    text
        The command with its arguments, such as `filter ID none`.
    summary
        What it does, as lists of commands say it.
    is_typed
        Whether only the prompt has it.
    """

    text: str
    summary: str
    is_typed: bool = False


class Command(NamedTuple):
    """A command.

    Attributes
    ----------
    name
        Its first word.
    forms
        Its forms. Tab completes the argument of the first one.
    details
        What `help NAME` prints after the forms, without the indent.
    answer
        How the output of an accepted command begins; None if it may begin in several ways, or only the prompt has the command.
    is_edit
        Whether it changes what is held or attached.
    """

    name: str
    forms: tuple[Form, ...]
    details: str
    answer: str | None = None
    is_edit: bool = False

    @property
    def in_scripts(self) -> bool:
        """Whether scripts have it too."""
        return not self.forms[0].is_typed

    @property
    def argument(self) -> str:
        """The first argument, such as `ID`; empty if there is none."""
        return self.forms[0].text[len(self.name) :].strip(" ").partition(" ")[0].strip("[]")


def _edit(name: str, answer: str, details: str, *forms: Form) -> Command:
    """Return a command that changes what is held or attached."""
    return Command(name, forms, details, answer, is_edit=True)


def _typed(name: str, arguments: str, summary: str, details: str) -> Command:
    """Return a command that only the prompt has."""
    return Command(name, (Form(f"{name} {arguments}".strip(" "), summary, is_typed=True),), details)


def _fields_by_events() -> str:
    """Return the fields of the events to which triggers attach: two lines for those that have the same."""
    owners: dict[str, list[str]] = {}
    for event in ATTACHABLE_EVENTS:
        owners.setdefault(", ".join(field_names(event)), []).append(event)
    return "\n".join(f"Fields of {', '.join(events)}:\n  {fields}" for fields, events in owners.items())


_ATTACH = f"""\
EVENT is one of {', '.join(ATTACHABLE_EVENTS)}.
TRIGGER is hist: and parts separated by :, and optionally `if` and a filter (help filter):

  keys=FIELD,..           one to three; a number may be followed by .hex, .log2 or .buckets=N
  vals=FIELD,..           what to sum, at most three: numbers, or $NAME of the trigger's own variable
  sort=NAME,..            one or two: hitcount, a key or a value; optionally followed by .descending
  size=N                  how many keys fit: 2048 by default, up to 131072
  NAME=common_timestamp.usecs           saves the timestamp under the key
  NAME=common_timestamp.usecs-$OTHER    reads what another trigger saved: the difference is a latency
  {ONMATCH_FORM}
                          makes an event of each latency, which triggers on {MADE_EVENT} count

{_fields_by_events()}

attach sched_waking hist:keys=comm,pid:sort=hitcount.descending
attach sched_switch hist:keys=prev_state if prev_comm ~ "kworker*"
"""
_FILTER = """\
EXPR is made of FIELD OP VALUE, joined by && and ||, with ! in front and ( ) around.
For numbers, OP is == != < <= > >= or & (a bit in common); for texts, == != or ~ (a pattern with * ? [a-z]).
A number is decimal, or 0x and hexadecimal; a text is in quotes.

filter 1 if next_prio < 100 && next_comm != "swapper/0"
"""
_LOAD = """\
Loads a trace: the Nth one given, or any other file, compressed by gzip or not; a path may begin with ~. The file gets the
next number. If events of the recording were lost, that is reported: a latency that spans such a time may be false.
A trace whose CPUs are already held is refused; `unload C` them first.
"""
_INSERT = """\
Inserts one trace line, as the last line of its CPU; its timestamp decides its place in time.

insert sim-1 [001] 6012.000100: sched_waking: comm=w pid=42 prio=120 target_cpu=000
"""
_LAT = """\
Shows the latencies of a trigger that reads a variable, each with the places of its two events:

0:9 -> 1:4: 204 us
"""
_WAITS = f"""\
Shows how long tasks waited to run, from the event that made them runnable to the switch that ran them, in microseconds,
the longest first. BY is {', '.join(WAIT_GROUPS[:-1])} or {WAIT_GROUPS[-1]} ({', '.join(WAIT_KINDS)}).
Waits that span a time in which events were lost are left out. It needs numpy.
"""
_WHY = """\
Explains the wait that ends at line L of CPU C: who woke the task, and what ran there meanwhile. `waits` shows where the
longest waits end. It needs numpy.
"""

# The commands of scripts that are about events, and those about triggers; and those of the prompt.
ABOUT_EVENTS = (
    _edit("load", "loaded ", _LOAD, Form("load @N", "load the Nth trace"), Form("load PATH", "load any other file", True)),
    _edit(
        "unload",
        "unloaded ",
        "Removes all events of CPU C. Its line numbers start at 1 again.\n",
        Form("unload C", "remove all events of CPU C"),
    ),
    _edit("insert", "inserted ", _INSERT, Form("insert LINE", "insert the event of one trace line")),
    _edit(
        "strike",
        "struck ",
        "Removes line L of CPU C. All tables are then as if it had never been there.\n",
        Form("strike C:L", "remove line L of CPU C"),
    ),
    Command(
        "list",
        (Form("list C", "show the events of CPU C"),),
        "Shows the events of CPU C, each preceded by its place C:L.\n",
    ),
)
ABOUT_TRIGGERS = (
    _edit("attach", "attached ", _ATTACH, Form("attach EVENT TRIGGER", "attach a hist trigger to an event")),
    _edit(
        "filter",
        "refiltered ",
        _FILTER,
        Form("filter ID if EXPR", "change the filter of trigger ID"),
        Form("filter ID none", "remove the filter of trigger ID"),
    ),
    _edit(
        "remove",
        "removed ",
        "Removes a trigger. Refused if another trigger reads its variable.\n",
        Form("remove ID", "remove trigger ID"),
    ),
    Command(
        "hist",
        (Form("hist ID", "show the table of trigger ID"),),
        "Shows the table of a trigger, as the kernel's hist file does. `triggers` lists the ids.\n",
        "# event histogram",
    ),
    Command(
        "totals",
        (Form("totals ID", "show its hits, entries and dropped hits"),),
        "Shows how many hits were counted, how many keys there are, and how many hits were dropped.\n",
        "hits ",
    ),
    Command("lat", (Form("lat ID", "show the latencies that it measures"),), _LAT),
)
OF_PROMPT = (
    _typed(
        "triggers",
        "",
        "list the attached triggers",
        "Shows the attached triggers: id, event, and the text including all defaults.\n",
    ),
    _typed(
        "cpus",
        "",
        "list the CPUs that have events",
        "Shows which CPUs have events, from which timestamp to which, and how often they lost events.\n",
    ),
    _typed("waits", "[BY]", "show how long tasks waited to run", _WAITS),
    _typed("why", "C:L", "explain the wait that ends at line L of CPU C", _WHY),
    _typed("help", "[COMMAND]", "list the commands, or describe one", "Lists all commands, or describes one.\n"),
    _typed("quit", "", "end, as Ctrl-D does", "Ends the desk, as Ctrl-D does. `exit` is the same.\n"),
)
SCRIPT_COMMANDS = {command.name: command for command in (*ABOUT_EVENTS, *ABOUT_TRIGGERS)}
PROMPT_COMMANDS = {command.name: command for command in OF_PROMPT}
COMMANDS = {**SCRIPT_COMMANDS, **PROMPT_COMMANDS}


def forms_of(command: Command, is_typed: bool = False) -> str:
    """Return the forms of a command in one line. For a command of scripts, the forms that only the prompt has are included
    only if `is_typed`."""
    forms = [form.text for form in command.forms if is_typed or not form.is_typed or not command.in_scripts]
    return ", or ".join(forms)


def list_of(commands: tuple[Command, ...], is_typed: bool = False) -> str:
    """Return a list of commands, a line for each form. The forms that only the prompt has are included only if `is_typed`."""
    forms = [form for command in commands for form in command.forms if is_typed or not form.is_typed]
    return "".join(f"  {form.text:<20}  {form.summary}\n" for form in forms)
