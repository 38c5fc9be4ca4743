#!/usr/bin/env python3
"""Refuses growths of a desk's memory in the middle of a script, and checks what it answers then, and when it is asked again.

    asked_again.py ASKAGAIN LIBRARY ROW...

ASKAGAIN is the program of that crate, LIBRARY is built from refuse_growth.c, and ROW is a folder with `script`,
`trace1`.. and `expected`. Of the growths in the calls that the script's commands make, the Nth is refused, and then in
other runs each from the Nth on; N goes from 1 to the first that no run reaches. A call that runs out of memory is
made once more at once, with memory. These things must hold for each run:

- a call answers what the row says, or runs out of memory and then, made again, answers what the row says;
- `strike`, `unload` and `remove` never run out of memory;
- after an accepted edit the desk is deferred exactly if the edit answered `Later`, which it never does on a desk that
  isn't deferred: a `strike` if no attached trigger has a variable, a `remove` of a trigger that reads none;
- the rows that an accepted insert or strike names are those that it names with memory, or there is no report, as on a
  deferred desk;
- an insert or a strike that a refused growth defers has a growth before that, of what is gathered for its report, which
  costs it only the report: it answers `Now`;
- what is refused, or runs out of memory, leaves the desk deferred or not as it was; but if tables are asked for and
  the text of the answer runs out of memory, the desk may no longer be deferred;
- after a table, totals or latencies that were answered the desk isn't deferred, and a `list` leaves it as it was.

Only the number of a refusal is compared. A row fails if no edit of it ever answered `Later`. There is a line for each
row, and a last one with the counts.
"""

import concurrent.futures
import itertools
import os
import re
import subprocess
import sys
import tempfile

EDITS = {"load", "unload", "insert", "strike", "attach", "filter", "remove"}
TABLES = {"hist", "lat", "totals"}
NEVER_OUT_OF_MEMORY = {"unload", "strike", "remove"}
MEMORY = b"memory\n"
NO_REPORT = b"no report"
# A run that takes more seconds than this is ended, and its row fails.
LIMIT = 120


class Wrong(Exception):
    """What is wrong with a row."""


class Answer:
    def __init__(self, found):
        self.text, self.report, self.kept = found[1], found[2], found[3].decode()
        self.is_deferred = found[4] == b"deferred"
        self.is_refused = self.text.startswith(b"refused ")

    def __eq__(self, other):
        return vars(self) == vars(other)


class Desk:
    """What must be known of a desk to judge its next answer."""

    def __init__(self):
        self.is_deferred = False
        # The text of each attached trigger, by its id.
        self.triggers = {}

    def must_be_now(self, command):
        word, *others = command.split()
        if self.is_deferred or word not in ["strike", "remove"]:
            return False
        asked = self.triggers.values() if word == "strike" else [self.triggers[int(others[0])]]
        sign = "=common_timestamp.usecs" if word == "strike" else "=common_timestamp.usecs-$"
        return not any(sign in text for text in asked)

    def hold(self, command, want, answer, again):
        """Check an answer to a command, which with memory is `want`."""
        word = command.split()[0]
        is_memory = answer.text == MEMORY
        demand(answer.text == want.text or is_memory and not again, "another answer")
        demand(not (is_memory and word in NEVER_OUT_OF_MEMORY), "out of memory")
        is_accepted = word in EDITS and not answer.is_refused and not is_memory
        demand((answer.kept != "none") == is_accepted, "no word of the kept tables, or one too many")
        if is_accepted:
            demand(answer.is_deferred == (answer.kept == "later"), "later, or deferred, and not both")
            demand(answer.kept == "now" or not self.must_be_now(command), "later without need")
            demand(answer.report == NO_REPORT or answer.report == want.report, "another report")
            demand(answer.report in [None, NO_REPORT] or not answer.is_deferred, "a report, and deferred")
            self.follow(command, answer)
        elif word in TABLES and not answer.is_refused and not is_memory:
            demand(not answer.is_deferred, "deferred after an answer")
        elif word in ["hist", "lat"] and is_memory:
            demand(self.is_deferred or not answer.is_deferred, "deferred by an answer")
        else:
            demand(answer.is_deferred == self.is_deferred, "deferred otherwise than before")
        self.is_deferred = answer.is_deferred

    def follow(self, command, answer):
        """Attach or remove the trigger that an accepted edit attaches or removes."""
        word, *others = command.split(maxsplit=2)
        if word == "attach":
            self.triggers[int(answer.text.split()[1])] = others[1]
        elif word == "remove":
            del self.triggers[int(others[0])]


class CameTo:
    """The commands by which a run deferred the desk, and those that it left without a report, and not deferred."""

    def __init__(self):
        self.deferred, self.unreported = set(), set()


def demand(holds, otherwise):
    if not holds:
        raise Wrong(otherwise)


class Row:
    def __init__(self, program, library, path, folder):
        self.program, self.library, self.path, self.folder = os.path.abspath(program), os.path.abspath(library), path, folder
        lines = self.bytes_of("script").decode().split("\n")
        self.commands = [line for line in lines if line.strip(" ") and line[0] != "#"]
        traces = (os.path.join(path, f"trace{number}") for number in itertools.count(1))
        self.files = [os.path.join(path, "script"), *itertools.takewhile(os.path.exists, traces)]

    def bytes_of(self, name):
        with open(os.path.join(self.path, name), "rb") as file:
            return file.read()

    def run(self, **more):
        """Return the answers of a run, and how many growths its calls made."""
        path = os.path.join(self.folder, "count")
        env = {**os.environ, "LD_PRELOAD": self.library, "REFUSE_SWITCH": "1", "REFUSE_COUNT": path, **more}
        command = [self.program, *self.files]
        ran = subprocess.run(command, env=env, stdin=subprocess.DEVNULL, capture_output=True, timeout=LIMIT)
        # The switch is turned twice for each command, unless the driver itself has met a fault.
        demand(ran.returncode == 0 and ran.stderr == b".." * len(self.commands), f"status {ran.returncode}, {ran.stderr}")
        form = rb"(.*?)^(?:-- (rows[^\n]*|no report)\n)?-- (now|later|none) (deferred|kept)\n"
        answers = [Answer(found) for found in re.finditer(form, ran.stdout, re.MULTILINE | re.DOTALL)]
        with open(path) as file:
            return answers, int(file.read())

    def hold(self, wanted, answers):
        """Check the answers of a run, which with memory are `wanted`, and return what the run came to."""
        desk, left, came = Desk(), iter(answers), CameTo()
        for number, (command, want) in enumerate(zip(self.commands, wanted)):
            for again in [False, True]:
                answer, was_deferred = next(left, None), desk.is_deferred
                try:
                    demand(answer is not None, "no answer")
                    desk.hold(command, want, answer, again)
                except Wrong as wrong:
                    raise Wrong(f"{command}: {wrong}") from wrong
                if answer.kept == "later" and not was_deferred:
                    came.deferred.add(number)
                if answer.kept == "now" and answer.report == NO_REPORT:
                    came.unreported.add(number)
                if answer.text != MEMORY:
                    break
        demand(next(left, None) is None, "more answers than commands")
        return came

    def series(self, mode, plain):
        """Return how many growths were refused, or those from each on, and in how many runs an edit answered `Later`; and,
        for each command that a refused growth deferred, and for each that it only left without a report, the first such
        growth."""
        later, deferred, unreported = 0, {}, {}
        for number in itertools.count(1):
            try:
                answers, made = self.run(**{mode: str(number)})
                came = self.hold(plain, answers)
                demand(made >= number or answers == plain, "another answer, with nothing refused")
            except Wrong as wrong:
                raise Wrong(f"{mode}={number}: {wrong}") from wrong
            if made < number:
                return number - 1, later, deferred, unreported
            later += any(answer.kept == "later" for answer in answers)
            for command in came.deferred:
                deferred.setdefault(command, number)
            for command in came.unreported:
                unreported.setdefault(command, number)

    def check(self):
        """Check the row, and return what was run."""
        plain, _ = self.run()
        demand(len(plain) == len(self.commands), "as many answers as commands")
        expected = re.sub(rb"^(refused \d+).*$", rb"\1", self.bytes_of("expected"), flags=re.MULTILINE)
        demand(b"".join(answer.text for answer in plain) == expected, "nothing refused, and another output")
        self.hold(plain, plain)
        demand(not any(answer.report == NO_REPORT for answer in plain), "nothing refused, and no report")
        demand(not any(answer.is_deferred for answer in plain), "nothing refused, and deferred")
        alone, alone_later, deferred, unreported = self.series("REFUSE_AT", plain)
        onward, onward_later, _, _ = self.series("REFUSE_FROM", plain)
        demand(alone_later + onward_later > 0, "no edit answered Later")
        reported = [command for command in deferred if plain[command].report is not None]
        for command in reported:
            demand(
                command in unreported and unreported[command] < deferred[command],
                f"{self.commands[command]}: deferred, and no growth before that cost it the report alone",
            )
        return (
            f"{alone} growths alone, {alone_later} runs with Later; from each of {onward} on, {onward_later} with Later; "
            f"{len(reported)} edits whose report went first"
        )


def check(program, library, path):
    """Return whether a row holds, and what was run or is wrong."""
    with tempfile.TemporaryDirectory() as folder:
        try:
            return True, Row(program, library, path, folder).check()
        except (Wrong, OSError, ValueError, KeyError, subprocess.TimeoutExpired) as wrong:
            return False, f"{type(wrong).__name__}: {wrong}"


def main():
    program, library, *paths = sys.argv[1:]
    with concurrent.futures.ThreadPoolExecutor(len(os.sched_getaffinity(0))) as pool:
        results = list(pool.map(lambda path: check(program, library, path), paths))
    for path, (_, told) in zip(paths, results):
        print(f"asked again, {os.path.basename(path)}: {told}")
    good = sum(holds for holds, _ in results)
    print(f"{good} of {len(paths)} rows hold")
    sys.exit(good < len(paths))


main()
