#!/usr/bin/env python3
"""Checks that documents show what their commands print.

    sessions.py [--bare] HISTDESK HISTWATCH [PAGE]..

The pages are all that pages.py knows; the script of a page of READ reads its other blocks. These are the kinds of blocks:

- `console` is a session: `$ ` begins a command, `> ` goes on with one, and its output follows, where a line `...` stands for
  lines that are left out. Lines after `desk> ` are typed on a terminal. Bash runs each command, in a folder with links to the
  programs, the tools, the examples and the package, where `my.trace` is examples/recipes.trace; it ends with status 0, or
  prints what was refused.
- `pycon` is a session of Python; those of a page are one session.
- `python` is a program, which ends well and prints the block of no kind that stands right after it, or nothing.
- `c` is compiled, with warnings as faults.
- `sh` has commands that need root, the reader's own files or much time: they are not run, and no output stands after them.
  Bash has to be able to read them.
- A block of no kind is a form or a picture, and `rust` and `rattle` are code of this repository, which is not run here.

With --bare, the first python3 on the PATH has no packages, as that of pyenv, conda or a new environment: the tools have to
find the system's. Only the commands of sessions are run then, and of `sh` blocks those of tools and programs that need
neither root nor files of the reader's own; each of these ends well, and tools/view prints an address.

A block after a line `<!-- not run: WHY -->` is not run. What needs the library or numpy isn't tried if these are missing.
The last lines say how many blocks were not run, and how many commands and blocks hold.
"""

import fcntl
import functools
import os
import pty
import re
import select
import shlex
import struct
import subprocess
import sys
import tempfile
import termios
import threading
from collections import Counter

# Nothing is written beside the sources.
sys.dont_write_bytecode = True

from pages import PAGES, ROOT, is_there, text_of

# Kinds of blocks that are not run here, and pages whose own script reads their other blocks, whatever these are.
CODE, READ = ["rust", "rattle"], ["docs/REFERENCE.md"]
PROMPT = "desk> "
# The Python that the tools find if the first one on the PATH has no packages.
SYSTEM = "/usr/bin/python3"
# A command of an `sh` block that --bare runs: of a tool or a program, with traces that are there.
TOOL = re.compile(r"^((?:tools/|\./hist)[\w-]+(?: (?:my\.trace|examples/[\w.-]+|--?\w+|\w+))+)(?: +#.*)?$", re.MULTILINE)
# The one that doesn't end, and what it prints first.
SERVER, ADDRESS = "tools/view ", "http://127.0.0.1:"
# Runs its argument as a session of Python.
DOCTEST = """
import doctest, sys
test = doctest.DocTestParser().get_doctest(sys.argv[1], {}, "the page", None, 0)
sys.exit(not test.examples or doctest.DocTestRunner().run(test).failed)
"""
COMPILE = ["cc", "-std=c11", "-Wall", "-Wextra", "-Werror", "-Iinclude", "-fsyntax-only", "-xc", "-"]
# A command that takes more seconds than this fails.
LIMIT = 120

# ---- the document

BLOCK = re.compile(r"(?:^<!-- not run: (.+) -->\n)?^```(\w*)\n(.*?)^```$", re.MULTILINE | re.DOTALL)
STEP = re.compile(r"^\$ (.*\n(?:> .*\n)*)((?:(?!\$ ).*\n)*)", re.MULTILINE)


def steps(block):
    """Return the commands of a session, with what they print."""
    return [(command.replace("\n> ", "\n"), output) for command, output in STEP.findall(block)]


def shows(expected, output):
    """Return whether the output is what the document shows: pieces of whole lines, in order, `...` for what is left out."""
    pieces = re.split(r"^\.\.\.\n", expected, flags=re.MULTILINE)
    form = r"(?:.*\n)*?".join(map(re.escape, pieces))
    return re.fullmatch(form, output) is not None


def blocks(text):
    """Yield each block of a document: the line on which it begins, why it isn't run, its kind, its text, and whether it stands
    right after the one before it, with at most one line of words between them."""
    end = 0
    for match in BLOCK.finditer(text):
        between = [line for line in text[end : match.start()].split("\n") if line.strip()]
        yield text.count("\n", 0, match.start()) + 1, match[1], match[2], match[3], end > 0 and len(between) < 2
        end = match.end()


# ---- what it prints


class Place:
    """A folder in which the commands are run, as in the top folder of the repository."""

    def __init__(self, folder, histdesk, histwatch, is_bare=False):
        self.folder, self.is_bare = folder, is_bare
        for name in ("tools", "examples", "python", "include", "docs"):
            os.symlink(os.path.join(ROOT, name), os.path.join(folder, name))
        os.symlink("examples/recipes.trace", os.path.join(folder, "my.trace"))
        os.symlink(histdesk, os.path.join(folder, "histdesk"))
        os.symlink(histwatch, os.path.join(folder, "histwatch"))
        programs = os.path.join(folder, "bin")
        if is_bare:
            subprocess.run([sys.executable, "-m", "venv", "--without-pip", folder], check=True)
        else:
            # The tools are run by the Python that runs this.
            os.mkdir(programs)
            os.symlink(sys.executable, os.path.join(programs, "python3"))
        state = {"XDG_STATE_HOME": folder, "PAGER": "cat", "TERM": "dumb", "PYTHONDONTWRITEBYTECODE": "1"}
        path = {"PATH": f"{programs}:{os.environ['PATH']}", "PYTHONPATH": "" if is_bare else "python"}
        self.environment = {**os.environ, **path, "HISTDESK": histdesk, **state}

    def printed(self, *words, text=""):
        """Return what a command prints, and its status."""
        streams = {"input": text.encode(), "stdout": subprocess.PIPE, "stderr": subprocess.STDOUT}
        done = subprocess.run(words, cwd=self.folder, env=self.environment, timeout=LIMIT, check=False, **streams)
        return done.stdout.decode(), done.returncode

    def first_line(self, command):
        """Return the first line that a command prints, which is ended then."""
        words = shlex.split(command)
        streams = {"stdout": subprocess.PIPE, "stderr": subprocess.STDOUT, "stdin": subprocess.DEVNULL}
        with subprocess.Popen(words, cwd=self.folder, env=self.environment, **streams) as process:
            timer = threading.Timer(LIMIT, process.kill)
            timer.start()
            line = process.stdout.readline().decode()
            timer.cancel()
            process.terminate()
        return line

    def typed(self, command, lines):
        """Return what a terminal shows of a prompt at which lines are typed, and the status after Ctrl-D."""
        master, slave = pty.openpty()
        fcntl.ioctl(slave, termios.TIOCSWINSZ, struct.pack("4H", 1000, 9000, 0, 0))
        words = ["setsid", "-c", *shlex.split(command)]
        process = subprocess.Popen(words, cwd=self.folder, env=self.environment, stdin=slave, stdout=slave, stderr=slave)
        os.close(slave)
        screen = up_to_prompt(master)
        for line in lines:
            os.write(master, f"{line}\n".encode())
            screen += up_to_prompt(master)
        os.write(master, b"\x04")
        status = process.wait(LIMIT)
        os.close(master)
        return screen.replace("\r\n", "\n").removesuffix(PROMPT), status


def up_to_prompt(terminal):
    """Return what a terminal shows up to the next prompt, or to its end."""
    text = b""
    while not text.endswith(PROMPT.encode()) and select.select([terminal], [], [], LIMIT)[0]:
        try:
            text += os.read(terminal, 65536)
        except OSError:
            break
    return text.decode()


@functools.lru_cache(maxsize=None)
def is_here(code, python=sys.executable):
    """Return whether a Python runs these lines."""
    words = [python, "-B", "-c", code]
    return not subprocess.run(words, cwd=ROOT, env={**os.environ, "PYTHONPATH": "python"}, stderr=subprocess.DEVNULL).returncode


def lacking(kind, text, is_bare=False):
    """Return what a command needs that isn't here; None if it can be tried."""
    python = SYSTEM if is_bare else sys.executable
    reports = kind in ("pycon", "python") or re.search(r"\btools/(summary|waits|why|diff|view|export|desk)\b", text)
    if (reports or "tools/explain" in text) and not is_here("import histdesk", python):
        return "the library"
    return "numpy" if reports and not is_here("import numpy", python) else None


class Count:
    """How many things were checked, and the messages of those that don't hold."""

    def __init__(self):
        self.things, self.wrong, self.missing, self.left = 0, [], Counter(), Counter()

    def hold(self, good, message):
        self.things += 1
        if not good:
            self.wrong.append(message)

    def can_try(self, kind, text, is_bare=False):
        missing = lacking(kind, text, is_bare)
        if missing:
            self.missing[missing] += 1
        return not missing


def try_command(place, title, command, expected, count):
    """Check that a command of a session prints what it should, and return what it prints."""
    lines = [line[len(PROMPT) :] for line in expected.splitlines() if line.startswith(PROMPT)]
    output, status = place.typed(command, lines) if lines else place.printed("bash", "-c", command)
    good = shows(expected, output) and (status == 0 or "refused" in output)
    count.hold(good, f"{title}: {command}ends with {status} and prints\n{output}")
    return output


def try_run(place, title, expected, count, words, text=""):
    """Check that a command ends well and prints exactly what is expected."""
    output, status = place.printed(*words, text=text)
    count.hold(status == 0 and shows(expected, output), f"{title}: ends with {status} and prints\n{output}")


def try_bare(place, page, count):
    """Run the commands of a page's sessions, and those of other blocks that can be run here."""
    for line, why, kind, text, _ in blocks(text_of(page)):
        commands = [] if why else steps(text) if kind == "console" else TOOL.findall(text) if kind == "sh" else []
        for command in commands:
            title, shown = f"{page}:{line}", "".join(command)
            if not count.can_try(kind, shown, True):
                continue
            if kind == "console":
                try_command(place, title, *command, count)
            elif command.startswith(SERVER):
                said = place.first_line(command)
                count.hold(said.startswith(ADDRESS), f"{title}: {command}: {said}")
            else:
                output, status = place.printed("bash", "-c", command)
                count.hold(status == 0 and output, f"{title}: {command}: ends with {status} and prints\n{output}")


def try_page(place, page, count):
    """Run the blocks of a page."""
    session, parts = "", list(blocks(text_of(page)))
    for at, (line, why, kind, text, is_next) in enumerate(parts):
        title, before = f"{page}:{line}", parts[at - 1] if at and is_next else (0, None, None, "", False)
        if why:
            count.left[why] += 1
        elif kind == "console":
            for command, expected in steps(text):
                if count.can_try(kind, command):
                    try_command(place, title, command, expected, count)
        elif kind == "pycon":
            session += text + "\n"
        elif kind == "python":
            follows = parts[at + 1 : at + 2]
            expected = follows[0][3] if follows and follows[0][2] == "" and follows[0][4] else ""
            if count.can_try(kind, text):
                try_run(place, title, expected, count, [sys.executable, "-B", "-c", text])
        elif kind == "c":
            try_run(place, title, "", count, COMPILE, text)
        elif kind == "sh":
            count.left["sh"] += 1
            try_run(place, title, "", count, ["bash", "-n", "-c", text])
        elif kind == "":
            message = f"{title}: stands after commands that are not run, and looks like their output"
            count.hold(before[2] != "sh" or before[1] is not None, message)
        else:
            count.left[kind] += 1
            count.hold(kind in CODE or page in READ, f"{title}: a block of the kind {kind}")
    if session and count.can_try("pycon", session):
        try_run(place, page, "", count, [sys.executable, "-B", "-c", DOCTEST, session])


def main():
    is_bare = sys.argv[1] == "--bare"
    histdesk, histwatch, *pages = sys.argv[1 + is_bare :]
    count, try_one = Count(), try_bare if is_bare else try_page
    with tempfile.TemporaryDirectory() as folder:
        place = Place(folder, os.path.realpath(histdesk), os.path.realpath(histwatch), is_bare)
        for page in pages or [page for page in PAGES if is_there(page)]:
            try_one(place, page, count)
    for why, number in count.left.items():
        print(f"not run: {number} blocks: {why}")
    for missing, number in count.missing.items():
        print(f"not tried: {number} commands and blocks, since {missing} is missing")
    print("\n".join([*count.wrong, f"{count.things - len(count.wrong)} of {count.things} blocks hold"]))
    return 1 if count.wrong else 0


if __name__ == "__main__":
    sys.exit(main())
