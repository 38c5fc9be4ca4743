#!/usr/bin/env python3
"""Runs the examples of man pages.

    man_examples.py FOLDER PAGE..

An example shows a script by `$ cat NAME`, and then what `$ PROGRAM NAME TRACE` prints, with a trace of FOLDER; or it is a
session of commands of the tools beside the traces of FOLDER, and what each of them prints. Programs are found on the PATH.
A session isn't tried if the tools have no numpy. The last line says how many of them print exactly what the page shows.
"""

import os
import re
import shutil
import subprocess
import sys
import tempfile

LITERAL = re.compile(r"^\.Bd -literal[^\n]*\n(.*?)^\.Ed$", re.MULTILINE | re.DOTALL)
EXAMPLE = re.compile(r"^\$ cat (\S+)\n(.*?)^\$ (\w+) \1 (\S+)\n(.*?)(?=^\$ |\Z)", re.MULTILINE | re.DOTALL)
# A command of a session, and what it prints; those of other blocks need a machine's own recordings.
COMMAND = re.compile(r"^\$ ((?:histdesk-|printf ).*)\n((?:(?!\$ ).*\n)*)", re.MULTILINE)


def literals(page):
    with open(page, encoding="utf-8") as file:
        return [text.replace(r"\en", r"\n") for text in LITERAL.findall(file.read())]


def examples(page):
    """Return the name, the script, the program, the trace and the output of each example."""
    return [example for text in literals(page) for example in EXAMPLE.findall(text)]


def sessions(page):
    """Yield the commands of each block that has no others, with their outputs."""
    for text in literals(page):
        commands = COMMAND.findall(text)
        if commands and text == "".join(f"$ {command}\n{output}" for command, output in commands):
            yield commands


def printed(folder, name, script, program, trace):
    with tempfile.TemporaryDirectory() as work:
        path = os.path.join(work, name)
        with open(path, "w", encoding="utf-8") as file:
            file.write(script)
        words = [program, path, os.path.join(folder, trace)]
        return subprocess.run(words, stdout=subprocess.PIPE, stderr=subprocess.STDOUT, text=True).stdout


def session_prints(folder, commands):
    """Yield what the commands print, one after the other."""
    with tempfile.TemporaryDirectory() as work:
        for name in os.listdir(folder):
            os.symlink(os.path.join(os.path.abspath(folder), name), os.path.join(work, name))
        for command, _ in commands:
            words = ["bash", "-c", command]
            yield subprocess.run(words, cwd=work, stdout=subprocess.PIPE, stderr=subprocess.STDOUT, text=True).stdout


def has_numpy(python):
    words = [python, "-c", "import numpy"]
    return bool(shutil.which(python)) and subprocess.run(words, stderr=subprocess.DEVNULL, check=False).returncode == 0


def main(folder, *pages):
    count, good = 0, 0
    for page in pages if any(map(has_numpy, ("python3", "/usr/bin/python3"))) else ():
        for commands in sessions(page):
            for (command, expected), output in zip(commands, session_prints(folder, commands)):
                count += 1
                good += output == expected
                if output != expected:
                    print(f"{os.path.basename(page)}: {command}: {output}")
    for page in pages:
        for name, script, program, trace, expected in examples(page):
            count += 1
            output = printed(folder, name, script, program, trace)
            if output == expected:
                good += 1
            else:
                print(f"{os.path.basename(page)}: {name}: {output}")
    print(f"{good} of {count} examples hold")
    return 0 if count and good == count else 1


sys.exit(main(*sys.argv[1:]))
