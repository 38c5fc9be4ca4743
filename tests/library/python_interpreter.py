#!/usr/bin/env python3
"""Tests which Python runs a tool, with scripts that stand in for other Pythons: each prints how it was called.

    python_interpreter.py [TEST]...

The library is found as the package finds it.
"""

import os
import subprocess
import sys
import tempfile
import unittest

# Nothing is written beside the sources.
sys.dont_write_bytecode = True

HERE = os.path.dirname(os.path.realpath(__file__))
ROOT = os.path.realpath(os.path.join(HERE, "..", ".."))
TRACE = os.path.join(ROOT, "examples", "wakeups.trace")

from python_runner import main

# A launcher like those in tools/, by which other Pythons are looked for elsewhere.
LAUNCHER = """
import sys
sys.path[0] = {package!r}
from histdesk.cli import interpreter
interpreter.SYSTEM = {system!r}
interpreter.OLDEST = {oldest!r}
sys.exit(interpreter.launch("waits"))
"""
HOW = "numpy, which is needed here: apt-get install python3-numpy gives it to Debian's own python3, pip install numpy to any"


class Launched(unittest.TestCase):
    """A tool that a launcher runs."""

    def setUp(self):
        folder = tempfile.TemporaryDirectory()
        self.addCleanup(folder.cleanup)
        self.folder = os.path.realpath(folder.name)
        self.system, self.path = os.path.join(self.folder, "system"), os.path.join(self.folder, "bin")
        os.mkdir(self.path)

    def put(self, path, *lines):
        """Make a program of lines of a shell."""
        with open(path, "w", encoding="ascii") as file:
            file.write("\n".join(["#!/bin/sh", *lines, ""]))
        os.chmod(path, 0o755)
        return path

    def stand_in(self, path):
        """Make a program that stands in for a Python."""
        return self.put(path, 'echo "$0 $* after $HISTDESK_TRIED"', "exit 3")

    def hide_numpy(self):
        """Return a folder of modules, which hides numpy."""
        with open(os.path.join(self.folder, "numpy.py"), "w", encoding="ascii") as file:
            file.write("raise ModuleNotFoundError('none here', name='numpy')\n")
        return self.folder

    def run_tool(self, *arguments, oldest=(3, 10), modules="", before=""):
        """Return the status, the output and the errors of a tool, whose launcher has the path `self.launcher`."""
        self.launcher = os.path.join(self.folder, "launcher")
        with open(self.launcher, "w", encoding="ascii") as file:
            file.write(LAUNCHER.format(package=os.path.join(ROOT, "python"), system=self.system, oldest=oldest))
        words = [sys.executable, "-B", self.launcher, *arguments]
        own = {"PATH": f"{self.path}:/usr/bin:/bin", "PYTHONPATH": modules, "HISTDESK_TRIED": before}
        ran = subprocess.run(words, capture_output=True, env={**os.environ, **own}, check=False)
        return ran.returncode, ran.stdout.decode(), ran.stderr.decode()

    def test_usual(self):
        """If nothing is missing, no other Python is asked."""
        self.stand_in(self.system)
        self.stand_in(os.path.join(self.path, "python3"))
        status, output, errors = self.run_tool(TRACE, "--by", "kind", "--csv")
        self.assertEqual((status, errors), (0, ""))
        self.assertTrue(output.startswith("kind,count,total,"), output)

    def test_system(self):
        """Without numpy, the system's Python takes over, with the same arguments."""
        self.stand_in(self.system)
        self.stand_in(os.path.join(self.path, "python3"))
        status, output, errors = self.run_tool(TRACE, "--task", "two words", modules=self.hide_numpy())
        called = f"{self.system} -B {self.launcher} {TRACE} --task two words"
        self.assertEqual((status, output, errors), (3, f"{called} after {sys.executable}\n", ""))

    def test_first_of_path(self):
        """If the system has none, the first one on the PATH takes over."""
        python = self.stand_in(os.path.join(self.path, "python3"))
        status, output, _ = self.run_tool(TRACE, modules=self.hide_numpy())
        self.assertEqual((status, output), (3, f"{python} -B {self.launcher} {TRACE} after {sys.executable}\n"))

    def test_last_one(self):
        """After a Python that was tried before, only the next one is asked."""
        self.stand_in(self.system)
        python = self.stand_in(os.path.join(self.path, "python3"))
        status, output, _ = self.run_tool(TRACE, modules=self.hide_numpy(), before="/a/python3")
        after = f"/a/python3:{sys.executable}"
        self.assertEqual((status, output), (3, f"{python} -B {self.launcher} {TRACE} after {after}\n"))

    def test_none(self):
        """If none has numpy, a line names those that were tried, also if one is called by two names."""
        self.put(self.system, f'exec {sys.executable} "$@"')
        self.put(os.path.join(self.path, "python3"), f'exec {sys.executable} "$@"')
        status, output, errors = self.run_tool(TRACE, modules=self.hide_numpy())
        self.assertEqual((status, output, errors), (2, "", f"waits: {sys.executable} has no {HOW}\n"))
        status, output, errors = self.run_tool(TRACE, modules=self.hide_numpy(), before="/a/python3:/b/python3")
        named = f"neither /a/python3 nor /b/python3 nor {sys.executable} has"
        self.assertEqual((status, output, errors), (2, "", f"waits: {named} {HOW}\n"))

    def test_too_old(self):
        """A Python that is too old for the tools imports none of them."""
        self.stand_in(self.system)
        status, output, _ = self.run_tool(TRACE, oldest=(3, 99))
        self.assertEqual((status, output), (3, f"{self.system} -B {self.launcher} {TRACE} after {sys.executable}\n"))
        status, output, errors = self.run_tool(TRACE, oldest=(3, 99), before="/a/python3:/b/python3")
        found = f"/a/python3 and /b/python3 and {sys.executable}"
        self.assertEqual((status, output, errors), (2, "", f"waits: needs Python 3.99 or later, and found {found}\n"))

    def test_tools_by_themselves(self):
        """A tool that was not launched, such as one of a wheel, stays with its Python."""
        self.stand_in(os.path.join(self.path, "python3"))
        words = [sys.executable, "-Bc", "import sys; from histdesk.cli.waits import main; sys.exit(main(sys.argv[1:]))", TRACE]
        own = {"PATH": f"{self.path}:/usr/bin:/bin", "PYTHONPATH": f"{self.hide_numpy()}:{ROOT}/python"}
        ran = subprocess.run(words, capture_output=True, env={**os.environ, **own}, check=False)
        self.assertEqual((ran.returncode, ran.stdout), (2, b""))
        self.assertEqual(ran.stderr.decode(), f"waits: {sys.executable} has no {HOW}\n")


if __name__ == "__main__":
    sys.exit(main())
