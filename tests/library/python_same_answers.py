#!/usr/bin/env python3
"""Tests tests/same_answers.py: that it finds what was planted in a copy of the package, and nothing if nothing was; what it
says of it; and that its questions use all that the sources offer.

    python_same_answers.py [TEST]...

The library is found as the package finds it."""

from __future__ import annotations

import json
import os
import re
import shutil
import subprocess
import sys
import tempfile
import types
import unittest
from pathlib import Path
from typing import Any

# Nothing is written beside the sources.
sys.dont_write_bytecode = True

HERE = Path(__file__).resolve().parent
ROOT = HERE.parent.parent
JUDGE = ROOT / "tests" / "same_answers.py"
LISTS = ROOT / "tests" / "same_answers"
LIBRARY = ROOT / "crates" / "ft_c" / "out" / "libhistdesk.so.0"
sys.path[:0] = [str(ROOT / "python"), str(HERE), str(LISTS), str(ROOT / "tests" / "model")]

import histdesk
import same_judging
import same_sources
from python_runner import main
from same_asking import Answer
from same_judging import Judge, Kept, Key, Meant, read_meant, short_difference
from same_normal import Normal
from same_questions import Lists, expanded, names_of, read_lists

# Questions that are asked here, of a recording in which a task waits 204 us, and of one with a line that can't be read. Of each
# but the last one, something is planted.
ASKED = ["waits TRACE @ wakeups.trace", "summary TRACE --lenient --json @ bad_middle.trace"]
ASKED += ["export TRACE events --lenient @ one_event.trace", "why TRACE --lenient --worst 3 --doubtful --chain @ wakeups.trace"]
ASKED += ["words @ once", "waits TRACE --lenient --doubtful --json @ wakeups.trace", "bars EXPECTED @ example-latencies.script"]
# Those that are on the list of what is meant.
ONE_OF = {ASKED[2]: "meant"}
# What is appended to a module of a tool in the copy: it has the tool's main print something else.
PLANT = """

_main = main


def main(argv=None):
    import io
    import sys

    streams = sys.stdout, sys.stderr
    sys.stdout, sys.stderr = (io.TextIOWrapper(io.BytesIO(), "utf-8", write_through=True) for _ in streams)
    status = _main(argv)
    out, err = (stream.buffer.getvalue() for stream in (sys.stdout, sys.stderr))
    sys.stdout, sys.stderr = streams
    sys.stdout.buffer.write({out})
    sys.stderr.buffer.write({err})
    return {status}
"""


def planted(out: str = "out", err: str = "err", status: str = "status") -> str:
    """Return what has a tool print something else: expressions of what it printed, and of its status."""
    return PLANT.format(out=out, err=err, status=status)


class Planted(unittest.TestCase):
    """A copy of the package, in which something is planted, and the answers before."""

    folder: Path
    before: Path

    @classmethod
    def setUpClass(cls) -> None:
        cls.folder = Path(tempfile.mkdtemp())
        cls.addClassCleanup(shutil.rmtree, cls.folder)
        cls.before = cls.folder / "before"
        cls.said("--record", str(cls.before), only=ASKED)

    @classmethod
    def judged(cls, *words: str, only: list[str]) -> subprocess.CompletedProcess[str]:
        """Run the judge with some questions only. A copy of the package has no library beside it."""
        patterns = [word for pattern in only for word in ("--only", pattern)]
        environment = {**os.environ, "HISTDESK_LIBRARY": os.environ.get("HISTDESK_LIBRARY", str(LIBRARY))}
        words = (sys.executable, "-B", str(JUDGE), *words, *patterns)
        return subprocess.run(words, capture_output=True, env=environment, text=True, check=False)

    @classmethod
    def said(cls, *words: str, only: list[str], status: int = 0) -> str:
        """Return what the judge reports with this status."""
        ran = cls.judged(*words, only=only)
        if ran.returncode != status:
            raise AssertionError(f"{words}: status {ran.returncode}: {ran.stdout}{ran.stderr}")
        return ran.stdout

    def lists(self) -> Path:
        """Return a copy of the lists."""
        folder = Path(tempfile.mkdtemp(dir=self.folder)) / "lists"
        shutil.copytree(LISTS, folder)
        return folder

    def copy(self, **plants: str) -> Path:
        """Return a copy of what is asked of a checkout; to the end of some modules in it, by their names with __ for /, text is
        added."""
        folder = Path(tempfile.mkdtemp(dir=self.folder))
        for name in ("python", "tools"):
            shutil.copytree(ROOT / name, folder / name)
        for module, text in plants.items():
            with open(folder / "python" / "histdesk" / f"{module.replace('__', '/')}.py", "a", encoding="utf-8") as file:
                file.write(text)
        return folder

    def against(self, checkout: Path, lists: Path = LISTS, status: int = 1) -> list[str]:
        """Return the lines of a report."""
        words = ["--against", str(self.before), "--lists", str(lists), "--checkout", str(checkout)]
        return self.said(*words, only=ASKED, status=status).splitlines()

    def test_same(self) -> None:
        """Asked again, nothing differs, even if the package stands elsewhere."""
        self.assertEqual(
            self.against(self.copy(), status=0), [f"{len(ASKED)} answers compared; 0 differ, and 0 others as is meant"]
        )

    def test_planted(self) -> None:
        """A changed figure, a line that standard error lacks, another status, an error of Python and another value that a call
        returns are found, with the lines that show it, and nothing else. What is on the list fails nothing by itself."""
        plants = {
            "cli__waits": planted(out='out.replace(b"204", b"205")'),
            "cli__summary": planted(err='b""'),
            "cli__export": planted(status="3"),
            "cli__why": planted(out="1 / 0"),
            "export__csv": "\n\ndef escaped(text):\n    return text\n",
        }
        lists = self.lists()
        with open(lists / "meant.txt", "a", encoding="utf-8") as file:
            file.write("== export * @ one_*\nThe status of export is 3.\n  0 a 0 x: 0 before, 3 now\n")
        lines = self.against(self.copy(**plants), lists)
        parts = {part.split("\n")[0]: part.split("\n")[1:] for part in re.split(r"\n(?=\S)", "\n".join(lines))}
        figures, lost, status, error, call, json_figures = (f"{ONE_OF.get(one, 'DIFFERS')}: {one}" for one in ASKED[:6])
        last = f"{len(ASKED)} answers compared; 5 differ, and 1 others as is meant"
        self.assertEqual(sorted(parts), sorted([figures, lost, status, error, call, json_figures, last]))
        for name in (figures, json_figures):
            removed, added = ([line[6:] for line in parts[name] if line.startswith(f"    {sign} ")] for sign in "-+")
            self.assertTrue(removed and all("204" in line for line in removed))
            self.assertEqual([line.replace("204", "205") for line in removed], added)
        self.assertIn("- 2> summary: bad_middle.trace: 1 line can't be read and is left out: ", "\n".join(parts[lost]))
        self.assertEqual(
            parts[status][:4],
            ["    The status of export is 3.", "    line 1, 1 lines before, 1 now", "    - status 0", "    + status 3"],
        )
        self.assertIn("    + 2> ZeroDivisionError: division by zero", parts[error])
        self.assertTrue(any("escaped" not in line and line.startswith("    + ") for line in parts[call]))

    def test_missing(self) -> None:
        """An answer that isn't given any more is found, and so is one that wasn't given before."""
        lists = self.lists()
        tools = (lists / "tools.txt").read_text("utf-8")
        less = tools.replace("waits TRACE\n", "waits TRACE --csv --by prio --kind woken\n", 1)
        self.assertNotEqual(less, tools)
        (lists / "tools.txt").write_text(less, "utf-8")
        words = ["--against", str(self.before), "--lists", str(lists)]
        new = "waits TRACE --csv --by prio --kind woken @ wakeups.trace"
        lines = self.said(*words, only=[*ASKED, new], status=1).splitlines()
        heads = [line for line in lines if line.startswith("DIFFERS")]
        self.assertEqual(heads, [f"DIFFERS: {ASKED[0]}", f"DIFFERS: {new}"])
        self.assertIn("    it is not answered any more:", lines)
        self.assertIn("    it was not answered before:", lines)

    def test_environment(self) -> None:
        """Answers of another Python or without the program aren't compared."""
        index = self.before / same_judging.INDEX
        content = index.read_text("utf-8")
        self.addCleanup(index.write_text, content, "utf-8")
        changed = json.loads(content)
        changed["environment"]["python"] = "2.7"
        index.write_text(json.dumps(changed), "utf-8")
        ran = self.judged("--against", str(self.before), only=ASKED)
        self.assertEqual(ran.returncode, 1)
        self.assertIn("and was 2.7", ran.stderr)


class Parts(unittest.TestCase):
    """Single parts of the judge."""

    def setUp(self) -> None:
        self.folder = Path(tempfile.mkdtemp())
        self.addCleanup(shutil.rmtree, self.folder)

    def judge(self, meant: list[Meant], **answers: bytes) -> Judge:
        """Return a judge that has kept these answers of a recording r."""
        kept = Kept(self.folder / "kept", {}, [], set())
        for question, content in answers.items():
            kept.put(Answer("r", question, content))
        kept.write()
        return Judge(Kept.read(self.folder / "kept"), meant)

    def test_judge(self) -> None:
        """Answers that differ, that are missing and that are too many are each reported once; equal ones are not."""
        judge = self.judge([Meant("b @ r", "so"), Meant("c*", "idle")], a=b"1\n", b=b"2\n", d=b"4\n")
        for question, content in (("a", b"1\n"), ("b", b"3\n"), ("e", b"5\n")):
            judge.see(Answer("r", question, content))
        judge.miss([Key("r", "a"), Key("r", "d")])
        found = {key.question: why for key, _, why in judge.differences}
        self.assertEqual(found, {"b": "so", "d": None, "e": None})
        self.assertEqual((judge.unmeant, judge.idle), (2, ["c*"]))

    def test_meant_list(self) -> None:
        """Comments are no blocks; a block needs all parts."""
        path = self.folder / "meant.txt"
        path.write_text("# x\n== a* @ b\nWhy.\n  1 a 0 b>c\n\n== c @ *\nBecause\nof it.\n  x\n  y\n", "utf-8")
        self.assertEqual(read_meant(path), [Meant("a* @ b", "Why."), Meant("c @ *", "Because of it.")])
        for text in ("== a @ b\nWhy.\n", "== a @ b\n  x\n", "== a\nWhy.\n  x\n", "x\n== a @ b\nWhy.\n  x\n"):
            path.write_text(text, "utf-8")
            with self.assertRaises(ValueError):
                read_meant(path)
        self.assertEqual([one.pattern for one in read_meant(LISTS / "meant.txt") if not one.why], [])

    def test_short_difference(self) -> None:
        """The first lines that differ are shown, and of long lines the part that does."""
        before, after = b"a\nb\nc\nd\n", b"a\nx\nc\nd\ne\n"
        self.assertEqual(short_difference(before, after), ["line 2, 3 lines before, 4 now", "  a", "- b", "+ x", "+ e"])
        self.assertEqual(
            short_difference(b"a\n", b"a"), ["line 2, 0 lines before, 0 now: only line breaks or the last line's end differ"]
        )
        long = b"y" * 5000
        lines = short_difference(long + b"1" + long, long + b"2" + long)
        self.assertTrue("y1y" in lines[1] and "y2y" in lines[2] and max(map(len, lines)) < 200)
        many = short_difference(b"", b"".join(b"%d\n" % number for number in range(100_000)))
        self.assertEqual((many[1], many[-1]), ("+ 0", "and 388 more lines"))

    def test_normal(self) -> None:
        """Paths, ports, places of sources and times are no answers; figures are."""
        normal = Normal(Path("/a/checkout"), Path("/b/inputs"), Path("/a/checkout/scratch"))
        pairs = [
            ("waits x", b"/a/checkout/tools/waits /b/inputs/r.trace", b"CHECKOUT/tools/waits INPUTS/r.trace"),
            ("waits x", b"/a/checkout/scratch/tmp/h83x: no", b"SCRATCH/tmp/FILE: no"),
            ("view x", b"http://127.0.0.1:4711/AbCdEfGhIjKlMnOpQrSt-_/\n", b"http://ADDRESS/\n"),
            (
                "why x",
                b'Traceback (most recent call last):\n  File "x", line 7\n    y\nE: z\n',
                b"Traceback (most recent call last):\nE: z\n",
            ),
            ("call", b"<A object at 0x7f0123456789>", b"<A object at 0xADDRESS>"),
            ("view x: POST strike {}", b'{"seconds":0.125}', b'{"seconds":0}'),
            ("waits x", b'{"seconds":0.125} at 0x2a Date: 1', b'{"seconds":0.125} at 0x2a Date: 1'),
            ("view x: GET about", b"Date: Tue, 1 Dec\nContent-Length: 7", b"Date: TIME\nContent-Length: 7"),
        ]
        for question, content, wanted in pairs:
            self.assertEqual(normal.of(question, content), wanted)

    def test_lists(self) -> None:
        """A line with choices is each of them, and no question stands there twice."""
        self.assertEqual(expanded("a {|--b} {c|d e}"), ["a c", "a d e", "a --b c", "a --b d e"])
        shutil.copytree(LISTS, self.folder / "lists")
        with open(self.folder / "lists" / "tools.txt", "a", encoding="utf-8") as file:
            file.write("bars missing.trace\n")
        with self.assertRaisesRegex(ValueError, "twice among the questions of once: bars missing.trace"):
            read_lists(self.folder / "lists")


class Complete(unittest.TestCase):
    """What the lists ask, beside what the sources offer."""

    lists: Lists
    sources: same_sources.Sources
    scripts: str
    told: str

    @classmethod
    def setUpClass(cls) -> None:
        cls.lists = read_lists(LISTS)
        cls.sources = same_sources.read_sources(ROOT, histdesk)
        cls.scripts = "".join(path.read_text("utf-8") for path in LISTS.glob("*.script"))
        with tempfile.TemporaryDirectory() as folder:
            kept = Path(folder) / "kept"
            names = [
                (session.name, "once" if group == "once" else "recipes.trace")
                for group in ("least", "every", "some", "once")
                for session in cls.lists.sessions[group]
            ]
            Planted.said("--record", str(kept), only=[f"{name} @ {recording}" for name, recording in names])
            read = Kept.read(kept)
            cls.told = "".join(read.content(key).decode("utf-8", "surrogateescape") for key in read.keys)

    def lacking(self, sources: same_sources.Sources | None = None, **lists: Any) -> list[str]:
        """Return what no question uses."""
        return list(same_sources.lacking(sources or self.sources, self.lists._replace(**lists), self.scripts, self.told))

    def test_complete(self) -> None:
        """All tools with their options, all public names, all that a page asks and all commands are asked."""
        self.assertEqual(self.lacking(), [])
        self.assertGreater(len(names_of(self.lists, "some")), 300)

    def test_new(self) -> None:
        """What the sources newly offer is reported as lacking."""
        options = {**self.sources.options, "new": set[str](), "bars": {"--width"}}
        members = {**self.sources.members, "Novel": set[str](), "Desk": {*self.sources.members["Desk"], "reopen"}}
        more = same_sources.Sources(options, members, {*self.sources.page, "ask"}, {*self.sources.commands, "save"})
        wanted = ["--width of tools/bars is never given", "tools/new is never asked", "ask is never asked of the page's server"]
        wanted += ["histdesk.Novel is never asked, and no answer has one", "Desk.reopen is never asked"]
        self.assertEqual(sorted(self.lacking(more)), sorted([*wanted, "the command save of tools/desk is in no script"]))

    def test_read(self) -> None:
        """A tool and a public name are found in the sources of a copy."""
        with tempfile.TemporaryDirectory() as folder:
            for name in ("python", "tools"):
                shutil.copytree(ROOT / name, Path(folder) / name)
            (Path(folder) / "tools" / "new").write_text('#!/bin/sh\necho "  --loud   louder"\n')
            (Path(folder) / "tools" / "new").chmod(0o755)
            server = Path(folder) / "python" / "histdesk" / "view" / "server.py"
            text = server.read_text("utf-8")
            server.write_text(
                text.replace('"about": Ask(', '"new.bin": Ask(view.about, {}),\n        "about": Ask(', 1), "utf-8"
            )
            package = types.ModuleType("histdesk")
            vars(package).update(vars(histdesk), __all__=[*histdesk.__all__, "new"], new=len)
            sources = same_sources.read_sources(Path(folder), package)
        self.assertEqual((sources.options["new"], sources.page - self.sources.page), ({"--loud"}, {"new.bin"}))
        self.assertEqual(set(sources.members) - set(self.sources.members), {"new"})

    def test_less(self) -> None:
        """What the lists lose is reported as lacking."""
        runs = {
            group: [line for line in lines if not re.match("(tools/)?bars", line)] for group, lines in self.lists.runs.items()
        }
        self.assertEqual(self.lacking(runs=runs), ["tools/bars is never asked"])
        visits = {
            group: [(server, tuple(one for one in requests if "overview" not in one)) for server, requests in all_of]
            for group, all_of in self.lists.visits.items()
        }
        self.assertEqual(self.lacking(visits=visits), ["overview is never asked of the page's server"])
        sessions = {
            group: [one._replace(code=one.code.replace("escaped", "x")) for one in all_of]
            for group, all_of in self.lists.sessions.items()
        }
        missing = [
            "histdesk.escaped is never asked, and no answer has one",
            "histdesk.unescaped is never asked, and no answer has one",
        ]
        told = self.told
        self.told = told.replace("escaped", "x")
        self.assertEqual(self.lacking(sessions=sessions), missing)
        self.told = told


if __name__ == "__main__":
    sys.exit(main())  # type: ignore[no-untyped-call]
