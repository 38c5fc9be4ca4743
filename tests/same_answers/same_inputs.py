"""The recordings and scripts that are asked about, and what the words of the questions stand for with each of them.

They are kept beside the answers, so that a later asking is about the same bytes, whatever becomes of the generators."""

from __future__ import annotations

import gzip
import re
import shutil
import subprocess
import sys
from collections.abc import Callable
from pathlib import Path
from typing import NamedTuple

import plain_waits
import recordings
from same_hostile import hostile

HERE = Path(__file__).resolve().parent
# Recordings that are asked in all forms; of the others, only questions of `every` one are asked.
SOME = "recipes damaged_0 odd_names out_of_order mixed_34".split()
# Events of the small and the large made recordings, and the seeds of the former.
SMALL, LARGE, SEEDS = 3000, 200_000, (1, 2)
EVENT = re.compile(rb"^ *(.*?)-([0-9]+) +(?:\([^)]*\) +)?\[([0-9]+)\] (?:.* )?([0-9]+)\.([0-9]{6}): +(sched_\w+): (.*)$", re.M)
NEXT = re.compile(rb"next_comm=(.*) next_pid=([0-9]+) ")
# Of how many bytes of a real recording the facts are.
FRONT = 1 << 24
# How a recording of another tool begins, the tool, and how it prints a line.
STAND_INS = {
    "stand-in.perf.data": (b"PERFILE2 and more", "perf", "{task:>16} {pid:>7} [{cpu:03}] {stamp}000:  sched:{event}: {rest}"),
    "stand-in.trace.dat": (b"\x17\x08\x44tracing6", "trace-cmd", "{task:>16}-{pid:<5} [{cpu:03}] {stamp}000: {event}: {rest}"),
}
# The folder of the programs that print the texts of these.
PROGRAMS = "programs"
Facts = dict[str, str]


class Input(NamedTuple):
    """What is asked about.

    Attributes
    ----------
    name
        Its name, in answers and reports.
    group
        Which questions are asked: the `least` ones, also those of `every` or of `some` recordings, those of a `large` one, of a
        `real` one, of one that another tool's stand-in converts (`converted`), of a `script`, or `once`, of files that the
        questions name.
    facts
        What the words of questions stand for, such as `TRACE`.
    """

    name: str
    group: str
    facts: Facts


class Maker:
    """Puts inputs into a folder.

    Attributes
    ----------
    inputs
        Those that are there.
    """

    def __init__(self, root: Path, folder: Path, is_wanted: Callable[[str], bool]) -> None:
        """Begin with a checkout, whose generators and examples are used, and an empty folder. What is large is only made if it
        `is_wanted`, by its name."""
        self.root, self.folder, self.is_wanted = root, folder, is_wanted
        self.inputs: list[Input] = []

    def add(self, name: str, content: bytes, group: str = "every", suffix: str = ".trace") -> None:
        """Add a recording: its name and its content."""
        path = self.folder / f"{name}{suffix}"
        path.write_bytes(content)
        group = "some" if name in SOME else group
        self.inputs.append(Input(path.name, group, {"TRACE": path.name, **facts_of(content)}))

    def add_all(self) -> None:
        """Add all but the real recordings, and the scripts that questions name."""
        for path in HERE.glob("*.script"):
            shutil.copyfile(path, self.folder / path.name)
        for path in sorted((self.root / "examples").glob("*.trace")):
            self.add(path.stem, path.read_bytes())
        for name, known in known_recordings().items():
            self.add(name, known)
        for path in sorted((self.root / "tests" / "model").glob("*.txt")):
            for name, content in blocks_of(path).items():
                self.add(f"{path.stem}.{name}", content, "least")
        for name, content in hostile().items():
            self.add(name, content)
        self.add("packed", gzip.compress(recordings.simulated(5, holes=2).text, mtime=0), suffix=".trace.gz")
        for seed in SEEDS:
            self.add(f"made_{seed}", self.made(SMALL, 4, 60, seed))
        if self.is_wanted("large.trace"):
            self.add("large", self.made(LARGE, 8, 400, 3), "large")
        self.add_converted()
        self.add_scripts()
        self.inputs.append(Input("once", "once", {}))
        self.name_others()

    def made(self, events: int, cpus: int, tasks: int, seed: int) -> bytes:
        """Return the recording that bench/make_trace.py makes."""
        words = [str(self.root / "bench" / "make_trace.py"), str(events), f"--cpus={cpus}", f"--pids={tasks}", f"--seed={seed}"]
        return subprocess.run([sys.executable, "-B", *words], stdout=subprocess.PIPE, check=True).stdout

    def add_real(self, paths: list[Path]) -> None:
        """Add recordings that somebody made; they are copied. Raises `ValueError` if two have the same name."""
        for path in paths:
            name = f"real-{path.name}"
            if (self.folder / name).exists():
                raise ValueError(f"two recordings are called {path.name}")
            shutil.copyfile(path, self.folder / name)
            with open(path, "rb") as file:
                front = file.read(FRONT)
            self.inputs.append(Input(name, "real", {"TRACE": name, **facts_of(self.text_of(path, front))}))
        self.name_others()

    def text_of(self, path: Path, front: bytes) -> bytes:
        """Return the text of a recording that begins so, which its converter makes if it is perf's or trace-cmd's."""
        for sign, program, _ in STAND_INS.values():
            if front.startswith(sign[:8]):
                words = [self.root / "tools" / f"from-{program}", path]
                return subprocess.run(words, stdout=subprocess.PIPE, stderr=subprocess.DEVNULL, check=False).stdout
        return front

    def add_converted(self) -> None:
        """Add recordings of other tools, with programs that print their texts, and the texts themselves."""
        programs, text = self.folder / PROGRAMS, recordings.simulated(4).text
        programs.mkdir()
        for name, (front, program, form) in STAND_INS.items():
            told = printed(text, form)
            (programs / f"{program}.told").write_bytes(told)
            (programs / program).write_text('#!/bin/sh\ncase "$*" in *dlfilter*) exit 129 ;; *) cat "$0.told" ;; esac\n')
            (programs / program).chmod(0o755)
            (self.folder / name).write_bytes(front)
            self.inputs.append(Input(name, "converted", {"TRACE": name, **facts_of(text)}))
            self.add(f"{program}-text", told, suffix=".txt")

    def add_scripts(self) -> None:
        """Add the examples' scripts, the rows of tests and random scripts, each with its traces."""
        examples = self.root / "examples"
        traces = {path.stem: path for path in examples.glob("*.trace")}
        others = {"filters": ["who-wakes"], "refusals": ["wakeups", "torn"]}
        for script in sorted(examples.glob("*.script")):
            named = others.get(script.stem, [script.stem if script.stem in traces else "wakeups"])
            expected = script.with_suffix(".expected")
            self.add_script(f"example-{script.stem}", script, [traces[name] for name in named], expected)
        for script in sorted((examples / "recipes").glob("*.script")):
            self.add_script(f"recipe-{script.stem}", script, [traces["recipes"], traces["recipes-before"]])
        for row in sorted((self.root / "tests" / "rows").iterdir()):
            self.add_script(f"row-{row.name}", row / "script", sorted(row.glob("trace*")), row / "expected")
        for seed in range(51, 55):
            made = self.folder / f"random-{seed}"
            made.mkdir()
            program = self.root / "tests" / "model" / "random_script.py"
            subprocess.run([sys.executable, "-B", program, "60", "60", str(seed), made], check=True)
            self.add_script(made.name, made / "script", sorted(made.glob("trace*")))
            shutil.rmtree(made)

    def add_script(self, name: str, script: Path, traces: list[Path], expected: Path | None = None) -> None:
        """Add a script, its traces, and what the program prints for it, if that is known."""
        names = [f"{name}.trace{number}" for number in range(1, len(traces) + 1)]
        for trace, copy in zip(traces, names):
            shutil.copyfile(trace, self.folder / copy)
        shutil.copyfile(script, self.folder / f"{name}.script")
        facts = {"SCRIPT": f"{name}.script", "TRACES": " ".join(names)}
        if expected and expected.exists():
            shutil.copyfile(expected, self.folder / f"{name}.expected")
            facts["EXPECTED"] = f"{name}.expected"
        self.inputs.append(Input(f"{name}.script", "script", facts))

    def name_others(self) -> None:
        """Give each recording another one to be compared with: the next one of its family, or one of the examples."""
        families: dict[str, list[str]] = {}
        for one in self.inputs:
            families.setdefault(re.sub(r"_?[0-9]*\..*", "", one.name), []).append(one.name)
        for one in self.inputs:
            family = families[re.sub(r"_?[0-9]*\..*", "", one.name)]
            other = family[(family.index(one.name) + 1) % len(family)]
            one.facts["OTHER"] = other if other != one.name else "recipes-before.trace"


def known_recordings() -> dict[str, bytes]:
    """Return the recordings whose truth is known, and more simulated ones with and without losses."""
    texts = {name: known.text for name, known in recordings.all_known().items()}
    texts.update((f"simulated_{seed}", recordings.simulated(seed).text) for seed in range(10, 14))
    texts.update((f"damaged_{seed}", recordings.simulated(seed, holes=3).text) for seed in range(10, 14))
    return texts


def blocks_of(path: Path) -> dict[str, bytes]:
    """Return the traces of a file of blocks, by the names of the blocks; other lines of a block aren't of the trace."""
    blocks = {}
    for block in path.read_text(encoding="ascii").split("\n== ")[1:]:
        name, *lines = block.split("\n")
        text = "".join(f"{line}\n" for line in lines if line and not line.startswith(("; ", "-> ")))
        blocks[name.strip()] = text.encode()
    return blocks


def printed(text: bytes, form: str) -> bytes:
    """Return the events of a trace as another tool prints them."""
    lines = []
    for found in filter(None, map(plain_waits.LINE.fullmatch, plain_waits.lines_of(text))):
        words = {"task": found["task"], "pid": found["runs"], "cpu": int(found["cpu"]), "rest": found["rest"]}
        lines.append(form.format(stamp=f"{found['s']}.{found['us']}", event=found["event"], **words))
    return ("\n".join(["cpus=4"] * ("trace-cmd" in form) + lines) + "\n").encode("utf-8", "surrogateescape")


# ---- what words stand for


class Found(NamedTuple):
    """An event of a text, as a pattern finds it: its stamp in microseconds, its place, its name and what it says."""

    stamp: int
    cpu: int
    line: int
    name: str
    rest: bytes


def events_of(content: bytes) -> list[Found]:
    """Return the events of a text, or of a packed one; a pattern finds them, whatever the package takes them for."""
    if content.startswith(b"\x1f\x8b"):
        try:
            content = gzip.decompress(content)
        except (OSError, EOFError):
            return []
    lines: dict[int, int] = {}
    events = []
    for _, _, cpu, seconds, micros, name, rest in EVENT.findall(content):
        lines[int(cpu)] = lines.get(int(cpu), 0) + 1
        stamp = int(seconds) * 1_000_000 + int(micros)
        events.append(Found(stamp, int(cpu), lines[int(cpu)], name.decode(), rest))
    return events


def seconds(micros: int) -> str:
    """Return a stamp as the kernel prints it."""
    return f"{micros // 1_000_000}.{micros % 1_000_000:06}"


def facts_of(content: bytes) -> Facts:
    """Return what the words of questions stand for: stamps of the recording, a task of it, and places of events in it."""
    events = events_of(content)
    stamps = sorted(event.stamp for event in events) or [1_000_000]
    first, start, middle, until, last = (stamps[(len(stamps) - 1) * part // 8] for part in (0, 2, 4, 6, 8))
    switches = [event for event in events if event.name == "sched_switch" and b"next_pid=0 " not in event.rest]
    wakings = [event for event in events if event.name == "sched_waking"]
    none = Found(0, 0, 1, "", b"")
    end = (switches or [none])[len(switches) // 2]
    begin = (wakings or [none])[len(wakings) // 3]
    task = NEXT.search(end.rest)
    return {
        **{"FROM": seconds(start), "MIDDLE": seconds(middle), "UNTIL": seconds(until)},
        **{"FIRST_US": str(first), "FROM_US": str(start), "UNTIL_US": str(until), "LAST_US": str(last + 1)},
        **{"CPU": str(end.cpu), "LINE": str(end.line), "BEGIN_CPU": str(begin.cpu), "BEGIN_LINE": str(begin.line)},
        "TASK": task[1].decode("utf-8", "surrogateescape").replace("\0", "?") if task else "none",
        "PID": task[2].decode() if task else "1",
    }
