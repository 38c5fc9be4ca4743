#!/usr/bin/env python3
"""Tests how the package is built: which folder may import which, and what belongs in one folder only.

    python_layers.py [TEST]...

A list of exceptions has a reason for each, and fails if it names one that is none any more. The last line says how many of the
tests hold."""

from __future__ import annotations

import ast
import importlib
import os
import re
import subprocess
import sys
import unittest
from collections.abc import Collection, Iterator
from pathlib import Path

# Nothing is written beside the sources.
sys.dont_write_bytecode = True

HERE = Path(__file__).resolve().parent
PACKAGE = HERE.parent.parent / "python" / "histdesk"
sys.path[:0] = [str(PACKAGE.parent), str(HERE.parent / "model")]

import histdesk
from python_runner import main

# A module imports its own folder and those before it in this list; "" are the modules of the package itself.
ORDER = ["", "show", "native", "trace", "desk", "waiting", "explain", "compare", "fleet", "export", "script", "view", "cli"]
# This folder stands apart: it imports only these, and only cli imports it.
APART = {"convert": ["", "show", "native", "trace", "convert"]}
# What hands out arrays or frames.
ARRAYS = ["show.frames", "native", "trace", "desk", "waiting", "explain", "compare", "export", "view"]

# Modules beside native that use ctypes.
CTYPES = {
    "compare.without": "it passes the address of the events that are left out",
    "convert.conversion": "it reads a pipe by the C library, so that other threads run meanwhile",
    "desk.desk": "counts, ids and events are written into numbers and structs of C",
    "desk.session": "the report of an edit is copied into memory of C",
    "trace.event_lines": "it does without numpy, which a session needs",
    "trace.lines": "it passes the address of a text",
    "trace.losses": "it passes the address of a text",
    "trace.source": "it looks at the first bytes of a buffer by their address",
    "trace.stream": "pieces of a text are passed by their address",
}
# Folders whose `__init__` has more than a docstring.
INITS = {"cli": "what Python compiles is kept from the first module on"}
# Modules with patterns that match a line of an event.
PATTERNS = {
    "trace.kind": "it tells the texts of other programs from the kernel's",
    "explain.scene": "the context of a waking is in the flags of its line, which the engine doesn't report",
}
# Lines as the kernel and the other programs print them.
LINES = [
    b"    sim-1       [000] d.h.. 1.000100: sched_waking: comm=w pid=42 prio=120 target_cpu=000",
    b"     sim-1     [000]     1.000100: sched_waking: comm=w pid=42 prio=120 target_cpu=000",
    b"sim     1/1 [000]     1.000100000: sched:sched_waking: w:42 [120] CPU:000",
]
# What build/schema makes has the names of the header, and others may bear them too.
MADE = "native.interface"
# Names that the modules of tools have in common; and names that several modules still give to things of their own.
TOOLS = {"main", "parsed", "work"}
TWICE = set(
    """
    ALIKE ASIDE BATCH BITS Bounds Buffer CHUNK COLUMNS CPUS DESCRIPTION ENDS EVENTS FIELDS FIGURES FIRST FRONT
    FRONTED GAP GROUP HEAD IDLE Json KEPT KINDS LATENCY LEAST LEVEL LINE LINES LONG LONGEST LOOSE LOST Lines MICROS
    MOST MOST_ROWS NAME NAMES NUMBER NUMBERS OWN PACKAGE PART PATIENCE PAUSE PIECES PLAIN PREEMPTED Piece RENAMED
    ROOM ROWS RUNNABLE SET_PIPE_SIZE SHOWN SIZE SPARE STAMP STRICT SWITCH Source TAIL TASK Text VARIABLE WAKE WAKING
    WOKEN WORST _FRONT _NUMBER _SWITCH answer_of begin buffer_of front_of numbers_of orders_of parse parts_of
    pieces_of printable read_pieces run table_of text_of whole_lines write write_csv write_text
    """.split()
)


def modules() -> dict[str, ast.Module]:
    """Return the modules of the package, as `desk.rows`."""
    paths = {".".join(path.relative_to(PACKAGE).with_suffix("").parts): path for path in sorted(PACKAGE.rglob("*.py"))}
    return {name: ast.parse(path.read_text(encoding="utf-8")) for name, path in paths.items()}


MODULES = modules()


def folder_of(module: str) -> str:
    return module.rpartition(".")[0]


def imports(module: str) -> Iterator[str]:
    """Go through what a module imports, also in functions and for types: modules of the package, and other packages."""
    for node in ast.walk(MODULES[module]):
        if isinstance(node, ast.Import):
            yield from (alias.name.partition(".")[0] for alias in node.names)
        elif isinstance(node, ast.ImportFrom) and not node.level:
            yield (node.module or "").partition(".")[0]
        elif isinstance(node, ast.ImportFrom):
            above = module.split(".")[: -node.level]
            for alias in node.names:
                path = ".".join([*above, *filter(None, [node.module])])
                inner = ".".join(filter(None, [path, alias.name]))
                yield next((name for name in (inner, path) if name in MODULES), f"{path}.__init__".lstrip("."))


def at_load(module: str) -> Iterator[str]:
    """Go through the packages that a module imports as soon as it is loaded, by its statements of the first level."""
    for node in MODULES[module].body:
        if isinstance(node, ast.Import):
            yield from (alias.name.partition(".")[0] for alias in node.names)
        elif isinstance(node, ast.ImportFrom) and not node.level:
            yield (node.module or "").partition(".")[0]


def definitions(module: str) -> Iterator[str]:
    """Go through the names that a module defines on its first level."""
    for node in MODULES[module].body:
        if isinstance(node, (ast.FunctionDef, ast.ClassDef)):
            yield node.name
        for target in (
            node.targets if isinstance(node, ast.Assign) else [node.target] if isinstance(node, ast.AnnAssign) else []
        ):
            yield from (name.id for name in ast.walk(target) if isinstance(name, ast.Name))


def patterns(module: str) -> Iterator[re.Pattern[bytes]]:
    """Go through the patterns of a module: those that it keeps, and those that its functions are called with."""
    for value in vars(importlib.import_module(f"histdesk.{module}")).values():
        for one in value.values() if isinstance(value, dict) else [value]:
            if isinstance(one, re.Pattern):
                yield re.compile(one.pattern.encode() if isinstance(one.pattern, str) else one.pattern, one.flags & ~re.UNICODE)
    for node in ast.walk(MODULES[module]):
        if isinstance(node, ast.Call) and ast.unparse(node.func).startswith("re.") and isinstance(node.args[0], ast.Constant):
            text = node.args[0].value
            yield re.compile(text.encode() if isinstance(text, str) else text)


def reads(pattern: re.Pattern[bytes], line: bytes) -> bool:
    """Return whether a pattern matches stamp and label of a line, and isn't one that matches any text."""
    return any(b"1.0001" in one[0] and b"sched_" in one[0] for one in pattern.finditer(line)) and not pattern.fullmatch(
        b"x" * 99
    )


class Layers(unittest.TestCase):
    def same(self, found: Collection[str], listed: Collection[str]) -> None:
        """Check that what was found is what is listed."""
        self.assertEqual(sorted(set(found) - set(listed)), [], "these aren't in the list")
        self.assertEqual(sorted(set(listed) - set(found)), [], "the list needs these no more")

    def test_imports_go_one_way(self) -> None:
        wrong = []
        for module in MODULES:
            own = folder_of(module)
            allowed = APART.get(own) or ORDER[: ORDER.index(own) + 1] + list(APART) * (own == "cli")
            used = {other for other in imports(module) if other in MODULES} if module != "__init__" else set()
            wrong += [f"{module} imports {other}" for other in sorted(used) if folder_of(other) not in allowed]
        self.assertEqual(wrong, [])

    def test_ctypes_is_in_native(self) -> None:
        self.same({one for one in MODULES if "ctypes" in imports(one) and folder_of(one) != "native"}, CTYPES)

    def test_numpy_and_pandas(self) -> None:
        using = {one for one in MODULES if not {"numpy", "pandas"}.isdisjoint(imports(one))}
        self.assertEqual(sorted(one for one in using if one not in ARRAYS and folder_of(one) not in ARRAYS), [])
        self.assertEqual(sorted(one for one in MODULES if "pandas" in at_load(one)), [])

    def test_the_package_loads_nothing(self) -> None:
        code = "import sys; before = set(sys.modules); import histdesk; print(*sorted(set(sys.modules) - before))"
        words = subprocess.check_output(
            [sys.executable, "-Bc", code], text=True, env={**os.environ, "PYTHONPATH": str(PACKAGE.parent)}
        ).split()
        self.assertEqual([one for one in words if one.startswith("histdesk")], ["histdesk", "histdesk._version"])
        self.assertTrue({"numpy", "pandas", "ctypes"}.isdisjoint(words))

    def test_folders_have_a_docstring(self) -> None:
        inits = [one for one in MODULES if one.endswith(".__init__")]
        self.assertEqual(sorted(map(folder_of, inits)), sorted([*ORDER[1:], *APART]))
        self.assertEqual([one for one in inits if not ast.get_docstring(MODULES[one])], [])
        self.same([folder_of(one) for one in inits if len(MODULES[one].body) > 1], INITS)

    def test_public_names_are_no_modules(self) -> None:
        first = {one.partition(".")[0] for one in MODULES}
        self.assertEqual(sorted(first & set(histdesk.__all__)), [])

    def test_names_are_defined_once(self) -> None:
        names: dict[str, set[str]] = {}
        for module in MODULES.keys() - {MADE}:
            for name in definitions(module):
                names.setdefault(name, set()).add(module)
        self.same({name for name, places in names.items() if len(places) > 1} - TOOLS, TWICE)

    def test_no_line_is_read(self) -> None:
        self.assertTrue(reads(re.compile(rb"\[[0-9]+\] .* ([0-9.]+): (sched_[a-z]+):"), LINES[0]))
        some = [one for one in MODULES if folder_of(one) in ("trace", "desk", "waiting", "explain", "view")]
        self.same([one for one in some if any(reads(way, line) for way in patterns(one) for line in LINES)], PATTERNS)


if __name__ == "__main__":
    sys.exit(main())
