#!/usr/bin/env python3
"""Tests that the schema of the library's interface, what is made of it, and the sources of the engine say the same.

    python_schema.py [TEST]...

What is made must be up to date; a compiler of C must have the sizes, offsets and numbers that Python has; and what is changed
in a copy of the schema, of what is made, or of the engine's sources must be found. The library isn't needed.
"""

import ctypes
import json
import re
import shutil
import subprocess
import sys
import tempfile
import unittest
from pathlib import Path

# Nothing is written beside the sources.
sys.dont_write_bytecode = True

ROOT = Path(__file__).resolve().parents[2]
NATIVE = ROOT / "python" / "histdesk" / "native"
HEADER = ROOT / "include" / "histdesk.h"
MADE = ["include/histdesk.h", "man/histdesk.3", "docs/REFERENCE.md", "build/libhistdesk.map"]
MADE.append("python/histdesk/native/interface.py")
sys.path.insert(0, str(ROOT / "python"))

from python_runner import main

from histdesk.native import interface

try:
    import numpy
except ImportError:
    numpy = None

STRICT = ["-Wall", "-Wextra", "-Werror", "-pedantic"]
COMPILERS = [
    ["gcc", "-xc", "-std=c11"],
    ["g++", "-xc++", "-std=c++17"],
    ["clang", "-xc", "-std=c11"],
    ["clang++", "-xc++", "-std=c++17"],
]
CC = shutil.which("gcc") or shutil.which("cc")
with_tomllib = unittest.skipIf(sys.version_info < (3, 11), "build/schema needs Python 3.11")
# The members of structs, as C and JSON have them: each value once, and one that needs all of its bits.
PART = '-5000000000, 9000000000, "ab", 2, 3'
VALUES = {
    "place": "5000000000, 4000000001, 4000000002",
    "row": f'3, {PART}, 1, 2, "", 0, 0, {PART}, 5000000003, 11, 12, 5000000013',
    "latency": "5000000000, 1, 2, 5000000003, 4, 5, 5000000006",
    "event": '5000000000, 1, 2, 3, -4, -5, -6, -7, -8, -9, "a", 1, "bb", 2, "ccc", 3, "R+", 2',
    "trigger": "4000000001, 4",
    "changed": f'5000000001, 2, {PART}, {PART}, 0, 0, "", 0, 0',
    "wait": '5000000000, 1, 2, 5000000003, 4, 5, -6, -7, 4000000001, 8, 9, 10, "abc", 3',
    "hole": "5000000001, 5000000002, 5000000003, 5000000004, 4000000001, 1, 0, 1, 0",
    "text_line": "5000000001, 5000000002, 4000000001, 4, 5, 6",
    "left_out": "5000000001, 5000000002",
    "task_sum": "5000000001, 5000000002, 5000000003, 5000000004, 5000000005, 5000000006, -7, 8",
    "cpu_sum": "5000000001, 5000000002, 5000000003, 5000000004, 5000000005, 4000000001, 7",
}
# In a file of the schema: what is there, what is planted, and what is said of it.
SCHEMA = [
    ("histdesk", '["pid", "i32", "pid", "not 0"]', '["pid", "u32", "pid", "not 0"]', "WaitLayout"),
    ("histdesk", '  ["slept", "u64", "switch"', '# ["slept", "u64", "switch"', "TaskSumLayout"),
    ("histdesk", '["after", "u64", "stamp"', '["since", "u64", "stamp"', "HoleLayout"),
    ("histdesk", '  ["cpu", "u32", "cpu", "the CPU"],\n', "", "CpuSumLayout"),
    ("histdesk", '["saved", "place"], ["read", "place"]', '["read", "place"], ["saved", "place"]', "LatencyLayout"),
    ("histdesk", '["has_cpu", "bool"]', '["has_cpu", "bool"], ["more", "u64", "event"]', "HoleLayout"),
    ("histdesk", '["part", "part[3]"]', '["part", "part[4]"]', "KeyLayout"),
    ("histdesk", "layouts.rt LeftOutLayout", "layouts.rt LeftOut", "LeftOutLayout"),
    ("histdesk", '[255, "CLOSED"', '[254, "CLOSED"', "CLOSED"),
    ("histdesk", '[1, "LIKELY"', '[3, "LIKELY"', "Likely"),
    ("histdesk", '[1, "LIKELY"', '[2, "LIKELY"', "2 twice"),
    ("histdesk", '[3, "TEXT"', '[4, "TEXT"', "Text"),
    ("histdesk", '[5, "OTHER"', '[5, "FURTHER"', "OTHER"),
    ("histdesk", '  [7, "TORN"', '# [7, "TORN"', "Torn"),
    (
        "histdesk",
        '[20, "NOT_JOINED", "of waits: the part can\'t follow the text: fault"],\n',
        '[20, "NOT_JOINED", ""],\n  [21, "UNKNOWN", ""],\n',
        "nothing has the number of UNKNOWN",
    ),
    ("histdesk", '["stamp", "u64", "stamp"]', '["stamp", "u64", "ms"]', "unknown unit ms"),
    ("histdesk", '["stamp", "u64", "stamp"]', '["stamp", "u64"]', "stamp has no unit"),
    ("histdesk", '["stamp", "u64", "stamp"]', '["stamp", "out u64", "stamp"]', "stamp has the form of an argument"),
    ("histdesk", "[enum.cause]", "[enum.cause", "schema/histdesk.toml: "),
    ("histdesk", '"u32:doubt"', '"u32:dout"', "unknown type u32:dout"),
    ("histdesk", '["text", "name"]', '["text", "nam"]', "unknown type nam"),
    ("calls", "Removes an attached trigger.", "Removes the trigger of HISTDESK_SWITCHES.", "HISTDESK_SWITCHES"),
    (
        "faults",
        '[5, "NumberRange", "a number is out of range"]',
        '[8, "NumberRange", "a number is out of range"]',
        "NumberRange",
    ),
    ("faults", '  [10, "LeftOut"', '# [10, "LeftOut"', "LeftOut"),
    ("calls", "[calls.waits.waits_last]", "[calls.waits.waits_latest]", "histdesk_waits_last"),
    ("calls", '["reports", "bool"]', '["reports", "u8"]', "histdesk_strike_events"),
    ("calls", '["count", "out u64", "lines", "how many"]', '["count", "in u64", "lines"]', "histdesk_lines"),
    ("calls", '["stamp", "out u64", "stamp"], ', "", "histdesk_waits_last"),
    (
        "calls",
        '[["cpu", "u32", "cpu"], ["line", "u32", "line"]]',
        '[["line", "u32", "line"], ["cpu", "u32", "cpu"]]',
        "histdesk_strike",
    ),
    ("calls", 'copies = "latency"', 'copies = "row"', "histdesk_latencies_copy"),
    ("calls", 'returns = "bool"', 'returns = "code"', "histdesk_is_deferred"),
    ("calls", "deskless = true", "deskless = false", "histdesk_refusal_text"),
    ("calls", 'codes = ["NO_TRIGGER", "IN_USE"]', 'codes = ["NO_TRIGGER", "USED"]', "USED"),
    ("calls", "spares_memory = true", "spare_memory = true", "unknown spare_memory"),
    ("calls", '["events", "out u64", "event", "how many events it had"]', '["events", "out u64", "evnt"]', "unknown unit evnt"),
]
# The same for a source of the engine.
ENGINE = [
    ("ft_layout/src/places", "    pub line: u32,", "    pub line: u64,", "LineLayout"),
    ("ft_layout/src/names", "    pub length: u8,\n", "", "NameLayout"),
    (
        "ft_layout/src/rows",
        "    pub hits: u64,",
        "    pub hits: u64, pub more: u64,",
        "an unknown form: pub hits: u64, pub more: u64,",
    ),
    ("ft_stream/src/summing", "#[repr(C)]\n", "", "TaskSumLayout"),
    ("ft_stream/src/summing", "#[repr(C)]\n", "#[repr(C, packed)]\n", "#[repr(C, packed)]"),
    ("ft_session/src/session", "pub struct Session", "#[repr(C)]\npub struct Session", "Session"),
    ("ft_base/src/refused", "Refused::Full => 7,", "Refused::Full => 8,", "Full is 8"),
    ("ft_stream/src/fault", "JoinFault::Torn => 7,", "JoinFault::Torn => 7 + 1,", "TORN"),
    ("ft_lines/src/layouts", "const SKIPPED: u32 = 253;", "const SKIPPED: u32 = 252;", "SKIPPED is 252"),
    (
        "ft_layout/src/refusals",
        "    LineFault::NoTask,\n    LineFault::BadCpu,\n",
        "    LineFault::BadCpu,\n    LineFault::NoTask,\n",
        "BadCpu",
    ),
    ("ft_layout/src/rows", "kind: 2,", "kind: 3,", "Bucket is 3"),
    ("ft_c/src/calls", "    events: &mut u64,", "    events: &mut u32,", "histdesk_load"),
    (
        "ft_c/src/desks",
        'pub extern "C" fn histdesk_forget(alloc: Global,',
        'pub extern "C" fn histdesk_forget(all: Global,',
        "allocator",
    ),
    ("ft_c/src/waits", 'pub extern "C" fn histdesk_waits_free', "pub fn histdesk_waits_free", "histdesk_waits_free"),
]


def run(*words):
    return subprocess.run([str(word) for word in words], capture_output=True, text=True, check=False)


def schema(root, *words):
    """Return what build/schema of a folder prints, and its exit status."""
    ran = run(sys.executable, "-B", root / "build" / "schema", *words)
    return ran.stdout + ran.stderr, ran.returncode


def without_comments():
    return re.sub(r"/\*.*?\*/", "", HEADER.read_text("utf-8"), flags=re.DOTALL)


def structs_of_header():
    """Return the structs of the header, each with its members."""
    found = re.findall(r"typedef struct (\w+) \{\n(.*?)\n\} \1;", without_comments(), re.DOTALL)
    return {name: re.findall(r"(\w+)(?:\[\d+\])?;", body) for name, body in found}


def class_of(name):
    """Return the class of Python for a struct of C."""
    return interface.Handle if name == "histdesk" else getattr(interface, name[len("histdesk") :].title().replace("_", ""))


def compiled(folder, name, program, *options):
    """Return the file that a program in C becomes."""
    source, made = Path(folder, f"{name}.c"), Path(folder, name)
    source.write_text(f'#include "histdesk.h"\n#include <stdio.h>\n#include <string.h>\n{program}')
    ran = run(CC, "-std=c11", *STRICT, f"-I{HEADER.parent}", *options, "-o", made, source)
    assert ran.returncode == 0, ran.stderr
    return made


class Made(unittest.TestCase):
    """What is made of the schema."""

    @with_tomllib
    def test_up_to_date(self):
        self.assertEqual(schema(ROOT, "--check"), ("", 0))

    def test_exported_names(self):
        """The linker exports what the header declares, and nothing else, under the number of the soname."""
        text = (ROOT / "build" / "libhistdesk.map").read_text("utf-8")
        node, names = re.fullmatch(r"#.*\n(\w+) \{\nglobal:\n((?: +\w+;\n)+)local:\n +\*;\n\};\n", text).groups()
        declared = re.findall(r"^\w+ (histdesk_\w+)\(", without_comments(), re.MULTILINE)
        self.assertEqual(re.findall(r"\w+", names), declared)
        soname = re.search(r"-soname libhistdesk\.so\.(\d+)", (ROOT / "build" / "link").read_text("utf-8"))[1]
        self.assertEqual(node, f"HISTDESK_{soname}")

    def test_loads_little(self):
        """The module loads neither numpy nor typing."""
        program = f"import sys; sys.path.insert(0, {str(NATIVE)!r}); import interface; print(sorted(sys.modules))"
        ran = run(sys.executable, "-B", "-I", "-S", "-c", program)
        self.assertIn("'interface'", ran.stdout, ran.stderr)
        self.assertNotRegex(ran.stdout, "'(numpy|typing|re|histdesk)'")

    def test_names_in_the_header(self):
        """What the header says by hand names what it declares."""
        text, plain = HEADER.read_text("utf-8"), without_comments()
        declared = set(re.findall(r"\bhistdesk_\w+|\bHISTDESK_\w+", plain))
        self.assertEqual(set(re.findall(r"\bhistdesk_\w+|\bHISTDESK_\w+", text)) - declared, set())


@unittest.skipUnless(CC, "there is no compiler of C")
class Compiled(unittest.TestCase):
    """What a compiler makes of the header."""

    def setUp(self):
        folder = tempfile.TemporaryDirectory()
        self.addCleanup(folder.cleanup)
        self.folder = folder.name

    def test_languages(self):
        here = [words for words in COMPILERS if shutil.which(words[0])]
        for words in here:
            with self.subTest(words[0]):
                ran = run(*words, *STRICT, "-fsyntax-only", HEADER)
                self.assertEqual((ran.returncode, ran.stderr), (0, ""))
        self.assertTrue(here)

    def test_sizes_and_offsets(self):
        structs = structs_of_header()
        self.assertEqual(len(structs), len([kind for kind in vars(interface).values() if is_struct(kind)]))
        prints = [
            f'printf("%zu %zu %zu\\n", offsetof({name}, {member}), sizeof(({name} *)0)->{member}, sizeof({name}));'
            for name, members in structs.items()
            for member in members
        ]
        ran = run(compiled(self.folder, "sizes", f"int main(void) {{ {' '.join(prints)} return 0; }}"))
        expected = []
        for name, members in structs.items():
            kind = class_of(name)
            self.assertEqual([member for member, _ in kind._fields_], members, name)
            places = [getattr(kind, member) for member in members]
            expected += [f"{place.offset} {place.size} {ctypes.sizeof(kind)}" for place in places]
        self.assertEqual(ran.stdout.split("\n"), [*expected, ""])

    def test_numbers(self):
        names = re.findall(r"^    HISTDESK_(\w+) = \d+,?\s*$", without_comments(), re.MULTILINE)
        prints = " ".join(f'printf("%d ", HISTDESK_{name});' for name in names)
        ran = run(compiled(self.folder, "numbers", f"int main(void) {{ {prints} return 0; }}"))
        self.assertEqual([int(number) for number in ran.stdout.split()], [getattr(interface, name) for name in names])
        self.assertGreater(len(names), 40)

    def test_python_reads_what_c_writes(self):
        """Structs that come in great numbers, by ctypes, struct and numpy."""
        writes = "".join(
            f"{{ histdesk_{name} it = {{ {text} }}; fwrite(&it, sizeof it, 1, stdout); }}" for name, text in VALUES.items()
        )
        program = compiled(self.folder, "writes", f"int main(void) {{ {writes} return 0; }}", "-Wno-missing-braces")
        content = subprocess.run([program], stdout=subprocess.PIPE, check=True).stdout
        self.assertEqual({name.upper() for name in VALUES}, {name for name, form in vars(interface).items() if is_form(form)})
        for name, text in VALUES.items():
            with self.subTest(name):
                form = getattr(interface, name.upper())
                own, content = content[: form.size], content[form.size :]
                values = [one.encode() if isinstance(one, str) else one for one in json.loads(f"[{text}]")]
                self.assertEqual(flattened(form.unpack(own)), values)
                self.assertEqual(flattened([class_of(f"histdesk_{name}").from_buffer_copy(own)]), values)
                if numpy:
                    kind = numpy.dtype(getattr(interface, f"{name.upper()}_FIELDS"), align=True)
                    self.assertEqual(flattened(numpy.frombuffer(own, kind)[0].item()), values)
        self.assertEqual(content, b"")


def is_form(form):
    return type(form).__name__ == "Struct"


def is_struct(kind):
    return isinstance(kind, type) and issubclass(kind, ctypes.Structure) and kind is not ctypes.Structure


def flattened(things):
    """Return the numbers and texts in tuples, arrays and structs, without the zeros after texts."""
    flat = []
    for thing in things:
        if isinstance(thing, ctypes.Structure):
            flat += flattened(getattr(thing, name) for name, _ in thing._fields_)
        elif isinstance(thing, ctypes.Array) and thing._type_ is ctypes.c_uint8:
            flat.append(bytes(thing).rstrip(b"\0"))
        elif isinstance(thing, bytes):
            flat.append(thing.rstrip(b"\0"))
        elif hasattr(thing, "__len__"):
            flat += flattened(thing)
        else:
            flat.append(thing)
    return flat


def crates_of(path):
    """Return the crates that a file of the schema names."""
    return set(re.findall(r'"(ft_\w+)/src/', path.read_text("utf-8"))) if path.suffix == ".toml" else set()


@with_tomllib
class Planted(unittest.TestCase):
    """Changes are found in a copy of the schema, of what is made, and of the engine."""

    @classmethod
    def setUpClass(cls):
        folder = tempfile.TemporaryDirectory()
        cls.addClassCleanup(folder.cleanup)
        cls.root = Path(folder.name)
        files = [*MADE, *(f"schema/{name}.toml" for name in ("histdesk", "faults", "calls")), "build/schema"]
        files += [path.relative_to(ROOT).as_posix() for path in ROOT.glob("build/*.py")]
        # Reading only the crates that are changed here takes less time.
        crates = {name.partition("/")[0] for name, *_ in ENGINE}.union(*(crates_of(ROOT / name) for name in files))
        files += [path.relative_to(ROOT).as_posix() for name in crates for path in ROOT.glob(f"crates/{name}/src/**/*.rt")]
        for name in files:
            (cls.root / name).parent.mkdir(parents=True, exist_ok=True)
            shutil.copy(ROOT / name, cls.root / name)

    def found(self, name, old, new, makes):
        """Return what is said of a file in which a text is replaced once, after all was made of the schema if `makes`."""
        kept = {file: (self.root / file).read_text("utf-8") for file in {name, *MADE}}
        self.assertTrue(old in kept[name], old)
        try:
            (self.root / name).write_text(kept[name].replace(old, new, 1), "utf-8")
            said, status = schema(self.root) if makes else ("", 0)
            self.assertEqual(said == "", status == 0)
            if status == 0:
                said, status = schema(self.root, "--check")
            self.assertEqual(said == "", status == 0)
            self.assertNotIn("Traceback", said)
            return said
        finally:
            for file, text in kept.items():
                (self.root / file).write_text(text, "utf-8")

    def test_nothing_planted(self):
        self.assertEqual(schema(self.root, "--check"), ("", 0))

    def test_schema(self):
        """All that is made follows, but the engine differs, or the schema isn't one."""
        for name, old, new, said in SCHEMA:
            with self.subTest(new):
                self.assertIn(said, self.found(f"schema/{name}.toml", old, new, True))

    def test_made(self):
        for name, old, new in [
            ("include/histdesk.h", "int32_t prio;", "uint32_t prio;"),
            ("include/histdesk.h", "HISTDESK_TORN = 7", "HISTDESK_TORN = 8"),
            ("include/histdesk.h", "/* the task woken, or switched to */", "/* the task woken */"),
            ("include/histdesk.h", "/* ---- Edits. */", "/* ---- Changes. */"),
            ("man/histdesk.3", '"uint64_t *events"', '"uint32_t *events"'),
            (
                "docs/REFERENCE.md",
                "| 6 | `NameLong` | a name is longer than 31 bytes |",
                "| 6 | `NameLong` | a name is too long |",
            ),
            ("build/libhistdesk.map", "    histdesk_hist;\n", ""),
            ("python/histdesk/native/interface.py", '("line", "=u4")', '("line", "=u8")'),
        ]:
            with self.subTest(new):
                self.assertRegex(self.found(name, old, new, False), f"{name} isn't as the schema says|parts begin with")

    def test_words_that_were_not_made(self):
        said = self.found("schema/histdesk.toml", "memory ran out", "no memory", False)
        self.assertEqual(said, "include/histdesk.h isn't as the schema says; build/schema writes it\n")

    def test_engine(self):
        for name, old, new, said in ENGINE:
            with self.subTest(new):
                self.assertIn(said, self.found(f"crates/{name}.rt", old, new, False))


if __name__ == "__main__":
    sys.exit(main())
