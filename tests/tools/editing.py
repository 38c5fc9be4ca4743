#!/usr/bin/env python3
"""Checks that build/edits refuses mistakes, and reports what is none.

    editing.py > WHAT WENT WRONG

The functions of a made-up source are where they were put by hand. Then build/edits tries edits of a small crate: mistakes in a
function, in a method, in a trait's method and in a constant, each with an edit in the same place that means the same; an edit
whose proof file only mentions a name that is gone; a loop for which nothing is known; and edits that can't be applied. The last
line says how many of these hold, or that nothing is tried, if rt is not on the PATH.
"""

import re
import shutil
import subprocess
import sys
import tempfile
from pathlib import Path
from typing import Iterator, NamedTuple

# Nothing is written beside the sources.
sys.dont_write_bytecode = True

ROOT = Path(__file__).resolve().parents[2]
sys.path.insert(0, str(ROOT / "build"))

import sources

Told = Iterator[tuple[str, bool]]

# Each function that is found is named after `found_`; nothing else is one.
SOURCE = """//! fn not_this() { }
ghost use A.{◌≡◌};

/* fn nor_this() { } */
const TEXT: &str = "fn in_a_text() { \\" } ";
const RAW: &str = r#"fn raw() { " } "#;
const BRACE: char = '{';

/// Comment.
#[inline]
pub fn found_first<'a, T: Into<u8>>(x: &'a [T], f: impl Fn(u8) -> u8) -> u8
where
    T: Copy,
    requires { (λ x. x) { } ≡ 1 }
    ensures ok { { b } }
    ensures { c }
{
    let closing = '}';
    if x.is_empty() { f(1) } else { /* } */ 2 }
}

pub trait Reads<T> {
    fn declared(&self) -> u8
        requires { a };

    fn found_default(&self) -> u8 {
        1
    }
}

impl<'a, T: Fn(u8) -> u8> Reads<T> for crate::deep::Reader<'a, T> {
    fn found_of_trait(&self) -> u8 { 2 }
}

impl<T> Reader<T> {
    #[cycle(round)]
    fn found_in_cycle(&self) -> u8 { 3 }
}
"""
# Their names, the types that they are methods of, whether a trait has them, and their cycles.
FUNCTIONS = [
    (["found_first"], "", False, ""),
    (["Reads", "found_default"], "", True, ""),
    (["ReaderReads", "found_of_trait"], "Reader", True, ""),
    (["Reader", "found_in_cycle"], "Reader", False, "round"),
]

LIB = """//! Functions on which edits are tried.
#![tactic(auto)]

ghost use Rattle.std.specs.Prelude.{◌≡◌, ◌+◌, ◌≤◌, ◌<◌};

mod steps;

pub use crate::steps::Steps;

/// How far a step goes.
const STEP: u32 = 5;

/// A value that can be raised.
pub trait Raise {
    /// The value after it.
    fn raised(&self) -> u32
        ensures { result ≤ 200 };
}

impl Raise for Steps {
    fn raised(&self) -> u32
        ensures { result ≡ 100 }
    {
        100
    }
}

/// One more.
pub fn one_more(x: u32) -> u32
    requires { x < 100 }
    ensures { result ≡ x + 1 }
{
    x + 1
}

/// Two more.
pub fn two_more(x: u32) -> u32
    requires { x < 90 }
    ensures { result ≡ x + 2 }
{
    let once = one_more(x);
    one_more(once)
}

/// A step more.
pub fn step_more(x: u32) -> u32
    requires { x < 90 }
    ensures { result ≡ x + 5 }
{
    x + STEP
}
"""
STEPS = """//! Steps that are counted.

ghost use Rattle.std.specs.Prelude.{◌≡◌, ◌+◌, ◌<◌};

/// How many steps were taken.
pub struct Steps {
    /// The number.
    pub count: u32,
}

impl Steps {
    /// Takes a step.
    pub fn take(&mut self)
        requires { self.old.count < 100 }
        ensures { self.new.count ≡ self.old.count + 1 }
    {
        self.count = self.count + 1;
    }
}
"""
ANSWERS = """-- What two steps of one come to.
use Rattle.std.proofs.Common.{◌≡◌, ◌+◌, ◌*◌, ◌<◌, arith, ℕ}
use Rattle.low.proofs.two_more.Goals as goal

pub returns : goal.returns
returns c = omega (arith, c.one_more.ensures, c.one_more-once.ensures)
"""


class Tried(NamedTuple):
    """An edit of the crate, and what is to be said of it: nothing if it is refused, or why it is not."""

    name: str
    file: str
    pairs: list[tuple[str, str]]
    why: str


EDITS = [
    Tried("adds_two", "lib", [("    x + 1", "    x + 2")], ""),
    Tried("adds_one_from_the_left", "lib", [("    x + 1", "    1 + x")], "it is proved"),
    Tried("counts_two", "steps", [("self.count + 1;", "self.count + 2;")], ""),
    Tried("counts_one_from_the_left", "steps", [("self.count + 1;", "1 + self.count;")], "it is proved"),
    Tried("steps_once", "lib", [("    one_more(once)", "    { one_more(once); once }")], ""),
    Tried("name_is_gone", "lib", [("let once =", "let first ="), ("one_more(once)", "one_more(first)")], "not proved"),
    Tried(
        "loop_of_which_nothing_is_known",
        "lib",
        [("one_more(once)", "{ let mut y = x; while y < once { y += 1; } y + 1 }")],
        "no proof",
    ),
    Tried("raises_too_far", "lib", [("        100", "        101")], ""),
    Tried("raises_in_two", "lib", [("        100", "        50 + 50")], "it is proved"),
    Tried("longer_step", "lib", [("STEP: u32 = 5", "STEP: u32 = 6")], ""),
    Tried("step_in_two", "lib", [("STEP: u32 = 5", "STEP: u32 = 2 + 3")], "it is proved"),
]
# Edits that can't be applied, and what is said of them.
BAD = {
    "file: src/lib.rt\nold: x + 1\nnew: x\n": "an old text occurs 2 times in src/lib.rt, and not once",
    "file: src/lib.rt\nold: x + 3\nnew: x\n": "an old text occurs 0 times in src/lib.rt, and not once",
    "file: src/none.rt\nold: x\nnew: y\n": "src/none.rt is no source of the crate",
    "file: src/lib.rt\nold: x + 1\n": "it has a line `file: src/FILE`, and then pairs of lines `old: TEXT` and `new: TEXT`",
}


def of_sources() -> Told:
    """Check which functions are found in the made-up source."""
    found = sources.functions_of(SOURCE)
    told = [(it.names, it.of_type, it.is_of_trait, it.cycle) for it in found]
    yield f"functions of a source: {told}", told == FUNCTIONS
    texts = [SOURCE[it.begin : it.end].strip() for it in found]
    yield f"begin and end of a function: {texts[0]}", texts[0].startswith("/// Comment.") and texts[0].endswith(
        "else { /* } */ 2 }\n}"
    )
    yield f"begin and end of a method: {texts[3]}", texts[3] == "#[cycle(round)]\n    fn found_in_cycle(&self) -> u8 { 3 }"
    yield "types of a source", sources.types_of("struct A; // struct B\npub enum C<T> { D(T) }") == ["A", "C"]
    yield "module of a file", sources.module_of("src/hist/keys.rt") == ["hist", "keys"] and not sources.module_of("src/lib.rt")


def lay_out(root: Path) -> None:
    """Write a repository with the small crate, its edits and the scripts of build."""
    home = root / "crates" / "low"
    for folder in ("src", "proofs/two_more", "edits", "must-fail"):
        (home / folder).mkdir(parents=True)
    shutil.copytree(ROOT / "build", root / "build", ignore=shutil.ignore_patterns("out"))
    (root / "crates.txt").write_text("low:\n")
    (home / "src" / "lib.rt").write_text(LIB)
    (home / "src" / "steps.rt").write_text(STEPS)
    (home / "proofs" / "Lib.antt").write_text("-- No lemmas.\n")
    (home / "proofs" / "two_more" / "Answers.antt").write_text(ANSWERS)
    for number, edit in enumerate(EDITS):
        text = f"file: src/{edit.file}.rt\n" + "".join(f"old: {old}\nnew: {new}\n" for old, new in edit.pairs)
        (home / ("edits" if number % 2 else "must-fail") / f"{edit.name}.edit").write_text(text)


def run(root: Path, *words: str) -> subprocess.CompletedProcess[str]:
    """Run build/edits."""
    command = [str(root / "build" / "edits"), "--gate", *words]
    return subprocess.run(command, stdin=subprocess.DEVNULL, capture_output=True, text=True, check=False)


def of_crate(root: Path) -> Told:
    """Check what is said of the edits of the small crate, and of its functions as they are."""
    ran = run(root, "--verbose")
    for edit in EDITS:
        lines = re.findall(rf"^edits: low/{edit.name}\.edit: (.*)$", ran.stdout, re.MULTILINE)
        want = f"NOT REFUSED: {edit.why}" if edit.why else ""
        is_said = len(lines) == 1 and (lines[0].startswith(want) if want else not lines[0].startswith("NOT"))
        yield f"{edit.name}: {lines or ran.stdout + ran.stderr}", is_said
    wrong = sum(bool(edit.why) for edit in EDITS)
    yield "the counts", ran.stdout.endswith(f"\n{len(EDITS) - wrong} passed, {wrong} failed\n") and ran.returncode == 1
    ran = run(root, "--control", "--verbose")
    yield f"the control: {ran.stdout}", ran.stdout.endswith("\n3 passed, 0 failed\n") and ran.returncode == 0
    ran = run(root, "--control")
    yield f"the control again: {ran.stdout}", "as before" in ran.stdout and ran.returncode == 0
    (root / "crates" / "low" / "src" / "lib.rt").write_text(LIB.replace("{ result ≡ x + 1 }", "{ result ≡ x + 3 }"))
    ran = run(root, "--control")
    is_said = "low/adds_one_from_the_left.edit: NOT PROVED: no" in ran.stdout and ran.returncode == 1
    yield f"a control that is not proved: {ran.stdout}", is_said
    (root / "crates" / "low" / "src" / "lib.rt").write_text(LIB)


def of_bad_edits(root: Path) -> Told:
    """Check what is said of edits that can't be applied."""
    for text, why in BAD.items():
        (root / "crates" / "low" / "edits" / "bad.edit").write_text(text)
        ran = run(root)
        yield f"a bad edit: {ran.stdout}{ran.stderr}", ran.returncode == 2 and ran.stderr == f"edits: low/bad.edit: {why}\n"
    ran = run(root, "none")
    yield f"no such crate: {ran.stderr}", ran.returncode == 2 and ran.stderr.endswith("no such crate: none\n")


def main() -> int:
    """Check all of this, and return the exit status."""
    things = list(of_sources())
    if shutil.which("rt"):
        with tempfile.TemporaryDirectory() as folder:
            lay_out(Path(folder))
            things += [*of_crate(Path(folder)), *of_bad_edits(Path(folder))]
    else:
        print("not tried: edits that must fail, since rt is not on the PATH")
    wrong = [text for text, holds in things if not holds]
    print("\n".join([*wrong, f"{len(things) - len(wrong)} of {len(things)} things hold"]))
    return int(bool(wrong))


if __name__ == "__main__":
    sys.exit(main())
