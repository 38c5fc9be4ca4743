#!/usr/bin/env python3
"""Checks that the pages about the crates say what there is.

    crates.py > WHAT WENT WRONG

docs/CRATES.md is what build/crates prints, and each file of sources and definitions begins with a sentence. docs/HACKING.md
has each crate in its figure of layers, and none on a lower layer than a crate on which it stands. The functions, types and
definitions that it names are there, and so is the edit that it shows. The last line says how many of these hold.
"""

import importlib.machinery
import importlib.util
import re
import sys
from pathlib import Path
from types import ModuleType
from typing import Dict, Iterator, List, Tuple

# Nothing is written beside the sources.
sys.dont_write_bytecode = True

ROOT = Path(__file__).resolve().parents[2]
WORD = re.compile(r"\w+")
# A path, and names of what stands in its file.
WITHIN = re.compile(r"`([\w.-]+/[\w./-]+)` \(((?:`\w+`(?:, )?)+)")
Told = Iterator[Tuple[str, bool]]


def tool() -> ModuleType:
    """Return build/crates as a module, which finds the modules beside it."""
    sys.path.insert(0, str(ROOT / "build"))
    loader = importlib.machinery.SourceFileLoader("crates", str(ROOT / "build" / "crates"))
    spec = importlib.util.spec_from_loader("crates", loader)
    assert spec
    module = importlib.util.module_from_spec(spec)
    loader.exec_module(module)
    return module


CRATES = tool()
BELOW: Dict[str, List[str]] = CRATES.read_crates()


def text_of(path: str) -> str:
    return (ROOT / path).read_text(encoding="utf-8")


def table() -> Told:
    """Check the generated page, and the sentences that it and the listings are made of."""
    same = text_of("docs/CRATES.md") == CRATES.table()
    yield "docs/CRATES.md is not what build/crates prints", same
    for file in (file for crate in BELOW for file in CRATES.files_of(crate)):
        yield f"{file.relative_to(ROOT)} does not begin with a sentence", bool(CRATES.first_sentence(file))


def layers(page: str) -> Told:
    """Check the figure of layers, which has the highest first."""
    figure = page.partition("\n## Layers\n")[2].split("```")[1]
    rows = [line for line in figure.split("\n") if line[:1].strip()]
    layer = {crate: len(rows) - at for at, row in enumerate(rows) for crate in re.findall(r"\w+", row) if crate in BELOW}
    for crate in BELOW:
        yield f"HACKING.md: no layer has {crate}", crate in layer
        too_low = [other for other in BELOW[crate] if layer.get(other, 0) > layer.get(crate, 0)]
        yield f"HACKING.md: {crate} stands below {', '.join(too_low)}, on which it stands", not too_low


def names(page: str) -> Told:
    """Check what stands in backquotes as the name of a function, a type or a definition."""
    words = {crate: {word for file in CRATES.files_of(crate) for word in WORD.findall(text_of(str(file)))} for crate in BELOW}
    known = set(BELOW).union(*words.values())
    # The last sections speak of other programs too.
    for name in sorted(set(re.findall(r"`(\w+(?:::\w+)*)`", page.partition("\n## Conventions\n")[0]))):
        first, last = name.split("::")[0], name.split("::")[-1]
        yield f"HACKING.md names {name}, which no crate has", last in words.get(first, known) or name in BELOW
    for path, inside in WITHIN.findall(page):
        found = set(WORD.findall(text_of(f"crates/{path}")))
        for name in WORD.findall(inside):
            yield f"HACKING.md names {name} of {path}, which has none", name in found
    edits = {file.read_text(encoding="utf-8") for file in ROOT.glob("crates/*/*/*.edit")}
    for block in re.findall(r"^```\n(file: .*?)^```", page, re.MULTILINE | re.DOTALL):
        yield "HACKING.md shows an edit that no crate has", block in edits


def main() -> int:
    page = text_of("docs/HACKING.md")
    things = [*table(), *layers(page), *names(page)]
    wrong = [line for line, holds in things if not holds]
    print("\n".join([*wrong, f"{len(things) - len(wrong)} of {len(things)} things hold"]))
    return 1 if wrong else 0


sys.exit(main())
