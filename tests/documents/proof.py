#!/usr/bin/env python3
"""Checks docs/PROOF.md against the sources.

    proof.py > WHAT WENT WRONG
    proof.py --write            makes its table of sizes anew

The page lists the definitions that must be believed: from the contracts that carry the theorem, the imports of definitions are
followed from file to file; each file met is in the list once, and no other is. None of them is in a folder specs/inner,
where definitions for private functions stand. What it quotes stands in a source or a definition, whatever its line breaks. Each
figure of its table of sizes is within a twentieth of what is there. The last line says how many files, quotes and figures
hold.
"""

import glob
import os
import re
import sys
from collections import Counter
from typing import List, Optional, Set, Tuple

ROOT = os.path.join(os.path.dirname(os.path.realpath(__file__)), "..", "..")
CRATES = os.path.join(ROOT, "crates")
PAGE = os.path.join(ROOT, "docs", "PROOF.md")
CARRIERS = [
    "ft_desk/src/in_memory.rt",
    "ft_desk/src/running.rt",
    "ft_watch/src/program.rt",
    "ft_answers/src/board.rt",
]
IMPORT = re.compile(r"^ *(?:ghost )?(?:pub )?use Rattle\.(\w+)\.specs\.((?:inner\.)?\w+)\b", re.MULTILINE)
TABLE = re.compile(r"(?<=\n\n)\| What \| Files \| Lines \|\n(?:\|.*\n)+")


def text_of(path: str) -> str:
    with open(path, encoding="utf-8") as file:
        return file.read()


def of_crate(path: str) -> str:
    return text_of(os.path.join(CRATES, path))


# ---- the definitions


def home(crate: str, module: str) -> Optional[str]:
    """Return the file of definitions that a crate knows by this name, its own or one that it passes on; None if there is none:
    what the prover makes of Rust's own types has no file, and what the kit has is not listed."""
    file, lib = f"{crate}/specs/{module.replace('.', '/')}.antt", f"{crate}/specs/Lib.antt"
    if os.path.exists(os.path.join(CRATES, file)):
        return file
    if not os.path.exists(os.path.join(CRATES, lib)):
        return None
    passed_on = (other for other, name in IMPORT.findall(of_crate(lib)) if name == module)
    return next((home(other, module) for other in passed_on), None)


def imports(path: str) -> List[str]:
    """Return the files of definitions that a file imports."""
    homes = (home(crate, module) for crate, module in IMPORT.findall(of_crate(path)))
    return [file for file in homes if file]


def files_in_reach() -> Set[str]:
    files: Set[str] = set()
    left = [file for carrier in CARRIERS for file in imports(carrier)]
    while left:
        file = left.pop()
        if file not in files:
            files.add(file)
            left += imports(file)
    return files


def definitions(page: str) -> Tuple[int, List[str]]:
    files, entries = files_in_reach(), Counter(re.findall(r"`(\w+/specs/[\w/]+\.antt)`", page))
    wrong = [f"PROOF.md lacks {file}" for file in sorted(files - set(entries))]
    wrong += [f"PROOF.md needs no {file}" for file in sorted(set(entries) - files)]
    wrong += [f"PROOF.md lists {file} {count} times" for file, count in sorted(entries.items()) if count > 1]
    wrong += [f"{file} is among the words of private functions" for file in sorted(files) if "/inner/" in file]
    return len(files), wrong


# ---- what is quoted


def on_one_line(text: str) -> str:
    return " ".join(text.split())


def quotes(page: str) -> Tuple[int, List[str]]:
    paths = glob.glob(os.path.join(CRATES, "*", "src", "*.rt")) + glob.glob(os.path.join(CRATES, "*", "specs", "*.antt"))
    sources = [on_one_line(text_of(path)) for path in paths]
    blocks = re.findall(r"^```rattle\n(.*?)^```$", page, re.MULTILINE | re.DOTALL)
    quoted = [on_one_line(text) for block in blocks for text in block.split("\n\n")]
    wrong = [f"no source has what PROOF.md quotes: {text}" for text in quoted if not any(text in source for source in sources)]
    return len(quoted), wrong


# ---- sizes


def files_by_row() -> List[Tuple[str, List[str]]]:
    """Return what the table has rows for, each with its files."""

    def below(form: str, folder: str = os.path.join(CRATES, "*")) -> List[str]:
        paths = glob.glob(os.path.join(folder, form), recursive=True)
        return [os.path.relpath(path, CRATES) for path in paths]

    tests = below("src/**/*.rt.in", os.path.join(ROOT, "tests", "crates")) + below(
        "src/**/*.rt", os.path.join(CRATES, "askagain")
    )
    return [
        ("sources (`src/`)", sorted(set(below("src/**/*.rt")) - set(tests))),
        ("tests in Rattle (`tests/crates`, `askagain`)", tests),
        ("definitions (`specs/`)", below("specs/**/*.antt")),
        ("of these, what must be believed", sorted(files_in_reach())),
        ("proofs (`proofs/`)", below("proofs/**/*.antt")),
        ("edits that must fail (`edits/`, `must-fail/`)", below("edits/*.edit") + below("must-fail/*.edit")),
    ]


def sizes() -> List[Tuple[str, int, int]]:
    return [(what, len(paths), sum(of_crate(path).count("\n") for path in paths)) for what, paths in files_by_row()]


def table() -> str:
    rows = [f"| {what} | {files:,} | {round(lines, -2):,} |\n" for what, files, lines in sizes()]
    return "| What | Files | Lines |\n|---|---|---|\n" + "".join(rows)


def figures(page: str) -> Tuple[int, List[str]]:
    table = {
        what: [int(figure.replace(",", "")) for figure in (files, lines)]
        for what, files, lines in re.findall(r"^\| (.*) \| ([\d,]+) \| ([\d,]+) \|$", page, re.MULTILINE)
    }
    wrong = []
    for what, files, lines in sizes():
        for real, figure in zip((files, lines), table.get(what, [0, 0])):
            if abs(figure - real) * 20 > real:
                wrong.append(f"PROOF.md says {figure} of {what}, which are {real}: proof.py --write")
    return 2 * len(sizes()), wrong


def main() -> int:
    page = text_of(PAGE)
    if sys.argv[1:] == ["--write"]:
        with open(PAGE, "w", encoding="utf-8") as file:
            file.write(TABLE.sub(lambda _: table(), page))
        return 0
    results = [definitions(page), quotes(page), figures(page)]
    count, wrong = sum(things for things, _ in results), [line for _, lines in results for line in lines]
    print("\n".join([*wrong, f"{count - len(wrong)} of {count} things hold"]))
    return 1 if wrong or not all(things for things, _ in results) else 0


sys.exit(main())
