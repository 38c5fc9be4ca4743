"""Compiles the programs over the C interface that are asked: that of the examples, and that of tests which runs scripts."""

from __future__ import annotations

import contextlib
import os
import subprocess
from pathlib import Path

# The checkout in which this stands.
OWN = Path(__file__).resolve().parents[2]
# The folder of the programs, whose names in questions begin with it, and their sources.
FOLDER = "c"
TESTED = "script commands bytes whole heap numbers numbers_events numbers_edits".split()
SOURCES = {
    "waits": ["examples/c/waits.c"],
    "script": [f"tests/library/c/{name}.c" for name in TESTED],
}


def library_of(root: Path) -> Path:
    """Return the library of a checkout, or the one that HISTDESK_LIBRARY names."""
    return Path(os.environ.get("HISTDESK_LIBRARY") or root / "crates" / "ft_c" / "out" / "libhistdesk.so.0").resolve()


def compile_all(root: Path, folder: Path) -> None:
    """Compile the programs of a checkout into a folder. One that can't be compiled is missing there: this shows in the answers.

    Parameters
    ----------
    root
        The checkout; if it has no header, as a copy of the package, the sources of this one are compiled.
    folder
        The folder, which is made.
    """
    folder.mkdir()
    library = library_of(root)
    base = root if (root / "include").exists() else OWN
    for name, sources in SOURCES.items():
        paths = [str(base / source) for source in sources]
        words = ["cc", "-std=c11", "-O1", f"-I{base / 'include'}", "-o", str(folder / name), *paths]
        with contextlib.suppress(OSError):
            subprocess.run([*words, str(library), f"-Wl,-rpath,{library.parent}"], check=False)
