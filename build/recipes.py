"""How the kit proves a crate and compiles it: the commands for that."""

import re
import shlex
import shutil
from collections.abc import Callable
from pathlib import Path
from typing import NamedTuple

import graph

TARGET = "x86_64-unknown-linux-gnu"
# The logic by which all crates were proved, and the kits of it that were used. Documents name them.
LOGIC = "dac8208d650f15bf"
KITS = ("rattle-kit-13b", "rattle-kit-13f")


class NoKit(Exception):
    """The kit's rt is not on the PATH."""


class Kit(NamedTuple):
    """The Rattle kit."""

    folder: Path

    @property
    def name(self) -> str:
        """Which kit this is."""
        file = self.folder / "KIT-ID"
        return file.read_text(encoding="utf-8") if file.exists() else ""

    @property
    def logic(self) -> str | None:
        """The sum of its logic, by which it proves; None if it doesn't say."""
        match = re.search(r"\blogic ([0-9a-f]+)", self.name)
        return match[1] if match else None

    @property
    def backend(self) -> list[str]:
        """The arguments for a crate that is compiled."""
        return ["--toolchain", f"{self.folder}/toolchain", "--backend", "llvm"]


def find_kit() -> Kit:
    """Return the kit whose rt is on the PATH.

    Raises
    ------
    NoKit
        There is none.
    """
    rt = shutil.which("rt")
    if not rt:
        raise NoKit
    return Kit(Path(rt).resolve().parents[1])


def rattle(kit: Kit, name: str, jobs: int, below: graph.Below, statements: Callable[[str], Path]) -> list[str]:
    """Return the command that proves a crate, without its file and its output.

    Parameters
    ----------
    kit
        The kit.
    name
        The crate.
    jobs
        How many of its functions are proved at a time.
    below
        What each crate depends on.
    statements
        Where a crate of the repository has its statements.
    """
    libraries = kit.folder / "rlibs"
    own = {dep: statements(dep) for dep in graph.in_order(below[name], below)}
    files = {dep: own.get(dep, libraries / f"{dep}.rlib") for dep in ["std", *below[name]]}
    folders = dict.fromkeys([libraries, *(file.parent for file in own.values())])
    logic = ["--antt-project", f"{kit.folder}/rattle/logic/antt-project.json", "--logic-built", f"{kit.folder}/logic_built"]
    words = [f"{kit.folder}/bin/rattle", "build", "--crate-name", name, "--links", f"{name}=", "--jobs", str(jobs), *logic]
    words += [word for dep, file in files.items() for word in ("--extern", f"{dep}={file}")]
    return words + [word for folder in folders for word in ("-L", f"dependency={folder}")]


def program(kit: Kit, words: list[str], folder: Path, name: str) -> list[list[str]]:
    """Return the commands that compile a crate to a program of its name in a folder."""
    compiled = [*words, "src/main.rt", *kit.backend, "-o", f"{folder}/{name}.o"]
    linked = [f"{kit.folder}/bin/rattle-link", "--target", TARGET, "--toolchain", f"{kit.folder}/toolchain"]
    objects = [f"{folder}/{name}.o", f"{kit.folder}/c/libos_c.a", f"{kit.folder}/c/liblibc_c.a"]
    return [compiled, [*linked, "-o", f"{folder}/{name}", *objects]]


def library(kit: Kit, words: list[str], folder: Path) -> list[list[str]]:
    """Return the commands that compile a crate to the library for C in a folder."""
    compiled = [*words, "src/lib.rt", "--crate-type", "staticlib", *kit.backend, "-o", f"{folder}/libft_c.a"]
    return [compiled, [f"{graph.ROOT}/build/link", str(folder)]]


def recipe(kit: Kit, name: str, below: graph.Below, jobs: int, work: Path) -> str:
    """Return the commands for sh that prove a crate in its folder.

    Parameters
    ----------
    kit
        The kit.
    name
        The crate. If it is a product, its files come into its folder out, all at once at the end; otherwise its statements are
        kept in `graph.OUT`.
    below
        What each crate depends on.
    jobs
        How many functions are proved at a time.
    work
        A folder for what is made on the way.
    """
    words = rattle(kit, name, jobs, below, lambda dep: graph.OUT / f"{dep}.rlib")
    made = work / f"made.{name}"
    if name == graph.PRODUCTS["library"].crate:
        commands = library(kit, words, made)
    elif name in graph.PRODUCTS:
        commands = program(kit, words, made, name)
    else:
        return shlex.join(["exec", *words, "src/lib.rt", "--statements", "-o", f"{graph.OUT}/{name}.rlib"])
    files = [f"{made}/{file}" for file in graph.files_of(name)]
    commands = [["mkdir", "-p", "--", str(made), "out"], *commands, ["mv", "--", *files, "out"]]
    return "\n".join(["set -e", *map(shlex.join, commands)])
