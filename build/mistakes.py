"""The edits that must fail: mistakes in a crate's sources, which the prover must refuse."""

import hashlib
from enum import Enum
from pathlib import Path
from typing import NamedTuple

import graph
import sources
from sources import Function


class BadEdit(Exception):
    """An edit can't be applied."""


class Way(Enum):
    """How an edit is tried."""

    # In a copy of its function, beside it.
    COPY = 1
    # Where it is, in a check with others: in a trait's method, in a cycle of calls, which has one proof, or in two functions.
    IN_PLACE = 2
    # Where it is, in a check of its own: in a constant or a type.
    ALONE = 3


class Pair(NamedTuple):
    """A text of one line, and the text that replaces it."""

    old: str
    new: str


class Sources:
    """The sources of the crate that has this folder, and where their functions are."""

    def __init__(self, home: Path) -> None:
        files = sorted((home / "src").rglob("*.rt"))
        self.texts = {str(it.relative_to(home)): it.read_text(encoding="utf-8") for it in files}
        self.functions = {file: sources.functions_of(text) for file, text in self.texts.items()}
        self.types = {file: sources.types_of(text) for file, text in self.texts.items()}

    def path_of(self, file: str, function: Function) -> list[str]:
        """Return the path of a function in its crate: a method that is no trait's is in the module of its type."""
        homes = [it for it, types in self.types.items() if function.of_type in types]
        home = file if function.is_of_trait or file in homes or not homes else homes[0]
        return [*sources.module_of(home), *function.names]


class Edit:
    """An edit that must fail: a file of `src`, and pairs of an old and a new text.

    Parameters
    ----------
    path
        The file that has the edit.
    of
        The sources of its crate.
    number
        By which number, among the edits of the crate, a copy of a function is named.

    Raises
    ------
    BadEdit
        It can't be applied.
    """

    def __init__(self, path: Path, of: Sources, number: int) -> None:
        self.name, self.of, self.number = f"{path.parts[-3]}/{path.name}", of, number
        self.file, self.pairs = read_edit(path, of)
        # The functions that it changes, or None if it changes something else.
        self.functions: list[Function] | None = []
        # The file as the edit makes it.
        self.whole = of.texts[self.file]
        for pair in self.pairs:
            self.apply(pair)

    def apply(self, pair: Pair) -> None:
        """Replace the old text of a pair, and take note of the function that it is in."""
        count = self.whole.count(pair.old)
        if count != 1:
            raise BadEdit(f"an old text occurs {count} times in {self.file}, and not once")
        at = self.whole.index(pair.old)
        begin, end = at + len(pair.old) - len(pair.old.lstrip()), at + len(pair.old)
        within = [it for it in sources.functions_of(self.whole) if it.begin <= begin and end <= it.end]
        own = [it for it in self.of.functions[self.file] if within and it.names == within[0].names]
        if not own:
            self.functions = None
        elif self.functions is not None and own[0] not in self.functions:
            self.functions.append(own[0])
        self.whole = self.whole[:at] + pair.new + self.whole[end:]

    @property
    def way(self) -> Way:
        """How it is tried."""
        if not self.functions:
            return Way.ALONE
        is_copied = len(self.functions) == 1 and not self.functions[0].is_of_trait and not self.functions[0].cycle
        return Way.COPY if is_copied else Way.IN_PLACE

    @property
    def targets(self) -> list[list[str]]:
        """The paths, in the crate, of the functions that it changes."""
        return [self.of.path_of(self.file, it) for it in self.functions or []]

    @property
    def units(self) -> set[str]:
        """What no other edit of a check may change in place: these functions, or the cycles that they are in."""
        return {it.cycle or "::".join(it.names) for it in self.functions or []}

    @property
    def place(self) -> int:
        """Where a copy is put: behind the function."""
        return self.functions[0].end if self.functions else 0

    @property
    def copy_name(self) -> str:
        """The name of a copy of the function."""
        return f"{self.targets[0][-1]}_edit{self.number}"

    def copy(self, is_control: bool) -> str:
        """Return a copy of the function under the copy's name, with the edit or, for a control, as it is."""
        assert self.functions
        text = self.of.texts[self.file] if is_control else self.whole
        names = self.functions[0].names
        function = next(it for it in sources.functions_of(text) if it.names == names)
        at = text.index(names[-1], function.fn + len("fn"))
        return text[function.begin : at] + self.copy_name + text[at + len(names[-1]) : function.end]


def read_edit(path: Path, of: Sources) -> tuple[str, list[Pair]]:
    """Return the file that an edit changes, and its pairs.

    Raises
    ------
    BadEdit
        It is no edit of one file.
    """
    lines = path.read_text(encoding="utf-8").splitlines()
    files = {line.removeprefix("file: ").strip() for line in lines if line.startswith("file: ")}
    olds = [line.removeprefix("old: ") for line in lines if line.startswith("old: ")]
    news = [line.removeprefix("new:").removeprefix(" ") for line in lines if line.startswith("new:")]
    others = [line for line in lines if line and not line.startswith(("file: ", "old: ", "new:"))]
    if len(files) != 1 or not olds or len(olds) != len(news) or others:
        raise BadEdit("it has a line `file: src/FILE`, and then pairs of lines `old: TEXT` and `new: TEXT`")
    file = files.pop()
    if file not in of.texts:
        raise BadEdit(f"{file} is no source of the crate")
    return file, [Pair(old, new) for old, new in zip(olds, news)]


def edits_of(crate: str, of: Sources) -> list[Edit]:
    """Return the edits of a crate, in the order of their names.

    Raises
    ------
    BadEdit
        One of them can't be applied.
    """
    edits = []
    for number, path in enumerate(graph.edits_of(crate)):
        try:
            edits.append(Edit(path, of, number))
        except BadEdit as bad:
            raise BadEdit(f"{crate}/{path.name}: {bad}") from None
    return edits


def key_of(crate: str, below: graph.Below, kit_name: str) -> str:
    """Return a sum of what a trial of a crate's edits depends on: the kit, the scripts, the crate with its edits, and the
    crates below it."""
    told = hashlib.sha256(kit_name.encode())
    scripts = sorted((graph.ROOT / "build").glob("*.py"))
    folders = [graph.ROOT / "crates" / name for name in graph.in_order([crate], below)]
    parts = [
        path for folder in folders for part in ("src", "specs", "proofs") for path in sorted((folder / part).rglob("*.*t"))
    ]
    for path in [*scripts, *graph.edits_of(crate), *parts]:
        content = path.read_bytes()
        told.update(f"{path.relative_to(graph.ROOT)} {len(content)}\n".encode() + content)
    return told.hexdigest()
