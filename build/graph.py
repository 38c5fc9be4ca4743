"""The crates: what each depends on, which of them are stale, and how long the chain of crates above each takes."""

import os
from collections.abc import Iterable
from pathlib import Path
from typing import NamedTuple

ROOT = Path(__file__).resolve().parents[1]
# What builds keep: for each crate, its statements, which crates above it read, and NAME.proved, which is as old as the start of
# its proof; the kit's name; how long builds took; and what the last one printed.
OUT = ROOT / "build" / "out"


class Product(NamedTuple):
    """What is made of a crate."""

    crate: str
    # In the crate's folder out.
    files: list[str]


PRODUCTS = {
    "histdesk": Product("histdesk", ["histdesk"]),
    "histwatch": Product("histwatch", ["histwatch"]),
    "library": Product("ft_c", ["libft_c.a", "libhistdesk.so.0", "libhistdesk.so", "libhistdesk.a"]),
}
# The processor seconds of a crate that was not measured.
UNMEASURED = 60

# What each crate depends on, its own crates and libraries of the kit.
Below = dict[str, list[str]]


def read_crates() -> Below:
    """Return what each crate depends on, in the order of crates.txt, which has a mark after the name of a static library."""
    lines = (line.partition(":") for line in (ROOT / "crates.txt").read_text(encoding="utf-8").splitlines())
    return {name.split()[0]: below.split() for name, colon, below in lines if colon and not name.startswith("#")}


def in_order(crates: Iterable[str], below: Below) -> list[str]:
    """Return these crates and all that they depend on, each after those that it depends on."""
    order: dict[str, None] = {}

    def add(name: str) -> None:
        if name in below and name not in order:
            for dep in below[name]:
                add(dep)
            order[name] = None

    for name in crates:
        add(name)
    return list(order)


def changed(path: str | Path) -> int:
    """Return when a file or a folder last changed, in nanoseconds, or -1 if there is none."""
    try:
        return os.stat(path).st_mtime_ns
    except OSError:
        return -1


def sources_changed(name: str) -> int:
    """Return when a source of a crate, or a folder of them, last changed."""
    folders = [ROOT / "crates" / name / part for part in ("src", "specs", "proofs")]
    found = (os.path.join(at, file) for folder in folders for at, _, files in os.walk(folder) for file in (".", *files))
    return max(map(changed, found), default=-1)


def edits_of(name: str) -> list[Path]:
    """Return the files of a crate's edits that must fail: in `edits`, those that only build/edits tries, and in `must-fail`
    those that `rt ci` tries too."""
    home = ROOT / "crates" / name
    return sorted(path for folder in ("edits", "must-fail") for path in (home / folder).glob("*.edit"))


def files_of(name: str) -> list[str]:
    """Return the files that are made of a crate, besides its statements."""
    return [file for product in PRODUCTS.values() if product.crate == name for file in product.files]


def is_made(name: str) -> bool:
    """Return whether all files that are made of a crate are there."""
    return all((ROOT / "crates" / name / "out" / file).exists() for file in files_of(name))


def stale_crates(order: list[str], below: Below) -> set[str]:
    """Return the crates that are to be proved: those that have no proof or no product, or for which a source, crates.txt or the
    proof of a crate below has changed since their proof began, and those above them."""
    stale: set[str] = set()
    listed = changed(ROOT / "crates.txt")
    proved = {name: changed(OUT / f"{name}.proved") for name in order}
    for name in order:
        newest = max([listed, sources_changed(name), *(proved.get(dep, -1) for dep in below[name])])
        if proved[name] < newest or not is_made(name) or not stale.isdisjoint(below[name]):
            stale.add(name)
    return stale


def proof_seconds() -> dict[str, int]:
    """Return the processor seconds of each crate's proof that was measured."""
    lines = (ROOT / "build" / "proof_seconds").read_text(encoding="utf-8").splitlines()
    return {name: int(seconds) for name, seconds in (line.split() for line in lines if not line.startswith("#"))}


def chains(order: list[str], below: Below, seconds: dict[str, int]) -> dict[str, int]:
    """Return, for each crate, the processor seconds of it and of those above it, in the chain that takes longest."""
    chain: dict[str, int] = {}
    for name in reversed(order):
        chain[name] = chain.get(name, 0) + seconds.get(name, UNMEASURED)
        for dep in below[name]:
            chain[dep] = max(chain.get(dep, 0), chain[name])
    return chain
