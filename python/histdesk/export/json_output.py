"""JSON as several tools print it: an object that says what was read, with rows, one a line."""

from __future__ import annotations

import json
from collections.abc import Iterable, Mapping, Sequence
from typing import TYPE_CHECKING, Protocol

if TYPE_CHECKING:
    from ..waiting.wait_answer import Held


class PrintedSource(Protocol):
    """What was read of a recording, as far as it is printed."""

    @property
    def path(self) -> str | None:
        """The file."""

    @property
    def held(self) -> Held:
        """What it holds."""

    @property
    def warning(self) -> str | None:
        """What was lost."""


def about(source: PrintedSource) -> dict[str, object]:
    """Return what was read. Stamps are in microseconds, like all times."""
    held = source.held
    return {
        "trace": source.path,
        "events": held.events,
        "first": held.first,
        "last": held.last,
        "cpus": held.cpus,
        "warning": source.warning,
    }


def write_rows(front: Mapping[str, object], names: Sequence[str], rows: Iterable[Sequence[object]]) -> None:
    """Print an object on several lines: what is in front, and the rows, one a line."""
    lines = ",\n".join(json.dumps(dict(zip(names, row))) for row in rows)
    print(f'{json.dumps(front)[:-1]}, "rows": [\n{lines}\n]}}')
