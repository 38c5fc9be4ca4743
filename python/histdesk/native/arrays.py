"""The library's structs as arrays of numpy have them."""

from __future__ import annotations

from typing import TYPE_CHECKING, Any

import numpy as np

from . import layout

if TYPE_CHECKING:
    from numpy.typing import NDArray

PLACE_TYPE = np.dtype(layout.PLACE_FIELDS)
LATENCY_TYPE = np.dtype(layout.LATENCY_FIELDS)
# Names are 31 bytes with their lengths after them, and the end is filled up as in C.
EVENT_TYPE = np.dtype(layout.EVENT_FIELDS, align=True)
WAIT_TYPE = np.dtype(layout.WAIT_FIELDS)
LINE_TYPE = np.dtype(layout.LINE_FIELDS)


def words_of_names(structs: NDArray[Any], field: str) -> NDArray[np.uint64]:
    """Return a name of some structs, the 31 bytes and the length after them, as rows of 64-bit words."""
    kind = structs.dtype
    assert kind.fields is not None
    words = np.dtype(
        {
            "names": ["words"],
            "formats": [("u8", layout.NAME_WORDS)],
            "offsets": [kind.fields[field][1]],
            "itemsize": kind.itemsize,
        }
    )
    rows: NDArray[np.uint64] = structs.view(np.ndarray).view(words)["words"]
    return rows


def texts_of_names(words: NDArray[np.uint64]) -> NDArray[np.object_]:
    """Return names as an array of texts, from the rows of their words."""
    texts = np.empty(len(words), object)
    texts[:] = [layout.text_of(name[:31], name[31]) for name in map(bytes, words.view("u1"))]
    return texts
