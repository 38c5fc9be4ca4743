"""What has bytes side by side in memory, as types."""

from __future__ import annotations

import mmap
from typing import TypeAlias

Buffer: TypeAlias = bytes | bytearray | memoryview | mmap.mmap
# Those of them that have the searches of `bytes`.
Searchable: TypeAlias = bytes | bytearray | mmap.mmap
