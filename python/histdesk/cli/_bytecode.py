"""Keeps compiled modules of an installed package in the user's cache, so that a tool starts quickly the next time."""

from __future__ import annotations

import importlib.machinery
import os
import sys
import types

from .._invocation import PACKAGE


class Loader(importlib.machinery.SourceFileLoader):
    """Loads a module of the package, and keeps the compiled form in the user's cache."""

    def get_code(self, fullname: str) -> types.CodeType | None:
        """Return the code of a module."""
        before = sys.pycache_prefix
        caches = os.environ.get("XDG_CACHE_HOME") or os.path.join(os.path.expanduser("~"), ".cache")
        sys.pycache_prefix = os.path.join(caches, "histdesk")
        try:
            return super().get_code(fullname)
        finally:
            sys.pycache_prefix = before


def keep() -> None:
    """Have later imports keep compiled modules in the user's cache, if they can't be kept beside their sources."""
    if os.path.isdir(os.path.join(PACKAGE, "__pycache__")) or os.access(PACKAGE, os.W_OK):
        return

    def finder(folder: str) -> importlib.machinery.FileFinder:
        if folder != PACKAGE and not folder.startswith(PACKAGE + os.sep):
            raise ImportError(folder)
        return importlib.machinery.FileFinder(folder, (Loader, [".py"]))

    sys.path_hooks.insert(0, finder)
    for folder in [path for path in sys.path_importer_cache if path.startswith(PACKAGE)]:
        del sys.path_importer_cache[folder]
