"""Runs the tests of a file of the Python package by pytest, if the file is run by itself."""

import os
import sys


def main() -> int:
    """Run the tests of the program. Arguments are names of tests, `CLASS` or `CLASS.TEST`, or options of pytest.

    Returns
    -------
    int
        The exit status: 0 if all of them hold.
    """
    import pytest

    program = os.path.realpath(sys.argv[0])
    options = [word for word in sys.argv[1:] if word.startswith("-")]
    names = [word for word in sys.argv[1:] if not word.startswith("-")]
    tests = [f"{program}::{name.replace('.', '::')}" for name in names] or [program]
    return int(pytest.main([*options, "-rs", *tests]))
