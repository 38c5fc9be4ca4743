"""Counts the things that hold, for tests of the converters and of the build."""

import sys
from typing import Any, NoReturn

passed, failed = 0, 0


def check(is_good: Any, what: str) -> None:
    """Count a thing that has to hold, and print what it is if it doesn't."""
    global passed, failed
    if is_good:
        passed += 1
    else:
        failed += 1
        print(what)


def finish() -> NoReturn:
    """Print how many of how many things hold, and end the program."""
    print(f"{passed} of {passed + failed} things hold")
    sys.exit(failed > 0)
