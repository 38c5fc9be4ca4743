"""What the tests of the package have in common under pytest.

The library is found as the package finds it. HISTDESK may name the program; without it, the tests that run it are skipped.
"""

import signal
import sys
from pathlib import Path

# Nothing is written beside the sources.
sys.dont_write_bytecode = True

TESTS = Path(__file__).resolve().parent.parent
sys.path[:0] = [str(TESTS.parent / "python"), str(TESTS / "model")]

# Whoever runs this in the background may have interrupts ignored, and programs that are begun here would ignore them too.
signal.signal(signal.SIGINT, signal.default_int_handler)
