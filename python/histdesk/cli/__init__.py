"""The command-line tools. Each is a module with `main(argv=None) -> int`, which returns the exit status.

`tools/NAME` in a checkout, and `histdesk-NAME` if histdesk is installed, run `main` of the module NAME.
"""

from . import _bytecode

_bytecode.keep()
