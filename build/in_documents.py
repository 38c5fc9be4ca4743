"""The interface in documents: the tables of faults and refusals in docs/REFERENCE.md."""

from in_c import replace_part
from interface import Enum, Interface


def table(faults: Enum) -> str:
    """Return the rows of a table."""
    titles = ["No.", "Name", "Words", *([faults.fourth] if faults.fourth else [])]
    rows = [titles, *([str(one.number), f"`{one.name}`", one.words, one.fourth][: len(titles)] for one in faults.values)]
    lines = ["|" + "".join(f" {cell} |" if cell else " |" for cell in row) for row in rows]
    return "\n".join([lines[0], "|" + "---|" * len(titles), *lines[1:], ""])


def reference(interface: Interface, text: str) -> str:
    """Return the page, of which only the first table below the heading of each list of faults is made."""
    for faults in interface.faults.values():
        text = replace_part(text, rf"^### {faults.heading}\n(?:(?!#|\|)[^\n]*\n)*", r"^(?!\|)", table(faults))
    return text
