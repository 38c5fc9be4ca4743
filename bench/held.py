"""The event lines of a trace, as `strike` names them, for the scripts that edits.py, kept.py and watch.py write."""

import re


def held(trace):
    """Return, for each event line, its CPU, its number among the lines of that CPU, and its bytes."""
    counts = {}
    with open(trace, "rb") as file:
        for line in file:
            at = None if line.startswith(b"#") else re.search(rb"-\d+ +\[(\d+)\] ", line)
            if at:
                cpu = int(at.group(1))
                counts[cpu] = counts.get(cpu, 0) + 1
                yield cpu, counts[cpu], line


def places(trace):
    """Return the CPU and number of each event line, CPU by CPU."""
    return sorted((cpu, number) for cpu, number, _ in held(trace))


def strikes(some, count):
    """Return commands that strike so many of the places, all over them, none twice."""
    return [f"strike {cpu}:{number}\n" for cpu, number in some[:: max(1, len(some) // count)][:count]]
