#!/usr/bin/env python3
"""Writes the scripts of kept.sh into FOLDER, each of which loads the trace and attaches a saver and a reader: strike and
insert have EDITS edits at most, strike-totals and insert-totals also ask for the reader's totals after each edit, and
strike-hist and insert-hist print its table after each of the first PRINTS edits; totals and hist ask three times without an
edit. Prints how many edits and how many tables there are.

    kept.py FOLDER TRACE EDITS PRINTS SAVER READER
"""

import sys

import held


def insert(n):
    at = f"[{n % 8:03}] d.h.. {n % 9}.{n % 1000000:06}"
    return f"insert sim-1 {at}: sched_waking: comm=w pid={7000 + n % 50} prio=120 target_cpu=000\n"


def main():
    folder, trace, edits, prints, saver, reader = sys.argv[1:]
    strikes = held.strikes(held.places(trace), int(edits))
    inserts = [insert(n) for n in range(len(strikes))]
    front = f"load @1\nattach {saver}\nattach {reader}\n"

    def write(name, commands):
        with open(f"{folder}/{name}", "w", encoding="ascii") as script:
            script.write(front + "".join(commands))

    for name, commands in ("strike", strikes), ("insert", inserts):
        write(name, commands)
        write(f"{name}-totals", [f"{command}totals 2\n" for command in commands])
        write(f"{name}-hist", [f"{command}hist 2\n" for command in commands[: int(prints)]])
    write("pair", [])
    write("totals", 3 * ["totals 2\n"])
    write("hist", 3 * ["hist 2\n"])
    print(len(strikes), min(int(prints), len(strikes)))


main()
