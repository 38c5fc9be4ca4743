#!/usr/bin/env python3
"""Writes the scripts of edits.sh: FOLDER/strikes loads the trace and strikes lines all over the lanes; FOLDER/both does so,
and then inserts a waking on each CPU in turn, early and late in time.

    edits.py TRACE EDITS FOLDER
"""

import sys

import held


def main():
    trace, edits, folder = sys.argv[1], int(sys.argv[2]), sys.argv[3]
    places = held.places(trace)
    cpus = sorted({cpu for cpu, _ in places})
    strikes = ["load @1\n", *held.strikes(places, edits)]
    with open(f"{folder}/strikes", "w", encoding="ascii") as script:
        script.writelines(strikes)
    with open(f"{folder}/both", "w", encoding="ascii") as script:
        script.writelines(strikes)
        for n in range(edits):
            at = f"[{cpus[n % len(cpus)]:03}] d.h.. {n % 9}.{n % 1000000:06}"
            script.write(f"insert sim-1 {at}: sched_waking: comm=w pid={n} prio=120 target_cpu=000\n")


main()
