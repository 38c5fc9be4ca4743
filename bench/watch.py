#!/usr/bin/env python3
"""Prints so many commands that strike wakings all over the lanes of a trace, none twice, for watch.sh.

    watch.py TRACE STRIKES
"""

import sys

import held


def main():
    trace, strikes = sys.argv[1], int(sys.argv[2])
    wakings = [(cpu, number) for cpu, number, line in held.held(trace) if b" sched_waking: " in line]
    sys.stdout.writelines(held.strikes(wakings, strikes))


main()
