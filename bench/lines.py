#!/usr/bin/env python3
"""Prints a line of so many bytes for lines.sh: FRONT, as much of PIECE again and again as there is room for, and BACK.

    lines.py BYTES FRONT PIECE BACK
"""

import sys

front, piece, back = sys.argv[2:]
room = int(sys.argv[1]) - len(front) - len(back)
sys.stdout.write(front + (piece * room)[:room] + back + "\n")
