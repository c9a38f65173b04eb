#!/usr/bin/env python3
"""The guess counts of the boards of boards.txt, which no peer can tell: of the first search, and where there are no settings the sum over the cause's trials.

tests/peers/count.py PLAIN > tests/peers/counts.txt: PLAIN is the plain search as a program (bench/search/advise.c).
"""
import os
import subprocess
import sys

sys.path.insert(0, os.path.dirname(os.path.abspath(__file__)))
from ask import stored
from board import parse


def counts(lines):
    """The counts among the lines of the adviser program."""
    rows = [line.split() for line in lines.splitlines()]
    return [int(rows[0][1])] + ([int(rows[1][1])] if rows[0][0] == "unsat" else [])


def main():
    if len(sys.argv) != 2 or not os.access(sys.argv[1], os.X_OK):
        sys.exit("count.py: give the plain search as a program: bench/search/advise.c with plain.c, compiled")
    print("# Guesses that the plain search of bench/search makes on the boards of boards.txt; where there are no settings, also the sum over the trials.")
    for board in parse(stored("boards.txt")):
        lines = subprocess.run([sys.argv[1]], input=board.file(), capture_output=True, check=True).stdout.decode("ascii")
        print(board.name, *counts(lines))


if __name__ == "__main__":
    main()
