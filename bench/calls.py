#!/usr/bin/env python3
"""Prints how often functions were called in a profile of callgrind, and how many instructions a call took.

    calls.py PROFILE PATTERN..

Each function of which the name has one of these patterns (regular expressions)
has a row: calls, instructions of a call with all that it calls, and the name.
A function that the compiler took into its callers has none: what it does is
counted there.
"""

import re
import sys


def read(path):
    """By function: how often it was called, and all instructions of these calls."""
    names, called, after, callee = {}, {}, False, None

    def name_of(text):
        number, _, name = text.partition(" ")
        if not number.startswith("("):
            return text
        if name:
            names[number] = name
        return names[number]

    with open(path) as lines:
        for line in lines:
            line = line.rstrip("\n")
            if line.startswith("fn="):
                name_of(line[3:])
            elif line.startswith("cfn="):
                callee = name_of(line[4:])
            elif line.startswith("calls="):
                count, after = int(line[6:].split()[0]), True
            elif after:
                after = False
                calls, instructions = called.get(callee, (0, 0))
                called[callee] = (calls + count, instructions + int(line.split()[1]))
    return called


def main():
    called = read(sys.argv[1])
    patterns = [re.compile(pattern) for pattern in sys.argv[2:]]
    rows = [(calls, instructions // calls, name) for name, (calls, instructions) in called.items() if calls and any(p.search(name) for p in patterns)]
    for calls, each, name in sorted(rows, key=lambda row: -row[0] * row[1]):
        print("%12d calls %14d instructions each  %s" % (calls, each, name))


main()
