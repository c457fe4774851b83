#!/usr/bin/env python3
"""Writes a feed of commits for a generated topology on standard output.

    feed.py TOPOLOGY CHANGES COMMITS

Each commit changes the demands of the same CHANGES groups, spread over all of
them: by one unit up, and at the next commit back. TOPOLOGY is one that
generate.py wrote: each key stands on a line of its own.
"""

import sys


def demands(path):
    name, found = None, []
    with open(path) as lines:
        for line in lines:
            key, _, value = line.rstrip("\n").partition(" = ")
            if key == "name":
                name = value.strip('"')
            elif key == "demand":
                found.append((name, int(value)))
    return found


def main():
    changes, commits = int(sys.argv[2]), int(sys.argv[3])
    groups = demands(sys.argv[1])
    chosen = groups[:: max(1, len(groups) // changes)][:changes]
    for commit in range(1, commits + 1):
        for name, demand in chosen:
            sys.stdout.write("demand %s %d\n" % (name, demand + commit % 2))
        sys.stdout.write("commit\n")
    sys.stdout.write("stop\n")


main()
