#!/usr/bin/env python3
"""Writes a file of changes for a generated topology, and that topology with the changed numbers.

    changes.py TOPOLOGY COUNT CHANGES CHANGED

COUNT changes of demands and of pools' capacities, seven of groups to one of a
pool, each by up to a fifth up or down, of distinct names drawn at random. The
same arguments give the same files. TOPOLOGY is one that generate.py wrote: each
key stands on a line of its own.
"""

import random
import sys


def main():
    topology, count, changes, changed = sys.argv[1], int(sys.argv[2]), sys.argv[3], sys.argv[4]
    lines = open(topology).read().split("\n")
    demands, capacities, name, is_pool = [], [], None, set()
    for at, line in enumerate(lines):
        key, _, value = line.partition(" = ")
        if key == "name":
            name = value.strip('"')
        elif key == "demand":
            demands.append((at, name))
        elif key == "capacity":
            capacities.append((at, name))
        elif key == "pool" and value == "true":
            is_pool.add(name)
    capacities = [it for it in capacities if it[1] in is_pool]
    draw = random.Random(count)
    nodes = draw.sample(capacities, min(len(capacities), (count + 6) // 8))
    groups = draw.sample(demands, count - len(nodes))
    with open(changes, "w") as out:
        for word, chosen in (("demand", groups), ("capacity", nodes)):
            for at, name in chosen:
                number = int(lines[at].partition(" = ")[2])
                number = max(1, number + round(number * draw.uniform(-0.2, 0.2)))
                lines[at] = "%s = %d" % (word, number)
                out.write("%s %s %d\n" % (word, name, number))
    open(changed, "w").write("\n".join(lines))


main()
