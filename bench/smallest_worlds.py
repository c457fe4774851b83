#!/usr/bin/env python3
"""Prints small worlds with their expected maps, for the tests of deferred_accept.

    smallest_worlds.py SEED COUNT [limits]

Each world has two or three groups and at most six nodes. All maps that are
feasible and stable are found by trying every one, straight from the definition,
and the expected one is the one that no other beats: no other has more of any
group at its places up to any place. No proposal is ever made here. A world is
printed only if it has several stable maps, or a name at a node above a pool. With
`limits` half of the places have a limit from 1 to 3, and a world is printed only if
some limit is in the way.
"""

import itertools
import random
import sys

LIMIT = "limit"
NO_LIMIT = 2**32 - 1


def path(nodes, n):
    found = []
    while n is not None:
        found.append(n)
        n = nodes[n][1]
    return found


def key(groups, g, k):
    pool, score, _ = groups[g][1][k]
    return (score, g, pool)


def is_under(nodes, n, pool):
    return n in path(nodes, pool)


def refuser(groups, nodes, amounts, g, k):
    """The limit, where it is full, or the first node of the path that is full of offers ranked at least as high."""
    if amounts[g, k] == groups[g][1][k][2]:
        return LIMIT
    for n in path(nodes, groups[g][1][k][0]):
        held = [(o, units) for o, units in amounts.items() if units and is_under(nodes, n, groups[o[0]][1][o[1]][0])]
        if sum(units for _, units in held) == nodes[n][0] and all(key(groups, *o) <= key(groups, g, k) for o, _ in held):
            return n
    return None


def names(groups, nodes, amounts):
    """The names of a stable map, or None where some wanted offer is refused neither by its limit nor by a node."""
    found = []
    for g, (demand, choices) in enumerate(groups):
        first = 0
        for k in range(len(choices)):
            first += amounts[g, k]
            if first < demand:
                node = refuser(groups, nodes, amounts, g, k)
                if node is None:
                    return None
                found.append((g, k, node))
    return found


def is_feasible(groups, nodes, amounts):
    for g, (demand, choices) in enumerate(groups):
        if sum(amounts[g, k] for k in range(len(choices))) > demand:
            return False
        if any(amounts[g, k] > limit for k, (_, _, limit) in enumerate(choices)):
            return False
    for n, (capacity, _, _) in enumerate(nodes):
        if sum(units for (g, k), units in amounts.items() if is_under(nodes, n, groups[g][1][k][0])) > capacity:
            return False
    return True


def firsts(groups, amounts):
    return [sum(amounts[g, j] for j in range(k + 1)) for g, (_, choices) in enumerate(groups) for k in range(len(choices))]


def stable_maps(groups, nodes):
    offers = [(g, k) for g, (_, choices) in enumerate(groups) for k in range(len(choices))]
    for units in itertools.product(*[range(groups[g][0] + 1) for g, _ in offers]):
        amounts = dict(zip(offers, units))
        if is_feasible(groups, nodes, amounts):
            found = names(groups, nodes, amounts)
            if found is not None:
                yield amounts, found


def world(random, limited):
    shape = random.choice([
        [None, 0, 0],
        [None, None, 0],
        [None, 0, 1, 1],
        [None, 0, 0, 1],
        [None, 0, 1, 0, None],
        [None, None, 0, 0, 1, 1],
    ])
    nodes = [(random.randint(0, 4), parent, n not in shape) for n, parent in enumerate(shape)]
    pools = [n for n, node in enumerate(nodes) if node[2]]
    groups = []
    for _ in range(random.randint(2, 3)):
        asked = random.sample(pools, random.randint(1, min(3, len(pools))))
        groups.append((random.randint(1, 3), [(pool, random.randint(1, 3), NO_LIMIT) for pool in asked]))
    if limited:
        groups = [(demand, [(pool, score, random.choice([NO_LIMIT, random.randint(1, 3)])) for pool, score, _ in choices]) for demand, choices in groups]
    return groups, nodes


def main():
    seed, count, limited = int(sys.argv[1]), int(sys.argv[2]), sys.argv[3:] == ["limits"]
    source = random.Random(seed)
    while count > 0:
        groups, nodes = world(source, limited)
        maps = list(stable_maps(groups, nodes))
        best = [m for m in maps if all(a >= b for other in maps for a, b in zip(firsts(groups, m[0]), firsts(groups, other[0])))]
        assert len(best) == 1, (groups, nodes, maps)
        amounts, found = best[0]
        above = any(n != LIMIT and not nodes[n][2] for _, _, n in found)
        if (len(maps) < 2 and not above) or (limited and all(n != LIMIT for _, _, n in found)):
            continue
        count -= 1
        print("nodes ", [(capacity, parent, "pool" if is_pool else "inner") for capacity, parent, is_pool in nodes])
        for demand, choices in groups:
            print("group ", demand, choices if limited else [(pool, score) for pool, score, _ in choices])
        print("stable", len(maps))
        print("lines ", [(g, k, units) for (g, k), units in sorted(amounts.items()) if units])
        print("names ", found)
        print()


main()
