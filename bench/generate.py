#!/usr/bin/env python3
"""Writes a topology and a good map of it, for benchmarks.

    generate.py [--limits] [--classes N] [--long] GROUPS POOLS LEVELS PERCENT TOPOLOGY [MAP]

GROUPS groups each rank sixteen of POOLS pools. With LEVELS 1 every pool is a
root; with more, each node of a level has two children on the level below, and
the pools are the lowest level. The pools together hold PERCENT of the demand.
With --limits every third group has limits, each from 1 to its demand, and every
third class. With --classes there are two services, and N classes, one of each
service for the first groups: what they ask for comes on top of the PERCENT.
With --long each name has 32 letters, and each prefix is a long one of IPv6: with
65,536 groups and 4,080 pools on 8 levels the file is near the end of all limits (65 MB).
The map is computed here by deferred acceptance with a heap for each node, apart
from glb's own code, so that `glb check` has something to judge. The same
arguments give the same files.
"""

import argparse
import heapq
import random
import sys

LIST = 16
NO_LIMIT = (1 << 32) - 1
ZONE = """[zone]
apex = "cdn.example"
mname = "ns1.ops.example"
rname = "admin.ops.example"
serial = 1
refresh = 3600
retry = 600
expire = 86400
minimum = 60
ttl = 20
ns = ["ns1.ops.example", "ns2.ops.example"]
services = [%s]
"""
SERVICES = ["www", "img"]


def make_nodes(pools, levels):
    """The parent of each node, roots first, and the number of the first pool."""
    sizes = [max(1, pools >> up) for up in reversed(range(levels))]
    parents, first, above = [], 0, 0
    for level, size in enumerate(sizes):
        first = len(parents)
        for i in range(size):
            parents.append(None if level == 0 else above + i * sizes[level - 1] // size)
        above = first
    return parents, first


def long_name(name):
    """The name with 32 letters, of which the last ones differ from name to name."""
    return name[0] + name[1:].rjust(31, "0")


def prefixes_of(group, count, is_long):
    """The prefixes of a group: both defaults for the first, and /32s or /128s for the rest."""
    if group == 0:
        return ["0.0.0.0/0", "::/0"]
    first = group * count
    if is_long:
        return ["2001:db8:a1b2::%x:%x/128" % (0x1000 + (n >> 12), 0x1000 + (n & 4095)) for n in range(first, first + count)]
    return [
        "%d.%d.%d.%d/32" % (100 + (n >> 24), n >> 16 & 255, n >> 8 & 255, n & 255)
        for n in range(first, first + count)
    ]


class World:
    def __init__(self, groups, pools, levels, percent, has_limits, classes, is_long):
        draw = random.Random(20151)
        self.is_long = is_long
        self.parents, self.first_pool = make_nodes(pools, levels)
        nodes = len(self.parents)
        self.paths = []
        for node in range(nodes):
            path = [node]
            while self.parents[path[-1]] is not None:
                path.append(self.parents[path[-1]])
            self.paths.append(path)
        self.demand = [draw.randint(50, 150) for _ in range(groups)]
        each = sum(self.demand) * percent // 100 // pools
        self.capacity = [0] * nodes
        for node in reversed(range(nodes)):
            if node >= self.first_pool:
                self.capacity[node] = draw.randint(each // 2, each + each // 2)
            else:
                self.capacity[node] = self.capacity[node] * 95 // 100
            parent = self.parents[node]
            if parent is not None:
                self.capacity[parent] += self.capacity[node]
        self.lists = [
            [self.first_pool + p for p in draw.sample(range(pools), min(LIST, pools))]
            for _ in range(groups)
        ]
        self.scores = [[draw.randrange(1 << 32) for _ in l] for l in self.lists]
        self.limits = [
            [draw.randint(1, demand) for _ in l] if has_limits and g % 3 == 0 else None
            for g, (l, demand) in enumerate(zip(self.lists, self.demand))
        ]
        # units: the groups, and behind them the classes
        self.groups = groups
        self.names = ["g%d" % g for g in range(groups)] + ["c%d" % c for c in range(classes)]
        if is_long:
            self.names = [long_name(name) for name in self.names]
        for c in range(classes):
            pools_of = [self.first_pool + p for p in draw.sample(range(pools), min(LIST, pools))]
            self.demand.append(draw.randint(50, 150))
            self.lists.append(pools_of)
            self.scores.append([draw.randrange(1 << 32) for _ in pools_of])
            self.limits.append([draw.randint(1, self.demand[-1]) for _ in pools_of] if has_limits and c % 3 == 0 else None)

    def node(self, number):
        name = "n%d" % number
        return long_name(name) if self.is_long else name

    def limit(self, group, place):
        limits = self.limits[group]
        return NO_LIMIT if limits is None else limits[place]

    def accept(self):
        """Deferred acceptance: amounts by (group, place), and loads."""
        nodes = len(self.parents)
        self.load = [0] * nodes
        self.amount = [[0] * len(l) for l in self.lists]
        # the worst held offer of each node first: keys are negated
        self.heaps = [[] for _ in range(nodes)]
        pointer = [0] * len(self.lists)
        free = list(self.demand)
        work = list(range(len(self.lists)))
        proposals = 0
        while work:
            g = work.pop()
            k = pointer[g]
            if free[g] == 0 or k == len(self.lists[g]):
                continue
            units = min(free[g], self.limit(g, k) - self.amount[g][k])
            if units == 0:
                pointer[g] += 1
                work.append(g)
                continue
            proposals += 1
            free[g] -= units
            pool = self.lists[g][k]
            if self.amount[g][k] == 0:
                seat = (-self.scores[g][k], -g, -pool, k)
                for n in self.paths[pool]:
                    heapq.heappush(self.heaps[n], seat)
            self.amount[g][k] += units
            for n in self.paths[pool]:
                self.load[n] += units
            for n in self.paths[pool]:
                while self.load[n] > self.capacity[n]:
                    heap = self.heaps[n]
                    _, other, _, place = heap[0]
                    other = -other
                    if self.amount[other][place] == 0:
                        heapq.heappop(heap)
                        continue
                    gone = min(self.load[n] - self.capacity[n], self.amount[other][place])
                    self.amount[other][place] -= gone
                    for above in self.paths[self.lists[other][place]]:
                        self.load[above] -= gone
                    free[other] += gone
                    if pointer[other] == place:
                        pointer[other] += 1
                    work.append(other)
            if free[g] > 0:
                work.append(g)
        return proposals

    def worst_key(self, n):
        heap = self.heaps[n]
        while heap and self.amount[-heap[0][1]][heap[0][3]] == 0:
            heapq.heappop(heap)
        if not heap:
            return None
        score, group, pool, _ = heap[0]
        return (-score, -group, -pool)

    def write_topology(self, path):
        count = min(4, 262144 // max(1, self.groups))
        services = SERVICES if len(self.names) > self.groups else SERVICES[:1]
        with open(path, "w") as out:
            out.write(ZONE % ", ".join('"%s"' % service for service in services))
            for n, parent in enumerate(self.parents):
                out.write('[[node]]\nname = "%s"\ncapacity = %d\n' % (self.node(n), self.capacity[n]))
                if parent is not None:
                    out.write('parent = "%s"\n' % self.node(parent))
                if n >= self.first_pool:
                    out.write('pool = true\na = ["192.0.2.%d"]\n' % (n % 256))
            for unit in range(len(self.names)):
                self.write_unit(out, unit, count)

    def write_unit(self, out, unit, count):
        out.write("[[%s]]\n" % ("group" if unit < self.groups else "class"))
        out.write('name = "%s"\n' % self.names[unit])
        if unit >= self.groups:
            number = unit - self.groups
            out.write('group = "%s"\nservice = "%s"\n' % (self.names[number // 2], SERVICES[number % 2]))
        out.write("demand = %d\n" % self.demand[unit])
        out.write("pools = [%s]\n" % ", ".join('"%s"' % self.node(p) for p in self.lists[unit]))
        out.write("scores = [%s]\n" % ", ".join(str(s) for s in self.scores[unit]))
        if self.limits[unit] is not None:
            out.write("limits = [%s]\n" % ", ".join(str(s) for s in self.limits[unit]))
        if unit < self.groups:
            out.write("prefixes = [%s]\n" % ", ".join('"%s"' % p for p in prefixes_of(unit, count, self.is_long)))

    def write_map(self, path):
        full = [self.load[n] == self.capacity[n] for n in range(len(self.parents))]
        worst = [self.worst_key(n) for n in range(len(self.parents))]
        with open(path, "w") as out:
            out.write("glb map 2\n")
            for g, amounts in enumerate(self.amount):
                for k, amount in enumerate(amounts):
                    if amount:
                        out.write("place %s %s %d\n" % (self.names[g], self.node(self.lists[g][k]), amount))
            for g, amounts in enumerate(self.amount):
                placed = 0
                for k, amount in enumerate(amounts):
                    placed += amount
                    if placed >= self.demand[g]:
                        break
                    pool = self.lists[g][k]
                    if amount == self.limit(g, k):
                        out.write("limit %s %s\n" % (self.names[g], self.node(pool)))
                        continue
                    key = (self.scores[g][k], g, pool)
                    for n in self.paths[pool]:
                        if full[n] and (worst[n] is None or worst[n] <= key):
                            out.write("full %s %s %s\n" % (self.names[g], self.node(pool), self.node(n)))
                            break
                    else:
                        sys.exit("no node refuses %s at place %d" % (self.names[g], k))
            out.write("end\n")


def main():
    parser = argparse.ArgumentParser()
    parser.add_argument("--limits", action="store_true")
    parser.add_argument("--classes", type=int, default=0)
    parser.add_argument("--long", action="store_true")
    for word in ("groups", "pools", "levels", "percent"):
        parser.add_argument(word, type=int)
    parser.add_argument("topology")
    parser.add_argument("map", nargs="?")
    options = parser.parse_args()
    world = World(
        options.groups, options.pools, options.levels, options.percent, options.limits, options.classes, options.long
    )
    world.write_topology(options.topology)
    if options.map is None:
        return
    proposals = world.accept()
    world.write_map(options.map)
    unplaced = sum(world.demand) - sum(map(sum, world.amount))
    print("%d proposals, %d units unplaced" % (proposals, unplaced))


main()
