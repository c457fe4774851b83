#!/usr/bin/env python3
"""How good the maps are: those of several ways to map, beside the optimum of the linear program.

    quality.py GROUPS POOLS PERCENT..       tables for each head room, in percent

GLB names the built program. The ways: the nearest pool, as DNS by geography has it; the three nearest by weights that
follow their capacities, as gdnsd's weights do; greedy, the largest groups first, each to the nearest pools with room;
`glb map` with lists and scores by round trip, and with those of glb-topology; and the optimum, which moves whomever it
likes. Then the same lists with other demands, and with the largest pool out. A unit that is placed nowhere costs 400 ms;
`above` is the whole cost above the optimum's.
"""

import os
import sys
import time

import numpy as np

from worlds import made, problem_of

from glb_tools.planning import judge
from glb_tools.planning.choices import Choices, Lists
from glb_tools.planning.lists import by_price, by_round_trip
from glb_tools.planning.prices import loads, solved
from glb_tools.planning.writer import Writer

GLB = os.environ.get("GLB", "glb")
# East Asia among the regions, which stand first among the nodes in the order of their names
BUSY = 3
ZONE = {
    "apex": "cdn.example",
    "mname": "ns1.ops.example",
    "rname": "admin.ops.example",
    "serial": 1,
    "refresh": 3600,
    "retry": 600,
    "expire": 86400,
    "minimum": 60,
    "ttl": 20,
    "ns": ["ns1.ops.example"],
    "services": ["www", "video"],
}


def writer_of(world):
    return Writer(Choices("made", ZONE, {}, Lists()), world, world.prefixes)


def octets_of(writer, lists, demand, capacity):
    for node, held in zip(writer.world.nodes, capacity.tolist()):
        node.capacity = held
    return writer.octets(lists, demand, None)


def nearest(problem):
    began = time.monotonic()
    order = np.lexsort((problem.cost, problem.unit))
    first = order[np.searchsorted(problem.unit[order], np.arange(len(problem.demand)))]
    flow = np.zeros(len(problem.unit), np.int64)
    flow[first] = problem.demand
    return flow, time.monotonic() - began


def weights(problem):
    """The three nearest pools, each by its capacity's share."""
    began = time.monotonic()
    order = np.lexsort((problem.cost, problem.unit))
    starts = np.searchsorted(problem.unit[order], np.arange(len(problem.demand)))
    some = order[starts[:, None] + np.arange(3)]
    held = np.maximum(problem.capacity[problem.pool[some]], 1)
    part = problem.demand[:, None] * held // held.sum(1, keepdims=True)
    part[:, 0] += problem.demand - part.sum(1)
    flow = np.zeros(len(problem.unit), np.int64)
    flow[some.ravel()] = part.ravel()
    return flow, time.monotonic() - began


def greedy(problem):
    began = time.monotonic()
    room, parent = problem.capacity.tolist(), problem.parent.tolist()
    order = np.lexsort((problem.cost, problem.unit))
    starts = np.searchsorted(problem.unit[order], np.arange(len(problem.demand) + 1)).tolist()
    offers, pools = order.tolist(), problem.pool[order].tolist()
    flow = np.zeros(len(order), np.int64)
    for unit in np.argsort(-problem.demand, kind="stable").tolist():
        left = int(problem.demand[unit])
        for at in range(starts[unit], starts[unit + 1]):
            path, node = [], pools[at]
            while node >= 0:
                path.append(node)
                node = parent[node]
            units = min(left, *(room[node] for node in path))
            for node in path:
                room[node] -= units
            flow[offers[at]], left = units, left - units
            if not left:
                break
    return flow, time.monotonic() - began


def by_glb(writer, lists, problem):
    text, seconds = judge.mapped(GLB, octets_of(writer, lists, problem.demand, problem.capacity))
    return judge.flow_of(writer.world, text), seconds


def row(name, problem, flow, bound, seconds):
    found = judge.judged(problem, flow, bound, seconds)
    load = loads(problem, flow)
    is_pool = np.isin(np.arange(len(load)), problem.pool)
    over = np.maximum(load - problem.capacity, 0)[is_pool].sum() / problem.demand.sum()
    worst = (load / np.maximum(problem.capacity, 1))[problem.capacity > 0].max()
    above = "overloads" if over else f"{max(0, found.above):.1%}"
    print(
        f"| {name} | {found.mean:.2f} | {found.p95:.0f} | {found.p99:.0f} | {found.unplaced:.2%} | {over:.1%} |"
        f" {worst:.2f} | {above} | {seconds:.2f} |",
        flush=True,
    )


def table(name, writer, problem, lists):
    best = solved(problem)
    print(
        f"\n{name}\n\n| Map | Mean ms | 95 % | 99 % | Unplaced | Overloaded | Worst load | Above | Seconds |"
    )
    print("|---|---|---|---|---|---|---|---|---|")
    for words, way in (("nearest pool", nearest), ("weights", weights), ("greedy", greedy)):
        flow, seconds = way(problem)
        row(words, problem, flow, best.bound, seconds)
    for words, mine in lists:
        flow, seconds = by_glb(writer, mine, problem)
        row(words, problem, flow, best.bound, seconds)
    row("optimum", problem, best.flow, best.bound, best.seconds)


def main():
    groups, pools = int(sys.argv[1]), int(sys.argv[2])
    for percent in map(int, sys.argv[3:]):
        world, _ = made(groups, pools, percent / 100)
        writer, problem = writer_of(world), problem_of(world)
        began = time.monotonic()
        plan = solved(problem)
        priced = by_price(problem, plan, 16, 1.0)
        lists = (("`glb`, by round trip", by_round_trip(problem, 16)), ("`glb`, by prices", priced))
        print(
            f"\n## {groups:,} groups, {pools:,} pools, head room {percent} %: prices and lists in {time.monotonic() - began:.1f} s"
        )
        table("As planned", writer, problem, lists)
        share = np.random.default_rng(5).uniform(0.7, 1.3, groups)
        demand = np.maximum(1, np.rint(world.demand * share)).astype(np.int64)
        table("Demand moved by up to 30 %", writer, problem_of(world, demand), lists)
        nearest_pool = world.offer_pool[np.searchsorted(world.offer_unit, np.arange(groups))]
        busy = np.where(world.parent[nearest_pool] == BUSY, 1.2, 1)
        demand = np.maximum(1, np.rint(world.demand * share * busy)).astype(np.int64)
        table("And a fifth more in East Asia", writer, problem_of(world, demand), lists)
        capacity = world.capacity.copy()
        capacity[np.argmax(np.where(world.parent >= 0, capacity, 0))] = 0
        table("And the largest pool out", writer, problem_of(world, demand, capacity), lists)


if __name__ == "__main__":
    main()
