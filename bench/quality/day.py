#!/usr/bin/env python3
"""A day in steps of ten minutes: how good the maps are, how many units move a step, and what a step takes.

    day.py GROUPS POOLS CLASSES PERCENT

GLB names the built program. Demands follow the hour of the place, between 35 and 100 % of their peak, and each step
moves them by up to 3 % more. From 10:00 to 12:00 twice as much is asked of the service video, and from 15:00 to 17:00
western Europe is out. Maps are the nearest pool; the optimum, solved anew in each step; and those of `glb serve`, which
repairs its map by one commit a step, with lists by round trip, by prices for the busiest step, and by prices anew each
hour (then the server is another, and its first map counts as a step). A unit has moved where it was at a pool before
and is at another one.
"""

import os
import subprocess
import sys
import tempfile
import time
from pathlib import Path

import numpy as np

from quality import nearest, octets_of, writer_of
from worlds import made, problem_of

from glb_tools.planning import judge
from glb_tools.planning.lists import by_price, by_round_trip
from glb_tools.planning.prices import loads, solved

GLB = os.environ.get("GLB", "glb")
STEPS, HOUR = 144, 6
CROWD, FAILED = range(60, 72), range(90, 102)
OUT = "western-europe"


class Day:
    """Demands and capacities of each step."""

    def __init__(self, groups, pools, classes, percent):
        self.world, lon = made(groups, pools, percent / 100, classes)
        draw = np.random.default_rng(9)
        self.demands, self.capacities = [], []
        lon = np.concatenate([lon, lon[:classes]])
        names = [node.name for node in self.world.nodes]
        is_out = np.array([OUT in (node.name, node.parent) for node in self.world.nodes])
        assert OUT in names
        for step in range(STEPS):
            hour = (step / HOUR + lon / 15) % 24
            wave = 0.35 + 0.65 * (1 + np.cos((hour - 20) / 12 * np.pi)) / 2
            demand = self.world.demand * wave * draw.uniform(0.97, 1.03, len(lon))
            if step in CROWD:
                demand[groups:] *= 2
            self.demands.append(np.maximum(1, np.rint(demand)).astype(np.int64))
            self.capacities.append(
                np.where(is_out & (step in FAILED), 0, self.world.capacity).astype(np.int64)
            )

    def problem(self, step):
        return problem_of(self.world, self.demands[step], self.capacities[step])


class Server:
    """A server with its feed."""

    def __init__(self, world, octets, folder):
        path = Path(folder) / "base.toml"
        path.write_bytes(octets)
        began = time.monotonic()
        self.world = world
        self.running = subprocess.Popen(
            [GLB, "serve", str(path), "--listen", "127.0.0.1:0"],
            stdin=subprocess.PIPE,
            stdout=subprocess.PIPE,
            stderr=subprocess.PIPE,
        )
        self.first = self.map()
        self.seconds = time.monotonic() - began

    def map(self):
        lines = []
        while True:
            lines.append(self.running.stderr.readline())
            if lines[-1] == b"end\n":
                return judge.flow_of(self.world, b"".join(lines))
            assert lines[-1], "the server has ended"

    def step(self, demand, capacity, before):
        """The map for these numbers, and the seconds of its commit."""
        lines = []
        for word, names, new, old in (
            ("demand", self.world.units, demand, before[0]),
            ("capacity", [node.name for node in self.world.nodes], capacity, before[1]),
        ):
            lines += [f"{word} {names[at]} {new[at]}\n" for at in np.flatnonzero(new != old)]
        assert len(lines) <= 4096
        began = time.monotonic()
        self.running.stdin.write(("".join(lines) + "commit\n").encode())
        self.running.stdin.flush()
        flow = self.map()
        said = self.running.stdout.readline()
        assert said.startswith(b"published"), said
        return flow, time.monotonic() - began

    def end(self):
        self.running.stdin.close()
        self.running.wait(30)


def moved(world, before, after):
    """Units that were at a pool and are at another one."""
    lost, gained = np.maximum(before - after, 0), np.maximum(after - before, 0)
    units = len(world.units)
    return int(
        np.minimum(
            np.bincount(world.offer_unit, lost, units), np.bincount(world.offer_unit, gained, units)
        ).sum()
    )


def by_server(day, lists_of, every):
    """Flows and seconds of each step, by a server that begins anew each so many steps."""
    writer = writer_of(day.world)
    with tempfile.TemporaryDirectory() as folder:
        server = None
        for step in range(STEPS):
            if step % every == 0:
                if server is not None:
                    server.end()
                lists = lists_of(step)
                octets = octets_of(writer, lists, day.demands[step], day.capacities[step])
                server = Server(day.world, octets, folder)
                yield server.first, server.seconds
            else:
                before = day.demands[step - 1], day.capacities[step - 1]
                yield server.step(day.demands[step], day.capacities[step], before)
        server.end()


def busiest(day):
    return max(
        range(STEPS), key=lambda step: int(day.demands[step].sum()) if step not in CROWD else 0
    )


def say(day, name, flows, bounds):
    above, unplaced, over, moves, seconds, mean = [], [], [], [], [], []
    before = None
    for step, (flow, took) in enumerate(flows):
        problem = day.problem(step)
        found = judge.judged(problem, flow, bounds[step], took)
        is_pool = day.world.parent >= 0
        load = np.maximum(loads(problem, flow) - problem.capacity, 0)[is_pool].sum()
        total = problem.demand.sum()
        above.append(found.above), unplaced.append(found.unplaced), mean.append(found.mean)
        over.append(load / total), seconds.append(took)
        if before is not None:
            moves.append(moved(day.world, before, flow) / total)
        before = flow
    cost = "overloads" if max(over) > 0 else f"{max(0.0, float(np.mean(above))):.1%}"
    print(
        f"| {name} | {np.mean(mean):.2f} | {cost} | {np.mean(unplaced):.2%} | {max(unplaced):.2%} | {max(over):.1%} |"
        f" {np.mean(moves):.2%} | {max(moves):.1%} | {1000 * np.median(seconds):.0f} | {1000 * max(seconds):.0f} |",
        flush=True,
    )


def main():
    day = Day(*map(int, sys.argv[1:5]))
    plans = [solved(day.problem(step)) for step in range(STEPS)]
    bounds = [plan.bound for plan in plans]
    print(
        "| Map | Mean ms | Above | Unplaced, mean | most | Overloaded, most | Moved a step, mean | most | ms a step | most |"
    )
    print("|---|---|---|---|---|---|---|---|---|---|")
    say(day, "nearest pool", (nearest(day.problem(step)) for step in range(STEPS)), bounds)

    def priced(step):
        return by_price(day.problem(step), plans[step], 16, 1.0)

    def near(step):
        return by_round_trip(day.problem(step), 16)

    peak = busiest(day)
    say(day, "`glb`, by round trip", by_server(day, near, STEPS), bounds)
    say(
        day,
        "`glb`, by prices of the busiest step",
        by_server(day, lambda _: priced(peak), STEPS),
        bounds,
    )
    say(day, "`glb`, by prices of each hour", by_server(day, priced, HOUR), bounds)
    say(day, "optimum of each step", ((plan.flow, plan.seconds) for plan in plans), bounds)


if __name__ == "__main__":
    main()
