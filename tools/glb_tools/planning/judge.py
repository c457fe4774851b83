"""How good the maps of a topology are: `glb map` makes one, and its cost stands beside the bound."""

import os
import shutil
import subprocess
import tempfile
import time
from collections.abc import Sequence
from dataclasses import dataclass

import numpy as np

from glb_tools.map import map_lines
from glb_tools.options import Fault
from glb_tools.planning.prices import Problem, cost_of
from glb_tools.planning.world import PER_MS, Numbers, World


@dataclass(frozen=True)
class Judged:
    """What a placement comes to: milliseconds over the units that are placed, and shares of all."""

    mean: float
    p95: float
    p99: float
    # the share of the demand that is placed nowhere
    unplaced: float
    # the share that is placed at the pool of last resort
    last_resort: float
    # what it costs with these, a unit, in milliseconds
    cost: float
    # above the bound, as a share of it
    above: float
    seconds: float


def program(named: str | None) -> str:
    """Where `glb` is."""
    found = shutil.which(named or os.environ.get("GLB") or "glb")
    if found is None:
        raise Fault(
            f"there is no program {named or os.environ.get('GLB') or 'glb'}: name it with --glb, or leave the map out with --no-map"
        )
    return found


def mapped(glb: str, octets: bytes) -> tuple[bytes, float]:
    """The map of a topology, and how long it took."""
    with tempfile.NamedTemporaryFile(prefix="glb-topology-", suffix=".toml") as file:
        file.write(octets)
        file.flush()
        began = time.monotonic()
        try:
            ended = subprocess.run([glb, "map", file.name], capture_output=True)
        except OSError as why:
            raise Fault(f"{glb}: {why.strerror}") from None
    seconds = time.monotonic() - began
    if ended.returncode:
        said = ended.stdout[:400].decode("utf-8", "replace").strip() or "it said nothing"
        raise Fault(f"{glb} map does not take the topology (status {ended.returncode}): {said}")
    return ended.stdout, seconds


def flow_of(world: World, octets: bytes) -> Numbers:
    """Of each offer the units that a map places there."""
    unit_at = {name: number for number, name in enumerate(world.units)}
    node_at = {node.name: number for number, node in enumerate(world.nodes)}
    keys, units = [], []
    for words in map_lines(octets):
        if words[0] == "place":
            keys.append(unit_at[words[1]] * len(world.nodes) + node_at[words[2]])
            units.append(int(words[3]))
    offers = world.offer_unit * len(world.nodes) + world.offer_pool
    order = np.argsort(offers, kind="stable")
    at = order[np.searchsorted(offers[order], np.array(keys, np.int64))]
    flow = np.zeros(len(offers), np.int64)
    flow[at] = units
    return flow


def judged(
    problem: Problem, flow: Numbers, bound: int, seconds: float, last_resort: int = -1
) -> Judged:
    """What a placement comes to; `last_resort` is the number of that pool, where there is one."""
    total, placed = int(problem.demand.sum()), int(flow.sum())
    cost = cost_of(problem, flow)
    used = np.flatnonzero(flow)
    order = used[np.argsort(problem.cost[used], kind="stable")]
    reached = np.cumsum(flow[order])
    p95, p99 = (
        float(problem.cost[order[np.searchsorted(reached, share * placed)]]) / PER_MS
        if placed
        else 0.0
        for share in (0.95, 0.99)
    )
    alone = cost - (total - placed) * problem.unplaced
    return Judged(
        alone / max(1, placed) / PER_MS,
        p95,
        p99,
        (total - placed) / total,
        int(flow[problem.pool == last_resort].sum()) / total,
        cost / total / PER_MS,
        cost / bound - 1 if bound else 0.0,
        seconds,
    )


def moved(demand: Numbers, share: float, seed: int) -> Numbers:
    """Demands that are moved by up to a share, each by itself."""
    draw = np.random.default_rng(seed)
    found = np.rint(demand * draw.uniform(1 - share, 1 + share, len(demand))).astype(np.int64)
    return np.clip(found, 1, (1 << 32) - 1)


def sentence(name: str, found: Judged, words: Sequence[str] = ()) -> str:
    """One line on a placement."""
    parts = [
        f"mean {found.mean:.2f} ms",
        f"95 % within {found.p95:.1f}",
        f"99 % within {found.p99:.1f}",
        f"{found.unplaced:.2%} unplaced",
        *([f"{found.last_resort:.2%} at the last resort"] if found.last_resort else []),
        *words,
    ]
    return f"{name}: {', '.join(parts)} ({found.seconds:.1f} s)"
