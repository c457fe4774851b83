"""The transport problem: which units go where at the least cost, and what a unit more of each node would save.

A unit that is placed costs its offer's microseconds, one that is placed nowhere `unplaced`. The price of a node is the
dual variable of its capacity. Each bound that is told is computed here from prices alone, by weak duality, so it holds
whatever has found them: `glb-prices` (the network simplex of LEMON), or HiGHS where that is not built.
"""

import os
import shutil
import subprocess
import time
from collections.abc import Iterator
from contextlib import contextmanager
from dataclasses import dataclass
from pathlib import Path

import numpy as np

from glb_tools.options import Fault
from glb_tools.planning.world import Numbers

MOST_SECONDS = 600.0
# where `glb-prices` is built, and where the package has it
PLACES = (
    Path(__file__).resolve().parent.parent.parent / "native" / "glb-prices",
    Path("/usr/lib/glb/glb-prices"),
)
ENDS = {
    2: "it could not read the problem",
    3: "there was not enough memory",
    4: "it could not write its answer",
}


@dataclass(frozen=True)
class Problem:
    """Units with demands; offers in the order of their units, each with a cost and a limit; nodes, parents first."""

    demand: Numbers
    unit: Numbers
    pool: Numbers
    cost: Numbers
    limit: Numbers
    capacity: Numbers
    parent: Numbers
    unplaced: int


@dataclass(frozen=True)
class Plan:
    """Units by offer, prices by node, and what both come to, all in microseconds and units."""

    flow: Numbers
    left: Numbers
    price: Numbers
    cost: int
    bound: int
    method: str
    seconds: float


def product(left: Numbers, right: Numbers) -> int:
    """The sum of products, exactly: neither factor is below 0, the left ones are below 2^32, the right ones 2^30."""
    products = left * right
    high: int = int((products >> 31).sum())
    low: int = int((products & (1 << 31) - 1).sum())
    return (high << 31) + low


def path_prices(problem: Problem, price: Numbers) -> Numbers:
    """Of each node its own price with those of all above it."""
    found = price.copy()
    for node, parent in enumerate(problem.parent.tolist()):
        if parent >= 0:
            found[node] += found[parent]
    return found


def bound(problem: Problem, price: Numbers) -> int:
    """A number that no placement costs less than, whatever the prices, as long as none is below 0."""
    assert price.min(initial=0) >= 0
    reduced = np.minimum(problem.cost + path_prices(problem, price)[problem.pool], problem.unplaced)
    order = np.lexsort((reduced, problem.unit))
    unit, limit = (
        problem.unit[order],
        np.minimum(problem.limit, problem.demand[problem.unit])[order],
    )
    # each unit takes its cheapest offers, up to the limit of each, until its demand is met
    before = np.cumsum(limit) - limit
    starts = np.searchsorted(unit, np.arange(len(problem.demand)))
    first = np.minimum(starts, len(unit) - 1)
    taken = np.clip(problem.demand[unit] - (before - before[first][unit]), 0, limit)
    rest = problem.demand - np.bincount(unit, taken, len(problem.demand)).astype(np.int64)
    least = product(taken, reduced[order]) + int(rest.sum()) * problem.unplaced
    paid: int = sum(p * c for p, c in zip(price.tolist(), problem.capacity.tolist()) if p)
    return least - paid


def cost_of(problem: Problem, flow: Numbers) -> int:
    """What a placement costs, with those that are placed nowhere."""
    left = int(problem.demand.sum()) - int(flow.sum())
    return product(flow, problem.cost) + left * problem.unplaced


def program() -> str | None:
    """Where `glb-prices` is: as GLB_PRICES says (nowhere, if that is empty), beside the tools, or in the path."""
    named = os.environ.get("GLB_PRICES")
    if named is not None:
        return named or None
    found = next((str(place) for place in PLACES if os.access(place, os.X_OK)), None)
    return found or shutil.which("glb-prices")


def solved(problem: Problem, seconds: float = MOST_SECONDS) -> Plan:
    began = time.monotonic()
    at = program()
    if at is not None:
        flow, left, price = by_simplex(at, problem, seconds)
        method = "network simplex"
    else:
        flow, left, price = by_highs(problem, seconds)
        method = "HiGHS"
    price = plain_prices(problem, flow, price)
    return Plan(
        flow,
        left,
        price,
        cost_of(problem, flow),
        bound(problem, price),
        method,
        time.monotonic() - began,
    )


def plain_prices(problem: Problem, flow: Numbers, price: Numbers) -> Numbers:
    """Prices of nodes with room are 0, and none is more than a unit that is placed nowhere."""
    load = loads(problem, flow)
    return np.where(load < problem.capacity, 0, np.clip(price, 0, problem.unplaced))


def loads(problem: Problem, flow: Numbers) -> Numbers:
    """The units under each node."""
    found = np.zeros(len(problem.capacity), np.int64)
    np.add.at(found, problem.pool, flow)
    for node in range(len(found) - 1, -1, -1):
        if problem.parent[node] >= 0:
            found[problem.parent[node]] += found[node]
    return found


# The network: units, then nodes, then the sink, to which roots and units that are placed nowhere go.


@contextmanager
def told_if_late(seconds: float) -> Iterator[None]:
    try:
        yield
    except subprocess.TimeoutExpired:
        raise Fault(f"no optimum within {seconds:g} seconds: give it more with --seconds") from None


def by_simplex(at: str, problem: Problem, seconds: float) -> tuple[Numbers, Numbers, Numbers]:
    units, nodes, offers = len(problem.demand), len(problem.capacity), len(problem.unit)
    sink = units + nodes
    supply = np.zeros(sink + 1, np.int64)
    supply[:units], supply[sink] = problem.demand, -problem.demand.sum()
    above = np.where(problem.parent < 0, sink, units + problem.parent)
    arcs = [
        np.concatenate([problem.unit, np.arange(units), units + np.arange(nodes)]),
        np.concatenate([units + problem.pool, np.full(units, sink), above]),
        np.concatenate(
            [
                np.minimum(problem.limit, problem.demand[problem.unit]),
                problem.demand,
                problem.capacity,
            ]
        ),
        np.concatenate([problem.cost, np.full(units, problem.unplaced), np.zeros(nodes, np.int64)]),
    ]
    counts = np.array([sink + 1, len(arcs[0])], np.int64)
    octets = b"".join(part.astype(np.int64).tobytes() for part in [counts, supply, *arcs])
    try:
        with told_if_late(seconds):
            ended = subprocess.run([at], input=octets, capture_output=True, timeout=seconds)
    except OSError as why:
        raise Fault(f"{at}: {why.strerror}") from None
    if ended.returncode or len(ended.stdout) != 8 * (sink + 1 + len(arcs[0])):
        cause = ENDS.get(ended.returncode, f"it ended with status {ended.returncode}")
        raise Fault(f"{at}: no optimum: {cause}")
    answer = np.frombuffer(ended.stdout, np.int64)
    potential, flow = answer[: sink + 1], answer[sink + 1 :]
    price = potential[above] - potential[units : units + nodes]
    return flow[:offers], flow[offers : offers + units], price


def by_highs(problem: Problem, seconds: float) -> tuple[Numbers, Numbers, Numbers]:
    """The same by a solver of linear programs: it takes some hundred times as long."""
    try:
        from scipy.optimize import linprog
        from scipy.sparse import csr_matrix
    except ImportError:
        raise Fault(
            "there is neither glb-prices (tools/native/build.sh builds it) nor SciPy (python3-scipy)"
        ) from None
    units, nodes, offers = len(problem.demand), len(problem.capacity), len(problem.unit)
    rows, columns = [problem.unit], [np.arange(offers)]
    at = problem.pool
    offer = np.arange(offers)
    while len(at):
        rows.append(units + at)
        columns.append(offer)
        at, offer = problem.parent[at], offer[problem.parent[at] >= 0]
        at = at[at >= 0]
    row, column = np.concatenate(rows), np.concatenate(columns)
    matrix = csr_matrix((np.ones(len(row)), (row, column)), (units + nodes, offers))
    found = linprog(
        problem.cost - float(problem.unplaced),
        A_ub=matrix,
        b_ub=np.concatenate([problem.demand, problem.capacity]).astype(float),
        bounds=np.stack(
            [np.zeros(offers), np.minimum(problem.limit, problem.demand[problem.unit])], 1
        ),
        method="highs-ds",
        options={"time_limit": seconds},
    )
    if found.status == 1:
        raise Fault(
            f"no optimum within {seconds:g} seconds: build glb-prices (tools/native/build.sh), or give it more with --seconds"
        )
    if found.status:
        raise Fault(f"no optimum: {found.message}")
    flow = np.rint(found.x).astype(np.int64)
    left = problem.demand - np.bincount(problem.unit, flow, units).astype(np.int64)
    return flow, left, np.rint(-found.ineqlin.marginals[units:]).astype(np.int64)
