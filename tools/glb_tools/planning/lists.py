"""Ranked lists and scores, made of the optimum and its prices so that the stable map is an optimum.

An offer's whole cost is its microseconds with the prices of its path. A list has the lowest first. Of offers that cost
the same those that the optimum uses come first, and of these one is last: where the units go that the others refuse.

A full node should give up whom it costs least to send elsewhere. So a score is what the offer costs above the best of
its unit, less what the unit loses where it is refused: the way to its nearest pool with room, or to nowhere. At the planned demand each full node then refuses the one unit that the optimum splits there. Once demand
moves, a node gives up those with a pool with room nearby.
"""

from dataclasses import dataclass

import numpy as np
import numpy.typing as npt

from glb_tools.planning.prices import Plan, Problem, loads, path_prices
from glb_tools.planning.world import Numbers
from glb_tools.text import MOST_UNITS

# lower digits of a score, for those that are equal but for them: deeper nodes come first
TIES = 16
# a node with room has at least this part of its capacity free: a twentieth
ROOM = 20
# scores are above 0: no unit loses more than this, twice the dearest unit that is placed nowhere, in microseconds
LARGEST_LOSS = 120_000_000


@dataclass(frozen=True)
class Lists:
    """The offers that are listed, by number, in the order of units and places, and the score of each."""

    offer: Numbers
    score: Numbers


def by_round_trip(problem: Problem, length: int) -> Lists:
    """Lists and scores by cost alone, as a pool of its own would have them."""
    order = np.lexsort((problem.cost, problem.unit))
    order = order[places(problem.unit[order]) < length]
    return Lists(order, problem.cost[order])


def by_price(problem: Problem, plan: Plan, length: int, weight: float) -> Lists:
    above = np.rint(weight * path_prices(problem, plan.price)[problem.pool]).astype(np.int64)
    whole = problem.cost + above
    best = np.minimum(last_used(problem, plan, whole), problem.unplaced)
    rank, tie = ranks(problem, plan, whole, best)
    order = np.lexsort((problem.pool, rank, whole, problem.unit))
    order = order[places(problem.unit[order]) < length]
    unit, kept = problem.unit[order], whole[order]
    # whom the optimum leaves without a place loses nothing where it is refused; others lose it twice
    out = np.where(best < problem.unplaced, 2, 1) * problem.unplaced
    is_last = np.append(unit[1:] != unit[:-1], True)
    following = np.where(is_last, out[unit], np.minimum(np.append(kept[1:], 0), out[unit]))
    with_room = np.where(has_room(problem, plan)[problem.pool[order]], kept, np.iinfo(np.int64).max)
    nearest = np.minimum(least(with_room, unit, len(best)), out)[unit]
    loss = np.where(following > kept, np.maximum(following, nearest) - kept, 0)
    score = LARGEST_LOSS + np.maximum(kept - best[unit], 0) - loss
    return Lists(order, np.clip(TIES * score + tie[order], 0, MOST_UNITS))


def has_room(problem: Problem, plan: Plan) -> npt.NDArray[np.bool_]:
    """Of each node whether it and all above it have room that a moved demand does not fill at once."""
    found: npt.NDArray[np.bool_] = loads(problem, plan.flow) * ROOM <= problem.capacity * (ROOM - 1)
    for node, parent in enumerate(problem.parent.tolist()):
        if parent >= 0:
            found[node] &= found[parent]
    return found


def last_used(problem: Problem, plan: Plan, whole: Numbers) -> Numbers:
    """Of each unit the dearest offer that the optimum uses (with limits it is not the cheapest), or the cheapest."""
    found = least(whole, problem.unit, len(problem.demand))
    used = plan.flow > 0
    np.maximum.at(found, problem.unit[used], whole[used])
    return found


def places(unit: Numbers) -> Numbers:
    """Of offers in the order of their units the place of each in its list."""
    starts = np.searchsorted(unit, unit)
    found: Numbers = np.arange(len(unit)) - starts
    return found


def least(values: Numbers, unit: Numbers, units: int) -> Numbers:
    """The least value of each unit."""
    found = np.full(units, np.iinfo(np.int64).max)
    np.minimum.at(found, unit, values)
    return found


# The optimum as a forest. Nodes with room belong together with the node above them, and at the roots to the sink. A unit
# joins what it is sent to, where the optimum leaves open how much: so a unit that is split joins several. Seen from the
# sink, whoever stands between a full node and the rest is the one whom that node refuses.


def ranks(problem: Problem, plan: Plan, whole: Numbers, best: Numbers) -> tuple[Numbers, Numbers]:
    """Of each offer where it comes among those that cost the same, and the lower digits of its score."""
    top = tops(problem, plan)
    is_used = plan.flow > 0
    parents = rooted(edges(problem, plan, top, whole, best), len(problem.capacity), plan.price)
    # whom the optimum has not at a pool that costs it the same comes behind all that are there
    rank = np.where(is_used, 1, 2)
    tie = np.where(is_used, 0, TIES - 1)
    levels = depths(problem)
    for offer in np.flatnonzero(is_used).tolist():
        node = int(top[problem.pool[offer]])
        if parents[node] == -1 - int(problem.unit[offer]):
            rank[offer], tie[offer] = 0, TIES - 2 - levels[node]
    return rank, tie


def tops(problem: Problem, plan: Plan) -> Numbers:
    """Of each node the highest one that it reaches through nodes with room; the sink has the number behind all nodes."""
    sink = len(problem.capacity)
    is_below = loads(problem, plan.flow) < problem.capacity
    found = np.arange(sink)
    for node, parent in enumerate(problem.parent.tolist()):
        if is_below[node]:
            found[node] = sink if parent < 0 else found[parent]
    return found


@dataclass(frozen=True)
class Edges:
    """What is joined to what: nodes by their numbers, units by -1 less theirs; `weak` where nothing goes that way."""

    strong: dict[int, list[int]]
    weak: dict[int, list[int]]


def edges(problem: Problem, plan: Plan, top: Numbers, whole: Numbers, best: Numbers) -> Edges:
    sink = len(problem.capacity)
    found = Edges({}, {})

    def join(edges: dict[int, list[int]], node: int, other: int) -> None:
        edges.setdefault(node, []).append(other)
        edges.setdefault(other, []).append(node)

    above = top[problem.pool]
    is_open = (plan.flow > 0) & (
        (plan.flow < problem.limit) | (problem.limit >= problem.demand[problem.unit])
    )
    is_tied = (plan.flow == 0) & (whole == best[problem.unit])
    for offer in np.flatnonzero(is_open).tolist():
        join(found.strong, int(above[offer]), -1 - int(problem.unit[offer]))
    for offer in np.flatnonzero(is_tied).tolist():
        join(found.weak, int(above[offer]), -1 - int(problem.unit[offer]))
    for unit in np.flatnonzero(plan.left > 0).tolist():
        join(found.strong, sink, -1 - unit)
    for unit in np.flatnonzero((plan.left == 0) & (best == problem.unplaced)).tolist():
        join(found.weak, sink, -1 - unit)
    for node, parent in enumerate(problem.parent.tolist()):
        if top[node] == node and plan.price[node] == 0:
            join(found.weak, node, sink if parent < 0 else int(top[parent]))
    return found


def rooted(found: Edges, sink: int, price: Numbers) -> dict[int, int | None]:
    """The parent of each in trees: that of the sink first, and weak edges only where no other leads on."""
    parents: dict[int, int | None] = {}
    strong: list[tuple[int, int | None]] = []
    weak: list[tuple[int, int | None]] = []
    roots = sorted(range(sink), key=lambda node: int(price[node]), reverse=True) + [sink]
    while strong or weak or roots:
        if strong or weak:
            at, parent = strong.pop() if strong else weak.pop()
        else:
            at, parent = roots.pop(), None
        if at not in parents:
            parents[at] = parent
            strong.extend((other, at) for other in found.strong.get(at, ()))
            weak.extend((other, at) for other in found.weak.get(at, ()))
    return parents


def depths(problem: Problem) -> list[int]:
    """How many nodes there are from each up to its root."""
    found: list[int] = []
    for parent in problem.parent.tolist():
        found.append(1 if parent < 0 else found[parent] + 1)
    return found
