"""Fewer groups: those whose lists agree become one, and then those whose round trips differ least.

Only groups with classes for the same services are merged. What it costs is how far the round trips that a member gets
are from its own: the mean over all units and pools, in milliseconds. How much that is worth shows in the optimum before
and after.
"""

import heapq
from dataclasses import dataclass

import numpy as np

from glb_tools.options import Fault
from glb_tools.planning.world import Numbers, World

# how many pools two groups have in common, at least, where they are merged: fewer only where that does not do
COMMON = (8, 4, 2, 1)
# of how many that follow in the order of lists each one looks for the nearest
WIDTH = 6


@dataclass
class Merged:
    """A world of fewer groups; of each group that was there the number of the one that it is part of."""

    world: World
    into: list[int]
    # how far the round trips of the new groups are from the members' own, in the mean over units
    milliseconds: float


@dataclass
class Part:
    """Groups that are one: demand, the microseconds of each pool, the members and the kind, of which all are."""

    demand: int
    cost: dict[int, float]
    members: list[int]
    kind: tuple[str, ...]
    # the sum over units of what was changed of their round trips
    moved: float = 0.0
    is_over: bool = False


def merged(world: World, most: int) -> Merged:
    """A world of at most `most` groups and classes."""
    parts = parts_of(world)
    count = len(world.units)
    for least in (0, *COMMON):
        if count > most:
            parts = [part for part in parts if not part.is_over]
            lists = {id(part): list_of(part) for part in parts}
            parts.sort(key=lambda part: (part.kind, lists[id(part)], part.members[0]))
            if least:
                count = nearest(parts, count, most, least)
            else:
                count = agreeing(parts, lists, count)
    if count > most:
        raise Fault(
            f"{count:,} groups and classes are left, and {most:,} are allowed: what is left has no pools in common"
        )
    return rebuilt(world, [part for part in parts if not part.is_over])


def list_of(part: Part) -> tuple[int, ...]:
    """The part's pools, the nearest first."""
    return tuple(sorted(part.cost, key=lambda pool: (part.cost[pool], pool)))


def parts_of(world: World) -> list[Part]:
    """Each group as a part of its own."""
    groups = world.groups
    kinds: list[list[str]] = [[] for _ in range(groups)]
    for unit in range(groups, len(world.units)):
        kinds[int(world.owner[unit])].append(world.services[unit])
    parts = [
        Part(demand, {}, [group], tuple(kind))
        for group, (demand, kind) in enumerate(zip(world.demand[:groups].tolist(), kinds))
    ]
    end = int(np.searchsorted(world.offer_unit, groups))
    columns = (world.offer_unit, world.offer_pool, world.offer_cost)
    for unit, pool, cost in zip(*(column[:end].tolist() for column in columns)):
        parts[unit].cost[pool] = cost
    return parts


def agreeing(parts: list[Part], lists: dict[int, tuple[int, ...]], count: int) -> int:
    """Neighbours of one kind whose lists are the same become one."""
    last = parts[0]
    for part in parts[1:]:
        if last.kind == part.kind and lists[id(last)] == lists[id(part)]:
            join(last, part)
            count -= 1 + len(part.kind)
        else:
            last = part
    return count


def join(part: Part, other: Part) -> None:
    """The other's members become the part's; pools that one of them lacks are offered no more."""
    demand = part.demand + other.demand
    cost: dict[int, float] = {}
    here = away = 0.0
    for pool, own in part.cost.items():
        theirs = other.cost.get(pool)
        if theirs is not None:
            cost[pool] = mean = (part.demand * own + other.demand * theirs) / demand
            here, away = here + abs(own - mean), away + abs(theirs - mean)
    count = max(1, len(cost))
    part.moved += other.moved + (part.demand * here + other.demand * away) / count
    part.cost, part.demand = cost, demand
    part.members += other.members
    other.is_over = True


def distance(part: Part, other: Part, least: int) -> float | None:
    """What joining the two moves, in microseconds times units, and more where they have few pools in common."""
    if part.kind != other.kind:
        return None
    moved, common = 0.0, 0
    for pool, own in part.cost.items():
        theirs = other.cost.get(pool)
        if theirs is not None:
            moved, common = moved + abs(own - theirs), common + 1
    longest = max(len(part.cost), len(other.cost))
    if common < min(least, longest):
        return None
    units = 2 * part.demand * other.demand / (part.demand + other.demand)
    return units * moved / common * longest / common


class Neighbours:
    """Parts in a row; those that are near each other there may be joined, the two first that differ least."""

    def __init__(self, parts: list[Part], least: int) -> None:
        self.parts, self.least = parts, least
        self.after = list(range(1, len(parts))) + [-1]
        self.before = [-1] + list(range(len(parts) - 1))
        self.version = [0] * len(parts)
        self.waiting: list[tuple[float, int, int, int, int]] = []
        for at in range(len(parts)):
            self.offer_all(at, self.after)

    def offer_all(self, at: int, step: list[int]) -> None:
        """The part with each of those that follow, or come before."""
        other = step[at]
        for _ in range(WIDTH):
            if other < 0:
                break
            self.offer(min(at, other), max(at, other))
            other = step[other]

    def offer(self, at: int, other: int) -> None:
        far = distance(self.parts[at], self.parts[other], self.least)
        if far is not None:
            pair = (far, at, other, self.version[at], self.version[other])
            heapq.heappush(self.waiting, pair)

    def join(self) -> int:
        """Joins the first two: how many groups and classes there are fewer, or 0 where there are no two."""
        while self.waiting:
            _, at, other, seen, seen_other = heapq.heappop(self.waiting)
            if self.version[at] == seen and self.version[other] == seen_other:
                join(self.parts[at], self.parts[other])
                self.version[at] += 1
                self.version[other] += 1
                self.leave_out(other)
                self.offer_all(at, self.after)
                self.offer_all(at, self.before)
                return 1 + len(self.parts[other].kind)
        return 0

    def leave_out(self, at: int) -> None:
        """One that has others before it."""
        before, after = self.before[at], self.after[at]
        self.after[before] = after
        if after >= 0:
            self.before[after] = before


def nearest(parts: list[Part], count: int, most: int, least: int) -> int:
    """Neighbours in the order of lists are joined until few enough are left."""
    row = Neighbours(parts, least)
    while count > most and (fewer := row.join()):
        count -= fewer
    return count


def rebuilt(world: World, parts: list[Part]) -> Merged:
    """The world of the parts, each under the name of its member with the most demand, in the members' order."""
    parts = sorted(parts, key=lambda part: min(part.members))
    groups = world.groups
    into = [0] * groups
    names, demand = [], []
    for number, part in enumerate(parts):
        leader = max(part.members, key=lambda group: (int(world.demand[group]), -group))
        names.append(world.units[leader])
        demand.append(part.demand)
        for group in part.members:
            into[group] = number
    classes: dict[tuple[int, str], int] = {}
    for unit in range(groups, len(world.units)):
        key = into[int(world.owner[unit])], world.services[unit]
        classes[key] = classes.get(key, 0) + int(world.demand[unit])
    keys = sorted(classes)
    units = names + [f"{names[group]}.{service}" for group, service in keys]
    offered = offers_of(world, parts, into, keys)
    missing = set(range(len(units))).difference(offered[0].tolist())
    if missing:
        raise Fault(
            f"the members of {units[min(missing)]} have no pool in common that has its service: set `groups` higher"
        )
    moved = sum(part.moved for part in parts) / max(1, int(world.demand[:groups].sum()))
    found = World(
        world.nodes,
        world.parent,
        world.capacity,
        units,
        np.array([-1] * len(names) + [group for group, _ in keys], np.int64),
        [""] * len(names) + [service for _, service in keys],
        np.array(demand + [classes[key] for key in keys], np.int64),
        *offered,
        {prefix: into[group] for prefix, group in world.prefixes.items()},
        world.notes,
    )
    return Merged(found, into, moved / 1000)


def offers_of(
    world: World, parts: list[Part], into: list[int], keys: list[tuple[int, str]]
) -> tuple[Numbers, Numbers, Numbers]:
    """The offers of the parts, and of each class those of its members, in the mean by their demands."""
    found: list[tuple[int, int, int]] = []
    for number, part in enumerate(parts):
        found += [(number, pool, round(cost)) for pool, cost in sorted(part.cost.items())]
    at = {key: len(parts) + number for number, key in enumerate(keys)}
    sums: dict[tuple[int, int], list[int]] = {}
    members, groups = [0] * len(keys), world.groups
    for unit in range(groups, len(world.units)):
        members[at[into[int(world.owner[unit])], world.services[unit]] - len(parts)] += 1
    start = int(np.searchsorted(world.offer_unit, groups))
    columns = (world.offer_unit, world.offer_pool, world.offer_cost)
    for unit, pool, cost in zip(*(column[start:].tolist() for column in columns)):
        new = at[into[int(world.owner[unit])], world.services[unit]]
        weight = int(world.demand[unit])
        entry = sums.setdefault((new, pool), [0, 0, 0])
        entry[0], entry[1], entry[2] = entry[0] + 1, entry[1] + weight, entry[2] + weight * cost
    found += [
        (new, pool, total // weight)
        for (new, pool), (count, weight, total) in sorted(sums.items())
        if count == members[new - len(parts)]
    ]
    offers = np.array(found, np.int64).reshape(-1, 3)
    return offers[:, 0], offers[:, 1], offers[:, 2]
