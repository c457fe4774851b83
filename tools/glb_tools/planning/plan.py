"""A plan of the tables: the world with as few groups as are allowed, its optimum, lists and scores."""

from dataclasses import dataclass, replace
from pathlib import Path

import numpy as np

from glb_tools.options import Fault, Progress
from glb_tools.planning.choices import Choices, read_choices
from glb_tools.planning.lists import Lists, by_price, by_round_trip
from glb_tools.planning.merge import merged
from glb_tools.planning.prefixes import aggregated
from glb_tools.planning.prices import Plan, Problem, solved
from glb_tools.planning.world import PER_MS, Numbers, Prefix, World, read_world, with_last_resort
from glb_tools.text import MOST_UNITS


@dataclass
class Made:
    """A plan of the tables, and what led to it."""

    choices: Choices
    world: World
    problem: Problem
    # the optimum of the capacities as they are, and the plan of which prices come
    best: Plan
    plan: Plan
    lists: Lists
    limits: Numbers | None
    prefixes: dict[Prefix, int]
    # the number of the pool of last resort, or -1
    last: int
    # of each group of the tables the number of the one that it is part of
    into: list[int]
    names: list[str]
    notes: list[str]


def plan_of(path: Path, seconds: float, is_by_round_trip: bool) -> Made:
    """The plan of a file of choices; an optimum may take so many seconds."""
    choices = read_choices(path)
    with Progress("reads the tables"):
        world = read_world(choices)
    notes, names = list(world.notes), world.units[: world.groups]
    into = list(range(world.groups))
    if len(world.units) > choices.lists.groups:
        with Progress("merges groups"):
            world, into = fewer(choices, world, seconds, notes)
    last = -1
    if choices.lists.last_resort:
        last = [node.name for node in world.nodes].index(choices.lists.last_resort)
        world = with_last_resort(world, last, round(choices.lists.unplaced * PER_MS))
    with Progress("joins prefixes"):
        prefixes = aggregated(world.prefixes)
    limits = limits_of(choices, world, last)
    problem = problem_of(choices, world, limits)
    notes += notes_on(choices, world, problem, prefixes, last)
    with Progress("looks for the optimum"):
        best = solved(problem, seconds)
    plan, lists = best, by_round_trip(problem, choices.lists.length)
    if not is_by_round_trip:
        with Progress("looks for prices"):
            plan, lists = priced(choices, problem, best, seconds)
    return Made(
        choices, world, problem, best, plan, lists, limits, prefixes, last, into, names, notes
    )


def priced(choices: Choices, problem: Problem, best: Plan, seconds: float) -> tuple[Plan, Lists]:
    """Lists by price; with head room the prices are those of less capacity, so that they rise ahead of the rush."""
    share, plan = choices.lists.head_room, best
    if share:
        capacity = np.floor(problem.capacity * (1 - share)).astype(np.int64)
        problem = replace(problem, capacity=capacity)
        plan = solved(problem, seconds)
    return plan, by_price(problem, plan, choices.lists.length, choices.lists.price_weight)


def notes_on(
    choices: Choices, world: World, problem: Problem, prefixes: dict[Prefix, int], last: int
) -> list[str]:
    notes = []
    if len(prefixes) < len(world.prefixes):
        notes.append(f"{len(world.prefixes):,} prefixes became {len(prefixes):,} that say the same")
    far = int((world.offer_cost[world.offer_pool != last] >= problem.unplaced).sum())
    if far:
        notes.append(
            f"{far:,} round trips are as long as `unplaced`, {choices.lists.unplaced:g} ms, or longer:"
            " the optimum does not use them, and maps do"
        )
    return notes


def limits_of(choices: Choices, world: World, last: int) -> Numbers | None:
    """The most of each offer, where a group may not be at one pool alone."""
    share = choices.lists.most_at_one_pool
    if share == 1:
        return None
    most: Numbers = np.maximum(np.ceil(share * world.demand - 1e-9), 1).astype(np.int64)
    limits = most[world.offer_unit]
    limits[world.offer_pool == last] = MOST_UNITS
    return limits


def problem_of(choices: Choices, world: World, limits: Numbers | None) -> Problem:
    return Problem(
        world.demand,
        world.offer_unit,
        world.offer_pool,
        world.offer_cost,
        np.full(len(world.offer_unit), MOST_UNITS) if limits is None else limits,
        world.capacity,
        world.parent,
        round(choices.lists.unplaced * PER_MS),
    )


def fewer(
    choices: Choices, world: World, seconds: float, notes: list[str]
) -> tuple[World, list[int]]:
    """The world with as few groups as are allowed, and of each group the one that it is part of."""
    found = merged(world, choices.lists.groups)
    costs = []
    for some in (world, found.world):
        problem = problem_of(choices, some, limits_of(choices, some, -1))
        try:
            costs.append(f"{solved(problem, seconds).cost / int(some.demand.sum()) / PER_MS:.3f}")
        except Fault:
            # a world that is too large to be solved has to become smaller all the same
            costs.append("unknown")
    notes.append(
        f"{len(world.units):,} groups and classes became {len(found.world.units):,}: round trips are"
        f" {found.milliseconds:.3f} ms off in the mean, and the optimum goes from {costs[0]} to"
        f" {costs[1]} ms a unit"
    )
    return found.world, found.into
