"""Made-up networks on a globe: people in cities, pools where many people are, regions with less than their pools.

The same words give the same world. Groups of clients are spread around the cities of cities.csv, by people; what they
ask for has a heavy tail (a Pareto distribution of shape 1.3). A round trip is 2 ms, the way over a globe at 1 ms for 100
kilometres, and a part that has nothing to do with it, 6 ms in the mean. Each group has the sixteen pools of the least
round trips. Of the capacity four fifths are where the demand is, and a fifth is the same at each pool; the head room is
that of all pools together. A region holds 93 % of its pools. With classes the first groups ask for video, too, twice as
much as for all else.
"""

import csv
import sys
from pathlib import Path

import numpy as np

HERE = Path(__file__).resolve().parent
sys.path.append(str(HERE.parent.parent / "tools"))

from glb_tools.planning.prices import Problem  # noqa: E402
from glb_tools.planning.world import Node, World  # noqa: E402

LIST, UNPLACED = 16, 400_000
NO_LIMIT = 2**32 - 1
SEED = 20151


def cities():
    with open(HERE / "cities.csv", newline="") as file:
        return list(csv.DictReader(file))


def on_globe(places):
    lat, lon = np.radians(places).T
    return np.stack([np.cos(lat) * np.cos(lon), np.cos(lat) * np.sin(lon), np.sin(lat)], 1)


def spread(draw, middle, degrees):
    found = middle + draw.normal(0, degrees, middle.shape)
    return np.clip(found, [-60, -180], [68, 180])


def made(groups, pools, head_room, classes=0):
    draw = np.random.default_rng(SEED)
    known = cities()
    places = np.array([(float(city["lat"]), float(city["lon"])) for city in known])
    people = np.array([float(city["people"]) for city in known])
    names = sorted({city["region"] for city in known})
    region_of = np.array([names.index(city["region"]) for city in known])
    # pools in the largest cities, each city again once all have one
    home = np.argsort(-people, kind="stable")[np.arange(pools) % len(known)]
    at = spread(draw, places[home], 1.0)
    near = draw.choice(len(known), groups, p=people / people.sum())
    clients = spread(draw, places[near], 3.0)
    cost, pool = round_trips(draw, clients, at)
    demand = np.rint(20 * (1 + draw.pareto(1.3, groups))).clip(1, 200_000).astype(np.int64)
    wanted = np.bincount(pool[:, :3].ravel(), np.outer(demand, [0.5, 0.3, 0.2]).ravel(), pools)
    total = demand.sum() + 2 * demand[:classes].sum()
    room = (1 + head_room) * total * (0.8 * wanted / wanted.sum() + 0.2 / pools)
    capacity = np.rint(room).astype(np.int64)
    region = region_of[home]
    above = np.rint(0.93 * np.bincount(region, capacity, len(names))).astype(np.int64)
    nodes = [Node(name, "", int(held), False, None) for name, held in zip(names, above)]
    for number in range(pools):
        addresses = [f"198.18.{number >> 8}.{number & 255}"]
        nodes.append(
            Node(f"p{number}", names[region[number]], int(capacity[number]), True, None, addresses)
        )
    units = [f"g{number}" for number in range(groups)] + [
        f"g{number}.video" for number in range(classes)
    ]
    owner = np.concatenate([np.full(groups, -1), np.arange(classes)])
    first = len(names)
    world = World(
        nodes,
        np.concatenate([np.full(first, -1), region]),
        np.concatenate([above, capacity]),
        units,
        owner,
        [""] * groups + ["video"] * classes,
        np.concatenate([demand, 2 * demand[:classes]]),
        np.repeat(np.arange(groups + classes), LIST),
        np.concatenate([pool, pool[:classes]]).ravel() + first,
        np.concatenate([cost, cost[:classes]]).ravel(),
        {(4, 0, 0): 0, (6, 0, 0): 0},
        [],
    )
    return world, clients[:, 1]


def round_trips(draw, clients, pools):
    """Of each group its pools of the least round trips, in microseconds, the least first."""
    count = min(len(pools), 4 * LIST)
    cost = np.empty((len(clients), LIST), np.int64)
    pool = np.empty((len(clients), LIST), np.int64)
    globe = on_globe(pools)
    for start in range(0, len(clients), 1024):
        near = on_globe(clients[start : start + 1024])
        km = 6371 * np.arccos(np.clip(near @ globe.T, -1, 1))
        some = np.argpartition(km, count - 1, 1)[:, :count]
        ms = 2 + np.take_along_axis(km, some, 1) / 100 + draw.exponential(6, some.shape)
        order = np.argsort(ms, 1)[:, :LIST]
        cost[start : start + 1024] = np.rint(1000 * np.take_along_axis(ms, order, 1))
        pool[start : start + 1024] = np.take_along_axis(some, order, 1)
    return cost, pool


def problem_of(world, demand=None, capacity=None):
    return Problem(
        world.demand if demand is None else demand,
        world.offer_unit,
        world.offer_pool,
        world.offer_cost,
        np.full(len(world.offer_unit), NO_LIMIT),
        world.capacity if capacity is None else capacity,
        world.parent,
        UNPLACED,
    )
