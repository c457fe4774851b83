"""Why a list is as it is: round trips, prices, the order, scores, and the units of the optimum."""

import json
from typing import Any

import numpy as np

from glb_tools.options import Fault
from glb_tools.planning.plan import Made
from glb_tools.planning.prices import path_prices
from glb_tools.planning.world import PER_MS, Numbers
from glb_tools.text import MOST_UNITS


def explain(made: Made, name: str, as_json: bool) -> int:
    world = made.world
    if name in world.units:
        unit = world.units.index(name)
    elif name in made.names:
        unit = made.into[made.names.index(name)]
    else:
        raise Fault(f"there is no group or class {name}")
    found = explained(made, unit)
    if as_json:
        print(json.dumps(found, indent=2))
        return 0
    if world.units[unit] != name:
        print(f"{name} is part of {world.units[unit]}")
    print(f"{found['name']}: {found['demand']:,} units")
    print(
        "place pool                             round trip +    prices =     whole      score     planned"
    )
    for place in found["places"]:
        print(
            f"{place['place']:5} {place['pool']:32} {place['round_trip']:10.2f}  {place['prices']:10.2f}"
            f"  {place['whole']:10.2f} {place['score']:10}  {place['planned']:10,}{limit_words(place)}"
        )
        for node in place["path"]:
            print(f"{'':6}{node['node']}: {node['milliseconds']:.2f} ms a unit")
    for other in found["left_out"]:
        print(
            f"{'-':>5} {other['pool']:32} {other['round_trip']:10.2f}  {other['prices']:10.2f}  {other['whole']:10.2f}"
        )
    return 0


def limit_words(place: dict[str, Any]) -> str:
    return f" of {place['limit']:,}" if "limit" in place else ""


def explained(made: Made, unit: int) -> dict[str, Any]:
    world, lists = made.world, made.lists
    mine = world.offer_unit[lists.offer] == unit
    offers, scores = lists.offer[mine].tolist(), lists.score[mine].tolist()
    above = path_prices(made.problem, made.plan.price)
    places = []
    for number, (offer, score) in enumerate(zip(offers, scores)):
        entry = offer_words(made, offer, above) | {"place": number, "score": score}
        entry["planned"] = int(made.plan.flow[offer])
        entry["path"] = path_words(made, int(world.offer_pool[offer]))
        if made.limits is not None and made.limits[offer] < MOST_UNITS:
            entry["limit"] = int(made.limits[offer])
        places.append(entry)
    others = sorted(set(np.flatnonzero(world.offer_unit == unit).tolist()).difference(offers))
    others.sort(key=lambda offer: int(made.world.offer_cost[offer]))
    left = [offer_words(made, offer, above) for offer in others]
    return {
        "name": world.units[unit],
        "demand": int(world.demand[unit]),
        "places": places,
        "left_out": left,
    }


def offer_words(made: Made, offer: int, above: Numbers) -> dict[str, Any]:
    pool = int(made.world.offer_pool[offer])
    price = made.choices.lists.price_weight * int(above[pool]) / PER_MS
    cost = int(made.world.offer_cost[offer]) / PER_MS
    name = made.world.nodes[pool].name
    return {"pool": name, "round_trip": cost, "prices": price, "whole": cost + price}


def path_words(made: Made, node: int) -> list[dict[str, Any]]:
    """The nodes on a pool's path that have a price."""
    found = []
    while node >= 0:
        if made.plan.price[node] > 0:
            milliseconds = int(made.plan.price[node]) / PER_MS
            found.append({"node": made.world.nodes[node].name, "milliseconds": milliseconds})
        node = int(made.world.parent[node])
    return found
