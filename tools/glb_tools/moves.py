"""Says what differs between two maps of one topology: which groups move, how many units, from where to where.

    glb-moves OLD NEW      a line for each move, then how many units go from which pool to which, the most first, and the sums

Units that a group loses at some pools and gains at others have moved; what is left over is placed nowhere any more,
or was placed nowhere before (or the group's demand is another). It reads the maps as they are. Classes count as groups.
"""

import json
from pathlib import Path
from typing import Any

from glb_tools.map import amount_in, map_lines
from glb_tools.options import Fault, Progress, parser

# from where, to where, and how many units; none is nowhere
Move = tuple[str | None, str | None, int]
# by group, in the map's order, the units at each pool
Placed = dict[str, dict[str, int]]


def placed_in(path: str) -> Placed:
    return placed_of(Path(path).read_bytes(), path)


def placed_of(octets: bytes, path: str = "the map") -> Placed:
    placed: Placed = {}
    for words in map_lines(octets, path):
        if words[0] != "place":
            continue
        try:
            _, group, pool, units = words
            placed.setdefault(group, {})[pool] = amount_in(units)
        except ValueError:
            raise Fault(f"{path}, `{' '.join(words)[:80]}`: `glb check` names the fault") from None
    return placed


def matched(losses: list[tuple[str, int]], gains: list[tuple[str, int]]) -> list[Move]:
    """What is lost goes to what is gained, in their orders; where one of the two is over, the other end is nowhere."""
    moves: list[Move] = []
    while losses and gains:
        (source, lost), (target, gained) = losses[0], gains[0]
        units = min(lost, gained)
        moves.append((source, target, units))
        losses[:1] = [(source, lost - units)] if lost > units else []
        gains[:1] = [(target, gained - units)] if gained > units else []
    nowhere: list[Move] = [(source, None, units) for source, units in losses]
    return moves + nowhere + [(None, target, units) for target, units in gains]


def moves_of(old: dict[str, int], new: dict[str, int]) -> list[Move]:
    if old == new:
        return []
    pools = [*old, *(pool for pool in new if pool not in old)]
    change = {pool: new.get(pool, 0) - old.get(pool, 0) for pool in pools}
    losses = [(pool, -units) for pool, units in change.items() if units < 0]
    return matched(losses, [(pool, units) for pool, units in change.items() if units > 0])


def named(source: str | None, target: str | None, units: int) -> dict[str, Any]:
    return {"from": source, "to": target, "units": units}


def report(old: Placed, new: Placed) -> dict[str, Any]:
    groups = []
    # by where from and where to, units and groups
    flows: dict[tuple[str | None, str | None], list[int]] = {}
    for name in [*old, *(name for name in new if name not in old)]:
        moves = moves_of(old.get(name, {}), new.get(name, {}))
        if moves:
            groups.append({"name": name, "moves": [named(*move) for move in moves]})
        for source, target, units in moves:
            flow = flows.setdefault((source, target), [0, 0])
            flow[0] += units
            flow[1] += 1
    listed: list[dict[str, Any]] = [
        {**named(source, target, units), "groups": count}
        for (source, target), (units, count) in flows.items()
    ]
    listed.sort(key=lambda flow: (-flow["units"], flow["from"] or "", flow["to"] or ""))
    return {
        "groups": groups,
        "flows": listed,
        "moved": sum(flow["units"] for flow in listed if flow["from"] and flow["to"]),
        "gained": sum(flow["units"] for flow in listed if not flow["from"]),
        "lost": sum(flow["units"] for flow in listed if not flow["to"]),
    }


def say(found: dict[str, Any]) -> None:
    for group in found["groups"]:
        for move in group["moves"]:
            source, target = move["from"] or "nowhere", move["to"] or "nowhere"
            print(f"{group['name']}: {move['units']} from {source} to {target}")
    for flow in found["flows"]:
        source, target = flow["from"] or "nowhere", flow["to"] or "nowhere"
        print(f"in all {flow['units']} from {source} to {target} (groups: {flow['groups']})")
    print(
        f"{len(found['groups'])} groups, {found['moved']} units moved, {found['gained']} placed that were nowhere,"
        f" {found['lost']} nowhere that were placed"
    )


def main() -> None:
    words = parser("glb-moves", __doc__ or "", json=True)
    words.add_argument("old", metavar="OLD")
    words.add_argument("new", metavar="NEW")
    options = words.parse_args()
    with Progress("compares"):
        found = report(placed_in(options.old), placed_in(options.new))
    if options.json:
        print(json.dumps(found, indent=2))
    else:
        say(found)
