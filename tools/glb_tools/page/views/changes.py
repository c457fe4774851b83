"""What changed: the last maps, what each batch moved, and any two of them side by side."""

import numpy as np

from glb_tools.drawing import Flow, draw_flows
from glb_tools.page.maps import NONE, Moves
from glb_tools.page.steps import Step, Steps
from glb_tools.page.views.common import Shown, moment, pool_name, sheet_of

# how many maps, flows and nodes are listed, and how many places a drawing of flows has at each side
STEPS, FLOWS, NODES, PLACES, MOVES = 25, 40, 40, 12, 40
BY = ("pool", "site", "tree")


def step_shown(step: Step, newest: int, now: float) -> Shown:
    return {
        "number": step.number,
        "serial": step.serial,
        "kind": step.kind,
        "sent": moment(step.sent),
        "seen": moment(step.seen),
        "author": step.author,
        "why": step.why,
        "lines": step.lines[:3],
        "line_count": step.line_count,
        "dropped": step.dropped,
        "moved": step.moved,
        "gained": step.gained,
        "lost": step.lost,
        "groups": step.groups,
        "unplaced": step.unplaced,
        "full": step.full,
        "has_map": step.has_map,
        "has_moves": step.rows is not None,
        "checksum": step.checksum[:16],
        "is_newest": step.number == newest,
    }


def steps_shown(steps: Steps, page: int, now: float) -> Shown:
    """The list, the newest first."""
    listed = steps.listed()
    shown, sheet = sheet_of(listed, page, STEPS)
    newest = next((step.number for step in listed if step.has_map), -1)
    maps = [step.number for step in listed if step.has_map]
    return {
        "steps": [step_shown(step, newest, now) for step in shown],
        "sheet": sheet,
        "maps": maps,
    }


def above(steps: Steps, node: int, by: str) -> int:
    """A pool, its site, or its tree."""
    parents = steps.names.parents
    if by == "site" and node != NONE:
        return node if parents[node] < 0 else parents[node]
    while by == "tree" and node != NONE and parents[node] >= 0:
        node = parents[node]
    return node


def flows_by(steps: Steps, flows: list[tuple[int, int, int, int]], by: str) -> list[Shown]:
    """Flows between pools, sites or trees, the most first."""
    sums: dict[tuple[int, int], list[int]] = {}
    for source, target, units, groups in flows:
        pair = above(steps, source, by), above(steps, target, by)
        found = sums.setdefault(pair, [0, 0])
        found[0] += units
        found[1] += groups
    names = steps.names.nodes
    listed = [
        {
            "from": pool_name(names, source),
            "to": pool_name(names, target),
            "units": units,
            "groups": groups,
        }
        for (source, target), (units, groups) in sums.items()
    ]
    return sorted(listed, key=lambda flow: (-int(str(flow["units"])), str(flow["from"])))


def drawn(flows: list[Shown]) -> str:
    return draw_flows(
        [Flow(flow["from"], flow["to"], flow["units"]) for flow in flows], most=PLACES
    )


def sums_shown(first: Step, second: Step) -> list[Shown]:
    """What two maps come to, side by side."""
    found = []
    for title, key in (
        ("demand", "demand"),
        ("placed", "placed"),
        ("placed nowhere", "unplaced"),
        ("at a pool of last resort", "last_resort"),
        ("full nodes", "full"),
    ):
        before, after = getattr(first, key), getattr(second, key)
        found.append({"title": title, "before": before, "after": after, "change": after - before})
    return found


def nodes_shown(steps: Steps, first: Step, second: Step) -> Shown:
    """The nodes whose load or capacity differs, those first that fill, have room again, or have another capacity."""
    count = min(len(first.loads), len(second.loads))
    loads = [step.loads[:count] for step in (first, second)]
    capacities = [step.capacities[:count] for step in (first, second)]
    was_full, is_full = (load >= most for load, most in zip(loads, capacities))
    turns = (was_full != is_full) | (capacities[0] != capacities[1])
    change = np.abs(loads[1] - loads[0])
    at = np.flatnonzero(turns | (change > 0))
    order = at[np.lexsort((at, -change[at], ~turns[at]))]
    rows = []
    for node in (int(each) for each in order[:NODES]):
        rows.append(
            {
                "name": steps.names.nodes[node],
                "before": int(loads[0][node]),
                "after": int(loads[1][node]),
                "capacity_before": int(capacities[0][node]),
                "capacity_after": int(capacities[1][node]),
                "fills": bool(is_full[node] and not was_full[node] and capacities[1][node]),
                "has_room": bool(was_full[node] and not is_full[node] and capacities[0][node]),
                "goes_out": bool(capacities[1][node] == 0 and capacities[0][node] > 0),
                "comes_back": bool(capacities[0][node] == 0 and capacities[1][node] > 0),
            }
        )
    return {"rows": rows, "left": max(len(order) - NODES, 0)}


def moves_shown(steps: Steps, moves: Moves) -> Shown:
    """The largest moves of single groups and classes."""
    order = np.lexsort((moves.units, -moves.amounts))[:MOVES]
    names = steps.names
    return {
        "rows": [
            {
                "unit": names.units[int(moves.units[n])],
                "from": pool_name(names.nodes, int(moves.sources[n])),
                "to": pool_name(names.nodes, int(moves.targets[n])),
                "units": int(moves.amounts[n]),
            }
            for n in order
        ],
        "left": max(len(moves.amounts) - MOVES, 0),
    }


def compared(steps: Steps, first: Step, second: Step, by: str, now: float) -> Shown:
    """Two maps side by side: sums, nodes, flows, and the largest moves."""
    with steps.lock:
        moves = steps.between(first, second)
        flows = flows_by(steps, moves.flows, by)
        return {
            "first": step_shown(first, -1, now),
            "second": step_shown(second, -1, now),
            "sums": sums_shown(first, second),
            "nodes": nodes_shown(steps, first, second),
            "moved": moves.moved,
            "gained": moves.gained,
            "lost": moves.lost,
            "groups": moves.groups,
            "flows": flows[:FLOWS],
            "flows_left": max(len(flows) - FLOWS, 0),
            "drawing": drawn(flows),
            "moves": moves_shown(steps, moves),
            "by": by,
        }


def before(steps: Steps, step: Step) -> Step | None:
    """The map that a batch changed."""
    listed = [each for each in steps.listed() if each.has_map and each.number < step.number]
    return listed[0] if listed else None


def batch_shown(step: Step) -> Shown:
    """The lines of a batch."""
    return {"lines": step.lines, "left": step.line_count - len(step.lines)}
