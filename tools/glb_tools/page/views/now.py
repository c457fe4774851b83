"""What is served now: what is full, who has no place, what is out, and how each server is."""

import numpy as np

from glb_tools.drain import STATES, state_of
from glb_tools.drains import Drain
from glb_tools.drawing import Row, limit_of, lone_bar, lone_part, of_capacity, share
from glb_tools.page.maps import NONE
from glb_tools.page.mirror import Served, Setter
from glb_tools.page.sources import Server, Sight
from glb_tools.page.steps import Steps
from glb_tools.page.tables import LIST, Numbers
from glb_tools.precedence import AUTHOR
from glb_tools.page.views.common import Shown, ago, moment, row_of, sheet_of

# how many trees, nodes of each, nodes of one tree that is shown alone, groups, limits, nodes that are out, and full ones
TREES, NODES, WHOLE, GROUPS, LIMITS, OUT, FULL = 12, 13, 100, 10, 10, 20, 16
# how old what is shown may be until that is said, in seconds
OLD = 60.0


def tiles(served: Served) -> list[Shown]:
    """The sums, the most telling first: which of them are bad is said by a word, too."""
    sums = served.sums
    limits = len(served.refusals.of(NONE))
    last = sum(sums.last_resort.values())
    nowhere = sums.nowhere
    found: list[Shown] = [
        {"title": "placed nowhere", "value": sums.unplaced, "is_bad": sums.unplaced > 0},
        {"title": "full nodes", "value": int(sums.is_full.sum()), "of": len(sums.loads)},
        {"title": "placed", "value": sums.placed_units, "of": sums.demand},
        {"title": "limits reached", "value": limits},
    ]
    found[0]["words"] = f"of {int((nowhere > 0).sum()):,} groups and classes"
    if sums.last_resort:
        found.insert(1, {"title": "at last resort", "value": last, "is_bad": last > 0})
    return [{"is_bad": False, **each} for each in found]


def full_names(served: Served) -> Shown:
    """The full nodes in few words, the largest first; those that are out are no full ones."""
    sums = served.sums
    at = np.flatnonzero(sums.is_full & (sums.capacities > 0))
    order = at[np.lexsort((at, -sums.loads[at]))]
    names = [served.tables.node_names[int(node)] for node in order[:FULL]]
    return {"names": names, "left": len(order) - len(names)}


# kinds of alarms, the worst first
KINDS = ("mirror", "differ", "silent", "nowhere", "etcd", "note")


def alarms(served: Served | None, sight: Sight, fault: str, now: float) -> list[Shown]:
    """What somebody has to look at, the worst first: a kind, and a sentence."""
    found = all_alarms(served, sight, fault, now)
    return sorted(found, key=lambda alarm: KINDS.index(alarm["kind"]))


def all_alarms(served: Served | None, sight: Sight, fault: str, now: float) -> list[Shown]:
    found = []
    if sight.fault:
        since = f", seen last {ago(now - sight.time)} ago" if sight.time else ""
        found.append({"kind": "silent", "words": f"servers cannot be seen: {sight.fault}{since}"})
    found += [{"kind": kind, "words": words} for kind, words in sight.advice]
    if fault:
        found.append({"kind": "mirror", "words": f"the mirror does not run: {fault}"})
    if served is None:
        return found
    found += of_map(served)
    differing = [server.name for server in sight.servers if differs_from(server, served)]
    if differing:
        words = f"the map of {', '.join(differing)} is not the mirror's at entry {served.entry}"
        found.append({"kind": "differ", "words": words})
    return found


def of_map(served: Served) -> list[Shown]:
    """What is wrong with the newest map itself."""
    sums, found = served.sums, []
    nowhere = sums.nowhere
    if sums.unplaced:
        served_not = int(((sums.placed == 0) & (sums.demands > 0)).sum())
        words = f"{sums.unplaced:,} units of {int((nowhere > 0).sum()):,} groups and classes are placed nowhere"
        if served_not:
            words += f"; {served_not:,} of these have no place at all and are answered SERVFAIL"
        found.append({"kind": "nowhere", "words": words})
    last = sum(sums.last_resort.values())
    if last:
        words = f"{last:,} units stand at a pool of last resort: they lack a place"
        found.append({"kind": "nowhere", "words": words})
    return found


def differs_from(server: Server, served: Served) -> bool:
    """Whether a server tells another map than the mirror's, at the same entry."""
    return (
        bool(server.checksum)
        and server.entry == served.entry
        and not served.checksum.startswith(server.checksum)
    )


def servers_of(sight: Sight, served: Served | None, now: float) -> list[Shown]:
    found = []
    for server in sight.servers:
        is_other = served is not None and differs_from(server, served)
        shown: Shown = {
            "name": server.name,
            "state": "differs" if server.differs or is_other else server.state,
            "words": server.words,
            "is_bad": server.is_bad or is_other,
            "is_late": server.state in ("behind", "starts"),
            "age": "" if not server.time else ago(now - server.time),
            "mirror": "",
        }
        if served is not None and server.checksum and server.entry == served.entry:
            shown["mirror"] = "not the mirror's map" if is_other else "the mirror's map"
        for key in ("serial", "entry", "behind", "checksum", "placed", "unplaced"):
            shown[key] = getattr(server, key)
        shown |= {"workers": server.workers, "drops": server.drops}
        found.append(shown)
    # those first that somebody has to look at
    return sorted(found, key=lambda each: (not each["is_bad"], not each["is_late"]))


# Trees.


def roots_by_fullness(served: Served) -> list[int]:
    """The fullest trees first, of equal ones that which refuses more; pools of last resort come last."""
    sums, tables = served.sums, served.tables
    refused = served.refusals.counts(len(tables.node_names))
    listed, begins, ends = tables.order
    ran = np.r_[0, np.cumsum(refused[listed])]
    last = set(sums.last_resort)

    def rank(root: int) -> tuple[bool, float, int]:
        capacity = int(sums.capacities[root])
        fullness = int(sums.loads[root]) / capacity if capacity else 1.0
        below = int(ran[int(ends[root])] - ran[int(begins[root])])
        return root in last, -fullness, -below

    return sorted(tables.children.get(-1, []), key=rank)


def tree_of(served: Served, root: int, most: int) -> Shown:
    """A tree with its fullest nodes."""
    sums, tables = served.sums, served.tables
    below = tables.below(root)
    loads, capacities = sums.loads[below], sums.capacities[below]
    rows = [row_of(served, node) for node in fullest(below, loads, capacities, most)]
    limit = limit_of(rows)
    return {
        "name": tables.node_names[root],
        "rows": [shown_row(row, limit) for row in rows],
        "nodes": len(below),
        "full": int((loads >= capacities).sum()),
        "left": len(below) - len(rows),
    }


def fullest(below: list[int], loads: Numbers, capacities: Numbers, most: int) -> list[int]:
    """The root and its fullest nodes, in their order."""
    if len(below) <= most:
        return below
    fullness = np.where(capacities > 0, loads / np.maximum(capacities, 1), 1.0)
    order = np.lexsort((np.arange(1, len(below)), -fullness[1:]))[: most - 1] + 1
    return [below[at] for at in sorted([0, *order.tolist()])]


def shown_row(row: Row, limit: int) -> Shown:
    return {
        "name": row.name,
        "depth": row.depth,
        "is_full": row.is_full and row.capacity > 0,
        "is_out": row.capacity == 0,
        "words": of_capacity(row.load, row.capacity),
        "share": share(row.load, row.capacity),
        "note": row.note,
        "bar": lone_bar(row, limit),
    }


def whole_tree(served: Served, root: int, page: int, by: str) -> Shown:
    """All nodes below one, by pages: in their order, or the fullest first."""
    sums, tables = served.sums, served.tables
    below = tables.below(root)
    if by == "full":
        loads, capacities = sums.loads[below], sums.capacities[below]
        fullness = np.where(capacities > 0, loads / np.maximum(capacities, 1), 1.0)
        below = [below[at] for at in np.lexsort((np.arange(len(below)), -fullness))]
    listed, sheet = sheet_of(below, page, WHOLE)
    top = tables.depth(root)
    rows = [row_of(served, node, top) for node in listed]
    if by == "full":
        for row in rows:
            row.depth = 0
    limit = limit_of(rows)
    return {
        "name": tables.node_names[root],
        "path": [tables.node_names[node] for node in tables.path(root)[1:]],
        "rows": [shown_row(row, limit) for row in rows],
        "sheet": sheet,
        "by": by,
    }


# Demand, limits, and what is out.


def nowhere_of(served: Served, page: int) -> Shown:
    """Groups and classes with units that are placed nowhere, the largest first."""
    sums, tables = served.sums, served.tables
    nowhere = sums.nowhere
    units = np.flatnonzero(nowhere > 0)
    order = units[np.lexsort((units, -nowhere[units]))]
    listed, sheet = sheet_of(order, page, GROUPS)
    limit = max((int(sums.demands[unit]) for unit in listed), default=1)
    rows = [
        {
            "name": tables.unit_names[unit],
            "kind": tables.kind(unit),
            "nowhere": int(nowhere[unit]),
            "demand": int(sums.demands[unit]),
            "is_servfail": int(sums.placed[unit]) == 0,
            "bar": lone_part(int(nowhere[unit]), int(sums.demands[unit]), limit),
        }
        for unit in (int(each) for each in listed)
    ]
    return {"rows": rows, "sheet": sheet}


def limits_of(served: Served) -> Shown:
    """Pools at which limits are reached, those with the most first."""
    tables = served.tables
    offers = served.refusals.of(NONE)
    pools = tables.pools.ravel()[offers]
    numbers, counts = np.unique(pools, return_counts=True)
    order = np.lexsort((numbers, -counts))
    rows = []
    for at in order[:LIMITS]:
        first = offers[pools == numbers[at]][:3]
        groups = [tables.unit_names[int(offer) // LIST] for offer in first]
        rows.append(
            {
                "pool": tables.node_names[int(numbers[at])],
                "count": int(counts[at]),
                "groups": groups,
            }
        )
    return {"rows": rows, "total": len(offers), "pools": len(numbers)}


def out_of(served: Served, setters: dict[str, Setter], drains: list[Drain]) -> Shown:
    """Nodes that are out or have less than the topology says, and who set that, those that are drained left out."""
    tables, sums = served.tables, served.sums
    drained = {drain.node for drain in drains}
    less = np.flatnonzero((sums.capacities == 0) | (sums.capacities < tables.capacities))
    rows: list[Shown] = []
    for node in (int(each) for each in less):
        name = tables.node_names[node]
        if name in drained:
            continue
        by = setters.get(name)
        rows.append(
            {
                "name": name,
                "capacity": int(sums.capacities[node]),
                "before": int(tables.capacities[node]),
                "is_measured": by is not None and by.author == AUTHOR,
                "author": by.author if by else "",
                "why": by.why if by else "the topology says so",
                "number": by.number if by else None,
                "when": moment(by.sent) if by else "",
            }
        )
    rows.sort(key=lambda row: (row["capacity"] > 0, -row["before"], row["name"]))
    return {"rows": rows[:OUT], "left": max(len(rows) - OUT, 0)}


def drains_of(
    drains: list[Drain], served: Served | None, setters: dict[str, Setter], now: float
) -> list[Shown]:
    found = []
    for drain in drains:
        capacity, by = None, setters.get(drain.node)
        if served is not None and drain.node in served.tables.node_at:
            capacity = int(served.sums.capacities[served.tables.node_at[drain.node]])
        found.append(
            {
                "node": drain.node,
                "state": STATES[state_of(drain, capacity, by.author if by else "")],
                "before": drain.before,
                "capacity": capacity,
                "author": drain.author,
                "why": drain.why,
                "since": ago(now - drain.since),
                "last": ago(now - drain.at) if drain.at else "",
                "until": moment(drain.until),
            }
        )
    return found


# All of it.


def now_shown(
    served: Served | None,
    sight: Sight,
    steps: Steps,
    setters: dict[str, Setter],
    fault: str,
    asked: Shown,
    now: float,
) -> Shown:
    """The view: `asked` has the numbers of pages, and a node whose tree is shown alone."""
    found: Shown = {
        "alarms": alarms(served, sight, fault, now),
        "servers": servers_of(sight, served, now),
        "sight": sight,
        "seen": ago(now - sight.time) if sight.time else "never",
        "is_old": bool(sight.time) and now - sight.time > OLD,
        "drains": drains_of(sight.drains, served, setters, now),
        "served": served,
    }
    if served is None:
        return found
    roots = roots_by_fullness(served)
    shown, sheet = sheet_of(roots, asked["page"], TREES)
    found |= {
        "tiles": tiles(served),
        "full": full_names(served),
        "trees": [tree_of(served, root, NODES) for root in shown],
        "sheet": sheet,
        "nowhere": nowhere_of(served, asked["groups"]),
        "limits": limits_of(served),
        "out": out_of(served, setters, sight.drains),
        "last": steps.listed()[:1],
        "age": ago(now - served.time),
    }
    return found
