"""What the tables say: nodes, units, offers with their round trips, and prefixes."""

import ipaddress
from collections.abc import Iterable
from dataclasses import dataclass, field, replace
from pathlib import Path

import numpy as np
import numpy.typing as npt

from glb_tools.options import Fault
from glb_tools.planning.choices import Choices, MOST_MILLISECONDS
from glb_tools.planning.table import Row, Table, near, shown
from glb_tools.text import MOST_CAPACITY, MOST_UNITS
from glb_tools.topology import Wrong, prefix_in

Numbers = npt.NDArray[np.int64]
# costs are whole microseconds
PER_MS = 1000
MOST_NODES, DEEPEST, MOST_ADDRESSES = 8_192, 8, 40
# a prefix: family, first address, length
Prefix = tuple[int, int, int]


@dataclass(slots=True)
class Node:
    name: str
    parent: str
    capacity: int
    is_pool: bool
    # where it stands, for faults
    row: Row
    a: list[str] = field(default_factory=list)
    aaaa: list[str] = field(default_factory=list)
    # the services that a pool has, or none where it has all
    services: frozenset[str] = frozenset()
    # latitude and longitude, where they are given
    place: tuple[float, float] | None = None


@dataclass(slots=True)
class World:
    """Nodes with parents first; groups, and behind them classes; offers in the order of their units.

    Costs are in microseconds. `owner` is the number of a class's group, and -1 of a group.
    """

    nodes: list[Node]
    parent: Numbers
    capacity: Numbers
    units: list[str]
    owner: Numbers
    services: list[str]
    demand: Numbers
    offer_unit: Numbers
    offer_pool: Numbers
    offer_cost: Numbers
    prefixes: dict[Prefix, int]
    # what was done that the tables do not say, in words
    notes: list[str]

    @property
    def groups(self) -> int:
        return int((self.owner < 0).sum())

    def levels(self) -> Numbers:
        """How many nodes there are from each node up to its root, both counted."""
        found = np.ones(len(self.nodes), np.int64)
        for node, parent in enumerate(self.parent.tolist()):
            if parent >= 0:
                found[node] = found[parent] + 1
        return found


def read_world(choices: Choices) -> World:
    nodes = read_nodes(choices)
    node_at = {node.name: number for number, node in enumerate(nodes)}
    if choices.lists.last_resort:
        last = choices.lists.last_resort
        if last not in node_at or not nodes[node_at[last]].is_pool:
            raise Fault(f"{choices.path}, [lists], last_resort: {shown(last)} is no pool")
    prefixes, groups, lines = read_prefixes(choices)
    demands, notes = read_demands(choices, groups)
    costs = read_round_trips(choices, groups, nodes, node_at)
    return assembled(choices, nodes, node_at, prefixes, groups, lines, demands, costs, notes)


# Nodes.


def read_nodes(choices: Choices) -> list[Node]:
    found: dict[str, Node] = {}
    if "nodes" in choices.tables:
        for row in Table(choices.tables["nodes"], ("node", "parent", "capacity")):
            add_node(found, Node(row.name("node"), row["parent"], capacity_in(row), False, row))
    optional = ("services", "lat", "lon")
    columns = ("pool", "parent", "capacity", "addresses")
    for row in Table(choices.tables["pools"], columns, optional):
        node = Node(row.name("pool"), row["parent"], capacity_in(row), True, row)
        read_addresses(node)
        node.services = services_in(row, choices)
        if row["lat"] or row["lon"]:
            node.place = row.degrees("lat", 90), row.degrees("lon", 180)
        add_node(found, node)
    if not any(node.is_pool for node in found.values()):
        raise Fault(f"{choices.tables['pools']}: there is no pool")
    if len(found) > MOST_NODES:
        raise Fault(f"there are {len(found):,} pools and nodes; `glb` takes {MOST_NODES:,}")
    return parents_first(found)


def capacity_in(row: Row) -> int:
    return MOST_CAPACITY if row["capacity"] == "max" else row.whole("capacity", 0, MOST_CAPACITY)


def add_node(found: dict[str, Node], node: Node) -> None:
    kind = "pool" if node.is_pool else "node"
    if node.name in found:
        row = found[node.name].row
        raise node.row.fault(
            kind, f"{shown(node.name)} stands already in {row.table.path}, line {row.line}"
        )
    found[node.name] = node


def read_addresses(node: Node) -> None:
    for text in node.row["addresses"].split():
        try:
            addr = ipaddress.ip_address(text)
            if "%" in text or ("." in text and ":" in text):
                raise ValueError
        except ValueError:
            raise node.row.fault(
                "addresses", f"{shown(text)} is no address; blanks stand between two of them"
            ) from None
        here = node.a if addr.version == 4 else node.aaaa
        if str(addr) in here:
            raise node.row.fault("addresses", f"{text} stands twice")
        here.append(str(addr))
        if len(here) > MOST_ADDRESSES:
            raise node.row.fault(
                "addresses", f"more than {MOST_ADDRESSES} addresses of IPv{addr.version}"
            )


def services_in(row: Row, choices: Choices) -> frozenset[str]:
    found = frozenset(service.lower() for service in row["services"].split())
    for service in found.difference(choices.services):
        raise row.fault("services", f"{shown(service)} is no service of the zone")
    return found


def parents_first(found: dict[str, Node]) -> list[Node]:
    """The nodes in the tables' order, but for each behind its parent."""
    levels: dict[str, int] = {}
    for node in found.values():
        path: dict[str, Node] = {}
        at: Node | None = node
        while at is not None and at.name not in levels:
            if at.name in path:
                names = list(path)
                loop = " under ".join([*names[names.index(at.name) :], at.name])
                raise at.row.fault("parent", f"a loop of parents: {loop}")
            path[at.name] = at
            at = parent_of(at, found)
        for at in reversed(path.values()):
            levels[at.name] = levels.get(at.parent, 0) + 1
            if levels[at.name] > DEEPEST:
                raise at.row.fault(
                    "parent",
                    f"{shown(at.name)} stands under {DEEPEST} others or more; {DEEPEST - 1} are allowed",
                )
    return [found[name] for name in levels]


def parent_of(node: Node, found: dict[str, Node]) -> Node | None:
    if not node.parent:
        return None
    parent = found.get(node.parent)
    if parent is None:
        raise node.row.fault(
            "parent", f"there is no node {shown(node.parent)}{near(node.parent, list(found))}"
        )
    if parent.is_pool:
        raise node.row.fault("parent", f"{shown(node.parent)} is a pool: nothing stands under it")
    return parent


# Groups.


def read_prefixes(
    choices: Choices,
) -> tuple[dict[Prefix, int], dict[str, int], list[Row]]:
    """Of each prefix the number of its group; the groups in the order in which they come, and the row of each."""
    prefixes: dict[Prefix, int] = {}
    groups: dict[str, int] = {}
    rows: list[Row] = []
    lines: dict[Prefix, int] = {}
    for row in Table(choices.tables["prefixes"], ("prefix", "group")):
        prefix, name = prefix_of(row), row["group"]
        group = groups.get(name)
        if group is None:
            group = groups[row.name("group")] = len(groups)
            rows.append(row)
        if prefixes.setdefault(prefix, group) != group:
            before = rows[prefixes[prefix]]["group"]
            raise row.fault(
                "group", f"{row['prefix']} is {shown(before)}'s already, in line {lines[prefix]}"
            )
        lines.setdefault(prefix, row.line)
    add_defaults(choices, prefixes, groups)
    return prefixes, groups, rows


def prefix_of(row: Row) -> Prefix:
    text = row["prefix"]
    try:
        return prefix_in(text, 0)
    except Wrong:
        try:
            whole = f": is {ipaddress.ip_network(text, strict=False)} meant?"
        except ValueError:
            whole = ""
        raise row.fault("prefix", f"{shown(text)} is no prefix{whole}") from None


def add_defaults(choices: Choices, prefixes: dict[Prefix, int], groups: dict[str, int]) -> None:
    """0.0.0.0/0 and ::/0 belong to the group of the rest, where no row has them."""
    rest, path = choices.lists.rest, choices.tables["prefixes"]
    if rest and rest not in groups:
        raise Fault(
            f"{choices.path}, [lists], rest: no row of {path} has the group {shown(rest)}{near(rest, list(groups))}"
        )
    for prefix, text in (((4, 0, 0), "0.0.0.0/0"), ((6, 0, 0), "::/0")):
        if prefix not in prefixes:
            if not rest:
                raise Fault(
                    f"{path}: no row has {text}, so some clients have no group: add one, or name the group"
                    f" of the rest in {choices.path}, [lists], rest"
                )
            prefixes[prefix] = groups[rest]


def group_in(row: Row, groups: dict[str, int], prefixes: Path) -> int:
    group = groups.get(row["group"])
    if group is None:
        raise row.fault(
            "group",
            f"no row of {prefixes} has the group {shown(row['group'])}{near(row['group'], list(groups))}",
        )
    return group


# Demands, by group and service; the service is empty for what is asked for beside the classes.
Demands = dict[tuple[int, str], int]


def read_demands(choices: Choices, groups: dict[str, int]) -> tuple[Demands, list[str]]:
    found: Demands = {}
    lines: dict[tuple[int, str], int] = {}
    for row in Table(choices.tables["demand"], ("group", "units"), ("service",)):
        group = group_in(row, groups, choices.tables["prefixes"])
        service = row["service"].lower()
        if service and service not in choices.services:
            raise row.fault("service", f"{shown(row['service'])} is no service of the zone")
        units = max(1, round(row.decimal("units", MOST_UNITS)))
        if found.setdefault((group, service), units) != units:
            raise row.fault(
                "units",
                f"{row['group']} has {found[group, service]:,} units already,"
                f" in line {lines[group, service]}",
            )
        lines.setdefault((group, service), row.line)
    missing = [group for group in groups.values() if (group, "") not in found]
    for group in missing:
        found[group, ""] = 1
    notes = []
    if missing:
        names = [name for name, group in groups.items() if group in set(missing[:3])]
        more = f" and {len(missing) - 3:,} more" if len(missing) > 3 else ""
        notes.append(f"no demand for {', '.join(names)}{more}: 1 unit each")
    return found, notes


# Round trips.


@dataclass(slots=True)
class RoundTrips:
    """Of each measured pair the group, the pool and the microseconds."""

    group: Numbers
    pool: Numbers
    cost: Numbers


def read_round_trips(
    choices: Choices, groups: dict[str, int], nodes: list[Node], node_at: dict[str, int]
) -> RoundTrips:
    """The pairs, in the order of groups and pools. Millions of rows repeat few names and numbers: those are looked up."""
    found: dict[int, int] = {}
    width = len(nodes)
    table = Table(choices.tables["rtt"], ("group", "pool", "milliseconds"))
    columns = [table.at[column] for column in ("group", "pool", "milliseconds")]
    pools = {name: at for name, at in node_at.items() if nodes[at].is_pool}
    known: dict[str, int] = {}
    for line, cells in table.lines():
        name, other, text = (cells[column] for column in columns)
        group, pool, cost = groups.get(name), pools.get(other), known.get(text)
        if group is None or pool is None or cost is None:
            row = table.row(line, cells)
            group = group_in(row, groups, choices.tables["prefixes"])
            pool = pool_in(row, nodes, node_at)
            cost = known[text] = round(row.decimal("milliseconds", MOST_MILLISECONDS) * PER_MS)
        if found.setdefault(group * width + pool, cost) != cost:
            raise table.row(line, cells).fault(
                "milliseconds",
                f"{name.strip()} to {other.strip()} is {found[group * width + pool] / PER_MS:g} in an earlier line",
            )
    keys = np.fromiter(found.keys(), np.int64, len(found))
    costs = np.fromiter(found.values(), np.int64, len(found))
    order = np.argsort(keys)
    keys = keys[order]
    return RoundTrips(keys // width, keys % width, costs[order])


def pool_in(row: Row, nodes: list[Node], node_at: dict[str, int]) -> int:
    pool = node_at.get(row["pool"])
    if pool is None:
        hint = near(row["pool"], [node.name for node in nodes if node.is_pool])
        raise row.fault("pool", f"there is no pool {shown(row['pool'])}{hint}")
    if not nodes[pool].is_pool:
        raise row.fault("pool", f"{shown(row['pool'])} is a node, and no pool")
    return pool


# All together.


def assembled(
    choices: Choices,
    nodes: list[Node],
    node_at: dict[str, int],
    prefixes: dict[Prefix, int],
    groups: dict[str, int],
    rows: list[Row],
    demands: Demands,
    trips: RoundTrips,
    notes: list[str],
) -> World:
    names = list(groups)
    classes = sorted((group, service) for group, service in demands if service)
    units = names + [f"{names[group]}.{service}" for group, service in classes]
    owner = np.array([-1] * len(names) + [group for group, _ in classes], np.int64)
    services = [""] * len(names) + [service for _, service in classes]
    demand = [demands[group, ""] for group in range(len(names))] + [demands[key] for key in classes]
    check_class_names(choices, names, units)
    unit, pool, cost = offers_of(choices, nodes, node_at, classes, len(names), trips)
    world = World(
        nodes,
        np.array([node_at[node.parent] if node.parent else -1 for node in nodes], np.int64),
        np.array([node.capacity for node in nodes], np.int64),
        units,
        owner,
        services,
        np.array(demand, np.int64),
        unit,
        pool,
        cost,
        prefixes,
        notes,
    )
    check_offers(choices, world, rows)
    return world


def check_class_names(choices: Choices, names: list[str], units: list[str]) -> None:
    known = set(names)
    for name in units[len(names) :]:
        if name in known:
            raise Fault(
                f"{choices.tables['demand']}: the class of a group and a service is called {shown(name)},"
                " and there is a group of that name"
            )
        if len(name) > 32:
            raise Fault(
                f"{choices.tables['demand']}: the class of a group and a service is called {shown(name)},"
                " which is longer than 32 letters: give the group a shorter name"
            )


def offers_of(
    choices: Choices,
    nodes: list[Node],
    node_at: dict[str, int],
    classes: list[tuple[int, str]],
    groups: int,
    trips: RoundTrips,
) -> tuple[Numbers, Numbers, Numbers]:
    """The offers of all units: those of a class are its group's, at pools that have its service."""
    keep = trips.pool != node_at.get(choices.lists.last_resort, -1)
    group, pool, cost = trips.group[keep], trips.pool[keep], trips.cost[keep]
    starts = np.searchsorted(group, np.arange(groups + 1))
    needed: list[set[str]] = [set(choices.services) for _ in range(groups)]
    for owner, service in classes:
        needed[owner].discard(service)
    has_all = all(not node.services for node in nodes)
    pieces = []
    for unit in range(groups + len(classes)):
        owner, wanted = (unit, needed[unit]) if unit < groups else (0, set[str]())
        if unit >= groups:
            owner, wanted = classes[unit - groups][0], {classes[unit - groups][1]}
        places = np.arange(starts[owner], starts[owner + 1])
        if not has_all:
            places = places[[serves(nodes[at], wanted) for at in pool[places]]]
        pieces.append(places)
    at = np.concatenate(pieces) if pieces else np.zeros(0, np.int64)
    unit_of = np.repeat(np.arange(len(pieces)), [len(piece) for piece in pieces])
    return unit_of, pool[at], cost[at]


def serves(node: Node, wanted: Iterable[str]) -> bool:
    return not node.services or node.services.issuperset(wanted)


def with_last_resort(world: World, last: int, cost: int) -> World:
    """The world with an offer of one pool more for each unit."""
    units = len(world.units)
    unit = np.concatenate([world.offer_unit, np.arange(units)])
    order = np.argsort(unit, kind="stable")
    return replace(
        world,
        offer_unit=unit[order],
        offer_pool=np.concatenate([world.offer_pool, np.full(units, last)])[order],
        offer_cost=np.concatenate([world.offer_cost, np.full(units, cost)])[order],
    )


def check_offers(choices: Choices, world: World, rows: list[Row]) -> None:
    has = np.zeros(len(world.units), bool)
    has[world.offer_unit] = True
    for unit in np.flatnonzero(~has).tolist():
        owner = int(world.owner[unit])
        group = unit if owner < 0 else owner
        service = f", which asks for {world.services[unit]}," if world.services[unit] else ""
        why = f"no row of {choices.tables['rtt']} offers {shown(world.units[group])}{service} a pool that can serve it"
        raise rows[group].fault("group", why)
