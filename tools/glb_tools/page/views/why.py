"""Why clients go where they go: from an address, a prefix, a group, a pool or a service to what is served for it."""

import ipaddress

import numpy as np

from glb_tools.drawing import lone_share, of_capacity, share
from glb_tools.page.maps import NONE, worst
from glb_tools.page.mirror import Served
from glb_tools.page.tables import LIST, NO_POOL, Tables
from glb_tools.page.views.common import Shown, offer_of, row_of, sheet_of
from glb_tools.page.views.now import shown_row
from glb_tools.topology import NO_LIMIT, Address, Network

# how many of the offers under a full node are shown, of names that fit, of prefixes, and of those that stand at a node
HOLDERS, FOUND, PREFIXES, STANDS = 6, 40, 8, 30


def path_row(served: Served, node: int) -> Shown:
    sums, tables = served.sums, served.tables
    load, capacity = int(sums.loads[node]), int(sums.capacities[node])
    return {
        "name": tables.node_names[node],
        "words": of_capacity(load, capacity),
        "share": share(load, capacity),
        "is_full": load >= capacity > 0,
        "is_out": capacity == 0,
    }


def refused_by(served: Served, node: int) -> Shown:
    """What keeps a unit from more of a pool: its own limit, or a full node with what it would give up first."""
    if node == NONE:
        return {"is_limit": True}
    kept = worst(served.tables, served.placed, node, HOLDERS)
    return {
        "is_limit": False,
        **path_row(served, node),
        "worst": [offer_of(served, offer, units) for offer, units in kept],
    }


def unit_shown(served: Served, unit: int) -> Shown:
    """A group or class: its list, what it has of each pool, and what keeps it from more."""
    tables, sums = served.tables, served.sums
    refused = served.refusals.of_unit(unit)
    begin, end = np.searchsorted(served.placed.offers, [unit * LIST, (unit + 1) * LIST])
    amounts = {
        int(served.placed.offers[at]) % LIST: int(served.placed.amounts[at])
        for at in range(begin, end)
    }
    demand, offers = int(sums.demands[unit]), []
    for place, pool in enumerate(int(pool) for pool in tables.pools[unit]):
        if pool == NO_POOL:
            break
        units, limit = amounts.get(place, 0), int(tables.limits[unit][place])
        offers.append(
            {
                "place": place,
                "pool": tables.node_names[pool],
                "path": [path_row(served, node) for node in tables.path(pool)],
                "score": int(tables.scores[unit][place]),
                "units": units,
                "share": share(units, demand) if units else "",
                "bar": lone_share(units, demand),
                "limit": None if limit == NO_LIMIT else limit,
                "refused": refused_by(served, refused[place]) if place in refused else None,
            }
        )
    placed = int(sums.placed[unit])
    owner = int(tables.owners[unit])
    return {
        "name": tables.unit_names[unit],
        "kind": tables.kind(unit),
        "service": tables.service_of(unit),
        "group": None if owner < 0 else tables.unit_names[owner],
        "classes": [tables.unit_names[each] for each in tables.classes(unit)],
        "demand": demand,
        "placed": placed,
        "nowhere": demand - placed,
        "offers": offers,
        "is_servfail": not placed,
        **prefixes_shown(tables, unit if owner < 0 else owner),
    }


def prefixes_shown(tables: Tables, group: int) -> Shown:
    count, listed = tables.prefixes_of(group, PREFIXES)
    return {"prefixes": [str(each) for each in listed], "prefixes_left": count - len(listed)}


def node_shown(served: Served, node: int, page: int) -> Shown:
    """A node: what is above it, who stands at it or under it, and whom it refuses."""
    tables = served.tables
    pools = tables.pools.ravel()
    at = np.flatnonzero(tables.under(node)[pools[served.placed.offers]])
    order = at[np.lexsort((at, -served.placed.amounts[at]))]
    listed, sheet = sheet_of(order, page, STANDS)
    refused = served.refusals.of(node)
    above = tables.path(node)
    own = row_of(served, node)
    own.depth, own.note = 0, ""
    return {
        "name": tables.node_names[node],
        "is_pool": bool(tables.is_pool[node]),
        "row": shown_row(own, max(own.capacity if own.capacity < 1 << 48 else 2 * own.load, 1)),
        "above": [path_row(served, each) for each in above[1:]],
        "below": [path_row(served, each) for each in tables.children.get(node, [])[:FOUND]],
        "below_left": max(len(tables.children.get(node, [])) - FOUND, 0),
        "holds": [
            offer_of(served, int(served.placed.offers[n]), int(served.placed.amounts[n]))
            for n in listed
        ],
        "sheet": sheet,
        "refuses": [offer_of(served, int(offer), 0) for offer in refused[:STANDS]],
        "refuses_left": max(len(refused) - STANDS, 0),
        "worst": [
            offer_of(served, offer, units)
            for offer, units in worst(tables, served.placed, node, HOLDERS)
        ],
    }


def service_shown(served: Served, number: int) -> Shown:
    """A service: how much its classes ask for, and which of them lack the most."""
    tables, sums = served.tables, served.sums
    units = np.flatnonzero(tables.service_at == number)
    nowhere = sums.nowhere[units]
    order = np.lexsort((units, -nowhere))[:FOUND]
    return {
        "name": tables.services[number],
        "domain": f"{tables.services[number]}.{tables.apex}",
        "classes": len(units),
        "demand": int(sums.demands[units].sum()),
        "placed": int(sums.placed[units].sum()),
        "nowhere": int(nowhere.sum()),
        "listed": [
            {
                "name": tables.unit_names[int(units[at])],
                "demand": int(sums.demands[units[at]]),
                "nowhere": int(nowhere[at]),
            }
            for at in order
        ],
        "left": max(len(units) - FOUND, 0),
    }


# What is searched for.


def address_in(text: str) -> Address | None:
    try:
        return None if "%" in text else ipaddress.ip_address(text)
    except ValueError:
        return None


def network_in(text: str) -> Network | None:
    try:
        return ipaddress.ip_network(text, strict=False) if "/" in text and "%" not in text else None
    except ValueError:
        return None


def service_in(tables: Tables, text: str) -> int | None:
    """The number of a service, by its label or its whole name."""
    word = text.lower().removesuffix(".").removesuffix(f".{tables.apex.lower()}")
    names = [service.lower() for service in tables.services]
    return names.index(word) if word in names else None


def by_prefix(tables: Tables, network: Network) -> tuple[int | None, Shown]:
    """The group of the longest prefix that holds all of another one, and what inside of it is another group's."""
    found = tables.group_of_bits(network.version, int(network.network_address), network.prefixlen)
    count, listed = tables.inside(network, PREFIXES)
    shown: Shown = {
        "asked": str(network),
        "decides": str(found[1]) if found else "",
        "inside": [(str(each), tables.unit_names[group]) for each, group in listed],
        "inside_left": count - len(listed),
    }
    return (found[0] if found else None), shown


def fitting(names: list[str], word: str) -> tuple[list[str], int]:
    """Names that have a word in them, those first that begin with it; and how many more there are."""
    small = word.lower()
    found = [name for name in names if small in name.lower()]
    found.sort(key=lambda name: (not name.lower().startswith(small), len(name), name))
    return found[:FOUND], max(len(found) - FOUND, 0)


def why_shown(served: Served, asked: str, service: str, page: int) -> Shown:
    """All that is meant by what was typed: a group may be called as a node is."""
    tables = served.tables
    found: Shown = {"asked": asked, "service": service, "services": tables.services}
    chosen = service_in(tables, service) if service else None
    if service and chosen is None:
        return found | {"nothing": f"there is no service {service}"}
    if not asked:
        return found
    address, network = address_in(asked), network_in(asked)
    unit: int | None = None
    if address is not None:
        held = tables.group_of(address)
        unit = held[0] if held else None
        found |= {"address": str(address), "prefix": str(held[1]) if held else ""}
    elif network is not None:
        unit, found["network"] = by_prefix(tables, network)
    elif asked in tables.unit_at:
        unit = tables.unit_at[asked]
    if unit is not None:
        found["client"] = client_of(served, unit, address, network)
        if chosen is not None and tables.owners[unit] < 0:
            unit = tables.class_of(unit, chosen) if has_class(tables, unit, chosen) else unit
            assert unit is not None
        found["unit"] = unit_shown(served, unit)
    if asked in tables.node_at:
        found["node"] = node_shown(served, tables.node_at[asked], page)
    number = service_in(tables, asked)
    if number is not None and address is None:
        found["whole_service"] = service_shown(served, number)
    if not {"unit", "node", "whole_service"} & found.keys():
        found |= listed_names(tables, asked)
    return found


def has_class(tables: Tables, unit: int, service: int) -> bool:
    return tables.class_of(unit, service) is not None


def listed_names(tables: Tables, asked: str) -> Shown:
    units, more_units = fitting(tables.unit_names, asked)
    nodes, more_nodes = fitting(tables.node_names, asked)
    found: Shown = {
        "units": units,
        "units_left": more_units,
        "nodes": nodes,
        "nodes_left": more_nodes,
    }
    if not units and not nodes:
        found["nothing"] = "no group, class, node, service, address or prefix is called so"
    return found


def client_of(
    served: Served, unit: int, address: Address | None, network: Network | None
) -> Address | None:
    """An address of a client of a unit, for which the mirror is asked."""
    if address is not None:
        return address
    if network is not None:
        return network.network_address
    owner = int(served.tables.owners[unit])
    group = unit if owner < 0 else owner
    _, listed = served.tables.prefixes_of(group, PREFIXES)
    for prefix in sorted(listed, key=lambda each: (each.version, -each.prefixlen)):
        # the first address may be that of a longer prefix of another group
        held = served.tables.group_of(prefix.network_address)
        if held is not None and held[0] == group:
            return prefix.network_address
    return None
