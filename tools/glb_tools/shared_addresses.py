"""Pools that send clients to a site after that was taken out: they have addresses of its pools, and stand elsewhere.

docs/FORMATS.md, "What to put into the numbers", says how a pool of last resort stands.
"""

import socket
from dataclasses import dataclass

from glb_tools.log import plain
from glb_tools.options import said
from glb_tools.topology import Node, Topology

# of how many a warning says the names, and the least share of groups and classes, in percent, whose last pool is wanted by many
MOST_SAID, MANY = 3, 10


@dataclass(frozen=True)
class Shared:
    """A pool, and pools under other nodes that have an address of it."""

    pool: str
    others: tuple[str, ...]
    # the nodes under which these stand, that pool's own left out
    sites: tuple[str, ...]
    # how many groups and classes have the pool at the end of their lists
    wanted_last: int


def octets_of(address: str) -> bytes:
    """An address, whatever its spelling; its text where it is none."""
    try:
        family = socket.AF_INET6 if ":" in address else socket.AF_INET
        return socket.inet_pton(family, address)
    except OSError:
        return address.encode()


def site_of(topology: Topology, pool: int) -> int:
    """What stands right above a pool, or the pool where it is a root."""
    parent = topology.nodes[pool].parent
    return pool if parent is None else parent


def rank(
    topology: Topology, pool: int, last: set[int], wanted: dict[int, int]
) -> tuple[bool, int, int]:
    """Which of several pools with one address is the one to be told of: one of last resort, else the one that is wanted last by
    most, else the later one."""
    return pool in last, wanted.get(pool, 0), pool


def wanted_last(topology: Topology) -> dict[int, int]:
    """How many groups and classes have each pool at the end of a list of several."""
    found: dict[int, int] = {}
    for unit in topology.units:
        if len(unit.pools) > 1:
            found[unit.pools[-1]] = found.get(unit.pools[-1], 0) + 1
    return found


def shared(topology: Topology) -> list[Shared]:
    """The pools that share addresses with pools that go out without them: pools under another node, where neither stands above
    the other's."""
    at: dict[bytes, list[int]] = {}
    for number, node in enumerate(topology.nodes):
        for address in {octets_of(text) for text in [*node.a, *node.aaaa]} if node.is_pool else ():
            at.setdefault(address, []).append(number)
    last, wanted = set(topology.last_resort()), wanted_last(topology)
    others: dict[int, set[int]] = {}
    for pools in at.values():
        if len(pools) < 2:
            continue
        told = max(pools, key=lambda pool: rank(topology, pool, last, wanted))
        apart = {pool for pool in pools if is_apart(topology, told, pool, last)}
        if apart:
            others.setdefault(told, set()).update(apart)
    return [found(topology, pool, others[pool], wanted) for pool in sorted(others)]


def is_apart(topology: Topology, pool: int, other: int, last: set[int]) -> bool:
    """Whether taking the other's site out leaves the pool. One of last resort may stand beside the site, under a node with it."""
    if pool == other or site_of(topology, pool) == site_of(topology, other):
        return False
    parent = topology.nodes[pool].parent
    return pool not in last or parent is None or parent not in topology.path(other)


def found(topology: Topology, pool: int, others: set[int], wanted: dict[int, int]) -> Shared:
    nodes: list[Node] = topology.nodes
    sites = sorted({site_of(topology, other) for other in others})
    names = tuple(nodes[other].name for other in sorted(others))
    return Shared(
        nodes[pool].name, names, tuple(nodes[site].name for site in sites), wanted.get(pool, 0)
    )


def standing_apart(topology: Topology) -> list[tuple[str, int]]:
    """The pools of last resort that stand under no other node, and end the lists of many groups and classes: how many."""
    wanted = wanted_last(topology)
    return [
        (topology.nodes[pool].name, wanted[pool])
        for pool in topology.last_resort()
        if topology.nodes[pool].parent is None
        and 100 * wanted.get(pool, 0) >= MANY * len(topology.units)
    ]


def listed(names: tuple[str, ...]) -> str:
    more = f" and {len(names) - MOST_SAID} more" if len(names) > MOST_SAID else ""
    return ", ".join(map(plain, names[:MOST_SAID])) + more


def warnings(topology: Topology) -> list[str]:
    """What is wrong with a topology, in a line each."""
    return [
        f"{plain(each.pool)} has addresses of {listed(each.others)}: it sends clients to {listed(each.sites)} after that was taken"
        " out (docs/FORMATS.md, `A pool of last resort`)"
        for each in shared(topology)
    ]


def remarks(topology: Topology) -> list[str]:
    """The warnings, and what may be right: for programs."""
    return warnings(topology) + [
        f"{plain(pool)} ends the lists of {count:,} groups and classes, and stands under no other node: no site that is taken out"
        " takes it along"
        for pool, count in standing_apart(topology)
    ]


def warn(topology: Topology) -> None:
    """Says the warnings on standard error."""
    found = warnings(topology)
    for words in found[:MOST_SAID]:
        said(f"warning: {words}", 0)
    if len(found) > MOST_SAID:
        said(f"warning: {len(found) - MOST_SAID} pools more have addresses of others", 0)
