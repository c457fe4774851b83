"""Topologies, as docs/FORMATS.md has them: a reader, and numbers that are put into the text of one.

The reader takes what `glb` takes, and refuses what a tool could not work with. It does not say all that is wrong with a
file: `glb map` does.
"""

import ipaddress
import socket
from collections.abc import Iterator, Mapping
from dataclasses import dataclass
from pathlib import Path
from typing import Any

from glb_tools.options import Fault
from glb_tools.text import MOST_CAPACITY, MOST_UNITS, Change
from glb_tools.toml import Document, Place, Span, without_collections

# the limit of an offer that has none of its own
NO_LIMIT = 2**32 - 1
Address = ipaddress.IPv4Address | ipaddress.IPv6Address
Network = ipaddress.IPv4Network | ipaddress.IPv6Network


@dataclass(slots=True)
class Node:
    name: str
    capacity: int
    parent: int | None
    is_pool: bool
    # the addresses of a pool, of IPv4 and of IPv6
    a: list[str]
    aaaa: list[str]


@dataclass(slots=True)
class Unit:
    """A group, or a class: a group's demand for one service."""

    name: str
    demand: int
    pools: list[int]
    scores: list[int]
    limits: list[int]
    # of a class: the number of its group, and the service in small letters
    owner: int | None = None
    service: str | None = None

    @property
    def kind(self) -> str:
        return "group" if self.owner is None else "class"


STR, INT = frozenset([str]), frozenset([int])


class Entry:
    """A table of the document: its keys, each of its kind, or a fault that names the place."""

    def __init__(self, keys: Any, place: str) -> None:
        if not isinstance(keys, dict):
            raise Wrong(f"{place} is no table")
        self.keys, self.place = keys, place

    def key(self, key: str, kind: type) -> Any:
        if key not in self.keys:
            raise Wrong(f"{self.place} has no `{key}`")
        value = self.keys[key]
        if type(value) is not kind:
            raise Wrong(f"`{key}` of {self.place} is of a wrong kind")
        return value

    def text(self, key: str) -> str:
        text: str = self.key(key, str)
        return text

    def number(self, key: str, least: int, most: int) -> int:
        number: int = self.key(key, int)
        if not least <= number <= most:
            raise Wrong(f"`{key}` of {self.place} is out of range")
        return number

    def flag(self, key: str) -> bool:
        return key in self.keys and bool(self.key(key, bool))

    def texts(self, key: str) -> list[str]:
        items: list[str] = self.key(key, list)
        if not STR.issuperset(map(type, items)):
            raise Wrong(f"an item in `{key}` of {self.place} is of a wrong kind")
        return items

    def numbers(self, key: str, least: int) -> list[int]:
        items: list[int] = self.key(key, list)
        if not INT.issuperset(map(type, items)):
            raise Wrong(f"an item in `{key}` of {self.place} is of a wrong kind")
        if items and not least <= min(items) <= max(items) <= MOST_UNITS:
            raise Wrong(f"an item in `{key}` of {self.place} is out of range")
        return items

    def tables(self, key: str) -> list["Entry"]:
        return [Entry(keys, f"{key} {number}") for number, keys in enumerate(self.key(key, list))]


class Wrong(Exception):
    """What is wrong with a topology, and where."""


def prefix_in(text: str, group: int) -> tuple[int, int, int]:
    """Family, first address and length of a prefix (ipaddress takes ten times as long)."""
    addr, _, digits = text.partition("/")
    is_old = ":" not in addr
    family, kind, bits = (4, socket.AF_INET, 32) if is_old else (6, socket.AF_INET6, 128)
    try:
        if not is_old and "." in addr:
            raise ValueError
        start, length = int.from_bytes(socket.inet_pton(kind, addr), "big"), int(digits)
        if str(length) != digits or length > bits or start & (1 << bits - length) - 1:
            raise ValueError
    except (OSError, ValueError):
        raise Wrong(f"`{text}` of group {group} is no prefix") from None
    return family, start, length


class Topology:
    """Nodes, and units: the groups in their order, and behind them the classes."""

    def __init__(self, octets: bytes, path: str | Path = "the topology") -> None:
        self.nodes: list[Node] = []
        self.node_at: dict[str, int] = {}
        self.pool_at: dict[str, int] = {}
        self.units: list[Unit] = []
        self.unit_at: dict[str, int] = {}
        # of a group and a service in small letters, the class
        self.class_of: dict[tuple[int, str], int] = {}
        self.groups = 0
        self.services: list[str] = []
        # by family and length, the groups by the first bits
        self.prefixes: dict[int, dict[int, dict[int, int]]] = {4: {}, 6: {}}
        self.apex = ""
        self.document = Document(octets, path)
        try:
            with without_collections():
                self.take(Entry(self.document.top, "the top"))
        except Wrong as why:
            raise Fault(f"{path} is no topology: {why} (`glb map` names its first fault)") from None

    def take(self, top: Entry) -> None:
        zone = Entry(top.key("zone", dict), "zone")
        self.apex, self.services = zone.text("apex"), zone.texts("services")
        for entry in top.tables("node"):
            self.take_node(entry)
        groups = top.tables("group")
        for entry in groups:
            self.take_unit(entry)
        self.groups = len(self.units)
        if "class" in top.keys:
            for entry in top.tables("class"):
                self.take_class(entry)
        for number, entry in enumerate(groups):
            for text in entry.texts("prefixes"):
                self.take_prefix(text, number)

    def take_node(self, entry: Entry) -> None:
        name, parent = entry.text("name"), None
        if name in self.node_at:
            raise Wrong(f"the name of {entry.place} stands twice")
        if "parent" in entry.keys:
            parent = self.node_at.get(entry.text("parent"))
            if parent is None or self.nodes[parent].is_pool:
                raise Wrong(f"`parent` of {entry.place} is no node ahead of it, or a pool")
        capacity = entry.number("capacity", 0, MOST_CAPACITY)
        hosts = [entry.texts(key) if key in entry.keys else [] for key in ("a", "aaaa")]
        node = Node(name, capacity, parent, entry.flag("pool"), *hosts)
        self.node_at[name] = len(self.nodes)
        if node.is_pool:
            self.pool_at[name] = len(self.nodes)
        self.nodes.append(node)

    def take_unit(self, entry: Entry) -> Unit:
        unit = self.unit(entry)
        if unit.name in self.unit_at:
            raise Wrong(f"the name of {entry.place} stands twice")
        self.unit_at[unit.name] = len(self.units)
        self.units.append(unit)
        return unit

    def take_class(self, entry: Entry) -> None:
        unit, owner = self.take_unit(entry), self.unit_at.get(entry.text("group"))
        if owner is None or owner >= self.groups:
            raise Wrong(f"`group` of {entry.place} is no group")
        unit.owner, unit.service = owner, entry.text("service").lower()
        if unit.service not in (service.lower() for service in self.services):
            raise Wrong(f"`service` of {entry.place} is no service")
        if (owner, unit.service) in self.class_of:
            raise Wrong(f"{entry.place} is the second one of its group and service")
        self.class_of[owner, unit.service] = len(self.units) - 1

    def unit(self, entry: Entry) -> Unit:
        pools = [self.pool_at.get(name, -1) for name in entry.texts("pools")]
        if -1 in pools:
            raise Wrong(f"an item in `pools` of {entry.place} is no pool")
        if len(set(pools)) < len(pools):
            raise Wrong(f"{entry.place} has a pool twice")
        scores = entry.numbers("scores", 0)
        limits = entry.numbers("limits", 1) if "limits" in entry.keys else [NO_LIMIT] * len(pools)
        if len(scores) != len(pools) or len(limits) != len(pools):
            raise Wrong(f"{entry.place} has not as many scores or limits as pools")
        return Unit(
            entry.text("name"), entry.number("demand", 1, MOST_UNITS), pools, scores, limits
        )

    def take_prefix(self, text: str, group: int) -> None:
        family, start, length = prefix_in(text, group)
        groups = self.prefixes[family].setdefault(length, {})
        if start in groups:
            raise Wrong(f"the prefix {text} of group {group} stands twice")
        groups[start] = group

    def path(self, node: int | None) -> Iterator[int]:
        """A node, and all above it, up to its root."""
        while node is not None:
            yield node
            node = self.nodes[node].parent

    def last_resort(self) -> list[int]:
        """The pools of last resort, which never fill, as docs/FORMATS.md advises: the largest capacity there is, and above them
        no other one, but 0 where that is taken out."""
        nodes, without_end = self.nodes, {MOST_CAPACITY, 0}
        return [
            number
            for number, node in enumerate(nodes)
            if node.is_pool
            and node.capacity == MOST_CAPACITY
            and all(nodes[above].capacity in without_end for above in self.path(node.parent))
        ]

    def key(self, unit: int, place: int) -> tuple[int, int, int]:
        """How an offer is ranked: the lower, the better."""
        return self.units[unit].scores[place], unit, self.units[unit].pools[place]

    def group_of(self, address: Address) -> tuple[int, Network]:
        """The group of an address, and the prefix that decides."""
        bits, number = address.max_prefixlen, int(address)
        for length in sorted(self.prefixes[address.version], reverse=True):
            start = number >> bits - length << bits - length
            group = self.prefixes[address.version][length].get(start)
            if group is not None:
                if address.version == 4:
                    return group, ipaddress.IPv4Network((start, length))
                return group, ipaddress.IPv6Network((start, length))
        raise Fault(f"no group has {address}")


def read_topology(path: str | Path) -> Topology:
    return Topology(Path(path).read_bytes(), path)


def place_of(topology: Topology, change: Change) -> Place:
    """Where the number of a change stands in the document."""
    word, number = change
    if word == "capacity":
        return "node", number, word
    if number < topology.groups:
        return "group", number, word
    return "class", number - topology.groups, word


def spans_of(topology: Topology) -> tuple[list[Span], list[Span]]:
    """Where in the text the capacity of each node stands, and the demand of each unit."""
    nodes = [place_of(topology, ("capacity", number)) for number in range(len(topology.nodes))]
    units = [place_of(topology, ("demand", number)) for number in range(len(topology.units))]
    found = topology.document.spans([*nodes, *units])
    return [found[place] for place in nodes], [found[place] for place in units]


def written(topology: Topology, numbers: Mapping[Change, int]) -> str:
    """The topology's text with these numbers: only the digits of values change, remarks and order stay."""
    return topology.document.written(
        {place_of(topology, change): number for change, number in numbers.items()}
    )
