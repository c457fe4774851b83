"""A topology in compact tables: some hundred octets a group in place of some thousand.

A topology of 65,536 groups takes 360 MB while it is read. So a large one is read by a process of its own, which ends
then and gives all of that back; what comes of it are arrays.
"""

import ipaddress
import pickle
import subprocess
import sys
import zlib
from dataclasses import dataclass
from functools import cached_property
from pathlib import Path
from typing import Any, NamedTuple

import numpy as np
from numpy.typing import NDArray

from glb_tools.options import Fault
from glb_tools.text import MOST_CAPACITY, Change
from glb_tools.toml import Place, Span, replaced
from glb_tools.topology import NO_LIMIT, Address, Network, Topology, spans_of

# the longest list, and the number that stands for no pool in it
LIST, NO_POOL = 16, 0xFFFF
# from how many octets on a topology is read by a process of its own, and how long that may take, in seconds
LARGE, PATIENCE = 1 << 20, 120.0

Numbers = NDArray[Any]


class Ranges(NamedTuple):
    """The prefixes of one family and length: their first bits in order, and the group of each."""

    starts: Numbers
    groups: Numbers

    def group_at(self, start: int) -> int | None:
        at = int(np.searchsorted(self.starts, self.starts.dtype.type(start)))
        if at < len(self.starts) and int(self.starts[at]) == start:
            return int(self.groups[at])
        return None


@dataclass
class Tables:
    """What the page needs of a topology. A unit's offers are a row; offer number = unit * LIST + place."""

    apex: str
    services: list[str]
    node_names: list[str]
    unit_names: list[str]
    groups: int
    # by node: capacity, the parent's number or -1, whether it is a pool
    capacities: Numbers
    parents: Numbers
    is_pool: Numbers
    # by unit: demand; of a class its group, else -1, and the number of its service
    demands: Numbers
    owners: Numbers
    service_at: Numbers
    # by unit and place
    pools: Numbers
    scores: Numbers
    limits: Numbers
    # by family and length; of long IPv6 prefixes, whose first bits are no 64, a dictionary
    prefixes: dict[int, dict[int, Ranges | dict[int, int]]]
    # the text, packed, and where in it the numbers of nodes and units stand
    text: bytes
    capacity_spans: Numbers
    demand_spans: Numbers

    def __post_init__(self) -> None:
        self.node_at = {name: number for number, name in enumerate(self.node_names)}
        self.unit_at = {name: number for number, name in enumerate(self.unit_names)}

    # Nodes.

    @cached_property
    def children(self) -> dict[int, list[int]]:
        """By node, what stands right below it, in the order of the file; the roots are below -1."""
        found: dict[int, list[int]] = {}
        for node, parent in enumerate(self.parents.tolist()):
            found.setdefault(parent, []).append(node)
        return found

    @cached_property
    def order(self) -> tuple[list[int], Numbers, Numbers]:
        """All nodes, each with all below it right behind it; by node where it stands in that, and where what is below it
        ends."""
        listed: list[int] = []
        begins = np.zeros(len(self.node_names), np.int32)
        ends = np.zeros(len(self.node_names), np.int32)
        # with a mark where all below a node is done
        todo = [~node for node in self.children.get(-1, [])][::-1]
        while todo:
            node = todo.pop()
            if node >= 0:
                ends[node] = len(listed)
                continue
            node = ~node
            begins[node] = len(listed)
            listed.append(node)
            todo.append(node)
            todo += [~child for child in self.children.get(node, [])][::-1]
        return listed, begins, ends

    def below(self, node: int) -> list[int]:
        """A node and all below it, in the order of the file, each node ahead of what is below it."""
        listed, begins, ends = self.order
        return listed[int(begins[node]) : int(ends[node])]

    def under(self, node: int) -> Numbers:
        """By node, whether it is that one or stands below it."""
        _, begins, ends = self.order
        found: Numbers = (begins >= begins[node]) & (begins < ends[node])
        return found

    def depth(self, node: int) -> int:
        return len(self.path(node)) - 1

    def path(self, node: int) -> list[int]:
        """A node, and all above it, up to its root."""
        found = []
        while node >= 0:
            found.append(node)
            node = int(self.parents[node])
        return found

    def site(self, pool: int) -> int:
        """What stands right above a pool, or the pool where it is a root."""
        parent = int(self.parents[pool])
        return pool if parent < 0 else parent

    def last_resort(self) -> list[int]:
        """As Topology has them: the largest capacity there is, and above them no other one, but 0 where that is out."""
        found = []
        for node in np.flatnonzero(self.is_pool & (self.capacities == MOST_CAPACITY)):
            above = self.capacities[self.path(int(node))[1:]]
            if np.isin(above, (MOST_CAPACITY, 0)).all():
                found.append(int(node))
        return found

    # Units.

    def kind(self, unit: int) -> str:
        return "group" if self.owners[unit] < 0 else "class"

    def service_of(self, unit: int) -> str | None:
        return None if self.owners[unit] < 0 else self.services[int(self.service_at[unit])]

    def class_of(self, group: int, service: int) -> int | None:
        found = np.flatnonzero((self.owners == group) & (self.service_at == service))
        return int(found[0]) if len(found) else None

    def classes(self, group: int) -> list[int]:
        return [int(unit) for unit in np.flatnonzero(self.owners == group)]

    # Prefixes.

    def group_of(self, address: Address) -> tuple[int, Network] | None:
        """The group of an address, and the prefix that decides."""
        return self.group_of_bits(address.version, int(address), address.max_prefixlen)

    def group_of_bits(self, family: int, number: int, most: int) -> tuple[int, Network] | None:
        """The group of the longest prefix, of so many bits at most, that holds a number of that family."""
        bits = 32 if family == 4 else 128
        for length in sorted(self.prefixes[family], reverse=True):
            if length > most:
                continue
            found, start = self.prefixes[family][length], number >> bits - length
            group = found.get(start) if isinstance(found, dict) else found.group_at(start)
            if group is not None:
                return group, network_of(family, start << bits - length, length)
        return None

    def inside(self, network: Network, most: int) -> tuple[int, list[tuple[Network, int]]]:
        """How many prefixes lie inside of another one and are longer, and the first ones of each length with their
        groups, so many in all at most."""
        family, bits = network.version, network.max_prefixlen
        first, count = int(network.network_address), 0
        listed: list[tuple[Network, int]] = []
        for length in sorted(self.prefixes[family]):
            if length <= network.prefixlen:
                continue
            found = self.prefixes[family][length]
            low, high = first >> bits - length, (first >> bits - length) + (
                1 << length - network.prefixlen
            )
            if isinstance(found, dict):
                there = sorted(start for start in found if low <= start < high)
                pairs = [(start, found[start]) for start in there]
            else:
                kind = found.starts.dtype.type
                begin = int(np.searchsorted(found.starts, kind(low)))
                end = int(np.searchsorted(found.starts, kind(high - 1), side="right"))
                count += end - begin
                end = min(end, begin + most)
                pairs = [
                    (int(a), int(b))
                    for a, b in zip(found.starts[begin:end], found.groups[begin:end])
                ]
            if isinstance(found, dict):
                count += len(pairs)
            listed += [
                (network_of(family, start << bits - length, length), group)
                for start, group in pairs
            ][: max(most - len(listed), 0)]
        return count, listed

    def prefixes_of(self, group: int, most: int) -> tuple[int, list[Network]]:
        """How many prefixes a group has, and the first ones."""
        count, listed = 0, []
        for family, by_length in self.prefixes.items():
            bits = 32 if family == 4 else 128
            for length, found in by_length.items():
                if isinstance(found, dict):
                    starts = [start for start, owner in found.items() if owner == group]
                else:
                    at = np.flatnonzero(found.groups == group)
                    starts = [int(start) for start in found.starts[at[:most]]]
                    count += len(at) - len(starts)
                count += len(starts)
                listed += [
                    network_of(family, start << bits - length, length) for start in starts[:most]
                ]
        return count, listed[:most]

    # The text.

    def written(self, numbers: dict[Change, int]) -> bytes:
        """The topology's text with these numbers, as glb-numbers writes it."""
        text = zlib.decompress(self.text).decode("utf-8-sig")
        spans: dict[Place, Span] = {}
        values: dict[Place, int] = {}
        for (word, number), value in numbers.items():
            table = self.capacity_spans if word == "capacity" else self.demand_spans
            spans[word, number, ""] = (int(table[number][0]), int(table[number][1]))
            values[word, number, ""] = value
        return replaced(text, spans, values).encode()


def network_of(family: int, start: int, length: int) -> Network:
    if family == 4:
        return ipaddress.IPv4Network((start, length))
    return ipaddress.IPv6Network((start, length))


# Made of a topology.


def ranges_of(found: dict[int, int], family: int, length: int) -> Ranges | dict[int, int]:
    bits = 32 if family == 4 else 128
    cut = {start >> bits - length: group for start, group in found.items()}
    if length > 64:
        return cut
    starts = np.fromiter(cut, dtype=np.uint64, count=len(cut))
    groups = np.fromiter(cut.values(), dtype=np.int32, count=len(cut))
    order = np.argsort(starts)
    return Ranges(starts[order], groups[order])


def table_of(topology: Topology, key: str, empty: int, kind: type) -> Numbers:
    """A row a unit, filled up to the longest list."""
    found: Numbers = np.full((len(topology.units), LIST), empty, dtype=kind)
    for number, unit in enumerate(topology.units):
        row = getattr(unit, key)
        found[number, : len(row)] = row
    return found


def tables_of(octets: bytes, topology: Topology) -> Tables:
    nodes, units = topology.nodes, topology.units
    services = [service.lower() for service in topology.services]
    capacities, demands = spans_of(topology)
    return Tables(
        topology.apex,
        topology.services,
        [node.name for node in nodes],
        [unit.name for unit in units],
        topology.groups,
        np.array([node.capacity for node in nodes], dtype=np.int64),
        np.array([-1 if node.parent is None else node.parent for node in nodes], dtype=np.int32),
        np.array([node.is_pool for node in nodes], dtype=bool),
        np.array([unit.demand for unit in units], dtype=np.int64),
        np.array([-1 if unit.owner is None else unit.owner for unit in units], dtype=np.int32),
        np.array(
            [-1 if unit.service is None else services.index(unit.service) for unit in units],
            dtype=np.int16,
        ),
        table_of(topology, "pools", NO_POOL, np.uint16),
        table_of(topology, "scores", 0, np.uint32),
        table_of(topology, "limits", NO_LIMIT, np.uint32),
        {
            family: {
                length: ranges_of(found, family, length) for length, found in by_length.items()
            }
            for family, by_length in topology.prefixes.items()
        },
        zlib.compress(octets, 1),
        np.array(capacities, dtype=np.uint32).reshape(-1, 2),
        np.array(demands, dtype=np.uint32).reshape(-1, 2),
    )


def read_tables(octets: bytes, path: str = "the topology") -> Tables:
    """The tables of a topology; a large one is read by a process of its own."""
    if len(octets) < LARGE:
        return tables_of(octets, Topology(octets, path))
    code = f"import sys; sys.path.append({str(Path(__file__).parents[2])!r})"
    code += "; from glb_tools.page.tables import hand_over; hand_over()"
    try:
        ended = subprocess.run(
            [sys.executable, "-B", "-c", code, path],
            input=octets,
            capture_output=True,
            timeout=PATIENCE,
        )
    except subprocess.TimeoutExpired:
        raise Fault(f"{path} was not read within {PATIENCE:g} s") from None
    if ended.returncode:
        said = ended.stderr.decode("utf-8", "replace").strip().splitlines()
        raise Fault(said[-1] if said else f"the reader of {path} ended with {ended.returncode}")
    found: Tables = pickle.loads(ended.stdout)
    return found


def hand_over() -> None:
    """The process that reads: octets on standard input, tables on standard output."""
    octets = sys.stdin.buffer.read()
    try:
        found = tables_of(octets, Topology(octets, sys.argv[1]))
    except Fault as why:
        print(why, file=sys.stderr)
        sys.exit(1)
    pickle.dump(found, sys.stdout.buffer, protocol=pickle.HIGHEST_PROTOCOL)
