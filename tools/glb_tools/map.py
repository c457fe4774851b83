"""Maps, as docs/FORMATS.md has them, and what a map comes to over its topology."""

import heapq
from collections.abc import Iterable, Iterator
from dataclasses import dataclass, field
from pathlib import Path

from glb_tools.options import Fault
from glb_tools.text import MOST_UNITS
from glb_tools.toml import without_collections
from glb_tools.topology import Topology

FIRST_LINES = ("glb map 1", "glb map 2")


@dataclass(slots=True)
class Name:
    """Why a unit has no more of a pool: its limit, or a full node."""

    unit: int
    place: int
    # none where it is the limit
    node: int | None


@dataclass(slots=True)
class Map:
    """How many units stand at which place, by unit and place, and why there are not more."""

    amounts: dict[tuple[int, int], int] = field(default_factory=dict)
    names: list[Name] = field(default_factory=list)


def map_lines(octets: bytes, path: str | Path = "the map") -> Iterator[list[str]]:
    """The words of each line between the first line and `end`."""
    lines = octets.decode("latin-1").split("\n")
    if lines[0] not in FIRST_LINES or lines[-2:] != ["end", ""]:
        raise Fault(f"{path} is no whole map")
    return (line.split(" ") for line in lines[1:-2])


def amount_in(text: str) -> int:
    """The units of a `place` line: digits without a leading zero, at least 1."""
    if not (text.isascii() and text.isdigit()) or text[0] == "0" or int(text[:11]) > MOST_UNITS:
        raise ValueError(text)
    return int(text)


class Reader:
    """Takes the lines of a map: those of a unit stand together, so that its places are made once."""

    def __init__(self, topology: Topology) -> None:
        self.topology, self.found = topology, Map()
        self.name, self.unit = "", -1
        self.place_at: dict[str, int] = {}

    def turn_to(self, name: str) -> None:
        self.unit, self.name = self.topology.unit_at[name], name
        pools = self.topology.units[self.unit].pools
        self.place_at = {self.topology.nodes[pool].name: place for place, pool in enumerate(pools)}

    def take(self, words: list[str]) -> None:
        if words[1] != self.name:
            self.turn_to(words[1])
        word, place = words[0], self.place_at[words[2]]
        if word == "full" and len(words) == 4:
            self.found.names.append(Name(self.unit, place, self.topology.node_at[words[3]]))
        elif word == "limit" and len(words) == 3:
            self.found.names.append(Name(self.unit, place, None))
        elif word == "place" and len(words) == 4 and (self.unit, place) not in self.found.amounts:
            self.found.amounts[self.unit, place] = amount_in(words[3])
        else:
            raise KeyError(word)


def map_of(topology: Topology, octets: bytes, path: str | Path = "the map") -> Map:
    reader = Reader(topology)
    with without_collections():
        for words in map_lines(octets, path):
            try:
                reader.take(words)
            except (KeyError, ValueError, IndexError):
                line = " ".join(words)[:80]
                raise Fault(f"{path}, `{line}`: `glb check` names the fault") from None
    return reader.found


def read_map(topology: Topology, path: str | Path) -> Map:
    return map_of(topology, Path(path).read_bytes(), path)


# what an offer stands by, as `key` of the topology has it, and the units of it
Offer = tuple[tuple[int, int, int], int]


class Sums:
    """What a map comes to over a topology."""

    def __init__(self, topology: Topology, found: Map) -> None:
        self.topology, self.found = topology, found
        self.load = [0] * len(topology.nodes)
        self.placed = [0] * len(topology.units)
        for (unit, place), amount in found.amounts.items():
            self.placed[unit] += amount
            self.load[topology.units[unit].pools[place]] += amount
        # a parent stands ahead of what is under it
        for number in range(len(topology.nodes) - 1, -1, -1):
            parent = topology.nodes[number].parent
            if parent is not None:
                self.load[parent] += self.load[number]

    def full(self) -> list[int]:
        """The nodes with as many units as their capacity, or more."""
        nodes = enumerate(self.topology.nodes)
        return [number for number, node in nodes if self.load[number] >= node.capacity]

    def worst(self, nodes: Iterable[int], most: int) -> dict[int, list[Offer]]:
        """By node, so many of the offers under it, the worst last."""
        kept: dict[int, list[Offer]] = {node: [] for node in nodes}
        topology = self.topology
        for (unit, place), amount in self.found.amounts.items():
            for node in topology.path(topology.units[unit].pools[place]):
                if node not in kept:
                    continue
                # with the best of the kept ones first
                offer = (topology.key(unit, place), amount)
                if len(kept[node]) < most:
                    heapq.heappush(kept[node], offer)
                else:
                    heapq.heappushpop(kept[node], offer)
        return {node: sorted(offers) for node, offers in kept.items()}

    def last_resort(self) -> dict[int, int]:
        """By pool of last resort, the units that stand there: what they lack is a place."""
        return {pool: self.load[pool] for pool in self.topology.last_resort()}
