"""The last maps: when each came, by which batch, who sent that, and how many units moved from where to where.

Of each map its sums are kept and what differs from the one before, so that any two are compared by the steps between them.
All of them speak of units and nodes by the numbers of the newest topology; those that it does not have any more are
numbered behind its own.
"""

import threading
from dataclasses import dataclass, field

import numpy as np

from glb_tools.options import Fault
from glb_tools.page.maps import (
    Moves,
    Placed,
    Rows,
    Sums,
    chained,
    keys_of,
    moves_of,
    rows_between,
    turned,
)
from glb_tools.page.tables import Numbers, Tables

# how many maps are kept, how many of their offers that moved in all, and how many lines of a batch
MOST_STEPS, MOST_ROWS, MOST_LINES = 100, 4_000_000, 200
BATCH, BASE, START, NOTHING = "batch", "base", "start", "nothing"


@dataclass
class Step:
    """A map, or a batch that came to none."""

    # which entry of the log, or which batch of the file, and what stands for all up to it
    number: int
    mark: str
    kind: str = BATCH
    serial: int = 0
    # seconds since 1970: when it was appended (0 where nobody says so), and when the mirror had it
    sent: int = 0
    seen: float = 0.0
    author: str = ""
    why: str = ""
    lines: list[str] = field(default_factory=list)
    line_count: int = 0
    # why the batch was dropped whole
    dropped: str = ""
    # of the map's text
    checksum: str = ""
    # what it comes to
    demand: int = 0
    placed: int = 0
    last_resort: int = 0
    full: int = 0
    loads: Numbers = field(default_factory=lambda: np.zeros(0, np.int64))
    capacities: Numbers = field(default_factory=lambda: np.zeros(0, np.int64))
    # what differs from the map before; none of the first one
    rows: Rows | None = None
    moved: int = 0
    gained: int = 0
    lost: int = 0
    groups: int = 0
    flows: list[tuple[int, int, int, int]] = field(default_factory=list)

    @property
    def unplaced(self) -> int:
        return self.demand - self.placed

    @property
    def has_map(self) -> bool:
        return not self.dropped


@dataclass
class Names:
    """Names by number: those of the newest topology, and behind them those that it does not have any more."""

    units: list[str]
    nodes: list[str]
    # by node the parent's number, or -1
    parents: list[int]


def translation(old: list[str], new: list[str]) -> tuple[Numbers, list[str]]:
    """By old number the new one, and the new names with those that are only old behind them."""
    at = {name: number for number, name in enumerate(new)}
    names = list(new)
    found = np.zeros(len(old), np.int64)
    for number, name in enumerate(old):
        if name not in at:
            at[name] = len(names)
            names.append(name)
        found[number] = at[name]
    return found, names


class Steps:
    """The last maps, the newest one last. A reader has the lock while it looks."""

    def __init__(self) -> None:
        self.lock = threading.RLock()
        self.steps: list[Step] = []
        self.names = Names([], [], [])
        self.tables: Tables | None = None
        # the newest map, and the keys of its offers
        self.last: tuple[Numbers, Placed] | None = None

    def begin(self, tables: Tables) -> None:
        """A topology is worked from now on: what is kept is numbered by it."""
        with self.lock:
            units, unit_names = translation(self.names.units, tables.unit_names)
            nodes, node_names = translation(self.names.nodes, tables.node_names)
            parents = [int(parent) for parent in tables.parents]
            if self.is_too_long(unit_names, node_names):
                self.steps, self.last = [], None
                unit_names, node_names = tables.unit_names, tables.node_names
            else:
                parents += self.parents_of_gone(nodes, len(parents))
                self.renumber(units, nodes, len(node_names))
            self.names, self.tables = Names(unit_names, node_names, parents), tables

    def parents_of_gone(self, nodes: Numbers, count: int) -> list[int]:
        """Of the nodes that the new topology does not have, in the order of their numbers."""
        above = [numbered(nodes, parent) if parent >= 0 else -1 for parent in self.names.parents]
        return [above[old] for old in np.argsort(nodes) if nodes[old] >= count]

    def is_too_long(self, units: list[str], nodes: list[str]) -> bool:
        """A key has sixteen bits for a node; and names that come and go for ever are not kept for ever."""
        return len(nodes) >= 1 << 15 or len(units) >= 1 << 18

    def renumber(self, units: Numbers, nodes: Numbers, count: int) -> None:
        for step in self.steps:
            for key in ("loads", "capacities"):
                old = getattr(step, key)
                new = np.zeros(count, np.int64)
                new[nodes[: len(old)]] = old
                setattr(step, key, new)
            step.flows = [
                (numbered(nodes, a), numbered(nodes, b), amount, each)
                for a, b, amount, each in step.flows
            ]
            if step.rows is not None:
                step.rows.keys = keys_in(step.rows.keys, units, nodes)
        if self.last is not None:
            self.last = keys_in(self.last[0], units, nodes), self.last[1]

    # What comes.

    def is_known(self, number: int, mark: str) -> bool:
        """Whether a step is here already, as where the mirror began anew; else what stood from there on goes."""
        with self.lock:
            for at, step in enumerate(self.steps):
                if step.number == number and step.mark == mark:
                    return True
                if step.number >= number:
                    del self.steps[at:]
                    return False
            return False

    def renew(self, found: Placed) -> None:
        """Takes the map of a step that is known: what comes next is compared with it."""
        with self.lock:
            assert self.tables is not None
            self.last = keys_of(self.tables, found.offers), found

    def add(self, step: Step, found: Placed | None = None, sums: Sums | None = None) -> None:
        """A step that is new; without a map where its batch was dropped."""
        with self.lock:
            before = self.last
            if found is not None:
                self.renew(found)
            if before is not None and self.last is not None and found is not None:
                step.rows = rows_between(*before, *self.last)
                moves = moves_of(step.rows)
                step.moved, step.gained, step.lost = moves.moved, moves.gained, moves.lost
                step.groups, step.flows = moves.groups, moves.flows
            if sums is not None:
                self.fill(step, sums)
            self.steps.append(step)
            del self.steps[:-MOST_STEPS]
            self.forget_rows()

    def fill(self, step: Step, sums: Sums) -> None:
        step.demand, step.placed = sums.demand, sums.placed_units
        step.last_resort = sum(sums.last_resort.values())
        step.full = int(sums.is_full.sum())
        count = len(self.names.nodes)
        for key, values in (("loads", sums.loads), ("capacities", sums.capacities)):
            wide = np.zeros(count, np.int64)
            wide[: len(values)] = values
            setattr(step, key, wide)

    def forget_rows(self) -> None:
        """Old maps that moved too much are kept by their sums alone."""
        count = 0
        for step in reversed(self.steps):
            count += len(step.rows) if step.rows is not None else 0
            if count > MOST_ROWS:
                step.rows = None

    # What is looked at.

    def listed(self) -> list[Step]:
        """The newest first."""
        with self.lock:
            return self.steps[::-1]

    def step(self, number: int) -> Step | None:
        with self.lock:
            return next((step for step in reversed(self.steps) if step.number == number), None)

    def between(self, first: Step, second: Step) -> Moves:
        """What moves from the map of one step to that of another one, earlier or later."""
        with self.lock:
            at = [self.steps.index(step) for step in (first, second)]
            rows = [step.rows for step in self.steps[min(at) + 1 : max(at) + 1] if step.has_map]
            if any(each is None for each in rows):
                raise Fault("what moved between the two is not kept any more")
            found = chained([each for each in rows if each is not None])
        return moves_of(found if at[0] <= at[1] else turned(found))


def numbered(nodes: Numbers, node: int) -> int:
    return int(nodes[node]) if node < len(nodes) else node


def keys_in(keys: Numbers, units: Numbers, nodes: Numbers) -> Numbers:
    """Keys by another numbering."""
    unit = units[(keys >> np.uint64(16)).astype(np.int64)].astype(np.uint64)
    node = nodes[(keys & np.uint64(0xFFFF)).astype(np.int64)].astype(np.uint64)
    found: Numbers = unit << np.uint64(16) | node
    return found
