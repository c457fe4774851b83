"""The steps of a drain: how large the next one is, what it moves, and how many there are."""

import time
from collections.abc import Callable
from dataclasses import dataclass, field

from glb_tools.drains import Drain
from glb_tools.loads import World
from glb_tools.log import plain
from glb_tools.moves import Placed, placed_of, report
from glb_tools.options import Fault
from glb_tools.plan import REFUSED, Served, asked
from glb_tools.topology import Topology, written

STUCK = 6
# how often a step that moves too much is tried smaller, and how long all steps may be tried ahead, in seconds
TRIES, AHEAD = 12, 30.0


@dataclass
class Sight:
    """What is served, and of it a node."""

    node: str
    served: Served
    topology: Topology
    world: World
    placed: Placed

    @classmethod
    def of(cls, node: str, served: Served) -> "Sight":
        topology = Topology(served.topology)
        if node not in topology.node_at:
            raise Fault(f"the topology has no node {plain(node)}", REFUSED)
        return cls(node, served, topology, World(topology), placed_of(served.map))

    def load(self) -> int:
        return self.load_in(self.served.map)

    def load_in(self, text: bytes) -> int:
        return self.world.loads(text).nodes[self.node][0]

    def capacity(self) -> int:
        return self.world.capacities[self.topology.node_at[self.node]]

    def behind(self, found: "Step") -> "Sight":
        """What would be served behind a step."""
        lines = f"capacity {self.node} {found.to}\n"
        numbers = {("capacity", self.topology.node_at[self.node]): found.to}
        self.world.work(lines)
        served = Served(written(self.topology, numbers).encode(), found.map)
        return Sight(self.node, served, self.topology, self.world, placed_of(found.map))


@dataclass
class Step:
    """A capacity, and the units that would move from pool to pool, get a place, and lose theirs."""

    to: int
    moved: int
    gained: int
    lost: int
    map: bytes = field(repr=False)

    @property
    def units(self) -> int:
        return self.moved + self.gained + self.lost


def tried(glb: str, sight: Sight, to: int) -> Step:
    if to == sight.capacity():
        return Step(to, 0, 0, 0, sight.served.map)
    batch = f"capacity {sight.node} {to}\n".encode()
    text = asked(glb, "repair", sight.served.topology, sight.served.map, batch)
    found = report(sight.placed, placed_of(text))
    return Step(to, found["moved"], found["gained"], found["lost"], text)


def next_step(glb: str, sight: Sight, drain: Drain, is_bound: bool) -> Step:
    """The next step: an equal share, by the steps that are left, of the units that are to leave the node or to come to it. Where
    that moves more than `drain.step` units it is smaller; and where the smallest one does, it is taken all the same, but
    where the number is a bound."""
    left = max(1, drain.planned - drain.steps)
    if drain.target > sight.capacity():
        return step_up(glb, sight, drain, left, is_bound)
    # a capacity that is not used moves nothing
    base = min(sight.capacity(), sight.load())
    share = -(-(base - drain.target) // left)
    return fitted(lambda size: tried(glb, sight, base - size), share, drain.step, is_bound)


def step_up(glb: str, sight: Sight, drain: Drain, left: int, is_bound: bool) -> Step:
    capacity, whole = sight.capacity(), drain.target - sight.capacity()
    end = tried(glb, sight, drain.target)
    # who would come at once; room that nobody asks for moves nothing
    coming = sight.load_in(end.map) - capacity
    if left == 1 or coming <= 0:
        if not drain.step or end.units <= drain.step:
            return end
        return fitted(lambda size: tried(glb, sight, capacity + size), whole, drain.step, is_bound)
    share = min(-(-coming // left), whole)
    return fitted(lambda size: tried(glb, sight, capacity + size), share, drain.step, is_bound)


def fitted(by: Callable[[int], Step], size: int, most: int, is_bound: bool) -> Step:
    """A step of that size, or, where it moves more than `most` units (0: any), the largest that some tries find."""
    found = by(size)
    if not most or found.units <= most:
        return found
    small, large, best = 0, size, None
    guess = size * most // found.units
    for _ in range(TRIES):
        if large - small <= 1:
            break
        size = min(max(guess, small + 1), large - 1)
        found = by(size)
        if found.units > most:
            large = size
        else:
            small, best = size, found
            if 4 * found.units >= 3 * most:
                break
        guess = (small + large) // 2
    if best is not None:
        return best
    found = by(1)
    if found.units > most and is_bound:
        raise Fault(
            f"the smallest step, to {found.to:,}, would move {found.units:,} units, and --step is {most:,}",
            STUCK,
        )
    return found


def ahead(
    glb: str, sight: Sight, drain: Drain, is_bound: bool, seconds: float
) -> list[Step] | None:
    """All steps from what is served now, as long as nothing else changes; none where it takes longer than so many seconds to
    try them. It leaves `sight` as it is."""
    began, found = time.monotonic(), list[Step]()
    sight = Sight.of(sight.node, sight.served)
    steps = drain.steps
    try:
        while sight.capacity() != drain.target:
            drain.steps = steps + len(found)
            found.append(next_step(glb, sight, drain, is_bound))
            sight = sight.behind(found[-1])
            took = time.monotonic() - began
            if took * max(1, drain.planned - steps) / len(found) > seconds or took > seconds:
                return None
    finally:
        drain.steps = steps
    return found
