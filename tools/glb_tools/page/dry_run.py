"""What if: capacities and demands that somebody typed in, worked by `glb repair` as glb-plan does, and sent nowhere."""

import collections
import threading
import time
from dataclasses import dataclass, field

import numpy as np

from glb_tools.append import batch_of, check
from glb_tools.drawing import Flow, draw_flows
from glb_tools.options import Fault, tell
from glb_tools.page.maps import (
    NONE,
    Placed,
    Sums,
    keys_of,
    mean_score,
    moves_of,
    placed_in,
    refusals_in,
    rows_between,
    sums_of,
)
from glb_tools.page.mirror import Served
from glb_tools.page.steps import Names, Step, Steps
from glb_tools.page.views import changes
from glb_tools.page.views.common import Shown
from glb_tools.plan import REFUSED, asked
from glb_tools.text import Change, Replay, lines_of

# how long one may take, in seconds, how many may wait, and of how many the outcome is kept
PATIENCE, WAITING, KEPT = 60.0, 4, 16


class Crowded(Fault):
    """As many as may wait do so already."""


@dataclass
class Job:
    """A dry run: of which map, and what came of it."""

    lines: str
    served: Served | None
    entry: int
    began: float = field(default_factory=time.monotonic)
    state: str = "waits"
    # why the batch would be refused, or could not be worked
    why: str = ""
    found: Shown = field(default_factory=dict)
    took: float = 0.0


def batch_in(served: Served, lines: str) -> str:
    """The batch that somebody typed, checked as glb-append checks one; a Fault where a server would refuse it."""
    try:
        batch = batch_of(lines.encode())
        check(lines_of(batch.encode()), served.tables)
    except Fault as why:
        raise Fault(str(why).removesuffix(" (nothing was appended)"), REFUSED) from None
    return batch


def numbered(served: Served) -> dict[Change, int]:
    """The numbers that are others than the topology's."""
    tables, found = served.tables, {}
    for word, now, then in (
        ("capacity", served.capacities, tables.capacities),
        ("demand", served.demands, tables.demands),
    ):
        for number in np.flatnonzero(now != then):
            found[word, int(number)] = int(now[number])
    return found


def worked(glb: str, served: Served, batch: str) -> Shown:
    """What the batch would do: moves, nodes, and what would lack a place."""
    tables = served.tables
    topology = tables.written(numbered(served))
    text = asked(glb, "repair", topology, served.text, batch.encode(), patience=PATIENCE)
    replay = Replay(tables)
    replay.take(batch.encode() + b"commit\n")
    capacities, demands = served.capacities.copy(), served.demands.copy()
    for (word, number), value in replay.numbers.items():
        (capacities if word == "capacity" else demands)[number] = value
    placed = placed_in(tables, text)
    sums = sums_of(tables, placed, capacities, demands)
    limits = len(refusals_in(tables, text).of(NONE))
    return compared(served, placed, sums, limits)


def compared(served: Served, placed: Placed, sums: Sums, limits: int) -> Shown:
    """As glb-plan compares: each number before and behind."""
    tables, was = served.tables, served.sums
    rows = rows_between(
        keys_of(tables, served.placed.offers), served.placed, keys_of(tables, placed.offers), placed
    )
    moves = moves_of(rows)
    steps = Steps()
    steps.names = Names(
        tables.unit_names, tables.node_names, [int(parent) for parent in tables.parents]
    )
    sides = [Step(0, "", loads=each.loads, capacities=each.capacities) for each in (was, sums)]
    pairs: list[tuple[str, float | None, float | None]] = [
        ("demand", was.demand, sums.demand),
        ("placed nowhere", was.unplaced, sums.unplaced),
        (
            "at a pool of last resort",
            sum(was.last_resort.values()),
            sum(sums.last_resort.values()),
        ),
        ("full nodes", int(was.is_full.sum()), int(sums.is_full.sum())),
        ("limits reached", len(served.refusals.of(NONE)), limits),
        ("mean score", mean_score(tables, served.placed), mean_score(tables, placed)),
    ]
    flows = changes.flows_by(steps, moves.flows, "site")
    lacking = [each.unplaced + sum(each.last_resort.values()) for each in (was, sums)]
    return {
        "moved": moves.moved,
        "gained": moves.gained,
        "lost": moves.lost,
        "groups": moves.groups,
        "share": 100 * moves.moved / sums.demand if sums.demand else 0.0,
        "pairs": [{"title": a, "before": b, "after": c} for a, b, c in pairs],
        "is_worse": lacking[1] > lacking[0],
        "worse_by": lacking[1] - lacking[0],
        "nodes": changes.nodes_shown(steps, *sides),
        "flows": flows[: changes.FLOWS],
        "flows_left": max(len(flows) - changes.FLOWS, 0),
        "drawing": draw_flows([Flow(each["from"], each["to"], each["units"]) for each in flows]),
        "moves": changes.moves_shown(steps, moves),
    }


class DryRuns:
    """Works one dry run after another, in a thread; a page looks what came of it."""

    def __init__(self, glb: str) -> None:
        self.glb = glb
        self.lock = threading.Condition()
        self.jobs: collections.OrderedDict[tuple[str, int, str], Job] = collections.OrderedDict()
        self.waiting: collections.deque[Job] = collections.deque()

    def job(self, served: Served, lines: str) -> Job:
        """The dry run of a batch over a map, begun where there is none. A Fault where the batch is refused."""
        key = served.mark, served.serial, lines
        with self.lock:
            if key in self.jobs:
                return self.jobs[key]
            if len(self.waiting) >= WAITING:
                raise Crowded("others ask what if, too: try again in a moment")
            found = Job(batch_in(served, lines), served, served.entry)
            self.jobs[key] = found
            self.waiting.append(found)
            self.forget()
            self.lock.notify()
        return found

    def forget(self) -> None:
        """Keeps the newest outcomes; what waits or is worked stays."""
        for key in [key for key, job in self.jobs.items() if job.state in ("done", "failed")]:
            if len(self.jobs) > KEPT:
                del self.jobs[key]

    def run(self) -> None:
        while True:
            with self.lock:
                while not self.waiting:
                    self.lock.wait()
                job = self.waiting.popleft()
                job.state = "works"
            self.work(job)

    def work(self, job: Job) -> None:
        began = time.monotonic()
        try:
            assert job.served is not None
            job.found = worked(self.glb, job.served, job.lines)
            job.state = "done"
        except (
            Exception
        ) as why:  # noqa: BLE001: a thread that has ended would let all others wait for ever
            if not isinstance(why, Fault):
                tell(why)
            job.state, job.why = "failed", str(why)
        # the map may be large, and is not needed any more
        job.took, job.served = time.monotonic() - began, None
