"""The mirror: a `glb serve` of the page's own, at a port that nobody is told, which works the log beside the servers.

What it publishes are the maps of the servers, since base and batches determine them. It writes nothing anywhere: no state in
etcd, no line in a log. So it counts for no majority, and no other program knows of it.
"""

import threading
import time
from dataclasses import dataclass
from typing import BinaryIO

import numpy as np

from glb_tools.file_log import author_of_line
from glb_tools.log import BASE, Base, Log, Look, checksum_of
from glb_tools.loads import (
    COMMIT,
    PIECE,
    FileWorker,
    FleetWorker,
    Shadow,
    Taken,
    Worker,
    World,
)
from glb_tools.options import Fault
from glb_tools.page.maps import Placed, Refusals, Sums, placed_in, refusals_in, sums_of
from glb_tools.page.steps import BASE as BASE_STEP
from glb_tools.page.steps import BATCH, MOST_LINES, MOST_STEPS, NOTHING, START, Step, Steps
from glb_tools.page.tables import Numbers, Tables, read_tables
from glb_tools.precedence import AUTHOR, author_of
from glb_tools.text import Replay

# how long a question to the mirror may wait for a batch that it works, and for its answer, in seconds
BUSY, SILENT = 0.7, 5.0
# who wrote a line of a file that glb-watch did not write
HAND = "by hand"


class Busy(Fault):
    """The mirror works a batch at the moment."""


class Counted(World):
    """The numbers that are served, over compact tables."""

    def __init__(self, tables: Tables) -> None:
        self.tables = tables
        self.unit_at, self.node_at = tables.unit_at, tables.node_at
        self.parents = [None if parent < 0 else int(parent) for parent in tables.parents]
        self.capacities = [int(capacity) for capacity in tables.capacities]
        self.demands = [int(demand) for demand in tables.demands]
        self.last_resort = tables.last_resort()
        self.replay = Replay(self)


class Reflection(Shadow):
    """The program, which may also be asked what it replies."""

    def __init__(self, program: str, topology: bytes, world: Counted) -> None:
        self.lock = threading.Lock()
        super().__init__(program, topology, world)

    def work(self, lines: str) -> bytes:
        with self.lock:
            return super().work(lines)

    def ask(self, address: str, query: bytes) -> tuple[int, bytes | None]:
        """The reply of the newest map to a query, none where nothing is sent back; and that map's serial."""
        if not self.lock.acquire(timeout=BUSY):
            raise Busy("the mirror works a batch: ask again in a moment")
        ends = threading.Timer(SILENT, self.process.kill)
        ends.start()
        try:
            assert self.process.stdin and self.process.stdout
            self.process.stdin.write(f"ask {address} {query.hex()}\n".encode())
            self.process.stdin.flush()
            words = self.process.stdout.readline().decode("latin-1").split()
        except (OSError, ValueError) as why:
            raise Fault(f"the mirror does not answer: {why}") from None
        finally:
            ends.cancel()
            self.lock.release()
        if len(words) != 3 or words[0] != "answer" or not words[1].isdigit():
            raise Fault(f"the mirror says `{' '.join(words)[:80]}`")
        return int(words[1]), None if words[2] == "-" else bytes.fromhex(words[2])


@dataclass(frozen=True)
class Served:
    """The newest map with the numbers that it is of: nothing of it changes any more."""

    tables: Tables
    placed: Placed
    refusals: Refusals
    sums: Sums
    # numbers that are others than the topology's
    demands: Numbers
    capacities: Numbers
    text: bytes
    checksum: str
    entry: int
    mark: str
    serial: int
    # when the page had it, in seconds since 1970
    time: float


@dataclass(frozen=True)
class Setter:
    """Who set a capacity: of a file nobody says when."""

    author: str
    why: str
    number: int
    sent: int


class Mirror(Worker):
    """What the page knows of the maps. One thread writes it; readers take what is there."""

    def prepare(self) -> None:
        self.steps = Steps()
        self.served: Served | None = None
        self.reflection: Reflection | None = None
        # by node, who set its capacity last
        self.setters: dict[str, Setter] = {}
        # how far a log that was long is worked, and how much there is
        self.at = self.of = 0
        self.serial, self.newest = -1, Placed(np.zeros(0, np.uint32), np.zeros(0, np.int64))
        self.checksum = ""
        # moved units since the page began, for the charts
        self.moved = 0

    def shadow(self, topology: bytes) -> Shadow:
        tables = read_tables(topology)
        self.steps.begin(tables)
        self.serial = -1
        self.reflection = Reflection(self.program, topology, Counted(tables))
        return self.reflection

    def rest(self, seconds: float) -> None:
        super().rest(seconds)
        program = self.reflection
        if program is not None and program.process.poll() is not None:
            raise Fault(f"the mirror has ended (status {program.process.returncode})")

    @property
    def tables(self) -> Tables:
        assert self.reflection is not None
        world = self.reflection.world
        assert isinstance(world, Counted)
        return world.tables

    def read_newest(self, shadow: Shadow) -> bool:
        """Reads the newest map, where that is another one than the one that was read last."""
        if shadow.maps - 1 == self.serial:
            return False
        self.newest, self.serial = placed_in(self.tables, shadow.text), shadow.maps - 1
        self.checksum = checksum_of(shadow.text)
        return True

    def numbers(self, shadow: Shadow) -> tuple[Numbers, Numbers]:
        world = shadow.world
        return np.array(world.capacities, np.int64), np.array(world.demands, np.int64)

    def record(self, shadow: Shadow, step: Step, is_dropped: bool = False) -> None:
        """A step that the newest map, or the want of one, makes."""
        is_new = not is_dropped and self.read_newest(shadow)
        step.serial, step.seen = max(self.serial, 0), time.time()
        if self.steps.is_known(step.number, step.mark):
            if is_new:
                self.steps.renew(self.newest)
        elif is_new:
            capacities, demands = self.numbers(shadow)
            step.checksum = self.checksum
            sums = sums_of(self.tables, self.newest, capacities, demands)
            self.steps.add(step, self.newest, sums)
            self.moved += step.moved
        elif is_dropped:
            self.steps.add(step)

    def took(self, shadow: Shadow, taken: Taken) -> None:
        self.at, self.of = taken.number, taken.number + taken.left
        is_dropped = taken.answer.startswith(b"refused")
        if not is_dropped:
            self.note_setters(taken)
        if taken.left >= MOST_STEPS or not self.is_shown(taken):
            return
        step = step_of(taken)
        if is_dropped:
            step.dropped = taken.answer.decode("latin-1").strip()
        self.record(shadow, step, bool(step.dropped))

    def is_shown(self, taken: Taken) -> bool:
        return True

    def note_setters(self, taken: Taken) -> None:
        for line in taken.lines.splitlines():
            words = line.split()
            if words[:1] == ["capacity"] and len(words) == 3:
                author, why, sent = signed(taken, line)
                holder = author_of(author, why)
                self.setters[words[1]] = Setter(holder, why, taken.number, sent)

    def sum_up(self, shadow: Shadow, entry: int) -> None:
        """Publishes the newest map to the page."""
        began = time.monotonic()
        self.read_newest(shadow)
        refusals = refusals_in(self.tables, shadow.text)
        capacities, demands = self.numbers(shadow)
        sums = sums_of(self.tables, self.newest, capacities, demands)
        self.served = Served(
            self.tables,
            self.newest,
            refusals,
            sums,
            demands,
            capacities,
            shadow.text,
            self.checksum,
            entry,
            self.mark,
            self.serial,
            time.time(),
        )
        self.loads, self.is_up, self.fault = None, True, ""
        # of a large world half of the time at most
        self.rest(time.monotonic() - began)

    @property
    def mark(self) -> str:
        listed = self.steps.listed()
        return listed[0].mark if listed else ""

    def ask(self, address: str, query: bytes) -> tuple[int, bytes | None]:
        if self.reflection is None or not self.is_up:
            raise Busy("the mirror is not there yet")
        return self.reflection.ask(address, query)


def signed(taken: Taken, line: str) -> tuple[str, str, int]:
    """Who changed a line, why and when, as far as the log says it."""
    if taken.entry is not None:
        return taken.entry.author, taken.entry.why, taken.entry.time
    author = author_of_line(line.encode("latin-1", "replace"))
    return (HAND if author != AUTHOR else author), "", 0


def step_of(taken: Taken) -> Step:
    lines = taken.lines.splitlines()
    author, why, sent = signed(taken, lines[0] if lines else "")
    step = Step(taken.number, taken.mark, BATCH, 0, sent, 0.0, author, why)
    step.lines, step.line_count = [line[:120] for line in lines[:MOST_LINES]], len(lines)
    if taken.entry is not None and taken.entry.kind == BASE:
        step.kind = BASE_STEP
    elif taken.entry is not None and not taken.answer:
        step.kind, step.dropped = NOTHING, "no line of it is for the newest base"
    return step


class FileMirror(Mirror, FileWorker):
    """Of one server: its topology, and the log that it is fed."""

    def __init__(self, program: str, every: float, topology: str, log: str) -> None:
        super().__init__(program, every, topology, log)
        self.prepare()
        self.batches = 0

    def follow_file(self, shadow: Shadow, topology: tuple[int, ...], file: BinaryIO) -> None:
        self.batches = 0
        while piece := file.read(PIECE) + file.readline():
            self.batches += len(COMMIT.findall(piece))
        file.seek(0)
        self.setters.clear()
        start = Step(0, checksum_of(repr(topology).encode()), START)
        self.record(shadow, start)
        super().follow_file(shadow, topology, file)

    def took(self, shadow: Shadow, taken: Taken) -> None:
        taken.left = max(self.batches - taken.number, 0)
        super().took(shadow, taken)


class FleetMirror(Mirror, FleetWorker):
    """Of a fleet: its log in etcd."""

    def __init__(self, program: str, every: float, log: Log) -> None:
        super().__init__(program, every, log)
        self.prepare()
        self.base: Base | None = None

    def follow_from(self, shadow: Shadow, base: Base) -> None:
        self.base = base
        super().follow_from(shadow, base)

    def is_shown(self, taken: Taken) -> bool:
        """Entries ahead of the base were worked by the base before: these maps are none that were served."""
        return self.base is not None and taken.number >= self.base.number

    def look(self, entry: int) -> Look | None:
        found = super().look(entry)
        if found is not None:
            self.of = found.last
        return found
