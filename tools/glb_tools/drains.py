"""What glb-drain keeps of the drains that are on: in etcd beside a fleet's log, or in the file LOG.drains beside a log file.

    PREFIX/drain/NODE   a text of JSON, which is put at one moment with a step
    LOG.drains          such a text in each line, put ahead of a step and again behind it
"""

import json
import time
from collections.abc import Iterable
from dataclasses import asdict, dataclass, fields
from pathlib import Path

from glb_tools.etcd import under
from glb_tools.log import Log
from glb_tools.options import Fault

# which start of this machine it is
BOOT = Path("/proc/sys/kernel/random/boot_id")


@dataclass
class Drain:
    """A drain that is on: what has to be known of it to go on, and to go back."""

    node: str
    # the node's capacity of before the first step, and the units that a step may move (0: so many as it takes)
    before: int
    step: int
    # when it began, in seconds since 1970, by whom and why
    since: int
    author: str
    why: str
    is_back: bool
    over: int
    every: int
    # by which the run is known that made the last step
    run: str
    # the capacity ahead of the last step and behind it: they are equal as soon as it stands in the log
    was: int
    to: int
    # when the last step was made, how many there were in this direction, and the units that these moved
    at: int = 0
    steps: int = 0
    moved: int = 0
    # how many steps there are to be in this direction
    planned: int = 0
    # who had set the capacity of before by hand
    by_hand: str = ""
    # when it is to go back by itself, in seconds since 1970; the same by the clock of a start of a machine, and which start
    until: int = 0
    until_clock: float = 0
    boot: str = ""

    @property
    def target(self) -> int:
        return self.before if self.is_back else 0

    @property
    def numbers(self) -> tuple[int, int]:
        """Its numbers of now: what stands in the log is one of them."""
        return self.was, self.to

    def left(self) -> float:
        """Seconds until it is to go back by itself: by the clock that never jumps, as long as the machine is not started anew."""
        if self.boot and self.boot == boot():
            return self.until_clock - time.monotonic()
        return self.until - time.time()

    def octets(self) -> str:
        return json.dumps(asdict(self))


NAMES = [each.name for each in fields(Drain)]
NUMBERS = (
    "before",
    "step",
    "since",
    "was",
    "to",
    "at",
    "every",
    "over",
    "steps",
    "planned",
    "until",
)


def boot() -> str:
    try:
        return BOOT.read_text().strip()
    except OSError:
        return ""


def drain_in(octets: str | bytes, where: str) -> Drain:
    """The drain that a text says; a later release may say more of it."""
    try:
        told = json.loads(octets)
        found = Drain(**{key: told[key] for key in NAMES if key in told})
        if not all(type(getattr(found, key)) is int for key in NUMBERS):
            raise ValueError("a number is none")
        if not isinstance(found.node, str) or type(found.until_clock) not in (int, float):
            raise ValueError("it names no node, or no time")
        return found
    except (ValueError, TypeError, RecursionError) as why:
        raise Fault(f"{where} cannot be read: {why}") from None


def in_etcd(log: Log) -> list[tuple[str, bytes]]:
    """The texts of drains beside a fleet's log, with their places."""
    items = log.etcd.txn([under(log.at("drain", ""))]).found[0]
    return [(item.key, item.octets) for item in items]


def path_beside(log: str | Path) -> Path:
    return Path(f"{log}.drains")


def in_file(log: str | Path) -> list[tuple[str, bytes]]:
    """The texts of drains beside a log file, with their places."""
    path = path_beside(log)
    try:
        return [(str(path), line) for line in path.read_bytes().splitlines()]
    except FileNotFoundError:
        return []


def by_node(texts: Iterable[tuple[str, bytes]]) -> dict[str, Drain]:
    """The drains of these texts; one that cannot be read is a fault."""
    found = [drain_in(octets, where) for where, octets in texts]
    return {drain.node: drain for drain in found}


def readable(texts: Iterable[tuple[str, bytes]]) -> tuple[dict[str, Drain], list[str]]:
    """The drains of these texts that can be read, and what is wrong with the others."""
    found, faults = {}, []
    for where, octets in texts:
        try:
            drain = drain_in(octets, where)
            found[drain.node] = drain
        except Fault as why:
            faults.append(str(why))
    return found, faults


def line_of(drain: Drain) -> str:
    return f"capacity {drain.node} {drain.to}\n"


def is_changed(node: str, lines: str) -> bool:
    """Whether lines change a node's capacity."""
    return any(line.split()[:2] == ["capacity", node] for line in lines.splitlines())
