"""What a log comes to: the feed that a server of a base is handed up to an entry, and the numbers that it leaves."""

from collections.abc import Iterator

from glb_tools.log import (
    BATCH,
    NONE,
    Base,
    Entry,
    Log,
    Look,
    checksum_of,
    left_in,
    place_of,
    with_place,
)
from glb_tools.options import Fault
from glb_tools.text import Change, Replay
from glb_tools.topology import Topology, written


def base_of(log: Log, look: Look, number: int) -> Base:
    """The base that was the newest at an entry."""
    base = look.base_at(number)
    if base is None:
        raise Fault(f"the log has no base at entry {number} any more")
    return base


def topology_of(log: Log, base: Base) -> bytes:
    octets = log.topology(base.checksum)
    if octets is None:
        raise Fault(f"the topology of {base} is not in etcd")
    return octets


def feed(log: Log, look: Look, base: Base, number: int) -> Iterator[str]:
    """The batches that a server of a base is handed, from its start up to an entry, each with its commit."""
    for entry in log.entries(base.upto + 1, number):
        if lines := handed(log, look, base, entry):
            yield f"{lines}commit\n"


def handed(log: Log, look: Look, base: Base, entry: Entry) -> str:
    """The lines of an entry that a server of a base is handed."""
    newest = look.base_at(entry.number)
    if entry.kind != BATCH or newest is None or newest.checksum == base.checksum:
        return entry.lines
    return left_in(entry.lines, log.names(base.checksum), log.names(newest.checksum))


def numbers_at(log: Log, look: Look, base: Base, topology: Topology, number: int) -> Replay:
    """The numbers that a server of the base has at an entry."""
    replay = Replay(topology)
    for batch in feed(log, look, base, number):
        replay.take(batch.encode())
    return replay


def topology_at(log: Log, look: Look, number: int) -> bytes:
    """The topology with the numbers of an entry, as a base whose numbers go up to it."""
    base = base_of(log, look, number)
    topology = Topology(topology_of(log, base), str(base))
    text = written(topology, numbers_at(log, look, base, topology, number).numbers)
    return with_place(text.encode(), *place_at(log, number))


def place_at(log: Log, number: int) -> tuple[int, str]:
    """The last entry up to a number, with its checksum. What was put by hand is none: its checksum stands for nothing else,
    and the numbers are the same without it."""
    while True:
        entry = next(log.entries(number, number))
        if entry.kind != NONE or number == 1:
            return number, entry.checksum
        number -= 1


def chain_at(log: Log, number: int) -> str:
    entry = log.entry(number)
    if entry is None:
        raise Fault(f"entry {number} is not in the log")
    return entry.checksum


def with_numbers(log: Log, octets: bytes, path: str) -> bytes:
    """A topology with the numbers that the log has for each of its names, as a base that goes up to the newest entry.

    One that says up to which entry its numbers go is taken as it is."""
    look = log.look()
    upto, chain = place_of(octets)
    if not look.bases:
        return first_base(log, look, octets, path)
    if chain:
        return octets
    base = base_of(log, look, look.last)
    old = new = Topology(octets, path)
    if checksum_of(octets) != base.checksum:
        old = Topology(topology_of(log, base), str(base))
    replay = numbers_at(log, look, base, old, look.last)
    numbers: dict[Change, int] = {}
    for name, at in new.unit_at.items():
        if name in old.unit_at:
            there = old.unit_at[name]
            numbers["demand", at] = replay.numbers.get(("demand", there), old.units[there].demand)
    for name, at in new.node_at.items():
        if name in old.node_at:
            there = old.node_at[name]
            numbers["capacity", at] = replay.numbers.get(
                ("capacity", there), old.nodes[there].capacity
            )
    return with_place(written(new, numbers).encode(), *place_at(log, look.last))


def first_base(log: Log, look: Look, octets: bytes, path: str) -> bytes:
    """The base with which a log begins; behind a log of an older release, the one that its own tools wrote."""
    upto, _ = place_of(octets)
    if not look.last:
        if upto:
            raise Fault(f"{path} says that its numbers go up to entry {upto}, and the log is empty")
        return octets
    if upto != look.last:
        raise Fault(
            f"the log is one of an older release and ends at entry {look.last}: {path} has to have the numbers up to"
            " there (docs/operating/fleet.md, `From an older release`)"
        )
    return with_place(octets, upto, chain_at(log, upto))
