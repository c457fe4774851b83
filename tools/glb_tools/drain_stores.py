"""Where glb-drain appends its steps, and what it keeps beside them: the log of a fleet, or a log file."""

import os
import uuid
from dataclasses import dataclass, replace
from pathlib import Path
from typing import Protocol

from glb_tools import drains
from glb_tools.append import dropped
from glb_tools.drains import Drain, is_changed, line_of
from glb_tools.etcd import Message, delete, put
from glb_tools.file_log import author_of_line, locked, own_line
from glb_tools.history import topology_at, topology_of
from glb_tools.loads import STOP, split_at_commits
from glb_tools.log import BASE, BATCH, Log, Look, Signed
from glb_tools.options import Fault, read_file, write_file
from glb_tools.plan import REFUSED, Served, served_at, served_by_log
from glb_tools.precedence import HANDED_BACK, author_of, hands_kept
from glb_tools.text import Replay
from glb_tools.topology import Topology, written

# how long a lock, and a server's word of a batch, are waited for, in seconds
LOCKED, WORD = 30.0, 5.0


@dataclass
class Setters:
    """Who set a node's capacity last ("" where nobody did), and to what; and the last capacity above 0 that it had."""

    node: str
    author: str = ""
    number: int | None = None
    last_above_0: int | None = None

    def take(self, lines: str, author: str) -> None:
        """A batch that was not dropped, and who appended it."""
        for line in lines.splitlines():
            words = line.split()
            if words[:2] == ["capacity", self.node]:
                self.author, self.number = author, int(words[2])
                self.last_above_0 = self.number or self.last_above_0


class Store(Protocol):
    # the drain of the node as it was when it was looked what is served, and who set its capacity
    seen: Drain | None
    setters: Setters

    def drains(self) -> dict[str, Drain]:
        """The drains that are on, by node."""
        ...

    def numbered(self) -> bytes:
        """The topology with the numbers that are served."""
        ...

    def served(self, node: str) -> Served:
        """What is served now, and the drain of a node."""
        ...

    def setter(self, node: str, topology: Topology) -> str:
        """Who set a node's capacity last."""
        ...

    def capacity_of_topology(self, node: str) -> int:
        """A node's capacity in the topology from which servers begin."""
        ...

    def step(self, drain: Drain, signed: Signed, is_over: bool) -> bool:
        """Appends a step, and keeps the drain, or ends it; not where the node's capacity or its drain is another one by now."""
        ...

    def keep(self, drain: Drain) -> bool:
        """Keeps something else of the drain, and appends nothing; not where it is another one by now."""
        ...

    def forget(self, node: str) -> None:
        """Ends a drain, and appends nothing."""
        ...


class Fleet:
    """The log of a fleet."""

    def __init__(self, glb: str, log: Log) -> None:
        self.glb, self.log = glb, log
        self.last = 0
        self.seen: Drain | None = None
        self.setters = Setters("")

    def drains(self) -> dict[str, Drain]:
        return drains.by_node(drains.in_etcd(self.log))

    def numbered(self) -> bytes:
        look = self.log.look()
        return topology_at(self.log, look, look.last)

    def served(self, node: str) -> Served:
        self.seen = self.drains().get(node)
        look = self.log.look()
        self.last, self.setters = look.last, self.setters_at(look, node)
        return served_at(self.glb, self.log, look)

    def setter(self, node: str, topology: Topology) -> str:
        return self.setters_at(self.log.look(), node).author

    def setters_at(self, look: Look, node: str) -> Setters:
        # whose entry was cut away stands beside the log
        found = Setters(node, hands_kept(self.log).get(("capacity", node), ""))
        for entry in self.log.entries(look.begins, look.last):
            if entry.kind == BATCH:
                found.take(entry.lines, author_of(entry.author, entry.why))
        return found

    def capacity_of_topology(self, node: str) -> int:
        topology = Topology(topology_of(self.log, self.log.newest_base()))
        return topology.nodes[topology.node_at[node]].capacity

    def step(self, drain: Drain, signed: Signed, is_over: bool) -> bool:
        key = self.log.at("drain", drain.node)
        # the batch and the drain are put at one moment
        more = [delete(key) if is_over else put(key, replace(drain, was=drain.to).octets())]
        while True:
            if self.drains().get(drain.node) != self.seen:
                return False
            look = self.log.look()
            for entry in self.log.entries(self.last + 1, look.last):
                if entry.kind == BASE or is_changed(drain.node, entry.lines):
                    return False
            if self.put_entry(look, signed, drain, more):
                break
        why = dropped(self.log, look.last + 1, WORD)
        if why:
            raise Fault(why, REFUSED)
        return True

    def put_entry(self, look: Look, signed: Signed, drain: Drain, more: list[Message]) -> bool:
        lines = {"lines": line_of(drain)}
        return self.log.put_entry(look, BATCH, signed, lines, uuid.uuid4().hex, more)

    def keep(self, drain: Drain) -> bool:
        if self.drains().get(drain.node) != self.seen:
            return False
        self.log.etcd.txn([put(self.log.at("drain", drain.node), drain.octets())])
        return True

    def forget(self, node: str) -> None:
        self.log.etcd.txn([delete(self.log.at("drain", node))])


class File:
    """A log file, which servers are fed from."""

    def __init__(self, glb: str, topology: str, log: str) -> None:
        self.glb, self.topology, self.path = glb, topology, Path(log)
        self.kept = drains.path_beside(log)
        self.octets = b""
        self.seen: Drain | None = None
        self.setters = Setters("")

    def drains(self) -> dict[str, Drain]:
        return drains.by_node(drains.in_file(self.path))

    def write(self, found: dict[str, Drain]) -> None:
        lines = "".join(f"{drain.octets()}\n" for drain in found.values())
        write_file(self.kept, lines.encode())

    def whole(self) -> bytes:
        """The octets of the log, which ends with a commit."""
        octets = read_file(self.path)
        if split_at_commits(octets)[-1]:
            raise Fault(f"{self.path} has lines behind its last commit: a step would commit them")
        return octets

    def numbered(self) -> bytes:
        topology = Topology(read_file(self.topology), self.topology)
        replay = Replay(topology)
        with locked(self.path, LOCKED, is_made=False):
            replay.take(STOP.sub(b"", self.whole()))
        return written(topology, replay.numbers).encode()

    def served(self, node: str) -> Served:
        with locked(self.path, LOCKED, is_made=False):
            self.octets, self.seen = self.whole(), self.drains().get(node)
        octets = read_file(self.topology)
        self.setters = self.setters_in(node, Topology(octets, self.topology))
        return served_by_log(self.glb, octets, STOP.sub(b"", self.octets))

    def setter(self, node: str, topology: Topology) -> str:
        self.octets = self.whole()
        return self.setters_in(node, topology).author

    def setters_in(self, node: str, topology: Topology) -> Setters:
        found = Setters(node)
        # a batch that servers dropped has set nothing
        for batch in split_at_commits(self.octets):
            if is_changed(node, batch.decode("latin-1")):
                replay = Replay(topology)
                replay.take(batch + b"commit\n")
                if not replay.dropped:
                    for line in batch.splitlines():
                        found.take(line.decode("latin-1"), author_of_line(line))
        return found

    def capacity_of_topology(self, node: str) -> int:
        topology = Topology(read_file(self.topology), self.topology)
        return topology.nodes[topology.node_at[node]].capacity

    def step(self, drain: Drain, signed: Signed, is_over: bool) -> bool:
        with locked(self.path, LOCKED):
            octets, found = self.whole(), self.drains()
            if not octets.startswith(self.octets):
                raise Fault(f"{self.path} was put in its place or made shorter meanwhile")
            new = octets[len(self.octets) :].decode("latin-1")
            if found.get(drain.node) != self.seen or is_changed(drain.node, new):
                return False
            # what has to be known comes first: whoever is ended before the log has the step makes it anew
            found[drain.node] = drain
            self.write(found)
            is_handed_back = signed.why.startswith(HANDED_BACK)
            line = own_line(line_of(drain)) if is_handed_back else line_of(drain)
            self.append(f"{line}commit\n".encode())
            if is_over:
                del found[drain.node]
            else:
                found[drain.node] = replace(drain, was=drain.to)
            self.write(found)
        return True

    def append(self, octets: bytes) -> None:
        descriptor = os.open(self.path, os.O_WRONLY | os.O_APPEND)
        try:
            while octets:
                octets = octets[os.write(descriptor, octets) :]
            os.fsync(descriptor)
        finally:
            os.close(descriptor)

    def keep(self, drain: Drain) -> bool:
        with locked(self.path, LOCKED):
            found = self.drains()
            if found.get(drain.node) != self.seen:
                return False
            found[drain.node] = drain
            self.write(found)
        return True

    def forget(self, node: str) -> None:
        with locked(self.path, LOCKED):
            found = self.drains()
            found.pop(node, None)
            self.write(found)
