"""The logs that glb-watch appends to: what is served by them, who set each number, and batches behind what was read.

In a fleet's log an entry has an author, and one that hands names back says so by its reason; glb_tools/file_log.py says how it
is in a file. Beside either stands which drains are on.
"""

import fcntl
import os
import socket
import uuid
from typing import IO, Protocol

from glb_tools import drains
from glb_tools.append import check
from glb_tools.drains import Drain
from glb_tools.etcd import Message, Unreachable, is_at, put
from glb_tools.file_log import OWN, author_of_line, locked, own_line
from glb_tools.history import handed, topology_of
from glb_tools.log import BATCH, Base, Entry, Log, Look, Signed, without_base
from glb_tools.options import Fault, read_file
from glb_tools.precedence import AUTHOR, author_of, hands_kept, hands_put, is_by_hand
from glb_tools.text import Change, Replay, lines_of
from glb_tools.topology import Topology
from glb_tools.watch_rules import CAPACITY, DEMAND, Name

# how long the lock of a log file's writers is waited for, in seconds, and how often drains are read that change meanwhile
LOCKED, READ_AGAIN = 2.0, 5
# what closes a batch of which a part alone was written: each server drops it whole
TORN = b" torn torn torn\ncommit\n"


class Waits(Fault):
    """Another one leads."""


class Authors(Replay):
    """A replay that knows who set each number last."""

    def __init__(self, topology: Topology) -> None:
        super().__init__(topology)
        self.author = ""
        self.authors: dict[Change, str] = {}
        self.open: list[str] = []

    def add(self, words: list[str]) -> None:
        super().add(words)
        self.open.append(self.author)

    def commit(self) -> None:
        if not self.refused:
            self.authors.update((each[0], who) for each, who in zip(self.batch, self.open))
        self.open = []
        super().commit()


class Served:
    """The numbers that are served, who set those that are not glb-watch's, and the drains that are on."""

    def __init__(self, topology: Topology, before: "Served | None" = None) -> None:
        self.topology = topology
        self.replay = Authors(topology)
        self.numbers: dict[Name, int] = {
            (DEMAND, unit.name): unit.demand for unit in topology.units
        } | {(CAPACITY, node.name): node.capacity for node in topology.nodes}
        # who set a number last, where that is not glb-watch
        self.authors: dict[Name, str] = {}
        if before:
            # who set a number is not in a new base
            self.authors |= {
                name: who for name, who in before.authors.items() if name in self.numbers
            }
        self.drains: dict[str, Drain] = {}
        # what is wrong beside the log
        self.faults: list[str] = []

    @property
    def by_hand(self) -> dict[Name, str]:
        """The names that were set by hand, and by whom: a drain's own steps are none."""
        return {
            name: who
            for name, who in self.authors.items()
            if is_by_hand(self.numbers[name], who, self.drained(name))
        }

    def drained(self, name: Name) -> tuple[int, ...]:
        drain = self.drains.get(name[1]) if name[0] == CAPACITY else None
        return drain.numbers if drain else ()

    def take_drains(self, texts: list[tuple[str, bytes]]) -> None:
        self.drains, self.faults = drains.readable(texts)

    def name_of(self, change: Change) -> Name:
        word, at = change
        topology = self.topology
        return word, topology.units[at].name if word == DEMAND else topology.nodes[at].name

    def take(self, octets: bytes, author: str, with_numbers: bool = True) -> None:
        replay = self.replay
        replay.author = author
        replay.take(octets)
        for change, number in replay.numbers.items():
            name = self.name_of(change)
            if with_numbers:
                self.numbers[name] = number
            if replay.authors[change] == AUTHOR:
                self.authors.pop(name, None)
            else:
                self.authors[name] = replay.authors[change]
        replay.numbers, replay.authors = {}, {}


class Watched(Protocol):
    """A log: `read` says what is served now, `append` puts a batch behind just that and says whether it did."""

    def read(self) -> Served:
        ...

    def append(self, lines: list[str], why: str) -> bool:
        ...

    def end(self) -> None:
        ...


class FileLog:
    """A file that a feed unit follows, over the topology from which its server began."""

    def __init__(self, log: str, topology: str, *, is_alone: bool, is_read_only: bool) -> None:
        self.path, self.topology_path = log, topology
        self.is_alone, self.is_read_only = is_alone, is_read_only
        self.file: IO[bytes] | None = None
        self.served: Served | None = None
        self.marks: tuple[tuple[int, ...], tuple[int, ...]] | None = None
        # how much was read, and what of it is a line without its end
        self.at, self.rest = 0, b""
        # whether all of the open batch is glb-watch's
        self.is_own = True

    def read(self) -> Served:
        marks = (mark_of(self.topology_path, True), mark_of(self.path, False))
        if self.served is None or marks != self.marks or os.stat(self.path).st_size < self.at:
            self.begin()
            self.marks = marks
        self.take()
        if self.is_torn():
            with locked(self.path, LOCKED):
                # nobody is writing it just now
                self.take()
                if self.is_torn():
                    self.write(TORN)
                    self.take()
        assert self.served
        # what a drain keeps stands there ahead of its step, and again behind it
        self.served.take_drains(drains.in_file(self.path))
        return self.served

    def is_torn(self) -> bool:
        """Whether a part alone of a batch of glb-watch is there: a run was ended amid it, or there was no room."""
        return self.is_alone and self.is_open and self.is_own

    def begin(self) -> None:
        if self.file:
            self.file.close()
        # not made where it is not there: a name that is written wrongly would be a log that nobody follows
        file = open(self.path, "rb" if self.is_read_only else "rb+", buffering=0)
        self.file = file
        if self.is_alone:
            try:
                fcntl.flock(file, fcntl.LOCK_EX | fcntl.LOCK_NB)
            except BlockingIOError:
                raise Fault(f"{self.path}: another glb-watch runs over it") from None
        topology = Topology(read_file(self.topology_path), self.topology_path)
        self.served, self.at, self.rest, self.is_own = Served(topology), 0, b"", True

    def end(self) -> None:
        """Another one may run at once."""
        if self.file:
            self.file.close()

    def take(self) -> None:
        """Reads what was appended, up to the last line's end."""
        assert self.file and self.served
        self.file.seek(self.at)
        octets = self.rest + self.file.read()
        self.at = self.file.tell()
        *whole, self.rest = octets.split(b"\n")
        for line in whole:
            if line.split() == [b"stop"]:
                # the feed unit leaves it out
                continue
            is_own = line.startswith(OWN)
            self.served.take(line + b"\n", author_of_line(line))
            if not self.is_open_batch:
                self.is_own = True
            elif not is_own and line.split()[:1] in ([b"demand"], [b"capacity"]):
                self.is_own = False

    @property
    def is_open_batch(self) -> bool:
        assert self.served
        return bool(self.served.replay.batch or self.served.replay.refused)

    @property
    def is_open(self) -> bool:
        if self.rest and not self.is_open_batch:
            # the beginning of a line of glb-watch, as far as it goes
            return any(own.startswith(self.rest[: len(own)]) for own in OWN)
        return self.is_open_batch

    def append(self, lines: list[str], why: str) -> bool:
        assert self.file and self.served
        check([line.encode() for line in lines], self.served.topology)
        with locked(self.path, LOCKED):
            if os.stat(self.path).st_size != self.at:
                return False
            if self.rest or self.is_open_batch:
                raise Fault(
                    f"{self.path} ends within a batch that somebody else began: nothing is put"
                )
            self.write("".join(f"{own_line(line)}\n" for line in lines).encode() + b"commit\n")
        return True

    def write(self, octets: bytes) -> None:
        assert self.file
        # behind whatever anybody else appends meanwhile
        fcntl.fcntl(self.file, fcntl.F_SETFL, os.O_APPEND)
        if self.file.write(octets) != len(octets):
            raise Fault(f"{self.path}: there is no room for a whole batch")
        os.fsync(self.file.fileno())


def mark_of(path: str, with_time: bool) -> tuple[int, ...]:
    """What of a file says that it is another one; of one that grows its time says nothing."""
    found = os.stat(path)
    return (found.st_dev, found.st_ino, found.st_mtime_ns if with_time else 0)


class FleetLog:
    """The log of a fleet: entries by its newest base. Of several that are to lead one does, as long as it is heard of within
    some seconds; each of its entries is put only where it still does."""

    def __init__(self, log: Log, lead_seconds: int = 0) -> None:
        self.log, self.lead_seconds = log, lead_seconds
        self.lease: int | None = None
        # since which revision of etcd it leads
        self.leads_since = 0
        self.base: Base | None = None
        self.served: Served | None = None
        self.look: Look | None = None
        self.chain, self.next = "", 0
        # what was kept last of who set numbers by hand
        self.remembered: list[Message] = []

    def lead(self) -> None:
        etcd, key = self.log.etcd, self.log.at("watch")
        if self.lease is not None and etcd.keep(self.lease):
            return
        self.lease = None
        lease = etcd.lease(self.lead_seconds)
        who = f"{socket.gethostname()} {os.getpid()}"
        answer = etcd.txn([put(key, who, lease)], [is_at(key, 0)])
        if not answer.held:
            etcd.end_lease(lease)
            raise Waits("another glb-watch leads: this one waits")
        self.lease, self.leads_since = lease, answer.revision

    def end(self) -> None:
        """Another one may lead at once."""
        lease, self.lease = self.lease, None
        if lease is not None:
            try:
                self.log.etcd.end_lease(lease)
            except Fault:
                # it runs out by itself
                pass

    def read(self) -> Served:
        if self.lead_seconds:
            self.lead()
        look, texts = self.looked()
        base = look.newest
        if base is None:
            raise Fault(without_base(look))
        if not look.entries:
            # they were deleted by hand
            raise Fault("the log is empty")
        is_anew = self.served is None or self.is_another(look)
        if is_anew or base != self.base:
            topology = Topology(topology_of(self.log, base), str(base))
            self.served = Served(topology, None if is_anew else self.served)
            if is_anew:
                self.recall()
            self.base, self.next = base, look.begins
        for entry in self.log.entries(self.next, look.last):
            self.take(look, base, entry)
            self.next = entry.number + 1
        assert self.served
        self.chain, self.look = look.entries[-1].checksum, look
        self.served.take_drains(texts)
        if self.lead_seconds:
            self.remember()
        return self.served

    def recall(self) -> None:
        """Who set which numbers by hand, as one that led kept it, or a cut."""
        assert self.served
        self.remembered = []
        self.served.authors |= {
            name: who for name, who in hands_kept(self.log).items() if name in self.served.numbers
        }

    def remember(self) -> None:
        assert self.served
        parts = hands_put(self.log, self.served.authors)
        if parts and parts != self.remembered:
            leads = [is_at(self.log.at("watch"), self.leads_since)]
            if self.log.etcd.txn(parts, leads).held:
                self.remembered = parts

    def looked(self) -> tuple[Look, list[tuple[str, bytes]]]:
        """The log, and the drains that are on at that moment: a step puts both at once."""
        texts = drains.in_etcd(self.log)
        for _ in range(READ_AGAIN):
            before, look = texts, self.log.look()
            texts = drains.in_etcd(self.log)
            if texts == before:
                break
        return look, texts

    def is_another(self, look: Look) -> bool:
        """Whether the log is not the one that was read, as behind a restore of etcd."""
        there = self.log.entry(self.next - 1) if self.next > look.first else None
        return there is None or there.checksum != self.chain

    def take(self, look: Look, base: Base, entry: Entry) -> None:
        if entry.kind != BATCH or self.served is None:
            return
        author = author_of(entry.author, entry.why)
        if entry.number <= base.upto:
            # its numbers are those of the base; who set them is not
            self.served.take(self.kept(entry), author, with_numbers=False)
        elif lines := handed(self.log, look, base, entry):
            self.served.take(f"{lines}commit\n".encode(), author)

    def kept(self, entry: Entry) -> bytes:
        """The batch of an entry, of names that the newest base has."""
        assert self.served
        numbers = self.served.numbers
        lines = entry.lines.splitlines(keepends=True)
        kept = [line for line in lines if tuple(line.split()[:2]) in numbers]
        return "".join([*kept, "commit\n"]).encode()

    def append(self, lines: list[str], why: str) -> bool:
        assert self.look and self.served
        text = "".join(f"{line}\n" for line in lines)
        check(lines_of(text.encode()), self.served.topology)
        content, signed, ident = {"lines": text}, Signed(AUTHOR, why), uuid.uuid4().hex
        leads = [is_at(self.log.at("watch"), self.leads_since)] if self.lead_seconds else []
        try:
            return self.log.put_entry(self.look, BATCH, signed, content, ident, only_if=leads)
        except Unreachable as fault:
            # the next look reads whether it was
            raise Fault(f"{fault}; the batch may have been appended") from None
