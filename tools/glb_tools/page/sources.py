"""Where the page knows from how servers are: what the servers of a fleet tell in etcd, or what this host shows of one."""

import os
import re
import select
import threading
import time
from collections.abc import Callable, Iterable
from dataclasses import dataclass, field
from pathlib import Path
from typing import Any

from glb_tools import drains
from glb_tools.drains import Drain
from glb_tools.fleet import Report, look_at_members, number_in, report
from glb_tools.log import Log, maps_of, spot_of
from glb_tools.options import tell
from glb_tools.page.counters import Sockets, sockets_at
from glb_tools.server import PUBLISHED, SHOWN

# how often the members of etcd are asked whether they answer, in looks
SELDOM = 5
# how much of a server's output is read at its start, in octets
TAIL = 1 << 20
FEED = re.compile(r"[1-4] ")


@dataclass
class Server:
    """A server as it is shown: what is not known is None."""

    name: str
    # a word, what it means, and whether somebody has to look
    state: str = "there"
    words: str = ""
    is_bad: bool = False
    serial: int | None = None
    entry: int | None = None
    behind: int | None = None
    checksum: str = ""
    base: str = ""
    placed: int | None = None
    unplaced: int | None = None
    # when it told this, in seconds since 1970
    time: float | None = None
    workers: int | None = None
    drops: int | None = None
    # whether its map is another one than that of the most, or than the mirror's
    differs: bool = False


@dataclass
class Sight:
    """How servers were at one moment."""

    time: float = 0.0
    servers: list[Server] = field(default_factory=list)
    # what is not as it should be, the worst first: a word for its kind, and a sentence
    advice: list[tuple[str, str]] = field(default_factory=list)
    drains: list[Drain] = field(default_factory=list)
    last: int = 0
    base_entry: int = 0
    base: str = ""
    # why nothing could be seen
    fault: str = ""


# the statuses of glb-fleet, as a word each
WORDS = {1: "note", 2: "differ", 3: "etcd", 4: "etcd", 5: "silent", 6: "silent", 7: "etcd"}


class Source:
    """Looks again and again; what it saw last is there."""

    kind = ""

    def __init__(self, every: float) -> None:
        self.every = every
        self.sight = Sight(fault="nothing was looked at yet")
        self.over = threading.Event()

    def run(self) -> None:
        while not self.over.is_set():
            try:
                self.sight = self.look()
            except (
                Exception
            ) as why:  # noqa: BLE001: a thread that has ended would show old states for ever
                if str(why) != self.sight.fault:
                    tell(why)
                # when it was seen the last time stays
                self.sight = Sight(self.sight.time, fault=str(why) or type(why).__name__)
            self.over.wait(self.every)

    def look(self) -> Sight:
        raise NotImplementedError


def server_of(told: dict[str, Any], outvoted: set[str]) -> Server:
    name, state = str(told["name"]), str(told["state"])
    found = Server(name, state, is_bad=state not in ("there", "starts", "behind"))
    found.words = str(told.get("waits") or told.get("why") or "")
    if "hangs" in told:
        found.words = f"it has not answered its follower for {number_in(told, 'hangs')} s"
    if "entry" not in told:
        return found
    spot = spot_of(number_in(told, "entry"), str(told.get("chain")))
    found.entry, found.behind = number_in(told, "entry"), number_in(told, "behind")
    found.checksum = str(maps_of(told).get(spot, ""))[:16]
    found.base, found.time = str(told.get("base", ""))[:16], float(number_in(told, "time"))
    for key in ("serial", "placed", "unplaced", "workers"):
        if type(told.get(key)) is int:
            setattr(found, key, told[key])
    found.differs = name in outvoted
    found.is_bad = found.is_bad or found.differs
    return found


def add_drains(sight: Sight, texts: Iterable[tuple[str, bytes]]) -> None:
    """The drains that are on; one that cannot be read is told, and hides no other."""
    found, faults = drains.readable(texts)
    sight.drains = list(found.values())
    sight.advice += [("note", why) for why in faults]


def outvoted_in(found: Report) -> set[str]:
    """The servers whose map is not that of the most at an entry; all where there is no most."""
    outvoted: set[str] = set()
    for sides in found.differ.values():
        most = max(len(names) for names in sides.values())
        is_tied = sum(len(names) == most for names in sides.values()) > 1
        for names in sides.values():
            if len(names) < most or is_tied:
                outvoted.update(names)
    return outvoted


class FleetSource(Source):
    """A fleet: its servers tell their states in etcd, and nobody is asked."""

    kind = "fleet"

    def __init__(self, every: float, log: Log, locals: "list[Local]") -> None:
        super().__init__(every)
        self.log = log
        self.locals = {local.name: local for local in locals}
        self.looks, self.members = 0, Report()

    def look(self) -> Sight:
        found = report(self.log, self.log.look())
        if self.looks % SELDOM == 0:
            self.members = Report()
            look_at_members(self.log.etcd, self.members)
        self.looks += 1
        outvoted = outvoted_in(found)
        sight = Sight(time.time(), last=found.last, base=found.base, base_entry=found.base_entry)
        sight.servers = [server_of(told, outvoted) for told in found.servers]
        for server in sight.servers:
            if server.name in self.locals:
                self.locals[server.name].add_to(server)
        advice = [*found.advice, *self.members.advice]
        order = (2, 5, 6, 4, 3, 7, 1)
        advice.sort(key=lambda each: order.index(each[0]) if each[0] in order else len(order))
        sight.advice = [(WORDS.get(status, "note"), words) for status, words in advice]
        add_drains(sight, drains.in_etcd(self.log))
        return sight


@dataclass
class Local:
    """A server of this host: where it listens, and its unit."""

    name: str
    address: str = ""
    port: int = 0
    unit: str = ""

    def sockets(self) -> Sockets | None:
        return sockets_at(self.address, self.port) if self.port else None

    def add_to(self, server: Server) -> None:
        """What the kernel shows of its sockets."""
        found = self.sockets()
        if found is None:
            return
        server.workers, server.drops = found.workers, found.drops
        if not found.workers:
            server.state, server.is_bad = "silent", True
            server.words = f"nobody listens at {self.address}, port {self.port}"


class Said:
    """The output of a server, as a file that grows or a pipe: what it said last."""

    def __init__(self, path: str) -> None:
        self.path = path
        self.serial: int | None = None
        self.placed: int | None = None
        self.unplaced: int | None = None
        self.dropped = 0
        self.time: float | None = None
        self.fault = ""

    def run(self, over: threading.Event) -> None:
        while not over.is_set():
            try:
                self.follow(over)
                self.fault = "it has ended"
            except OSError as why:
                self.fault = str(why)
            over.wait(5)

    def follow(self, over: threading.Event) -> None:
        descriptor = 0 if self.path == "-" else os.open(self.path, os.O_RDONLY | os.O_NONBLOCK)
        try:
            size = os.fstat(descriptor).st_size
            if self.path != "-" and size > TAIL:
                os.lseek(descriptor, size - TAIL, os.SEEK_SET)
            self.read(descriptor, over)
        finally:
            if descriptor:
                os.close(descriptor)

    def read(self, descriptor: int, over: threading.Event) -> None:
        rest = b""
        while not over.is_set():
            ready = select.select([descriptor], [], [], 1)[0]
            octets = os.read(descriptor, 1 << 16) if ready else b""
            if not octets:
                if ready and self.path == "-":
                    return
                self.look_for_another(descriptor)
                over.wait(0.5 if ready else 0)
                continue
            self.fault = ""
            *whole, rest = (rest + octets).split(b"\n")
            rest = rest[-4096:]
            for line in whole:
                self.take(line.decode("latin-1"), time.time())

    def look_for_another(self, descriptor: int) -> None:
        """A file that was put in its place, or made shorter, is read from its start."""
        if self.path == "-":
            return
        own, there = os.fstat(descriptor), os.stat(self.path)
        is_file = os.lseek(descriptor, 0, os.SEEK_CUR) if own.st_size else 0
        if own.st_ino != there.st_ino:
            raise FileNotFoundError(2, "it was put in its place", self.path)
        if there.st_size < is_file:
            os.lseek(descriptor, 0, os.SEEK_SET)

    def take(self, line: str, now: float) -> None:
        if mark := FEED.match(line):
            line = line[mark.end() :]
        if found := PUBLISHED.fullmatch(line):
            self.serial, self.time = int(found[1]), now
        elif found := SHOWN.fullmatch(line):
            self.serial, self.placed, self.unplaced = (int(found[n]) for n in (1, 2, 3))
            self.time = now
        elif line.startswith("refused commit"):
            self.dropped += 1


class FileSource(Source):
    """One server, of this host: its sockets, and what it says."""

    kind = "server"

    def __init__(
        self,
        every: float,
        log: str,
        local: Local,
        said: Said | None,
        serial: Callable[[], int | None],
    ) -> None:
        super().__init__(every)
        self.path, self.local, self.said, self.serial = Path(log), local, said, serial

    def look(self) -> Sight:
        sight = Sight(time.time())
        server = Server(self.local.name, "not looked at", "no --server says where it listens")
        if self.local.port:
            server.state, server.words = "there", ""
            self.local.add_to(server)
        if self.said is not None:
            self.add_said(server, self.said)
        sight.servers = [server]
        if server.is_bad:
            sight.advice.append(("silent", f"{server.name}: {server.words}"))
        add_drains(sight, drains.in_file(self.path))
        return sight

    def add_said(self, server: Server, said: Said) -> None:
        server.serial, server.time = said.serial, said.time
        server.placed, server.unplaced = said.placed, said.unplaced
        mirror = self.serial()
        if said.serial is not None and mirror is not None:
            server.behind = max(mirror - said.serial, 0)
            if server.behind and server.state == "there":
                server.state = "behind"
        if said.fault and not server.words:
            server.words = f"its output: {said.fault}"
