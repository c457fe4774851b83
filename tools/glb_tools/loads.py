"""What stands where in the newest map, for the exporter: a `glb` of its own works the log beside the servers.

The servers of a fleet tell checksums of their maps, and no loads: a map has up to 256 MiB. So the exporter starts `glb
serve` at a port of the loopback that nobody asks, a shadow, hands it the batches, and sums up the newest map. No server
waits for it, or has to be reached by it.
"""

import os
import re
import shutil
import subprocess
import tempfile
import threading
import time
from dataclasses import dataclass, field
from hashlib import sha256
from pathlib import Path
from typing import BinaryIO, NoReturn

from glb_tools.etcd import Unreachable
from glb_tools.history import handed
from glb_tools.log import Base, Entry, Log, Look
from glb_tools.options import Fault, tell
from glb_tools.plan import program_fault
from glb_tools.server import END
from glb_tools.text import Replay
from glb_tools.topology import Topology

# how long a program may take for its first map, or for one batch, in seconds
PATIENCE = 120.0
# how long nothing is tried where it failed, and how seldom the log is looked at, in seconds
AGAIN, SELDOM = 30.0, 5.0
# how many octets of maps are read at once
PIECE = 1 << 20


@dataclass
class Loads:
    """What the newest map comes to."""

    # by name, the units at each node and its capacity
    nodes: dict[str, tuple[int, int]]
    # by pool of last resort, the units there
    last_resort: dict[str, int]
    demand: int
    placed: int
    # groups and classes of which nothing is placed
    unserved: int
    # which entry of the log, or which published batch it is
    entry: int = 0
    took: float = 0.0
    time: float = field(default_factory=time.time)


class World:
    """Of a topology what loads are summed up by: its nodes, and the demands of its units."""

    def __init__(self, topology: Topology) -> None:
        self.unit_at, self.node_at = topology.unit_at, topology.node_at
        self.parents = [node.parent for node in topology.nodes]
        self.capacities = [node.capacity for node in topology.nodes]
        self.demands = [unit.demand for unit in topology.units]
        self.last_resort = topology.last_resort()
        self.replay = Replay(self)

    def work(self, lines: str) -> None:
        """Takes the numbers of a batch, where none of its lines is refused."""
        self.replay.take(lines.encode("latin-1", errors="replace") + b"commit\n")
        for (word, number), value in self.replay.numbers.items():
            (self.demands if word == "demand" else self.capacities)[number] = value
        self.replay.numbers.clear()
        self.replay.dropped.clear()

    def loads(self, text: bytes, entry: int = 0) -> Loads:
        """The sums of a map: its `place` lines stand ahead of all others."""
        began = time.monotonic()
        load, served = [0] * len(self.parents), set()
        at = text.find(b"\n") + 1
        while text.startswith(b"place ", at):
            end = text.find(b"\n", at)
            _, unit, pool, units = text[at:end].decode("latin-1").split(" ")
            load[self.node_at[pool]] += int(units)
            served.add(unit)
            at = end + 1
        placed = sum(load)
        # a parent stands ahead of what is under it
        for number in range(len(load) - 1, -1, -1):
            parent = self.parents[number]
            if parent is not None:
                load[parent] += load[number]
        names = list(self.node_at)
        return Loads(
            {name: (load[n], self.capacities[n]) for n, name in enumerate(names)},
            {names[pool]: load[pool] for pool in self.last_resort},
            sum(self.demands),
            placed,
            len(self.demands) - len(served),
            entry,
            time.monotonic() - began,
        )


class Shadow:
    """A `glb serve` that nobody asks: it works batches, and its newest map's text is kept."""

    def __init__(self, program: str, topology: bytes, world: World | None = None) -> None:
        self.world = world or World(Topology(topology))
        self.text, self.maps = b"", 0
        self.came = threading.Condition()
        self.folder = tempfile.mkdtemp(prefix="glb-shadow.")
        try:
            path = Path(self.folder, "topology.toml")
            path.write_bytes(topology)
            try:
                self.process = subprocess.Popen(
                    [program, "serve", str(path), "--listen", "127.0.0.1:0"],
                    stdin=subprocess.PIPE,
                    stdout=subprocess.PIPE,
                    stderr=subprocess.PIPE,
                )
            except OSError as why:
                raise Fault(program_fault(program, why)) from None
            self.reader = threading.Thread(target=self.read, daemon=True)
            self.reader.start()
            self.wait_for_map(0)
        finally:
            # it is read once, at the start
            shutil.rmtree(self.folder, ignore_errors=True)

    def read(self) -> None:
        """Keeps the newest whole text."""
        assert self.process.stderr
        descriptor, rest = self.process.stderr.fileno(), bytearray()
        while piece := os.read(descriptor, PIECE):
            # the end may stand across two pieces
            start = max(len(rest) - len(END), 0)
            rest += piece
            while (end := rest.find(END, start)) >= 0:
                end += len(END)
                with self.came:
                    self.text, self.maps = bytes(rest[:end]), self.maps + 1
                    self.came.notify()
                del rest[:end]
                start = 0

    def wait_for_map(self, serial: int) -> None:
        """Waits for the text of the map with that serial, which the program puts ahead of its line."""
        end = time.monotonic() + PATIENCE
        with self.came:
            while self.maps <= serial:
                self.came.wait(1)
                if not self.reader.is_alive() or time.monotonic() > end:
                    break
        if self.maps <= serial:
            self.fail(f"no map {serial} came")

    def fail(self, why: str) -> NoReturn:
        self.end()
        raise Fault(f"the shadow: {why} (status {self.process.returncode})")

    def work(self, lines: str) -> bytes:
        """Works a batch, and says the line that answered it: whatever its lines are, it is answered."""
        # a program that hangs is ended, and has ended then
        ends = threading.Timer(PATIENCE, self.process.kill)
        ends.start()
        try:
            answer = self.answer(lines)
        except OSError as why:
            self.fail(str(why))
        finally:
            ends.cancel()
        if answer.startswith(b"published "):
            # the text of a map is put ahead of its line
            self.wait_for_map(int(answer.split()[1]))
            self.world.work(lines)
        elif b"memory" in answer:
            self.fail("it had no memory for a batch")
        elif not answer:
            self.fail("it has ended")
        return answer

    def answer(self, lines: str) -> bytes:
        """The line that answers a batch; nothing where the program has ended."""
        assert self.process.stdin and self.process.stdout
        self.process.stdin.write(lines.encode("latin-1", errors="replace") + b"commit\n")
        self.process.stdin.flush()
        while line := self.process.stdout.readline():
            if line.startswith((b"published ", b"refused commit")):
                return line
        return b""

    def loads(self, entry: int) -> Loads:
        return self.world.loads(self.text, entry)

    def end(self) -> None:
        self.process.kill()
        self.process.wait()
        self.reader.join()
        for stream in (self.process.stdin, self.process.stdout, self.process.stderr):
            if stream:
                try:
                    stream.close()
                except OSError:
                    pass


class Over(Exception):
    """Nobody asks for loads any more."""


@dataclass
class Taken:
    """A batch of the log that the program beside has worked, or that had no line for it."""

    # which entry of the log, or which batch of the file, and what stands for all up to it
    number: int
    mark: str
    lines: str
    # the line that answered it; nothing where nothing was handed on
    answer: bytes = b""
    # of a fleet
    entry: Entry | None = None
    # how many stand behind it, as far as is known
    left: int = 0


class Worker:
    """Works a log beside the servers, and begins anew where that fails."""

    def __init__(self, program: str, every: float) -> None:
        self.program, self.every = program, every
        self.over = threading.Event()
        # the newest loads, and whether they are kept up to date
        self.loads: Loads | None = None
        self.is_up = False
        # why it began anew, or waits, the last time
        self.fault = ""

    def run(self) -> None:
        while not self.over.is_set():
            try:
                self.follow()
            except Over:
                pass
            except Exception as why:
                # whatever it is: a thread that has ended would serve old values for ever
                tell(why)
                self.is_up, self.loads, self.fault = False, None, str(why)
                self.over.wait(AGAIN)

    def rest(self, seconds: float) -> None:
        if self.over.wait(seconds):
            raise Over

    def follow(self) -> None:
        """Works the log for ever; it ends by a fault, or where the log begins anew."""
        raise NotImplementedError

    def shadow(self, topology: bytes) -> Shadow:
        """Who works the batches behind a topology."""
        return Shadow(self.program, topology)

    def took(self, shadow: Shadow, taken: Taken) -> None:
        """Is told of each batch; loads are those of the newest map alone."""

    def sum_up(self, shadow: Shadow, entry: int) -> None:
        """Sums up the newest map; of a large one seldom, so that it takes a tenth of the time at most."""
        loads = shadow.loads(entry)
        self.loads, self.is_up = loads, True
        self.rest(9 * loads.took)


class FileWorker(Worker):
    """Works a log that is a file, as glb-feed hands it to a server."""

    def __init__(self, program: str, every: float, topology: str, log: str) -> None:
        super().__init__(program, every)
        self.topology, self.path = Path(topology), Path(log)

    def follow(self) -> None:
        was = file_at(self.topology)
        shadow = self.shadow(self.topology.read_bytes())
        try:
            with open(self.path, "rb") as file:
                self.follow_file(shadow, was, file)
        finally:
            shadow.end()

    def follow_file(self, shadow: Shadow, topology: tuple[int, ...], file: BinaryIO) -> None:
        rest, entry, is_new, mark = b"", 0, True, sha256()
        while True:
            piece = file.read(PIECE)
            *batches, rest = split_at_commits(rest + piece)
            for batch in batches:
                lines = batch.decode("latin-1")
                mark.update(batch + b"commit\n")
                answer = shadow.work(lines)
                entry, is_new = entry + 1, True
                self.took(shadow, Taken(entry, mark.hexdigest(), lines, answer))
            if piece:
                continue
            if is_new:
                self.sum_up(shadow, entry)
                is_new = False
            self.rest(min(self.every, SELDOM))
            if file_at(self.topology) != topology:
                raise Fault(f"{self.topology} is another one: the log is worked anew")
            there, own = os.stat(self.path), os.fstat(file.fileno())
            if there.st_ino != own.st_ino or there.st_size < file.tell():
                raise Fault(f"{self.path} was put in its place or made shorter: it is worked anew")


def file_at(path: Path) -> tuple[int, ...]:
    """By what a file is known that may be put in its place or written anew."""
    found = os.stat(path)
    return found.st_ino, found.st_mtime_ns, found.st_size


COMMIT, STOP = re.compile(rb"(?m)^ *commit *\n"), re.compile(rb"(?m)^ *stop *\n")


def split_at_commits(octets: bytes) -> list[bytes]:
    """The batches without their commits, and what stands behind the last one. A line `stop` is left out, as by glb-feed."""
    *batches, rest = COMMIT.split(octets)
    return [STOP.sub(b"", batch) for batch in batches] + [rest]


class FleetWorker(Worker):
    """Works the log of a fleet from its newest base on."""

    def __init__(self, program: str, every: float, log: Log) -> None:
        super().__init__(program, every)
        self.log = log

    def follow(self) -> None:
        newest = self.log.newest_base()
        topology = self.log.topology(newest.checksum)
        if topology is None:
            raise Fault(f"the topology of {newest} is not in etcd")
        shadow = self.shadow(topology)
        try:
            self.follow_from(shadow, newest)
        finally:
            shadow.end()

    def follow_from(self, shadow: Shadow, base: Base) -> None:
        """Works the entries behind a base, until there is a newer one: then it goes over, at once."""
        entry, chain, summed, when = base.upto, base.chain, -1, time.monotonic()
        while (look := self.look(entry)) is None or look.newest == base:
            if look is None:
                summed = -1
                self.rest(min(self.every, SELDOM))
                continue
            new = behind(look, entry, chain)
            for found in new:
                lines = handed(self.log, look, base, found)
                answer = shadow.work(lines) if lines else b""
                entry, chain = found.number, found.checksum
                left = look.last - entry
                self.took(shadow, Taken(entry, chain, lines, answer, found, left))
            # now and then also where entries come without an end
            if summed != entry and (not new or time.monotonic() - when > self.every):
                self.sum_up(shadow, entry)
                summed, when = entry, time.monotonic()
            if not new:
                self.rest(min(self.every, SELDOM))

    def look(self, entry: int) -> Look | None:
        """What stands behind an entry; nothing where no member answers: then it waits where it is, as servers do."""
        try:
            return self.log.look(max(entry, 1))
        except Unreachable as why:
            tell(why)
            self.is_up, self.fault = False, str(why)
            return None


def behind(look: Look, entry: int, chain: str) -> list[Entry]:
    """The entries behind one that was worked; a fault where the log has another one there."""
    if not entry:
        return look.entries
    if not look.entries or look.entries[0].checksum != chain:
        raise Fault(f"entry {entry} of the log is not the one that was worked")
    return look.entries[1:]
