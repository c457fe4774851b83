"""A fleet in memory: etcd, hosts with a server and a follower each, and whatever may happen to them.

The followers are the real ones of glb_tools, and so are the log and the report. Faked are the members of etcd (a table of
keys with revisions and leases), the server (which has a map that follows from its base and all batches that it worked), and
the files of a host. At each call of a follower to the outside a fault can be planned: it ends ahead of the call or behind
it, or etcd does the call or not and does not answer.
"""

import base64
import errno
import functools
import hashlib
import json
from contextlib import redirect_stderr
from io import StringIO

from glb_tools import fleet, follow, follower
from glb_tools.etcd import Answer, Etcd, Item, NoLease, Unreachable, after, put
from glb_tools.log import (
    ALIVE,
    ASKED,
    LOOKED_BACK,
    NUMBER,
    Base,
    Entry,
    Log,
    Names,
    Signed,
    checksum_of,
    place_of,
    read_entry,
    with_place,
)
from glb_tools.options import Fault
from glb_tools.place import Identity
from glb_tools.server import Lost, Shown, Worked

CRASH_BEFORE, CRASH_AFTER, LOST_BEFORE, LOST_AFTER, FULL_DISK = (
    "crash before",
    "crash after",
    "lost before",
    "lost after",
    "full disk",
)
FAULTS = (CRASH_BEFORE, CRASH_AFTER, LOST_BEFORE, LOST_AFTER, FULL_DISK)
OPS = Signed("ops", time=1)


class Crash(BaseException):
    """The end of a process, by kill -9."""


@functools.lru_cache(None)
def decoded(text):
    return base64.b64decode(text).decode()


class Table:
    """What the members of etcd keep."""

    def __init__(self):
        self.revision, self.items, self.leases, self.given = 1, {}, {}, 0

    def copy(self):
        """A snapshot of etcd's own: leases begin anew when it is restored."""
        other = Table()
        other.revision, other.items, other.given = self.revision, dict(self.items), self.given
        other.leases = {lease: [seconds, seconds] for lease, (seconds, _) in self.leases.items()}
        return other

    def within(self, key, end):
        if end is None:
            return [self.items[key]] if key in self.items else []
        return [self.items[name] for name in sorted(self.items) if key <= name < end]

    def txn(self, parts, conditions):
        for compare in conditions:
            there = self.items.get(decoded(compare["key"]))
            if (there.revision if there else 0) != int(compare["mod_revision"]):
                return Answer(False, [], self.revision)
        for part in parts:
            lease = int(part.get("request_put", {}).get("lease", 0))
            if lease and lease not in self.leases:
                raise NoLease("requested lease not found")
        self.revision += any("request_range" not in part for part in parts)
        found = [self.part(*next(iter(part.items()))) for part in parts]
        return Answer(True, [items for items in found if items is not None], self.revision)

    def part(self, kind, request):
        key, end = decoded(request["key"]), request.get("range_end")
        if kind == "request_put":
            octets = base64.b64decode(request["value"])
            self.items[key] = Item(key, octets, self.revision, int(request.get("lease", 0)))
            return None
        found = self.within(key, None if end is None else decoded(end))
        if kind == "request_delete_range":
            for item in found:
                del self.items[item.key]
            return None
        if request.get("sort_order") == "DESCEND":
            found.reverse()
        return found[: request.get("limit")]

    def tick(self, seconds):
        for lease in list(self.leases):
            self.leases[lease][1] -= seconds
            if self.leases[lease][1] <= 0:
                self.end(lease)

    def grant(self, seconds):
        self.given += 1
        self.leases[self.given] = [seconds, seconds]
        return self.given

    def renew(self, lease):
        if lease in self.leases:
            self.leases[lease][1] = self.leases[lease][0]
        return lease in self.leases

    def end(self, lease):
        self.leases.pop(lease, None)
        self.items = {key: item for key, item in self.items.items() if item.lease != lease}


class Client(Etcd):
    """A process's way to etcd."""

    def __init__(self, world, outside):
        self.world, self.outside = world, outside

    def txn(self, parts, conditions=None):
        return self.reach(lambda: self.world.table.txn(parts, conditions or []))

    def reach(self, do):
        return self.outside.call(do, is_etcd=True)

    def lease(self, seconds):
        return self.reach(lambda: self.world.table.grant(seconds))

    def keep(self, lease):
        return self.reach(lambda: self.world.table.renew(lease))

    def end_lease(self, lease):
        self.reach(lambda: self.world.table.end(lease))


class Outside:
    """All calls of a process to the outside, with what is planned for one of them, by its number from 1: a fault, or what
    somebody else does right before it."""

    def __init__(self, world):
        self.world = world
        self.count, self.at, self.fault, self.cut_off = 0, 0, None, False

    def plan(self, at=0, fault=None):
        self.count, self.at, self.fault = 0, at, fault

    def call(self, do, is_etcd=False, is_disk=False):
        self.count += 1
        self.world.note_who_is_in()
        fault = self.fault if self.count == self.at else None
        if callable(fault):
            fault()
        if fault == CRASH_BEFORE:
            raise Crash
        if is_etcd and (fault == LOST_BEFORE or self.cut_off):
            raise Unreachable("lost")
        if is_disk and fault == FULL_DISK:
            raise OSError(errno.ENOSPC, "No space left on device")
        answer = do()
        if fault == CRASH_AFTER:
            raise Crash
        if is_etcd and fault == LOST_AFTER:
            raise Unreachable("lost")
        return answer


# A topology of the model: its names, a word each.


def topology_of(names, upto=0, chain="", salt=""):
    return with_place(f"names {' '.join(names)} {salt}".encode(), upto, chain)


def names_of(topology):
    return topology.split(b"names ")[1].decode().split(" ")[:-1]


def map_of(base, worked):
    """The map of a server: it follows from its base and the batches that it worked, in their order."""
    return hashlib.sha256(json.dumps([base, worked]).encode()).hexdigest()


def lines_left(lines, own, newest):
    """By the words of the definition: a line goes only where the newest base at the entry has its name, and the own not."""
    each = lines.splitlines(keepends=True)
    return "".join(
        line for line in each if not (line.split()[1] in newest and line.split()[1] not in own)
    )


def is_taken(lines, names):
    return all(line.split()[1] in names for line in lines.splitlines())


class Machine:
    """A server. Its follower's calls to it may be broken off; what was written it works."""

    version = "2"

    def __init__(self, topology, host):
        self.base, self.names = checksum_of(topology), names_of(topology)
        self.host, self.outside = host, host.outside
        self.worked, self.is_unread, self.has_no_memory = [], False, False
        # whether it was made to have another map than it should
        self.is_wrong = False
        self.is_alive = True

    @property
    def map(self):
        return map_of(self.base, self.worked)

    def shown(self):
        return Shown(len(self.worked), 0, 0)

    def find(self, idle):
        return self.outside.call(self.found)

    def found(self):
        unread, self.is_unread = self.is_unread, False
        return Worked(self.shown(), self.map if unread or not self.worked else None)

    def work(self, lines, idle):
        worked = self.outside.call(lambda: self.take(lines))
        self.is_unread = False
        return worked

    def take(self, lines):
        if self.has_no_memory:
            self.has_no_memory = False
            return Worked(self.shown(), no_memory=True)
        if not is_taken(lines, self.names):
            return Worked(self.shown(), dropped="refused 1 unknown name")
        self.worked, self.is_unread = [*self.worked, lines], True
        return Worked(self.shown(), self.map)

    def show(self, idle):
        return self.shown()

    def stop(self):
        self.outside.call(self.die)

    def die(self):
        self.host.world.check_stop(self.host)
        self.is_alive = False


class Place:
    """The folder of a server that runs."""

    def __init__(self, outside):
        self.outside, self.kept, self.topology = outside, None, None

    def identity(self):
        return self.kept

    def keep(self, identity):
        self.outside.call(lambda: setattr(self, "kept", identity), is_disk=True)

    def begun_from(self):
        return checksum_of(self.topology)

    def prepare(self, topology, identity):
        self.kept, self.topology = identity, topology


class Bases:
    """The folder of topologies."""

    def __init__(self, outside):
        self.outside, self.files, self.choice = outside, {}, None

    def topology(self, checksum):
        return self.files.get(checksum)

    def put(self, checksum, octets):
        self.outside.call(lambda: self.files.update({checksum: octets}), is_disk=True)

    def chosen(self):
        return self.choice

    def choose(self, checksum):
        self.outside.call(lambda: setattr(self, "choice", checksum), is_disk=True)

    def prune(self, kept):
        pass

    def refused(self, checksum):
        return None

    def program_checksum(self):
        return "program"


class Hooks:
    """Lets queries in, and keeps them out."""

    ready, unready = True, False

    def __init__(self, host):
        self.host = host

    def run(self, command):
        self.host.outside.call(lambda: self.host.let_in(command))


class Host:
    """One server of the fleet, and what its units do."""

    def __init__(self, world, name):
        self.world, self.name, self.outside = world, name, Outside(world)
        self.place, self.bases = Place(self.outside), Bases(self.outside)
        self.machine = self.follower = None
        # whether queries are let in, when they were last, and when its follower asked the others
        self.is_in, self.last_in, self.asked_at = False, 0, 0

    def let_in(self, is_in):
        if is_in and not self.is_in:
            self.world.check_ready(self)
        self.is_in = is_in

    def log(self):
        log = Log(Client(self.world, self.outside), "glb")
        ask = log.ask

        def noted(*words):
            self.asked_at = self.world.moment
            return ask(*words)

        log.ask = noted
        return log

    def start_by_hand(self):
        """Somebody ends the server, and starts it where it ran, past its unit."""
        if self.machine:
            self.server_ends()
            self.machine = Machine(self.place.topology, self)
            self.world.ask()

    def edit_by_hand(self):
        """The same, over a copy of the topology that was edited."""
        if self.machine:
            self.place.topology += b"edited "
            self.start_by_hand()

    def lose_memory(self):
        if self.machine:
            self.machine.has_no_memory = True

    def go_wrong(self):
        if self.machine and self.machine.worked:
            self.machine.worked[-1], self.machine.is_wrong = "wrong", True

    def lose_files(self):
        self.bases.files.clear()
        self.bases.choice = None

    def follower_ends(self):
        """As glb-follow@ has it: whatever ends the follower, queries are kept out."""
        self.follower, self.is_in = None, False

    def server_ends(self):
        """As glb-fleet@ and glb-follow@ have it: the follower ends with the server."""
        self.machine = None
        self.follower_ends()

    def run(self, at=0, fault=None):
        """What comes next here: a start of the server, of its follower, or a step of that one. Whether it did something."""
        self.outside.plan(at, fault)
        self.last, self.listed = self.world.entries()[-1].number, self.world.listed()
        if not self.follower or not self.follower.asks:
            self.asked_at = self.world.moment
        try:
            with redirect_stderr(StringIO()):
                return self.go_on()
        except Crash:
            self.follower_ends()
        except follower.Over:
            self.follower_ends()
        except Lost:
            self.follower_ends()
            return False
        except (Fault, OSError):
            return False
        finally:
            if self.machine and not self.machine.is_alive:
                self.server_ends()
        return True

    def go_on(self):
        if self.machine is None:
            self.is_in = False
            follow.prepare(self.name, self.log(), self.place, self.bases)
            self.machine = Machine(self.place.topology, self)
        elif self.follower is None:
            hooks = Hooks(self)
            made = follower.Follower(
                self.name, self.log(), self.machine, self.place, self.bases, hooks
            )
            self.follower = made
            made.begin()
        else:
            return self.step()
        return True

    def step(self):
        """As `follow` does it: what does not let it go on is told, and the server answers on."""
        try:
            return self.follower.step()
        except Lost:
            raise
        except (Fault, OSError) as why:
            self.follower.hold_up(str(why))
            return False


@functools.lru_cache(None)
def entry_of(item):
    return read_entry(int(item.name), item.octets)


class Clock:
    """The time of the model: who sleeps lets it go by."""

    def __init__(self, world):
        self.world, self.now = world, 1000.0

    def monotonic(self):
        return self.now

    time = monotonic

    def sleep(self, seconds):
        self.world.tick(seconds)


class World:
    def __init__(self, hosts=2):
        self.table, self.snapshot, self.made = Table(), None, 0
        self.hosts, self.topologies, self.before = [], {}, {}
        # what glb-fleet asked last, and how often a server was told to be there
        self.asked, self.seen_there = "", 0
        self.clock = follow.time = follower.time = Clock(self)
        self.moment = 0
        self.log = Log(Client(self, Outside(self)), "glb")
        self.roll(["A"])
        self.hosts = [Host(self, f"h{number}") for number in range(hosts)]

    # What operators do.

    def ident(self):
        self.made += 1
        return f"id{self.made}"

    def append(self, lines):
        """A batch, as a client would that checks nothing."""
        return self.log.append(self.ident(), OPS, lines, lambda names: None)

    def raw(self, octets=b"stop\n"):
        self.log.etcd.txn([put(self.log.key(self.log.look().last + 1), octets)])

    def forge(self):
        """Puts a batch once more by hand, as it stands in the log."""
        batches = [entry for entry in self.entries() if entry.kind == "batch"]
        if batches:
            self.raw(batches[-1].octets)

    def take_raw(self):
        """Deletes the last entry where it was put by hand."""
        last = self.entries()[-1]
        if last.kind == "none":
            del self.table.items[self.log.key(last.number)]

    def roll(self, names, back=0):
        """A base with the numbers up to so many entries before the last one."""
        look = self.log.look()
        upto = max(look.last - back, look.first - 1 if look.first > 1 else 0, 0)
        there = self.log.entry(upto) if upto else None
        topology = topology_of(
            names, upto if there else 0, there.checksum if there else "", self.ident()
        )
        self.put_base(topology)

    def put_base(self, topology):
        checksum, names = checksum_of(topology), names_of(topology)
        self.topologies[checksum] = topology
        self.log.put_file("names", checksum, Names(names, names).octets())
        self.log.put_file("file", checksum, topology)
        return self.log.append_base(self.ident(), OPS, topology)

    def go_back(self):
        """The base before the newest one, once more."""
        bases = self.log.look().bases
        others = [base for base in bases if base.checksum != bases[-1].checksum]
        if others and (topology := self.log.topology(others[-1].checksum)):
            self.log.append_base(self.ident(), OPS, topology)

    def cut(self):
        from glb_tools.append import cut

        try:
            cut(self.log)
        except Fault:
            pass

    def forget_gone(self):
        """As `glb-fleet --forget` does, of the servers that nothing is heard of."""
        look = self.log.look()
        for name in look.servers.keys() - look.states.keys():
            self.log.forget(name)

    def save(self):
        self.snapshot = self.table.copy()

    def restore(self):
        if self.snapshot:
            self.table = self.snapshot.copy()
            self.ask()

    def ask(self):
        """As glb-fleet does first of all."""
        self.asked = self.ident()
        there = self.table.items.get("glb/look")
        words = [self.asked, *(there.octets.decode().split() if there else [])]
        self.log.etcd.txn([put("glb/look", " ".join(words[:ASKED]))])

    def tick(self, seconds=ALIVE + 5):
        """Time goes by; followers that live and reach etcd keep their leases."""
        self.clock.now += seconds
        for host in self.hosts:
            if host.follower and not host.outside.cut_off:
                follower = host.follower
                for lease in (follower.lease, follower.turn_lease):
                    if lease in self.table.leases:
                        self.table.leases[lease][1] += seconds
                if follower.lease not in self.table.leases:
                    follower.lease, follower.told = None, {}
                if follower.turn_lease not in self.table.leases:
                    follower.turn_lease = None
        self.table.tick(seconds)
        for host in self.hosts:
            if host.follower and not host.outside.cut_off:
                for lease in (host.follower.lease, host.follower.turn_lease):
                    if lease in self.table.leases:
                        self.table.leases[lease][1] = self.table.leases[lease][0]

    # What has to hold.

    def entries(self):
        """The log itself, read off the table."""
        start = self.log.at("log", "")
        items = self.table.within(start, after(start))
        found = [entry_of(item) for item in items if NUMBER.fullmatch(item.name)]
        for number, (before, entry) in enumerate(zip(found, found[1:]), 1):
            self.before[entry.number, entry.checksum] = before
            if entry.kind != "none" and entry.before != before.checksum:
                found[number] = Entry(entry.number, entry.octets, "none")
        return found

    def history(self):
        """The log with what was cut off it."""
        found = self.entries()
        while found and (before := self.before.get((found[0].number, found[0].checksum))):
            found.insert(0, before)
        return found

    def due(self, checksum, last):
        """What a server of a base has worked at an entry, by the words of the definition: its batches, and the numbers of
        those that it dropped whole."""
        topology = self.topologies[checksum]
        upto, own = place_of(topology)[0], names_of(topology)
        newest, worked, dropped = own, [], []
        for entry in self.history():
            if entry.number > last:
                break
            if entry.kind == "base":
                newest = names_of(self.topologies[entry.base.checksum])
            elif entry.number > upto:
                lines = lines_left(entry.lines, own, newest)
                if entry.kind == "none" or not is_taken(lines, own):
                    dropped.append(entry.number)
                elif lines:
                    worked.append(lines)
        return worked, dropped

    def report(self):
        return fleet.report(self.log, self.log.look(), frozenset({self.asked} - {""}))

    def note_who_is_in(self):
        """Which hosts let queries in, at the moments between calls to the outside."""
        self.moment += 1
        for host in self.hosts:
            if host.is_in:
                host.last_in = self.moment

    def listed(self):
        return {item.name for item in self.table.within("glb/server/", "glb/server0")}

    def were_in(self, host):
        """Whether each other server of the list let queries in, at a moment since the host asked for it."""
        others = (self.listed() & host.listed) - {host.name}
        return all(other.last_in >= host.asked_at for other in self.hosts if other.name in others)

    def right_map(self, base, number):
        return map_of(base, self.due(base, number)[0])

    def check(self):
        """Whoever is told to be there serves the map of the newest entry; and each follower knows where its server is."""
        found = self.report()
        for server in found.servers:
            host = next(host for host in self.hosts if host.name == server["name"])
            if server["state"] == "there" and host.machine and not host.machine.is_wrong:
                self.seen_there += 1
                right = self.right_map(found.base, found.last)
                assert host.machine.map == right, f"{host.name} is told to be there, and is not"
        for host in self.hosts:
            self.check_identity(host)
        return found

    def check_identity(self, host):
        if not host.follower or not host.machine or host.follower.broken or host.machine.is_wrong:
            return
        identity, entries = host.follower.identity, {
            entry.number: entry for entry in self.entries()
        }
        upto = place_of(self.topologies[host.machine.base])[0]
        if all(number in entries for number in range(upto + 1, identity.entry + 1)):
            row = [*identity.row, identity.chain]
            numbers = range(identity.entry - len(identity.row), identity.entry + 1)
            there = [entries[number].checksum for number in numbers if number in entries]
            if there == row and host.machine.base == identity.base:
                right = self.right_map(host.machine.base, identity.entry)
                assert host.machine.map == right, f"{host.name} is not where its follower has it"

    def check_ready(self, host):
        """Queries are let in only to a server that has worked all entries that there were."""
        identity = host.follower.identity
        assert identity.entry >= self.last_of(host), f"{host.name} lets queries in too early"
        assert host.machine.is_wrong or host.machine.map == self.right_map(
            host.machine.base, identity.entry
        )

    def last_of(self, host):
        return min(host.last, self.entries()[-1].number)

    def check_stop(self, host):
        """A server is stopped in its turn, with queries kept out, and for another base only where all others are there."""
        turn = self.table.items.get("glb/turn")
        assert (
            turn and json.loads(turn.octets)["server"] == host.name
        ), f"{host.name} stops out of its turn"
        assert not host.is_in, f"{host.name} stops with queries let in"
        follower = host.follower
        if (
            follower.broken is None
            and host.bases.choice != host.machine.base
            and not host.machine.is_wrong
        ):
            assert self.were_in(host), f"{host.name} goes over though another one is not there"

    def check_end(self, found):
        """What has to be when nothing happens any more: all are there, or it is said why not."""
        wrong = [host.name for host in self.hosts if host.machine and host.machine.is_wrong]
        if wrong:
            assert found.status == fleet.DIFFER or wrong == [host.name for host in self.hosts]
            assert len(self.hosts) < 3 or len(wrong) > 1, f"{wrong} did not begin anew"
            return
        left = [words for _, words in found.advice if "dropped" not in words]
        assert not left, left
        assert all(host.is_in for host in self.hosts)
        due = self.due(found.base, found.last)[1]
        missed = {at for at in due if at > found.last - LOOKED_BACK} - set(found.dropped)
        assert not missed, f"nobody says that {missed} were dropped"

    def mend(self):
        """As followers and glb-append advise: of too many keys in a row that were put by hand the last ones go."""
        while True:
            look = self.log.look()
            try:
                return self.log.check_end(look)
            except Fault:
                del self.table.items[self.log.key(look.last)]

    def settle(self, rounds=15):
        """What comes of it when nothing more happens than one batch."""
        self.mend()
        self.append("demand A 3\n")
        for host in self.hosts:
            host.outside.cut_off = False
        for _ in range(rounds):
            for left in range(6, 0, -1):
                if not any([host.run() for host in self.hosts]):
                    # until time has gone by they have nothing to do
                    self.tick(left)
                    break
                self.tick(1)
            self.ask()
            for host in self.hosts:
                host.run()
            if self.report().status == 0 and all(host.is_in for host in self.hosts):
                break
            self.tick(10)
        return self.check()
