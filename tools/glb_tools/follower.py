"""The follower of the log of batches, for one server.

It begins by finding out how far the server is, from what is kept beside it, and goes on only where the log has the entry
that the server worked last, with the checksum that it had. Else the server is stopped and begins anew from the newest
base, one server of the fleet at a time; and so it is where the newest base is another one, once all others are there.
"""

import collections
import time
from collections.abc import Callable, Collection
from dataclasses import replace
from typing import Any, Protocol

from glb_tools.etcd import NoLease
from glb_tools.hooks import Canary, Hooks, say
from glb_tools.log import (
    ALIVE,
    ANEW,
    BASE,
    LOOKED_BACK,
    MOST_BY_HAND,
    NONE,
    PAGE,
    TURN,
    Asker,
    Base,
    Entry,
    Log,
    Look,
    gap,
    left_in,
    many_by_hand,
    maps_of,
    spot_of,
    without_base,
)
from glb_tools.options import Fault
from glb_tools.place import Bases, Identity, Place
from glb_tools.server import Lost, Shown, Worked

# of how many maps checksums are told, and how many of their letters
MOST_MAPS, LETTERS = 8, 16
# how long a server may be silent until it hangs; and how long one that began anew for its map is not begun anew for it
HANGS, ONCE = 10, 3600
# how long nothing is told of a server that catches up, in seconds
PAUSE = 0.5
# how long others have to answer whether they are there, in seconds
PATIENT = 5


class Over(Exception):
    """The server was stopped: it begins anew, and its follower with it."""


class Answers(Protocol):
    """What a follower needs of a server."""

    @property
    def version(self) -> str | None:
        ...

    def find(self, idle: Callable[[], None]) -> Worked:
        ...

    def work(self, lines: str, idle: Callable[[], None]) -> Worked:
        ...

    def show(self, idle: Callable[[], None]) -> Shown:
        ...

    def stop(self) -> None:
        ...


class Follower:
    """One step of it looks into etcd once, works what is new, and says whether there may be more at once."""

    def __init__(
        self, name: str, log: Log, server: Answers, place: Place, bases: Bases, hooks: Hooks
    ) -> None:
        self.name, self.log, self.server = name, log, server
        self.place, self.bases, self.hooks = place, bases, hooks
        self.canary = Canary()
        self.lease: int | None = None
        self.turn_lease: int | None = None
        # when the leases were kept, the server asked, and the state told, the last time
        self.kept = self.asked = self.told_at = 0.0
        self.told: dict[str, Any] = {}
        # whether there may be batches that it dropped and nobody was told of
        self.untold = True
        self.shown = Shown(0, 0, 0)
        # by number and checksum of entries, the last maps' checksums
        self.maps: collections.OrderedDict[str, str] = collections.OrderedDict()
        # whether queries are let in, and when that was done
        self.is_ready, self.ready_at = False, 0.0
        # how far it was looked into etcd, and what glb-fleet asked
        self.revision, self.heard = 0, ""
        # what this follower asked all others, and when
        self.asks: Asker | None = None
        self.asked_at = 0.0
        # why the server has to begin anew; what it waits for; which base is here that is not its own
        self.broken: str | None = None
        self.waits: str | None = None
        self.has: str | None = None
        # how many workers the server was started with, where that is known
        self.workers: int | None = None
        # the bases that are here, and that its program takes
        self.taken: set[str] = set()
        self.identity = place.identity() or Identity("", "", "", 0, "")

    # What is told.

    def state(self) -> dict[str, Any]:
        identity = self.identity
        state = {
            "base": identity.base[:LETTERS],
            "program": identity.program[:LETTERS],
            "run": identity.run,
            "entry": identity.entry,
            "chain": identity.chain[:LETTERS],
            "serial": self.shown.serial,
            "placed": self.shown.placed,
            "unplaced": self.shown.unplaced,
            "maps": dict(self.maps),
            "ready": self.is_ready,
        }
        more = {
            "version": self.server.version,
            "waits": self.waits,
            "has": self.has,
            "workers": self.workers,
            "heard": self.heard,
        }
        return state | {key: value for key, value in more.items() if value}

    def tell(self, more: dict[str, Any] | None = None) -> None:
        """Tells the state where it is news, and the batches that were dropped, where the log is known to have them.
        Without a majority a later call does."""
        state = self.state() | (more or {})
        base, dropped = self.identity.base, self.identity.dropped
        if not self.untold or more or self.broken:
            dropped = {}
        if state == self.told and not dropped:
            return
        notes = {
            int(number): {"server": self.name, "base": base, "why": why}
            for number, why in dropped.items()
        }
        try:
            if self.lease is None:
                self.lease, self.kept = self.log.etcd.lease(ALIVE), time.monotonic()
            self.log.tell(self.name, state | {"time": int(time.time())}, self.lease, notes)
            self.told, self.told_at = state, time.monotonic()
            self.untold = self.untold and not notes
        except NoLease:
            self.lease = None
        except Fault:
            pass

    def hold_up(self, why: str) -> None:
        """Tells why it cannot go on now. Its server answers on, as it does for one who is cut off."""
        self.waits = why
        self.tell()
        self.idle(silent=False)

    def idle(self, silent: bool = True) -> None:
        """Keeps what is told and the turn, whatever else happens; a server that is silent for long is told of."""
        now = time.monotonic()
        if silent and now - self.asked > HANGS:
            self.tell({"hangs": int(now - self.asked)})
        if now - self.kept < ALIVE / 3:
            return
        self.kept = now
        try:
            if self.lease is not None and not self.log.etcd.keep(self.lease):
                self.lease, self.told = None, {}
            if self.turn_lease is not None and not self.log.etcd.keep(self.turn_lease):
                self.turn_lease = None
        except Fault:
            pass

    # How far the server is.

    def begin(self) -> None:
        """Finds out how far the server is, by what was kept beside it."""
        self.asked = time.monotonic()
        found, identity = self.server.find(self.idle), self.place.identity()
        self.shown = found.shown
        if identity is None:
            self.broken = "nobody knows what it was started from"
            return
        if self.place.begun_from() != identity.base:
            self.broken = "it did not begin from its base, or the copy of that was edited"
            return
        serial, checksum = found.shown.serial, found.map or identity.map
        if serial == identity.serial + 1 and identity.next_entry and identity.next_chain:
            # the entry that it was handed last is worked
            identity = replace(
                identity, entry=identity.next_entry, chain=identity.next_chain, row=[]
            )
            checksum = found.map
        elif serial != identity.serial:
            self.broken = f"it has published {serial} batches, and not {identity.serial}"
        self.identity = replace(
            identity, serial=serial, map=checksum, next_entry=None, next_chain=None
        )
        self.note(checksum)

    def step(self) -> bool:
        identity = self.identity
        row = len(identity.row)
        look = self.log.look(max(identity.entry - row, 1), PAGE + row)
        self.revision = look.revision
        if self.name not in look.servers:
            self.register()
        if look.asked and look.asked[0] != self.heard:
            self.see()
            self.heard = look.asked[0]
        self.keep_turn(look)
        self.broken = self.broken or self.breaks(look)
        if self.broken:
            self.fetch_ahead(look)
            self.begin_anew(look, self.broken, self.due_base(look))
            return False
        self.record(look)
        new = look.entries[row + 1 :] if identity.entry else look.entries
        before = self.identity
        for entry in new:
            if entry.kind == NONE and len(self.identity.row) >= MOST_BY_HAND:
                # behind it its identity would not say all that stands before it
                break
            self.work(entry, look)
            if self.broken:
                # nothing behind it may be worked
                return True
            self.idle(silent=False)
            if time.monotonic() - self.told_at > PAUSE:
                self.tell()
        if self.identity is not before:
            self.tell()
            return True
        self.settle(look)
        return False

    def breaks(self, look: Look) -> str | None:
        """Why the server cannot go on behind its last entry."""
        identity = self.identity
        if not any(base.checksum == identity.base for base in look.bases):
            return f"its base {identity.base[:12]} is none of this log"
        if not identity.entry:
            return "the log does not begin with entry 1 any more" if look.first > 1 else None
        if look.first > identity.entry - len(identity.row):
            return f"entry {identity.entry}, its last one, is cut away"
        if look.last < identity.entry:
            return f"the log ends at entry {look.last}, before its last one, {identity.entry}"
        if not self.is_in(look):
            return f"entry {identity.entry} of the log is not the one that it worked"
        return None

    def is_in(self, look: Look) -> bool:
        """Whether the log has its last entry, and in front of that the same ones."""
        row = [*self.identity.row, self.identity.chain]
        return [entry.checksum for entry in look.entries[: len(row)]] == row

    # Entry by entry.

    def work(self, entry: Entry, look: Look) -> None:
        """Works an entry. What it is goes to the disk before the server is handed it."""
        lines = self.lines_of(entry, look)
        identity = self.identity
        following = replace(identity, next_entry=entry.number, next_chain=entry.checksum)
        worked = None
        if lines:
            self.place.keep(following)
            self.asked = time.monotonic()
            worked = self.server.work(lines, self.idle)
            self.take(entry, worked)
        if self.broken:
            return
        checksum = worked.map if worked and not worked.dropped else identity.map
        by_hand = entry.kind == NONE and identity.entry
        self.identity = replace(
            self.identity,
            entry=entry.number,
            chain=entry.checksum,
            serial=self.shown.serial,
            map=checksum,
            row=[*identity.row, identity.chain] if by_hand else [],
        )
        if not lines:
            self.place.keep(self.identity)
        self.note(checksum)

    def note(self, checksum: str | None) -> None:
        """What map the server has at its last entry."""
        if checksum:
            self.maps[spot_of(self.identity.entry, self.identity.chain)] = checksum[:LETTERS]
            while len(self.maps) > MOST_MAPS:
                self.maps.popitem(last=False)

    def take(self, entry: Entry, worked: Worked) -> None:
        """What came of a batch."""
        if worked.no_memory:
            self.broken = f"it dropped entry {entry.number} for want of memory"
        elif worked.dropped:
            self.drop(entry, worked.dropped)
        elif worked.shown.serial != self.identity.serial + 1:
            self.broken = f"at entry {entry.number} it published more than one batch"
        self.shown = worked.shown

    def drop(self, entry: Entry, why: str) -> None:
        say(f"entry {entry.number} was dropped whole: {why}")
        newest = {
            number: words
            for number, words in self.identity.dropped.items()
            if int(number) > entry.number - LOOKED_BACK
        }
        self.identity = replace(self.identity, dropped=newest | {str(entry.number): why})
        self.untold = True

    def lines_of(self, entry: Entry, look: Look) -> str:
        """The lines of an entry that the server is handed."""
        if entry.kind == NONE:
            self.drop(entry, "no batch: it was put by hand")
            return ""
        newest = look.base_at(entry.number)
        if entry.kind == BASE or newest is None or newest.checksum == self.identity.base:
            return entry.lines
        lines = left_in(
            entry.lines, self.log.names(self.identity.base), self.log.names(newest.checksum)
        )
        if lines != entry.lines:
            say(f"entry {entry.number}: left out what {newest} alone has a name for")
        return lines

    # At the last entry.

    def settle(self, look: Look) -> None:
        self.waits = None
        if look.last > self.identity.entry:
            is_next = len(look.entries) > len(self.identity.row) + 1
            self.waits = (
                many_by_hand() if is_next else gap(self.identity.entry + 1, self.log.key(look.last))
            )
        elif look.states.get(self.name, {}).get("run", self.identity.run) != self.identity.run:
            self.waits = f"another follower tells of a server of the name {self.name}, too"
        elif not self.is_ready or time.monotonic() - self.ready_at > ALIVE:
            self.get_ready()
        newest = look.newest
        assert newest
        if self.is_ready:
            if self.is_outvoted(look):
                self.anew_for_its_map(look)
            elif newest.checksum != self.identity.base:
                self.begin_anew(
                    look, f"it goes over to base {newest.number}", newest, patiently=True
                )
            else:
                self.end_turn(look)
        self.fetch_ahead(look)
        self.canary.ask(look.canary if look.canary.get("server") == self.name else {})
        self.tell()

    def see(self) -> None:
        """Sees whether the server answers, and is where it was."""
        self.asked = time.monotonic()
        serial = self.server.show(self.idle).serial
        if serial != self.shown.serial:
            raise Lost(
                f"the server is at serial {serial}, not {self.shown.serial}: who else writes to it?"
            )

    def get_ready(self) -> None:
        """Lets queries in; and does so again from time to time, since whatever keeps that may have begun anew."""
        # who looks is told first
        self.tell()
        failed, self.ready_at = self.hooks.run(self.hooks.ready), time.monotonic()
        if failed:
            self.is_ready, self.waits = False, failed
        elif not self.is_ready:
            self.is_ready = True
            say(f"{self.name} is there, at entry {self.identity.entry}, serial {self.shown.serial}")

    def get_unready(self) -> str | None:
        failed = self.hooks.run(self.hooks.unready)
        self.is_ready = self.is_ready and failed is not None
        return failed

    def fetch_ahead(self, look: Look) -> None:
        """Fetches the base that is rolled, so that each server has it before any goes over."""
        checksum = str(look.roll.get("base", ""))
        if checksum and checksum != self.identity.base and self.has != checksum[:LETTERS]:
            if lacks := self.lacks(checksum):
                self.waits = lacks
            else:
                self.has = checksum[:LETTERS]

    def lacks(self, checksum: str) -> str | None:
        """Why the server cannot begin from a base; its file is fetched where it is not here."""
        if checksum in self.taken:
            return None
        if self.bases.topology(checksum) is None:
            octets = self.log.topology(checksum)
            if octets is None:
                return f"base {checksum[:12]} is not here, and not in etcd"
            self.bases.put(checksum, octets)
        if refused := self.bases.refused(checksum):
            return f"base {checksum[:12]} is refused by its program: {refused}"
        self.taken.add(checksum)
        return None

    # Beginning anew.

    def begin_anew(self, look: Look, why: str, base: Base | None, patiently: bool = False) -> None:
        """In its turn has the server begin anew from a base; patiently: only when all others are there."""
        hindered = self.hindered(look, base, why, patiently)
        if hindered is None and base:
            self.bases.choose(base.checksum)
            hindered = self.get_unready()
            if hindered is None:
                say(f"{self.name} {ANEW} from {base}: {why}")
                self.server.stop()
                raise Over(why)
        self.waits = f"{why}; {hindered}"
        self.tell()

    def due_base(self, look: Look) -> Base | None:
        """The base that it began from, where the log still has all behind it; else the newest one."""
        chosen = self.bases.chosen() or self.identity.base
        for base in look.bases:
            if base.checksum == chosen and look.first <= max(base.upto, 1) and self.has_start(base):
                return base
        return look.newest

    def has_start(self, base: Base) -> bool:
        """Whether the log has the entry up to which the numbers of a base go."""
        there = self.log.entry(base.upto) if base.upto else None
        return not base.upto or there is not None and there.checksum == base.chain

    def hindered(self, look: Look, base: Base | None, why: str, patiently: bool) -> str | None:
        """What keeps the server from beginning anew now. Whoever waits for others has no turn meanwhile."""
        hindered = self.lacks(base.checksum) if base else without_base(look)
        if hindered is None and base and not self.has_start(base):
            hindered = f"entry {base.upto}, up to which the numbers of {base} go, was changed by hand: roll the topology anew"
        if hindered is None and patiently:
            hindered = absent(look, self.name)
        if hindered is None:
            holder = look.turn.get("server", self.name)
            if holder != self.name or not self.takes_turn(look, why):
                return f"it is the turn of {holder}"
            if not patiently or self.hears_all(look):
                return None
            if time.monotonic() - self.asked_at < PATIENT:
                return "asks whether all others are there"
            hindered, self.asks = (
                absent(look, self.name, self.asks.words if self.asks else ()),
                None,
            )
        self.end_turn(look)
        return hindered or "not all others are there"

    def takes_turn(self, look: Look, why: str) -> bool:
        if self.turn_lease is None:
            self.turn_lease = self.log.etcd.lease(TURN)
        elif look.turn:
            return True
        told = {"server": self.name, "why": why, "time": int(time.time())}
        try:
            return self.log.take("turn", told, look.turn_revision, self.turn_lease)
        except NoLease:
            # it ran out where etcd could not be reached
            self.turn_lease = None
            return False

    def hears_all(self, look: Look) -> bool:
        """Whether all others are there, as they told since they were asked: what was told before stands for a while."""
        if self.asks is None:
            self.asks, self.asked_at = Asker(self.log), time.monotonic()
        return self.asks.has_asked(look) and absent(look, self.name, self.asks.words) is None

    def keep_turn(self, look: Look) -> None:
        """The turn of a server that begins anew outlives its follower: the next one keeps it."""
        if look.turn.get("server") == self.name and self.turn_lease is None:
            self.turn_lease = self.log.etcd.lease(TURN)
            if not self.log.take("turn", look.turn, look.turn_revision, self.turn_lease):
                self.turn_lease = None
            else:
                # what was looked at is older than that
                look.turn_revision = -1

    def end_turn(self, look: Look) -> None:
        if look.turn.get("server") == self.name and look.turn_revision > 0:
            self.log.give_back("turn", look.turn_revision)
            self.turn_lease = None

    # Maps.

    def is_outvoted(self, look: Look) -> bool:
        """Whether at the newest entry that another server tells of, too, more than half have another map."""
        others = [state for name, state in look.states.items() if name != self.name]
        alike = [maps_of(state) for state in others if is_comparable(state, self.state())]
        for spot, own in reversed(self.maps.items()):
            votes = collections.Counter(maps[spot] for maps in alike if spot in maps)
            if votes:
                votes[own] += 1
                best, count = votes.most_common(1)[0]
                return best != own and 2 * count > votes.total()
        return False

    def anew_for_its_map(self, look: Look) -> None:
        """Has the server begin anew since its map is another; but not again within an hour, where that did not help."""
        own = [self.identity.base, self.identity.program]
        *same, run, moment = look.servers.get(self.name, {}).get("differed") or ["", "", "", 0]
        if same == own and run != self.identity.run and abs(int(time.time()) - moment) < ONCE:
            self.waits = "its map is another one, also since it began anew for that"
            self.end_turn(look)
            return
        self.record(look, differed=[*own, self.identity.run, int(time.time())])
        why = "its map is not that of more than half of the servers"
        self.begin_anew(look, why, self.due_base(look))

    # The list of servers.

    def register(self) -> None:
        """Puts the server on the list, whatever else keeps it from going on: it may be the first time, or etcd was restored."""
        self.log.register(self.name, self.identity.base)

    def record(self, look: Look, **more: Any) -> None:
        """Keeps for as long as the server is one of the fleet what base it is at, and more. Where etcd was restored and has not
        what was told, all of it is told again."""
        if look.states.get(self.name, {}).get("entry") != self.identity.entry:
            # etcd was restored, and has not what was told
            self.told, self.untold = {}, True
        known = look.servers.get(self.name, {})
        kept = {key: known[key] for key in ("differed",) if key in known}
        due = kept | {"base": self.identity.base} | more
        if due != known:
            self.log.put_server(self.name, due)

    def end(self, why: str) -> None:
        """Keeps queries out, and says that nobody follows any more."""
        if failed := self.hooks.run(self.hooks.unready):
            say(failed)
        self.canary.ask({})
        try:
            record = {"base": self.identity.base, "ended": why, "time": int(time.time())}
            known = self.log.look().servers.get(self.name, {})
            self.log.put_server(self.name, known | record)
            if self.lease is not None:
                self.log.etcd.end_lease(self.lease)
        except Fault as fault:
            say(str(fault))


def absent(look: Look, name: str, asked: Collection[str] = ()) -> str | None:
    """Which other server of the fleet is not there for its clients, or did not say so since it was asked."""
    for other in sorted(look.servers.keys() | look.states.keys()):
        if other != name:
            if other not in look.states:
                return f"{other} is gone (glb-fleet --forget {other} if it is no more)"
            if not look.states[other].get("ready"):
                return f"{other} is not there yet"
            if asked and look.states[other].get("heard") not in asked:
                return f"{other} does not answer"
    return None


def is_comparable(state: dict[str, Any], own: dict[str, Any]) -> bool:
    """Whether two servers of equal maps have equal texts of them."""
    return all(state.get(key) == own.get(key) for key in ("base", "version"))
