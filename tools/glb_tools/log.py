"""The log of batches that the servers of a fleet follow, and what they tell of themselves: keys in etcd.

    PREFIX/log/0000000000000001   an entry: a batch of changes, or a base
    PREFIX/bases                  the bases of the log: where each stands, and which it is
    PREFIX/file/SHA256            the topology of a base, and PREFIX/names/SHA256 its names, in pieces
    PREFIX/by/ID                  the number that an append got, for an hour: so none is appended twice
    PREFIX/dropped/0000000000000001   which server dropped that batch whole, and why
    PREFIX/server/NAME            a server that there should be, and the base that it was last at; put ahead of its first start
    PREFIX/at/NAME                how far it is, as long as its follower lives (15 s)
    PREFIX/look                   what glb-fleet asks: each follower tells that it heard it, once its server answered
    PREFIX/turn                   which server begins anew: one at a time (60 s)
    PREFIX/canary                 which server is to run which base beside its own, and PREFIX/beside/NAME how far that is
    PREFIX/roll                   who rolls which base, as long as glb-roll lives (60 s)
    PREFIX/drain/NODE             a node that glb-drain takes out of service, or back, and its capacity of before
    PREFIX/watch                  which glb-watch leads, as long as it lives
    PREFIX/hand                   who set which numbers by hand, as the glb-watch that leads found it, or who cut the log

**An entry** is a text of JSON: `kind` (`batch` or `base`), `before`, `time` (seconds since 1970), `author`, `why`, `id` (of
its append), and of a batch `lines`, of a base `base`, `upto` and `chain`. Its checksum is the SHA-256 of its octets. `before` is the checksum
of the entry before it, which the transaction that puts it looks at: so the checksum of an entry stands for the whole log
up to it, **the chain**. What stands among the entries and is none, or does not say the checksum of the one before it, was
put there by hand: it is handed to no server. It has a checksum as an entry has, which the next one says; but that one does
not stand for what is before it.

**A base** is a topology whose numbers are those of the log up to entry `upto`, whose checksum is `chain`: its first line
says both, so its own checksum, `base`, says all of it. Who begins from it works the entries behind `upto`. The base may
stand further behind: entries that came meanwhile are worked by both. A log begins with a base (`upto` 0, `chain` empty).

**A server's identity** is its base, its program, and the checksum of the last entry that it worked. It is kept beside the
server and told in etcd. A server goes on behind an entry only where the log has that entry, with that checksum; behind what
was put by hand, only where the log has the last entry before that, too, and all that stands between the two.

**Its map** follows from its base and the entries alone. A line is left out by a server whose base does not have its name,
where the base that was the newest at the entry has it: so a batch is not lost to servers that wait for their turn, nor one
that came before a base without that name. Any other line that a server refuses drops the batch whole.
"""

import hashlib
import json
import re
import secrets
import time
import zlib
from collections.abc import Callable, Iterator
from dataclasses import asdict, dataclass, field
from typing import Any

from glb_tools import text
from glb_tools.etcd import (
    Etcd,
    Item,
    Message,
    after,
    delete,
    is_at,
    one,
    put,
    span,
    under,
)
from glb_tools.options import Fault

# how long an append's number is kept by its id, how long a server counts as alive, and how long its turn is its own
# while nobody says so, in seconds
KEPT, ALIVE, TURN = 3600, 15, 60
# the largest batch, and the largest piece of a file, in octets: etcd takes 1.5 MiB in one request
LARGEST_BATCH, PIECE = 1 << 20, 1 << 19
# how many entries are read at once, and of how many glb-fleet looks whether they were dropped
PAGE, LOOKED_BACK = 64, 100
# how many words are kept of what was asked
ASKED = 16
# behind so many keys in a row that were put by hand nobody goes on, and how many keys are read at once where no octets are
MOST_BY_HAND, KEYS = 100, 4096
BATCH, BASE, NONE = "batch", "base", "none"
# what is said of a follower that ended with its server, which begins anew; and of a server that nothing was told of yet
ANEW, FIRST = "begins anew", "begins for the first time"
# the first line of a base; without a checksum it is one of a release whose logs had no chain
UP_TO = re.compile(rb"# the numbers up to entry (\d{1,16}) of the log(?:, ([0-9a-f]{64}))?\n")
NUMBER = re.compile(r"[0-9]{16}")
MOST_NUMBER = 10**15
OF_BEFORE = re.compile(rb"(?:demand|capacity|base) ")


def checksum_of(octets: bytes) -> str:
    return hashlib.sha256(octets).hexdigest()


@dataclass(frozen=True)
class Base:
    """The entry where it stands, its topology's checksum, and the entry up to which its numbers go, with its checksum."""

    number: int
    checksum: str
    upto: int
    chain: str

    def __str__(self) -> str:
        return f"base {self.number} ({self.checksum[:12]})"


def place_of(topology: bytes) -> tuple[int, str]:
    """Up to which entry the numbers of a topology go, and that entry's checksum."""
    found = UP_TO.match(topology)
    return (int(found[1]), (found[2] or b"").decode()) if found else (0, "")


def with_place(topology: bytes, upto: int, chain: str) -> bytes:
    bare = UP_TO.sub(b"", topology, count=1)
    if not upto:
        return bare
    return f"# the numbers up to entry {upto} of the log, {chain}\n".encode() + bare


# Entries.


@dataclass(frozen=True)
class Entry:
    number: int
    octets: bytes
    kind: str
    before: str = ""
    time: int = 0
    author: str = ""
    why: str = ""
    lines: str = ""
    base: Base | None = None

    @property
    def checksum(self) -> str:
        return checksum_of(self.octets)

    def behind(self, checksum: str) -> "Entry":
        """Itself behind an entry with that checksum; none where it says another one."""
        return self if self.before == checksum else Entry(self.number, self.octets, NONE)


def check_batch(lines: str) -> None:
    """That it is changes alone, each line whole."""
    if not lines.endswith("\n"):
        raise text.Refused("wrong count")
    each = text.lines_of(lines.encode())
    if len(each) > text.MOST_CHANGES:
        raise text.Refused("batch full")
    for line in each:
        if text.words_of(line)[0] not in ("demand", "capacity"):
            raise text.Refused("unknown word")


def read_entry(number: int, octets: bytes) -> Entry:
    """The entry that the octets are; one of the kind `none` where they are no entry."""
    try:
        told = json.loads(octets)
        kind, before, lines, base = told["kind"], str(told["before"]), "", None
        if kind == BATCH:
            lines = str(told["lines"])
            check_batch(lines)
        elif kind == BASE:
            base = Base(number, str(told["base"]), int(told["upto"]), str(told["chain"]))
        else:
            raise ValueError
        moment, author, why = int(told["time"]), str(told["author"]), str(told["why"])
        return Entry(number, octets, kind, before, moment, author, why, lines, base)
    except (ValueError, KeyError, TypeError, OverflowError, RecursionError, text.Refused):
        return Entry(number, octets, NONE)


@dataclass(frozen=True)
class Signed:
    """Who appends, and why."""

    author: str
    why: str = ""
    time: int = field(default_factory=lambda: int(time.time()))


def entry_octets(kind: str, before: str, signed: Signed, content: Message) -> bytes:
    return json.dumps({"kind": kind, "before": before, **asdict(signed), **content}).encode()


# Names of a base.


class Names:
    """The names of a topology: groups and classes, and nodes. What a batch is checked by."""

    def __init__(self, units: list[str], nodes: list[str]) -> None:
        self.unit_at = {name: number for number, name in enumerate(units)}
        self.node_at = {name: number for number, name in enumerate(nodes)}

    def __contains__(self, words: list[str]) -> bool:
        """Whether it has the name of a change."""
        return words[1] in (self.unit_at if words[0] == "demand" else self.node_at)

    def octets(self) -> bytes:
        return json.dumps([list(self.unit_at), list(self.node_at)]).encode()


def names_in(octets: bytes) -> Names:
    try:
        units, nodes = json.loads(octets)
        return Names([str(name) for name in units], [str(name) for name in nodes])
    except (ValueError, TypeError) as why:
        raise Fault(f"the names of a base cannot be read: {why}") from None


def left_in(lines: str, own: Names, newest: Names) -> str:
    """The lines of a batch but those whose names the newest base has and the own one has not."""
    kept = []
    for line in lines.splitlines(keepends=True):
        words = text.words_of(line[:-1].encode())
        if words in own or words not in newest:
            kept.append(line)
    return "".join(kept)


# What stands in etcd at one moment.


def told_in(octets: bytes) -> dict[str, Any]:
    """What a text of JSON says; nothing where it was put by hand and is none."""
    try:
        told = json.loads(octets)
        return told if isinstance(told, dict) else {}
    except (ValueError, RecursionError):
        return {}


def plain(text: str) -> str:
    """What of a text may be shown on a terminal: anybody may have put it."""
    return "".join(letter if letter.isprintable() else "?" for letter in text)


def spot_of(number: int, checksum: str) -> str:
    """An entry in a few letters, by its number and its checksum: of another log's entry with that number it is another."""
    return f"{number}.{checksum[:6]}"


def maps_of(state: dict[str, Any]) -> dict[str, str]:
    """The maps that a server told, by the spots of their entries."""
    maps = state.get("maps")
    return maps if isinstance(maps, dict) else {}


def bases_in(items: list[Item]) -> list[Base]:
    if not items:
        return []
    try:
        return [Base(*each) for each in json.loads(items[0].octets)]
    except (ValueError, TypeError) as why:
        raise Fault(f"{items[0].key} cannot be read: {why}") from None


@dataclass
class Look:
    """What stands in etcd at one moment: entries from a number on, one behind the other, and what servers tell."""

    first: int
    last: int
    entries: list[Entry]
    bases: list[Base]
    turn: dict[str, Any]
    roll: dict[str, Any]
    canary: dict[str, Any]
    # what was asked, the newest first
    asked: list[str]
    servers: dict[str, dict[str, Any]]
    states: dict[str, dict[str, Any]]
    revision: int
    bases_revision: int
    last_revision: int
    turn_revision: int
    asked_revision: int

    @property
    def newest(self) -> Base | None:
        return self.bases[-1] if self.bases else None

    @property
    def begins(self) -> int:
        """The first entry behind which one is known: of a log that was cut the second one that is there."""
        return self.first + 1 if self.first > 1 else 1

    def base_at(self, number: int) -> Base | None:
        """The newest base at an entry."""
        return next((base for base in reversed(self.bases) if base.number <= number), None)


class Log:
    def __init__(self, etcd: Etcd, prefix: str) -> None:
        self.etcd, self.prefix = etcd, prefix
        self.known: dict[str, Names] = {}
        # under which word servers tell their states
        self.states = "at"
        # the servers that there should be, as whoever looks knows it
        self.expected: frozenset[str] = frozenset()

    def at(self, *words: str) -> str:
        return "/".join((self.prefix, *words))

    def key(self, number: int) -> str:
        return self.at("log", f"{number:016d}")

    def look(self, number: int = 0, limit: int = PAGE) -> Look:
        """Entries from a number on (from the last one on at 0), and all that servers tell."""
        entries, end = self.at("log", ""), after(self.at("log", ""))
        by_key: Message = {"sort_target": "KEY"}
        answer = self.etcd.txn(
            [
                span(self.key(number), end, limit=limit if number else 1, **by_key),
                under(entries, limit=1, sort_order="ASCEND", keys_only=True, **by_key),
                under(entries, limit=2, sort_order="DESCEND", **by_key),
                one(self.at("bases")),
                one(self.at("turn")),
                one(self.at("roll")),
                one(self.at("canary")),
                one(self.at("look")),
                under(self.at("server", "")),
                under(self.at("at", "")),
            ]
        )
        page, first, last, bases, turn, roll, canary, asked, servers, states = answer.found
        for item in first + last:
            if not NUMBER.fullmatch(item.name):
                raise Fault(by_hand(item.key))
        return Look(
            int(first[0].name) if first else 0,
            int(last[0].name) if last else 0,
            in_row(page, number) if number else ends_with(last),
            bases_in(bases),
            told_in(turn[0].octets) if turn else {},
            told_in(roll[0].octets) if roll else {},
            told_in(canary[0].octets) if canary else {},
            asked[0].octets.decode(errors="replace").split() if asked else [],
            {item.name: told_in(item.octets) for item in servers},
            {item.name: told_in(item.octets) for item in states},
            answer.revision,
            bases[0].revision if bases else 0,
            last[0].revision if last else 0,
            turn[0].revision if turn else 0,
            asked[0].revision if asked else 0,
        )

    def entry(self, number: int) -> Entry | None:
        item = self.etcd.get(self.key(number))
        return read_entry(number, item.octets) if item else None

    def entries(self, number: int, last: int) -> Iterator[Entry]:
        """The entries from a number on up to another one; a fault where one is not there."""
        while number <= last:
            # the one before them is read, too, since they say its checksum
            first = max(number - 1, 1)
            page = [entry for entry in self.page(first) if entry.number >= number]
            if not page:
                raise Fault(f"entry {number} is not there: it was cut away, or taken away by hand")
            yield from page[: last - number + 1]
            number += len(page)

    def page(self, number: int, limit: int = PAGE) -> list[Entry]:
        ask = span(self.key(number), after(self.at("log", "")), limit=limit, sort_target="KEY")
        return in_row(self.etcd.txn([ask]).found[0], number)

    def changed_by_hand(self, number: int, since: int) -> Iterator[str]:
        """What somebody did by hand to the entries from a number on, since a later one was put: each key was put once, behind
        the one before it."""
        start, end, due = self.key(max(number, 1)), after(self.at("log", "")), max(number, 1)
        newest = 0, 0
        while True:
            ask = span(start, end, limit=KEYS, keys_only=True, sort_target="KEY")
            items = self.etcd.txn([ask]).found[0]
            for item in items:
                if not NUMBER.fullmatch(item.name):
                    yield by_hand(item.key)
                    continue
                if int(item.name) != due:
                    yield gap(due, item.key)
                due = int(item.name) + 1
                if due > since and item.revision < newest[0]:
                    yield f"entry {newest[1]} was changed by hand: roll the topology anew"
                    newest = 0, 0
                newest = max(newest, (item.revision, due - 1))
            if len(items) < KEYS:
                return
            start = f"{items[-1].key}\0"

    def newest_base(self) -> Base:
        look = self.look()
        if not look.newest:
            raise Fault(without_base(look))
        return look.newest

    # Appending.

    def append(self, ident: str, signed: Signed, lines: str, check: Callable[[Names], None]) -> int:
        """Appends a batch, once whatever happens on the way, and says its number; it is checked by the newest base. Whoever
        finds no majority may ask again by the same id."""
        checked: Base | None = None
        while True:
            look = self.look()
            if (number := self.number_of(ident)) is not None:
                return number
            if not look.newest:
                raise Fault(without_base(look))
            if look.newest != checked:
                check(self.names(look.newest.checksum))
                checked = look.newest
            content = {"lines": lines}
            if self.put_entry(look, BATCH, signed, content, ident):
                return look.last + 1

    def append_base(self, ident: str, signed: Signed, topology: bytes) -> int | None:
        """Appends a base, and says its number; nothing where it is not one of this log."""
        checksum, (upto, chain) = checksum_of(topology), place_of(topology)
        while True:
            look = self.look()
            if (number := self.number_of(ident)) is not None:
                return number
            there = self.entry(upto) if upto else None
            if upto and (not there or there.checksum != chain):
                return None
            if not look.bases and upto != look.last:
                # a log of before: nobody else works its entries
                return None
            if not upto and look.first > 1:
                return None
            content = {"base": checksum, "upto": upto, "chain": chain}
            bases = [*look.bases, Base(look.last + 1, checksum, upto, chain)]
            more = [self.put_bases(bases)]
            if self.put_entry(look, BASE, signed, content, ident, more):
                return look.last + 1

    def put_entry(
        self,
        look: Look,
        kind: str,
        signed: Signed,
        content: Message,
        ident: str,
        more: list[Message] | None = None,
        only_if: list[Message] | None = None,
    ) -> bool:
        """Puts an entry behind the last one that was seen, with its checksum; not where another came between, nor where one of
        these conditions does not hold."""
        if look.bases:
            self.check_end(look)
        before = look.entries[-1].checksum if look.entries else ""
        # by its id it is another text than any other one, also where a log that was restored gives its number again
        octets = entry_octets(kind, before, signed, {"id": ident, **content})
        by = self.at("by", ident)
        conditions = [
            is_at(self.key(look.last + 1), 0),
            is_at(by, 0),
            is_at(self.at("bases"), look.bases_revision),
            *(only_if or []),
        ]
        if look.last:
            conditions.append(is_at(self.key(look.last), look.last_revision))
        puts = [
            put(self.key(look.last + 1), octets),
            put(by, str(look.last + 1), self.etcd.lease(KEPT)),
        ]
        return self.etcd.txn(puts + (more or []), conditions).held

    def check_end(self, look: Look) -> None:
        """That followers come to the end of the log; a fault where that was put by hand, and they do not."""
        if look.last > look.first and len(look.entries) == 1:
            raise Fault(gap(look.last - 1, self.key(look.last)))
        if look.last >= MOST_NUMBER:
            raise Fault(by_hand(self.key(look.last)))
        if look.entries and look.entries[-1].kind == NONE:
            row = self.page(max(look.last - MOST_BY_HAND - 1, 1), MOST_BY_HAND + 2)
            if len(row) > MOST_BY_HAND + 1 and all(entry.kind == NONE for entry in row[1:]):
                raise Fault(many_by_hand())

    def put_bases(self, bases: list[Base]) -> Message:
        listed = [[base.number, base.checksum, base.upto, base.chain] for base in bases]
        return put(self.at("bases"), json.dumps(listed))

    def number_of(self, ident: str) -> int | None:
        item = self.etcd.get(self.at("by", ident))
        return int(item.octets) if item and item.octets.isdigit() else None

    def cut(self, look: Look, base: Base) -> int:
        """Takes away what stands before a base's numbers, and the bases that nobody needs then; says the first entry
        that stays. The entry that the numbers go up to stays: the chain goes on from it."""
        kept = self.kept(look, base)
        gone = {old.checksum for old in look.bases} - {left.checksum for left in kept}
        parts = [
            delete(self.key(0), self.key(base.upto)),
            delete(self.at("dropped", ""), self.at("dropped", f"{base.upto:016d}")),
        ]
        if kept != look.bases:
            # an etcd that is full takes what only takes away
            parts.append(self.put_bases(kept))
        if not self.etcd.txn(parts, [is_at(self.at("bases"), look.bases_revision)]).held:
            raise Fault("a base came meanwhile: nothing was cut")
        for checksum in sorted(gone):
            # one by one, since a transaction has at most 128 parts
            for kind in ("file", "names"):
                key = self.at(kind, checksum)
                self.etcd.txn([delete(key), delete(f"{key}/", after(f"{key}/"))])
        return max(base.upto, 1)

    def kept(self, look: Look, base: Base) -> list[Base]:
        """The bases that stay with that one: those behind it, and what entries before it were checked by."""
        first = look.base_at(base.upto + 1) or base
        return [left for left in look.bases if left.number >= min(first.number, base.number)]

    # Files of bases.

    def put_file(self, kind: str, checksum: str, octets: bytes) -> None:
        """Puts a file in pieces; how many they are stands there when all are."""
        packed = zlib.compress(octets)
        pieces = [packed[at : at + PIECE] for at in range(0, len(packed), PIECE)]
        for number, piece in enumerate(pieces):
            self.etcd.txn([put(self.at(kind, checksum, f"{number:04d}"), piece)])
        self.etcd.txn([put(self.at(kind, checksum), str(len(pieces)))])

    def file(self, kind: str, checksum: str) -> bytes | None:
        """A file of a base, where it is there."""
        count = self.etcd.get(self.at(kind, checksum))
        if not count or not count.octets.isdigit():
            return None
        unpacked, packer = bytearray(), zlib.decompressobj()
        try:
            for number in range(int(count.octets)):
                piece = self.etcd.get(self.at(kind, checksum, f"{number:04d}"))
                if piece is None:
                    return None
                unpacked += packer.decompress(piece.octets)
        except zlib.error:
            return None
        return bytes(unpacked) if packer.eof else None

    def topology(self, checksum: str) -> bytes | None:
        octets = self.file("file", checksum)
        return octets if octets is not None and checksum_of(octets) == checksum else None

    def names(self, checksum: str) -> Names:
        """The names of a base."""
        if checksum not in self.known:
            octets = self.file("names", checksum)
            if octets is None:
                raise Fault(f"the names of base {checksum[:12]} are not in etcd: roll it again")
            self.known[checksum] = names_in(octets)
        return self.known[checksum]

    # What servers tell.

    def tell(
        self, name: str, state: Message, lease: int, dropped: dict[int, Message] | None = None
    ) -> None:
        """Puts a server's state, and which batches it dropped, at one moment."""
        notes = [
            put(self.at("dropped", f"{number:016d}"), json.dumps(why))
            for number, why in (dropped or {}).items()
        ]
        self.etcd.txn([*notes, put(self.at(self.states, name), json.dumps(state), lease)])

    def ask(self, word: str, look: Look) -> None:
        """Asks each follower whether its server answers, where nobody else asked since; what was asked before stands behind."""
        words = " ".join([word, *look.asked[: ASKED - 1]])
        self.etcd.txn([put(self.at("look"), words)], [is_at(self.at("look"), look.asked_revision)])

    def news(self) -> tuple[str, str]:
        """The range of keys whose change is news for a follower: entries, and what glb-fleet asks."""
        return self.at("log", ""), after(self.at("look"))

    def put_server(self, name: str, told: Message) -> None:
        self.etcd.txn([put(self.at("server", name), json.dumps(told))])

    def register(self, name: str, base: str) -> None:
        """Puts a server on the list that is not there: from now on it is missed where nothing is told of it."""
        told = {"base": base, "ended": FIRST, "time": int(time.time())}
        key = self.at("server", name)
        self.etcd.txn([put(key, json.dumps(told))], [is_at(key, 0)])

    def forget(self, name: str) -> None:
        self.etcd.txn([delete(self.at("server", name)), delete(self.at("at", name))])

    def dropped(self, number: int) -> dict[int, Message]:
        """The batches from a number on that a server dropped whole."""
        start, end = self.at("dropped", f"{number:016d}"), after(self.at("dropped", ""))
        items = self.etcd.txn([span(start, end)]).found[0]
        return {
            int(item.name): told_in(item.octets) for item in items if NUMBER.fullmatch(item.name)
        }

    # One at a time.

    def take(self, what: str, told: Message, revision: int, lease: int) -> bool:
        """Takes the turn or the roll, which nobody has (revision 0), or which is one's own as that revision put it."""
        key = self.at(what)
        return self.etcd.txn([put(key, json.dumps(told), lease)], [is_at(key, revision)]).held

    def give_back(self, what: str, revision: int) -> None:
        key = self.at(what)
        self.etcd.txn([delete(key)], [is_at(key, revision)])


class Asker:
    """Asks all followers whether their servers answer. What others ask since does as well, so that those who ask at once do
    not hinder each other."""

    def __init__(self, log: Log) -> None:
        self.log, self.own = log, ""
        self.words: set[str] = set()

    def has_asked(self, look: Look) -> bool:
        """Whether it had asked before that look; else it asks. Who restores etcd takes back what was asked."""
        if self.own in look.asked:
            self.words.update(look.asked[: look.asked.index(self.own) + 1])
            return True
        self.own = secrets.token_hex(4)
        self.words = {self.own}
        self.log.ask(self.own, look)
        return False


def in_row(items: list[Item], number: int) -> list[Entry]:
    """Entries one behind the other, from a number on (from whichever is first at 0). Of the first one nobody looks behind
    which it stands, but of entry 1, which stands behind none."""
    row: list[Entry] = []
    for item in items:
        due = row[-1].number + 1 if row else number or int(item.name)
        if not NUMBER.fullmatch(item.name) or int(item.name) != due:
            break
        entry = read_entry(due, item.octets)
        if row or due == 1:
            entry = entry.behind(row[-1].checksum if row else "")
        row.append(entry)
    return row


def ends_with(last: list[Item]) -> list[Entry]:
    """The last entry, and the one before it where that is there, by the last two keys."""
    row = in_row(last[::-1], 0)
    return row if len(row) == len(last) else in_row(last[:1], 0)


def many_by_hand() -> str:
    return (
        f"more than {MOST_BY_HAND} keys in a row were put by hand: delete them, from the last one on"
        " (glb-log --all --kind none)"
    )


def gap(number: int, key: str) -> str:
    return (
        f"entry {number} is not there, and {key} is: delete that one if it was put by hand; else put any text in the place,"
        " and roll the topology anew"
    )


def by_hand(key: str) -> str:
    return f"{plain(key)} was put by hand: delete it (etcdctl del {plain(key)})"


def without_base(look: Look) -> str:
    if any(entry.kind == NONE and OF_BEFORE.match(entry.octets) for entry in look.entries):
        return (
            "the log is one of an older release, whose entries have no chain: a base begins it anew"
            " (docs/operating/fleet.md, `From an older release`)"
        )
    return "the log has no base yet: glb-roll TOPOLOGY makes one"
