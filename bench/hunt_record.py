"""What is put into a fleet's log, as etcd tells it at once, for bench/fleet_hunt.py --watch.

A record of all entries and drains that ever stood there, and a replay of the capacities and demands
that are served by them. Each entry of glb-watch and of glb-drain is judged as it comes, by what
docs/operating/out-of-service.md, docs/operating/prometheus.md and docs/DECISIONS.md promise:

- glb-watch sets no name that somebody else set, but to hand it back with the number that it has;
- it sets no name to the number that it has, and none that it has no rule for;
- it sets a drained node to 0 where that is down, and else to nothing above the drain's number;
- each number that it sets was measured: it follows from an answer that it was given just before;
- a drain keeps the capacity of before, goes one way, and ends with the capacity of before;
- behind a drain a number is by hand, or measured, as it was before;
- a drain goes on from the number of its own last step, or from one to which glb-watch lowered it.
"""

import base64
import json
import re
import threading
import time
import urllib.request
from collections.abc import Callable
from dataclasses import dataclass, field
from http.client import HTTPException
from typing import Any

from hunt_log import Keys, Log, content_of, digest, is_number

# how long behind an answer glb-watch may put what it made of it, in seconds: calls to etcd take up
# to three each, and more where a member hangs
LATE = 15
# how long nothing may come from etcd until it is asked anew, in seconds
SILENT = 6
HANDED_BACK = "handed back"
STEP = re.compile(r"(?:handed back: )?drain (\S+)( back)? (\d+)/(\d+)")


@dataclass
class Seen:
    """An entry that stood in the log."""

    number: int
    octets: bytes
    kind: str
    author: str = ""
    why: str = ""
    lines: list[str] = field(default_factory=list)
    base: str = ""
    # whether the hunt has found a word of it
    is_said: bool = False


class Held:
    """A log that is held here, in the place of etcd's keys."""

    def __init__(self, entries: dict[int, bytes], bases: bytes) -> None:
        self.held, self.octets = entries, {"glb/bases": bases}

    def entries(self) -> dict[int, bytes]:
        return self.held

    def file(self, checksum: str) -> None:
        return None


Name = tuple[str, str]


def numbers_of(topology: dict[str, Any]) -> dict[Name, int]:
    """The numbers of a topology by word and name."""
    units = topology.get("group", []) + topology.get("class", [])
    found = {("demand", each["name"]): int(each["demand"]) for each in units}
    return found | {("capacity", each["name"]): int(each["capacity"]) for each in topology["node"]}


class Numbers:
    """The numbers that a server of the newest base has behind an entry, and who set them."""

    def __init__(self) -> None:
        self.numbers: dict[Name, int] = {}
        self.authors: dict[Name, str] = {}

    def begin(self, topology: dict[str, Any]) -> None:
        self.numbers = numbers_of(topology)

    def take(self, lines: str, author: str, with_numbers: bool = True) -> None:
        """A batch: a server drops one whole that has a name which it does not know."""
        changes = []
        for line in lines.splitlines():
            word, name, text = line.split()
            if (word, name) not in self.numbers:
                return
            changes.append(((word, name), int(text)))
        for key, number in changes:
            if with_numbers:
                self.numbers[key] = number
            self.authors[key] = author


def author_of(told: dict[str, Any]) -> str:
    """Who counts as the author of an entry; nobody is glb-watch."""
    author, why = str(told["author"]), str(told["why"])
    return "" if author == "glb-watch" or why.startswith(HANDED_BACK) else author


class Record(threading.Thread):
    """The thread that hears of all that is put. `measured` says whether a number follows from an
    answer: by word, name, number, the one before, the time and the drain's number."""

    def __init__(
        self,
        hunt: Any,
        names: set[Name],
        measured: Callable[[str, str, int, int, int, int | None], str],
    ) -> None:
        super().__init__(daemon=True)
        self.hunt, self.names, self.measured = hunt, names, measured
        self.is_over = threading.Event()
        self.lock = threading.RLock()
        self.is_ready = threading.Event()
        self.seen: list[Seen] = []
        self.entries: dict[int, bytes] = {}
        self.bases = b"[]"
        self.drains: dict[str, dict[str, Any]] = {}
        self.state = Numbers()
        # the drained nodes whose number of before was set by hand
        self.by_hand: set[str] = set()
        # whether the numbers are known; and how often what was put between two looks is not
        self.is_known, self.gaps = False, 0
        self.revision, self.restores, self.turn = 0, 0, 0
        self.counts = {"lines": 0, "steps": 0, "ends": 0}

    # What etcd tells.

    def run(self) -> None:
        while not self.is_over.is_set():
            try:
                if self.restores != self.hunt.restores or not self.revision:
                    self.begin()
                if self.revision:
                    addresses = self.hunt.etcd.addresses()
                    self.turn += 1
                    self.hear(addresses[self.turn % len(addresses)])
            except (OSError, ValueError, HTTPException, KeyError):
                time.sleep(0.1)

    def begin(self) -> None:
        """All that stands there now, at the start and behind a restore."""
        count = self.hunt.restores
        if count % 2:
            # a restore is under way
            time.sleep(0.1)
            return
        keys = Keys(self.hunt.etcd)
        if count != self.hunt.restores:
            return
        with self.lock:
            self.entries = {}
            self.bases = keys.octets.get("glb/bases", b"[]")
            self.state, self.drains = Numbers(), {}
            for key, octets in sorted(keys.octets.items()):
                if key.startswith("glb/drain/"):
                    self.take_drain(key.removeprefix("glb/drain/"), octets)
            for number, octets in sorted(keys.entries().items()):
                self.entries[number] = octets
                self.note(number, octets)
            self.replay(keys)
            self.revision, self.restores = keys.revision, count
        self.is_ready.set()

    def hear(self, address: str) -> None:
        """Hears of each change, until nothing comes."""
        ask = {
            "create_request": {
                "key": base64.b64encode(b"glb/").decode(),
                "range_end": base64.b64encode(b"glb0").decode(),
                "start_revision": str(self.revision + 1),
            }
        }
        request = urllib.request.Request(
            f"{address}/v3/watch", json.dumps(ask).encode(), {"Content-Type": "application/json"}
        )
        opener = urllib.request.build_opener(urllib.request.ProxyHandler({}))
        with opener.open(request, timeout=SILENT) as answer:
            while not self.is_over.is_set() and self.restores == self.hunt.restores:
                line = answer.readline()
                if not line:
                    return
                told = json.loads(line).get("result", {})
                if told.get("canceled"):
                    # what was put was compacted away
                    self.gaps, self.revision = self.gaps + 1, 0
                    return
                if self.restores != self.hunt.restores:
                    return
                self.take(told.get("events", []))

    def take(self, events: list[dict[str, Any]]) -> None:
        groups: dict[int, list[tuple[str, bytes | None]]] = {}
        for event in events:
            kv = event["kv"]
            key = base64.b64decode(kv["key"]).decode("latin-1")
            is_gone = event.get("type") == "DELETE"
            octets = None if is_gone else base64.b64decode(kv.get("value", ""))
            groups.setdefault(int(kv["mod_revision"]), []).append((key, octets))
        for revision, changes in sorted(groups.items()):
            if revision <= self.revision:
                continue
            with self.lock:
                self.take_group(changes)
                self.revision = revision

    # What comes of it.

    def take_group(self, changes: list[tuple[str, bytes | None]]) -> None:
        """What was put at one moment."""
        before = dict(self.drains)
        entry = None
        for key, octets in changes:
            name = key.removeprefix("glb/log/")
            if key == "glb/bases":
                self.bases = octets or b"[]"
            elif key.startswith("glb/drain/"):
                self.take_drain(key.removeprefix("glb/drain/"), octets)
            elif name != key and is_number(name) and int(name):
                if octets is None:
                    self.entries.pop(int(name), None)
                else:
                    entry = int(name)
                    if entry in self.entries and not self.hunt.is_tampered:
                        self.wrong(f"entry {entry} was put over: {self.entries[entry]!r}")
                    self.entries[entry] = octets
        if entry is not None:
            self.take_entry(entry, before)
        elif self.drains.keys() != before.keys():
            # an end without a change
            self.counts["ends"] += 1

    def take_drain(self, node: str, octets: bytes | None) -> None:
        self.drains.pop(node, None)
        if octets is not None:
            try:
                told = json.loads(octets)
                if all(type(told[key]) is int for key in ("was", "to", "before")):
                    self.drains[node] = told
            except (ValueError, KeyError, TypeError):
                pass

    def note(self, number: int, octets: bytes) -> Seen:
        before = "" if number == 1 else None
        if number - 1 in self.entries:
            before = digest(self.entries[number - 1])
        found = content_of(octets, before)
        is_behind_a_gap = number - 1 not in self.entries and min(self.entries) < number
        if not found or is_behind_a_gap:
            seen = Seen(number, octets, "none")
        else:
            told = json.loads(octets)
            lines = found[1].splitlines() if found[0] == "batch" else []
            base = found[1] if found[0] == "base" else ""
            seen = Seen(
                number, octets, found[0], str(told["author"]), str(told["why"]), lines, base
            )
        self.seen.append(seen)
        return seen

    def take_entry(self, number: int, before: dict[str, dict[str, Any]]) -> None:
        octets = self.entries[number]
        seen = self.note(number, octets)
        if seen.kind == "base":
            try:
                self.replay(Keys(self.hunt.etcd))
            except OSError:
                self.is_known = False
            return
        if seen.kind != "batch":
            return
        told = json.loads(octets)
        if self.is_known and not self.hunt.is_tampered:
            if seen.author == "glb-watch":
                self.judge_watch(seen, int(told["time"]), before)
            elif found := STEP.fullmatch(seen.why.partition(": hunt")[0]):
                self.judge_step(seen, found[1], before)
        self.state.take("".join(f"{line}\n" for line in seen.lines), author_of(told))

    def replay(self, keys: Any) -> None:
        """The numbers behind the last entry, from the newest base on."""
        self.is_known = False
        memory = self.hunt.memory
        log = Log(Held(self.entries, self.bases), memory)
        for _, checksum, _, _ in log.bases:
            if checksum not in memory and (octets := keys.file(checksum)):
                memory[checksum] = octets
        if not log.bases or any(each[1] not in memory for each in log.bases):
            return
        _, base, upto, _ = log.bases[-1]
        is_first = not self.state.authors
        self.state.begin(log.topology(base))
        for number in log.numbers:
            found = log.content(number)
            if not found or found[0] != "batch":
                continue
            author = author_of(json.loads(log.entries[number]))
            if number > upto:
                self.state.take(log.handed(base, number), author)
            elif is_first:
                self.state.take(found[1], author, with_numbers=False)
        self.is_known = True

    def wrong(self, words: str) -> None:
        self.hunt.found.append(words)

    # What is judged.

    def is_by_hand(self, name: Name, drain: dict[str, Any] | None) -> bool:
        if not self.state.authors.get(name):
            return False
        return drain is None or self.state.numbers[name] not in (drain["was"], drain["to"])

    def judge_watch(self, seen: Seen, moment: int, before: dict[str, dict[str, Any]]) -> None:
        for line in seen.lines:
            word, name, text = line.split()
            number, key = int(text), (word, name)
            self.counts["lines"] += 1
            where = f"entry {seen.number} of glb-watch, `{line}` ({seen.why[:200]})"
            old = self.state.numbers.get(key)
            if old is None:
                self.wrong(f"{where}: there is no such name")
                continue
            if seen.why.startswith(HANDED_BACK):
                if number != old:
                    self.wrong(f"{where}: handed back with another number than {old}")
                continue
            drain = before.get(name) if word == "capacity" else None
            if key not in self.names:
                self.wrong(f"{where}: it has no rule for it")
            elif self.is_by_hand(key, drain):
                self.wrong(f"{where}: {self.state.authors[key]} had set it to {old}")
            elif number == old:
                self.wrong(f"{where}: it has that number already")
            elif drain and number > drain["to"]:
                self.wrong(f"{where}: it was {old}, and its drain holds it at {drain['to']}")
            else:
                due = drain["to"] if drain else None
                if why := self.measured(word, name, number, old, moment, due):
                    self.wrong(f"{where}: it was {old}, {why}")

    def judge_step(self, seen: Seen, node: str, before: dict[str, dict[str, Any]]) -> None:
        self.counts["steps"] += 1
        key = ("capacity", node)
        where = f"entry {seen.number} of glb-drain, `{seen.lines}` ({seen.why})"
        old, was, now = self.state.numbers.get(key), before.get(node), self.drains.get(node)
        if len(seen.lines) != 1 or seen.lines[0].split()[:2] != list(key) or old is None:
            self.wrong(f"{where}: it is no step of {node}")
            return
        number = int(seen.lines[0].split()[2])
        is_back = f"drain {node} back " in seen.why
        if (number > old and not is_back) or (number < old and is_back):
            self.wrong(f"{where}: it goes the other way, from {old}")
        if now and (now["was"], now["to"]) != (number, number):
            self.wrong(f"{where}: it keeps {now['was']} and {now['to']} beside {number}")
        if now and was and now["before"] != was["before"]:
            self.wrong(f"{where}: its capacity of before was {was['before']}: {now['before']}")
        if now and not was and old and not is_back and now["before"] != old:
            self.wrong(f"{where}: its capacity of before was {old}, and {now['before']} is kept")
        if now and not was:
            self.by_hand.discard(node)
            self.by_hand |= {node} if self.is_by_hand(key, None) else set()
        if now and was and now["run"] == was["run"] and old != was["to"]:
            is_lowered = old < was["to"] and not self.state.authors.get(key)
            if not is_lowered:
                who = self.state.authors.get(key) or "glb-watch"
                self.wrong(f"{where}: {who} had set it to {old}, its last step to {was['to']}")
        if was and not now:
            self.counts["ends"] += 1
            if number != was["before"]:
                self.wrong(f"{where}: it ends, and the capacity of before was {was['before']}")
            is_handed, was_by_hand = seen.why.startswith(HANDED_BACK), node in self.by_hand
            if is_handed == was_by_hand and not self.hunt.restores:
                whose = "by hand" if was_by_hand else "measured"
                self.wrong(f"{where}: its number of before was {whose}")
