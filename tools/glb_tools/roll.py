"""glb-roll: takes a fleet to another topology, one server after another."""

import argparse
import json
import math
import subprocess
import sys
import tempfile
import time
import uuid
from pathlib import Path
from shutil import which
from typing import Any

from glb_tools.append import add_signature, signed_of
from glb_tools.etcd import ETCD_STATUSES, Unreachable, add_etcd_options, etcd_of, put
from glb_tools.fleet import judged
from glb_tools.history import numbers_at, topology_at, topology_of, with_numbers
from glb_tools.log import (
    TURN,
    Base,
    Log,
    Look,
    Names,
    Signed,
    checksum_of,
    maps_of,
    place_of,
    spot_of,
    told_in,
)
from glb_tools.log_command import map_at
from glb_tools.options import DONE, FAULT, Fault, Progress, parser, run
from glb_tools.plan import Served, compared, say
from glb_tools.shared_addresses import warn
from glb_tools.topology import Topology, written

HALF = 2
STATUSES = {
    DONE: "each server is there, at the base",
    FAULT: "nothing was rolled: something cannot be read, used or written, or a server is missing",
    HALF: "the base is in the log, and not all servers are at it in time: they go on by themselves (glb-fleet)",
    **ETCD_STATUSES,
}
# how often it is looked, in seconds
AGAIN = 0.5
# how often what would move is said anew, in seconds, and how many pairs of sites, and of nodes, are said
COMPARED, SHOWN = 60, 10


class Roll:
    """The one who rolls, as long as nobody else does: it is told in etcd, with a lease."""

    def __init__(self, log: Log, signed: Signed, checksum: str) -> None:
        self.log, self.signed, self.checksum = log, signed, checksum
        self.lease = log.etcd.lease(TURN)
        look = log.look()
        told = {"base": checksum, "author": signed.author, "why": signed.why, "time": signed.time}
        if look.roll or not log.take("roll", told, 0, self.lease):
            raise Fault(
                f"{look.roll.get('author', 'somebody')} is rolling base {str(look.roll.get('base'))[:12]}"
            )
        self.said: dict[str, str] = {}
        self.compared_at = -math.inf
        self.kept = time.monotonic()

    def end(self) -> None:
        try:
            self.log.etcd.end_lease(self.lease)
        except Fault:
            pass

    def look(self) -> Look:
        """What stands in etcd; it waits where there is no majority."""
        while True:
            try:
                if time.monotonic() - self.kept > TURN / 6:
                    self.log.etcd.keep(self.lease)
                    self.kept = time.monotonic()
                return self.log.look()
            except Unreachable as why:
                self.say("etcd", str(why))
                time.sleep(1)

    def say(self, name: str, words: str) -> None:
        """Says what is new of a server."""
        if self.said.get(name) != words:
            self.said[name] = words
            print(f"{name}: {words}", flush=True)

    def spread(self, seconds: float) -> None:
        """Waits until each server has the base's file, and its program takes it."""
        end = time.monotonic() + seconds
        while True:
            look = self.look()
            if all([self.has(name, look) for name in names_in(look)]):
                return
            if time.monotonic() >= end:
                raise Fault("not all servers have the base: nothing was rolled")
            time.sleep(AGAIN)

    def has(self, name: str, look: Look) -> bool:
        state = look.states.get(name)
        if state is None and not look.bases:
            # it cannot begin ahead of the first base
            self.say(name, "begins from the base when it starts")
            return True
        if state is None:
            self.say(name, f"is gone: bring it back, or glb-fleet --forget {name}")
            return False
        if self.checksum[:16] in (state.get("has"), state.get("base")):
            self.say(name, "has the base")
            return True
        waits = str(state.get("waits", ""))
        if "refused" in waits and self.checksum[:12] in waits:
            raise Fault(f"{name} waits: {waits}; nothing was rolled")
        if waits:
            self.say(name, f"waits: {waits}")
        return False

    def run_beside(self, name: str, topology: bytes, options: argparse.Namespace) -> int:
        """Has a server run the base beside for a while, and says what would be another than it is."""
        told = {"server": name, "base": self.checksum, "author": self.signed.author}
        self.log.etcd.txn([put(self.log.at("canary"), json.dumps(told), self.lease)])
        base, end = (
            Base(0, self.checksum, *place_of(topology)),
            time.monotonic() + 60 * options.minutes,
        )
        compared = 0
        while time.monotonic() < end or not compared:
            look = self.look()
            item = self.log.etcd.get(self.log.at("beside", name))
            state, own = told_in(item.octets) if item else {}, look.states.get(name, {})
            entry = state.get("entry")
            if entry == look.last == own.get("entry"):
                self.say(
                    "beside", f"entry {entry}, {units_of(state)}; {name} itself: {units_of(own)}"
                )
                if compared < entry and time.monotonic() - self.compared_at > COMPARED:
                    compared, self.compared_at = entry, time.monotonic()
                    compare(self.log, entry, base, state, options.program)
            elif time.monotonic() > end + 60:
                raise Fault(f"nothing is heard of a server beside {name}: look at its journal")
            time.sleep(AGAIN)
        print("nothing was rolled: glb-roll without --canary does")
        return DONE

    def watch(self, seconds: float) -> int:
        """Waits until each server is there, at the base; says how each goes over."""
        end = time.monotonic() + seconds
        while True:
            look = self.look()
            states = [judged(name, look) for name in names_in(look)]
            for state in states:
                self.say(state["name"], progress_of(state, self.checksum))
            over = [state for state in states if is_over(state, self.checksum)]
            if len(over) == len(states):
                print(f"all {len(states)} servers are at base {self.checksum[:12]}")
                return DONE
            if time.monotonic() >= end:
                print(
                    f"{len(over)} of {len(states)} servers are at base {self.checksum[:12]}",
                    file=sys.stderr,
                )
                return HALF
            time.sleep(AGAIN)


def names_in(look: Look) -> list[str]:
    return sorted(look.servers.keys() | look.states.keys())


def is_over(state: dict[str, Any], checksum: str) -> bool:
    return bool(state["state"] == "there" and state.get("base") == checksum[:16])


def progress_of(state: dict[str, Any], checksum: str) -> str:
    if is_over(state, checksum):
        return "is there, at the base"
    at = "at the base" if state.get("base") == checksum[:16] else "at the one before"
    return f"{state['state']}, {at}" if "base" in state else str(state["state"])


def units_of(state: dict[str, Any]) -> str:
    return f"{state.get('placed')} units placed, {state.get('unplaced')} not"


def compare(log: Log, entry: int, base: Base, state: dict[str, Any], program: str) -> None:
    """Says what would move at an entry, by the maps that the program makes here; and whether the one beside is that."""
    if which(program) is None:
        print(f"{program} is not on this host: what would move is not shown")
        return
    look = log.look()
    now, then = map_at(log, entry, program), map_at(log, entry, program, base)
    new = Topology(topology_of(log, base), str(base))
    numbered = written(new, numbers_at(log, look, base, new, entry).numbers)
    before = Served(topology_at(log, look, entry), now)
    say(compared(before, Served(numbered.encode(), then)), SHOWN)
    chain = str(state.get("chain"))
    if maps_of(state).get(spot_of(entry, chain)) not in (None, checksum_of(then)[:16]):
        raise Fault("the server beside has another map than the program here")


def try_it(topology: bytes, program: str) -> None:
    """Has the program map the topology, where it is on this host; each server's follower does so before it goes over."""
    if which(program) is None:
        return
    with tempfile.NamedTemporaryFile(suffix=".toml") as file:
        file.write(topology)
        file.flush()
        with subprocess.Popen(
            [program, "map", file.name], stdout=subprocess.PIPE, stderr=subprocess.DEVNULL
        ) as asked:
            assert asked.stdout
            line = asked.stdout.readline().decode("latin-1").strip()
            asked.kill()
    if not line.startswith("glb map "):
        raise Fault(f"{program} does not take it: {line or 'no answer'}")


def back_to(log: Log) -> bytes:
    """The topology of the base before the newest one."""
    look = log.look()
    others = [base for base in look.bases if look.newest and base.checksum != look.newest.checksum]
    if not others:
        raise Fault("the log has no base before the newest one any more")
    found = log.topology(others[-1].checksum)
    if found is None:
        raise Fault(f"the topology of {others[-1]} is not in etcd any more")
    return found


def roll(log: Log, topology: bytes, signed: Signed, options: argparse.Namespace) -> int:
    checksum = checksum_of(topology)
    look = log.look()
    if options.canary and options.canary not in names_in(look):
        raise Fault(f"there is no server {options.canary}: glb-fleet lists them")
    rolling = Roll(log, signed, checksum)
    try:
        if look.newest is None or look.newest.checksum != checksum:
            spread(log, topology, checksum, rolling, options)
            if options.canary:
                return rolling.run_beside(options.canary, topology, options)
            append_base(log, topology, checksum, signed)
        return rolling.watch(options.seconds)
    finally:
        rolling.end()


def spread(
    log: Log, topology: bytes, checksum: str, rolling: Roll, options: argparse.Namespace
) -> None:
    """Puts the file, and waits until each server has it."""
    with Progress("puts the topology into etcd"):
        parsed = Topology(topology, str(options.topology or "the base before"))
        names = Names(list(parsed.unit_at), list(parsed.node_at))
        log.put_file("names", checksum, names.octets())
        if not options.folder:
            log.put_file("file", checksum, topology)
    rolling.spread(options.seconds)


def append_base(log: Log, topology: bytes, checksum: str, signed: Signed) -> None:
    number = log.append_base(uuid.uuid4().hex, signed, topology)
    if number is None:
        raise Fault(
            "the entry that its numbers go up to is not in the log: write them anew (glb-append --numbers)"
        )
    print(f"base {checksum[:12]} is entry {number}", flush=True)


ABOUT = """Takes a fleet to another topology: it becomes the newest base, and servers go over one at a time.

    glb-roll TOPOLOGY     with the numbers that the log has for its names (or those of glb-append --numbers)
    glb-roll TOPOLOGY --canary NAME     rolls nothing: server NAME runs it beside its own for a while, and it is said
                                        what would move
    glb-roll --back       to the base before the newest one, and all entries behind its numbers once more

The file goes to every server first, whose program has to take it. Until its turn a server goes on with its old base. A
server goes over only while all others are there. Run again, it goes on with watching."""


def main() -> int:
    words = parser("glb-roll", ABOUT, STATUSES)
    add_etcd_options(words)
    words.add_argument("topology", nargs="?", metavar="TOPOLOGY", type=Path)
    add_signature(words)
    words.add_argument("--back", action="store_true", help="to the base before the newest one")
    words.add_argument(
        "--folder",
        action="store_true",
        help="the file is put into each host's folder of bases by other means, as CHECKSUM.toml, and not into etcd",
    )
    words.add_argument(
        "--canary", metavar="NAME", help="has that server run it beside, and rolls nothing"
    )
    words.add_argument(
        "--minutes", type=float, default=10, metavar="N", help="how long it runs beside (10)"
    )
    words.add_argument(
        "--seconds", type=float, default=600, metavar="N", help="how long to wait for servers (600)"
    )
    words.add_argument(
        "--program", default="glb", help="tries the topology first, where it is on this host (glb)"
    )
    options = words.parse_args()
    if options.back == bool(options.topology):
        raise Fault("a topology, or --back (see glb-roll --help)", 64)
    log, signed = Log(etcd_of(options), options.prefix), signed_of(options)
    if options.back:
        topology = back_to(log)
    else:
        with Progress("writes the numbers of the log into the topology"):
            topology = with_numbers(log, options.topology.read_bytes(), str(options.topology))
    try_it(topology, options.program)
    warn(Topology(topology, str(options.topology or "the base before")))
    return roll(log, topology, signed, options)


if __name__ == "__main__":
    run(main)
