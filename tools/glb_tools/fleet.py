"""glb-fleet: what the servers of a fleet tell, whether they agree, and what to do where something is wrong."""

import argparse
import json
import math
import os
import time
from dataclasses import asdict, dataclass, field
from typing import Any

from glb_tools.etcd import (
    ETCD_STATUSES,
    FULL,
    NO_MAJORITY,
    Etcd,
    Full,
    add_etcd_options,
    etcd_of,
)
from glb_tools.log import ANEW, FIRST, LOOKED_BACK, Asker, Log, Look, maps_of, plain, spot_of
from glb_tools.options import DONE, Fault, check_word, parser, run

NOT_THERE, DIFFER, GONE, HANGS, MEMBER = 1, 2, 5, 6, 7
STATUSES = {
    DONE: "each server is there, at the newest entry and base; none differs; each member of etcd answers",
    NOT_THERE: "a server is behind, waits or starts, or there is none; a base is rolled; a batch was dropped",
    DIFFER: "two servers have different maps at one entry of one base",
    **ETCD_STATUSES,
    GONE: "nothing is heard of a server: its follower has ended or hangs, its host is cut off, or it never began",
    HANGS: "a server does not answer its follower",
    MEMBER: "a member of etcd does not answer; else all is well",
}
# which of several counts: the first
ORDER = (NO_MAJORITY, DIFFER, FULL, HANGS, GONE, NOT_THERE, MEMBER)
State = dict[str, Any]
# how often it is looked whether all followers answered, in seconds
AGAIN = 0.05
# what is said of a server that is expected and that etcd has no word of
NEVER = "nothing was ever heard of it"


@dataclass
class Report:
    """What is known of a fleet; `advice` says by status what to do."""

    last: int = 0
    base: str = ""
    base_entry: int = 0
    servers: list[State] = field(default_factory=list)
    differ: dict[int, dict[str, list[str]]] = field(default_factory=dict)
    versions: dict[str, list[str]] = field(default_factory=dict)
    dropped: dict[int, State] = field(default_factory=dict)
    turn: State = field(default_factory=dict)
    roll: State = field(default_factory=dict)
    members: dict[str, State | None] = field(default_factory=dict)
    advice: list[tuple[int, str]] = field(default_factory=list)

    @property
    def status(self) -> int:
        found = {status for status, _ in self.advice}
        return next((status for status in ORDER if status in found), DONE)

    def advise(self, status: int, words: str) -> None:
        self.advice.append((status, words))


def judged(name: str, look: Look, asked: frozenset[str] = frozenset()) -> State:
    """A server's state, in one word and in all that it tells; silent where its follower heard nothing of what was asked."""
    record, told = look.servers.get(name, {}), look.states.get(name)
    if told is None:
        ended = str(record.get("ended", ""))
        state = "starts" if ended.startswith((ANEW, FIRST)) else "ended" if ended else "gone"
        silent = "it says nothing" if name in look.servers else NEVER
        return {"name": name, "state": state, "why": ended or silent}
    behind = look.last - number_in(told, "entry")
    found = {"name": name, "state": "there", **told, "behind": max(behind, 0)}
    newest, last = look.newest, look.entries[-1] if look.entries else None
    if "hangs" in told:
        found["state"] = "hangs"
    elif asked and told.get("heard") not in asked:
        found["state"] = "silent"
    elif "waits" in told:
        found["state"] = "waits"
    elif behind > 0:
        found["state"] = "behind"
    elif not newest or told.get("base") != newest.checksum[: len(str(told.get("base")))]:
        found |= {"state": "waits", "waits": f"for its turn to go over to {newest}"}
    elif not last or not last.checksum.startswith(str(told.get("chain", "-"))):
        found |= {"state": "waits", "waits": "its last entry is none of this log"}
    elif not told.get("ready"):
        found["state"] = "starts"
    return found


def number_in(told: State, key: str) -> int:
    value = told.get(key)
    return value if isinstance(value, int) else 0


def differing(servers: list[State]) -> dict[int, dict[str, list[str]]]:
    """Entries at which two servers of one base have different maps, with the servers by checksum."""
    found: dict[tuple[Any, ...], dict[str, list[str]]] = {}
    for server in servers:
        for spot, checksum in maps_of(server).items():
            alike = spot, server.get("base"), server.get("version")
            found.setdefault(alike, {}).setdefault(checksum, []).append(server["name"])
    differ = {alike[0]: names for alike, names in found.items() if len(names) > 1}
    return {int(spot.split(".")[0]): differ[spot] for spot in sorted(differ)}


def asked_of_all(log: Log, seconds: float) -> tuple[frozenset[str], Look]:
    """Asks each follower whether its server answers; the words of which each has to have heard one, and what stands in etcd
    as soon as all did, or that long behind the first time that they were asked."""
    asker, end = Asker(log), math.inf
    while True:
        look = log.look()
        has_asked = asker.has_asked(look)
        # a member that was silent until now took nobody's time
        end = min(end, time.monotonic() + seconds)
        told = [state for state in look.states.values() if "hangs" not in state]
        all_told = all(state.get("heard") in asker.words for state in told)
        if has_asked and all_told or time.monotonic() >= end:
            return frozenset(asker.words), look
        if has_asked:
            time.sleep(AGAIN)


def report(log: Log, look: Look, asked: frozenset[str] = frozenset()) -> Report:
    newest = look.newest
    found = Report(look.last, turn=look.turn, roll=look.roll)
    if newest:
        found.base, found.base_entry = newest.checksum, newest.number
    else:
        found.advise(NOT_THERE, "the log has no base: glb-roll TOPOLOGY makes one")
    names = sorted(look.servers.keys() | look.states.keys() | log.expected)
    found.servers = [judged(name, look, asked) for name in names]
    found.differ = differing(found.servers)
    for server in found.servers:
        if "version" in server:
            found.versions.setdefault(server["version"], []).append(server["name"])
    found.dropped = log.dropped(max(look.last - LOOKED_BACK + 1, 0))
    advise(found)
    return found


def advise(found: Report) -> None:
    if not found.servers:
        found.advise(NOT_THERE, "no server follows this log")
    for server in found.servers:
        advise_of(server, found)
    for number, names in found.differ.items():
        sides = "; ".join(f"{checksum[:12]} {' '.join(who)}" for checksum, who in names.items())
        found.advise(DIFFER, f"at entry {number} they differ: {sides}")
    if len(found.versions) > 1:
        sides = "; ".join(f"{version} {' '.join(who)}" for version, who in found.versions.items())
        found.advise(NOT_THERE, f"maps of several versions cannot be compared: {sides}")
    for number, why in found.dropped.items():
        words = f"entry {number} was dropped whole by {why.get('server')}: {why.get('why')}"
        found.advise(NOT_THERE, f"{words}; append it anew, mended")
    at_base = [server for server in found.servers if server.get("base", "-") == found.base[:16]]
    if found.servers and len(at_base) < len(found.servers) and found.base:
        words = f"{len(at_base)} of {len(found.servers)} servers are at base {found.base_entry}"
        by = f", rolled by {found.roll.get('author')}" if found.roll else ""
        found.advise(NOT_THERE, f"{words}{by}; `glb-roll --back` goes back to the one before")


def advise_of(server: State, found: Report) -> None:
    name, state = server["name"], server["state"]
    if state == "gone" and server["why"] == NEVER:
        found.advise(GONE, f"{name} is expected, and {NEVER}: start glb-fleet@ on its host")
    elif state == "gone":
        words = f"nothing is heard of {name}: look at its host, glb-fleet@ and glb-follow@ there;"
        found.advise(GONE, f"{words} glb-fleet --forget {name} if it is no more")
    elif state == "ended":
        found.advise(GONE, f"the follower of {name} has ended: {server['why']}")
    elif state == "silent":
        words = f"the follower of {name} does not answer: it hangs, or its host is cut off;"
        found.advise(GONE, f"{words} start glb-follow@ again there")
    elif state == "hangs":
        words = f"{name} has not answered its follower for {server['hangs']} s:"
        found.advise(HANGS, f"{words} look at its process, and start glb-fleet@ again there")
    elif state == "waits":
        found.advise(NOT_THERE, f"{name} waits: {server['waits']}")
    elif "behind" not in server:
        found.advise(NOT_THERE, f"{name} starts: it {server['why']}")
    elif state == "starts":
        found.advise(NOT_THERE, f"{name} starts, and lets no query in yet")
    elif state != "there":
        found.advise(NOT_THERE, f"{name} is {server['behind']} entries behind, and catches up")


def look_at_members(etcd: Etcd, found: Report) -> None:
    """Whether each member of etcd answers, and whether there is room."""
    for member in list(etcd.members):
        # one that did not answer a moment ago is not waited for once more
        found.members[member] = None if member in etcd.silent else etcd.answers(member)
        if found.members[member] is None:
            why = etcd.silent[member]
            cure = why if "certificate" in why else f"start it again ({why})"
            found.advise(MEMBER, f"{member}, a member of etcd, does not answer: {cure}")
    for alarm in etcd.alarms():
        if alarm.get("alarm") == "NOSPACE":
            found.advise(FULL, "etcd is full: docs/operating/fleet.md, `When etcd is full`")
            break


def look_at_log(log: Log, look: Look, found: Report) -> None:
    """Whether somebody changed by hand what whoever begins anew from the newest base has to work, since others did."""
    if look.newest:
        since = min(base.number for base in look.bases if base.checksum == look.newest.checksum)
        for words in log.changed_by_hand(look.newest.upto, since):
            found.advise(NOT_THERE, words)


def seen(log: Log, seconds: float) -> Report:
    """All that the command says of a fleet whose followers have so long to answer."""
    try:
        asked, look = asked_of_all(log, seconds)
        found = report(log, look, asked)
    except Full as why:
        # nobody can be asked, and what stands there may be old
        look = log.look()
        found = report(log, look)
        found.advise(FULL, str(why))
    look_at_log(log, look, found)
    look_at_members(log.etcd, found)
    return found


# The command.


def add_expected(parser: argparse.ArgumentParser) -> None:
    parser.add_argument(
        "--expect",
        metavar="NAMES",
        default=os.environ.get("GLB_EXPECT", ""),
        help="names of servers that there should be, joined by commas: one that etcd has no word of is gone (GLB_EXPECT)",
    )


def log_of(options: argparse.Namespace) -> Log:
    """The log, for whoever looks at its servers."""
    log = Log(etcd_of(options), options.prefix)
    names = [name.strip() for name in options.expect.split(",") if name.strip()]
    for name in names:
        check_word(name, "--expect", "/")
    log.expected = frozenset(names)
    return log


def line_of(server: State) -> str:
    if "entry" not in server:
        return f"{server['name']}: {server['state']}: {server.get('why', 'what it told cannot be read')}"
    spot = spot_of(number_in(server, "entry"), str(server.get("chain")))
    checksum = str(maps_of(server).get(spot, "-"))[:12]
    age = max(int(time.time()) - number_in(server, "time"), 0)
    line = (
        f"{server['name']}: {server['state']}, entry {server['entry']} (behind {server['behind']}),"
    )
    line += f" base {str(server.get('base'))[:12]}, serial {server.get('serial')}, map {checksum},"
    line += f" placed {server.get('placed')} unplaced {server.get('unplaced')}, said {age} s ago"
    return line + (f"; {server['waits']}" if "waits" in server else "")


def say(found: Report) -> None:
    base = f", its newest base is entry {found.base_entry}, {found.base[:12]}" if found.base else ""
    print(f"the log ends at entry {found.last}{base}")
    for server in found.servers:
        print(plain(line_of(server)))
    for _, words in found.advice:
        print(plain(f"! {words}"))


ABOUT = """Lists the servers that follow a log of batches: how far each is, and whether they agree.

A line for each server, and one with `!` for each thing that is not as it should be, with what to do. Where several
statuses hold, the first of 3, 2, 4, 6, 5, 1 and 7 is the command's."""


def main() -> int:
    words = parser("glb-fleet", ABOUT, STATUSES, json=True)
    add_etcd_options(words)
    add_expected(words)
    words.add_argument(
        "--wait", type=float, default=3, metavar="N", help="how long followers have to answer (3)"
    )
    words.add_argument(
        "--forget", metavar="NAME", help="takes a server off the list that is no more"
    )
    options = words.parse_args()
    log = log_of(options)
    if options.forget:
        return forget(log, options)
    found = seen(log, options.wait)
    if options.json:
        print(json.dumps(asdict(found) | {"status": found.status}, indent=2))
    else:
        say(found)
    return found.status


def forget(log: Log, options: argparse.Namespace) -> int:
    look = log.look()
    if options.forget not in look.servers and options.forget not in look.states:
        raise Fault(f"there is no server {options.forget}")
    if options.forget in look.states:
        raise Fault(f"{options.forget} is followed: stop glb-follow@ on its host first")
    log.forget(options.forget)
    return DONE


if __name__ == "__main__":
    run(main)
