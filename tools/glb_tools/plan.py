"""glb-plan: what a batch or another topology would do to what is served, before anybody serves it."""

import argparse
import json
import subprocess
import sys
import tempfile
from collections.abc import Iterable
from dataclasses import dataclass
from pathlib import Path
from typing import Any

from glb_tools.append import batch_of, check
from glb_tools.etcd import ETCD_STATUSES, add_etcd_options, etcd_of
from glb_tools.history import topology_at
from glb_tools.log import Log, Look
from glb_tools.log_command import last_map, map_at
from glb_tools.map import Map, Sums, map_of
from glb_tools.moves import placed_of, report
from glb_tools.options import DONE, FAULT, Fault, Progress, parser, read_file
from glb_tools.shared_addresses import remarks, warn
from glb_tools.text import MOST_CAPACITY, Change, Replay, lines_of
from glb_tools.topology import Topology, written

ABOUT = """Says what a batch, or another topology, would do to what is served now; nothing is sent anywhere.

    glb-plan LINES                         over the newest entry of a fleet's log
    glb-plan --topology NEW                the same with a topology in place of a batch
    glb-plan --of TOPOLOGY MAP LINES       over a map and the topology with its numbers
    glb-plan --of-log TOPOLOGY LOG LINES   over what a server has that began from TOPOLOGY and read LOG

LINES is a file of changes, `-` for standard input. A batch is worked by `glb repair`, a topology by `glb map`, as servers
do it."""
REFUSED, WORSE, MANY = 2, 3, 4
STATUSES = {
    REFUSED: "a server would refuse the batch or the topology: one line on standard error says why",
    WORSE: "fewer units would have a place, or more of them at a pool of last resort only",
    MANY: "more units would move than --most allows",
}
# a pool of last resort has this score, which says nothing of how far it is
NO_SCORE = 2**32 - 1


@dataclass
class Served:
    """A topology with the numbers that are served, and the map of them."""

    topology: bytes
    map: bytes


def program_fault(glb: str, why: OSError) -> str:
    """Why the program cannot be run, and, of one that the PATH does not have, how to name it."""
    return f"{glb}: {why.strerror}" + (
        "" if "/" in glb else " in the PATH: --glb names the program"
    )


def asked(glb: str, command: str, *octets: bytes, patience: float | None = None) -> bytes:
    """What the program writes for a command over these files, within so many seconds; a refusal is told."""
    with tempfile.TemporaryDirectory(prefix="glb-plan-") as folder:
        paths = []
        for number, each in enumerate(octets):
            path = Path(folder, str(number))
            path.write_bytes(each)
            paths.append(str(path))
        try:
            ended = subprocess.run([glb, command, *paths], capture_output=True, timeout=patience)
        except OSError as why:
            raise Fault(program_fault(glb, why)) from None
        except subprocess.TimeoutExpired:
            raise Fault(f"{glb} {command} took longer than {patience:g} s") from None
    if ended.returncode in (2, 7):
        raise Fault(ended.stdout[:400].decode("utf-8", "replace").strip(), REFUSED)
    if ended.returncode:
        raise Fault(f"{glb} {command} ended with {ended.returncode}")
    return ended.stdout


def with_batch(glb: str, served: Served, lines: bytes) -> Served:
    """What servers would have behind a batch."""
    topology = Topology(served.topology)
    replay = Replay(topology)
    try:
        batch = batch_of(lines).encode()
        check(lines_of(batch), topology)
    except Fault as why:
        raise Fault(str(why).removesuffix(" (nothing was appended)"), REFUSED) from None
    replay.take(batch + b"commit\n")
    repaired = asked(glb, "repair", served.topology, served.map, batch)
    return Served(written(topology, replay.numbers).encode(), repaired)


def with_topology(glb: str, octets: bytes) -> Served:
    """What servers would have that begin from a topology."""
    return Served(octets, asked(glb, "map", octets))


# What it comes to.


@dataclass
class Side:
    """One of the two, read."""

    topology: Topology
    found: Map
    sums: Sums

    @classmethod
    def of(cls, served: Served) -> "Side":
        topology = Topology(served.topology)
        found = map_of(topology, served.map)
        return cls(topology, found, Sums(topology, found))

    def demand(self) -> int:
        return sum(unit.demand for unit in self.topology.units)

    def unplaced(self) -> int:
        return self.demand() - sum(self.sums.placed)

    def last_resort(self) -> int:
        return sum(self.sums.last_resort().values())

    def limits(self) -> int:
        return sum(name.node is None for name in self.found.names)

    def mean_score(self) -> float | None:
        """Over the units that are placed, but at a pool of last resort."""
        units = total = 0
        for (unit, place), amount in self.found.amounts.items():
            score = self.topology.units[unit].scores[place]
            if score != NO_SCORE:
                units, total = units + amount, total + score * amount
        return total / units if units else None

    def node(self, name: str) -> dict[str, Any] | None:
        at = self.topology.node_at.get(name)
        if at is None:
            return None
        capacity = self.topology.nodes[at].capacity
        return {
            "load": self.sums.load[at],
            "capacity": capacity,
            "full": self.sums.load[at] >= capacity,
        }

    def site(self, pool: str) -> str:
        """What stands right above a pool, or the pool where it is a root."""
        parent = self.topology.nodes[self.topology.node_at[pool]].parent
        return pool if parent is None else self.topology.nodes[parent].name


def by_site(flows: Iterable[dict[str, Any]], old: Side, new: Side) -> list[dict[str, Any]]:
    """Flows between sites, the largest first; within a site they have the same name at both ends."""
    found: dict[tuple[str | None, str | None], int] = {}
    for flow in flows:
        source = flow["from"] and old.site(flow["from"])
        target = flow["to"] and new.site(flow["to"])
        found[source, target] = found.get((source, target), 0) + flow["units"]
    listed = [{"from": a, "to": b, "units": units} for (a, b), units in found.items()]
    return sorted(listed, key=lambda flow: (-flow["units"], flow["from"] or "", flow["to"] or ""))


def compared(before: Served, after: Served) -> dict[str, Any]:
    """What is other behind than before: moves, nodes, limits, what has no place, and how far clients are."""
    old, new = Side.of(before), Side.of(after)
    moves = report(placed_of(before.map), placed_of(after.map))
    names = [node.name for node in old.topology.nodes]
    names += [node.name for node in new.topology.nodes if node.name not in old.topology.node_at]
    nodes = []
    for name in names:
        was, is_now = old.node(name), new.node(name)
        if was != is_now:
            nodes.append({"name": name, "before": was, "after": is_now})
    return {
        "moved": moves["moved"],
        "gained": moves["gained"],
        "lost": moves["lost"],
        "groups": len(moves["groups"]),
        "sites": by_site(moves["flows"], old, new),
        "flows": moves["flows"],
        "nodes": nodes,
        **{
            word: {"before": getattr(old, word)(), "after": getattr(new, word)()}
            for word in ("demand", "unplaced", "last_resort", "limits", "mean_score")
        },
    }


def is_worse(found: dict[str, Any]) -> bool:
    """Whether more units lack a place of their own."""
    lacking = [found["unplaced"][when] + found["last_resort"][when] for when in ("before", "after")]
    return bool(lacking[1] > lacking[0])


# What is said.


def amount(units: int) -> str:
    return "without end" if units == MOST_CAPACITY else f"{units:,}"


def node_line(node: dict[str, Any]) -> str:
    was, is_now = node["before"], node["after"]
    if was is None or is_now is None:
        there = is_now or was
        return f"{node['name']}: {'new' if was is None else 'gone'}, {amount(there['load'])} of {amount(there['capacity'])}"
    words = f"{node['name']}: {was['load']:,} to {is_now['load']:,} of {amount(is_now['capacity'])}"
    if was["capacity"] != is_now["capacity"]:
        words += f" (was {amount(was['capacity'])})"
    if is_now["capacity"] == 0:
        return words + ", out"
    if is_now["full"] != was["full"]:
        words += ", full" if is_now["full"] else ", no longer full"
    return words


def score_words(found: dict[str, Any]) -> str:
    scores = [found["mean_score"][when] for when in ("before", "after")]
    return " to ".join("none" if score is None else f"{score:.2f}" for score in scores)


def say(found: dict[str, Any], most: int) -> None:
    demand = found["demand"]["after"]
    share = 100 * found["moved"] / demand if demand else 0.0
    print(
        f"{found['moved']:,} of {demand:,} units would move ({share:.1f} %), {found['gained']:,} would get a place,"
        f" {found['lost']:,} would lose theirs, of {found['groups']:,} groups and classes"
    )
    for word, title in (
        ("unplaced", "placed nowhere"),
        ("last_resort", "at a pool of last resort"),
        ("limits", "limits reached"),
    ):
        before, after = found[word]["before"], found[word]["after"]
        if before or after:
            print(f"{title}: {before:,} to {after:,}")
    print(f"mean score: {score_words(found)}")
    for flow in found["sites"][:most]:
        inside = flow["from"] == flow["to"]
        ends = (
            f"within {flow['from']}"
            if inside
            else f"from {flow['from'] or 'nowhere'} to {flow['to'] or 'nowhere'}"
        )
        print(f"  {flow['units']:,} {ends}")
    if len(found["sites"]) > most:
        print(f"  and {len(found['sites']) - most:,} pairs of sites more")
    nodes = [
        node for node in found["nodes"] if not node["before"] or not node["after"] or changes(node)
    ]
    for node in nodes[:most]:
        print(f"  {node_line(node)}")
    if len(nodes) > most:
        print(f"  and {len(nodes) - most:,} nodes more")


def changes(node: dict[str, Any]) -> bool:
    """Whether a node fills, has room again, or has another capacity."""
    was, is_now = node["before"], node["after"]
    return bool(was["full"] != is_now["full"] or was["capacity"] != is_now["capacity"])


# What is served.


def served_by_log(glb: str, topology: bytes, log: bytes) -> Served:
    """What a server has that began from a topology and read a log of changes."""
    names = Topology(topology)
    replay = Replay(names)
    replay.take(log)
    numbers: dict[Change, int] = replay.numbers
    with tempfile.TemporaryDirectory(prefix="glb-plan-") as folder:
        path = Path(folder, "topology.toml")
        path.write_bytes(topology)
        words = [glb, "serve", str(path), "--listen", "127.0.0.1:0"]
        with tempfile.TemporaryFile() as feed:
            feed.write(log)
            feed.seek(0)
            try:
                with subprocess.Popen(
                    words, stdin=feed, stdout=subprocess.DEVNULL, stderr=subprocess.PIPE
                ) as server:
                    assert server.stderr
                    found = last_map(server.stderr)
            except OSError as why:
                raise Fault(program_fault(glb, why)) from None
    if server.returncode or not found.startswith(b"glb map "):
        raise Fault(f"{glb} serve ended with {server.returncode} over the topology and its log")
    return Served(written(names, numbers).encode(), found)


def served_at(glb: str, log: Log, look: Look) -> Served:
    """What the servers of a fleet have at the last entry that was seen."""
    if not look.last:
        raise Fault("the log is empty")
    return Served(topology_at(log, look, look.last), map_at(log, look.last, glb))


def served_by_fleet(glb: str, options: argparse.Namespace) -> Served:
    log = Log(etcd_of(options), options.prefix)
    return served_at(glb, log, log.look())


def served(options: argparse.Namespace) -> Served:
    if options.of:
        return Served(read_file(options.of[0]), read_file(options.of[1]))
    if options.of_log:
        return served_by_log(
            options.glb, read_file(options.of_log[0]), read_file(options.of_log[1])
        )
    return served_by_fleet(options.glb, options)


def main() -> int:
    words = parser("glb-plan", ABOUT, {**ETCD_STATUSES, **STATUSES}, json=True)
    add_etcd_options(words)
    words.add_argument(
        "--of", nargs=2, metavar=("TOPOLOGY", "MAP"), help="what is served, by its files"
    )
    words.add_argument(
        "--of-log", nargs=2, metavar=("TOPOLOGY", "LOG"), help="what is served, by a log of changes"
    )
    words.add_argument("--topology", metavar="NEW", help="a topology in place of a batch")
    words.add_argument(
        "--most",
        type=int,
        metavar="UNITS",
        help=f"the status is {MANY} where more units would move",
    )
    words.add_argument(
        "--lines",
        type=int,
        default=20,
        metavar="N",
        help="how many pairs of sites, and of nodes, are shown (20)",
    )
    words.add_argument("--glb", default="glb", metavar="PROGRAM", help="the program (glb)")
    words.add_argument(
        "batch", nargs="?", metavar="LINES", help="a file of changes, - for standard input"
    )
    options = words.parse_args()
    if (options.batch is None) == (options.topology is None):
        raise Fault("there has to be a file of changes, or --topology NEW", 64)
    if options.of and options.of_log:
        raise Fault("what is served is named by --of or by --of-log", 64)
    with Progress("works it"):
        before = served(options)
        if options.topology is not None:
            after = with_topology(options.glb, read_file(options.topology))
        else:
            lines = sys.stdin.buffer.read() if options.batch == "-" else read_file(options.batch)
            after = with_batch(options.glb, before, lines)
        found = compared(before, after)
    topology = Topology(after.topology)
    warn(topology)
    if options.json:
        print(json.dumps({**found, "warnings": remarks(topology)}, indent=2))
    else:
        say(found, options.lines)
    if is_worse(found):
        return WORSE
    return MANY if options.most is not None and found["moved"] > options.most else DONE


__all__ = [
    "FAULT",
    "Served",
    "asked",
    "compared",
    "is_worse",
    "main",
    "say",
    "with_batch",
    "with_topology",
]
