"""Serves metrics of one server, or of a fleet, to Prometheus.

    glb serve .. | glb-exporter --said -                   one server: what it says, line by line
    glb-exporter --fleet                                   a fleet: its log, and what each server tells in etcd
    .. --glb /usr/bin/glb                                  and the load of each node: a `glb` of its own works the log of
                                                           the fleet, or --log FILE from --topology FILE, beside the servers
    .. --text-file FILE.prom                               into a file for the text file collector of prometheus-node-exporter

It answers at http://ADDR:PORT/metrics. With --said it ends with its input. docs/operating/metrics.md has the names of all metrics,
and examples/glb-alerts.yml the alerts on them.
"""

import argparse
import os
import re
import select
import sys
import threading
import time
from collections.abc import Iterable, Iterator
from http.client import HTTPException
from pathlib import Path

from prometheus_client import CollectorRegistry, generate_latest, start_http_server
from prometheus_client.core import CounterMetricFamily, GaugeMetricFamily, Metric
from prometheus_client.registry import Collector

from glb_tools.bounded import Bound
from glb_tools.etcd import PATIENCE, Etcd, add_etcd_options, etcd_of
from glb_tools.fleet import Report, add_expected, log_of, look_at_members, report
from glb_tools.loads import FileWorker, FleetWorker, Worker
from glb_tools.log import Log
from glb_tools.options import WRONG_WORDS, Fault, parser, tell, write_file

PUBLISHED = re.compile(r"published (\d+)")
SHOWN = re.compile(r"show (\d+) placed (\d+) unplaced (\d+) full (\d+)")
DROPPED = re.compile(r"refused commit (lines|memory)\b")
REFUSED = re.compile(r"refused (\d+) ")
# the number of a feed, where there are several
FEED = re.compile(r"[1-4] ")
QUOTA = re.compile(rb"(?m)^etcd_server_quota_backend_bytes ([0-9.e+]+)$")
# etcd's quota where nothing sets one
USUAL_QUOTA = 2 << 30


def gauge(name: str, words: str, labels: list[str] | None = None) -> GaugeMetricFamily:
    return GaugeMetricFamily(name, words, labels=labels)


def plain(name: str, words: str, value: float) -> GaugeMetricFamily:
    return GaugeMetricFamily(name, words, value=value)


# One server.


class Said(Collector):  # type: ignore[misc]
    """What a server says: the lines of its output."""

    def __init__(self, server: str) -> None:
        self.labels = ["server"] if server else []
        self.label = [server] if server else []
        self.newest: dict[str, float] = {}
        self.batches = {"lines": 0, "memory": 0}
        self.lines = 0

    def take(self, line: str, now: float) -> bool:
        """Whether the line says something."""
        if mark := FEED.match(line):
            line = line[mark.end() :]
        if found := PUBLISHED.fullmatch(line):
            self.newest |= {"serial": int(found[1]), "published": now}
        elif found := SHOWN.fullmatch(line):
            serial, placed, unplaced, full = map(int, found.groups())
            self.newest |= {"serial": serial, "placed": placed, "unplaced": unplaced}
            self.newest |= {"full": full, "shown": now}
        elif found := DROPPED.match(line):
            self.batches[found[1]] += 1
        elif REFUSED.match(line):
            self.lines += 1
        else:
            return False
        return True

    NAMES = {
        "serial": ("glb_serial", "Serial of the newest map that was said, 0 the one from scratch"),
        "published": (
            "glb_last_publish_timestamp_seconds",
            "When a commit was answered by `published` the last time",
        ),
        "placed": ("glb_placed_units", "Units of demand that the newest map places"),
        "unplaced": ("glb_unplaced_units", "Units of demand for which no pool had room"),
        "full": ("glb_full_nodes", "Nodes with as many units as their capacity"),
        "shown": ("glb_shown_timestamp_seconds", "When `show` was answered the last time"),
    }

    def collect(self) -> Iterator[Metric]:
        for key, (name, words) in self.NAMES.items():
            if key in self.newest:
                family = gauge(name, words, self.labels)
                family.add_metric(self.label, self.newest[key])
                yield family
        batches = CounterMetricFamily(
            "glb_refused_batches",
            "Batches that were dropped, for refused lines or for want of memory",
            labels=[*self.labels, "why"],
        )
        for why, count in self.batches.items():
            batches.add_metric([*self.label, why], count)
        yield batches
        lines = CounterMetricFamily(
            "glb_refused_lines", "Lines of the feed that were refused", labels=self.labels
        )
        lines.add_metric(self.label, self.lines)
        yield lines


def lines_of(descriptor: int) -> Iterator[str | None]:
    """The lines as they come, and none where a second passes without one. It ends with the input."""
    rest = b""
    while True:
        if not select.select([descriptor], [], [], 1)[0]:
            yield None
            continue
        octets = os.read(descriptor, 65536)
        if not octets:
            if rest:
                yield rest.decode("latin-1")
            return
        *whole, rest = (rest + octets).split(b"\n")
        for line in whole:
            yield line.decode("latin-1")


# The loads.


class Loaded(Collector):  # type: ignore[misc]
    """The newest loads, and whether the program beside works."""

    def __init__(self, worker: Worker) -> None:
        self.worker = worker

    def collect(self) -> Iterator[Metric]:
        yield plain(
            "glb_map_up",
            "Whether a program works the log beside the servers (1) or not (0)",
            self.worker.is_up,
        )
        found = self.worker.loads
        if found is None:
            return
        load = gauge(
            "glb_node_load_units", "Units at a node or under it, in the newest map", ["node"]
        )
        capacity = gauge("glb_node_capacity_units", "Units that a node may have", ["node"])
        for name, (units, most) in found.nodes.items():
            load.add_metric([name], units)
            capacity.add_metric([name], most)
        last = gauge(
            "glb_last_resort_units", "Units at a pool of last resort: they lack a place", ["pool"]
        )
        for name, units in found.last_resort.items():
            last.add_metric([name], units)
        yield from (load, capacity, last)
        yield plain(
            "glb_map_entry", "Entry or batch of the log up to which the loads go", found.entry
        )
        yield plain("glb_map_timestamp_seconds", "When the loads were summed up", found.time)
        yield plain(
            "glb_map_demand_units", "Units that all groups and classes ask for", found.demand
        )
        yield plain("glb_map_placed_units", "Units that are placed", found.placed)
        yield plain(
            "glb_map_unplaced_units", "Units that are placed nowhere", found.demand - found.placed
        )
        yield plain(
            "glb_map_unserved_groups",
            "Groups and classes of which nothing is placed: answered SERVFAIL",
            found.unserved,
        )


# A fleet.


class Fleet(Collector):  # type: ignore[misc]
    """Looks at the log and at what its servers tell, again and again; what it saw last is served."""

    def __init__(self, log: Log, every: float) -> None:
        self.log, self.every = log, every
        self.report: Report | None = None
        self.quotas: dict[str, float] = {}
        self.looked = 0.0
        self.told: str | None = None

    def run(self) -> None:
        while True:
            self.look()
            time.sleep(self.every)

    def look(self) -> None:
        found: Report | None = None
        try:
            found = report(self.log, self.log.look())
            look_at_members(self.log.etcd, found)
            answering = [member for member, told in found.members.items() if told is not None]
            self.quotas = {member: quota_of(self.log.etcd, member) for member in answering}
        except Exception as why:
            # whatever it is: a thread that has ended would serve old values for ever; the same fault is told once
            if str(why) != self.told:
                tell(why)
            self.told, found = str(why), None
        else:
            self.told = None
        # what cannot be seen any more is not served as if it were seen
        self.report, self.looked = found, time.time()

    def collect(self) -> Iterator[Metric]:
        found = self.report
        yield plain(
            "glb_log_up", "Whether the log in etcd can be read (1) or not (0)", found is not None
        )
        yield plain("glb_looked_timestamp_seconds", "When it was looked the last time", self.looked)
        if found is None:
            return
        yield plain("glb_fleet_status", "The status with which glb-fleet ends", found.status)
        yield plain("glb_servers", "Servers that there should be", len(found.servers))
        yield plain("glb_log_entry", "Number of the last entry of the log", found.last)
        yield plain("glb_log_base_entry", "Entry at which the newest base stands", found.base_entry)
        yield plain(
            "glb_log_dropped_entries",
            "Batches among the last hundred entries that were dropped whole",
            len(found.dropped),
        )
        yield plain(
            "glb_differing_entries",
            "Entries at which two servers have different maps",
            len(found.differ),
        )
        yield plain(
            "glb_rolling", "Whether a base is being rolled (1) or not (0)", bool(found.roll)
        )
        yield from self.servers(found)
        yield from self.members(found)

    STATES = ("there", "behind", "waits", "starts", "hangs", "silent", "gone", "ended")

    def servers(self, found: Report) -> Iterable[Metric]:
        up = gauge(
            "glb_server_up", "Whether a follower tells of the server (1) or not (0)", ["server"]
        )
        state = gauge(
            "glb_server_state",
            "1 at the state that glb-fleet says of the server",
            ["server", "state"],
        )
        differs = gauge(
            "glb_server_differs", "Whether its map is not that of the most at an entry", ["server"]
        )
        info = gauge(
            "glb_server_info",
            "Base, program and version of the map's text",
            ["server", "base", "program", "version"],
        )
        at_base = gauge("glb_server_at_newest_base", "Whether it has the newest base", ["server"])
        numbers = {
            "entry": gauge("glb_server_entry", "Entry that it worked last", ["server"]),
            "behind": gauge(
                "glb_server_behind_entries", "Entries that it has not worked yet", ["server"]
            ),
            "serial": gauge("glb_serial", "Serial of its newest map", ["server"]),
            "placed": gauge(
                "glb_placed_units", "Units of demand that its newest map places", ["server"]
            ),
            "unplaced": gauge("glb_unplaced_units", "Units for which no pool had room", ["server"]),
            "time": gauge(
                "glb_server_told_timestamp_seconds", "When it told its state", ["server"]
            ),
        }
        outvoted = outvoted_in(found)
        for server in found.servers:
            name = server["name"]
            up.add_metric([name], "entry" in server)
            for one in self.STATES:
                state.add_metric([name, one], server["state"] == one)
            if "entry" not in server:
                continue
            words = [str(server.get(key, "")) for key in ("base", "program", "version")]
            info.add_metric([name, *words], 1)
            at_base.add_metric([name], bool(found.base) and found.base.startswith(words[0] or "-"))
            differs.add_metric([name], name in outvoted)
            for key, family in numbers.items():
                if isinstance(server.get(key), int):
                    family.add_metric([name], server[key])
        return [up, state, info, at_base, differs, *numbers.values()]

    def members(self, found: Report) -> Iterable[Metric]:
        up = gauge(
            "glb_etcd_member_up", "Whether a member of etcd answers (1) or not (0)", ["member"]
        )
        size = gauge("glb_etcd_database_bytes", "Size of a member's database", ["member"])
        used = gauge("glb_etcd_database_used_bytes", "What of it is in use", ["member"])
        quota = gauge("glb_etcd_quota_bytes", "Size at which a member takes no more", ["member"])
        for member, told in found.members.items():
            up.add_metric([member], told is not None)
            if told is not None:
                size.add_metric([member], int(told.get("dbSize", 0)))
                used.add_metric([member], int(told.get("dbSizeInUse", 0)))
                quota.add_metric([member], self.quotas.get(member, USUAL_QUOTA))
        full = any("etcd is full" in words for _, words in found.advice)
        return [
            up,
            size,
            used,
            quota,
            plain("glb_etcd_full", "Whether etcd takes no more (1) or not (0)", full),
        ]


def outvoted_in(found: Report) -> set[str]:
    """The servers whose map is not that of the most, at an entry at which they differ; all of them where there is no most."""
    outvoted: set[str] = set()
    for sides in found.differ.values():
        most = max(len(names) for names in sides.values())
        largest = [names for names in sides.values() if len(names) == most]
        for names in sides.values():
            if len(names) < most or len(largest) > 1:
                outvoted.update(names)
    return outvoted


def quota_of(etcd: Etcd, member: str) -> float:
    """A member's quota, which it tells among its own metrics alone."""
    try:
        with etcd.open(member, "/metrics", None, Bound(PATIENCE)) as answer:
            found = QUOTA.search(answer.read(4 << 20))
    except (OSError, ValueError, HTTPException):
        return USUAL_QUOTA
    return float(found[1]) if found else USUAL_QUOTA


# The command.


def options_of() -> argparse.Namespace:
    words = parser("glb-exporter", __doc__ or "")
    words.add_argument(
        "--listen", metavar="ADDR:PORT", default="127.0.0.1:9853", help="where it answers"
    )
    words.add_argument(
        "--text-file", metavar="FILE", help="writes a file in the place of answering"
    )
    words.add_argument("--said", metavar="FILE", help="a server's output; - is standard input")
    words.add_argument("--server", metavar="NAME", default="", help="that server's label")
    words.add_argument("--fleet", action="store_true", help="the fleet of the log in etcd")
    words.add_argument(
        "--glb", metavar="PROGRAM", help="the program that works the log for the loads"
    )
    words.add_argument("--topology", metavar="FILE", help="what that server starts from")
    words.add_argument("--log", metavar="FILE", help="the log of changes that it reads")
    words.add_argument(
        "--every", metavar="SECONDS", type=float, default=5, help="how often it looks (5)"
    )
    add_etcd_options(words)
    add_expected(words)
    options = words.parse_args()
    if (options.said is None) == (not options.fleet):
        words.error("one of --said and --fleet")
    together = [options.glb, options.topology, options.log]
    if not options.fleet and None in together and any(together):
        words.error("--glb, --topology and --log go together")
    if not 0.1 <= options.every <= 3600:
        words.error("--every is 0.1 to 3600")
    return options


def listens(registry: CollectorRegistry, address: str) -> None:
    host, _, port = address.rpartition(":")
    if not port.isdigit() or not 0 < int(port) < 65536:
        raise Fault(f"--listen {address}: ADDR:PORT", WRONG_WORDS)
    try:
        start_http_server(int(port), host.strip("[]"), registry)
    except OSError as why:
        raise Fault(f"{address}: {why.strerror or why}") from None


def main() -> None:
    options = options_of()
    registry = CollectorRegistry(auto_describe=False)
    path = Path(options.text_file) if options.text_file else None
    worker: Worker | None = None
    if options.fleet:
        fleet = Fleet(log_of(options), options.every)
        registry.register(fleet)
        if options.glb:
            worker = FleetWorker(options.glb, options.every, Log(etcd_of(options), options.prefix))
        fleet.look()
        threading.Thread(target=fleet.run, daemon=True).start()
    else:
        said = Said(options.server)
        registry.register(said)
        if options.glb:
            worker = FileWorker(options.glb, options.every, options.topology, options.log)
    if worker:
        registry.register(Loaded(worker))
        threading.Thread(target=worker.run, daemon=True).start()
    if path is None:
        listens(registry, options.listen)
    if options.fleet:
        serve_fleet(registry, path, options.every)
    else:
        serve_lines(said, registry, path, options.said)


def serve_fleet(registry: CollectorRegistry, path: Path | None, every: float) -> None:
    while True:
        if path is not None:
            write_file(path, generate_latest(registry))
        time.sleep(every)


def serve_lines(said: Said, registry: CollectorRegistry, path: Path | None, name: str) -> None:
    """Takes the lines to their end; a file is written once a second at most, and at the end."""
    if path is not None:
        write_file(path, generate_latest(registry))
    written, is_due = time.monotonic(), False
    descriptor = sys.stdin.fileno() if name == "-" else os.open(name, os.O_RDONLY)
    for line in lines_of(descriptor):
        if line is not None and said.take(line, int(time.time())):
            is_due = True
        if path is not None and is_due and time.monotonic() - written >= 1:
            write_file(path, generate_latest(registry))
            written, is_due = time.monotonic(), False
    if path is not None and is_due:
        write_file(path, generate_latest(registry))
