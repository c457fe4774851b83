"""What glb-watch serves to Prometheus of itself."""

import time

from prometheus_client import CollectorRegistry, Counter, Gauge, start_http_server

from glb_tools.options import Fault
from glb_tools.watch_engine import Found
from glb_tools.watch_logs import Served


class Metrics:
    def __init__(self, address: str) -> None:
        self.registry = registry = CollectorRegistry()
        self.up = Gauge("glb_watch_up", "Whether the last look had all answers", registry=registry)
        self.looked = Gauge(
            "glb_watch_looked_timestamp_seconds",
            "When the last look had all answers",
            registry=registry,
        )
        self.faults = Gauge(
            "glb_watch_faults", "Rules with a fault in their answer", registry=registry
        )
        self.brakes = Gauge(
            "glb_watch_brakes", "Brakes that hold, of trees and of all", registry=registry
        )
        self.oldest = Gauge(
            "glb_watch_oldest_input_seconds",
            "How long ago the series had a value last that was silent for the longest time",
            registry=registry,
        )
        self.jumps = Gauge(
            "glb_watch_demand_brakes", "Sums and names of demands that jumped", registry=registry
        )
        self.by_hand = Gauge("glb_watch_by_hand", "Names that somebody else set", registry=registry)
        self.drained = Gauge("glb_watch_drained", "Nodes that glb-drain holds", registry=registry)
        self.failed_looks = Counter(
            "glb_watch_failed_looks", "Looks that ended with a fault", registry=registry
        )
        self.batches = Counter("glb_watch_batches", "Batches that were appended", registry=registry)
        self.changes = Counter(
            "glb_watch_changes", "Changes that were appended", ["word"], registry=registry
        )
        host, _, port = address.rpartition(":")
        if not host or not port.isdigit() or int(port) > 65535:
            raise Fault(f"`metrics`: {address} is no ADDR:PORT")
        start_http_server(int(port), host.strip("[]"), registry)

    def take(self, found: Found, served: Served, is_appended: bool) -> None:
        self.up.set(not found.faults)
        self.faults.set(len(found.faults))
        self.brakes.set(len(found.brakes))
        self.jumps.set(len(found.jumps))
        self.oldest.set(found.oldest)
        self.by_hand.set(len(served.by_hand))
        self.drained.set(len(served.drains))
        if not found.faults:
            self.looked.set(time.time())
        if is_appended:
            self.batches.inc()
            for each in found.batch:
                self.changes.labels(each.word).inc()

    def waits(self) -> None:
        """Another one leads: what is at fault is that one's to say."""
        for gauge in (self.up, self.faults, self.brakes, self.jumps, self.oldest):
            gauge.set(0)

    def failed(self) -> None:
        self.up.set(0)
        self.failed_looks.inc()
