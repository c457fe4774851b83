"""Charts of the last day from Prometheus, asked for in the background: a page never waits for it."""

import json
import math
import threading
import time
from typing import Any

import requests

from glb_tools.options import Fault, tell
from glb_tools.page.rings import Series

# the span and the step of a chart, how often it is asked for, and how long an answer may take, in seconds
DAY, STEP, EVERY, PATIENCE = 86400, 300, 60.0, 5.0
# the largest answer that is read, in octets, and the most series of a chart
LARGEST, MOST_SERIES = 1 << 22, 64
# by chart, its expression and the label that names its series
EXPRESSIONS = {
    "placed": ("glb_map_placed_units", ""),
    "unplaced": ("glb_map_unplaced_units", ""),
    "last_resort": ("sum(glb_last_resort_units)", ""),
    "full": ("count(glb_node_load_units >= glb_node_capacity_units) or vector(0)", ""),
    "behind": ("glb_server_behind_entries", "server"),
}


class Prometheus(threading.Thread):
    """Asks for all charts again and again; what came last is there."""

    def __init__(self, url: str, queries: str = "") -> None:
        super().__init__(daemon=True)
        self.url = url.rstrip("/")
        self.expressions = dict(EXPRESSIONS)
        if queries:
            self.expressions["queries"] = (queries, "server")
        self.charts: dict[str, dict[str, Series]] = {}
        self.fault, self.asked = "it was not asked yet", 0.0
        self.over = threading.Event()

    def run(self) -> None:
        while not self.over.is_set():
            try:
                self.charts, self.fault = self.all_charts(time.time()), ""
            except (
                Exception
            ) as why:  # noqa: BLE001: a thread that has ended would show old charts for ever
                if self.fault != words_of(why):
                    tell(Fault(f"Prometheus: {words_of(why)}"))
                self.fault, self.charts = words_of(why), {}
            self.asked = time.time()
            self.over.wait(EVERY)

    def all_charts(self, now: float) -> dict[str, dict[str, Series]]:
        found = {}
        for name, (expression, label) in self.expressions.items():
            found[name] = series_in(self.read(expression, now), label)
        return found

    def read(self, expression: str, now: float) -> bytes:
        message = {
            "query": expression,
            "start": f"{now - DAY:.0f}",
            "end": f"{now:.0f}",
            "step": str(STEP),
            "timeout": f"{PATIENCE:g}s",
        }
        end, found = time.monotonic() + PATIENCE, bytearray()
        with requests.Session() as session:
            # what the environment says of proxies and passwords is not meant for it
            session.trust_env = False
            with session.post(
                f"{self.url}/api/v1/query_range", data=message, timeout=PATIENCE, stream=True
            ) as reply:
                for piece in reply.iter_content(1 << 14):
                    found += piece
                    if len(found) > LARGEST or time.monotonic() > end:
                        raise Fault("no whole answer, or too large a one")
                if reply.status_code != 200 and not found.startswith(b"{"):
                    raise Fault(f"it answered with status {reply.status_code}")
        return bytes(found)


def series_in(octets: bytes, label: str) -> dict[str, Series]:
    """The series of an answer, by a label's value. Values that are no numbers are left out."""
    told: dict[str, Any] = json.loads(octets)
    if told.get("status") != "success":
        raise Fault(f"it says {str(told.get('error', 'no success'))[:200]}")
    found: dict[str, Series] = {}
    for each in told["data"]["result"][:MOST_SERIES]:
        name = str(each["metric"].get(label, "")) if label else ""
        pairs = [(float(moment), float(value)) for moment, value in each["values"]]
        found[name] = [pair for pair in pairs if math.isfinite(pair[1])]
    return found


def words_of(why: Exception) -> str:
    """The innermost reason: requests wraps it several times."""
    inner: BaseException = why
    while inner.__cause__ or inner.__context__:
        inner = inner.__cause__ or inner.__context__  # type: ignore[assignment]
    return " ".join(str(inner).split())[:200]
