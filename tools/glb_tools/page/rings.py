"""Values of the last day, one a minute, kept in memory where no Prometheus keeps them."""

import math
import threading
import time
from collections.abc import Iterator

import numpy as np

from glb_tools.page.tables import Numbers

# how many values a series has, how far they are from each other in seconds, and how many series there are at most
MINUTES, APART, MOST_SERIES = 1440, 60.0, 256
Series = list[tuple[float, float]]


class Rings:
    """By name of a chart and of a series, the values of the last day; a minute without one has none."""

    def __init__(self) -> None:
        self.lock = threading.Lock()
        self.values: dict[tuple[str, str], Numbers] = {}
        # the minute of the newest values, counted from 1970
        self.minute = 0
        # by counter, what it was and when
        self.counters: dict[tuple[str, str], tuple[float, float]] = {}

    def put(self, chart: str, series: str, value: float, now: float | None = None) -> None:
        """The value of this minute; a later one of the same minute takes its place."""
        minute = int((time.time() if now is None else now) // APART)
        with self.lock:
            self.turn_to(minute)
            ring = self.values.get((chart, series))
            if ring is None:
                if len(self.values) >= MOST_SERIES:
                    return
                ring = self.values[chart, series] = np.full(MINUTES, np.nan, np.float64)
            if minute > self.minute - MINUTES:
                ring[minute % MINUTES] = value

    def turn_to(self, minute: int) -> None:
        """Empties the minutes that passed without a value. A clock that jumps far empties all."""
        if minute <= self.minute:
            return
        passed = min(minute - self.minute, MINUTES)
        gone = [(minute - back) % MINUTES for back in range(passed)]
        for ring in self.values.values():
            ring[gone] = np.nan
        self.minute = minute
        # what has no value any more is no series any more
        for key in [key for key, ring in self.values.items() if np.isnan(ring).all()]:
            del self.values[key]

    def count(self, chart: str, series: str, total: float, now: float | None = None) -> None:
        """What a counter says: its rate a second is put. A counter that begins anew has none for a moment."""
        moment = time.time() if now is None else now
        with self.lock:
            before = self.counters.get((chart, series))
            self.counters[chart, series] = total, moment
        if before is not None and moment > before[1] and total >= before[0]:
            self.put(chart, series, (total - before[0]) / (moment - before[1]), moment)

    def chart(self, name: str, now: float | None = None) -> dict[str, Series]:
        """By series, the times and values of a chart, the oldest first."""
        minute = int((time.time() if now is None else now) // APART)
        with self.lock:
            return {
                series: list(pairs(ring, self.minute, minute))
                for (chart, series), ring in sorted(self.values.items())
                if chart == name
            }


def pairs(ring: Numbers, newest: int, now: int) -> Iterator[tuple[float, float]]:
    for minute in range(max(newest, now) - MINUTES + 1, newest + 1):
        if minute > newest - MINUTES and not math.isnan(value := float(ring[minute % MINUTES])):
            yield minute * APART, value
