"""Charts of the last day: from Prometheus where it has values, else from the page's own memory."""

from collections.abc import Callable
from dataclasses import dataclass

from glb_tools.drawing import MOST_LINES, draw_chart, short_value
from glb_tools.log import plain
from glb_tools.page.rings import Series
from glb_tools.page.views.common import Shown, moment

DAY, HOUR = 86400.0, 3600.0
Charts = Callable[[str], dict[str, Series]]


@dataclass(frozen=True)
class Kind:
    name: str
    title: str
    unit: str
    # what it means where the line rises
    words: str
    # how the series of servers are made one where there are too many
    is_sum: bool = False


KINDS = (
    Kind("unplaced", "Placed nowhere", "units", "above 0: no pool of its group had room"),
    Kind("placed", "Placed", "units", "units that have a pool"),
    Kind("moved", "Moved", "units a minute", "clients that a batch sent elsewhere"),
    Kind("full", "Full nodes", "nodes", "rising: capacity runs out, or pools are out"),
    Kind("last_resort", "At a pool of last resort", "units", "above 0: they lack a place"),
    Kind("behind", "Entries behind", "entries", "a server that does not keep up"),
    Kind("queries", "Queries", "a second", "of each server that is counted here", True),
    Kind("drops", "Datagrams lost", "a second", "they found a worker's buffer full", True),
)


def merged(series: dict[str, Series], is_sum: bool) -> dict[str, Series]:
    """At most as many series as a chart has lines: the largest, and one for all others."""
    if len(series) <= MOST_LINES:
        return series
    order = sorted(series, key=lambda name: -max((value for _, value in series[name]), default=0.0))
    kept = {name: series[name] for name in sorted(order[: MOST_LINES - 1])}
    rest: dict[float, list[float]] = {}
    for name in order[MOST_LINES - 1 :]:
        for when, value in series[name]:
            rest.setdefault(when, []).append(value)
    title = f"{len(series) - len(kept)} others, {'in all' if is_sum else 'the largest'}"
    return kept | {
        title: [(when, sum(rest[when]) if is_sum else max(rest[when])) for when in sorted(rest)]
    }


def chart_shown(kind: Kind, series: dict[str, Series], source: str, now: float) -> Shown:
    # a server's name may be anything
    lines = {plain(name): pairs for name, pairs in merged(series, kind.is_sum).items() if pairs}
    first = min((pairs[0][0] for pairs in lines.values()), default=now)
    # what is younger than a day is drawn as wide as there is room
    start = max(now - DAY, min(first, now - HOUR))
    legend = []
    for number, (name, pairs) in enumerate(lines.items()):
        last = short_value(pairs[-1][1])
        most = short_value(max(value for _, value in pairs))
        legend.append({"name": name, "last": last, "most": most, "line": f"s{number}"})
    return {
        "title": kind.title,
        "unit": kind.unit,
        "words": kind.words,
        "source": source,
        "drawing": draw_chart(lines, start, now) if lines else "",
        "legend": legend,
        "since": moment(first) if lines else "",
    }


def over_time_shown(own: Charts, asked: dict[str, dict[str, Series]], now: float) -> Shown:
    """Each chart from Prometheus where that has a value of it, else from the page's own ring."""
    found = []
    for kind in KINDS:
        told = {name: pairs for name, pairs in asked.get(kind.name, {}).items() if pairs}
        if told:
            found.append(chart_shown(kind, told, "Prometheus", now))
        else:
            found.append(chart_shown(kind, own(kind.name), "this page", now))
    # what has no values is said in one line, and last
    found.sort(key=lambda chart: not chart["drawing"])
    return {"charts": found}
