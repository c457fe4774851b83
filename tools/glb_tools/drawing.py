"""Drawings as SVG: bars of load and capacity, flows between pools, and values over time. picture.py and glb-page draw by it.

What is full is hatched and what is placed nowhere is dotted, beside their colours, which are those of Okabe and Ito: so they
are told apart by whoever sees no colours. Words never stand on bars, and each column is as wide as its longest word.
"""

import math
import time
from collections.abc import Callable, Iterable, Sequence
from dataclasses import dataclass, field
from html import escape

from glb_tools.text import MOST_CAPACITY

# how wide letters are at most, by a twelfth of their size: so a word has room in each common font without serifs
NARROW, WIDE = frozenset("iljtfr.,:;'|!()[] -I1"), frozenset("mwMW@%»…ABCDEFGHKNOPQRSUVXYZ")
LEFT, ROW, SIZE = 20, 22, 12
# colours, by class: ground, letters, and marks. The second ones are those of a dark screen
COLOURS = {
    "ground": ("#ffffff", "#14181c"),
    "shade": ("#f3f5f7", "#1d2329"),
    "ink": ("#1b1b1b", "#e8eaed"),
    "grey": ("#565b61", "#a9b0b8"),
    "alarm": ("#9a3400", "#ff9d5c"),
    "free": ("#0072b2", "#56b4e9"),
    "full": ("#d55e00", "#e8762a"),
    "nowhere": ("#e69f00", "#e69f00"),
    "g0": ("#0072b2", "#0072b2"),
    "g1": ("#e69f00", "#e69f00"),
    "g2": ("#009e73", "#009e73"),
    "g3": ("#cc79a7", "#cc79a7"),
    "g4": ("#56b4e9", "#56b4e9"),
    "g5": ("#d55e00", "#d55e00"),
    "g6": ("#f0e442", "#f0e442"),
    "g7": ("#999999", "#999999"),
}
LINES = {
    "frame": ("#6b7178", "#8b939b"),
    "break": ("#1b1b1b", "#e8eaed"),
    "axis": ("#c6cbd0", "#3a424a"),
    "s0": ("#0072b2", "#56b4e9"),
    "s1": ("#d55e00", "#e8762a"),
    "s2": ("#009e73", "#2fc79b"),
    "s3": ("#b0508a", "#cc79a7"),
    "s4": ("#8a6100", "#e69f00"),
    "s5": ("#565b61", "#a9b0b8"),
}
DASHES = {"s1": "6 3", "s2": "2 3", "s3": "8 3 2 3", "s4": "1 3", "s5": "10 4"}
MOST_COLOURS, MOST_LINES = 8, 6


def rules(which: int) -> str:
    found = "".join(f".{name}{{fill:{pair[which]}}}" for name, pair in COLOURS.items())
    found += "".join(f".{name}{{stroke:{pair[which]}}}" for name, pair in LINES.items())
    band = COLOURS["free"][which]
    return (
        found
        + f".band{{fill:{band};fill-opacity:.45}}.band.lost{{fill:{COLOURS['nowhere'][which]}}}"
    )


def style() -> str:
    """What the classes of a drawing look like, by light and by dark."""
    dashes = "".join(f".{name}{{stroke-dasharray:{dash}}}" for name, dash in DASHES.items())
    lines = ".frame,.break,.axis,.s0,.s1,.s2,.s3,.s4,.s5{fill:none}"
    bold = ".alarm,.bold{font-weight:bold}"
    return (
        f"{lines}{bold}{dashes}{rules(0)}"
        f"@media (prefers-color-scheme:dark){{{rules(1)}{lines}}}"
    )


PATTERNS = (
    '<defs><pattern id="hatch" width="6" height="6" patternUnits="userSpaceOnUse" patternTransform="rotate(45)">'
    '<rect width="6" height="6" class="full"/><rect width="1.6" height="6" class="ground"/></pattern>'
    '<pattern id="dots" width="6" height="6" patternUnits="userSpaceOnUse">'
    '<rect width="6" height="6" class="nowhere"/><circle cx="3" cy="3" r="1.2" class="ink"/></pattern></defs>'
)


# Words.


def short(number: int) -> str:
    """A number in at most seven letters, as 999,999 or 281.5 T."""
    for size, letter in [(10**12, "T"), (10**9, "G"), (10**6, "M")]:
        if number >= size:
            return f"{number / size:.1f} {letter}"
    return f"{number:,}"


def of_capacity(load: int, capacity: int) -> str:
    return f"{short(load)} of {'no end' if capacity == MOST_CAPACITY else short(capacity)}"


def share(load: int, capacity: int) -> str:
    """Percent of a capacity; what is not all of it never says 100 %."""
    if capacity <= 0:
        return "out" if load == 0 else "over"
    percent = 100 * load / capacity
    if load < capacity and percent > 99:
        return ">99 %"
    return "<1 %" if 0 < percent < 1 else f"{percent:.0f} %"


def count(number: int, one: str) -> str:
    return f"{number:,} {one if number == 1 else one + 's'}"


def width_of(text: str, size: float = SIZE) -> float:
    """How wide a text is at most."""
    twelfths = sum(4.5 if c in NARROW else 10.2 if c in WIDE else 7.4 for c in text)
    return twelfths * size / 12


def fitted(text: str, width: float, size: float = SIZE) -> str:
    """A text, cut where it has no room."""
    if width_of(text, size) <= width:
        return text
    while text and width_of(text + "…", size) > width:
        text = text[:-1]
    return text + "…"


def named(pairs: Sequence[tuple[str, str]], own: str, width: float, total: int = 0) -> str:
    """Groups that are refused, as many as have room, of so many. A pool is named where it is not the node itself."""
    words = [group if pool == own else f"{group} ({pool})" for group, pool in pairs]
    shown = 1
    while shown < len(words) and width_of(", ".join(words[: shown + 1])) <= width:
        shown += 1
    left = max(total, len(words)) - shown
    return ", ".join(words[:shown]) + (f" and {left:,} more" if left else "")


# Nodes.


@dataclass
class Row:
    """A node of a tree, and what is said of it."""

    name: str
    depth: int
    load: int
    capacity: int
    note: str = ""
    # in small worlds, by the number of a group, its units
    parts: list[tuple[int, int]] = field(default_factory=list)

    @property
    def is_full(self) -> bool:
        return self.load >= self.capacity

    @property
    def fullness(self) -> float:
        return self.load / self.capacity if self.capacity else 1.0


def chosen(rows: Sequence[Row], most: int) -> list[Row]:
    """The root, and the fullest of a tree's nodes where not all have room, in their order."""
    if len(rows) <= most:
        return list(rows)
    kept = sorted(range(1, len(rows)), key=lambda at: (-rows[at].fullness, rows[at].depth, at))
    return [rows[at] for at in sorted([0, *kept[: most - 1]])]


def limit_of(rows: Iterable[Row]) -> int:
    """The capacity that is drawn as wide as there is room: one far above every load would leave nothing to be seen."""
    listed = list(rows)
    load = max((row.load for row in listed), default=0)
    most = max((row.capacity for row in listed), default=0)
    return max(1, most if most <= 8 * max(load, 1) else 2 * max(load, 1))


def bar(row: Row, limit: int, x: float, y: float, width: float, height: float) -> str:
    """The frame of a capacity, filled as far as it is loaded."""
    scale = width / limit
    parts = []
    if row.parts:
        at = x
        for number, units in row.parts:
            parts.append(rect(at, y, units * scale, height, f"g{number}"))
            at += units * scale
    else:
        load = min(row.load, limit) * scale
        fill = ' fill="url(#hatch)"' if row.is_full else ' class="free"'
        parts.append(f"<rect {place(x, y, load, height)}{fill}/>")
    frame = min(row.capacity, limit) * scale
    parts.append(rect(x, y, frame, height, "frame"))
    if row.capacity > limit:
        # the frame is cut: two strokes across its end
        for back in (10, 5):
            at = x + frame - back
            parts.append(
                f'<path class="break" d="M{at:.1f} {y + height + 2:.1f}l5 {-height - 4:.1f}"/>'
            )
    if row.capacity == 0:
        cross = f"M{x:.1f} {y:.1f}l{height} {height}m0 {-height}l{-height} {height}"
        parts.append(f'<path class="break" d="{cross}"/>')
    words = f"{row.name}: {row.load:,} of {'no end' if row.capacity == MOST_CAPACITY else format(row.capacity, ',')} units"
    return f"<g><title>{escape(words)}</title>{''.join(parts)}</g>"


def place(x: float, y: float, width: float, height: float) -> str:
    return f'x="{x:.1f}" y="{y:.1f}" width="{max(width, 0):.1f}" height="{height:.1f}"'


def rect(x: float, y: float, width: float, height: float, kind: str) -> str:
    return f'<rect {place(x, y, width, height)} class="{kind}"/>'


def lone_bar(row: Row, limit: int) -> str:
    """A bar by itself, as wide as whatever it stands in."""
    drawn = bar(row, limit, 1, 2, 298, 12)
    return f'<svg class="bar" viewBox="0 0 300 16" preserveAspectRatio="none" aria-hidden="true">{drawn}</svg>'


def lone_share(units: int, whole: int) -> str:
    """A part of a demand, as a bar by itself."""
    width = 298 * units / max(whole, 1)
    return (
        f'<svg class="bar" viewBox="0 0 300 16" preserveAspectRatio="none" aria-hidden="true">'
        f'{rect(1, 2, width, 12, "free")}{rect(1, 2, 298, 12, "frame")}</svg>'
    )


def lone_part(units: int, whole: int, limit: int) -> str:
    """What of a demand is placed nowhere, as a bar by itself."""
    scale = 298 / max(limit, 1)
    placed = rect(1, 2, (whole - units) * scale, 12, "free")
    at = 1 + (whole - units) * scale
    nowhere = f'<rect {place(at, 2, units * scale, 12)} fill="url(#dots)"/>'
    frame = rect(1, 2, whole * scale, 12, "frame")
    return (
        f'<svg class="bar" viewBox="0 0 300 16" preserveAspectRatio="none" aria-hidden="true">'
        f"{placed}{nowhere}{frame}</svg>"
    )


# A canvas that is filled from the top down.


class Canvas:
    """Lines of SVG, and how far down they reach."""

    def __init__(self, width: float = 1000) -> None:
        self.width = width
        self.parts: list[str] = []
        self.y: float = LEFT

    def text(
        self, x: float, words: str, kind: str = "ink", size: float = SIZE, anchor: str = "start"
    ) -> None:
        self.parts.append(
            f'<text x="{x:.1f}" y="{self.y + 15:.1f}" font-size="{size:g}" class="{kind}"'
            f' text-anchor="{anchor}">{escape(words)}</text>'
        )

    def add(self, part: str) -> None:
        self.parts.append(part)

    def down(self, rows: float = 1.0) -> None:
        self.y += rows * ROW

    def whole(self) -> str:
        height = self.y + LEFT
        head = (
            f'<svg xmlns="http://www.w3.org/2000/svg" width="{self.width:g}" height="{height:g}"'
            f' viewBox="0 0 {self.width:g} {height:g}" font-family="Helvetica, Arial, sans-serif">'
        )
        ground = f'<rect width="{self.width:g}" height="{height:g}" class="ground"/>'
        return "\n".join(
            [head, f"<style>{style()}</style>", PATTERNS, ground, *self.parts, "</svg>"]
        )


@dataclass
class Columns:
    """Where the columns of a drawing of trees begin: each is as wide as its longest word needs."""

    bars: float
    bar_width: float
    # where numbers end, and where words begin
    numbers: float
    words: float
    width: float

    @classmethod
    def of(cls, rows: Iterable[Row], width: float) -> "Columns":
        listed = list(rows)
        names = max((width_of(row.name) + 16 * row.depth for row in listed), default=60)
        numbers = max((width_of(number_words(row)) for row in listed), default=60)
        bars = LEFT + min(max(names, 60), 0.26 * width) + 12
        bar_width = 0.26 * width
        end = bars + bar_width + 12 + numbers
        return cls(bars, bar_width, end, end + 16, width)


def number_words(row: Row) -> str:
    return f"{of_capacity(row.load, row.capacity)}, {share(row.load, row.capacity)}"


def draw_rows(canvas: Canvas, rows: Sequence[Row], limit: int, columns: Columns) -> None:
    """A line for each node."""
    for number, row in enumerate(rows):
        if number % 2:
            ground = rect(LEFT - 6, canvas.y, canvas.width - 2 * LEFT + 12, ROW, "shade")
            canvas.add(ground)
        kind = "alarm" if row.is_full else "ink"
        x = LEFT + 16 * row.depth
        canvas.text(x, fitted(row.name, columns.bars - x - 8), kind)
        canvas.add(bar(row, limit, columns.bars, canvas.y + 5, columns.bar_width, 12))
        canvas.text(columns.numbers, number_words(row), kind, anchor="end")
        room = canvas.width - LEFT - columns.words
        canvas.text(columns.words, fitted(row.note, room), "alarm" if row.is_full else "grey")
        canvas.down()


# Flows.


@dataclass
class Flow:
    """Units that go from one place to another one; no name is nowhere."""

    source: str
    target: str
    units: int


def merged(flows: Sequence[Flow], most: int) -> list[Flow]:
    """The largest sources and targets, so many each, and one for all others of each side."""
    sides = []
    for side in ("source", "target"):
        sums: dict[str, int] = {}
        for flow in flows:
            name = getattr(flow, side)
            sums[name] = sums.get(name, 0) + flow.units
        kept = sorted(sums, key=lambda name: (-sums[name], name))
        # nowhere has a place of its own
        sides.append({*kept[: most if len(kept) <= most else most - 1], ""})
    found: dict[tuple[str, str], int] = {}
    for flow in flows:
        ends = (
            flow.source if flow.source in sides[0] else OTHERS,
            flow.target if flow.target in sides[1] else OTHERS,
        )
        found[ends] = found.get(ends, 0) + flow.units
    return [Flow(a, b, units) for (a, b), units in found.items()]


OTHERS = "\0others"


def flow_name(name: str) -> str:
    return {"": "nowhere", OTHERS: "all others"}.get(name, name)


def draw_flows(flows: Sequence[Flow], width: float = 900, most: int = 12) -> str:
    """Bands from the left to the right, as wide as the units that go."""
    listed = merged(flows, most)
    total = sum(flow.units for flow in listed)
    if not total:
        return ""
    ends = [ends_of(listed, side) for side in ("source", "target")]
    rows = max(len(side) for side in ends)
    height = max(120.0, 34.0 * rows)
    room = height - 34 * rows * 0.45
    scale = room / total
    labels = min(0.3 * width, max(width_of(flow_label(n, u)) for side in ends for n, u in side) + 8)
    left, right = labels, width - labels
    tops = [spread(side, height, scale) for side in ends]
    parts = []
    used: list[dict[str, float]] = [dict(tops[0]), dict(tops[1])]
    order = sorted(listed, key=lambda flow: (tops[0][flow.source], tops[1][flow.target]))
    for flow in order:
        thick = max(flow.units * scale, 1.0)
        a, b = used[0][flow.source], used[1][flow.target]
        used[0][flow.source] += flow.units * scale
        used[1][flow.target] += flow.units * scale
        parts.append(band(left + 12, right - 12, a, b, thick, flow))
    for side, x, anchor in ((0, left, "end"), (1, right, "start")):
        for name, units in ends[side]:
            top, thick = tops[side][name], max(units * scale, 1.0)
            kind = "nowhere" if name == "" else "free"
            parts.append(rect(x if side == 0 else x - 12, top, 12, thick, kind))
            words = fitted(flow_label(name, units), labels - 8)
            at = x - 6 if side == 0 else x + 6
            y = top + thick / 2 + 4
            parts.append(
                f'<text x="{at:.1f}" y="{y:.1f}" font-size="{SIZE}" class="ink" text-anchor="{anchor}">{escape(words)}</text>'
            )
    return (
        f'<svg class="flows" viewBox="0 0 {width:g} {height:.0f}" role="img" aria-label="flows between places;'
        f' the table below has the same numbers">{"".join(parts)}</svg>'
    )


def flow_label(name: str, units: int) -> str:
    return f"{flow_name(name)}  {short(units)}"


def ends_of(flows: Sequence[Flow], side: str) -> list[tuple[str, int]]:
    """The names of one side with their units, the most first, all others and nowhere last."""
    sums: dict[str, int] = {}
    for flow in flows:
        name = getattr(flow, side)
        sums[name] = sums.get(name, 0) + flow.units
    last = ("", OTHERS)
    return sorted(sums.items(), key=lambda each: (each[0] in last, each[0] == "", -each[1]))


def spread(ends: list[tuple[str, int]], height: float, scale: float) -> dict[str, float]:
    """Where each name's stretch begins, with equal gaps between them."""
    used = sum(units * scale for _, units in ends)
    gap = (height - used) / (len(ends) + 1)
    found, y = {}, gap
    for name, units in ends:
        found[name] = y
        y += units * scale + gap
    return found


def band(x: float, end: float, a: float, b: float, thick: float, flow: Flow) -> str:
    middle = (x + end) / 2
    lost = " lost" if flow.target == "" else ""
    words = f"{flow.units:,} from {flow_name(flow.source)} to {flow_name(flow.target)}"
    return (
        f'<path class="band{lost}" d="M{x:.1f} {a:.1f}C{middle:.1f} {a:.1f} {middle:.1f} {b:.1f} {end:.1f} {b:.1f}'
        f'v{thick:.1f}C{middle:.1f} {b + thick:.1f} {middle:.1f} {a + thick:.1f} {x:.1f} {a + thick:.1f}z">'
        f"<title>{escape(words)}</title></path>"
    )


# Values over time.


def draw_chart(
    series: dict[str, list[tuple[float, float]]],
    start: float,
    end: float,
    width: float = 420,
    height: float = 130,
) -> str:
    """Lines over the time between two moments (seconds since 1970), at most six, each with dashes of its own."""
    listed = dict(list(series.items())[:MOST_LINES])
    values = [value for pairs in listed.values() for _, value in pairs]
    top = round_up(max(values, default=0.0))
    left, below = 64.0, 24.0

    def x_of(moment: float) -> float:
        return left + (moment - start) / max(end - start, 1) * (width - left - 6)

    def y_of(value: float) -> float:
        return 6 + (1 - value / top) * (height - below - 6)

    parts = []
    for value in (0.0, top / 2, top):
        y = y_of(value)
        parts.append(f'<path class="axis" d="M{left:.1f} {y:.1f}H{width - 6:.1f}"/>')
        parts.append(chart_text(left - 6, y + 4, short_value(value), "end"))
    for part in range(5):
        moment = start + (end - start) * part / 4
        words = time.strftime("%H:%M", time.gmtime(moment))
        anchor = "start" if part == 0 else "end" if part == 4 else "middle"
        parts.append(chart_text(x_of(moment), height - 6, words, anchor))
    for number, pairs in enumerate(listed.values()):
        parts.append(line_of(pairs, number, x_of, y_of, (end - start) / 96))
    return (
        f'<svg class="chart" viewBox="0 0 {width:g} {height:g}" role="img"'
        f' aria-label="{escape(chart_words(listed))}">{"".join(parts)}</svg>'
    )


def chart_words(series: dict[str, list[tuple[float, float]]]) -> str:
    """What of a chart is read to whoever does not see it."""
    told = []
    for name, pairs in series.items():
        if pairs:
            last, most = pairs[-1][1], max(value for _, value in pairs)
            told.append(f"{name or 'it'} is {short_value(last)} now, at most {short_value(most)}")
    return "; ".join(told) or "no values"


def chart_text(x: float, y: float, words: str, anchor: str) -> str:
    return f'<text x="{x:.1f}" y="{y:.1f}" font-size="12.5" class="grey" text-anchor="{anchor}">{escape(words)}</text>'


def line_of(
    pairs: Sequence[tuple[float, float]],
    number: int,
    x_of: Callable[[float], float],
    y_of: Callable[[float], float],
    gap: float,
) -> str:
    """A line, with gaps where nothing is known; one value alone is a point."""
    steps, before = [], -math.inf
    for moment, value in pairs:
        step = "L" if moment - before <= gap else "M"
        steps.append(f"{step}{x_of(moment):.1f} {y_of(value):.1f}")
        before = moment
    ends = ""
    if pairs:
        x, y = x_of(pairs[-1][0]), y_of(pairs[-1][1])
        ends = f'<circle cx="{x:.1f}" cy="{y:.1f}" r="2.5" class="s{number} dot"/>'
    return f'<path class="s{number}" d="{"".join(steps)}"/>{ends}' if steps else ""


def round_up(value: float) -> float:
    """A round number, not below a value: 1, 2 or 5 times a power of ten."""
    if value <= 0:
        return 1.0
    size = 10.0 ** math.floor(math.log10(value))
    return next(factor * size for factor in (1, 2, 5, 10) if factor * size >= value)


def short_value(value: float) -> str:
    if value >= 10**6 or value == int(value):
        return short(int(value))
    return f"{value:,.1f}" if value >= 1 else f"{value:.2g}"
