"""Maps as arrays: a text becomes offers with their units, and two maps become moves.

Loads and moves are those of glb-why and glb-moves, whose tests hand-made maps share; here they are made by arrays, since a
map of 65,536 groups has half a million lines.
"""

from collections.abc import Iterator
from dataclasses import dataclass, field

import numpy as np

from glb_tools.map import FIRST_LINES
from glb_tools.options import Fault
from glb_tools.page.tables import LIST, Numbers, Tables

# how many octets of a text are taken apart at once
PIECE = 1 << 20
# no pool, no node: a limit in the place of a full node, or nowhere
NONE = 0xFFFF
# what stands behind the two names of a `limit` line: no node is called so
LIMIT = "*"


@dataclass
class Placed:
    """How many units stand at which offers, in the order of the offers' numbers."""

    offers: Numbers
    amounts: Numbers


@dataclass
class Refusals:
    """Why units have no more of their offers: the full node, or NONE where it is their limit. They are in the order of the
    nodes, and of one node in that of the offers."""

    offers: Numbers
    nodes: Numbers

    def of(self, node: int) -> Numbers:
        """The offers that a node refuses; of NONE, those whose limit is reached."""
        kind = self.nodes.dtype.type
        begin = np.searchsorted(self.nodes, kind(node))
        found: Numbers = self.offers[begin : np.searchsorted(self.nodes, kind(node), side="right")]
        return found

    def of_unit(self, unit: int) -> dict[int, int]:
        """By place in the unit's list, the node that refuses, or NONE."""
        at = np.flatnonzero((self.offers >= unit * LIST) & (self.offers < (unit + 1) * LIST))
        return {int(self.offers[n]) % LIST: int(self.nodes[n]) for n in at}

    def counts(self, nodes: int) -> Numbers:
        """By node, how many offers it refuses."""
        return np.bincount(self.nodes[self.nodes != NONE], minlength=nodes)


def pieces(text: bytes, start: int, end: int) -> Iterator[bytes]:
    """Whole lines, in pieces."""
    while start < end:
        cut = end if end - start <= PIECE else text.rindex(b"\n", start, start + PIECE) + 1
        yield text[start:cut]
        start = cut


def offers_of(tables: Tables, units: list[str], pools: list[str]) -> Numbers:
    """The numbers of offers by the names of units and pools."""
    count = len(units)
    unit = np.fromiter(map(tables.unit_at.__getitem__, units), np.int64, count)
    pool = np.fromiter(map(tables.node_at.__getitem__, pools), np.int64, count)
    there = tables.pools[unit] == pool[:, None].astype(np.uint16)
    if not there.any(axis=1).all():
        raise KeyError("a pool that is not in its list")
    found: Numbers = (unit * LIST + there.argmax(axis=1)).astype(np.uint32)
    return found


def joined(parts: list[Numbers], kind: type) -> Numbers:
    return np.concatenate(parts) if parts else np.zeros(0, dtype=kind)


def split_at(text: bytes) -> tuple[int, int, int]:
    """Where the lines of a map begin, where those behind `place` lines do, and where `end` does."""
    first = text.find(b"\n") + 1
    if text[: first - 1].decode("latin-1") not in FIRST_LINES or not text.endswith(b"\nend\n"):
        raise Fault("the program's text is no whole map")
    end = len(text) - len(b"end\n")
    found = [text.find(word, first - 1, end) for word in (b"\nfull ", b"\nlimit ")]
    return first, min([at + 1 for at in found if at >= 0], default=end), end


def placed_in(tables: Tables, text: bytes) -> Placed:
    """The `place` lines of a map."""
    first, behind, _ = split_at(text)
    offers, amounts = [], []
    try:
        for piece in pieces(text, first, behind):
            words = piece.decode("latin-1").split()
            offers.append(offers_of(tables, words[1::4], words[2::4]))
            amounts.append(np.fromiter(map(int, words[3::4]), np.int64, len(words) // 4))
    except (KeyError, ValueError) as why:
        raise Fault(f"the program's map is none of its topology: {why}") from None
    found, units = joined(offers, np.uint32), joined(amounts, np.int64)
    order = np.argsort(found, kind="stable")
    return Placed(found[order], units[order])


def refusals_in(tables: Tables, text: bytes) -> Refusals:
    """The `full` and `limit` lines of a map."""
    _, start, end = split_at(text)
    offers, nodes = [], []
    at = {**tables.node_at, LIMIT: NONE}
    try:
        for piece in pieces(text, start, end):
            lines = piece.decode("latin-1")
            if "limit " in lines:
                each = lines.split("\n")[:-1]
                lines = " ".join(f"{l} {LIMIT}" if l.startswith("limit ") else l for l in each)
            words = lines.split()
            offers.append(offers_of(tables, words[1::4], words[2::4]))
            nodes.append(np.fromiter(map(at.__getitem__, words[3::4]), np.uint16, len(words) // 4))
    except (KeyError, ValueError) as why:
        raise Fault(f"the program's map is none of its topology: {why}") from None
    found, full = joined(offers, np.uint32), joined(nodes, np.uint16)
    order = np.argsort(full, kind="stable")
    return Refusals(found[order], full[order])


@dataclass
class Sums:
    """What a map comes to."""

    # by node, the units at it and under it, and how many it may have
    loads: Numbers
    capacities: Numbers
    # by unit
    placed: Numbers
    demands: Numbers
    # by pool of last resort, the units there
    last_resort: dict[int, int]

    @property
    def is_full(self) -> Numbers:
        found: Numbers = self.loads >= self.capacities
        return found

    @property
    def demand(self) -> int:
        return int(self.demands.sum())

    @property
    def placed_units(self) -> int:
        return int(self.placed.sum())

    @property
    def unplaced(self) -> int:
        return self.demand - self.placed_units

    @property
    def nowhere(self) -> Numbers:
        """By unit, what is placed nowhere."""
        found: Numbers = self.demands - self.placed
        return found


def sums_of(tables: Tables, found: Placed, capacities: Numbers, demands: Numbers) -> Sums:
    loads = np.zeros(len(tables.node_names), dtype=np.int64)
    np.add.at(loads, tables.pools.ravel()[found.offers], found.amounts)
    # a parent stands ahead of what is under it
    listed, parents = loads.tolist(), tables.parents.tolist()
    for number in range(len(listed) - 1, -1, -1):
        if parents[number] >= 0:
            listed[parents[number]] += listed[number]
    placed = np.zeros(len(tables.unit_names), dtype=np.int64)
    np.add.at(placed, found.offers // LIST, found.amounts)
    last = {pool: listed[pool] for pool in tables.last_resort()}
    return Sums(np.array(listed, dtype=np.int64), capacities, placed, demands, last)


def mean_score(tables: Tables, found: Placed) -> float | None:
    """Over the units that are placed, but at a pool of last resort, as glb-plan has it."""
    scores = tables.scores.ravel()[found.offers].astype(np.float64)
    counts = scores != float(2**32 - 1)
    units = int(found.amounts[counts].sum())
    if not units:
        return None
    return float((scores[counts] * found.amounts[counts]).sum() / units)


def worst(tables: Tables, found: Placed, node: int, most: int) -> list[tuple[int, int]]:
    """So many of the offers under a node, with their units, those first that it would give up first."""
    pools = tables.pools.ravel()[found.offers]
    there = np.flatnonzero(tables.under(node)[pools])
    offers = found.offers[there]
    scores = tables.scores.ravel()[offers]
    if len(there) > 64 * most:
        # most offers are better than these by their scores alone
        least = np.partition(scores, -most)[-most]
        there, offers, scores = (each[scores >= least] for each in (there, offers, scores))
    order = np.lexsort((pools[there], offers // LIST, scores))[::-1][:most]
    return [(int(offers[n]), int(found.amounts[there[n]])) for n in order]


# What differs between two maps.


@dataclass
class Rows:
    """Offers with their units before and behind, by a key of the unit's and the pool's number."""

    keys: Numbers
    # the place in the list, of the map of before where there are units
    places: Numbers
    before: Numbers
    after: Numbers

    def __len__(self) -> int:
        return len(self.keys)


def keys_of(tables: Tables, offers: Numbers) -> Numbers:
    wide = offers.astype(np.uint64)
    pools = tables.pools.ravel()[offers].astype(np.uint64)
    found: Numbers = (wide // np.uint64(LIST)) << np.uint64(16) | pools
    return found


def rows_between(
    old_keys: Numbers, old: Placed, new_keys: Numbers, new: Placed, all_of_them: bool = False
) -> Rows:
    """The offers whose units differ between two maps, whose keys are of one numbering."""
    keys = np.union1d(old_keys, new_keys)
    before, after = np.zeros(len(keys), np.int64), np.zeros(len(keys), np.int64)
    places = np.zeros(len(keys), np.uint8)
    at_new, at_old = np.searchsorted(keys, new_keys), np.searchsorted(keys, old_keys)
    after[at_new], before[at_old] = new.amounts, old.amounts
    places[at_new] = new.offers % LIST
    places[at_old] = old.offers % LIST
    kept = np.ones(len(keys), bool) if all_of_them else before != after
    return Rows(keys[kept], places[kept], before[kept], after[kept])


def chained(rows: list[Rows]) -> Rows:
    """What several steps, one behind the other, come to."""
    if not rows:
        empty = np.zeros(0, np.int64)
        return Rows(np.zeros(0, np.uint64), np.zeros(0, np.uint8), empty, empty)
    keys = np.concatenate([each.keys for each in rows])
    order = np.argsort(keys, kind="stable")
    keys = keys[order]
    begins = np.flatnonzero(np.r_[True, keys[1:] != keys[:-1]]) if len(keys) else keys.astype(int)
    ends = np.r_[begins[1:], len(keys)] - 1 if len(keys) else begins
    before = np.concatenate([each.before for each in rows])[order][begins]
    after = np.concatenate([each.after for each in rows])[order][ends]
    places = np.concatenate([each.places for each in rows])[order]
    places = np.where(before > 0, places[begins], places[ends])
    kept = before != after
    return Rows(keys[begins][kept], places[kept], before[kept], after[kept])


def turned(rows: Rows) -> Rows:
    """The same from the later map to the earlier one."""
    return Rows(rows.keys, rows.places, rows.after, rows.before)


@dataclass
class Moves:
    """Where units went: from pool to pool, by the numbers of units and pools; NONE is nowhere."""

    units: Numbers
    sources: Numbers
    targets: Numbers
    amounts: Numbers
    moved: int = 0
    gained: int = 0
    lost: int = 0
    groups: int = 0
    # from, to, units and how many groups and classes, the most first
    flows: list[tuple[int, int, int, int]] = field(default_factory=list)


def moves_of(rows: Rows) -> Moves:
    """What is lost goes to what is gained, unit by unit, in the order of the lists; the rest is nowhere."""
    change = rows.after - rows.before
    unit = (rows.keys >> np.uint64(16)).astype(np.int64)
    pool = (rows.keys & np.uint64(NONE)).astype(np.int64)
    # pools of the map of before come first
    rank = np.where(rows.before > 0, rows.places, LIST + rows.places)
    order = np.lexsort((rank, unit))
    unit, pool, change = unit[order], pool[order], change[order]
    ids, of = np.unique(unit, return_inverse=True)
    losses, gains = np.where(change < 0, -change, 0), np.where(change > 0, change, 0)
    sides = [side_of(of, losses, len(ids)), side_of(of, gains, len(ids))]
    # each unit has a stretch of the line as long as the larger of its sides
    length = np.maximum(sides[0][1], sides[1][1])
    base = np.cumsum(length) - length
    cuts = [np.r_[base, base + length]]
    spans = []
    for amounts, (starts, _) in zip((losses, gains), sides):
        begin = base[of] + starts
        kept = amounts > 0
        spans.append((begin[kept], (begin + amounts)[kept], pool[kept]))
        cuts += [begin[kept], (begin + amounts)[kept]]
    points = np.unique(np.concatenate(cuts))
    left, right = points[:-1], points[1:]
    ends = [pools_at(left, span) for span in spans]
    inside = (ends[0] != NONE) | (ends[1] != NONE)
    left, right = left[inside], right[inside]
    owner = ids[np.searchsorted(base + length, left, side="right")] if len(left) else left
    return summed(Moves(owner, ends[0][inside], ends[1][inside], right - left))


def side_of(of: Numbers, amounts: Numbers, count: int) -> tuple[Numbers, Numbers]:
    """Where each amount begins among those of its unit, and the sum by unit."""
    totals = np.zeros(count, np.int64)
    np.add.at(totals, of, amounts)
    ahead = np.cumsum(totals) - totals
    begins: Numbers = np.cumsum(amounts) - amounts - ahead[of]
    return begins, totals


def pools_at(points: Numbers, span: tuple[Numbers, Numbers, Numbers]) -> Numbers:
    """The pool whose stretch has each point; NONE where none has."""
    begins, ends, pools = span
    if not len(begins):
        return np.full(len(points), NONE, np.int64)
    at = np.searchsorted(begins, points, side="right") - 1
    there = (at >= 0) & (points < ends[np.maximum(at, 0)])
    return np.where(there, pools[np.maximum(at, 0)], NONE)


def summed(found: Moves) -> Moves:
    has_source, has_target = found.sources != NONE, found.targets != NONE
    found.moved = int(found.amounts[has_source & has_target].sum())
    found.gained = int(found.amounts[~has_source].sum())
    found.lost = int(found.amounts[~has_target].sum())
    found.groups = len(np.unique(found.units))
    found.flows = flows_of(found.sources, found.targets, found.amounts)
    return found


def flows_of(
    sources: Numbers, targets: Numbers, amounts: Numbers
) -> list[tuple[int, int, int, int]]:
    """By where from and where to, the units and the moves, the most first."""
    pairs, at = np.unique(
        sources.astype(np.int64) << 16 | targets.astype(np.int64), return_inverse=True
    )
    units = np.zeros(len(pairs), np.int64)
    np.add.at(units, at, amounts)
    counts = np.bincount(at, minlength=len(pairs))
    order = np.lexsort((pairs, -units))
    return [
        (int(pairs[n]) >> 16, int(pairs[n]) & NONE, int(units[n]), int(counts[n])) for n in order
    ]
