"""What views share: words for times, pages of long lists, and rows of nodes."""

import time
from collections.abc import Sequence
from dataclasses import dataclass
from typing import Any, TypeVar

from glb_tools.drawing import Row, named
from glb_tools.page.maps import NONE
from glb_tools.page.mirror import Served
from glb_tools.page.tables import LIST

Shown = dict[str, Any]
Item = TypeVar("Item")
# how wide the words beside a node are
NOTE = 340.0


@dataclass(frozen=True)
class Sheet:
    """A page of a long list, counted from 1."""

    number: int
    of: int
    # the number of the first and the last item, from 1, and how many there are
    first: int
    last: int
    total: int


def sheet_of(items: Sequence[Item], number: int, size: int) -> tuple[list[Item], Sheet]:
    """The items of a page; behind the last page it is the last one."""
    of = max(1, -(-len(items) // size))
    number = min(max(number, 1), of)
    first = (number - 1) * size
    listed = list(items[first : first + size])
    return listed, Sheet(number, of, first + 1, first + len(listed), len(items))


def moment(seconds: float) -> str:
    """A time as UTC; nothing where there is none, or one that no clock shows."""
    if not 0 < seconds < 1 << 36:
        return ""
    return time.strftime("%Y-%m-%d %H:%M:%S", time.gmtime(seconds))


def ago(seconds: float) -> str:
    """How long something is ago, in its two largest units at most."""
    whole = max(int(seconds), 0)
    for size, letter, smaller, small in (
        (86400, "d", 3600, "h"),
        (3600, "h", 60, "min"),
        (60, "min", 1, "s"),
    ):
        if whole >= size:
            rest = whole % size // smaller
            return f"{whole // size} {letter}" + (f" {rest} {small}" if rest else "")
    return f"{whole} s"


def named_offers(served: Served, offers: Sequence[int], own: int, width: float = NOTE) -> str:
    """Offers in few words: their units, and the pool where it is not the node itself."""
    tables = served.tables
    pools = tables.pools.ravel()
    pairs = [
        (tables.unit_names[offer // LIST], tables.node_names[int(pools[offer])])
        for offer in offers[:12]
    ]
    return named(pairs, tables.node_names[own], width, len(offers))


def row_of(served: Served, node: int, top: int = 0) -> Row:
    """A node as it is drawn, and whom it refuses. `top` is the depth of what stands at the left."""
    sums, tables = served.sums, served.tables
    row = Row(
        tables.node_names[node],
        tables.depth(node) - top,
        int(sums.loads[node]),
        int(sums.capacities[node]),
    )
    refused = served.refusals.of(node)
    if len(refused):
        row.note = f"refuses {named_offers(served, refused.tolist(), node)}"
    return row


def offer_of(served: Served, offer: int, units: int) -> Shown:
    tables = served.tables
    return {
        "unit": tables.unit_names[offer // LIST],
        "pool": tables.node_names[int(tables.pools.ravel()[offer])],
        "score": int(tables.scores.ravel()[offer]),
        "units": units,
    }


def pool_name(names: Sequence[str], number: int) -> str:
    return "" if number == NONE else names[number]
