"""What a reader has found, and its tables."""

import csv
import io
import math
import re
from collections.abc import Iterable
from dataclasses import dataclass, field
from pathlib import Path

from glb_tools.options import Fault, write_file
from glb_tools.planning.table import Table
from glb_tools.planning.world import Prefix
from glb_tools.planning.prefixes import BITS, aggregated, text_of

# where only an order is known: the round trip of its first pool, and how much further each next one is
FIRST_MS, STEP_MS = 10, 10
# where only places are known: a round trip of no distance, and the kilometres that cost a millisecond there and back
# over fibre that is half as long again as the straight line
NEAR_MS, KM_A_MS = 4.0, 67.0
DIAMETER_KM = 12_742
Place = tuple[float, float]
EXAMPLE = """# The zone is an example: write your own. docs/TOPOLOGY.md has the choices that [lists] takes.
[zone]
apex = "cdn.example"
mname = "ns1.ops.example"
rname = "admin.ops.example"
serial = 1
refresh = 3600
retry = 600
expire = 86400
minimum = 60
ttl = 20
ns = ["ns1.ops.example"]
services = ["www"]

[lists]
"""


@dataclass
class Found:
    """Prefixes with their groups, pools with their addresses, and how the groups rank the pools."""

    prefixes: dict[Prefix, str] = field(default_factory=dict)
    pools: dict[str, list[str]] = field(default_factory=dict)
    # of groups, in place of round trips
    orders: dict[str, tuple[str, ...]] = field(default_factory=dict)
    # latitude and longitude
    group_places: dict[str, Place] = field(default_factory=dict)
    pool_places: dict[str, Place] = field(default_factory=dict)
    # what is not carried over
    lost: list[str] = field(default_factory=list)

    def lose(self, what: str) -> None:
        if what not in self.lost:
            self.lost.append(what)


class Names:
    """Groups for ranked lists, named in the order in which they come."""

    def __init__(self, found: Found) -> None:
        self.found = found
        self.group_of: dict[tuple[str, ...], str] = {}

    def group(self, order: tuple[str, ...]) -> str:
        group = self.group_of.get(order)
        if group is None:
            group = self.group_of[order] = f"list-{len(self.group_of) + 1}"
            self.found.orders[group] = order
        return group


def hidden_out(known: dict[Prefix, str], nets: Iterable[Prefix]) -> dict[Prefix, str]:
    """What is known by place, without what lies in one of the networks, which go ahead of it."""
    inside = set(nets)
    lengths = sorted({(family, length) for family, _, length in inside})

    def is_hidden(prefix: Prefix) -> bool:
        family, start, length = prefix
        bits = BITS[family]
        return any(
            (kind, start >> bits - above << bits - above, above) in inside
            for kind, above in lengths
            if kind == family and above <= length
        )

    return {prefix: group for prefix, group in known.items() if not is_hidden(prefix)}


def plain_name(text: str) -> str:
    """A text as a name of `glb`: what it has no letters for becomes `-`."""
    return re.sub(r"[^A-Za-z0-9._-]+", "-", text)[:32] or "-"


def kilometres(one: Place, other: Place) -> float:
    """The way over a globe (haversine)."""
    lat, lon, lat2, lon2 = (math.radians(angle) for angle in (*one, *other))
    part = math.sin((lat2 - lat) / 2) ** 2
    part += math.cos(lat) * math.cos(lat2) * math.sin((lon2 - lon) / 2) ** 2
    return DIAMETER_KM * math.asin(min(1.0, math.sqrt(part)))


def round_trips(found: Found) -> list[tuple[str, str, float]]:
    """By place where there are places, and else by order."""
    rows = []
    for group in dict.fromkeys(found.prefixes.values()):
        place = found.group_places.get(group)
        if group in found.orders:
            pairs = enumerate(found.orders[group])
            rows += [(group, pool, float(FIRST_MS + STEP_MS * at)) for at, pool in pairs]
        elif place is not None:
            for pool, other in found.pool_places.items():
                far = NEAR_MS + kilometres(place, other) / KM_A_MS
                rows.append((group, pool, round(far, 1)))
    return rows


def tables_of(found: Found, has_pools: bool) -> dict[str, str]:
    """The texts of the tables; those that the user has are left out."""
    rows = round_trips(found)
    texts = {}
    names = list(dict.fromkeys(found.prefixes.values()))
    numbers = {name: number for number, name in enumerate(names)}
    fewer = aggregated({prefix: numbers[name] for prefix, name in found.prefixes.items()})
    texts["prefixes.csv"] = text(
        ("prefix", "group"), ((text_of(prefix), names[number]) for prefix, number in fewer.items())
    )
    texts["demand.csv"] = text(("group", "units"), ((name, 1) for name in names))
    found.lose("demands: each group has 1 unit in demand.csv")
    if rows:
        texts["rtt.csv"] = text(
            ("group", "pool", "milliseconds"), ((g, p, f"{ms:g}") for g, p, ms in rows)
        )
        kind = "the order of pools" if found.orders else "distance"
        found.lose(f"round trips: those in rtt.csv are made of {kind}, and not measured")
    else:
        found.lose("round trips: there is no rtt.csv, since neither an order nor places are known")
    if found.pools and not has_pools:
        texts["pools.csv"] = text(
            ("pool", "parent", "capacity", "addresses", "lat", "lon"),
            (
                (pool, "", "max", " ".join(addresses), *found.pool_places.get(pool, ("", "")))
                for pool, addresses in found.pools.items()
            ),
        )
        found.lose("capacities: each pool has `max` in pools.csv, and there are no nodes above")
    return texts


def text(header: tuple[str, ...], rows: Iterable[tuple[object, ...]]) -> str:
    out = io.StringIO()
    lines = csv.writer(out, lineterminator="\n")
    lines.writerow(header)
    lines.writerows(rows)
    return out.getvalue()


def choices_text(found: Found) -> str:
    """A file of choices for the tables; the rest is the group of the default prefixes, if there is one."""
    if (4, 0, 0) in found.prefixes and (6, 0, 0) in found.prefixes:
        return EXAMPLE + "length = 16\n"
    rest = next(iter(found.prefixes.values()))
    found.lose(
        f"clients that no prefix has: plan.toml has them in {rest}; choose another `rest` if need be"
    )
    return EXAMPLE + f'rest = "{rest}"\n'


def put(found: Found, into: Path, has_pools: bool) -> list[str]:
    """Writes the tables into a folder where none of them is yet; the names of those that were written."""
    if not found.prefixes:
        raise Fault("there are no prefixes in what was read")
    texts = tables_of(found, has_pools)
    texts["plan.toml"] = choices_text(found)
    into.mkdir(parents=True, exist_ok=True)
    for name in texts:
        if (into / name).exists():
            raise Fault(f"{into / name} is there already: take another folder")
    for name, octets in texts.items():
        write_file(into / name, octets.encode())
    return list(texts)


def places_of(path: Path) -> dict[str, Place]:
    """The places of pools, of a table of pools with `lat` and `lon`."""
    found = {}
    columns = ("pool", "parent", "capacity", "addresses")
    for row in Table(path, columns, ("services", "lat", "lon")):
        if row["lat"] or row["lon"]:
            found[row.name("pool")] = row.degrees("lat", 90), row.degrees("lon", 180)
    if not found:
        raise Fault(f"{path}: no pool has `lat` and `lon`")
    return found
