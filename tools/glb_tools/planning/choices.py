"""The file of choices: the zone, which tables there are, and how lists are made of them."""

import tomllib
from dataclasses import dataclass, field
from pathlib import Path
from typing import Any

from glb_tools.options import Fault
from glb_tools.planning.table import NAME, near, shown

ZONE = {
    "apex": str,
    "mname": str,
    "rname": str,
    "serial": int,
    "refresh": int,
    "retry": int,
    "expire": int,
    "minimum": int,
    "ttl": int,
    "ns": list,
    "services": list,
}
TABLES = {"pools": True, "nodes": False, "prefixes": True, "demand": True, "rtt": True}
MOST_GROUPS, MOST_PREFIXES, LONGEST_LIST = 65_536, 262_144, 16
# the longest round trip, and the most that a unit which is placed nowhere costs, in milliseconds
MOST_MILLISECONDS = 60_000
KINDS = {str: "a text in quotes", int: "a whole number", float: "a number", list: "a list of texts"}


@dataclass(frozen=True)
class Lists:
    """How ranked lists are made; docs/TOPOLOGY.md has each choice."""

    length: int = LONGEST_LIST
    # what a unit costs that is placed nowhere, in milliseconds
    unplaced: float = 400.0
    # the share of each capacity that prices count as not there
    head_room: float = 0.0
    # the most of a group's demand at one pool, as a share
    most_at_one_pool: float = 1.0
    # how much of a price counts, from none to all
    price_weight: float = 1.0
    # a pool at the end of each list
    last_resort: str = ""
    # the group of all clients that no prefix has
    rest: str = ""
    groups: int = MOST_GROUPS
    prefixes: int = MOST_PREFIXES


RANGES: dict[str, tuple[float, float]] = {
    "length": (1, LONGEST_LIST),
    "unplaced": (1, MOST_MILLISECONDS),
    "head_room": (0, 0.9),
    "most_at_one_pool": (0.01, 1),
    "price_weight": (0, 1),
    "groups": (1, MOST_GROUPS),
    "prefixes": (2, MOST_PREFIXES),
}


@dataclass
class Choices:
    path: Path
    zone: dict[str, Any]
    # the path of each table that there is
    tables: dict[str, Path]
    lists: Lists = field(default_factory=Lists)

    @property
    def services(self) -> list[str]:
        return [service.lower() for service in self.zone["services"]]


def read_choices(path: Path) -> Choices:
    octets = path.read_bytes()
    try:
        top = tomllib.loads(octets.decode("utf-8-sig"))
    except UnicodeDecodeError as why:
        line = octets.count(b"\n", 0, why.start) + 1
        raise Fault(f"{path}, line {line}: an octet that is no UTF-8") from None
    except (tomllib.TOMLDecodeError, RecursionError) as why:
        raise Fault(f"{path}: no TOML: {why}") from None
    for key in top:
        if key not in ("zone", "tables", "lists"):
            raise Fault(
                f"{path}: there is no table {shown(key)}; the tables are zone, tables, lists"
            )
    zone, tables, lists = (table(path, top, key) for key in ("zone", "tables", "lists"))
    check_zone(path, zone)
    return Choices(path, zone, paths_of(path, tables), lists_of(path, lists))


def table(path: Path, top: dict[str, Any], key: str) -> dict[str, Any]:
    found = top.get(key, {})
    if not isinstance(found, dict):
        raise Fault(f"{path}: {shown(key)} is no table: write [{key}]")
    return found


def wrong_kind(path: Path, where: str, key: str, kind: type) -> Fault:
    return Fault(f"{path}, [{where}], {key}: this is to be {KINDS[kind]}")


def unknown_key(path: Path, where: str, key: str, known: Any) -> Fault:
    return Fault(
        f"{path}, [{where}]: there is no key {shown(key)}{near(key, list(known))}; the keys are {', '.join(known)}"
    )


def check_zone(path: Path, zone: dict[str, Any]) -> None:
    """That the zone has its keys, each of its kind: what stands in them is judged by `glb`."""
    for key in zone:
        if key not in ZONE:
            raise unknown_key(path, "zone", key, ZONE)
    for key, kind in ZONE.items():
        if key not in zone:
            raise Fault(f"{path}, [zone]: the key `{key}` is missing")
        if type(zone[key]) is not kind or (
            kind is list and not all(type(x) is str for x in zone[key])
        ):
            raise wrong_kind(path, "zone", key, kind)


def paths_of(path: Path, tables: dict[str, Any]) -> dict[str, Path]:
    """The tables' files, beside that of the choices; where none are named, each has its usual name."""
    for key, name in tables.items():
        if key not in TABLES:
            raise unknown_key(path, "tables", key, TABLES)
        if not isinstance(name, str) or not name or "\0" in name:
            raise wrong_kind(path, "tables", key, str)
    found = {}
    for key, is_needed in TABLES.items():
        at = path.parent / tables.get(key, f"{key}.csv")
        if is_needed or key in tables or at.exists():
            found[key] = at
    return found


def lists_of(path: Path, lists: dict[str, Any]) -> Lists:
    usual = Lists()
    for key, value in lists.items():
        if not hasattr(usual, key):
            raise unknown_key(path, "lists", key, vars(usual))
        kind = type(getattr(usual, key))
        if type(value) is not kind and not (kind is float and type(value) is int):
            raise wrong_kind(path, "lists", key, kind)
        if key in RANGES:
            least, most = RANGES[key]
            if not least <= value <= most:
                raise Fault(f"{path}, [lists], {key}: {value} is not from {least:,} to {most:,}")
        elif not NAME.fullmatch(str(value)):
            raise Fault(f"{path}, [lists], {key}: {shown(str(value))} is no name")
    return Lists(**lists)
