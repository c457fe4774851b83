"""The settings of glb-watch: its rules, and for which names of a topology each of them speaks."""

import re
import tomllib
from collections.abc import Mapping
from dataclasses import dataclass, field
from fnmatch import fnmatchcase
from math import ceil
from typing import Any

from glb_tools.options import Fault
from glb_tools.text import MOST_CAPACITY, MOST_UNITS, Names

# a word of a feed, `demand` or `capacity`, and a name
Name = tuple[str, str]
DEMAND, CAPACITY = "demand", "capacity"
# what becomes of a name without a series, beside a number that it gets
KEEP, DOWN = "keep", "down"
MOST_SECONDS = 7 * 86400
# how long one leads that is not heard of, in seconds, where nothing is said
LEAD = 15


class Table:
    """A table of the settings: each key is taken once, of its kind and range, and none may be left."""

    def __init__(self, keys: Any, place: str) -> None:
        if not isinstance(keys, dict):
            raise Fault(f"{place} is no table")
        self.keys, self.place = dict(keys), place

    def take(self, key: str, usual: Any = None) -> Any:
        value = self.keys.pop(key, usual)
        if value is None:
            raise Fault(f"{self.place} has no `{key}`")
        return value

    def text(self, key: str, usual: str | None = None) -> str:
        value = self.take(key, usual)
        if not isinstance(value, str):
            raise Fault(f"`{key}` of {self.place} is no text")
        return value

    def texts(self, key: str, usual: list[str] | None = None) -> list[str]:
        value = self.take(key, usual)
        if not isinstance(value, list) or not all(isinstance(each, str) for each in value):
            raise Fault(f"`{key}` of {self.place} is no list of texts")
        return value

    def number(self, key: str, usual: float | None, least: float, most: float) -> float:
        value = self.take(key, usual)
        if isinstance(value, bool) or not isinstance(value, (int, float)):
            raise Fault(f"`{key}` of {self.place} is no number")
        if not least <= value <= most:
            raise Fault(f"`{key}` of {self.place} is not from {least:g} to {most:g}")
        return value

    def whole(self, key: str, usual: int | None, least: int, most: int) -> int:
        value = self.number(key, usual, least, most)
        if not isinstance(value, int):
            raise Fault(f"`{key}` of {self.place} is no whole number")
        return value

    def table(self, key: str) -> "Table":
        return Table(self.keys.pop(key, {}), f"`{key}` of {self.place}")

    def tables(self, key: str) -> list["Table"]:
        value = self.keys.pop(key, [])
        if not isinstance(value, list):
            raise Fault(f"`{key}` of {self.place} is no list of tables")
        return [Table(each, f"{key} rule {at}") for at, each in enumerate(value, 1)]

    def end(self) -> None:
        if self.keys:
            raise Fault(f"{self.place} has a key `{min(self.keys)}`, which nothing reads")


@dataclass(frozen=True)
class Rule:
    """An expression of PromQL, and what its values are for. Shares are parts of one."""

    word: str
    place: str
    query: str
    label: str
    patterns: tuple[str, ...]
    factor: float
    dead_band: float
    # the least and the largest number that is written, but 0 where a node is down
    floor: int
    ceiling: int
    missing: str | int
    missing_after: float
    # of a demand: the weight of the newest look
    smoothing: float = 1.0
    # of a capacity: looks in a row, and the share of the measured capacity by which one look lets it rise
    down_after: int = 1
    up_after: int = 1
    up_step: float = 1.0


@dataclass(frozen=True)
class Calm:
    """In seconds: how long a name stays behind a change; and how long a node that goes down again stays out at least, at first
    and at most, and when that is forgotten."""

    hold: float
    flap: float
    flap_most: float
    flap_forget: float


@dataclass(frozen=True)
class Jump:
    """The shares by which the sum of a rule's demands, or one of them, may be another one from look to look, and how many
    seconds a larger jump has to stand."""

    sum: float
    name: float
    after: float


@dataclass(frozen=True)
class Settings:
    prometheus: str
    timeout: float
    every: float
    # of a file: its path, and that of the topology that its server began from; without them a fleet's log
    log: str
    topology: str
    metrics: str
    # how long one that leads is not heard of until another one does
    lead: int
    hand_back: tuple[str, ...]
    calm: Calm
    # the largest shares of the capacity of a tree, and of all trees, that may look down at once
    brake_tree: float
    brake_all: float
    jump: Jump
    rules: tuple[Rule, ...] = field(default=())


def share(table: Table, key: str, usual: float, least: float = 0) -> float:
    """A key in percent."""
    return table.number(key, usual, least, 100) / 100


def rule_of(table: Table, word: str) -> Rule:
    most = MOST_UNITS if word == DEMAND else MOST_CAPACITY
    name = table.text("name", "")
    if name:
        table.place = f"{table.place} (`{name}`)"
    floor = table.whole("floor", 1, 1, most)
    missing = table.take("missing", KEEP)
    if isinstance(missing, bool) or not (
        missing == KEEP
        or (missing == DOWN and word == CAPACITY)
        or (isinstance(missing, int) and 1 <= missing <= most)
    ):
        downs = ' "down",' if word == CAPACITY else ""
        raise Fault(f'`missing` of {table.place} is none of "keep",{downs} and a number')
    more: dict[str, Any] = (
        {"smoothing": table.number("smoothing", 0.3, 0.001, 1)}
        if word == DEMAND
        else {
            "down_after": table.whole("down_after", 3, 1, 1000),
            "up_after": table.whole("up_after", 6, 1, 1000),
            "up_step": share(table, "up_step", 25, 1),
        }
    )
    rule = Rule(
        word,
        table.place,
        table.text("query"),
        table.text("label"),
        tuple(table.texts("names")),
        table.number("factor", 1, 1e-18, 1e18),
        share(table, "dead_band", 5),
        floor,
        table.whole("ceiling", most, floor, most),
        missing,
        table.number("missing_after", 300, 0, MOST_SECONDS),
        **more,
    )
    table.end()
    return rule


def settings_of(octets: bytes, path: str) -> Settings:
    """What a file of settings says; its first fault is told with its place."""
    try:
        top = Table(tomllib.loads(octets.decode()), path)
    except (UnicodeDecodeError, tomllib.TOMLDecodeError, RecursionError) as why:
        raise Fault(f"{path}: {why}") from None
    calm, brake = top.table("calm"), top.table("brake")
    rules = [rule_of(table, word) for word in (DEMAND, CAPACITY) for table in top.tables(word)]
    hold = calm.number("hold", 30, 0, MOST_SECONDS)
    flap = calm.number("flap", 60, 0, MOST_SECONDS)
    every = top.number("every", 10, 0.1, 3600)
    settings = Settings(
        top.text("prometheus").rstrip("/"),
        top.number("timeout", min(5, every), 0.1, every),
        every,
        top.text("log", ""),
        top.text("topology", ""),
        top.text("metrics", ""),
        top.whole("lead", max(LEAD, ceil(3 * every)), max(2, ceil(2 * every)), 86400),
        tuple(top.texts("hand_back", [])),
        Calm(
            hold,
            flap,
            calm.number("flap_most", max(3600, flap), flap, MOST_SECONDS),
            calm.number("flap_forget", 1800, 0, MOST_SECONDS),
        ),
        share(brake, "tree", 40),
        share(brake, "all", 25),
        Jump(
            brake.number("demand_sum", 100, 0, 1e6) / 100,
            brake.number("demand_name", 900, 0, 1e6) / 100,
            brake.number("demand_after", 300, 0, MOST_SECONDS),
        ),
        tuple(rules),
    )
    for table in (calm, brake, top):
        table.end()
    if not re.match(r"https?://", settings.prometheus):
        raise Fault(f"`prometheus` of {path} begins with neither http:// nor https://")
    if bool(settings.log) != bool(settings.topology):
        raise Fault(f"`log` and `topology` of {path} go together")
    if not rules:
        raise Fault(f"{path} has no rule")
    return settings


def places_of(names: Names, word: str) -> Mapping[str, int]:
    return names.unit_at if word == DEMAND else names.node_at


def matched(patterns: tuple[str, ...], names: Mapping[str, int], place: str) -> list[str]:
    """The names that these speak of; each pattern has to speak of one."""
    found: dict[str, None] = {}
    for pattern in patterns:
        if pattern in names:
            found[pattern] = None
            continue
        more = [name for name in names if fnmatchcase(name, pattern)]
        if not more:
            raise Fault(f"{place}: the topology has no name `{pattern}`")
        found.update(dict.fromkeys(more))
    return list(found)


def names_of(rules: tuple[Rule, ...], topology: Names) -> dict[Name, Rule]:
    """The rule of each name; that a name has two, or that a pattern has none, is refused."""
    found, faults = known_names(rules, topology)
    if faults:
        raise Fault(faults[0])
    return found


def known_names(rules: tuple[Rule, ...], topology: Names) -> tuple[dict[Name, Rule], list[str]]:
    """The rule of each name, and what is wrong: a pattern that has no name, and names that have two rules, which have none
    then."""
    found: dict[Name, Rule] = {}
    faults, twice = list[str](), set[Name]()
    for rule in rules:
        for pattern in rule.patterns:
            try:
                names = matched((pattern,), places_of(topology, rule.word), rule.place)
            except Fault as why:
                faults.append(str(why))
                continue
            for name in names:
                other = found.setdefault((rule.word, name), rule)
                if other is not rule:
                    twice.add((rule.word, name))
                    words = f"{other.place} and {rule.place} both speak of {rule.word} {name}"
                    faults.append(words)
    return {name: rule for name, rule in found.items() if name not in twice}, faults
