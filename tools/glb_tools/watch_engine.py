"""What glb-watch makes of a look: pure functions and states over answers, numbers that are served, and a clock."""

import json
import re
from collections.abc import Container, Iterable, Mapping
from dataclasses import dataclass, field
from math import ceil, inf, isfinite
from typing import Any

from glb_tools.drains import Drain
from glb_tools.log import LARGEST_BATCH, plain
from glb_tools.precedence import Holder, holder
from glb_tools.text import MOST_CAPACITY, MOST_CHANGES, MOST_UNITS
from glb_tools.topology import Topology
from glb_tools.watch_rules import CAPACITY, DEMAND, DOWN, KEEP, Name, Rule, Settings, known_names


@dataclass
class Answer:
    """What a rule's expression came to: values by name, what is wrong with others, or why there is no answer at all."""

    values: dict[str, float] = field(default_factory=dict)
    wrong: dict[str, str] = field(default_factory=dict)
    fault: str = ""


# a jump of a name counts where it is more than this share of the sum of its rule
SMALL = 0.01
# how many names that jumped are said
MOST_JUMPS = 6
# as Prometheus writes a number
DECIMAL = re.compile(r"[+-]?(?:[0-9]+(?:\.[0-9]*)?|\.[0-9]+)(?:[eE][+-]?[0-9]+)?")


def answer_of(rule: Rule, names: Container[str], octets: bytes) -> Answer:
    """What Prometheus answered. A series of a name that the rule does not speak of is left out; whatever is wrong with one
    series is that name's alone."""
    try:
        told = json.loads(octets)
        if told["status"] != "success":
            return Answer(fault=f"Prometheus says {told.get('error', told['status'])}")
        if told.get("warnings"):
            return Answer(fault=f"a part of the answer may be missing: {told['warnings'][0]}")
        if told["data"]["resultType"] != "vector":
            return Answer(fault="the expression is no instant vector")
        answer = Answer()
        for series in told["data"]["result"]:
            name = series["metric"].get(rule.label)
            if name is None:
                return Answer(fault=f"a series has no label `{rule.label}`")
            if name in names:
                take_series(answer, rule, name, series["value"][1])
        return answer
    except (ValueError, KeyError, IndexError, TypeError, AttributeError, RecursionError):
        return Answer(fault="what came is no answer of Prometheus")


def take_series(answer: Answer, rule: Rule, name: str, text: Any) -> None:
    most = MOST_UNITS if rule.word == DEMAND else MOST_CAPACITY
    why = ""
    if name in answer.values or name in answer.wrong:
        why = f"the label {rule.label} stands twice"
    elif not isinstance(text, str) or not DECIMAL.fullmatch(text) or not isfinite(float(text)):
        why = f"the value {str(text)[:40]} is no number"
    elif float(text) < 0:
        why = f"the value {text[:40]} is negative"
    elif float(text) * rule.factor > most:
        why = f"the value {text[:40]} is out of range"
    if why:
        answer.values.pop(name, None)
        answer.wrong[name] = why
    else:
        answer.values[name] = float(text)


@dataclass
class State:
    """What is kept of a name between looks. Times are those of a clock that never jumps."""

    smooth: float | None = None
    bad: int = 0
    good: int = 0
    is_down: bool = False
    # from going down until it is full again it rises by steps
    is_filling: bool = False
    missing_since: float | None = None
    held_until: float = 0
    down_at: float | None = None
    # how often it went down with little time between
    flaps: int = 0
    out_until: float = 0
    # the largest capacity that it had since the start
    largest: int = 0
    # the demand that was measured last and was no jump
    seen: float | None = None
    # when its series had a value last
    heard: float = 0


@dataclass
class Verdict:
    """What becomes of a name at a look, and why: `new` is none where it keeps its number."""

    word: str
    name: str
    old: int
    value: float | None
    new: int | None
    why: str

    @property
    def is_fall(self) -> bool:
        return self.word == CAPACITY and self.new is not None and self.new < self.old

    @property
    def line(self) -> str:
        return f"{self.word} {self.name} {self.new}"


@dataclass
class Found:
    """What a look came to: the batch in its order, what keeps its number, and what has to be said."""

    batch: list[Verdict]
    left: list[Verdict]
    faults: list[str]
    brakes: list[str]
    # demands that jumped, and stay meanwhile
    jumps: list[str] = field(default_factory=list)
    # how many seconds ago the series had a value last that was silent for the longest time
    oldest: float = 0


class Engine:
    """The rules over a topology, as far as it has their names. States of names that stay are taken over from another engine."""

    def __init__(
        self, settings: Settings, topology: Topology, before: "Engine | None" = None
    ) -> None:
        self.calm, self.settings, self.topology = settings.calm, settings, topology
        # names that another topology lacks hold up no others
        self.rules, self.faults = known_names(settings.rules, topology)
        kept = before.states if before else {}
        self.states: dict[Name, State] = {name: kept[name] for name in self.rules if name in kept}
        # since when the sum of a rule, or the demand of a name, has jumped, and what is said of it
        self.jumped_since: dict[Any, tuple[float, str]] = before.jumped_since if before else {}

    def look(
        self,
        served: Mapping[Name, int],
        by_hand: Mapping[Name, str],
        drains: Mapping[str, Drain],
        answers: Mapping[str, Answer],
        now: float,
    ) -> Found:
        """`answers` are by the places of their rules; `by_hand` are the names that somebody else set, and who did; `drains` those
        that are on, by node."""
        verdicts = []
        demands: dict[str, list[Verdict]] = {}
        for (word, name), rule in self.rules.items():
            state = self.state((word, name), served[word, name], (word, name) in by_hand, now)
            answer = answers[rule.place]
            found = Verdict(word, name, served[word, name], answer.values.get(name), None, "")
            verdicts.append(found)
            if found.value is not None:
                state.heard = now
            if (word, name) in by_hand:
                found.why = f"set by {by_hand[word, name]}, until it is handed back"
            elif answer.fault or name in answer.wrong:
                state.missing_since = None
                found.why = answer.wrong.get(name) or "no answer"
            elif word == DEMAND and found.value is not None:
                state.missing_since = None
                demands.setdefault(rule.place, []).append(found)
            else:
                self.take(found, rule, state, drains.get(name) if word == CAPACITY else None, now)
        jumps = [words for each in demands.values() for words in self.demands(each, now)]
        idle = out_of_service(served, by_hand, drains)
        brakes = self.brake(verdicts, self.out(verdicts, by_hand), by_hand, idle)
        for found in verdicts:
            settle(found, self.states[found.word, found.name], now)
        batch, left = batch_of(verdicts)
        oldest = max(
            (now - self.states[each.word, each.name].heard for each in verdicts), default=0
        )
        return Found(batch, left, self.faults + faults_of(answers), brakes, jumps, oldest)

    def state(self, name: Name, old: int, is_by_hand: bool, now: float) -> State:
        """What is kept of a name: behind a start, and as long as it is set by hand, it begins from what is served."""
        found = self.states.get(name)
        if found is None or is_by_hand:
            is_out = name[0] == CAPACITY and old == 0
            found = self.states[name] = State(is_down=is_out, is_filling=old == 0, heard=now)
        return found

    def take(
        self, found: Verdict, rule: Rule, state: State, drain: Drain | None, now: float
    ) -> None:
        """What a series asks for, or that it is missing."""
        if found.value is None:
            missing(found, rule, state, now)
            # a number in place of a measured one is no more than that
            if found.new and drain:
                drained(found, rule, state, drain)
            return
        state.missing_since = None
        self.capacity(found, rule, state, found.value, drain, now)

    def out(self, verdicts: list[Verdict], by_hand: Mapping[Name, str]) -> set[str]:
        """The nodes that are down or look so, and those that would fall below half."""
        found = set()
        for each in verdicts:
            if each.word == CAPACITY and (CAPACITY, each.name) not in by_hand:
                state = self.states[each.word, each.name]
                state.largest = max(state.largest, each.old, each.new or 0)
                if state.is_down or state.bad or self.is_deep(each):
                    found.add(each.name)
        return found

    def took(self, batch: Iterable[Verdict], now: float) -> None:
        """That a batch was appended: from now on its names are held, and its nodes without capacity are down."""
        for found in batch:
            state = self.states[found.word, found.name]
            state.held_until = now + self.calm.hold
            if found.word == CAPACITY and found.new == 0 and not state.is_down:
                self.go_down(state, now)

    # What a value asks for.

    def demands(self, verdicts: list[Verdict], now: float) -> list[str]:
        """The demands of a rule: where their sum, or one of them, jumps, it stays until it is as before, or has stood for a
        while; says which."""
        rule, brake = self.rules[DEMAND, verdicts[0].name], self.settings.jump
        news = [(each.value or 0.0) * rule.factor for each in verdicts]
        states = [self.states[DEMAND, each.name] for each in verdicts]
        olds = [float(e.old) if s.seen is None else s.seen for e, s in zip(verdicts, states)]
        total, before = sum(news), sum(olds)
        words = f"{rule.place}: the sum of its demands jumped from {before:,.0f} to {total:,.0f}"
        of_all = self.jump(rule.place, words, total, before, brake.sum, now)
        said = []
        for found, state, new, old in zip(verdicts, states, news, olds):
            # a small one is no matter: it may be many times another small one
            most = brake.name if abs(new - old) > SMALL * before else inf
            words = f"{rule.place}: {plain(found.name)} jumped from {old:,.0f} to {new:,.0f}"
            own = self.jump((DEMAND, found.name), words, new, old, most, now)
            found.why = of_all or own
            if found.why:
                said += [own] if own else []
            else:
                state.seen = new
                self.demand(found, rule, state, new)
        if of_all:
            return [of_all]
        more = (
            [f"{rule.place}: more than {MOST_JUMPS} names jumped"] if len(said) > MOST_JUMPS else []
        )
        return said[:MOST_JUMPS] + more

    def jump(self, key: Any, words: str, new: float, old: float, most: float, now: float) -> str:
        """The words of its first look where a demand is another one by more than a share of the smaller one, and not for so long
        that it is believed; else nothing."""
        if abs(new - old) <= most * max(1.0, min(new, old)):
            self.jumped_since.pop(key, None)
            return ""
        since, first = self.jumped_since.setdefault(key, (now, words))
        if now - since < self.settings.jump.after:
            return first
        del self.jumped_since[key]
        return ""

    def demand(self, found: Verdict, rule: Rule, state: State, scaled: float) -> None:
        last = found.old if state.smooth is None else state.smooth
        state.smooth = rule.smoothing * scaled + (1 - rule.smoothing) * last
        found.new, found.why = clamped(rule, state.smooth), "measured"
        if is_within(rule, found):
            found.new, found.why = None, within(rule)

    def capacity(
        self,
        found: Verdict,
        rule: Rule,
        state: State,
        value: float,
        drain: Drain | None,
        now: float,
    ) -> None:
        scaled = round(value * rule.factor)
        if scaled == 0:
            state.bad, state.good = state.bad + 1, 0
            if state.is_down or state.bad >= rule.down_after:
                found.new, found.why = 0, "down"
            else:
                found.why = f"looks down, {state.bad} of {rule.down_after} looks"
            return
        state.bad, state.good = 0, state.good + 1
        if state.is_down:
            if state.good < rule.up_after:
                found.why = f"down, looks well, {state.good} of {rule.up_after} looks"
                return
            if now < state.out_until:
                left = state.out_until - now
                found.why = f"down, well again, damped for {left:.0f} s more: it flaps"
                return
            state.is_down = False
        if drain and holder(False, state.is_down, True) is Holder.DRAIN:
            drained(found, rule, state, drain)
            return
        state.is_filling |= found.old == 0
        found.new, found.why = clamped(rule, scaled), "measured"
        if is_within(rule, found):
            state.is_filling = False
            found.new, found.why = None, within(rule)
        else:
            fill(found, rule)

    def go_down(self, state: State, now: float) -> None:
        """From the second time on within a while it stays out, twice as long each time."""
        calm = self.calm
        is_again = state.down_at is not None and now - state.down_at < max(
            calm.flap_forget, 2 * (state.out_until - state.down_at)
        )
        state.flaps = state.flaps + 1 if is_again else 0
        wait = min(calm.flap_most, calm.flap * 2 ** min(state.flaps - 1, 30)) if is_again else 0
        state.is_down, state.down_at, state.out_until = True, now, now + wait
        state.good = 0

    # What it may do.

    def brake(
        self,
        verdicts: list[Verdict],
        out: set[str],
        by_hand: Mapping[Name, str],
        idle: Container[str] = (),
    ) -> list[str]:
        """Nothing more is taken out where more than a share of a tree, or of all, is out or looks so; says where that is."""
        said = []
        for tree, (count, gone, total) in self.sums(out, by_hand, idle).items():
            most = self.settings.brake_all if tree is None else self.settings.brake_tree
            # one pool alone may always go
            if count < 2 or gone <= most * total:
                continue
            where = "all trees" if tree is None else f"the tree {self.topology.nodes[tree].name}"
            words = f"{100 * gone / total:.0f} % of {where} look down, more than {100 * most:g} %"
            said.append(words)
            for found in verdicts:
                if self.is_deep(found) and tree in (None, self.root(found.name)):
                    found.new, found.why = None, f"the brake: {words}"
        return said

    def sums(
        self, out: set[str], by_hand: Mapping[Name, str], idle: Container[str]
    ) -> dict[int | None, tuple[int, int, int]]:
        """Of each tree, and of all: how many of its pools are out, their capacity, and that of all its pools. A pool of last
        resort has no capacity to speak of, and one that was set by hand, or that is out of service, is no matter of measuring.
        """
        nodes, last = self.topology.nodes, set(self.topology.last_resort())
        found: dict[int | None, tuple[int, int, int]] = {}
        for at, node in enumerate(nodes):
            if not node.is_pool or at in last or (CAPACITY, node.name) in by_hand:
                continue
            path = list(self.topology.path(at))
            if any(nodes[each].name in idle for each in path):
                continue
            state = self.states.get((CAPACITY, node.name))
            size = max(node.capacity, state.largest if state else 0, 1)
            is_out = any(nodes[each].name in out for each in path)
            for tree in (path[-1], None):
                count, gone, total = found.get(tree, (0, 0, 0))
                found[tree] = count + is_out, gone + size * is_out, total + size
        return found

    def is_deep(self, found: Verdict) -> bool:
        """Whether a node is to fall below half of the most that it had: to the brake that is as if it went out."""
        if not found.is_fall or found.new is None:
            return False
        return 2 * found.new < self.states[found.word, found.name].largest

    def root(self, node: str) -> int:
        *_, root = self.topology.path(self.topology.node_at[node])
        return root


def missing(found: Verdict, rule: Rule, state: State, now: float) -> None:
    """A series that is not there keeps its number for a while, and then follows its rule."""
    if state.missing_since is None:
        state.missing_since = now
    silent = now - state.missing_since
    if silent < rule.missing_after:
        found.why = f"no series for {silent:.0f} s, of {rule.missing_after:g} s"
    elif rule.missing == KEEP:
        found.why = "no series: it keeps its number"
    elif rule.missing == DOWN:
        found.new, found.why = 0, f"no series for {silent:.0f} s: taken for down"
    else:
        assert isinstance(rule.missing, int)
        found.new, found.why = rule.missing, f"no series for {silent:.0f} s: its rule's number"


def fill(found: Verdict, rule: Rule) -> None:
    """A node that rises does so by steps."""
    assert found.new is not None
    step = found.old + max(1, ceil(found.new * rule.up_step))
    if found.old < found.new and step < found.new:
        found.new, found.why = step, f"fills by {100 * rule.up_step:g} %"


def drained(found: Verdict, rule: Rule, state: State, drain: Drain) -> None:
    """A node that is drained, and not down: the drain's number stands. It comes back to it where it was down meanwhile."""
    words = f"drained by {plain(drain.author)}, from {drain.before:,}"
    if found.old in drain.numbers:
        state.is_filling = False
        found.new, found.why = None, words
        return
    state.is_filling = True
    found.new, found.why = drain.to, words
    fill(found, rule)


def out_of_service(
    served: Mapping[Name, int], by_hand: Mapping[Name, str], drains: Mapping[str, Drain]
) -> set[str]:
    """The nodes that have no capacity, and not since they were measured so."""
    names = {name for word, name in by_hand if word == CAPACITY}
    names |= {name for name, drain in drains.items() if drain.to == 0}
    return {name for name in names if served.get((CAPACITY, name)) == 0}


def settle(found: Verdict, state: State, now: float) -> None:
    """What is no change is none, and what comes too soon behind the last change waits: but a falling capacity, and filling."""
    if found.new == found.old:
        found.new = None
    elif found.new is not None and now < state.held_until:
        if not found.is_fall and not state.is_filling:
            found.new = None
            found.why = f"held behind its last change for {state.held_until - now:.0f} s more"


def clamped(rule: Rule, number: float) -> int:
    return min(max(round(number), rule.floor), rule.ceiling)


def is_within(rule: Rule, found: Verdict) -> bool:
    """Whether a number is so near the one that is served that it is not worth a change."""
    assert found.new is not None
    return found.old > 0 and abs(found.new - found.old) <= rule.dead_band * found.old


def within(rule: Rule) -> str:
    return f"within the dead band of {100 * rule.dead_band:g} %"


def batch_of(verdicts: list[Verdict]) -> tuple[list[Verdict], list[Verdict]]:
    """The changes of a batch, and all else. Falling capacities come first, then other capacities, then demands, each with
    the largest first; what there is no room for waits for the next look."""

    def order(found: Verdict) -> tuple[int, int]:
        assert found.new is not None
        rank = 0 if found.is_fall else 1 if found.word == CAPACITY else 2
        return rank, -abs(found.new - found.old)

    asked = sorted((found for found in verdicts if found.new is not None), key=order)
    batch: list[Verdict] = []
    room = LARGEST_BATCH
    for found in asked:
        # with the two spaces of a file and the line's end
        room -= len(found.line) + 2
        if len(batch) == MOST_CHANGES or room < 0:
            found.new, found.why = None, "the batch is full: it waits for the next one"
        else:
            batch.append(found)
    return batch, [found for found in verdicts if found.new is None]


def faults_of(answers: Mapping[str, Answer]) -> list[str]:
    """What is wrong with answers, in a line each."""
    found = []
    for place, answer in answers.items():
        if answer.fault:
            found.append(f"{place}: {answer.fault}: its numbers stay")
        elif answer.wrong:
            name, words = next(iter(answer.wrong.items()))
            more = f", and {len(answer.wrong) - 1} more" if len(answer.wrong) > 1 else ""
            found.append(f"{place}: {name}: {words}{more}: such numbers stay")
    return found
