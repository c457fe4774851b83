"""glb-drain: takes a node out of service in steps that move few units each, and puts it back."""

import argparse
import datetime
import json
import math
import re
import time
import uuid
from dataclasses import asdict, dataclass, field, replace
from typing import Any

from glb_tools import drains
from glb_tools.append import add_signature, signed_of
from glb_tools.drain_steps import AHEAD, STUCK, Sight, Step, ahead, next_step
from glb_tools.drain_stores import File, Fleet, Store
from glb_tools.drains import Drain
from glb_tools.etcd import ETCD_STATUSES, FULL, NO_MAJORITY, Unreachable, add_etcd_options, etcd_of
from glb_tools.log import Log, Signed, plain
from glb_tools.options import DONE, FAULT, WRONG_WORDS, Fault, Progress, parser, tell
from glb_tools.plan import MANY, REFUSED
from glb_tools.plan import STATUSES as PLAN_STATUSES
from glb_tools.plan import WORSE, amount, compared, is_worse, say, with_batch
from glb_tools.precedence import AUTHOR, HANDED_BACK, is_by_hand
from glb_tools.shared_addresses import remarks, warn
from glb_tools.topology import Topology

ABOUT = """Takes a node out of service in steps that move few units each, and puts it back.

    glb-drain NODE --over 20m --why TEXT    lowers its capacity from the load that it carries now to 0
    glb-drain NODE --back --over 1h         raises it in the same way, to what it was before
    glb-drain --list                        the drains that are on
    glb-drain NODE --forget                 ends a drain, and leaves the capacity as it is
    glb-drain --due                         the next step back of each drain whose time is over, and which nobody works

NODE is a pool, a site or a region: any node of the topology. With --for or --until the drain ends by itself: the command
waits, and puts the node back. Each step is made of what is served at that moment, and is tried by `glb repair` first: where
it would move more than --step units in all, also at other nodes, it is made smaller. How many steps there are, and what
the largest one moves, is tried and said ahead. The command may be ended at any moment; begun again it goes on. It appends to
a fleet's log, or to a log file (--of-log), under the lock of the file `lock` in the log's folder. What a drain has to know
is kept in etcd beside the log, or in the file LOG.drains. A node that glb-watch finds down is 0 meanwhile, and waits."""
CHANGED = 5
STATUSES = {
    REFUSED: f"{PLAN_STATUSES[REFUSED]}; or the topology does not have the node",
    NO_MAJORITY: f"{PLAN_STATUSES[WORSE]} (--anyway goes on); or {ETCD_STATUSES[NO_MAJORITY]}",
    FULL: f"{PLAN_STATUSES[MANY]}; or {ETCD_STATUSES[FULL]}",
    CHANGED: "somebody else changed the node's capacity, or drains it too: nothing more was done",
    STUCK: "the smallest step would move more than --step units: nothing more was done",
}
# how long etcd may be away during a drain, how soon what failed is tried again, and how often it is looked whether a drain
# that waits for its time is on still, in seconds
PATIENCE, AGAIN, LOOKS = 300.0, 2.0, 30.0
# by which the runs of --due are known; and how long after its last step another run is taken for one that has ended, behind
# two steps, in seconds
DUE, LATE = "due", 30
TIME = re.compile(r"(\d{1,9})([smhd]?)")
SECONDS = {"": 1, "s": 1, "m": 60, "h": 3600, "d": 86400}
MOST_SECONDS = 366 * 86400
TAKEN_OVER = "another glb-drain took {} over, or its drain was ended"


@dataclass
class Told:
    """What `--json` says."""

    node: str
    back: bool
    before: int
    target: int
    capacity: int
    load: int
    step: int
    planned: int
    moved: int = 0
    until: int | None = None
    steps: list[dict[str, int]] = field(default_factory=list)
    warnings: list[str] = field(default_factory=list)


def is_found_down(seen: Drain | None, capacity: int, author: str) -> bool:
    """Whether glb-watch holds a node below its drain's number: it found it down, or it fills."""
    return seen is not None and author == AUTHOR and capacity < seen.to


class Run:
    """One run of the command, over as many steps as it takes."""

    def __init__(self, store: Store, options: argparse.Namespace) -> None:
        self.store, self.options = store, options
        self.node: str = options.node
        self.signed = signed_of(options)
        self.run = uuid.uuid4().hex
        self.is_back: bool = options.back
        # the drain as it was planned at the start, and how many steps it takes in all
        self.plan: Drain | None = None
        self.of = 0
        # the last step that was handed on, which may have been lost on its way
        self.handed: Drain | None = None
        self.told: Told | None = None
        self.due = time.monotonic()
        # whether the node is out, and waits for its time
        self.is_waiting = False
        self.is_held = False

    def say(self, text: str) -> None:
        if not self.options.json:
            print(text, flush=True)

    # The start.

    def begin(self, sight: Sight) -> Drain | None:
        """The drain that this run makes or goes on with; none where there is nothing to do."""
        seen, capacity = self.store.seen, sight.capacity()
        self.check_begin(seen, capacity)
        if seen is None and capacity == 0 and not self.is_back and not self.is_measured_down():
            self.say(f"{self.node} has a capacity of 0 already, and of no drain: nothing is done")
            return None
        drain = self.drain_of(seen, seen.before if seen else self.first(capacity), capacity)
        if drain.until and drain.left() <= 0 and not self.is_back:
            if seen is None:
                raise Fault("--until is over already", WRONG_WORDS)
            # its time is over: it goes back
            self.is_back = True
            drain = self.drain_of(seen, drain.before, capacity)
        if self.is_back and capacity > drain.before:
            raise Fault(
                f"{self.node} has a capacity of {capacity:,}, more than the {drain.before:,} of before"
                + (" (--forget ends the drain)" if seen else ""),
                CHANGED,
            )
        self.told = Told(
            self.node, self.is_back, drain.before, drain.target, capacity, sight.load(), 0, 0
        )
        self.told.until, self.told.warnings = drain.until or None, remarks(sight.topology)
        if capacity == drain.target and not self.has_to_say(drain.target):
            return self.finished(seen, drain)
        self.plan_steps(sight, seen, drain)
        self.told.step, self.told.planned = drain.step, self.of
        return drain

    def check_begin(self, seen: Drain | None, capacity: int) -> None:
        if seen is None or capacity in seen.numbers or self.options.anyway:
            return
        if not is_found_down(seen, capacity, self.store.setters.author):
            raise Fault(
                f"{self.node} has a capacity of {capacity:,}, and the last step set {seen.to:,}: somebody else changed it"
                " (--anyway goes on from there, --forget ends the drain)",
                CHANGED,
            )

    def is_measured_down(self) -> bool:
        setters = self.store.setters
        return setters.author == AUTHOR and setters.number == 0

    def has_to_say(self, target: int) -> bool:
        """Whether what is kept has to say that the node is out, though it is: where glb-watch found it down."""
        seen = self.store.seen
        if self.is_back:
            return False
        return self.is_measured_down() if seen is None else seen.to != target

    def first(self, capacity: int) -> int:
        """The capacity of before, where no drain has kept it."""
        if capacity and not self.is_back:
            return capacity
        if self.store.setters.last_above_0 and not self.is_back:
            return self.store.setters.last_above_0
        before = self.store.capacity_of_topology(self.node)
        if self.is_back:
            self.say(f"no drain of {self.node} is kept: it goes to the topology's {amount(before)}")
        return before

    def drain_of(self, seen: Drain | None, before: int, capacity: int) -> Drain:
        """The drain as it begins, or goes on."""
        options, now = self.options, int(time.time())
        author = self.store.setters.author
        by_hand = author if is_by_hand(capacity, author) else ""
        drain = Drain(
            node=self.node,
            before=before,
            step=0,
            since=seen.since if seen else now,
            author=seen.author if seen else self.signed.author,
            why=self.signed.why or (seen.why if seen else ""),
            is_back=self.is_back,
            over=options.over,
            every=options.every,
            run=self.run,
            was=capacity,
            to=capacity,
            by_hand=seen.by_hand if seen else by_hand,
        )
        if seen and seen.is_back == self.is_back:
            # a step that was kept ahead, and did not come into the log, was not made
            drain.steps = seen.steps - (capacity == seen.was != seen.to)
            drain.moved, drain.at = seen.moved, seen.at
            # a clock that jumped makes it wait for one step at most
            pause = min(seen.every, options.every, options.over)
            self.due += min(max(seen.at + pause - now, 0), pause)
        if not options.back:
            with_time(drain, seen, options, now)
        return drain

    def finished(self, seen: Drain | None, drain: Drain) -> Drain | None:
        """What is left to do where the node is out, or back, already."""
        self.say(f"{self.node} is {'back' if self.is_back else 'out'} already")
        if self.options.dry_run or seen is None:
            return None
        if self.is_back:
            self.store.forget(self.node)
        elif drain.until:
            kept = replace(
                seen,
                until=drain.until,
                until_clock=drain.until_clock,
                boot=drain.boot,
                run=self.run,
            )
            if self.store.keep(kept):
                self.is_waiting = True
                return kept
            raise Fault(f"another glb-drain took {self.node} over", CHANGED)
        return None

    def plan_steps(self, sight: Sight, seen: Drain | None, drain: Drain) -> None:
        """How many steps there are to be, and how many units one may move: the same again where the same drain goes on."""
        options, units = self.options, self.checked(sight, drain.target)
        if options.step is not None:
            drain.step = int(options.step)
        pace = (self.is_back, options.over, options.every)
        if seen and (seen.is_back, seen.over, seen.every) == pace:
            drain.step, drain.planned = drain.step or seen.step, seen.planned
            self.of = max(drain.planned, drain.steps + 1)
            return
        load = units if self.is_back else min(sight.load(), sight.capacity())
        steps = max(1, min(math.ceil(options.over / options.every), load))
        drain.planned = self.of = drain.steps + steps
        with Progress("tries the steps"):
            seconds = math.inf if options.dry_run else AHEAD
            found = ahead(options.glb, sight, drain, options.step is not None, seconds)
        self.say_ahead(drain, found, steps)

    def say_ahead(self, drain: Drain, found: list[Step] | None, steps: int) -> None:
        each = f", each {self.options.every} s" if steps > 1 else ""
        if found is None:
            more = f", and more where one would move more than {drain.step:,} units" * bool(
                drain.step
            )
            self.say(
                f"{steps} steps{each}{more}: to try them ahead takes too long here (--dry-run)"
            )
            return
        self.of = drain.steps + len(found)
        largest = max((step.units for step in found), default=0)
        if not drain.step:
            drain.step = max(largest, 1)
        longer = f", {len(found) - steps} more than --over has" if len(found) > steps else ""
        self.say(
            f"{len(found)} steps{each}{longer}; the largest one moves {largest:,} units, as things stand now"
        )

    def checked(self, sight: Sight, target: int) -> int:
        """How many units are touched where all is done at once; a fault where some would lack a place behind it."""
        lines = f"capacity {self.node} {target}\n".encode()
        with Progress("tries the end"):
            found = compared(sight.served, with_batch(self.options.glb, sight.served, lines))
        self.say(f"at the end, with a capacity of {amount(target)}:")
        if not self.options.json:
            say(found, self.options.lines)
        if is_worse(found) and not self.options.anyway:
            raise Fault("more units would lack a place: --anyway goes on", WORSE)
        units, most = int(found["moved"] + found["gained"] + found["lost"]), self.options.most
        if most is not None and units > most:
            raise Fault(f"{units:,} units would move, and --most is {most:,}", MANY)
        return units

    # Steps.

    def go(self) -> None:
        heard = time.monotonic()
        while True:
            try:
                if self.waits_for_time() or not self.work():
                    heard = time.monotonic()
                elif not self.is_waiting:
                    return
            except Unreachable as why:
                is_long = time.monotonic() - heard > PATIENCE and not self.is_waiting
                if self.plan is None or is_long:
                    raise
                tell(why)
                self.due = max(self.due, time.monotonic() + AGAIN)
            with Progress("waits for its time" if self.is_waiting else "waits for the next step"):
                time.sleep(max(0.0, self.due - time.monotonic()))

    def waits_for_time(self) -> bool:
        """Whether the node is out, and its time has not come; where it comes, the way back begins."""
        if not self.is_waiting:
            return False
        seen = self.store.drains().get(self.node)
        if seen is None or seen.run != self.run:
            raise Fault(TAKEN_OVER.format(self.node), CHANGED)
        left = seen.left()
        if left > 0:
            self.due = time.monotonic() + min(left, LOOKS)
            return True
        self.is_waiting = False
        self.turn()
        return False

    def turn(self) -> None:
        """From now on it goes back."""
        self.say(f"the time of {self.node} is over: it goes back")
        self.is_back, self.plan, self.run, self.handed = True, None, uuid.uuid4().hex, None

    def sight(self) -> Sight:
        with Progress("looks what is served"):
            return Sight.of(self.node, self.store.served(self.node))

    def next(self, sight: Sight, drain: Drain) -> tuple[Drain, Step]:
        """The drain with its next step; a fault where that is braked."""
        with Progress("tries the next step"):
            found = next_step(self.options.glb, sight, drain, self.options.step is not None)
        self.braked(drain, found)
        made = replace(
            drain,
            was=sight.capacity(),
            to=found.to,
            at=int(time.time()),
            steps=drain.steps + 1,
            moved=drain.moved + found.units,
        )
        self.of = made.steps if found.to == drain.target else max(self.of, made.steps + 1)
        return made, found

    def work(self) -> bool:
        """Makes a step; whether it was the last one."""
        sight = self.sight()
        if self.plan is None:
            if not self.told:
                warn(sight.topology)
            self.plan = self.begin(sight)
            if self.plan is None or self.is_waiting:
                return True
            if self.due > time.monotonic():
                # the run before made a step just now
                return False
        drain = self.mine(sight)
        if drain.until and drain.left() <= 0 and not self.is_back:
            self.turn()
            return False
        if sight.capacity() == drain.target and not self.has_to_say(drain.target):
            return self.is_there(drain)
        if self.waits_for_watch(sight):
            return False
        if drain.steps > self.plan.steps:
            # the step that was lost on its way stands in the log
            self.plan, self.due = drain, time.monotonic() + self.options.every
            return False
        return self.step(sight, drain)

    def step(self, sight: Sight, drain: Drain) -> bool:
        made, found = self.next(sight, drain)
        self.handed = made
        is_last, began = found.to == drain.target, time.monotonic()
        is_over = is_last and made.is_back
        if not self.store.step(made, self.reason(made, is_over), is_over):
            # somebody came between: it is looked again, at once
            return False
        self.plan, self.due = replace(made, was=made.to), began + self.options.every
        self.show(made, found, sight)
        if is_last and made.until and not made.is_back:
            self.is_there(made)
        return is_last

    def is_there(self, drain: Drain) -> bool:
        self.is_waiting = bool(drain.until) and not drain.is_back
        until = f", until {moment(drain.until)}" if self.is_waiting else ""
        self.say(f"{self.node} is {'back' if drain.is_back else 'out'}{until}")
        return True

    def waits_for_watch(self, sight: Sight) -> bool:
        """Whether glb-watch found the node down, or fills it: nothing goes back meanwhile."""
        seen, author = self.store.seen, self.store.setters.author
        is_held = self.is_back and is_found_down(seen, sight.capacity(), author)
        if is_held and not self.is_held:
            self.say(
                f"{self.node} is down, or fills, as glb-watch measures it: the drain waits (--forget ends it)"
            )
        self.is_held = is_held
        if is_held:
            self.due = time.monotonic() + self.options.every
        return is_held

    def mine(self, sight: Sight) -> Drain:
        """The drain as it is kept, where this run made its last step, and nobody else changed anything since, but glb-watch,
        which found the node down."""
        assert self.plan
        seen, capacity, author = self.store.seen, sight.capacity(), self.store.setters.author
        if seen is not None and seen.run == self.run:
            if capacity != seen.to and not is_found_down(seen, capacity, author):
                raise Fault(
                    f"somebody else set the capacity of {self.node} to {capacity:,} (it was {seen.to:,}): the drain stops"
                    " here",
                    CHANGED,
                )
            return seen
        last = self.handed
        if seen is None and last and last.is_back and capacity == last.to == last.target:
            # the last step was lost on its way, and stands in the log
            return last
        if self.is_begun():
            raise Fault(TAKEN_OVER.format(self.node), CHANGED)
        if capacity != self.plan.was:
            self.plan = self.changed_ahead(seen, capacity, author)
        return self.plan

    def changed_ahead(self, seen: Drain | None, capacity: int, author: str) -> Drain:
        """The plan where a capacity changed ahead of the first step: by glb-watch alone."""
        assert self.plan
        if author != AUTHOR or (seen is not None and capacity > seen.to):
            raise Fault(
                f"somebody else set the capacity of {self.node} to {capacity:,}: the drain stops here",
                CHANGED,
            )
        before = capacity if seen is None and capacity and not self.is_back else self.plan.before
        return replace(self.plan, was=capacity, to=capacity, before=before)

    def is_begun(self) -> bool:
        return bool(self.told and self.told.steps and self.told.back == self.is_back)

    def braked(self, drain: Drain, found: Step) -> None:
        most = self.options.most
        if most is not None and drain.moved + found.units > most:
            raise Fault(
                f"with this step {drain.moved + found.units:,} units would have moved, and --most is {most:,}",
                MANY,
            )
        if found.lost > found.gained and not self.options.anyway:
            raise Fault(
                f"with this step {found.lost - found.gained:,} units more would lack a place: --anyway goes on",
                WORSE,
            )

    def reason(self, drain: Drain, is_over: bool) -> Signed:
        """The last step back hands a node back whose number of before was measured."""
        handed = f"{HANDED_BACK}: " if is_over and not drain.by_hand else ""
        back = " back" if drain.is_back else ""
        why = f": {drain.why}" if drain.why else ""
        words = f"{handed}drain {self.node}{back} {drain.steps}/{self.of}{why}"
        return Signed(self.signed.author, words)

    def show(self, made: Drain, found: Step, sight: Sight) -> None:
        assert self.told
        step = {"number": made.steps, "of": self.of, "from": made.was, "to": made.to}
        units = {"moved": found.moved, "gained": found.gained, "lost": found.lost}
        self.told.steps.append(step | units)
        self.told.capacity, self.told.moved = made.to, made.moved
        self.told.load = sight.load_in(found.map)
        self.say(
            f"{made.steps}/{self.of}: {self.node} from {amount(made.was)} to {amount(made.to)},"
            f" {found.units:,} units move"
            + (f", {found.lost:,} of them to nowhere" if found.lost else "")
            + f", {self.told.load:,} are there"
        )

    def dry_run(self) -> None:
        """Shows the steps, and makes none."""
        sight = self.sight()
        warn(sight.topology)
        drain = self.begin(sight)
        while drain and sight.capacity() != drain.target:
            drain, found = self.next(sight, drain)
            self.show(drain, found, sight)
            sight = sight.behind(found)


def with_time(drain: Drain, seen: Drain | None, options: argparse.Namespace, now: int) -> None:
    """The time at which it goes back by itself: the one that is kept, where no other one is said. --for counts from the drain's
    beginning, so the same command says the same time."""
    until = options.until or (drain.since + options.duration if options.duration else 0)
    if seen and until in (0, seen.until):
        drain.until, drain.until_clock, drain.boot = seen.until, seen.until_clock, seen.boot
    elif until:
        drain.until, drain.boot = until, drains.boot()
        drain.until_clock = time.monotonic() + until - now


# Drains whose time is over.


def is_late(drain: Drain, now: float) -> bool:
    """Whether a drain's time is over, and its next step is due, and the command that made its last one seems to have ended."""
    if not drain.until or drain.left() > 0:
        return False
    since = now - drain.at
    if since < 0:
        # a clock that went back
        return True
    if drain.run == DUE:
        return since >= drain.every
    return min(since, -drain.left()) >= 2 * drain.every + LATE


def work_due(store: Store, options: argparse.Namespace) -> int:
    """A step of each drain that is due; what is at fault with one holds up no other."""
    status = DONE
    for node, drain in sorted(store.drains().items()):
        if not is_late(drain, time.time()):
            continue
        words = {"node": node, "over": drain.over, "every": drain.every, "why": ""}
        run = Run(store, argparse.Namespace(**{**vars(options), **words}))
        run.run, run.is_back = DUE, True
        try:
            run.work()
        except Unreachable:
            raise
        except Fault as why:
            status = FAULT
            tell(Fault(f"{plain(node)}: {why}"))
    return status


# The command.


def moment(seconds: int) -> str:
    return time.strftime("%Y-%m-%d %H:%M:%SZ", time.gmtime(min(max(seconds, 0), 1 << 36)))


def state_of(drain: Drain, capacity: int | None, author: str = "") -> str:
    """What becomes of a node: of its capacity that is served (none where it is gone), and who set that."""
    if capacity is None:
        return "gone"
    if is_found_down(drain, capacity, author):
        return "found down"
    if capacity not in drain.numbers:
        return "changed"
    if drain.is_back:
        return "back"
    return "out" if capacity == 0 else "down"


STATES = {
    "gone": "is not in the topology any more",
    "changed": "was changed by somebody else",
    "found down": "was found down by glb-watch",
    "back": "comes back",
    "out": "is out",
    "down": "goes down",
}


def listed(store: Store) -> list[dict[str, Any]]:
    found = []
    drains_on = store.drains()
    if not drains_on:
        return []
    with Progress("looks what is served"):
        topology = Topology(store.numbered())
    for node, drain in sorted(drains_on.items()):
        at = topology.node_at.get(node)
        capacity = None if at is None else topology.nodes[at].capacity
        author = "" if capacity in (None, *drain.numbers) else store.setter(node, topology)
        found.append(
            {
                "node": node,
                "state": state_of(drain, capacity, author),
                "since": drain.since,
                "author": drain.author,
                "why": drain.why,
                "before": drain.before,
                "capacity": capacity,
                "last_step": drain.at,
                "until": drain.until or None,
            }
        )
    return found


def shown(found: dict[str, Any]) -> str:
    now = "" if found["capacity"] is None else f", now {amount(found['capacity'])}"
    until = f", until {moment(found['until'])}" if found["until"] else ""
    why = f"  # {plain(found['why'])}" if found["why"] else ""
    return (
        f"{plain(found['node'])}  {STATES[found['state']]}, from {amount(found['before'])}{now}"
        f"  since {moment(found['since'])}{until}  {plain(found['author'])}{why}"
    )


def seconds_in(text: str) -> int:
    found = TIME.fullmatch(text)
    if not found:
        raise argparse.ArgumentTypeError(f"`{text}` is no time, as 90s, 20m, 1h or 2d")
    count, unit = int(found[1]), found[2]
    return count * SECONDS[unit]


def time_in(text: str) -> int:
    """A time of day, or a date with one, of UTC: the next one, in seconds since 1970."""
    now = datetime.datetime.fromtimestamp(int(time.time()), datetime.timezone.utc)
    try:
        if re.fullmatch(r"\d\d:\d\d(:\d\d)?Z?", text):
            clock = datetime.time.fromisoformat(text.rstrip("Z"))
            found = datetime.datetime.combine(now.date(), clock, datetime.timezone.utc)
            found += datetime.timedelta(days=found <= now)
        else:
            found = datetime.datetime.fromisoformat(text)
            found = found if found.tzinfo else found.replace(tzinfo=datetime.timezone.utc)
        return int(found.timestamp())
    except (ValueError, OverflowError):
        words = f"`{text}` is no time of UTC, as 14:00 or 2026-12-01T14:00"
        raise argparse.ArgumentTypeError(words) from None


def count_in(text: str) -> int:
    if not re.fullmatch(r"\d{1,15}", text) or not int(text):
        raise argparse.ArgumentTypeError(f"`{text}` is no count of units")
    return int(text)


def words_of_command() -> argparse.ArgumentParser:
    words = parser("glb-drain", ABOUT, {**ETCD_STATUSES, **STATUSES}, json=True)
    add_etcd_options(words)
    words.add_argument(
        "--of-log", nargs=2, metavar=("TOPOLOGY", "LOG"), help="a log file, and what it begins from"
    )
    words.add_argument("--over", type=seconds_in, metavar="TIME", help="how long all steps take")
    words.add_argument(
        "--every", type=seconds_in, default=60, metavar="TIME", help="from step to step (1m)"
    )
    words.add_argument(
        "--step",
        type=count_in,
        metavar="UNITS",
        help="how many units a step may move at most, at all nodes (as many as the largest one that was tried ahead)",
    )
    words.add_argument(
        "--most", type=count_in, metavar="UNITS", help="how many units all steps may move"
    )
    words.add_argument(
        "--for",
        dest="duration",
        type=seconds_in,
        default=0,
        metavar="TIME",
        help="goes back by itself so long behind its beginning, over the same time",
    )
    words.add_argument(
        "--until",
        type=time_in,
        default=0,
        metavar="WHEN",
        help="goes back by itself at that time of UTC, as 14:00 or 2026-12-01T14:00",
    )
    words.add_argument("--back", action="store_true", help="puts the node back")
    words.add_argument("--list", action="store_true", help="lists the drains that are on")
    words.add_argument("--forget", action="store_true", help="ends a drain, and appends nothing")
    words.add_argument(
        "--due", action="store_true", help="makes the next steps of drains whose time is over"
    )
    words.add_argument("--dry-run", action="store_true", help="shows the steps, and makes none")
    words.add_argument(
        "--anyway",
        action="store_true",
        help="also where more units would lack a place, or somebody else changed the capacity",
    )
    words.add_argument(
        "--lines", type=int, default=10, metavar="N", help="how many pairs of sites are shown (10)"
    )
    words.add_argument("--glb", default="glb", metavar="PROGRAM", help="the program (glb)")
    add_signature(words)
    words.add_argument("node", nargs="?", metavar="NODE", help="the node, by its name")
    return words


def check_words(options: argparse.Namespace) -> None:
    is_other = options.back or options.forget or options.dry_run or options.json
    if options.list or options.due:
        if options.node is not None or (is_other and not (options.list and options.json)):
            raise Fault(f"--{'list' if options.list else 'due'} stands alone", WRONG_WORDS)
        return
    if options.node is None:
        raise Fault("there has to be a NODE, --list or --due", WRONG_WORDS)
    if options.forget:
        if options.back or options.dry_run:
            raise Fault("--forget goes with NODE alone", WRONG_WORDS)
        return
    if options.over is None:
        raise Fault("there has to be --over TIME", WRONG_WORDS)
    if not options.every:
        raise Fault("--every is a time above 0", WRONG_WORDS)
    if not (options.why or options.back or options.dry_run):
        raise Fault("there has to be --why TEXT", WRONG_WORDS)
    check_time(options)


def check_time(options: argparse.Namespace) -> None:
    if options.until and options.duration:
        raise Fault("--for or --until", WRONG_WORDS)
    if (options.until or options.duration) and options.back:
        raise Fault("--for and --until go with a drain, and not with --back", WRONG_WORDS)
    if options.until and options.until > time.time() + MOST_SECONDS:
        raise Fault("--until is more than a year ahead", WRONG_WORDS)


def main() -> int:
    options = words_of_command().parse_args()
    check_words(options)
    store: Store
    if options.of_log:
        store = File(options.glb, *options.of_log)
    else:
        store = Fleet(options.glb, Log(etcd_of(options), options.prefix))
    if options.list:
        found = listed(store)
        if options.json:
            print(json.dumps({"drains": found}, indent=2))
        for each in found if not options.json else ():
            print(shown(each))
        return DONE
    if options.due:
        return work_due(store, options)
    if options.forget:
        if options.node not in store.drains():
            raise Fault(f"no drain of {plain(options.node)} is on")
        store.forget(options.node)
        return DONE
    run = Run(store, options)
    try:
        run.dry_run() if options.dry_run else run.go()
    finally:
        if options.json and run.told:
            print(json.dumps(asdict(run.told), indent=2), flush=True)
    return DONE


__all__ = ["STATES", "Drain", "File", "Fleet", "main", "state_of"]
