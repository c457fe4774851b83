"""glb-watch: asks Prometheus for demands and capacities, and appends what is worth a change to a log."""

import argparse
import json
import signal
import sys
import time
from collections.abc import Callable, Container
from typing import Any, NoReturn

from glb_tools.etcd import ETCD_STATUSES, add_etcd_options, etcd_of
from glb_tools.log import Log
from glb_tools.options import DONE, WRONG_WORDS, Fault, Progress, parser, read_file, said
from glb_tools.precedence import HANDED_BACK
from glb_tools.shared_addresses import remarks, warn
from glb_tools.text import MOST_CHANGES
from glb_tools.topology import Topology
from glb_tools.watch_engine import Answer, Engine, Found, Verdict
from glb_tools.watch_logs import FileLog, FleetLog, Served, Waits, Watched
from glb_tools.watch_prometheus import Prometheus
from glb_tools.watch_rules import (
    Name,
    Rule,
    Settings,
    matched,
    names_of,
    places_of,
    settings_of,
)

ABOUT = """Asks Prometheus for demands and capacities, and appends what is worth a change to the log of a fleet or of a server.

    glb-watch WATCH.toml                         looks each interval
    glb-watch WATCH.toml --once --dry-run        looks once, and says of each name what it would do, and why
    glb-watch WATCH.toml --hand-back NAME        hands a name back that somebody else set: it follows its rule again

Where Prometheus does not answer, or answers nonsense, nothing is changed, and standard error says why. A number that
somebody else appended stays until it is handed back. docs/FORMATS.md has the settings."""
STATUSES = {DONE: "done; without --once it does not end by itself", **ETCD_STATUSES}
Ask = Callable[[dict[str, tuple[Rule, Container[str]]]], dict[str, Answer]]
# of how many changes a line or a reason says more than their number
MOST_SAID = 6


class Watch:
    """A log and the engine over it. `ask` asks all rules at once."""

    def __init__(self, settings: Settings, log: Watched, ask: Ask) -> None:
        self.settings, self.log, self.ask = settings, log, ask
        self.engine: Engine | None = None
        self.served: Served | None = None

    def read(self) -> tuple[Engine, Served]:
        """What is served now; where the topology is another one, the rules are checked by it again."""
        served = self.log.read()
        if self.engine is None or self.engine.topology is not served.topology:
            self.engine = Engine(self.settings, served.topology, self.engine)
        self.served = served
        return self.engine, served

    def begin(self, is_dry: bool) -> None:
        """What is wrong with names, and with the topology, is said at the start."""
        _, served = self.read()
        names_of(self.settings.rules, served.topology)
        warn(served.topology)
        if self.settings.hand_back and not is_dry:
            self.hand_back(list(self.settings.hand_back), False)

    def look(self) -> Found:
        engine, _ = self.read()
        by_rule: dict[str, tuple[Rule, set[str]]] = {
            rule.place: (rule, set()) for rule in self.settings.rules
        }
        for (_, name), rule in engine.rules.items():
            by_rule[rule.place][1].add(name)
        answers = self.ask(dict(by_rule))
        # what was appended while Prometheus was asked counts, too
        engine, served = self.read()
        found = engine.look(
            served.numbers, served.by_hand, served.drains, answers, time.monotonic()
        )
        found.faults += served.faults
        return found

    def append(self, found: Found) -> bool:
        """Whether the batch was appended: not where somebody else appended meanwhile, of which the next look knows."""
        assert self.engine
        if not found.batch:
            return False
        if not self.log.append([each.line for each in found.batch], words_of(found.batch)):
            return False
        self.engine.took(found.batch, time.monotonic())
        return True

    def hand_back(self, names: list[str], is_named: bool) -> list[Name]:
        """Sets names that somebody else set to the numbers that they have."""
        _, served = self.read()
        by_hand, found = served.by_hand, list[Name]()
        for pattern in names:
            known = [
                (word, name)
                for word in ("demand", "capacity")
                for name in matching(pattern, served, word)
            ]
            if not known:
                raise Fault(f"the topology has no name `{pattern}`")
            found += [each for each in known if each in by_hand and each not in found]
        if not found and is_named:
            raise Fault("none of these names was set by somebody else")
        # in batches that a server takes
        for at in range(0, len(found), MOST_CHANGES):
            some = found[at : at + MOST_CHANGES]
            lines = [f"{word} {name} {served.numbers[word, name]}" for word, name in some]
            if not self.log.append(lines, HANDED_BACK):
                raise Fault("somebody appended meanwhile: say it again")
            self.read()
        return found


def matching(pattern: str, served: Served, word: str) -> list[str]:
    try:
        return matched((pattern,), places_of(served.topology, word), "")
    except Fault:
        return []


def words_of(batch: list[Verdict]) -> str:
    """The changes of a batch with their reasons, as far as a line goes."""
    words = "; ".join(f"{each.line} ({each.why})" for each in batch[:MOST_SAID])
    more = len(batch) - MOST_SAID
    return (words if len(words) <= 1900 else words[:1900] + "..") + (
        f"; and {more:,} more" if more > 0 else ""
    )


# What is said.


def told(found: Found, topology: Topology) -> dict[str, Any]:
    """A look for programs."""

    def of(each: Verdict) -> dict[str, Any]:
        new = each.old if each.new is None else each.new
        keys = {"word": each.word, "name": each.name, "from": each.old, "to": new}
        return {**keys, "value": each.value, "why": each.why}

    return {
        "batch": [of(each) for each in found.batch],
        "left": [of(each) for each in found.left],
        "faults": found.faults,
        "brakes": found.brakes,
        "jumps": found.jumps,
        "warnings": remarks(topology),
    }


def say(found: Found) -> None:
    for each in found.batch:
        print(f"{each.word} {each.name} {each.old} -> {each.new}: {each.why}")
    for each in found.left:
        print(f"{each.word} {each.name} stays {each.old}: {each.why or 'measured as it is'}")
    for words in found.brakes:
        print(f"brake: {words}: nothing more is taken out")
    for words in found.jumps:
        print(f"brake: {words}: such demands stay")
    for words in found.faults:
        print(f"fault: {words}")


class Teller:
    """Says on standard error what is at fault, once as long as it stays, and when it is over."""

    def __init__(self) -> None:
        self.said: set[str] = set()

    def tell(self, words: list[str]) -> None:
        for each in words:
            if each not in self.said:
                said(each, 0)
        if self.said and not words:
            said("all is well again", 0)
        self.said = set(words)


# The command.


def begins(watch: Watch, teller: Teller) -> bool:
    """Whether it is its turn; what is wrong with rules or the log ends the command."""
    try:
        watch.begin(False)
        return True
    except Waits as why:
        teller.tell([str(why)])
        return False


def run(watch: Watch, settings: Settings, metrics: Any) -> NoReturn:
    """Looks each interval, by a clock that never jumps; a look that fails changes nothing."""
    teller = Teller()
    while not begins(watch, teller):
        time.sleep(settings.every)
    due = time.monotonic()
    while True:
        try:
            found = watch.look()
            is_appended = watch.append(found)
            if is_appended:
                print(f"batch of {len(found.batch):,}: {words_of(found.batch)}", flush=True)
            elif found.batch:
                print("somebody else appended meanwhile: it looks again", flush=True)
            teller.tell(found.faults + found.brakes + found.jumps)
            if metrics and watch.served:
                metrics.take(found, watch.served, is_appended)
        except BrokenPipeError:
            raise
        except Waits as why:
            # once it leads again it begins from what is served then
            watch.engine = None
            teller.tell([str(why)])
            if metrics:
                metrics.waits()
        except (Fault, OSError) as why:
            teller.tell([str(why)])
            if metrics:
                metrics.failed()
        # looks that took too long are not made up for
        due = max(due + settings.every, time.monotonic())
        time.sleep(max(0.0, due - time.monotonic()))


def log_of(settings: Settings, options: argparse.Namespace) -> Watched:
    is_alone = not options.dry_run and not options.hand_back
    if not settings.log:
        # it is heard of at each look, which may take as long as Prometheus
        seconds = settings.lead if is_alone else 0
        return FleetLog(Log(etcd_of(options), options.prefix), seconds)
    return FileLog(
        settings.log,
        settings.topology,
        is_alone=is_alone,
        is_read_only=options.dry_run,
    )


def main() -> int:
    words = parser("glb-watch", ABOUT, STATUSES, json=True)
    words.add_argument("settings", metavar="WATCH.toml", help="rules and settings")
    words.add_argument("--once", action="store_true", help="looks once, and ends")
    words.add_argument(
        "--dry-run", action="store_true", help="appends nothing, and says why each name is as it is"
    )
    words.add_argument(
        "--hand-back",
        action="append",
        default=[],
        metavar="NAME",
        help="a name, or a pattern with * and ?",
    )
    add_etcd_options(words)
    options = words.parse_args()
    if options.dry_run and not options.once:
        raise Fault("--dry-run goes with --once", WRONG_WORDS)
    if options.json and not options.once:
        raise Fault("--json goes with --once", WRONG_WORDS)
    settings = settings_of(read_file(options.settings), options.settings)
    prometheus = Prometheus(settings.prometheus, settings.timeout)
    log = log_of(settings, options)
    signal.signal(signal.SIGTERM, lambda *_: sys.exit(0))
    try:
        return work(Watch(settings, log, prometheus.ask), settings, options)
    finally:
        log.end()


def work(watch: Watch, settings: Settings, options: argparse.Namespace) -> int:
    if options.hand_back:
        for word, name in watch.hand_back(options.hand_back, True):
            print(f"{word} {name} is handed back")
        return DONE
    if not options.once:
        run(watch, settings, metrics_of(settings))
    with Progress("looks"):
        watch.begin(options.dry_run)
        found = watch.look()
    if not options.dry_run and found.batch and not watch.append(found):
        raise Fault("somebody else appended meanwhile: nothing was put")
    if options.json:
        assert watch.served
        json.dump(told(found, watch.served.topology), sys.stdout, indent=1)
        print()
    else:
        say(found)
    return DONE


def metrics_of(settings: Settings) -> Any:
    """What serves metrics, where they are asked for and can be served."""
    if not settings.metrics:
        return None
    try:
        from glb_tools.watch_metrics import Metrics
    except ModuleNotFoundError:
        said("no metrics: the package python3-prometheus-client is not installed", 0)
        return None
    return Metrics(settings.metrics)
