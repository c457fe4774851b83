"""glb-watch, glb-drain, Prometheus and glb-exporter beside a fleet, for bench/fleet_hunt.py --watch.

Prometheus scrapes the machines of four pools, and by that glb-watch lowers and raises these; a page
of demands changes all the while. Pools and a region are drained and put back. Machines close, hang
and answer nonsense, and each of these programs is killed by SIGKILL or held for seconds, beside the
faults that the hunt has. Looked at, each by something that is not the tools' own:

- each entry of glb-watch and of glb-drain (hunt_record.py says by what);
- behind it all, where drains are ended, names handed back and all machines answer: each pool has its
  capacity of the topology within BACK seconds, and glb-exporter serves the capacities of the log;
- each batch that a command said it put stood in the log, and is there still;
- each command ended with a status that its --help lists, without a traceback, and left no process.
"""

import json
import os
import re
import signal
import subprocess
import threading
import time
import urllib.request
from collections.abc import Callable
from http.client import HTTPException
from pathlib import Path
from random import Random
from typing import Any

from hunt_log import Keys, Log
from hunt_measured import MODES, Machine, Relay
from hunt_record import LATE, Name, Numbers, Record, Seen
from hunt_world import TOOLS, free_port, words_of

POOLS, STEADY, GROUPS = ("W0", "W1", "W2", "W3"), "W3", ("v0", "v1", "v2")
# in how many seconds all is to be as measured behind the last fault: a node stays out for eight at
# most where it flapped, is seen well twice, fills in two looks, and another glb-watch may have to lead
BACK = 45
# how long a command is waited for behind the faults, in seconds
WAITS = 120
# how long the start of a command takes at most on a busy machine, in seconds
BEGINS = 20
# how long a process may live on that a command began which was killed, in seconds
ENDS = 10
SAID = re.compile(r"(?:^|; )((?:demand|capacity) \S+ \d+) \(")
MADE = re.compile(r"(\d+)/(\d+): (\S+) from \S+ to ([0-9,]+), ")
BASE = re.compile(r"base ([0-9a-f]{12}) is entry (\d+)")
# ended by the hunt
ENDED = (-signal.SIGKILL, -signal.SIGTERM)
# what befalls the log by hand, or with etcd's restores: half of the schedules have none of it
ON_THE_LOG = {"raw", "raw_many", "raw_very_many", "take_last", "take_any", "overwrite", "odd_key"}
ON_THE_LOG |= {"odd_other", "restore", "restore_and_write", "meddle", "by_hand", "edit_topology"}
# those that each schedule has
ALWAYS = ["drain", "drain_for", "drain_killed", "drain_again", "drain_back", "roll_beside"]
ALWAYS += ["machines_fail", "pool_fails", "watch_killed", "watch_held", "prometheus_killed"]
ALWAYS += ["prometheus_held", "hand_sets", "append_killed"]
# by name, how likely each is
ACTIONS = {
    "machines_fail": 8,
    "pool_fails": 8,
    "pool_flaps": 4,
    "all_fail": 2,
    "demands_fail": 2,
    "prometheus_killed": 4,
    "prometheus_held": 4,
    "prometheus_broken": 6,
    "watch_killed": 6,
    "watch_killed_often": 3,
    "watch_held": 5,
    "watch_ended": 2,
    "watch_cut_off": 4,
    "drain": 8,
    "drain_for": 4,
    "drain_killed": 8,
    "drain_held": 4,
    "drain_again": 4,
    "drain_twice": 2,
    "drain_back": 5,
    "drain_forget": 2,
    "drain_due": 3,
    "hand_sets": 4,
    "hand_back": 3,
    "exporter_killed": 2,
    "exporter_held": 2,
}


class Kept:
    """A program that is begun again where it ends, as its unit does it."""

    def __init__(self, name: str, folder: Path, words: list[str], seed: int) -> None:
        self.name, self.words, self.draw = name, words, Random(seed)
        self.path = folder / f"{name}.log"
        self.process: subprocess.Popen[bytes] | None = None
        # the statuses with which it ended, and how many seconds it had lived
        self.ended: list[tuple[int, float]] = []
        self.is_over = False
        self.thread = threading.Thread(target=self.go_on, daemon=True)
        self.thread.start()

    def go_on(self) -> None:
        env = dict(os.environ, PYTHONPYCACHEPREFIX="/tmp/hunt-pyc")
        while not self.is_over:
            with open(self.path, "ab") as log:
                log.write(f"-- {time.time():.2f} begins\n".encode())
                log.flush()
                self.process = subprocess.Popen(
                    self.words, env=env, stdin=subprocess.DEVNULL, stdout=log, stderr=log
                )
            began = time.monotonic()
            self.ended.append((self.process.wait(), time.monotonic() - began))
            if not self.is_over:
                time.sleep(self.draw.uniform(0.2, 3))

    def send(self, number: int) -> None:
        process = self.process
        if process and process.poll() is None:
            process.send_signal(number)

    def end(self, number: int = signal.SIGTERM) -> None:
        self.is_over = True
        self.send(signal.SIGCONT)
        self.send(number)
        self.thread.join(12)
        self.send(signal.SIGKILL)
        self.thread.join(5)


_statuses: dict[str, set[int]] = {}


def statuses_of(name: str) -> set[int]:
    """The statuses that a command's --help lists."""
    if name not in _statuses:
        words = ["/usr/bin/python3", "-B", str(TOOLS / f"glb-{name}"), "--help"]
        told = subprocess.run(words, capture_output=True, text=True, check=True).stdout
        listed = told.partition("exit status:")[2]
        _statuses[name] = {int(each) for each in re.findall(r"(?m)^  (\d+) ", listed)}
        # a fault of the command itself is listed, and is what the hunt is for
        _statuses[name].discard(70)
    return _statuses[name]


class Beside:
    """All that stands beside a fleet in a schedule, what befalls it, and what has to be so."""

    def __init__(self, hunt: Any) -> None:
        self.hunt, self.fleet, self.draw, self.seed = hunt, hunt.fleet, hunt.draw, hunt.seed
        os.environ["GLB_HUNT"] = self.mark = f"{self.fleet.folder}"
        draw = self.draw
        self.units = draw.choice([10, 20, 30])
        self.more = ([(pool, f"R{at % 2}", self.units) for at, pool in enumerate(POOLS)], GROUPS)
        self.dead_band = draw.choice([0, 5])
        self.brake = draw.choice([100, 100, 40])
        self.down_after = draw.choice([2, 3])
        self.is_mild = draw.random() < 0.5
        self.is_mended = False
        self.record = Record(hunt, self.names(), self.measured)
        self.machines: dict[str, list[Machine]] = {}
        self.watchers: list[Kept] = []
        self.kept: list[Kept] = []
        self.relay: Relay | None = None
        self.ways = [self.fleet.ways.make(member.client) for member in self.fleet.etcd.members]
        self.demands = {name: draw.randrange(5, 15) for name in GROUPS}
        self.excused = 0
        # what is told, and is no fault
        self.notes: list[str] = []
        hunt.checks |= {"lines": 0, "steps": 0, "ends": 0, "said": 0, "back": 0, "slowest": 0}
        hunt.checks["unfailed"] = 0

    @staticmethod
    def names() -> set[Name]:
        return {("capacity", pool) for pool in POOLS} | {("demand", group) for group in GROUPS}

    def actions(self) -> dict[str, int]:
        return ACTIONS

    def due(self) -> list[str]:
        """What befalls this schedule, in order."""
        weights = {
            name: weight
            for name, weight in self.hunt.actions.items()
            if not (self.is_mild and name in ON_THE_LOG)
        }
        found: list[str] = self.draw.choices(
            list(weights), list(weights.values()), k=self.draw.randrange(5, 14)
        )
        found += ALWAYS
        self.draw.shuffle(found)
        return found

    # The start.

    def begin_record(self) -> None:
        self.record.start()
        if not self.record.is_ready.wait(20):
            raise OSError("etcd does not tell what is put")

    def etcd_words(self) -> list[str]:
        return ["--etcd", ",".join(f"http://127.0.0.1:{way.port}" for way in self.ways)]

    def begin(self) -> None:
        loop, folder, draw = self.fleet.ways.loop, self.fleet.folder, self.draw
        at = 20
        for pool in POOLS:
            self.machines[pool] = []
            for _ in range(draw.choice([1, 1, 2])):
                machine = Machine(loop, f"127.0.0.{at}", lambda: "hunt_machine 1\n")
                self.machines[pool].append(machine)
                at += 1
        self.page = Machine(loop, f"127.0.0.{at}", self.demand_page)
        self.prometheus_port, self.exporter_port = free_port(), free_port()
        (folder / "prometheus.yml").write_text(json.dumps(self.scraped()))
        self.prometheus = self.keep(
            "prometheus",
            ["/usr/bin/prometheus", f"--config.file={folder}/prometheus.yml"]
            + [f"--storage.tsdb.path={folder}/tsdb", "--log.level=warn"]
            + [f"--web.listen-address=127.0.0.1:{self.prometheus_port}"],
        )
        self.relay = Relay(f"http://127.0.0.1:{self.prometheus_port}", ("pool", "group"), self.seed)
        (folder / "watch.toml").write_text(self.settings())
        tool = words_of(self.hunt.is_fast, "watch")
        for number in range(draw.choice([1, 2, 2])):
            words = [*tool, str(folder / "watch.toml"), *self.etcd_words()]
            self.watchers.append(self.keep(f"watch{number}", words))
        self.exporter = self.keep(
            "exporter",
            [*words_of(self.hunt.is_fast, "exporter"), "--fleet", *self.etcd_words()]
            + ["--listen", f"127.0.0.1:{self.exporter_port}", "--every", "1"]
            + ["--glb", str(self.fleet.glb)],
        )
        end = time.monotonic() + 20
        while time.monotonic() < end and not self.relay.values(STEADY, 0, time.time()):
            time.sleep(0.2)
        self.moving = threading.Thread(target=self.move, daemon=True)
        self.moving.start()

    def keep(self, name: str, words: list[str]) -> Kept:
        kept = Kept(name, self.fleet.folder, words, self.seed + len(self.kept))
        self.kept.append(kept)
        return kept

    def scraped(self) -> dict[str, Any]:
        pools = [
            {"targets": [machine.place], "labels": {"pool": pool, "machine": str(at)}}
            for pool, machines in self.machines.items()
            for at, machine in enumerate(machines)
        ]
        exporter = f"127.0.0.1:{self.exporter_port}"
        return {
            "global": {"scrape_interval": "1s", "scrape_timeout": "700ms"},
            "scrape_configs": [
                {"job_name": "pools", "static_configs": pools},
                {"job_name": "demand", "static_configs": [{"targets": [self.page.place]}]},
                {"job_name": "glb", "static_configs": [{"targets": [exporter]}]},
            ],
        }

    def settings(self) -> str:
        assert self.relay
        return f"""prometheus = "http://127.0.0.1:{self.relay.port}"
timeout = 0.9
every = 1
lead = 3
[calm]
hold = {self.draw.choice([0, 2])}
flap = 2
flap_most = 8
flap_forget = 20
[brake]
tree = {self.brake}
all = {self.brake}
demand_sum = 100000
demand_name = 100000
[[capacity]]
query = 'avg by (pool) (up{{job="pools"}})'
label = "pool"
names = ["W*"]
factor = {self.units}
dead_band = {self.dead_band}
down_after = {self.down_after}
up_after = 2
up_step = 50
[[demand]]
query = 'hunt_demand'
label = "group"
names = ["v*"]
smoothing = 1
dead_band = 0
"""

    def demand_page(self) -> str:
        return "".join(f'hunt_demand{{group="{name}"}} {self.demands[name]}\n' for name in GROUPS)

    def move(self) -> None:
        """Demands change as long as faults go on."""
        draw = Random(self.seed)
        while not self.is_mended and not self.hunt.is_over.is_set():
            self.demands = {
                name: draw.randrange(4, 18) if draw.random() < 0.5 else units
                for name, units in self.demands.items()
            }
            time.sleep(draw.choice([0.5, 1, 2, 4]))

    # What follows from an answer.

    def measured(
        self, word: str, name: str, number: int, old: int, moment: int, drained: int | None
    ) -> str:
        """Why a number does not follow from any answer that glb-watch was given just before; a drain
        holds a node at its number."""
        assert self.relay
        values = self.relay.values(name, moment - LATE, moment + 2)
        if word == "demand":
            news = {max(1, round(value)) for value in values}
            return "" if number in news else f"and {sorted(news)} were measured"
        news = {round(value * self.units) for value in values}
        top = max(news, default=0)
        if number < min(old, self.units) and number in news and not self.has_failed(name):
            # Prometheus itself stood still, or had no time to ask
            self.hunt.checks["unfailed"] += 1
            told = f"{name} went from {old} to {number}, as Prometheus said, and no machine failed"
            self.notes.append(f"{moment} {told}: {self.hunt.done[-4:]}")
        is_due = (
            number in news
            or (number == drained and bool(top))
            or old < number <= (top if drained is None else drained if top else 0)
        )
        return "" if is_due else f"and {sorted(news)} were measured"

    def has_failed(self, pool: str) -> bool:
        """Whether any machine of a pool has failed in this schedule, by its own record."""
        return any(machine.faults for machine in self.machines[pool])

    # What befalls machines and Prometheus.

    def fail(self, machines: list[Machine], mode: str, seconds: float) -> None:
        turn(machines, mode)
        self.hunt.later(seconds, lambda: turn(machines, "answers"))

    def some_pool(self) -> str:
        return str(self.draw.choice([pool for pool in POOLS if pool != STEADY]))

    def machines_fail(self) -> None:
        machine = self.draw.choice(self.machines[self.some_pool()])
        self.fail([machine], self.draw.choice(MODES), self.draw.uniform(0.5, 8))

    def pool_fails(self) -> None:
        machines = self.machines[self.some_pool()]
        self.fail(machines, self.draw.choice(MODES), self.draw.uniform(4, 12))

    def pool_flaps(self) -> None:
        machines = self.machines[self.some_pool()]
        for _ in range(3):
            self.fail(machines, self.draw.choice(MODES), 30)
            time.sleep(self.draw.uniform(1, 5))
            turn(machines, "answers")
            time.sleep(self.draw.uniform(0.5, 5))

    def all_fail(self) -> None:
        machines = [each for pool in POOLS if pool != STEADY for each in self.machines[pool]]
        self.fail(machines, self.draw.choice(MODES), self.draw.uniform(2, 8))

    def demands_fail(self) -> None:
        self.fail([self.page], self.draw.choice(MODES), self.draw.uniform(1, 8))

    def hold(self, kept: Kept, seconds: float) -> None:
        process = kept.process
        kept.send(signal.SIGSTOP)

        def go_on() -> None:
            if process and process.poll() is None:
                process.send_signal(signal.SIGCONT)

        self.hunt.later(seconds, go_on)

    def prometheus_killed(self) -> None:
        self.prometheus.send(signal.SIGKILL)

    def prometheus_held(self) -> None:
        self.hold(self.prometheus, self.draw.uniform(1, 9))

    def prometheus_broken(self) -> None:
        assert self.relay
        self.relay.mode = self.draw.choice(["broken", "broken", "late"])
        self.hunt.later(self.draw.uniform(1, 8), lambda: setattr(self.relay, "mode", "pass"))

    def exporter_killed(self) -> None:
        self.exporter.send(signal.SIGKILL)

    def exporter_held(self) -> None:
        self.hold(self.exporter, self.draw.uniform(1, 9))

    # What befalls glb-watch.

    def watch_killed(self) -> None:
        for watcher in self.watchers:
            if self.draw.random() < 0.7:
                watcher.send(signal.SIGKILL)

    def watch_killed_often(self) -> None:
        for _ in range(4):
            self.watch_killed()
            time.sleep(self.draw.uniform(0.5, 4))

    def watch_held(self) -> None:
        self.hold(self.draw.choice(self.watchers), self.draw.uniform(1, 8))

    def watch_ended(self) -> None:
        self.draw.choice(self.watchers).send(signal.SIGTERM)

    def watch_cut_off(self) -> None:
        mode = self.draw.choice(["drop", "refuse", "slow", "late", "torn", "drip"])
        self.hunt.way(self.ways, mode, self.draw.uniform(0.5, 8))

    def hand_sets(self) -> None:
        """Somebody sets a pool by hand, with which glb-watch has nothing to do then."""
        lines = f"capacity {self.draw.choice(POOLS)} {self.draw.randrange(0, 2 * self.units)}\n"
        self.fleet.begin("append", "--wait", "0", "--seconds", "5", stdin=lines.encode())

    def hand_back(self) -> None:
        names = self.draw.choice([[self.draw.choice(POOLS)], ["W*"], ["v*", "W*"]])
        self.fleet.begin("watch", self.fleet.folder / "watch.toml", *handed(names))

    # Drains.

    def begin_drain(self, node: str, *more: object) -> None:
        self.fleet.begin("drain", node, "--every", "1s", "--anyway", "--glb", self.fleet.glb, *more)

    def some_node(self) -> str:
        return str(self.draw.choice([*POOLS, *POOLS, "P00", "P10", "R0"]))

    def drain(self, *more: object) -> None:
        over = self.draw.randrange(2, 9)
        self.begin_drain(self.some_node(), "--over", f"{over}s", "--why", "hunt", *more)

    def drain_for(self) -> None:
        self.drain("--for", f"{self.draw.randrange(3, 12)}s")

    def running(self) -> list[Any]:
        return [
            each
            for each in self.fleet.begun
            if each.name == "drain" and each.process.poll() is None
        ]

    def drain_killed(self) -> None:
        """A command that runs, or is begun, is killed at some moment; mostly it is begun again."""
        if not self.running():
            self.draw.choice([self.drain, self.drain_for])()
            time.sleep(self.draw.uniform(0.3, 5))
        for each in self.running()[-1:]:
            each.process.kill()
            if self.draw.random() < 0.7:
                time.sleep(self.draw.choice([0, 0.5, 2]))
                self.fleet.begin("drain", *each.words)

    def drain_held(self) -> None:
        for each in self.running()[-1:]:
            process = each.process
            process.send_signal(signal.SIGSTOP)

            def go_on(process: Any = process) -> None:
                if process.poll() is None:
                    process.send_signal(signal.SIGCONT)

            self.hunt.later(self.draw.uniform(0.5, 8), go_on)

    def drain_again(self) -> None:
        """The same command once more, whether it runs or not."""
        begun = [each for each in self.fleet.begun if each.name == "drain" and each.stdin == b""]
        if begun:
            self.fleet.begin("drain", *self.draw.choice(begun).words)

    def drain_twice(self) -> None:
        node = self.some_node()
        for _ in range(2):
            self.begin_drain(node, "--over", f"{self.draw.randrange(2, 6)}s", "--why", "hunt")
            time.sleep(self.draw.choice([0, 0.5, 1.5]))

    def drained(self) -> list[str]:
        with self.record.lock:
            return sorted(self.record.drains)

    def drain_back(self) -> None:
        node = self.draw.choice(self.drained() or [self.some_node()])
        self.begin_drain(node, "--back", "--over", f"{self.draw.randrange(1, 6)}s")

    def drain_forget(self) -> None:
        for node in self.drained()[:1]:
            self.fleet.begin("drain", node, "--forget")

    def drain_due(self) -> None:
        for _ in range(3):
            self.fleet.begin("drain", "--due", "--glb", self.fleet.glb)
            time.sleep(1)

    # The end.

    def mend(self) -> None:
        """Demands stand still, and who drains is ended."""
        self.is_mended = True
        for each in self.running():
            if self.draw.random() < 0.7:
                each.process.send_signal(signal.SIGCONT)
                each.process.kill()

    def finish(self) -> list[str]:
        """What an operator does behind it all, and whether all is as it was before."""
        began = time.monotonic()
        try:
            for _ in range(3):
                if not (found := self.end_drains()) and not self.on():
                    break
            if found:
                return found
            if self.on():
                return [f"drains do not end: {self.on()}"]
            if found := self.hand_all_back():
                return found
            found = self.wait_for_capacities()
            self.hunt.say(f"as measured {time.monotonic() - began:.1f} s behind the first --back")
            return found or self.exported()
        except (OSError, ValueError, HTTPException) as why:
            return [f"the hunt: at the end: {why}"]
        finally:
            for watcher in self.watchers:
                watcher.end()

    def on(self) -> list[str]:
        """The drains that are on, by etcd's own word."""
        keys = Keys(self.fleet.etcd).octets
        return [key for key in sorted(keys) if key.startswith("glb/drain/")]

    def end_drains(self) -> list[str]:
        for key in self.on():
            node = key.removeprefix("glb/drain/")
            with self.record.lock:
                is_read = node in self.record.drains
            if not is_read:
                # put by hand: it is told as such, and is taken away by hand
                self.hunt.delete(key)
                continue
            words = ("--every", "1s", "--anyway", "--glb", self.fleet.glb)
            status = self.fleet.command(
                "drain", node, "--back", "--over", "2s", *words, seconds=WAITS
            )
            told = self.fleet.begun[-1].path.read_text()
            if status == 5 and "more than the" in told:
                status = self.fleet.command("drain", node, "--forget", seconds=WAITS)
            elif status == 5:
                # a command of before made a step meanwhile: it is said again
                continue
            if status:
                return [f"glb-drain {node} --back ends with {status}: {told}"]
        return []

    def hand_all_back(self) -> list[str]:
        for _ in range(8):
            path = self.fleet.folder / "watch.toml"
            words = handed(["W*", "v*"])
            status = self.fleet.command("watch", path, *words, seconds=WAITS)
            told = self.fleet.begun[-1].path.read_text()
            if status == 0 or "none of these names was set" in told:
                return []
            if "somebody appended meanwhile" not in told:
                break
        return [f"glb-watch --hand-back ends with {status}: {told}"]

    def numbers(self) -> dict[Name, int]:
        """The numbers behind the log, as it stands."""
        keys = Keys(self.fleet.etcd)
        log = Log(keys, self.hunt.memory)
        _, base, upto, _ = log.bases[-1]
        state = Numbers()
        state.begin(log.topology(base))
        for number in range(upto + 1, log.last + 1):
            state.take(log.handed(base, number), "")
        return state.numbers

    def wait_for_capacities(self) -> list[str]:
        began, most = time.monotonic(), BACK * (1 if self.hunt.is_fast else 2)
        room = self.dead_band * self.units // 100
        while True:
            numbers = self.numbers()
            wrong = {
                pool: numbers["capacity", pool]
                for pool in POOLS
                if abs(numbers["capacity", pool] - self.units) > room
            }
            wrong |= {
                group: numbers["demand", group]
                for group in GROUPS
                if numbers["demand", group] != self.demands[group]
            }
            seconds = time.monotonic() - began
            if not wrong:
                self.hunt.checks["back"] += len(POOLS)
                self.hunt.checks["slowest"] = round(seconds)
                return []
            if seconds > most:
                path = self.fleet.folder / "watch.toml"
                self.fleet.command("watch", path, "--once", "--dry-run")
                told = self.fleet.begun[-1].path.read_text()
                due = f"capacities {self.units}, demands {self.demands}"
                return [f"{wrong} in place of {due} behind {seconds:.0f} s: {told}"]
            time.sleep(0.5)

    def exported(self) -> list[str]:
        """The exporter serves the capacities of the log, once it has looked."""
        end, told = time.monotonic() + 30, ""
        while time.monotonic() < end:
            numbers = self.numbers()
            try:
                opener = urllib.request.build_opener(urllib.request.ProxyHandler({}))
                place = f"http://127.0.0.1:{self.exporter_port}/metrics"
                with opener.open(place, timeout=5) as answer:
                    text = answer.read().decode()
            except (OSError, HTTPException) as why:
                told = str(why)
                time.sleep(0.5)
                continue
            found = re.findall(r'(?m)^glb_node_capacity_units\{node="(\S+)"\} ([0-9.e+]+)$', text)
            served = {name: float(units) for name, units in found}
            due = {name: units for (word, name), units in numbers.items() if word == "capacity"}
            if served == due:
                return []
            told = f"{served}, and {due} are due"
            time.sleep(0.5)
        return [f"glb-exporter does not serve the capacities of the log: {told}"]

    # What was said, and how commands ended.

    def check_end(self) -> list[str]:
        time.sleep(1)
        found = self.check_said() + self.check_ends()
        if not self.hunt.is_tampered and not self.hunt.restores:
            found += self.check_kept()
        for name, count in self.record.counts.items():
            self.hunt.checks[name] += count
        if self.excused or self.record.gaps:
            self.hunt.say(f"{self.excused} words excused, {self.record.gaps} gaps")
        return found

    def check_kept(self) -> list[str]:
        """Whatever stood in the log is there, but for what was cut."""
        keys = Keys(self.fleet.etcd)
        entries = keys.entries()
        first = min(entries, default=0)
        return [
            f"entry {seen.number} is lost: {seen.octets!r}"
            for seen in self.record.seen
            if seen.kind != "none"
            and seen.number >= first
            and entries.get(seen.number) != seen.octets
        ]

    def check_said(self) -> list[str]:
        found = []
        for watcher in self.watchers:
            for line in lines_in(watcher.path):
                if line.startswith("batch of "):
                    changes = SAID.findall(line.partition(": ")[2])
                    found += self.check_word(
                        f"glb-watch said `{line}`",
                        lambda seen: seen.author == "glb-watch"
                        and seen.lines[: len(changes)] == changes,
                    )
        for each in self.fleet.begun:
            for line in lines_in(each.path):
                if test := said_by(each, line):
                    found += self.check_word(f"{each.path.name} said `{line}`", test)
        return found

    def check_word(self, words: str, test: Callable[[Seen], bool]) -> list[str]:
        with self.record.lock:
            for seen in self.record.seen:
                if not seen.is_said and test(seen):
                    seen.is_said = True
                    self.hunt.checks["said"] += 1
                    return []
        if self.hunt.restores or self.hunt.is_tampered or self.record.gaps:
            # it may have stood there between two looks of the hunt
            self.excused += 1
            return []
        return [f"{words}, and no such entry stood in the log"]

    def check_ends(self) -> list[str]:
        found = []
        for each in self.fleet.begun:
            status = each.process.poll()
            if status is not None and status not in {*statuses_of(each.name), *ENDED}:
                found.append(f"{each.path.name} {each.words} ended with {status}")
        for kept in self.kept:
            name = kept.name.rstrip("01")
            if name == "prometheus":
                continue
            for status, seconds in kept.ended:
                # ahead of its first line of its own a command ends by the signal
                is_rough = name == "watch" and status == -signal.SIGTERM and seconds > BEGINS
                if is_rough or status not in {*statuses_of(name), *ENDED}:
                    found.append(f"{kept.name} ended with {status} behind {seconds:.0f} s")
        for path in self.fleet.folder.rglob("*"):
            is_told = path.suffix == ".log" or path.name.startswith("command")
            if is_told and path.is_file() and not path.name.startswith(("etcd", "prometheus")):
                for words in ("Traceback (most", "a fault of this command"):
                    if words in (text := path.read_text(errors="replace")):
                        at = text.index(words)
                        found.append(f"{path.name} says {text[at : at + 900]}")
        return found

    def stop(self) -> None:
        for kept in self.kept:
            kept.end()
        self.record.is_over.set()
        if self.relay:
            self.relay.close()

    def left_behind(self) -> list[str]:
        """The processes that are there still, of all that the schedule has begun."""
        end = time.monotonic() + ENDS
        while left := marked(self.mark):
            if time.monotonic() > end:
                for number in left:
                    os.kill(number, signal.SIGKILL)
                return [f"processes are left: {list(left.values())}"]
            time.sleep(0.2)
        return []


def handed(names: list[str]) -> list[str]:
    return [word for name in names for word in ("--hand-back", name)]


def turn(machines: list[Machine], mode: str) -> None:
    for machine in machines:
        machine.turn(mode)


def lines_in(path: Path) -> list[str]:
    """The whole lines of a file."""
    text = path.read_text(errors="replace") if path.exists() else ""
    return text.split("\n")[:-1]


def said_by(begun: Any, line: str) -> Callable[[Seen], bool] | None:
    """What an entry has to be that a command says it put by a line."""
    if begun.name == "append" and line.isdigit() and begun.stdin:
        lines = begun.stdin.decode().splitlines()
        return lambda seen: seen.number == int(line) and seen.lines == lines
    if begun.name == "roll" and (base := BASE.fullmatch(line)):
        checksum, number = base.groups()
        return lambda seen: seen.number == int(number) and seen.base.startswith(checksum)
    if begun.name == "drain" and (made := MADE.match(line)):
        step, steps, node, units = made.groups()
        change, count = [f"capacity {node} {units.replace(',', '')}"], f" {step}/{steps}"
        return lambda seen: seen.lines == change and count in seen.why
    return None


def marked(mark: str) -> dict[int, str]:
    """The processes that have the schedule's mark in their environment, but this one."""
    found = {}
    for folder in Path("/proc").iterdir():
        if not folder.name.isdigit() or int(folder.name) == os.getpid():
            continue
        try:
            if f"GLB_HUNT={mark}".encode() in (folder / "environ").read_bytes().split(b"\0"):
                words = (folder / "cmdline").read_bytes().replace(b"\0", b" ")
                found[int(folder.name)] = words[:300].decode(errors="replace")
        except OSError:
            pass
    return found
