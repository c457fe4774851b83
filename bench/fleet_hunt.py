#!/usr/bin/env python3
"""Hunts for a state in which glb-fleet says that all is well, and a server answers otherwise.

    bench/fleet_hunt.py [--watch] [--seconds N] [--seed N] [--one] [--keep] [--glb PROGRAM]

Each seed is a schedule: one or three members of etcd, one to three servers with their followers,
and a dozen of things that befall them, at random. Behind it all is mended, and it is quiet. All
the while, and in the end, each server that glb-fleet calls `there` has to have put the map that a
replay of the log gives. The replay is made apart: the log is read here by code of its own, and
`glb serve` works it once more. It wants root (tmpfs), etcd-server, etcd-client and a C compiler.

With --watch each schedule also has glb-watch, glb-drain, glb-exporter and Prometheus over machines
that fail and come back, and these are killed and held, too (hunt_watch.py says what is compared).
That wants prometheus, python3-requests and python3-prometheus-client as well.
"""

import argparse
import base64
import contextlib
import json
import random
import re
import shutil
import signal
import socket
import struct
import subprocess
import sys
import tempfile
import threading
import time
import tomllib
import traceback
from pathlib import Path

sys.path.append(str(Path(__file__).resolve().parent.parent / "tools"))

from hunt_log import Keys, Log, digest, is_number, replayed  # noqa: E402
from hunt_watch import Beside  # noqa: E402
from hunt_world import TOP, Fleet, Wrong  # noqa: E402

from glb_tools import fleet as fleet_tool  # noqa: E402
from glb_tools import log as log_tool  # noqa: E402
from glb_tools.etcd import Etcd as ToolsEtcd  # noqa: E402
from glb_tools.options import Fault  # noqa: E402

DROPPED = "was dropped whole"
# how long it is between what befalls a fleet, in seconds
PAUSES = [0, 0.05, 0.2, 0.5, 1, 2, 3]


# Topologies.


def topology_of(draw, salt, more=((), ())):
    """A small world whose pools are short; now and then a name more or less. `more` are pools, with
    their regions and capacities, and groups that each has."""
    lines = [
        "[zone]",
        'apex = "cdn.example"',
        'mname = "ns1.ops.example"',
        'rname = "admin.ops.example"',
    ]
    lines += ["serial = 1", "refresh = 3600", "retry = 600", "expire = 86400", "minimum = 60"]
    lines += [
        f"ttl = {draw.randrange(10, 60)}",
        'ns = ["ns1.ops.example"]',
        'services = ["www"]',
        f"# {salt}",
    ]
    pools = []
    for region in range(2):
        lines += ["[[node]]", f'name = "R{region}"', f"capacity = {draw.randrange(15, 40)}"]
        for pool in range(2 + (draw.random() < 0.3)):
            name = f"P{region}{pool}"
            pools.append(name)
            lines += ["[[node]]", f'name = "{name}"', f'parent = "R{region}"', "pool = true"]
            lines += [f"capacity = {draw.randrange(5, 25)}", f'a = ["192.0.2.{len(pools)}"]']
    for name, parent, capacity in more[0]:
        pools.append(name)
        lines += ["[[node]]", f'name = "{name}"', f'parent = "{parent}"', "pool = true"]
        lines += [f"capacity = {capacity}", f'a = ["192.0.2.{len(pools)}"]']
    groups = [f"g{group}" for group in range(5 + draw.randrange(3))] + list(more[1])
    for group, name in enumerate(groups):
        of = draw.sample(pools, draw.randrange(2, len(pools)))
        lines += ["[[group]]", f'name = "{name}"', f"demand = {draw.randrange(2, 20)}"]
        lines += [f"pools = {json.dumps(of)}", f"scores = {[draw.randrange(1, 50) for _ in of]}"]
        prefixes = ["0.0.0.0/0", "::/0"] if group == 0 else [f"198.51.{100 + group}.0/24"]
        lines.append(f"prefixes = {json.dumps(prefixes)}")
    return "\n".join(lines) + "\n"


def change_of(draw):
    if draw.random() < 0.5:
        return f"demand g{draw.randrange(5)} {draw.randrange(1, 25)}\n"
    node = draw.choice(["R0", "R1", "P00", "P01", "P10", "P11"])
    return f"capacity {node} {draw.choice([0, draw.randrange(1, 40)])}\n"


def batch_of(draw):
    return "".join(change_of(draw) for _ in range(draw.randrange(1, 5)))


# Answers of DNS.


def question(address):
    """A query for www.cdn.example A with a client subnet of 24 bits."""
    octets = bytes(map(int, address.split(".")[:3]))
    name = b"".join(bytes([len(label)]) + label for label in (b"www", b"cdn", b"example")) + b"\0"
    option = struct.pack("!HHHBB", 8, 7, 1, 24, 0) + octets
    record = b"\0" + struct.pack("!HHIH", 41, 1232, 0, len(option)) + option
    return struct.pack("!HHHHHH", 77, 0x100, 1, 0, 0, 1) + name + struct.pack("!HH", 1, 1) + record


def answer_of(port, address):
    with socket.socket(socket.AF_INET, socket.SOCK_DGRAM) as asked:
        asked.settimeout(2)
        asked.sendto(question(address), ("127.0.0.1", port))
        reply = asked.recv(2000)
    if reply[3] & 15 or not struct.unpack("!H", reply[6:8])[0]:
        return None
    at = 12
    while reply[at]:
        at += reply[at] + 1
    # behind the question, one record: its name is two octets, or a copy
    at += 5
    while reply[at] and reply[at] < 192:
        at += reply[at] + 1
    at += 2 if reply[at] >= 192 else 1
    return ".".join(map(str, reply[at + 10 : at + 14]))


# The hunt.


class Hunt:
    def __init__(self, options, seed, folder):
        self.draw, self.seed, self.options = random.Random(seed), seed, options
        draw = self.draw
        self.members = draw.choice([1, 1, 3])
        self.count = draw.choice([1, 2, 2, 3])
        self.is_fast = draw.random() < 0.85
        self.fleet = Fleet(
            folder, options.glb, options.shims, self.members, self.count, self.is_fast
        )
        self.hosts, self.etcd = self.fleet.hosts, self.fleet.etcd
        self.memory, self.done, self.found = {}, [], []
        # how often entries that stood were changed or taken away by hand, and how often etcd was
        # restored: both are counted as they begin and as they end
        self.tampers = self.restores = 0
        self.checks = {"way": 0, "zero": 0, "end": 0, "dns": 0}
        self.is_over = threading.Event()
        self.undo, self.lock, self.rolled = [], threading.Lock(), []
        self.copies, self.is_mended, self.rolls_left = {}, False, 6
        self.beside = Beside(self) if options.watch else None
        self.actions = ACTIONS | (self.beside.actions() if self.beside else {})

    @property
    def is_tampered(self):
        return self.tampers > 0

    @contextlib.contextmanager
    def tampering(self):
        self.tampers += 1
        try:
            yield
        finally:
            self.tampers += 1

    def say(self, words):
        self.done.append(f"{time.time():.2f} {words}")
        if self.options.one:
            print(f"    {words}", flush=True)

    def later(self, seconds, what):
        """Has something undone after a while, or at the end at the latest."""
        once = threading.Lock()

        def undo():
            if once.acquire(blocking=False):
                try:
                    what()
                except OSError as why:
                    self.say(f"undo: {why}")

        with self.lock:
            self.undo.append(undo)
        timer = threading.Timer(seconds, undo)
        timer.daemon = True
        timer.start()

    def host(self):
        return self.draw.choice(self.hosts)

    # What is compared.

    def tools_log(self):
        return log_tool.Log(ToolsEtcd(self.etcd.addresses()), "glb")

    def asked(self):
        """As `glb-fleet --expect` does, where the names of all hosts are known."""
        log = self.tools_log()
        log.expected = frozenset(host.name for host in self.hosts)
        return fleet_tool.seen(log, 3)

    def look(self, kind):
        """Asks as glb-fleet does, and compares what each server that is there has put."""
        before = [(host.generation, host.server) for host in self.hosts]
        counts = self.restores, self.tampers
        try:
            found = self.asked()
            log = Log(Keys(self.etcd), self.memory)
        except (Fault, OSError, ValueError):
            return None
        if (self.restores, self.tampers) != counts:
            # what was asked and what is read may be two logs
            return found
        for state in found.servers:
            if state["state"] != "there":
                continue
            host = self.hosts[int(state["name"][1:])]
            now = host.generation, host.server
            if now != before[host.number] or host.server.poll() is not None:
                continue
            if self.is_tampered:
                if found.status == 0:
                    self.compare(host, state, found, log, kind + ", status 0, tampered")
                continue
            self.compare(host, state, found, log, kind)
        if found.status == 0:
            self.checks["zero"] += 1
            if len(found.servers) < len(self.hosts):
                raise Wrong(f"{kind}: status 0, of {found.servers} alone")
        return found

    def compare(self, host, state, found, log, kind):
        """A server that is told to be there, at an entry of a base."""
        number, base = state["entry"], found.base
        if number not in log.entries or not log.checksum(number).startswith(state["chain"]):
            if self.is_tampered and found.status == 0:
                raise Wrong(f"{kind}: {host.name} at {number}, which is not in the log")
            return
        if base not in self.memory or base not in [each[1] for each in log.bases]:
            return
        if not log.is_whole(base, number):
            if found.status == 0:
                raise Wrong(
                    f"{kind}: {host.name} is there at {number}, status 0, and the log is not whole"
                )
            return
        due_at, due = replayed(self.options.glb, log, base, number)[number]
        texts = host.texts()
        self.checks["way"] += 1
        if digest(host.topology) != base:
            raise Wrong(
                f"{kind}: {host.name} is told to be at base {base[:12]}, and began from another"
            )
        if len(texts) <= due_at or texts[due_at] != due:
            raise Wrong(
                f"{kind}: {host.name} is told to be there at entry {number},"
                f" and has put {len(texts) - 1} maps;"
                f" map {due_at} is due: {due!r}, it is {(texts[due_at:] or [b'-'])[0]!r}"
            )

    def watch(self):
        while not self.is_over.wait(0.7):
            try:
                self.look("under way")
            except Wrong as why:
                self.found.append(str(why))
            except Exception:  # noqa: BLE001: a fault of the hunt itself is to be seen
                self.found.append(f"the hunt: {traceback.format_exc()}")

    def ask_dns(self, host, log, base):
        """Each group's answers are pools that the map places it at."""
        last = host.texts()[-1].decode()
        told = tomllib.loads(self.memory[base].decode())
        addresses = {node["name"]: node["a"][0] for node in told["node"] if node.get("pool")}
        placed = {}
        for line in last.splitlines():
            words = line.split()
            if words[0] == "place":
                placed.setdefault(words[1], set()).add(addresses[words[2]])
        for number, group in enumerate(told["group"]):
            address = "203.0.113.0" if number == 0 else f"198.51.{100 + number}.0"
            for _ in range(4):
                answer = answer_of(host.port, address)
                self.checks["dns"] += 1
                if answer not in placed.get(group["name"], {None}):
                    raise Wrong(f"{host.name} answers {answer} to {group['name']}: {last!r}")

    # A schedule.

    def run(self):
        etcd = self.etcd
        etcd.wait()
        if self.beside:
            self.beside.begin_record()
        self.roll_one(self.topology("0"))
        for host in self.hosts:
            host.start()
        watcher = threading.Thread(target=self.watch, daemon=True)
        watcher.start()
        self.settle(20)
        if self.beside:
            self.beside.begin()
        due = self.beside.due() if self.beside else [None] * self.draw.randrange(5, 16)
        for name in due:
            self.act(name)
            time.sleep(self.draw.choice(PAUSES + [3, 5] * bool(self.beside)))
            if self.found:
                break
        self.mend()
        seconds = 150 if not self.is_fast else 75
        status, words = self.settle(seconds)
        if self.beside and not self.found:
            if words:
                self.found.append(f"stuck: status {status}: {words}")
            else:
                self.found += self.beside.finish()
                status, words = self.settle(seconds)
        self.is_over.set()
        watcher.join(30)
        if not self.found:
            self.check_end(status, words)
        if self.beside:
            self.found += self.beside.check_end()

    def act(self, name=None):
        if name is None:
            names, weights = zip(*self.actions.items())
            name = self.draw.choices(names, weights)[0]
        self.say(name)
        try:
            getattr(self if hasattr(self, name) else self.beside, name)()
        except (OSError, Fault, ValueError, IndexError, subprocess.TimeoutExpired) as why:
            self.say(f"{name}: {why}")

    def topology(self, salt):
        more = self.beside.more if self.beside else ((), ())
        return topology_of(self.draw, f"{self.seed}.{salt}", more)

    def roll_one(self, text, *words):
        path = self.fleet.folder / f"topology{len(self.rolled)}.toml"
        path.write_text(text)
        self.rolled.append(path)
        return self.fleet.command(
            "roll", path, "--seconds", 2, "--program", self.options.glb, *words
        )

    def mend(self):
        self.say("mend")
        if self.beside:
            self.beside.mend()
        with self.lock:
            undo, self.undo = self.undo, []
        for each in reversed(undo):
            each()
        with self.etcd.lock:
            for member in self.etcd.members:
                member.signal(signal.SIGCONT)
                if member.process.poll() is not None:
                    member.start(self.etcd.cluster)
        self.etcd.wait()
        self.mend_log()
        # who rolled or appended is through, or is ended
        for child in self.fleet.children:
            try:
                child.wait(8)
            except subprocess.TimeoutExpired:
                child.kill()
        self.is_mended = True

    def mend_log(self):
        """What an operator does whom glb-fleet tells of a key that was put by hand: takes it away;
        and rolls anew where an entry is lost."""
        keys = Keys(self.etcd)
        numbers = sorted(keys.entries())
        odd = [key for key in keys.octets if key.startswith("glb/log/") and not is_number(key[8:])]
        for key in odd:
            self.delete(key)
        bases = json.loads(keys.octets.get("glb/bases", b"[]"))
        if not numbers or not bases:
            # nothing is left of the log: a base begins another one
            with self.tampering():
                self.delete("glb/bases")
            self.roll_one(self.topology("anew"))
            return
        upto = bases[-1][2]
        while numbers[-1] - numbers[0] > 100000:
            self.delete(f"glb/log/{numbers.pop():016d}")
        for number in range(max(upto, 1), numbers[-1]):
            if number not in numbers:
                with self.tampering():
                    self.put(f"glb/log/{number:016d}", b"filled")
        self.mend_rows()

    def mend_rows(self):
        """Of more than a hundred keys in a row that were put by hand, those behind the hundredth
        go, and what is behind them."""
        log, row = Log(Keys(self.etcd), self.memory), 0
        for number in log.numbers:
            row = 0 if log.content(number) else row + 1
            if row > 100:
                self.say(f"deletes from entry {number} on")
                for gone in range(log.last, number - 1, -1):
                    self.delete(f"glb/log/{gone:016d}")
                return

    def settle(self, seconds):
        """Waits until glb-fleet has nothing to say but what was dropped, or nothing has changed for
        so long; else what it says. On a busy machine a start takes many seconds."""
        last = end = time.monotonic() + seconds
        words, status, seen = "nothing", -1, None
        while time.monotonic() < min(end, last + 8 * seconds) and not self.found:
            try:
                found = self.look("quiet")
            except Wrong as why:
                self.found.append(str(why))
                break
            if found:
                status = found.status
                words = "; ".join(said for _, said in found.advice if DROPPED not in said)
                self.roll_where_told(words)
                if not words and all(host.is_in for host in self.hosts):
                    return status, ""
                now = re.sub("[0-9]+ s", "", words), [host.generation for host in self.hosts]
                if now != seen:
                    seen, end = now, time.monotonic() + seconds
            time.sleep(0.4)
        return status, words or f"queries: {[host.is_in for host in self.hosts]}"

    def roll_where_told(self, words):
        """As glb-fleet says it to whoever looks, once all is mended."""
        if self.is_mended and "roll the topology anew" in words and self.rolls_left:
            if "glb/roll" in Keys(self.etcd).octets:
                # one is under way, which glb-roll says: whoever looks waits for its end
                return
            self.rolls_left -= 1
            self.say("rolls anew")
            self.fleet.command(
                "roll", self.rolled[0], "--seconds", 3, "--program", self.options.glb
            )

    def check_end(self, status, words):
        if words:
            self.found.append(f"stuck: status {status}: {words}")
            return
        try:
            found = self.look("end")
            log = Log(Keys(self.etcd), self.memory)
            for state in found.servers:
                host = self.hosts[int(state["name"][1:])]
                if state["state"] != "there" or (self.is_tampered and found.status):
                    continue
                texts, (at, due) = (
                    host.texts(),
                    replayed(self.options.glb, log, found.base, log.last)[log.last],
                )
                self.checks["end"] += 1
                if len(texts) != at + 1 or texts[-1] != due:
                    raise Wrong(
                        f"end: {host.name} has put {len(texts) - 1} maps, {at} are due:"
                        f" {texts[-1]!r}, not {due!r}"
                    )
                self.ask_dns(host, log, found.base)
        except Wrong as why:
            self.found.append(str(why))

    # What befalls a fleet. Batches and bases.

    def put(self, key, octets):
        message = {
            "key": base64.b64encode(key.encode()).decode(),
            "value": base64.b64encode(octets).decode(),
        }
        self.etcd.call("/v3/kv/put", message)

    def put_new(self, key, octets):
        """Puts a key that is not there: somebody may append meanwhile."""
        name = base64.b64encode(key.encode()).decode()
        value = base64.b64encode(octets).decode()
        message = {
            "compare": [{"key": name, "target": "MOD", "result": "EQUAL", "mod_revision": "0"}],
            "success": [{"request_put": {"key": name, "value": value}}],
        }
        self.etcd.call("/v3/kv/txn", message)

    def delete(self, key):
        self.etcd.call("/v3/kv/deleterange", {"key": base64.b64encode(key.encode()).decode()})

    def append(self):
        self.fleet.command(
            "append", "--wait", "0", "--seconds", "5", stdin=batch_of(self.draw).encode()
        )

    def append_many(self):
        for _ in range(self.draw.randrange(2, 7)):
            self.fleet.begin(
                "append", "--wait", "0", "--seconds", "8", stdin=batch_of(self.draw).encode()
            )
            time.sleep(self.draw.choice([0, 0, 0.1]))

    def append_in_process(self):
        log = self.tools_log()
        for _ in range(self.draw.choice([3, 20, 100])):
            log.append(
                f"x{self.draw.random()}",
                log_tool.Signed("hunt"),
                batch_of(self.draw),
                lambda names: None,
            )

    def append_unknown(self):
        log = self.tools_log()
        lines = batch_of(self.draw) + self.draw.choice(
            ["demand g9 3\n", "capacity P99 1\n", "demand g6 0\n", "demand g6 5\n"]
        )
        log.append(f"x{self.draw.random()}", log_tool.Signed("hunt"), lines, lambda names: None)

    def append_killed(self):
        process = self.fleet.begin("append", "--wait", "0", stdin=batch_of(self.draw).encode())
        time.sleep(self.draw.uniform(0.05, 0.5))
        process.kill()

    def new_topology(self):
        if self.rolled and self.draw.random() < 0.2:
            return self.draw.choice(self.rolled).read_text()
        return self.topology(len(self.rolled))

    def roll(self):
        self.roll_one(self.new_topology())

    def roll_beside(self):
        path = self.fleet.folder / f"topology{len(self.rolled)}.toml"
        path.write_text(self.new_topology())
        self.rolled.append(path)
        self.fleet.begin("roll", path, "--seconds", 20, "--program", self.options.glb)

    def roll_killed(self):
        self.roll_beside()
        time.sleep(self.draw.uniform(0.1, 2.5))
        self.fleet.children[-1].kill()

    def roll_late(self):
        """A base whose numbers are of before."""
        path = self.fleet.folder / f"late{len(self.rolled)}.toml"
        with open(path, "wb") as file:
            words = [
                "--etcd",
                self.fleet.addresses,
                "--numbers",
                str(self.draw.choice(self.rolled)),
            ]
            command = [sys.executable, str(TOP / "tools" / "glb-append"), *words]
            subprocess.run(command, stdout=file, stderr=subprocess.DEVNULL, timeout=30, check=False)
        if path.stat().st_size:
            for _ in range(self.draw.randrange(3)):
                self.append()
            if self.draw.random() < 0.4:
                self.raw()
            self.roll_one(path.read_text())

    def back(self):
        self.fleet.command("roll", "--back", "--seconds", 2, "--program", self.options.glb)

    def canary(self):
        path = self.fleet.folder / f"canary{self.draw.random()}.toml"
        path.write_text(self.new_topology())
        words = ["--canary", self.host().name, "--minutes", "0.05", "--program", self.options.glb]
        process = self.fleet.begin("roll", path, "--seconds", 5, *words)
        if self.draw.random() < 0.5:
            time.sleep(self.draw.uniform(0.3, 4))
            process.kill()

    def cut(self):
        self.fleet.command("append", "--cut")

    def compact(self):
        self.fleet.command("log", "--compact")

    def forget(self):
        self.fleet.command("fleet", "--forget", self.host().name)

    # By hand.

    def junk(self, log):
        last = log.entries.get(log.last, b"")
        good = json.dumps(
            {
                "kind": "batch",
                "before": digest(last),
                "time": 1,
                "author": "hand",
                "why": "",
                "lines": batch_of(self.draw),
            }
        ).encode()
        kinds = [
            b"stop\n",
            b"",
            b"\xff\xfe\0",
            b"null",
            b"[]",
            b"{}",
            b"7",
            b'"x"',
            b"[" * 5000,
            last,
            good,
        ]
        kinds.append(self.draw.choice(list(log.entries.values())))
        kinds.append(good.replace(b'"batch"', b'"basis"'))
        kinds.append(good.replace(b'"lines": "', b'"lines": "stop\\n'))
        kinds.append(good.replace(digest(last).encode(), b"0" * 64))
        kinds.append(good.replace(b'"time": 1', b'"time": 1e400'))
        return self.draw.choice(kinds)

    def raw(self):
        log = Log(Keys(self.etcd), self.memory)
        self.put_new(f"glb/log/{log.last + 1:016d}", self.junk(log))

    def raw_many(self):
        count = self.draw.choice([2, 3, 5, 8])
        for _ in range(count):
            self.raw()

    def raw_very_many(self):
        log = Log(Keys(self.etcd), self.memory)
        for number in range(log.last + 1, log.last + 1 + self.draw.choice([95, 101, 130, 230])):
            octets = self.draw.choice([b"stop\n", b"x", b"%d" % number])
            self.put_new(f"glb/log/{number:016d}", octets)

    def take_last(self):
        log = Log(Keys(self.etcd), self.memory)
        if len(log.numbers) > 1:
            with self.tampering():
                self.delete(f"glb/log/{log.last:016d}")

    def take_any(self):
        log = Log(Keys(self.etcd), self.memory)
        with self.tampering():
            self.delete(f"glb/log/{self.draw.choice(log.numbers):016d}")

    def overwrite(self):
        log = Log(Keys(self.etcd), self.memory)
        number = self.draw.choice(log.numbers)
        with self.tampering():
            self.put(f"glb/log/{number:016d}", self.junk(log))

    def odd_key(self):
        log = Log(Keys(self.etcd), self.memory)
        number = self.draw.choice(log.numbers)
        names = [
            "zzz",
            "5",
            f"{number:016d}x",
            f"{number:017d}",
            f"{number:015d}",
            "9" * 16,
            f"{log.last + 3:016d}",
            "0" * 16,
        ]
        octets = self.draw.choice([b"x", log.entries[number]])
        self.put_new(f"glb/log/{self.draw.choice(names)}", octets)

    def odd_other(self):
        """A key beside the log, put or taken away by hand."""
        keys = [
            key
            for key in Keys(self.etcd).octets
            if not key.startswith(("glb/log/", "glb/bases", "glb/file", "glb/names"))
        ]
        keys += [
            "glb/turn",
            "glb/roll",
            "glb/canary",
            "glb/look",
            "glb/at/h0",
            "glb/server/h0",
            "glb/at/x",
            "glb/dropped/x",
        ]
        key = self.draw.choice(keys)
        self.later(
            8,
            lambda: [
                self.delete(each)
                for each in ("glb/turn", "glb/roll", "glb/canary", "glb/at/x", "glb/dropped/x")
            ],
        )
        if self.draw.random() < 0.5:
            self.delete(key)
        else:
            self.put(
                key,
                self.draw.choice(
                    [b"", b"x", b"{}", b'{"server": "h9"}', b'{"ready": true}', b"\xff"]
                ),
            )

    # etcd.

    def save(self):
        self.etcd.save()

    def restore(self):
        if not self.etcd.snapshots:
            self.etcd.save()
            for _ in range(self.draw.randrange(3)):
                self.append()
        if self.etcd.snapshots:
            self.restores += 1
            self.etcd.restore(self.draw.choice(self.etcd.snapshots[-3:]))
            self.etcd.wait()
            self.restores += 1

    def restore_and_write(self):
        """The numbers that are given again come to where servers were, before anybody looks."""
        if self.draw.random() < 0.5:
            self.raw_many()
        held = [host for host in self.hosts if self.draw.random() < 0.7]
        for host in held:
            host.signal(host.follower, signal.SIGSTOP)
        try:
            before = Log(Keys(self.etcd), self.memory).last
            self.restore()
            before = min(before, Log(Keys(self.etcd), self.memory).last + 250)
            while Log(Keys(self.etcd), self.memory).last < before:
                if self.draw.random() < 0.4:
                    self.raw()
                else:
                    self.tools_log().append(
                        f"x{self.draw.random()}",
                        log_tool.Signed("h"),
                        batch_of(self.draw),
                        lambda names: None,
                    )
        finally:
            for host in held:
                host.signal(host.follower, signal.SIGCONT)

    def member_killed(self):
        with self.etcd.lock:
            member = self.draw.choice(self.etcd.members)
            member.kill()

        def start():
            with self.etcd.lock:
                if member.process.poll() is not None:
                    member.start(self.etcd.cluster)

        self.later(self.draw.uniform(0.1, 6), start)

    def member_held(self):
        member = self.draw.choice(self.etcd.members)
        member.signal(signal.SIGSTOP)
        self.later(self.draw.uniform(0.3, 7), lambda: member.signal(signal.SIGCONT))

    # Ways.

    def way(self, ways, mode, seconds):
        for way in ways:
            way.delay = self.draw.uniform(0.1, 4)
            way.mode = mode
        self.later(seconds, lambda: [setattr(way, "mode", "pass") for way in ways])

    def cut_off(self):
        mode = self.draw.choice(["drop", "drop", "refuse", "slow", "late", "torn", "drip"])
        self.way(self.host().ways, mode, self.draw.uniform(0.5, 9))

    def one_way(self):
        mode = self.draw.choice(["drop", "refuse", "slow", "late", "torn", "drip"])
        self.way([self.draw.choice(self.host().ways)], mode, self.draw.uniform(0.5, 9))

    def operator_cut_off(self):
        self.way(
            self.fleet.own,
            self.draw.choice(["drop", "torn", "late", "slow", "drip"]),
            self.draw.uniform(0.5, 5),
        )
        self.append_many()

    # Hosts.

    def kill_server(self):
        host = self.host()
        host.signal(host.server, signal.SIGKILL)

    def kill_follower(self):
        host = self.host()
        host.signal(
            host.follower, self.draw.choice([signal.SIGKILL, signal.SIGKILL, signal.SIGTERM])
        )

    def kill_amid(self):
        """A follower is killed while its server has a batch in its feed."""
        host = self.host()
        host.signal(host.server, signal.SIGSTOP)
        for _ in range(self.draw.randrange(1, 4)):
            self.append()
        time.sleep(self.draw.choice([0, 0.3, 1]))
        host.signal(host.follower, signal.SIGKILL)
        host.signal(host.server, self.draw.choice([signal.SIGCONT, signal.SIGCONT, signal.SIGKILL]))

    def kill_host(self):
        host = self.host()
        host.is_held = True
        host.signal(host.server, signal.SIGKILL)
        host.signal(host.follower, signal.SIGKILL)
        self.later(self.draw.uniform(0.2, 8), lambda: setattr(host, "is_held", False))

    def hold_server(self):
        host = self.host()
        process = host.server
        host.signal(process, signal.SIGSTOP)
        self.later(self.draw.uniform(0.3, 9), lambda: host.signal(process, signal.SIGCONT))

    def hold_follower(self):
        host = self.host()
        process = host.follower
        host.signal(process, signal.SIGSTOP)
        self.later(self.draw.uniform(0.3, 9), lambda: host.signal(process, signal.SIGCONT))

    def lose_bases(self):
        host = self.host()
        for file in host.bases.iterdir():
            if self.draw.random() < 0.6:
                file.unlink(missing_ok=True)

    def change_identity(self):
        host, other = self.host(), self.host()
        path = host.run / "identity"
        octets = path.read_bytes() if path.exists() else b""
        kinds = [b"", octets[: len(octets) // 2], b"{}", b"null", b"\xff"]
        source = other.run / "identity"
        kinds += [source.read_bytes()] * 2 if source.exists() else []
        kinds += [self.copies[host.name]] * 3 if host.name in self.copies else []
        self.copies[host.name] = octets
        path.write_bytes(self.draw.choice(kinds))
        if self.draw.random() < 0.7:
            host.signal(host.follower, signal.SIGKILL)

    def change_choice(self):
        host = self.host()
        names = [file.stem for file in host.bases.glob("*.toml")] + ["", "x", "0" * 64]
        (host.bases / f"{host.name}.base").write_text(self.draw.choice(names))
        if self.draw.random() < 0.5:
            host.signal(host.server, signal.SIGKILL)

    def by_hand(self):
        """A server is begun again past its unit, over a topology that may have been edited."""
        host = self.host()
        if self.draw.random() < 0.6:
            path = host.run / "topology.toml"
            text = path.read_text()
            path.write_text(
                text.replace("capacity = 1", "capacity = 2", 1)
                + self.draw.choice(["", "# edited\n"])
            )
        host.by_hand = True
        host.signal(host.server, signal.SIGKILL)

    def edit_topology(self):
        host = self.host()
        path = host.run / "topology.toml"
        path.write_text(path.read_text().replace("capacity = 1", "capacity = 2", 1) + "# edited\n")
        if self.draw.random() < 0.5:
            host.signal(host.follower, signal.SIGKILL)

    def full_disk(self):
        host = self.host()
        folder = self.draw.choice([host.run, host.bases])
        filler = folder / "filler"
        try:
            with open(filler, "wb") as file:
                while True:
                    file.write(bytes(4096))
                    file.flush()
        except OSError:
            pass
        self.later(self.draw.uniform(1, 9), lambda: filler.unlink(missing_ok=True))

    def read_only(self):
        host = self.host()
        folder = self.draw.choice([host.run, host.bases])
        subprocess.run(["mount", "-o", "remount,ro", str(folder)], check=False, capture_output=True)
        self.later(
            self.draw.uniform(1, 9),
            lambda: subprocess.run(
                ["mount", "-o", "remount,rw", str(folder)], check=False, capture_output=True
            ),
        )

    def second_follower(self):
        """By mistake: a second one over the same folder, or with the same name."""
        host = self.host()
        words = host.words()
        if self.draw.random() < 0.3:
            words[words.index("--name") + 1] = self.host().name
        log = open(host.folder / "second.log", "ab")
        process = subprocess.Popen(words, stdout=log, stderr=log, stdin=subprocess.DEVNULL)
        log.close()
        self.fleet.children.append(process)
        self.later(self.draw.uniform(1, 6), process.kill)

    def prepare_by_mistake(self):
        host = self.host()
        host.command("--prepare")
        # whoever sees `hangs` begins the server anew
        self.later(9, lambda: host.signal(host.server, signal.SIGKILL))

    def meddle(self):
        """Somebody writes into a server's feed."""
        host = self.host()
        words = self.draw.choice(
            [
                b"show\n",
                b"show\n",
                b"nonsense\n",
                change_of(self.draw).encode() + b"commit\n",
                b"stop\n",
                b"comm",
            ]
        )
        with open(host.run / "feed", "r+b", buffering=0) as feed:
            feed.write(words)

    def clock_jump(self):
        host = self.host()
        if host.clock is None:
            host.clock = host.folder / "clock"
            host.clock.write_text("+0\n")
            host.signal(host.follower, signal.SIGTERM)
        else:
            host.clock.write_text(
                self.draw.choice(["+3600\n", "-3600\n", "+1000000\n", "-86400\n", "+0\n"])
            )


# By name, how likely each is.
ACTIONS = {
    "append": 10,
    "append_many": 5,
    "append_in_process": 4,
    "append_unknown": 2,
    "append_killed": 3,
    "roll": 5,
    "roll_beside": 4,
    "roll_killed": 4,
    "roll_late": 3,
    "back": 3,
    "canary": 2,
    "cut": 3,
    "compact": 1,
    "forget": 2,
    "raw": 4,
    "raw_many": 2,
    "raw_very_many": 1,
    "take_last": 1,
    "take_any": 1,
    "overwrite": 1,
    "odd_key": 2,
    "odd_other": 2,
    "save": 5,
    "restore": 3,
    "restore_and_write": 4,
    "member_killed": 3,
    "member_held": 3,
    "cut_off": 5,
    "one_way": 3,
    "operator_cut_off": 2,
    "kill_server": 4,
    "kill_follower": 4,
    "kill_amid": 4,
    "kill_host": 3,
    "hold_server": 3,
    "hold_follower": 4,
    "lose_bases": 2,
    "change_identity": 3,
    "change_choice": 2,
    "by_hand": 2,
    "edit_topology": 1,
    "full_disk": 2,
    "read_only": 2,
    "second_follower": 2,
    "prepare_by_mistake": 1,
    "meddle": 1,
    "clock_jump": 2,
}


def schedule(options, seed):
    """One schedule; what was wrong, and what was compared."""
    folder = Path(tempfile.mkdtemp(prefix=f"hunt{seed}-", dir=options.folder))
    hunt = Hunt(options, seed, folder)
    began = time.monotonic()
    try:
        hunt.run()
    except Exception:  # noqa: BLE001: a fault of the hunt itself is to be seen
        hunt.found.append(f"the hunt: {traceback.format_exc()}")
    finally:
        hunt.is_over.set()
        if hunt.found:
            try:
                keys = Keys(hunt.etcd)
                (folder / "keys").write_text(
                    "\n".join(f"{key} {octets[:300]!r}" for key, octets in keys.octets.items())
                )
            except OSError:
                pass
        if hunt.beside:
            hunt.beside.stop()
        hunt.fleet.stop()
        if hunt.beside:
            hunt.found += hunt.beside.left_behind()
    fast = ", fast" if hunt.is_fast else ""
    words = f"{hunt.members} members, {hunt.count} servers{fast}, {len(hunt.done)} steps"
    print(f"seed {seed}: {words}, {hunt.checks}, {time.monotonic() - began:.0f} s", flush=True)
    for words in hunt.beside.notes if hunt.beside else ():
        print(f"   {words}", flush=True)
    for why in hunt.found:
        print(f"!! seed {seed}: {why}\n   {'; '.join(hunt.done)}", flush=True)
    if hunt.found:
        (folder / "schedule").write_text("\n".join(hunt.done) + "\n" + "\n".join(hunt.found) + "\n")
    elif not options.keep:
        shutil.rmtree(folder, ignore_errors=True)
    return hunt


def built(folder, name):
    """A library of this folder that is preloaded."""
    shim = folder / f"{name}.so"
    source = Path(__file__).parent / f"{name}.c"
    subprocess.run(["cc", "-O2", "-shared", "-fPIC", "-o", str(shim), str(source)], check=True)
    return shim


def main():
    words = argparse.ArgumentParser(
        description=__doc__, formatter_class=argparse.RawDescriptionHelpFormatter
    )
    words.add_argument(
        "--watch", action="store_true", help="glb-watch, glb-drain and Prometheus beside it all"
    )
    words.add_argument("--seconds", type=float, default=600)
    words.add_argument("--seed", type=int, default=1)
    words.add_argument("--step", type=int, default=1, help="from seed to seed")
    words.add_argument("--one", action="store_true", help="that seed alone, with what is done")
    words.add_argument("--keep", action="store_true", help="keeps folders")
    words.add_argument("--glb", type=Path, default=TOP / "crates/glb_program/out/glb_program")
    options = words.parse_args()
    # whoever ends it has it end what it began
    signal.signal(signal.SIGTERM, lambda *_: sys.exit(1))
    options.folder = Path(tempfile.mkdtemp(prefix="fleet-hunt-"))
    options.shims = {name: built(options.folder, name) for name in ("told_maps", "shift_clock")}
    end, seed, faults, checks = time.monotonic() + options.seconds, options.seed, 0, {}
    count = steps = 0
    while time.monotonic() < end:
        hunt = schedule(options, seed)
        count, seed, faults = count + 1, seed + options.step, faults + bool(hunt.found)
        steps += len(hunt.done)
        for key, value in hunt.checks.items():
            before = checks.get(key, 0)
            checks[key] = max(before, value) if key == "slowest" else before + value
        if options.one:
            break
    print(
        f"{count} schedules of {steps} steps, {faults} with a fault; compared: {checks};"
        f" folders: {options.folder}"
    )
    return 1 if faults else 0


if __name__ == "__main__":
    sys.exit(main())
