"""A fleet of real processes for bench/fleet_hunt.py.

Members of etcd, ways to them that can be cut, and hosts with a server and a follower each, which
are begun again as the units of systemd do it (examples/glb-fleet@.service).
"""

import asyncio
import json
import os
import random
import shutil
import signal
import socket
import subprocess
import sys
import threading
import time
import urllib.request
from dataclasses import dataclass
from http.client import HTTPException
from pathlib import Path

TOP = Path(__file__).resolve().parent.parent
TOOLS = TOP / "tools"
# how long a lease lives, the turn, a hang, and how long others have to answer, in seconds, where a
# run is to be short
FAST = {"ALIVE": 5, "TURN": 12}
FAST_FOLLOWER = {"HANGS": 5, "PATIENT": 4}
FAST_CODE = f"""
import sys
sys.argv[0] = 'glb-' + sys.argv[1]; name = sys.argv.pop(1)
sys.path.append({str(TOOLS)!r})
import glb_tools.log as log
for key, value in {FAST!r}.items(): setattr(log, key, value)
import glb_tools.follower as follower
for key, value in {FAST_FOLLOWER!r}.items(): setattr(follower, key, value)
from glb_tools.options import start
start(name)
"""


class Wrong(Exception):
    """What the hunt is for."""


def free_port():
    with socket.socket() as asked:
        asked.bind(("127.0.0.1", 0))
        return asked.getsockname()[1]


def words_of(is_fast, name):
    python = ["/usr/bin/python3"] if Path("/usr/bin/python3").exists() else [sys.executable]
    return [*python, "-c", FAST_CODE, name] if is_fast else [*python, str(TOOLS / f"glb-{name}")]


class Ways:
    """A loop of its own that carries connections to members; each way can be cut, held up, or
    broken amid an answer."""

    def __init__(self):
        self.loop = asyncio.new_event_loop()
        threading.Thread(target=self.loop.run_forever, daemon=True).start()

    def make(self, target):
        return asyncio.run_coroutine_threadsafe(Way.made(target), self.loop).result()

    def close(self):
        async def end():
            others = asyncio.all_tasks() - {asyncio.current_task()}
            for task in others:
                task.cancel()
            await asyncio.gather(*others, return_exceptions=True)
            self.loop.stop()

        asyncio.run_coroutine_threadsafe(end(), self.loop)


class Way:
    """One way. `mode`: pass, drop (takes connections and says nothing), refuse, slow (a delay each
    way), late (a request is handed on after a while, also where who asked is gone), torn (the
    answer ends amid), drip (the answer comes octet by octet)."""

    @classmethod
    async def made(cls, target):
        self = cls()
        self.target, self.mode, self.delay, self.tasks = target, "pass", 0.0, set()
        self.server = await asyncio.start_server(self.carry, "127.0.0.1", 0)
        self.port = self.server.sockets[0].getsockname()[1]
        return self

    async def carry(self, reader, writer):
        # the loop itself holds tasks but weakly; one that it drops at its end has no current task
        task = asyncio.current_task()
        self.tasks.add(task)
        try:
            await self.carried(reader, writer)
        except (OSError, asyncio.IncompleteReadError, asyncio.CancelledError):
            # (of a handler that ends cancelled, asyncio of Python 3.11 prints a traceback)
            pass
        finally:
            self.tasks.discard(task)
            writer.close()

    async def carried(self, reader, writer):
        if self.mode == "refuse":
            return
        first = await reader.read(65536)
        while self.mode == "drop":
            await asyncio.sleep(0.2)
        if self.mode == "late":
            await asyncio.sleep(self.delay)
        answers, there = await asyncio.open_connection("127.0.0.1", self.target)
        there.write(first)
        try:
            await asyncio.gather(self.copy(reader, there, True), self.copy(answers, writer, False))
        finally:
            there.close()

    async def copy(self, reader, writer, is_out):
        while octets := await reader.read(65536):
            while self.mode == "drop":
                await asyncio.sleep(0.2)
            if self.mode == "slow":
                await asyncio.sleep(self.delay)
            if self.mode == "torn" and not is_out:
                writer.write(octets[: random.randrange(len(octets))])
                writer.close()
                return
            while self.mode == "drip" and not is_out and len(octets) > 1:
                writer.write(octets[:1])
                await writer.drain()
                await asyncio.sleep(0.5)
                octets = octets[1:]
            writer.write(octets)
            await writer.drain()
        if writer.can_write_eof():
            writer.write_eof()


class Member:
    """A member of etcd."""

    def __init__(self, folder, number, count):
        self.folder, self.number, self.count = folder, number, count
        self.client, self.peer = free_port(), free_port()
        self.data, self.process = folder / f"etcd{number}", None

    @property
    def name(self):
        return f"m{self.number}"

    @property
    def peers(self):
        return f"{self.name}=http://127.0.0.1:{self.peer}"

    @property
    def address(self):
        return f"http://127.0.0.1:{self.client}"

    def start(self, cluster):
        peer = f"http://127.0.0.1:{self.peer}"
        words = [
            "etcd",
            "--name",
            self.name,
            "--data-dir",
            str(self.data),
            "--listen-peer-urls",
            peer,
        ]
        words += ["--initial-advertise-peer-urls", peer, "--listen-client-urls", self.address]
        words += ["--advertise-client-urls", self.address, "--initial-cluster", cluster]
        log = open(self.folder / f"etcd{self.number}.log", "ab")
        self.process = subprocess.Popen(words, stdout=log, stderr=log, stdin=subprocess.DEVNULL)
        log.close()

    def signal(self, number):
        if self.process and self.process.poll() is None:
            self.process.send_signal(number)

    def kill(self):
        if self.process:
            self.signal(signal.SIGKILL)
            self.process.wait()


class Etcd:
    """All members, and what an operator does with them by etcdctl."""

    def __init__(self, folder, count):
        self.folder = folder
        self.members = [Member(folder, number, count) for number in range(count)]
        self.cluster = ",".join(member.peers for member in self.members)
        self.snapshots = []
        self.lock = threading.RLock()

    def start(self):
        for member in self.members:
            member.start(self.cluster)

    def addresses(self):
        return [member.address for member in self.members]

    def call(self, path, message, seconds=3.0):
        """A call to the first member that answers; apart from the tools' own."""
        why = None
        for address in self.addresses():
            try:
                request = urllib.request.Request(
                    address + path,
                    json.dumps(message).encode(),
                    {"Content-Type": "application/json"},
                )
                opener = urllib.request.build_opener(urllib.request.ProxyHandler({}))
                with opener.open(request, timeout=seconds) as answer:
                    return json.load(answer)
            except (OSError, ValueError, HTTPException) as error:
                why = error
        raise OSError(f"no member answers: {why}")

    def wait(self, seconds=20):
        end = time.monotonic() + seconds
        while time.monotonic() < end:
            try:
                return self.call("/v3/kv/range", {"key": "YQ=="}, 2)
            except OSError:
                time.sleep(0.1)
        raise OSError("etcd does not come up")

    def ctl(self, *words, seconds=10):
        env = os.environ | {"ETCDCTL_API": "3"}
        return subprocess.run(
            ["etcdctl", *words], env=env, capture_output=True, timeout=seconds, check=False
        )

    def save(self):
        path = self.folder / f"snapshot{len(self.snapshots)}"
        for address in self.addresses():
            try:
                done = self.ctl("--endpoints", address, "snapshot", "save", str(path), seconds=5)
            except subprocess.TimeoutExpired:
                continue
            if done.returncode == 0:
                self.snapshots.append(path)
                return path
        return None

    def restore(self, path):
        """As its manual has it: all members stop, and begin from the snapshot."""
        with self.lock:
            for member in self.members:
                member.kill()
                shutil.rmtree(member.data, ignore_errors=True)
            for member in self.members:
                words = ["snapshot", "restore", str(path), "--name", member.name]
                words += ["--data-dir", str(member.data), "--initial-cluster", self.cluster]
                words += ["--initial-advertise-peer-urls", f"http://127.0.0.1:{member.peer}"]
                done = self.ctl(*words)
                if done.returncode:
                    raise OSError(done.stderr.decode())
            self.start()

    def stop(self):
        for member in self.members:
            member.kill()


class Host:
    """One server of the fleet and its follower, begun again as their units do it."""

    def __init__(self, fleet, number):
        self.fleet, self.number, self.name = fleet, number, f"h{number}"
        self.folder = fleet.folder / self.name
        self.run, self.bases, self.queries = (
            self.folder / "run",
            self.folder / "bases",
            self.folder / "queries",
        )
        for path in (self.run, self.bases):
            path.mkdir(parents=True)
            mounted = subprocess.run(
                ["mount", "-t", "tmpfs", "-o", "size=3m", "tmpfs", str(path)], check=False
            )
            if mounted.returncode:
                raise OSError("no tmpfs: this wants root")
        self.port = free_port()
        self.ways = [fleet.ways.make(member.client) for member in fleet.etcd.members]
        self.server = self.follower = None
        # how often a server was begun, and of what topology
        self.generation, self.topology = 0, b""
        self.is_held = self.is_over = self.is_at_start = False
        # past its unit: begun again as it is, without what a start makes
        self.by_hand = False
        self.clock = None
        self.thread = threading.Thread(target=self.go_on, daemon=True)

    def start(self):
        self.thread.start()

    @property
    def etcd(self):
        order = (
            self.ways[self.number % len(self.ways) :] + self.ways[: self.number % len(self.ways)]
        )
        return ",".join(f"http://127.0.0.1:{way.port}" for way in order)

    def words(self, *more):
        words = words_of(self.fleet.is_fast, "follow")
        words += ["--name", self.name, "--run", str(self.run), "--bases", str(self.bases)]
        words += ["--program", str(self.fleet.glb), "--etcd", self.etcd]
        words += ["--ready", f"echo in >>{self.queries}", "--unready", f"echo out >>{self.queries}"]
        return [*words, *more]

    def environment(self):
        env = dict(os.environ, PYTHONPYCACHEPREFIX="/tmp/hunt-pyc")
        if self.clock is not None:
            env |= {
                "LD_PRELOAD": str(self.fleet.shims["shift_clock"]),
                "SHIFT_CLOCK": str(self.clock),
            }
        return env

    def command(self, *more):
        """A run of the follower's command to its end."""
        with open(self.folder / "follow.log", "ab") as log:
            log.write(f"-- {time.time():.2f} {more}\n".encode())
            log.flush()
            try:
                return subprocess.run(
                    self.words(*more),
                    env=self.environment(),
                    stdout=log,
                    stderr=log,
                    timeout=70,
                    check=False,
                ).returncode
            except subprocess.TimeoutExpired:
                return -1

    def maps_file(self, generation):
        return self.folder / f"maps{generation}"

    def begin_server(self):
        path = self.maps_file(self.generation + 1)
        self.topology = (self.run / "topology.toml").read_bytes()
        env = dict(os.environ, LD_PRELOAD=str(self.fleet.shims["told_maps"]), TOLD_MAPS=str(path))
        words = [str(self.fleet.glb), "serve", str(self.run / "topology.toml"), "--listen"]
        words += [f"127.0.0.1:{self.port}", "--workers", "2"]
        pipes = [open(self.run / name, "r+b", buffering=0) for name in ("feed", "said", "maps")]
        self.server = subprocess.Popen(
            words, stdin=pipes[0], stdout=pipes[1], stderr=pipes[2], env=env
        )
        self.generation += 1
        for pipe in pipes:
            pipe.close()

    def begin_follower(self):
        with open(self.folder / "follow.log", "ab") as log:
            log.write(f"-- {time.time():.2f} begins\n".encode())
            log.flush()
            self.follower = subprocess.Popen(
                self.words(),
                env=self.environment(),
                stdout=log,
                stderr=log,
                stdin=subprocess.DEVNULL,
            )

    def go_on(self):
        while not self.is_over:
            try:
                self.one_server()
            except OSError as why:
                with open(self.folder / "follow.log", "a") as log:
                    log.write(f"-- host: {why}\n")
                time.sleep(0.3)

    def one_server(self):
        self.is_at_start = True
        if self.is_held:
            time.sleep(0.1)
            return
        if not self.by_hand:
            with open(self.queries, "a") as file:
                file.write("out\n")
            if self.command("--prepare") != 0:
                time.sleep(0.3)
                return
        self.by_hand = False
        self.begin_server()
        self.is_at_start = False
        while self.server.poll() is None and not self.is_over:
            self.begin_follower()
            while self.follower.poll() is None and self.server.poll() is None and not self.is_over:
                time.sleep(0.03)
            self.end_follower()
            if self.server.poll() is None and not self.is_over:
                time.sleep(0.2)
        if self.is_over:
            self.kill()

    def end_follower(self):
        if self.follower.poll() is None:
            self.follower.terminate()
            try:
                self.follower.wait(15)
            except subprocess.TimeoutExpired:
                self.follower.kill()
                self.follower.wait()
        if not self.is_over:
            self.command("--ended")

    def kill(self):
        for process in (self.follower, self.server):
            if process and process.poll() is None:
                process.send_signal(signal.SIGCONT)
                process.kill()
                process.wait()

    def signal(self, process, number):
        if process and process.poll() is None:
            process.send_signal(number)

    def texts(self, generation=None):
        """The texts of all maps that a server put."""
        path = self.maps_file(generation or self.generation)
        octets = path.read_bytes() if path.exists() else b""
        *whole, _ = octets.split(b"\nend\n")
        return [text + b"\nend\n" for text in whole]

    @property
    def is_in(self):
        """Whether queries are let in."""
        lines = self.queries.read_text().split() if self.queries.exists() else []
        return bool(lines) and lines[-1] == "in"

    def clean(self):
        for path in (self.run, self.bases):
            subprocess.run(["umount", "-l", str(path)], check=False, capture_output=True)


@dataclass
class Begun:
    """A command that was begun: with what, and where stands what it said."""

    name: str
    words: tuple[str, ...]
    stdin: bytes
    path: Path
    process: subprocess.Popen[bytes]


class Fleet:
    def __init__(self, folder, glb, shims, members, hosts, is_fast):
        self.folder, self.glb, self.shims, self.is_fast = folder, glb, shims, is_fast
        self.ways, self.etcd = Ways(), Etcd(folder, members)
        self.etcd.start()
        self.hosts = [Host(self, number) for number in range(hosts)]
        self.own = [self.ways.make(member.client) for member in self.etcd.members]
        self.children, self.begun = [], []

    @property
    def addresses(self):
        """The way of those who append and roll."""
        return ",".join(f"http://127.0.0.1:{way.port}" for way in self.own)

    def begin(self, name, *words, stdin=b""):
        """A command, in the background. What it says stands in a file of its own."""
        env = dict(os.environ, PYTHONPYCACHEPREFIX="/tmp/hunt-pyc")
        path = self.folder / f"command{len(self.begun)}.{name}"
        with open(self.folder / "commands.log", "a") as log:
            log.write(f"{time.time():.2f} {path.name} {words} {stdin[:200]!r}\n")
        with open(path, "wb") as log:
            process = subprocess.Popen(
                [*words_of(self.is_fast, name), "--etcd", self.addresses, *map(str, words)],
                env=env,
                stdin=subprocess.PIPE,
                stdout=log,
                stderr=log,
            )
        process.stdin.write(stdin)
        process.stdin.close()
        self.children.append(process)
        self.begun.append(Begun(name, tuple(map(str, words)), stdin, path, process))
        return process

    def command(self, name, *words, stdin=b"", seconds=40):
        process = self.begin(name, *words, stdin=stdin)
        try:
            return process.wait(seconds)
        except subprocess.TimeoutExpired:
            process.kill()
            process.wait()
            return -1

    def stop(self):
        for host in self.hosts:
            host.is_over = True
        for process in self.children:
            if process.poll() is None:
                process.send_signal(signal.SIGCONT)
                process.kill()
                process.wait()
        for host in self.hosts:
            host.kill()
        for host in self.hosts:
            if host.thread.is_alive():
                host.thread.join(20)
            host.kill()
            host.clean()
        self.etcd.stop()
        self.ways.close()
