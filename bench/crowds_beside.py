#!/usr/bin/env python3
"""Crowds, slow and hostile clients over TCP against `glb serve --tcp` and NSD in one run, and what honest clients get.

    apt-get update
    apt-get install nsd
    bench/crowds_beside.py [--minutes N] [--phase SECONDS] [--seed N] [--json] [--progress] [--spoil WHAT]

Both servers stand on loopback, each at an address of its own, and have the same names. glb has two workers, one more for
TCP, and a feed that moves all clients to another pool and back each second. NSD has two processes with 128 connections
each, which is together what glb holds, and the same ten seconds (its other settings: see NSD below). The phases of
crowd_clients.py go against one server and then against the other, with the same draws, in rounds until the time is over:
crowds, silent clients, drips, messages that are split at each octet, a hundred questions at once, clients that read slowly
or never, half-closes, resets, lengths that lie, garbage, storms, and a mixture (RFC 7766 section 6.2). Hostile clients run
at `nice` 10. All the while three honest clients ask each server: by datagrams, by a new conversation for each question,
and in one that stays.

Of glb has to hold, else the status is 1: each reply is octet for octet what second.py makes of the topology and of a map
that was written by hand. No datagram of an honest client is unanswered. A connection that asks within a tenth of a second
is answered, and so are the hostile clients that do nothing for which docs/operating/limits.md lets glb close. Beyond
what it had at the begin the server has no descriptor and no thread at the end, at most 4,096 KiB of memory more than at
the begin, and 512 KiB more than behind the first round. It never holds more than 256 connections, and the one that is
about to have a place. At the end it answers those who asked, beside others that said nothing or half a message, and ends
with status 0. What NSD does decides nothing.

--spoil lets something be wrong in the first three phases, and the status has to be 1:

    answer    the map by which replies are judged has another pool
    lost      an honest client by datagrams throws one reply away
    number    the number of one reply over TCP is another
    closed    an honest client's conversation is shut down
    stopped   the server stands still for eight seconds (SIGSTOP)
    killed    SIGTERM in place of the feed's end
    grown     the server is said to have had a descriptor and 4,096 KiB fewer at the begin

GLB names the program, the built one if it is not set. Statuses: 0 all as due, 1 something differs, 2 bad words, 3 a
program is not there or did not answer. With --json all figures are written as one JSON document.
"""

import argparse
import json
import multiprocessing
import os
import random
import shutil
import signal
import socket
import subprocess
import sys
import tempfile
import threading
import time
from collections import Counter
from pathlib import Path
from typing import Any, NoReturn

import crowd_clients
import second
from crowd_clients import (
    CHANGES,
    CLOSED,
    DEADLINE,
    FATES,
    GAVE_WAY,
    KINDS,
    LATE,
    MAPS,
    MOST_COMMITS,
    PHASES,
    RIGHT,
    TOPOLOGY,
    ZONE,
    Shared,
    framed,
)

TOP = Path(__file__).resolve().parent.parent
GLB = os.environ.get("GLB", str(TOP / "crates/glb_program/out/glb_program"))
NSD = """server:
  ip-address: {host}@{port}
  server-count: 2
  tcp-count: 128
  tcp-timeout: 10
  tcp-query-count: 0
  tcp-reject-overflow: no
  minimal-responses: yes
  rrl-ratelimit: 0
  username: ""
  database: ""
  zonesdir: "{work}"
  xfrdfile: "{work}/xfrd.state"
  xfrdir: "{work}"
  zonelistfile: "{work}/zone.list"
  logfile: "{work}/log"
  pidfile: ""
remote-control:
  control-enable: no
zone:
  name: cdn.example
  zonefile: "zone"
"""
SERVERS = ["glb", "NSD"]
SPOILS = ["answer", "lost", "number", "closed", "stopped", "killed", "grown"]
# how many connections glb holds (and for a moment the one that is to have the place of another), and by how many KiB its
# memory may grow from the begin, and from the end of the first round
HELD, GROWTH, LATER_GROWTH = 256, 4096, 512
# honest clients have so many connections at most, of which one may be on its way out
HONEST = 3
# how long a phase is about, and the rest behind it, in seconds
PHASE, REST = 12.0, 1.0
TICK = os.sysconf("SC_CLK_TCK")


def group_of(pid: int) -> list[int]:
    """A process and all that it began."""
    found = [pid]
    for at in found:
        try:
            for task in Path(f"/proc/{at}/task").iterdir():
                found += map(int, (task / "children").read_text().split())
        except OSError:
            pass
    return found


class Running:
    """A server's process, with those that it began."""

    def __init__(self, name: str, words: list[str], place: tuple[str, int], **pipes: Any) -> None:
        self.name, self.place = name, place
        self.process = subprocess.Popen(words, preexec_fn=crowd_clients.end_with_parent, **pipes)
        start = time.monotonic()
        while not self.answers():
            if self.process.poll() is not None or time.monotonic() - start > 60:
                self.process.kill()
                leave(3, f"no answer from {' '.join(words)}")

    def answers(self) -> bool:
        with socket.socket(socket.AF_INET, socket.SOCK_DGRAM) as client:
            client.settimeout(0.2)
            try:
                client.connect(self.place)
                client.send(crowd_clients.QUESTIONS[0])
                return bool(client.recv(4096)[2] & 0x80)
            except OSError:
                return False

    def sizes(self) -> dict[str, int]:
        """Resident memory in KiB, threads and descriptors, of all its processes together."""
        found = {"memory": 0, "threads": 0, "descriptors": 0}
        for pid in group_of(self.process.pid):
            try:
                fields = dict(
                    line.split(":", 1)
                    for line in Path(f"/proc/{pid}/status").read_text().splitlines()
                )
                found["memory"] += int(fields.get("VmRSS", "0").split()[0])
                found["threads"] += int(fields["Threads"])
                found["descriptors"] += len(os.listdir(f"/proc/{pid}/fd"))
            except (OSError, KeyError):
                pass
        return found

    def descriptors(self) -> int:
        return sum(len(os.listdir(f"/proc/{pid}/fd")) for pid in group_of(self.process.pid))

    def seconds(self) -> float:
        total = 0
        for pid in group_of(self.process.pid):
            fields = Path(f"/proc/{pid}/stat").read_text().rpartition(")")[2].split()
            total += int(fields[11]) + int(fields[12])
        return total / TICK


class Feed:
    """The feed of glb and what comes of it: each second all clients move to the other pool."""

    def __init__(self, server: Running, shared: Shared) -> None:
        self.server, self.shared = server, shared
        self.faults: list[str] = []
        self.is_over = threading.Event()
        self.threads = [
            threading.Thread(target=work, daemon=True)
            for work in (self.write, self.read_lines, self.read_maps)
        ]

    def start(self) -> None:
        for thread in self.threads:
            thread.start()

    def write(self) -> None:
        stdin = self.server.process.stdin
        assert stdin is not None
        while not self.is_over.wait(1) and self.shared.commits.value + 1 < MOST_COMMITS:
            serial = self.shared.commits.value + 1
            self.shared.written[serial] = time.monotonic_ns()
            self.shared.commits.value = serial
            try:
                stdin.write(CHANGES[serial % 2])
                stdin.flush()
            except OSError as why:
                self.faults.append(f"the feed could not be written: {why}")
                return

    def read_lines(self) -> None:
        assert self.server.process.stdout is not None
        self.lines = 0
        for line in self.server.process.stdout:
            self.lines += 1
            if line != b"published %d\n" % self.lines:
                self.faults.append(f"line {self.lines} of the output is {line!r}")
            if self.lines < MOST_COMMITS:
                self.shared.published[self.lines] = time.monotonic_ns()

    def read_maps(self) -> None:
        assert self.server.process.stderr is not None
        self.maps, text = 0, b""
        for line in self.server.process.stderr:
            text += line
            if line == b"end\n":
                if text != MAPS[self.maps % 2]:
                    self.faults.append(f"map {self.maps} is {text!r}")
                self.maps, text = self.maps + 1, b""

    def stop(self) -> None:
        """No more changes; what was written is published first."""
        self.is_over.set()
        self.threads[0].join()


def leave(status: int, why: str) -> NoReturn:
    print(f"crowds_beside.py: {why}", file=sys.stderr)
    raise SystemExit(status)


def free_port(hosts: list[str]) -> int:
    """A port that is free at all of these addresses."""
    for _ in range(100):
        port = random.randrange(10_000, 30_000)
        try:
            for host in hosts:
                for kind in (socket.SOCK_DGRAM, socket.SOCK_STREAM):
                    with socket.socket(socket.AF_INET, kind) as probe:
                        probe.bind((host, port))
            return port
        except OSError:
            continue
    leave(3, "no free port")


def start_servers(work: Path) -> list[Running]:
    hosts = ["127.0.0.21", "127.0.0.22"]
    port = free_port(hosts)
    (work / "topology.toml").write_bytes(TOPOLOGY)
    (work / "zone").write_text(ZONE)
    (work / "nsd.conf").write_text(NSD.format(host=hosts[1], port=port, work=work))
    listen = f"{hosts[0]}:{port}"
    words = [
        GLB,
        "serve",
        str(work / "topology.toml"),
        "--listen",
        listen,
        "--workers",
        "2",
        "--tcp",
        listen,
    ]
    pipes = {"stdin": subprocess.PIPE, "stdout": subprocess.PIPE, "stderr": subprocess.PIPE}
    quiet = {
        "stdin": subprocess.DEVNULL,
        "stdout": subprocess.DEVNULL,
        "stderr": subprocess.DEVNULL,
    }
    glb = Running("glb", words, (hosts[0], port), **pipes)
    try:
        nsd = Running("NSD", ["nsd", "-d", "-c", str(work / "nsd.conf")], (hosts[1], port), **quiet)
    except BaseException:
        glb.process.kill()
        raise
    return [glb, nsd]


class Run:
    """All of a run: its servers, its clients, and what came of them."""

    def __init__(self, options: argparse.Namespace, servers: list[Running]) -> None:
        self.options, self.servers, self.shared = options, servers, Shared()
        self.faults: list[str] = []
        # where something is spoilt a few phases tell
        self.numbers = range(len(PHASES))[: 3 if options.spoil else None]
        maps = [MAPS[1], MAPS[1]] if options.spoil == "answer" else MAPS
        self.workers: list[tuple[Any, Any]] = []
        self.honest: list[tuple[int, Any, Any]] = []
        for process in range(2):
            here, there = multiprocessing.Pipe()
            self.workers.append(
                (
                    multiprocessing.Process(
                        target=crowd_clients.hostile,
                        args=(process, self.shared, maps, there),
                        daemon=True,
                    ),
                    here,
                )
            )
        for server, running in enumerate(servers):
            for kind in KINDS:
                here, there = multiprocessing.Pipe()
                client = crowd_clients.Honest(
                    kind,
                    server,
                    running.place,
                    self.shared,
                    options.seed,
                    maps,
                    options.spoil if server == 0 else "",
                )
                self.honest.append(
                    (
                        server,
                        multiprocessing.Process(target=client.run, args=(there,), daemon=True),
                        here,
                    )
                )
        self.first = [server.sizes() for server in servers]
        if options.spoil == "grown":
            self.first[0]["descriptors"] -= 1
            self.first[0]["memory"] -= GROWTH
        self.spent_first = [server.seconds() for server in servers]
        for process_, _ in self.workers:
            process_.start()
        for _, process_, _ in self.honest:
            process_.start()
        self.feed = Feed(servers[0], self.shared)
        self.feed.start()
        self.phases: list[list[dict[str, Any]]] = [
            [{"counts": Counter(), "most": 0, "processor": 0.0, "seconds": 0.0} for _ in SERVERS]
            for _ in PHASES
        ]
        self.behind: list[list[dict[str, int]]] = [[], []]
        self.kept: list[dict[str, Any]] = [{}, {}]

    def let(self, phase: int, server: int, seed: str, seconds: float) -> None:
        """One phase against one server."""
        running, told = self.servers[server], self.phases[phase][server]
        begin, spent = time.monotonic(), running.seconds()
        self.shared.phase.value, self.shared.turn.value = phase, server
        for _, channel in self.workers:
            channel.send((phase, server, running.place, seed, seconds))
        if self.options.spoil == "stopped" and server == 0 and phase == 0:
            running.process.send_signal(signal.SIGSTOP)
            time.sleep(8)
            running.process.send_signal(signal.SIGCONT)
        waiting = [channel for _, channel in self.workers]
        while waiting:
            told["most"] = max(told["most"], running.descriptors())
            waiting = [channel for channel in waiting if not channel.poll()]
            if time.monotonic() > begin + seconds + 3 * DEADLINE + 30:
                self.faults.append(f"the clients of {PHASES[phase][0]} did not end")
                break
            time.sleep(0.1)
        for _, channel in self.workers:
            if channel.poll():
                counts, wrong = channel.recv()
                told["counts"].update(counts)
                told.setdefault("first", []).extend(wrong[: max(0, 5 - len(told.get("first", [])))])
        self.shared.turn.value = -1
        if self.options.progress:
            print(
                f"{time.monotonic() - begin:.1f} s {SERVERS[server]} {PHASES[phase][0]}: {dict(told['counts'])}",
                file=sys.stderr,
                flush=True,
            )
        told["processor"] += running.seconds() - spent
        told["seconds"] += time.monotonic() - begin

    def rest(self, server: int, seconds: float, phase: int) -> None:
        """A pause, behind which the server has no connections but those of honest clients."""
        time.sleep(seconds)
        running = self.servers[server]
        end = time.monotonic() + 3
        while (
            running.descriptors() > self.first[server]["descriptors"] + HONEST
            and time.monotonic() < end
        ):
            time.sleep(0.05)
        held = running.descriptors() - self.first[server]["descriptors"]
        if server == 0 and held > HONEST:
            self.faults.append(f"{held} connections behind {PHASES[phase][0]}")

    def rounds(self) -> None:
        """One round after the other, as many as the time is enough for, and one at least."""
        total = self.options.minutes * 60
        each = min(self.options.phase + REST, total / (len(self.numbers) * len(SERVERS)))
        rest = min(REST, each / 5)
        begin, round_, longest = time.monotonic(), 0, 0.0
        while round_ == 0 or time.monotonic() - begin + longest <= total:
            start = time.monotonic()
            for phase in self.numbers:
                for server in [0, 1] if round_ % 2 == 0 else [1, 0]:
                    seed = f"{self.options.seed} {round_} {phase}"
                    self.let(phase, server, seed, each - rest)
                    self.rest(server, rest, phase)
                    status = self.servers[server].process.poll()
                    if status is not None:
                        self.faults.append(
                            f"{SERVERS[server]} ended with {status} in {PHASES[phase][0]}"
                        )
                        return
            for server in (0, 1):
                self.behind[server].append(self.servers[server].sizes())
            round_ += 1
            longest = max(longest, time.monotonic() - start)

    def end(self) -> None:
        """The clients go, the sizes are looked at, and glb ends beside connections that say nothing and others that asked."""
        self.shared.is_over.value = 1
        for _, channel in self.workers:
            channel.send(None)
        for server, process, channel in self.honest:
            if channel.poll(3 * DEADLINE):
                kept, kind = channel.recv()
                self.kept[server][kind] = kept
            else:
                self.faults.append(f"an honest client of {SERVERS[server]} did not end")
            process.join(5)
        for worker, _ in self.workers:
            worker.join(5)
        self.feed.stop()
        time.sleep(1)
        self.last = [server.sizes() for server in self.servers]
        self.spent = [
            server.seconds() - first for server, first in zip(self.servers, self.spent_first)
        ]
        self.servers[1].process.terminate()
        self.servers[1].process.wait(20)
        self.last_ones()
        for thread in self.feed.threads:
            thread.join(10)

    def last_ones(self) -> None:
        process, place = self.servers[0].process, self.servers[0].place
        assert process.stdin is not None
        if process.poll() is not None:
            return
        message = crowd_clients.QUESTIONS[0]
        clients = []
        for number in range(210):
            client = crowd_clients.bound(crowd_clients.source_of(30, number))
            client.settimeout(DEADLINE)
            client.connect(place)
            clients.append(client)
        for client in clients[150:190]:
            client.sendall(framed(message)[:20])
        begin = time.monotonic_ns()
        for client in clients[190:]:
            client.sendall(framed(message))
        if self.options.spoil == "killed":
            process.terminate()
        process.stdin.write(b"stop\n") if self.options.spoil != "killed" else None
        process.stdin.close()
        judge = crowd_clients.Judge(self.shared, True, MAPS)
        self.answered = 0
        for client in clients[190:]:
            octets = b""
            try:
                while len(octets) < 2 or len(octets) < 2 + int.from_bytes(octets[:2]):
                    more = client.recv(4096)
                    if not more:
                        break
                    octets += more
            except OSError:
                pass
            self.answered += len(octets) > 2 and judge.is_right(message, octets[2:], begin, True)
        try:
            self.status = process.wait(10)
        except subprocess.TimeoutExpired:
            process.kill()
            self.status = process.wait()
        for client in clients:
            client.close()
        if self.status != 0:
            self.faults.append(f"glb ended with status {self.status}")
        if self.answered != 20:
            self.faults.append(f"{self.answered} of 20 that had asked were answered at the end")

    def judge(self) -> None:
        """What has to hold of glb."""
        faults = self.faults
        for (name, _, _, _, _, is_owed), told in zip(PHASES, self.phases):
            counts, first = told[0]["counts"], told[0].get("first", [])
            bad = [
                "wrong",
                "not due",
                "out of order",
                "a fault of the script's",
                "not closed behind the peer's end",
                "not closed behind a length",
            ]
            bad += ["closed", "late", "refused"] if is_owed else []
            for what in bad:
                if counts[what]:
                    faults.append(
                        f"{name}: {counts[what]} {what}: {[one for one in first if one.startswith(what)][:2]}"
                    )
            if told[0]["most"] - self.first[0]["descriptors"] > HELD + 1:
                faults.append(f"{name}: {told[0]['most']} descriptors")
        for kind, kept in self.kept[0].items():
            fates = Counter(kept.fates)
            for fate, text in enumerate(FATES):
                if fate not in (RIGHT, GAVE_WAY) and fates[fate]:
                    faults.append(
                        f"honest, {kind}: {fates[fate]} {text}: {[one for one in kept.wrong if one.startswith(text)][:3]}"
                    )
        first, last = self.first[0], self.last[0]
        for what in ("descriptors", "threads"):
            if last[what] > first[what]:
                faults.append(f"{what} from {first[what]} to {last[what]}")
        if last["memory"] > first["memory"] + GROWTH:
            faults.append(f"memory from {first['memory']} to {last['memory']} KiB")
        if self.behind[0] and last["memory"] > self.behind[0][0]["memory"] + LATER_GROWTH:
            faults.append(
                f"memory from {self.behind[0][0]['memory']} KiB behind the first round to {last['memory']} KiB"
            )
        feed = self.feed
        commits = self.shared.commits.value
        if (feed.lines, feed.maps) != (commits, commits + 1):
            faults.append(f"{commits} commits, {feed.lines} lines, {feed.maps} maps")
        faults += feed.faults[:5]

    def figures(self) -> dict[str, Any]:
        """All that was counted and measured."""
        phases = []
        for number in self.numbers:
            name, told = PHASES[number], self.phases[number]
            of_servers: dict[str, Any] = {}
            for server, label in enumerate(SERVERS):
                one = told[server]
                of_servers[label] = {
                    "clients": dict(sorted(one["counts"].items())),
                    "first": one.get("first", []),
                    "most descriptors": one["most"],
                    "processor seconds": round(one["processor"], 2),
                    "seconds": round(one["seconds"], 1),
                    "honest": {
                        kind: asked_in(kept, number) for kind, kept in self.kept[server].items()
                    },
                }
            phases.append({"phase": name[0], **of_servers})
        whole: dict[str, Any] = {}
        for server, label in enumerate(SERVERS):
            whole[label] = {
                "begin": self.first[server],
                "behind each round": self.behind[server],
                "end": self.last[server],
                "processor seconds": round(self.spent[server], 1),
                "honest": {kind: asked_in(kept, None) for kind, kept in self.kept[server].items()},
                "honest out of turn": {
                    kind: asked_in(kept, -1) for kind, kept in self.kept[server].items()
                },
                "not answered": {
                    kind: kept.wrong for kind, kept in self.kept[server].items() if kept.wrong
                },
            }
        end = {
            "status of glb": getattr(self, "status", None),
            "answered at the end, of 20": getattr(self, "answered", None),
            "maps": self.feed.maps,
        }
        return {
            "minutes": self.options.minutes,
            "seed": self.options.seed,
            "phases": phases,
            "whole": whole,
            **end,
            "faults": self.faults,
        }


def asked_in(kept: crowd_clients.Kept, phase: int | None) -> dict[str, Any]:
    """Of the questions of a phase, of those out of turn (-1) or of all: how many had which fate, and how long the answers took."""
    fates: Counter[int] = Counter()
    times = []
    for at, taken, fate in zip(kept.phases, kept.times, kept.fates):
        if phase is None or at == phase:
            fates[fate] += 1
            if fate == RIGHT:
                times.append(taken)
    times.sort()
    found: dict[str, Any] = {"asked": sum(fates.values())}
    found |= {FATES[fate]: count for fate, count in sorted(fates.items())}
    if times:
        found |= {
            "median ms": round(times[len(times) // 2] / 1e6, 2),
            "99 % ms": round(times[len(times) * 99 // 100] / 1e6, 1),
            "worst ms": round(times[-1] / 1e6, 1),
        }
    return found


def told_of(found: dict[str, Any]) -> str:
    lost = found["asked"] - found.get("answered", 0)
    times = (
        f"{found['median ms']:.2f}, {found['99 % ms']:.1f}, {found['worst ms']:.1f} ms"
        if "median ms" in found
        else "none answered"
    )
    return f"{found['asked']:,} asked, {lost:,} not answered; {times}"


def tell(figures: dict[str, Any]) -> None:
    print(
        "Honest clients beside each phase: how many asked, how many were not answered; median, 99 %, worst"
    )
    for phase in figures["phases"]:
        print(f"\n{phase['phase']}")
        for label in SERVERS:
            one = phase[label]
            for kind, found in one["honest"].items():
                print(f"    {label}, {kind}: {told_of(found)}")
            print(
                f"    {label}: {one['most descriptors']} descriptors at most, {one['processor seconds']} of {one['seconds']} s of processor; the others: {', '.join(f'{what} {count:,}' for what, count in one['clients'].items())}"
            )
    print("\nThe whole run")
    for label in SERVERS:
        one = figures["whole"][label]
        for kind, found in one["honest"].items():
            fates = ", ".join(f"{text} {found[text]:,}" for text in FATES if text in found)
            print(f"    {label}, {kind}: {told_of(found)} ({fates})")
        for kind, found in one["honest out of turn"].items():
            print(f"    {label}, {kind}, while it is not its turn: {told_of(found)}")
        rounds = one["behind each round"]
        print(
            f"    {label}: begin {one['begin']}, behind the first round {rounds[0] if rounds else None}, end {one['end']}, processor {one['processor seconds']} s"
        )
    print(
        f"glb's status {figures['status of glb']}, {figures['answered at the end, of 20']} of 20 answered at its end, {figures['maps']} maps"
    )
    print(*figures["faults"], sep="\n", end="\n" if figures["faults"] else "")
    print("all as due" if not figures["faults"] else f"{len(figures['faults'])} faults")


class Words(argparse.ArgumentParser):
    def error(self, message: str) -> NoReturn:
        leave(2, message)


def read_words() -> argparse.Namespace:
    parser = Words(description=__doc__, formatter_class=argparse.RawDescriptionHelpFormatter)
    parser.add_argument(
        "--minutes",
        type=float,
        default=60,
        metavar="N",
        help="how long all phases take together, 60 if it is not given",
    )
    parser.add_argument(
        "--seed",
        type=int,
        default=1,
        metavar="N",
        help="the number from which all draws follow, 1 if it is not given",
    )
    parser.add_argument(
        "--phase",
        type=float,
        default=PHASE,
        metavar="SECONDS",
        help=f"how long a phase is at most, {PHASE:.0f} if it is not given",
    )
    parser.add_argument(
        "--progress", action="store_true", help="say on standard error when a phase has ended"
    )
    parser.add_argument("--json", action="store_true", help="write all figures as JSON")
    parser.add_argument(
        "--spoil",
        choices=SPOILS,
        default="",
        metavar="WHAT",
        help="let something be wrong: " + ", ".join(SPOILS),
    )
    options = parser.parse_args()
    if not 0.1 <= options.minutes <= 300:
        parser.error("--minutes is not from 0.1 to 300")
    if not 0.1 <= options.phase <= 600:
        parser.error("--phase is not from 0.1 to 600")
    return options


def main() -> None:
    options = read_words()
    for program in (GLB, "nsd"):
        if not shutil.which(program):
            leave(3, f"{program} is not there")
    topology: Any = second.Topology(TOPOLOGY)
    for text, capacity in zip(MAPS, ([10, 10, 10], [0, 10, 10])):
        said = second.verdict(topology, topology.demand, capacity, second.Map(topology, text))
        assert said == "good", said
    with tempfile.TemporaryDirectory() as folder:
        servers = start_servers(Path(folder))
        try:
            run = Run(options, servers)
            run.rounds()
            run.end()
        finally:
            for server in servers:
                if server.process.poll() is None:
                    server.process.kill()
                    server.process.wait()
    run.judge()
    figures = run.figures()
    if options.json:
        print(json.dumps(figures, indent=1))
    else:
        tell(figures)
    raise SystemExit(1 if run.faults else 0)


if __name__ == "__main__":
    main()
