#!/usr/bin/env python3
"""Looks for commits that take long: random worlds by shape, and batches that are varied where they took longest.

    worst_commits.py [MINUTES [GROUPS [SEED]]]

Each world has a shape of its own: how many pools and levels of nodes, how many trees, how many places a list has, whether lists
keep to one tree, and how full it is. `glb serve` gets batches of many kinds (a node's capacity to a share of what it was, pools
that fail and come back, demands by shares), and the one that took longest is tried again in other sizes. A commit's processor
time stands beside that of a map from scratch of the same world, which is what `glb map` takes above `glb check` of a map at
fault. It prints each world's middle, 99th percentile and worst commit, and at its end the worst ratios.

GLB names the program. Where GLB_OTHER names another one, that gets the same lines, has to say the same and to put the same octets
on its maps, and its times stand beside. Status 0; 1 where the two differ.
"""

import contextlib
import os
import random
import resource
import statistics
import subprocess
import sys
import tempfile
import threading
import time
import zlib
from pathlib import Path

from start import GLB, free_port

OTHER = os.environ.get("GLB_OTHER")
ZONE = """[zone]
apex = "cdn.example"
mname = "ns1.ops.example"
rname = "admin.ops.example"
serial = 1
refresh = 3600
retry = 600
expire = 86400
minimum = 60
ttl = 20
ns = ["ns1.ops.example"]
services = ["www"]
"""
KINDS = ("node", "fails", "back", "demands", "raises", "mixed")


class World:
    """A topology by its shape, and the numbers that it has now."""

    def __init__(self, r, groups):
        self.r = r
        self.pools = r.choice([2, 8, 32, 128, 512, 2048])
        self.pools = min(self.pools, groups)
        self.levels = r.randint(1, 7)
        self.trees = r.choice([1, 1, 2, 8, 64])
        self.trees = min(self.trees, self.pools)
        self.places = r.choice([1, 2, 4, 16])
        self.own_tree = r.random() < 0.3
        self.load = r.choice([0.3, 0.5, 0.8, 0.95, 1.0, 1.05, 1.5])
        self.demand = {f"g{g}": r.choice([1, r.randint(1, 10), r.randint(50, 150)]) for g in range(groups)}
        total = sum(self.demand.values())
        self.capacity, self.parent = {}, {}
        above = []
        for t in range(self.trees):
            chain = []
            for level in range(self.levels - 1):
                name = f"n{t}-{level}"
                self.parent[name] = chain[-1] if chain else None
                share = total / self.load / self.trees * r.choice([0.6, 0.95, 1.0, 1.2])
                self.capacity[name] = max(1, int(share))
                chain.append(name)
            above.append(chain)
        self.by_tree = [[] for _ in range(self.trees)]
        for p in range(self.pools):
            name, t = f"p{p}", p % self.trees
            chain = above[t]
            self.parent[name] = r.choice(chain[-2:]) if chain else None
            self.capacity[name] = max(1, int(total / self.load / self.pools * r.choice([0.5, 1, 1.5])))
            self.by_tree[t].append(name)
        self.first = dict(self.capacity)
        self.inner = [n for n in self.capacity if n[0] == "n"]
        self.lists = {}
        for g in self.demand:
            pools = r.choice(self.by_tree) if self.own_tree else [f"p{p}" for p in range(self.pools)]
            self.lists[g] = r.sample(pools, min(self.places, len(pools)))

    def write(self, path):
        pools = {p for names in self.by_tree for p in names}
        with open(path, "w") as f:
            f.write(ZONE)
            for n, (name, capacity) in enumerate(self.capacity.items()):
                f.write(f'[[node]]\nname = "{name}"\ncapacity = {capacity}\n')
                if self.parent[name]:
                    f.write(f'parent = "{self.parent[name]}"\n')
                if name in pools:
                    f.write(f'pool = true\na = ["10.{n >> 8}.{n & 255}.1"]\n')
            for n, (g, pools_of) in enumerate(self.lists.items()):
                scores = [self.r.randrange(1 << 32) for _ in pools_of]
                words = ", ".join(f'"{p}"' for p in pools_of)
                f.write(f'[[group]]\nname = "{g}"\ndemand = {self.demand[g]}\npools = [{words}]\nscores = {scores}\n')
                prefix = f"{16 + (n >> 16)}.{n >> 8 & 255}.{n & 255}.0/24"
                f.write(f'prefixes = ["{prefix}"]\n' if n else 'prefixes = ["0.0.0.0/0", "::/0"]\n')

    def batch(self, kind, size):
        """Lines of a batch, at most 4,096, and the numbers are those behind it from now on."""
        r, lines = self.r, []
        if kind in ("node", "mixed"):
            for name in r.sample(self.inner or list(self.capacity), min(size, len(self.inner or self.capacity), 64)):
                self.capacity[name] = int(self.first[name] * r.choice([0.01, 0.5, 0.9, 0.94, 0.95, 1, 1.01, 2]))
                lines.append(f"capacity {name} {self.capacity[name]}")
        if kind in ("fails", "back"):
            names = [n for t in self.by_tree for n in t]
            for name in r.sample(names, min(size, len(names))):
                self.capacity[name] = 0 if kind == "fails" else self.first[name]
                lines.append(f"capacity {name} {self.capacity[name]}")
        if kind in ("demands", "raises", "mixed"):
            for g in r.sample(list(self.demand), min(size, len(self.demand), 4000)):
                factor = r.choice([1.01, 1.1, 2]) if kind == "raises" else r.uniform(0.5, 1.8)
                self.demand[g] = max(1, min(100_000, int(self.demand[g] * factor)))
                lines.append(f"demand {g} {self.demand[g]}")
        return lines


class Server:
    """A server of a topology: its process, and what it put on its maps."""

    def __init__(self, program, topology):
        words = [program, "serve", str(topology), "--listen", f"127.0.0.1:{free_port()}", "--workers", "1"]
        pipe = subprocess.PIPE
        self.process = subprocess.Popen(words, stdin=pipe, stdout=pipe, stderr=pipe)
        self.maps = 0
        self.reader = threading.Thread(target=self.read, daemon=True)
        self.reader.start()
        self.ask("show")

    def read(self):
        while piece := self.process.stderr.read(1 << 16):
            self.maps = zlib.crc32(piece, self.maps)

    def cpu(self):
        """Milliseconds of processor of all its threads."""
        folder, took = f"/proc/{self.process.pid}/task", 0
        for thread in os.listdir(folder):
            with contextlib.suppress(FileNotFoundError, ProcessLookupError):
                took += int(Path(folder, thread, "schedstat").read_text().split()[0])
        return took / 1e6

    def ask(self, *lines):
        try:
            self.process.stdin.write(("\n".join(lines) + "\n").encode())
            self.process.stdin.flush()
        except BrokenPipeError:
            sys.exit(f"the server ended: {self.process.stdout.read().decode()}, status {self.process.wait()}")
        return self.process.stdout.readline().decode().strip()

    def commit(self, lines):
        """The milliseconds of processor that a commit takes, and what the server says."""
        before = self.cpu()
        said = self.ask(*lines, "commit")
        if not said.startswith("published"):
            sys.exit(f"the server said {said!r}")
        return self.cpu() - before, said

    def end(self):
        """The checksum of all maps."""
        self.process.stdin.write(b"stop\n")
        self.process.stdin.close()
        self.process.wait()
        self.reader.join()
        return self.maps


def processor_of(*words):
    before = resource.getrusage(resource.RUSAGE_CHILDREN)
    subprocess.run(words, stdout=subprocess.DEVNULL, stderr=subprocess.DEVNULL)
    after = resource.getrusage(resource.RUSAGE_CHILDREN)
    return 1e3 * (after.ru_utime + after.ru_stime - before.ru_utime - before.ru_stime)


def from_scratch(world, folder):
    """Milliseconds of a map from scratch of a world as it stands."""
    path, fault = folder / "now.toml", folder / "fault.map"
    world.write(path)
    fault.write_text("fault\n")
    return max(0.1, processor_of(GLB, "map", str(path)) - processor_of(GLB, "check", str(path), str(fault)))


def try_world(r, groups, folder):
    """One world: the shape, each commit as (ms, ms of the other, kind, size), and whether the two programs agreed."""
    world = World(r, groups)
    path = folder / "world.toml"
    world.write(path)
    servers = [Server(p, path) for p in (GLB, OTHER) if p]
    commits, agreed, worst = [], True, ("node", 1)
    for turn in range(40):
        kind, size = (r.choice(KINDS), r.choice([1, 1, 4, 64, 1024, 4096])) if turn % 3 else worst
        lines = world.batch(kind, max(1, int(size * r.choice([0.5, 1, 2]))))[:4096]
        if not lines:
            continue
        took = [server.commit(lines) for server in servers]
        agreed = agreed and len({said for _, said in took}) == 1
        commits.append((took[0][0], took[-1][0], kind, len(lines)))
        if took[0][0] == max(c[0] for c in commits):
            worst = (kind, size)
    scratch = from_scratch(world, folder)
    agreed = agreed and len({server.end() for server in servers}) == 1
    shape = f"{groups} groups x{world.places}, {world.pools} pools, {world.trees} trees of {world.levels}, {world.load}"
    return shape, commits, scratch, agreed


def main():
    minutes = float(sys.argv[1]) if len(sys.argv) > 1 else 60
    most = int(sys.argv[2]) if len(sys.argv) > 2 else 8192
    r = random.Random(int(sys.argv[3]) if len(sys.argv) > 3 else 1)
    until, worlds, differ = time.time() + 60 * minutes, [], 0
    with tempfile.TemporaryDirectory() as name:
        while time.time() < until:
            groups = r.choice([g for g in (64, 512, 2048, 8192, 16384, 65536) if g <= most])
            shape, commits, scratch, agreed = try_world(r, groups, Path(name))
            times = sorted(c[0] for c in commits)
            at = max(commits)
            worlds.append((at[0] / scratch, shape, at, scratch))
            differ += not agreed
            ratio = f"{at[0] / scratch:.2f} of a map from scratch ({scratch:.0f} ms)"
            beside = f", the other {max(c[1] for c in commits):.1f}" if OTHER else ""
            print(
                f"{shape}: p50 {statistics.median(times):.1f}, p99 {times[-max(1, len(times) // 100)]:.1f},"
                f" worst {at[0]:.1f} ms{beside} ({at[2]} {at[3]}), {ratio}{'' if agreed else '  THE TWO DIFFER'}",
                flush=True,
            )
    print(f"{len(worlds)} worlds, {differ} in which the two differ; the worst by their ratio:")
    for ratio, shape, at, scratch in sorted(worlds, reverse=True)[:10]:
        print(f"  {ratio:.2f}: {at[0]:.1f} ms ({at[2]} {at[3]}) beside {scratch:.1f}; {shape}")
    sys.exit(1 if differ else 0)


if __name__ == "__main__":
    main()
