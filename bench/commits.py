#!/usr/bin/env python3
"""What a commit costs a running server, in processor time, by what it changes; two programs side by side if GLB_OTHER names
another.

    bench/commits.py [--groups N ..] [--percent N ..] [--commits N] [--scores N]

Worlds of generate.py: lists of sixteen, 2,048 pools, paths of eight nodes. The feed of `glb serve` gets commits of 1, 4, 64
and 4,096 changes (changes.py's kinds: seven of groups to one of a pool, each by up to a fifth up or down), and at last a
pool that fails and comes back. Both programs get the same lines, and their maps and lines have to be the same. A row has the
middle and the greatest of the commits' milliseconds of processor, text of the map and all, of each program, and the last one
the memory that they held.

    --scores N    scores are drawn from 1 to N in place of all 32 bits: many are alike
    GLB           the program, the built one if it is not set
"""

import argparse
import os
import random
import re
import subprocess
import sys
import tempfile
from pathlib import Path

from start import GLB, TOP, megabytes

OTHER = os.environ.get("GLB_OTHER")
SIZES = (1, 4, 64, 4096)


def world(folder, groups, percent, scores):
    topology = Path(folder) / "topology"
    pools = round(percent / 0.95**7)
    subprocess.run([sys.executable, str(TOP / "bench/generate.py"), str(groups), "2048", "8", str(pools), str(topology)], check=True, stdout=subprocess.DEVNULL)
    text = topology.read_text()
    if scores:
        draw = random.Random(1)
        text = re.sub(r"^scores = \[.*\]$", lambda found: "scores = [%s]" % ", ".join(str(draw.randint(1, scores)) for _ in found[0].split(",")), text, flags=re.M)
        topology.write_text(text)
    return topology, text


def numbers(text):
    """Demands of groups, and capacities of pools."""
    demands = re.findall(r'^\[\[group\]\]\nname = "([^"]+)"\ndemand = (\d+)', text, re.M)
    nodes = re.findall(r"^\[\[node\]\]\n((?:[a-z]+ = .*\n)+)", text, re.M)
    pools = [(re.search(r'name = "([^"]+)"', node)[1], re.search(r"capacity = (\d+)", node)[1]) for node in nodes if "pool = true" in node]
    return [(name, int(number)) for name, number in demands], [(name, int(number)) for name, number in pools]


def batches(text, commits):
    """Kinds of commits, each with the lines of some."""
    demands, pools = numbers(text)
    draw = random.Random(7)
    for size in SIZES:
        if size > len(demands):
            continue
        found = []
        for _ in range(commits):
            nodes = draw.sample(pools, (size + draw.randrange(8)) // 8)
            chosen = [("capacity", *one) for one in nodes] + [("demand", *one) for one in draw.sample(demands, size - len(nodes))]
            found.append("".join(f"{word} {name} {max(1, number + round(number * draw.uniform(-0.2, 0.2)))}\n" for word, name, number in chosen))
        yield f"{size} changes", found
    name, number = draw.choice(pools)
    yield "a pool fails", [f"capacity {name} 0\n"]
    yield "it comes back", [f"capacity {name} {number}\n"]


def milliseconds(pid):
    """What its threads have taken of the processors."""
    return sum(int(task.read_text().split()[0]) for task in Path(f"/proc/{pid}/task").glob("*/schedstat")) / 1e6


class Server:
    def __init__(self, program, topology, maps):
        self.maps = open(maps, "wb")
        words = [program, "serve", str(topology), "--listen", "127.0.0.1:0"]
        self.process = subprocess.Popen(words, stdin=subprocess.PIPE, stdout=subprocess.PIPE, stderr=self.maps)
        self.commit("show\n", "")

    def commit(self, lines, last="commit\n"):
        """Milliseconds of processor up to the answer, and the answer."""
        before = milliseconds(self.process.pid)
        self.process.stdin.write((lines + last).encode())
        self.process.stdin.flush()
        said = self.process.stdout.readline().decode()
        return milliseconds(self.process.pid) - before, said

    def end(self):
        self.process.communicate(b"stop\n")
        self.maps.close()


def measure(groups, percent, scores, commits):
    with tempfile.TemporaryDirectory() as folder:
        topology, text = world(folder, groups, percent, scores)
        programs = [GLB] + ([OTHER] if OTHER else [])
        servers = [Server(program, topology, Path(folder) / f"maps{at}") for at, program in enumerate(programs)]
        print(f"{groups} groups, {percent} % at the roots" + (f", scores up to {scores}" if scores else ""))
        before = [megabytes(server.process.pid, "VmRSS") for server in servers]
        for kind, found in batches(text, commits):
            times = [[] for _ in servers]
            for lines in found:
                answers = [server.commit(lines) for server in servers]
                for row, (spent, _) in zip(times, answers):
                    row.append(spent)
                if len({said for _, said in answers}) != 1:
                    sys.exit(f"{kind}: {answers}")
            rows = [f"{sorted(row)[len(row) // 2]:.1f} ({max(row):.1f} at most)" for row in times]
            print(f"    {kind:14} {'; the other '.join(rows)} ms", flush=True)
        after = [megabytes(server.process.pid, "VmRSS") for server in servers]
        for server in servers:
            server.end()
        texts = [(Path(folder) / f"maps{at}").read_bytes() for at in range(len(servers))]
        # the first lines say the form of a map, which another program may have another of
        if len({re.sub(rb"^glb map \d+$", b"", one, flags=re.M) for one in texts}) != 1:
            sys.exit("their maps differ")
        held = "; the other ".join(f"{one} MB ahead of them and {two} behind" for one, two in zip(before, after))
        print(f"    {texts[0].count(b'end' + bytes([10]))} maps" + (", the same of both; " if OTHER else "; ") + held)


def main():
    parser = argparse.ArgumentParser(description=__doc__, formatter_class=argparse.RawDescriptionHelpFormatter)
    parser.add_argument("--groups", type=int, nargs="+", default=[16384, 65536])
    parser.add_argument("--percent", type=int, nargs="+", default=[50, 95, 105])
    parser.add_argument("--commits", type=int, default=5)
    parser.add_argument("--scores", type=int, default=0)
    options = parser.parse_args()
    for groups in options.groups:
        for percent in options.percent:
            measure(groups, percent, options.scores, options.commits)


if __name__ == "__main__":
    main()
