#!/usr/bin/env python3
"""Measures the tools in a world of generate.py: their seconds of processor and their peak of memory, beside tomllib's reading.

    GLB=/usr/local/bin/glb bench/tools.py [GROUPS [POOLS]]       65,536 and 8,192 if they are not given

glb-numbers gets a log that changes each number of the topology, and what it writes is compared with the numbers as tomllib
reads them; glb-why and glb-moves get the maps of both topologies. The last line says how much was compared.
"""

import os
import random
import subprocess
import sys
import tempfile
import time
import tomllib
from pathlib import Path

TOP = Path(__file__).resolve().parent.parent
GLB = os.environ.get("GLB", str(TOP / "crates/glb_program/out/glb_program"))


# runs a command from a process that is small itself, since a peak of memory counts from the fork on
RUN = """
import resource, subprocess, sys
status = subprocess.run(sys.argv[1:]).returncode
used = resource.getrusage(resource.RUSAGE_CHILDREN)
print(f"{used.ru_utime + used.ru_stime:.1f} s of processor, {used.ru_maxrss // 1024} MB", file=sys.stderr)
sys.exit(status)
"""


def measured(name, words, out):
    """Runs a command, and says its seconds of processor and its peak of memory."""
    with open(out, "wb") as file:
        found = subprocess.run([sys.executable, "-c", RUN, *words], stdout=file, stderr=subprocess.PIPE)
    said = found.stderr.decode()
    if found.returncode:
        sys.exit(f"{name} ended with {found.returncode}: {said}")
    print(f"{name}: {said.splitlines()[-1]}", flush=True)


def changes(topology, chance):
    """A log that changes each number, and what each is then."""
    numbers, lines = {}, []
    for word, table, most in (("demand", "group", 1000), ("capacity", "node", 1 << 30)):
        for entry in topology[table]:
            numbers[word, entry["name"]] = number = chance.randrange(1, most)
            lines.append(f"{word} {entry['name']} {number}\n")
    chance.shuffle(lines)
    batches = [lines[at : at + 4096] for at in range(0, len(lines), 4096)]
    return numbers, "".join("".join(batch) + "commit\n" for batch in batches)


def main():
    groups, pools = [*sys.argv[1:3], *("65536", "8192")[len(sys.argv) - 1 :]]
    with tempfile.TemporaryDirectory() as folder:
        old, new, log = (Path(folder, name) for name in ("old.toml", "new.toml", "log"))
        subprocess.run([sys.executable, TOP / "bench/generate.py", groups, pools, "1", "90", old], check=True)
        print(f"{groups} groups, {pools} pools, {old.stat().st_size // 1000:,} kB")
        began = time.process_time()
        topology = tomllib.loads(old.read_text())
        print(f"tomllib alone: {time.process_time() - began:.1f} s of processor")
        numbers, text = changes(topology, random.Random(1))
        log.write_text(text)
        tool = lambda name, *words: [sys.executable, "-B", str(TOP / "tools" / name), *map(str, words)]
        measured("glb-numbers, each number changed", tool("glb-numbers", old, log), new)
        wrote = tomllib.loads(new.read_text())
        compared = 0
        for word, table in (("demand", "group"), ("capacity", "node")):
            for was, entry in zip(topology[table], wrote[table], strict=True):
                if entry != {**was, word: numbers[word, was["name"]]}:
                    sys.exit(f"{entry['name']} is not as it should be")
                compared += 1
        maps = [Path(folder, name) for name in ("old.map", "new.map")]
        for path, found in zip((old, new), maps):
            with open(found, "wb") as file:
                subprocess.run([GLB, "map", path], stdout=file, check=True)
        print(f"maps of {maps[0].stat().st_size // 1000:,} and {maps[1].stat().st_size // 1000:,} kB")
        group = topology["group"][-1]["name"]
        measured("glb-why, all", tool("glb-why", new, maps[1]), os.devnull)
        measured("glb-why of one group", tool("glb-why", new, maps[1], group), os.devnull)
        measured("glb-moves", tool("glb-moves", *maps), os.devnull)
        sys.path.append(str(TOP / "tools"))
        from glb_tools.loads import World
        from glb_tools.topology import read_topology

        world, octets = World(read_topology(new)), maps[1].read_bytes()
        began = time.process_time()
        loads = world.loads(octets)
        print(f"the loads of a map, as glb-exporter sums them up: {time.process_time() - began:.2f} s of processor")
        if loads.placed > loads.demand:
            sys.exit("more is placed than asked for")
        print(f"{compared} numbers compared")


main()
