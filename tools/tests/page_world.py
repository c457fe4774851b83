"""What the tests of glb-page are made of: a hand-made world, and a program that plays `glb serve`."""

import importlib.util
import os
import stat
import unittest

for module, package in (
    ("numpy", "numpy"),
    ("flask", "flask"),
    ("waitress", "waitress"),
    ("dns", "dnspython"),
    ("jinja2", "jinja2"),
    ("requests", "requests"),
):
    if importlib.util.find_spec(module) is None:
        raise unittest.SkipTest(f"python3-{package} is not installed")

from glb_tools.page.maps import placed_in, refusals_in, sums_of
from glb_tools.page.mirror import Served
from glb_tools.page.tables import read_tables
from samples import SMALL, SMALL_MAP

# plays `glb serve`: its map gives g1 at A as many units as its demand. `ask` is answered by a reply of one address
PLAYED = """#!/usr/bin/env python3
import sys, time
assert sys.argv[1] == "serve" and sys.argv[3:] == ["--listen", "127.0.0.1:0"], sys.argv
open(sys.argv[2]).read()
demand, serial, batch = 8, 0, []
REPLY = "REPLIED"
def put():
    sys.stderr.write(f"glb map 2\\nplace g1 A {demand}\\nfull g2 B R\\nend\\n")
    sys.stderr.flush()
put()
for line in sys.stdin:
    words = line.split()
    if words[0] == "ask":
        if words[1] == "192.0.2.99":
            time.sleep(60)
        print("answer", serial, "-" if words[1] == "192.0.2.98" else REPLY, flush=True)
    elif words[0] == "commit":
        if any(each[0] == "bad" for each in batch):
            print("refused 1 unknown word\\nrefused commit lines 1", flush=True)
        elif any(each[0] == "end" for each in batch):
            sys.exit(5)
        else:
            for each in batch:
                demand = int(each[2]) if each[1] == "g1" else demand
            if batch:
                serial += 1
                put()
            print("published", serial, flush=True)
        batch = []
    else:
        batch.append(words)
"""
# of www.cdn.example A: 192.0.2.1 with ttl 20, as docs/FORMATS.md has it ("ADDR and HEX")
REPLY = (
    "123485000001000100000000037777770363646e076578616d706c650000010001"
    "c00c00010001000000140004c0000201"
)


def program(case, text=PLAYED):
    path = case.file("glb", text.replace("REPLIED", REPLY))
    os.chmod(path, stat.S_IRWXU)
    return path


def served_of(topology=SMALL, text=SMALL_MAP, numbers=(), entry=7, time=1_000_000.0):
    """A map as the mirror publishes it; numbers are (word, name, value)."""
    tables = read_tables(topology.encode())
    capacities, demands = tables.capacities.copy(), tables.demands.copy()
    for word, name, value in numbers:
        if word == "capacity":
            capacities[tables.node_at[name]] = value
        else:
            demands[tables.unit_at[name]] = value
    placed = placed_in(tables, text.encode())
    return Served(
        tables,
        placed,
        refusals_in(tables, text.encode()),
        sums_of(tables, placed, capacities, demands),
        demands,
        capacities,
        text.encode(),
        "c" * 64,
        entry,
        f"mark {entry}",
        3,
        time,
    )
