#!/usr/bin/env python3
"""A second generator of the worlds of crates/big_world, written apart from it.

    large_world.py N            the topology on standard output
    large_world.py N --feed     the feed
    large_world.py N --sums     length and FNV-1a checksum of both, as the table of big_world's test has them
    large_world.py N --compare  runs `glb large N`, and compares its lines with what a server makes of both texts

Of the server every map is judged and each reply is made by second.py; only the number of proposals is not compared. GLB
names the program, the built one if it is not set.

Numbers follow on N by x -> 6364136223846793005 x + 1442695040888963407 modulo 2^64; a draw below m is the next
number, its upper 31 bits modulo m.
"""
import os
import subprocess
import sys
import tempfile
from pathlib import Path

import second

TOP = Path(__file__).resolve().parent.parent
GLB = os.environ.get("GLB", str(TOP / "crates/glb_program/out/glb_program"))
QUERY = bytes.fromhex("000000000001000000000000037777770363646e076578616d706c650000010001")
ZONE = """[zone]
apex = "cdn.example"
expire = 86400
minimum = 60
mname = "ns1.ops.example"
ns = ["ns1.ops.example", "ns2.ops.example"]
refresh = 3600
retry = 600
rname = "admin.ops.example"
serial = 1
services = ["www"]
ttl = 20
"""


def world(n):
    x = n

    def draw(m):
        nonlocal x
        x = (x * 6364136223846793005 + 1442695040888963407) % 2**64
        return x // 2**33 % m

    regions = 1 + n // 64
    nodes = []
    for i in range(regions):
        nodes.append(f'[[node]]\ncapacity = {40 + draw(40)}\nname = "r{i}"\n\n')
        for j in range(4):
            nodes.append(
                f'[[node]]\na = ["10.{i // 256}.{i % 256}.{j + 1}"]\ncapacity = {10 + draw(20)}\n'
                f'name = "r{i}-{j}"\nparent = "r{i}"\npool = true\n\n'
            )
    pools = 4 * regions
    entries = []
    for i in range(n):
        demand = 1 + draw(15)
        length = 1 + draw(min(8, pools))
        start = draw(pools)
        numbers = [(start + t) % pools for t in range(length)]
        names = ", ".join(f'"r{p // 4}-{p % 4}"' for p in numbers)
        scores = ", ".join(str(draw(1000)) for _ in numbers)
        prefixes = '"0.0.0.0/0", "::/0"' if i == 0 else f'"100.{64 + i // 256}.{i % 256}.0/24"'
        entries.append(
            f'[[group]]\ndemand = {demand}\nname = "g{i}"\npools = [{names}]\nprefixes = [{prefixes}]\nscores = [{scores}]\n\n'
        )
    feed = []
    for _ in range(16):
        for _ in range(4):
            if draw(2) == 0:
                group = draw(n)
                feed.append(f"demand g{group} {1 + draw(15)}\n")
            else:
                region = draw(regions)
                pool = draw(4)
                feed.append(f"capacity r{region}-{pool} {draw(30)}\n")
        feed.append("commit\n")
    feed.append("stop\n")
    return "".join(entries + nodes) + ZONE, "".join(feed)


def fnv(text):
    h = 0xCBF29CE484222325
    for byte in text.encode():
        h = (h ^ byte) * 0x100000001B3 % 2**64
    return h


def summary(n):
    """The lines that `large` is to write, without the proposals', or what is wrong."""
    topology, feed = world(n)
    feed = feed.replace("stop\n", "show\nstop\n").encode()
    with tempfile.TemporaryDirectory() as work:
        Path(work, "t").write_text(topology)
        done = subprocess.run([GLB, "serve", f"{work}/t", "--listen", "127.0.0.1:0"], input=feed, capture_output=True)
    read = second.Topology(topology.encode())
    maps = [second.Map(read, text + b"end\n") for text in done.stderr.split(b"end\n")[:-1]]
    said, are_good = second.control_text(read, feed, maps)
    if (done.returncode, done.stdout.decode(), are_good) != (0, said, True):
        return [f"the server: status {done.returncode}, {done.stdout.decode()[-200:]}, maps good: {are_good}"]
    _, _, _, placed, _, unplaced, _, full = said.splitlines()[-1].split()
    clients = ["192.0.2.9", *(f"100.{64 + i // 256}.{i % 256}.9" for i in range(1, n))]
    codes = [second.replies(read, maps[-1], second.read_address(client), QUERY).at(0)[3] & 15 for client in clients]
    counts = [("large", n), ("nodes", topology.count("[[node]]")), ("maps", len(maps)), ("good", len(maps)), ("placed", placed), ("unplaced", unplaced), ("full", full)]
    return [f"{word} {number}" for word, number in [*counts, ("answered", codes.count(0)), ("servfail", codes.count(2))]]


def compare(n):
    wanted = summary(n)
    done = subprocess.run([GLB, "large", str(n)], capture_output=True, text=True)
    got = [line for line in done.stdout.splitlines() if not line.startswith("proposals ")]
    print(f"large {n}: {'the same' if got == wanted else f'{got} in place of {wanted}'}")
    return got != wanted or done.returncode != 0


def main():
    if "--compare" in sys.argv:
        sys.exit(compare(int(sys.argv[1])))
    topology, feed = world(int(sys.argv[1]))
    if "--sums" in sys.argv:
        print(f"({sys.argv[1]}, {len(topology)}, {fnv(topology):#018x}, {len(feed)}, {fnv(feed):#018x}),")
    else:
        sys.stdout.write(feed if "--feed" in sys.argv else topology)


main()
