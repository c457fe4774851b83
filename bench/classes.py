#!/usr/bin/env python3
"""Worlds with a hundred classes of two services, with limits: the map, the replies and a feed of changes against a second reading.

    classes.py [CLASSES]

Worlds of one, three and five levels, in which the pools hold 60 to 200 % of the groups' demand. The map from scratch has to
be that of generate.py, octet for octet; then a feed changes demands of groups and classes, and capacities, and asks for each
service, in letters of either case, from an address of each group, with and without a client subnet. second.py says what has
to come, and that each map is good. GLB names the program, the built one if it is not set. The status is 0 where all is so.
"""

import os
import random
import re
import struct
import subprocess
import sys
import tempfile
from pathlib import Path

import second

HERE = Path(__file__).resolve().parent
GLB = os.environ.get("GLB", str(HERE.parent / "crates/glb_program/out/glb_program"))
NAMES = ["www", "img", "IMG", "wWw"]


def query(service, address):
    name = b"".join(bytes([len(label)]) + label.encode() for label in (service, "cdn", "example")) + b"\0"
    head = struct.pack(">HHHHHH", 1, 0x0100, 1, 0, 0, 0 if address is None else 1)
    question = name + struct.pack(">HH", 1, 1)
    if address is None:
        return head + question
    option = struct.pack(">HHHBB", 8, 7, 1, 24, 0) + bytes(map(int, address.split(".")[:3]))
    return head + question + b"\0" + struct.pack(">HHIH", 41, 1232, 0, len(option)) + option


def feed_for(text, draw):
    """Questions for every group and service, and six batches of changes with the same questions behind them."""
    addresses = ["192.0.2.9"] + re.findall(r'prefixes = \["([0-9.]+)/32"', text)
    units, nodes = re.findall(r'name = "([gc]\d+)"', text), re.findall(r'name = "(n\d+)"', text)
    lines = []
    for batch in range(7):
        for address in addresses:
            for service in NAMES:
                lines.append(f"ask {address} {query(service, None).hex()}")
                lines.append(f"ask 192.0.2.9 {query(service, address).hex()}")
        lines += [f"demand {draw.choice(units)} {draw.randint(1, 200)}" for _ in range(draw.choice([1, 4, 30]))]
        lines += [f"capacity {draw.choice(nodes)} {draw.randint(0, 900)}" for _ in range(draw.choice([0, 1, 3]))]
        lines += ["commit", "show"]
    return "".join(f"{line}\n" for line in lines).encode()


def differs(levels, percent, classes, work):
    """What is not as it should be in a world."""
    topology, made = f"{work}/topology", f"{work}/map"
    words = ["--limits", "--classes", str(classes), "60", "32", str(levels), str(percent), topology, made]
    subprocess.run([sys.executable, str(HERE / "generate.py"), *words], check=True, capture_output=True)
    octets = Path(topology).read_bytes()
    if subprocess.run([GLB, "map", topology], capture_output=True, check=True).stdout != Path(made).read_bytes():
        return "the map"
    feed = feed_for(octets.decode(), random.Random(levels * 1000 + percent))
    done = subprocess.run([GLB, "serve", topology, "--listen", "127.0.0.1:0"], input=feed, capture_output=True, check=True)
    read = second.Topology(octets)
    maps = [second.Map(read, text + b"end\n") for text in done.stderr.split(b"end\n")[:-1]]
    text, is_good = second.control_text(read, feed, maps)
    if not is_good:
        return "a map that is not good"
    if done.stdout.decode() != text:
        return "the answers"
    asked.append(text.count("answer "))
    return None


asked = []


def main():
    classes = int(sys.argv[1]) if len(sys.argv) > 1 else 100
    failed = 0
    with tempfile.TemporaryDirectory() as work:
        for levels in (1, 3, 5):
            for percent in (60, 120, 200):
                found = differs(levels, percent, classes, work)
                if found:
                    failed += 1
                    print(f"{levels} levels, {percent} %: {found}")
    print(f"{len(asked)} worlds with {classes} classes, {sum(asked)} answers: {failed} differ")
    sys.exit(1 if failed else 0)


main()
