#!/usr/bin/env python3
"""Lets `glb` read files that are cut at each octet, that differ in one, and that stand at each limit and one past it, and compares what it says with second.py.

    bench/hostile_files.py [PART ..] [--stride N]

    cuts      a small topology, map, changes file and feed, cut before each octet
    octets    the same, with each octet changed to each other one; --stride N does every Nth alone
    words     some words of the topology gone, doubled or replaced: this reaches the faults that one octet does not
    limits    lengths and numbers at each limit and one past it
    large     the same of nodes, groups, prefixes and whole files, up to 256 MiB

GLB names the program, the built one if it is not set. Runs are split over the processors. Of a file that glb takes,
the map that it writes has to be good by the second reading. The last line counts; the status is 0 where nothing differs.
"""

import argparse
import concurrent.futures
import itertools
import os
import re
import subprocess
import tempfile
from pathlib import Path

import second
from second import Map, Refused, Topology

TOP = Path(__file__).resolve().parent.parent
GLB = os.environ.get("GLB", str(TOP / "crates/glb_program/out/glb_program"))

TOPOLOGY = b"""[zone]
apex = "c.ex"
mname = "n.o"
rname = "a.o"
serial = 1
refresh = 3600
retry = 600
expire = 86400
minimum = 60
ttl = 20
ns = ["n.o", "m.o"]
services = ["w", "v"]
[[node]]
name = "R"
capacity = 15
[[node]]
name = "A"
parent = "R"
capacity = 10
pool = true
a = ["192.0.2.1"]
aaaa = ["2001:db8::1"]
[[node]]
name = "B"
parent = "R"
capacity = 10
pool = true
[[group]]
name = "g"
demand = 8
pools = ["A", "B"]
scores = [1, 2]
limits = [5, 10]
prefixes = ["0.0.0.0/0", "::/0"]
[[group]]
name = "h"
demand = 8
pools = ["A", "B"]
scores = [3, 4]
prefixes = ["198.51.100.0/24"]
[[class]]
name = "hw"
group = "h"
service = "w"
demand = 2
pools = ["B"]
scores = [1]
limits = [3]
"""
MAP = b"glb map 2\nplace g A 5\nplace g B 3\nplace h A 5\nplace hw B 2\nlimit g A\nfull h A A\nfull h B R\nend\n"
CHANGES = b"demand g 6\ncapacity A 9\n"
FEED = b"demand h 4\ncommit\nask 198.51.100.7 123401000001000000000000017701630265780000010001\nshow\ncapacity A 3\ncommit\nstop\n"


def run(words, files, feed=b""):
    """Status, standard output and standard error of glb over some files, whose names are words."""
    with tempfile.TemporaryDirectory(dir="/dev/shm") as folder:
        for name, octets in files.items():
            (Path(folder) / name).write_bytes(octets)
        done = subprocess.run([GLB, *words], cwd=folder, input=feed, capture_output=True, timeout=300)
        return done.returncode, done.stdout, done.stderr


def outcome(made):
    """Status and text of what a reading gives, or of why it refuses."""
    try:
        return 0, made()
    except Refused as why:
        return 2, f"refused {why}\n"


def judge_map(octets):
    """`glb map`: refused with the very text, or a map that is good."""
    status, out, _ = run(["map", "t"], {"t": octets})
    wanted, topology = outcome(lambda: Topology(octets))
    if wanted:
        return (status, out) == (wanted, topology.encode()), (status, out, topology)
    got = outcome(lambda: second.verdict(topology, topology.demand, topology.capacity, Map(topology, out)))
    return (status, got) == (0, (0, "good")), (status, out, got)


def judge_check(octets):
    """`glb check`: the very text."""
    status, out, _ = run(["check", "t", "m"], {"t": TOPOLOGY, "m": octets})
    topology = Topology(TOPOLOGY)

    def made():
        return second.verdict(topology, topology.demand, topology.capacity, Map(topology, octets)) + "\n"

    wanted, text = outcome(made)
    if wanted == 0 and text != "good\n":
        wanted = 7
    return (status, out) == (wanted, text.encode()), (status, out, text)


def judge_repair(octets):
    """`glb repair`: the very text, or a map that is good for the changed numbers."""
    status, out, _ = run(["repair", "t", "m", "c"], {"t": TOPOLOGY, "m": MAP, "c": octets})
    topology = Topology(TOPOLOGY)
    wanted, batch = outcome(lambda: second.read_changes(topology, octets))
    if wanted:
        return (status, out) == (wanted, batch.encode()), (status, out, batch)
    demand, capacity = second.apply(topology.demand, topology.capacity, batch)
    got = outcome(lambda: second.verdict(topology, demand, capacity, Map(topology, out)))
    return (status, got) == (0, (0, "good")), (status, out, got)


def maps_of(topology, text):
    return [Map(topology, part + b"end\n") for part in text.split(b"end\n")[:-1]]


def judge_feed(octets):
    """`glb serve`: the very control text, each map good for its numbers."""
    status, out, err = run(["serve", "t", "--listen", "127.0.0.1:0"], {"t": TOPOLOGY}, octets)
    topology = Topology(TOPOLOGY)
    got = outcome(lambda: second.control_text(topology, octets, maps_of(topology, err)))
    return (status, (0, (out.decode(), True))) == (0, got), (status, out, got)


def judge_reply(asked):
    """`glb answer`: the very reply, over the map that `glb map` writes."""
    octets, query = asked
    _, found, _ = run(["map", "t"], {"t": octets})
    status, out, _ = run(["answer", "t", "m", "2001:db8::7", query.hex()], {"t": octets, "m": found})
    topology = Topology(octets)
    got = second.replies(topology, Map(topology, found), second.address_of("2001:db8::7"), query)
    text = f"answer {'-' if got is None else got.at(0).hex()}\n"
    return (status, out) == (0, text.encode()), (status, out, text)


JUDGES = {"topology": (judge_map, TOPOLOGY), "map": (judge_check, MAP), "changes": (judge_repair, CHANGES), "feed": (judge_feed, FEED)}
OTHER_JUDGES = {"reply": judge_reply}


def judge(case):
    kind, what, octets = case
    good, told = (OTHER_JUDGES[kind] if kind in OTHER_JUDGES else JUDGES[kind][0])(octets)
    return None if good else f"{kind}, {what}: {told!r}"[:600]


def cuts(_):
    for kind, (_, whole) in JUDGES.items():
        for at in range(len(whole) + 1):
            yield kind, f"cut at {at}", whole[:at]


def octets(stride):
    cases = ((kind, whole, at, value) for kind, (_, whole) in JUDGES.items() for at in range(len(whole)) for value in range(256) if value != whole[at])
    for kind, whole, at, value in itertools.islice(cases, 0, None, stride):
        yield kind, f"octet {at} is {value}", whole[:at] + bytes([value]) + whole[at + 1 :]


OTHERS = [
    b"", b'""', b"0", b"-1", b"true", b"[]", b"{}", b"1.5", b'"A"', b'"R"', b'"B"', b'"g"', b'"."', b'"c.ex"', b'"W"', b'"w.c.ex."', b'["A"]', b'["A", "A"]', b'["R"]', b'["a.c.ex"]', b'["N.O", "n.o."]',
    b"[1]", b"[1, 2, 3]", b'["::1"]', b'["1.2.3.4"]', b'["01.2.3.4"]', b'["1.2.3.4/31"]', b'["::/0"]', b"4294967295", b"4294967296", b"2147483648", b"281474976710656", b"281474976710657", b"9223372036854775807", b"9223372036854775808", b"1979-05-27",
]


def words(_):
    """Each line of the topology gone, doubled, moved to the end, with its value replaced, or with another key."""
    lines = TOPOLOGY.splitlines(keepends=True)

    def case(what, changed):
        return "topology", what, b"".join(changed)

    for i, line in enumerate(lines):
        yield case(f"line {i} gone", lines[:i] + lines[i + 1 :])
        yield case(f"line {i} doubled", lines[: i + 1] + lines[i:])
        yield case(f"line {i} last", lines[:i] + lines[i + 1 :] + [line])
        if b" = " in line:
            key, value = line.rstrip().split(b" = ")
            for other in OTHERS:
                yield case(f"line {i} is {other}", lines[:i] + [key + b" = " + other + b"\n"] + lines[i + 1 :])
            yield case(f"line {i} has another key", lines[:i] + [b"other = " + value + b"\n"] + lines[i + 1 :])
            yield case(f"line {i} has another key beside it", lines[: i + 1] + [b"other = " + value + b"\n"] + lines[i + 1 :])
    for number in range(len(lines)):
        for j in range(number):
            yield case(f"lines {j} and {number} gone", lines[:j] + lines[j + 1 : number] + lines[number + 1 :])
    for more in [b"nodes = 1\n", b"[other]\n", b"[zone.more]\n", b"node = 1\n", b"[[zone]]\n", b"[[group]]\n", b"[[node]]\n", b"[node]\n", b"[[class]]\n", b"[class]\n"]:
        yield case(f"{more} in front", [more] + lines)
        yield case(f"{more} behind", lines + [more])


def world(zone=(), nodes=(), groups=()):
    """The topology with these lines in place of the zone's, the nodes, and the groups and classes where there are any."""
    parts = re.split(rb"(?=\[\[node\]\]|\[\[group\]\]|\[\[class\]\])", TOPOLOGY)
    head = parts[0]
    for key, value in dict(zone).items():
        head = re.sub(rb"(?m)^" + key.encode() + rb" = .*$", f"{key} = {value}".encode(), head)
    old_nodes = b"".join(p for p in parts if p.startswith(b"[[node]]"))
    old_groups = b"".join(p for p in parts if p.startswith((b"[[group]]", b"[[class]]")))
    return head + (b"".join(nodes) or old_nodes) + (b"".join(groups) or old_groups)


def node(name, capacity=1, parent=None, pool=False, more=""):
    return f'[[node]]\nname = "{name}"\ncapacity = {capacity}\n{f"parent = {chr(34)}{parent}{chr(34)}{chr(10)}" if parent else ""}{"pool = true" if pool else ""}\n{more}\n'.encode()


def quoted(items):
    return "[" + ", ".join(f'"{item}"' for item in items) + "]"


def asking(demand, pools, scores, limits):
    scores = [1] * len(pools) if scores is None else scores
    return f"demand = {demand}\npools = {quoted(pools)}\nscores = {scores}\n" + (f"limits = {limits}\n" if limits is not None else "")


def group(name, demand=1, pools=("A",), scores=None, prefixes=(), limits=None):
    return f'[[group]]\nname = "{name}"\n{asking(demand, pools, scores, limits)}prefixes = {quoted(prefixes)}\n'.encode()


def traffic_class(name, owner, service, demand=1, pools=("A",), scores=None, limits=None):
    return f'[[class]]\nname = "{name}"\ngroup = "{owner}"\nservice = "{service}"\n{asking(demand, pools, scores, limits)}'.encode()


DEFAULTS = ["0.0.0.0/0", "::/0"]
A = node("A", 5, pool=True)
FIRST = group("g", prefixes=DEFAULTS)


def long_name(octets):
    """A DNS name of so many octets on the wire."""
    labels, left = [], octets - 1
    while left > 32:
        labels.append("a" * 30)
        left -= 31
    return ".".join(labels + ["b" * (left - 1)])


def small_limits():
    for count in [63, 64, 65]:
        yield "topology", f"{count} services", world(zone={"services": quoted(f"s{i}" for i in range(count))})
        for key in ["apex", "mname", "rname"]:
            yield "topology", f"{key} of {count} octets", world(zone={key: f'"{long_name(count)}"'})
        yield "topology", f"a name server of {count} octets", world(zone={"ns": quoted([long_name(count)])})
        yield "topology", f"a service of {count} octets", world(zone={"services": quoted(["s" * count])})
        yield "topology", f"a label of {count} octets", world(zone={"mname": f'"{"m" * count}"'})
    for count in [0, 1, 4, 5]:
        yield "topology", f"{count} name servers", world(zone={"ns": quoted(f"n{i}.o" for i in range(count))})
    for length in [0, 1, 31, 32, 33]:
        name = "n" * length
        yield "topology", f"names of {length} octets", world(nodes=[node(name, 5, pool=True)], groups=[group(name, pools=[name], prefixes=DEFAULTS)])
    for depth in [7, 8, 9]:
        nodes = [node(f"n{i}", 9, f"n{i - 1}" if i else None, i == depth - 1) for i in range(depth)]
        yield "topology", f"{depth} levels", world(nodes=nodes, groups=[group("g", 4, [f"n{depth - 1}"], prefixes=DEFAULTS)])
    for count in [0, 1, 16, 17]:
        names = [f"p{i}" for i in range(count)]
        yield "topology", f"{count} pools", world(nodes=[node(f"p{i}", 1, pool=True) for i in range(max(count, 1))], groups=[group("g", 20, names, prefixes=DEFAULTS)])
    for count in [0, 40, 41]:
        a, aaaa = quoted(f"192.0.2.{i}" for i in range(count)), quoted(f"2001:db8::{i}" for i in range(count))
        yield "topology", f"{count} addresses", world(nodes=[node("A", 5, pool=True, more=f"a = {a}\naaaa = {aaaa}")], groups=[FIRST])
    for demand in [0, 1, 2**32 - 1, 2**32, 2**48]:
        yield "topology", f"demand {demand}", world(nodes=[node("A", 2**48, pool=True)], groups=[group("g", demand, prefixes=DEFAULTS)])
    for capacity in [-1, 0, 2**48, 2**48 + 1, 2**63 - 1, 2**63]:
        yield "topology", f"capacity {capacity}", world(nodes=[node("A", capacity, pool=True)], groups=[FIRST])
    for score in [-1, 0, 2**32 - 1, 2**32]:
        yield "topology", f"score {score}", world(nodes=[A], groups=[group("g", scores=[score], prefixes=DEFAULTS)])
    for limit in [-1, 0, 1, 2**32 - 1, 2**32]:
        yield "topology", f"limit {limit}", world(nodes=[A], groups=[group("g", 9, limits=[limit], prefixes=DEFAULTS)])
        yield "topology", f"limit {limit} of a class", world(nodes=[A], groups=[FIRST, traffic_class("c", "g", "w", 9, limits=[limit])])
    for count in [0, 1, 2, 3]:
        yield "topology", f"{count} limits", world(nodes=[A, node("B", pool=True)], groups=[group("g", 9, ["A", "B"], limits=[1] * count, prefixes=DEFAULTS)])
    for length in [0, 1, 32, 33]:
        yield "topology", f"a class's name of {length} octets", world(nodes=[A], groups=[FIRST, traffic_class("n" * length, "g", "v")])
    for name, owner, service in itertools.product(["c", "d", "g", "h"], ["g", "h", "c", "G"], ["w", "W", "v", "x", ""]):
        classes = [traffic_class("c", "g", "w"), traffic_class(name, owner, service)]
        yield "topology", f"a class {name} of {owner} and {service}", world(nodes=[A], groups=[FIRST, group("h"), *classes])
    for key, end in second.ZONE_RANGES.items():
        for value in [-1, 0, end - 1, end]:
            yield "topology", f"{key} {value}", world(zone={key: value})
    for amount in ["0", "1", "08", str(2**32 - 1), str(2**32), "1" * 20]:
        yield "map", f"amount {amount}", MAP.replace(b"A 5", b"A " + amount.encode(), 1)
    # in the first version limits have no line
    older = MAP.replace(b"map 2", b"map 1")
    yield from (("map", "the first version", text) for text in [older, older.replace(b"limit g A\n", b""), older.replace(b"limit g A\n", b"limit i A\n")])


def feed_limits():
    for count in [4095, 4096, 4097]:
        yield "changes", f"{count} changes", b"".join(b"demand g %d\n" % (1 + i % 9) for i in range(count))
        yield "feed", f"{count} changes", b"".join(b"demand g %d\n" % (1 + i % 9) for i in range(count)) + b"commit\nstop\n"
    for number in ["0", "1", str(2**32 - 1), str(2**32), "9" * 19, "9" * 20, "0" * 18 + "7", "0" * 19 + "7"]:
        for kind in ["changes", "feed"]:
            yield kind, f"demand {number}", f"demand g {number}\n".encode()
            yield kind, f"capacity {number}", f"capacity R {number}\n".encode()
    for number in [2**48, 2**48 + 1]:
        yield "changes", f"capacity {number}", f"capacity R {number}\n".encode()
    for length in [8299, 8300, 8301, 32768, 70000]:
        for kind in ["changes", "feed"]:
            yield kind, f"a line of {length} octets", b"demand g 6".ljust(length) + b"\ndemand h 3\n"
            yield kind, f"a last line of {length} octets", b"demand h 3\n" + b"demand g 6".rjust(length)
    for length in [0, 12, 4095, 4096, 4097]:
        yield "feed", f"a datagram of {length} octets", b"ask 198.51.100.7 " + b"00" * length + b"\n"
    line = b"demand g 6" + b" " * 1000 + b"\n"
    for length in [(1 << 20) - 1, 1 << 20, (1 << 20) + 1]:
        yield "changes", f"{length} octets", (line * 1200)[: length - 12] + b"\ndemand h 3\n"


def large(_):
    # more maps than there are cells in which lanes are told of them
    yield "feed", "65,540 maps", b"".join(b"demand h %d\ncommit\n" % (1 + i % 9) for i in range(65540)) + FEED
    for count in [8191, 8192, 8193]:
        yield "topology", f"{count} nodes", world(nodes=[A] + [node(f"n{i}") for i in range(count - 1)], groups=[FIRST])
    for count in [65535, 65536, 65537]:
        yield "topology", f"{count} groups", world(nodes=[A], groups=[FIRST] + [group(f"g{i}") for i in range(count - 1)])
        units = [group(f"g{i}") for i in range(count - 3)] + [traffic_class(f"c{i}", "g", s) for i, s in enumerate("wv")]
        yield "topology", f"{count} groups and classes", world(nodes=[A], groups=[FIRST] + units)
    for count in [262143, 262144, 262145]:
        rest = [f"{10 + i // 65536}.{i // 256 % 256}.{i % 256}.0/24" for i in range(count - 2)]
        yield "topology", f"{count} prefixes", world(nodes=[A], groups=[group("g", prefixes=DEFAULTS + rest[:1000]), group("h", prefixes=rest[1000:])])
    for length in [(64 << 20) - 1, 64 << 20, (64 << 20) + 1]:
        yield "topology", f"{length} octets", TOPOLOGY + (b"#" + b"x" * 99 + b"\n") * ((length - len(TOPOLOGY)) // 101) + b"#" * ((length - len(TOPOLOGY)) % 101)
    for length in [(256 << 20) - 1, 256 << 20, (256 << 20) + 1]:
        yield "map", f"{length} octets", MAP.ljust(length, b"x")


def wire(labels):
    return b"".join(bytes([len(label)]) + label for label in labels) + b"\0"


def reply_limits():
    """The longest replies: 466 octets without an answer, 347 of a service's addresses, and all name servers."""
    apex = long_name(64)
    labels = apex.encode().split(b".")
    zone = {key: f'"{apex}"' for key in ["apex", "mname", "rname"]} | {"ns": quoted(long_name(60 + i) + "x" for i in range(4)), "services": quoted(["s" * 63])}
    addresses = quoted(f"2001:db8::{i}" for i in range(1, 7))
    octets = world(zone=zone, nodes=[node("A", 5, pool=True, more=f"aaaa = {addresses}")], groups=[FIRST])
    subnet = bytes.fromhex("0008001400028000") + second.read_v6("2001:db8::7")[1].to_bytes(16)
    opt = bytes.fromhex("00002904d000000000") + len(subnet).to_bytes(2) + subnet
    for name, kind in [([b"x" * 62, b"y" * 63, b"z" * 63] + labels, 1), ([b"S" * 63] + labels, 28), ([b"S" * 63] + labels, 1), (labels, 2), (labels, 6)]:
        for size in range(-1, 2):
            changed = [name[0] + b"x" * size if size >= 0 else name[0][:-1]] + name[1:]
            for more in [b"", opt]:
                head = bytes.fromhex("123401000001") + bytes(4) + (1 if more else 0).to_bytes(2)
                yield "reply", f"type {kind}, {len(wire(changed))} octets", (octets, head + wire(changed) + kind.to_bytes(2) + b"\0\1" + more)


def limits(_):
    return itertools.chain(small_limits(), feed_limits(), reply_limits())


PARTS = {"cuts": cuts, "words": words, "limits": limits, "large": large, "octets": octets}


def main():
    parser = argparse.ArgumentParser(description=__doc__, formatter_class=argparse.RawDescriptionHelpFormatter)
    parser.add_argument("parts", nargs="*", choices=[*PARTS, []])
    parser.add_argument("--stride", type=int, default=1)
    parser.add_argument("--processes", type=int, default=os.cpu_count())
    options = parser.parse_args()
    failures = 0
    with concurrent.futures.ProcessPoolExecutor(options.processes) as pool:
        for part in options.parts or PARTS:
            count = differ = 0
            cases = PARTS[part](options.stride)
            while batch := list(itertools.islice(cases, 8 if part == "large" else 4096)):
                for told in pool.map(judge, batch, chunksize=1 if part in ("limits", "large") else 16):
                    count += 1
                    if told is not None:
                        differ += 1
                        print(f"  {told}" if differ <= 30 else "", end="\n" if differ <= 30 else "", flush=True)
            print(f"{part}: {count} compared, {differ} differ", flush=True)
            failures += differ
    raise SystemExit(1 if failures else 0)


main()
