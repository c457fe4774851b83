#!/usr/bin/env python3
"""Sends datagrams at full rate to a running `glb serve` on loopback while its feed changes the map, and then compares each reply with those of the maps that could have answered, by second.py.

    bench/fuzz_serve.py [--seconds N] [--clients N] [--workers N] [--pause SECONDS] [--plain] [--tcp] [--seed N]

    --plain   well-formed queries alone: a soak. Else most datagrams are mutated, random, too short or too long, and
              among them are a query with a client subnet that is cut at each octet and that has each other octet at each
    --tcp     the same as messages of conversations, one for each client, but for those past 4,096 octets
    --pause   the seconds from one commit to the next, 0.02 if it is not given

A reply may be of map S where the commit that led to S was written before the reply came, and neither a later map was
said to be published, nor a later one shown by a reply, before the query was sent. It has to be octet for octet what
the second reading makes of such a map and the datagram, for one of the pools that hold units of the client's group or
of its class for the service.
A datagram that is due no reply must get none, and each other one must get one. The control text of the whole feed is
compared too, and each map has to be good.

GLB names the program, the built one if it is not set. Status 0 where all is as it is due.
"""

import argparse
import bisect
import multiprocessing
import os
import random
import socket
import subprocess
import sys
import tempfile
import threading
import time
from array import array
from pathlib import Path

import second

TOP = Path(__file__).resolve().parent.parent
GLB = os.environ.get("GLB", str(TOP / "crates/glb_program/out/glb_program"))
WINDOW = 48
LONGEST_START = 180

TOPOLOGY = b"""[zone]
apex = "cdn.example"
mname = "ns1.ops.example"
rname = "admin.ops.example"
serial = 7
refresh = 3600
retry = 600
expire = 86400
minimum = 60
ttl = 20
ns = ["ns1.ops.example", "ns2.ops.example"]
services = ["www", "img", "v-1_x"]
[[node]]
name = "R"
capacity = 15
[[node]]
name = "A"
parent = "R"
capacity = 10
pool = true
a = ["192.0.2.1"]
aaaa = ["2001:db8::1"]
[[node]]
name = "B"
parent = "R"
capacity = 10
pool = true
a = ["192.0.2.2", "192.0.2.22"]
[[node]]
name = "C"
capacity = 6
pool = true
aaaa = ["2001:db8::c", "2001:db8::d"]
[[group]]
name = "g1"
demand = 8
pools = ["A", "B"]
scores = [1, 2]
limits = [6, 10]
prefixes = ["0.0.0.0/0", "::/0"]
[[group]]
name = "g2"
demand = 8
pools = ["A", "B", "C"]
scores = [3, 4, 5]
prefixes = ["127.0.0.0/8", "::1/128", "198.51.100.0/24", "2001:db8:1::/48"]
[[group]]
name = "g3"
demand = 4
pools = ["C"]
scores = [6]
prefixes = ["198.51.100.128/25", "203.0.113.0/24", "2001:db8:1:8000::/49"]
[[class]]
name = "g2img"
group = "g2"
service = "IMG"
demand = 3
pools = ["B", "C"]
scores = [1, 2]
limits = [2, 3]
"""
STATES = [("capacity", "A", [0, 10]), ("capacity", "R", [4, 15]), ("capacity", "C", [0, 6]), ("demand", "g2", [4, 8]), ("demand", "g3", [1, 4]), ("demand", "g2img", [1, 3])]


# Datagrams.


def name_of(text):
    return b"".join(bytes([len(label)]) + label for label in text.encode().split(b".") if label) + b"\0"


def query(name=b"", kind=1, klass=1, flags=0x0100, counts=(1, 0, 0), more=()):
    head = b"\0\0" + flags.to_bytes(2) + b"".join(count.to_bytes(2) for count in (*counts, len(more)))
    return head + name + kind.to_bytes(2) + klass.to_bytes(2) + b"".join(more)


def opt(options=b"", version=0, do=0):
    return b"\0\0\x29\x10\0\0" + bytes([version, do, 0]) + len(options).to_bytes(2) + options


def subnet(family, source, address, scope=0):
    return b"\0\x08" + (4 + len(address)).to_bytes(2) + family.to_bytes(2) + bytes([source, scope]) + address


SUBNETS = [
    subnet(1, 24, bytes([198, 51, 100])), subnet(1, 25, bytes([198, 51, 100, 128])), subnet(1, 32, bytes([203, 0, 113, 9])), subnet(1, 0, b""), subnet(2, 0, b""), subnet(1, 8, b"\x0a"),
    subnet(2, 48, bytes.fromhex("20010db80001")), subnet(2, 49, bytes.fromhex("20010db800018000")), subnet(2, 128, bytes(15) + b"\1"), subnet(0, 0, b""), subnet(3, 24, b"abc"),
    subnet(1, 24, bytes([198, 51, 100]), 24), subnet(1, 20, bytes([198, 51, 100])), subnet(1, 33, bytes(5)), subnet(2, 129, bytes(17)),
]
NAMES = ["www.cdn.example", "WwW.CdN.eXaMpLe", "img.cdn.example", "v-1_x.cdn.example", "x.cdn.example", "a.www.cdn.example", "cdn.example", "example", "www.cdn.example.org", "", "acdn.example"]
COOKIE = b"\0\x0a\0\x08abcdefgh"


def plain_queries():
    found = [query(name_of(name), kind) for name in NAMES[:4] for kind in [1, 28, 255]]
    found += [query(name_of(name), kind, more=[opt(option)]) for name in NAMES[:3] for kind in [1, 28] for option in [b"", *SUBNETS[:9]]]
    return found


def base_queries():
    found = [query(name_of(name), kind, klass) for name in NAMES for kind in [0, 1, 2, 6, 16, 28, 41, 255, 65535] for klass in [1, 3, 255]]
    for name in NAMES[:8]:
        for option in [b"", COOKIE, *SUBNETS, COOKIE + SUBNETS[0], SUBNETS[1] + SUBNETS[0], SUBNETS[0] + b"\0\x0a\0\x09abc", b"\0"]:
            found += [query(name_of(name), kind, more=[opt(option, do=do)]) for kind in [1, 28] for do in [0, 0x80, 0xFF]]
        found.append(query(name_of(name), more=[opt(version=1)]))
        found.append(query(name_of(name), more=[opt(), opt()]))
        found.append(query(name_of(name), more=[b"\xc0\x0c" + opt()[1:]]))
        found.append(query(name_of(name), more=[b"\xc0\x0c" + query(b"", 1)[12:] + bytes(6), opt(SUBNETS[0])]))
    for first, second_ in [(63, 62), (63, 61), (63, 60), (62, 62)]:
        labels = b"".join(bytes([size]) + b"a" * size for size in [63, 63, first, second_ - 13])
        found += [query(labels + name_of("cdn.example"), 1), query(name_of("www.cdn.example"), more=[labels + b"\0" * 11])]
    found += [query(name_of(NAMES[0]), flags=flags) for flags in range(0, 65536, 257)]
    found += [query(name_of(NAMES[0]), counts=counts) for counts in [(0, 0, 0), (2, 0, 0), (1, 1, 0), (1, 0, 1)]]
    found += [query(name_of(NAMES[0])).ljust(size, b"\0") for size in [512, 1232, 4095, 4096, 4097, 8000]]
    return found


def each_change(whole):
    for at in range(len(whole)):
        yield whole[:at]
        yield from (whole[:at] + bytes([value]) + whole[at + 1 :] for value in range(256))


def mutate(rng, octets, others):
    octets = bytearray(octets)
    for _ in range(rng.choice([1, 1, 2, 4])):
        at = rng.randrange(len(octets) + 1)
        move = rng.randrange(6)
        if move == 0:
            octets[at : at + 1] = bytes([rng.randrange(256)])
        elif move == 1:
            octets[at : at + rng.randrange(8)] = b""
        elif move == 2:
            octets[at:at] = rng.randbytes(rng.randrange(8))
        elif move == 3:
            octets = octets[:at]
        elif move == 4:
            octets[at:] = rng.choice(others)[at:]
        else:
            octets[at : at + 2] = rng.choice([0, 1, 0xC00C, 0xFFFF, 8, 41, 255, 0x3F40]).to_bytes(2)
    return bytes(octets)


def make_datagrams(rng, is_plain, mutated):
    if is_plain:
        return plain_queries()
    bases = base_queries()
    found = bases + list(each_change(query(name_of(NAMES[0]), more=[opt(SUBNETS[0])])))
    found += [mutate(rng, rng.choice(bases), bases) for _ in range(mutated)]
    found += [rng.randbytes(rng.choice([rng.randrange(40), rng.randrange(600)])) for _ in range(mutated // 10)]
    # the number is the client's own
    return sorted({octets[:0] + bytes(min(2, len(octets))) + octets[2:] for octets in found})


def is_silent(octets):
    return not 12 <= len(octets) <= 4096 or octets[2] >= 0x80


# A client.


class Sent:
    """Datagrams by their numbers, until each was answered or its number is used again."""

    def __init__(self):
        self.what, self.at, self.next = array("i", [-1]) * 65536, array("Q", [0]) * 65536, 0


class Conversation:
    """A connection that sends and takes messages behind their lengths (RFC 1035 section 4.2.2), as a socket does datagrams."""

    def __init__(self, port):
        self.socket, self.held, self.at = socket.create_connection(("127.0.0.1", port)), bytearray(), 0
        self.socket.setsockopt(socket.IPPROTO_TCP, socket.TCP_NODELAY, 1)
        self.settimeout, self.setblocking = self.socket.settimeout, self.socket.setblocking

    def send(self, octets):
        self.socket.sendall(len(octets).to_bytes(2) + octets)

    def recv(self, _):
        while True:
            behind = self.at + 2 + int.from_bytes(self.held[self.at : self.at + 2])
            if self.at + 2 <= len(self.held) and behind <= len(self.held):
                message, self.at = bytes(self.held[self.at + 2 : behind]), behind
                return message
            more = self.socket.recv(65536)
            if not more:
                raise ConnectionError("the conversation was closed")
            self.held, self.at = self.held[self.at :] + more, 0


def run_client(number, port, datagrams, options, channel):
    rng = random.Random(options.seed * 1000 + number)
    end = time.monotonic() + options.seconds
    if options.tcp:
        client = Conversation(port)
    else:
        client = socket.socket(socket.AF_INET, socket.SOCK_DGRAM)
        client.connect(("127.0.0.1", port))
    client.settimeout(2.0)
    silent = [is_silent(octets) for octets in datagrams]
    sent, kinds, wrong = Sent(), {}, []
    records = [array("I"), array("Q"), array("Q"), array("I")]
    counts = {"sent": 0, "replies": 0, "due no reply": 0, "lost": 0}
    flying = 0
    order = list(range(len(datagrams)))
    while time.monotonic() < end:
        rng.shuffle(order)
        for index in order:
            if flying >= WINDOW:
                flying -= receive(client, sent, records, kinds, counts, silent, wrong, flying)
            send(client, sent, datagrams[index], index, counts)
            flying += not silent[index]
            if counts["sent"] % 4096 == 0 and time.monotonic() >= end:
                break
    while flying > 0:
        flying -= receive(client, sent, records, kinds, counts, silent, wrong, flying)
    channel.send(("sent", counts))
    maps, commits, published = channel.recv()
    judged = judge(datagrams, records, list(kinds), maps, commits, published, wrong)
    channel.send((counts, judged, wrong[:20], len(wrong)))


def send(client, sent, octets, index, counts):
    number = sent.next = (sent.next + 1) & 0xFFFF
    sent.what[number], sent.at[number] = index, time.monotonic_ns()
    client.send(number.to_bytes(2)[: len(octets)] + octets[2:])
    counts["sent"] += 1


def receive(client, sent, records, kinds, counts, silent, wrong, flying):
    """Takes one reply at least, and those that wait. How many fewer are due."""
    try:
        reply = client.recv(8192)
    except TimeoutError:
        counts["lost"] += flying
        return flying
    got = 0
    client.setblocking(False)
    while True:
        now = time.monotonic_ns()
        number = int.from_bytes(reply[:2])
        index = sent.what[number]
        sent.what[number] = -1
        if index < 0 or silent[index] or len(reply) > 1232:
            wrong.append(("a reply that is not due", index, reply.hex()))
        else:
            for column, value in zip(records, (index, sent.at[number], now, kinds.setdefault(reply[2:], len(kinds)))):
                column.append(value)
        counts["replies"] += 1
        got += 1
        try:
            reply = client.recv(8192)
        except BlockingIOError:
            break
    client.settimeout(2.0)
    return got


def judge(datagrams, records, kinds, maps, commits, published, wrong):
    """Compares each reply with those of the maps that could have answered. `maps` are those of each serial, alike ones the same object."""
    topology = second.Topology(TOPOLOGY)
    client = second.address_of("127.0.0.1")
    due, seen_at, seen = {}, array("Q"), array("I")
    numbers = {id(found): found for found in maps}
    keys = [id(found) for found in maps]
    fresh = 0
    for index, begin, end, kind in zip(*records):
        low = bisect.bisect_left(published, begin) - 1
        place = bisect.bisect_left(seen_at, begin) - 1
        low = max(low, seen[place] if place >= 0 else 0, 0)
        high = bisect.bisect_right(commits, end) - 1
        for serial in range(low, high + 1):
            key = (index, keys[serial])
            if key not in due:
                got = second.replies(topology, numbers[keys[serial]], client, datagrams[index])
                due[key] = frozenset(reply[2:] for reply in got.all())
            if kinds[kind] in due[key]:
                break
        else:
            wrong.append(("no map has this reply", datagrams[index].hex(), kinds[kind].hex(), low, high))
            continue
        fresh += low == high
        if not seen or serial > seen[-1]:
            seen_at.append(end)
            seen.append(serial)
    return {"compared": len(records[0]), "with one map alone": fresh, "kinds of replies": len(kinds), "replies made": len(due)}


# The server and its feed.


class Server:
    def __init__(self, options):
        with socket.socket(socket.AF_INET, socket.SOCK_DGRAM) as probe:
            probe.bind(("127.0.0.1", 0))
            self.port = probe.getsockname()[1]
        self.folder = tempfile.TemporaryDirectory()
        topology = Path(self.folder.name) / "topology.toml"
        topology.write_bytes(TOPOLOGY)
        listen = f"127.0.0.1:{self.port}"
        words = [GLB, "serve", str(topology), "--listen", listen, "--workers", str(options.workers)] + (["--tcp", listen] if options.tcp else [])
        self.process = subprocess.Popen(words, stdin=subprocess.PIPE, stdout=subprocess.PIPE, stderr=subprocess.PIPE)
        self.lines, self.times, self.maps, self.fed = [], [], [], []
        self.readers = [threading.Thread(target=self.read_lines), threading.Thread(target=self.read_maps)]
        for reader in self.readers:
            reader.start()

    def read_lines(self):
        for line in self.process.stdout:
            self.times.append(time.monotonic_ns())
            self.lines.append(line)

    def read_maps(self):
        for line in self.process.stderr:
            self.maps.append(line)

    def say(self, text):
        self.fed.append(text)
        self.process.stdin.write(text)
        self.process.stdin.flush()

    def wait(self):
        """Until it answers."""
        start = time.monotonic()
        while True:
            with socket.socket(socket.AF_INET, socket.SOCK_DGRAM) as client:
                client.settimeout(0.2)
                try:
                    client.connect(("127.0.0.1", self.port))
                    client.send(query(name_of("cdn.example"), 6))
                    if client.recv(4096)[2] & 0x80:
                        return
                except OSError:
                    pass
            if self.process.poll() is not None or time.monotonic() - start > LONGEST_START:
                sys.exit(f"no answer from {GLB}: {b''.join(self.maps)!r}")
            time.sleep(0.05)

    def memory(self):
        for line in Path(f"/proc/{self.process.pid}/status").read_text().splitlines():
            if line.startswith("VmRSS"):
                return int(line.split()[1])
        return 0

    def end(self):
        self.say(b"stop\n")
        self.process.stdin.close()
        status = self.process.wait(60)
        for reader in self.readers:
            reader.join()
        return status


def run_feed(server, options, commits):
    """Commits changes until the time is up; notes when each commit that publishes was written."""
    rng = random.Random(options.seed)
    end = time.monotonic() + options.seconds
    asked = query(name_of(NAMES[0])).hex()
    while time.monotonic() < end:
        for word, name, values in rng.sample(STATES, rng.choice([1, 1, 2])):
            server.say(f"{word} {name} {rng.choice(values)}\n".encode())
        fault = rng.randrange(50)
        if fault == 0:
            server.say(b"demand nobody 3\n")
        else:
            commits.append(time.monotonic_ns())
        server.say(b"commit\n")
        if fault == 1:
            server.say(f"show\nask 198.51.100.7 {asked}\ncommit\n".encode())
        time.sleep(options.pause)


def read_history(server):
    """The maps by their serials, alike ones as one object, and when each was said to be published."""
    topology = second.Topology(TOPOLOGY)
    alike, maps = {}, []
    for text in b"".join(server.maps).split(b"end\n")[:-1]:
        if text not in alike:
            alike[text] = second.Map(topology, text + b"end\n")
        maps.append(alike[text])
    published, newest = [0], 0
    for line, at in zip(server.lines, server.times):
        words = line.split()
        if words[0] == b"published" and int(words[1]) > newest:
            newest = int(words[1])
            published.append(at)
    return topology, maps, len(alike), published


def main():
    parser = argparse.ArgumentParser(description=__doc__, formatter_class=argparse.RawDescriptionHelpFormatter)
    parser.add_argument("--seconds", type=float, default=120)
    parser.add_argument("--clients", type=int, default=2)
    parser.add_argument("--workers", type=int, default=2)
    parser.add_argument("--pause", type=float, default=0.02)
    parser.add_argument("--mutated", type=int, default=20000)
    parser.add_argument("--plain", action="store_true")
    parser.add_argument("--tcp", action="store_true")
    parser.add_argument("--seed", type=int, default=1)
    options = parser.parse_args()
    datagrams = make_datagrams(random.Random(options.seed), options.plain, options.mutated)
    if options.tcp:
        datagrams = [octets for octets in datagrams if len(octets) <= 4096]
    server = Server(options)
    server.wait()
    memory = [server.memory()]
    clients = []
    for number in range(options.clients):
        here, there = multiprocessing.Pipe()
        process = multiprocessing.Process(target=run_client, args=(number, server.port, datagrams, options, there))
        process.start()
        clients.append((process, here))
    commits = [0]
    run_feed(server, options, commits)
    for _, channel in clients:
        channel.recv()
    memory.append(server.memory())
    status = server.end()
    tell(server, clients, commits, len(datagrams), memory, status)


def tell(server, clients, commits, distinct, memory, status):
    topology, maps, alike, published = read_history(server)
    text, is_good = second.control_text(topology, b"".join(server.fed), maps)
    faults = []
    if status != 0:
        faults.append(f"status {status}")
    if text.encode() != b"".join(server.lines) or not is_good:
        faults.append(f"control text or maps differ: {is_good}")
    if len(maps) != len(commits) or len(published) != len(maps):
        faults.append(f"{len(maps)} maps, {len(commits)} commits, {len(published)} published")
        commits = commits[: len(maps)]
    for _, channel in clients:
        channel.send((maps, commits, published))
    total = {"datagrams": distinct, "maps": len(maps), "different maps": alike}
    for process, channel in clients:
        counts, judged, wrong, many = channel.recv()
        process.join()
        for name, count in {**counts, **judged}.items():
            total[name] = total.get(name, 0) + count
        if many:
            faults.append(f"{many} replies differ")
            faults += [repr(one)[:900] for one in wrong]
    if total["lost"]:
        faults.append(f"{total['lost']} without a reply")
    print(", ".join(f"{name} {count}" for name, count in total.items() if name != "due no reply"), f"memory {memory[0]} and {memory[1]} KiB, status {status}", sep=", ")
    print(*faults, sep="\n", end="\n" if faults else "")
    print("all as due" if not faults else f"{len(faults)} faults")
    raise SystemExit(1 if faults else 0)


if __name__ == "__main__":
    main()
