#!/usr/bin/python3
"""Lets independent DNS tools and resolvers ask a running `glb serve`, over IPv4 and IPv6, and changes its map meanwhile.

    apt-get update
    apt-get install bind9-dnsutils knot-dnsutils ldnsutils python3-dnspython unbound pdns-recursor
    bench/interop_serve.py                 all below
    bench/interop_serve.py tools feed      some of: tools, raw, feed, long, tcp, resolvers

    tools      dig, kdig, drill, delv and dnspython ask each row of interop.py, and a server where nothing is placed
    raw        datagrams that no tool sends, one for each case of the answer table, and forged ones from port 0
               (these need root)
    feed       the feed changes demands and capacities while queries are asked, and the replies follow
    long       answers of forty addresses at each size that a query may name, by dig, kdig, drill, delv and dnspython, and
               what dig, unbound and pdns-recursor make of one that is left out
    tcp        the same rows over TCP, messages behind their lengths, and who asks again there: dig, kdig, drill, delv,
               dnspython, unbound (also with TCP alone) and pdns-recursor
    resolvers  unbound and pdns-recursor in front, with client subnets: answers by group, and caching by scope

GLB names the program, the built one if it is not set. Every wanted value comes from the example topology and the
RFCs. The last line counts, and the status is 0 where nothing failed.
"""

import os
import re
import shutil
import socket
import struct
import subprocess
import sys
import tempfile
import threading
import time
from pathlib import Path

import interop
from interop import A, AAAA, EMPTY, FILES, TOP, expect

GLB = os.environ.get("GLB", str(TOP / "crates/glb_program/out/glb_program"))
B = "192.0.2.2"
HOSTS = ["127.0.0.1", "::1"]
LONGEST_START = 180

QUESTION = bytes.fromhex("037777770363646e076578616d706c650000010001")
OPT = bytes.fromhex("00002904d0000000000000")


def head(flags="0100", counts=(1, 0, 0, 0)):
    return bytes.fromhex("1234" + flags) + struct.pack(">HHHH", *counts)


def opt(options=b"", version=0):
    return bytes.fromhex("00002904d000") + bytes([version]) + bytes.fromhex("0000") + struct.pack(">H", len(options)) + options


def subnet(octets):
    return bytes.fromhex("0008") + struct.pack(">H", len(octets)) + octets


def question(name, kind=1, klass=1):
    labels = b"".join(bytes([len(l)]) + l.encode() for l in name.split("."))
    return labels + b"\0" + struct.pack(">HH", kind, klass)


NAMELESS = head(counts=(1, 0, 0, 1)) + QUESTION
# what is sent, and what comes back: nothing, or RCODE, whether it is authoritative, and how many octets
RAW = [
    ("eleven octets", (head() + QUESTION)[:11], None),
    ("a response", head("8100") + QUESTION, None),
    ("4,097 octets", (head() + QUESTION).ljust(4097, b"\0"), None),
    ("4,096 octets", (head() + QUESTION).ljust(4096, b"\0"), (0, True, 49)),
    ("opcode 2", head("1000") + QUESTION, (4, False, 12)),
    ("opcode 5", head("2800") + QUESTION, (4, False, 12)),
    ("no question", head(counts=(0, 0, 0, 0)), (1, False, 12)),
    ("two questions", head(counts=(2, 0, 0, 0)) + QUESTION + QUESTION, (1, False, 12)),
    ("an answer", head(counts=(1, 1, 0, 0)) + QUESTION, (1, False, 12)),
    ("an authority", head(counts=(1, 0, 1, 0)) + QUESTION, (1, False, 12)),
    ("a question cut short", (head() + QUESTION)[:-1], (1, False, 12)),
    ("a pointer in the question", head() + bytes.fromhex("c00c00010001"), (1, False, 12)),
    ("a reserved length", head() + bytes.fromhex("40") + QUESTION, (1, False, 12)),
    ("a name of over 255 octets", head() + (b"\x3f" + b"a" * 63) * 4 + b"\0" + bytes.fromhex("00010001"), (1, False, 12)),
    ("a record past the end", NAMELESS + opt()[:-1], (1, False, 12)),
    ("two OPT records", head(counts=(1, 0, 0, 2)) + QUESTION + OPT + OPT, (1, False, 12)),
    ("an OPT record with a name", NAMELESS + b"\x01a" + OPT, (1, False, 12)),
    ("version 1", NAMELESS + opt(version=1), (0, False, 44)),
    ("options that do not fill", NAMELESS + opt(bytes.fromhex("0008000700")), (1, False, 44)),
    ("a bit beyond its source", NAMELESS + opt(subnet(bytes.fromhex("00011400c63364"))), (1, False, 44)),
    ("a scope in a query", NAMELESS + opt(subnet(bytes.fromhex("00011818c63364"))), (1, False, 44)),
    ("family 3", NAMELESS + opt(subnet(bytes.fromhex("00031800c63364"))), (1, False, 44)),
    ("class CH", head() + question("www.cdn.example", klass=3), (5, False, 33)),
    ("another zone", head() + question("www.example"), (5, False, 29)),
    ("a name that only ends like the zone", head() + question("acdn.example"), (5, False, 30)),
    ("no such service", head() + question("x.cdn.example"), (3, True, 99)),
    ("SOA", head() + question("cdn.example", 6), (0, True, 97)),
    ("NS", head() + question("cdn.example", 2), (0, True, 29 + 2 * 29)),
    ("apex A", head() + question("cdn.example"), (0, True, 97)),
    ("TXT of a service", head() + question("www.cdn.example", 16), (0, True, 101)),
    ("A", head() + QUESTION, (0, True, 49)),
    ("ANY", head() + question("www.cdn.example", 255), (0, True, 49)),
    ("AAAA", head() + question("www.cdn.example", 28), (0, True, 61)),
    ("A with OPT", NAMELESS + OPT, (0, True, 60)),
    ("A with a subnet", NAMELESS + opt(subnet(bytes.fromhex("00011800cb0071"))), (0, True, 71)),
    ("A with the empty subnet", NAMELESS + opt(subnet(bytes.fromhex("00000000"))), (0, True, 60)),
]


def free_port(host="127.0.0.1"):
    family = socket.AF_INET6 if ":" in host else socket.AF_INET
    with socket.socket(family, socket.SOCK_DGRAM) as probe:
        probe.bind((host, 0))
        return probe.getsockname()[1]


def ask(host, port, octets, wait=2.0):
    """The reply to a datagram, or none within that many seconds."""
    family = socket.AF_INET6 if ":" in host else socket.AF_INET
    with socket.socket(family, socket.SOCK_DGRAM) as client:
        client.settimeout(wait)
        try:
            client.connect((host, port))
            client.send(octets)
            reply = client.recv(4096)
        except OSError:
            return None
        # before the server is bound, the system may give a client that very port, which then hears itself
        return reply if reply[2] & 0x80 else None


class Server:
    """A running `glb serve`, with its feed and its control text."""

    def __init__(self, topology, host, workers=2, tcp=False):
        self.host, self.port = host, free_port(host)
        listen = f"[{host}]:{self.port}" if ":" in host else f"{host}:{self.port}"
        words = [GLB, "serve", topology, "--listen", listen, "--workers", str(workers)] + (["--tcp", listen] if tcp else [])
        self.process = subprocess.Popen(words, stdin=subprocess.PIPE, stdout=subprocess.PIPE, stderr=subprocess.PIPE, cwd=TOP)
        self.maps = []
        self.reader = threading.Thread(target=lambda: self.maps.extend(self.process.stderr), daemon=True)
        self.reader.start()

    def __enter__(self):
        start = time.monotonic()
        while ask(self.host, self.port, head() + question("cdn.example", 6), 0.2) is None:
            if self.process.poll() is not None or time.monotonic() - start > LONGEST_START:
                sys.exit(f"no answer from {' '.join(self.process.args)}; it wrote {b''.join(self.maps)!r}")
            time.sleep(0.05)
        return self

    def say(self, *lines):
        self.process.stdin.write("".join(f"{line}\n" for line in lines).encode())
        self.process.stdin.flush()

    def line(self):
        return self.process.stdout.readline().decode().rstrip("\n")

    def __exit__(self, *_):
        if self.process.poll() is None:
            self.say("stop")
            self.process.stdin.close()
        expect(f"status at {self.host}", self.process.wait(30), 0)


def ask_delv(host, port):
    """delv does not validate here: there are no signatures."""
    for name, kind, wanted in [("www.cdn.example", "A", A), ("www.cdn.example", "AAAA", AAAA)]:
        text = interop.run_tool("delv", "-i", f"@{host}", "-p", str(port), name, kind)
        expect(f"delv @{host} {name} {kind}", wanted in text.split(), True)


def tools():
    for host in HOSTS:
        with Server(FILES[0], host) as server:
            interop.ask_dig("dig", server.port, host)
            interop.ask_dig("kdig", server.port, host)
            interop.ask_subnets(server.port, host, ({A}, {B}))
            interop.ask_drill(server.port, host)
            ask_delv(host, server.port)
            interop.ask_dnspython(server.port, host)
        with Server(EMPTY[0], host) as server:
            interop.ask_empty(server.port, host)


def forge(host, port, count):
    """Sends queries whose source port is 0, as nobody's socket can."""
    source = socket.inet_aton(host)
    payload = head() + QUESTION
    udp = struct.pack(">HHHH", 0, port, 8 + len(payload), 0) + payload
    ip = struct.pack(">BBHHHBBH4s4s", 0x45, 0, 20 + len(udp), 1, 0, 64, socket.IPPROTO_UDP, 0, source, source)
    with socket.socket(socket.AF_INET, socket.SOCK_RAW, socket.IPPROTO_RAW) as raw:
        for _ in range(count):
            raw.sendto(ip + udp, (host, 0))


def is_there(program):
    """Whether a program is installed. One that is not counts as failed."""
    expect(f"{program} is installed", shutil.which(program) is not None, True)
    return shutil.which(program) is not None


def raw():
    for host in HOSTS:
        with Server(FILES[0], host) as server:
            for what, octets, wanted in RAW:
                reply = ask(host, server.port, octets, 0.3 if wanted is None else 2.0)
                got = reply and (reply[3] & 15, bool(reply[2] & 4), len(reply))
                expect(f"{what} @{host}", got, wanted)
                if reply is not None:
                    expect(f"{what} @{host}: ID, QR and counts", (reply[:2], reply[2] & 0x80, len(reply) > 12 or reply[4:] == bytes(8)), (b"\x12\x34", 0x80, True))
            if host == "127.0.0.1" and os.geteuid() != 0:
                print("no forged datagrams: they want root")
            if host == "127.0.0.1" and os.geteuid() == 0:
                # each of two workers gets more than eight of them
                forge(host, server.port, 200)
                replies = [ask(host, server.port, head() + QUESTION) for _ in range(200)]
                expect("after 200 forged datagrams", sum(r is not None for r in replies), 200)


def addresses(reply):
    """The IPv4 addresses of a reply without OPT and subnet."""
    return {socket.inet_ntoa(reply[k + 12 : k + 16]) for k in range(12 + len(QUESTION), len(reply), 16)}


class Asking(threading.Thread):
    """Asks without rest, and keeps when each reply was asked for and what it was."""

    def __init__(self, host, port):
        super().__init__(daemon=True)
        self.host, self.port, self.replies, self.ends = host, port, [], False

    def run(self):
        while not self.ends:
            start = time.monotonic()
            reply = ask(self.host, self.port, head() + QUESTION)
            self.replies.append((start, time.monotonic(), reply and frozenset(addresses(reply))))


def dig_short(host, port):
    """The addresses that dig gets."""
    words = ["dig", "+short", "+tries=1", "+time=2", f"@{host}", "-p", str(port), "www.cdn.example", "A"]
    return set(subprocess.run(words, capture_output=True, text=True).stdout.split())


def feed():
    for host in HOSTS:
        with Server(FILES[0], host) as server:
            server.say("show")
            expect("show at first", server.line(), "show 0 placed 15 unplaced 1 full 2")
            asking = Asking(host, server.port)
            asking.start()
            spans = []
            for serial in range(1, 41):
                server.say(f"capacity A {0 if serial % 2 else 10}", "commit")
                expect("published", server.line(), f"published {serial}")
                start = time.monotonic()
                time.sleep(0.02)
                wanted = B if serial % 2 else A
                expect(f"dig behind map {serial} @{host}", dig_short(host, server.port), {wanted})
                spans.append((start, time.monotonic(), wanted))
            asking.ends = True
            asking.join()
            judge_replies(host, asking.replies, spans)
            follow_demand(host, server)


def judge_replies(host, replies, spans):
    """Each reply that was asked for after `published S` was said, and came before the next change, is that of map S."""
    expect(f"replies while the map changes @{host}", (all(r[2] in ({A}, {B}) for r in replies), len(replies) > 100), (True, True))
    judged = wrong = 0
    for begin, end, wanted in spans:
        inside = [r[2] for r in replies if r[0] > begin and r[1] < end]
        judged += len(inside)
        wrong += sum(r != {wanted} for r in inside)
    expect(f"replies of an older map @{host}", (wrong, judged > 100), (0, True))


def follow_demand(host, server):
    """With 12 units g1 has 10 at A and 2 at B, so one reply of six is B."""
    server.say("demand g1 12", "commit", "show", "demand nobody 1", "commit")
    expect("demand g1 12", [server.line() for _ in range(4)], ["published 41", "show 41 placed 15 unplaced 5 full 2", "refused 85 unknown name", "refused commit lines 1"])
    seen = [addresses(ask(host, server.port, head() + QUESTION)) for _ in range(600)]
    expect(f"shares after a change of demand @{host}", (all(s in ({A}, {B}) for s in seen), 50 < seen.count({B}) < 150), (True, True))
    expect("maps", b"".join(server.maps).count(b"glb map 2\n"), 42)


# An apex of 64 octets on the wire, and two services of it, whose names have 68 octets and 128; forty addresses of each
# type. By RFC 1035 a reply has 12 octets, the name and 4 more, and 16 for an address, of IPv6 28; by RFC 6891 and 7871 an
# OPT record has 11, and a client subnet of so many octets 8 more.
APEX = f"{'a' * 50}.cdn.example"
SHORT, LONG = f"www.{APEX}", f"{'s' * 63}.{APEX}"
FORTY = {"A": {f"192.0.2.{number}" for number in range(1, 41)}, "AAAA": {f"2001:db8::{number:x}" for number in range(1, 41)}}
# what is asked: name, type, whether there is an OPT record and which size it names, a client subnet, and how many octets
# the answer would have: it is sent where that is at most 512 without an OPT record, and else the size, from 512 to 1,232
LONG_ROWS = [
    (SHORT, "AAAA", None, None, 1204),
    (SHORT, "AAAA", 100, None, 1215),
    (SHORT, "AAAA", 512, None, 1215),
    (SHORT, "AAAA", 1214, None, 1215),
    (SHORT, "AAAA", 1215, None, 1215),
    (SHORT, "AAAA", 4096, None, 1215),
    (SHORT, "AAAA", 4096, "2001:db8::/48", 1229),
    (SHORT, "AAAA", 4096, "2001:db8::1/128", 1239),
    (SHORT, "A", None, None, 724),
    (SHORT, "A", 734, None, 735),
    (SHORT, "A", 735, None, 735),
    (LONG, "AAAA", 1232, None, 1275),
    (LONG, "AAAA", 4096, None, 1275),
    (LONG, "A", 794, None, 795),
    (LONG, "A", 795, None, 795),
]


def long_topology(folder):
    zone = (TOP / "examples/tree.toml").read_text().split("[[node]]")[0]
    zone = re.sub('apex = .*', f'apex = "{APEX}"', zone)
    zone = re.sub('services = .*', f'services = ["www", "{LONG.split(".")[0]}"]', zone)
    lists = "\n".join(f"{kind.lower()} = [{', '.join(f'{chr(34)}{address}{chr(34)}' for address in sorted(FORTY[kind]))}]" for kind in FORTY)
    path = Path(folder) / "long.toml"
    path.write_text(f'{zone}[[node]]\nname = "P"\ncapacity = 1\npool = true\n{lists}\n[[group]]\nname = "g"\ndemand = 1\npools = ["P"]\nscores = [1]\nprefixes = ["0.0.0.0/0", "::/0"]\n')
    return str(path)


def is_whole(size, octets):
    return octets <= (512 if size is None else min(max(size, 512), 1232))


def ask_long_by(tool, host, port):
    """What dig or kdig makes of each row where it does not ask again over TCP."""
    for name, kind, size, subnet_of, octets in LONG_ROWS:
        words = ["+noedns"] if size is None else ["+edns", f"+bufsize={size}"]
        words += [f"+subnet={subnet_of}"] if subnet_of else []
        words += ["+tries=1", "+nocookie"] if tool == "dig" else ["+retry=0"]
        text = interop.run_tool(tool, f"@{host}", "-p", str(port), "+ignore", *words, name, kind)
        flags = re.search(r"[Ff]lags: ([a-z ]*);", text)
        sent = is_whole(size, octets)
        what = f"{tool} @{host} {name[:3]} {kind} {size} {subnet_of}"
        expect(what, interop.parse_dig(text), ("NOERROR", FORTY[kind] if sent else set(), True, False))
        expect(f"{what} TC", flags is not None and "tc" in flags.group(1).split(), not sent)
        if sent:
            expect(f"{what} octets", re.search(r"(?:SIZE  rcvd:|Received) (\d+)", text).group(1), str(octets))


def ask_long_by_drill(host, port):
    for name, kind, size, subnet_of, octets in LONG_ROWS:
        if subnet_of is None and (size is None or size >= 512):
            text = interop.run_tool("drill", "-p", str(port), *([] if size is None else ["-b", str(size)]), name, f"@{host}", kind)
            flags = re.search(r"flags: ([a-z ]*);", text)
            answers = {line.split()[4] for line in text.splitlines() if re.match(rf"[a-z.]+\t\d+\tIN\t{kind}\t", line)}
            sent = is_whole(size, octets)
            expect(f"drill @{host} {name[:3]} {kind} {size}", (answers, flags is not None and "tc" in flags.group(1).split()), (FORTY[kind] if sent else set(), not sent))


def ask_long_by_dnspython(host, port):
    import dns.edns
    import dns.flags
    import dns.message
    import dns.query

    for name, kind, size, subnet_of, octets in LONG_ROWS:
        options = [dns.edns.ECSOption(*[int(part) if part.isdigit() else part for part in subnet_of.split("/")])] if subnet_of else []
        query = dns.message.make_query(name, kind, **({} if size is None else {"use_edns": 0, "payload": size, "options": options}))
        reply = dns.query.udp(query, host, timeout=10, port=port, ignore_trailing=False)
        data = {item.to_text() for rrset in reply.answer for item in rrset}
        sent = is_whole(size, octets)
        got = (data, bool(reply.flags & dns.flags.TC), bool(reply.flags & dns.flags.AA), reply.edns, [option.scopelen for option in reply.options])
        # all clients are in the prefix of no bits, so the scope is 0 with addresses and in their place
        expect(f"dnspython @{host} {name[:3]} {kind} {size} {subnet_of}", got, (FORTY[kind] if sent else set(), not sent, True, -1 if size is None else 0, [0] if subnet_of else []))


def ask_again(host, port):
    """Who does not take a truncated reply for an answer asks again over TCP: dig and delv, which name 1,232 octets."""
    for name, kind, sent in [(SHORT, "AAAA", True), (LONG, "AAAA", False)]:
        text = interop.run_tool("dig", f"@{host}", "-p", str(port), "+tries=1", "+time=2", name, kind)
        expect(f"dig @{host} {name[:3]} asks again", "retrying in TCP mode" in text, not sent)
        text = interop.run_tool("delv", "-i", f"@{host}", "-p", str(port), name, kind)
        expect(f"delv @{host} {name[:3]}", FORTY[kind] & set(text.split()), FORTY[kind] if sent else set())


def behind_long(name, words, port, unfit=("SERVFAIL", set())):
    """Forty addresses through a resolver, and what it says where they do not fit into a datagram: that, if there is no TCP."""
    resolver = subprocess.Popen(words, stdout=subprocess.PIPE, stderr=subprocess.STDOUT)
    threading.Thread(target=lambda: list(resolver.stdout), daemon=True).start()
    try:
        ask_it = lambda service, kind: interop.parse_dig(interop.run_tool("dig", "@127.0.0.1", "-p", str(port), "+tries=1", "+time=20", "+tcp", service, kind))[:2]
        start = time.monotonic()
        while ask_it(APEX, "NS")[0] != "NOERROR" and time.monotonic() - start < 20:
            time.sleep(0.2)
        expect(f"{name}: forty of IPv6", ask_it(SHORT, "AAAA"), ("NOERROR", FORTY["AAAA"]))
        expect(f"{name}: forty of IPv4", ask_it(SHORT, "A"), ("NOERROR", FORTY["A"]))
        expect(f"{name}: forty of IPv4 of a long name", ask_it(LONG, "A"), ("NOERROR", FORTY["A"]))
        expect(f"{name}: what does not fit", ask_it(LONG, "AAAA"), unfit)
    finally:
        resolver.terminate()
        resolver.wait()


def long():
    with tempfile.TemporaryDirectory() as work:
        for host in HOSTS:
            with Server(long_topology(work), host) as server:
                ask_long_by("dig", host, server.port)
                ask_long_by("kdig", host, server.port)
                ask_long_by_drill(host, server.port)
                ask_long_by_dnspython(host, server.port)
                ask_again(host, server.port)
        with Server(long_topology(work), "127.0.0.1") as server:
            for name, start in [("unbound", start_unbound), ("pdns_recursor", start_recursor)]:
                if not is_there(name):
                    continue
                port = free_port()
                behind_long(name, start(work, port, server.port, APEX), port)


def framed(*messages):
    return b"".join(struct.pack(">H", len(message)) + message for message in messages)


def converse(host, port, octets, count):
    """So many replies to octets that are sent on one connection, and what stands behind them: nothing where it is closed, none where it stays."""
    replies = []
    with socket.create_connection((host, port), 5) as client:
        client.sendall(octets)
        with client.makefile("rb") as stream:
            for _ in range(count):
                size = struct.unpack(">H", stream.read(2))[0]
                replies.append(stream.read(size))
            client.settimeout(0.5)
            try:
                return replies, stream.read(1)
            except ConnectionResetError:
                # what is closed with octets that nobody read is reset
                return replies, b""
            except TimeoutError:
                return replies, None


def tcp_messages(host, port):
    """Each case of the answer table as a message, with one behind it that has a reply; and a length past 4,096."""
    good = head() + QUESTION
    for what, octets, wanted in RAW:
        if len(octets) > 4096:
            expect(f"tcp {what} @{host}", converse(host, port, framed(good, octets), 1)[1], b"")
            continue
        replies, rest = converse(host, port, framed(octets, good), 1 if wanted is None else 2)
        got = None if wanted is None else (replies[0][3] & 15, bool(replies[0][2] & 4), len(replies[0]))
        expect(f"tcp {what} @{host}", (got, len(replies[-1]), rest), (wanted, 49, None))


def ask_long_over_tcp(host, port):
    """Over TCP all forty come, whatever size a query names; and who is told that they don't fit asks again there."""
    for name, kind, size, subnet_of, _ in LONG_ROWS:
        words = ["+noedns"] if size is None else ["+edns", f"+bufsize={size}"]
        words += [f"+subnet={subnet_of}"] if subnet_of else []
        for tool, once in [("dig", "+tries=1"), ("kdig", "+retry=0")]:
            text = interop.run_tool(tool, f"@{host}", "-p", str(port), "+tcp", once, *words, name, kind)
            expect(f"{tool} +tcp @{host} {name[:3]} {kind} {size} {subnet_of}", interop.parse_dig(text), ("NOERROR", FORTY[kind], True, False))
    for name, kind in [(SHORT, "AAAA"), (LONG, "A"), (LONG, "AAAA")]:
        text = interop.run_tool("dig", f"@{host}", "-p", str(port), "+tries=1", name, kind)
        expect(f"dig @{host} {name[:3]} {kind} in the end", interop.parse_dig(text)[:2], ("NOERROR", FORTY[kind]))
        expect(f"dig @{host} {name[:3]} {kind} asks again", "retrying in TCP mode" in text, (name, kind) == (LONG, "AAAA"))
        text = interop.run_tool("kdig", f"@{host}", "-p", str(port), "+retry=0", "+edns", "+bufsize=1232", name, kind)
        expect(f"kdig @{host} {name[:3]} {kind} in the end", interop.parse_dig(text)[:2], ("NOERROR", FORTY[kind]))
        text = interop.run_tool("drill", "-t", "-p", str(port), name, f"@{host}", kind)
        expect(f"drill -t @{host} {name[:3]} {kind}", {line.split()[4] for line in text.splitlines() if re.match(rf"[a-z.]+\t\d+\tIN\t{kind}\t", line)}, FORTY[kind])
        text = interop.run_tool("delv", "-i", f"@{host}", "-p", str(port), name, kind)
        expect(f"delv @{host} {name[:3]} {kind} in the end", FORTY[kind] & set(text.split()), FORTY[kind])


def tcp():
    for host in HOSTS:
        with Server(FILES[0], host, tcp=True) as server:
            interop.ask_dig("dig", server.port, host, "+tcp")
            interop.ask_dig("kdig", server.port, host, "+tcp")
            interop.ask_drill(server.port, host, "-t")
            interop.ask_dnspython(server.port, host, "tcp")
            # and over UDP as without it
            interop.ask_dig("dig", server.port, host)
            tcp_messages(host, server.port)
        with tempfile.TemporaryDirectory() as work, Server(long_topology(work), host, tcp=True) as server:
            ask_long_over_tcp(host, server.port)
    with tempfile.TemporaryDirectory() as work, Server(long_topology(work), "127.0.0.1", tcp=True) as server:
        for name, start, more in [("unbound", start_unbound, ""), ("unbound with TCP alone", start_unbound, "tcp-upstream: yes"), ("pdns_recursor", start_recursor, "")]:
            if not is_there(name.split()[0]):
                continue
            port = free_port()
            words = start(work, port, server.port, APEX)
            if more:
                config = Path(words[-1])
                config.write_text(config.read_text().replace("server:\n", f"server:\n    {more}\n", 1))
            behind_long(name, words, port, ("NOERROR", FORTY["AAAA"]))


class Between(threading.Thread):
    """Hands datagrams of a resolver on to the server, and keeps the queries."""

    def __init__(self, to):
        super().__init__(daemon=True)
        self.to, self.queries = to, []
        self.socket = socket.socket(socket.AF_INET, socket.SOCK_DGRAM)
        self.socket.bind(("127.0.0.1", 0))
        self.port = self.socket.getsockname()[1]

    def run(self):
        while True:
            octets, peer = self.socket.recvfrom(4096)
            self.queries.append(octets)
            reply = ask("127.0.0.1", self.to, octets)
            if reply is not None:
                self.socket.sendto(reply, peer)


UNBOUND = """server:
    directory: "{work}"
    username: ""
    chroot: ""
    pidfile: ""
    use-syslog: no
    interface: 127.0.0.1@{port}
    do-not-query-localhost: no
    module-config: "subnetcache iterator"
    send-client-subnet: 127.0.0.1
    client-subnet-zone: {zone}
    client-subnet-always-forward: yes
    max-client-subnet-ipv4: 24
    access-control: 127.0.0.0/8 allow
    prefetch: no
remote-control:
    control-enable: no
stub-zone:
    name: {zone}
    stub-addr: 127.0.0.1@{upstream}
"""

RECURSOR = [
    "pdns_recursor", "--config-dir={work}", "--socket-dir={work}", "--local-address=127.0.0.1", "--local-port={port}",
    "--forward-zones={zone}=127.0.0.1:{upstream}", "--dont-query=", "--dnssec=off", "--daemon=no", "--quiet=yes",
    "--edns-subnet-allow-list={zone}", "--use-incoming-edns-subnet=yes", "--ecs-ipv4-bits=24", "--ecs-add-for=0.0.0.0/0",
    "--ecs-ipv4-cache-bits=32", "--ecs-cache-limit-ttl=0", "--threads=1", "--root-nx-trust=no", "--write-pid=no", "--setuid=", "--setgid=",
]


def start_unbound(work, port, upstream, zone="cdn.example"):
    path = Path(work) / "unbound.conf"
    path.write_text(UNBOUND.format(work=work, port=port, upstream=upstream, zone=zone))
    return ["unbound", "-d", "-c", str(path)]


def start_recursor(work, port, upstream, zone="cdn.example"):
    return [word.format(work=work, port=port, upstream=upstream, zone=zone) for word in RECURSOR]


def resolve(port, address):
    """What a resolver answers for a client of that network of 24 bits, and its TTL."""
    text = interop.run_tool("dig", "@127.0.0.1", "-p", str(port), "+tries=1", f"+subnet={address}/24", "www.cdn.example", "A")
    rcode, answers, _, _ = interop.parse_dig(text)
    return rcode, answers


def behind(name, words, between, port):
    """One group's networks share an answer as far as its scope goes; another group's do not."""
    resolver = subprocess.Popen(words, stdout=subprocess.PIPE, stderr=subprocess.STDOUT)
    log = []
    threading.Thread(target=lambda: log.extend(resolver.stdout), daemon=True).start()
    try:
        start = time.monotonic()
        while resolve(port, "192.0.2.0")[0] != "NOERROR":
            if resolver.poll() is not None or time.monotonic() - start > 20:
                interop.failures.append(f"{name} does not answer: {b''.join(log)[-600:]!r}")
                return
            time.sleep(0.2)
        rows = []
        for address in ["198.51.100.0", "198.51.100.0", "203.0.113.0", "203.0.200.0", "207.255.1.0"]:
            count = len(between.queries)
            rcode, answers = resolve(port, address)
            rows.append((rcode, answers, len(between.queries) - count))
        expect(f"{name}: codes", {row[0] for row in rows}, {"NOERROR"})
        expect(f"{name}: g1 is at A", [row[1] for row in rows[2:]], [{A}] * 3)
        expect(f"{name}: g2 is at A or B", rows[0][1] in ({A}, {B}) and rows[1][1] == rows[0][1], True)
        # 198.51.100.0/24 has scope 24; 203.0.113.0/24 has scope 5, that is 200.0.0.0/5
        expect(f"{name}: queries to glb", [row[2] for row in rows], [1, 0, 1, 0, 0])
        expect(f"{name}: subnets reach glb", any(bytes.fromhex("00011800c63364") in q for q in between.queries), True)
    finally:
        resolver.terminate()
        resolver.wait()


def resolvers():
    with Server(FILES[0], "127.0.0.1") as server, tempfile.TemporaryDirectory() as work:
        for name, start in [("unbound", start_unbound), ("pdns_recursor", start_recursor)]:
            if not is_there(name):
                continue
            between = Between(server.port)
            between.start()
            port = free_port()
            behind(name, start(work, port, between.port), between, port)


PARTS = {"tools": tools, "raw": raw, "feed": feed, "long": long, "tcp": tcp, "resolvers": resolvers}


def main():
    for part in sys.argv[1:] or PARTS:
        failed = len(interop.failures)
        PARTS[part]()
        print(f"{part}: {interop.passed} passed so far", *interop.failures[failed:], sep="\n  ", flush=True)
    interop.tell()


if __name__ == "__main__":
    main()
