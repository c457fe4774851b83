#!/usr/bin/python3
"""Lets independent DNS tools ask `glb answer`, and compares what they make of the replies.

Each datagram that a tool sends to a port of 127.0.0.1 is handed, as hexadecimal text, to one run of
`glb answer` over examples/tree.toml and examples/tree.map, as if it came from 198.51.100.7; the octets that
glb writes go back. Needs dig, kdig, drill and python3-dnspython:

    apt-get update
    apt-get install bind9-dnsutils knot-dnsutils ldnsutils python3-dnspython
    bench/interop.py

GLB names the program, the built one if it is not set. Every wanted value below comes from the example topology and
the RFCs. The last line counts, and the status
is 0 where nothing failed.
"""

import os
import re
import shutil
import socket
import subprocess
import sys
import tempfile
import threading
from pathlib import Path

TOP = Path(__file__).resolve().parent.parent
GLB = os.environ.get("GLB", str(TOP / "crates/glb_program/out/glb_program"))
FILES = [str(TOP / "examples/tree.toml"), str(TOP / "examples/tree.map")]
# a group of which nothing is placed, since its only pool holds nothing
EMPTY = [str(TOP / "crates/glb_program/data/topology.toml"), str(TOP / "crates/glb_program/data/map.txt")]
SENDER = "198.51.100.7"
MOST_DATAGRAMS = 400

SOA = "ns1.ops.example. admin.ops.example. 1 3600 600 86400 60"
A, AAAA = "192.0.2.1", "2001:db8::1"
MANY = {f"2001:db8::{number:x}" for number in range(1, 21)}
NS = {"ns1.ops.example.", "ns2.ops.example."}

# what is asked: name, type, words for dig and kdig, and what the reply has to be: RCODE, the data of its
# answers, whether it is authoritative, and whether the SOA stands in authority
ROWS = [
    ("www.cdn.example", "A", [], ("NOERROR", {A}, True, False)),
    ("WwW.cDn.ExAmPlE", "A", [], ("NOERROR", {A}, True, False)),
    ("www.cdn.example", "AAAA", [], ("NOERROR", {AAAA}, True, False)),
    ("www.cdn.example", "ANY", ["+notcp"], ("NOERROR", {A}, True, False)),
    ("www.cdn.example", "TXT", [], ("NOERROR", set(), True, True)),
    ("www.cdn.example", "SOA", [], ("NOERROR", set(), True, True)),
    ("cdn.example", "NS", [], ("NOERROR", NS, True, False)),
    ("cdn.example", "SOA", [], ("NOERROR", {SOA}, True, False)),
    ("cdn.example", "A", [], ("NOERROR", set(), True, True)),
    ("x.cdn.example", "A", [], ("NXDOMAIN", set(), True, True)),
    ("x.www.cdn.example", "A", [], ("NXDOMAIN", set(), True, True)),
    ("example", "A", [], ("REFUSED", set(), False, False)),
    ("ns1.ops.example", "A", [], ("REFUSED", set(), False, False)),
]

failures = []
passed = 0


def expect(what, got, wanted):
    global passed
    if got == wanted:
        passed += 1
    else:
        failures.append(f"{what}: {got!r}, wanted {wanted!r}")


def complaints(text):
    """Warnings of a tool, but for the one that no recursion is to be had, which is meant."""
    return [l for l in text.splitlines() if ("warning" in l.lower() or "malformed" in l) and "recursion requested" not in l]


def answer(files, octets):
    """The reply of `glb answer` to a datagram, or none."""
    run = subprocess.run([GLB, "answer", *files, SENDER, octets.hex()], capture_output=True, timeout=20)
    if run.returncode != 0:
        failures.append(f"glb answer ended with {run.returncode} on {octets.hex()}")
        return None
    text = run.stdout.decode().split()[1]
    return None if text == "-" else bytes.fromhex(text)


def serve(port, files):
    for _ in range(MOST_DATAGRAMS):
        octets, peer = port.recvfrom(4096)
        if octets == b"stop":
            return
        reply = answer(files, octets)
        if reply is not None:
            port.sendto(reply, peer)


def parse_dig(text):
    """RCODE, data of the answers, AA, and whether authority has an SOA, of what dig or kdig prints."""
    rcode = re.search(r"status: (\w+)", text)
    flags = re.search(r"[Ff]lags: ([a-z ]*);", text)
    answers, authority, section = set(), False, None
    for line in text.splitlines():
        if line.startswith(";;"):
            section = line.strip("; :").split()[0] if line.strip("; :") else section
        elif line and not line.startswith(";"):
            fields = line.split(None, 4)
            if section == "ANSWER":
                answers.add(fields[4])
            if section == "AUTHORITY":
                authority = fields[3] == "SOA" and fields[4] == SOA
    return (rcode.group(1) if rcode else None, answers, flags is not None and "aa" in flags.group(1).split(), authority)


def run_tool(*words):
    return subprocess.run(words, capture_output=True, text=True, timeout=30).stdout


def ask_dig(tool, port, host="127.0.0.1", *way):
    for name, kind, words, wanted in ROWS:
        text = run_tool(tool, f"@{host}", "-p", str(port), *way, *words, "+tries=1" if tool == "dig" else "+retry=0", name, kind)
        expect(f"{tool} @{host} {name} {kind}", parse_dig(text), wanted)
        expect(f"{tool} @{host} {name} {kind} complains", complaints(text), [])


def ask_subnets(port, host="127.0.0.1", answers=({A},)):
    base = ["dig", f"@{host}", "-p", str(port), "+tries=1", "www.cdn.example", "A"]
    for subnet, told in [("198.51.100.0/24", "198.51.100.0/24/24"), ("198.51.100.0/25", "198.51.100.0/25/24"), ("203.0.113.0/24", "203.0.113.0/24/5"), ("2001:db8::/48", "2001:db8::/48/0")]:
        text = run_tool(*base, f"+subnet={subnet}")
        found = re.search(r"CLIENT-SUBNET: (\S+)", text)
        expect(f"dig +subnet={subnet}", found and found.group(1), told)
        expect(f"dig +subnet={subnet} answer", parse_dig(text)[1] in answers, True)
    # SOURCE 0 with a family is repeated with scope 0
    text = run_tool(*base, "+ednsopt=8:00010000")
    expect("dig source 0", re.search(r"CLIENT-SUBNET: (\S+)", text) is not None, True)
    # a bit beyond SOURCE 20
    text = run_tool(*base, "+ednsopt=8:00011400c63364")
    expect("dig bits beyond", re.search(r"status: (\w+)", text).group(1), "FORMERR")
    text = run_tool(*base, "+edns=1", "+noednsnegotiation")
    expect("dig +edns=1", re.search(r"status: (\w+)", text).group(1), "BADVERS")
    text = run_tool(*base, "+dnssec")
    expect("dig +dnssec", re.search(r"; EDNS: version: 0, flags: do; udp: 1232", text) is not None, True)
    text = run_tool(*base, "+opcode=2")
    expect("dig +opcode=2", re.search(r"status: (\w+)", text).group(1), "NOTIMP")
    text = run_tool("dig", f"@{host}", "-p", str(port), "+tries=1", "-c", "CH", "www.cdn.example", "A")
    expect("dig class CH", re.search(r"status: (\w+)", text).group(1), "REFUSED")


def ask_drill(port, host="127.0.0.1", *way):
    for name, kind, _, wanted in ROWS:
        text = run_tool("drill", *way, "-p", str(port), name, f"@{host}", kind)
        rcode = re.search(r"rcode: (\w+)", text)
        expect(f"drill @{host} {name} {kind}", rcode and rcode.group(1), wanted[0])


def ask_dnspython(port, host="127.0.0.1", way="udp"):
    import dns.flags
    import dns.message
    import dns.query
    import dns.rcode

    for name, kind, _, wanted in ROWS:
        for edns in (False, 0):
            query = dns.message.make_query(name, kind, use_edns=edns)
            reply = getattr(dns.query, way)(query, host, timeout=10, port=port, ignore_trailing=False)
            data = {item.to_text() for rrset in reply.answer for item in rrset}
            authority = [item.to_text() for rrset in reply.authority for item in rrset] == [SOA]
            got = (dns.rcode.to_text(reply.rcode()), data, bool(reply.flags & dns.flags.AA), authority)
            expect(f"dnspython @{host} {name} {kind} edns {edns}", got, wanted)
            expect(f"dnspython @{host} {name} {kind} edns {edns}: OPT", reply.edns, -1 if edns is False else 0)


def ask_empty(port, host="127.0.0.1"):
    text = run_tool("dig", f"@{host}", "-p", str(port), "+tries=1", "www.cdn.example", "A")
    expect("dig where nothing is placed", parse_dig(text), ("SERVFAIL", set(), False, False))


def long_files(folder):
    """The example's zone over one pool with twenty IPv6 addresses, and its map."""
    zone = (TOP / "examples/tree.toml").read_text().split("[[node]]")[0]
    addresses = ", ".join(f'"{address}"' for address in sorted(MANY))
    topology, text = Path(folder) / "topology", Path(folder) / "map"
    topology.write_text(f'{zone}[[node]]\nname = "P"\ncapacity = 1\npool = true\naaaa = [{addresses}]\n[[group]]\nname = "g"\ndemand = 1\npools = ["P"]\nscores = [1]\nprefixes = ["0.0.0.0/0", "::/0"]\n')
    text.write_text("glb map 1\nplace g P 1\nend\n")
    return [str(topology), str(text)]


def ask_long(port, host="127.0.0.1"):
    """An answer of 593 octets, and of 604 with an OPT record, is left out where the client takes fewer, and TC says so."""
    for words, is_whole in [(["+noedns"], False), (["+bufsize=603"], False), (["+bufsize=604"], True), (["+bufsize=100"], False), (["+bufsize=4096"], True)]:
        text = run_tool("dig", f"@{host}", "-p", str(port), "+tries=1", "+nocookie", "+ignore", *words, "www.cdn.example", "AAAA")
        flags = re.search(r"flags: ([a-z ]*);", text)
        expect(f"dig {words}", parse_dig(text), ("NOERROR", MANY if is_whole else set(), True, False))
        expect(f"dig {words} TC", flags is not None and "tc" in flags.group(1).split(), not is_whole)
        expect(f"dig {words} complains", complaints(text), [])


def open_port():
    port = socket.socket(socket.AF_INET, socket.SOCK_DGRAM)
    port.bind(("127.0.0.1", 0))
    port.settimeout(120)
    return port


def while_served(files, ask):
    """Lets tools ask a port that answers by these files."""
    port = open_port()
    number = port.getsockname()[1]
    server = threading.Thread(target=serve, args=(port, files))
    server.start()
    try:
        ask(number)
    finally:
        socket.socket(socket.AF_INET, socket.SOCK_DGRAM).sendto(b"stop", ("127.0.0.1", number))
        server.join()


def ask_all(port):
    ask_dig("dig", port)
    ask_dig("kdig", port)
    ask_subnets(port)
    ask_drill(port)
    ask_dnspython(port)


def tell():
    for failure in failures:
        print(failure)
    print(f"{passed} passed, {len(failures)} failed")
    sys.exit(1 if failures else 0)


def main():
    missing = [tool for tool in ("dig", "kdig", "drill") if shutil.which(tool) is None]
    if missing:
        sys.exit(f"not installed: {' '.join(missing)}")
    if "GLB" not in os.environ:
        subprocess.run(["rt", "run", "--", "check", *FILES], cwd=TOP / "crates/glb_program", capture_output=True, check=True)
    while_served(FILES, ask_all)
    while_served(EMPTY, ask_empty)
    with tempfile.TemporaryDirectory() as folder:
        while_served(long_files(folder), ask_long)
    tell()


if __name__ == "__main__":
    main()
