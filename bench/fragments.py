#!/usr/bin/env python3
"""Whether a forged ICMP message cuts long replies into fragments (RFC 9715), as root, in two network namespaces.

    fragments.py        with the program in GLB; needs tools/glb-launch, and nsd and knot beside it where they are there

A client asks for a reply of some 1,160 octets, forges a report `fragmentation needed` for a path of 552 octets, and asks
again. It says how many packets each reply came in: of glb by its own sockets, by the launcher's, of NSD and of Knot.
"""

import os
import shutil
import subprocess
import sys
import tempfile
import time
from pathlib import Path

TOP = Path(__file__).resolve().parents[1]
GLB = os.environ.get("GLB", str(TOP / "crates/glb_program/out/glb_program"))
SERVER, CLIENT = f"glb-fs-{os.getpid()}", f"glb-fc-{os.getpid()}"
ADDRESSES = [f"2001:db8:40::{number:x}" for number in range(1, 38)]
# what runs on the client's side: it counts the packets of each reply at its interface
ASKS = r"""
import socket, struct, sys, time
OPT = b"\0" + struct.pack(">HHIH", 41, 1232, 0, 0)
QUERY = struct.pack(">6H", 7, 0, 1, 0, 0, 1) + b"\3www\3cdn\7example\0" + struct.pack(">2H", 28, 1) + OPT
def checksum(octets):
    total = sum(struct.unpack(f">{len(octets) // 2}H", octets))
    total = (total >> 16) + (total & 0xffff)
    return ~(total + (total >> 16)) & 0xffff
raw = socket.socket(socket.AF_PACKET, socket.SOCK_RAW, socket.htons(0x0800))
raw.bind(("peer", 0))
def ask():
    with socket.socket(socket.AF_INET, socket.SOCK_DGRAM) as client:
        client.bind(("10.9.0.2", 0))
        client.settimeout(2)
        client.sendto(QUERY, ("10.9.0.1", 53))
        try:
            octets = len(client.recv(4096))
        except TimeoutError:
            octets = 0
        packets, port = 0, client.getsockname()[1]
    raw.settimeout(0.3)
    try:
        while True:
            frame = raw.recv(4096)
            packets += frame[26:30] == socket.inet_aton("10.9.0.1") and frame[23] == socket.IPPROTO_UDP
    except TimeoutError:
        pass
    return octets, packets, port
for _ in range(40):
    octets, packets, port = ask()
    if octets:
        break
    time.sleep(0.1)
inner = struct.pack(">BBHHHBBH", 0x45, 0, 1200, 1, 0x4000, 64, 17, 0) + socket.inet_aton("10.9.0.1") + socket.inet_aton("10.9.0.2") + struct.pack(">4H", 53, port, 1180, 0)
message = struct.pack(">BBHHH", 3, 4, 0, 0, 552) + inner
message = message[:2] + struct.pack(">H", checksum(message)) + message[4:]
with socket.socket(socket.AF_INET, socket.SOCK_RAW, socket.IPPROTO_ICMP) as forger:
    forger.sendto(message, ("10.9.0.1", 0))
time.sleep(0.3)
after = ask()
print(octets, packets, after[0], after[1])
"""


def ip(*words):
    subprocess.run(["ip", *words], check=True, capture_output=True)


def build():
    """Two hosts and a cable between them, anew for each server: a path's size is remembered for minutes."""
    for name in (SERVER, CLIENT):
        ip("netns", "add", name)
        ip("-n", name, "link", "set", "lo", "up")
    ip("link", "add", "own", "netns", SERVER, "type", "veth", "peer", "name", "peer", "netns", CLIENT)
    for name, device, address in ((SERVER, "own", "10.9.0.1/24"), (CLIENT, "peer", "10.9.0.2/24")):
        ip("-n", name, "addr", "add", address, "dev", device)
        ip("-n", name, "link", "set", device, "up")


def clear():
    for name in (SERVER, CLIENT):
        subprocess.run(["ip", "netns", "del", name], capture_output=True)


def servers(folder):
    """The words of each server that is here, over the same answer."""
    aaaa = ", ".join(f'"{address}"' for address in ADDRESSES)
    (folder / "T").write_text(
        '[zone]\napex = "cdn.example"\nmname = "ns1.ops.example"\nrname = "admin.ops.example"\nserial = 1\nrefresh = 3600\n'
        'retry = 600\nexpire = 86400\nminimum = 60\nttl = 20\nns = ["ns1.ops.example"]\nservices = ["www"]\n'
        f'[[node]]\nname = "P"\ncapacity = 9\npool = true\naaaa = [{aaaa}]\n'
        '[[group]]\nname = "g"\ndemand = 1\npools = ["P"]\nscores = [1]\nprefixes = ["0.0.0.0/0", "::/0"]\n'
    )
    (folder / "zone").write_text(
        "$ORIGIN cdn.example.\n$TTL 20\n@ SOA ns1.ops.example. admin.ops.example. 1 3600 600 86400 60\n@ NS ns1.ops.example.\n"
        + "".join(f"www AAAA {address}\n" for address in ADDRESSES)
    )
    serve = [GLB, "serve", str(folder / "T"), "--listen", "10.9.0.1:53"]
    yield "glb, its own sockets", serve
    yield "glb, the launcher's", [str(TOP / "tools/glb-launch"), "--", *serve]
    if shutil.which("nsd"):
        (folder / "nsd").write_text(
            f'server:\n  ip-address: 10.9.0.1@53\n  server-count: 1\n  username: ""\n  database: ""\n  zonesdir: "{folder}"\n  pidfile: ""\n'
            f'  xfrdfile: "{folder}/x"\n  zonelistfile: "{folder}/l"\n  chroot: ""\nremote-control:\n  control-enable: no\n'
            "zone:\n  name: cdn.example\n  zonefile: zone\n"
        )
        yield "NSD", ["nsd", "-d", "-c", str(folder / "nsd")]
    if shutil.which("knotd"):
        (folder / "knot").write_text(
            f"server:\n  listen: 10.9.0.1@53\n  rundir: {folder}\n  udp-workers: 1\n  tcp-workers: 1\n  background-workers: 1\n"
            f"database:\n  storage: {folder}/db\nzone:\n  - domain: cdn.example\n    storage: {folder}\n    file: zone\n"
            "    journal-content: none\n    zonefile-load: whole\n"
        )
        yield "Knot", ["knotd", "-c", str(folder / "knot")]


def main():
    if os.geteuid():
        sys.exit("fragments.py: it makes network namespaces, and so wants root")
    print("| Server | Reply, octets | Packets before | Octets, packets behind the forged report |\n|---|---|---|---|")
    with tempfile.TemporaryDirectory() as name:
        folder = Path(name)
        (folder / "asks.py").write_text(ASKS)
        for title, words in servers(folder):
            build()
            server = subprocess.Popen(["ip", "netns", "exec", SERVER, *words], stdin=subprocess.PIPE, stdout=subprocess.DEVNULL, stderr=subprocess.DEVNULL)
            try:
                seen = subprocess.run(["ip", "netns", "exec", CLIENT, sys.executable, str(folder / "asks.py")], capture_output=True, text=True, check=True, timeout=120).stdout.split()
                print(f"| {title} | {seen[0]} | {seen[1]} | {seen[2]}, {seen[3]} |", flush=True)
            finally:
                server.kill()
                server.wait()
                clear()


try:
    main()
finally:
    clear()
