#!/usr/bin/env python3
"""What a server does while forged queries come from neighbours that are not there. Wants root, and `ip` of Debian's iproute2.

    neighbours.py [SECONDS [OCTETS]]

In two network namespaces of its own, joined by a cable that ends in both, it starts `glb serve` on the example with two
workers, and for SECONDS (10) lets one host send 2,000 forged queries a second from sixteen addresses of the server's
own network at which nobody is. Their replies wait in the system until it gives these addresses up, and fill the
socket's buffer. Beside them a host that is there asks again and again, a twentieth of a second behind each answer, for
which it waits a quarter of a second at most. It prints how many of its questions were answered, and how long the
answers took; and how long the server took to stop when its feed ended in the middle of it. With OCTETS no more of the
replies wait for one neighbour (`net.ipv4.neigh.*.unres_qlen_bytes` of the server's host). GLB names the program.
"""

import os
import socket
import struct
import subprocess
import sys
import threading
import time
from pathlib import Path

TOP = Path(__file__).resolve().parent.parent
GLB = os.environ.get("GLB", str(TOP / "crates/glb_program/out/glb_program"))
QUERY = bytes.fromhex("123401000001000000000000") + b"\x03www\x03cdn\x07example\x00\x00\x01\x00\x01"
SERVER, CLIENT, PORT = "10.77.0.1", "10.77.0.2", 5300
ABSENT = [f"10.77.0.{n}" for n in range(100, 116)]
HOSTS = (("glb-server", SERVER), ("glb-client", CLIENT))


def ip(*words):
    subprocess.run(["ip", *words], check=True)


def set_up(octets):
    for host, _ in HOSTS:
        ip("netns", "add", host)
    ip("link", "add", "glb-s", "netns", "glb-server", "type", "veth", "peer", "name", "glb-c", "netns", "glb-client")
    for (host, address), end in zip(HOSTS, ("glb-s", "glb-c")):
        ip("-n", host, "addr", "add", f"{address}/24", "dev", end)
        ip("-n", host, "link", "set", end, "up")
    if octets:
        setting = f"net.ipv4.neigh.glb-s.unres_qlen_bytes={octets}"
        ip("netns", "exec", "glb-server", "sysctl", "-q", "-w", setting)


def tear_down():
    for host, _ in HOSTS:
        subprocess.run(["ip", "netns", "del", host], check=False)


def datagram(source):
    """A query as an IPv4 packet from that address; the system fills in the checksums of IP, and UDP has none."""
    udp = struct.pack("!HHHH", 5353, PORT, 8 + len(QUERY), 0) + QUERY
    head = struct.pack("!BBHHHBBH4s4s", 0x45, 0, 20 + len(udp), 0, 0, 64, 17, 0, socket.inet_aton(source), socket.inet_aton(SERVER))
    return head + udp


def forge(seconds):
    packets = [datagram(source) for source in ABSENT]
    end = time.monotonic() + seconds
    with socket.socket(socket.AF_INET, socket.SOCK_RAW, socket.IPPROTO_RAW) as sender:
        while time.monotonic() < end:
            for packet in packets:
                sender.sendto(packet, (SERVER, 0))
            time.sleep(len(packets) / 2000)


def ask(seconds, waits):
    end = time.monotonic() + seconds
    with socket.socket(socket.AF_INET, socket.SOCK_DGRAM) as client:
        client.connect((SERVER, PORT))
        client.settimeout(0.25)
        while time.monotonic() < end:
            begun = time.monotonic()
            client.send(QUERY)
            try:
                client.recv(512)
                waits.append(time.monotonic() - begun)
            except OSError:
                waits.append(None)
            time.sleep(0.05)


def as_client(seconds):
    """Runs in the client's namespace: questions alone for two seconds, and then beside forged ones."""
    for what, forged in (("alone", 0), ("beside forged ones", seconds)):
        waits = []
        beside = threading.Thread(target=forge, args=(forged,))
        beside.start()
        ask(forged or 2, waits)
        beside.join()
        got = sorted(wait for wait in waits if wait is not None)
        longest = f"{1000 * got[len(got) // 2]:.1f} ms in the middle, {1000 * got[-1]:.1f} ms at most" if got else "none"
        print(f"{what}: {len(got)} of {len(waits)} answered, {longest}", flush=True)


def main():
    if sys.argv[1:2] == ["client"]:
        as_client(float(sys.argv[2]))
        return
    seconds = float(sys.argv[1]) if len(sys.argv) > 1 else 10
    set_up(sys.argv[2] if len(sys.argv) > 2 else None)
    try:
        words = ["ip", "netns", "exec", "glb-server", GLB, "serve", str(TOP / "examples/tree.toml"), "--listen", f"{SERVER}:{PORT}", "--workers", "2"]
        server = subprocess.Popen(words, stdin=subprocess.PIPE, stdout=subprocess.DEVNULL, stderr=subprocess.DEVNULL)
        time.sleep(1)
        client = subprocess.Popen(["ip", "netns", "exec", "glb-client", sys.executable, __file__, "client", str(seconds)])
        client.wait()
        beside = subprocess.Popen(["ip", "netns", "exec", "glb-client", sys.executable, __file__, "client", "4"], stdout=subprocess.DEVNULL)
        time.sleep(4)
        begun = time.monotonic()
        server.stdin.close()
        status = server.wait()
        print(f"feed closed among forged ones: status {status} after {time.monotonic() - begun:.2f} s")
        beside.wait()
    finally:
        tear_down()


if __name__ == "__main__":
    main()
