#!/usr/bin/env python3
"""What becomes of queries while `glb serve` is started again: killed by a signal and started at once, with two workers, alone
and with sockets that are handed in to it and outlive it.

    bench/restart.py [GROUPS [RATE]]      65,536 groups and 1,000 queries a second if they are not given

GLB names the program. Queries come from sixteen sockets; whoever has no reply within 50 milliseconds is late, and
whoever has none five seconds behind the last query is lost. Each is sent once.
"""

import os
import select
import socket
import struct
import subprocess
import sys
import tempfile
import threading
import time
from pathlib import Path

TOP = Path(__file__).resolve().parent.parent
GLB = os.environ.get("GLB", str(TOP / "crates/glb_program/out/glb_program"))
GROUPS = int(sys.argv[1]) if len(sys.argv) > 1 else 65_536
RATE = int(sys.argv[2]) if len(sys.argv) > 2 else 1_000
sys.argv = [sys.argv[0], GLB]
sys.path.insert(0, str(TOP / "examples"))
import handed_in as hands  # noqa: E402


class Asker(threading.Thread):
    """Asks at that rate until it is told to stop."""

    def __init__(self, port):
        super().__init__()
        self.clients = [hands.client(port) for _ in range(16)]
        # what waited is answered at once, and each has to hold its share of these replies
        for client in self.clients:
            client.setsockopt(socket.SOL_SOCKET, socket.SO_RCVBUF, 4 << 20)
        self.sent, self.came, self.ends = {}, {}, False

    def take(self, wait):
        for client in select.select(self.clients, [], [], wait)[0]:
            try:
                octets = client.recv(4096)
            except OSError:
                continue
            self.came.setdefault(struct.unpack(">H", octets[:2])[0], time.monotonic())

    def run(self):
        start = time.monotonic()
        while not self.ends:
            number = len(self.sent)
            due = start + number / RATE
            while (wait := due - time.monotonic()) > 0:
                self.take(wait)
            self.sent[number] = time.monotonic()
            try:
                self.clients[number % 16].send(struct.pack(">H", number) + hands.QUERY[2:])
            except OSError:
                pass
            self.take(0)
        last = time.monotonic()
        while time.monotonic() < last + 5 and len(self.came) < len(self.sent):
            self.take(0.1)


def up(port):
    """Waits until a server answers there; seconds."""
    start = time.monotonic()
    while not hands.is_up(port):
        pass
    return time.monotonic() - start


def measure(topology, handed, port):
    hands.TOPOLOGY = topology
    server = hands.Server(handed, port)
    up(port)
    asker = Asker(port)
    asker.start()
    time.sleep(1)
    server.kill()
    server = hands.Server(handed, port)
    gap = up(port)
    time.sleep(1)
    asker.ends = True
    asker.join()
    server.kill()
    late = sum(asker.came[n] - at > 0.05 for n, at in asker.sent.items() if n in asker.came)
    return len(asker.sent), late, len(asker.sent) - len(asker.came), gap


def main():
    with tempfile.TemporaryDirectory() as work:
        topology = f"{work}/topology"
        subprocess.run([sys.executable, str(TOP / "bench/generate.py"), str(GROUPS), "2048", "1", "1000", topology], capture_output=True, check=True)
        print(f"{GROUPS} groups, {RATE} queries a second, load {os.getloadavg()[0]:.1f}")
        print("| Sockets | Sent | Late | Lost | Seconds to the first answer |\n|---|---|---|---|---|")
        probe, port = hands.datagrams(1)
        probe[0].close()
        handed, at = hands.datagrams(2)
        for name, handed, at in [("its own", [], port), ("two handed in", handed, at)]:
            sent, late, lost, gap = measure(topology, handed, at)
            print(f"| {name} | {sent} | {late} | {lost} | {gap:.1f} |", flush=True)


main()
