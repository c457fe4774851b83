#!/usr/bin/env python3
"""How far a stranger can steer which pool others get, with and without the launcher's filter.

    steer.py [SECONDS]        with the program in GLB; needs tools/glb-launch

A worker's draw follows a published sequence over all datagrams that it reads, silent ones too. So a stranger asks once,
finds the place in the sequence, and sends datagrams until the next draw falls to the pool that he wants. Here one group
is spread over sixteen pools of equal amounts, quiet clients ask at random times, a hundred times a second in all, and
the stranger wants one pool of the sixteen: by junk that has no reply, and by true queries, each of which shows him the
draw. It says the share of quiet clients that got the wanted pool (a sixteenth is 6.25 %), and his datagrams a second.
"""

import os
import random
import socket
import struct
import subprocess
import sys
import tempfile
import threading
import time
from pathlib import Path

TOP = Path(__file__).resolve().parents[1]
GLB = os.environ.get("GLB", str(TOP / "crates/glb_program/out/glb_program"))
SECONDS = float(sys.argv[1]) if len(sys.argv) > 1 else 10
POOLS, AMOUNT, WANTED = 16, 10, 5
NAME = b"\3www\3cdn\7example\0"
QUERY = struct.pack(">6H", 7, 0, 1, 0, 0, 0) + NAME + struct.pack(">2H", 1, 1)
# twelve octets with the QR bit: no reply, and counted by a worker that reads it
JUNK = bytes([0, 0, 0x80, 0]) + bytes(8)


def topology():
    """One group, spread evenly over sixteen pools."""
    text = '[zone]\napex = "cdn.example"\nmname = "ns1.ops.example"\nrname = "admin.ops.example"\nserial = 1\nrefresh = 3600\nretry = 600\n'
    text += 'expire = 86400\nminimum = 60\nttl = 20\nns = ["ns1.ops.example"]\nservices = ["www"]\n'
    for pool in range(POOLS):
        text += f'[[node]]\nname = "p{pool}"\ncapacity = {AMOUNT}\npool = true\na = ["192.0.2.{pool + 1}"]\n'
    names = ", ".join(f'"p{pool}"' for pool in range(POOLS))
    scores = ", ".join(map(str, range(POOLS)))
    return text + f'[[group]]\nname = "all"\ndemand = {POOLS * AMOUNT}\npools = [{names}]\nscores = [{scores}]\nprefixes = ["0.0.0.0/0", "::/0"]\n'


def pool_of(number):
    """The pool of a worker's draw for its message of that number, of the first worker."""
    draw = ((number + 1) * 11400714819323198485) % 2**64
    return (draw * POOLS * AMOUNT >> 64) // AMOUNT


# the pools of the first draws, one octet each
SEQUENCE = bytes(pool_of(number) for number in range(1_000_000))


def client(port, host):
    made = socket.socket(socket.AF_INET, socket.SOCK_DGRAM)
    made.bind((host, 0))
    made.connect(("127.0.0.1", port))
    made.settimeout(2)
    return made


def ask(made):
    """The pool that a query is answered with."""
    made.send(QUERY)
    return made.recv(512)[-1] - 1


class Stranger(threading.Thread):
    def __init__(self, port, junk, most=None):
        super().__init__(daemon=True)
        self.client, self.junk = client(port, "127.0.0.66"), junk
        self.sent, self.over = 0, False
        # how many a second the network lets through of one sender
        self.most, self.began = most, time.monotonic()

    def ask(self):
        self.sent += 1
        if self.most:
            time.sleep(max(0, self.began + self.sent / self.most - time.monotonic()))
        return ask(self.client)

    def place(self, least=0, most=len(SEQUENCE)):
        """Where in the sequence the worker is, by some draws in a row; where others get between them, by the next ones."""
        while not self.over:
            seen = bytes(self.ask() for _ in range(12))
            found = SEQUENCE.find(seen, least, most)
            if found >= 0:
                return found + len(seen) - 1
        return 0

    def run(self):
        at = self.place()
        while not self.over:
            # the nearest place with the pool that he gets: few others asked meanwhile
            at = SEQUENCE.find(self.ask(), at + 1, at + 60)
            if at < 0:
                at = self.place()
                continue
            while SEQUENCE[at + 1] != WANTED:
                if self.junk:
                    self.client.send(JUNK)
                    self.sent += 1
                else:
                    self.ask()
                at += 1
            time.sleep(0.003)


def shares(port, seconds):
    """Of quiet clients, who ask from ports of their own, how many got each pool."""
    got, until = [0] * POOLS, time.monotonic() + seconds
    made = client(port, "127.0.0.9")
    while time.monotonic() < until:
        time.sleep(random.expovariate(100))
        got[ask(made)] += 1
    return got


def run(launched, junk, most, folder, port):
    words = [GLB, "serve", str(folder / "T"), "--listen", f"127.0.0.1:{port}"]
    if launched:
        words = [str(TOP / "tools/glb-launch"), "--", *words]
    server = subprocess.Popen(words, stdin=subprocess.PIPE, stdout=subprocess.DEVNULL, stderr=subprocess.DEVNULL)
    try:
        time.sleep(1)
        stranger = Stranger(port, junk, most) if junk is not None else None
        if stranger:
            stranger.start()
            time.sleep(1)
            before, began = stranger.sent, time.monotonic()
        got = shares(port, SECONDS)
        rate = (stranger.sent - before) / (time.monotonic() - began) if stranger else 0
        if stranger:
            stranger.over = True
            stranger.join(5)
        return 100 * got[WANTED] / sum(got), sum(got), rate
    finally:
        server.kill()
        server.wait()


def main():
    with tempfile.TemporaryDirectory() as name:
        folder = Path(name)
        (folder / "T").write_text(topology())
        with socket.socket(socket.AF_INET, socket.SOCK_DGRAM) as free:
            free.bind(("127.0.0.1", 0))
            port = free.getsockname()[1]
        print("| Sockets | Stranger | Wanted pool, % of quiet clients' answers | Answers | His datagrams a second |\n|---|---|---|---|---|")
        for launched in (False, True):
            for stranger, junk, most in (
                ("none", None, None),
                ("junk without a reply", True, None),
                ("true queries", False, None),
                ("true queries, 200 a second at most", False, 200),
            ):
                share, count, rate = run(launched, junk, most, folder, port)
                print(f"| {'of the launcher' if launched else 'its own'} | {stranger} | {share:.1f} | {count} | {rate:,.0f} |", flush=True)


main()
