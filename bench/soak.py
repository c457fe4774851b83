#!/usr/bin/env python3
"""A server under all of its load for a long time: what it answers, and whether it grows.

    apt-get update
    apt-get install gcc libc6-dev
    bench/soak.py [--minutes N] [--rate N]

`glb serve` with two workers, `--tcp` and four feeds, on loopback. bench/flood.c asks by datagrams as fast as they are
answered, twenty-five clients hold conversations, and twenty-five more misbehave in them: they say an octet at a time, half
a message, a length past 4,096 or no message at all, never read, reset, or close and come back. Standard input and three
named pipes change demands and capacities all the while. Beside this two clients by datagrams and the twenty-five ask RATE
times a second in all (1,500), and each of these replies is compared, as in fuzz_serve.py, with those of the maps that could
have answered; the lines of all feeds are compared with what second.py says of them. Every ten seconds the memory, threads
and descriptors of the process are noted.

GLB names the program, the built one if it is not set. Status 0 where no reply differs, none is lost by the clients in
conversations, and nothing grows: at the end of the time at most a hundredth more memory than after its first fifth, and no
more threads.
"""

import argparse
import multiprocessing
import os
import random
import socket
import struct
import subprocess
import sys
import threading
import time
from array import array
from pathlib import Path

import fuzz_serve
import second
from fuzz_serve import STATES, TOPOLOGY, Conversation

KEEPING, MISBEHAVING, DATAGRAMS = 25, 25, 2
HERE = Path(__file__).resolve().parent


class Server(fuzz_serve.Server):
    """One with four feeds, whose lines are told by feed."""

    def __init__(self, folder):
        with socket.socket(socket.AF_INET, socket.SOCK_DGRAM) as probe:
            probe.bind(("127.0.0.1", 0))
            self.port = probe.getsockname()[1]
        self.folder = Path(folder)
        (self.folder / "topology.toml").write_bytes(TOPOLOGY)
        listen = f"127.0.0.1:{self.port}"
        words = [fuzz_serve.GLB, "serve", str(self.folder / "topology.toml"), "--listen", listen, "--workers", "2", "--tcp", listen]
        for number in (2, 3, 4):
            os.mkfifo(self.folder / f"feed{number}")
            words += [f"--feed{number}", str(self.folder / f"feed{number}")]
        self.process = subprocess.Popen(words, stdin=subprocess.PIPE, stdout=subprocess.PIPE, stderr=subprocess.PIPE)
        self.lines, self.times, self.maps = [], [], []
        self.readers = [threading.Thread(target=self.read_lines), threading.Thread(target=self.read_maps)]
        for reader in self.readers:
            reader.start()
        pipes = [open(self.folder / f"feed{number}", "wb", buffering=0) for number in (2, 3, 4)]
        self.feeds = [self.process.stdin, *pipes]
        self.fed = [[] for _ in self.feeds]

    def say_to(self, place, text):
        self.fed[place].append(text)
        self.feeds[place].write(text)
        self.feeds[place].flush()

    def size(self):
        """Memory in KiB, threads and descriptors."""
        return self.memory(), len(os.listdir(f"/proc/{self.process.pid}/task")), len(os.listdir(f"/proc/{self.process.pid}/fd"))

    def end(self):
        for place, feed in enumerate(self.feeds):
            self.say_to(place, b"stop\n")
            feed.close()
        status = self.process.wait(60)
        for reader in self.readers:
            reader.join()
        return status


# Clients.


class Kept(Conversation):
    """A conversation from an address of its own, of those that a server holds for one address."""

    def __init__(self, port, number):
        self.socket, self.held, self.at = socket.create_connection(("127.0.0.1", port), 5, (f"127.0.1.{number + 1}", 0)), bytearray(), 0
        self.socket.setsockopt(socket.IPPROTO_TCP, socket.TCP_NODELAY, 1)
        self.settimeout, self.setblocking = self.socket.settimeout, self.socket.setblocking
        self.settimeout(2.0)


def ask_all(number, port, datagrams, seconds, pause, is_tcp, channel):
    """Asks one question after another, and keeps when each was asked and answered, and how."""
    rng = random.Random(number)
    end = time.monotonic() + seconds
    records, kinds, lost = [array("I"), array("Q"), array("Q"), array("I")], {}, 0
    client = Kept(port, number) if is_tcp else socket.socket(socket.AF_INET, socket.SOCK_DGRAM)
    if not is_tcp:
        client.connect(("127.0.0.1", port))
        client.settimeout(2.0)
    asked = 0
    while time.monotonic() < end:
        index = rng.randrange(len(datagrams))
        asked += 1
        ident = (asked & 0xFFFF).to_bytes(2)
        begin = time.monotonic_ns()
        try:
            client.send(ident + datagrams[index][2:])
            reply = client.recv(8192)
            while reply[:2] != ident:
                reply = client.recv(8192)
        except (TimeoutError, ConnectionError):
            lost += 1
            if is_tcp:
                client = Kept(port, number)
            continue
        for column, value in zip(records, (index, begin, time.monotonic_ns(), kinds.setdefault(reply[2:], len(kinds)))):
            column.append(value)
        time.sleep(pause * rng.random() * 2)
    channel.send("done")
    maps, commits, published = channel.recv()
    wrong = []
    judged = fuzz_serve.judge(datagrams, records, list(kinds), maps, commits, published, wrong)
    channel.send((asked, lost, judged, wrong[:5], len(wrong)))


def misbehave(number, port, seconds):
    """Opens one conversation after another, and does in each what no client should."""
    rng = random.Random(1000 + number)
    end = time.monotonic() + seconds
    message = fuzz_serve.plain_queries()[0]
    framed = len(message).to_bytes(2) + message
    while time.monotonic() < end:
        try:
            client = socket.create_connection(("127.0.0.1", port), 5)
            client.settimeout(1.0)
            way = rng.randrange(7)
            if way == 0:
                for at in range(len(framed)):
                    client.send(framed[at : at + 1])
                    time.sleep(0.02)
                client.recv(4096)
            elif way == 1:
                client.send(framed[: rng.randrange(1, len(framed))])
                time.sleep(rng.random() * 3)
            elif way == 2:
                client.send((4097 + rng.randrange(60000)).to_bytes(2) + rng.randbytes(500))
                client.recv(4096)
            elif way == 3:
                time.sleep(rng.random() * 12)
            elif way == 4:
                for _ in range(2000):
                    client.send(framed * 20)
            elif way == 5:
                client.send(framed * 3)
                client.setsockopt(socket.SOL_SOCKET, socket.SO_LINGER, struct.pack("ii", 1, 0))
            else:
                client.send(framed)
                client.shutdown(socket.SHUT_WR)
                client.recv(4096)
            client.close()
        except OSError:
            time.sleep(0.05)


def change(server, place, seconds, commits, lock):
    """Writes changes and commits to one feed, each commit with a change of its own ahead."""
    rng = random.Random(place)
    end = time.monotonic() + seconds
    while time.monotonic() < end:
        word, name, values = rng.choice(STATES)
        text = f"{word} {name} {rng.choice(values)}\ncommit\n"
        if rng.randrange(40) == 0:
            text += "guess\ncommit\nshow\n"
        with lock:
            commits.append(time.monotonic_ns())
            server.say_to(place, text.encode())
        time.sleep(0.2 * rng.random())


def flood(folder, port, seconds):
    """The load by datagrams."""
    program = folder / "flood"
    subprocess.run([os.environ.get("CC", "cc"), "-O2", "-pthread", "-o", str(program), str(HERE / "flood.c")], check=True)
    messages = folder / "messages"
    messages.write_bytes(b"".join(len(octets).to_bytes(2) + octets for octets in fuzz_serve.plain_queries()))
    return subprocess.Popen([str(program), str(port), str(seconds), "1", "8", "16", str(messages)], stdout=subprocess.PIPE)


def history(server):
    """The maps by their serials, alike ones as one object, and when each was said to be published."""
    topology, alike, maps = second.Topology(TOPOLOGY), {}, []
    for text in b"".join(server.maps).split(b"end\n")[:-1]:
        if text not in alike:
            alike[text] = second.Map(topology, text + b"end\n")
        maps.append(alike[text])
    published = [0]
    for line, at in zip(server.lines, server.times):
        words = line.split()
        if words[1] == b"published" and int(words[2]) == len(published):
            published.append(at)
    return topology, maps, published


def main():
    parser = argparse.ArgumentParser(description=__doc__, formatter_class=argparse.RawDescriptionHelpFormatter)
    parser.add_argument("--minutes", type=float, default=40)
    parser.add_argument("--rate", type=float, default=1500)
    options = parser.parse_args()
    seconds = options.minutes * 60
    datagrams = fuzz_serve.plain_queries()
    with fuzz_serve.tempfile.TemporaryDirectory() as folder:
        server = Server(folder)
        server.wait()
        load = flood(server.folder, server.port, seconds)
        clients = []
        for number in range(DATAGRAMS + KEEPING):
            here, there = multiprocessing.Pipe()
            words = (number, server.port, datagrams, seconds, (DATAGRAMS + KEEPING) / options.rate, number >= DATAGRAMS, there)
            clients.append((multiprocessing.Process(target=ask_all, args=words), here))
        bad = [multiprocessing.Process(target=misbehave, args=(number, server.port, seconds)) for number in range(MISBEHAVING)]
        commits, lock = [0], threading.Lock()
        feeding = [threading.Thread(target=change, args=(server, place, seconds, commits, lock)) for place in range(4)]
        for part in [client for client, _ in clients] + bad + feeding:
            part.start()
        begun, sizes = time.monotonic(), []
        while time.monotonic() - begun < seconds:
            sizes.append(server.size())
            time.sleep(min(10, max(0.1, seconds / 20)))
        for part in feeding + bad:
            part.join()
        for _, channel in clients:
            channel.recv()
        asked, answered = load.communicate()[0].decode().split()[:2]
        time.sleep(1)
        sizes.append(server.size())
        status = server.end()
        tell(server, clients, commits, sizes, status, (asked, answered))


def tell(server, clients, commits, sizes, status, load):
    topology, maps, published = history(server)
    said = b"".join(server.lines).decode()
    text, is_good = second.merged_text(topology, [b"".join(fed) for fed in server.fed], maps, said)
    faults = []
    if status != 0:
        faults.append(f"status {status}")
    if said != text or not is_good:
        faults.append(f"the lines or the maps differ: {is_good}")
    if len(maps) != len(commits) or len(published) != len(maps):
        faults.append(f"{len(maps)} maps, {len(commits)} commits, {len(published)} published")
    for _, channel in clients:
        channel.send((maps, commits[: len(maps)], published))
    total = {}
    for place, (process, channel) in enumerate(clients):
        asked, lost, judged, wrong, many = channel.recv()
        process.join()
        kind = "conversations" if place >= DATAGRAMS else "datagrams"
        total[f"asked by {kind}"] = total.get(f"asked by {kind}", 0) + asked
        total[f"lost by {kind}"] = total.get(f"lost by {kind}", 0) + lost
        total["compared"] = total.get("compared", 0) + judged["compared"]
        if many:
            faults.append(f"{many} replies differ")
            faults += [repr(one)[:900] for one in wrong]
    if total["lost by conversations"]:
        faults.append(f"{total['lost by conversations']} lost in conversations")
    early, late = sizes[len(sizes) // 5], sizes[-1]
    if late[0] > early[0] * 1.01 or late[1] > early[1]:
        faults.append("it grew")
    print(f"maps {len(maps)}, load asked {load[0]} and got {load[1]}", ", ".join(f"{name} {count}" for name, count in total.items()), sep=", ")
    print("memory in KiB, threads, descriptors:", *sizes[:: max(1, len(sizes) // 12)], sizes[-1])
    print(*faults, sep="\n", end="\n" if faults else "")
    print("all as due" if not faults else f"{len(faults)} faults")
    raise SystemExit(1 if faults else 0)


if __name__ == "__main__":
    main()
