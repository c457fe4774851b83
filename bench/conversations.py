#!/usr/bin/python3
"""Hard clients of a running `glb serve --tcp`, on loopback: what they get, and what the server holds meanwhile.

    bench/conversations.py

Clients that say an octet at a time, five hundred questions at once, a length past 4,096, half a message, and half-close;
two hundred that say nothing; a hundred resets; ten that never read; more connections of one address and in all than the
server holds; crowds whose questions have come before the first of them is taken in, as a queue at a server that stood still;
ten thousand in a row, while its feed publishes maps. GLB names the program, the built one if it is not set.
The replies are those of the example topology. The last line counts, and the status is 0 where nothing failed; times are
said and decide nothing, but that a question beside silent clients is answered within a tenth of a second.
"""

import os
import signal
import socket
import struct
import threading
import time

import interop
from interop import FILES, expect
from interop_serve import QUESTION, Server, framed, head

MESSAGE = framed(head() + QUESTION)
REPLY = 51
# how many connections the server holds, and how many of one address (docs/operating/limits.md)
HELD, OF_ONE = 256, 32


def connect(port, source=None):
    # (to bind would make the system look long for a port, where many were just used)
    client = socket.create_connection(("127.0.0.1", port), 15, source and (source, 0))
    client.setsockopt(socket.IPPROTO_TCP, socket.TCP_NODELAY, 1)
    return client


def read(client, count):
    octets = b""
    while len(octets) < count:
        more = client.recv(count - len(octets))
        if not more:
            break
        octets += more
    return octets


def is_reply(octets):
    return len(octets) == REPLY and octets[:4] == b"\0\x31\x12\x34" and octets[5] & 15 == 0


def is_closed(client):
    try:
        return client.recv(1) == b""
    except ConnectionResetError:
        return True


def reset(client):
    client.setsockopt(socket.SOL_SOCKET, socket.SO_LINGER, struct.pack("ii", 1, 0))
    client.close()


class Process:
    """What the system says of the server's process."""

    def __init__(self, pid):
        self.pid = pid
        self.before = len(os.listdir(f"/proc/{pid}/fd"))

    def connections(self):
        """How many descriptors it holds beyond those that it held before its first conversation."""
        return len(os.listdir(f"/proc/{self.pid}/fd")) - self.before

    def memory(self):
        with open(f"/proc/{self.pid}/status") as status:
            return int(next(line for line in status if line.startswith("VmRSS")).split()[1])

    def seconds(self):
        with open(f"/proc/{self.pid}/stat") as stat:
            fields = stat.read().split()
        return (int(fields[13]) + int(fields[14])) / os.sysconf("SC_CLK_TCK")


def times_of(port, count):
    """How long a question by a new connection takes, in milliseconds: the median and the longest."""
    times, right = [], 0
    for _ in range(count):
        start = time.monotonic()
        with connect(port) as client:
            client.sendall(MESSAGE)
            right += is_reply(read(client, REPLY))
        times.append(1000 * (time.monotonic() - start))
    times.sort()
    return right == count, times[len(times) // 2], times[-1]


def asked(what, port, count=50, longest=None):
    right, median, most = times_of(port, count)
    print(f"{what}: median {median:.2f} ms, longest {most:.2f} ms")
    expect(what, right and (longest is None or most <= longest), True)


def slow_and_fast(port):
    with connect(port) as client:
        for octet in MESSAGE + MESSAGE:
            client.sendall(bytes([octet]))
        expect("octet by octet", [is_reply(read(client, REPLY)) for _ in range(2)], [True, True])
    with connect(port) as client:
        client.sendall(MESSAGE * 500)
        expect("five hundred at once", all(is_reply(read(client, REPLY)) for _ in range(500)), True)
    with connect(port) as client:
        client.sendall(MESSAGE + b"\x10\x01" + bytes(10))
        expect("a length past 4,096", (is_reply(read(client, REPLY)), is_closed(client)), (True, True))
    with connect(port) as client:
        client.sendall(MESSAGE + MESSAGE[:5])
        client.shutdown(socket.SHUT_WR)
        expect("half-closed behind half a message", (is_reply(read(client, REPLY)), is_closed(client)), (True, True))


def silent(port, process):
    clients = [connect(port, f"127.0.0.{2 + number // 25}") for number in range(200)]
    time.sleep(0.3)
    expect("two hundred that say nothing are held", process.connections(), 200)
    asked("a question beside them", port, 100, 100)
    start = time.monotonic()
    expect("they are closed", all(is_closed(client) for client in clients), True)
    print(f"they are closed {time.monotonic() - start:.1f} s behind that")
    time.sleep(1)
    expect("their descriptors are free", process.connections(), 0)
    used = process.seconds()
    time.sleep(3)
    print(f"processor in 3 s with nobody connected: {process.seconds() - used:.2f} s")


def rude(port, process):
    for number in range(100):
        client = connect(port)
        client.sendall((MESSAGE * 3 if number % 2 else b"") + MESSAGE[:9])
        reset(client)
    asked("a question behind a hundred resets", port)
    time.sleep(0.3)
    expect("descriptors behind the resets", process.connections(), 0)
    clients = []
    for number in range(10):
        client = connect(port, f"127.0.1.{2 + number}")
        client.setblocking(False)
        try:
            while True:
                client.send(MESSAGE * 100)
        except BlockingIOError:
            clients.append(client)
    asked("a question beside ten that never read", port)
    for client in clients:
        client.close()
    time.sleep(0.5)
    expect("descriptors behind them", process.connections(), 0)


def crowded(port, process):
    clients = [connect(port) for _ in range(60)]
    time.sleep(0.3)
    expect("sixty of one address", process.connections(), OF_ONE)
    clients[-1].sendall(MESSAGE)
    expect("the newest of them is answered", is_reply(read(clients[-1], REPLY)), True)
    for client in clients:
        client.close()
    clients = [connect(port, f"127.0.2.{2 + number // 25}") for number in range(400)]
    time.sleep(0.5)
    expect("four hundred of sixteen addresses", process.connections(), HELD)
    asked("a question beside them", port, 10)
    for client in clients:
        client.close()
    time.sleep(0.5)
    expect("descriptors behind them", process.connections(), 0)


def queued(port, pid, count, addresses):
    """How many of so many clients are answered, all of which have asked before the server takes the first of them in."""
    os.kill(pid, signal.SIGSTOP)
    clients = []
    for number in range(count):
        client = connect(port, f"127.0.4.{1 + number % addresses}")
        client.sendall(MESSAGE)
        clients.append(client)
    os.kill(pid, signal.SIGCONT)
    right = 0
    for client in clients:
        try:
            right += is_reply(read(client, REPLY))
        except OSError:
            pass
        client.close()
    return right


def crowds(port, pid):
    for count, addresses in [(OF_ONE, 1), (40, 1), (200, 1), (HELD + 1, 250), (1_000, 250)]:
        expect(f"{count} that wait, of {addresses} addresses", queued(port, pid, count, addresses), count)


def slow(port):
    """A client that asks much and takes its replies slowly, and one whose messages get no reply."""
    with socket.socket() as client, connect(port, "127.0.5.1") as idle:
        client.setsockopt(socket.SOL_SOCKET, socket.SO_RCVBUF, 2048)
        client.settimeout(15)
        client.connect(("127.0.0.1", port))
        threading.Thread(target=lambda: client.sendall(MESSAGE * 20_000), daemon=True).start()
        start, octets = time.monotonic(), 0
        closed = None
        while octets < 20_000 * REPLY:
            octets += len(read(client, 2_000))
            time.sleep(max(0, start + octets / 40_000 - time.monotonic()))
            if closed is None and time.monotonic() - start > 9:
                closed = time.monotonic()
                idle.sendall(b"\0\3abc")
        expect("one that takes 40 kB a second", octets, 20_000 * REPLY)
        expect("a message of three octets keeps nobody open", is_closed(idle), True)


def many(server, process):
    """Ten thousand conversations, while a hundred maps are published that leave the first group where it is."""
    asked("a question before them", server.port)
    memory, start, right = process.memory(), time.monotonic(), 0
    for number in range(10_000):
        if number % 100 == 0:
            server.say(f"demand g2 {7 + number // 100 % 2}", "commit")
            expect("the commit's answer", server.line().startswith("published "), True)
        with connect(server.port) as client:
            client.sendall(MESSAGE)
            right += is_reply(read(client, REPLY))
    time.sleep(0.3)
    print(f"ten thousand in a row: {time.monotonic() - start:.1f} s, memory {memory} to {process.memory()} KiB")
    expect("ten thousand in a row", right, 10_000)
    expect("descriptors behind them", process.connections(), 0)
    expect("memory behind them", process.memory() - memory < 512, True)


def main():
    with Server(FILES[0], "127.0.0.1", tcp=True) as server:
        process = Process(server.process.pid)
        asked("a question alone", server.port)
        slow_and_fast(server.port)
        silent(server.port, process)
        rude(server.port, process)
        crowded(server.port, process)
        crowds(server.port, server.process.pid)
        slow(server.port)
        many(server, process)
    interop.tell()


if __name__ == "__main__":
    main()
