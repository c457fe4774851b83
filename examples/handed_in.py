#!/usr/bin/env python3
"""Starts `glb serve` with sockets that it is handed in, as systemd would (LISTEN_FDS, LISTEN_PID), and with its own, and asks it.

    examples/handed_in.py [GLB]     the built program if it is not given

It says how many comparisons passed and failed. What comes while no server runs has to be answered by the next one. Each wait
is bounded, and all of it ends within two minutes: a server that is dead is asked for five seconds, and then no more.
"""

import os
import signal
import socket
import struct
import subprocess
import sys
import time
from pathlib import Path

TOP = Path(__file__).resolve().parent.parent
TOPOLOGY = TOP / "examples/tree.toml"
GLB = sys.argv[1] if len(sys.argv) > 1 else str(TOP / "crates/glb_program/out/glb_program")
QUERY = struct.pack(">HHHHHH", 0x1234, 0x0100, 1, 0, 0, 0) + b"\3www\3cdn\7example\0" + struct.pack(">HH", 1, 1)
passed = failed = 0


def expect(what, got, wanted):
    global passed, failed
    if got == wanted:
        passed += 1
    else:
        failed += 1
        print(f"{what}: got {got}, wanted {wanted}")


def datagrams(count, port=0, family=socket.AF_INET, host="127.0.0.1"):
    """So many sockets of UDP at one place."""
    made = []
    for _ in range(count):
        one = socket.socket(family, socket.SOCK_DGRAM)
        one.setsockopt(socket.SOL_SOCKET, socket.SO_REUSEPORT, 1)
        one.setsockopt(socket.SOL_SOCKET, socket.SO_RCVBUF, 4 << 20)
        one.bind((host, port))
        port = one.getsockname()[1]
        made.append(one)
    return made, port


def listener(port, at="127.0.0.1"):
    made = socket.socket()
    made.setsockopt(socket.SOL_SOCKET, socket.SO_REUSEADDR, 1)
    made.bind((at, port))
    made.listen(64)
    return made


def both(count):
    """So many sockets of UDP and a listener at one place."""
    while True:
        made, port = datagrams(count)
        try:
            return made, listener(port), port
        except OSError:
            for one in made:
                one.close()


class Server:
    """A server that is handed these, whose feed stays open until it is left."""

    def __init__(self, handed, port, workers=2, tcp=False, pid=None, at="127.0.0.1"):
        feed, self.feed = os.pipe()
        words = [GLB, "serve", str(TOPOLOGY), "--listen", f"{at}:{port}", "--workers", str(workers)]
        words += ["--tcp", f"{at}:{port}"] if tcp else []
        self.pid = os.fork()
        if self.pid == 0:
            null = os.open("/dev/null", os.O_RDWR)
            # above all that will be theirs, so that none is lost while they are put in order
            kept = [os.dup2(it.fileno(), 100 + n) for n, it in enumerate(handed)]
            feed = os.dup2(feed, 90)
            for fd, to in [(feed, 0), (null, 1), (null, 2)]:
                os.dup2(fd, to)
            for n, fd in enumerate(kept):
                os.dup2(fd, 3 + n)
            os.closerange(3 + len(kept), 256)
            os.environ.update(LISTEN_FDS=str(len(kept)), LISTEN_PID=str(pid or os.getpid()))
            try:
                os.execv(GLB, words)
            finally:
                os._exit(127)
        os.close(feed)

    def holds(self, handed):
        """Whether it has these open, each at its descriptor."""
        try:
            theirs = [os.readlink(f"/proc/{self.pid}/fd/{3 + n}") for n in range(len(handed))]
        except OSError:
            return False
        return theirs == [os.readlink(f"/proc/self/fd/{it.fileno()}") for it in handed]

    def kill(self):
        os.kill(self.pid, signal.SIGKILL)
        return self.end()

    def end(self):
        if self.feed is not None:
            os.close(self.feed)
            self.feed = None
        for _ in range(200):
            pid, status = os.waitpid(self.pid, os.WNOHANG)
            if pid:
                return os.waitstatus_to_exitcode(status)
            time.sleep(0.05)
        os.kill(self.pid, signal.SIGKILL)
        os.waitpid(self.pid, 0)
        return "it did not end within ten seconds"


def waiting_at(one):
    """The datagram that waits at a socket, if there is one."""
    try:
        return one.recv(4096, socket.MSG_DONTWAIT)
    except BlockingIOError:
        return None


def client(port, at="127.0.0.1"):
    made = socket.socket(socket.AF_INET, socket.SOCK_DGRAM)
    made.settimeout(5)
    made.connect((at, port))
    return made


def answered(clients, seconds=5):
    """How many of these, which have asked, get a reply, all within so many seconds."""
    count, end = 0, time.monotonic() + seconds
    for one in clients:
        one.settimeout(max(end - time.monotonic(), 0.001))
        try:
            count += one.recv(4096)[2] & 0x80 != 0
        except OSError:
            pass
    return count


def ask(port, count=64):
    """How many of so many clients get a reply."""
    clients = [client(port) for _ in range(count)]
    for one in clients:
        one.send(QUERY)
    return answered(clients)


def is_up(port):
    """Waits until it answers, two seconds at most."""
    for _ in range(20):
        one = client(port)
        one.settimeout(0.1)
        try:
            one.send(QUERY)
            return one.recv(4096)[2] & 0x80 != 0
        except OSError:
            time.sleep(0.02)
    return False


def ask_late(connection):
    """One that has asked, and has no reply yet."""
    connection.sendall(struct.pack(">H", len(QUERY)) + QUERY)
    return connection


def has_reply(connection):
    try:
        return len(connection.recv(4096)) > 2
    except OSError:
        return False


def ask_tcp(connection):
    return has_reply(ask_late(connection))


def seconds_of(pid):
    """How long a process had the processor, in seconds."""
    with open(f"/proc/{pid}/stat") as stat:
        fields = stat.read().rpartition(")")[2].split()
    return (int(fields[11]) + int(fields[12])) / os.sysconf("SC_CLK_TCK")


def over_restarts(handed, port, times, workers=2, each=20):
    """How many of the queries that are sent while no server runs get a reply, over so many restarts by a signal."""
    count = 0
    for _ in range(times):
        clients = [client(port) for _ in range(each)]
        for one in clients:
            one.send(QUERY)
        server = Server(handed, port, workers)
        came = answered(clients)
        count += came
        server.kill()
        if came == 0:
            break
    return count


def main():
    # a socket for each worker
    handed, port = datagrams(2)
    server = Server(handed, port)
    expect("two sockets, two workers", ask(port), 64)
    server.kill()
    expect("what came while none ran, over thirty restarts", over_restarts(handed, port, 30), 600)
    server = Server(handed, port, workers=3)
    expect("two sockets, three workers", ask(port), 64)
    expect("the end of the feed", server.end(), 0)
    # one socket
    handed, port = datagrams(1)
    expect("one socket, two workers", over_restarts(handed, port, 2), 40)
    # what is none of UDP that is bound there is left alone
    other, elsewhere = datagrams(1)
    handed, beside, port = both(2)
    with open("/dev/null", "rb") as file:
        all_of_it = [file, *other, handed[0], beside, handed[1]]
        server = Server(all_of_it, port)
        client(elsewhere).send(QUERY)
        expect("two sockets among others", ask(port), 64)
        expect("all of it is still open", server.holds(all_of_it), True)
        server.kill()
    expect("what came elsewhere was left there", waiting_at(other[0]), QUERY)
    probe, port = datagrams(1)
    probe[0].close()
    server = Server(other, port)
    expect("a socket of another port", is_up(port), True)
    server.kill()
    six, port = datagrams(1, family=socket.AF_INET6, host="::")
    expect("a socket of the other family has the port", Server(six, port).end(), 5)
    handed, port = datagrams(1)
    expect("handed to another process", Server(handed, port, pid=1).end(), 5)
    # sockets of its own
    probe, port = datagrams(1)
    probe[0].close()
    server = Server([], port)
    expect("sockets of its own", is_up(port) and ask(port), 64)
    expect("another server at their place", Server([], port, workers=1).end(), 5)
    expect("asked beside that", ask(port), 64)
    server.kill()
    # a listener
    handed, waiting, port = both(2)
    server = Server([*handed, waiting], port, tcp=True)
    expect("by TCP", ask_tcp(socket.create_connection(("127.0.0.1", port), 5)), True)
    server.kill()
    connection = socket.create_connection(("127.0.0.1", port), 5)
    server = Server([*handed, waiting], port, tcp=True)
    expect("a connection that came while none ran", ask_tcp(connection), True)
    expect("by UDP beside it", ask(port), 64)
    # more than have places wait while none runs, and some come behind the end of the feed
    server.kill()
    crowd = [ask_late(socket.create_connection(("127.0.0.1", port), 5)) for _ in range(60)]
    server = Server([*handed, waiting], port, tcp=True)
    expect("sixty of one address that came while none ran", sum(map(has_reply, crowd)), 60)
    expect("the end of the feed beside them", server.end(), 0)
    late = ask_late(socket.create_connection(("127.0.0.1", port), 5))
    server = Server([*handed, waiting], port, tcp=True)
    expect("one that came behind the end", has_reply(late), True)
    server.kill()
    # sockets that wait for nothing do as the others
    for one in [*handed, waiting]:
        one.setblocking(False)
    server = Server([*handed, waiting], port, tcp=True)
    expect("sockets that wait for nothing", (ask(port), ask_tcp(socket.create_connection(("127.0.0.1", port), 5))), (64, True))
    used = seconds_of(server.pid)
    time.sleep(1)
    expect("they cost nothing where nobody asks", seconds_of(server.pid) - used < 0.2, True)
    server.kill()
    # sockets that cannot serve
    one, port = datagrams(1)
    one[0].connect(("127.0.0.1", 9))
    expect("a socket of UDP that is connected", Server(one, port).end(), 5)
    handed, deaf, port = both(2)
    deaf.close()
    deaf = socket.socket()
    deaf.setsockopt(socket.SOL_SOCKET, socket.SO_REUSEADDR, 1)
    deaf.bind(("127.0.0.1", port))
    expect("one of TCP that does not listen", Server([*handed, deaf], port, tcp=True).end(), 5)
    deaf.close()
    many, port = datagrams(65)
    expect("sixty-five", Server(many, port).end(), 5)
    print(f"{passed} passed, {failed} failed")
    sys.exit(failed != 0)


def too_late(*_):
    print(f"{passed} passed, {failed + 1} failed: it took more than two minutes")
    os._exit(1)


if __name__ == "__main__":
    if not os.access(GLB, os.X_OK):
        sys.exit(f"{GLB}: there is no such program")
    signal.signal(signal.SIGALRM, too_late)
    signal.alarm(120)
    main()
