"""glb-launch: makes the sockets of a server, shields them, and hands them in; beside it, readiness and an orderly end.

A worker's socket has a filter of the kernel's: what can have no reply, a datagram below twelve octets or one that is a
reply itself, is dropped before a worker reads it. So nobody moves a worker's draws without being answered. And its
packets go by the interface's MTU: a forged report of a smaller one does not cut long replies into fragments.
"""

import argparse
import ctypes
import fcntl
import os
import resource
import signal
import socket
import struct
import sys
import time
from collections.abc import Iterator
from dataclasses import dataclass

from glb_tools.options import DONE, FAULT, WRONG_WORDS, Fault, parser, said

ABOUT = """Starts `glb serve` on sockets made for it. Behind `--` come the server's words, the program first.

Each worker gets a UDP socket of its own, with a filter that drops what has no reply (fewer than twelve octets, or a
reply itself), and with the interface's MTU whatever ICMP says. The server takes the sockets as it takes systemd's; those
that systemd hands to the launcher are shielded and handed on. Without --stay the launcher becomes the server. With --stay
it remains beside the server: it tells systemd (Type=notify) when the server answers, keeps a watchdog by asking the server,
and at SIGTERM ends the server by a line `stop` in --feed."""
STATUSES = {
    DONE: "the server ended so (its own statuses are handed on)",
    FAULT: "a socket, a pipe or the program cannot be had; or the server's status 1",
}
# where sockets that are handed in begin, and how many a server looks at
FIRST, MOST = 3, 64
# of <linux/in.h>, <linux/in6.h>, <asm-generic/socket.h>: what Python's module does not name
IP_FREEBIND, IP_MTU_DISCOVER, IP_PMTUDISC_OMIT = 15, 10, 5
IPV6_MTU_DISCOVER, IPV6_PMTUDISC_OMIT = 23, 5
SO_ATTACH_FILTER, SO_RCVBUFFORCE = 26, 33
# the filter sees a datagram from its UDP header on, which has eight octets; a DNS header has twelve (RFC 1035, 4.1.1)
HEADERS, QR_AT, QR = 8 + 12, 8 + 2, 0x80
LOAD_LENGTH, LOAD_OCTET, IF_AT_LEAST, IF_BITS, RETURN = 0x80, 0x30, 0x35, 0x45, 0x06
FILTER = (
    (LOAD_LENGTH, 0, 0, 0),
    (IF_AT_LEAST, 0, 3, HEADERS),
    (LOAD_OCTET, 0, 0, QR_AT),
    (IF_BITS, 1, 0, QR),
    (RETURN, 0, 0, 0xFFFFFFFF),
    (RETURN, 0, 0, 0),
)
# a header alone: any server answers it, and so needs no name
PROBE = bytes(12)


@dataclass
class Words:
    """What of a server's words the sockets need."""

    program: list[str]
    listen: tuple[str, int]
    workers: int
    tcp: tuple[str, int] | None


def address_in(text: str, option: str) -> tuple[str, int]:
    """ADDR:PORT, with an address of IPv6 in brackets."""
    host, mark, port = text.rpartition(":")
    bare = host[1:-1] if host.startswith("[") and host.endswith("]") else host
    family = socket.AF_INET6 if bare != host else socket.AF_INET
    try:
        socket.inet_pton(family, bare)
        number = int(port) if mark and port.isascii() and port.isdigit() else 0
    except OSError:
        number = 0
    if not 1 <= number <= 65535:
        raise Fault(f"{option} {text}: no ADDR:PORT with a port from 1 to 65,535", WRONG_WORDS)
    return bare, number


def words_of(program: list[str]) -> Words:
    """Reads the server's words; what is wrong beyond its sockets the server says itself."""
    options = argparse.ArgumentParser(add_help=False, allow_abbrev=False, exit_on_error=False)
    options.add_argument("--listen")
    options.add_argument("--workers", default="1")
    options.add_argument("--tcp")
    if len(program) < 2 or program[1] != "serve":
        raise Fault("behind -- there has to be the program with its command `serve`", WRONG_WORDS)
    try:
        found, _ = options.parse_known_args(program[2:])
    except argparse.ArgumentError as why:
        raise Fault(why, WRONG_WORDS) from None
    if found.listen is None:
        raise Fault("the server's words have no --listen ADDR:PORT", WRONG_WORDS)
    if not (found.workers.isascii() and found.workers.isdigit() and 1 <= int(found.workers) <= 16):
        raise Fault(f"--workers {found.workers}: 1 to 16", WRONG_WORDS)
    tcp = None if found.tcp is None else address_in(found.tcp, "--tcp")
    return Words(program, address_in(found.listen, "--listen"), int(found.workers), tcp)


def family_of(host: str) -> socket.AddressFamily:
    return socket.AF_INET6 if ":" in host else socket.AF_INET


def shield(made: socket.socket) -> None:
    """Sets the filter, and that packets go by the interface's MTU."""
    code = b"".join(struct.pack("=HBBI", *step) for step in FILTER)
    held = ctypes.create_string_buffer(code)
    program = struct.pack("HL", len(FILTER), ctypes.addressof(held))
    made.setsockopt(socket.SOL_SOCKET, SO_ATTACH_FILTER, program)
    if made.family == socket.AF_INET6:
        made.setsockopt(socket.IPPROTO_IPV6, IPV6_MTU_DISCOVER, IPV6_PMTUDISC_OMIT)
    else:
        made.setsockopt(socket.IPPROTO_IP, IP_MTU_DISCOVER, IP_PMTUDISC_OMIT)


def bound(kind: socket.SocketKind, at: tuple[str, int], late: bool) -> socket.socket:
    """A socket at an address, which several may share; with `late` also at one that is not there yet."""
    made = socket.socket(family_of(at[0]), kind)
    made.setsockopt(socket.SOL_SOCKET, socket.SO_REUSEPORT, 1)
    if kind == socket.SOCK_STREAM:
        made.setsockopt(socket.SOL_SOCKET, socket.SO_REUSEADDR, 1)
    if made.family == socket.AF_INET6:
        made.setsockopt(socket.IPPROTO_IPV6, socket.IPV6_V6ONLY, 1)
    if late:
        made.setsockopt(socket.IPPROTO_IP, IP_FREEBIND, 1)
    try:
        made.bind(at)
    except OSError as why:
        raise Fault(f"{at[0]} port {at[1]}: {why.strerror}") from None
    return made


def grow(made: socket.socket, octets: int) -> None:
    """A receive buffer of so many octets, or as many as the system allows."""
    try:
        made.setsockopt(socket.SOL_SOCKET, SO_RCVBUFFORCE, octets)
    except PermissionError:
        made.setsockopt(socket.SOL_SOCKET, socket.SO_RCVBUF, octets)


def handed_in() -> list[socket.socket]:
    """The sockets that this process was handed in, as systemd does it: their places stay the server's."""
    if os.environ.get("LISTEN_PID") != str(os.getpid()):
        return []
    count = os.environ.get("LISTEN_FDS", "")
    if not (count.isascii() and count.isdigit() and int(count) <= MOST):
        raise Fault(f"LISTEN_FDS is {count}: at most {MOST} sockets can be handed in")
    try:
        return [socket.socket(fileno=FIRST + place) for place in range(int(count))]
    except OSError as why:
        raise Fault(f"what is handed in is no socket: {why.strerror}") from None


def sockets_for(words: Words, options: argparse.Namespace) -> list[socket.socket]:
    """Those that are handed in, or one for each worker and one for conversations where they are asked for."""
    if made := handed_in():
        for each in made:
            if each.type == socket.SOCK_DGRAM and not options.no_filter:
                shield(each)
        return made
    for _ in range(words.workers):
        worker = bound(socket.SOCK_DGRAM, words.listen, options.freebind)
        if not options.no_filter:
            shield(worker)
        grow(worker, options.buffer)
        made.append(worker)
    if words.tcp:
        streams = bound(socket.SOCK_STREAM, words.tcp, options.freebind)
        streams.setsockopt(socket.IPPROTO_TCP, socket.TCP_NODELAY, 1)
        streams.listen(options.backlog)
        made.append(streams)
    return made


def become(words: Words, made: list[socket.socket]) -> None:
    """Turns this process into the server, with the sockets from the first place on."""
    # out of the way of the places where they are to stand
    away = [fcntl.fcntl(each.fileno(), fcntl.F_DUPFD, FIRST + MOST) for each in made]
    for place, descriptor in enumerate(away):
        os.dup2(descriptor, FIRST + place, inheritable=True)
        os.close(descriptor)
    os.closerange(FIRST + len(away), FIRST + MOST)
    env = {**os.environ, "LISTEN_PID": str(os.getpid()), "LISTEN_FDS": str(len(away))}
    env.pop("LISTEN_FDNAMES", None)
    for name in ("NOTIFY_SOCKET", "WATCHDOG_PID", "WATCHDOG_USEC"):
        env.pop(name, None)
    try:
        os.execvpe(words.program[0], words.program, env)
    except OSError as why:
        raise Fault(f"{words.program[0]}: {why.strerror}") from None


def notify(text: str) -> None:
    """Tells systemd, where it asks to be told."""
    name = os.environ.get("NOTIFY_SOCKET", "")
    if not name:
        return
    if name.startswith("@"):
        name = "\0" + name[1:]
    with socket.socket(socket.AF_UNIX, socket.SOCK_DGRAM) as told:
        try:
            told.sendto(text.encode(), name)
        except OSError as why:
            said(f"systemd could not be told {text}: {why.strerror}", FAULT)


def answers(at: tuple[str, int], seconds: float) -> bool:
    """Whether a worker replies, asked from a port of its own."""
    host = {"0.0.0.0": "127.0.0.1", "::": "::1"}.get(at[0], at[0])
    with socket.socket(family_of(host), socket.SOCK_DGRAM) as asks:
        asks.settimeout(seconds)
        try:
            asks.connect((host, at[1]))
            asks.send(PROBE)
            return len(asks.recv(512)) >= len(PROBE)
        except OSError:
            return False


class Server:
    """A server that runs beside this process, from its start to its end."""

    def __init__(self, words: Words, options: argparse.Namespace) -> None:
        self.words, self.options = words, options
        self.pid = 0
        self.status: int | None = None
        self.stops_at: float | None = None

    def start(self) -> None:
        made = sockets_for(self.words, self.options)
        for number in (signal.SIGTERM, signal.SIGINT, signal.SIGHUP):
            signal.signal(number, self.asked)
        self.pid = os.fork()
        if self.pid == 0:
            for number in (signal.SIGTERM, signal.SIGINT, signal.SIGHUP):
                signal.signal(number, signal.SIG_DFL)
            try:
                become(self.words, made)
            except Fault as why:
                said(why, FAULT)
            os._exit(FAULT)
        for each in made:
            each.close()

    def asked(self, number: int, frame: object) -> None:
        """An end is asked for: by a line in the feed, or where there is none by the same signal."""
        if self.stops_at is None:
            self.stops_at = time.monotonic() + self.options.grace
            notify("STOPPING=1")
            if not self.options.feed or not self.feeds(b"stop\n"):
                self.signals(number)

    def feeds(self, line: bytes) -> bool:
        try:
            feed = os.open(self.options.feed, os.O_WRONLY | os.O_NONBLOCK)
        except OSError as why:
            said(f"{self.options.feed}: {why.strerror}", FAULT)
            return False
        try:
            return os.write(feed, line) == len(line)
        except OSError as why:
            said(f"{self.options.feed}: {why.strerror}", FAULT)
            return False
        finally:
            os.close(feed)

    def signals(self, number: int) -> None:
        if self.status is None:
            os.kill(self.pid, number)

    def ended(self) -> bool:
        if self.status is None:
            pid, status = os.waitpid(self.pid, os.WNOHANG)
            if pid:
                self.status = status
        return self.status is not None

    def wait(self, seconds: float) -> Iterator[None]:
        """Looks now and then until so long has passed, or the server ends."""
        until = time.monotonic() + seconds
        while not self.ended() and time.monotonic() < until:
            self.hurry()
            yield
            time.sleep(min(0.05, max(0.0, until - time.monotonic())))

    def hurry(self) -> None:
        """A server that was asked to end and has not within its time is ended by signals."""
        if self.stops_at is not None and time.monotonic() > self.stops_at:
            late = time.monotonic() - self.stops_at
            self.signals(signal.SIGTERM if late < 2 else signal.SIGKILL)

    def follow(self) -> int:
        """Says when the server answers and that it does, until it ends; gives its status."""
        ready, every = False, watchdog()
        while not self.ended():
            if not ready and self.all_answer():
                ready = True
                notify("READY=1")
            elif ready and every and answers(self.words.listen, 1):
                notify("WATCHDOG=1")
            for _ in self.wait(every or 1 if ready else 0.05):
                pass
        assert self.status is not None
        return self.end(self.status)

    def all_answer(self) -> bool:
        """Whether so many questions in a row are answered that each worker is likely to have had one."""
        return all(answers(self.words.listen, 0.2) for _ in range(4 * self.words.workers))

    def end(self, status: int) -> int:
        if os.WIFSIGNALED(status):
            # ended as the server was, so that whoever looks sees the same; what it left is in its own core
            number = os.WTERMSIG(status)
            resource.setrlimit(resource.RLIMIT_CORE, (0, 0))
            if number != signal.SIGKILL:
                signal.signal(number, signal.SIG_DFL)
            os.kill(os.getpid(), number)
        return os.waitstatus_to_exitcode(status)


def watchdog() -> float:
    """How often systemd wants to be told that all is well, in seconds; 0 where it does not."""
    micro = os.environ.get("WATCHDOG_USEC", "")
    mine = os.environ.get("WATCHDOG_PID", str(os.getpid())) == str(os.getpid())
    return int(micro) / 2e6 if mine and micro.isascii() and micro.isdigit() else 0.0


def main() -> int:
    made = parser("glb-launch", ABOUT, STATUSES)
    made.usage = "glb-launch [OPTIONS] -- PROGRAM serve TOPOLOGY --listen ADDR:PORT [WORDS..]"
    made.add_argument(
        "--buffer",
        type=int,
        default=8 << 20,
        metavar="OCTETS",
        help="receive buffer of each worker's socket (default 8 MiB)",
    )
    made.add_argument(
        "--backlog",
        type=int,
        default=4096,
        metavar="N",
        help="connections that may wait, up to net.core.somaxconn (default 4096)",
    )
    made.add_argument(
        "--freebind",
        action="store_true",
        help="also bind an address that the host does not have yet",
    )
    made.add_argument(
        "--no-filter", action="store_true", help="set neither the filter nor the MTU's rule"
    )
    made.add_argument(
        "--stay",
        action="store_true",
        help="stay beside the server, for systemd's Type=notify and an orderly end",
    )
    made.add_argument(
        "--feed", metavar="PIPE", help="with --stay: where a line `stop` ends the server"
    )
    made.add_argument(
        "--grace",
        type=float,
        default=10.0,
        metavar="SECONDS",
        help="with --stay: how long the end may take before signals (default 10)",
    )
    made.add_argument("words", nargs="*", help=argparse.SUPPRESS)
    words = sys.argv[1:]
    at = words.index("--") if "--" in words else len(words)
    options = made.parse_args(words[:at])
    if options.words or at == len(words):
        raise Fault("the server's words stand behind -- (see glb-launch --help)", WRONG_WORDS)
    if options.buffer < 1 or options.backlog < 1 or not options.grace >= 0:
        raise Fault("--buffer, --backlog and --grace are numbers above 0", WRONG_WORDS)
    if options.feed and not options.stay:
        raise Fault("--feed goes with --stay", WRONG_WORDS)
    asked = words_of(words[at + 1 :])
    if options.stay:
        server = Server(asked, options)
        server.start()
        return server.follow()
    become(asked, sockets_for(asked, options))
    return FAULT
