"""The clients of crowds_beside.py: honest ones, and those that crowd, drip, reset, lie about lengths or never read.

What a server of glb should send is made by second.py from the topology below and from two maps that were written by hand.
"""

import asyncio
import ctypes
import errno
import os
import random
import signal
import socket
import struct
import time
from array import array
from collections import Counter
from collections.abc import Awaitable, Callable
from multiprocessing.sharedctypes import RawArray, RawValue
from typing import Any

import fuzz_serve
import second

# not in every Python: a port is looked for when the other end is known, so that each pair of ends has all ports
IP_BIND_ADDRESS_NO_PORT = 24
# how long a client waits for its answer, in seconds, and an honest one by datagrams
DEADLINE, DATAGRAM_DEADLINE = 10.0, 5.0
# a connection that asks within a tenth of a second is owed an answer (docs/operating/limits.md): less some milliseconds
OWED = 95_000_000
# how long a connection may bring no whole query and take no octet of a reply
LONGEST_IDLE = 10_000_000_000
# how many commits a run may have
MOST_COMMITS = 20_000
FORTY = {
    kind: [text.format(number) for number in range(1, 41)]
    for kind, text in {"a": "192.0.2.{}", "aaaa": "2001:db8::1:{:x}"}.items()
}
TOPOLOGY = f"""[zone]
apex = "cdn.example"
mname = "ns1.ops.example"
rname = "admin.ops.example"
serial = 7
refresh = 3600
retry = 600
expire = 86400
minimum = 60
ttl = 20
ns = ["ns1.ops.example", "ns2.ops.example"]
services = ["www", "img", "many"]
[[node]]
name = "A"
capacity = 10
pool = true
a = ["192.0.2.101"]
aaaa = ["2001:db8::a"]
[[node]]
name = "B"
capacity = 10
pool = true
a = ["192.0.2.102"]
aaaa = ["2001:db8::b"]
[[node]]
name = "M"
capacity = 10
pool = true
a = {FORTY["a"]}
aaaa = {FORTY["aaaa"]}
[[group]]
name = "all"
demand = 8
pools = ["A", "B"]
scores = [1, 2]
prefixes = ["0.0.0.0/0", "::/0"]
[[class]]
name = "long"
group = "all"
service = "many"
demand = 4
pools = ["M"]
scores = [1]
""".replace(
    "'", '"'
).encode()
# the map of the topology, and the one of a pool A that holds nothing
MAPS = [
    b"glb map 2\nplace all A 8\nplace long M 4\nend\n",
    b"glb map 2\nplace all B 8\nplace long M 4\nfull all A A\nend\n",
]
CHANGES = [b"capacity A 10\ncommit\n", b"capacity A 0\ncommit\n"]
# the same names as a zone file, as the first map has them
ZONE = "\n".join(
    [
        "$ORIGIN cdn.example.",
        "$TTL 20",
        "@ IN SOA ns1.ops.example. admin.ops.example. 7 3600 600 86400 60",
        "@ IN NS ns1.ops.example.",
        "@ IN NS ns2.ops.example.",
    ]
    + [
        f"{name} IN {kind} {address}"
        for name in ("www", "img")
        for kind, address in (("A", "192.0.2.101"), ("AAAA", "2001:db8::a"))
    ]
    + [
        f"many IN {kind.upper()} {address}"
        for kind, addresses in FORTY.items()
        for address in addresses
    ]
    + [""]
)
NAMES = [
    "www.cdn.example",
    "WwW.cDn.ExAmPlE",
    "img.cdn.example",
    "many.cdn.example",
    "x.cdn.example",
    "cdn.example",
]


def questions() -> list[bytes]:
    """What an honest client asks, with number 0: each name and some types, without and with an OPT record."""
    more: list[list[bytes]] = [[], [b"\0\0\x29\x04\xd0" + bytes(6)]]
    return [
        fuzz_serve.query(fuzz_serve.name_of(name), kind, more=records)
        for name in NAMES
        for kind in (1, 28, 16, 6, 2)
        for records in more
    ]


QUESTIONS = questions()
BASES = fuzz_serve.base_queries()
LONG = fuzz_serve.query(fuzz_serve.name_of("many.cdn.example"), 28)


def framed(message: bytes) -> bytes:
    return len(message).to_bytes(2) + message


class Shared:
    """What all processes see: when each commit was written and said to be published, whose turn it is, and the end."""

    def __init__(self) -> None:
        self.written, self.published = RawArray("Q", MOST_COMMITS), RawArray("Q", MOST_COMMITS)
        self.commits = RawValue("i", 0)
        self.phase, self.turn, self.is_over = RawValue("i", -1), RawValue("i", -1), RawValue("i", 0)

    def states(self, begin: int, end: int) -> set[int]:
        """The maps of which a question that was asked and answered then may have its reply, by their place in MAPS."""
        newest = self.commits.value
        oldest = newest
        while oldest > 0 and not 0 < self.published[oldest] <= begin:
            oldest -= 1
        return {serial % 2 for serial in range(oldest, newest + 1) if self.written[serial] <= end}


class Judge:
    """Says whether a reply is right: of glb octet for octet, of a peer by what it says."""

    def __init__(self, shared: Shared, is_glb: bool, maps: list[bytes]) -> None:
        self.shared, self.is_glb = shared, is_glb
        self.topology: Any = second.Topology(TOPOLOGY)
        self.maps = [second.Map(self.topology, text) for text in maps]
        self.client = second.address_of("127.0.0.1")
        self.made: dict[tuple[bytes, int, bool], frozenset[bytes] | None] = {}

    def due(self, message: bytes, state: int, by_tcp: bool) -> frozenset[bytes] | None:
        """The replies to a message behind their number, or that there is none."""
        key = (message[2:], state, by_tcp)
        if key not in self.made:
            if len(self.made) > 20_000:
                self.made.clear()
            got = second.replies(self.topology, self.maps[state], self.client, message, by_tcp)
            self.made[key] = None if got is None else frozenset(reply[2:] for reply in got.all())
        return self.made[key]

    def has_reply(self, message: bytes) -> bool:
        return self.due(message, 0, True) is not None

    def is_right(self, message: bytes, reply: bytes, begin: int, by_tcp: bool) -> bool:
        if reply[:2] != message[:2]:
            return False
        if not self.is_glb:
            return self.is_alike(message, reply, by_tcp)
        for state in self.shared.states(begin, time.monotonic_ns()):
            if reply[2:] in (self.due(message, state, by_tcp) or ()):
                return True
        return False

    def is_alike(self, message: bytes, reply: bytes, by_tcp: bool) -> bool:
        """The same code, question, and number of answers as of the first map, but that a datagram may leave them out."""
        wanted = b"\0\0" + min(self.due(message, 0, by_tcp) or {bytes(10)})
        if len(reply) < 12 or reply[3] & 15 != wanted[3] & 15:
            return False
        question = message[12 : message.find(b"\0", 12) + 5].lower() if wanted[5] else b""
        is_short = not by_tcp and reply[2] & 2 != 0
        return reply[12 : 12 + len(question)].lower() == question and (
            is_short or reply[6:8] == wanted[6:8]
        )


def end_with_parent() -> None:
    """Has the system end this process when its parent ends (PR_SET_PDEATHSIG)."""
    ctypes.CDLL(None).prctl(1, signal.SIGKILL)


def source_of(net: int, number: int) -> str:
    """An address of loopback: 250 in each of the nets below it."""
    return f"127.{net}.{number // 250 % 250}.{1 + number % 250}"


def bound(source: str, kind: socket.SocketKind = socket.SOCK_STREAM) -> socket.socket:
    made = socket.socket(socket.AF_INET, kind)
    made.setsockopt(socket.IPPROTO_IP, IP_BIND_ADDRESS_NO_PORT, 1)
    made.bind((source, 0))
    if kind == socket.SOCK_STREAM:
        made.setsockopt(socket.IPPROTO_TCP, socket.TCP_NODELAY, 1)
    return made


def reset(client: socket.socket) -> None:
    client.setsockopt(socket.SOL_SOCKET, socket.SO_LINGER, struct.pack("ii", 1, 0))
    client.close()


# Honest clients. Each is a process of its own, and keeps what became of each of its questions.

RIGHT, WRONG, REFUSED, CLOSED, LATE, GAVE_WAY = range(6)
FATES = ["answered", "wrong", "refused", "closed", "late", "gave way as documented"]


class Kept:
    """The phase in which each question was asked (-1: not the server's turn), when, how long it took, and its fate."""

    def __init__(self) -> None:
        self.phases, self.begins, self.times, self.fates = (
            array("i"),
            array("Q"),
            array("Q"),
            array("B"),
        )
        self.wrong: list[str] = []

    def take(self, phase: int, begin: int, fate: int, what: str = "") -> None:
        self.phases.append(phase)
        self.begins.append(begin)
        self.times.append(time.monotonic_ns() - begin)
        self.fates.append(fate)
        if fate != RIGHT and len(self.wrong) < 20:
            self.wrong.append(
                f"{FATES[fate]} in phase {phase} at {begin} ns after {self.times[-1] // 1000} us: {what}"
            )


class Honest:
    """An honest client of one server."""

    def __init__(
        self,
        kind: str,
        server: int,
        place: tuple[str, int],
        shared: Shared,
        seed: int,
        maps: list[bytes],
        spoil: str,
    ) -> None:
        self.kind, self.server, self.place, self.shared, self.spoil = (
            kind,
            server,
            place,
            shared,
            spoil,
        )
        self.rng = random.Random(f"{seed} {kind} {server}")
        self.judge = Judge(shared, server == 0, maps)
        self.kept, self.asked = Kept(), 0
        self.source = f"127.9.{server}.{1 + KINDS.index(kind)}"
        self.stream: socket.socket | None = None
        self.last_sent = self.sent_at = 0

    def run(self, channel: Any) -> None:
        end_with_parent()
        ask = {"udp": self.by_datagram, "new": self.by_connection, "kept": self.by_one_connection}[
            self.kind
        ]
        datagrams = bound(self.source, socket.SOCK_DGRAM) if self.kind == "udp" else None
        while not self.shared.is_over.value:
            phase = self.shared.phase.value if self.shared.turn.value == self.server else -1
            message = self.rng.randbytes(2) + self.rng.choice(QUESTIONS)[2:]
            self.asked += 1
            ask(phase, message, datagrams)
            time.sleep(self.rng.random() * 0.05)
        channel.send((self.kept, self.kind))

    def judged(self, message: bytes, reply: bytes, begin: int, by_tcp: bool) -> int:
        return RIGHT if self.judge.is_right(message, reply, begin, by_tcp) else WRONG

    def by_datagram(self, phase: int, message: bytes, client: Any) -> None:
        begin = time.monotonic_ns()
        client.sendto(message, self.place)
        if self.spoil == "lost" and self.asked == 20:
            client.recv(4096)
        while True:
            left = DATAGRAM_DEADLINE - (time.monotonic_ns() - begin) / 1e9
            client.settimeout(max(0.001, left))
            try:
                reply = client.recv(4096)
            except OSError as why:
                self.kept.take(phase, begin, LATE, f"{message.hex()} {why}")
                return
            if reply[:2] == message[:2]:
                fate = self.judged(message, reply, begin, False)
                self.kept.take(phase, begin, fate, f"{message.hex()} {reply.hex()}")
                return

    def answer(self, client: socket.socket, message: bytes, begin: int) -> bytes | None:
        """The reply in a conversation, or none where it was closed. Too late is an error."""
        held = b""
        while len(held) < 2 or len(held) < 2 + int.from_bytes(held[:2]):
            client.settimeout(max(0.001, DEADLINE - (time.monotonic_ns() - begin) / 1e9))
            more = client.recv(65536)
            if not more:
                return None
            held += more
        if self.spoil == "number" and self.kind == "new" and self.asked == 20:
            return bytes([held[2] ^ 1]) + held[3:]
        return held[2:]

    def by_connection(self, phase: int, message: bytes, _: Any) -> None:
        begin = time.monotonic_ns()
        with bound(self.source) as client:
            client.settimeout(DEADLINE)
            try:
                client.connect(self.place)
            except OSError as why:
                self.kept.take(
                    phase,
                    begin,
                    LATE if isinstance(why, TimeoutError) else REFUSED,
                    f"{message.hex()} {why}",
                )
                return
            # some ask a little behind their handshake, as over a far network: that pause is none of the server's
            pause = 0
            if self.rng.randrange(4) == 0:
                before = time.monotonic_ns()
                time.sleep(0.03)
                pause = time.monotonic_ns() - before
            fate, what = self.asked_over(client, message, begin)
            if fate == CLOSED and self.judge.is_glb and self.sent_at - begin >= OWED:
                fate = GAVE_WAY
            self.kept.take(phase, begin + pause, fate, what)

    def asked_over(self, client: socket.socket, message: bytes, begin: int) -> tuple[int, str]:
        """What becomes of a question in a conversation."""
        self.sent_at = begin
        try:
            client.sendall(framed(message))
            self.sent_at = time.monotonic_ns()
            reply = self.answer(client, message, begin)
        except TimeoutError:
            return LATE, message.hex()
        except OSError as why:
            self.sent_at = time.monotonic_ns()
            return CLOSED, f"{message.hex()} {why}"
        if reply is None:
            return CLOSED, f"{message.hex()} end"
        return self.judged(message, reply, begin, True), f"{message.hex()} {reply.hex()}"

    def by_one_connection(self, phase: int, message: bytes, _: Any) -> None:
        """Asks in the conversation that stays, or in a new one where it was closed."""
        begin = time.monotonic_ns()
        if self.stream is None:
            self.stream = bound(self.source)
            self.stream.settimeout(DEADLINE)
            try:
                self.stream.connect(self.place)
            except OSError as why:
                self.stream = None
                self.kept.take(
                    phase,
                    begin,
                    LATE if isinstance(why, TimeoutError) else REFUSED,
                    f"{message.hex()} {why}",
                )
                return
            self.last_sent = begin
        if self.spoil == "closed" and self.asked == 20:
            self.stream.shutdown(socket.SHUT_RDWR)
        fate, what = self.asked_over(self.stream, message, begin)
        # it took its last octets behind its last question, and may give way a tenth of a second behind that
        idle = self.sent_at - self.last_sent
        if fate == CLOSED and self.judge.is_glb and idle >= OWED:
            fate = GAVE_WAY
        self.kept.take(phase, begin, fate, f"{what}, {idle // 1000} us behind the question before")
        self.last_sent = begin
        if fate != RIGHT:
            self.stream.close()
            self.stream = None


KINDS = ["udp", "new", "kept"]


# Others. Each is a coroutine in one of two processes, and has one conversation after another.


class Gone(Exception):
    """The conversation is over."""


class Crowd:
    """What the hostile clients of one process in one phase share."""

    def __init__(
        self, place: tuple[str, int], rng: random.Random, judge: Judge, process: int, seconds: float
    ) -> None:
        self.place, self.rng, self.judge, self.process = place, rng, judge, process
        self.end = time.monotonic() + seconds
        self.count: Counter[str] = Counter()
        self.wrong: list[str] = []
        self.open: set[Client] = set()
        self.number = 0

    def is_on(self) -> bool:
        return time.monotonic() < self.end

    def note(self, what: str, detail: str) -> None:
        self.count[what] += 1
        if len(self.wrong) < 5:
            self.wrong.append(f"{what} at {time.monotonic_ns()} ns: {detail}")

    def question(self) -> bytes:
        """An honest question, each with a number of its own for a while."""
        self.number = (self.number + 1) & 0xFFFF
        return self.number.to_bytes(2) + self.rng.choice(QUESTIONS)[2:]


class Client:
    """A conversation of a hostile client: what is due to it, and what came."""

    def __init__(self, crowd: Crowd, source: str, buffer: int = 0) -> None:
        self.crowd, self.socket = crowd, bound(source)
        self.loop = asyncio.get_running_loop()
        self.held, self.ended = bytearray(), False
        # when it began to connect, the last call to send, and the last one ahead of a reply; of a crowd also when it had asked
        self.came = self.sends = self.moved = time.monotonic_ns()
        self.is_of_crowd, self.had_asked = False, 0
        self.due: dict[bytes, tuple[int, bytes]] = {}
        if buffer:
            self.socket.setsockopt(socket.SOL_SOCKET, socket.SO_RCVBUF, buffer)
        self.socket.setblocking(False)
        crowd.open.add(self)

    def connect_at_once(self) -> None:
        """Waits for the handshake, and so does all else in this process: to connect and to ask are then one step."""
        self.socket.settimeout(DEADLINE)
        try:
            self.socket.connect(self.crowd.place)
        except OSError as why:
            self.refused(why)
        self.socket.setblocking(False)
        self.crowd.count["connections"] += 1

    async def connect(self) -> None:
        try:
            async with asyncio.timeout(DEADLINE):
                await self.loop.sock_connect(self.socket, self.crowd.place)
        except OSError as why:
            self.refused(why)
        self.crowd.count["connections"] += 1

    def refused(self, why: OSError) -> None:
        if why.errno in (errno.EADDRNOTAVAIL, errno.EMFILE):
            self.crowd.count["no port or descriptor of the client's"] += 1
        else:
            self.crowd.count["refused"] += 1
        self.close()
        raise Gone

    async def send(self, octets: bytes) -> None:
        self.sends = time.monotonic_ns()
        try:
            await self.loop.sock_sendall(self.socket, octets)
        except OSError:
            self.lost()
            raise Gone

    def expect(self, *messages: bytes) -> None:
        """These messages are about to be sent, and have replies."""
        now = time.monotonic_ns()
        for message in messages:
            self.due[message[:2]] = (now, message)
        self.crowd.count["asked"] += len(messages)

    async def ask(self, *messages: bytes) -> None:
        self.expect(*messages)
        await self.send(b"".join(map(framed, messages)))

    def lost(self) -> None:
        """The conversation is closed: what is due will not come."""
        self.ended = True
        if self.due:
            begin, message = next(iter(self.due.values()))
            what = self.why_closed()
            self.crowd.note(
                what,
                f"{len(self.due)} due, the first {message.hex()} asked at {begin} ns,"
                f" came at {self.came}, moved at {self.moved}",
            )
            self.crowd.count[what] += len(self.due) - 1
            self.due.clear()

    def why_closed(self) -> str:
        """Whether the documents of glb let it close: one that asked late gives way to another address, and ten seconds are all
        that a connection gets for a whole query. So this has to be still at its query when they are over.
        """
        now = time.monotonic_ns()
        if (
            self.crowd.judge.is_glb
            and self.is_of_crowd
            and (self.had_asked or now) - self.came >= OWED
        ):
            return FATES[GAVE_WAY]
        if self.crowd.judge.is_glb and self.sends - self.moved >= LONGEST_IDLE:
            return "closed after ten seconds"
        return "closed"

    async def hear(self, seconds: float, most: int = 65536) -> bool:
        """Reads once, in that time. Whether something came."""
        try:
            async with asyncio.timeout(max(0.001, seconds)):
                more = await self.loop.sock_recv(self.socket, most)
        except TimeoutError:
            return False
        except OSError:
            more = b""
        if not more:
            self.lost()
            return False
        self.held += more
        at = 0
        while len(self.held) >= at + 2 and len(self.held) >= at + 2 + int.from_bytes(
            self.held[at : at + 2]
        ):
            behind = at + 2 + int.from_bytes(self.held[at : at + 2])
            self.got(bytes(self.held[at + 2 : behind]))
            at = behind
        del self.held[:at]
        return True

    def got(self, reply: bytes) -> None:
        crowd = self.crowd
        if reply[:2] not in self.due:
            crowd.note("not due", reply.hex())
            return
        if reply[:2] != next(iter(self.due)):
            crowd.note("out of order", reply.hex())
        begin, message = self.due.pop(reply[:2])
        self.moved = self.sends
        if crowd.judge.is_right(message, reply, begin, True):
            crowd.count["right"] += 1
        else:
            crowd.note("wrong", f"{message.hex()} asked at {begin} ns got {reply.hex()}")

    def end_of_sending(self) -> None:
        """It sends no more."""
        try:
            self.socket.shutdown(socket.SHUT_WR)
        except OSError:
            self.lost()
            raise Gone

    async def take(self, seconds: float = DEADLINE) -> None:
        """Reads until all that is due has come."""
        end = time.monotonic() + seconds
        while self.due and not self.ended:
            if not await self.hear(end - time.monotonic()) and time.monotonic() >= end:
                crowd = self.crowd
                crowd.note(
                    "late", f"{len(self.due)} due, the first {next(iter(self.due.values()))}"
                )
                crowd.count["late"] += len(self.due) - 1
                self.due.clear()

    async def until_closed(self, seconds: float) -> bool:
        """Reads until the server closes. Whether it does in that time."""
        end = time.monotonic() + seconds
        while not self.ended and time.monotonic() < end:
            await self.hear(end - time.monotonic())
        return self.ended

    def close(self, is_reset: bool = False) -> None:
        self.crowd.open.discard(self)
        if self.due:
            self.crowd.count["cut off by the end"] += len(self.due)
            self.due.clear()
        if is_reset:
            reset(self.socket)
        else:
            self.socket.close()


Way = Callable[[Client, int], Awaitable[None]]


async def silent(client: Client, number: int) -> None:
    await client.connect()
    await client.until_closed(30)
    client.crowd.count["closed by the server"] += client.ended


async def drip(client: Client, number: int) -> None:
    await client.connect()
    for _ in range(3):
        if not client.crowd.is_on():
            return
        message = client.crowd.question()
        client.expect(message)
        for octet in framed(message):
            await client.send(bytes([octet]))
            await asyncio.sleep(0.05)
        await client.take()


async def split(client: Client, number: int) -> None:
    """Two messages in two parts, cut at one octet after the other."""
    crowd = client.crowd
    await client.connect()
    messages = [crowd.question(), crowd.question()]
    whole = b"".join(map(framed, messages))
    for at in range(1, len(whole)):
        messages = [crowd.question()[:2] + message[2:] for message in messages]
        whole = b"".join(map(framed, messages))
        client.expect(*messages)
        await client.send(whole[:at])
        await asyncio.sleep(0.001)
        await client.send(whole[at:])
        await client.take()
        if client.ended or not crowd.is_on():
            return


async def pipeline(client: Client, number: int) -> None:
    await client.connect()
    for _ in range(3):
        await client.ask(*(client.crowd.question() for _ in range(100)))
        await client.take()


async def slow(client: Client, number: int) -> None:
    """It asks for 480 kB, and takes 20 kB a second."""
    crowd = client.crowd
    await client.connect()
    await client.ask(*(crowd.question()[:2] + LONG[2:] for _ in range(400)))
    while client.due and not client.ended:
        await client.hear(DEADLINE, 2_000)
        await asyncio.sleep(0.1)


async def never(client: Client, number: int) -> None:
    """It asks until nobody takes its questions any more, and waits."""
    client.socket.setsockopt(socket.SOL_SOCKET, socket.SO_SNDBUF, 65536)
    await client.connect()
    hundred = b"".join(framed(client.crowd.question()) for _ in range(100))
    while True:
        client.crowd.count["sent unread"] += 100
        await client.send(hundred)
        await asyncio.sleep(0)


async def half_closed(client: Client, number: int) -> None:
    crowd = client.crowd
    await client.connect()
    messages = [crowd.question() for _ in range(crowd.rng.randrange(1, 30))]
    client.expect(*messages)
    part = framed(crowd.question())[: crowd.rng.randrange(30)]
    await client.send(b"".join(map(framed, messages)) + part)
    client.end_of_sending()
    await client.take()
    if not await client.until_closed(DEADLINE):
        crowd.note("not closed behind the peer's end", "")


async def resets(client: Client, number: int) -> None:
    crowd = client.crowd
    await client.connect()
    whole = b"".join(framed(crowd.question()) for _ in range(crowd.rng.randrange(5)))
    await client.send(whole + framed(crowd.question())[: crowd.rng.randrange(1, 30)])
    await asyncio.sleep(crowd.rng.choice([0, 0, 0.001, 0.02]))
    client.close(True)


async def lengths(client: Client, number: int) -> None:
    """Lengths that lie, or are at a limit. What stands ahead of them is answered."""
    crowd = client.crowd
    rng, ahead, behind = crowd.rng, crowd.question(), crowd.question()
    await client.connect()
    kind = rng.randrange(7)
    if kind == 0:
        # messages that have no reply: of no octet, and of fewer than twelve
        client.expect(ahead, behind)
        await client.send(
            framed(ahead) + b"\0\0" + framed(rng.randbytes(rng.randrange(12))) + framed(behind)
        )
        await client.take()
    elif kind == 1:
        client.expect(ahead, behind)
        padded = behind.ljust(4096, b"\0")
        await client.send(framed(ahead) + framed(padded))
        await client.take()
    elif kind in (2, 3):
        client.expect(ahead)
        length = 65535 if kind == 2 else rng.randrange(4097, 65535)
        await client.send(
            framed(ahead) + length.to_bytes(2) + rng.randbytes(rng.choice([0, 10, 500, 5000]))
        )
        await client.take()
        if not await client.until_closed(DEADLINE):
            crowd.note("not closed behind a length", str(length))
    elif kind in (4, 5):
        # a length of more than what comes, and the end
        client.expect(ahead)
        await client.send(framed(ahead) + rng.randrange(100, 4097).to_bytes(2) + behind)
        await client.take()
        if kind == 4 and not client.ended:
            client.end_of_sending()
            if not await client.until_closed(DEADLINE):
                crowd.note("not closed behind the peer's end", "")
    else:
        # the length alone, octet by octet
        client.expect(ahead)
        await client.send(framed(ahead)[:1])
        await asyncio.sleep(0.01)
        await client.send(framed(ahead)[1:2])
        await asyncio.sleep(0.01)
        await client.send(framed(ahead)[2:])
        await client.take()


def whole_messages(octets: bytes) -> list[bytes]:
    """The messages at the front of octets, up to a length past 4,096 or one of more than what there is."""
    found, at = [], 0
    while at + 2 <= len(octets):
        behind = at + 2 + int.from_bytes(octets[at : at + 2])
        if behind > at + 2 + 4096 or behind > len(octets):
            break
        found.append(octets[at + 2 : behind])
        at = behind
    return found


async def garbage(client: Client, number: int) -> None:
    """Octets of no sense, or messages of which each was damaged."""
    crowd = client.crowd
    rng = crowd.rng
    await client.connect()
    if rng.randrange(3) == 0:
        octets = bytes(
            rng.choice(b"\0\0\0\1\2\x14\x40\xc0\xff") for _ in range(rng.randrange(1, 500))
        )
        octets = rng.choice([octets, rng.randbytes(rng.randrange(1, 2000))])
        found = [message for message in whole_messages(octets) if crowd.judge.has_reply(message)]
        if len({message[:2] for message in found}) == len(found):
            client.expect(*found)
            await client.send(octets)
            await client.take()
        return
    messages = []
    for _ in range(rng.randrange(1, 12)):
        damaged = fuzz_serve.mutate(rng, rng.choice(BASES), BASES)
        damaged = crowd.question()[: min(2, len(damaged))] + damaged[2:]
        if len(damaged) <= 4096:
            messages.append(damaged)
    messages.append(crowd.question())
    with_reply = [message for message in messages if crowd.judge.has_reply(message)]
    client.expect(*with_reply)
    await client.send(b"".join(map(framed, messages)))
    await client.take()


async def storm(client: Client, number: int) -> None:
    """It comes and goes: by an end or a reset, with a question or none."""
    crowd = client.crowd
    client.connect_at_once()
    if crowd.rng.randrange(2):
        await client.send(framed(crowd.question()))
    client.close(crowd.rng.randrange(2) == 0)
    await asyncio.sleep(0)


async def mixed(client: Client, number: int) -> None:
    await client.crowd.rng.choice([drip, split, pipeline, half_closed, resets, lengths, garbage])(
        client, number
    )


async def again_and_again(crowd: Crowd, way: Way, source: str, number: int, buffer: int) -> None:
    """One client: one conversation after another while the phase lasts."""
    while crowd.is_on():
        client = Client(crowd, source, buffer)
        try:
            await way(client, number)
        except Gone:
            await asyncio.sleep(0.05)
        finally:
            client.close()
        if way is silent:
            await asyncio.sleep(0.2)


async def crowding(crowd: Crowd, clients: int, addresses: int, net: int) -> None:
    """Crowds of so many, each of which asks as soon as it is connected and stays until all were answered or closed."""
    while crowd.is_on():
        held = []
        for number in range(clients):
            client = Client(crowd, source_of(net, number % addresses))
            client.is_of_crowd = True
            try:
                client.connect_at_once()
                held.append(client)
                await client.ask(crowd.question())
                client.had_asked = time.monotonic_ns()
            except Gone:
                pass
        await asyncio.gather(*(client.take() for client in held))
        for client in held:
            client.close()
        await asyncio.sleep(0.01)


async def newcomers(crowd: Crowd, clients: int, addresses: int, net: int) -> None:
    """New connections that say nothing, as fast as one process makes them, of which so many stay."""
    held: list[Client] = []
    number = 0
    while crowd.is_on():
        number += 1
        try:
            client = Client(crowd, source_of(net, number % addresses))
            client.connect_at_once()
            held.append(client)
        except Gone:
            await asyncio.sleep(0.01)
        if len(held) > clients:
            held.pop(0).close(True)
        if number % 16 == 0:
            await asyncio.sleep(0)


# each phase: what it is, who comes, how many in each of two processes, of how many addresses, with how small a buffer, and
# whether the documents of glb owe each an answer
PHASES: list[tuple[str, Any, int, int, int, bool]] = [
    ("a crowd up to the limit", crowding, 125, 125, 0, True),
    ("a crowd of four times the limit", crowding, 500, 125, 0, True),
    ("a crowd of twice an address's share, of one address", crowding, 32, 1, 0, False),
    ("400 that say nothing", silent, 200, 8, 0, False),
    ("new ones that say nothing, as fast as may be", newcomers, 300, 125, 0, False),
    ("180 that say an octet at a time", drip, 90, 90, 0, True),
    ("40 whose messages are split at each octet", split, 20, 20, 0, True),
    ("40 with a hundred questions at once", pipeline, 20, 20, 0, True),
    ("20 that read slowly", slow, 10, 10, 2048, True),
    ("20 that never read", never, 10, 10, 0, False),
    ("40 that half-close", half_closed, 20, 20, 0, True),
    ("40 that reset amid a message", resets, 20, 20, 0, False),
    ("40 whose lengths lie", lengths, 20, 20, 0, True),
    ("40 that send garbage", garbage, 20, 20, 0, True),
    ("a storm that comes and goes", storm, 20, 125, 0, False),
    ("120 of all these kinds", mixed, 60, 60, 0, True),
]
# what may be cut off where a phase ends, since it has no end of its own
ENDLESS = (silent, slow, never)


async def run_phase(crowd: Crowd, phase: int, net: int) -> None:
    _, way, clients, addresses, buffer, _ = PHASES[phase]
    if way in (crowding, newcomers):
        tasks = [asyncio.create_task(way(crowd, clients, addresses, net))]
    else:
        tasks = [
            asyncio.create_task(
                again_and_again(crowd, way, source_of(net, number % addresses), number, buffer)
            )
            for number in range(clients)
        ]
    left = crowd.end - time.monotonic() + (0 if way in ENDLESS else DEADLINE + 2)
    _, late = await asyncio.wait(tasks, timeout=max(0.01, left))
    for task in late:
        task.cancel()
    for ended in await asyncio.gather(*tasks, return_exceptions=True):
        if isinstance(ended, Exception):
            crowd.note("a fault of the script's", repr(ended))
    for client in list(crowd.open):
        client.close()


def hostile(process: int, shared: Shared, maps: list[bytes], channel: Any) -> None:
    """One of the processes: it runs a phase against a server as often as it is told, until it is told None."""
    end_with_parent()
    os.nice(10)
    judges = [Judge(shared, True, maps), Judge(shared, False, maps)]
    while (job := channel.recv()) is not None:
        phase, server, place, seed, seconds = job
        # a crowd of one address comes from the same address in both processes
        net = 20 if PHASES[phase][3] == 1 else 20 + process
        crowd = Crowd(place, random.Random(f"{seed} {process}"), judges[server], process, seconds)
        asyncio.run(run_phase(crowd, phase, net))
        channel.send((dict(crowd.count), crowd.wrong))
