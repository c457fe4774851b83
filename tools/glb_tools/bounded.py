"""Calls over HTTP whose whole time is bounded, however slowly whoever is asked drips its answer.

A time-out of a socket is one for each octet that is waited for: who sends one a second is waited for without end. Here a
call has a bound, and each wait of it, from the look-up of the name to the last octet, is for what is left of that.
"""

import io
import socket
import ssl
import threading
import time
import urllib.request
from http.client import HTTPConnection, HTTPSConnection
from typing import Any

# how many octets give a call a second more, since a page of entries may be large and the way to a member slow; and how many
# it may carry
RATE, MOST = 1 << 18, 1 << 28
# how many octets are sent at once
PIECE = 1 << 16


class Bound:
    """Until when a call may go on: so many seconds, and one more for each so many octets that it carried."""

    def __init__(self, seconds: float) -> None:
        self.octets = 0
        self.begin(seconds)

    def begin(self, seconds: float) -> None:
        """From now on it is so many seconds."""
        self.end = time.monotonic() + seconds - self.octets / RATE

    def left(self) -> float:
        left = self.end + self.octets / RATE - time.monotonic()
        if left <= 0:
            raise TimeoutError("timed out")
        return left

    def carried(self, octets: int) -> None:
        self.octets += octets
        if self.octets > MOST:
            raise OSError("its answer does not end")


class Request(urllib.request.Request):
    def __init__(self, bound: Bound, url: str, data: bytes | None, headers: dict[str, str]) -> None:
        super().__init__(url, data, headers)
        self.bound = bound


def opener_of(context: ssl.SSLContext | None) -> urllib.request.OpenerDirector:
    """What opens requests: by no proxy, since what the environment says of these is not meant for members of etcd, and to
    nowhere else than asked."""
    opener = urllib.request.OpenerDirector()
    for handler in (
        urllib.request.UnknownHandler(),
        urllib.request.HTTPDefaultErrorHandler(),
        urllib.request.HTTPErrorProcessor(),
        Handler(),
        SecureHandler(context),
    ):
        opener.add_handler(handler)
    return opener


class Handler(urllib.request.HTTPHandler):
    def http_open(self, req: Any) -> Any:
        made: Any = Connection
        return self.do_open(made, req, bound=req.bound)


class SecureHandler(urllib.request.HTTPSHandler):
    def __init__(self, context: ssl.SSLContext | None) -> None:
        super().__init__()
        self.context = context

    def https_open(self, req: Any) -> Any:
        made: Any = SecureConnection
        context = self.context or ssl.create_default_context()
        return self.do_open(made, req, bound=req.bound, context=context)


class Connection(HTTPConnection):
    def __init__(self, host: str, bound: Bound, **more: Any) -> None:
        super().__init__(host, **more)
        self.bound = bound

    def connect(self) -> None:
        self.sock: Any = Carrier(connected(self.host, self.port, self.bound), self.bound)


class SecureConnection(HTTPSConnection):
    def __init__(self, host: str, bound: Bound, context: ssl.SSLContext, **more: Any) -> None:
        super().__init__(host, context=context, **more)
        self.bound, self.context = bound, context

    def connect(self) -> None:
        bare = connected(self.host, self.port, self.bound)
        try:
            bare.settimeout(self.bound.left())
            sock = self.context.wrap_socket(bare, server_hostname=self.host)
        except BaseException:
            bare.close()
            raise
        self.sock: Any = Carrier(sock, self.bound)


def connected(host: str, port: int, bound: Bound) -> socket.socket:
    """A connection to a host, at the first of its addresses that takes one: each has its share of the time."""
    addresses = addresses_of(host, port, bound)
    for number, (family, kind, protocol, _, address) in enumerate(addresses):
        sock = socket.socket(family, kind, protocol)
        try:
            sock.settimeout(bound.left() / (len(addresses) - number))
            sock.connect(address)
            sock.setsockopt(socket.IPPROTO_TCP, socket.TCP_NODELAY, 1)
            return sock
        except OSError as error:
            sock.close()
            why = error
    raise why


def addresses_of(host: str, port: int, bound: Bound) -> list[Any]:
    """The addresses of a host. Whoever is asked for a name may be silent for longer, and nothing ends that call."""
    found: list[Any] = []

    def look_up(flags: int = 0) -> list[Any]:
        return socket.getaddrinfo(host, port, type=socket.SOCK_STREAM, flags=flags)

    def look() -> None:
        try:
            found.append(look_up())
        except (OSError, ValueError) as error:
            found.append(error)

    try:
        return look_up(socket.AI_NUMERICHOST)
    except OSError:
        looks = threading.Thread(target=look, daemon=True)
        looks.start()
        looks.join(bound.left())
    if not found:
        raise TimeoutError("its name was not looked up in time")
    if isinstance(found[0], Exception):
        raise found[0]
    return list(found[0])


class Carrier:
    """A socket as a connection of HTTP uses it: each wait is for what is left."""

    def __init__(self, sock: socket.socket, bound: Bound) -> None:
        self.sock, self.bound = sock, bound

    def sendall(self, octets: bytes) -> None:
        left = memoryview(octets)
        while left:
            self.sock.settimeout(self.bound.left())
            sent = self.sock.send(left[:PIECE])
            self.bound.carried(sent)
            left = left[sent:]

    def makefile(self, mode: str) -> io.BufferedReader:
        assert mode == "rb"
        return io.BufferedReader(Reader(self.sock, self.bound))

    def close(self) -> None:
        """It is closed when its reader is, too."""
        self.sock.close()


class Reader(io.RawIOBase):
    def __init__(self, sock: socket.socket, bound: Bound) -> None:
        self.sock, self.bound = sock, bound
        self.raw = sock.makefile("rb", buffering=0)

    def readable(self) -> bool:
        return True

    def readinto(self, buffer: Any) -> int | None:
        self.sock.settimeout(self.bound.left())
        count = self.raw.readinto(buffer)
        self.bound.carried(count or 0)
        return count

    def close(self) -> None:
        self.raw.close()
        super().close()
