"""What is measured beside a fleet, for bench/fleet_hunt.py --watch: machines of pools that answer or
fail, a page of demands, and a relay between glb-watch and Prometheus that notes each answer.
"""

import asyncio
import json
import math
import re
import threading
import time
import urllib.request
from collections.abc import Callable
from http.client import HTTPException
from http.server import BaseHTTPRequestHandler, ThreadingHTTPServer
from random import Random
from typing import Any

MODES = ["closed", "closed", "hangs", "resets", "nonsense", "drips"]
DECIMAL = re.compile(r"[+-]?(?:[0-9]+(?:\.[0-9]*)?|\.[0-9]+)(?:[eE][+-]?[0-9]+)?")


class Machine:
    """A listener at an address of the loopback that answers a page, or fails in one of several ways."""

    server: asyncio.Server | None
    port: int

    def __init__(
        self, loop: asyncio.AbstractEventLoop, address: str, page: Callable[[], str]
    ) -> None:
        self.loop, self.address, self.page = loop, address, page
        self.mode, self.server, self.port = "answers", None, 0
        # since when it fails, and until when; and how many it answered
        self.faults: list[list[float]] = []
        self.answered = 0
        self.wait(self.open())

    def wait(self, work: Any) -> None:
        asyncio.run_coroutine_threadsafe(work, self.loop).result(10)

    @property
    def place(self) -> str:
        return f"{self.address}:{self.port}"

    def turn(self, mode: str) -> None:
        now = time.time()
        if self.mode == "answers" != mode:
            self.faults.append([now, math.inf])
        if mode == "answers" != self.mode:
            self.faults[-1][1] = now
        self.mode = mode
        self.wait(self.open() if mode != "closed" else self.close())

    async def open(self) -> None:
        if self.server is None:
            self.server = await asyncio.start_server(self.taken, self.address, self.port)
            self.port = self.server.sockets[0].getsockname()[1]

    async def close(self) -> None:
        server, self.server = self.server, None
        if server:
            server.close()

    async def taken(self, reader: asyncio.StreamReader, writer: asyncio.StreamWriter) -> None:
        try:
            await self.answer(reader, writer)
        except (OSError, asyncio.IncompleteReadError, asyncio.LimitOverrunError):
            pass
        except asyncio.CancelledError:
            pass
        finally:
            writer.close()

    async def answer(self, reader: asyncio.StreamReader, writer: asyncio.StreamWriter) -> None:
        await asyncio.wait_for(reader.readuntil(b"\r\n\r\n"), 5)
        if self.mode == "resets":
            writer.transport.abort()
            return
        if self.mode == "hangs":
            await asyncio.wait_for(reader.read(), 20)
            return
        body = self.page().encode()
        head = "HTTP/1.1 200 OK\r\nContent-Type: text/plain; version=0.0.4\r\n"
        if self.mode == "nonsense":
            head, body = "HTTP/1.1 500 No\r\nContent-Type: text/html\r\n", b"<html>" * 9
        head += f"Content-Length: {len(body)}\r\nConnection: close\r\n\r\n"
        whole = head.encode() + body
        if self.mode != "drips":
            writer.write(whole)
            await writer.drain()
        while self.mode == "drips" and whole:
            writer.write(whole[:1])
            await writer.drain()
            await asyncio.sleep(0.3)
            whole = whole[1:]
        self.answered += self.mode == "answers"


def values_in(octets: bytes, labels: tuple[str, ...]) -> dict[str, float]:
    """The values of an answer of Prometheus that may be used, by the label that each series has:
    a series that is none, or that stands twice, is left out; an answer that may lack a part is none.
    """
    try:
        told = json.loads(octets)
        if told["status"] != "success" or told.get("warnings"):
            return {}
        if told["data"]["resultType"] != "vector":
            return {}
        found: dict[str, list[str]] = {}
        for series in told["data"]["result"]:
            named = [series["metric"][label] for label in labels if label in series["metric"]]
            if not named:
                return {}
            found.setdefault(named[0], []).append(series["value"][1])
    except (ValueError, KeyError, TypeError, IndexError, AttributeError):
        return {}
    return {
        name: float(texts[0])
        for name, texts in found.items()
        if len(texts) == 1
        and isinstance(texts[0], str)
        and DECIMAL.fullmatch(texts[0])
        and 0 <= float(texts[0]) < 1e15
    }


def broken(draw: Random, octets: bytes) -> tuple[int, bytes]:
    """An answer that is none, or of which a part is none, with its status."""
    try:
        told = json.loads(octets)
        result = told["data"]["result"]
        series = draw.choice(result) if result else None
    except (ValueError, KeyError, TypeError):
        return 503, b"<html>no</html>"
    kind = draw.randrange(10)
    if kind == 0:
        return 503, b"<html>no</html>"
    if kind == 1:
        return 200, octets[: len(octets) // 2]
    if kind == 2:
        told["warnings"] = ["a part is missing"]
        for each in result:
            each["value"][1] = "0"
    elif kind == 3:
        told["status"] = "error"
    elif kind == 4:
        told["data"]["resultType"] = "matrix"
    elif series and kind == 5:
        series["value"][1] = draw.choice(["NaN", "+Inf", "-1", "x", "1e400", "0x0", ""])
    elif series and kind == 6:
        series["value"][1] = 0
    elif series and kind == 7:
        result.append({**series, "value": [series["value"][0], "0"]})
    elif series and kind == 8:
        result.remove(series)
    elif series:
        series["metric"] = {}
    return 200, json.dumps(told).encode()


class Relay:
    """A server in front of Prometheus: what it hands on is noted. `mode`: pass, broken, late."""

    def __init__(self, target: str, labels: tuple[str, ...], seed: int) -> None:
        self.target, self.labels, self.draw = target, labels, Random(seed)
        self.mode = "pass"
        self.answers: list[tuple[float, dict[str, float]]] = []
        self.lock = threading.Lock()
        relay = self

        class Handler(BaseHTTPRequestHandler):
            def do_POST(self) -> None:  # noqa: N802: its name is the library's
                try:
                    relay.carry(self)
                except (OSError, ValueError, HTTPException):
                    pass

            def log_message(self, *words: Any) -> None:
                pass

        self.server = ThreadingHTTPServer(("127.0.0.1", 0), Handler)
        self.server.daemon_threads = True
        self.port = self.server.server_address[1]
        threading.Thread(target=self.server.serve_forever, args=(0.1,), daemon=True).start()

    def carry(self, asked: BaseHTTPRequestHandler) -> None:
        body = asked.rfile.read(int(asked.headers["Content-Length"]))
        words = {"Content-Type": asked.headers["Content-Type"]}
        request = urllib.request.Request(self.target + asked.path, body, words)
        opener = urllib.request.build_opener(urllib.request.ProxyHandler({}))
        with opener.open(request, timeout=3) as answer:
            status, octets = answer.status, answer.read()
        if self.mode == "broken":
            status, octets = broken(self.draw, octets)
        elif self.mode == "late":
            time.sleep(self.draw.uniform(0, 2))
        if status == 200:
            with self.lock:
                self.answers.append((time.time(), values_in(octets, self.labels)))
        asked.send_response(status)
        asked.send_header("Content-Type", "application/json")
        asked.send_header("Content-Length", str(len(octets)))
        asked.end_headers()
        asked.wfile.write(octets)

    def values(self, name: str, since: float, until: float) -> list[float]:
        """The values of a name that were handed on between two moments."""
        with self.lock:
            return [
                found[name] for at, found in self.answers if since <= at <= until and name in found
            ]

    def close(self) -> None:
        self.server.shutdown()
        self.server.server_close()
