"""A server as its follower sees it: three pipes. The follower writes batches, and reads answers and the texts of maps."""

import collections
import fcntl
import hashlib
import os
import re
import secrets
import select
from collections.abc import Callable
from dataclasses import dataclass
from pathlib import Path

from glb_tools.options import Fault

PIPES = ("feed", "said", "maps")
PUBLISHED = re.compile(r"published (\d+)")
DROPPED = re.compile(r"refused commit lines \d+")
NO_MEMORY = "refused commit memory"
REFUSED = re.compile(r"refused (\d+) (.*)")
SHOWN = re.compile(r"show (\d+) placed (\d+) unplaced (\d+) full (\d+)")
# how many octets are read at once, and how many letters are told of why a batch was dropped
PIECE, MOST_WORDS = 1 << 16, 80
# the end of a map's text, and the least of it that holds its first line
END, HEAD = b"\nend\n", 16
# a query for a name of one label that is outside of every zone: its reply repeats the name
QUERY, LABEL = "000000000001000000000000", 16


class Lost(Fault):
    """It is not known any more how far a server is: whoever follows it ends, and the next one finds out."""


@dataclass
class Shown:
    """What a server says of its newest map."""

    serial: int
    placed: int
    unplaced: int


@dataclass
class Worked:
    """What came of a batch: what the server shows behind it, the checksum of the text of the map that it published, and
    why the batch was dropped, where it was."""

    shown: Shown
    map: str | None = None
    dropped: str | None = None
    no_memory: bool = False


class Texts:
    """Checksums of the texts of maps, as these come in pieces; a text whose beginning was missed has none."""

    def __init__(self) -> None:
        self.whole: list[str] = []
        # the version of the text, which its first line says
        self.version: str | None = None
        self.rest, self.hash, self.is_whole = b"", hashlib.sha256(), True
        self.is_begun = False

    def take(self, octets: bytes) -> None:
        self.rest += octets
        while (end := self.rest.find(END)) >= 0:
            end += len(END)
            self.add(self.rest[:end])
            if self.is_whole:
                self.whole.append(self.hash.hexdigest())
            self.rest, self.is_begun = self.rest[end:], False
        if len(self.rest) > HEAD:
            # the end may stand across two pieces
            kept = len(END) - 1
            self.add(self.rest[:-kept])
            self.rest = self.rest[-kept:]

    def add(self, octets: bytes) -> None:
        if not self.is_begun:
            self.hash, self.is_begun = hashlib.sha256(), True
            self.is_whole = octets.startswith(b"glb map ")
            if self.is_whole:
                self.version = octets.split(b"\n", 1)[0].split()[-1].decode("latin-1")
        self.hash.update(octets)


class Server:
    """The pipes of a server, in a folder. The server holds them open itself, so it goes on answering without a follower."""

    def __init__(self, folder: Path) -> None:
        try:
            # for reading and writing: that waits for nobody, and ends when nobody goes
            self.feed, self.said, self.maps = (
                os.open(folder / name, os.O_RDWR | os.O_NONBLOCK) for name in PIPES
            )
            fcntl.flock(self.feed, fcntl.LOCK_EX | fcntl.LOCK_NB)
        except BlockingIOError:
            raise Fault(f"{folder}: another follower speaks to this server") from None
        self.to_write, self.rest = b"", b""
        # how many lines the server was fed, by its own count
        self.fed = 0
        self.lines: collections.deque[str] = collections.deque()
        self.texts = Texts()

    @property
    def version(self) -> str | None:
        """The version of the maps' texts."""
        return self.texts.version

    def pump(self, seconds: float) -> bool:
        """Writes and reads what can be; whether anything came or went within the time."""
        writes = [self.feed] if self.to_write else []
        ready, free, _ = select.select([self.said, self.maps], writes, [], seconds)
        if free:
            self.to_write = self.to_write[os.write(self.feed, self.to_write) :]
        if self.maps in ready:
            self.texts.take(os.read(self.maps, PIECE))
        if self.said in ready:
            *lines, self.rest = (self.rest + os.read(self.said, PIECE)).split(b"\n")
            self.lines.extend(line.decode("latin-1") for line in lines)
        return bool(ready or free)

    def line(self, idle: Callable[[], None]) -> str:
        """The next line; `idle` is called each second that none comes."""
        while not self.lines:
            if not self.pump(1):
                idle()
        return self.lines.popleft()

    def shown(self, idle: Callable[[], None]) -> Shown:
        line = self.line(idle)
        found = SHOWN.fullmatch(line)
        if not found:
            raise Lost(f"the server said `{line}` and not what it shows: who else writes to it?")
        return Shown(*map(int, found.groups()[:3]))

    def find(self, idle: Callable[[], None]) -> Worked:
        """What the server shows, once all that was in its feed is worked, and what stood there unfinished is dropped; and
        its newest map's checksum, where nobody has read its text yet."""
        label = secrets.token_hex(LABEL // 2)
        query = f"{QUERY}{LABEL:02x}{label.encode().hex()}0000010001"
        self.to_write += f"\nfrom here\ncommit\nask 192.0.2.1 {query}\nshow\n".encode()
        while label.encode().hex() not in (line := self.line(idle)):
            if refused := REFUSED.fullmatch(line):
                # the last one is the second line of these
                self.fed = int(refused[1]) + 3
        return Worked(self.shown(idle), self.text_of_last())

    def work(self, lines: str, idle: Callable[[], None]) -> Worked:
        """Works a batch."""
        self.to_write += f"{lines}commit\nshow\n".encode()
        before, self.fed = self.fed, self.fed + lines.count("\n") + 2
        why = None
        while (answer := self.line(idle)) != NO_MEMORY and not (
            PUBLISHED.fullmatch(answer) or DROPPED.fullmatch(answer)
        ):
            if refused := REFUSED.fullmatch(answer):
                why = why or f"line {int(refused[1]) - before}: {refused[2][:MOST_WORDS]}"
        worked = Worked(self.shown(idle), no_memory=answer == NO_MEMORY)
        if DROPPED.fullmatch(answer):
            worked.dropped = why or answer
        elif not worked.no_memory:
            worked.map = self.text_of_last()
        return worked

    def text_of_last(self) -> str | None:
        """The checksum of the newest map's text: all of it was put before the line that the server said last."""
        while select.select([self.maps], [], [], 0)[0]:
            self.texts.take(os.read(self.maps, PIECE))
        last = self.texts.whole[-1] if self.texts.whole else None
        self.texts.whole.clear()
        return last

    def show(self, idle: Callable[[], None]) -> Shown:
        self.to_write += b"show\n"
        self.fed += 1
        return self.shown(idle)

    def stop(self) -> None:
        """Has the server end. What it does not take within a second stands in its feed."""
        self.to_write += b"stop\n"
        for _ in range(10):
            if not self.to_write:
                return
            self.pump(0.1)
