"""The lines of a feed, and what a server takes of them, as docs/FORMATS.md has them."""

import ipaddress
import re
import string
from collections.abc import Mapping
from typing import Protocol

# a change is a word with the number of its unit or node, and a batch takes so many
Change = tuple[str, int]
MOST_CHANGES, LONGEST_LINE = 4096, 8300
MOST_UNITS, MOST_CAPACITY = 2**32 - 1, 2**48
WORD_COUNTS = {"demand": 3, "capacity": 3, "commit": 1, "ask": 3, "show": 1, "stop": 1}
PRINTED, DIGITS = re.compile(rb"[ -~]*"), re.compile(r"[0-9]{1,19}")


class Names(Protocol):
    """What a batch is checked by: the numbers of groups and classes, and of nodes, by their names."""

    @property
    def unit_at(self) -> Mapping[str, int]:
        ...

    @property
    def node_at(self) -> Mapping[str, int]:
        ...


class Refused(Exception):
    """Why a line of a feed is refused."""


def lines_of(octets: bytes) -> list[bytes]:
    """The lines of a feed: the last one counts without its end, too."""
    *whole, rest = octets.split(b"\n")
    return whole + ([rest] if rest else [])


def number_in(text: str) -> int:
    if not DIGITS.fullmatch(text):
        raise Refused("bad number")
    return int(text)


def words_of(line: bytes) -> list[str]:
    """The words of a line of a feed, each of them checked by itself."""
    if len(line) > LONGEST_LINE:
        raise Refused("too long")
    if not PRINTED.fullmatch(line):
        raise Refused("bad byte")
    # of blanks there are spaces alone
    words = line.decode().split()
    if not words or words[0] not in WORD_COUNTS:
        raise Refused("unknown word")
    if len(words) != WORD_COUNTS[words[0]]:
        raise Refused("wrong count")
    if words[0] in ("demand", "capacity"):
        number_in(words[2])
    if words[0] == "ask":
        check_question(words[1], words[2])
    return words


def check_question(addr: str, digits: str) -> None:
    try:
        if "%" in addr or (":" in addr and "." in addr):
            raise ValueError
        ipaddress.ip_address(addr)
    except ValueError:
        raise Refused("bad address") from None
    if len(digits) % 2 or any(c not in string.hexdigits for c in digits):
        raise Refused("bad hex")


class Replay:
    """What a server has taken of a feed: its numbers, and what came of each commit."""

    def __init__(self, names: Names) -> None:
        self.names = names
        # by word and number of the unit or node, the last number that a commit took
        self.numbers: dict[Change, int] = {}
        self.batch: list[tuple[Change, int]] = []
        self.refused: list[tuple[int, str]] = []
        self.line = self.published = 0
        # of each batch that was dropped: the line of its commit, and its refused lines with the reasons
        self.dropped: list[tuple[int, list[tuple[int, str]]]] = []
        self.is_stopped = False

    def take(self, octets: bytes) -> None:
        for line in lines_of(octets):
            if self.is_stopped:
                return
            self.line += 1
            try:
                self.work(words_of(line))
            except Refused as why:
                self.refused.append((self.line, str(why)))

    def work(self, words: list[str]) -> None:
        if words[0] in ("demand", "capacity"):
            self.add(words)
        elif words[0] == "commit":
            self.commit()
        elif words[0] == "stop":
            self.is_stopped = True

    def add(self, words: list[str]) -> None:
        word, name, number = words[0], words[1], int(words[2])
        if word == "demand":
            at, least, most = self.names.unit_at, 1, MOST_UNITS
        else:
            at, least, most = self.names.node_at, 0, MOST_CAPACITY
        if name not in at:
            raise Refused("unknown name")
        if not least <= number <= most:
            raise Refused("out of range")
        if len(self.batch) >= MOST_CHANGES:
            raise Refused("batch full")
        self.batch.append(((word, at[name]), number))

    def commit(self) -> None:
        if self.refused:
            self.dropped.append((self.line, self.refused))
        elif self.batch:
            self.numbers.update(self.batch)
            self.published += 1
        self.batch, self.refused = [], []
