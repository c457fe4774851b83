"""Documents of TOML, and where in their text the numbers stand.

Python's tomllib takes eleven seconds for the largest topologies, and says nothing of places. So a document that has the
plain form of most topologies is read here, in two seconds: tables `[NAME]` and `[[NAME]]`, and in each line a bare key with
a number, a text without escapes, true, false, or a list of such texts and numbers, which may take several lines. Whatever
else a document has, and each fault, is tomllib's, and the places are those of a walk over the text.
"""

import gc
import json
import re
import tomllib
from collections.abc import Iterable, Iterator
from contextlib import contextmanager
from pathlib import Path
from typing import Any

from glb_tools.options import Fault

# an array of tables, the number of a table in it, and a key
Place = tuple[str, int, str]
Span = tuple[int, int]
Table = dict[str, Any]

NAME, TEXT, NUMBER = r"[A-Za-z0-9_-]++", r'"[^"\\\x00-\x1f\x7f]*+"', r"(?:0|-?[1-9][0-9]{0,17}+)"
SPACE, LINE_END = r"[ \t]*+", r"(?:\#[^\x00-\x08\x0a-\x1f\x7f]*+)?(?:\r?\n|\Z)"
# what is possessive here is a set of characters: of groups Python 3.11.2 does not do it right. A group is repeated so often at
# most, since each time takes memory
BETWEEN = r"[ \t\n]*+(?:\r\n[ \t\n]*+){0,99}"
ITEM = rf"{BETWEEN}(?:{TEXT}|{NUMBER}){BETWEEN}"
# the longest list of a topology has all prefixes
ITEMS = rf"\[{ITEM}(?:,{ITEM}){{0,262143}}"
LIST, LIST_WITH_COMMA = rf"(?:{ITEMS}|\[{BETWEEN})\]", rf"{ITEMS},{BETWEEN}\]"
LITERAL = r"'[^'\x00-\x08\x0a-\x1f\x7f]*+'"
# by the number of the last group: a number, a text, a literal text, a flag, a list, a list that ends with a comma; a table of
# an array; a table
STATEMENT = re.compile(
    rf"{BETWEEN}(?:({NAME}){SPACE}={SPACE}"
    rf"(?:({NUMBER})|({TEXT})|({LITERAL})|(true|false)|({LIST})|({LIST_WITH_COMMA}))"
    rf"|\[\[{SPACE}({NAME}){SPACE}\]\]|\[{SPACE}({NAME}){SPACE}\]|){SPACE}{LINE_END}"
)


@contextmanager
def without_collections() -> Iterator[None]:
    """Runs without looking for cycles, where a million objects come and none goes: that takes half of the time. Nor are
    these looked at later; without cycles they go as soon as nobody has them."""
    was_enabled = gc.isenabled()
    gc.disable()
    try:
        yield
    finally:
        gc.freeze()
        if was_enabled:
            gc.enable()


class Unusual(Exception):
    """A document that does not have the plain form."""


class Plain:
    """A document of the plain form."""

    def __init__(self, text: str) -> None:
        self.top: Table = {}
        self.table = self.top
        # the array of tables and the number of the table that is being read, and where their numbers stand
        self.array, self.number = "", 0
        self.spans: dict[Place, Span] = {}
        self.arrays: set[str] = set()
        self.read(text)

    def read(self, text: str) -> None:
        at, match, decoded = 0, STATEMENT.match, json.JSONDecoder().raw_decode
        while at < len(text):
            found = match(text, at)
            if found is None:
                raise Unusual
            at = found.end()
            kind = found.lastindex
            if kind is None:
                continue
            if kind == 8:
                self.open_array(found[8])
            elif kind == 9:
                self.open_table(found[9])
            elif found[1] in self.table:
                raise Unusual
            elif kind == 2:
                self.table[found[1]] = int(found[2])
                if self.array:
                    self.spans[self.array, self.number, found[1]] = found.span(2)
            elif kind in (3, 4):
                self.table[found[1]] = found[kind][1:-1]
            elif kind == 7:
                last = text.rindex(",", *found.span(kind))
                self.table[found[1]] = json.loads(text[found.start(kind) : last] + "]")
            else:
                # of these TOML and JSON mean the same
                self.table[found[1]] = decoded(text, found.start(kind))[0]

    def open_array(self, name: str) -> None:
        if name not in self.arrays:
            self.open_table(name)
            self.arrays.add(name)
            self.top[name] = []
        self.table = {}
        self.top[name].append(self.table)
        self.array, self.number = name, len(self.top[name]) - 1

    def open_table(self, name: str) -> None:
        if name in self.top:
            raise Unusual
        self.table = self.top[name] = {}
        self.array = ""


BLANK = re.compile(r"[ \t\r\n]*+(?:#[^\n]*+)?")
BARE_KEY = re.compile(NAME)
BARE_VALUE = re.compile(r"[^\s,\]}#]+")
PLAIN_LIST = re.compile(rf"{LIST}|{LIST_WITH_COMMA}")
TEXTS = [
    re.compile(r'"""(?:[^\\]|\\.)*?"{3,5}', re.S),
    re.compile(r"'''.*?'{3,5}", re.S),
    re.compile(r'"(?:[^"\\\n]|\\.)*"'),
    re.compile(r"'[^'\n]*'"),
]
Keys = tuple[str | int, ...]


class Walk:
    """Where in a document of TOML its bare values stand, but those in plain lists: a walk over its text."""

    def __init__(self, text: str) -> None:
        self.text, self.at = text, 0
        # by the path of keys and numbers, where the value begins and ends
        self.found: dict[Keys, Span] = {}
        # how many tables stand in each array of tables
        self.tables: dict[Keys, int] = {}
        self.walk()

    def sees(self, mark: str) -> bool:
        while (found := BLANK.match(self.text, self.at)) and found.end() > self.at:
            self.at = found.end()
        return self.text.startswith(mark, self.at)

    def takes(self, mark: str) -> bool:
        if not self.sees(mark):
            return False
        self.at += len(mark)
        return True

    def must(self, mark: str) -> None:
        if not self.takes(mark):
            raise Fault(f"no `{mark}` at character {self.at} of the topology")

    def walk(self) -> None:
        table: Keys = ()
        while not self.sees("") or self.at < len(self.text):
            if self.takes("[["):
                table = self.header()
                self.must("]]")
                self.tables[table] = self.tables.get(table, -1) + 1
                table = (*table, self.tables[table])
            elif self.takes("["):
                table = self.header()
                self.must("]")
            else:
                self.pair(table)

    def header(self) -> Keys:
        """The path of a table, with the number of the last table of each array of tables above it."""
        path: Keys = ()
        keys = self.keys()
        for place, key in enumerate(keys):
            path = (*path, key)
            if path in self.tables and place + 1 < len(keys):
                path = (*path, self.tables[path])
        return path

    def keys(self) -> list[str]:
        keys = [self.key()]
        while self.takes("."):
            keys.append(self.key())
        return keys

    def key(self) -> str:
        self.sees("")
        if found := BARE_KEY.match(self.text, self.at):
            self.at = found.end()
            return found[0]
        if quoted := self.quoted():
            return next(iter(tomllib.loads(f"{quoted} = 0")))
        raise Fault(f"no key at character {self.at} of the topology")

    def quoted(self) -> str | None:
        for kind in TEXTS:
            if found := kind.match(self.text, self.at):
                self.at = found.end()
                return found[0]
        return None

    def pair(self, table: Keys) -> None:
        keys = self.keys()
        self.must("=")
        self.value((*table, *keys))

    def value(self, path: Keys) -> None:
        self.sees("")
        if found := PLAIN_LIST.match(self.text, self.at):
            self.at = found.end()
        elif self.takes("["):
            self.items(path)
        elif self.takes("{"):
            self.members(path)
        elif self.quoted() is None:
            bare = BARE_VALUE.match(self.text, self.at)
            if not bare:
                raise Fault(f"no value at character {self.at} of the topology")
            self.at = bare.end()
            self.found[path] = bare.span()

    def items(self, path: Keys) -> None:
        number = 0
        while not self.takes("]"):
            self.value((*path, number))
            number += 1
            if not self.takes(","):
                self.must("]")
                return

    def members(self, path: Keys) -> None:
        while not self.takes("}"):
            self.pair(path)
            if not self.takes(","):
                self.must("}")
                return


class Document:
    """A document of TOML: its table, and its text with other numbers."""

    def __init__(self, octets: bytes, path: str | Path = "the topology") -> None:
        self.path = path
        # none where the document does not have the plain form
        self.plain: Plain | None = None
        try:
            self.text = octets.decode("utf-8-sig")
            with without_collections():
                self.read()
        except (UnicodeDecodeError, tomllib.TOMLDecodeError, RecursionError, ValueError) as why:
            raise Fault(f"{path}: {why}") from None

    def read(self) -> None:
        try:
            self.plain = Plain(self.text)
            self.top = self.plain.top
        except Unusual:
            self.top = tomllib.loads(self.text)

    def spans(self, places: Iterable[Place]) -> dict[Place, Span]:
        """Where in the text the numbers at these places stand."""
        if self.plain is not None:
            return {place: self.plain.spans[place] for place in places}
        walked, found = Walk(self.text).found, {}
        for place in places:
            if place not in walked:
                table, entry, key = place
                raise Fault(f"{self.path}: where `{key}` of {table} {entry} stands was not found")
            found[place] = walked[place]
        return found

    def written(self, numbers: dict[Place, int]) -> str:
        """The text with these numbers, without a byte order mark. Only the digits of values change: remarks and order stay."""
        text = replaced(self.text, self.spans(numbers), numbers)
        if self.plain is None and not self.differs_by(tomllib.loads(text), numbers):
            raise Fault(f"{self.path}: the numbers were not found in the text: write them by hand")
        return text

    def differs_by(self, other: Table, numbers: dict[Place, int]) -> bool:
        """Whether another table differs from this one by just these numbers."""
        for (table, entry, key), number in numbers.items():
            if other[table][entry][key] != number:
                return False
            other[table][entry][key] = self.top[table][entry][key]
        return other == self.top


def replaced(text: str, spans: dict[Place, Span], numbers: dict[Place, int]) -> str:
    pieces, at = [], 0
    for (begin, end), number in sorted((spans[place], number) for place, number in numbers.items()):
        pieces += [text[at:begin], str(number)]
        at = end
    return "".join([*pieces, text[at:]])
