"""Tables in CSV: a header, then rows. What is wrong is told with its file, line and column."""

import csv
import io
import re
from collections.abc import Iterator, Sequence
from pathlib import Path

from glb_tools.options import Fault

NAME = re.compile(r"[A-Za-z0-9._-]{1,32}")
NUMBER = re.compile(r"[0-9]{1,15}(\.[0-9]{1,9})?")
# the most octets of a cell that are shown
SHOWN = 40


def shown(cell: str) -> str:
    """A cell as a message has it: what is long or not printable is cut off or escaped."""
    cut = cell if len(cell) <= SHOWN else cell[:SHOWN] + ".."
    return "`" + "".join(c if c.isprintable() else repr(c)[1:-1] for c in cut) + "`"


def near(name: str, names: Iterator[str] | Sequence[str]) -> str:
    """A hint at the name that was meant, where one differs by the case of letters or by blanks alone."""
    plain = name.strip().lower()
    for known in names:
        if known.lower() == plain:
            return f" (is {shown(known)} meant?)"
    return ""


class Row:
    """A row: its line, from 1, and its cells by column; a column that is not there is empty."""

    __slots__ = ("table", "line", "cells")

    def __init__(self, table: "Table", line: int, cells: list[str]) -> None:
        self.table, self.line, self.cells = table, line, cells

    def __getitem__(self, column: str) -> str:
        at = self.table.at.get(column)
        return "" if at is None else self.cells[at]

    def fault(self, column: str, why: str) -> Fault:
        return Fault(f"{self.table.path}, line {self.line}, column {column}: {why}")

    def name(self, column: str) -> str:
        name = self[column]
        if not NAME.fullmatch(name):
            raise self.fault(
                column,
                f"{shown(name)} is no name: 1 to 32 letters, digits, `-`, `_` or `.`"
                if name
                else "there is no name",
            )
        return name

    def whole(self, column: str, least: int, most: int) -> int:
        """A whole number, as digits alone."""
        text = self[column]
        if not (text.isascii() and text.isdigit() and len(text) <= 19):
            raise self.fault(column, f"{shown(text)} is no whole number: write digits alone")
        number = int(text)
        if not least <= number <= most:
            raise self.fault(column, f"{text} is not from {least:,} to {most:,}")
        return number

    def decimal(self, column: str, most: float) -> float:
        """A number with or without a point, from 0."""
        text = self[column]
        if not NUMBER.fullmatch(text):
            raise self.fault(
                column, f"{shown(text)} is no number: write digits, and a point if need be"
            )
        number = float(text)
        if number > most:
            raise self.fault(column, f"{text} is more than {most:,.0f}")
        return number

    def degrees(self, column: str, most: int) -> float:
        """A latitude or a longitude."""
        text = self[column]
        if not NUMBER.fullmatch(text.removeprefix("-")) or not -most <= float(text) <= most:
            raise self.fault(column, f"{shown(text)} is no number from -{most} to {most}")
        return float(text)


class Table:
    """A file in CSV with a header that names its columns, in any order."""

    def __init__(self, path: Path, needed: Sequence[str], allowed: Sequence[str] = ()) -> None:
        self.path = path
        self.reader = csv.reader(io.StringIO(self.text(), newline=""), strict=True)
        header = [cell.strip() for cell in self.next_row() or []]
        self.at: dict[str, int] = {}
        for number, column in enumerate(header):
            if column not in needed and column not in allowed:
                columns = ", ".join([*needed, *(f"[{column}]" for column in allowed)])
                raise Fault(
                    f"{path}, line 1, column {number + 1}: there is no column {shown(column)}; the columns are {columns}"
                )
            if self.at.setdefault(column, number) != number:
                raise Fault(f"{path}, line 1, column {number + 1}: {shown(column)} stands twice")
        missing = [column for column in needed if column not in self.at]
        if missing:
            raise Fault(
                f"{path}, line 1: the column {shown(missing[0])} is missing; the first line names the columns"
            )

    def text(self) -> str:
        octets = self.path.read_bytes()
        try:
            return octets.decode("utf-8-sig")
        except UnicodeDecodeError as why:
            line = octets.count(b"\n", 0, why.start) + 1
            raise Fault(f"{self.path}, line {line}: an octet that is no UTF-8") from None

    def next_row(self) -> list[str] | None:
        """The next line that is not empty."""
        try:
            for cells in self.reader:
                if cells:
                    return cells
        except csv.Error as why:
            raise Fault(f"{self.path}, line {self.reader.line_num}: {why}") from None
        return None

    def lines(self) -> Iterator[tuple[int, list[str]]]:
        """Each row's line and its cells as they stand there."""
        columns = len(self.at)
        while (cells := self.next_row()) is not None:
            line = self.reader.line_num
            if len(cells) != columns:
                raise Fault(
                    f"{self.path}, line {line}, column {min(len(cells), columns) + 1}:"
                    f" the row has {len(cells)} cells, and the header {columns}"
                )
            yield line, cells

    def row(self, line: int, cells: list[str]) -> Row:
        return Row(self, line, [cell.strip() for cell in cells])

    def __iter__(self) -> Iterator[Row]:
        for line, cells in self.lines():
            yield self.row(line, cells)
