"""Bars for a terminal: each interval of an item on one scale, so that it narrows as planes are read."""
from __future__ import annotations

import datetime
import re
import unicodedata
from fractions import Fraction
from typing import Optional, Sequence, Union

from .report import Block
from .result import Row, key_text, planes_text, printable, ranking_text, rows_of
from .table import Column
from .values import Interval, Value, interval_text, is_number, percent_text

Span = tuple[Value, Value]
Exact = Union[int, Fraction]


def place(value: Value, span: Span) -> float:
    """Where a value lies between the ends of a span: 0 and 1 are the ends."""
    low, high = span
    if isinstance(value, datetime.date) and isinstance(low, datetime.date) and isinstance(high, datetime.date):
        return _part(value.toordinal(), low.toordinal(), high.toordinal())
    if is_number(value) and is_number(low) and is_number(high):
        return _part(Fraction(value), Fraction(low), Fraction(high))
    return _part(*_text_numbers(str(value), str(low), str(high)))


def _part(value: Exact, low: Exact, high: Exact) -> float:
    return float((value - low) / (high - low)) if low != high else 0.5


def _text_numbers(*texts: str) -> list[int]:
    """Texts as numbers in the same order: the eight bytes behind what the last two, the ends, have in common."""
    codes = [text.encode("utf-8") for text in texts]
    low, high = codes[-2:]
    same = next((at for at, (one, other) in enumerate(zip(low, high)) if one != other), min(len(low), len(high)))
    return [int.from_bytes(code[same : same + 8].ljust(8, b"\0"), "big") for code in codes]


def bar(interval: Interval, span: Span, sure: bool, width: int) -> str:
    """The bar of an interval on its scale: `#` where the answer is sure to be there, else `:`; `<` and `>` where it leaves the scale."""
    if interval.low is None or interval.high is None:
        return " " * width
    ends = place(interval.low, span), place(interval.high, span)
    first, last = (int(min(max(end, 0.0), 1.0) * (width - 1) + 0.5) for end in ends)
    signs = list(" " * first + ("#" if sure else ":") * (last - first + 1) + " " * (width - 1 - last))
    if ends[0] < 0:
        signs[0] = "<"
    if ends[1] > 1:
        signs[-1] = ">"
    return "".join(signs)


def mean_column(title: str) -> Optional[str]:
    """The column of which an item is the average; None of another item."""
    mean = re.fullmatch(r'AVG\("?([^"()*+]+?)"?\)', title)
    return mean[1] if mean else None


class Chart:
    """Draws the blocks of one query. The scale of an item is what its first block leaves open, of the average of a column its values.

    Groups are parts of a table: where their counts or sums take less than a quarter of the scale, it is cut to them, with 0.
    """

    def __init__(self, columns: Sequence[Column]) -> None:
        self._columns = {column.name: column for column in columns}
        self._spans: dict[str, Span] = {}
        self._name_room = self._text_room = 0

    def rows(self, block: Block) -> list[Row]:
        """The rows of the block, for which there is a scale now."""
        rows = rows_of(block)
        for row in rows:
            self._widen(row)
        for title in {_scale_name(row) for row in rows if row.keys and row.item.startswith(("COUNT(", "SUM("))}:
            self._cut(title, [row for row in rows if _scale_name(row) == title and row.low is not None])
        return rows

    def ends(self, row: Row) -> Optional[tuple[float, float]]:
        """Where the ends of a row lie on its scale, from 0 to 1 where they do not leave it; None where there are none."""
        span = self._spans.get(_scale_name(row))
        if not span or row.low is None or row.high is None:
            return None
        return place(row.low, span), place(row.high, span)

    def lines(self, block: Block, width: int, height: Optional[int] = None) -> list[str]:
        """The block as lines for so wide a screen; with a height none is wider, and rows that do not fit are counted."""
        rows = self.rows(block)
        room = len(rows) if height is None else max(height - 2, 1)
        lines = [head_text(block), *self._rows(rows[:room], width)]
        lines += ["%d more rows" % (len(rows) - room)] if len(rows) > room else []
        return lines if height is None else [cut(line, width) for line in lines]

    def _widen(self, row: Row) -> None:
        low, high, title = row.low, row.high, _scale_name(row)
        if low is None or high is None:
            return
        column = self._columns.get(mean_column(title) or "")
        if column and column.least is not None and column.greatest is not None:
            self._spans[title] = (column.least, column.greatest)
            return
        least, greatest = self._spans.get(title, (low, high))
        self._spans[title] = (min(least, low), max(greatest, high))

    def _cut(self, title: str, rows: Sequence[Row]) -> None:
        span = min([0, *(row.low for row in rows)]), max([0, *(row.high for row in rows)])
        least, greatest = self._spans.get(title, span)
        if 4 * (span[1] - span[0]) < greatest - least:
            self._spans[title] = span

    def _rows(self, rows: Sequence[Row], width: int) -> list[str]:
        names, texts = [printable(row_name(row)) for row in rows], [row_text(row) for row in rows]
        # The room of names and texts never shrinks, so that the bars stand still from block to block.
        self._name_room = min(max([self._name_room, *map(cells, names)]), width // 3)
        self._text_room = max([self._text_room, *map(cells, texts)])
        room = max(width - self._name_room - self._text_room - 4, 10)
        return ["%s |%s| %s" % (padded(name, self._name_room), self._bar(row, room), text) for row, name, text in zip(rows, names, texts)]

    def _bar(self, row: Row, room: int) -> str:
        span = self._spans.get(_scale_name(row))
        return bar(row.interval, span, is_sure(row), room) if span else " " * room


def is_sure(row: Row) -> bool:
    """Whether there is an answer, and its group or row belongs."""
    return row.state in ("", "present", "certain") and not row.maybe_null


def _scale_name(row: Row) -> str:
    """An item and its sharper lines have one scale."""
    return re.sub(r" (clip|exact)\Z", "", row.item)


def row_name(row: Row) -> str:
    """What a row speaks of: the keys of its group and its item, or the number of a row, behind its part."""
    keys = map(key_text, row.keys)
    if row.state in ("certain", "possible") and not row.item.endswith(")"):
        return " ".join(["row", *keys])
    return " ".join([*keys, row.item])


def cells(text: str) -> int:
    """How many cells of a terminal a text takes."""
    return sum(0 if unicodedata.combining(sign) else 2 if unicodedata.east_asian_width(sign) in "WF" else 1 for sign in text)


def cut(text: str, room: int) -> str:
    """The front of the text that fits so many cells."""
    if cells(text) <= room:
        return text
    return next(text[:size] for size in range(min(len(text), room), -1, -1) if cells(text[:size]) <= room)


def padded(text: str, room: int) -> str:
    text = cut(text, room)
    return text + " " * (room - cells(text))


def row_text(row: Row) -> str:
    """The interval of a row, and how wide it is."""
    part = percent_text(row.relative_width)
    return printable(interval_text(row.interval)) + (part and "  (%s)" % part)


def head_text(block: Block) -> str:
    """What was read for a block, and how far its rows are known."""
    read = "" if block.column is None else ", the last of %s (%d of %d)" % (block.column, block.plane, block.planes)
    found = "; " + ranking_text(block.ranking) if block.ranking else ""
    return "%s%s%s" % (read_text(block), read, found)


def read_text(block: Block) -> str:
    """How many planes were read, and their bytes where a plane has any."""
    planes = planes_text(block)
    return planes.replace(" read", ", %s read" % bytes_text(block.bytes_read)) if block.bytes_read else planes


def bytes_text(count: int) -> str:
    """A number of bytes for people."""
    for unit, size in (("GB", 10**9), ("MB", 10**6), ("kB", 10**3)):
        if count >= size:
            return "%.1f %s" % (count / size, unit)
    return "%d bytes" % count
