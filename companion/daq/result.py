"""The answers of a query: the rows of its last block, those of all rounds, and their forms as a table, CSV, JSON and HTML."""
from __future__ import annotations

import csv
import html
import io
import json
import math
from dataclasses import dataclass
from decimal import Decimal
from fractions import Fraction
from typing import Any, Iterator, Optional, Sequence

from .report import Block, Item, Key, KeyRange, Query, RankedRow, Ranking
from .values import Interval, Number, Value, interval_text, is_number, percent_text, rounded, shown_ends, value_text

FIELDS = ("item", "low", "high", "mid", "relative_width", "maybe_null", "state")
ROUND_FIELDS = ("round", "column", "plane", "planes", "bytes_read")
# So many rows a prompt or a notebook shows.
ROWS_SHOWN = 60


@dataclass(frozen=True)
class Row:
    """Where one item of one round lies: of a group its `keys`, of a query for the first rows the number of the row, in a table in parts
    behind the tag of its part.

    `item` is the expression, behind which `clip` or `exact` stands for the lines that these options add. `state` is present or
    possible for a group, certain or possible for a row, and else empty.
    """

    round: int
    column: Optional[str]
    plane: int
    planes: int
    bytes_read: int
    keys: tuple[Key, ...]
    item: str
    interval: Interval
    state: str

    @property
    def low(self) -> Optional[Value]:
        return self.interval.low

    @property
    def high(self) -> Optional[Value]:
        return self.interval.high

    @property
    def mid(self) -> Optional[Value]:
        return self.interval.mid

    @property
    def width(self) -> Optional[Number]:
        return self.interval.width

    @property
    def relative_width(self) -> Optional[Fraction]:
        return self.interval.relative_width

    @property
    def maybe_null(self) -> bool:
        return self.interval.maybe_null

    def values(self) -> list[Any]:
        """The keys, and then the values of FIELDS, exact."""
        return [*map(key_value, self.keys), *(getattr(self, field) for field in FIELDS)]

    def shown(self) -> list[Any]:
        """As `values`, with fractions as decimals: the low end is rounded down, the high end and the relative width up."""
        low, high = shown_ends(self.interval)
        mid = rounded(self.mid, 6, False) if isinstance(self.mid, Fraction) else self.mid
        part = None if self.relative_width is None else rounded(self.relative_width, 6, True)
        return [*map(key_value, self.keys), self.item, low, high, mid, part, self.maybe_null, self.state]

    def floats(self) -> list[Any]:
        """As `values`, with numbers as floats: the low end is rounded down, the high end and the relative width up."""
        low, high, mid, part = self.low, self.high, self.mid, self.relative_width
        numbers = [as_float(low, -math.inf), as_float(high, math.inf), as_float(mid), as_float(part, math.inf)]
        return [*map(key_value, self.keys), self.item, *numbers, self.maybe_null, self.state]

    def rounds(self) -> list[Any]:
        return [getattr(self, field) for field in ROUND_FIELDS]


def rows_of(block: Block) -> list[Row]:
    """The rows of a block, in the order of its lines."""
    front = (block.round, block.column, block.plane, block.planes, block.bytes_read)
    if block.ranking:
        title = block.query.order or ""
        return [Row(*front, _row_keys(row), title, row.interval, row.state) for row in block.ranking.rows]
    return [Row(*front, group.keys, title, interval, group.state)
            for group in block.groups for item in group.items for title, interval in _lines(item)]


def _row_keys(row: RankedRow) -> tuple[Key, ...]:
    return (row.part, row.row) if row.part else (row.row,)


def _lines(item: Item) -> Iterator[tuple[str, Interval]]:
    yield item.title, item.interval
    if item.clip:
        yield item.title + " clip", item.clip
    if item.exact:
        yield item.title + " exact", item.exact


def key_value(key: Key) -> Optional[Value]:
    """A key as one value: a range of keys as the text `3..7 or null`."""
    return key_text(key) if isinstance(key, KeyRange) else key


def key_text(key: Key) -> str:
    if not isinstance(key, KeyRange):
        return "null" if key is None else value_text(key)
    ends = value_text(key.low) if key.low == key.high else "%s..%s" % (value_text(key.low), value_text(key.high))
    return (ends or "-") + (" or null" if key.maybe_null else "")


def titles(keys: Sequence[str], history: bool = False) -> list[str]:
    """The titles of the columns of a table of rows with these keys; a key that has the name of another title is told apart."""
    fixed = [*(ROUND_FIELDS if history else ()), *FIELDS]
    fronts = ROUND_FIELDS if history else ()
    return [*fronts, *(name + " (key)" if name in fixed else name for name in keys), *FIELDS]


class Result:
    """What a query has answered. `blocks` are its rounds, of which the last has the sharpest intervals.

    `end` says why the rounds ended: "narrow", "rounds" or "reads" as in a report, "within", where the companion had seen enough, or
    "stopped"; it is empty while they go on.
    """

    def __init__(self, query: Query, blocks: Sequence[Block], end: str) -> None:
        self.query, self.blocks, self.end = query, list(blocks), end

    @property
    def block(self) -> Block:
        """The last block."""
        return self.blocks[-1]

    @property
    def rows(self) -> list[Row]:
        """The rows of the last block."""
        return rows_of(self.block)

    def history(self) -> list[Row]:
        """The rows of all rounds, in their order."""
        return [row for block in self.blocks for row in rows_of(block)]

    def df(self, history: bool = False, floats: bool = False) -> Any:
        """A DataFrame of the last block, or of all rounds. Values are exact; with `floats` the ends are floats, rounded outward."""
        import pandas

        rows = self.history() if history else self.rows
        cells = [[*(row.rounds() if history else ()), *(row.floats() if floats else row.values())] for row in rows]
        return pandas.DataFrame(cells, columns=titles(self.block.key_names, history))

    def to_csv(self, path: Optional[str] = None, history: bool = False) -> Optional[str]:
        """Writes the last block, or all rounds, as CSV to the path; without one it is the text."""
        text = csv_text(self.block.key_names, self.history() if history else self.rows, history)
        if path is None:
            return text
        with open(path, "w", encoding="utf-8", newline="") as file:
            file.write(text)
        return None

    def plot(self, axes: Optional[Sequence[Any]] = None) -> list[Any]:
        """Draws with matplotlib how the intervals of each item narrow; with groups or rows where they lie now. Gives the axes."""
        from .plots import plot

        return plot(self, axes)

    def __str__(self) -> str:
        return "%s\n%s" % (table_text(self.block.key_names, self.rows), end_text(self))

    def __repr__(self) -> str:
        return "%s\n%s%s" % (table_text(self.block.key_names, self.rows[:ROWS_SHOWN]), more_text(self), end_text(self))

    def _repr_html_(self) -> str:
        return html_text(self)


def as_float(value: Any, side: Optional[float] = None) -> Any:
    """A number as a float: the nearest, or the nearest on that side of it; what is no number stays."""
    if not is_number(value):
        return value
    near = float(value)
    wrong_side = side is not None and (Fraction(near) - Fraction(value)) * (1 if side > 0 else -1) < 0
    return math.nextafter(near, side) if wrong_side else near


def more_rows_text(count: int) -> str:
    """Of so many rows, those that are not shown."""
    return "%d more rows" % (count - ROWS_SHOWN) if count > ROWS_SHOWN else ""


def more_text(result: Result) -> str:
    """A line for the rows that are not shown."""
    more = more_rows_text(len(result.rows))
    return more and more + "\n"


def end_word(end: str) -> str:
    """Why the rounds ended, for people."""
    return {"narrow": "finished", "rounds": "stopped after so many planes", "reads": "stopped behind the last read",
            "within": "stopped, narrow enough", "stopped": "stopped", "": "going on"}[end]


def end_text(result: Result) -> str:
    """One line that says how far the rounds went."""
    ranking = result.block.ranking
    found = ranking_text(ranking) + "; " if ranking else ""
    return "%s%s, %s" % (found, planes_text(result.block), end_word(result.end))


def ranking_text(ranking: Ranking) -> str:
    """How far the first rows are known."""
    others = "too many possible to judge any" if ranking.possible is None else "%d possible" % ranking.possible
    return "%d of %d rows certain, %s" % (ranking.certain, ranking.limit, others)


def planes_text(block: Block) -> str:
    """How many planes were read, of each part at most."""
    planes = "1 plane" if block.planes_read == 1 else "%d planes" % block.planes_read
    return "at most %s of each of %d parts read" % (planes, block.parts) if block.parts and block.planes_read else planes + " read"


def csv_text(keys: Sequence[str], rows: Sequence[Row], history: bool = False, head: bool = True) -> str:
    """Rows with these keys as CSV, with decimals rounded outward."""
    text = io.StringIO()
    writer = csv.writer(text, lineterminator="\n")
    if head:
        writer.writerow(titles(keys, history))
    for row in rows:
        cells = [*(row.rounds() if history else ()), *row.shown()]
        writer.writerow([str(cell).lower() if isinstance(cell, bool) else value_text(cell) for cell in cells])
    return text.getvalue()


def json_lines(keys: Sequence[str], rows: Sequence[Row], history: bool = False) -> str:
    """Rows with these keys as JSON, one object in a line: numbers with all their digits, decimals rounded outward, dates as texts."""
    lines = []
    for row in rows:
        shown = row.shown()
        fields = [*(zip(ROUND_FIELDS, row.rounds()) if history else ()),
                  ("keys", dict(zip(keys, shown))), *zip(FIELDS, shown[len(row.keys) :])]
        lines.append("{%s}\n" % ", ".join("%s: %s" % (json.dumps(name), _json(value)) for name, value in fields))
    return "".join(lines)


def _json(value: Any) -> str:
    if isinstance(value, dict):
        return "{%s}" % ", ".join("%s: %s" % (json.dumps(name, ensure_ascii=False), _json(part)) for name, part in value.items())
    if value is None or isinstance(value, (bool, int)):
        return json.dumps(value)
    return value_text(value) if isinstance(value, Decimal) else json.dumps(value_text(value), ensure_ascii=False)


def table_cells(keys: Sequence[str], rows: Sequence[Row]) -> list[list[str]]:
    """Titles and rows with these keys as people read them."""
    lines = [[*keys, "item", "interval", "width", "state"]]
    for row in rows:
        lines.append([*map(key_text, row.keys), row.item, interval_text(row.interval), percent_text(row.relative_width), row.state])
    # The last column stands only where a row has a state.
    return lines if any(line[-1] for line in lines[1:]) else [line[:-1] for line in lines]


def table_text(keys: Sequence[str], rows: Sequence[Row]) -> str:
    """Rows with these keys as a table of plain text."""
    lines = [list(map(printable, line)) for line in table_cells(keys, rows)]
    widths = [max(map(len, column)) for column in zip(*lines)]
    return "\n".join("  ".join(map(str.ljust, line, widths)).rstrip() for line in lines)


def printable(text: str) -> str:
    """The text without signs that a terminal would obey."""
    return text if text.isprintable() else "".join(sign if sign.isprintable() else repr(sign)[1:-1] for sign in text)


def html_text(result: Result) -> str:
    """Rows as a table for a notebook."""
    lines = [[html.escape(cell) for cell in line] for line in table_cells(result.block.key_names, result.rows[:ROWS_SHOWN])]
    head = "".join("<th>%s</th>" % cell for cell in lines[0])
    body = "".join("<tr>%s</tr>" % "".join("<td>%s</td>" % cell for cell in line) for line in lines[1:])
    caption = "<caption>%s<br>%s</caption>" % (html.escape(result.query.text), html.escape(more_text(result) + end_text(result)))
    return "<table>%s<thead><tr>%s</tr></thead><tbody>%s</tbody></table>" % (caption, head, body)
