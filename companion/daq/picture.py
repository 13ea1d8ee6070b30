"""Draws how the intervals of a report narrow, round by round, as SVG or as text. The lines of the report stand beside the bars as they are.

Each item is drawn by itself, its sharper lines beside it on one scale, within the widest interval that the report has for them, an average of
a column within the values of the column where these are known. With groups an item has a bar for each line of keys, and rows in an order are
drawn by their sort keys. A bar is lighter while there may be no answer, or while the group or row may turn out not to belong.
"""
from __future__ import annotations

import datetime
import re
from dataclasses import dataclass, field
from typing import Iterable, Iterator, Optional, Sequence

from .bars import mean_column
from .errors import ReportError
from .report import TAGS, parse_query, shown_tag
from .table import Column
from .values import INTERVAL, VALUE, value_text

_ENDS = re.compile(r"(?:\[(%s), (%s)\]|(null)|(%s))( or null)?" % (VALUE, VALUE, VALUE))
_ITEM = re.compile(r"(\d+(?: [a-z]+)?) (%s)" % INTERVAL)
_ROW = re.compile(r"(row (?:%s )?\d+) (certain|possible) (%s)" % (TAGS, INTERVAL))
_GROUP = re.compile(r"group (.*) (present|possible)", re.DOTALL)

Ends = tuple[str, str]


@dataclass
class Bar:
    """A line of the report that has an interval: its name within the round, its text, both ends, and where they lie from 0 to 1."""

    name: str
    text: str
    sure: bool
    ends: Optional[Ends]
    span: Optional[list[float]] = None

    @staticmethod
    def of(name: str, text: str, sure: bool) -> Bar:
        found = _ENDS.fullmatch(text)
        if not found:
            raise ReportError("no interval: %r" % text[:120])
        low, high, null, one, unsure = found.groups()
        return Bar(name, text.replace("\n", " "), sure and not unsure, None if null or one == "-" else (one or low, one or high))


@dataclass
class Round:
    """A round of a chart: what the report says of it, and its bars."""

    head: str
    bars: list[Bar] = field(default_factory=list)


class Picture:
    """The charts of a report: for each item, or for the first rows, its rounds."""

    def __init__(self, lines: Iterable[str], columns: Sequence[Column] = ()) -> None:
        self.query, self._charts = "", {}
        self._read(lines)
        if not self._charts:
            raise ReportError("the report has no interval" if self.query else "there is no report")
        self._place({column.name: column for column in columns})

    def _read(self, lines: Iterable[str]) -> None:
        head, name, sure = "", "", True
        for line in lines:
            item, row, group = _ITEM.fullmatch(line), _ROW.fullmatch(line), _GROUP.fullmatch(line)
            if line.startswith("queries "):
                raise ReportError("this is the report of a session: draw its queries one by one")
            if line.startswith("query "):
                self.query = line[6:]
            elif line.startswith("round "):
                head, name, sure = line, "", True
            elif line.startswith("top "):
                head += ": " + line
                self._add("first rows", head, None)
            elif group:
                name, sure = group[1].replace("\n", " "), group[2] == "present"
            elif row:
                self._add("first rows", head, Bar.of(shown_tag(row[1]), row[3], row[2] == "certain"))
            elif line.startswith("row "):
                raise ReportError("no row: %r" % line[:120])
            elif item:
                self._add("item " + item[1], head, Bar.of(name, item[2], sure))

    def _add(self, chart: str, head: str, bar: Optional[Bar]) -> None:
        rounds = self._charts.setdefault(chart, [])
        if not rounds or rounds[-1].head != head:
            rounds.append(Round(head))
        if bar:
            rounds[-1].bars.append(bar)

    def _place(self, columns: dict[str, Column]) -> None:
        """An item and its sharper lines, as `item 1 clip`, have one scale."""
        items = parse_query(self.query).items
        for name in {_scale_name(name) for name in self._charts}:
            number = int(name.split()[1]) - 1 if name.startswith("item ") else len(items)
            column = columns.get(mean_column(items[number]) or "") if number < len(items) else None
            within = None
            if column and column.least is not None and column.greatest is not None:
                within = value_text(column.least), value_text(column.greatest)
            place_bars([rounds for other, rounds in self._charts.items() if _scale_name(other) == name], within)

    def lines(self, rows: Optional[int]) -> Iterator[tuple[str, list[tuple[str, Optional[Bar]]]]]:
        """Each chart with its lines: what stands in front, and the bar, if there is one; with the bytes read where the rows are known."""
        for name, rounds in self._charts.items():
            yield name, list(_lines_of(rounds, rows))


def _scale_name(chart: str) -> str:
    return " ".join(chart.split()[:2])


def _lines_of(rounds: Sequence[Round], rows: Optional[int]) -> Iterator[tuple[str, Optional[Bar]]]:
    for turn in rounds:
        planes = int(turn.head.split()[1].rstrip(":"))
        head = turn.head if rows is None else "%s  (%d bytes)" % (turn.head, planes * 8 * -(-rows // 64))
        if turn.bars and not turn.bars[0].name:
            yield head, turn.bars[0]
        else:
            yield head, None
            yield from (("  " + bar.name, bar) for bar in turn.bars)


def place_bars(charts: Sequence[Sequence[Round]], within: Optional[Ends] = None) -> None:
    """Gives each bar its place in these charts, from 0 to 1: of the widest interval, or of these ends, beyond which bars are cut."""
    bars = [bar for rounds in charts for turn in rounds for bar in turn.bars]
    texts = [*within] if within else [end for bar in bars if bar.ends for end in bar.ends]
    names = sorted({text for text in texts if text.startswith("'")}, key=_unquoted)
    spots = [_spot(text, names) for text in texts]
    least = min(spots, default=0.0)
    reach = (max(spots, default=1.0) - least) or 1.0
    for bar in bars:
        if bar.ends:
            bar.span = [min(max((_spot(end, names) - least) / reach, 0.0), 1.0) for end in bar.ends]


def _unquoted(text: str) -> str:
    return text[1:-1].replace("''", "'")


def _spot(text: str, names: Sequence[str]) -> float:
    """Where an end lies: a number, a fraction, a day, or the rank of a text among those of the chart."""
    if text.startswith("'"):
        return float(names.index(text))
    if re.fullmatch(r"\d{4}-\d\d-\d\d", text):
        # The year 4 has the same days as the year 0, which Python has not.
        year = 0 if text.startswith("0000") else None
        return float(datetime.date.fromisoformat("0004" + text[4:] if year == 0 else text).toordinal() - (1461 if year == 0 else 0))
    number, _, count = text.partition("/")
    return float(number) / float(count or 1)


def text_of(picture: Picture, rows: Optional[int] = None, width: int = 50) -> str:
    """The charts for a terminal: `#` where the answer lies for certain, else `:`."""
    lines = [picture.query.replace("\n", " ")]
    for name, chart in picture.lines(rows):
        lines += ["", name]
        room = max((len(front) for front, bar in chart if bar), default=0)
        for front, bar in chart:
            if not bar:
                lines.append(front)
                continue
            drawn = ""
            if bar.span:
                first, last = (int(end * (width - 1) + 0.5) for end in bar.span)
                drawn = " " * first + ("#" if bar.sure else ":") * (last - first + 1)
            lines.append("%s |%s| %s" % (front.ljust(room), drawn.ljust(width), bar.text))
    return "\n".join(lines) + "\n"


def _svg_text(left: float, top: float, text: str, kind: str = "") -> str:
    text = text.replace("&", "&amp;").replace("<", "&lt;").replace(">", "&gt;")
    return '<text x="%d" y="%d"%s xml:space="preserve">%s</text>' % (left, top, kind and ' class="%s"' % kind, text)


def svg_of(picture: Picture, rows: Optional[int] = None) -> str:
    """The charts as SVG: bars are so wide at most, lines so far apart, and a sign of a text so wide."""
    width, step, sign = 380, 16, 6.7
    charts = [*picture.lines(rows)]
    query = picture.query.replace("\n", " ")
    bars = [(front, bar) for _, lines in charts for front, bar in lines if bar]
    left = 20 + sign * max((len(front) for front, bar in bars), default=0)
    right = left + width + 12
    full = max(right + sign * max((len(bar.text) for front, bar in bars), default=0), sign * len(query)) + 20
    body, top = [_svg_text(8, 20, query, "name")], 32
    for name, lines in charts:
        if len(charts) > 1:
            body.append(_svg_text(8, top + 14, name, "name"))
            top += 22
        for front, bar in lines:
            body.append(_svg_text(8, top + 10, front))
            if bar:
                body.append(_svg_text(right, top + 10, bar.text))
            if bar and bar.span:
                kind = "sure" if bar.sure else "may"
                place = left + bar.span[0] * width, top + 1, max((bar.span[1] - bar.span[0]) * width, 2), kind
                body.append('<rect x="%.1f" y="%d" width="%.1f" height="10" class="%s"/>' % place)
            top += step
        top += 8
    style = "text { font: 11px monospace; fill: #333 } .name { font-weight: bold } .sure { fill: #27c } .may { fill: #9cf }"
    head = '<svg xmlns="http://www.w3.org/2000/svg" width="%d" height="%d" viewBox="0 0 %d %d">' % (full, top, full, top)
    return "\n".join([head, "<style>%s</style>" % style, '<rect width="100%" height="100%" fill="#fff"/>', *body, "</svg>\n"])
