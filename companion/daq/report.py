"""Reads a report line by line, as docs/output.md gives its form. A line of another form is an error: nothing is guessed at."""
from __future__ import annotations

import datetime
import re
from dataclasses import dataclass
from typing import Callable, Iterable, Iterator, Optional, Union

from .errors import CutError, ReportError
from .values import INTERVAL, VALUE, Interval, Value, parse_ends, parse_value

LONGEST_LINE = 2**20
COUNT = r"(?:0|[1-9][0-9]{0,18})"
# The tags of a row's part, the outer ones first: they have no space and no control character.
TAGS = r"[^\x00-\x20]+(?: [^\x00-\x20]+)*?"
_ROUND = re.compile(r"round (%s)(?: (.+) (%s)/(%s))?" % (COUNT, COUNT, COUNT))
_ITEM = re.compile(r"(%s) (%s)" % (COUNT, INTERVAL))
_SHARPER = re.compile(r"(%s) (clip|exact) (%s)" % (COUNT, INTERVAL))
_TAKES = re.compile(r"(%s) (low|high) takes (%s) of (%s)(?: at (most|least) (%s))?" % (COUNT, COUNT, COUNT, VALUE))
_KEY = re.compile(r"(?:(null)|(%s)(?:\.\.(%s))?( or null)?)(, )?" % (VALUE, VALUE))
_GROUP = re.compile(r"group (.*) (present|possible)", re.DOTALL)
_TOP = re.compile(r"top (%s) certain (%s)(?: possible (%s))?" % (COUNT, COUNT, COUNT))
_ROW = re.compile(r"row (?:(%s) )??(%s) (certain|possible) (%s)" % (TAGS, COUNT, INTERVAL))
_AT = re.compile(r"at (%s) query (%s)" % (COUNT, COUNT))
_END = re.compile(r"end (narrow|rounds|reads)")
_TOKEN = re.compile(r"""'[^']*'|"[^"]*"|[A-Za-z0-9_.]+|<=|>=|<>|[^\sA-Za-z0-9_]""")
_AGGREGATES = ("COUNT", "SUM", "AVG", "MIN", "MAX")


@dataclass(frozen=True)
class Query:
    """A query in its printed form: its aggregates as they stand there, the columns of GROUP BY, and the column of ORDER BY."""

    text: str
    items: tuple[str, ...]
    groups: tuple[str, ...]
    order: Optional[str]


@dataclass(frozen=True)
class KeyRange:
    """The keys from `low` to `high`, and null where `maybe_null`."""

    low: Optional[Value]
    high: Optional[Value]
    maybe_null: bool


Key = Union[Value, KeyRange, None]


@dataclass(frozen=True)
class Takes:
    """What reaches an end of an exact average: the `taken` of the `rows` that may count, those at most or at least at `limit`."""

    taken: int
    rows: int
    limit: Optional[Value]


@dataclass(frozen=True)
class Item:
    """An aggregate and where its answer lies, and what the options clip and exact_avg add."""

    title: str
    interval: Interval
    clip: Optional[Interval] = None
    exact: Optional[Interval] = None
    low_takes: Optional[Takes] = None
    high_takes: Optional[Takes] = None


@dataclass(frozen=True)
class Group:
    """The items for each key of a cell. A query without groups has one, without keys and without a state."""

    keys: tuple[Key, ...]
    state: str
    items: tuple[Item, ...]


@dataclass(frozen=True)
class RankedRow:
    """A row of the table, counted from 1, that is certainly or possibly among the first, and where its sort key lies.

    In a table in parts it is counted in its own, whose tag is `part`, with a space between the tags of parts within parts. A byte of a tag
    that is no UTF-8 stands as `\\xff`.
    """

    row: int
    state: str
    interval: Interval
    part: str = ""


@dataclass(frozen=True)
class Ranking:
    """The first `limit` rows in an order: how many are certain, how many others possible, and those that the report lists.

    `possible` is None where nothing is told of the rows, since a part has too many to list: then none is certain, and none listed.
    """

    limit: int
    certain: int
    possible: Optional[int]
    rows: tuple[RankedRow, ...]


@dataclass(frozen=True)
class Block:
    """A round of a query: the next of the `planes` of `column` was read, and `plane` of them are read now. Round 0 read none.

    `planes_read` counts the planes that are read altogether, in a session by all its queries, and `bytes_read` their bytes; `number` is the
    query's in a session. A block of a table in many parts has their number in `parts`, and no column: of each part at most so many planes
    and bytes are read.
    """

    query: Query
    round: int
    column: Optional[str]
    plane: int
    planes: int
    groups: tuple[Group, ...]
    ranking: Optional[Ranking]
    planes_read: int
    number: int = 1
    bytes_read: int = 0
    parts: int = 0

    @property
    def key_names(self) -> tuple[str, ...]:
        """What tells its lines apart: the columns of GROUP BY, or the number of a row, behind its part where there are parts."""
        if self.query.order is None:
            return self.query.groups
        return ("part", "row") if self.parts else ("row",)


class Report:
    """A report, read as it comes. It is iterated once, block by block; behind the last block `end` says why the rounds ended.

    With `sharper` there may be lines of clip and exact_avg, and with `listed` possible rows, which a combined report always lists. A block
    is handed over with its last line where that is known, else (and for groups) with the first line of the next one. A plane has
    `plane_bytes`.
    """

    def __init__(self, lines: Iterable[str], sharper: bool = True, listed: bool = True, plane_bytes: int = 0) -> None:
        self._lines = iter(lines)
        self._sharper, self._listed, self._plane_bytes = sharper, listed, plane_bytes
        self._heads: dict[int, Block] = {}
        self._planes: dict[tuple[int, Optional[str]], tuple[int, int]] = {}
        self.end: Optional[str] = None
        self.parts = 0
        first = self._next()
        self.is_session = first.startswith("queries ")
        self.queries = self._session_queries(first) if self.is_session else [parse_query(_behind("query ", first))]

    def _next(self) -> str:
        line = next(self._lines, None)
        if line is None:
            raise CutError("the report is cut: it has no end line")
        return line

    def _session_queries(self, first: str) -> list[Query]:
        count = _count(_behind("queries ", first))
        return [parse_query(_behind("%d " % number, self._next())) for number in range(1, count + 1)]

    def __iter__(self) -> Iterator[Block]:
        line = self._next()
        if line.startswith("parts ") and not self.is_session:
            self.parts, line = _count(_behind("parts ", line)), self._next()
        while not line.startswith("end "):
            block, behind = self._block(line)
            yield block
            line = self._next() if behind is None else behind
        self._close(line)

    def _close(self, line: str) -> None:
        end = _END.fullmatch(line)
        if not end:
            raise _unknown(line)
        if not self._heads:
            raise ReportError("the report has no block")
        left = next(self._lines, None)
        if left is not None:
            raise ReportError("a line behind the end of the report: %s" % _shown(left))
        self.end = end[1]

    def _block(self, line: str) -> tuple[Block, Optional[str]]:
        """The block that this line begins, and the line behind it, where that was read."""
        number, planes_read = 1, None
        if self.is_session:
            at = _AT.fullmatch(line)
            if not at or not 1 <= int(at[2]) <= len(self.queries):
                raise _unknown(line)
            planes_read, number, line = int(at[1]), int(at[2]), self._next()
        query, body = self.queries[number - 1], []
        behind: Optional[str] = None
        while not self._is_whole(query, body):
            behind = self._next()
            if behind.startswith(("round ", "at ", "end ")):
                break
            body.append(behind)
            behind = None
        return self._made(line, number, planes_read, body), behind

    def _is_whole(self, query: Query, body: list[str]) -> bool:
        """Whether no line can follow in the block, by the number of lines that it has."""
        if query.order is not None:
            top = _TOP.fullmatch(body[0]) if body else None
            return bool(top) and len(body) > int(top[2]) + (int(top[3] or 0) if self._listed or self.parts else 0)
        return not query.groups and not self._sharper and len(body) == len(query.items)

    def _made(self, line: str, number: int, planes_read: Optional[int], body: list[str]) -> Block:
        head = _ROUND.fullmatch(line)
        if not head:
            raise _unknown(line)
        query, before = self.queries[number - 1], self._heads.get(number)
        place, column = int(head[1]), head[2]
        if place != (before.round + 1 if before else 0) or (place == 0 or self.parts > 0) != (column is None):
            raise ReportError("a round out of turn: %s" % _shown(line))
        plane, planes = self._plane(number, line, column, head[3], head[4])
        reader = _Body(query, body)
        is_combined = self.parts > 0
        groups, ranking = ((), reader.ranking(is_combined)) if query.order is not None else (reader.groups(is_combined), None)
        reader.finish()
        read = place if planes_read is None else planes_read
        block = Block(query, place, column, plane, planes, groups, ranking, read, number, read * self._plane_bytes, self.parts)
        self._heads[number] = block
        return block

    def _plane(self, number: int, line: str, column: Optional[str], plane: Optional[str], planes: Optional[str]) -> tuple[int, int]:
        if column is None or plane is None or planes is None:
            return 0, 0
        before = self._planes.get((number, column), (0, int(planes)))
        told = int(plane), int(planes)
        if told != (before[0] + 1, before[1]) or told[0] > told[1]:
            raise ReportError("a plane out of turn: %s" % _shown(line))
        self._planes[number, column] = told
        return told


class _Body:
    """The lines of a block behind its first."""

    def __init__(self, query: Query, lines: list[str]) -> None:
        self.query, self.lines, self.place = query, lines, 0

    def take(self, form: re.Pattern[str]) -> Optional[re.Match[str]]:
        """The next line, where it has the form."""
        found = form.fullmatch(self.lines[self.place]) if self.place < len(self.lines) else None
        self.place += 1 if found else 0
        return found

    def need(self, form: re.Pattern[str]) -> re.Match[str]:
        found = self.take(form)
        if not found:
            self.finish()
            raise ReportError("the report is cut within a block")
        return found

    def finish(self) -> None:
        if self.place < len(self.lines):
            raise _unknown(self.lines[self.place])

    def groups(self, is_combined: bool) -> tuple[Group, ...]:
        if not self.query.groups:
            return (Group((), "", self.items()),)
        groups = []
        while self.place < len(self.lines):
            found = self.need(_GROUP)
            keys = parse_keys(found[1], len(self.query.groups))
            in_order = _begins_behind if is_combined else _is_behind
            if groups and not in_order(keys, groups[-1].keys):
                raise ReportError("a group out of turn: %s" % _shown(found[0]))
            groups.append(Group(keys, found[2], self.items()))
        return tuple(groups)

    def items(self) -> tuple[Item, ...]:
        return tuple(self.item(number, title) for number, title in enumerate(self.query.items, 1))

    def item(self, number: int, title: str) -> Item:
        found = self.need(_ITEM)
        self.check_number(found, number)
        interval, sharper = _interval(found[2]), self.take(_SHARPER)
        if not sharper:
            return Item(title, interval)
        self.check_number(sharper, number)
        if sharper[2] == "clip":
            return Item(title, interval, clip=_interval(sharper[3]))
        low = self.takes(number, "low", "most")
        high = self.takes(number, "high", "least")
        if (low is None) != (high is None):
            raise ReportError("item %d takes rows at one end alone" % number)
        return Item(title, interval, exact=_interval(sharper[3]), low_takes=low, high_takes=high)

    def takes(self, number: int, end: str, side: str) -> Optional[Takes]:
        found = self.take(_TAKES)
        if not found:
            return None
        self.check_number(found, number)
        if found[2] != end or found[5] not in (None, side) or int(found[3]) > int(found[4]):
            raise _unknown(found[0])
        return Takes(int(found[3]), int(found[4]), _value(found[6]) if found[6] else None)

    def check_number(self, found: re.Match[str], number: int) -> None:
        if int(found[1]) != number:
            raise ReportError("item %d was to come: %s" % (number, _shown(found[0])))

    def ranking(self, is_combined: bool) -> Ranking:
        top = self.need(_TOP)
        limit, certain, possible = int(top[1]), int(top[2]), None if top[3] is None else int(top[3])
        if possible is None and certain:
            raise _unknown(top[0])
        rows = tuple(self.ranked_rows(is_combined))
        known = sum(row.state == "certain" for row in rows)
        others = len(rows) - known
        is_listed = others == (possible or 0) or not (is_combined or others)
        if known != certain or not is_listed or certain > limit:
            raise ReportError("the rows are not those of their first line: %s" % top[0])
        return Ranking(limit, certain, possible, rows)

    def ranked_rows(self, is_combined: bool) -> Iterator[RankedRow]:
        """The rows that the block lists, in the order of the bytes of their tags, and then of their numbers."""
        before = b"", 0
        while self.place < len(self.lines):
            found = self.need(_ROW)
            tag, row = (found[1] or "").encode("utf-8", "surrogateescape"), int(found[2])
            if bool(tag) != is_combined:
                raise _unknown(found[0])
            if row == 0 or (tag, row) <= before:
                raise ReportError("a row out of turn: %s" % _shown(found[0]))
            before = tag, row
            yield RankedRow(row, found[3], _interval(found[4]), shown_tag(found[1] or ""))


def shown_tag(tag: str) -> str:
    """A tag of a row as it is shown: a byte that is no UTF-8 as `\\xff`."""
    return tag.encode("utf-8", "surrogateescape").decode("utf-8", "backslashreplace")


def parse_keys(text: str, count: int) -> tuple[Key, ...]:
    """The keys of a group line: for each column a value, a range of values, or None, which is null."""
    keys: list[Key] = []
    place = 0
    while True:
        found = _KEY.match(text, place)
        if not found:
            raise ReportError("no keys of a group: %s" % _shown(text))
        keys.append(_key(found))
        place = found.end()
        if not found[5]:
            break
    if place != len(text) or len(keys) != count:
        raise ReportError("no keys of %d columns: %s" % (count, _shown(text)))
    return tuple(keys)


def _key(found: re.Match[str]) -> Key:
    null, low, high, maybe_null = found.group(1, 2, 3, 4)
    if null:
        return None
    try:
        ends = parse_ends(low, high or low)
    except ValueError as error:
        raise ReportError("no keys: %s" % _shown(found[0])) from error
    return KeyRange(*ends, bool(maybe_null)) if high or maybe_null or low == "-" else ends[0]


def _is_behind(keys: tuple[Key, ...], before: tuple[Key, ...]) -> bool:
    """Whether keys come after others: by the first column in which they differ, where null comes before all values."""
    differing = [(key, other) for key, other in zip(keys, before) if key != other]
    if not differing or differing[0][0] is None:
        return False
    key, other = differing[0]
    low = _sorted_as(key.low if isinstance(key, KeyRange) else key)
    high = _sorted_as(other.high if isinstance(other, KeyRange) else other)
    return high is None or low is not None and type(low) is type(high) and low > high


def _begins_behind(keys: tuple[Key, ...], before: tuple[Key, ...]) -> bool:
    """Whether the least of some keys comes after that of others, in the same order. Lines of a combined report may meet in a column."""
    for key, other in zip(map(_least, keys), map(_least, before)):
        if key != other:
            return other is None or key is not None and type(key) is type(other) and key > other
    return False


def _least(key: Key) -> Optional[Value]:
    if isinstance(key, KeyRange):
        return None if key.maybe_null else _sorted_as(key.low)
    return _sorted_as(key)


def _sorted_as(value: Optional[Value]) -> Optional[Value]:
    """Days as texts, since those of the year 0000 are texts."""
    return value.isoformat() if isinstance(value, datetime.date) else value


def parse_query(text: str) -> Query:
    """The aggregates and columns of a query in its printed form."""
    tokens = list(_TOKEN.finditer(text))
    words = [token[0] for token in tokens]
    if words[:1] != ["SELECT"] or "FROM" not in words:
        raise ReportError("no query: %s" % _shown(text))
    source = words.index("FROM")
    spans = _parted(words, 1, source)
    selected = [(words[first], text[tokens[first].start() : tokens[last].end()]) for first, last in spans]
    items = tuple(shown for word, shown in selected if word in _AGGREGATES)
    order = _unquoted(words[words.index("ORDER") + 2]) if "ORDER" in words[:-2] else None
    names = words[words.index("GROUP") + 2 :] if "GROUP" in words else []
    groups = tuple(dict.fromkeys(_unquoted(name) for name in names if name != ","))
    if not items and not groups and order is None:
        raise ReportError("no query: %s" % _shown(text))
    return Query(text, items, groups, order)


def asks_for_rows(text: str) -> bool:
    """Whether a query, as people write it, is one for the first rows in an order."""
    words = [word.upper() for word in _TOKEN.findall(text)]
    return ("ORDER", "BY") in zip(words, words[1:])


def asks_for_extremes(text: str, columns: Iterable[str]) -> bool:
    """Whether a query, as people write it, asks for the least or the greatest value of one of these columns."""
    words, names = _TOKEN.findall(text), set(columns)
    calls = zip(words, words[1:], words[2:])
    return any(call.upper() in ("MIN", "MAX") and sign == "(" and _unquoted(name) in names for call, sign, name in calls)


def _parted(words: list[str], first: int, end: int) -> Iterator[tuple[int, int]]:
    """The first and the last token of each part of a list whose commas stand outside of parentheses."""
    level = 0
    for place in range(first, end):
        level += {"(": 1, ")": -1}.get(words[place], 0)
        if words[place] == "," and level == 0:
            yield first, place - 1
            first = place + 1
    if first < end:
        yield first, end - 1


def _unquoted(name: str) -> str:
    return name[1:-1] if name.startswith('"') else name


def open_quote(text: str, signs: str, quote: str = "") -> str:
    """The quote that is open behind the text, or nothing; `quote` was open before it."""
    if not any(sign in text for sign in signs):
        return quote
    for sign in text:
        if sign == quote:
            quote = ""
        elif not quote and sign in signs:
            quote = sign
    return quote


def whole_lines(read_line: Callable[[], bytes]) -> Iterator[str]:
    """The lines of a report, without their line feeds: one goes on behind a line feed that stands within a text.

    A text of a combined report has no line feed, and a quote may stand in the tag of a row. A byte of a tag that is no UTF-8 becomes half a
    sign, as in the names of files.
    """
    is_combined = False
    while True:
        first = read_line()
        if not first:
            return
        is_combined = is_combined or first.startswith(b"parts ")
        yield _whole_line(first, read_line, is_combined)


def _whole_line(first: bytes, read_line: Callable[[], bytes], is_combined: bool) -> str:
    """The line that begins with these bytes, up to the first line feed behind which no text is open."""
    line, piece, signs = bytearray(), first, "" if is_combined else _quotes_of(first)
    quote = ""
    while True:
        line += piece
        if not piece.endswith(b"\n"):
            raise CutError("the report is cut within a line: %s" % _shown(line.decode("utf-8", "replace")))
        if len(line) > LONGEST_LINE:
            raise ReportError("a line of the report is too long: %s" % _shown(line[:200].decode("utf-8", "replace")))
        quote = open_quote(piece.decode("latin-1"), signs, quote)
        if not quote:
            break
        piece = read_line()
    try:
        return line[:-1].decode("utf-8", "surrogateescape" if is_combined and line.startswith(b"row ") else "strict")
    except UnicodeDecodeError as error:
        raise ReportError("a line of the report is no UTF-8: %s" % _shown(line.decode("utf-8", "replace"))) from error


def _quotes_of(line: bytes) -> str:
    """The quotes that a line may have: names stand in round lines as they are, and in queries in double quotes."""
    if line.startswith((b"round ", b"at ", b"top ", b"end ", b"queries ")):
        return ""
    return "'\"" if re.match(rb"query |[0-9]+ SELECT ", line) else "'"


def _interval(text: str) -> Interval:
    try:
        return Interval.parse(text)
    except ValueError as error:
        raise ReportError("no interval: %s" % _shown(text)) from error


def _value(text: str) -> Optional[Value]:
    try:
        return parse_value(text)
    except ValueError as error:
        raise ReportError("no value: %s" % _shown(text)) from error


def _count(text: str) -> int:
    if not re.fullmatch(COUNT, text):
        raise ReportError("no number: %s" % _shown(text))
    return int(text)


def _behind(front: str, line: str) -> str:
    if not line.startswith(front):
        raise _unknown(line)
    return line[len(front) :]


def _unknown(line: str) -> ReportError:
    return ReportError("a line that no report has here: %s" % _shown(line))


def _shown(text: str) -> str:
    return repr(text if len(text) <= 120 else text[:117] + "...")
