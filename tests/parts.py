#!/usr/bin/env python3
"""Reports of the parts of a table, combined by the definitions alone, apart from the program.

parts.py PARTS REPORTS [--width W] [--rounds N] [--keys]
                                                 prints the combined report of PARTS parts; each line of REPORTS is a tag, a tab and a line
                                                 of that part's report. A refusal is told on standard error, with status 9
parts.py --certain [COUNT [SEED]]                cuts tables made by chance into parts, combines the parts' reports of totals, of groups
                                                 or of first rows in several orders of their lines, and looks whether each interval, and
                                                 each line of a group or a row, holds what the uncut table answers
parts.py --program DAQ [COUNT [SEED]]            loads the parts of such tables by the program DAQ, asks them side by side, combines them
                                                 by it, and looks at the same, and whether it prints what is worked out here; and so of
                                                 parts with as many rows as --part lists, and with more
"""
import datetime
import os
import random
import re
import subprocess
import sys
import tempfile
from fractions import Fraction
from typing import NamedTuple

import first_rows
import reports

EPOCH = datetime.date(1970, 1, 1).toordinal()
DATE, TEXT = r"\d{4}-\d{2}-\d{2}", r"'(?:[^']|'')*'"
CALL = re.compile(r"(COUNT|SUM|AVG|MIN|MAX)\(")
ITEMS = re.compile(r"query SELECT (\*|.+?) FROM \w+(?: (?:WHERE|GROUP BY|ORDER BY) .+)?")
LONGEST_LINE = 65536


class Refused(Exception):
    pass


# ---- values: how a line writes them, and what they are


class Form:
    """A way in which lines write values: its name, its pattern, the value of a text and the text of a value."""

    def __init__(self, name, pattern, value, text):
        self.name, self.pattern, self.value, self.text = name, re.compile(pattern), value, text
        self.interval = re.compile(r"(?:(%s)|\[(%s), (%s)\])( or null)?" % (pattern, pattern, pattern), re.DOTALL)


def number_form(decimals):
    return Form(
        decimals,
        r"-?(?:0|[1-9]\d*)" + (r"\.\d{%d}" % decimals if decimals else ""),
        lambda text: int(text.replace(".", "")),
        lambda value: reports.scaled(value, decimals),
    )


def ratio_form(decimals):
    inner = number_form(decimals)
    return Form(
        decimals,
        inner.pattern.pattern + r"/[1-9]\d*",
        lambda text: (inner.value(text.split("/")[0]), int(text.split("/")[1])),
        lambda value: "%s/%d" % (inner.text(value[0]), value[1]),
    )


DATES = Form(
    "date",
    DATE,
    lambda text: datetime.date.fromisoformat(text).toordinal() - EPOCH,
    lambda value: datetime.date.fromordinal(value + EPOCH).isoformat(),
)
TEXTS = Form(
    "text",
    TEXT,
    lambda text: text[1:-1].replace("''", "'").encode(errors="surrogateescape"),
    lambda value: reports.quoted(value.decode(errors="surrogateescape")),
)
NO_TEXTS = "- or null"


class Known:
    """Where an answer lies: the word on null, both ends, and the form in which they are written, None where there is no answer."""

    def __init__(self, word, low, high, form):
        self.word, self.low, self.high, self.form = word, low, high, form

    def text(self):
        if self.word == "always" and self.form:
            return NO_TEXTS
        return reports.interval(self.word, self.low, self.high, self.form.text if self.form else None)

    def is_exact(self):
        return self.word == "always" or self.word == "never" and self.low == self.high


NOTHING = Known("always", 0, 0, None)
# The same of a column of texts that has none.
NO_TEXT = Known("always", 0, 0, TEXTS)


def forms_of(kind, text):
    """The forms that the text of an item's answer may have."""
    decimals = [len(part) - 1 for part in re.findall(r"\.\d+", text)][:1] or [0]
    if decimals[0] > 18:
        return []
    if kind == "AVG":
        return [ratio_form(decimals[0])]
    return [number_form(decimals[0])] + ([DATES, TEXTS] if kind in ("MIN", "MAX") else [])


def order(kind, end):
    return Fraction(*end) if kind == "AVG" else end


def read(kind, text):
    """What the text says of an answer, or None where no report says so."""
    if text == "null" and kind != "COUNT":
        return NOTHING
    if text == NO_TEXTS and kind in ("MIN", "MAX"):
        return NO_TEXT
    for form in forms_of(kind, text):
        match = form.interval.fullmatch(text)
        if match:
            try:
                low, high = (form.value(match.group(i) or match.group(1)) for i in (2, 3))
            except ValueError:
                return None
            known = Known("possibly" if match.group(4) else "never", low, high, form)
            ordered = kind == "AVG" or low <= high
            right = ordered and known.text() == text and (kind != "COUNT" or form.name == 0 and known.word == "never") and fits(known)
            return known if right else None
    return None


# ---- an answer over all parts


def look_alike(parts):
    """Refuses answers of several forms."""
    if len({part.form.name for part in parts if part.form}) > 1:
        raise Refused("scales of item %d differ")


def combined(kind, parts):
    """Where the answer over all parts lies, from where each part's lies: a part is like a row whose value lies so."""
    told = [part for part in parts if part.word != "always"]
    if kind == "COUNT":
        return fitting(Known("never", sum(p.low for p in parts), sum(p.high for p in parts), number_form(0)))
    if not told:
        return NOTHING
    if kind == "AVG":
        return combined_average(parts, told)
    pairs = [(part.word == "never", part.low, part.high) for part in told]
    return fitting(Known(*reports.bound(kind, pairs), told[0].form))


def combined_extra(kind, parts):
    """What the lines behind tell over all parts: of exact averages the rows are not known, so these are never added up."""
    told = [part for part in parts if part.word != "always"]
    return hull(told) if kind == "AVG" and told else combined(kind, parts)


def combined_entry(kind, entries):
    """The answer over all parts, and what the line behind it tells, where each part has one."""
    answers, extras = zip(*entries)
    shown = all(extras)
    look_alike(answers)
    if shown:
        look_alike(extras)
    return combined(kind, answers), combined_extra(kind, extras) if shown else None


def entry_lines(number, kind, entry):
    """The lines of an item."""
    word = "exact" if kind == "AVG" else "clip"
    return ["%d %s" % (number, entry[0].text())] + (["%d %s %s" % (number, word, entry[1].text())] if entry[1] else [])


def combined_average(parts, told):
    form = told[0].form
    if all(part.is_exact() for part in parts):
        total = (sum(p.low[0] for p in told), sum(p.low[1] for p in told))
        return fitting(Known("never", total, total, form))
    return fitting(apart(hull(told)))


def apart(known):
    """The same: where both ends are one fraction the high one becomes twice the sum over twice the number, so that it does not look exact."""
    if known.word == "never" and known.low == known.high:
        known.high = 2 * known.high[0], 2 * known.high[1]
    return known


# ---- an average beside which the sum and the number of its values are asked


def calls_of(query):
    """The aggregates of a query: of each its kind and its argument."""
    items, calls = re.sub(TEXT, "''", query).partition(" FROM ")[0], []
    for match in CALL.finditer(items):
        depth, end = 1, match.end()
        while depth:
            depth += {"(": 1, ")": -1}.get(items[end], 0)
            end += 1
        calls.append((match[1], items[match.end() : end - 1]))
    return calls


def from_sum(total, count, form):
    """Where an average lies by its sum and its number of values, which is one at least."""
    if total.word == "always":
        return NOTHING
    least, most = max(count.low, 1), max(count.high, 1)
    low = total.low, most if total.low >= 0 else least
    return Known(total.word, low, (total.high, least if total.high >= 0 else most), form)


def within_both(one, other):
    """What lies in both; of equal ends the first one's."""
    if "always" in (one.word, other.word):
        return NOTHING
    word = "never" if "never" in (one.word, other.word) else "possibly"
    low = max((one.low, other.low), key=lambda end: Fraction(*end))
    return Known(word, low, min((one.high, other.high), key=lambda end: Fraction(*end)), other.form)


def beside(total, count, average):
    """The narrower of the two. It looks exact only where the sum and the number are known."""
    differ = "always" not in (total.word, average.word) and total.form.name != average.form.name
    if differ or count.low >= 2**64 or count.high >= 2**64:
        return average
    known = from_sum(total, count, average.form)
    both = within_both(known, average)
    if known.is_exact() or both.word == "always":
        return both
    number, rows = both.high
    return apart(both) if -(2**126) <= number < 2**126 and rows < 2**63 else both


def narrowed(query, answers):
    """These answers, with each average narrowed by the sum and the number of the same argument, where both stand among them."""
    calls, whole = calls_of(query), []
    for (kind, argument), answer in zip(calls, answers):
        others = ("SUM", argument), ("COUNT", argument)
        if kind == "AVG" and all(call in calls for call in others):
            answer = beside(*(answers[calls.index(call)] for call in others), answer)
        whole.append(answer)
    return whole


def hull(told):
    """From the least low to the greatest high; of equal lows that of the first part, of equal highs that of the last."""
    word = "never" if any(part.word == "never" for part in told) else "possibly"
    low = min((part.low for part in told), key=lambda end: Fraction(*end))
    high = max((part.high for part in reversed(told)), key=lambda end: Fraction(*end))
    return Known(word, low, high, told[0].form)


# ---- keys of groups


VALUE = re.compile(r"%s|%s|-?\d+(?:\.\d+)?" % (DATE, TEXT), re.DOTALL)


class Span:
    """What the keys of a line are in one column: from a value to a value, or no value, whether null is one of them, and how it is written,
    None where it is null alone."""

    def __init__(self, low, high, null, form=None):
        self.low, self.high, self.null, self.form = low, high, null, form

    def hull(self, other):
        ends = [span for span in (self, other) if span.low is not None]
        low, high = min((s.low for s in ends), default=None), max((s.high for s in ends), default=None)
        return Span(low, high, self.null or other.null, ends[0].form if ends else None)

    def text(self):
        if self.low is None:
            return "null" if self.form is None else NO_TEXTS if self.null else "-"
        low, high = self.form.text(self.low), self.form.text(self.high)
        return (low if low == high else low + ".." + high) + (" or null" if self.null else "")

    def meets(self, other):
        has_values = self.low is not None and other.low is not None
        return self.null and other.null or has_values and self.low <= other.high and other.low <= self.high

    def is_within(self, other):
        has_values = self.low is None or other.low is not None and other.low <= self.low and self.high <= other.high
        return (other.null or not self.null) and has_values

    def least(self):
        """Null comes before all values."""
        return (0,) if self.null or self.low is None else (1, self.low)

    def allows(self, value):
        return self.null if value is None else self.low is not None and self.low <= value <= self.high


def form_of_value(text):
    """How a number, a day or a text is written; in a column all values are written in one way."""
    if text.startswith("'"):
        return TEXTS
    return DATES if re.fullmatch(DATE, text) else number_form(len(text.partition(".")[2]))


def span_at(text, place):
    """What is written of a column's keys from a place on, and where it ends; None where nothing is."""
    if text.startswith("null", place) or text.startswith(NO_TEXTS, place):
        is_null = text.startswith("null", place)
        return Span(None, None, True, None if is_null else TEXTS), place + (4 if is_null else len(NO_TEXTS))
    low = VALUE.match(text, place)
    high = VALUE.match(text, low.end() + 2) if low and text.startswith("..", low.end()) else low
    if not low or not high:
        return None, place
    form, null = form_of_value(low[0]), text.startswith(" or null", high.end())
    span = span_of(form, low[0], high[0], null) if form.name == form_of_value(high[0]).name else None
    return span, high.end() + (8 if null else 0)


def span_of(form, low, high, null):
    """From a value to one that is no less; None where it is none."""
    try:
        span = Span(form.value(low), form.value(high), null, form)
    except ValueError:
        return None
    return span if span.low <= span.high and fits(span) else None


def keys_of(line):
    """The spans of the line of a group, one for each column, and whether its key is present; None where it is no such line."""
    text, _, word = line.removeprefix("group ").rpartition(" ")
    spans, place = [], 0
    while line.startswith("group ") and word in ("present", "possible"):
        span, place = span_at(text, place)
        if span is None:
            break
        spans.append(span)
        if place == len(text):
            return (spans, word == "present") if group_line(spans, word) == line else None
        if not text.startswith(", ", place):
            break
        place += len(", ")
    return None


def group_line(spans, word):
    return "group %s %s" % (", ".join(span.text() for span in spans), word)


def look_alike_keys(blocks):
    """Refuses a column that two lines write in different ways."""
    for column, spans in enumerate(zip(*[section[0] for block in blocks for section in block])):
        if len({span.form.name for span in spans if span.form}) > 1:
            raise Refused("scales of group column %d differ" % (column + 1))


def related(test, a, b):
    return all(test(x, y) for x, y in zip(a, b))


def meet(a, b):
    return related(Span.meets, a, b)


def are_within(a, b):
    return related(Span.is_within, a, b)


def lines_over(cells):
    """The narrowest sets of keys, apart from each other, of which each cell lies in one. Null alone has no form in them."""
    lines = []
    for line in ([span.hull(span) for span in cell] for cell in cells):
        while True:
            met = [other for other in lines if meet(line, other)]
            if not met:
                break
            lines = [other for other in lines if not meet(line, other)]
            for other in met:
                line = [x.hull(y) for x, y in zip(line, other)]
        lines.append(line)
    return sorted(lines, key=lambda spans: [span.least() for span in spans])


def no_rows(kind):
    return Known("never", 0, 0, number_form(0)) if kind == "COUNT" else NOTHING


def uncertain(kind, some):
    """One of these tells the answer, or none."""
    told = [known for known in some if known.word != "always"]
    if kind == "COUNT":
        return Known("never", 0, max(known.high for known in some), number_form(0)) if some else no_rows(kind)
    if not told:
        return NOTHING
    if kind == "AVG":
        return Known("possibly", hull(told).low, hull(told).high, told[0].form)
    return Known("possibly", min(k.low for k in told), max(k.high for k in told), told[0].form)


def only(line, sections):
    """The part's sections within a line, and whether there is one alone, with all its keys."""
    within = [section for section in sections if are_within(section[0], line)]
    return within, len(within) == 1 and are_within(line, within[0][0])


def is_present(line, sections):
    within, is_alone = only(line, sections)
    return is_alone and within[0][1]


def share(kind, place, line, sections):
    """What a part says of an item for each key of a line."""
    within, is_alone = only(line, sections)
    return within[0][2][place] if is_alone else uncertain(kind, [section[2][place] for section in within])


def entries_over(kinds, line, blocks):
    entries = []
    for place, kind in enumerate(kinds):
        try:
            entries.append(combined(kind, [share(kind, place, line, block) for block in blocks]))
        except Refused as why:
            raise Refused(str(why) % (place + 1))
    return entries


def combined_sections(kinds, blocks):
    """The sections of a block over all parts: keys, whether they are present, and what is said of each item."""
    look_alike_keys(blocks)
    for place in range(len(kinds)):
        try:
            look_alike([section[2][place] for block in blocks for section in block])
        except Refused as why:
            raise Refused(str(why) % (place + 1))
    lines = lines_over([section[0] for block in blocks for section in block])
    return [(line, any(is_present(line, block) for block in blocks), entries_over(kinds, line, blocks)) for line in lines]


def section_lines(kinds, section):
    """The lines of a group."""
    spans, present, entries = section
    items = ["%d %s" % (number, known.text()) for number, known in enumerate(entries, 1)]
    return [group_line(spans, "present" if present else "possible")] + items


def fits(known):
    """Whether both ends are numbers of 128 bits, over numbers of rows of 64."""
    for end in (known.low, known.high):
        number, rows = end if isinstance(end, tuple) else (end, 1)
        if isinstance(number, int) and not (-(2**127) <= number < 2**127 and rows < 2**64):
            return False
    return True


def fitting(known):
    if not fits(known):
        raise Refused("item %d too wide")
    return known


def is_near(known, width):
    if known.word != "never" or known.form in (DATES, TEXTS) and width == 0:
        return known.word == "always" or known.word == "never" and known.low == known.high
    if known.form is TEXTS:
        return known.low == known.high
    return reports.is_near((known.word, known.low, known.high), width)


def is_near_key(key, width):
    """The same of the key of a row. One that may be null is not told yet, also where its column has no texts."""
    return key.text() != NO_TEXTS and is_near(key, width)


# ---- the report of one part


def kinds_of(query):
    """The kinds of the aggregates of a query."""
    return CALL.findall(re.sub(TEXT, "''", query).partition(" FROM ")[0])


def columns_of(query):
    """How many columns the query groups by; one that is named twice counts once."""
    grouped = re.search(r" GROUP BY (.+)", re.sub(TEXT, "''", query))
    return len(set(grouped[1].split(", "))) if grouped else 0


def look_at_query(line):
    """Refuses a first line that is none of a query of totals, groups or first rows."""
    items = ITEMS.fullmatch(re.sub(TEXT, "''", line))
    if not items or items[1].count("(") != items[1].count(")"):
        raise Refused("no query")
    if first_rows.asked_by(line):
        return
    calls = [bool(CALL.match(item)) for item in items[1].split(", ")]
    is_right = any(calls) if columns_of(line) else all(calls)
    if not is_right:
        raise Refused("no query of totals, groups or first rows")


ENDS = ("end narrow", "end rounds", "end reads")


class Report:
    """The report of a part, as far as it was read: its blocks that are whole, and the line of its end."""

    def __init__(self, query):
        self.query, self.blocks, self.end, self.place = query, [], None, "query"

    def take(self, line):
        if self.place == "query":
            if line != self.query:
                raise Refused("another query")
            self.place = "opened"
        elif self.end is not None:
            raise Refused("no line of a report at this place")
        else:
            self.take_behind(line)

    def has_block(self, number):
        return self.end is not None or number < len(self.blocks)

    def block(self, number):
        return self.blocks[min(number, len(self.blocks) - 1)]

    def is_over(self, number):
        return self.end is not None and len(self.blocks) <= number + 1


class Part(Report):
    """The report of a part. A block has for each item its answer and what the line behind tells, or None; `closing` says whether a block
    ends with such a line, once the first is whole. A block by groups has sections: keys, whether they are present, and answers."""

    def __init__(self, query):
        super().__init__(query)
        self.kinds, self.current = kinds_of(query), None
        self.columns, self.sections, self.group = columns_of(query), None, None
        self.closing = "item" if self.kinds[-1] == "COUNT" else None

    def take_behind(self, line):
        if not (self.takes_in_block(line) or self.takes_group(line) or self.takes_round(line)):
            raise Refused("no line of a report at this place")

    def takes_group(self, line):
        """The line of the next group, behind a section that is whole, perhaps by it."""
        if self.sections is None or self.current is not None and (self.closing or len(self.current) < len(self.kinds)):
            return False
        keys = keys_of(line)
        if not keys or len(keys[0]) != self.columns:
            return False
        if self.current is not None:
            self.close()
        self.group, self.current = keys, []
        return True

    def takes_in_block(self, line):
        if self.current is None:
            return self.closing == "extra" and self.sections != [] and self.tells_rows(len(self.kinds), line)
        count = len(self.current)
        if self.takes_item(count, line) or count and self.takes_extra(count, line):
            if len(self.current) == len(self.kinds) and (self.closing == "item" or self.closing == "extra" and self.current[-1][1]):
                self.close()
            return True
        return bool(count and self.current[-1][1] and self.tells_rows(count, line))

    def takes_item(self, count, line):
        known = None
        if count < len(self.kinds) and line.startswith("%d " % (count + 1)):
            known = read(self.kinds[count], line.partition(" ")[2])
        if known:
            self.current.append((known, None))
        return known is not None

    def takes_extra(self, count, line):
        answer, extra = self.current[-1]
        kind = self.kinds[count - 1]
        start = "%d %s " % (count, "exact" if kind == "AVG" else "clip")
        if extra or kind == "COUNT" or not line.startswith(start):
            return False
        known = read(kind, line[len(start):])
        if known:
            self.current[-1] = answer, known
        return known is not None

    def tells_rows(self, number, line):
        return self.kinds[number - 1] == "AVG" and line.startswith(("%d low takes " % number, "%d high takes " % number))

    def close(self):
        self.closing = "extra" if self.current[-1][1] else "item"
        if self.sections is None:
            self.blocks.append(self.current)
        else:
            self.sections.append(self.group + ([answer for answer, _ in self.current],))
        self.current, self.place = None, "round"

    def takes_round(self, line):
        inside = self.current is not None
        if inside and (self.closing or len(self.current) < len(self.kinds)):
            return False
        if self.place == "opened" and not inside and re.fullmatch(r"parts (0|[1-9]\d*)", line):
            self.place = "round"
            return True
        count = len(self.blocks) + (inside if self.sections is None else 1)
        ends = count > 0 and line in ENDS
        start = "round %d" % count
        if not ends and line != start and not line.startswith(start + " "):
            return False
        if inside:
            self.close()
        if self.sections is not None:
            self.blocks.append(self.sections)
            self.sections = None
        if ends:
            self.end = line
        elif self.columns:
            self.sections = []
        else:
            self.current = []
        return True


class RowsPart(Report):
    """The report of a part that lists first rows."""

    def __init__(self, query):
        super().__init__(query)
        self.limit, self.down = first_rows.asked_by(query)
        self.is_inside, self.current, self.columns, self.kinds = False, None, 0, []

    def take_behind(self, line):
        if self.takes_row(line) or self.takes_round(line):
            if self.current and self.current.is_whole():
                self.blocks.append(self.current)
                self.current, self.is_inside = None, False
            return
        if self.current and self.current.lacks_possible():
            raise Refused("possible rows are not listed")
        raise Refused("no line of a report at this place")

    def takes_row(self, line):
        if not self.is_inside:
            return False
        if self.current is None:
            self.current = first_rows.top_at(line, self.limit)
            return self.current is not None
        row = first_rows.row_at(line, lambda text: read("MIN", text))
        rows = self.current.rows
        if not row or not self.current.has_room(row) or rows and row.name() <= rows[-1].name():
            return False
        rows.append(row)
        return True

    def takes_round(self, line):
        if self.is_inside:
            return False
        if self.place == "opened" and re.fullmatch(r"parts (0|[1-9]\d*)", line):
            self.place = "round"
            return True
        if self.blocks and line in ENDS:
            self.end = line
            return True
        start = "round %d" % len(self.blocks)
        self.is_inside = line == start or line.startswith(start + " ")
        return self.is_inside


# ---- the combined report


def part_of(query):
    return RowsPart(query) if first_rows.asked_by(query) else Part(query)


class Combined:
    def __init__(self, count, width=0, rounds=None, keys=False):
        self.count, self.width, self.rounds, self.keys = count, width, rounds, keys
        self.query, self.parts, self.lines, self.number, self.ended, self.blocks = None, {}, [], 0, False, []

    def in_order(self):
        return [self.parts[tag] for tag in sorted(self.parts)]

    def take(self, line):
        tag, tab, rest = line.partition(b"\t")
        if not tab:
            raise Refused("no tab")
        if not 1 <= len(tag) <= 255:
            raise Refused("a tag of no byte or more than 255")
        if tag not in self.parts:
            if len(self.parts) == self.count:
                raise Refused("more than %d parts" % self.count)
            self.begin(tag, rest.decode(errors="surrogateescape"))
        else:
            self.parts[tag].take(rest.decode(errors="surrogateescape"))
        while len(self.parts) == self.count and not self.ended and self.goes_on():
            pass

    def begin(self, tag, line):
        """Takes the first line of a part; behind that of the first part the report begins."""
        if self.query is None:
            look_at_query(line)
            self.query, self.lines = line, [line, "parts %d" % self.count]
        part = part_of(self.query)
        part.take(line)
        self.parts[tag] = part

    def goes_on(self):
        parts = self.in_order()
        if self.number and all(part.is_over(self.number - 1) for part in parts):
            self.finish("end narrow" if all(part.end == "end narrow" for part in parts) else "end rounds")
            return False
        if not all(part.has_block(self.number) for part in parts):
            return False
        self.write(parts)
        return True

    def write(self, parts):
        blocks = [part.block(self.number) for part in parts]
        if first_rows.asked_by(self.query):
            self.write_rows(blocks)
        elif parts[0].columns:
            self.write_groups(parts[0].kinds, blocks)
        else:
            self.write_totals(parts, blocks)
        self.number += 1

    def write_groups(self, kinds, blocks):
        block = [(line, present, narrowed(self.query, told)) for line, present, told in combined_sections(kinds, blocks)]
        self.lines.append("round %d" % self.number)
        for section in block:
            self.lines += section_lines(kinds, section)
        self.end_behind(block, all(present and all(is_near(known, self.width) for known in entries) for _, present, entries in block))

    def write_rows(self, blocks):
        tags = [tag.decode(errors="surrogateescape") for tag in sorted(self.parts)]
        unclear = [number for number, tag in enumerate(tags, 1) if min(map(ord, tag)) <= 32]
        if unclear:
            raise Refused("the tag of part %d has a space or a control character" % unclear[0])
        if len({row.key.form.name for block in blocks for row in block.rows if row.key.form}) > 1:
            raise Refused("scales of the sort column differ")
        limit, down = first_rows.asked_by(self.query)
        block = first_rows.combined(limit, down, list(zip(tags, blocks)))
        self.lines += ["round %d" % self.number] + block.lines(limit)
        self.end_behind(block, block.is_narrow() and not (self.keys and not all(is_near_key(row.key, self.width) for row in block.rows)))

    def end_behind(self, block, is_narrow):
        self.blocks.append(block)
        if is_narrow:
            self.finish("end narrow")
        elif self.number == self.rounds:
            self.finish("end rounds")

    def write_totals(self, parts, blocks):
        block = []
        for place, kind in enumerate(parts[0].kinds):
            try:
                block.append(combined_entry(kind, [b[place] for b in blocks]))
            except Refused as why:
                raise Refused(str(why) % (place + 1))
        answers, extras = zip(*block)
        block = list(zip(narrowed(self.query, answers), extras))
        self.lines.append("round %d" % self.number)
        for number, (kind, entry) in enumerate(zip(parts[0].kinds, block), 1):
            self.lines += entry_lines(number, kind, entry)
        self.end_behind(block, all(is_near(answer, self.width) for answer, _ in block))

    def finish(self, line):
        self.lines.append(line)
        self.ended = True

    def close(self):
        if self.ended:
            return
        early = [tag for tag in sorted(self.parts) if self.parts[tag].end is None]
        if early:
            raise Refused("part %s ends early" % early[0].decode(errors="surrogateescape"))
        raise Refused("%d parts, not %d" % (len(self.parts), self.count))


def limits_of(words):
    """The limits that the words of `combine` tell."""
    numbers = [word for word in words if word != "--keys"]
    told = dict(zip(numbers[::2], map(int, numbers[1::2])))
    return {"width": told.get("--width", 0), "rounds": told.get("--rounds"), "keys": "--keys" in words}


def combine(count, text, width=0, rounds=None, keys=False):
    """The combined report, and the refusal if there is one. A last line without its end is none."""
    whole = Combined(count, width, rounds, keys)
    try:
        for number, line in enumerate(text.split(b"\n")[:-1], 1):
            try:
                if len(line) > LONGEST_LINE:
                    raise Refused("longer than %d bytes" % LONGEST_LINE)
                whole.take(line)
            except Refused as why:
                raise Refused("line %d: %s" % (number, why))
            if whole.ended:
                break
        whole.close()
    except Refused as why:
        return whole, "daq: report refused: %s" % why
    return whole, None


# ---- by chance

POLICIES = ["widest", "order", "filter", "balanced"]
SOME_TEXTS = ["Ulm, Donau", "", "'", "A' or null", "', '", "Å", "Bern "]


def interleaved(chance, lists):
    """The lines of all lists, those of each in order."""
    places = [i for i, lines in enumerate(lists) for _ in lines]
    chance.shuffle(places)
    ways = [iter(lines) for lines in lists]
    return b"".join(next(ways[i]) for i in places)


def some_items(chance, columns):
    """Now and then an average stands beside the sum and the number of its values."""
    items, numbers = reports.some_items(chance, columns), [name for name, kind in columns if kind[:3] in ("int", "dec")]
    if numbers and chance.random() < 0.3:
        name = chance.choice(numbers)
        items += ["%s(%s)" % (kind, name) for kind in ("SUM", "AVG", "COUNT")]
        chance.shuffle(items)
    return items


def some_query(chance, columns):
    return "SELECT %s FROM t%s" % (", ".join(some_items(chance, columns)), reports.some_condition(chance, columns))


def some_query_by_groups(chance, columns):
    """By one column or two, one of which may be named twice; some of their names stand among the items."""
    groups = [column[0] for column in chance.sample(columns, chance.randint(1, 2))]
    items = chance.sample(groups, chance.randint(0, len(groups))) + some_items(chance, columns)
    chance.shuffle(items)
    by = groups + chance.choice([[], [], [], groups[:1]])
    return "SELECT %s FROM t%s GROUP BY %s" % (", ".join(items), reports.some_condition(chance, columns), ", ".join(by))


def some_query_by_order(chance, columns):
    order = chance.choice(columns)[0] + chance.choice(["", " DESC"])
    return "SELECT * FROM t%s ORDER BY %s LIMIT %d" % (reports.some_condition(chance, columns), order, chance.choice([1, 2, 3, 5, 1000]))


def read_back(sql, text):
    """The blocks of a report."""
    report = part_of("query " + sql)
    for line in text.splitlines():
        report.take(line)
    return report


class Task(NamedTuple):
    """A table, its schema, a query, and whether first rows are asked for until their keys are known."""

    text: str
    schema: str
    sql: str
    keys: bool


def some_task(chance):
    """A query of totals, of groups or of first rows; in some tables a text is one of SOME_TEXTS."""
    text, schema, columns = reports.some_table(chance)
    sql = chance.choice([some_query, some_query_by_groups, some_query_by_order])(chance, columns)
    if chance.random() < 0.5:
        other = chance.choice(SOME_TEXTS)
        text, sql = text.replace("Ulm", '"%s"' % other), sql.replace("'Ulm'", reports.quoted(other))
    return Task(text, schema, sql, first_rows.asked_by(sql) is not None and chance.random() < 0.5)


def cut(chance, text, count):
    """The CSVs of the parts of a table: runs of its rows."""
    head, *rows = text.splitlines(True)
    places = sorted(chance.randint(0, len(rows)) for _ in range(count - 1))
    return [head + "".join(rows[a:b]) for a, b in zip([0] + places, places + [len(rows)])]


def some_options(chance, task):
    """The options of the parts: a policy for each, and mostly the same lines behind the items; first rows are listed."""
    if first_rows.asked_by(task.sql):
        return lambda: ["--policy", chance.choice(POLICIES), chance.choice(["--list", "--part"])] + ["--keys"] * task.keys
    all_have = ["--clip", "--exact-avg"]
    shown = [chance.choice([all_have, all_have, [], [chance.choice(all_have)]])] * 2
    shown[1] = chance.choice([shown[0]] * 4 + [[]])
    return lambda: ["--policy", chance.choice(POLICIES)] + chance.choice(shown)


def tagged(chance, texts, task):
    """For each part its report's lines behind its tag, by options of its own; the tags are in the order of the parts."""
    lists, options = [], some_options(chance, task)
    for number, text in enumerate(texts):
        words = options()
        lines = reports.report(text, task.schema, task.sql, words).splitlines(True)
        lists.append([b"p%04d\t" % number + line.encode() for line in lines])
    return lists


def holds(kind, known, answer):
    """Whether the answer, which is exact, lies where it is said to lie."""
    if answer.word == "always":
        return known.word != "never"
    if known.word == "always":
        return False
    return order(kind, known.low) <= order(kind, answer.low) and order(kind, answer.high) <= order(kind, known.high)


def is_within(kind, new, old):
    if new.word == "always":
        return old.word != "never"
    if old.word == "always" or new.word == "possibly" and old.word == "never":
        return False
    return order(kind, old.low) <= order(kind, new.low) and order(kind, new.high) <= order(kind, old.high)


def is_same(kind, known, answer):
    """Whether it is known to be the answer. Equal averages may be written as other fractions."""
    return holds(kind, known, answer) and is_within(kind, known, answer)


def faults_of_totals(kinds, blocks, answers):
    """What is wrong with the blocks of a combined report: each interval holds the answer, lies within the one before, and is the answer at
    the end. Of exact averages the last is not asked."""
    wrong = []
    for number, block in enumerate(blocks):
        before = blocks[max(number - 1, 0)]
        for place, kind in enumerate(kinds):
            for behind in (0, 1):
                told, old, answer = block[place][behind], before[place][behind], answers[place][0]
                if (told is None) != (old is None) or told and not (holds(kind, told, answer) and is_within(kind, told, old)):
                    wrong.append("block %d item %d%s" % (number, place + 1, " behind" if behind else ""))
    for place, kind in enumerate(kinds):
        told, behind = blocks[-1][place]
        if not is_same(kind, told, answers[place][0]) or behind and kind != "AVG" and not is_same(kind, behind, answers[place][0]):
            wrong.append("at the end %s" % entry_lines(place + 1, kind, blocks[-1][place]))
    return wrong


def line_of(key, block):
    """The line that has a key. No two have it."""
    having = [section for section in block if all(span.allows(value) for span, value in zip(section[0], key))]
    assert len(having) < 2
    return having[0] if having else None


def block_text(block):
    """What sections say; averages by what they come to."""
    values = lambda known: (known.word, *(Fraction(*end) if isinstance(end, tuple) else end for end in (known.low, known.high)))
    return [([(s.low, s.high, s.null) for s in spans], present, [values(known) for known in entries]) for spans, present, entries in block]


def faults_of_sections(kinds, block, before, answers):
    """Where a line does not hold the answers of its keys, or says more than was said before; what is said of keys that no result has."""
    wrong, present = [], 0
    for spans, _, entries in answers:
        key = [None if span.null else span.low for span in spans]
        line, old = line_of(key, block), line_of(key, before)
        if not line or not old:
            wrong.append("no line has %s" % key)
            continue
        present += line[1]
        for kind, told, earlier, answer in zip(kinds, line[2], old[2], entries):
            if not (holds(kind, told, answer) and is_within(kind, told, earlier)):
                wrong.append("%s of %s" % (kind, key))
        if old[1] and not line[1]:
            wrong.append("%s is present no more" % key)
    return wrong + (["a key is present that is in no result"] if present != sum(section[1] for section in block) else [])


def faults_of_groups(kinds, blocks, answers):
    """What is wrong with the blocks of a combined report by groups; the last is that of the uncut table."""
    wrong = []
    for number, block in enumerate(blocks):
        found = faults_of_sections(kinds, block, blocks[max(number - 1, 0)], answers)
        wrong += ["block %d: %s" % (number, fault) for fault in found]
    return wrong + ([] if block_text(blocks[-1]) == block_text(answers) else ["at the end: %s" % block_text(blocks[-1])])


def faults_of_rows(blocks, parts, task):
    """What is wrong with the blocks of first rows of a table in these parts."""
    last = read_back(task.sql, reports.report(task.text, task.schema, task.sql, ["--list"])).blocks[-1]
    first = {row.number for row in last.rows}
    wrong = first_rows.faults(blocks, first_rows.places(parts), first, first_rows.keys_of(task.text, task.schema, task.sql))
    is_known = all(row.is_known() for row in blocks[-1].rows)
    return wrong + (["the first rows are not known at the end"] if task.keys and not is_known else [])


def faults_of_blocks(blocks, parts, task):
    """What is wrong with the blocks that are told of a table in these parts, beside what it answers."""
    if first_rows.asked_by(task.sql):
        return faults_of_rows(blocks, parts, task)
    last = read_back(task.sql, reports.report(task.text, task.schema, task.sql, []))
    look = faults_of_groups if last.columns else faults_of_totals
    return look(last.kinds, blocks, last.blocks[-1])


def without_read(line):
    """A line of a report as it stands in a combined one, where a round says no column, and what has no text is null."""
    return re.sub(r"^(round \d+) .*", r"\1", line.rstrip("\n").replace(NO_TEXTS, "null"))


def faults_of_few(chance, texts, task):
    """What is wrong where a part lists few rows or none: the same is combined as where it lists all."""
    told, policies, most = [], [chance.choice(POLICIES) for _ in texts], reports.FEW_ROWS
    reports.FEW_ROWS = chance.choice([0, 1, 2, 3, 5, 8])
    for word in ("--list", "--part"):
        lines = ["p%04d\t%s" % (number, line) for number, (text, policy) in enumerate(zip(texts, policies))
                 for line in reports.report(text, task.schema, task.sql, ["--policy", policy, word]).splitlines(True)]
        told.append(combine(len(texts), "".join(lines).encode())[0].lines)
    reports.FEW_ROWS = most
    return [] if told[0] == told[1] else ["where few rows are listed: %s, and not %s" % (told[1], told[0])]


def faults(chance, task, count):
    """What is wrong with the combined reports of a table that is cut."""
    parts = cut(chance, task.text, count)
    lists = tagged(chance, parts, task)
    first, refusal = combine(count, b"".join(line for lines in lists for line in lines), keys=task.keys)
    if refusal:
        return [refusal]
    wrong = []
    if count == 1 and first.parts[b"p0000"].columns and first.lines[2:] != [without_read(line[6:].decode()) for line in lists[0][1:]]:
        wrong.append("other than the report of the one part: %s" % first.lines)
    for _ in range(3):
        other, refusal = combine(count, interleaved(chance, lists), keys=task.keys)
        if refusal or other.lines != first.lines:
            wrong.append("another order of lines: %s %s" % (refusal, other.lines))
    again, refusal = combine(1, "".join("all\t%s\n" % line for line in first.lines).encode(), keys=task.keys)
    if refusal or [line.replace("row all ", "row ") for line in again.lines[2:]] != first.lines[2:]:
        wrong.append("as the report of one part: %s %s" % (refusal, again.lines))
    wrong += faults_of_few(chance, parts, task) if first_rows.asked_by(task.sql) else []
    return wrong + faults_of_blocks(first.blocks, parts, task)


def certain(count, seed):
    chance, wrong = random.Random(seed), 0
    for number in range(count):
        task = some_task(chance)
        found = faults(chance, task, chance.choice([1, 2, 2, 3, 5]))
        if found:
            wrong += 1
            print("wrong (%d): %s\n%s%s\n%s" % (number, task.schema, task.text, task.sql, "\n".join(found)))
            if wrong == 3:
                break
    print("%d tables cut and combined, %d wrong" % (count, wrong))
    return 1 if wrong else 0


# ---- by the program


def told_by(program, folder, texts, task, chance):
    """What the program's `combine` prints of the parts, which it loads and asks side by side: lines come as they come."""
    started, options = [], some_options(chance, task)
    for number, text in enumerate(texts):
        path = os.path.join(folder, "p%04d" % number)
        with open(path + ".csv", "w", newline="") as file:
            file.write(text)
        subprocess.run([program, "load", path + ".csv", path + ".daq", task.schema], check=True, stdout=subprocess.DEVNULL)
        started.append((path + ".daq", options()))
    words = [program, "combine", str(len(texts)), "/dev/stdin"] + ["--keys"] * task.keys
    ask = 'tag=$1; shift; "$@" | sed -u "s,^,$tag\t,"'
    with tempfile.TemporaryFile() as out:
        combined = subprocess.Popen(words, stdin=subprocess.PIPE, stdout=out, stderr=subprocess.PIPE)
        asking = [subprocess.Popen(["sh", "-c", ask, "ask", "p%04d" % number, program, "query", path, task.sql] + words, stdout=combined.stdin)
                  for number, (path, words) in enumerate(started)]
        combined.stdin.close()
        refusal = combined.stderr.read().decode()
        status = combined.wait()
        for one in asking:
            one.wait()
        out.seek(0)
        return status, out.read().decode(), refusal, started


def faults_of_program(program, folder, chance, task, count):
    """What is wrong with what the program says of a table that is cut."""
    texts = cut(chance, task.text, count)
    status, told, refusal, started = told_by(program, folder, texts, task, chance)
    if status or refusal:
        return ["status %d: %s" % (status, refusal)]
    lists = [[b"p%04d\t" % number + line.encode() for line in reports.report(part, task.schema, task.sql, words).splitlines(True)]
             for number, (part, (_, words)) in enumerate(zip(texts, started))]
    wanted, refusal = combine(count, b"".join(line for lines in lists for line in lines), keys=task.keys)
    wrong = [] if told.splitlines() == wanted.lines else ["not what is worked out: %s" % (refusal or wanted.lines)]
    return wrong + faults_of_blocks(read_back(task.sql, told).blocks, texts, task)


def with_few(text):
    """The lines of the report of a part with `--part`, by its report with `--list`."""
    lines, are_many = [], False
    for line in text.splitlines():
        top = first_rows.TOP.fullmatch(line)
        if top:
            are_many = int(top[2]) + int(top[3]) > reports.FEW_ROWS
        if not are_many or not line.startswith(("top ", "row ")):
            lines.append(line)
        elif top:
            lines.append("top %s certain 0" % top[1])
    return lines


def faults_of_many(program, folder, words):
    """What is wrong with what the program says of two parts: one has as many rows as `--part` lists, the other one more."""
    wrong, lists = [], {"--list": "", "--part": ""}
    for tag, rows in (("few", reports.FEW_ROWS), ("many", reports.FEW_ROWS + 1)):
        path = os.path.join(folder, tag)
        with open(path + ".csv", "w") as file:
            file.write("n\n" + "".join("%d\n" % (row * 7919 % 200003) for row in range(rows)))
        subprocess.run([program, "load", path + ".csv", path + ".daq", "n:int"], check=True, stdout=subprocess.DEVNULL)
        told = {word: subprocess.run([program, "query", path + ".daq", *words, word], check=True, stdout=subprocess.PIPE).stdout.decode()
                for word in lists}
        wrong += [] if told["--part"].splitlines() == with_few(told["--list"]) else ["part %s by %s" % (tag, words)]
        for word in lists:
            lists[word] += "".join("%s\t%s" % (tag, line) for line in told[word].splitlines(True))
    combined = [subprocess.run([program, "combine", "2", "/dev/stdin"], check=True, input=text.encode(), stdout=subprocess.PIPE).stdout
                for text in lists.values()]
    return wrong + ([] if combined[0] == combined[1] else ["the parts together by %s" % words])


def by_program(program, count, seed):
    chance, wrong, number = random.Random(seed), 0, 0
    with tempfile.TemporaryDirectory() as folder:
        for words in (["SELECT * FROM t ORDER BY n LIMIT 5"], ["SELECT * FROM t ORDER BY n DESC LIMIT 1000", "--rounds", "3"]):
            found = faults_of_many(program, folder, words)
            wrong += bool(found)
            print("many rows by %s: %s" % (" ".join(words), ", ".join(found) or "as wanted"))
        while number < count and wrong < 3:
            task = some_task(chance)
            number += 1
            found = faults_of_program(program, folder, chance, task, chance.choice([1, 2, 2, 3, 5, 8]))
            if found:
                wrong += 1
                print("wrong (%d): %s\n%s%s\n%s" % (number, task.schema, task.text, task.sql, "\n".join(found)))
    print("%d tables cut, loaded, asked and combined by the program, %d wrong" % (number, wrong))
    return 1 if wrong else 0


def main(words):
    if words[0] == "--program":
        return by_program(words[1], int(words[2]) if len(words) > 2 else 1000, int(words[3]) if len(words) > 3 else 1)
    if words[0] == "--certain":
        return certain(int(words[1]) if len(words) > 1 else 1000, int(words[2]) if len(words) > 2 else 1)
    with open(words[1], "rb") as file:
        whole, refusal = combine(int(words[0]), file.read(), **limits_of(words[2:]))
    sys.stdout.write("".join(line + "\n" for line in whole.lines))
    if refusal:
        print(refusal, file=sys.stderr)
        return 9
    return 0


if __name__ == "__main__":
    sys.exit(main(sys.argv[1:]))
