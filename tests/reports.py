#!/usr/bin/env python3
"""Reports of queries over small tables, worked out by the definitions alone, apart from the program.

reports.py CSV SCHEMA SQL [OPTIONS]               prints the report (SQL in the form in which a report prints it)
reports.py --session CSV SCHEMA SCRIPT [OPTIONS]  prints that of a session, whose script is a file
reports.py --compare DAQ [COUNT [SEED]]           makes tables, queries and sessions by chance, and compares what DAQ prints of them
"""
import csv
import datetime
import io
import os
import random
import re
import subprocess
import sys
import tempfile
from fractions import Fraction
from itertools import product

EPOCH = datetime.date(1970, 1, 1).toordinal()
# How many rows a block lists with --part at most.
FEW_ROWS = 100000

# ---- tables


class Column:
    def __init__(self, name, kind):
        self.name, self.nullable = name, kind.endswith("?")
        self.kind = kind.rstrip("?")
        self.scale = int(self.kind[3:]) if self.kind.startswith("dec") else 0

    def load(self, fields):
        nulls = [self.nullable and f == "" for f in fields]
        given = [f for f, null in zip(fields, nulls) if not null]
        self.names = sorted(set(given), key=lambda n: n.encode()) if self.kind == "text" else []
        values = [self.value(f) for f in given]
        self.base, self.top = (min(values), max(values)) if values else (0, 0)
        values = iter(values)
        self.cells = [None if null else next(values) for null in nulls]
        self.digits = (self.top - self.base).bit_length()
        self.planes = self.digits + self.nullable
        self.read = 0

    def value(self, text):
        if self.kind == "text":
            return self.names.index(text)
        if self.kind == "date":
            return datetime.date.fromisoformat(text).toordinal() - EPOCH
        return units(text, self.scale)

    def code(self, row):
        cell = self.cells[row]
        if cell is None:
            return 0
        return (self.nullable << self.digits) + cell - self.base

    def prefix(self, row):
        return self.code(row) >> (self.planes - self.read)

    def range_of(self, prefix):
        """Whether null is possible, and the numbers that are, or None where no cell has the prefix."""
        if self.nullable and self.read == 0:
            return Range(True, self.base, self.top)
        if self.nullable and prefix == 0:
            return Range(True, None, None)
        left = self.planes - self.read
        first = (prefix << left) - (self.nullable << self.digits)
        if not 0 <= first <= self.top - self.base:
            return None
        return Range(False, self.base + first, min(self.base + first + (1 << left) - 1, self.top))

    def range(self, row):
        return self.range_of(self.prefix(row))

    def text(self, value):
        if self.kind == "text":
            return quoted(self.names[value]) if value < len(self.names) else "-"
        if self.kind == "date":
            return datetime.date.fromordinal(value + EPOCH).isoformat()
        return scaled(value, self.scale)


class Range:
    def __init__(self, null, low, high):
        self.null, self.low, self.high = null, low, high

    def numbers(self):
        return self.low is not None

    def is_one(self):
        return not self.numbers() if self.null else self.low == self.high


def units(text, scale):
    sign = -1 if text.startswith("-") else 1
    whole, _, part = text.lstrip("+-").partition(".")
    part = part.rstrip("0")
    assert len(part) <= scale
    return sign * int((whole or "0") + part.ljust(scale, "0"))


def scaled(value, scale):
    digits = str(abs(value)).rjust(scale + 1, "0")
    sign = "-" if value < 0 else ""
    return sign + (digits if scale == 0 else digits[:-scale] + "." + digits[-scale:])


def quoted(text):
    return "'" + text.replace("'", "''") + "'"


def read_table(text, schema):
    columns = [Column(*item.split(":")) for item in schema.split(",")]
    records = [r for r in csv.reader(io.StringIO(text)) if r]
    assert records[0] == [c.name for c in columns]
    for i, column in enumerate(columns):
        column.load([r[i] for r in records[1:]])
    return columns, len(records) - 1


# ---- queries

TOKENS = re.compile(r"\s*('(?:[^']|'')*'|\"[^\"]+\"|[A-Za-z_]\w*|\d+(?:\.\d+)?|<>|<=|>=|[-(),*+=<>])")
KINDS = ("COUNT", "SUM", "AVG", "MIN", "MAX")


class Parser:
    def __init__(self, sql, columns):
        self.tokens, at = [], 0
        while at < len(sql.rstrip()):
            match = TOKENS.match(sql, at)
            self.tokens.append(match.group(1))
            at = match.end()
        self.at, self.table, self.used = 0, {c.name: c for c in columns}, []

    def peek(self, ahead=0):
        return self.tokens[self.at + ahead] if self.at + ahead < len(self.tokens) else ""

    def take(self, *wanted):
        token = self.peek()
        if wanted and token not in wanted:
            return None
        self.at += 1
        return token

    def expect(self, token):
        assert self.take(token), (token, self.tokens[self.at:])

    def column(self):
        column = self.table[self.take().strip('"')]
        if column not in self.used:
            self.used.append(column)
        return column

    def number(self, scale=None):
        sign = "-" if self.take("-") else ""
        text = self.take()
        if scale is None:
            scale = len(text.partition(".")[2])
            return units(sign + text, scale), scale
        return units(sign + text, scale)

    def expression(self):
        left = self.term()
        while self.peek() in ("+", "-"):
            left = (self.take(), left, self.term())
        return left

    def term(self):
        left = self.factor()
        while self.peek() == "*":
            left = (self.take(), left, self.factor())
        return left

    def factor(self):
        if self.take("("):
            inner = self.expression()
            self.expect(")")
            return inner
        if self.peek() == "-" or self.peek()[0].isdigit():
            return ("number",) + self.number()
        return ("column", self.column())

    def item(self):
        kind = self.take(*KINDS)
        if not kind:
            self.column()
            return None
        self.expect("(")
        argument = ("number", 0, 0) if self.take("*") else self.expression()
        self.expect(")")
        return kind, argument

    def condition(self):
        left = self.conjunction()
        while self.take("OR"):
            left = ("or", left, self.conjunction())
        return left

    def conjunction(self):
        left = self.negation()
        while self.take("AND"):
            left = ("and", left, self.negation())
        return left

    def negation(self):
        if self.take("NOT"):
            return ("not", self.negation())
        if self.take("("):
            inner = self.condition()
            self.expect(")")
            return inner
        return self.atom()

    def literal(self, column):
        if column.kind == "text":
            return self.take()[1:-1].replace("''", "'")
        if self.take("DATE"):
            return datetime.date.fromisoformat(self.take()[1:-1]).toordinal() - EPOCH
        return self.number(column.scale)

    def atom(self):
        column = self.column()
        if self.take("IS"):
            negated = self.take("NOT")
            self.expect("NULL")
            return ("not", ("null", column)) if negated else ("null", column)
        negated = self.take("NOT")
        if self.take("BETWEEN"):
            low = self.literal(column)
            self.expect("AND")
            high = self.literal(column)
            atom = ("test", column, lambda v: low <= v <= high, (floor(column, low), ceiling(column, high)), [low, high])
        elif self.take("IN"):
            self.expect("(")
            values = [self.literal(column)]
            while self.take(","):
                values.append(self.literal(column))
            self.expect(")")
            atom = ("test", column, lambda v: v in values, None, values)
        else:
            sign = self.take()
            compare = COMPARISONS[sign]
            if self.peek() in self.table or self.peek().startswith('"'):
                return ("columns", column, compare, self.column())
            value = self.literal(column)
            return ("test", column, lambda v: compare(v, value), let_through(column, sign, value), [value])
        return ("not", atom) if negated else atom

    def query(self):
        self.expect("SELECT")
        items = []
        if self.take("*") is None:
            items.append(self.item())
            while self.take(","):
                items.append(self.item())
        self.expect("FROM")
        self.take()
        query = Query([i for i in items if i])
        if self.take("WHERE"):
            query.condition = self.condition()
        query.in_condition = columns_of(query.condition)
        if self.take("GROUP"):
            self.expect("BY")
            query.groups = [self.column()]
            while self.take(","):
                column = self.column()
                if column not in query.groups:
                    query.groups.append(column)
        if self.take("ORDER"):
            self.expect("BY")
            query.key = self.column()
            query.down = self.take("ASC", "DESC") == "DESC"
            self.expect("LIMIT")
            query.limit = int(self.take())
        assert self.at == len(self.tokens), self.tokens[self.at:]
        query.columns = self.used
        return query


class Query:
    def __init__(self, items):
        self.items, self.condition, self.groups, self.key, self.limit = items, None, [], None, 0


COMPARISONS = {
    "=": lambda a, b: a == b,
    "<>": lambda a, b: a != b,
    "<": lambda a, b: a < b,
    "<=": lambda a, b: a <= b,
    ">": lambda a, b: a > b,
    ">=": lambda a, b: a >= b,
}


# ---- which numbers a comparison lets through: of texts these are ranks


def floor(column, value):
    """The least number that is not below the value."""
    return sum(name < value for name in column.names) if column.kind == "text" else value


def ceiling(column, value):
    """The greatest number that is not above the value."""
    return sum(name <= value for name in column.names) - 1 if column.kind == "text" else value


def let_through(column, sign, value):
    """The least and the greatest number that it lets through, None where that end is open; for <> nothing."""
    return {
        "=": (floor(column, value), ceiling(column, value)),
        "<>": None,
        "<": (None, floor(column, value) - 1),
        "<=": (None, ceiling(column, value)),
        ">": (ceiling(column, value) + 1, None),
        ">=": (floor(column, value), None),
    }[sign]


def operands(condition):
    """The operands of the topmost ANDs."""
    if condition is not None and condition[0] == "and":
        return operands(condition[1]) + operands(condition[2])
    return [condition]


def clip_of(query, item):
    """The numbers to which the condition clips the item's argument, if it does: those that all its ranges let through, where the column
    stands in the condition in ranges alone."""
    kind, argument = item
    if kind not in ("SUM", "MIN", "MAX") or argument[0] != "column":
        return None
    own = [part for part in operands(query.condition) if part is not None and part[0] == "test" and part[1] is argument[1]]
    ranges = [part[3] for part in own if part[3] is not None]
    if not ranges or len(ranges) != query.in_condition.count(argument[1]):
        return None
    lows, highs = ([end for end in ends if end is not None] for ends in zip(*ranges))
    return max(lows, default=None), min(highs, default=None)


def columns_of(condition):
    if condition is None:
        return []
    if condition[0] == "columns":
        return [condition[1], condition[3]]
    if condition[0] in ("test", "null"):
        return [condition[1]]
    return [c for part in condition[1:] for c in columns_of(part)]


# ---- what is known of a row

NULL = None
NOT = {True: False, False: True, NULL: NULL}


def meaning(column, value):
    """A number as a condition sees it: of texts the name. A rank without a name, where all are null, is behind all names."""
    if column.kind != "text":
        return value
    return column.names[value] if value < len(column.names) else "\U0010ffff"


def truths(condition, row):
    """The truths of SQL that a condition may have: True, False, NULL."""
    if condition is None:
        return {True}
    kind = condition[0]
    if kind == "not":
        return {NOT[t] for t in truths(condition[1], row)}
    if kind in ("and", "or"):
        # or is and with all truths exchanged
        turn = NOT if kind == "or" else {t: t for t in NOT}
        pairs = product(truths(condition[1], row), truths(condition[2], row))
        return {turn[conjunction(turn[a], turn[b])] for a, b in pairs}
    if kind == "null":
        given = condition[1].range(row)
        return ({True} if given.null else set()) | ({False} if given.numbers() else set())
    if kind == "columns":
        _, left, compare, right = condition
        a, b = left.range(row), right.range(row)
        scale = max(left.scale, right.scale)
        found = {NULL} if a.null or b.null else set()
        if a.numbers() and b.numbers():
            up, down = 10 ** (scale - left.scale), 10 ** (scale - right.scale)
            found |= {compare(x, y) for x, y in sample_of_pairs(a, up, b, down)}
        return found
    _, column, test, _, named = condition
    given = column.range(row)
    found = {NULL} if given.null else set()
    if given.numbers():
        found |= {test(meaning(column, v)) for v in sample(given, named)}
    return found


FEW = 64


def sample(given, named):
    """The numbers of a range; of many, the ends and those beside a number that the test names, since between them it says the same."""
    if given.high - given.low < FEW or isinstance(named[0], str):
        return range(given.low, given.high + 1)
    beside = {v + step for v in named for step in (-1, 0, 1)}
    return [given.low, given.high] + [v for v in beside if given.low < v < given.high]


def sample_of_pairs(a, up, b, down):
    """The pairs of numbers of two ranges, each as so many times its units; of many, some in each order that there is."""
    if a.high - a.low < FEW and b.high - b.low < FEW:
        return [(x * up, y * down) for x in range(a.low, a.high + 1) for y in range(b.low, b.high + 1)]
    pairs = [(a.low * up, b.high * down), (a.high * up, b.low * down)]
    # one of the two is 1: the least number of both ranges that both can write
    step = max(up, down)
    least = -(-max(a.low * up, b.low * down) // step) * step
    return pairs + [(least, least)] * (least <= min(a.high * up, b.high * down))


def conjunction(a, b):
    if a is False or b is False:
        return False
    return NULL if a is NULL or b is NULL else True


def span(expression, row):
    """The scale, the interval, and whether null is possible, and a number."""
    if expression[0] == "number":
        return expression[2], expression[1], expression[1], False, True
    if expression[0] == "column":
        column = expression[1]
        given = column.range(row)
        if not given.numbers():
            return column.scale, column.base, column.base, True, False
        return column.scale, given.low, given.high, given.null, True
    sign, left, right = expression
    ls, ll, lh, ln, lv = span(left, row)
    rs, rl, rh, rn, rv = span(right, row)
    if sign == "*":
        corners = [a * b for a in (ll, lh) for b in (rl, rh)]
        return ls + rs, min(corners), max(corners), ln or rn, lv and rv
    scale = max(ls, rs)
    ll, lh, rl, rh = (v * 10 ** (scale - s) for v, s in ((ll, ls), (lh, ls), (rl, rs), (rh, rs)))
    if sign == "+":
        return scale, ll + rl, lh + rh, ln or rn, lv and rv
    return scale, ll - rh, lh - rl, ln or rn, lv and rv


def scale_of(expression):
    if expression[0] == "number":
        return expression[2]
    if expression[0] == "column":
        return expression[1].scale
    left, right = scale_of(expression[1]), scale_of(expression[2])
    return left + right if expression[0] == "*" else max(left, right)


# ---- bounds: (word, low, high), where the word says whether there may be no answer
# each of the pairs of ends, (certain, low, high), stands for one row, or for as many as are told behind it


def rows_of(pair):
    return pair[3] if len(pair) > 3 else 1


def count(pairs):
    return sum(rows_of(p) for p in pairs)


def total(ends):
    return sum(end * rows for end, rows in ends)


def least_sum(certain, others):
    """Of the sums of all certain rows and some of the others, at least one row in all, the least."""
    if certain or any(low <= 0 for low, _ in others):
        return total(certain) + total((low, rows) for low, rows in others if low < 0)
    return min(low for low, _ in others)


def bound(kind, pairs):
    certain = [p for p in pairs if p[0]]
    others = [p for p in pairs if not p[0]]
    if kind == "COUNT":
        return "never", count(certain), count(pairs)
    if not pairs:
        return "always", 0, 0
    word = "never" if certain else "possibly"
    lows, highs = [p[1] for p in pairs], [p[2] for p in pairs]
    if kind == "MIN":
        return word, min(lows), min(p[2] for p in certain) if certain else max(highs)
    if kind == "MAX":
        return word, max(p[1] for p in certain) if certain else min(lows), max(highs)
    low = least_sum([(p[1], rows_of(p)) for p in certain], [(p[1], rows_of(p)) for p in others])
    high = -least_sum([(-p[2], rows_of(p)) for p in certain], [(-p[2], rows_of(p)) for p in others])
    if kind == "SUM":
        return word, low, high
    few, many = max(count(certain), 1), count(pairs)
    return word, (low, many if low >= 0 else few), (high, few if high >= 0 else many)


def clipped(pairs, low, high):
    """The pairs, each with its ends within the two numbers; none where the low one lies above the high one."""
    if low is not None and high is not None and low > high:
        return []

    def within(end):
        return end if low is None or end >= low else low

    def below(end):
        return end if high is None or end <= high else high

    return [(certain, within(l), below(h), rows) for certain, l, h, rows in pairs]


def best_choice(pairs):
    """Of the choices of uncertain rows whose high is at least a cut, at least one row in all, that of the greatest average of highs,
    of several that with the fewest rows: sum, number of rows, how many are chosen, and the cut."""
    certain = [p for p in pairs if p[0]]
    others = [p for p in pairs if not p[0]]
    choices = [[p for p in others if p[2] >= cut] for cut in sorted({p[2] for p in others})] + ([[]] if certain else [])

    def of(chosen):
        return total((p[2], rows_of(p)) for p in certain + chosen), count(certain + chosen)

    best = max(choices, key=lambda chosen: (Fraction(*of(chosen)), -count(chosen)))
    return (*of(best), count(best), min((p[2] for p in best), default=None))


def exact_lines(pairs, text, cut_text):
    """What is told of the least and the greatest average that there may be."""
    if not pairs:
        return ["exact null"]
    top = best_choice(pairs)
    turned = best_choice([(certain, -high, -low, rows) for certain, low, high, rows in pairs])
    low = (-turned[0], turned[1])
    word = "never" if any(p[0] for p in pairs) else "possibly"
    of = count(pairs) - count(p for p in pairs if p[0])
    return [
        "exact " + interval(word, low, top[:2], text),
        "low takes %d of %d" % (turned[2], of) + (" at most " + cut_text(-turned[3]) if turned[2] else ""),
        "high takes %d of %d" % (top[2], of) + (" at least " + cut_text(top[3]) if top[2] else ""),
    ]


def is_near(given, width):
    word, low, high = given
    if word == "always":
        return True
    if word == "possibly":
        return False
    if isinstance(low, tuple):
        return high[0] * low[1] - low[0] * high[1] <= width * low[1] * high[1]
    return high - low <= width


def interval(word, low, high, text):
    if word == "always":
        return "null"
    ends = text(low) if low == high else "[%s, %s]" % (text(low), text(high))
    return ends + (" or null" if word == "possibly" else "")


# ---- rounds


class Rounds:
    def __init__(self, columns, rows, query, options):
        self.table, self.rows, self.query, self.options = columns, rows, query, options

    def truth(self, row):
        found = truths(self.query.condition, row)
        return "T" if found == {True} else "U" if True in found else "F"

    def truths(self):
        return [self.truth(r) for r in range(self.rows)]

    def judged(self):
        """The rows, the truth at each, and for how many rows it stands."""
        return [(r, truth, 1) for r, truth in enumerate(self.truths())]

    def pairs(self, item, rows):
        """The rows that may give a value; each with whether it surely counts, and for how many it stands."""
        found = []
        for r, certain, number in rows:
            _, low, high, null, has_value = span(item[1], r)
            if has_value:
                found.append((certain and not null, low, high, number))
        return found

    def lines_of_items(self, rows):
        """The lines, and whether all are narrow."""
        lines, near = [], True
        for place, item in enumerate(self.query.items):
            given = bound(item[0], self.pairs(item, rows))
            near = near and is_near(given, self.options["width"])
            lines.append("%d %s" % (place + 1, interval(*given, text_of(item))))
            if not self.query.groups:
                lines += ["%d %s" % (place + 1, line) for line in self.further_lines(item, self.pairs(item, rows))]
        return lines, near

    def further_lines(self, item, pairs):
        """What --clip and --exact-avg add behind the line of an item."""
        clip = clip_of(self.query, item)
        if self.options["clip"] and clip is not None:
            return ["clip " + interval(*bound(item[0], clipped(pairs, *clip)), text_of(item))]
        if self.options["exact-avg"] and item[0] == "AVG":
            scale = scale_of(item[1])
            return exact_lines(pairs, text_of(item), lambda cut: scaled(cut, scale))
        return []

    def totals(self):
        return self.lines_of_items([(r, truth == "T", number) for r, truth, number in self.judged() if truth != "F"])

    def cells(self):
        groups, cells = self.query.groups, {}
        for r, truth, number in self.judged():
            if truth != "F":
                cells.setdefault(tuple(c.prefix(r) for c in groups), []).append((r, truth == "T", number))
        lines, narrow = [], True
        for cell in sorted(cells):
            ranges = [c.range_of(p) for c, p in zip(groups, cell)]
            single = all(given.is_one() for given in ranges)
            rows = [(r, single and certain, number) for r, certain, number in cells[cell]]
            present = any(certain for _, certain, _ in rows)
            keys = ", ".join(key_text(c, given) for c, given in zip(groups, ranges))
            lines.append("group %s %s" % (keys, "present" if present else "possible"))
            found, near = self.lines_of_items(rows)
            lines += found
            narrow = narrow and present and near
        return lines, narrow

    def ranking(self):
        query, truth, key = self.query, self.truths(), self.query.key
        far = float("inf")

        def ends(r):
            # places of the first and the last value: less where a value comes first, null last
            given = key.range(r)
            first, last = far, far
            if given.numbers():
                first, last = (-given.high, -given.low) if query.down else (given.low, given.high)
            return (first, r), (far if given.null else last, r)

        places = [ends(r) for r in range(self.rows)]
        standing = []
        for x in range(self.rows):
            others = [y for y in range(self.rows) if y != x]
            may = sum(truth[y] != "F" and places[y][0] < places[x][1] for y in others)
            must = sum(truth[y] == "T" and places[y][1] < places[x][0] for y in others)
            if truth[x] == "F" or must >= query.limit:
                standing.append("excluded")
            elif truth[x] == "T" and may < query.limit:
                standing.append("certain")
            else:
                standing.append("possible")
        certain, possible = standing.count("certain"), standing.count("possible")
        lines, keys_are_near = ["top %d certain %d possible %d" % (query.limit, certain, possible)], True
        are_few = not self.options["part"] or certain + possible <= FEW_ROWS
        for r, word in enumerate(standing):
            given = key.range(r)
            null = "never" if not given.null else "possibly" if given.numbers() else "always"
            if word == "certain" or word == "possible" and (self.options["list"] or self.options["part"]):
                lines.append("row %d %s %s" % (r + 1, word, interval(null, given.low, given.high, key.text)))
            if word == "certain":
                keys_are_near = keys_are_near and is_near((null, given.low, given.high), self.options["width"])
        return lines if are_few else ["top %d certain 0" % query.limit], possible == 0 and (keys_are_near or not self.options["keys"])

    def block(self):
        if self.query.key:
            return self.ranking()
        return self.cells() if self.query.groups else self.totals()

    def next_column(self, number):
        if self.options["reads"] is not None:
            return next(c for c in self.query.columns if c.name == self.options["reads"][number])
        return chosen(self.options["policy"], self.query.columns, [self])

    def ending(self, narrow, number):
        if narrow:
            return "end narrow"
        if number == self.options["rounds"]:
            return "end rounds"
        if self.options["reads"] is not None and number == len(self.options["reads"]):
            return "end reads"
        return None

    def step(self, column):
        """Reads the next plane of a column."""
        column.read += 1

    def report(self, sql, lines):
        """Appends the lines of the report."""
        lines += ["query " + sql, "round 0"]
        number = 0
        while True:
            found, narrow = self.block()
            lines += found
            ending = self.ending(narrow, number)
            if ending:
                lines.append(ending)
                return
            column = self.next_column(number)
            self.step(column)
            number += 1
            lines.append("round %d %s %d/%d" % (number, column.name, column.read, column.planes))


def chosen(policy, columns, unfinished):
    """The column that a policy reads next for some queries, of the columns in the order in which it sees them."""
    conditions = [c for one in unfinished for c in one.query.in_condition]
    unread = [c for c in columns if c.read < c.planes and any(c in one.query.columns for one in unfinished)]
    if policy == "order":
        return unread[0]
    if policy == "balanced":
        return balanced(columns, unread, conditions, unfinished)
    if policy == "filter":
        filters = [c for c in unread if c in conditions]
        groups = [c for c in unread if c not in conditions and any(c in one.query.groups for one in unfinished)]
        if filters and any("U" in one.truths() for one in unfinished):
            unread = filters
        elif groups:
            unread = groups
    return max(unread, key=lambda c: (c.planes - c.read, -columns.index(c)))


def columns_named(term):
    """The columns that an expression names."""
    if term[0] == "column":
        return [term[1]]
    return [c for part in term[1:] if isinstance(part, tuple) for c in columns_named(part)]


def balanced(columns, unread, conditions, unfinished):
    """The column of the condition of which the fewest planes are read, while as large a share of the rows that may pass is unknown as of a
    value is unread; else one of the groups, else one that gives values."""
    queries = [one.query for one in unfinished]
    givers = [c for query in queries for _, argument in query.items if argument for c in columns_named(argument)]
    givers += [query.key for query in queries if query.key]
    grouped = [c for query in queries for c in query.groups]
    filters = [c for c in unread if c in conditions]
    groups = [c for c in unread if c not in conditions and c in grouped]
    values = [c for c in unread if c in givers or c not in conditions and c not in grouped]
    truths = [truth for one in unfinished for truth in one.truths()]
    unknown, possible = truths.count("U"), len(truths) - truths.count("F")
    shown = groups + values
    parts_rows = not shown or unknown > 0 and unknown * 2 ** min(c.read for c in shown) >= possible
    return min((parts_rows and filters) or groups or values, key=lambda c: (c.read, columns.index(c)))


class Session:
    """Several queries over one table, which read its planes together."""

    def __init__(self, columns, rows, queries, options):
        self.members = [Rounds(columns, rows, query, options) for query in queries]
        self.options = options
        self.columns = []
        for query in queries:
            self.columns += [c for c in query.columns if c not in self.columns]

    def step(self, column):
        """Reads the next plane of a column."""
        column.read += 1

    def report(self, texts, lines):
        """Appends the lines of the report."""
        lines += ["queries %d" % len(texts)] + ["%d %s" % numbered for numbered in enumerate(texts, 1)]
        unfinished, steps = list(self.members), 0
        reads, heads = [0] * len(texts), ["round 0"] * len(texts)
        moved = unfinished
        while True:
            for one in moved:
                place = self.members.index(one)
                found, narrow = one.block()
                lines += ["at %d query %d" % (steps, place + 1), heads[place]] + found
                if narrow:
                    unfinished = [other for other in unfinished if other is not one]
            if not unfinished or steps == self.options["rounds"]:
                lines.append("end rounds" if unfinished else "end narrow")
                return
            column = chosen(self.options["policy"], self.columns, unfinished)
            self.step(column)
            steps += 1
            moved = [one for one in unfinished if column in one.query.columns]
            for place in map(self.members.index, moved):
                reads[place] += 1
                heads[place] = "round %d %s %d/%d" % (reads[place], column.name, column.read, column.planes)


def text_of(item):
    kind, argument = item
    if kind in ("MIN", "MAX") and argument[0] == "column":
        return argument[1].text
    scale = 0 if kind == "COUNT" else scale_of(argument)
    if kind == "AVG":
        return lambda end: "%s/%d" % (scaled(end[0], scale), end[1])
    return lambda end: scaled(end, scale)


def key_text(column, given):
    if not given.numbers():
        return "null"
    low, high = column.text(given.low), column.text(given.high)
    return (low if given.low == given.high else low + ".." + high) + (" or null" if given.null else "")


def parse_options(words):
    options = {"width": 0, "rounds": None, "policy": "widest", "reads": None}
    options.update(dict.fromkeys(("list", "part", "keys", "clip", "exact-avg"), False))
    words = list(words)
    while words:
        word = words.pop(0)[2:]
        if word in ("list", "part", "keys", "clip", "exact-avg"):
            options[word] = True
        elif word in ("width", "rounds"):
            options[word] = int(words.pop(0))
        else:
            options[word] = words.pop(0).split(",") if word == "reads" else words.pop(0)
    return options


def report(text, schema, sql, words):
    columns, rows = read_table(text, schema)
    query = Parser(sql, columns).query()
    lines = []
    Rounds(columns, rows, query, parse_options(words)).report(sql, lines)
    return "".join(line + "\n" for line in lines)


def queries_in(script):
    return [line.strip(" \r") for line in script.split("\n") if line.strip(" \t\r")]


def session_report(text, schema, script, words):
    columns, rows = read_table(text, schema)
    texts = queries_in(script)
    queries = [Parser(sql, columns).query() for sql in texts]
    lines = []
    Session(columns, rows, queries, parse_options(words)).report(texts, lines)
    return "".join(line + "\n" for line in lines)


# ---- by chance


def some_table(chance):
    rows = chance.choice([0, 1, 2, 3, 5, 8, 13])
    kinds = [chance.choice(["int", "int", "dec1", "date", "text"]) + chance.choice(["", "", "?"]) for _ in range(chance.randint(2, 4))]
    columns = list(zip("abcd", kinds))
    lines = [",".join(name for name, _ in columns)]
    for _ in range(rows):
        fields = [some_field(chance, kind) for _, kind in columns]
        lines.append(",".join(fields))
    return "\n".join(lines) + "\n", ",".join("%s:%s" % c for c in columns), columns


def some_field(chance, kind):
    if kind.endswith("?") and chance.random() < 0.25:
        return ""
    if kind.startswith("int"):
        return str(chance.randint(-3, 9))
    if kind.startswith("dec"):
        return scaled(chance.randint(-15, 25), 1)
    if kind.startswith("date"):
        return datetime.date.fromordinal(EPOCH + chance.randint(0, 40)).isoformat()
    return chance.choice(["Bern", "Oslo", "Rome", "O'Hara", "Ulm"])


def some_literal(chance, kind):
    field = some_field(chance, kind.rstrip("?"))
    if kind.startswith("date"):
        return "DATE '%s'" % field
    if kind.startswith("dec"):
        return field.rstrip("0").rstrip(".")
    return quoted(field) if kind.startswith("text") else field


def some_atom(chance, columns):
    name, kind = chance.choice(columns)
    form = chance.randint(0, 9)
    if form == 0:
        return "%s IS %sNULL" % (name, chance.choice(["", "NOT "]))
    if form == 1:
        low, high = some_literal(chance, kind), some_literal(chance, kind)
        return "%s %sBETWEEN %s AND %s" % (name, chance.choice(["", "NOT "]), low, high)
    if form == 2:
        values = ", ".join(some_literal(chance, kind) for _ in range(chance.randint(1, 3)))
        return "%s %sIN (%s)" % (name, chance.choice(["", "NOT "]), values)
    return "%s %s %s" % (name, chance.choice(list(COMPARISONS)), some_literal(chance, kind))


def some_condition(chance, columns):
    atoms = [some_atom(chance, columns) for _ in range(chance.choice([0, 1, 1, 2]))]
    return " WHERE " + chance.choice([" AND ", " OR "]).join(atoms) if atoms else ""


def some_items(chance, columns):
    items = []
    for _ in range(chance.randint(1, 3)):
        name, kind = chance.choice(columns)
        numbers = [n for n, k in columns if k[:3] in ("int", "dec")]
        choice = ["COUNT(*)", "COUNT(%s)" % name, "MIN(%s)" % name, "MAX(%s)" % name]
        if numbers:
            number = chance.choice(numbers)
            choice += ["SUM(%s)" % number, "AVG(%s)" % number, "SUM(%s * %s)" % (number, chance.choice(numbers)), "MAX(%s - 2)" % number]
        items.append(chance.choice(choice))
    return items


def some_query(chance, columns):
    where = some_condition(chance, columns)
    form = chance.randint(0, 2)
    if form == 0:
        return "SELECT %s FROM t%s" % (", ".join(some_items(chance, columns)), where)
    if form == 1:
        groups = chance.sample([n for n, _ in columns], chance.randint(1, 2))
        shown = chance.sample(groups, chance.randint(0, len(groups)))
        return "SELECT %s FROM t%s GROUP BY %s" % (", ".join(shown + some_items(chance, columns)), where, ", ".join(groups))
    down = chance.choice(["", " DESC"])
    return "SELECT * FROM t%s ORDER BY %s%s LIMIT %d" % (where, chance.choice(columns)[0], down, chance.choice([1, 2, 3, 5, 1000]))


def some_options(chance):
    words = []
    if chance.random() < 0.2:
        words += ["--width", str(chance.randint(0, 6))]
    if chance.random() < 0.2:
        words += ["--rounds", str(chance.randint(0, 6))]
    if chance.random() < 0.6:
        words += ["--policy", chance.choice(["widest", "order", "filter", "balanced"])]
    words += ["--" + word for word in (chance.choice(["list", "part"]), "keys", "clip", "exact-avg") if chance.random() < 0.5]
    return words


def some_script(chance, columns):
    """The lines of queries, some behind blank ones; the last may lack its end."""
    lines = []
    for _ in range(chance.choice([1, 2, 2, 3, 5, 8])):
        lines += [""] * chance.choice([0, 0, 0, 1, 2]) + [some_query(chance, columns) + chance.choice(["", "", " ", "\r"])]
    return "\n".join(lines) + chance.choice(["", "\n", "\n\n \t\r\n"])


def told_of(daq, *words):
    return subprocess.run([daq, *words], capture_output=True, text=True)


def told_of_session(daq, folder, path, schema, script, words):
    planes, lines = os.path.join(folder, "t.daq"), os.path.join(folder, "t.sql")
    with open(lines, "w", newline="") as file:
        file.write(script)
    loaded = told_of(daq, "load", path, planes, schema)
    return told_of(daq, "session", planes, lines, *words) if loaded.returncode == 0 else loaded


def compare(daq, count, seed):
    chance, wrong = random.Random(seed), 0
    with tempfile.TemporaryDirectory() as folder:
        path = os.path.join(folder, "t.csv")
        for number in range(count):
            text, schema, columns = some_table(chance)
            words = some_options(chance)
            with open(path, "w") as file:
                file.write(text)
            if number % 2:
                asked = some_script(chance, columns)
                told, of = told_of_session(daq, folder, path, schema, asked, words), session_report
            else:
                asked = some_query(chance, columns)
                told, of = told_of(daq, "ask", path, schema, asked, *words), report
            if told.returncode == 3 and "group of" in told.stderr:
                continue
            wanted = of(text, schema, asked, words)
            if told.stdout != wanted or told.returncode != 0:
                wrong += 1
                print("differs (%d): %s\n%s%s %s\n--- wanted\n%s--- told (%d) %s\n%s" % (number, schema, text, asked, words, wanted, told.returncode, told.stderr, told.stdout))
                if wrong == 3:
                    break
    print("%d reports compared, %d differ" % (count, wrong))
    return 1 if wrong else 0


def read_file(path):
    with open(path, newline="") as file:
        return file.read()


def main(words):
    if words[0] == "--compare":
        count = int(words[2]) if len(words) > 2 else 500
        seed = int(words[3]) if len(words) > 3 else 1
        return compare(words[1], count, seed)
    if words[0] == "--session":
        sys.stdout.write(session_report(read_file(words[1]), words[2], read_file(words[3]), words[4:]))
    else:
        sys.stdout.write(report(read_file(words[0]), words[1], words[2], words[3:]))
    return 0


if __name__ == "__main__":
    sys.exit(main(sys.argv[1:]))
