#!/usr/bin/env python3
"""Reports over tables of 600 to 60,000 rows made by chance, beside those that reports.py works out by the definitions.

large.py DAQ [COUNT [SEED]]     compares so many reports of DAQ, 2,000 where nothing is said

A table has rows of some kinds. All rows of a kind have the same cells, so a report is worked out once a kind, with the number of its rows. They
stand in runs, mixed, or few of them among many of one kind: a plane then moves rows in few blocks of 512, or in all.
"""
import random
import sys

import reports
from trials import Trials

SIZES = {"tiny": (-3, 9), "small": (0, 200), "middle": (-1000, 1000), "wide": (-(2**40), 2**40), "full": (-(2**63), 2**63 - 1)}
NAMES = ["Bern", "Oslo", "Rome", "O'Hara", "Ulm"]
TABLE_QUERIES = 5


# ---- what a report is, by kinds of rows


class KindRounds(reports.Rounds):
    """The rounds of a query over a table of kinds of rows, each with a number of rows."""

    def __init__(self, columns, weights, query, options):
        super().__init__(columns, len(weights), query, options)
        self.weights = weights

    def judged(self):
        """A row of each prefix, the truth there, and how many rows have it."""
        found = {}
        for row, weight in enumerate(self.weights):
            place = tuple(c.prefix(row) for c in self.query.columns)
            first, number = found.get(place, (row, 0))
            found[place] = first, number + weight
        return [(row, self.truth(row), number) for row, number in found.values()]

    def truths(self):
        return [truth for _, truth, number in self.judged() for _ in range(number)]


def wanted_of(table, sql, words):
    columns, rows = reports.read_table(table.text_of(table.kinds), table.schema())
    assert rows == len(table.weights)
    lines = []
    query = reports.Parser(sql, columns).query()
    KindRounds(columns, table.weights, query, reports.parse_options(words)).report(sql, lines)
    return lines


# ---- tables by chance


class Column:
    def __init__(self, name, kind, size, nullable):
        self.name, self.kind, self.size, self.nullable = name, kind, size, nullable

    def scale(self):
        return int(self.kind[3:]) if self.kind.startswith("dec") else 0

    def field(self, chance):
        """A cell's text that is not null."""
        low, high = SIZES[self.size]
        if self.kind == "text":
            return chance.choice(NAMES)
        if self.kind == "date":
            return reports.datetime.date.fromordinal(reports.EPOCH + chance.randint(0, high if self.size == "small" else 6000)).isoformat()
        end = chance.choice([low, high, 0]) if chance.random() < 0.1 else chance.randint(low, high)
        return reports.scaled(end, self.scale())

    def cell(self, chance):
        return "" if self.nullable and chance.random() < 0.25 else self.field(chance)

    def literal(self, chance, kinds, place):
        """A literal: often a cell of the table or a number beside one."""
        given = [kind[place] for kind in kinds if kind[place]]
        field = chance.choice(given) if given and chance.random() < 0.7 else self.field(chance)
        if self.kind == "text":
            return reports.quoted(field)
        if self.kind == "date":
            return "DATE '%s'" % field
        low, high = SIZES["full"]
        value = min(max(reports.units(field, self.scale()) + chance.choice([0, 0, -1, 1]), low + 1), high)
        text = reports.scaled(value, self.scale())
        return text.rstrip("0").rstrip(".") if self.scale() else text


class Table:
    """The columns, the kinds of rows, how many rows each has, and the kind of each row in order."""

    def __init__(self, chance):
        number = chance.randint(2, 4)
        self.columns = [some_column(chance, name) for name in "abcd"[:number]]
        rows = some_size(chance)
        most = chance.choice([4, 12, 40, 120])
        self.kinds = [[c.cell(chance) for c in self.columns] for _ in range(most)]
        places = some_order(chance, rows, most)
        used = sorted(set(places))
        self.kinds = [self.kinds[k] for k in used]
        self.places = [used.index(k) for k in places] if len(used) < most else places
        self.weights = [0] * len(used)
        for place in self.places:
            self.weights[place] += 1

    def schema(self):
        return ",".join("%s:%s%s" % (c.name, c.kind, "?" * c.nullable) for c in self.columns)

    def text_of(self, records):
        head = ",".join(c.name for c in self.columns)
        return "\n".join([head] + [",".join(record) for record in records]) + "\n"

    def text(self):
        lines = [",".join(kind) for kind in self.kinds]
        return "\n".join([",".join(c.name for c in self.columns)] + [lines[place] for place in self.places]) + "\n"


def some_column(chance, name):
    kind = chance.choice(["int", "int", "int", "dec1", "dec2", "date", "text"])
    size = chance.choice(["tiny", "small", "small", "middle", "middle", "wide", "full"])
    return Column(name, kind, size, chance.random() < 0.3)


def some_size(chance):
    """A number of rows, of each order of magnitude alike; every third one at the end of a block or beside it."""
    rows = int(600 * 100 ** chance.random())
    if chance.random() < 0.33:
        rows = rows // 512 * 512 + chance.choice([-1, 0, 1])
    return max(rows, 600)


def some_order(chance, rows, kinds):
    """The kind of each row."""
    form = chance.choice(["mixed", "runs", "few", "few together"])
    if form == "mixed":
        return chance.choices(range(kinds), k=rows)
    if form == "runs":
        return sorted(chance.choices(range(kinds), k=rows))
    places = [0] * rows
    first = chance.randrange(rows)
    for step in range(chance.choice([1, 3, 30, 300])):
        row = chance.randrange(rows) if form == "few" else (first + step) % rows
        places[row] = chance.randrange(kinds)
    return places


# ---- queries by chance


def some_atom(chance, table):
    place = chance.randrange(len(table.columns))
    column = table.columns[place]
    form = chance.randint(0, 11)
    if form == 0:
        return "%s IS %sNULL" % (column.name, chance.choice(["", "NOT "]))
    if form == 1:
        alike = [c for c in table.columns if c is not column and c.kind == column.kind != "text"]
        if alike:
            return "%s %s %s" % (column.name, chance.choice(list(reports.COMPARISONS)), chance.choice(alike).name)
    if form in (2, 3):
        ends = [column.literal(chance, table.kinds, place) for _ in range(2)]
        return "%s %sBETWEEN %s AND %s" % (column.name, chance.choice(["", "NOT "]), *ends)
    if form in (4, 5):
        values = [column.literal(chance, table.kinds, place) for _ in range(chance.randint(1, 6))]
        return "%s %sIN (%s)" % (column.name, chance.choice(["", "NOT "]), ", ".join(values))
    return "%s %s %s" % (column.name, chance.choice(list(reports.COMPARISONS)), column.literal(chance, table.kinds, place))


def some_condition(chance, table, depth):
    form = chance.choice(["and", "or", "not"]) if depth and chance.random() < 0.7 else "atom"
    if form == "atom":
        return some_atom(chance, table)
    if form == "not":
        return "NOT (%s)" % some_condition(chance, table, depth - 1)
    parts = [some_condition(chance, table, depth - 1) for _ in range(chance.choice([2, 2, 3]))]
    return (" %s " % form.upper()).join("(%s)" % part for part in parts)


def some_items(chance, table):
    numbers = [c for c in table.columns if c.kind[:3] in ("int", "dec")]
    little = [c for c in numbers if c.size in ("tiny", "small", "middle")]
    found = []
    for _ in range(chance.randint(1, 4)):
        name = chance.choice(table.columns).name
        choice = ["COUNT(*)", "COUNT(%s)" % name, "MIN(%s)" % name, "MAX(%s)" % name]
        choice += ["%s(%s)" % (kind, chance.choice(numbers).name) for kind in ("SUM", "SUM", "AVG") if numbers]
        if little:
            choice.append("SUM(%s * %s)" % (chance.choice(little).name, chance.choice(little).name))
        found.append(chance.choice(choice))
    return found


def some_query(chance, table):
    where = " WHERE " + some_condition(chance, table, 2) if chance.random() < 0.9 else ""
    items = ", ".join(some_items(chance, table))
    if chance.random() < 0.8:
        return "SELECT %s FROM t%s" % (items, where)
    return "SELECT %s FROM t%s GROUP BY %s" % (items, where, chance.choice(table.columns).name)


def some_options(chance):
    words = ["--rounds", str(chance.randint(0, 20))] if chance.random() < 0.3 else []
    if chance.random() < 0.6:
        words += ["--policy", chance.choice(["widest", "order", "filter", "balanced"])]
    if chance.random() < 0.1:
        words += ["--width", str(chance.randint(0, 60))]
    return words + ["--" + word for word, share in (("clip", 0.3), ("exact-avg", 0.1)) if chance.random() < share]


# ---- the trial


def compare(trials, chance, table, number):
    """Some reports over a table; the line of the query, which the program prints in a form of its own, is not compared."""
    path, planes = trials.put("t.csv", table.text()), trials.path("t.daq")
    trials.forget("t.daq")
    loaded = trials.run(["load", path, planes, table.schema()])
    assert loaded.status == 0, loaded
    for _ in range(min(TABLE_QUERIES, number)):
        sql, words = some_query(chance, table), some_options(chance)
        asked = ["ask", path, table.schema(), sql] if chance.random() < 0.2 else ["query", planes, sql]
        told = trials.run(asked + words)
        if told.status == 3 and b"group of" in told.err:
            continue
        wanted = wanted_of(table, sql, words)
        lines = told.out.decode().splitlines()
        place = next((i for i, (a, b) in enumerate(zip(lines[1:], wanted[1:])) if a != b), min(len(lines), len(wanted)) - 1)
        about = (len(table.places), table.schema(), sql, words)
        trials.check(about, (told, lines[place + 1:place + 2]), told.status == 0 and lines[1:] == wanted[1:], wanted[place + 1:place + 2])


def main(words):
    count = int(words[1]) if len(words) > 1 else 2000
    chance = random.Random(int(words[2]) if len(words) > 2 else 1)
    trials = Trials(words[0])
    while trials.count < count:
        compare(trials, chance, Table(chance), count - trials.count)
    trials.end("reports compared")


if __name__ == "__main__":
    main(sys.argv[1:])
