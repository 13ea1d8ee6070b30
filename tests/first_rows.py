"""First rows of a table in parts: their reports read, the rows judged anew among all that the parts list, by the definitions alone. Apart from
the program, and used by parts.py."""
import re

import reports

NUMBER = r"0|[1-9]\d*"
TOP = re.compile(r"top (%s) certain (%s) possible (%s)" % (NUMBER, NUMBER, NUMBER))
NAME = re.compile(r"(?:(.+) )?(%s)" % NUMBER, re.DOTALL)


class Row:
    """A row that a report lists: its tag there, which is empty in that of one table, its number, whether it is certain, and its key."""

    def __init__(self, tag, number, certain, key):
        self.tag, self.number, self.certain, self.key = tag, number, certain, key

    def name(self):
        return self.tag.encode(errors="surrogateescape"), self.number

    def line(self):
        name = self.tag + " %d" % self.number if self.tag else str(self.number)
        return "row %s %s %s" % (name, "certain" if self.certain else "possible", self.key.text())

    def first(self, down):
        return None if self.key.word == "always" else self.key.high if down else self.key.low

    def last(self, down):
        return None if self.key.word != "never" else self.key.low if down else self.key.high

    def is_known(self):
        """Whether its place in the order is."""
        return self.certain and self.key.is_exact()


class Block:
    """The rows of a block, and how many it says are certain and possible; none where no row is judged."""

    def __init__(self, certain, possible):
        self.certain, self.possible, self.rows, self.is_skipped = certain, possible, [], False

    def count(self, certain):
        return sum(row.certain == certain for row in self.rows)

    def has_room(self, row):
        return not self.is_skipped and self.count(row.certain) < (self.certain if row.certain else self.possible)

    def is_whole(self):
        return self.count(True) == self.certain and self.count(False) == self.possible

    def lacks_possible(self):
        return self.count(True) == self.certain and self.possible > 0 and not self.count(False)

    def is_narrow(self):
        return not self.is_skipped and not self.possible

    def lines(self, limit):
        if self.is_skipped:
            return ["top %d certain 0" % limit]
        return ["top %d certain %d possible %d" % (limit, self.certain, self.possible)] + [row.line() for row in self.rows]


def skipped():
    """A block of a combined report in which no row is judged."""
    block = Block(0, 0)
    block.is_skipped = True
    return block


def asked_by(query):
    """How many rows a query asks for, and whether the greatest keys come first; None where it has no order."""
    found = re.search(r" ORDER BY \w+( DESC)? LIMIT (\d+)$", re.sub(r"'(?:[^']|'')*'", "''", query))
    return (int(found[2]), bool(found[1])) if found else None


def top_at(line, limit):
    """The block that begins with the line."""
    if line == "top %d certain 0" % limit:
        return skipped()
    found = TOP.fullmatch(line)
    numbers = [int(number) for number in found.groups()] if found else []
    return Block(*numbers[1:]) if numbers and numbers[0] == limit and max(numbers) < 1 << 64 else None


def row_at(line, read_key):
    """The row of the line. The text of a key may hold what else stands before one."""
    for word in re.finditer(r" (certain|possible) ", line) if line.startswith("row ") else []:
        name, key = NAME.fullmatch(line[4:word.start()]), read_key(line[word.end():])
        if name and key and int(name[2]) < 1 << 64:
            return Row(name[1] or "", int(name[2]), word[1] == "certain", key)
    return None


# ---- over all parts


def comes_before(down, key, name, other, other_name):
    """Null comes last in both directions, and of equal keys the row whose part, tag and number come first."""
    if key != other:
        if key is None or other is None:
            return other is None
        return key > other if down else key < other
    return name < other_name


def standing(limit, down, rows, name, row):
    """Of rows by their names: whether this one is among the first for certain, perhaps, or not."""
    must = sum(o.certain and comes_before(down, o.last(down), n, row.first(down), name) for n, o in rows.items() if n != name)
    may = sum(comes_before(down, o.first(down), n, row.last(down), name) for n, o in rows.items() if n != name)
    if must >= limit:
        return "excluded"
    return "certain" if row.certain and may < limit else "possible"


def combined(limit, down, blocks):
    """The block over all parts. Each block is that of a part by its tag, and the tags rise."""
    if any(block.is_skipped or len(block.rows) > reports.FEW_ROWS for _, block in blocks):
        return skipped()
    rows = {(place,) + row.name(): row for place, (_, block) in enumerate(blocks) for row in block.rows}
    whole = Block(0, 0)
    for name, row in rows.items():
        word = standing(limit, down, rows, name, row)
        if word != "excluded":
            tag = blocks[name[0]][0] + (" " + row.tag if row.tag else "")
            whole.rows.append(Row(tag, row.number, word == "certain", row.key))
    whole.certain, whole.possible = whole.count(True), whole.count(False)
    return whole


# ---- beside the whole table


def places(texts):
    """How many rows stand before those of each part."""
    found, before = {}, 0
    for number, text in enumerate(texts):
        found["p%04d" % number] = before
        before += text.count("\n") - 1
    return found


def keys_of(text, schema, sql):
    """What the key of each row of the table is: null, or its number or text."""
    columns, rows = reports.read_table(text, schema)
    key = reports.Parser(sql, columns).query().key
    cells = [key.cells[row] for row in range(rows)]
    return [cell if cell is None or key.kind != "text" else key.names[cell].encode() for cell in cells]


def allows(known, value):
    return known.word != "never" if value is None else known.word != "always" and known.low <= value <= known.high


def faults(blocks, before, first, keys):
    """What is wrong with the blocks of a combined report: a certain row is among the first, one that is has a line, certain rows stay, no
    row comes back, each key is as it is said to be, and where all listed rows are certain and have one key, they are the first rows. A part
    may end before its keys are known to one value, so rows may be possible in the end."""
    wrong, certain, listed = [], set(), None
    for number, block in enumerate(blocks):
        rows = {before[row.tag] + row.number: row for row in block.rows}
        sure = {place for place, row in rows.items() if row.certain}
        found = {
            "is certain and not among the first": sure - first,
            "is among the first and not listed": first - set(rows),
            "is certain no more": certain - sure,
            "comes back": set() if listed is None else set(rows) - listed,
            "has another key": {place for place, row in rows.items() if not allows(row.key, keys[place - 1])},
        }
        wrong += ["block %d: row %s %s" % (number, sorted(places), why) for why, places in found.items() if places]
        certain, listed = sure, set(rows)
    is_known = all(row.is_known() for row in blocks[-1].rows)
    return wrong + (["at the end %s" % blocks[-1].lines(0)] if is_known and listed != first else [])
