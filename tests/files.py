#!/usr/bin/env python3
"""Plane files that are damaged, under `info`, `query`, `session` and `upgrade`: each answer is compared with that of an independent reader of the format.

files.py DAQ [FILE]..   damages each file (or two of its own) in every byte: set to 00, to FF, each bit turned; and cuts it after every byte
"""
import os
import subprocess
import sys
import tempfile

import reports

MOST_ROWS, MOST_CELLS, MOST_HEADS, MOST_NAMES = 1 << 24, 1 << 27, 1 << 31, 65536
FIRST_DAY, LAST_DAY = -719528, 2932896


class Refused(Exception):
    """A line of a refusal, and what was written before it."""

    def __init__(self, line, status=5, written=""):
        super().__init__(line)
        self.line, self.status, self.written = line, status, written


def refuse(text, *numbers):
    raise Refused("daq: file refused: " + text % numbers)


def number(data, at, size):
    return int.from_bytes(data[at:at + size], "little")


def signed(data, at):
    return int.from_bytes(data[at:at + 8], "little", signed=True)


class FileColumn(reports.Column):
    """A column of which the planes in the file are known, whatever they hold."""

    def __init__(self, number, name, kind, scale, base, top, names):
        self.number, self.name, self.nullable = number, name, kind >= 128
        self.kind = ("int", "dec%d" % scale, "date", "text")[kind % 128]
        self.scale, self.base, self.top, self.names = scale, base, top, names
        self.digits = (top - base).bit_length()
        self.planes, self.read = self.digits + self.nullable, 0

    def place(self, at, rows):
        self.at, self.rows, self.size = at, rows, (rows + 63) // 64 * 8
        return at + self.planes * self.size

    def take(self, data):
        """Reads the next plane."""
        plane = number(data, self.at + self.read * self.size, self.size)
        if plane >> self.rows:
            refuse("column %d plane %d has pad bits", self.number, self.read + 1)
        if self.read == 0:
            self.prefixes = [0] * self.rows
        prefixes = [2 * p + (plane >> r & 1) for r, p in enumerate(self.prefixes)]
        self.read += 1
        for r, prefix in enumerate(prefixes):
            if self.range_of(prefix) is None:
                self.read -= 1
                refuse("column %d plane %d row %d passes its top", self.number, self.read + 1, r + 1)
        self.prefixes = prefixes

    def prefix(self, row):
        return self.prefixes[row] if self.read else 0


class Reader:
    """The head of a file, by docs/proof/file.md."""

    def __init__(self, data):
        self.data = data
        if len(data) < 32:
            refuse("size %d, not 32", len(data))
        if data[:8] != b"DAQPLANE":
            refuse("not a plane file")
        self.version, columns = number(data, 8, 4), number(data, 12, 4)
        self.rows, heads = number(data, 16, 8), number(data, 24, 8)
        if self.version not in (1, 2):
            refuse("version %d", self.version)
        if columns == 0:
            refuse("bad head at 12")
        if columns > 64:
            refuse("limit passed at 12")
        if self.rows > MOST_ROWS or self.rows * columns > MOST_CELLS:
            refuse("limit passed at 16")
        if heads > MOST_HEADS:
            refuse("limit passed at 24")
        if len(data) < 32 + heads:
            refuse("size %d, not %d", len(data), 32 + heads)
        self.at, self.end, self.columns = 32, 32 + heads, []
        for place in range(columns):
            self.columns.append(self.column(place + 1))
        if self.at != self.end:
            refuse("bad head at %d", self.at)
        at = self.end
        for column in self.columns:
            at = column.place(at, self.rows)
        if len(data) != at:
            refuse("size %d, not %d", len(data), at)

    def need(self, size, at=None):
        """A field of so many bytes that does not stand within the heads is bad at its place."""
        at = self.at if at is None else at
        if at + size > self.end:
            refuse("bad head at %d", at)

    def check(self, holds, at):
        if not holds:
            refuse("bad head at %d", at)

    def column(self, place):
        start = self.at
        self.need(1, start)
        kind = self.data[start]
        text, date = kind % 128 == 3, kind % 128 == 2
        self.check(kind % 128 <= 3 and (kind < 128 or self.version == 2), start)
        self.need(1, start + 1)
        scale = self.data[start + 1]
        self.check(scale <= (9 if kind % 128 == 1 else 0), start + 1)
        self.need(1, start + 3)
        length = self.data[start + 3]
        self.check(1 <= length <= 64, start + 3)
        self.need(8, start + 4)
        base = signed(self.data, start + 4)
        self.check(not date or FIRST_DAY <= base <= LAST_DAY, start + 4)
        self.check(not text or base >= 0, start + 4)
        self.need(8, start + 12)
        top = signed(self.data, start + 12)
        self.check(base <= top and (not date or top <= LAST_DAY), start + 12)
        self.need(4, start + 20)
        count = number(self.data, start + 20, 4)
        if count > MOST_NAMES:
            refuse("limit passed at %d", start + 20)
        empty = text and count == 0
        self.check(text or count == 0, start + 20)
        self.check(not text or (top < count or empty and base == top == 0), start + 20)
        self.check(not empty or self.rows == 0 or kind >= 128, start + 20)
        self.check(self.data[start + 2] == (top - base).bit_length(), start + 2)
        self.at = start + 24
        self.need(length)
        name = self.data[self.at:self.at + length]
        self.check(all(0x20 <= b <= 0x7E and b not in b',:"' for b in name), self.at)
        self.check(name.decode("latin-1") not in [c.name for c in self.columns], self.at)
        self.at += length
        names = [self.text(i) for i in range(count)] if text else []
        return FileColumn(place, name.decode(), kind, scale, base, top, names)

    def text(self, i):
        self.need(1)
        size = self.data[self.at]
        self.need(1 + size)
        raw = self.data[self.at + 1:self.at + 1 + size]
        try:
            found = raw.decode()
        except UnicodeDecodeError:
            refuse("bad head at %d", self.at)
        self.check(i == 0 or raw > self.before, self.at)
        self.before = raw
        self.at += 1 + size
        return found

    def planes(self):
        return sum(c.planes for c in self.columns)


class FileRounds(reports.Rounds):
    def step(self, column):
        column.take(self.data)


class FileSession(reports.Session):
    def step(self, column):
        column.take(self.data)


def info(data):
    reader = Reader(data)
    lines = ["version %d rows %d columns %d" % (reader.version, reader.rows, len(reader.columns))]
    for c in reader.columns:
        mark = "?" if c.nullable else ""
        lines.append("column %d %s %s%s width %d from %s to %s" % (c.number, c.name, c.kind, mark, c.digits, c.text(c.base), c.text(c.top)))
    return "".join(line + "\n" for line in lines), None


def parse(reader, sql, front=""):
    try:
        parsed = reports.Parser(sql, reader.columns).query()
    except KeyError:
        raise Refused("daq: query refused: %sunknown column at 11" % front, 3) from None
    if any(c.kind in ("date", "text") for c in parsed.columns):
        raise Refused("daq: query refused: %skinds differ at 11" % front, 3)
    return parsed


def reported(rounds, data, asked):
    rounds.data, lines = data, []
    try:
        rounds.report(asked, lines)
    except Refused as refused:
        raise Refused(refused.line, 5, "".join(line + "\n" for line in lines)) from None
    return "".join(line + "\n" for line in lines), None


def query(data, sql, words):
    reader = Reader(data)
    rounds = FileRounds(reader.columns, reader.rows, parse(reader, sql), reports.parse_options(words))
    return reported(rounds, data, sql)


def session(data, sqls, words):
    reader = Reader(data)
    queries = [parse(reader, sql, "line %d: " % line) for line, sql in enumerate(sqls, 1)]
    return reported(FileSession(reader.columns, reader.rows, queries, reports.parse_options(words)), data, sqls)


def upgrade(data):
    reader = Reader(data)
    for column in reader.columns:
        for _ in range(column.planes):
            column.take(data)
    made = data[:8] + (2).to_bytes(4, "little") + data[12:]
    return "upgraded %d rows, %d columns, %d planes, %d bytes\n" % (reader.rows, len(reader.columns), reader.planes(), len(made)), made


def changes(data):
    for at in range(len(data)):
        yield "cut to %d bytes" % at, data[:at]
        for new in sorted({0, 255} | {data[at] ^ 1 << bit for bit in range(8)}):
            yield "byte %d set to %02x" % (at, new), data[:at] + bytes([new]) + data[at + 1:]
    yield "one byte more", data + b"\0"


class Trial:
    def __init__(self, daq, folder):
        self.daq, self.count, self.wrong = daq, 0, 0
        self.path, self.made, self.script = (os.path.join(folder, name) for name in ("t.daq", "made.daq", "t.sql"))

    def tried(self, what, words, wanted):
        """Whether the command answers as the reader does."""
        if os.path.exists(self.made):
            os.remove(self.made)
        told = subprocess.run([self.daq] + words, capture_output=True)
        try:
            (out, made), line, status = wanted(), b"", 0
        except Refused as refused:
            out, made, line, status = refused.written, None, (refused.line + "\n").encode(), refused.status
        left = None
        if os.path.exists(self.made):
            with open(self.made, "rb") as file:
                left = file.read()
        self.count += 1
        if (told.returncode, told.stdout, told.stderr, left) != (status, out.encode(), line, made):
            self.wrong += 1
            print("differs: %s, %s\n  wanted %d %r %r\n  told %d %r %r" % (what, words[0], status, out, line, told.returncode, told.stdout, told.stderr))

    def damage(self, data, sql):
        sqls, words = [sql, "SELECT MIN(price), COUNT(*) FROM t"], ["--policy", "order"]
        with open(self.script, "w") as file:
            file.write("\n".join(sqls))
        for what, changed in changes(data):
            with open(self.path, "wb") as file:
                file.write(changed)
            self.tried(what, ["info", self.path], lambda: info(changed))
            self.tried(what, ["query", self.path, sql, *words], lambda: query(changed, sql, words))
            self.tried(what, ["session", self.path, self.script, *words], lambda: session(changed, sqls, words))
            self.tried(what, ["upgrade", self.path, self.made], lambda: upgrade(changed))


SHOP = ("price,qty,city\n5,2,Oslo\n9,1,Rome\n12,4,Oslo\n3,3,Bern\n", "price:int,qty:int,city:text")
GAPS = ("price,cost,day,city\n5,1.50,2024-02-28,Oslo\n,-0.25,,Rome\n12,,2024-02-29,\n", "price:int?,cost:dec2?,day:date?,city:text?")


def main(words):
    with tempfile.TemporaryDirectory() as folder:
        trial = Trial(words[0], folder)
        files = []
        for path in words[1:]:
            with open(path, "rb") as file:
                files.append(file.read())
        for text, schema in [] if files else [SHOP, GAPS]:
            source = os.path.join(folder, "t.csv")
            with open(source, "w") as file:
                file.write(text)
            subprocess.run([words[0], "load", source, trial.path, schema], check=True, capture_output=True)
            with open(trial.path, "rb") as file:
                files.append(file.read())
        if len(words) == 1:
            # the first file in version 1 too, which has no nullable column
            files.append(files[0][:8] + b"\1" + files[0][9:])
        for data in files:
            trial.damage(data, "SELECT SUM(price) FROM t")
    print("%d answers compared, %d differ" % (trial.count, trial.wrong))
    return 1 if trial.wrong else 0


if __name__ == "__main__":
    sys.exit(main(sys.argv[1:]))
