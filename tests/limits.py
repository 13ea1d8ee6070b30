#!/usr/bin/env python3
"""Runs at the limits and one past them: what they answer, how long they take, and their peak memory. Needs GNU time, and 4 GB of disk and of memory.

limits.py DAQ [WORD]..   (the parts whose names hold a WORD)
"""
import os
import resource
import sys
import time

from trials import Trials

ROWS, BLOCK = 1 << 24, 1 << 16


class Limits(Trials):
    def measured(self, what, words, status, line=b"", ends=b"", begins=b""):
        """Runs a command, which is to end so, and prints how long it took and the most memory that it held."""
        begun, usage = time.time(), self.path("usage")
        told = self.run(words, ["/usr/bin/time", "-q", "-f", "%M %U %S", "-o", usage])
        peak, user, system = map(float, self.get("usage").split())
        good = told.status == status and told.err == line and told.out.endswith(ends) and told.out.startswith(begins)
        self.check(what, told, good, (status, line, begins, ends))
        print("| %s | %d | %.1f | %.1f | %d |" % (what, told.status, time.time() - begun, user + system, peak / 1024), flush=True)

    def table(self, name, header, lines, times, more=b""):
        """A CSV of these lines so often, and then some bytes."""
        block = "".join(lines).encode()
        with open(self.path(name), "wb") as file:
            file.write(header.encode() + b"\n")
            for _ in range(times):
                file.write(block)
            file.write(more)
        return self.path(name)


def columns(count, kind):
    names = ["c%d" % (c + 1) for c in range(count)]
    return ",".join(names), ",".join("%s:%s" % (name, kind) for name in names)


def rows(limits):
    """2^24 rows of 8 columns: a CSV of 2^30 bytes, its file, and questions to both."""
    table = [[(r * (2 * c + 3) + c) % (900000 + c) for c in range(8)] for r in range(BLOCK)]
    header, schema = columns(8, "int")
    lines = [",".join(map(str, row)) + "\n" for row in table]
    csv = limits.table("rows.csv", header, lines, ROWS // BLOCK)
    size = os.path.getsize(csv)
    assert size < 1 << 30
    with open(csv, "ab") as file:
        file.write(b"\n" * ((1 << 30) - size))
    planes = sum((max(c) - min(c)).bit_length() for c in zip(*table))
    data = 32 + sum(24 + 2 for _ in range(8)) + planes * ROWS // 8
    file, again = limits.path("rows.daq"), limits.path("again.daq")
    counts = b"%d rows, 8 columns, %d planes, %d bytes\n" % (ROWS, planes, data)
    limits.measured("load 2^24 rows of 8 columns, 2^30 bytes of CSV", ["load", csv, file, schema], 0, ends=b"loaded " + counts)
    limits.measured("info of them", ["info", file], 0, begins=b"version 2 rows 16777216 columns 8\n")
    some = [row for row in table if row[1] < 500000]
    sums = [len(some) * 256, 256 * sum(r[0] for r in some), min(r[2] for r in some), max(r[3] for r in some)]
    ends = "".join("%d %d\n" % (i + 1, v) for i, v in enumerate(sums)).encode() + b"end narrow\n"
    sql = "SELECT COUNT(*), SUM(c1), MIN(c3), MAX(c4) FROM t WHERE c2 < 500000"
    limits.measured("query 4 items with a condition, all planes", ["query", file, sql], 0, ends=ends)
    limits.measured("the same by ask", ["ask", csv, schema, sql], 0, ends=ends)
    eight = "SELECT " + ", ".join("SUM(c%d)" % c for c in range(1, 9)) + " FROM t"
    ends = "".join("%d %d\n" % (c + 1, 256 * sum(r[c] for r in table)) for c in range(8)).encode() + b"end narrow\n"
    limits.measured("query 8 sums over 8 columns", ["query", file, eight], 0, ends=ends)
    lines = ["SELECT SUM(c%d) FROM t\n" % c for c in range(1, 9)]
    limits.measured("session of these sums, 2^27 cells", ["session", file, limits.put("8.sql", "".join(lines))], 0, begins=b"queries 8\n", ends=b"end narrow\n")
    more = limits.put("9.sql", "".join(lines + lines[:1]))
    limits.measured("a session of more cells", ["session", file, more], 3, b"daq: query refused: 150994944 cells in the session\n")
    limits.measured("query LIMIT 1,000 with --list", ["query", file, "SELECT * FROM t ORDER BY c1 DESC LIMIT 1000", "--list"], 0, ends=b"end narrow\n")
    limits.measured("upgrade of them", ["upgrade", file, again], 0, ends=b"upgraded " + counts)
    same = os.system("cmp -s %s %s" % (file, again)) == 0
    limits.check("the upgraded file", same, same)
    for path in (file, again):
        os.remove(path)
    with open(csv, "ab") as file:
        file.write(b"\n")
    long = b"daq: table refused: longer than 1073741824 bytes\n"
    limits.measured("a byte more", ["load", csv, again, schema], 4, long)
    os.remove(csv)


def cells(limits):
    """2^27 cells of 64 columns, and a row more; a row more than 2^24; 65 columns."""
    header, schema = columns(64, "int")
    line = ",".join("01"[c % 2] for c in range(64)) + "\n"
    csv, file = limits.table("cells.csv", header, [line] * 1024, 2048), limits.path("cells.daq")
    limits.measured("load 2^21 rows of 64 columns", ["load", csv, file, schema], 0, ends=b"loaded 2097152 rows, 64 columns, 0 planes, 1751 bytes\n")
    with open(csv, "ab") as more:
        more.write(line.encode())
    limits.measured("a row more", ["load", csv, file, schema], 4, b"daq: table refused: 134217792 cells\n")
    os.remove(csv)
    csv = limits.table("long.csv", "n", ["1\n"] * BLOCK, ROWS // BLOCK, b"1\n")
    limits.measured("a row more than 2^24", ["load", csv, file, "n:int"], 4, b"daq: table refused: more than 16777216 rows\n")
    os.remove(csv)
    limits.measured("65 columns", ["load", "none", file, columns(65, "int")[1]], 4, b"daq: table refused: 65 schema items\n")


def names(limits):
    """65,536 texts of 255 bytes in a column, in 63 columns, and one more."""
    texts = ["%05d" % n + "x" * 250 for n in range(65537)]
    file = limits.path("names.daq")
    csv = limits.table("names.csv", "c1", [t + "\n" for t in texts[:65536]], 1)
    limits.measured("load 65,536 texts of 255 bytes", ["load", csv, file, "c1:text"], 0, begins=b"loaded 65536 rows, 1 columns, 16 planes, ")
    ends = ("1 '%s'\n2 '%s'\nend narrow\n" % (texts[0], texts[65535])).encode()
    limits.measured("query their ends", ["query", file, "SELECT MIN(c1), MAX(c1) FROM t"], 0, ends=ends)
    limits.measured("query each of them", ["query", file, "SELECT c1, COUNT(*) FROM t GROUP BY c1"], 0, ends=("group '%s' present\n1 1\nend narrow\n" % texts[65535]).encode())
    csv = limits.table("names.csv", "c1", [t + "\n" for t in texts], 1)
    limits.measured("a text more", ["load", csv, file, "c1:text"], 4, b"daq: table refused: column 1 has too many names\n")
    header, schema = columns(63, "text")
    csv = limits.table("names.csv", header, [",".join([t] * 63) + "\n" for t in texts[:65536]], 1)
    limits.measured("load 63 columns of 65,536 texts of 255 bytes", ["load", csv, file, schema], 0, begins=b"loaded 65536 rows, 63 columns, 1008 planes, ")
    limits.measured("info of them", ["info", file], 0, begins=b"version 2 rows 65536 columns 63\n")
    os.remove(csv)
    os.remove(file)


def digits(limits):
    """64 nullable columns of 64 binary digits."""
    low, high = -1 << 63, (1 << 63) - 1
    header, schema = columns(64, "int?")
    lines = [",".join(["%d" % low] * 64) + "\n", ",".join([""] * 64) + "\n", ",".join(["%d" % high] * 64) + "\n", ",".join(["0"] * 64) + "\n"]
    csv, file = limits.table("digits.csv", header, lines, 50000), limits.path("digits.daq")
    limits.measured("load 64 columns of 64 digits with nulls", ["load", csv, file, schema], 0, begins=b"loaded 200000 rows, 64 columns, 4160 planes, ")
    items = ", ".join("SUM(c%d)" % c for c in range(1, 17))
    ends = "".join("%d %d\n" % (i + 1, -50000) for i in range(16)).encode() + b"end narrow\n"
    limits.measured("query 16 sums over 16 of them", ["query", file, "SELECT %s FROM t" % items], 0, ends=ends)
    limits.measured("17 items", ["query", file, "SELECT %s, COUNT(*) FROM t" % items], 3, b"daq: query refused: more than 16 aggregates\n")
    seventeen = "SELECT COUNT(*) FROM t WHERE " + " AND ".join("c%d = 1" % c for c in range(1, 18))
    limits.measured("17 columns", ["query", file, seventeen], 3, b"daq: query refused: more than 16 columns\n")
    os.remove(csv)
    os.remove(file)


def nested(depth, size):
    """A query of so many bytes, nested so deep, whose condition is that of its first comparison."""
    front, back = "SELECT COUNT(*), SUM(b) FROM t WHERE " + "(" * depth + "a < 0" + ")" * depth, ""
    while len(front) + len(back) + 14 <= size:
        back += " AND a < 0"
    return front + back + " " * (size - len(front) - len(back))


def chain(front, part, sign, back):
    """A query of at most 4,096 bytes with as many parts as go into it, and their number."""
    count = (4096 - len(front) - len(back) + len(sign)) // (len(part) + len(sign))
    return front + sign.join([part] * count) + back, count


def chains(limits):
    """The longest sums, products and conditions, whose trees are as deep as they are long; also with an eighth of the usual stack."""
    few = ["demo", "1", "2000"]
    for name, stack in (("", None), (", stack of 4 MB", 4 << 20)):
        if stack:
            resource.setrlimit(resource.RLIMIT_STACK, (stack, resource.getrlimit(resource.RLIMIT_STACK)[1]))
        for sign in "+-*":
            sql, count = chain("SELECT SUM(", "1", sign, ") FROM t")
            value = 2000 * {"+": count, "-": 2 - count, "*": 1}[sign]
            limits.measured("%d numbers joined by %s%s" % (count, sign.strip(), name), few + [sql], 0, ends=b"1 %d\nend narrow\n" % value)
        for sign in ("OR ", "AND "):
            sql, count = chain("SELECT COUNT(*) FROM t WHERE ", "a<0", sign, "")
            limits.measured("%d comparisons joined by %s%s" % (count, sign.strip(), name), few + [sql, "--rounds", "3"], 0, ends=b"end rounds\n")
    resource.setrlimit(resource.RLIMIT_STACK, (8 << 20, resource.getrlimit(resource.RLIMIT_STACK)[1]))


def texts(limits):
    """SQL of 4,096 bytes at depth 32; lists of 64 values; groups of 16 digits."""
    few = ["demo", "1", "200000"]
    limits.measured("SQL of 4,096 bytes at depth 32, 200,000 rows", few + [nested(32, 4096)], 0, ends=b"end narrow\n")
    limits.measured("the same, 2^24 rows, 1 round", ["demo", "1", str(ROWS), nested(32, 4096), "--rounds", "1"], 0, ends=b"end rounds\n")
    limits.measured("SQL of 4,097 bytes", few + [nested(32, 4097)], 3, b"daq: query refused: longer than 4096 bytes\n")
    limits.measured("SQL at depth 33", few + [nested(33, 4096)], 3, b"daq: query refused: nested too deep at 69\n")
    listed = "SELECT COUNT(*) FROM t WHERE a IN (%s)"
    limits.measured("a list of 64 values", few + [listed % ", ".join(map(str, range(64)))], 0, ends=b"end narrow\n")
    limits.measured("a list of 65 values", few + [listed % ", ".join(map(str, range(65)))], 3, b"daq: query refused: too many values at %d\n" % (len(listed % ", ".join(map(str, range(65)))) - 3))
    limits.measured("LIMIT 1,001", few + ["SELECT * FROM t ORDER BY a LIMIT 1001"], 3, b"daq: query refused: limit out of range at 33\n")
    sixteen = ", ".join(["SUM(b)", "AVG(b)", "MIN(b)", "MAX(b)", "COUNT(*)", "SUM(a)", "MIN(d)", "MAX(d)"] * 2)
    limits.measured("16 items for each of 12 + 4 digits of groups", few + ["SELECT %s FROM t GROUP BY d, g" % sixteen], 0, ends=b"end narrow\n")
    limits.measured("groups of 17 digits", few + ["SELECT COUNT(*) FROM t GROUP BY b, g"], 3, b"daq: query refused: group of 18 bits\n")


def sessions(limits):
    """A session of sixteen queries with 64 comparisons each over 2^23 rows; a query more; a script of 131,072 bytes, and a byte more."""
    csv, file = limits.table("half.csv", "n", ["%d\n" % (r * 7919 % 1000003) for r in range(BLOCK)], ROWS // BLOCK // 2), limits.path("half.daq")
    limits.measured("load 2^23 rows", ["load", csv, file, "n:int"], 0, begins=b"loaded 8388608 rows, 1 columns, ")
    line = "SELECT COUNT(*) FROM t WHERE %s\n" % " OR ".join("n = %d" % (v * 100) for v in range(64))
    most = limits.put("16.sql", line * 16)
    limits.measured("session of 16 conditions of 64 comparisons, 1 step", ["session", file, most, "--rounds", "1"], 0, begins=b"queries 16\n", ends=b"end rounds\n")
    limits.measured("17 queries", ["session", file, limits.put("17.sql", line * 17)], 3, b"daq: query refused: 17 queries\n")
    full, long = limits.put("full.sql", line.ljust(131072)), limits.put("long.sql", line.ljust(131073))
    limits.measured("a script of 131,072 bytes", ["session", file, full, "--rounds", "0"], 0, begins=b"queries 1\n", ends=b"end rounds\n")
    limits.measured("a byte more", ["session", file, long], 3, b"daq: query refused: script longer than 131072 bytes\n")
    os.remove(csv)
    os.remove(file)


PARTS = (chains, texts, digits, names, cells, sessions, rows)


def main(words):
    limits = Limits(words[0])
    for part in PARTS:
        if len(words) == 1 or any(word in part.__name__ for word in words[1:]):
            part(limits)
    limits.end("runs at the limits")


if __name__ == "__main__":
    main(sys.argv[1:])
