"""Reports: what is read of each form, and that what is no report is refused."""
import datetime
import re
import unittest
from decimal import Decimal
from fractions import Fraction

from support import GROUPS, SUM, TOP_OF_PARTS, TOP_ROWS, daq, kept_reports, read

from daq.report import KeyRange, RankedRow, asks_for_rows, parse_query
from daq.values import Interval

SHARPER = """query SELECT SUM(price), AVG(qty) FROM t WHERE price < 7
round 0
1 [3, 48] or null
1 clip [3, 24] or null
2 [3/4, 48/1] or null
2 exact [12/4, 48/4] or null
2 low takes 4 of 4 at most 3
2 high takes 0 of 4
end rounds
"""
SESSION = """queries 2
1 SELECT SUM(price) FROM t
2 SELECT MIN(city) FROM t WHERE "it's" = 'a
end narrow'
at 0 query 1
round 0
1 [12, 48]
at 0 query 2
round 0
1 ['a
round 1 x 1/4', 'b''c']
at 1 query 1
round 1 price 1/4
1 [20, 42]
at 2 query 2
round 1 it's 1/2
1 'b''c' or null
end rounds
"""


def shown(value):
    if value is None:
        return "-"
    if isinstance(value, str) and not re.fullmatch(r"0000-\d\d-\d\d", value):
        return "'%s'" % value.replace("'", "''")
    return format(value, "f") if isinstance(value, Decimal) else str(value)


def interval_line(interval):
    if interval.null == "surely":
        return "null"
    low, high = shown(interval.low), shown(interval.high)
    # The averages of a report are not reduced, so one number may stand twice.
    one = low == high
    return (low if one else "[%s, %s]" % (low, high)) + (" or null" if interval.maybe_null else "")


def key_line(key):
    if isinstance(key, KeyRange):
        ends = shown(key.low) if key.low == key.high else "%s..%s" % (shown(key.low), shown(key.high))
        return ends + (" or null" if key.maybe_null else "")
    return "null" if key is None else shown(key)


def takes_lines(number, item):
    for end, side, takes in (("low", "most", item.low_takes), ("high", "least", item.high_takes)):
        if takes:
            limit = "" if takes.limit is None else " at %s %s" % (side, shown(takes.limit))
            yield "%d %s takes %d of %d%s" % (number, end, takes.taken, takes.rows, limit)


def item_lines(items):
    for number, item in enumerate(items, 1):
        yield "%d %s" % (number, interval_line(item.interval))
        for word, interval in (("clip", item.clip), ("exact", item.exact)):
            if interval:
                yield "%d %s %s" % (number, word, interval_line(interval))
        yield from takes_lines(number, item)


def block_lines(report, block):
    if report.is_session:
        yield "at %d query %d" % (block.planes_read, block.number)
    yield "round %d" % block.round + ("" if block.column is None else " %s %d/%d" % (block.column, block.plane, block.planes))
    if block.ranking:
        possible = "" if block.ranking.possible is None else " possible %d" % block.ranking.possible
        yield "top %d certain %d%s" % (block.ranking.limit, block.ranking.certain, possible)
        for row in block.ranking.rows:
            yield "row %s%d %s %s" % (row.part and row.part + " ", row.row, row.state, interval_line(row.interval))
    for group in block.groups:
        if group.keys:
            yield "group %s %s" % (", ".join(map(key_line, group.keys)), group.state)
        yield from item_lines(group.items)


def printed(report, blocks):
    """The report as it is printed, but for averages, which are reduced."""
    if report.is_session:
        yield "queries %d" % len(report.queries)
        yield from ("%d %s" % (number, query.text) for number, query in enumerate(report.queries, 1))
    else:
        yield "query " + report.queries[0].text
    if report.parts:
        yield "parts %d" % report.parts
    for block in blocks:
        yield from block_lines(report, block)
    yield "end " + report.end


def reduced(text):
    """A report with its averages as reduced fractions, and one for two that are equal."""
    text = re.sub(r"(?<![\w'])(-?\d+(?:\.\d+)?)/(\d+)(?=[\],\s]|\Z)", lambda found: str(Fraction(found[1]) / int(found[2])), text)
    return re.sub(r"\[(\S+), \1\]", r"\1", text)


class Reports(unittest.TestCase):
    def test_each_kept_report_is_read_and_printed_alike(self):
        count = 0
        for place, text in kept_reports():
            if not re.search(r"^end [a-z]+\n\Z", text, re.MULTILINE):
                with self.subTest(place), self.assertRaises(daq.CutError):
                    read(text)
                continue
            with self.subTest(place):
                report, blocks = read(text)
                wanted = "\n".join(reduced(line) if line[:1].isdigit() else line for line in text.split("\n"))
                self.assertEqual("".join(line + "\n" for line in printed(report, blocks)), wanted)
                count += 1
        self.assertGreater(count, 200)

    def test_values(self):
        self.assertEqual(Interval.parse("[3, 12] or null"), Interval(3, 12, "maybe"))
        self.assertEqual(Interval.parse("29"), Interval(29, 29))
        self.assertEqual(Interval.parse("null"), Interval(None, None, "surely"))
        self.assertEqual(Interval.parse("- or null"), Interval(None, None, "maybe"))
        self.assertEqual(Interval.parse("[-0.05, 1.50]"), Interval(Decimal("-0.05"), Decimal("1.50")))
        self.assertEqual(Interval.parse("[12.50/4, 48.00/4]"), Interval(Fraction("3.125"), Fraction(12)))
        self.assertEqual(Interval.parse("2024-02-29").low, datetime.date(2024, 2, 29))
        self.assertEqual(Interval.parse("['O''Hara', 'a, b] or null']"), Interval("O'Hara", "a, b] or null"))

    def test_the_year_0000_stays_a_text(self):
        self.assertEqual(Interval.parse("[0000-02-29, 0001-01-01]"), Interval("0000-02-29", datetime.date(1, 1, 1)))

    def test_what_is_no_interval(self):
        for text in ("", "[3]", "[12, 3]", "[3, 12", "[3,12]", "3 or nul", "[3, 12.0]", "['a', 3]", "1/0", "2024-02-30", "0000-02-30",
                     "1e3", "\u0663", "nan", "'a", "-or null", "[1.5, 1.25]", "1/2.5", "03", "+3", "1" * 41, "[-, 'a']"):
            with self.subTest(text), self.assertRaises(ValueError):
                Interval.parse(text)

    def test_groups(self):
        report, blocks = read(GROUPS)
        self.assertEqual(report.queries[0].items, ("SUM(price)", "AVG(qty)"))
        self.assertEqual(blocks[0].groups[0].keys, (KeyRange("Bern", "Rome", False),))
        self.assertEqual([(group.keys, group.state) for group in blocks[1].groups],
                         [((KeyRange("Bern", "Oslo", False),), "possible"), (("Rome",), "present")])
        self.assertEqual((blocks[1].column, blocks[1].plane, blocks[1].planes), ("city", 1, 2))

    def test_sharper_lines(self):
        item = read(SHARPER)[1][0].groups[0].items[1]
        self.assertEqual(item.exact, Interval(Fraction(3), Fraction(12), "maybe"))
        self.assertEqual((item.low_takes.limit, item.high_takes.limit), (3, None))
        self.assertEqual(read(SHARPER)[1][0].groups[0].items[0].clip, Interval(3, 24, "maybe"))

    def test_a_session_with_texts_over_lines(self):
        report, blocks = read(SESSION)
        self.assertEqual([(block.number, block.planes_read) for block in blocks], [(1, 0), (2, 0), (1, 1), (2, 2)])
        self.assertEqual(blocks[1].groups[0].items[0].interval, Interval("a\nround 1 x 1/4", "b'c"))

    def test_queries(self):
        text = """SELECT "a,FROM", SUM((x + y) * 2), MAX("it's") FROM t WHERE v = ' GROUP BY z' GROUP BY "a,FROM", "a,FROM", b"""
        query = parse_query(text)
        self.assertEqual((query.items, query.groups), (("SUM((x + y) * 2)", 'MAX("it\'s")'), ("a,FROM", "b")))
        self.assertEqual(parse_query('SELECT * FROM t ORDER BY "un it" DESC LIMIT 2').order, "un it")

    def test_who_asks_for_rows(self):
        for text in ("SELECT * FROM t ORDER BY price LIMIT 2", "select a from t where c = 'it''s' order\tby a desc limit 2;"):
            self.assertTrue(asks_for_rows(text), text)
        for text in ("SELECT COUNT(*) FROM t", "SELECT COUNT(*) FROM t WHERE c = ' ORDER BY '",
                     'SELECT SUM(by) FROM t WHERE "ORDER BY" = by', 'SELECT SUM(by) FROM t WHERE "order" = by'):
            self.assertFalse(asks_for_rows(text), text)

    def test_blocks_come_with_their_last_line_where_that_is_known(self):
        for text, counts in ((SUM, [3]), (TOP_ROWS, [3]), (TOP_OF_PARTS, [4, 9])):
            for number, count in enumerate(counts):
                blocks = iter(daq.Report(iter(text.split("\n")[:count]), sharper=False, listed=False))
                self.assertEqual([next(blocks).round for _ in range(number + 1)], [*range(number + 1)])


class FirstRowsOfParts(unittest.TestCase):
    FRONT = "query SELECT * FROM t ORDER BY w LIMIT 99\nparts 9\nround 0\ntop 99 certain %d possible %d\n"

    def rows(self, *lines):
        """The rows of a block with these lines."""
        certain = sum(line.endswith(" certain 5") for line in lines)
        front = self.FRONT % (certain, len(lines) - certain)
        return read(front + "".join(line + "\n" for line in lines) + "end rounds\n")[1][0].ranking.rows

    def test_rows_and_a_block_that_judges_none(self):
        report, blocks = read(TOP_OF_PARTS)
        self.assertEqual((report.parts, report.end, [block.column for block in blocks]), (2, "narrow", [None] * 3))
        self.assertEqual(blocks[0].ranking, daq.Ranking(1, 0, None, ()))
        self.assertEqual(blocks[1].ranking.rows[2], RankedRow(2, "possible", Interval(3, 12, "maybe"), "b"))
        self.assertEqual(blocks[2].ranking, daq.Ranking(1, 1, 0, (RankedRow(1, "certain", Interval(11, 12), "b"),)))
        self.assertEqual([block.key_names for block in [*blocks, read(TOP_ROWS)[1][0]]], [("part", "row")] * 3 + [("row",)])

    def test_tags_of_any_kind(self):
        names = ["10 3", "2 1", "2 1 7", "2 certain 4", "certain 5 possible 6", "it's 2", "it's 'in 1", "row 1", "x\x7f 1",
                 "\udc80 1", "\xa0 1", "\u3000\x85 1", "\U0001f600 1", "\udcff 2"]
        rows = self.rows(*("row %s certain 5" % name for name in names))
        shown = [name.replace("\udc80", "\\x80").replace("\udcff", "\\xff") for name in names]
        self.assertEqual(["%s %d" % (row.part, row.row) for row in rows], shown)

    def test_keys_that_look_like_rows(self):
        keys = ["[' 1 possible ''', 'x 4 certain 5']", "'x 3 certain ''y'''", "[' 4 certain 5', ' 4 certain 5 '] or null"]
        rows = self.rows(*("row a %d possible %s" % row for row in enumerate(keys, 1)))
        self.assertEqual([(row.part, interval_line(row.interval)) for row in rows], [("a", key) for key in keys])

    def test_other_rows_are_refused(self):
        for lines in (["row 1 possible 5"], ["row a 0 possible 5"], ["row a 01 possible 5"], ["row  1 possible 5"], ["row a  1 possible 5"],
                      ["row a\t1 possible 5"], ["row a 1 present 5"], ["row a 1 possible 'x"], ["row a 1 possible '\udcff'"],
                      ["row a 2 possible 5", "row a 2 possible 5"], ["row a 2 possible 5", "row a 1 possible 5"],
                      ["row b 1 possible 5", "row a 2 possible 5"], ["row a b 1 possible 5", "row a 2 possible 5"],
                      ["row a! 1 possible 5", "row a b 1 possible 5"], ["row \ufffd 1 possible 5", "row \udc80 1 possible 5"]):
            with self.subTest(lines), self.assertRaises(daq.ReportError):
                self.rows(*lines)

    def test_rows_have_to_be_as_many_as_told(self):
        for old, new in (("parts 2\n", ""), ("certain 0\n", "certain 1\n"), ("certain 0\n", "certain 0 possible 1\n"),
                         ("possible 3", "possible 4"), (" possible 3", ""), ("possible 0", "possible 1"),
                         ("possible [5, 9]", "certain [5, 9]")):
            with self.subTest(new), self.assertRaises(daq.ReportError):
                read(TOP_OF_PARTS.replace(old, new, 1))

    def test_a_part_with_too_many_rows_to_list(self):
        blocks = read(TOP_ROWS.replace("top 2 certain 0 possible 4", "top 2 certain 0"), listed=False)[1]
        self.assertEqual([block.ranking.possible for block in blocks], [None, 3, 0])


class NoReports(unittest.TestCase):
    def test_each_cut_is_refused(self):
        for text in (SUM, GROUPS, TOP_ROWS, TOP_OF_PARTS, SHARPER, SESSION):
            data = text.encode()
            for size in range(len(data)):
                with self.subTest(size=size), self.assertRaises(daq.ReportError):
                    read(data[:size].decode())

    def test_each_line_less_or_twice_is_refused(self):
        for text in (SUM, GROUPS, TOP_OF_PARTS, SHARPER, SESSION):
            lines = text.splitlines(keepends=True)
            for number, line in enumerate(lines):
                for changed in (lines[:number] + lines[number + 1 :], lines[: number + 1] + lines[number:]):
                    # An item may do without its clip line.
                    if " clip " not in line or len(changed) > len(lines):
                        with self.subTest(line=line, lines=len(changed)), self.assertRaises(daq.ReportError):
                            read("".join(changed))

    def test_other_lines_are_refused(self):
        for line in ("", " ", "round", "round 7 price 1/4", "round 1 price 1/4 ", "round 1 price 2/4", "round 1 price 1/0", "2 [20, 42]",
                     "1 [20, 42] or nul", "1 [20,42]", "1  [20, 42]", "daq: read fault", "end", "end narrow", "top 1 certain 0 possible 2",
                     "group 'a' present", "at 1 query 1", "row 1 certain 3", "1 [42, 20]", "\ud800", "1 'open", "1 low takes 3 of 2"):
            with self.subTest(line), self.assertRaises(daq.ReportError):
                read(SUM.replace("1 [20, 42]\n", line.encode("utf-8", "surrogatepass").decode("utf-8", "surrogateescape") + "\n"))

    def test_lines_behind_the_end_are_refused(self):
        for line in ("\n", "end narrow\n", "round 5 price 5/5\n1 29\nend narrow\n"):
            with self.subTest(line), self.assertRaises(daq.ReportError):
                read(SUM + line)

    def test_a_text_without_end_is_not_read_without_end(self):
        with self.assertRaisesRegex(daq.ReportError, "too long"):
            read(SUM.replace("1 29\n", "1 'a\n" + "b\n" * 2**20))

    def test_rows_have_to_be_as_many_as_told(self):
        for old, new in (("certain 2", "certain 1"), ("row 2", "row 4"), ("row 3 certain [11, 12]\nend", "end"), ("possible 0", "x")):
            with self.subTest(new), self.assertRaises(daq.ReportError):
                read(TOP_ROWS.replace(old, new))


if __name__ == "__main__":
    unittest.main()
