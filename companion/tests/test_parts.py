"""Tables in many parts: their columns, their answers, and how their processes end."""
import contextlib
import io
import json
import os
import time
import unittest
from fractions import Fraction

from support import TOP, FakeTest, daq, read
from test_program import is_running

from daq import view

INFO = "version 2 rows 2 columns 2\ncolumn 1 price int width %d from %d to %d\ncolumn 2 city text width 2 from 'Bern' to 'Rome'\n"
FIRST = """query SELECT SUM(price) FROM t
round 0
1 [10, 18]
round 1 price 1/3
1 [14, 17]
round 2 price 2/3
1 [14, 15]
round 3 price 3/3
1 14
end narrow
"""
SECOND = """query SELECT SUM(price) FROM t
round 0
1 [6, 24]
round 1 price 1/4
1 [14, 22]
round 2 price 2/4
1 [14, 18]
round 3 price 3/4
1 [14, 16]
round 4 price 4/4
1 15
end narrow
"""
SQL = "SELECT SUM(price) FROM t"
FIRST_ROWS = """query SELECT * FROM t ORDER BY price LIMIT 1
round 0
top 1 certain 0 possible 2
row 1 possible [%d, %d]
row 2 possible [%d, %d]
round 1 price 1/3
top 1 certain 1 possible 0
row 2 certain [%d, %d]
end narrow
"""
ROWS_SQL = "SELECT * FROM t ORDER BY price LIMIT 1"


class Parts(FakeTest):
    def setUp(self):
        super().setUp()
        for name in ("a.daq", "b.daq"):
            open(self.path(name), "w").close()

    def play_parts(self, first=None, second=None, **combine):
        """Sets the scene of two parts: what their queries print, and more of it."""
        a, b = self.path("a.daq"), self.path("b.daq")
        queries = {
            "query " + a: dict({"out": FIRST, "log": self.path("log")}, **(first or {})),
            "query " + b: dict({"out": SECOND, "log": self.path("log.b")}, **(second or {}))}
        self.scene(**{"info " + a: {"out": INFO % (3, 5, 9)}, "info " + b: {"out": INFO % (4, 3, 12)}, **queries,
                      "combine": dict({"by": str(TOP / "tests"), "log": self.path("log.combine")}, **combine)})
        return daq.open(self.path("*.daq"))

    def processes(self):
        """What the processes logged; one that was ended before it had, has no whole log."""
        for name in ("log", "log.b", "log.combine"):
            path = self.path(name)
            if os.path.exists(path):
                with open(path, encoding="utf-8") as file, contextlib.suppress(json.JSONDecodeError):
                    yield json.load(file)

    def assert_all_ended(self):
        self.assertEqual([told["words"] for told in self.processes() if is_running(told["pid"])], [])

    def test_the_columns_of_all_parts(self):
        table = self.play_parts()
        self.assertEqual((table.rows, table.plane_bytes), (4, 16))
        self.assertEqual([(column.name, column.type, column.planes, column.least, column.greatest) for column in table.columns],
                         [("price", "int", 4, 3, 12), ("city", "text", 2, "Bern", "Rome")])
        self.assertIn("2 parts, 4 rows", repr(table))

    def test_an_answer(self):
        for table in (self.play_parts(), daq.open([self.path("a.daq"), self.path("b.daq")])):
            answer = table.sql(SQL)
            self.assertEqual((answer.end, [row.low for row in answer.history()]), ("narrow", [16, 28, 28, 28, 29]))
            self.assertEqual((answer.rows[0].column, answer.block.parts, answer.block.planes_read), (None, 2, 4))
            self.assertIn("at most 4 planes of each of 2 parts read, finished", repr(answer))
            self.assert_all_ended()

    def test_the_words_of_each_process(self):
        self.play_parts().sql(SQL, policy="balanced", rounds=2)
        told = sorted(told["words"] for told in self.processes())
        self.assertEqual(told[0], ["combine", "2", "/dev/stdin", "--rounds", "2"])
        self.assertEqual(told[1:], [["query", self.path(name), SQL, "--policy", "balanced", "--rounds", "2"] for name in ("a.daq", "b.daq")])

    def test_enough_is_enough(self):
        answer = self.play_parts(first={"pause": 0.05}, second={"pause": 0.1}).sql(SQL, within="20%")
        self.assertEqual((answer.end, answer.rows[0].low, answer.rows[0].high), ("within", 28, 33))
        self.assert_all_ended()

    def test_blocks_come_while_the_parts_go_on(self):
        begun, times = time.monotonic(), []
        for _ in self.play_parts(first={"pause": 0.1}, second={"pause": 0.4}).rounds(SQL):
            times.append(time.monotonic() - begun)
        self.assertEqual(len(times), 5)
        self.assertGreater(times[4] - times[0], 0.4)

    def test_leaving_the_loop_ends_all_processes(self):
        for block in self.play_parts(first={"pause": 0.1}, second={"pause": 0.2}).rounds(SQL):
            if block.round == 1:
                break
        self.assert_all_ended()

    def test_a_part_that_fails(self):
        cut = FIRST[: FIRST.index("round 3")]
        for told, status, error in (("daq: query refused: unknown column at 11\n", 3, daq.QueryError),
                                    ("daq: file refused: size 194, not 195\n", 5, daq.FileError), ("daq: no memory\n", 8, daq.ProgramError)):
            table = self.play_parts(first={"out": cut, "err": told, "status": status}, second={"pause": 0.2})
            with self.subTest(told), self.assertRaises(error):
                table.sql(SQL)
            self.assert_all_ended()
        table = self.play_parts(second={"out": cut, "signal": 9})
        with self.assertRaisesRegex(daq.ProgramError, "signal 9"):
            table.sql(SQL)

    def test_reports_that_are_not_combined(self):
        table = self.play_parts(second={"out": SECOND.replace("round 0", "round 1")})
        with self.assertRaisesRegex(daq.ReportError, "no line of a report at this place$"):
            table.sql(SQL)
        self.assert_all_ended()

    def test_texts(self):
        told = "query SELECT MAX(city) FROM t\nround 0\n1 ['%s', '%s']%s\nround 1 city 1/1\n1 '%s'\nend narrow\n"
        table = self.play_parts(*({"out": told % words} for words in (("O''Hara", "Rome", " or null", "O''Hara"), ("Bern", "Oslo", "", "Oslo"))))
        answer = table.sql("SELECT MAX(city) FROM t", within="1%")
        self.assertEqual([(row.low, row.high, row.maybe_null) for row in answer.history()], [("Bern", "Rome", False), ("Oslo", "Oslo", False)])
        self.assert_all_ended()

    def test_texts_that_are_not_combined(self):
        sql = "SELECT MIN(city) FROM t"
        told = {"out": "query %s\nround 0\n1 'Os\nlo'\nend narrow\n" % sql}
        with self.assertRaisesRegex(daq.ReportError, "line .*: no line of a report at this place .MIN and MAX of texts"):
            self.play_parts(told, told).sql(sql)
        self.assert_all_ended()

    def test_first_rows(self):
        table = self.play_parts(first={"out": FIRST_ROWS % (5, 9, 5, 9, 5, 8)}, second={"out": FIRST_ROWS % (3, 12, 3, 12, 3, 4)})
        for options in ({}, {"list": True}):
            answer = table.sql(ROWS_SQL, within="1%", **options)
            self.assertEqual([told["words"][3:] for told in self.processes()], [["--part", "--keys"], ["--part", "--keys"], []])
            self.assertEqual([(row.round, row.keys, row.state) for row in answer.history()],
                             [(0, ("1", 1), "possible"), (0, ("1", 2), "possible"), (0, ("2", 1), "possible"), (0, ("2", 2), "possible"),
                              (1, ("2", 2), "certain")])
            self.assertTrue(repr(answer).endswith("1 of 1 rows certain, 0 possible; at most 1 plane of each of 2 parts read, finished"))
            self.assert_all_ended()

    def test_of_equal_keys_the_row_of_the_earlier_part_comes_first(self):
        shown = (FIRST_ROWS % (7, 7, 7, 7, 7, 7)).replace("[7, 7]", "7").replace("LIMIT 1", "LIMIT 11").replace("top 1", "top 11")
        self.scene(info={"out": INFO % (3, 5, 9)}, query={"out": shown}, combine={"by": str(TOP / "tests")})
        answer = daq.open(["%d.daq" % number for number in range(12)]).sql(ROWS_SQL + "1", rounds=1)
        self.assertEqual([(row.keys, row.state) for row in answer.rows], [(("%02d" % part, 2), "certain") for part in range(1, 12)])

    def test_parts_that_are_combined_reports(self):
        inner = "parts 2\nround 0\ntop 1 certain 0\nround 1\ntop 1 certain 1 possible 0\nrow 2 9 certain 3\nend narrow\n"
        told = "query %s\n%s" % (ROWS_SQL, inner), FIRST_ROWS % (5, 9, 5, 9, 5, 8)
        answer = self.play_parts(*({"out": text} for text in told)).sql(ROWS_SQL)
        self.assertEqual([block.ranking.possible for block in answer.blocks], [None, 0])
        self.assertEqual([row.keys for row in answer.rows], [("1 2", 9)])

    def test_options(self):
        table = self.play_parts()
        with self.assertRaises(ValueError):
            table.sql(SQL, list=True)
        self.assertEqual(table.sql(SQL, clip=True, exact_avg=True).end, "narrow")
        self.assertEqual(next(self.processes())["words"][-2:], ["--clip", "--exact-avg"])

    def test_a_program_that_does_not_start(self):
        table = self.play_parts()
        table.program = self.path("none")
        with self.assertRaises(daq.ProgramError):
            table.sql(SQL)

    def test_files_that_are_no_parts(self):
        table = self.play_parts()
        self.assertEqual(len(table.tables), 2)
        with self.assertRaises(daq.FileError):
            daq.open(self.path("*.nosuch"))
        with self.assertRaises(ValueError):
            daq.open([])
        self.scene(**{"info " + self.path("a.daq"): {"out": INFO % (3, 5, 9)},
                      "info " + self.path("b.daq"): {"out": (INFO % (4, 3, 12)).replace("price", "cost")}})
        with self.assertRaisesRegex(daq.FileError, "one schema"):
            daq.open(self.path("*.daq"))

    def test_the_view(self):
        self.play_parts()
        with contextlib.redirect_stdout(io.StringIO()) as told:
            self.assertEqual(view.main(["csv", self.path("*.daq"), SQL, "--all"]), 0)
        self.assertEqual(told.getvalue().splitlines()[-1], "4,,0,0,64,SUM(price),29,29,29,0.000000,false,")


class CombinedReports(unittest.TestCase):
    COMBINED = "query SELECT SUM(price) FROM t\nparts 2\nround 0\n1 [16, 42]\nround 1\n1 29\nend narrow\n"

    def test_a_combined_report(self):
        report, blocks = read(self.COMBINED)
        self.assertEqual((report.parts, report.end, [block.column for block in blocks]), (2, "narrow", [None, None]))

    def test_the_lines_behind(self):
        report, blocks = read("query SELECT SUM(b), AVG(b) FROM t WHERE b > 4\nparts 2\nround 0\n1 [16, 42]\n1 clip [20, 42]\n"
                              "2 [16/3, 42/4]\n2 exact [20/3, 41/4]\nend rounds\n")
        first, second = blocks[0].groups[0].items
        self.assertEqual((first.clip.low, first.clip.high), (20, 42))
        self.assertEqual((second.exact.low, second.exact.high, second.low_takes), (Fraction(20, 3), Fraction(41, 4), None))

    def test_lines_of_groups_may_meet_in_a_column(self):
        lines = ["group %s possible\n1 [0, 2]\n" % keys for keys in ("null, 5..9", "1..3, 0.5", "2..4 or null, 1.5", "3..4, 0.5")]
        front = "query SELECT COUNT(*) FROM t GROUP BY a, b\nparts 2\nround 0\n"
        for order, is_right in (((0, 1, 3), True), ((2, 1, 3), True), ((1, 0), False), ((3, 1), False), ((1, 1), False), ((1, 2), False)):
            text = front + "".join(lines[place] for place in order) + "end rounds\n"
            with self.subTest(order):
                if is_right:
                    self.assertEqual(len(read(text)[1][0].groups), len(order))
                else:
                    self.assertRaises(daq.ReportError, read, text)
                self.assertRaises(daq.ReportError, read, text.replace("parts 2\n", ""))

    def test_other_lines_are_refused(self):
        for old, new in (("parts 2", "parts"), ("parts 2", "parts 02"), ("round 1", "round 1 price 1/4"), ("round 1", "parts 2")):
            with self.subTest(new), self.assertRaises(daq.ReportError):
                read(self.COMBINED.replace(old, new))


if __name__ == "__main__":
    unittest.main()
