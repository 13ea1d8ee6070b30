"""Results: their rows, and their forms as a table, CSV, JSON and HTML."""
import csv
import io
import json
import sys
import types
import unittest
from decimal import Decimal
from fractions import Fraction

from support import GROUPS, SUM, TOP_OF_PARTS, TOP_ROWS, daq, read

from daq.goal import Goal
from daq.report import KeyRange
from daq.result import as_float, csv_text, json_lines, printable, rows_of, table_text

HOSTILE = """query SELECT state, MIN("<b>") FROM t GROUP BY state
round 0
group 'a,"b
c'..'z\x1b[2J' possible
1 ['=1+1', '\u20ac\u2028'] or null
end rounds
"""


def result(text, end="narrow"):
    report, blocks = read(text)
    return daq.Result(report.queries[0], blocks, end)


class Rows(unittest.TestCase):
    def test_rows_of_a_sum(self):
        answer = result(SUM)
        self.assertEqual([(row.item, row.low, row.high, row.mid, row.relative_width, row.maybe_null, row.state) for row in answer.rows],
                         [("SUM(price)", 29, 29, 29, 0, False, "")])
        self.assertEqual([(row.round, row.column, row.plane, row.planes, row.low, row.high) for row in answer.history()][:2],
                         [(0, None, 0, 0, 12, 48), (1, "price", 1, 4, 20, 42)])

    def test_rows_of_groups_and_of_first_rows(self):
        rows = result(GROUPS).rows
        towns = (KeyRange("Bern", "Oslo", False),)
        self.assertEqual([(row.keys, row.item, row.state) for row in rows],
                         [(towns, "SUM(price)", "possible"), (towns, "AVG(qty)", "possible"),
                          (("Rome",), "SUM(price)", "present"), (("Rome",), "AVG(qty)", "present")])
        rows = result(TOP_ROWS).rows
        self.assertEqual([(row.keys, row.item, row.state) for row in rows], [((2,), "price", "certain"), ((3,), "price", "certain")])
        rows = result(TOP_OF_PARTS).history()
        self.assertEqual([(row.round, row.keys) for row in rows], [(1, ("a", 2)), (1, ("b", 1)), (1, ("b", 2)), (2, ("b", 1))])

    def test_the_widths_of_a_row(self):
        row = result(GROUPS).rows[3]
        self.assertEqual((row.low, row.high, row.width, row.relative_width), (Fraction(1), Fraction(4), 3, 3))


class Forms(unittest.TestCase):
    def test_csv(self):
        titles = "item,low,high,mid,relative_width,maybe_null,state\n"
        self.assertEqual(result(SUM).to_csv(), titles + "SUM(price),29,29,29,0.000000,false,\n")
        lines = list(csv.DictReader(io.StringIO(result(GROUPS).to_csv(history=True))))
        self.assertEqual([[line[name] for name in ("round", "city", "item", "low", "high", "maybe_null")] for line in lines[1:4]],
                         [["0", "Bern..Rome", "AVG(qty)", "0.25", "16.00", "true"], ["1", "Bern..Oslo", "SUM(price)", "3", "36", "true"],
                          ["1", "Bern..Oslo", "AVG(qty)", "0.33", "12.00", "true"]])

    def test_json(self):
        _, blocks = read(GROUPS)
        lines = [json.loads(line, parse_float=Decimal) for line in json_lines(blocks[1].key_names, rows_of(blocks[1]), True).splitlines()]
        self.assertEqual((lines[0]["keys"], lines[2]["keys"]), ({"city": "Bern..Oslo"}, {"city": "Rome"}))
        self.assertEqual([lines[1][name] for name in ("low", "high", "maybe_null", "column")], [Decimal("0.33"), 12, True, "city"])

    def test_a_table(self):
        self.assertEqual(str(result(SUM)), "item        interval  width\nSUM(price)  29        0 %\n4 planes read, finished")
        self.assertEqual(str(result(TOP_ROWS)).splitlines()[-1], "2 of 2 rows certain, 0 possible; 2 planes read, finished")

    def test_first_rows_have_a_column_for_the_part_where_there_are_parts(self):
        titles = "row,item,low,high,mid,relative_width,maybe_null,state\n"
        self.assertEqual(result(TOP_ROWS).to_csv().splitlines(True)[0], titles)
        answer = result(TOP_OF_PARTS)
        self.assertEqual(answer.to_csv(), "part," + titles + "b,1,price,11,12,11.5,0.090910,false,certain\n")
        self.assertEqual(answer.to_csv(history=True).splitlines()[1], "1,,0,0,0,a,2,price,5,9,7,0.800000,false,possible")
        (line,) = json_lines(answer.block.key_names, answer.rows).splitlines()
        self.assertEqual(json.loads(line)["keys"], {"part": "b", "row": 1})
        self.assertEqual(str(answer).splitlines()[:2],
                         ["part  row  item   interval  width  state", "b     1    price  11 .. 12  9.1 %  certain"])
        self.assertIn("<th>part</th><th>row</th>", answer._repr_html_())

    def test_a_block_that_judges_no_row(self):
        report, blocks = read(TOP_OF_PARTS)
        answer = daq.Result(report.queries[0], blocks[:1], "rounds")
        self.assertEqual((answer.rows, answer.to_csv().count("\n")), ([], 1))
        for text in (str(answer), answer._repr_html_()):
            self.assertIn("0 of 1 rows certain, too many possible to judge any; 0 planes read, stopped after so many planes", text)
        self.assertFalse(Goal.of(100).reached(answer.block))

    def test_a_prompt_shows_some_rows(self):
        group = "group %d present\n1 1\n"
        answer = result("query SELECT COUNT(*) FROM t GROUP BY a\nround 0\n%send narrow\n" % "".join(group % key for key in range(100)))
        self.assertEqual((len(str(answer).splitlines()), len(repr(answer).splitlines()), answer._repr_html_().count("<tr>")), (102, 63, 61))
        self.assertIn("40 more rows", repr(answer))

    def test_texts_stay_texts(self):
        answer = result(HOSTILE, "rounds")
        keys = answer.block.key_names
        self.assertNotIn("\x1b", table_text(keys, answer.rows))
        self.assertNotIn("\u2028", table_text(keys, answer.rows))
        self.assertEqual(printable("a\x1b[2J\n"), "a\\x1b[2J\\n")
        self.assertIn("MIN(&quot;&lt;b&gt;&quot;)", answer._repr_html_())
        self.assertNotIn("<b>", answer._repr_html_())
        # A group column that is called as a title is told apart.
        lines = list(csv.reader(io.StringIO(csv_text(keys, answer.rows))))
        self.assertEqual((lines[0][0], lines[0][-1], len(lines), lines[1][0]), ("state (key)", "state", 2, 'a,"b\nc..z\x1b[2J'))
        self.assertEqual(json.loads(json_lines(keys, answer.rows))["low"], "=1+1")

    def test_floats_are_rounded_outward(self):
        for value in (Fraction(1, 3), Fraction(-1, 3), Decimal("0.1"), 2**53 + 1, -(2**63) - 1, 7):
            low, high = as_float(value, float("-inf")), as_float(value, float("inf"))
            self.assertLessEqual(Fraction(low), Fraction(value))
            self.assertGreaterEqual(Fraction(high), Fraction(value))

    def test_a_frame_has_the_rows(self):
        kept = sys.modules.get("pandas")
        frame = types.SimpleNamespace(DataFrame=lambda cells, columns: (columns, cells))
        self.addCleanup(lambda: sys.modules.pop("pandas") if kept is None else sys.modules.update(pandas=kept))
        sys.modules["pandas"] = frame
        columns, cells = result(GROUPS).df()
        self.assertEqual((columns[:3], cells[3][:4]), (["city", "item", "low"], ["Rome", "AVG(qty)", Fraction(1), Fraction(4)]))
        columns, cells = result(GROUPS).df(history=True, floats=True)
        self.assertEqual((columns[:6], [*cells[1][:4], *cells[1][5:8]]), (["round", "column", "plane", "planes", "bytes_read", "city"],
                                                       [0, None, 0, 0, "Bern..Rome", "AVG(qty)", 0.25]))


if __name__ == "__main__":
    unittest.main()
