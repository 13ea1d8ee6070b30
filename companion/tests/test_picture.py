"""Pictures of reports: as SVG, as text, and with matplotlib where it is installed."""
import io
import subprocess
import sys
import unittest

from support import GROUPS, SUM, TOP, TOP_OF_PARTS, TOP_ROWS, VIEW, FakeTest, daq

from daq.picture import Picture, svg_of, text_of
from daq.report import whole_lines

try:
    import matplotlib.figure
    matplotlib.use("Agg")
except ImportError:
    matplotlib = None


def picture(text, columns=()):
    return Picture(whole_lines(io.BytesIO(text.encode("utf-8", "surrogateescape")).readline), columns)


class Pictures(unittest.TestCase):
    def test_the_picture_of_the_documents(self):
        self.assertEqual(svg_of(picture(SUM), 4), (TOP / "docs" / "picture.svg").read_text(encoding="utf-8"))

    def test_text(self):
        lines = text_of(picture(SUM), width=37).splitlines()
        self.assertEqual(lines[:4], ["SELECT SUM(price) FROM t", "", "item 1", "round 0           |%s| [12, 48]" % ("#" * 37)])
        self.assertEqual(lines[4], "round 1 price 1/4 |%s| [20, 42]" % (" " * 8 + "#" * 23 + " " * 6))
        drawn = text_of(picture(TOP_ROWS))
        self.assertIn("round 1 price 1/4: top 2 certain 1 possible 3\n  row 3 |", drawn)

    def test_first_rows_of_parts(self):
        lines = text_of(picture(TOP_OF_PARTS), width=10).splitlines()
        self.assertEqual(lines[3:], ["round 0: top 1 certain 0", "round 1: top 1 certain 0 possible 3", "  row a 2 |  :::::   | [5, 9]",
                                     "  row b 1 |::::::::::| [3, 12]", "  row b 2 |::::::::::| [3, 12] or null",
                                     "round 2: top 1 certain 1 possible 0", "  row b 1 |        ##| [11, 12]"])
        shown = picture(TOP_OF_PARTS.replace("row a 2", "row it's certain 3 a\udcff 2"))
        self.assertIn("row it's certain 3 a\\xff 2<", svg_of(shown))
        with self.assertRaises(daq.ReportError):
            picture(TOP_OF_PARTS.replace("row a 2 possible [5, 9]", "row a 2 possible [5 9]"))

    def test_groups_and_averages(self):
        whole = text_of(picture(GROUPS), width=20)
        self.assertIn("item 2\nround 0\n  'Bern'..'Rome' |::::::::::::::::::::| [1/4, 16/1] or null\n", whole)
        # The scale of an average is that of its column, beyond which the bar is cut.
        cut = text_of(picture(GROUPS, [daq.Column("qty", "int", False, 2, 1, 4)]), width=20)
        self.assertIn("  'Rome'         |####################| [1/1, 4/1]\n", cut)

    def test_days_and_texts(self):
        report = "query SELECT MIN(d), MAX(c) FROM t\nround 0\n1 [%s, %s]\n2 ['a', 'z''s']\nround 1 d 1/1\n1 %s\n2 ['a', 'z''s']\nend rounds\n"
        for low, high in (("2024-02-28", "2024-03-01"), ("0000-02-29", "0001-01-01")):
            lines = text_of(picture(report % (low, high, high)), width=9).splitlines()
            self.assertEqual(lines[3:5], ["round 0       |#########| [%s, %s]" % (low, high), "round 1 d 1/1 |        #| %s" % high])

    def test_what_is_no_report_of_one_query(self):
        for text in ("", "query SELECT COUNT(*) FROM t\n", "queries 1\n1 SELECT COUNT(*) FROM t\n"):
            with self.subTest(text), self.assertRaises(daq.DaqError):
                picture(text)


class Commands(FakeTest):
    def view(self, *words, given=""):
        return subprocess.run([sys.executable, VIEW, "picture", *words], input=given, capture_output=True, text=True)

    def test_of_a_query_and_of_a_report(self):
        self.play()
        kept = (TOP / "docs" / "picture.svg").read_text(encoding="utf-8")
        self.assertEqual(self.view("shop.daq", "SELECT SUM(price) FROM t", "--rows", "4").stdout, kept)
        self.assertEqual(self.view("--rows", "4", given=SUM).stdout, kept)
        self.assertIn("item 1", self.view("--text", given=SUM).stdout)
        for words in (("shop.daq",), ("shop.daq", "SELECT SUM(price) FROM t", "--within", "1%")):
            self.assertEqual(self.view(*words).returncode, 2)
        self.play("", err="daq: query refused: syntax at 17\n", status=3)
        self.assertEqual(self.view("shop.daq", "SELECT SUM(price FROM t").returncode, 3)


@unittest.skipUnless(matplotlib, "matplotlib is not installed")
class Plots(FakeTest):
    def test_rounds_groups_and_rows(self):
        for report, sql, counts in ((SUM, "SELECT SUM(price) FROM t", [1]), (GROUPS, "SELECT city, SUM(price), AVG(qty) FROM t GROUP BY city", [2, 2]),
                                    (TOP_ROWS, "SELECT * FROM t ORDER BY price DESC LIMIT 2", [2]),
                                    (TOP_OF_PARTS, "SELECT * FROM t ORDER BY price DESC LIMIT 1", [1])):
            with self.subTest(sql):
                self.play(report)
                drawn = self.table().sql(sql).plot()
                self.assertEqual([len(axes.collections) + len(axes.lines) for axes in drawn], counts)

    def test_axes_that_are_given(self):
        self.play()
        axes = matplotlib.figure.Figure().add_subplot()
        self.assertEqual(self.table().sql("SELECT SUM(price) FROM t").plot([axes]), [axes])


if __name__ == "__main__":
    unittest.main()
