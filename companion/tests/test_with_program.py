"""With the program that the variable DAQ names: the examples, loaded and asked."""
import os
import tempfile
import time
import unittest
from fractions import Fraction

from support import TOP, daq, tour

PROGRAM = os.environ.get("DAQ")


@unittest.skipUnless(PROGRAM, "DAQ names no program")
class WithTheProgram(unittest.TestCase):
    @classmethod
    def setUpClass(cls):
        folder = tempfile.TemporaryDirectory()
        cls.addClassCleanup(folder.cleanup)
        cls.folder = folder.name
        cls.shop = daq.load(TOP / "examples" / "shop.csv", os.path.join(cls.folder, "shop.daq"))
        cls.zones = daq.load(TOP / "examples" / "zones.csv", os.path.join(cls.folder, "zones.daq"))

    def test_columns(self):
        self.assertEqual([(column.name, column.type, column.planes, column.least, column.greatest) for column in self.shop.columns],
                         [("price", "int", 4, 3, 12), ("qty", "int", 2, 1, 4), ("city", "text", 2, "Bern", "Rome")])
        self.assertEqual((self.zones.rows, self.zones.columns[-1].nullable), (418, True))

    def test_answers(self):
        self.assertEqual(self.shop.sql("SELECT SUM(price) FROM t").rows[0].low, 29)
        answer = self.shop.sql("SELECT city, AVG(price) FROM t GROUP BY city")
        self.assertEqual([(row.keys, row.low) for row in answer.rows], [(("Bern",), 3), (("Oslo",), Fraction(17, 2)), (("Rome",), 9)])
        self.assertEqual([row.keys for row in self.shop.sql("SELECT * FROM t ORDER BY price DESC LIMIT 2").rows], [(2,), (3,)])

    def test_enough(self):
        answer = self.zones.sql("SELECT AVG(longitude) FROM t WHERE area = 'America'", within="1%", policy="filter")
        row = answer.rows[0]
        self.assertEqual(answer.end, "within")
        self.assertLessEqual(row.relative_width, Fraction(1, 100))
        self.assertTrue(row.low <= Fraction("-11565.5289") / 144 <= row.high)

    def test_leaving_the_loop(self):
        begun = time.monotonic()
        for block in self.zones.rounds("SELECT SUM(latitude), SUM(longitude) FROM t"):
            if block.round == 3:
                break
        self.assertLess(time.monotonic() - begun, 30)

    def test_refusals(self):
        with self.assertRaises(daq.QueryError) as raised:
            self.shop.sql("SELECT SUM(pris) FROM t")
        self.assertEqual((raised.exception.place, raised.exception.cause), (11, "unknown column"))
        with self.assertRaises(daq.FileError):
            daq.open(os.path.join(self.folder, "nosuch.daq"))
        with self.assertRaises(daq.FileError):
            daq.open(TOP / "examples" / "shop.csv")
        with self.assertRaises(daq.TableError) as raised:
            daq.load(TOP / "examples" / "shop.csv", os.path.join(self.folder, "bad.daq"), "price:int,qty:int,city:date")
        self.assertEqual((raised.exception.record, raised.exception.column), (2, 3))
        self.assertFalse(os.path.exists(os.path.join(self.folder, "bad.daq")))

    def parts(self):
        """The zones in parts of 150 rows."""
        with open(TOP / "examples" / "zones.csv", encoding="utf-8") as file:
            head, *records = file.readlines()
        schema = "country:text,area:text,zone:text,latitude:dec4,longitude:dec4,part:text?"
        for number, begin in enumerate(range(0, len(records), 150)):
            path = os.path.join(self.folder, "part%d" % number)
            with open(path + ".csv", "w", encoding="utf-8") as file:
                file.writelines([head, *records[begin : begin + 150]])
            daq.load(path + ".csv", path + ".daq", schema)
        return daq.open(os.path.join(self.folder, "part?.daq"))

    def test_a_table_in_parts(self):
        parts = self.parts()
        self.assertEqual((len(parts.tables), parts.rows), (3, 418))
        sql = "SELECT COUNT(*), SUM(latitude), AVG(longitude), MAX(latitude) FROM t WHERE area = 'America'"
        whole, answer = self.zones.sql(sql), parts.sql(sql, policy="balanced")
        self.assertEqual([(row.low, row.high) for row in answer.rows], [(row.low, row.high) for row in whole.rows])
        for row in answer.history():
            end = next(last for last in whole.rows if last.item == row.item)
            self.assertTrue(row.low <= end.low <= end.high <= row.high)
        self.assertEqual(parts.sql(sql, within="20%").end, "within")
        sql = "SELECT COUNT(*), MIN(zone), MAX(zone), MAX(part) FROM t WHERE area = 'America'"
        self.assertEqual([row.low for row in parts.sql(sql).rows], [row.low for row in self.zones.sql(sql).rows])
        with self.assertRaises(daq.QueryError) as raised:
            parts.sql("SELECT SUM(pris) FROM t")
        self.assertEqual((raised.exception.place, raised.exception.cause), (11, "unknown column"))

    def test_first_rows_of_parts(self):
        parts = self.parts()
        for order in ("latitude DESC", "zone", "part DESC"):
            sql = "SELECT * FROM t WHERE area = 'America' ORDER BY %s LIMIT 5" % order
            first = {row.keys[0] for row in self.zones.sql(sql).rows}
            for block in parts.rounds(sql, policy="order"):
                rows = {150 * (int(row.part) - 1) + row.row: row.state for row in block.ranking.rows}
                self.assertLessEqual(first, set(rows))
                self.assertLessEqual({row for row, state in rows.items() if state == "certain"}, first)
            self.assertEqual((block.ranking.possible, set(rows)), (0, first))

    def test_the_tour_of_the_readme(self):
        with tempfile.TemporaryDirectory() as folder:
            self.assertEqual(tour(folder).failed, 0)


if __name__ == "__main__":
    unittest.main()
