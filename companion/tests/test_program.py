"""Runs of the program: what it is given, its errors, and how it ends."""
import contextlib
import io
import os
import subprocess
import sys
import time
import types
import unittest
from decimal import Decimal
from unittest import mock

from support import INFO, SUM, TESTS, FakeTest, daq

from daq.program import find_program
from daq.table import Asked, parse_column


def is_running(pid):
    try:
        os.kill(pid, 0)
    except ProcessLookupError:
        return False
    return True


class Runs(FakeTest):
    def test_the_columns(self):
        self.play()
        table = self.table()
        self.assertEqual(table.rows, 4)
        self.assertEqual([(column.name, column.type, column.planes, column.least, column.greatest) for column in table.columns],
                         [("price", "int", 4, 3, 12), ("qty", "int", 2, 1, 4), ("city", "text", 2, "Bern", "Rome")])

    def test_hard_names_and_texts_of_columns(self):
        column = parse_column(1, "column 1 a int width 3 from 1 to 2 dec2? width 3 from -0.05 to 1.50")
        self.assertEqual((column.name, column.type, column.nullable, column.planes, column.least),
                         ("a int width 3 from 1 to 2", "dec2", True, 4, Decimal("-0.05")))
        self.assertEqual(parse_column(2, "column 2 it's text width 1 from 'a\n to ''b' to 'c'").least, "a\n to 'b")

    def test_the_words_of_a_query(self):
        self.play()
        self.table().sql("SELECT SUM(price) FROM t", rounds=3, reads=["price", "qty"], list=True, clip=True, exact_avg=True, keys=True)
        self.assertEqual(self.logged()["words"], ["query", "shop.daq", "SELECT SUM(price) FROM t", "--rounds", "3", "--reads", "price,qty",
                                                  "--list", "--clip", "--exact-avg", "--keys"])
        with self.assertRaises(ValueError):
            self.table().sql("SELECT SUM(price) FROM t", policy="filter", reads="price")

    def test_an_answer(self):
        self.play()
        answer = self.table().sql("SELECT SUM(price) FROM t")
        self.assertEqual((answer.end, len(answer.blocks), answer.rows[0].low), ("narrow", 5, 29))

    def test_enough_is_enough(self):
        self.play(pause=0.05)
        answer = self.table().sql("SELECT SUM(price) FROM t", within="20%")
        self.assertEqual((answer.end, answer.rows[0].low, answer.rows[0].high), ("within", 28, 32))
        self.assertFalse(is_running(self.logged()["pid"]))

    def test_blocks_come_as_they_are_printed(self):
        self.play(pause=0.3)
        begun, times = time.monotonic(), []
        for _ in self.table().rounds("SELECT SUM(price) FROM t"):
            times.append(time.monotonic() - begun)
        self.assertEqual(len(times), 5)
        self.assertGreater(times[4] - times[0], 1.0)

    def test_leaving_the_loop_ends_the_program(self):
        self.play(pause=0.1)
        for block in self.table().rounds("SELECT SUM(price) FROM t"):
            if block.round == 1:
                break
        self.assertFalse(is_running(self.logged()["pid"]))
        blocks = self.table().rounds("SELECT SUM(price) FROM t")
        next(blocks)
        blocks.close()
        self.assertFalse(is_running(self.logged()["pid"]))

    def test_blocks_are_shown_in_one_cell(self):
        self.play()
        shown = []
        handle = types.SimpleNamespace(update=lambda result: shown.append((len(result.blocks), result.rows[0].high)))
        module = types.ModuleType("IPython")
        module.get_ipython = lambda: types.SimpleNamespace(kernel=None)
        module.display = types.ModuleType("IPython.display")
        module.display.display = lambda display_id: handle
        with mock.patch.dict(sys.modules, {"IPython": module, "IPython.display": module.display}):
            answer = self.table().show("SELECT SUM(price) FROM t", within="20%")
        self.assertEqual((answer.end, shown), ("within", [(1, 48), (2, 42), (3, 34), (4, 32)]))

    def test_blocks_are_printed_elsewhere(self):
        self.play()
        with contextlib.redirect_stdout(io.StringIO()) as told, mock.patch.dict(sys.modules, {"IPython": None}):
            self.table().show("SELECT SUM(price) FROM t", rounds=1)
        self.assertIn("12 .. 48", told.getvalue())

    def test_a_query_that_is_stopped_ends_without_an_error(self):
        self.play(pause=0.2)
        question = Asked(self.table(), "SELECT SUM(price) FROM t", None, [])
        blocks = []
        for block in question:
            blocks.append(block)
            question.stop()
        self.assertEqual((len(blocks), question.end), (1, "stopped"))
        self.assertFalse(is_running(self.logged()["pid"]))
        self.assertEqual([*question], [])

    def test_the_program_that_is_taken(self):
        self.assertEqual(find_program("/given"), "/given")
        self.assertEqual(find_program(), self.path("daq"))
        del os.environ["DAQ"]
        for program in ("/nowhere/daq", __file__):
            with self.assertRaises(daq.ProgramError):
                daq.open("shop.daq", program=program)

    def test_load_keeps_the_old_file_until_the_new_one_is_whole(self):
        csv, file = self.path("my.csv"), self.path("my.daq")
        for path in (csv, file):
            with open(path, "w", encoding="utf-8") as made:
                made.write("price,city\n5,Oslo\n")
        failing = {"made": "a part", "err": "daq: write fault\n", "status": 7}
        self.scene(load=failing, info={"out": INFO})
        with self.assertRaises(daq.FileError) as raised:
            daq.load(csv, file)
        self.assertEqual(raised.exception.path, file)
        with open(file, encoding="utf-8") as kept:
            self.assertEqual(kept.read(), "price,city\n5,Oslo\n")
        self.assertEqual(sorted(os.listdir(self.folder)), ["daq", "my.csv", "my.daq", "scene"])
        made = {"made": "new", "out": "loaded 4 rows, 3 columns, 8 planes, 195 bytes\n", "log": self.path("log")}
        self.scene(load=made, info={"out": INFO})
        self.assertEqual(daq.load(csv, file).rows, 4)
        self.assertEqual(self.logged()["words"][3], "price:int,city:text")
        with open(file, encoding="utf-8") as made:
            self.assertEqual(made.read(), "new")

    def test_load_takes_the_place_of_regular_files_alone(self):
        csv = self.path("my.csv")
        with open(csv, "w", encoding="utf-8") as made:
            made.write("price\n5\n")
        os.symlink(csv, self.path("link.csv"))
        for file in (csv, self.path("link.csv"), self.folder, "/dev/null"):
            with self.subTest(file), self.assertRaises(daq.FileError):
                daq.load(csv, file, "price:int")
        os.symlink(self.path("new.daq"), self.path("link.daq"))
        self.scene(load={"made": "new", "out": "loaded 4 rows, 3 columns, 8 planes, 195 bytes\n"}, info={"out": INFO})
        daq.load(csv, self.path("link.daq"), "price:int")
        self.assertTrue(os.path.islink(self.path("link.daq")) and os.path.isfile(self.path("new.daq")))


class Refusals(FakeTest):
    def refused(self, line, status, text="SELECT SUM(price) FROM t", out=""):
        self.play(out, err="daq: %s\n" % line, status=status)
        with self.assertRaises(daq.DaqError) as raised:
            self.table().sql(text)
        return raised.exception

    def test_a_query_is_shown_with_its_place(self):
        error = self.refused("query refused: unknown column at 17", 3, "SELECT AVG(\u20ac) \nFROM t WHERE pris < 1")
        self.assertIsInstance(error, daq.QueryError)
        # Places of the program are bytes, those of the companion signs.
        self.assertEqual((error.place, error.cause), (15, "unknown column"))
        error = self.refused("query refused: unknown column at 30", 3, "SELECT COUNT(*)\nFROM t\nWHERE  pris < 1")
        self.assertEqual(str(error).split("\n"), ["unknown column", "  WHERE  pris < 1", "         ^",
                                                  "Is it price? The columns are price, qty, city."])

    def test_hints(self):
        for line, text, hint in (
                ("syntax at 11", "SELECT SUM(date) FROM t", "No query goes on so here"),
                ("syntax at 18", "SELECT SUM(price) AS s FROM t", "There is no AS"),
                ("syntax at 17", "SELECT SUM(price", "goes on behind"),
                ("unknown table at 23", "SELECT SUM(price) FROM shop", "write FROM t"),
                ("unknown column at 37", 'SELECT COUNT(*) FROM t WHERE city  = "Oslo"', "single quotes: 'Oslo'"),
                ("unknown column at 11", "SELECT SUM(Price) FROM t", "Is it price?"),
                ("kinds differ at 36", "SELECT COUNT(*) FROM t WHERE price = 'a'", "Types differ"),
                ("item 1 too wide", "SELECT SUM(price) FROM t", "128 bits"),
                ("group of 18 bits", "SELECT COUNT(*) FROM t GROUP BY price", "16 planes"),
                ("read 1 names no column of the query", "SELECT COUNT(*) FROM t", "without quotes")):
            with self.subTest(line):
                self.assertIn(hint, self.refused("query refused: " + line, 3, text).hint)

    def test_a_name_that_is_a_keyword(self):
        self.scene(info={"out": "version 2 rows 1 columns 1\ncolumn 1 date date width 0 from 2024-02-29 to 2024-02-29\n"},
                   query={"err": "daq: query refused: syntax at 11\n", "status": 3})
        with self.assertRaises(daq.QueryError) as raised:
            self.table().sql("SELECT MIN(date) FROM t")
        self.assertIn('write "date"', raised.exception.hint)

    def test_texts_that_are_none(self):
        self.play()
        for text in ("SELECT \0", "SELECT \ud800"):
            with self.assertRaises(daq.QueryError) as raised:
                self.table().sql(text)
            self.assertEqual(raised.exception.place, 7)

    def test_other_statuses(self):
        part = "".join(SUM.splitlines(keepends=True)[:5])
        for line, status, out, kind, told in (
                ("file refused: column 1 plane 2 has pad bits", 5, part, daq.FileError, "column 1 plane 2 has pad bits"),
                ("read fault", 6, part, daq.FileError, "No such file"),
                ("no memory", 8, "", daq.ProgramError, "no memory"),
                ("usage: word 3", 2, "", daq.ProgramError, "no argument 'SELECT SUM(price) FROM t'"),
                ("usage: word 4", 2, "", daq.ProgramError, "no argument ''"),
                ("query refused: ", 3, "", daq.ProgramError, "status 3"),
                ("what now", 99, part[:-3], daq.ProgramError, "status 99: daq: what now")):
            with self.subTest(line):
                error = self.refused(line, status, out=out)
                self.assertIsInstance(error, kind)
                self.assertIn(told, str(error))

    def test_a_refused_table(self):
        with open(self.path("my.csv"), "w", encoding="utf-8") as made:
            made.write("price,city\n5,Oslo\n")
        for line, record, column, hint in (
                ("record 3 column 1 is no value of its kind", 3, 1, "The column price takes whole numbers of 64 bits; where"),
                ("record 3 has 1 fields, not 2", 3, None, "as many fields"), ("schema item at 10", None, None, "A column of a schema"),
                ("134217792 cells", None, None, "2^27"), ("no header", None, None, "first record")):
            self.scene(load={"err": "daq: table refused: %s\n" % line, "status": 4})
            with self.subTest(line), self.assertRaises(daq.TableError) as raised:
                daq.load(self.path("my.csv"), self.path("my.daq"), "price:int,city:text")
            self.assertEqual((raised.exception.record, raised.exception.column), (record, column))
            self.assertIn(hint, raised.exception.hint)

    def test_programs_that_die_or_say_nonsense(self):
        part = "".join(SUM.splitlines(keepends=True)[:5])
        self.play(part, signal=9)
        with self.assertRaisesRegex(daq.ProgramError, "signal 9"):
            self.table().sql("SELECT SUM(price) FROM t")
        for out in ("", part, part[:-2], "hello\n", SUM + "more\n", "query SELECT\n", "\udcff\n"):
            self.play(out)
            with self.subTest(out[:20]), self.assertRaises(daq.ReportError):
                self.table().sql("SELECT SUM(price) FROM t")
        for out in ("", "version 3\n", INFO[:-1], INFO.replace("columns 3", "columns 2"), INFO.replace("column 2", "column 3"),
                    INFO.replace("to 12", "to 1")):
            self.scene(info={"out": out})
            with self.subTest(out[:20]), self.assertRaises(daq.ReportError):
                self.table()

    def test_much_on_standard_error_holds_nothing_up(self):
        self.play(SUM, err="x" * 10**6, status=1)
        with self.assertRaisesRegex(daq.ProgramError, "status 1"):
            self.table().sql("SELECT SUM(price) FROM t")


class WithoutTheProgram(unittest.TestCase):
    def test_no_program_at_all(self):
        code = "import sys; sys.path.insert(0, %r)\nimport daq.program as p\np.BESIDE = ()\np.find_program()" % str(TESTS.parent)
        ended = subprocess.run([sys.executable, "-c", code], env={"PATH": "/nowhere"}, capture_output=True, text=True)
        self.assertIn("there is no program daq", ended.stderr)


if __name__ == "__main__":
    unittest.main()
