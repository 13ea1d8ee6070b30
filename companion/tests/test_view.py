"""The commands of daq-view, with and without a terminal, and their bars."""
import csv
import datetime
import io
import json
import os
import pty
import re
import select
import signal
import subprocess
import sys
import unittest
from decimal import Decimal
from fractions import Fraction

from support import GROUPS, SUM, TOP_OF_PARTS, TOP_ROWS, VIEW, FakeTest, daq, read

from daq.bars import Chart, bar, cells, cut, padded, place

ASK = "SELECT SUM(price) FROM t"


class Bars(unittest.TestCase):
    def test_a_bar(self):
        span = (0, 10)
        self.assertEqual(bar(daq.Interval(0, 10), span, True, 11), "###########")
        self.assertEqual(bar(daq.Interval(3, 5), span, True, 11), "   ###     ")
        self.assertEqual(bar(daq.Interval(4, 4), span, False, 11), "    :      ")
        self.assertEqual(bar(daq.Interval(-5, 2), span, True, 11), "<##        ")
        self.assertEqual(bar(daq.Interval(-5, 25), span, True, 11), "<#########>")
        self.assertEqual(bar(daq.Interval(None, None, "maybe"), span, True, 11), " " * 11)

    def test_places(self):
        days = [datetime.date(2024, 2, day) for day in (27, 28, 29)]
        for low, middle, high in ((0, 1, 2), map(Decimal, ("0.5", "1.0", "1.5")), map(Fraction, ("1/3", "1/2", "2/3")), days,
                                  ("Ba", "Bb", "Bc"), (-(2**130), 0, 2**130), ("0000-02-29", "0000-03-01", datetime.date(1, 1, 1))):
            with self.subTest(low=low):
                places = [place(value, (low, high)) for value in (low, middle, high)]
                self.assertEqual(places[0], 0)
                self.assertGreater(places[1], 0)
                self.assertLess(places[1], 1)
                self.assertEqual(places[2], 1)
        self.assertEqual(place(3, (3, 3)), 0.5)
        self.assertEqual(place(Fraction(3, 2), (Decimal("1.0"), Decimal("2.0"))), 0.5)

    def test_a_chart_has_one_scale(self):
        chart = Chart([])
        drawn = [chart.lines(block, 100)[1] for block in read(SUM)[1]]
        bars = [re.search(r"\|(.*)\|", line)[1] for line in drawn]
        self.assertEqual(len(set(map(len, bars))), 1)
        filled = [{at for at, sign in enumerate(line) if sign == "#"} for line in bars]
        for wide, narrow in zip(filled, filled[1:]):
            self.assertLessEqual(narrow, wide)

    def test_the_scale_of_an_average_is_that_of_its_column(self):
        column = daq.Column("qty", "int", False, 2, 1, 4)
        lines = Chart([column]).lines(read(GROUPS)[1][0], 100)
        self.assertRegex(lines[2], r"AVG\(qty\) +\|<:+>\|")

    def test_the_scale_of_groups_is_cut_to_them(self):
        text = ("query SELECT city, SUM(price) FROM t GROUP BY city\nround 0\ngroup 'Bern'..'Rome' possible\n1 [3, 480] or null\n"
                "round 1 city 1/1\ngroup 'Bern' present\n1 [20, 40]\ngroup 'Rome' present\n1 [30, 60]\nend rounds\n")
        chart = Chart([])
        ends = [[chart.ends(row) for row in chart.rows(block)] for block in read(text)[1]]
        self.assertEqual(ends, [[(0, 1)], [(1 / 3, 2 / 3), (0.5, 1)]])

    def test_first_rows_of_parts(self):
        chart = Chart([])
        drawn = [chart.lines(block, 60) for block in read(TOP_OF_PARTS)[1]]
        self.assertEqual(drawn[0], ["0 planes read; 0 of 1 rows certain, too many possible to judge any"])
        self.assertEqual([line.split(" |")[0] for line in drawn[1][1:]], ["row a 2", "row b 1", "row b 2"])
        self.assertEqual(drawn[2][0], "at most 2 planes of each of 2 parts read; 1 of 1 rows certain, 0 possible")

    def test_no_line_is_too_long_and_hidden_rows_are_counted(self):
        lines = Chart([]).lines(read(GROUPS)[1][1], 40, 4)
        self.assertEqual((len(lines), max(map(len, lines)) <= 40, lines[-1]), (4, True, "2 more rows"))
        self.assertEqual((cells("\u6771\u4eac a\u0301"), cut("\u6771\u4eac", 3), padded("\u6771\u4eac", 5)), (6, "\u6771", "\u6771\u4eac "))


class Commands(FakeTest):
    def view(self, *words):
        return subprocess.run([sys.executable, VIEW, *words], stdin=subprocess.DEVNULL, capture_output=True, text=True)

    def test_watch_without_a_terminal(self):
        self.play()
        told = self.view("watch", "shop.daq", ASK)
        lines = told.stdout.splitlines()
        self.assertEqual((told.returncode, told.stderr, len(lines)), (0, "", 11))
        self.assertEqual((lines[0], lines[2], lines[-1]),
                         ("0 planes read", "1 plane, 8 bytes read, the last of price (1 of 4)", "4 planes read, finished"))
        self.assertNotIn("\x1b", told.stdout)
        lines = self.view("watch", "shop.daq", ASK, "--within", "20%").stdout.splitlines()
        self.assertEqual(lines[-1], "3 planes read, stopped, narrow enough")

    def test_first_rows(self):
        self.play(TOP_ROWS)
        self.assertIn("2 planes, 16 bytes read, the last of price (2 of 4); 2 of 2 rows certain, 0 possible\nrow 2 |",
                      self.view("watch", "shop.daq", "SELECT * FROM t ORDER BY price DESC LIMIT 2").stdout)

    def test_table_csv_and_json(self):
        self.play()
        told = self.view("table", "shop.daq", ASK).stdout
        self.assertEqual(told, "item        interval  width\nSUM(price)  29        0 %\n4 planes read, finished\n")
        self.assertEqual(self.view("table", "shop.daq", ASK, "--all").stdout.count("SUM(price)"), 5)
        self.assertEqual(len(list(csv.reader(io.StringIO(self.view("csv", "shop.daq", ASK).stdout)))), 2)
        lines = list(csv.reader(io.StringIO(self.view("csv", "shop.daq", ASK, "--all").stdout)))
        self.assertEqual((len(lines), lines[0][0], lines[1][:2], lines[5][:2]), (6, "round", ["0", ""], ["4", "price"]))
        self.assertEqual(json.loads(self.view("jsonl", "shop.daq", ASK).stdout)["high"], 29)
        lines = self.view("jsonl", "shop.daq", ASK, "--all").stdout.splitlines()
        self.assertEqual([json.loads(line)["high"] for line in lines], [48, 42, 34, 32, 29])

    def test_load(self):
        with open(self.path("my.csv"), "w", encoding="utf-8") as file:
            file.write("id;price;city\n1;NA;Oslo\n2;7;Rome\n")
        loaded = {"made": "new", "out": "loaded 2 rows, 2 columns, 2 planes, 100 bytes\n", "log": self.path("log"),
                  "copy": self.path("given.csv")}
        self.scene(load=loaded, info={"out": "version 2 rows 2 columns 2\ncolumn 1 price int? width 0 from 7 to 7\n"
                                             "column 2 city text width 1 from 'Oslo' to 'Rome'\n"})
        ran = self.view("load", self.path("my.csv"), self.path("my.daq"), "--skip", "id", "--null", "NA", "--delimiter", ";")
        self.assertEqual((ran.returncode, ran.stdout), (0, "loaded 2 rows: price:int?,city:text\n"))
        self.assertIn("left out: id", ran.stderr)
        self.assertEqual(self.logged()["words"][-1], "price:int?,city:text")
        with open(self.path("given.csv"), encoding="utf-8") as file:
            self.assertEqual(file.read(), "price,city\n,Oslo\n7,Rome\n")

    def test_refusals(self):
        self.play("", err="daq: query refused: syntax at 17\n", status=3)
        told = self.view("watch", "shop.daq", "SELECT SUM(price FROM t")
        self.assertEqual((told.returncode, told.stdout), (3, ""))
        self.assertTrue(told.stderr.startswith("daq-view: syntax\n  SELECT SUM(price FROM t\n                   ^\n"), told.stderr)
        self.scene(info={"err": "daq: read fault\n", "status": 6})
        told = self.view("csv", "nosuch.daq", ASK)
        self.assertEqual((told.returncode, told.stderr), (5, "daq-view: nosuch.daq: cannot be read: No such file or directory\n"))
        self.play()
        self.assertEqual(self.view("csv", "shop.daq", ASK, "--within", "a bit").returncode, 2)
        self.play(SUM.replace("1 29", "1 dunno"))
        told = self.view("csv", "shop.daq", ASK)
        self.assertEqual((told.returncode, told.stdout), (1, ""))

    def test_a_closed_pipe_is_no_error(self):
        self.play(pause=0.1)
        words = [sys.executable, VIEW, "jsonl", "shop.daq", ASK, "--all"]
        running = subprocess.Popen(words, stdout=subprocess.PIPE, stderr=subprocess.PIPE)
        running.stdout.readline()
        running.stdout.close()
        self.assertEqual((running.stderr.read(), running.wait()), (b"", 0))
        running.stderr.close()

    def test_control_c_stops(self):
        self.play(pause=0.5)
        # Behind a shell's & the signal is ignored, and whoever is started there ignores it too.
        running = subprocess.Popen([sys.executable, VIEW, "watch", "shop.daq", ASK], stdout=subprocess.PIPE, stderr=subprocess.PIPE,
                                   preexec_fn=lambda: signal.signal(signal.SIGINT, signal.SIG_DFL))
        running.stdout.readline()
        running.send_signal(signal.SIGINT)
        out, err = running.communicate()
        self.assertEqual((out.decode().splitlines()[-1], err, running.returncode), ("stopped", b"", 0))
        with self.assertRaises(ProcessLookupError):
            os.kill(self.logged()["pid"], 0)


class Terminal(FakeTest):
    def watched(self, *words, keys=()):
        """What a terminal is shown, where each key is pressed once a text was shown."""
        master, slave = pty.openpty()
        running = subprocess.Popen([sys.executable, VIEW, "watch", "shop.daq", ASK, *words], stdin=slave, stdout=slave, stderr=slave,
                                   env=dict(os.environ, TERM="xterm", COLUMNS="120", LINES="24"))
        os.close(slave)
        shown, left = b"", list(keys)
        while True:
            ready = select.select([master], [], [], 20)[0]
            try:
                piece = os.read(master, 4096) if ready else b""
            except OSError:
                piece = b""
            if not piece:
                break
            shown += piece
            if left and left[0][0] in shown:
                os.write(master, left.pop(0)[1])
        os.close(master)
        return running.wait(), shown.decode()

    def test_a_block_takes_the_place_of_the_one_before(self):
        self.play(pause=0.05)
        status, shown = self.watched()
        self.assertEqual((status, shown.count("\x1b[3A")), (0, 5))
        self.assertIn("running, policy widest: q stops", shown)
        self.assertNotIn("q stops", shown.rpartition("\x1b[3A")[2])
        self.assertTrue(shown.endswith("4 planes read, finished\r\n"), shown)

    def test_pause_waits_for_keys(self):
        self.play()
        status, shown = self.watched("--pause", keys=((b"0 planes", b"s"), (b"1 of 4", b"s"), (b"2 of 4", b"q")))
        self.assertEqual((status, "2 of 4" in shown, "3 of 4" in shown), (0, True, False))
        self.assertIn("paused, policy widest", shown)
        self.assertTrue(shown.endswith("stopped\r\n"), shown)
        status, shown = self.watched("--pause", keys=((b"0 planes", b"s"), (b"1 of 4", b" ")))
        self.assertEqual((status, "3 of 4" in shown), (0, True))
        self.assertTrue(shown.endswith("4 planes read, finished\r\n"), shown)

    def test_the_space_bar_pauses_and_q_ends_the_program(self):
        self.play(pause=0.2)
        status, shown = self.watched(keys=((b"1 of 4", b" "), (b"paused", b"q")))
        self.assertEqual((status, "4 of 4" in shown), (0, False))
        with self.assertRaises(ProcessLookupError):
            os.kill(self.logged()["pid"], 0)

    def test_another_policy(self):
        self.play(pause=0.1)
        status, shown = self.watched(keys=((b"1 of 4", b"p"),))
        self.assertEqual((status, self.logged()["words"][3:]), (0, ["--policy", "filter"]))
        self.assertIn("running, policy filter", shown)
        self.assertTrue(shown.endswith("4 planes read, finished\r\n"), shown)


if __name__ == "__main__":
    unittest.main()
