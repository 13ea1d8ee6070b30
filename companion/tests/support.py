"""What the tests share: the package, kept reports, and a program that is none."""
import doctest
import io
import json
import os
import sys
import tempfile
import unittest
from pathlib import Path

TESTS = Path(__file__).resolve().parent
TOP = TESTS.parent.parent
sys.path.insert(0, str(TESTS.parent))

import daq  # noqa: E402
from daq.report import Report, whole_lines  # noqa: E402

VIEW = str(TESTS.parent / "daq-view")

INFO = """version 2 rows 4 columns 3
column 1 price int width 4 from 3 to 12
column 2 qty int width 2 from 1 to 4
column 3 city text width 2 from 'Bern' to 'Rome'
"""
SUM = """query SELECT SUM(price) FROM t
round 0
1 [12, 48]
round 1 price 1/4
1 [20, 42]
round 2 price 2/4
1 [24, 34]
round 3 price 3/4
1 [28, 32]
round 4 price 4/4
1 29
end narrow
"""
GROUPS = """query SELECT city, SUM(price), AVG(qty) FROM t GROUP BY city
round 0
group 'Bern'..'Rome' possible
1 [3, 48] or null
2 [1/4, 16/1] or null
round 1 city 1/2
group 'Bern'..'Oslo' possible
1 [3, 36] or null
2 [1/3, 12/1] or null
group 'Rome' present
1 [3, 12]
2 [1/1, 4/1]
end rounds
"""
TOP_ROWS = """query SELECT * FROM t ORDER BY price DESC LIMIT 2
round 0
top 2 certain 0 possible 4
round 1 price 1/4
top 2 certain 1 possible 3
row 3 certain [11, 12]
round 2 price 2/4
top 2 certain 2 possible 0
row 2 certain [7, 10]
row 3 certain [11, 12]
end narrow
"""
TOP_OF_PARTS = """query SELECT * FROM t ORDER BY price DESC LIMIT 1
parts 2
round 0
top 1 certain 0
round 1
top 1 certain 0 possible 3
row a 2 possible [5, 9]
row b 1 possible [3, 12]
row b 2 possible [3, 12] or null
round 2
top 1 certain 1 possible 0
row b 1 certain [11, 12]
end narrow
"""


def read(text, **settings):
    """The report of a text, and its blocks."""
    report = Report(whole_lines(io.BytesIO(text.encode("utf-8", "surrogateescape")).readline), **settings)
    return report, list(report)


def tour(folder):
    """Runs the examples of the README in the folder; how many failed, and how many there are."""
    os.symlink(TOP / "examples", os.path.join(folder, "examples"))
    kept = os.getcwd()
    os.chdir(folder)
    try:
        return doctest.testfile(str(TESTS.parent / "README.md"), module_relative=False)
    finally:
        os.chdir(kept)


def kept_reports():
    """Each whole report that the cases of the program have: its place, and its text."""
    for path in sorted((TOP / "crates" / "tests_cases" / "data").glob("*.cases")):
        lines = path.read_text(encoding="utf-8").split("\n")
        for number, line in enumerate(lines):
            if line == "out" and lines[number + 1].startswith(("|query ", "|queries ")):
                yield "%s:%d" % (path.name, number + 1), case_text(lines[number + 1 :])


def case_text(lines):
    text = ""
    for line in lines:
        if line[:1] not in ("|", ":"):
            break
        text += line[1:] + ("\n" if line[0] == "|" else "")
    return text


class FakeTest(unittest.TestCase):
    """Runs against the fake program, in a folder of its own."""

    def setUp(self):
        folder = tempfile.TemporaryDirectory()
        self.addCleanup(folder.cleanup)
        self.folder = folder.name
        kept = {name: os.environ.get(name) for name in ("FAKE_DAQ", "DAQ")}
        self.addCleanup(lambda: [os.environ.pop(name, None) if value is None else os.environ.update({name: value})
                                 for name, value in kept.items()])
        # A copy that this Python runs, whatever python3 is.
        with open(self.path("daq"), "w", encoding="utf-8") as copy:
            copy.write("#!%s -S\n%s" % (sys.executable, (TESTS / "fake_daq.py").read_text(encoding="utf-8")))
        os.chmod(self.path("daq"), 0o755)
        os.environ.update(FAKE_DAQ=self.path("scene"), DAQ=self.path("daq"))

    def path(self, name):
        return os.path.join(self.folder, name)

    def play(self, query=SUM, **more):
        """Sets the scene: what the query prints, and more of it; `info` tells of the table of the shop."""
        self.scene(info={"out": INFO}, query=dict(out=query, log=self.path("log"), **more))

    def scene(self, **commands):
        with open(self.path("scene"), "w", encoding="utf-8") as file:
            json.dump(commands, file)

    def logged(self):
        with open(self.path("log"), encoding="utf-8") as file:
            return json.load(file)

    def table(self):
        return daq.open("shop.daq")
