"""The examples of the README, with the reports that the repository keeps of them."""
import re
import subprocess
import sys
import unittest

from support import TESTS, TOP, VIEW, FakeTest, tour

ZONES = """version 2 rows 418 columns 6
column 1 country text width 8 from 'Afghanistan' to '\u00c5land Islands'
column 2 area text width 4 from 'Africa' to 'Pacific'
column 3 zone text width 9 from 'Africa/Abidjan' to 'Pacific/Wallis'
column 4 latitude dec4 width 21 from -78.4000 to 78.0000
column 5 longitude dec4 width 22 from -177.3667 to 179.2167
column 6 part text? width 8 from 'AST - QC (Lower North Shore)' to 'most of Ukraine'
"""


class Readme(FakeTest):
    def test_the_tour(self):
        kept = (TOP / "examples" / "zones.out").read_text(encoding="utf-8")
        report = re.search(r"^query SELECT AVG\(longitude\).*?^end narrow\n", kept, re.DOTALL | re.MULTILINE)[0]
        self.scene(
            load={"made": "planes", "out": "loaded 418 rows, 6 columns, 73 planes, 17986 bytes\n"},
            info={"out": ZONES}, query={"out": report},
            **{"query SELECT AVG(longitud) FROM t": {"err": "daq: query refused: unknown column at 11\n", "status": 3}})
        told = tour(self.folder)
        self.assertEqual((told.failed, told.attempted), (0, 10))

    def test_the_view(self):
        self.play()
        page = (TESTS.parent / "README.md").read_text(encoding="utf-8")
        shown = re.search(r"^    \$ daq-view (watch .*?)\n\n", page, re.DOTALL | re.MULTILINE)[1].split("\n    ")
        told = subprocess.run([sys.executable, VIEW, "watch", "shop.daq", "SELECT SUM(price) FROM t", "--within", "20%"],
                              stdin=subprocess.DEVNULL, capture_output=True, text=True)
        self.assertEqual(told.stdout.splitlines(), shown[1:])


if __name__ == "__main__":
    unittest.main()
