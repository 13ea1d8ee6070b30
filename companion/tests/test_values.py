"""Intervals: exact arithmetic, rounding outward, and when they are narrow enough."""
import datetime
import unittest
from decimal import Decimal
from fractions import Fraction

from support import GROUPS, SUM, TOP_ROWS, read

from daq.goal import Goal
from daq.values import Interval, interval_text, percent_text, rounded, shown_ends, value_text

# Their difference has more digits than Python's decimals keep by themselves.
LONG, LOW = Decimal("170141183460469231731687303715884106.727"), Decimal("-170141183460469231731687303715884105.727")


class Intervals(unittest.TestCase):
    def test_width_and_mid_are_exact(self):
        for low, high, width, mid in (
                (28, 32, 4, 30), (3, 4, 1, Decimal("3.5")), (-4, -1, 3, Decimal("-2.5")), (7, 7, 0, 7),
                (Decimal("0.05"), Decimal("0.10"), Decimal("0.05"), Decimal("0.075")),
                (LOW, LONG, Decimal("340282366920938463463374607431768212.454"), Decimal("0.5")),
                (2**127 - 2, 2**127 - 1, 1, Fraction(2**128 - 3, 2)),
                (Fraction(1, 3), Fraction(2, 3), Fraction(1, 3), Fraction(1, 2)),
                (datetime.date(2024, 2, 28), datetime.date(2024, 3, 2), 3, datetime.date(2024, 2, 29)),
                ("a", "b", None, None), ("a", "a", 0, "a"), (None, None, None, None)):
            with self.subTest(low=low):
                self.assertEqual((Interval(low, high).width, Interval(low, high).mid), (width, mid))

    def test_relative_width_is_by_the_number_nearest_to_0(self):
        for low, high, part in ((100, 101, Fraction(1, 100)), (-101, -100, Fraction(1, 100)), (0, 1, None), (-1, 1, None), (0, 0, 0),
                                (Fraction(3), Fraction(6), 1), ("a", "b", None), ("a", "a", 0), (None, None, None)):
            with self.subTest(low=low):
                self.assertEqual(Interval(low, high).relative_width, part)

    def test_decimals_are_rounded_outward(self):
        self.assertEqual((rounded(Fraction(1, 3), 2, False), rounded(Fraction(1, 3), 2, True)), (Decimal("0.33"), Decimal("0.34")))
        self.assertEqual((rounded(Fraction(-1, 3), 2, False), rounded(Fraction(-1, 3), 2, True)), (Decimal("-0.34"), Decimal("-0.33")))
        for low, high in ((Fraction(-22, 7), Fraction(22, 7)), (Fraction(1, 3), Fraction(1, 3)), (Fraction(29, 4), Fraction(29, 4)),
                          (Fraction(2**127, 3), Fraction(2**127 + 1, 3)), (Fraction(1, 10**9), Fraction(2, 10**9))):
            least, greatest = shown_ends(Interval(low, high))
            self.assertLessEqual(Fraction(least), low)
            self.assertGreaterEqual(Fraction(greatest), high)
            self.assertLessEqual(Fraction(greatest) - Fraction(least), max((high - low) * Fraction(11, 10), Fraction(1, 10**6)))

    def test_texts(self):
        self.assertEqual(interval_text(Interval(28, 32)), "28 .. 32")
        self.assertEqual(interval_text(Interval(Fraction(29, 4), Fraction(29, 4))), "7.25")
        self.assertEqual(interval_text(Interval(3, 12, "maybe")), "3 .. 12 or null")
        self.assertEqual(interval_text(Interval(None, None, "surely")), "null")
        self.assertEqual(interval_text(Interval(None, None, "maybe")), "- or null")
        self.assertEqual(value_text(Decimal("1E+3")), "1000")
        parts = (Fraction(1, 100), Fraction(1, 3), Fraction(1, 3000), Fraction(0), None, Fraction(12))
        self.assertEqual([percent_text(part) for part in parts], ["1.0 %", "34 %", "0.034 %", "0 %", "", ""])


class Goals(unittest.TestCase):
    def test_what_says_no_goal(self):
        for within in (0.5, True, None, [1]):
            with self.subTest(within), self.assertRaises(TypeError):
                Goal.of(within)
        for within in ("", "%", "one", "-1%", "1e3", -1, "1 %%", "٣%"):
            with self.subTest(within), self.assertRaises(ValueError):
                Goal.of(within)

    def test_parts_and_distances(self):
        cents, days = (Decimal("1.00"), Decimal("1.05")), (datetime.date(2024, 2, 28), datetime.date(2024, 3, 2))
        for within, low, high, holds in (
                ("1%", 100, 101, True), ("1 %", 100, 102, False), ("1%", -101, -100, True), ("1%", 0, 0, True), ("100%", -1, 1, False),
                ("0.5%", 1000, 1005, True), (4, 28, 32, True), (3, 28, 32, False), ("4", 28, 32, True), (Decimal("0.05"), *cents, True),
                (Decimal("0.04"), *cents, False), (3, "a", "b", False), (0, "a", "a", True), (3, *days, True), (2, *days, False),
                ("1%", *days, False)):
            with self.subTest(within=within, low=low):
                self.assertIs(Goal.of(within).holds(Interval(low, high)), holds)

    def test_whether_there_is_an_answer_has_to_be_known(self):
        self.assertFalse(Goal.of("50%").holds(Interval(100, 101, "maybe")))
        self.assertFalse(Goal.of("50%").holds(Interval(None, None, "maybe")))
        self.assertTrue(Goal.of("1%").holds(Interval(None, None, "surely")))

    def test_blocks(self):
        self.assertEqual([Goal.of(10).reached(block) for block in read(SUM)[1]], [False, False, True, True, True])
        self.assertEqual([Goal.of(1000).reached(block) for block in read(GROUPS)[1]], [False, False])
        self.assertEqual([Goal.of(1000).reached(block) for block in read(TOP_ROWS)[1]], [False, False, False])
        self.assertEqual([[Goal.of(most).reached(block, keys=True) for block in read(TOP_ROWS)[1]][1:] for most in (2, 3)], [[False, False], [False, True]])


if __name__ == "__main__":
    unittest.main()
