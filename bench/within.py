#!/usr/bin/python3
"""Finds in a report of `daq query` the first block in which each interval is within so many hundredths of its value.

Within 1 % means: high - low <= 1 % of the least absolute value of the interval, which is 0 where the interval has 0. So an interval about
0 is not within before its ends are equal. Neither is one where it is not known whether there is an answer (`or null`), nor a block with a
group that is only possible, since another cell of its keys may be in the result. Items are numbers and averages; no dates and texts, no
orders.
Prints how many planes were read for that block, the number of the report's line with which it ends, and how many planes the report reads
in all; the first two are `-` where no block is so narrow.
usage: within.py HUNDREDTHS < REPORT
"""
import re
import sys
from fractions import Fraction

NUMBER = r"-?\d+(?:\.\d+)?(?:/\d+)?"
ITEM = re.compile(rf"\d+ (?:({NUMBER})|\[({NUMBER}), ({NUMBER})\]( or null)?|null)$")


def value(text):
    """A number, or an average: a sum over a number of rows."""
    total, _, rows = text.partition("/")
    return Fraction(total) / int(rows or 1)


def is_within(line, share):
    """Whether an item's line, or that of a group, tells enough."""
    if line.startswith("group "):
        return line.endswith(" present")
    told = ITEM.match(line)
    if told is None:
        sys.exit(f"within.py: this line is no item: {line}")
    _, low, high, open_end = told.groups()
    if low is None:
        return True
    if open_end:
        return False
    low, high = value(low), value(high)
    least = 0 if low <= 0 <= high else min(abs(low), abs(high))
    return high - low <= share * least


def blocks(lines):
    """The lines of each block, behind that of its round, and the number of its last line."""
    block, number = None, 0
    for number, line in enumerate(lines, 1):
        if line.startswith(("round ", "end ")):
            if block is not None:
                yield block, number - 1
            block = [] if line.startswith("round ") else None
        elif block is not None:
            block.append(line)


def main(words):
    share = Fraction(int(words[1]), 100)
    found, planes = ("-", "-"), 0
    for planes, (block, end) in enumerate(blocks(line.rstrip("\n") for line in sys.stdin)):
        if found[0] == "-" and all([is_within(line, share) for line in block]):
            found = planes, end
    print(*found, planes)


main(sys.argv)
