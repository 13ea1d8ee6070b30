"""When an answer is narrow enough: the companion stops reading then."""
from __future__ import annotations

import re
from dataclasses import dataclass
from decimal import Decimal
from fractions import Fraction
from typing import Union

from .report import Block, Item
from .values import Interval

Within = Union[str, int, Decimal, Fraction]


@dataclass(frozen=True)
class Goal:
    """How far the ends of an interval may be apart: by so much, or, if `relative`, by that part of the answer, whatever it is."""

    most: Fraction
    relative: bool

    @staticmethod
    def of(within: Within) -> Goal:
        """Of "1%", of a number in the units of the values (100 for 100.00), or of its text."""
        if isinstance(within, bool) or not isinstance(within, (str, int, Decimal, Fraction)):
            raise TypeError("within is a text as '1%%', an int or a Decimal, not %r" % (within,))
        text = str(within).strip() if isinstance(within, str) else ""
        if isinstance(within, str) and not re.fullmatch(r"[0-9]+(\.[0-9]+)? ?%?", text, re.ASCII):
            raise ValueError("within is a text as '1%%' or '100', not %r" % within)
        number = Fraction(text.rstrip("% ") if text else within)
        if number < 0:
            raise ValueError("within is not below 0")
        relative = text.endswith("%")
        return Goal(number / 100 if relative else number, relative)

    def reached(self, block: Block, keys: bool = False) -> bool:
        """Whether each item of the block is so narrow, and each group surely there; of first rows in an order, if it is asked for their
        `keys`, whether these are so narrow.

        Which rows are the first is not a question of width: there the program ends by itself.
        """
        if block.ranking:
            return keys and block.ranking.possible == 0 and all(self.holds(row.interval) for row in block.ranking.rows)
        sure = all(group.state in ("", "present") for group in block.groups)
        return sure and all(self._item(item) for group in block.groups for item in group.items)

    def _item(self, item: Item) -> bool:
        # Each of the lines of an item is certain by itself.
        return any(self.holds(interval) for interval in (item.interval, item.clip, item.exact) if interval)

    def holds(self, interval: Interval) -> bool:
        if interval.is_known:
            return True
        wide = interval.relative_width if self.relative else interval.width
        return interval.null == "never" and wide is not None and Fraction(wide) <= self.most
