"""Values as a report shows them, and the intervals in which they lie. All arithmetic is exact."""
from __future__ import annotations

import datetime
import decimal
import re
from dataclasses import dataclass
from decimal import Decimal
from fractions import Fraction
from typing import Optional, Union

Number = Union[int, Decimal, Fraction]
Value = Union[int, Decimal, Fraction, datetime.date, str]

# No half of a sign, which bytes that are no UTF-8 are read as.
TEXT = r"'(?:[^'\ud800-\udfff]|'')*'"
NUMBER = r"-?(?:0|[1-9][0-9]{0,39})(?:\.[0-9]{1,18})?"
DATE = r"[0-9]{4}-[0-9]{2}-[0-9]{2}"
VALUE = r"(?:%s|%s|%s(?:/[1-9][0-9]{0,39})?|-)" % (TEXT, DATE, NUMBER)
INTERVAL = r"(?:null|(?:\[%s, %s\]|%s)(?: or null)?)" % (VALUE, VALUE, VALUE)

_ENDS = re.compile(r"(?:\[(%s), (%s)\]|(%s))( or null)?" % (VALUE, VALUE, VALUE))
_DATE = re.compile(DATE)
_EXACT = decimal.Context(prec=300, traps=[decimal.Inexact, decimal.InvalidOperation, decimal.Overflow])


def parse_value(text: str) -> Optional[Value]:
    """The value that a text of the form VALUE shows: None for `-`, which stands where a column has no text at all.

    A date of the year 0000, which Python has not, stays a text.
    """
    return _kind_and_value(text)[1]


def parse_ends(low: str, high: str) -> tuple[Optional[Value], Optional[Value]]:
    """Two values of one kind, the first of them not above the other; numbers of one kind show equally many decimals."""
    if low == high:
        return (parse_value(low),) * 2
    (kind, least), (other, greatest) = _kind_and_value(low), _kind_and_value(high)
    if kind != other or least is None or greatest is None or (low > high if kind == "date" else least > greatest):
        raise ValueError("not two ends in order: %s, %s" % (low, high))
    return least, greatest


def _kind_and_value(text: str) -> tuple[object, Optional[Value]]:
    if text == "-":
        return "text", None
    if text.startswith("'"):
        return "text", text[1:-1].replace("''", "'")
    if _DATE.fullmatch(text):
        return "date", _date(text)
    number, _, count = text.partition("/")
    decimals = len(number.partition(".")[2])
    if count:
        return ("fraction", decimals), Fraction(number) / int(count)
    return ("number", decimals), Decimal(number) if decimals else int(number)


def _date(text: str) -> Union[datetime.date, str]:
    # The year 4 has the same days as the year 0.
    day = datetime.date.fromisoformat("0004" + text[4:] if text.startswith("0000") else text)
    return text if text.startswith("0000") else day


@dataclass(frozen=True)
class Interval:
    """Where an answer lies: from `low` to `high`, both included. `null` is "never", "maybe", or "surely", where there is no answer.

    Both ends are None where there is surely no answer, and where the report shows `-`.
    """

    low: Optional[Value]
    high: Optional[Value]
    null: str = "never"

    @staticmethod
    def parse(text: str) -> Interval:
        """Of a text of the form INTERVAL; a ValueError says what is wrong with its values."""
        if text == "null":
            return Interval(None, None, "surely")
        ends = _ENDS.fullmatch(text)
        if not ends:
            raise ValueError("no interval: %s" % text)
        first, last, one, null = ends.groups()
        return Interval(*parse_ends(one or first, one or last), "maybe" if null else "never")

    @property
    def maybe_null(self) -> bool:
        return self.null != "never"

    @property
    def is_known(self) -> bool:
        """Whether the answer is known: one value, or that there is none."""
        return self.null == "surely" or self.null == "never" and self.low == self.high

    @property
    def width(self) -> Optional[Number]:
        """How far the ends are apart, in days for dates; None for different texts, and where there are no ends."""
        if self.low is None or self.high is None:
            return None
        return distance(self.low, self.high)

    @property
    def mid(self) -> Optional[Value]:
        """The middle of the ends, for dates rounded down; None for different texts, and where there are no ends."""
        if self.low is None or self.high is None:
            return None
        return middle(self.low, self.high)

    @property
    def relative_width(self) -> Optional[Fraction]:
        """The width as a part of the answer, whatever the answer is: by the number in the interval that is nearest to 0.

        0 where the ends are equal, None where they differ and 0 lies between, and for what is no number.
        """
        low, high = self.low, self.high
        if low is None or high is None:
            return None
        if low == high:
            return Fraction(0)
        if not is_number(low) or not is_number(high) or low <= 0 <= high:
            return None
        least, greatest = (low, high) if isinstance(low, int) else (Fraction(low), Fraction(high))
        return Fraction(greatest - least, min(abs(least), abs(greatest)))


def is_number(value: object) -> bool:
    return isinstance(value, (int, Decimal, Fraction))


def distance(low: Value, high: Value) -> Optional[Number]:
    if isinstance(low, datetime.date) and isinstance(high, datetime.date):
        return (high - low).days
    if not is_number(low) or not is_number(high):
        return 0 if low == high else None
    return _EXACT.subtract(high, low) if isinstance(low, Decimal) else high - low


def middle(low: Value, high: Value) -> Optional[Value]:
    if low == high:
        return low
    if isinstance(low, datetime.date) and isinstance(high, datetime.date):
        return low + (high - low) // 2
    if not is_number(low) or not is_number(high):
        return None
    if isinstance(low, Fraction):
        return (low + high) / 2
    total = _EXACT.add(Decimal(low), Decimal(high))
    half = _EXACT.divide(total, Decimal(2))
    return int(half) if isinstance(low, int) and half == int(half) else half


def rounded(number: Fraction, decimals: int, up: bool) -> Decimal:
    """The number with so many decimals, rounded up or down, never to the nearer side."""
    unit = 10**decimals
    units = -(-number.numerator * unit // number.denominator) if up else number.numerator * unit // number.denominator
    return Decimal(units).scaleb(-decimals, _EXACT)


def decimals_shown(interval: Interval) -> int:
    """With how many decimals an interval of fractions is shown: so many that rounding outward does not show much."""
    width = Fraction(interval.width or 0)
    if not width:
        return next((decimals for decimals in range(6) if (Fraction(interval.low) * 10**decimals).denominator == 1), 6)
    decimals = 2
    while decimals < 18 and width * 10**decimals < 100:
        decimals += 1
    return decimals


def shown_ends(interval: Interval) -> tuple[Optional[Value], Optional[Value]]:
    """The ends as they are shown: fractions as decimals, the low one rounded down and the high one up."""
    low, high = interval.low, interval.high
    if isinstance(low, Fraction) and isinstance(high, Fraction):
        decimals = decimals_shown(interval)
        return rounded(low, decimals, False), rounded(high, decimals, True)
    return low, high


def value_text(value: Optional[object]) -> str:
    """A value for people and for CSV: digits, a day, or the text itself; nothing for None."""
    if value is None:
        return ""
    if isinstance(value, Decimal):
        return format(value, "f")
    if isinstance(value, Fraction):
        return format(rounded(value, 6, False).normalize(_EXACT), "f")
    return value.isoformat() if isinstance(value, datetime.date) else str(value)


def interval_text(interval: Interval) -> str:
    """An interval as people read it: `28 .. 32`, `29`, `28 .. 32 or null`, `null`."""
    if interval.null == "surely":
        return "null"
    low, high = shown_ends(interval)
    ends = value_text(low) if low == high else "%s .. %s" % (value_text(low), value_text(high))
    return (ends or "-") + (" or null" if interval.null == "maybe" else "")


# Relative widths above 1,000 % are not shown.
MOST_SHOWN = 10


def percent_text(part: Optional[Fraction]) -> str:
    """A relative width in percent with two or more digits, rounded up; nothing where it is not known, or so large that it says nothing."""
    if part is None or part > MOST_SHOWN:
        return ""
    if not part:
        return "0 %"
    decimals = 0
    while decimals < 12 and part.numerator * 10 ** (decimals + 1) < part.denominator:
        decimals += 1
    return value_text(rounded(part * 100, decimals, True)) + " %"
