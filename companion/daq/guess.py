"""Guesses the schema of a CSV: for each column the narrowest type that all its fields have, or skip where it would be refused."""
from __future__ import annotations

import csv
import datetime
import re
import shlex
from dataclasses import dataclass, field as default_of
from decimal import Decimal
from fractions import Fraction
from typing import Callable, Iterable, Iterator, Optional, Sequence

from .errors import FileError, TableError

MOST_COLUMNS = 64
MOST_TEXTS = 65_536
MOST_BYTES = 255
_NUMBER = re.compile(r"[+-]?(?=\.?[0-9])[0-9]*(\.([0-9]*?)0*)?")
_DATE = re.compile(r"[0-9]{4}-[0-9]{2}-[0-9]{2}")
_NAME = re.compile(r"[ !#-+\--9;-~]{1,64}")
# Texts that often stand for nothing, between numbers or days.
NOTHINGS = frozenset(("NA", "N/A", "na", "n/a", "NULL", "null", "None", "NaN", "nan", r"\N", "-", "?"))


@dataclass
class Guess:
    """What the fields of a column are so far."""

    empty: bool = False
    any: bool = False
    # Whether all are numbers or stand for nothing, with so many decimals, and between these ends; and whether some have zeros in front.
    numbers: bool = True
    point: bool = False
    zeros: bool = False
    scale: int = 0
    least: Decimal = Decimal(0)
    greatest: Decimal = Decimal(0)
    # Whether all are days or stand for nothing.
    dates: bool = True
    nothings: set[str] = default_of(default_factory=set)
    # The different texts, up to one more than a column takes, and the most bytes of one.
    texts: set[str] = default_of(default_factory=set)
    longest: int = 0

    def take(self, field: str) -> None:
        if not field:
            self.empty = True
            return
        if len(self.texts) <= MOST_TEXTS:
            self.texts.add(field)
        if len(field) * 4 > self.longest:
            self.longest = max(self.longest, len(field.encode("utf-8", "surrogateescape")))
        if field in NOTHINGS:
            self.nothings.add(field)
            return
        self.any = True
        if self.numbers:
            self._take_number(field)
        if self.dates:
            self.dates = is_date(field)

    def _take_number(self, field: str) -> None:
        number = _NUMBER.fullmatch(field)
        if not number:
            self.numbers = False
            return
        self.point = self.point or number[1] is not None
        self.zeros = self.zeros or field[0] == "0" and field[1:2].isdigit()
        self.scale = max(self.scale, len(number[2] or ""))
        # Shorter ones fit with each scale.
        if len(field) > 9:
            value = Decimal(field)
            self.least, self.greatest = min(self.least, value), max(self.greatest, value)

    def number_type(self) -> Optional[str]:
        """The type of numbers that all of them have."""
        least, greatest = (Fraction(end) * 10**self.scale for end in (self.least, self.greatest))
        fits = self.any and self.numbers and self.scale <= 9 and -(2**63) <= least and greatest < 2**63
        return ("dec%d" % self.scale if self.point else "int") if fits else None

    def narrow_type(self) -> Optional[str]:
        """The type of all that is not for nothing, where it is not text."""
        return self.number_type() or ("date" if self.any and self.dates else None)

    def kind(self) -> str:
        """The narrowest type that all fields have."""
        kind = "text" if self.nothings else self.narrow_type() or "text"
        return kind + "?" * self.empty

    def type(self) -> str:
        return "skip" if any(self.skips()) else self.kind()

    def skips(self) -> Iterator[str]:
        """Why a column of this type would be refused, and so is skipped."""
        if self.kind().startswith("text"):
            if len(self.texts) > MOST_TEXTS:
                yield "it has more than 65,536 different texts: skipped"
            if self.longest > MOST_BYTES:
                yield "a text has more than 255 bytes: skipped; make its texts shorter to keep it"

    def advice(self) -> Iterator[str]:
        """What another type would take."""
        narrow = self.narrow_type()
        if self.nothings and narrow:
            told = sorted(self.nothings)
            nulls = " ".join("--null %s" % shlex.quote(text) for text in told)
            yield "all but %s is %s: if that means nothing, daq-view load %s gives it the type %s?" % (" and ".join(told), narrow, nulls, narrow)
        if self.any and self.numbers and self.scale > 9:
            yield "its numbers have %d decimals, and a column has at most 9: round them for a dec9" % self.scale
        if self.kind().startswith("int") and self.zeros:
            yield "its numbers have zeros in front, which int drops: text keeps them"


def is_date(field: str) -> bool:
    try:
        return bool(_DATE.fullmatch(field) and datetime.date.fromisoformat(field))
    except ValueError:
        return False


def name_fault(name: str, before: Sequence[str]) -> str:
    """Why no schema takes the name, and what to do; nothing where one does."""
    if not _NAME.fullmatch(name):
        return "a name has 1 to 64 signs from space to ~, none of them a comma, a colon or a double quote: change the header"
    return "a column before it has this name: change the header" if name in before else ""


class Guesses:
    """The columns of a CSV by name, with what their fields are. Of those that are to be skipped nothing is asked."""

    def __init__(self, records: Iterable[list[str]], skip: Sequence[str] = ()) -> None:
        rest = iter(records)
        names = next(rest, None)
        if names is None:
            raise TableError("no header", hint="The first record of a CSV names its columns.")
        check_names(names, skip)
        self.names, self.columns = names, [None if name in skip else Guess() for name in names]
        kept = [(place, column) for place, column in enumerate(self.columns) if column]
        for record in rest:
            for place, column in kept:
                if place < len(record):
                    column.take(record[place])

    @property
    def types(self) -> list[str]:
        return [column.type() if column else "skip" for column in self.columns]

    @property
    def schema(self) -> str:
        return ",".join("%s:%s" % item for item in zip(self.names, self.types))

    def notes_of(self, told: Callable[[Guess], Iterable[str]]) -> list[tuple[int, str]]:
        """What is told of columns, by number."""
        return [(number, why) for number, column in enumerate(self.columns, 1) if column for why in told(column)]

    def name_faults(self) -> Iterator[tuple[int, str]]:
        """The columns, by number, whose names stand in no schema, and why."""
        for number, name in enumerate(self.names, 1):
            fault = name_fault(name, self.names[: number - 1])
            if fault:
                yield number, fault

    def refusals(self) -> list[tuple[int, str]]:
        """The columns, by number, that would be refused although some are skipped, and what to do."""
        kept = [number for number, kind in enumerate(self.types, 1) if kind != "skip"]
        more = [(kept[MOST_COLUMNS], "a table has at most 64 columns: skip some")] if len(kept) > MOST_COLUMNS else []
        none = [] if kept else [(len(self.names), "a table has at least one column, and all of these are skipped")]
        return sorted([*more, *none, *self.name_faults()])

    def skipped(self) -> list[tuple[int, str]]:
        return self.notes_of(Guess.skips)

    def advice(self) -> list[tuple[int, str]]:
        return self.notes_of(Guess.advice)


def records_of(path: str, delimiter: str = ",") -> Iterator[list[str]]:
    """The records of the CSV at the path; lines without a byte are none."""
    csv.field_size_limit(2**30)
    try:
        with open(path, newline="", encoding="utf-8-sig") as file:
            yield from filter(None, csv.reader(file, delimiter=delimiter))
    except OSError as error:
        raise FileError("cannot be read: %s" % error.strerror, path) from error
    except UnicodeDecodeError as error:
        raise TableError("the CSV is no UTF-8 at byte %d" % error.start, hint="Write it anew as UTF-8.") from error
    except csv.Error as error:
        raise TableError("no CSV: %s" % error) from error


def check_names(names: Sequence[str], skip: Sequence[str]) -> None:
    unknown = next((name for name in skip if name not in names), None)
    if unknown is not None:
        raise TableError("no column has the name %s" % unknown, hint="The columns are %s." % ", ".join(names))


def can_skip(path: str, skip: Sequence[str]) -> bool:
    """Whether a schema can skip these columns: all names of the header can stand in one."""
    names = next(records_of(path), [])
    check_names(names, skip)
    return not any(name_fault(name, names[:place]) for place, name in enumerate(names))


def with_skips(path: str, skip: Sequence[str], schema: str) -> str:
    """The schema of the columns that are left, with those that are skipped."""
    left = iter(schema.split(","))
    items = ("%s:skip" % name if name in skip else next(left, None) for name in next(records_of(path), []))
    return ",".join([item for item in items if item is not None] + [*left])


def guess_schema(path: str, skip: Sequence[str] = ()) -> str:
    """The schema of the CSV at the path, as price:dec2,city:text?,comment:skip."""
    guesses = Guesses(records_of(path), skip)
    for number, fault in guesses.name_faults():
        cause = "the name of column %d cannot stand in a schema: %r" % (number, guesses.names[number - 1][:80])
        raise TableError(cause, column=number, hint=fault[:1].upper() + fault[1:] + ".")
    return guesses.schema
