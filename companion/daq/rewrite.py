"""Writes a CSV anew in the form that the program takes: without some columns, with empty fields for nothing, and with commas."""
from __future__ import annotations

import csv
from dataclasses import dataclass
from typing import Iterator, Sequence, Union

from .errors import FileError, TableError
from .guess import check_names, records_of


@dataclass(frozen=True)
class Rewriting:
    """What is changed: the columns that are left out, the texts that stand for nothing, and what separates fields."""

    skip: tuple[str, ...]
    null: frozenset[str]
    delimiter: str

    @staticmethod
    def of(skip: Union[str, Sequence[str]], null: Union[str, Sequence[str], None], delimiter: str) -> Rewriting:
        if len(delimiter) != 1:
            raise ValueError("a delimiter is one sign, not %r" % delimiter)
        names = (skip,) if isinstance(skip, str) else tuple(skip)
        nothings = () if null is None else (null,) if isinstance(null, str) else tuple(null)
        return Rewriting(names, frozenset(nothings), delimiter)

    @property
    def changes(self) -> bool:
        """Whether more is changed than that columns are left out."""
        return bool(self.null or self.delimiter != ",")


def rewrite(given: str, made: str, rewriting: Rewriting) -> None:
    """Writes the CSV at the path `given` anew at the path `made`. Records keep their numbers."""
    try:
        with open(made, "w", encoding="utf-8", newline="") as file:
            csv.writer(file, lineterminator="\n").writerows(_records(given, rewriting))
    except OSError as error:
        raise FileError("could not be written: %s" % error.strerror, made) from error


def _records(given: str, rewriting: Rewriting) -> Iterator[list[str]]:
    records = records_of(given, rewriting.delimiter)
    names = next(records, [])
    check_names(names, rewriting.skip)
    kept = [place for place, name in enumerate(names) if name not in rewriting.skip]
    yield [names[place] for place in kept]
    for number, record in enumerate(records, 2):
        if len(record) != len(names):
            raise TableError("record %d has %d fields, not %d" % (number, len(record), len(names)), record=number,
                             hint="Each record has as many fields as the header; a field with the delimiter stands in double quotes.")
        yield ["" if record[place] in rewriting.null else record[place] for place in kept]
