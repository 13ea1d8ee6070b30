"""A table in many parts: each is a plane file, which a process of its own asks, and one process more combines their reports as they come."""
from __future__ import annotations

import glob
import os
import selectors
import threading
from contextlib import suppress
from dataclasses import replace
from typing import Callable, Iterator, NamedTuple, Optional, Sequence, Union

from .errors import CutError, DaqError, FileError, ReportError
from .program import Failed, Run, find_program, query_error
from .report import asks_for_extremes, asks_for_rows
from .table import Column, Table
from .values import Value

_CHUNK = 65536
# What `combine` does not take of texts, whose lines then are none of a report.
TEXTS = " (MIN and MAX of texts are combined where no text has a line break)"

Files = Union[str, os.PathLike, Sequence[Union[str, os.PathLike]]]


class Parts(Table):
    """The plane files of the parts of a table, in the order of its rows, asked as one table."""

    def __init__(self, name: str, paths: Sequence[str], program: str) -> None:
        self.path, self.program = name, program
        self.tables = [Table(path, program) for path in paths]
        self.rows = sum(table.rows for table in self.tables)
        self.columns = shared_columns(self.tables)

    @property
    def plane_bytes(self) -> int:
        """The bytes of a plane of each part, added up."""
        return sum(table.plane_bytes for table in self.tables)

    def __repr__(self) -> str:
        return "<daq.Parts %s: %d parts, %d rows, %d columns>" % (self.path, len(self.tables), self.rows, len(self.columns))

    def run(self, text: str, words: Sequence[str]) -> PartsRun:
        has_order = asks_for_rows(text)
        if "--list" in words and not has_order:
            raise ValueError("a table in parts is asked without list, but for first rows")
        # A row that is only possible in its part may be among the first of all. So each part lists its possible rows, and goes on until
        # their keys are known. Where they are more than `--part` lists, none is judged.
        asked = [word for word in words if word not in ("--list", "--keys")] + ["--part", "--keys"] if has_order else list(words)
        place = words.index("--rounds") if "--rounds" in words else len(words)
        limits = words[place : place + 2] + (["--keys"] if "--keys" in words else [])
        return PartsRun(self.program, [table.path for table in self.tables], [text, *asked], limits)

    def error(self, failed: Failed, text: str) -> DaqError:
        told = failed.behind("report refused: ")
        if failed.words[0] == "combine" and failed.status == 9 and told:
            texts = [column.name for column in self.columns if column.type == "text"]
            is_of_texts = told.endswith(" at this place") and asks_for_extremes(text, texts)
            return ReportError("the reports of the parts are not combined: %s%s" % (told, TEXTS if is_of_texts else ""))
        path = failed.words[1] if failed.words[0] == "query" else self.path
        return query_error(failed, path, text, [column.name for column in self.columns])


class Source(NamedTuple):
    """A part that is asked: its tag, its run, and what came of a line that is not whole."""

    tag: bytes
    run: Run
    rest: bytearray


class PartsRun:
    """The processes that ask the parts, and the one that combines what they say, whose output is read as it comes."""

    def __init__(self, program: str, paths: Sequence[str], words: Sequence[str], limits: Sequence[str]) -> None:
        self._failed: Optional[Failed] = None
        self._is_over = False
        self._sources: list[Source] = []
        self._combined = Run(program, ["combine", str(len(paths)), "/dev/stdin", *limits], is_fed=True)
        self._feeder = threading.Thread(target=self._feed, daemon=True)
        # Tags that are equally long stand in the order of the parts.
        length = len(str(len(paths)))
        try:
            for number, path in enumerate(paths, 1):
                self._sources.append(Source(b"%0*d\t" % (length, number), Run(program, ["query", path, *words]), bytearray()))
        except DaqError:
            self.kill()
            self._let_go()
            raise
        self._feeder.start()

    def lines(self) -> Iterator[str]:
        """The lines of the combined report. Behind the last one the runs that it needed have to have ended well."""
        try:
            yield from self._combined.lines()
        except (CutError, Failed):
            self._end_parts()
            self._feeder.join()
            if self._failed:
                raise self._failed from None
            raise

    def _feed(self) -> None:
        """Hands on each line of a part, behind its tag, as it comes."""
        # Where the combined report has ended nobody reads on.
        with suppress(BrokenPipeError), selectors.DefaultSelector() as ready:
            for source in self._sources:
                ready.register(source.run.output, selectors.EVENT_READ, source)
            while ready.get_map() and not self._failed:
                for key, _ in ready.select():
                    if not self._hand_on(key.data):
                        ready.unregister(key.fileobj)
                        self._look_at(key.data)
        self._combined.close_feed()

    def _hand_on(self, source: Source) -> bool:
        """Hands on the whole lines that came; whether more may come."""
        came = os.read(source.run.output.fileno(), _CHUNK)
        source.rest.extend(came)
        end = source.rest.rfind(b"\n") + 1
        lines = source.rest[:end].split(b"\n")[:-1]
        del source.rest[:end]
        if lines:
            self._combined.feed(b"".join(b"%s%s\n" % (source.tag, line) for line in lines))
        return bool(came)

    def _look_at(self, source: Source) -> None:
        """Of the first run that ended as it should not, what it said: the others are not needed then."""
        try:
            source.run.finish()
        except Failed as failed:
            if not self._is_over and not self._failed:
                self._failed = failed
                self._end_parts()

    def _end_parts(self) -> None:
        self._is_over = True
        for source in self._sources:
            source.run.kill()

    def kill(self) -> None:
        """Ends all processes where they are."""
        self._end_parts()
        self._combined.kill()

    def stop(self) -> None:
        """Ends all processes, and lets go of their streams."""
        self.kill()
        self._feeder.join()
        self._let_go()

    def _let_go(self) -> None:
        for source in self._sources:
            source.run.stop()
        self._combined.stop()


def shared_columns(tables: Sequence[Table]) -> list[Column]:
    """The columns of all parts, which have to have the same names and types."""
    shared = list(tables[0].columns)
    for table in tables[1:]:
        if [(column.name, column.type) for column in table.columns] != [(column.name, column.type) for column in shared]:
            raise FileError("other columns than %s: load all parts with one schema" % tables[0].path, table.path)
        shared = [joined(one, other) for one, other in zip(shared, table.columns)]
    return shared


def joined(one: Column, other: Column) -> Column:
    """A column of two parts, as far as one can be told of both."""
    least = chosen(min, one.least, other.least)
    greatest = chosen(max, one.greatest, other.greatest)
    return replace(one, nullable=one.nullable or other.nullable, planes=max(one.planes, other.planes), least=least, greatest=greatest)


def chosen(choose: Callable[..., Value], one: Optional[Value], other: Optional[Value]) -> Optional[Value]:
    """Of two ends the one that is chosen; where one is not known, the other."""
    if one is None or other is None:
        return one if other is None else other
    # A date of the year 0 is a text.
    return choose(one, other) if isinstance(one, type(other)) else choose(one, other, key=str)


def open_table(file: Files, program: Optional[str] = None) -> Table:
    """Opens a plane file; by a pattern as `parts/*.daq`, or a list of files, the parts of a table. The program is `program`, or that of the
    variable DAQ, or the one installed."""
    found = find_program(program)
    if not isinstance(file, (str, os.PathLike)):
        paths = [os.fspath(path) for path in file]
        if not paths:
            raise ValueError("a table has one part at least")
        return Parts(", ".join(paths[:2]) + ", .." * (len(paths) > 2), paths, found)
    path = os.fspath(file)
    if not glob.has_magic(path) or os.path.exists(path):
        return Table(path, found)
    paths = sorted(glob.glob(path))
    if not paths:
        raise FileError("no file has such a name", path)
    return Parts(path, paths, found)
