"""Plane files: making one of a CSV, opening one, and asking it."""
from __future__ import annotations

import os
import re
from contextlib import contextmanager
from dataclasses import dataclass
from typing import Callable, Iterator, Optional, Sequence, Union

from .errors import CutError, DaqError, FileError, QueryError, ReportError
from .goal import Goal, Within
from .guess import can_skip, guess_schema, with_skips
from .program import Failed, Run, file_error, find_program, load_error, output_of, query_error
from .report import Block, Report
from .result import Result
from .rewrite import Rewriting, rewrite
from .values import VALUE, Value, parse_ends

_LOADED = re.compile(r"loaded [0-9]+ rows, [0-9]+ columns, [0-9]+ planes, [0-9]+ bytes")
_HEAD = re.compile(r"version [0-9]+ rows ([0-9]+) columns ([0-9]+)")
_COLUMN = re.compile(r"column ([0-9]+) (.+) (int|dec[0-9]|date|text)(\??) width ([0-9]+) from (%s) to (%s)" % (VALUE, VALUE), re.DOTALL)

Reads = Union[str, Sequence[str], None]
# The policies, the one for large tables first.
POLICIES = ("balanced", "widest", "filter", "order")


@dataclass(frozen=True)
class Column:
    """A column as the head of its file declares it: how many planes it has, and between which values it lies."""

    name: str
    type: str
    nullable: bool
    planes: int
    least: Optional[Value]
    greatest: Optional[Value]


class Table:
    """A plane file that can be asked."""

    def __init__(self, path: str, program: str) -> None:
        self.path, self.program = path, program
        try:
            lines = output_of(program, ["info", path])
        except Failed as failed:
            raise file_error(failed, path) from None
        self.rows, self.columns = parse_info(lines)

    @property
    def plane_bytes(self) -> int:
        """The bytes of a plane: 8 for each 64 rows."""
        return 8 * -(-self.rows // 64)

    def __repr__(self) -> str:
        return "<daq.Table %s: %d rows, %d columns>" % (self.path, self.rows, len(self.columns))

    def run(self, text: str, words: Sequence[str]) -> Run:
        """Begins to ask a query with these options."""
        return Run(self.program, ["query", self.path, text, *words])

    def error(self, failed: Failed, text: str) -> DaqError:
        """What is wrong where that ended so."""
        return query_error(failed, self.path, text, [column.name for column in self.columns])

    def sql(self, text: str, within: Optional[Within] = None, policy: Optional[str] = None, rounds: Optional[int] = None,
            reads: Reads = None, list: bool = False, clip: bool = False, exact_avg: bool = False, keys: bool = False) -> Result:
        """Asks a query, until each answer is known, or narrow enough: `within="1%"`, or `within=100` in the units of the values."""
        asked = Asked(self, text, within, options(policy, rounds, reads, list, clip, exact_avg, keys))
        blocks = [*asked]
        return Result(blocks[-1].query, blocks, asked.end)

    def rounds(self, text: str, within: Optional[Within] = None, policy: Optional[str] = None, rounds: Optional[int] = None,
               reads: Reads = None, list: bool = False, clip: bool = False, exact_avg: bool = False, keys: bool = False) -> Iterator[Block]:
        """The blocks of a query as they come. Leaving the loop ends the program."""
        yield from Asked(self, text, within, options(policy, rounds, reads, list, clip, exact_avg, keys))

    def show(self, text: str, within: Optional[Within] = None, policy: Optional[str] = None, rounds: Optional[int] = None,
             reads: Reads = None, list: bool = False, clip: bool = False, exact_avg: bool = False, keys: bool = False) -> Result:
        """Asks a query and shows each block: in a notebook in one cell that narrows in place, else as text."""
        question = Asked(self, text, within, options(policy, rounds, reads, list, clip, exact_avg, keys))
        display, blocks = cell(), []
        for block in question:
            blocks.append(block)
            display(Result(block.query, blocks, question.end))
        return Result(blocks[-1].query, blocks, question.end)


def cell() -> Callable[[Result], None]:
    """Shows results one over the other in the cell of a notebook; elsewhere prints them."""
    try:
        from IPython import get_ipython
        from IPython.display import display
    except ImportError:
        get_ipython = None
    if get_ipython is None or not hasattr(get_ipython(), "kernel"):
        return print
    handle = display(display_id=True)
    return lambda result: handle.update(result)


class Asked:
    """A query that is asked as soon as it is iterated; `end` says behind the last block why the rounds ended."""

    def __init__(self, table: Table, text: str, within: Optional[Within], words: Sequence[str]) -> None:
        self.table, self.text, self.words = table, text, words
        self.goal = None if within is None else Goal.of(within)
        self.end = ""
        self._run: Optional[Run] = None
        check_text(text)

    @property
    def policy(self) -> str:
        """The policy that is asked for; `reads` where a list of reads takes its place."""
        if "--reads" in self.words:
            return "reads"
        return self.words[self.words.index("--policy") + 1] if "--policy" in self.words else "widest"

    def by_policy(self, policy: str) -> Asked:
        """The same question by another policy: it begins anew."""
        words = list(self.words)
        for word in ("--policy", "--reads"):
            if word in words:
                place = words.index(word)
                del words[place : place + 2]
        asked = Asked(self.table, self.text, None, ["--policy", policy, *words])
        asked.goal = self.goal
        return asked

    def stop(self) -> None:
        """Ends the program, from another thread too: whoever iterates gets no more blocks, and no error."""
        self.end = "stopped"
        if self._run:
            self._run.kill()

    def __iter__(self) -> Iterator[Block]:
        if self.end == "stopped":
            return
        run = self._run = self.table.run(self.text, self.words)
        try:
            sharper = "--clip" in self.words or "--exact-avg" in self.words
            report = Report(run.lines(), sharper, "--list" in self.words, self.table.plane_bytes)
            for block in report:
                reached = self.goal is not None and self.goal.reached(block, "--keys" in self.words)
                self.end = "within" if reached else self.end
                yield block
                if reached or self.end == "stopped":
                    return
            self.end = report.end or ""
        except (Failed, CutError) as failed:
            if self.end == "stopped":
                return
            if isinstance(failed, CutError):
                raise
            raise self.table.error(failed, self.text) from None
        finally:
            run.stop()


def load(csv: Union[str, os.PathLike], file: Union[str, os.PathLike], schema: Optional[str] = None, skip: Sequence[str] = (),
         null: Union[str, Sequence[str], None] = None, delimiter: str = ",", program: Optional[str] = None) -> Table:
    """Writes the table of a CSV as a plane file, and opens it. A schema that is not given is guessed.

    `skip` names columns that are left out: a schema then names those that are left. `null` are the texts that stand for nothing, and
    `delimiter` is what separates fields: for these, or to skip a column whose name cannot stand in a schema, the CSV is written anew, beside
    the file, before it is loaded. What stood at the path of the file stands there until the new file is whole.
    """
    csv, file = os.fspath(csv), os.fspath(file)
    check_target(csv, file)
    found = find_program(program)
    # A link stays, and what it leads to is made anew.
    target = os.path.realpath(file)
    rewriting = Rewriting.of(skip, null, delimiter)
    with temporary(target, "csv") as clean, temporary(target, "part") as part:
        given, left_out = csv, rewriting.skip
        if rewriting.changes or left_out and not can_skip(csv, left_out):
            rewrite(csv, clean, rewriting)
            given, left_out = clean, ()
        schema = guess_schema(given, left_out) if schema is None else with_skips(given, left_out, schema) if left_out else schema
        try:
            lines = output_of(found, ["load", given, part, schema])
        except Failed as failed:
            raise load_error(failed, csv, file, schema) from None
        if len(lines) != 1 or not _LOADED.fullmatch(lines[0]):
            raise ReportError("load printed no line of its own: %r" % lines[:2])
        os.replace(part, target)
    return Table(file, found)


@contextmanager
def temporary(target: str, ending: str) -> Iterator[str]:
    """A path beside the target, where nothing stands afterwards."""
    path = os.path.join(os.path.dirname(target), ".%s.%d.%s" % (os.path.basename(target), os.getpid(), ending))
    try:
        yield path
    finally:
        if os.path.exists(path):
            os.remove(path)


def check_target(csv: str, file: str) -> None:
    """A plane file takes the place of nothing or of a regular file, and not of its own CSV."""
    if os.path.exists(file) and not os.path.isfile(file):
        raise FileError("stands there already, and is no regular file", file)
    if os.path.exists(file) and os.path.exists(csv) and os.path.samefile(csv, file):
        raise FileError("would take the place of its own CSV", file)


def options(policy: Optional[str] = None, rounds: Optional[int] = None, reads: Reads = None, list: bool = False, clip: bool = False,
            exact_avg: bool = False, keys: bool = False) -> list[str]:
    """The words of the program for these options of a query."""
    if policy is not None and reads is not None:
        raise ValueError("policy and reads both say which column is read next: give one of them")
    words = [] if policy is None else ["--policy", policy]
    words += [] if rounds is None else ["--rounds", str(int(rounds))]
    words += [] if reads is None else ["--reads", reads if isinstance(reads, str) else ",".join(reads)]
    flags = ("--list", list), ("--clip", clip), ("--exact-avg", exact_avg), ("--keys", keys)
    return words + [word for word, given in flags if given]


def check_text(text: str) -> None:
    """A query goes to the program as one word, so it has no NUL, and only signs that UTF-8 has."""
    place = next((place for place, sign in enumerate(text) if sign == "\0" or "\ud800" <= sign <= "\udfff"), None)
    if place is not None:
        raise QueryError("no text", text, place, "A query has no NUL and no half of a sign.")


def parse_info(lines: Sequence[str]) -> tuple[int, list[Column]]:
    """The number of rows and the columns that `info` tells."""
    head = _HEAD.fullmatch(lines[0]) if lines else None
    columns = [parse_column(number, line) for number, line in enumerate(lines[1:], 1)]
    if not head or int(head[2]) != len(columns):
        raise ReportError("info told no head of a file: %r" % lines[:1])
    return int(head[1]), columns


def parse_column(number: int, line: str) -> Column:
    """The column of a line of `info`."""
    found = _COLUMN.fullmatch(line)
    try:
        ends = parse_ends(found[6], found[7]) if found and int(found[1]) == number else None
    except ValueError:
        ends = None
    if not ends:
        raise ReportError("info told no column %d: %r" % (number, line[:120]))
    nullable = found[4] == "?"
    return Column(found[2], found[3], nullable, int(found[5]) + nullable, *ends)
