"""The errors of the companion: what the program refused, and why, in words that help to repair it."""
from __future__ import annotations

from typing import Optional


class DaqError(Exception):
    """Whatever the companion or the program could not do."""


class QueryError(DaqError):
    """A refused query: `text`, the `place` in it where it fails (counted in signs from 0, or None), and a `hint`."""

    def __init__(self, cause: str, text: str, place: Optional[int] = None, hint: str = "") -> None:
        self.cause, self.text, self.place, self.hint = cause, text, place, hint
        super().__init__("\n".join(filter(None, [cause, pointed(text, place), hint])))


class TableError(DaqError):
    """A refused CSV or schema: `record` and `column` count from 1, the header too; both may be None."""

    def __init__(self, cause: str, record: Optional[int] = None, column: Optional[int] = None, hint: str = "") -> None:
        self.cause, self.record, self.column, self.hint = cause, record, column, hint
        super().__init__("\n".join(filter(None, [cause, hint])))


class FileError(DaqError):
    """A file that could not be read or written, or that is no whole plane file: `path` and the `cause`."""

    def __init__(self, cause: str, path: str) -> None:
        self.cause, self.path = cause, path
        super().__init__("%s: %s" % (path, cause))


class ReportError(DaqError):
    """A report that has not the form of a report: the companion does not guess at what it means."""


class CutError(ReportError):
    """A report that ends before its end line."""


class ProgramError(DaqError):
    """The program was not found, did not start, or ended in a way that is none of its own; `status` is None where it did not run."""

    def __init__(self, cause: str, status: Optional[int] = None) -> None:
        self.cause, self.status = cause, status
        super().__init__(cause)


def pointed(text: str, place: Optional[int]) -> str:
    """The line of the text that has the place, and a caret below it."""
    if place is None:
        return ""
    begin = text.rfind("\n", 0, place) + 1
    end = text.find("\n", place)
    line = text[begin : end if end >= 0 else len(text)]
    lead = "".join("\t" if sign == "\t" else " " for sign in line[: place - begin])
    return "  %s\n  %s^" % (line, lead)
