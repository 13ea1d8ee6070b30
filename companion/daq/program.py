"""Finds the program daq, runs it, and turns what it refuses into errors."""
from __future__ import annotations

import os
import re
import shutil
import subprocess
import tempfile
from contextlib import suppress
from pathlib import Path
from typing import IO, Iterator, Optional, Sequence

from .errors import CutError, DaqError, FileError, ProgramError, QueryError, TableError
from .hints import query_hint, table_hint
from .report import whole_lines

HERE = Path(__file__).resolve().parent
# Where the program stands beside this package: in its repository, and where `make install` puts both.
BESIDE = (HERE.parent.parent / "crates" / "daq" / "out" / "daq", HERE.parent.parent.parent.parent / "bin" / "daq")


def find_program(given: Optional[str] = None) -> str:
    """The program that is given, else that of the variable DAQ, else the one beside this package, else the one on the PATH."""
    named = given or os.environ.get("DAQ")
    if named:
        return os.fspath(named)
    for path in BESIDE:
        if path.is_file() and os.access(path, os.X_OK):
            return str(path)
    found = shutil.which("daq")
    if not found:
        raise ProgramError("there is no program daq: name it as program=, or in the variable DAQ, or put it on the PATH")
    return found


class Run:
    """A run of the program whose output is read as it comes."""

    def __init__(self, program: str, words: Sequence[str], is_fed: bool = False) -> None:
        self._words, self._errors = words, tempfile.TemporaryFile()
        given = subprocess.PIPE if is_fed else subprocess.DEVNULL
        try:
            self._process = subprocess.Popen([program, *words], stdin=given, stdout=subprocess.PIPE, stderr=self._errors)
        except (OSError, ValueError) as error:
            self._errors.close()
            raise ProgramError("the program did not start: %s" % error) from error

    def lines(self) -> Iterator[str]:
        """The lines of the output. Behind the last one the run has to have ended well."""
        try:
            yield from whole_lines(self._process.stdout.readline)
        except CutError:
            # A program that failed says itself why its output is cut.
            self.finish()
            raise
        self.finish()

    @property
    def output(self) -> IO[bytes]:
        """What it prints, for whoever does not read it by `lines`."""
        return self._process.stdout

    def feed(self, given: bytes) -> None:
        """Hands bytes to its standard input."""
        self._process.stdin.write(given)
        self._process.stdin.flush()

    def close_feed(self) -> None:
        """Says that no more is handed to it. Whether it has ended before, is no matter."""
        with suppress(BrokenPipeError):
            self._process.stdin.close()

    def finish(self) -> None:
        """Waits for the end; a status other than 0 is a Failed with the line that the program wrote."""
        self._process.stdout.close()
        status = self._process.wait()
        if status:
            self._errors.seek(0)
            line = self._errors.read(10000).decode("utf-8", "replace").strip()
            raise Failed(status, line, self._words)

    def kill(self) -> None:
        """Ends the program where it is: nothing more is read, and nothing more is computed."""
        if self._process.poll() is None:
            self._process.kill()

    def stop(self) -> None:
        """Ends the program, and lets go of its streams."""
        self.kill()
        self._process.wait()
        self._process.stdout.close()
        self._errors.close()


class Failed(Exception):
    """How a run with these words ended that did not end well: its status, and what it wrote on standard error."""

    def __init__(self, status: int, line: str, words: Sequence[str]) -> None:
        self.status, self.line, self.words = status, line, words
        super().__init__(status, line)

    @property
    def cause(self) -> str:
        """The line without the name of the program."""
        return self.line[len("daq: ") :] if self.line.startswith("daq: ") else self.line

    def behind(self, front: str) -> Optional[str]:
        return self.cause[len(front) :] if self.cause.startswith(front) else None


def output_of(program: str, words: Sequence[str]) -> list[str]:
    """All lines that a run prints."""
    run = Run(program, words)
    try:
        return list(run.lines())
    finally:
        run.stop()


def file_error(failed: Failed, path: str) -> DaqError:
    """Of a run that reads the plane file at the path."""
    told = failed.behind("file refused: ")
    if failed.status == 5 and told:
        return FileError("no whole plane file: %s" % told, path)
    if failed.status == 6:
        return FileError("cannot be read%s" % reason(path), path)
    return other_error(failed)


def query_error(failed: Failed, path: str, text: str, columns: Sequence[str]) -> DaqError:
    """Of a run that asks the plane file at the path, which has these columns."""
    told = failed.behind("query refused: ")
    if failed.status != 3 or not told:
        return file_error(failed, path)
    found = re.search(r" at ([0-9]+)\Z", told)
    place = len(text.encode("utf-8")[: int(found[1])].decode("utf-8", "ignore")) if found else None
    cause = told[: found.start()] if found else told
    return QueryError(cause, text, place, query_hint(cause, text, place, columns))


def load_error(failed: Failed, csv: str, file: str, schema: str) -> DaqError:
    """Of a run that loads a CSV into a file."""
    told = failed.behind("table refused: ")
    if failed.status == 4 and told:
        record, column = (re.search(r"\b%s ([0-9]+)" % word, told) for word in ("record", "column"))
        numbers = (int(found[1]) if found else None for found in (record, column))
        return TableError(told, *numbers, hint=table_hint(told, schema))
    if failed.status == 6:
        return FileError("cannot be read%s" % reason(csv), csv)
    if failed.status == 7:
        return FileError("could not be written", file)
    return other_error(failed)


def other_error(failed: Failed) -> ProgramError:
    refused = re.fullmatch(r"usage: word ([0-9]+)", failed.cause)
    if failed.status == 2 and refused:
        word = "".join(failed.words[int(refused[1]) - 1 : int(refused[1])])
        return ProgramError("the program takes no argument %r there; it may be older than this package" % word, 2)
    ended = "was ended by signal %d" % -failed.status if failed.status < 0 else "ended with status %d" % failed.status
    return ProgramError("the program %s%s" % (ended, failed.line and ": " + failed.line), failed.status)


def reason(path: str) -> str:
    """Why the system does not let a file be read, as far as a try tells."""
    try:
        with open(path, "rb") as file:
            file.read(1)
    except OSError as error:
        return ": %s" % error.strerror
    return ""
