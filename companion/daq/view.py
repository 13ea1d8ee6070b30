"""The commands of daq-view: a live view of a query, its answers in other forms, pictures, loading, schemas, and a page for a browser."""
from __future__ import annotations

import argparse
import os
import sys
from typing import Callable, Optional, Sequence

from .errors import DaqError, FileError, ProgramError, QueryError, TableError
from .guess import Guesses, records_of
from .page import PageServer
from .picture import Picture, svg_of, text_of
from .parts import open_table
from .program import Failed
from .report import Block, whole_lines
from .result import Result, csv_text, end_text, json_lines, rows_of, table_text
from .table import POLICIES, Asked, Column, Table, load, options
from .watch import watch

STATUSES = ((QueryError, 3), (TableError, 4), (FileError, 5))
SCHEMA_REFUSED = 1


def main(words: Optional[Sequence[str]] = None) -> int:
    """Runs the command of these words; the status is that of the program where it refuses something."""
    given = parser().parse_args(words)
    try:
        status = given.call(given)
        sys.stdout.flush()
        return status or 0
    except BrokenPipeError:
        # Nobody reads on. What Python would still write at its end goes nowhere.
        os.dup2(os.open(os.devnull, os.O_WRONLY), sys.stdout.fileno())
    except KeyboardInterrupt:
        return 130
    except (DaqError, ValueError) as error:
        print("daq-view: %s" % error, file=sys.stderr)
        return status_of(error)
    return 0


def status_of(error: Exception) -> int:
    if isinstance(error, ProgramError) and error.status and error.status > 0:
        return error.status
    return next((status for kind, status in STATUSES if isinstance(error, kind)), 2 if isinstance(error, ValueError) else 1)


# ---- the words


def parser() -> argparse.ArgumentParser:
    whole = argparse.ArgumentParser(prog="daq-view", description="Shows what daq answers to a query over a plane file.")
    commands = whole.add_subparsers(dest="command", required=True, metavar="COMMAND")
    live = add_query(commands, "watch", "bars that narrow as planes are read; plain lines where there is no terminal", watch_query)
    live.add_argument("--pause", action="store_true", help="begin with a pause: s shows the next block, the space bar goes on")
    for name, what, call in (("table", "a table of plain text", show_table), ("csv", "CSV", show_csv),
                             ("jsonl", "JSON, an object in a line", show_json)):
        add_query(commands, name, "the last block as %s" % what, call).add_argument(
            "--all", action="store_true", help="each block, as it comes")
    drawn = add_query(commands, "picture", "a picture of all rounds as SVG, of a query or of the report on standard input", picture, "?")
    drawn.add_argument("--text", action="store_true", help="draw for a terminal")
    drawn.add_argument("--rows", type=int, metavar="N", help="tell the bytes read beside each round, of a table of so many rows")
    guessed = add_command(commands, "schema", "the schema of a CSV, guessed, and what would be refused", schema)
    guessed.add_argument("csv", metavar="CSV", help="a CSV with a header")
    guessed.add_argument("--delimiter", default=",", metavar="D", help="what separates its fields")
    loaded = add_command(commands, "load", "a plane file of a CSV, by a guessed schema", load_csv, "Makes")
    loaded.add_argument("csv", metavar="CSV", help="a CSV with a header")
    loaded.add_argument("file", metavar="FILE", help="the new plane file")
    loaded.add_argument("--schema", metavar="S", help="the schema of the columns that are kept; else it is guessed")
    loaded.add_argument("--skip", action="append", default=[], metavar="NAME", help="leave this column out; may be repeated")
    loaded.add_argument("--null", action="append", metavar="TEXT", help="a text that stands for nothing, as NA; may be repeated")
    loaded.add_argument("--delimiter", default=",", metavar="D", help="what separates the fields of the CSV")
    loaded.add_argument("--program", metavar="PATH", help="the program daq")
    served = add_command(commands, "page", "a page for a browser on this machine: columns, a query, and bars that narrow", page)
    served.add_argument("file", metavar="FILE", help="a plane file, as daq load writes it")
    served.add_argument("--port", type=int, default=0, metavar="N", help="the port; else any that is free")
    served.add_argument("--program", metavar="PATH", help="the program daq")
    return whole


def add_command(commands, name: str, what: str, call: Callable[[argparse.Namespace], Optional[int]], does: str = "Shows"
                ) -> argparse.ArgumentParser:
    command = commands.add_parser(name, help=what, description="%s %s." % (does, what))
    command.set_defaults(call=call)
    return command


def add_query(commands, name: str, what: str, call: Callable[[argparse.Namespace], Optional[int]], count: Optional[str] = None
              ) -> argparse.ArgumentParser:
    command = add_command(commands, name, what, call)
    command.add_argument("file", metavar="FILE", nargs=count, help="a plane file, as daq load writes it, or a pattern of those of the parts")
    command.add_argument("sql", metavar="SQL", nargs=count, help="a query of the table t")
    command.add_argument("--within", metavar="W", help="stop once each interval is so narrow: 1%%, or a number in the units of the values")
    command.add_argument("--policy", help="which column is read next: %s" % ", ".join(POLICIES))
    command.add_argument("--rounds", type=int, metavar="N", help="stop after so many planes")
    command.add_argument("--reads", metavar="A,B", help="read these columns, a plane each, in this order")
    command.add_argument("--list", action="store_true", help="list the rows too that are only possible")
    command.add_argument("--clip", action="store_true", help="add the clipped intervals")
    command.add_argument("--exact-avg", action="store_true", help="add the exact extremes of averages")
    command.add_argument("--keys", action="store_true", help="go on until the keys of the first rows are known too")
    command.add_argument("--program", metavar="PATH", help="the program daq")
    return command


def table_of(given: argparse.Namespace) -> Table:
    return open_table(given.file, given.program)


def words_of(given: argparse.Namespace) -> list[str]:
    return options(given.policy, given.rounds, given.reads, given.list, given.clip, given.exact_avg, given.keys)


def asked(table: Table, given: argparse.Namespace) -> Asked:
    return Asked(table, given.sql, given.within, words_of(given))


# ---- a query


def watch_query(given: argparse.Namespace) -> None:
    watch(asked(table_of(given), given), given.pause)


def show(text: Callable[[Block, bool], str], given: argparse.Namespace) -> None:
    """Writes the last block, or each as it comes; the text of the first one written has titles."""
    last, first = None, True
    for last in asked(table_of(given), given):
        if given.all:
            sys.stdout.write(text(last, first))
            sys.stdout.flush()
            first = False
    if last and not given.all:
        sys.stdout.write(text(last, True))


def show_table(given: argparse.Namespace) -> None:
    question = asked(table_of(given), given)
    blocks = []
    for block in question:
        blocks = [block]
        if given.all:
            print("round %d\n%s\n" % (block.round, table_text(block.key_names, rows_of(block))), flush=True)
    result = Result(blocks[0].query, blocks, question.end)
    print(end_text(result) if given.all else result)


def show_csv(given: argparse.Namespace) -> None:
    show(lambda block, first: csv_text(block.key_names, rows_of(block), given.all, first), given)


def show_json(given: argparse.Namespace) -> None:
    show(lambda block, first: json_lines(block.key_names, rows_of(block), given.all), given)


def picture(given: argparse.Namespace) -> None:
    """Draws the report of a query, or the one on standard input."""
    if given.file and not given.sql:
        raise ValueError("picture takes a FILE and a SQL, or neither and a report on standard input")
    if given.within is not None:
        raise ValueError("picture draws whole reports: it takes no --within")
    drawn = picture_of(given) if given.file else Picture(whole_lines(sys.stdin.buffer.readline))
    sys.stdout.write((text_of if given.text else svg_of)(drawn, given.rows))


def picture_of(given: argparse.Namespace) -> Picture:
    table = table_of(given)
    run = table.run(given.sql, words_of(given))
    try:
        return Picture(run.lines(), table.columns)
    except Failed as failed:
        raise table.error(failed, given.sql) from None
    finally:
        run.stop()


# ---- a CSV, and a page


def schema(given: argparse.Namespace) -> int:
    """Prints the guessed schema, and on standard error each column that is skipped or would be refused, and advice."""
    guesses = Guesses(records_of(given.csv, given.delimiter))
    print(guesses.schema)
    refusals = guesses.refusals()
    for number, why in sorted(refusals + guesses.skipped()) + guesses.advice():
        name = guesses.names[number - 1] if number <= len(guesses.names) else ""
        print("daq-view: column %d%s: %s" % (number, name and " " + name, why), file=sys.stderr)
    return SCHEMA_REFUSED if refusals else 0


def load_csv(given: argparse.Namespace) -> None:
    """Makes a plane file of a CSV and prints its schema; standard error names the columns that it leaves out."""
    table = load(given.csv, given.file, given.schema, given.skip, given.null, given.delimiter, given.program)
    print("loaded %d rows: %s" % (table.rows, ",".join(map(schema_item, table.columns))))
    kept = {column.name for column in table.columns}
    left_out = [name for name in next(records_of(given.csv, given.delimiter), []) if name not in kept]
    if left_out:
        print("daq-view: left out: %s; daq-view schema says why" % ", ".join(left_out), file=sys.stderr)


def schema_item(column: Column) -> str:
    return "%s:%s%s" % (column.name, column.type, "?" * column.nullable)


def page(given: argparse.Namespace) -> None:
    """Serves the page until Control-C."""
    with PageServer(table_of(given), given.port) as server:
        print("%s (Control-C ends it)" % server.url, flush=True)
        try:
            server.serve_forever()
        except KeyboardInterrupt:
            print("stopped")
