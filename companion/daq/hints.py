"""One sentence for each refusal: what to do about it."""
from __future__ import annotations

import difflib
import re
from typing import Optional, Sequence

KEYWORDS = frozenset(
    "SELECT FROM WHERE GROUP BY ORDER ASC DESC LIMIT AND OR NOT BETWEEN IN DATE COUNT SUM AVG MIN MAX IS NULL".split())
MISSING = frozenset("AS DISTINCT LIKE HAVING JOIN ON CASE UNION OFFSET OVER WITH ALL USING CAST EXISTS TRUE FALSE".split())
TYPES = {"int": "whole numbers of 64 bits", "date": "days as 2024-02-29", "text": "UTF-8 of at most 255 bytes"}

_QUERY = (
    (r"longer than", "A query has at most 4,096 bytes."),
    (r"nested too deep", "At most 32 parentheses and NOTs may be open at a time."),
    (r"number too large", "A number has at most 63 bits."),
    (r"unknown table", "The table is always t: write FROM t."),
    (r"more than 16", "Ask two queries in its place."),
    (r"not grouped", "A column that is selected stands in GROUP BY too."),
    (r"kinds differ", "Types differ: SUM, AVG and arithmetic take numbers, a text is compared with 'Oslo', a date with '2024-02-29'."),
    (r"scale too fine", "A number has no more decimals than the column that it is compared with, and an expression at most 18."),
    (r"too many values", "An IN has at most 64 values."),
    (r"limit out of range", "LIMIT is from 1 to 1,000."),
    (r"group of", "The columns of GROUP BY have at most 16 planes together: see columns for those of each."),
    (r"item .* too wide", "A value and the sum over all rows have to fit 128 bits: multiply fewer columns."),
    (r"read .* names no column", "reads names columns that stand in the query, without quotes."),
    (r"read .* past", "reads asks for more planes than the column has: see columns."),
)
_TABLE = (
    (r"schema item at", "A column of a schema is a name, a colon, and int, dec0 to dec9, date or text, and ? where it may be empty, or skip."),
    (r"schema items .* one name", "Give one of the columns another name, in the header too."),
    (r"header differs", "The schema names all columns in the order of the header; blanks and capitals count."),
    (r"has \d+ fields", "Each record has as many fields as the header; a field with a comma stands in double quotes."),
    (r"has too many names", "A text column has at most 65,536 different texts: its type in the schema may be skip."),
    (r"no header", "The first record of a CSV names its columns."),
    (r"items with those skipped", "A schema has at most 1,024 items."),
    (r"items are skipped", "A table has at least one column."),
    (r"longer than|rows|cells|schema items", "A CSV has at most 2^30 bytes, 64 columns, 2^24 rows and 2^27 cells."),
)


def query_hint(cause: str, text: str, place: Optional[int], columns: Sequence[str]) -> str:
    """What to do about a refused query over these columns; nothing where there is no advice."""
    if cause == "syntax" and place is not None:
        return _syntax_hint(text, place, columns)
    if cause == "unknown column" and place is not None:
        return _column_hint(_token(text, place), columns)
    return _told(_QUERY, cause)


def table_hint(cause: str, schema: str) -> str:
    """What to do about a CSV or a schema that is refused."""
    cell = re.search(r"column ([0-9]+) is no value", cause)
    items = schema.split(",")
    if cell and int(cell[1]) <= len(items):
        name, _, kind = items[int(cell[1]) - 1].rpartition(":")
        bare = kind.rstrip("?")
        takes = TYPES.get(bare, "numbers with at most %s decimals" % bare[3:])
        empty = "" if kind.endswith("?") else "; where a field may be empty the type is %s?" % kind
        return "The column %s takes %s%s." % (name, takes, empty)
    return _told(_TABLE, cause)


def quoted_name(name: str) -> str:
    """A name as a query writes it."""
    plain = re.fullmatch(r"[A-Za-z_][A-Za-z0-9_]*", name) and name.upper() not in KEYWORDS
    return name if plain else '"%s"' % name


def _told(hints: Sequence[tuple[str, str]], cause: str) -> str:
    return next((hint for form, hint in hints if re.search(form, cause)), "")


def _token(text: str, place: int) -> str:
    found = re.compile(r"""[A-Za-z0-9_]+|"[^"]*"|.""", re.DOTALL).match(text, place)
    return found[0] if found else ""


def _syntax_hint(text: str, place: int, columns: Sequence[str]) -> str:
    token = _token(text, place)
    if not token:
        return "The query goes on behind its last token."
    if token in columns and token.upper() in KEYWORDS:
        return 'The column %s has the name of a keyword: write "%s".' % (token, token)
    if token.upper() in MISSING or token in ("/", "%", "||"):
        return "There is no %s in these queries." % token.upper()
    if token == "=" and text[place - 1 : place] == "=":
        return "Equality is one =."
    if token == '"':
        return "A double quote begins a column's name, and is closed."
    return "No query goes on so here. The table is t, and a column with other signs than letters, digits and _ stands in double quotes."


def _column_hint(token: str, columns: Sequence[str]) -> str:
    if token.startswith('"') and token[1:-1] not in columns and not difflib.get_close_matches(token[1:-1], columns, 1):
        return "No column has this name. A text stands in single quotes: '%s'. The columns are %s." % (token[1:-1], _listed(columns))
    near = difflib.get_close_matches(token.strip('"').lower(), [name.lower() for name in columns], 1)
    meant = next((quoted_name(name) for name in columns if near and name.lower() == near[0]), "")
    return "%sThe columns are %s." % (meant and "Is it %s? " % meant, _listed(columns))


def _listed(columns: Sequence[str]) -> str:
    return ", ".join(quoted_name(name) for name in columns)
