"""A page on the loopback address: the columns of a plane file, a query, and bars that narrow while it runs."""
from __future__ import annotations

import json
import os
from http.server import BaseHTTPRequestHandler, ThreadingHTTPServer
from pathlib import Path
from typing import Any, Iterator
from urllib.parse import parse_qs, urlsplit

from .bars import Chart, head_text, is_sure, row_name, row_text
from .errors import DaqError
from .report import Block
from .result import ROWS_SHOWN, end_word, more_rows_text, printable
from .table import Asked, Table, options
from .values import value_text

PAGE = Path(__file__).resolve().parent / "page.html"
LOOPBACK = "127.0.0.1"


class PageServer(ThreadingHTTPServer):
    """Serves the page of one table to this machine alone."""

    daemon_threads = True

    def __init__(self, table: Table, port: int = 0) -> None:
        super().__init__((LOOPBACK, port), PageHandler)
        self.table = table

    @property
    def url(self) -> str:
        return "http://%s:%d/" % (LOOPBACK, self.server_port)


class PageHandler(BaseHTTPRequestHandler):
    """Answers for the page, its table, and its queries: an event for each block, until the page is closed or stops."""

    server: PageServer

    def do_GET(self) -> None:
        parts = urlsplit(self.path)
        # A page of another site may not ask by a name of its own for this address.
        if self.headers.get("Host") not in ("%s:%d" % (name, self.server.server_port) for name in (LOOPBACK, "localhost")):
            self.send_error(403)
        elif parts.path == "/":
            self.answer("text/html; charset=utf-8", PAGE.read_bytes())
        elif parts.path == "/table":
            self.answer("application/json", json.dumps(table_told(self.server.table)).encode())
        elif parts.path == "/ask":
            self.ask({name: values[0] for name, values in parse_qs(parts.query).items()})
        else:
            self.send_error(404)

    def answer(self, kind: str, body: bytes) -> None:
        self.send_response(200)
        self.send_header("Content-Type", kind)
        self.send_header("Content-Length", str(len(body)))
        self.send_header("Content-Security-Policy", "default-src 'self' 'unsafe-inline'")
        self.end_headers()
        self.wfile.write(body)

    def ask(self, given: dict[str, str]) -> None:
        self.send_response(200)
        self.send_header("Content-Type", "text/event-stream")
        self.send_header("Cache-Control", "no-store")
        self.end_headers()
        try:
            for event, data in events(self.server.table, given):
                self.wfile.write(("event: %s\ndata: %s\n\n" % (event, json.dumps(data))).encode())
                self.wfile.flush()
        except (BrokenPipeError, ConnectionResetError):
            # The page stopped: the query ends with it.
            return

    def log_message(self, form: str, *values: Any) -> None:
        """Nothing is told of each request."""


def events(table: Table, given: dict[str, str]) -> Iterator[tuple[str, Any]]:
    """The blocks of a query as the page draws them, and then why it ended, or what is wrong with it."""
    try:
        words = options(given.get("policy"))
        question, chart = Asked(table, given.get("sql", ""), given.get("within") or None, words), Chart(table.columns)
        for block in question:
            yield "block", block_told(chart, block)
        yield "end", end_word(question.end)
    except (DaqError, ValueError) as error:
        yield "fault", str(error)


def block_told(chart: Chart, block: Block) -> dict[str, Any]:
    rows = chart.rows(block)
    told = [{"name": printable(row_name(row)), "ends": chart.ends(row), "sure": is_sure(row), "text": row_text(row), "state": row.state}
            for row in rows[:ROWS_SHOWN]]
    more = more_rows_text(len(rows))
    return {"head": head_text(block) + (more and "; " + more), "rows": told}


def table_told(table: Table) -> dict[str, Any]:
    columns = [[printable(column.name), column.type + "?" * column.nullable, column.planes,
                printable(value_text(column.least)), printable(value_text(column.greatest))] for column in table.columns]
    return {"title": "%s: %d rows" % (os.path.basename(table.path), table.rows), "columns": columns}
