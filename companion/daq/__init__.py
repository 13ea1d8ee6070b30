"""The companion of daq: runs the program and reads its reports. It never computes a bound itself.

    import daq
    table = daq.load("shop.csv", "shop.daq")
    result = table.sql("SELECT city, SUM(price) FROM t GROUP BY city", within="1%")
"""
from .errors import CutError, DaqError, FileError, ProgramError, QueryError, ReportError, TableError
from .parts import Parts
from .parts import open_table as open
from .report import Block, KeyRange, Ranking, Report
from .result import Result, Row, rows_of
from .table import Column, Table, load
from .values import Interval

__all__ = [
    "Block", "Column", "CutError", "DaqError", "FileError", "Interval", "KeyRange", "Parts", "ProgramError", "QueryError", "Ranking", "Report",
    "ReportError", "Result", "Row", "Table", "TableError", "load", "open", "rows_of",
]
