"""A receipt ledger, read-only: rows, reports and missing numbers."""
from __future__ import annotations

import contextlib
import os
import sqlite3
from typing import NamedTuple, Optional, Union
from urllib.parse import quote

import numpy
from numpy.typing import NDArray

from . import _declared as c
from . import keys
from ._library import ask, lent, numbers, or_none

# How many rows and desks a sheet has places for, and how many numbers of a row can be missing.
ROWS, DESKS, MOST_MISSING = 32, 8, 1023
# How a file of SQLite begins, and the mark of a ledger in it.
DATABASE, MARK = b"SQLite format 3\0", 0x48474C32
NO_ROW = 25
# How many bytes more than a sheet are read of a plain file, so that one that is too long is seen.
ONE_MORE = 1


class Report(NamedTuple):
    """How many numbers of a row are ticked, how many are missing, and the lowest missing one, or None."""

    ticked: int
    missing: int
    lowest: Optional[int]


class Row(NamedTuple):
    """A row of a ledger: its place, the key of its stream, the parts of that key, its first number, and its report."""

    row: int
    key: int
    parts: Union[keys.TelemetryParts, keys.RsrParts]
    first: int
    report: Report


class Desk(NamedTuple):
    """A desk: its place, the row that it has open or None; whether a save would be stale now; ticks and unticks not saved."""

    desk: int
    row: Optional[int]
    stale: Optional[bool]
    ticks: int
    unticks: int


class Gap(NamedTuple):
    """The first missing number of a ledger, and its row."""

    number: int
    row: int


class Ledger:
    """A ledger as it stands when it is opened. Nothing is ever written.

    `path` is a file that the ledger program keeps (SQLite), or a plain sheet, of which one of the old layout is converted. Raises
    Refused (20) where it is neither.

    >>> june = hernganow.Ledger("samples/season/june")
    >>> june.row(2).report
    Report(ticked=129, missing=1, lowest=100)
    >>> june.missing(2)
    array([100], dtype=uint32)
    """

    __slots__ = {"sheet": "The ledger's 6,968 bytes.", "_bytes": ""}

    def __init__(self, path: Union[str, "os.PathLike[str]"]) -> None:
        self.sheet: bytes = read_ledger(os.fspath(path))
        self._bytes = numpy.frombuffer(self.sheet, numpy.uint8)

    def rows(self) -> list[Row]:
        """The rows that are used, in the order of their places: each has row, key, parts, first and report.

        >>> [(row.row, row.first, row.report.missing) for row in hernganow.Ledger("samples/season/june").rows()]
        [(0, 1, 0), (2, 1, 1)]
        """
        return [row for row in map(self._row, range(ROWS)) if row]

    def row(self, row: int) -> Row:
        """A row. Raises Refused (25) where there is none.

        >>> hernganow.Ledger("samples/season/june").row(2).parts.spacecraft
        177
        """
        answer = self._ask("row", row)
        key = answer[c.AT_ROW_KEY]
        return Row(row, key, keys.parts(key), answer[c.AT_ROW_FIRST], self.report(row))

    def report(self, row: int) -> Report:
        """A row's report. Raises Refused (25) where there is no such row.

        >>> hernganow.Ledger("samples/season/june").report(2)
        Report(ticked=129, missing=1, lowest=100)
        """
        answer = self._ask("row_report", row)
        return Report(answer[c.AT_TICKED], answer[c.AT_MISSING], or_none(answer[c.AT_LOWEST]))

    def missing(self, row: int) -> NDArray[numpy.uint32]:
        """A row's missing numbers in the order of their positions, as uint32. Raises Refused (25) where there is no such row.

        >>> hernganow.Ledger("samples/sheets/two-spacecraft").missing(0).tolist()
        [7]
        """
        found = numpy.empty(MOST_MISSING, numpy.uint32)
        count = self._ask("missing_numbers", row, *lent(found))[c.AT_COUNT]
        return found[:count].copy()

    def find(self, key: int) -> int:
        """The row of a stream. Raises Refused: 22 where the key is no stream's, 25 where it has no row.

        >>> hernganow.Ledger("samples/season/june").find(760930633218)
        2
        """
        return self._ask("find", key)[c.AT_ROW]

    def first_gap(self) -> Optional[Gap]:
        """The first missing number of all, going through rows and positions in order; None where nothing is missing.

        >>> hernganow.Ledger("samples/season/june").first_gap()
        Gap(number=100, row=2)
        """
        answer = self._ask("first_gap")
        return None if or_none(answer[c.AT_GAP_NUMBER]) is None else Gap(answer[c.AT_GAP_NUMBER], answer[c.AT_GAP_ROW])

    def desks(self) -> list[Desk]:
        """The eight desks: each has desk; row, the one that it has open, or None; stale, whether a save would be stale now; ticks and
        unticks, how many are not saved.

        >>> [desk.row for desk in hernganow.Ledger("samples/sheets/new-night").desks()]
        [0, None, None, 2, None, None, None, None]
        """
        return [self._desk(desk) for desk in range(DESKS)]

    def _desk(self, desk: int) -> Desk:
        answer = self._ask("desk", desk)
        row = or_none(answer[c.AT_DESK_ROW])
        if row is None:
            return Desk(desk, None, None, 0, 0)
        unsaved = self._ask("unsaved", desk)
        return Desk(desk, row, bool(answer[c.AT_DESK_STALE]), unsaved[c.AT_UNSAVED_TICKS], unsaved[c.AT_UNSAVED_UNTICKS])

    def _row(self, row: int) -> Optional[Row]:
        """A row, None where its place is free."""
        if numbers("row", *lent(self._bytes), row)[c.AT_REFUSAL] == NO_ROW:
            return None
        return self.row(row)

    def _ask(self, name: str, *arguments: int) -> tuple[int, ...]:
        return ask(name, *lent(self._bytes), *arguments)

    def __repr__(self) -> str:
        return f"<Ledger, {len(self.rows())} rows>"


def read_ledger(path: str) -> bytes:
    """The sheet of a ledger file, or of a plain one; Refused where it is not a right one."""
    with open(path, "rb") as file:
        begin = file.read(c.SHEET + ONE_MORE)
    return right_sheet(sheet_of_database(path) if begin.startswith(DATABASE) else begin)


def right_sheet(given: bytes) -> bytes:
    """The bytes where they are a ledger sheet, else the sheet that the library converts them to."""
    lent_bytes = numpy.frombuffer(given, numpy.uint8) if given else numpy.empty(0, numpy.uint8)
    if ask("is_sheet", *lent(lent_bytes))[c.AT_IS_SHEET]:
        return given
    sheet = numpy.zeros(c.SHEET, numpy.uint8)
    ask("convert", *lent(lent_bytes), *lent(sheet))
    return sheet.tobytes()


def sheet_of_database(path: str) -> bytes:
    try:
        with contextlib.closing(open_database(path)) as base:
            if base.execute("PRAGMA application_id").fetchone()[0] != MARK:
                raise ValueError(f"{path}: not a ledger, but another program's database")
            found = base.execute("SELECT sheet FROM ledger").fetchone()
    except sqlite3.Error as reason:
        raise OSError(f"{path}: the ledger cannot be read: {reason}") from reason
    if found is None or not isinstance(found[0], bytes):
        raise ValueError(f"{path}: the ledger's sheet is gone")
    return found[0]


def open_database(path: str) -> sqlite3.Connection:
    """The database, read-only. In WAL mode even a reader writes beside the file; where it may not, the file is read as it stands, if
    nobody is at work on it."""
    name = "file:" + quote(os.path.abspath(path))
    base = sqlite3.connect(name + "?mode=ro", uri=True, isolation_level=None)
    try:
        base.execute("SELECT count(*) FROM sqlite_schema")
        return base
    except sqlite3.OperationalError:
        base.close()
        if os.path.exists(path + "-wal") and os.path.getsize(path + "-wal"):
            raise
    return sqlite3.connect(name + "?immutable=1", uri=True, isolation_level=None)
