"""Dates: the calls on day counts. A day count is the number of days from 1 January 1900, which is day 0."""
from __future__ import annotations

from typing import NamedTuple, Optional

from . import _declared as c
from ._library import ask, or_none

__all__ = ["Date", "date", "day_count"]


class Date(NamedTuple):
    """A year, 1900 to 3000, and a day of it, from 1."""

    year: int
    day: int


def date(count: int) -> Date:
    """The date of a day count. Raises Refused (33) past the last day of the year 3000.

    >>> hernganow.dates.date(21184)
    Date(year=1958, day=1)
    """
    answer = ask("date", count)
    return Date(answer[c.AT_DATE_YEAR], answer[c.AT_DATE_DAY])


def day_count(year: int, day: int) -> Optional[int]:
    """The day count of a date; None where there is no such date in the years 1900 to 3000.

    >>> hernganow.dates.day_count(1958, 1)
    21184
    >>> hernganow.dates.day_count(1900, 366) is None
    True
    """
    return or_none(ask("day_count", year, day)[c.AT_DAY_COUNT])
