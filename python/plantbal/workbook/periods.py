"""The periods of a workbook: those of its sheet, or the calendar months of its facts."""

from __future__ import annotations

import calendar
import datetime
from collections.abc import Iterable

from plantbal.session import period_days
from plantbal.workbook.base import PeriodDays
from plantbal.workbook.tables import Tables


class PeriodSheet:
    """Reads the sheet of periods, and says in which periods a day may be.

    Parameters
    ----------
    tables : Tables
        The tables of the workbook.

    Attributes
    ----------
    spans : list of PeriodDays
        The periods that are known already; a day in none of them is in its calendar month.
    """

    def __init__(self, tables: Tables) -> None:
        self.tables = tables
        self.session = tables.session
        self.spans: list[PeriodDays] = []

    def read(self) -> None:
        """Declare the periods of the sheet."""
        for row in self.tables.rows("periods"):
            days = self.tables.day(row["first"]), self.tables.day(row["last"])
            cells = {"name": row["name"], "first": row["first"], "last": row["last"]}
            if None not in days:
                fields = ["period", row.text("name"), str(days[0]), str(days[1])]
                self.tables.put(fields, cells)

    def take_months(self, days: Iterable[datetime.date]) -> None:
        """Declare the calendar months of some days, if there is no sheet of periods."""
        if self.tables.sheets["periods"]:
            return
        for year, month in sorted({(day.year, day.month) for day in days}):
            first = datetime.date(year, month, 1)
            last = first.replace(day=calendar.monthrange(year, month)[1])
            self.session.period(f"{year}-{month:02}", first, last)

    def spans_at(self, day: datetime.date) -> list[PeriodDays]:
        """Return the periods that a day may be in; its month if no period is declared."""
        if self.tables.sheets["periods"]:
            return [PeriodDays(*map(_ordinal, period_days(each))) for each in self.session.periods]
        known = [span for span in self.spans if span.first <= day.toordinal() <= span.last]
        last = day.replace(day=calendar.monthrange(day.year, day.month)[1])
        return known or [PeriodDays(_ordinal(day.replace(day=1)), _ordinal(last))]


def _ordinal(day: datetime.date) -> int:
    """Return a day as a number."""
    return day.toordinal()
