"""The periods of booking: by name, in the order of their days, and which are closed."""

from __future__ import annotations

import datetime
from bisect import bisect_left, bisect_right, insort
from collections.abc import Mapping
from dataclasses import dataclass
from itertools import accumulate

from plantbal.model.forms import day_of_number

# The first and the last day of a fact, as numbers.
Span = tuple[int, int]
# The end of a key that comes after each key of the same days.
_AFTER = (10**9, "")


@dataclass(slots=True)
class Period:
    """A period of booking; days are numbers of `datetime.date.toordinal`."""

    name: str
    first: int
    last: int
    closed: bool = False


def period_days(period: Period) -> tuple[datetime.date, datetime.date]:
    """Return the first and the last day of a period."""
    return day_of_number(period.first), day_of_number(period.last)


class Periods:
    """The periods of a session, which share no day.

    Attributes
    ----------
    by_name : dict of str to Period
        The periods in the order of their rows.
    lines : dict of str to int
        The lines of their rows.
    closed : dict of str to int
        The closed periods, and the lines of their ``close`` rows.
    """

    def __init__(self) -> None:
        self.by_name: dict[str, Period] = {}
        self.lines: dict[str, int] = {}
        self.closed: dict[str, int] = {}
        self._ordered: list[tuple[int, int, str]] = []
        self._closed: list[tuple[int, int, str]] = []
        self._within: dict[tuple[int, int], list[Period]] = {}

    def add(self, period: Period, line: int) -> None:
        """Declare a period."""
        self.by_name[period.name] = period
        self.lines[period.name] = line
        insort(self._ordered, (period.first, period.last, period.name))
        self._within.clear()

    def close(self, name: str, line: int) -> None:
        """Close a period."""
        period = self.by_name[name]
        period.closed = True
        self.closed[name] = line
        insort(self._closed, (period.first, period.last, name))

    def between(self, first: Period, last: Period) -> list[Period]:
        """Return the periods from one to another, both among them, in order of days."""
        names = [name for day, _, name in self._ordered if first.first <= day <= last.first]
        return [self.by_name[name] for name in names]

    def within(self, first: int, last: int) -> list[Period]:
        """Return the periods that have a day from the first to the last, in order."""
        found = self._within.get((first, last))
        if found is None:
            found = self._within[first, last] = self._look(first, last)
        return found

    def _look(self, first: int, last: int) -> list[Period]:
        place = bisect_right(self._ordered, first - 1, key=lambda each: each[1])
        found = []
        while place < len(self._ordered) and self._ordered[place][0] <= last:
            found.append(self.by_name[self._ordered[place][2]])
            place += 1
        return found

    def spread(self, spans: Mapping[Span, int]) -> dict[str, int]:
        """Return how many of some spans of days each period shares a day with, of those that do.

        Parameters
        ----------
        spans : mapping of (int, int) to int
            The first and the last day of each span, and how often it is there.

        Returns
        -------
        dict of str to int
            By the names of the periods, in the order of the spans.
        """
        ends = [last for _, last, _ in self._ordered]
        begins = [first for first, _, _ in self._ordered]
        change = [0] * (len(ends) + 1)
        left, found = list(range(len(ends))), []
        for (first, last), count in spans.items():
            begin, end = bisect_left(ends, first), bisect_right(begins, last)
            change[begin] += count
            change[max(begin, end)] -= count
            new = slice(bisect_left(left, begin), bisect_left(left, end))
            found += left[new]
            del left[new]
        counts = list(accumulate(change))
        return {self._ordered[place][2]: counts[place] for place in found}

    def sharing(self, first: int, last: int) -> str | None:
        """Return the name of the last period that has a day from the first to the last, or None."""
        return _last_touching(self._ordered, first, last)

    def closed_within(self, first: int, last: int) -> str | None:
        """Return the name of a closed period that has a day from the first to the last, or None."""
        return _last_touching(self._closed, first, last)

    def closed_by(self, day: int) -> Period | None:
        """Return the last closed period that begins by a day, or None."""
        place = bisect_right(self._closed, (day, *_AFTER))
        return self.by_name[self._closed[place - 1][2]] if place else None

    @property
    def first_closed(self) -> str | None:
        """The name of the first closed period in order of days, or None."""
        return self._closed[0][2] if self._closed else None

    @property
    def last_closed_day(self) -> int:
        """The last day of the last closed period; there has to be one."""
        return self._closed[-1][1]


def _last_touching(ordered: list[tuple[int, int, str]], first: int, last: int) -> str | None:
    """Return the last of some periods that has a day from the first to the last, or None."""
    # Periods share no day, so the last one that begins by the last day is the one to ask.
    place = bisect_right(ordered, (last, *_AFTER))
    if place and ordered[place - 1][1] >= first:
        return ordered[place - 1][2]
    return None
