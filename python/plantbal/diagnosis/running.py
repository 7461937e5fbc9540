"""The content of a tank as a running balance: by which day an error must have happened.

If a tank at a hole has no dips within the month, its content on a day is what it held when the month
began, and what has flowed in less out since. A day on which it would be above the tank's table, or
below it, is one by which the error had happened.
"""

from __future__ import annotations

from collections.abc import Iterable
from dataclasses import dataclass
from math import sqrt

from plantbal.diagnosis.days import Days, Span
from plantbal.model.ledger import View
from plantbal.model.plant import Stream

# By how many standard deviations a content is beyond the table before that is said.
_MOST = 3.0


@dataclass(frozen=True, slots=True)
class Overrun:
    """A day on which a tank would hold more than its table has, or less.

    Attributes
    ----------
    tank : str
        The tank.
    day : int
        The number of the first such day.
    grams : int
        What it would hold by then.
    limit : int
        The most or the least that its table has, in grams.
    """

    tank: str
    day: int
    grams: int
    limit: int

    @property
    def is_above(self) -> bool:
        """Whether it would hold more than its table has."""
        return self.grams > self.limit


def overruns(days: Days, tanks: Iterable[str]) -> list[Overrun]:
    """Return for each tank the first day on which its running content can't be."""
    found = (_of_tank(days, tank) for tank in tanks)
    return [each for each in found if each is not None]


def _of_tank(days: Days, tank: str) -> Overrun | None:
    view, plant = days.view, days.state.plant
    opening = view.dips[tank][0]
    streams = [each for each in view.streams if _touches(each, tank)]
    if opening is None or any(each.kind == "plain" for each in streams):
        return None
    table = plant.tables[tank]
    low, high = (ml * opening.density // 1_000_000 for ml in (table[0][1], table[-1][1]))
    content, variance = days.state.content(opening), opening.variance
    for day in range(view.period.first, view.period.last):
        flow = _flow(days, view, streams, tank, day)
        if flow is None:
            return None
        content, variance = content + flow[0], variance + flow[1]
        most = _MOST * sqrt(variance)
        if content > high + most or content < low - most:
            return Overrun(tank, day, content, high if content > high else low)
    return None


def _touches(stream: Stream, tank: str) -> bool:
    return stream.kind != "tank" and tank in (stream.arc.from_, stream.arc.to)


def _flow(
    days: Days, view: View, streams: list[Stream], tank: str, day: int
) -> tuple[int, int] | None:
    """Return what flows into a tank on a day, less what flows out, and the variance of it."""
    _, measured = days.measured(Span(day, day))
    total = variance = 0
    for each in streams:
        found = measured.get(each.arc.name)
        if found is None:
            continue  # it isn't in service
        if found.value is None or found.variance is None:
            return None
        total += found.value if each.arc.to == tank else -found.value
        variance += found.variance
    return total, variance
