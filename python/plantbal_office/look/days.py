"""What is booked of a stream or a tank: its days in a month, and its months over the years."""

from __future__ import annotations

import datetime
from collections.abc import Iterator
from dataclasses import dataclass

from plantbal.book.ledger import BookFact
from plantbal.book.looking import BookMonth, BookStream, Contents, MonthFacts, Vessel
from plantbal.book.results import ReportState, ShownFact
from plantbal.commands.book.showing import in_unit
from plantbal.estimates import is_marked
from plantbal.faults import Fault
from plantbal.model.plant import in_service
from plantbal_office.causes import GridCause
from plantbal_office.effects import booked_flows, kept_output
from plantbal_office.plants.models import Plant
from plantbal_office.shelf import book_contents, period_facts

_DAY = datetime.timedelta(1)


@dataclass(frozen=True)
class DayShown:
    """A day of a stream or a tank, with what is booked of it.

    Attributes
    ----------
    day : date
        The day.
    shown : ShownFact or None
        What is booked; None if nothing is.
    is_missing : bool
        Whether something should be.
    is_estimate : bool
        Whether it is an estimate.
    in_unit : str
        What it is in the unit of its meter, in brackets.
    usual : float or None
        What it is in percent of the median of the others.
    """

    day: datetime.date
    shown: ShownFact | None
    is_missing: bool = False
    is_estimate: bool = False
    in_unit: str = ""
    usual: float | None = None

    @property
    def fact(self) -> BookFact | None:
        """The fact."""
        return self.shown.fact if self.shown is not None else None


@dataclass(frozen=True)
class Year:
    """A month of a stream: its booked flow in grams, and whether the month is closed."""

    month: BookMonth
    flow: int | None


def place_of(contents: Contents, month: BookMonth, name: str) -> BookStream | Vessel:
    """Return the stream or the tank of a name.

    Raises
    ------
    Fault
        If there is none.
    """
    some: list[BookStream | Vessel] = [*contents.flows[month.year], *contents.vessels[month.year]]
    for each in some:
        tag = each.meter.tag if each.meter is not None else ""
        if name == each.name or (tag and name == tag):
            return each
    raise Fault(GridCause.NO_PLACE(name=name, month=month.name).sentence, text=name)


def month_days(plant: Plant, month: BookMonth, place: BookStream | Vessel) -> list[DayShown]:
    """Return the days of a stream or a tank in a month, the days without a figure too."""
    found: MonthFacts = period_facts(plant, month.name)
    own = [each for each in found.facts if each.fact.place == place.name]
    if isinstance(place, BookStream) and place.kind != "metered":
        return [_day(each.fact.first, each, place, None) for each in own]
    live = {each.fact.first: each for each in own if not each.struck}
    struck: dict[datetime.date, ShownFact] = {e.fact.first: e for e in own if e.struck}
    middle = _median([e.fact.values[0] for e in live.values()])
    return [
        _day(day, live.get(day) or struck.get(day), place, middle, is_wanted=is_wanted)
        for day, is_wanted in _days(month, place)
    ]


def _days(month: BookMonth, place: BookStream | Vessel) -> Iterator[tuple[datetime.date, bool]]:
    """Give the days of a month, and on which a figure is wanted; of a tank the evening before."""
    first = month.first - _DAY if isinstance(place, Vessel) else month.first
    for number in range(first.toordinal(), month.last.toordinal() + 1):
        day = datetime.date.fromordinal(number)
        served = in_service(place.service, number)
        is_end = day in (first, month.last)
        yield day, served and (is_end or isinstance(place, BookStream))


def _day(
    day: datetime.date,
    shown: ShownFact | None,
    place: BookStream | Vessel,
    middle: float | None,
    *,
    is_wanted: bool = False,
) -> DayShown:
    """Return a day with what is booked of it."""
    if shown is None:
        return DayShown(day, None, is_missing=is_wanted)
    fact = shown.fact
    usual = 100 * fact.values[0] / middle if middle and fact.kind == "reading" else None
    return DayShown(
        day,
        shown,
        is_missing=is_wanted and shown.struck,
        is_estimate=is_marked(fact.id) and not shown.before,
        in_unit=in_unit(fact, place.meter),
        usual=usual,
    )


def _median(values: list[int]) -> float | None:
    """Return the middle of some figures."""
    some = sorted(values)
    return float(some[len(some) // 2]) if some else None


def stream_months(plant: Plant, name: str, most: int = 36) -> list[Year]:
    """Return the months of a stream, the latest first, with the flow that is booked in each."""
    contents = book_contents(plant)
    found = []
    for month in list(reversed(contents.months))[:most]:
        output = None
        if month.report is not ReportState.MISSING:
            output = kept_output(plant, contents, month.name)
        flow = booked_flows(output).get(name) if output is not None else None
        found.append(Year(month, flow))
    return found
