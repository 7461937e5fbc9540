"""Hourly figures, stamps with a zone, and counters: turned into a figure for each day.

A series is a column, or a tag of a long sheet. Its stamps become instants: by their own zone, or by
the plant's, in which the hour that comes twice in autumn is told by its order. A day goes from its
begin to the next day's, so it has 23, 24 or 25 hours, and its figure is the sum of as many. A figure
in t/h is the mean of its hour, so it counts for one hour. A counter's figure is what it went on
between the two begins; it begins again at 0 at most once between two of its stamps.

An hour without a figure is a fault, with its time, unless it is told to be 0; a day without any
figure is a missing day. Figures keep the place of the first hour of their day.
"""

from __future__ import annotations

import datetime
import re
from collections import Counter
from collections.abc import Iterator, Sequence
from dataclasses import dataclass, field
from decimal import Decimal, localcontext
from fractions import Fraction
from functools import lru_cache
from zoneinfo import ZoneInfo

from plantbal.faults import InputFault
from plantbal.sentence import Sentence
from plantbal.workbook.causes import SheetCause
from plantbal.workbook.cells import EXACT, Reader
from plantbal.workbook.settings import Settings
from plantbal.workbook.sheets import Cell
from plantbal.workbook.summed import DayCells, SummedBy, SummedCell, cells_text

_HOUR = datetime.timedelta(hours=1)
_DAY = datetime.timedelta(days=1)
_UTC = datetime.timezone.utc
_STAMP = re.compile(
    r"(.*?)(?:[ T]+([01]?[0-9]|2[0-4]):([0-5][0-9])(?::([0-5][0-9])(?:[.,]0+)?)?)?"
    r"\s*(Z|UTC|[+-][0-9]{2}:?[0-9]{2})?"
)
_SAID = 3  # hours that a fault names


@dataclass(frozen=True, slots=True)
class SeriesFigure:
    """A figure of a series: its stamp's cell, its own, and its stamp, with a zone or without."""

    stamp: Cell
    cell: Cell
    at: datetime.datetime


@dataclass(frozen=True, slots=True)
class AgainFigure(SeriesFigure):
    """The figure of an hour that comes twice, for its second time, if one cell has both.

    Attributes
    ----------
    weight : int
        How often it counts once more: 0 if it is an amount, and 1 if it is one in an hour.
    """

    weight: int


@dataclass(frozen=True, slots=True)
class DayFigure:
    """What a series has on a day, at the cells of the day's first figure."""

    day: datetime.date
    stamp: Cell
    cell: Cell
    hours: int


@dataclass
class SeriesDays:
    """The figures of the days of a series, and what is wrong with others.

    Attributes
    ----------
    found : list of DayFigure
        The days with a figure.
    faults : list of InputFault
        What is wrong.
    filled : int
        How many hours were taken for 0.
    """

    found: list[DayFigure] = field(default_factory=list)
    faults: list[InputFault] = field(default_factory=list)
    filled: int = 0


def stamp_of(reader: Reader, cell: Cell) -> datetime.datetime | None:
    """Return the stamp of a cell, or None if it has none, or none of a known form."""
    value = cell.value
    if isinstance(value, datetime.datetime):
        return (value + datetime.timedelta(milliseconds=500)).replace(microsecond=0)
    if not isinstance(value, str) or not re.match(r"[0-9]", value):
        return None
    return _stamp_of(reader.locale_of(cell), value)


@lru_cache(maxsize=100_000)
def _stamp_of(locale: str, text: str) -> datetime.datetime | None:
    from plantbal.workbook.sheets import Sheet

    match = _STAMP.fullmatch(text.strip())
    if match is None:
        return None
    date, hour, minute, second, zone = match.groups()
    try:
        day = Reader(locale).day(Cell(Sheet("", "", []), 1, 1, date.strip()))
    except InputFault:
        return None
    at = datetime.datetime(day.year, day.month, day.day)
    numbers = (int(part or 0) for part in (hour, minute, second))
    at += datetime.timedelta(**dict(zip(("hours", "minutes", "seconds"), numbers)))
    if zone is None:
        return at
    if zone in ("Z", "UTC"):
        return at.replace(tzinfo=_UTC)
    offset = datetime.timedelta(hours=int(zone[1:3]), minutes=int(zone[-2:]))
    return at.replace(tzinfo=datetime.timezone(-offset if zone[0] == "-" else offset))


def has_times(stamps: Sequence[datetime.datetime]) -> bool:
    """Say whether stamps have a zone, or a time of the day other than midnight."""
    return any(at.tzinfo is not None or at.time() != datetime.time() for at in stamps)


@lru_cache(maxsize=50_000)
def _instant_of(zone: ZoneInfo | None, local: datetime.datetime, fold: int) -> datetime.datetime:
    return local.replace(tzinfo=zone or ZoneInfo("UTC"), fold=fold).astimezone(_UTC)


@lru_cache(maxsize=50_000)
def _local_of(zone: ZoneInfo | None, instant: datetime.datetime) -> datetime.datetime:
    return instant.astimezone(zone or ZoneInfo("UTC")).replace(tzinfo=None)


@dataclass
class Clock:
    """Turns stamps into days, by the plant's settings.

    Attributes
    ----------
    settings : Settings
        The settings.
    ends : bool
        Whether a stamp is the end of its hour or day.
    is_daily : bool
        Whether each stamp is the begin of a day, so that a figure is a day's.
    """

    settings: Settings
    ends: bool = False
    is_daily: bool = False

    def begin(self, day: datetime.date) -> datetime.datetime:
        """Return the instant at which a day begins; without a zone all is as if in UTC."""
        local = datetime.datetime(day.year, day.month, day.day) + self.settings.begins
        return self._instant(local)

    def _instant(self, local: datetime.datetime, fold: int = 0) -> datetime.datetime:
        return _instant_of(self.settings.zone, local, fold)

    def local(self, instant: datetime.datetime) -> datetime.datetime:
        """Return the time that the plant's clocks show."""
        return _local_of(self.settings.zone, instant)

    def times(self, at: datetime.datetime) -> int:
        """Return how often the plant's clocks show a time: 0, 1 or 2 times."""
        first = self._instant(at)
        return 0 if self.local(first) != at else 1 + (self._instant(at, fold=1) != first)

    def day(self, instant: datetime.datetime) -> datetime.date:
        """Return the day that an instant is in."""
        return (self.local(instant) - self.settings.begins).date()

    def hours(self, day: datetime.date) -> list[datetime.datetime]:
        """Return the instants at which the hours of a day begin."""
        at, end = self.begin(day), self.begin(day + _DAY)
        found = []
        while at < end:
            found.append(at)
            at += _HOUR
        return found

    def instants(
        self, reader: Reader, figures: Sequence[SeriesFigure]
    ) -> Iterator[datetime.datetime]:
        """Give the instants of a series.

        Raises
        ------
        InputFault
            If a stamp comes twice, or isn't there on the day on which clocks are put forward.
        """
        seen: Counter[datetime.datetime] = Counter()
        for figure in figures:
            at = figure.at
            if at.tzinfo is not None:
                yield at.astimezone(_UTC)
                continue
            instant = self._instant(at, fold=min(1, seen[at]))
            if self.local(instant) != at:
                what = SheetCause.CLOCKS_FORWARD(at=at, zone=self.settings.zone)
                remedy = "write the zone after the stamps, as in 2024-03-31T01:00:00Z"
                raise reader.fault(figure.stamp, what, remedy)
            if seen[at] and instant == self._instant(at):
                remedy = "leave one of the two out"
                if not self.settings.zone:
                    remedy = (
                        "leave one of the two out, or write the plant's zone into a sheet settings"
                    )
                raise reader.fault(figure.stamp, SheetCause.STAMP_TWICE(at=at), remedy)
            seen[at] += 1
            yield instant


def clock_of(
    reader: Reader,
    settings: Settings,
    figures: Sequence[SeriesFigure],
    every: Sequence[SeriesFigure],
) -> Clock:
    """Return how the stamps of a sheet are read.

    Parameters
    ----------
    reader, settings
        How its cells are written, and what holds for its figures.
    figures : sequence of SeriesFigure
        Those of its longest series, whose ends tell which end of its hour a stamp is.
    every : sequence of SeriesFigure
        All of them.

    Raises
    ------
    InputFault
        If that isn't told: the plant's zone, or which end of its hour a stamp is.
    """
    first, last = figures[0], figures[-1]
    zoned = next((each for each in every if each.at.tzinfo), None)
    if zoned is not None and settings.zone is None:
        first = zoned
        what = SheetCause.ZONE_UNTOLD(text=first.stamp.text)
        remedy = "write zone and Europe/Berlin, or UTC, into a sheet settings"
        raise reader.fault(first.stamp, what, remedy)
    clock = Clock(settings, settings.stamps == "end")
    clock.is_daily = _are_begins(clock, every)
    times = {clock.local(_aware(clock, each.at)).time() for each in every}
    if len(times) == 1 and not clock.is_daily and len(figures) > 1:
        time = f"{times.pop():%H:%M}"
        remedy = Sentence(
            "write day begins and {time} into a sheet settings if it is so", time=time
        )
        what = SheetCause.DAY_BEGINS_UNTOLD(text=first.stamp.text, time=time)
        raise reader.fault(first.stamp, what, remedy)
    if settings.stamps or clock.is_daily:
        return clock
    begins = settings.begins
    ends = [(clock.local(_aware(clock, each.at)) - begins).time() for each in (first, last)]
    if ends == [datetime.time(0), datetime.time(23)]:
        return clock
    if ends == [datetime.time(1), datetime.time(0)]:
        clock.ends = True
        return clock
    what = SheetCause.HOURS_NOT_WHOLE_DAYS(first=first.stamp.text, last=last.stamp.text)
    remedy = "write stamps and begin, or end, into a sheet settings"
    raise reader.fault(first.stamp, what, remedy)


def are_instants(clock: Clock, figures: Sequence[SeriesFigure]) -> bool:
    """Say whether stamps go from the begin of a day to that of another: of counters, not of hours."""
    begins = clock.settings.begins
    zoned = any(each.at.tzinfo for each in figures) and clock.settings.zone is None
    ends = [] if zoned else [clock.local(_aware(clock, figures[at].at)) - begins for at in (0, -1)]
    return len(figures) > 2 and {each.time() for each in ends} == {datetime.time(0)}


def _aware(clock: Clock, at: datetime.datetime) -> datetime.datetime:
    zone = clock.settings.zone or ZoneInfo("UTC")
    return at if at.tzinfo is not None else at.replace(tzinfo=zone)


def _are_begins(clock: Clock, figures: Sequence[SeriesFigure]) -> bool:
    """Say whether each stamp is the begin of a day, so that a figure is a day's."""
    midnight = datetime.time(0)
    begins = clock.settings.begins
    return all(
        (clock.local(_aware(clock, each.at)) - begins).time() == midnight for each in figures
    )


class Starts:
    """The day and the begin of each stamp of a sheet, found once for all of its columns.

    Parameters
    ----------
    clock : Clock
        How its stamps are read.
    """

    def __init__(self, clock: Clock) -> None:
        self.clock = clock
        self._stamps: list[datetime.datetime] = []
        self._found: list[tuple[datetime.date, datetime.datetime]] = []
        self._hours: dict[datetime.date, list[datetime.datetime]] = {}

    def of(
        self, reader: Reader, figures: Sequence[SeriesFigure]
    ) -> list[tuple[datetime.date, datetime.datetime]]:
        """Return the day and the begin of each figure's stamp.

        Raises
        ------
        InputFault
            If a stamp comes twice, or isn't there.
        """
        stamps = [figure.at for figure in figures]
        if stamps != self._stamps:
            ends = _HOUR if self.clock.ends and not self.clock.is_daily else datetime.timedelta(0)
            begins = [at - ends for at in self.clock.instants(reader, figures)]
            self._found = [(self.clock.day(at), at) for at in begins]
            self._stamps = stamps
        return self._found

    def hours(self, day: datetime.date) -> list[datetime.datetime]:
        """Return the instants at which the hours of a day begin."""
        if day not in self._hours:
            self._hours[day] = self.clock.hours(day)
        return self._hours[day]


def summed_days(
    reader: Reader, clock: Clock, name: str, figures: Sequence[SeriesFigure], starts: Starts
) -> SeriesDays:
    """Return the days of a series of hourly figures, or of one figure a day."""
    days = SeriesDays()
    try:
        found = starts.of(reader, figures)
    except InputFault as fault:
        days.faults.append(fault)
        return days
    hours: dict[datetime.date, dict[datetime.datetime, SeriesFigure]] = {}
    for figure, (day, start) in zip(figures, found):
        if clock.is_daily:
            day -= _DAY if clock.ends else datetime.timedelta(0)
            if not reader.is_missing(figure.cell):
                days.found.append(DayFigure(day, figure.stamp, figure.cell, 1))
            continue
        hours.setdefault(day, {})[start] = figure
    for day, of_day in hours.items():
        try:
            _sum_day(reader, starts, name, day, of_day, days)
        except InputFault as fault:
            days.faults.append(fault)
    return days


def _sum_day(
    reader: Reader,
    starts: Starts,
    name: str,
    day: datetime.date,
    found: dict[datetime.datetime, SeriesFigure],
    days: SeriesDays,
) -> None:
    """Add up the hours of a day.

    Raises
    ------
    InputFault
        If an hour has no figure, or a stamp isn't the begin of an hour.
    """
    clock, first = starts.clock, next(iter(found.values()))
    wanted = starts.hours(day)
    for instant in found.keys() - set(wanted):
        remedy = "give a figure for each hour, at its full hour"
        raise reader.fault(found[instant].stamp, SheetCause.NO_FULL_HOUR(), remedy)
    there = {at: each for at, each in found.items() if not reader.is_missing(each.cell)}
    if not there:
        return
    lacks = [at for at in wanted if at not in there]
    if lacks and not clock.settings.fill:
        times = [f"{clock.local(at):%H:%M}" for at in lacks]
        more = Sentence(" and {count} more", count=len(lacks) - _SAID) if len(lacks) > _SAID else ""
        said, counts = f"{', '.join(times[:_SAID])}{more}", (len(lacks), len(wanted))
        what = SheetCause.HOURS_LACK(
            name=name, lacks=counts[0], hours=counts[1], day=day, times=said
        )
        remedy = (
            "write them, or empty all of the day and estimate it; missing hours and 0 in a sheet "
            "settings take such hours for 0"
        )
        raise reader.fault(first.cell, what, remedy)
    days.filled += len(lacks)
    own = [each for each in there.values() if not isinstance(each, AgainFigure)]
    again = [each for each in there.values() if isinstance(each, AgainFigure)]
    with localcontext(EXACT):
        total = sum((reader.number(each.cell, name) for each in own), Decimal(0))
        total += sum((each.weight * reader.number(each.cell, name) for each in again), Decimal(0))
    zeros = tuple(f"{clock.local(at):%H:%M}" for at in lacks)
    cells = cells_text([each.cell for each in own])
    by = SummedBy.HOURS_ONE_TWICE if again else SummedBy.HOURS
    of = DayCells(by, cells, len(own), len(wanted), zeros)
    cell = SummedCell(first.cell.sheet, first.cell.line, first.cell.column, total, of)
    days.found.append(DayFigure(day, first.stamp, cell, len(wanted)))


def counter_days(
    reader: Reader, clock: Clock, name: str, modulus: Decimal, figures: Sequence[SeriesFigure]
) -> SeriesDays:
    """Return the days of a counter: what it went on from the begin of each to that of the next."""
    days = SeriesDays()
    try:
        there = [each for each in figures if not reader.is_missing(each.cell)]
        instants = list(clock.instants(reader, there))
        went = _went(reader, name, modulus, there)
    except InputFault as fault:
        days.faults.append(fault)
        return days
    at = {instant: place for place, instant in enumerate(instants)}
    if instants != sorted(instants):
        days.faults.append(reader.fault(figures[0].stamp, SheetCause.STAMPS_OUT_OF_ORDER()))
        return days
    for day in dict.fromkeys(map(clock.day, instants)):
        begin, end = at.get(clock.begin(day)), at.get(clock.begin(day + _DAY))
        if begin is not None and end is not None:
            total, hours = sum(went[begin:end], Fraction(0)), len(clock.hours(day))
            own = cells_text([each.cell for each in there[begin : end + 1]])
            of = DayCells(SummedBy.COUNTER, own, end + 1 - begin, hours)
            cell = _with(there[begin].cell, total, of)
            days.found.append(DayFigure(day, there[begin].stamp, cell, hours))
        elif (begin is None) != (end is None) or instants[-1] >= clock.begin(day + _DAY):
            _lack_ends(reader, clock, name, day, begin is None, instants, there, days)
    return days


def _lack_ends(
    reader: Reader,
    clock: Clock,
    name: str,
    day: datetime.date,
    of_begin: bool,
    instants: list[datetime.datetime],
    there: Sequence[SeriesFigure],
    days: SeriesDays,
) -> None:
    """Keep the fault of a day whose begin or end has no figure; not of the last stamp alone."""
    missing = clock.begin(day if of_begin else day + _DAY)
    if not of_begin and instants[-1] == clock.begin(day):
        return  # the last stamp is the end of the day before
    figure = next(each for each, at in zip(there, instants) if clock.day(at) == day)
    what = SheetCause.COUNTER_GAP(name=name, at=f"{clock.local(missing):%Y-%m-%d %H:%M}", day=day)
    remedy = "write it, or leave the other figures of the day out, and estimate it"
    days.faults.append(reader.fault(figure.cell, what, remedy))


def _went(
    reader: Reader, name: str, modulus: Decimal, figures: Sequence[SeriesFigure]
) -> list[Fraction]:
    """Return what a counter went on between its figures.

    Raises
    ------
    InputFault
        If a figure isn't below that at which the counter begins again, or if it went back.
    """
    numbers = [Fraction(reader.number(each.cell, name)) for each in figures]
    most, went = Fraction(modulus), []
    for number, figure in zip(numbers, figures):
        if not 0 <= number < most:
            what = SheetCause.COUNTER_ABOVE(name=name, modulus=modulus, text=figure.cell.text)
            raise reader.fault(figure.cell, what, "look at the figure in the sheet settings")
    for before, after, figure in zip(numbers, numbers[1:], figures[1:]):
        on = (after - before) % most
        if 2 * on >= most:
            what = SheetCause.COUNTER_BACK(name=name, modulus=modulus)
            remedy = "correct the figure; if it was set back, leave the day out and estimate it"
            raise reader.fault(figure.cell, what, remedy)
        went.append(on)
    return went


def _with(cell: Cell, total: Fraction, of: DayCells) -> SummedCell:
    """Return a cell with a sum of decimal numbers in place of its own figure."""
    places = 0
    while total.denominator != 1:
        total, places = total * 10, places + 1
    digits = tuple(map(int, str(abs(total.numerator))))
    number = Decimal((int(total < 0), digits, -places))
    return SummedCell(cell.sheet, cell.line, cell.column, number, of)
