"""Gives readings and guesses to the session, each with the variance that it bears."""

from __future__ import annotations

import datetime

from plantbal.estimates import estimate_id
from plantbal.sentence import Sentence
from plantbal.session import period_days
from plantbal.workbook.base import MOST_VARIANCE, PeriodDays, share_at, error_said
from plantbal.workbook.causes import SheetCause
from plantbal.workbook.cells import Error
from plantbal.workbook.drying import Dry, MoistureReader
from plantbal.workbook.measuring import Applied, Measuring
from plantbal.workbook.periods import PeriodSheet
from plantbal.workbook.plant import PlantReader, StreamRow
from plantbal.workbook.sheets import Cell
from plantbal.workbook.tables import Tables


class Bookings:
    """Books the figures of days.

    Parameters
    ----------
    tables : Tables
        The tables of the workbook.
    plant : PlantReader
        Its plant.
    periods : PeriodSheet
        The periods that a day may be in.
    moistures : MoistureReader
        The moistures, for what is wet.
    measuring : Measuring
        What volumes become masses by.

    Attributes
    ----------
    days : dict of str to dict of date to Cell
        The days of each stream that have a figure, and where it stands.
    """

    def __init__(
        self,
        tables: Tables,
        plant: PlantReader,
        periods: PeriodSheet,
        moistures: MoistureReader,
        measuring: Measuring,
    ) -> None:
        self.tables = tables
        self.reader = tables.reader
        self.session = tables.session
        self.plant = plant
        self.periods = periods
        self.moistures = moistures
        self.measuring = measuring
        self.days: dict[str, dict[datetime.date, Cell]] = {}

    def book(
        self,
        stream: StreamRow,
        day: datetime.date,
        grams: int,
        error: Error,
        cell: Cell,
        is_wet: bool = False,
        guessed: int = 0,
        applied: Applied | None = None,
    ) -> str:
        """Give a reading to the session, or a day of a guess for so many; a wet one as it is dry.

        Returns the id of the fact, which is empty if it is refused.

        The days of a guess have one error in common, so the standard deviation of their sum is the
        sum of theirs. Each has that many times its variance: these add up to the square.
        """
        days = self.days.setdefault(stream.name, {})
        if day in days:
            other = str(days[day].place()).rstrip(":")
            what = SheetCause.FIGURE_TWICE(stream=stream.said, day=day, other=other)
            raise self.reader.fault(cell, what, "empty one of the two")
        days[day] = cell
        figure = Dry(grams, error.variance(grams))
        if is_wet:
            figure = self.moistures.dried_on(stream, day, grams, error, cell)
        elif applied is not None:
            more = self.measuring.variance_of_day(applied, day)
            figure = Dry(grams, figure.variance + more)
        name = estimate_id(stream.label, str(day)) if guessed else f"{stream.label}_{day}"
        fields = [name, stream.name, str(day), str(figure.grams)]
        own = figure.variance * max(1, guessed)
        variance = self.tables.bearable(own + self._born(stream, day), figure.grams, cell)
        is_put = self.tables.put(["reading", *fields, str(variance)], {"grams": cell})
        if is_put and applied is not None:
            self.measuring.keep(name, applied, figure.grams, variance)
        return name if is_put else ""

    def _born(self, stream: StreamRow, day: datetime.date) -> int:
        """Return what a day bears of a systematic error that is wider than a row."""
        if not stream.excess:
            return 0
        service = self.session.service(stream.name)
        return share_at(stream.excess, self.periods.spans_at(day), service, day.toordinal())

    def check_bases(self) -> None:
        """Say of each wide systematic error that readings bear it, or keep why they can't.

        It can't be shared if a day is in two periods of which each would want its own shares.
        """
        periods = [PeriodDays(*map(_ordinal, period_days(each))) for each in self.session.periods]
        for name, cell in self.plant.bases.items():
            stream = self.plant.streams.get(name)
            if stream is None or not stream.excess:
                continue
            service = self.session.service(name)
            for span in periods:
                days = span.days(service)
                sums = sum(
                    share_at(stream.excess, self.periods.spans_at(_day(at)), service, at)
                    for at in days
                )
                if days and sums != stream.excess:
                    ends = _day(span.first), _day(span.last)
                    what = SheetCause.BASE_OF_TWO_PERIODS(
                        text=cell.text, first=ends[0], last=ends[1]
                    )
                    remedy = Sentence(
                        "write at most {most}, or ask for one of the two",
                        most=error_said(MOST_VARIANCE),
                    )
                    self.tables.fault(cell, what, remedy, "base")
                    break
            else:
                note = Sentence(
                    "{place} a base of {text} is wider than the {most} of a row: the readings of "
                    "each period bear the rest, and the variance of the period is the same",
                    place=cell.place(),
                    text=cell.text,
                    most=error_said(MOST_VARIANCE),
                )
                self.tables.notes.append(note)


def _ordinal(day: datetime.date) -> int:
    """Return a day as a number."""
    return day.toordinal()


def _day(number: int) -> datetime.date:
    """Return the day of a number."""
    return datetime.date.fromordinal(number)
