"""What is missing from a workbook: days without a reading or a dip, and facts outside every period."""

from __future__ import annotations

import datetime
from collections.abc import Iterable

from plantbal.sentence import Day, Joined, Sentence
from plantbal.session import Service, dip_days, in_service, is_served, period_days
from plantbal.workbook.base import days_between
from plantbal.workbook.bookings import Bookings
from plantbal.workbook.dips import Dips
from plantbal.workbook.plant import PlantReader
from plantbal.workbook.tables import Tables
from plantbal.workbook.tickets import Tickets


class Missing:
    """Says what is missing.

    Parameters
    ----------
    tables : Tables
        The tables of the workbook.
    plant : PlantReader
        Its plant.
    bookings, tickets, dips
        Its facts.
    """

    def __init__(
        self,
        tables: Tables,
        plant: PlantReader,
        bookings: Bookings,
        tickets: Tickets,
        dips: Dips,
    ) -> None:
        self.tables = tables
        self.session = tables.session
        self.plant = plant
        self.bookings = bookings
        self.tickets = tickets
        self.dips = dips

    def say(self) -> None:
        """Say which days are missing, and which facts stand in no period."""
        periods = {period.name: period_days(period) for period in self.session.periods}
        inside = {day for first, last in periods.values() for day in days_between(first, last)}
        for name, (first, last) in periods.items():
            self._missing_readings(name, days_between(first, last))
            self._missing_dips(name, periods)
        outside = [
            c for days in self.bookings.days.values() for d, c in days.items() if d not in inside
        ]
        outside += [
            cell
            for a, b, cell in self.tickets.found
            if not any(x in inside for x in days_between(a, b))
        ]
        if outside:
            first_cell = str(outside[0].place()).rstrip(":")
            what = Sentence(
                "{count} figures are in no period, the first in {first_cell}",
                count=len(outside),
                first_cell=first_cell,
            )
            self.tables.notes.append(what)

    def _missing_readings(self, period: str, days: list[datetime.date]) -> None:
        for stream in self.plant.streams.values():
            if stream.kind != "metered":
                continue
            read = self.bookings.days.get(stream.name, {})
            service = self.session.service(stream.name)
            served = [day for day in days if in_service(service, day.toordinal())]
            lacks = [day for day in served if day not in read]
            if lacks and len(lacks) == len(served):
                self.tables.notes.append(
                    Sentence("{period}: no reading of {said}", period=period, said=stream.said)
                )
            elif lacks:
                self.tables.notes.append(
                    Sentence(
                        "{period}: no reading of {said} on {lacks}, so its other readings are left "
                        "aside; an estimate with a wide error keeps them",
                        period=period,
                        said=stream.said,
                        lacks=spans(lacks),
                    )
                )

    def _missing_dips(
        self, period: str, periods: dict[str, tuple[datetime.date, datetime.date]]
    ) -> None:
        first, last = periods[period]
        after = last + datetime.timedelta(1)
        next_ = next((name for name, (begin, _) in periods.items() if begin == after), "")
        for name in self.plant.tanks:
            service, dips = self.session.service(name), self.dips.found.get(name, {})
            lacks = [day for day in tank_days(service, first, last) if day not in dips]
            if lacks:
                note = Sentence(
                    "{period}: no dip of {name} on {lacks}",
                    period=period,
                    name=name,
                    lacks=spans(lacks),
                )
                stays = next_ and tank_days(service, *periods[next_])
                if stays and last in lacks and not self.tables.sheets["windows"]:
                    note = Sentence(
                        "{note}; if nobody took it, a sheet windows with {period}, {after} has what "
                        "it held then",
                        note=note,
                        period=period,
                        after=next_,
                    )
                self.tables.notes.append(note)


def tank_days(service: Service, first: datetime.date, last: datetime.date) -> list[datetime.date]:
    """Return the days whose dips open and close a tank over a period; none out of service."""
    days = first.toordinal(), last.toordinal()
    if not is_served(service, *days):
        return []
    return list(map(datetime.date.fromordinal, dip_days(service, *days)))


def spans(days: Iterable[datetime.date]) -> str:
    """Return days as a list, those that follow each other as `first to last`."""
    found: list[list[datetime.date]] = []
    for day in days:
        if found and (day - found[-1][-1]).days == 1:
            found[-1].append(day)
        else:
            found.append([day])
    texts: list[str] = []
    for span in found:
        if len(span) > 2:
            texts.append(Sentence("{first} to {last}", first=span[0], last=span[-1]))
        else:
            texts += (Day(day) for day in span)
    return Joined(", ", texts)
