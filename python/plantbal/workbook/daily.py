"""Sheets of readings with hours, zones or counters, turned into sheets with a figure a day.

The rows of hours become a row for each day, wide or long as the sheet is; rows above, sums and
remarks stay as they are.
"""

from __future__ import annotations

import datetime
import re
from array import array
from collections.abc import Iterable, Iterator, Mapping
from dataclasses import dataclass, field, replace

from plantbal.faults import InputFault
from plantbal.sentence import Sentence
from plantbal.workbook.causes import SheetCause
from plantbal.workbook.cells import Reader
from plantbal.workbook.hours import (
    Clock,
    DayFigure,
    SeriesDays,
    SeriesFigure,
    Starts,
    are_instants,
    clock_of,
    counter_days,
    has_times,
    stamp_of,
    summed_days,
)
from plantbal.workbook.settings import Settings
from plantbal.workbook.sheets import Cell, Sheet, Value

_MOST_STAMPS = 100_000
_BY_HOUR = re.compile(r"[\[(]?([^\W\d_][\w³]*)/(?:h|hr|hour)[\])]?", re.IGNORECASE)


@dataclass
class Daily:
    """What a sheet has by day.

    Attributes
    ----------
    lines : list of list of Cell
        The rows below the heads.
    taken : iterable of int
        The numbers of the rows of hours that were read.
    faults : list of InputFault
        What is wrong.
    notes : list of str
        What was recognised, and by what.
    """

    lines: list[list[Cell]]
    taken: Iterable[int] = ()
    faults: list[InputFault] = field(default_factory=list)
    notes: list[str] = field(default_factory=list)
    by_hours: dict[int, set[datetime.date]] = field(default_factory=dict)
    filled: int = 0

    def take(self, days: SeriesDays) -> None:
        """Count the hours of the days of a series, and keep its faults."""
        self.faults += days.faults
        self.filled += days.filled
        for each in days.found:
            self.by_hours.setdefault(each.hours, set()).add(each.day)


def wide_by_day(
    reader: Reader,
    settings: Settings,
    heads: list[Cell],
    lines: list[list[Cell]],
    names: Mapping[str, str],
) -> Daily | None:
    """Return a sheet with days down by day; None if its stamps are days, and no column a counter's.

    Parameters
    ----------
    reader : Reader
        How its cells are written.
    settings : Settings
        What holds for its figures.
    heads : list of Cell
        The row of heads.
    lines : list of list of Cell
        The rows below it.
    names : mapping of str to str
        The streams by their names and tags.

    Raises
    ------
    InputFault
        If a stamp can be read in two ways.
    """
    columns = [at for at, cell in enumerate(heads) if at and cell.text in names]
    at = _stamp_column(reader, lines, min(columns, default=0))
    stamps = [stamp_of(reader, cells[at]) if at < len(cells) else None for cells in lines]
    stamped = [(cells, stamp) for cells, stamp in zip(lines, stamps) if stamp is not None]
    timed = has_times([stamp for _, stamp in stamped])
    counters = [c for c in columns if names[heads[c].text] in settings.counters]
    if not stamped or not (timed or counters):
        return None
    series = {
        column: [SeriesFigure(cells[at], _at(cells, column), stamp) for cells, stamp in stamped]
        for column in columns
    }
    first = [SeriesFigure(cells[at], cells[at], stamp) for cells, stamp in stamped]
    clock = Clock(settings, settings.stamps == "end")
    instants = bool(counters) and len(counters) == len(columns) and are_instants(clock, first)
    if timed and not instants:  # what a counter shows at an instant is of no hour
        clock = clock_of(reader, settings, first, first)
    found = Daily([], taken=[cells[0].line for cells, _ in stamped])
    starts = Starts(clock)
    rows: dict[datetime.date, list[Cell]] = {}
    for column, figures in series.items():
        name = heads[column].text
        days = _days_of(reader, clock, name, names[name], figures, timed, starts)
        found.take(days)
        for each in days.found:
            if each.day not in rows:
                rows[each.day] = _empty(heads, each, at)
            rows[each.day][column] = each.cell
    hourly = timed and max(found.by_hours, default=1) > 1
    for cells, stamp in zip(lines, stamps):
        if stamp is None:
            found.lines.append(without_rates(cells, columns) if hourly else cells)
    found.lines += [rows[day] for day in sorted(rows)]
    _say(found, heads, clock, [heads[c].text for c in counters], hourly)
    return found


class LongRows:
    """The rows of a long sheet by their tags, as places alone: cells are made a tag at a time.

    Parameters
    ----------
    reader : Reader
        How its cells are written.
    sheet : Sheet
        The sheet.
    begin : int
        The place of the first row below the heads.
    at : mapping of str to int
        The columns ``day``, ``tag``, ``value`` and perhaps ``unit``.

    Attributes
    ----------
    series : dict of str to array of int
        The places of the rows of each tag that have a stamp.
    others : list of int
        The places of the rows without one.
    first : dict of datetime to int
        The place of the first row with each stamp.
    """

    def __init__(self, reader: Reader, sheet: Sheet, begin: int, at: Mapping[str, int]) -> None:
        self.reader, self.sheet, self.at = reader, sheet, at
        self.series: dict[str, array[int]] = {}
        self.others: list[int] = []
        self.first: dict[datetime.datetime, int] = {}
        self._stamps: dict[Value, datetime.datetime | None] = {}  # of values that are there often
        for place in range(begin, len(sheet.lines)):
            stamp = self.stamp(place)
            if stamp is None:
                self.others.append(place)
                continue
            tag = self._value(place, at["tag"])
            text = tag if isinstance(tag, str) else self._cell(place, at["tag"]).text
            self.series.setdefault(text, array("q")).append(place)
            self.first.setdefault(stamp, place)

    def _value(self, place: int, column: int) -> Value:
        values = self.sheet.lines[place][1]
        return values[column] if column < len(values) else None

    def _cell(self, place: int, column: int) -> Cell:
        line, values = self.sheet.lines[place]
        return Cell(self.sheet, line, column + 1, values[column] if column < len(values) else None)

    def stamp(self, place: int) -> datetime.datetime | None:
        """Return the stamp of a row."""
        value = self._value(place, self.at["day"])
        try:
            return self._stamps[value]
        except KeyError:
            found = stamp_of(self.reader, self._cell(place, self.at["day"]))
        if len(self._stamps) < _MOST_STAMPS:
            self._stamps[value] = found
        return found

    def figures(self, places: Iterable[int]) -> list[SeriesFigure]:
        """Return the figures of rows in the order of their stamps; of one clock time as they are."""
        found = []
        for place in places:
            stamp = self.stamp(place)
            if stamp is not None:
                day = self._cell(place, self.at["day"])
                found.append(SeriesFigure(day, self._cell(place, self.at["value"]), stamp))
        return sorted(found, key=_order_of)

    def taken(self) -> Iterator[int]:
        """Give the numbers of the rows that have a stamp."""
        return (self.sheet.lines[place][0] for places in self.series.values() for place in places)


def long_by_day(
    reader: Reader,
    settings: Settings,
    sheet: Sheet,
    head: int,
    names: Mapping[str, str],
    at: Mapping[str, int],
) -> Daily | None:
    """Return a sheet with a row for each figure by day, as `wide_by_day` does.

    Parameters
    ----------
    reader, settings, names
        As `wide_by_day` has them.
    sheet : Sheet
        The sheet.
    head : int
        The place of its heads.
    at : mapping of str to int
        The columns ``day``, ``tag``, ``value`` and perhaps ``unit``.

    Raises
    ------
    InputFault
        If a stamp can be read in two ways, or a tag has several units.
    """
    column, heads = at["day"], sheet.row(head)
    rows = LongRows(reader, sheet, head + 1, at)
    timed = has_times([*rows.first])
    counters = sorted(each for each in rows.series if names.get(each) in settings.counters)
    if not rows.first or not (timed or counters):
        return None
    found = Daily([sheet.row(place) for place in rows.others], taken=rows.taken())
    clock = Clock(settings, settings.stamps == "end")
    if timed:
        most = max(rows.series, key=lambda tag: len(rows.series[tag]))
        longest = rows.figures(rows.series[most])
        clock = clock_of(reader, settings, longest, rows.figures(rows.first.values()))
    for name, places in rows.series.items():
        if name not in names:
            stamp = rows.stamp(places[0])
            assert stamp is not None, "rows of a series have a stamp"
            found.lines.append(_as_day(sheet.row(places[0]), column, stamp.date()))
            continue
        figures = rows.figures(places)
        days = _days_of(reader, clock, name, names[name], figures, timed, Starts(clock))
        found.take(days)
        own = {sheet.lines[place][0]: place for place in places}
        unit = _one_unit(reader, (sheet.row(own[each.stamp.line]) for each in figures), at)
        for each in days.found:
            row = _as_day(sheet.row(own[each.stamp.line]), column, each.day)
            row[at["value"]] = each.cell
            found.lines.append(without_rates(row, [unit]) if each.hours > 1 else row)
    hourly = timed and max(found.by_hours, default=1) > 1
    _say(found, heads, clock, counters, hourly)
    return found


def _order_of(figure: SeriesFigure) -> datetime.datetime:
    """Return what figures are put in order by; those of one clock time stay as they are."""
    at = figure.at
    return at.astimezone(datetime.timezone.utc).replace(tzinfo=None) if at.tzinfo else at


def _days_of(
    reader: Reader,
    clock: Clock,
    said: str,
    name: str,
    figures: list[SeriesFigure],
    timed: bool,
    starts: Starts,
) -> SeriesDays:
    """Return the days of a series."""
    modulus = clock.settings.counters.get(name)
    if modulus is not None:
        figures = figures if timed else _at_begins(reader, clock, figures)
        return counter_days(reader, clock, said, modulus, figures)
    if timed:
        return summed_days(reader, clock, said, figures, starts)
    plain = [each for each in figures if not reader.is_missing(each.cell)]
    return SeriesDays([DayFigure(each.at.date(), each.stamp, each.cell, 1) for each in plain])


def _at_begins(reader: Reader, clock: Clock, figures: list[SeriesFigure]) -> list[SeriesFigure]:
    """Return the figures of a counter, a day each, with the time at which they were read.

    Raises
    ------
    InputFault
        If it isn't told whether that was the day's begin or its end.
    """
    if not clock.settings.stamps:
        remedy = "write stamps and begin, or end, into a sheet settings"
        raise reader.fault(figures[0].stamp, SheetCause.COUNTER_OF_DAY(), remedy)
    shift = clock.settings.begins + datetime.timedelta(days=clock.ends)
    return [replace(each, at=each.at + shift) for each in figures]


def _one_unit(reader: Reader, rows: Iterable[list[Cell]], at: Mapping[str, int]) -> int:
    """Return the column of the units, if all rows of a tag have one unit; -1 without a column.

    Raises
    ------
    InputFault
        If they have several.
    """
    if "unit" not in at:
        return -1
    column, first = at["unit"], None
    for cells in rows:
        cell = _at(cells, column)
        first = first or cell
        if cell.text != first.text:
            both = first.text or "no unit", cell.text or "none"
            what = SheetCause.UNITS_OF_TAG_DIFFER(first=both[0], other=both[1])
            raise reader.fault(cell, what, "write the same unit for all")
    return column


def _stamp_column(reader: Reader, lines: list[list[Cell]], end: int) -> int:
    """Return the first column before those of the figures that has stamps."""
    for column in range(end):
        if any(stamp_of(reader, _at(cells, column)) for cells in lines[:10]):
            return column
    return 0


def _at(cells: list[Cell], column: int) -> Cell:
    if column < len(cells):
        return cells[column]
    return Cell(cells[0].sheet, cells[0].line, column + 1, None)


def _empty(heads: list[Cell], figure: DayFigure, at: int) -> list[Cell]:
    """Return a row with nothing but its day."""
    stamp = figure.stamp
    cells = [Cell(stamp.sheet, stamp.line, head.column, None) for head in heads]
    return _as_day(cells, at, figure.day)


def _as_day(cells: list[Cell], column: int, day: datetime.date) -> list[Cell]:
    """Return a row with a day in place of its stamp."""
    at = datetime.datetime(day.year, day.month, day.day)
    cells = list(cells)
    cells[column] = Cell(cells[column].sheet, cells[column].line, cells[column].column, at)
    return cells


def without_rates(cells: list[Cell], columns: list[int]) -> list[Cell]:
    """Return a row whose units an hour are those of an hour's amount."""
    found = list(cells)
    for column in columns:
        match = _BY_HOUR.fullmatch(cells[column].text) if 0 <= column < len(cells) else None
        if match:
            cell = cells[column]
            found[column] = Cell(cell.sheet, cell.line, cell.column, match.group(1))
    return found


def _say(found: Daily, heads: list[Cell], clock: Clock, counters: list[str], hourly: bool) -> None:
    """Say what was recognised."""
    place = heads[0].sheet.place(heads[0].line)
    zone = Sentence(" in {zone}", zone=clock.settings.zone) if clock.settings.zone else ""
    if hourly:
        counts = {hours: len(days) for hours, days in sorted(found.by_hours.items())}
        days = ", ".join(
            Sentence("{count} of {hours} hours", count=count, hours=hours)
            for hours, count in counts.items()
        )
        end = "end" if clock.ends else "begin"
        found.notes.append(
            Sentence(
                "{place} figures of hours are added up by day{zone}, days: {days}; a stamp is the {end} of its hour, and a figure in t/h counts for one hour",
                place=place,
                zone=zone,
                days=days,
                end=end,
            )
        )
    elif found.by_hours and clock.is_daily:
        end = "end" if clock.ends else "begin"
        found.notes.append(
            Sentence(
                "{place} each stamp is the {end} of a day{zone}", place=place, end=end, zone=zone
            )
        )
    if found.filled:
        found.notes.append(
            Sentence(
                "{place} {filled:,} hours without a figure are taken for 0",
                place=place,
                filled=found.filled,
            )
        )
    if counters:
        names = ", ".join(counters)
        found.notes.append(
            Sentence(
                "{place} figures of the counters {names} are subtracted by day{zone}",
                place=place,
                names=names,
                zone=zone,
            )
        )
