"""Tables in memory as rows of a session."""

from __future__ import annotations

import datetime
from collections.abc import Callable, Iterable, Iterator, Mapping
from contextlib import contextmanager
from dataclasses import replace
from decimal import Decimal
from typing import TYPE_CHECKING, Any

from plantbal.amounts import (
    GRAMS_A_TONNE,
    day_as_given,
    decimal_of,
    grams_of,
    grams_of_texts,
    many_grams,
    variance_of,
    whole_of,
)
from plantbal.faults import Fault, InputFault, Place, Refusal
from plantbal.model.causes import Reason
from plantbal.memory import uncollected
from plantbal.session import ENV, dates_of_service, grade_text, grade_variance, most_streams

if TYPE_CHECKING:
    import pandas

    from plantbal.session.rows import SessionRows

Convert = Callable[[Any], str]

_DEVIATIONS = ("deviation_grams", "deviation_tonnes", "deviation_ppm", "deviation_percent")
# The heads from which a column of a row may come, if it isn't that of its own name.
_HEADS = {
    "base": ("variance", *_DEVIATIONS),
    "variance": _DEVIATIONS,
    "grams": ("tonnes",),
    "day": ("date",),
    "ppm": ("percent",),
    "name": ("stream", "tank", "unit", "period"),
    "from": ("from_",),
    "word": ("kind", "test"),
    "value": ("thousandths",),
}
# What a standard deviation has to be, whose square is the row's variance.
_RANGES = {
    "deviation_grams": "a number of grams above 0, and up to 3,162,277,660",
    "deviation_tonnes": "a number of tonnes above 0, and up to 3,162.27766",
}


class FrameTable:
    """A table, of which columns are taken as texts.

    Parameters
    ----------
    name : str
        What it is called in what is said.
    frame : DataFrame
        The table.
    """

    def __init__(self, name: str, frame: pandas.DataFrame) -> None:
        if not hasattr(frame, "columns"):
            raise InputFault(
                f"{name} is of type {type(frame).__name__}", remedy="give a pandas.DataFrame"
            )
        self.name, self.frame = name, frame

    def place(self, number: int, head: str = "") -> Place:
        """Return the place of a row, counted from 0."""
        return Place(file=self.name, row=str(self.frame.index[number]), head=head)

    def has(self, *heads: str) -> str | None:
        """Return which of these columns is there, or None."""
        found = [head for head in heads if head in self.frame.columns]
        if len(found) > 1:
            raise InputFault(
                f"the columns {' and '.join(found)} are there",
                place=Place(file=self.name),
                remedy="give one of them",
            )
        return found[0] if found else None

    def need(self, *heads: str) -> str:
        """Return which of these columns is there."""
        head = self.has(*heads)
        if head is None:
            there = ", ".join(map(str, self.frame.columns))
            raise InputFault(
                f"there is no column {' or '.join(heads)}",
                place=Place(file=self.name),
                remedy=f"the columns are {there}",
            )
        return head

    def texts(self, head: str, convert: Convert, exact_integers: bool = False) -> list[str]:
        """Return the texts of a column, each value converted once.

        Parameters
        ----------
        head : str
            The column.
        convert : callable
            Gives the text of a value, or raises a `Fault`.
        exact_integers : bool
            Whether a column of integers has its digits as texts.
        """
        import pandas

        series = self.frame[head]
        if pandas.api.types.is_float_dtype(series.dtype):
            raise InputFault(
                "floats aren't exact" if len(series) else f"column {head} is one of floats",
                place=self.place(0, head) if len(series) else Place(file=self.name, head=head),
                text=str(series.iloc[0]) if len(series) else "",
                remedy="read it with dtype=str, or make whole grams or Decimals of it; for readings "
                "use round='gram'",
            )
        values: list[Any] = series.tolist()
        kinds = set(map(type, values))
        if kinds != {str}:  # nothing is missing from texts alone
            self._refuse_missing(series, head)
            if pandas.api.types.is_integer_dtype(series.dtype):
                if exact_integers:
                    return list(map(str, values))
                values = list(map(int, values))  # a column of Int64 gives numbers of numpy
                kinds = {int}
        if kinds <= {str} and convert is str:
            return values
        try:
            if kinds <= {str} or kinds <= {datetime.date}:
                known = {value: convert(value) for value in dict.fromkeys(values)}
                return list(map(known.__getitem__, values))
            return [convert(value) for value in values]
        except Fault:
            return [self._text(convert, number, head, v) for number, v in enumerate(values)]

    def _refuse_missing(self, series: pandas.Series[Any], head: str) -> None:
        """Refuse a column without a value in some row."""
        missing = series.isna().to_numpy()
        if missing.any():
            number = int(missing.argmax())
            raise InputFault(
                "there is no value",
                place=self.place(number, head),
                remedy="leave the row out",
            )

    def _text(self, convert: Convert, number: int, head: str, value: Any) -> str:
        """Return the text of a value, or say where it stands."""
        try:
            return convert(value)
        except Fault as fault:
            place = self.place(number, head)
            raise InputFault(
                fault.what, place=place, text=fault.text, remedy=fault.remedy
            ) from fault

    def names(self, *heads: str) -> list[str]:
        """Return a column of names."""
        return self.texts(self.need(*heads), str)

    def wholes(self, head: str) -> list[str]:
        """Return a column of whole numbers."""
        return self.texts(self.need(head), lambda value: whole_of(value, head), True)

    def days(self, *heads: str) -> list[str]:
        """Return a column of days."""
        import numpy
        import pandas

        head = self.need(*heads)
        series = self.frame[head]
        if series.dtype == "datetime64[ns]" and not series.isna().any():
            moments = series.to_numpy()
            days, places = numpy.unique(moments, return_inverse=True)
            if (days == days.astype("datetime64[D]")).all():
                texts = numpy.array(
                    [day_as_given(day) for day in pandas.DatetimeIndex(days)], object
                )
                found: list[str] = texts[places].tolist()
                return found
        return self.texts(head, lambda value: day_as_given(value, head))

    def services(self) -> list[tuple[str, ...]]:
        """Return the dates of service of each row, as fields; none of a row without a date."""
        ends = []
        for head in ("since", "until"):
            found: list[Any] = [None] * len(self.frame)
            if self.has(head):
                there = self.frame[head].notna()
                texts = FrameTable(self.name, self.frame[there]).days(head)
                for place, text in zip(there.to_numpy().nonzero()[0], texts):
                    found[place] = text
            ends.append(found)
        return [dates_of_service(since, until) for since, until in zip(*ends)]

    def amounts(self) -> list[str]:
        """Return the amounts, in grams."""
        head = self.need("grams", "tonnes")
        if head == "grams":
            return self.wholes(head)
        import pandas

        series = self.frame[head]
        values = series.tolist()
        if pandas.api.types.is_integer_dtype(series.dtype) and not series.isna().any():
            # a column of Int64 gives numbers of numpy
            return [str(int(value) * GRAMS_A_TONNE) for value in values]
        kinds = set(map(type, values))
        if kinds == {str}:
            found = grams_of_texts(values)
            if found is not None:
                return found
        elif kinds == {Decimal}:
            grams = many_grams(values)
            if grams is not None:
                return list(map(str, grams))
        return self.texts(head, lambda value: str(grams_of(value, head)))

    def variances(self) -> list[str]:
        """Return the variances, in squared grams."""
        head = self.need("variance", "deviation_grams", "deviation_tonnes")
        return self.texts(head, lambda value: variance_of(**{head: value}), head == "variance")

    def grades(self) -> list[str]:
        """Return the grades, in parts per million."""
        head = self.need("ppm", "percent")
        if head == "ppm":
            return self.wholes(head)
        return self.texts(head, lambda value: grade_text(percent=value))

    def grade_variances(self) -> list[str]:
        """Return the variances of grades, in squares of parts per million."""
        head = self.need("variance", "deviation_ppm", "deviation_percent")
        return self.texts(head, lambda value: grade_variance(**{head: value}), head == "variance")

    def ids(self, places: list[str], days: list[str]) -> list[str]:
        """Return the ids: those of the column, or made of the stream or tank and the day."""
        if self.has("id"):
            return self.names("id")
        return [f"{place}_{day}" for place, day in zip(places, days)]


@contextmanager
def own_columns(
    session: SessionRows, tables: Mapping[str, pandas.DataFrame | object | None]
) -> Iterator[None]:
    """Have the refusals of rows of tables name the tables' own columns.

    Parameters
    ----------
    session : Session
        The session that takes the rows.
    tables : mapping
        The tables by what they are called.
    """
    try:
        yield
    except Refusal as refusal:
        _name_column(refusal, tables)
        raise
    for kept in session.refused:
        _name_column(kept, tables)


def _name_column(refusal: Refusal, tables: Mapping[str, pandas.DataFrame | object | None]) -> None:
    """Name the table's column at fault, in the place of a refusal and in what is said."""
    table: Any = tables.get(refusal.place.file)
    there = getattr(table, "columns", ())
    for head in (refusal.column, *_HEADS.get(refusal.column, ())):
        if head and head in there and not refusal.place.head:
            if head != refusal.column and refusal.refused.reason is Reason.NO_NUMBER:
                _say_of_table(refusal, table, head)
            refusal.place = replace(refusal.place, head=head)


def _say_of_table(refusal: Refusal, table: pandas.DataFrame, head: str) -> None:
    """Say what stands in the table: the row has another number, which is made of that."""
    rows = [number for number, label in enumerate(table.index) if str(label) == refusal.place.row]
    if len(rows) != 1:
        return  # rows of one label: nobody knows which it is
    value = table[head].iloc[rows[0]]
    refusal.said = f"{head} is {str(value)!r}, which makes {refusal.column} {refusal.text}"
    refusal.what = f"{refusal.head}: {refusal.said} (refused {refusal.code}, {refusal.word})"
    refusal.remedy = _RANGES.get(head, refusal.remedy)


def tags_of(streams: pandas.DataFrame | None) -> dict[str, str]:
    """Return the stream of each tag that a table of streams has."""
    if streams is None or "tag" not in getattr(streams, "columns", ()):
        return {}
    table = FrameTable("streams", streams)
    pairs = zip(streams["tag"], table.names("name", "stream"))
    return {str(tag): name for tag, name in pairs if tag == tag and tag}


def _take(session: SessionRows, table: FrameTable, kind: str, *columns: list[str]) -> None:
    for number, fields in enumerate(zip(*columns)):
        session.row(kind, *fields, place=table.place(number))


def _take_served(session: SessionRows, table: FrameTable, kind: str, *columns: list[str]) -> None:
    """Take rows that may have dates of service."""
    for number, (fields, service) in enumerate(zip(zip(*columns), table.services())):
        session.row(kind, *fields, *service, place=table.place(number))


def _take_streams(session: SessionRows, table: FrameTable) -> None:
    kinds = table.names("kind") if table.has("kind") else ["metered"] * len(table.frame)
    head = table.need("variance", "deviation_grams", "deviation_tonnes")
    # A plain stream has no variance, so its field may be missing.
    frame = table.frame.copy(deep=False)
    plain = [kind == "plain" for kind in kinds]
    column = frame[head].astype(object)
    column[plain] = 0
    frame[head] = column
    bases = FrameTable(table.name, frame).variances()
    _take_served(
        session,
        table,
        "stream",
        table.names("name", "stream"),
        table.names("from", "from_"),
        table.names("to"),
        kinds,
        bases,
    )


def _take_critical(session: SessionRows, table: FrameTable) -> None:
    tests = table.names("test")
    head = table.need("thousandths", "value")
    if head == "thousandths":
        values = table.wholes(head)
    else:
        values = table.texts(head, lambda value: _thousandths(value, head))
    dofs: list[Any] = table.frame["dof"].tolist() if table.has("dof") else [None] * len(tests)
    for number, (test, dof, value) in enumerate(zip(tests, dofs, values)):
        # A column with missing values is one of floats: whole ones are taken.
        freedom = [str(int(dof))] if test == "global" and dof is not None and dof == dof else []
        session.row("critical", test, *freedom, value, place=table.place(number))


def _thousandths(value: Any, head: str) -> str:
    exact = decimal_of(value, head) * 1000
    if exact != int(exact):
        raise Fault(f"{head} is {value}", text=str(value), remedy="at most three decimals")
    return str(int(exact))


@uncollected()
def fill(
    session: SessionRows,
    *,
    boundaries: Iterable[str] | None,
    units: Iterable[str] | pandas.DataFrame | None,
    tanks: pandas.DataFrame | None,
    straps: pandas.DataFrame | None,
    streams: pandas.DataFrame | None,
    periods: pandas.DataFrame | None,
    critical: pandas.DataFrame | None,
    readings: pandas.DataFrame | None,
    transfers: pandas.DataFrame | None,
    dips: pandas.DataFrame | None,
    assays: pandas.DataFrame | None,
) -> None:
    """Take the rows of tables into a session, in the order in which they may stand.

    Parameters
    ----------
    session : Session
        The session.
    boundaries, units, tanks, straps, streams, periods, critical, readings, transfers, dips, assays
        As in `plantbal.Session.from_frames`.
    """
    tank_table = None if tanks is None else FrameTable("tanks", tanks)
    stream_table = None if streams is None else FrameTable("streams", streams)
    tank_names = tank_table.names("name", "tank") if tank_table else []
    outside = list(boundaries or ())
    plants = [table for table in (tank_table, stream_table) if table is not None]
    dated = any(table.has(head) for table in plants for head in ("since", "until"))
    if outside or dated or sum(len(table.frame) for table in plants) > most_streams(1):
        session.row("version", "2")
    for number, name in enumerate(outside):
        session.row("boundary", name, place=Place(file="boundaries", row=str(number)))
    if units is None:
        ends: list[str] = []
        if stream_table:
            for one, other in zip(stream_table.names("from", "from_"), stream_table.names("to")):
                ends += [one, other]
        known = {ENV, *tank_names, *outside}
        names = [name for name in dict.fromkeys(ends) if name not in known]
    elif hasattr(units, "columns"):
        names = FrameTable("units", units).names("name", "unit")
    else:
        names = list(units)
    for number, name in enumerate(names):
        session.row("unit", name, place=Place(file="units", row=str(number)))
    if tank_table:
        _take_served(session, tank_table, "tank", tank_names, tank_table.variances())
    if straps is not None:
        table = FrameTable("straps", straps)
        _take(session, table, "strap", table.names("tank"), table.wholes("mm"), table.wholes("ml"))
    if stream_table:
        _take_streams(session, stream_table)
    if critical is not None:
        _take_critical(session, FrameTable("critical", critical))
    if periods is not None:
        table = FrameTable("periods", periods)
        days = table.days("first"), table.days("last")
        _take(session, table, "period", table.names("name", "period"), *days)
    if readings is not None:
        table = FrameTable("readings", readings)
        of, on = table.names("stream"), table.days("day", "date")
        columns = table.ids(of, on), of, on, table.amounts(), table.variances()
        session.take_readings(columns, table.place)
    if transfers is not None:
        table = FrameTable("transfers", transfers)
        of, first, last = table.names("stream"), table.days("first"), table.days("last")
        ids = table.ids(of, first)
        _take(session, table, "transfer", ids, of, first, last, table.amounts(), table.variances())
    if dips is not None:
        table = FrameTable("dips", dips)
        of, on = table.names("tank"), table.days("day", "date")
        level = table.wholes("mm"), table.wholes("density")
        _take(session, table, "dip", table.ids(of, on), of, on, *level, table.variances())
    if assays is not None:
        table = FrameTable("assays", assays)
        what = [table.names(head) for head in ("component", "stream", "period")]
        _take(session, table, "assay", *what, table.grades(), table.grade_variances())
