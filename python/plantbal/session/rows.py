"""The rows of a session: each accepted or refused by the rules of the program, and kept."""

from __future__ import annotations

import csv
import io
from collections.abc import Callable, Iterable, Iterator, Mapping, Sequence
from itertools import chain
from pathlib import Path
from typing import TYPE_CHECKING, Any, Self

from plantbal import limits
from plantbal.faults import Fault, Place, Refusal, read_bytes
from plantbal.files import write_text
from plantbal.memory import uncollected
from plantbal.model.causes import Refused
from plantbal.model.effects import Effect
from plantbal.model.facts import At
from plantbal.model.core import CoreSession, installed_core
from plantbal.model.file import Rows, Step, fold, steps
from plantbal.model.periods import Period
from plantbal.model.plant import Service
from plantbal.model.readings import ReadingRows
from plantbal.model.refusals import Coded, Refusals
from plantbal.model.state import State
from plantbal.model.words import refusal_of
from plantbal.records import without_empty_end
from plantbal.session.dicts import fields_of

if TYPE_CHECKING:
    import pandas

# The ids, streams, days, grams and variances of readings.
ReadingColumns = tuple[list[str], list[str], list[str], list[str], list[str]]


class _Kept:
    """The accepted rows: long runs of readings as columns, the others one by one."""

    def __init__(self) -> None:
        self._parts: list[Sequence[Sequence[str]]] = []
        self._last: list[tuple[str, ...]] = []
        self._count = 0

    def __len__(self) -> int:
        return self._count

    def __iter__(self) -> Iterator[tuple[str, ...]]:
        return map(tuple, chain.from_iterable(self._parts))

    def append(self, row: tuple[str, ...]) -> None:
        """Add a row."""
        if not self._parts or self._parts[-1] is not self._last:
            self._last = []
            self._parts.append(self._last)
        self._last.append(row)
        self._count += 1

    def add(self, rows: Sequence[Sequence[str]]) -> None:
        """Add many rows."""
        self._parts.append(rows)
        self._count += len(rows)


class SessionRows:
    """Rows of a session, each accepted or refused; `plantbal.Session` adds a method for each kind.

    Parameters
    ----------
    strict : bool
        Whether a refused row raises `Refusal`. Otherwise it is left out and kept in `refused`.
    version : {1, 2}
        Its version.
    kept : int or None
        How many refused rows are kept with what is said of them; None for all.

    Attributes
    ----------
    refused : Refusals
        The rows that were refused, of a session that isn't strict: a list, and how many in all.
    state : State
        What the session is after its rows so far.
    """

    def __init__(self, *, strict: bool = True, version: int = 1, kept: int | None = None) -> None:
        self.strict = strict
        self.refused = Refusals(kept)
        self.notes: list[str] = []
        self.state = State(installed_core())
        self._rows = _Kept()
        if version not in (1, 2):
            raise Fault(f"there is no version {version} of sessions", remedy="use 1 or 2")
        if version == 2:
            self.row("version", "2")

    def __setstate__(self, found: dict[str, Any]) -> None:
        self.__dict__.update(found)
        self._ask_again()

    # ---- what is there

    def __len__(self) -> int:
        """Return how many rows were accepted."""
        return len(self._rows)

    def __iter__(self) -> Iterator[tuple[str, ...]]:
        """Give the accepted rows in order, as their fields."""
        return iter(self._rows)

    def __repr__(self) -> str:
        state = self.state
        return (
            f"<Session of {len(self._rows)} rows: {len(state.plant.nodes)} units and tanks, "
            f"{len(self.streams)} streams, {len(self.periods)} periods, {len(state.facts)} facts>"
        )

    @property
    def version(self) -> int:
        """Its version; the row ``version,2``, if no row is stored before it, makes it 2."""
        return self.state.version

    @property
    def periods(self) -> tuple[Period, ...]:
        """The periods in the order in which they were declared."""
        return tuple(self.state.periods.by_name.values())

    @property
    def streams(self) -> dict[str, str]:
        """The kind of each declared stream: ``metered``, ``batch`` or ``plain``."""
        streams = self.state.plant.streams
        return {name: each.kind for name, each in streams.items() if each.kind != "tank"}

    @property
    def nodes(self) -> dict[str, str]:
        """What each declared node is: ``unit`` or ``tank``."""
        return dict(self.state.plant.nodes)

    @property
    def boundaries(self) -> tuple[str, ...]:
        """The boundaries, which are further names of ``env``, in order."""
        return tuple(self.state.plant.boundaries)

    def crossings(self) -> dict[str, str]:
        """Return the boundary of each stream that has one, where it comes in or goes out."""
        return self.state.plant.crossings()

    @property
    def assays(self) -> tuple[tuple[str, str, str], ...]:
        """The component, the stream or tank, and the period of each assay, in order."""
        return tuple(self.state.assays)

    def components_in(self, period: str) -> list[str]:
        """Return the components that have assays in a period, in the order of their rows."""
        return list(dict.fromkeys(each[0] for each in self.state.assays if each[2] == period))

    def service(self, name: str) -> Service:
        """Return the days on which a stream or tank is in service, as their numbers.

        Parameters
        ----------
        name : str
            The stream or tank.

        Returns
        -------
        tuple of int or None
            Its first and its last day, both counted; None for every day.
        """
        return self.state.plant.service(name)

    def node_of(self, name: str) -> str:
        """Return the node that a name stands for: ``env`` for a boundary, else the name itself."""
        return self.state.plant.node_of(name)

    def periods_between(self, first: Period, last: Period) -> list[Period]:
        """Return the periods from one to another, both among them, in order of days."""
        return self.state.periods.between(first, last)

    def to_csv(self, path: str | Path | None = None) -> str:
        """Return the session as the program reads it, and write it to a file if one is named.

        Parameters
        ----------
        path : str or Path, optional
            A file, which is written whole or not at all; ``-`` is standard output.
        """
        out = io.StringIO()
        csv.writer(out, lineterminator="\n").writerows(self._rows)
        text = out.getvalue()
        if path is not None:
            write_text(path, text)
        return text

    # ---- rows as their fields

    @classmethod
    def read(cls, path: str | Path, *, strict: bool = False) -> Self:
        """Return the session of a file; ``-`` is standard input.

        Parameters
        ----------
        path : str or Path
            A file as the program reads it.
        strict : bool
            Whether the first refused row raises `Refusal`. Otherwise refused rows are left out and
            kept in `refused`, each with its file, line and record.
        """
        source, data = read_bytes(path, limits.SESSION_BYTES)
        session = cls(strict=strict)
        session.take(source, data)
        return session

    def take(self, source: str, data: bytes) -> None:
        """Take the rows of a file.

        Parameters
        ----------
        source : str
            What the file is called, for what is said of its rows.
        data : bytes
            Its bytes.
        """
        with uncollected():
            for _ in self.taking(source, data):
                pass

    def taking(self, source: str, data: bytes) -> Iterator[Step | Rows]:
        """Take the rows of a file, and give each that is accepted.

        Parameters
        ----------
        source, data
            As in `take`.
        """
        yield from self._taken(
            steps(self.state, data, self._explains),
            lambda at: Place(file=source, line=at.line, record=at.record),
        )

    def _explains(self) -> bool:
        """Say whether what is said of the next refused row is kept."""
        return self.strict or not self.refused.is_full

    def _taken(
        self, answered: Iterable[Step | Rows | Coded], place: Callable[[At], Place]
    ) -> Iterator[Step | Rows]:
        """Keep the accepted rows and the refused ones, and give each that is accepted."""
        try:
            for step in answered:
                if isinstance(step, Rows):
                    self._rows.add(step.rows)
                    yield step
                elif isinstance(step, Coded):
                    numbers = (place(At(record)).record for record in step.records)
                    self.refused.note_all(Coded([number or 0 for number in numbers], step.codes))
                elif isinstance(step.answer, Refused):
                    self._refuse(step.fields, step.answer, place(step.at))
                else:
                    if record := without_empty_end(step.fields):
                        self._rows.append(record)
                    yield step
        except Refusal:
            self._ask_again()
            raise

    def _ask_again(self) -> None:
        """Have a new core take the accepted rows: the one before had others, or isn't its own."""
        core = installed_core()
        self.state.core = None if core is None else CoreSession(core)
        if self.state.core is not None:
            self.state.core.codes(list(self._rows))

    def row(self, *fields: str, place: Place | None = None) -> bool:
        """Take a row as its fields, of which the first is its kind.

        Parameters
        ----------
        *fields : str
            The fields as the program reads them. Empty ones at the end are dropped.
        place : Place, optional
            Where the row stands, for what is said of it.

        Returns
        -------
        bool
            Whether it was accepted.

        Raises
        ------
        Refusal
            If the program would refuse it, and the session is strict.
        """
        return self.take_row(fields, place) is not None

    def take_row(
        self, fields: tuple[str, ...], place: Place | None = None, at: At | None = None
    ) -> Effect | None:
        """Take a row as `row` does, and return what it does or asks for; None if it is refused."""
        if at is None:
            at = At() if place is None else At(place.record or 0, place.line or 0)
        answer = self.state.after(fields, at)
        if isinstance(answer, Refused):
            self._refuse(fields, answer, place)
            return None
        if record := without_empty_end(fields):
            self._rows.append(record)
        return answer.effect

    def judge(self, fields: Sequence[str]) -> None:
        """Judge a record by the accepted rows, without taking it.

        Raises
        ------
        Refusal
            If the program would refuse it: the lowest code that holds.
        """
        answer = self.state.judge(tuple(fields))
        if isinstance(answer, Refused):
            raise refusal_of(self.state, without_empty_end(tuple(fields)), answer)

    def _refuse(self, fields: tuple[str, ...], answer: Refused, place: Place | None) -> None:
        """Raise the refusal of a row, or keep it."""
        if self.refused.is_full and not self.strict:
            self.refused.note(place.record if place else None, answer.cause)
            return
        refusal = refusal_of(self.state, without_empty_end(fields), answer)
        refusal.place = place or refusal.place
        if self.strict:
            raise refusal
        self.refused.take(refusal)

    def take_readings(self, columns: ReadingColumns, place: Callable[[int], Place]) -> None:
        """Take many readings, as columns of texts as the program reads them.

        Parameters
        ----------
        columns : tuple of list of str
            The ids, streams, days, grams and variances.
        place : callable
            The place of the row of a number, counted from 0, for what is said of it.
        """
        count = len(columns[0])
        if count:
            part = Rows(ReadingRows([["reading"] * count, *columns]), 0, bytes(count))
            answered = fold(self.state, part, self._explains)
            for _ in self._taken(answered, lambda at: place(at.record)):
                pass

    # ---- dicts and frames

    @classmethod
    def from_dicts(cls, rows: Iterable[Mapping[str, object]], *, strict: bool = True) -> Self:
        """Return the session of rows as dicts, such as those that JSON has.

        Parameters
        ----------
        rows : iterable of mapping of str to object
            Each row: its ``kind``, and its columns by their names in ``plantbal.schema``.
        strict : bool
            Whether a row that the program would refuse is an exception; otherwise it is left out,
            and stands in `refused`.

        Raises
        ------
        InputFault
            If a row hasn't the keys of its kind, or a value that isn't exact.
        Refusal
            If the program would refuse a row, and the session is strict.
        """
        session = cls(strict=strict)
        for number, row in enumerate(rows, 1):
            session.row(*fields_of(row, number), place=Place(row=str(number)))
        return session

    @classmethod
    def from_frames(
        cls,
        *,
        units: Iterable[str] | pandas.DataFrame | None = None,
        tanks: pandas.DataFrame | None = None,
        straps: pandas.DataFrame | None = None,
        streams: pandas.DataFrame | None = None,
        periods: pandas.DataFrame | None = None,
        critical: pandas.DataFrame | None = None,
        readings: pandas.DataFrame | None = None,
        transfers: pandas.DataFrame | None = None,
        dips: pandas.DataFrame | None = None,
        assays: pandas.DataFrame | None = None,
        boundaries: Iterable[str] | None = None,
        reports: bool | Iterable[str] = True,
        design: bool = False,
        strict: bool = True,
        round: str = "",
        error: str | Mapping[str, str] = "",
    ) -> Self:
        """Return the session of tables.

        Each table has a row for a row of the session, and the columns that the method of the kind
        has parameters: ``grams`` or ``tonnes``; ``variance``, ``deviation_grams`` or
        ``deviation_tonnes``; ``from`` and ``to``; ``day`` or ``date``. Without a column ``id``
        facts are called STREAM_DAY. Amounts are whole numbers, Decimals or texts; floats are
        refused. The session is of version 2 if there are boundaries, columns ``since`` or
        ``until``, or more streams than one of version 1 may have.

        Parameters
        ----------
        units : iterable of str or DataFrame, optional
            The units, or a table with a column ``name``. Without them they are the ends of the
            streams that are neither tanks nor ``env``.
        tanks, straps, streams, periods, critical, readings, transfers, dips : DataFrame, optional
            The other rows.
        assays : DataFrame, optional
            The grades of components, with columns ``component``, ``stream``, ``period``; ``ppm`` or
            ``percent``; ``variance``, ``deviation_ppm`` or ``deviation_percent``. The balance of
            each component is asked for after each report of a period that it has assays in.
        boundaries : iterable of str, optional
            The boundaries, which are further names of ``env``.
        reports : bool or iterable of str
            Whether each period is reported, or the periods that are.
        design : bool
            Whether the design of the plant is asked for.
        strict : bool
            Whether the first refused row raises `Refusal`; otherwise they are kept in `refused`.
        round : {'', 'gram'}
            Whether readings may be floats; what is finer than a gram is rounded, and `notes` says
            how many were, and by how much at most. Readings may then have the days down and the
            streams across, or the tags of a column ``tag`` of the streams; so they may be without
            it if they aren't floats.
        error : str or mapping of str, optional
            The standard deviation of a reading, such as ``1 % or 0.2 t``, of all streams or of each
            its own; for readings without a column of it.

        Raises
        ------
        Refusal
            If the program would refuse a row; `place` has the table and the row.
        Fault
            If a table lacks a column, or an amount isn't exact.
        """
        from plantbal.session.frames import fill, own_columns, tags_of
        from plantbal.session.wide import taken_readings

        session = cls(strict=strict)
        tables: dict[str, Any] = {
            "boundaries": boundaries,
            "units": units,
            "tanks": tanks,
            "straps": straps,
            "streams": streams,
            "periods": periods,
            "critical": critical,
            "readings": readings,
            "transfers": transfers,
            "dips": dips,
            "assays": assays,
        }
        taken = dict(tables)
        if readings is not None:
            how: dict[str, Any] = {"rounded": round, "error": error, "tags": tags_of(streams)}
            taken["readings"], session.notes = taken_readings(readings, **how)
        with own_columns(session, tables):
            fill(session, **taken)
        if design:
            session.row("design")
        wanted = [period.name for period in session.periods] if reports is True else reports
        for name in wanted or ():
            session.row("report", name)
            for component in session.components_in(name):
                session.row("component", component, name)
        return session
