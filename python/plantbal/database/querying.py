"""Rows of queries as sheets of a workbook, which are read as any other.

A number of a decimal column is exact. A historian keeps floats: such a figure is the shortest
decimal number that gives the float again, it is rounded to the gram as all are, and a note counts
them. A stamp with a zone is written in UTC. A figure whose quality is bad is a missing one; a code
that is neither good nor bad is a fault, since it may mean either.
"""

from __future__ import annotations

import datetime
from collections import Counter
from collections.abc import Iterable, Mapping, Sequence
from dataclasses import dataclass, field
from decimal import Decimal
from typing import Any

from plantbal import limits
from plantbal.database.queries import Queries, Query
from plantbal.faults import InputFault, Place
from plantbal.workbook.sheets import Sheet, Value

# Where the figure of a row stands that is missing if its quality is bad.
_FIGURES = ("value", "amount", "reading", "level", "density", "temperature", "moisture", "grade")
_AT_ONCE = 2_000
_ROW_BYTES = 64  # of a row beside its texts


@dataclass(frozen=True)
class SourceChange:
    """When the source changed a row last.

    Attributes
    ----------
    sheet : str
        The kind of its sheet.
    row : mapping of str to object
        The row, by the heads of the sheet.
    at : str
        The source's own time.
    """

    sheet: str
    row: Mapping[str, Any]
    at: str


@dataclass
class QueryResult:
    """What the queries of a file gave.

    Attributes
    ----------
    sheets : list of Sheet
        The sheets.
    changed : list of SourceChange
        When the source changed rows, for those that say it.
    notes : list of str
        What has to be said: floats, and figures of bad quality.
    """

    sheets: list[Sheet] = field(default_factory=list)
    changed: list[SourceChange] = field(default_factory=list)
    notes: list[str] = field(default_factory=list)


def queried(connection: Any, queries: Queries, given: Mapping[str, Any]) -> QueryResult:
    """Return what the queries give.

    Parameters
    ----------
    connection : sqlalchemy connection
        The database.
    queries : Queries
        Its queries and limits.
    given : mapping of str to object
        The parameters that a query may name.

    Raises
    ------
    InputFault
        If there are too many rows or bytes, or a value is of no kind that a sheet has.
    """
    found, left = QueryResult(), _Left(queries)
    for at, query in enumerate(queries.all, 1):
        _QueryReading(queries, query, at, left, found).read(connection, given)
    if queries.settings:
        lines: list[tuple[int, list[Value]]] = [(1, ["setting", "value", "for"])]
        lines += [(at, [name, value, None]) for at, (name, value) in _settings(queries)]
        found.sheets.append(Sheet(queries.file, "settings", lines))
    return found


def _settings(queries: Queries) -> Iterable[tuple[int, tuple[str, str]]]:
    return enumerate(queries.settings.items(), 2)


@dataclass
class _Left:
    """How many rows and bytes are left of the limits."""

    queries: Queries
    rows: int = 0
    bytes: int = 0

    def take(self, rows: int, size: int) -> None:
        """Count rows and bytes.

        Raises
        ------
        InputFault
            If they are too many.
        """
        self.rows, self.bytes = self.rows + rows, self.bytes + size
        most = self.queries.most
        place = Place(file=self.queries.file)
        remedy = "ask for fewer days at once, or raise [limits]"
        if self.rows > most.rows:
            raise InputFault(
                f"the queries give more than {most.rows:,} rows", place=place, remedy=remedy
            )
        if self.bytes > most.megabytes << 20:
            what = f"the queries give more than {most.megabytes:,} MB"
            raise InputFault(what, place=place, remedy=remedy)


class _QueryReading:
    """Reads the rows of a query into a sheet."""

    def __init__(
        self, queries: Queries, query: Query, at: int, left: _Left, found: QueryResult
    ) -> None:
        self.queries, self.query, self.at = queries, query, at
        self.left, self.found = left, found
        self.floats = 0
        self.missing: Counter[str] = Counter()
        self.no_numbers: Counter[str] = Counter()

    def fault(self, what: str, remedy: str, line: int | None = None) -> InputFault:
        """Return a fault of the query, or of a row that it gave."""
        place = Place(file=self.queries.file, sheet=f"query {self.at}", record=line)
        return InputFault(what, place=place, remedy=remedy)

    def read(self, connection: Any, given: Mapping[str, Any]) -> None:
        """Read all rows, a part at a time."""
        import sqlalchemy

        statement = sqlalchemy.text(self.query.sql)
        wanted = {name: given[name] for name in statement.compile().params if name in given}
        unknown = sorted(set(statement.compile().params) - set(given))
        if unknown:
            remedy = f"it may name {', '.join(':' + name for name in given)}"
            raise self.fault(f"the query names :{unknown[0]}", remedy)
        result = connection.execution_options(stream_results=True).execute(statement, wanted)
        heads = [str(key) for key in result.keys()]
        for column in (self.query.quality, self.query.changed):
            if column and column not in heads:
                raise self.fault(f"the query has no column {column!r}", "add it to the query")
        own = [each for each in heads if each not in (self.query.quality, self.query.changed)]
        lines: list[tuple[int, list[Value]]] = [(1, list(own))]
        while rows := result.fetchmany(_AT_ONCE):
            self.left.take(len(rows), sum(map(_size, rows)))
            for row in rows:
                lines.append((len(lines) + 1, self._line(dict(zip(heads, row)), own, len(lines))))
        name = f"query {self.at}"
        self.found.sheets.append(Sheet(f"{self.queries.file}!{name}", self.query.sheet, lines))
        self._say(name)

    def _line(self, row: Mapping[str, Any], own: Sequence[str], at: int) -> list[Value]:
        """Return the cells of a row."""
        values = {head: self._value(row[head], head, at) for head in own}
        if self.query.quality and not self._is_good(row[self.query.quality], at):
            values[self._figure_of(own)] = None
            self.missing[str(row.get("tag") or row.get("tank") or row.get("name") or "")] += 1
        if self.query.changed and row[self.query.changed] is not None:
            when = row[self.query.changed]
            said = _stamp(when) if isinstance(when, datetime.datetime) else str(when)
            self.found.changed.append(SourceChange(self.query.sheet, values, said))
        return [values[head] for head in own]

    def _figure_of(self, heads: Sequence[str]) -> str:
        """Return the column whose figure is missing if its quality is bad."""
        for head in heads:
            if head.casefold() in _FIGURES:
                return head
        remedy = f"call it one of {', '.join(_FIGURES)}"
        raise self.fault("no column has the figure that this quality describes", remedy)

    def _is_good(self, code: Any, at: int) -> bool:
        text = str(code).casefold()
        if text not in self.query.good and text not in self.query.bad:
            remedy = "write it into good, or into bad if the figure is missing then"
            raise self.fault(f"nothing says what the quality {code!r} means", remedy, at)
        return text in self.query.good

    def _value(self, value: Any, head: str, at: int) -> Value:
        """Return a value as a sheet has it."""
        if value is None or isinstance(value, str):
            if value is not None and len(value) > limits.CELL_CHARACTERS:
                what = f"{head} has {len(value):,} characters"
                raise self.fault(what, "is it another column?", at)
            return value if value is None or value.strip() else None
        if isinstance(value, bool) or not isinstance(value, int | float | Decimal | datetime.date):
            what = f"{head} is {type(value).__name__}"
            raise self.fault(what, "cast it to a number, a text or a day in the query", at)
        if isinstance(value, datetime.datetime):
            return _stamp(value)
        if isinstance(value, datetime.date):
            return value.isoformat()
        if isinstance(value, float):
            self.floats += 1
            value = Decimal(repr(value))
        number = Decimal(value)
        if not number.is_finite():
            self.no_numbers[head] += 1
            return None
        return number

    def _say(self, name: str) -> None:
        if self.floats:
            figures = "1 figure is a float" if self.floats == 1 else f"{self.floats:,} are floats"
            note = f"{name}: {figures}, read as the shortest decimal numbers that give them"
            self.found.notes.append(note)
        for head, count in sorted(self.no_numbers.items()):
            figures = "1 figure is" if count == 1 else f"{count:,} figures are"
            what = f"{figures} NaN or infinite, and taken for missing: {head}"
            self.found.notes.append(f"{name}: {what}")
        for tag, count in sorted(self.missing.items()):
            figures = "1 figure has" if count == 1 else f"{count:,} figures have"
            self.found.notes.append(f"{name}: {figures} a bad quality, and is missing: {tag}")


def _size(row: Sequence[Any]) -> int:
    return _ROW_BYTES + sum(len(each) if isinstance(each, str) else 24 for each in row)


def _stamp(when: datetime.datetime) -> str:
    """Return a stamp as a text: in UTC if it has a zone."""
    if when.tzinfo is not None:
        when = when.astimezone(datetime.timezone.utc).replace(tzinfo=None)
        return when.isoformat(timespec="seconds") + "Z"
    return when.isoformat(sep=" ", timespec="seconds")
