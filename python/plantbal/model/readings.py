"""Runs of readings: their rows as a text or as columns, and what these say.

Most sessions are long runs of readings that nothing changes afterwards. Such a run is kept as the
text or the columns that it came in, and its fields, numbers and facts are made when one of them is
asked for.
"""

from __future__ import annotations

from collections.abc import Callable, Iterable, Iterator, Sequence
from functools import cached_property, partial
from itertools import compress, repeat
from typing import Any, cast, overload

from plantbal.faults import ModelFault, Place
from plantbal.model.facts import Fact
from plantbal.model.forms import days_of, wholes_of
from plantbal.records import without_empty_end

# The kinds, ids, streams, days, grams and variances of readings.
Columns = Sequence[Sequence[str]]
_COLUMNS = 6
_END = "\n"
# A fact of all its values, without a call of a function of Python's for each.
_FACT = cast(Callable[[tuple[Any, ...]], Fact], partial(tuple.__new__, Fact))


class ReadingRows(Sequence[Sequence[str]]):
    """Rows of readings, kept as their text until a field is asked for, and then as columns.

    Parameters
    ----------
    columns : sequence of sequence of str, optional
        The columns: kinds, ids, streams, days, grams and variances. Or:
    text : str
        The rows as lines without quotes.
    count : int
        How many lines these are. Or:
    rows : sequence of tuple of str, optional
        The rows one by one.
    """

    def __init__(
        self,
        columns: Columns | None = None,
        *,
        text: str = "",
        count: int = 0,
        rows: Sequence[tuple[str, ...]] | None = None,
    ) -> None:
        self._columns, self._text, self._rows = columns, text, rows
        if rows is not None:
            count = len(rows)
        self._count = count if columns is None else len(columns[0])

    @classmethod
    def of_rows(cls, rows: Iterable[Sequence[str]]) -> ReadingRows:
        """Return rows that each have the fields of a reading, but for empty ones at the end."""
        return cls(rows=[without_empty_end(tuple(row)) for row in rows])

    def __len__(self) -> int:
        return self._count

    def __iter__(self) -> Iterator[Sequence[str]]:
        return zip(*self.columns) if self.are_columns else iter(self._apart)

    @overload
    def __getitem__(self, place: int) -> Sequence[str]:
        ...

    @overload
    def __getitem__(self, place: slice) -> Sequence[Sequence[str]]:
        ...

    def __getitem__(self, place: int | slice) -> Sequence[str] | Sequence[Sequence[str]]:
        if isinstance(place, slice):
            if self.are_columns:
                return ReadingRows([column[place] for column in self.columns])
            return ReadingRows(rows=self._apart[place])
        if self.are_columns:
            return tuple(column[place] for column in self.columns)
        return self._apart[place]

    def only(self, wanted: Sequence[bool]) -> ReadingRows:
        """Return the rows of which it is said that they are wanted; each has six fields."""
        if self.are_columns:
            return ReadingRows([list(compress(column, wanted)) for column in self.columns])
        return ReadingRows.of_rows(compress(self._apart, wanted))

    @property
    def are_columns(self) -> bool:
        """Whether each row has the fields of a reading, so that there are columns."""
        return self._split is not None

    @property
    def odd(self) -> set[int]:
        """The places of rows that haven't six fields, but for empty ones at the end."""
        if self.are_columns:
            last = self.columns[-1]
            return {place for place, text in enumerate(last) if not text} if "" in last else set()
        rows = map(without_empty_end, self._apart)
        return {place for place, row in enumerate(rows) if len(row) != _COLUMNS}

    @property
    def columns(self) -> Columns:
        """The columns; there have to be some."""
        assert self._split is not None, "a row isn't of six fields"
        return self._split

    @cached_property
    def _split(self) -> Columns | None:
        """The columns, or None if some row has more or fewer fields."""
        if self._columns is not None:
            return self._columns
        count = self._count
        if self._rows is not None:
            return _columns_of(self._rows)
        # each line end is put in front of the first field of its line, where it can be counted
        fields = f"\n{self._text.removesuffix(_END)}".replace(_END, ",\n").split(",")
        kinds = fields[1::_COLUMNS]
        if len(fields) == count * _COLUMNS + 1 and kinds.count("\nreading") == count:
            rest = [fields[at::_COLUMNS] for at in range(2, _COLUMNS + 1)]
            self._text = ""
            return [["reading"] * count, *rest]
        return _columns_of(self._apart)

    @cached_property
    def _apart(self) -> Sequence[tuple[str, ...]]:
        """The rows one by one."""
        if self._rows is not None:
            return self._rows
        return [tuple(line.split(",")) for line in self._text.removesuffix(_END).split(_END)]

    def plain(self) -> str | None:
        """Return the rows as lines of CSV; None if a field would need quotes."""
        if self._text:
            return self._text
        rows = map(",".join, zip(*self.columns[1:]))
        text = f"reading,{f'{_END}reading,'.join(rows)}{_END}"
        wanted = self._count * (_COLUMNS - 1), self._count
        plain = (text.count(","), text.count(_END)) == wanted and not ('"' in text or "\r" in text)
        return text if plain else None


def _columns_of(rows: Iterable[tuple[str, ...]]) -> Columns | None:
    """Return the columns of rows, or None if some row isn't of six fields."""
    whole = list(map(without_empty_end, rows))
    return list(zip(*whole)) if all(len(row) == _COLUMNS for row in whole) else None


class ReadingRun:
    """Rows of readings, and what they say.

    Parameters
    ----------
    rows : ReadingRows
        The rows, each of six fields.
    lines : sequence of int
        Their lines.
    """

    def __init__(self, rows: ReadingRows, lines: Sequence[int]) -> None:
        self.rows, self.lines = rows, lines

    def __len__(self) -> int:
        return len(self.rows)

    @property
    def ids(self) -> Sequence[str]:
        """The ids."""
        return self.rows.columns[1]

    @property
    def streams(self) -> Sequence[str]:
        """The streams."""
        return self.rows.columns[2]

    @cached_property
    def days(self) -> list[int]:
        """The numbers of the days; -1 for what is none."""
        texts = self.rows.columns[3]
        return list(map(days_of(texts).__getitem__, texts))

    @cached_property
    def distinct_streams(self) -> frozenset[str]:
        """The streams, each once."""
        return frozenset(self.streams)

    @cached_property
    def distinct_days(self) -> frozenset[int]:
        """The numbers of the days, each once."""
        return frozenset(self.days)

    @cached_property
    def grams(self) -> list[int] | None:
        """The amounts; None if some text writes no whole number."""
        return wholes_of(self.rows.columns[4])

    @cached_property
    def variances(self) -> list[int] | None:
        """The variances; None if some text writes no whole number."""
        return wholes_of(self.rows.columns[5])

    def disagreement(self, place: int) -> ModelFault:
        """Return the fault of a reading that the core accepts and this package doesn't."""
        return ModelFault(self.rows[place], "refuse it", Place(line=self.lines[place] or None))

    def facts(self) -> Iterator[Fact]:
        """Give its facts; the forms of its fields have to be those of a reading."""
        assert self.grams is not None and self.variances is not None
        no, on = repeat(0), self.days
        kinds, lines = repeat("reading", len(self.rows)), list(self.lines)
        values = self.grams, no, no, self.variances
        columns = kinds, self.ids, self.streams, on, on, *values, lines, lines, lines
        return map(_FACT, zip(*columns, repeat(False)))

    def only(self, wanted: Sequence[bool]) -> ReadingRun:
        """Return the readings of which it is said that they are wanted."""
        found = ReadingRun(self.rows.only(wanted), list(compress(self.lines, wanted)))
        if not self.rows.are_columns:
            return found
        found.days = list(compress(self.days, wanted))
        if self.grams is not None:
            found.grams = list(compress(self.grams, wanted))
        if self.variances is not None:
            found.variances = list(compress(self.variances, wanted))
        return found
