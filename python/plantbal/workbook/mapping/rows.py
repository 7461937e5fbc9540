"""The rows below a sheet's heads as its mapping says: days, times, names and words as the readers know them."""

from __future__ import annotations

from collections.abc import Iterator

from plantbal.sentence import Sentence
from plantbal.workbook.mapping.form import DAY_OF_MONTH, HOUR, SITE, TIME
from plantbal.workbook.mapping.heads import MappedHeads
from plantbal.workbook.mapping.mapped import Line, Mapped, plain_text
from plantbal.workbook.mapping.times import time_of, with_time
from plantbal.workbook.mapping.vocabulary import is_total, plain_word
from plantbal.workbook.sheets import Value

_NAMED = frozenset("stream from to tank name tag".split())
_WORDED = frozenset("kind test setting group".split())


class MappedRows:
    """The rows below the heads of a sheet.

    Parameters
    ----------
    mapped : Mapped
        The sheet; rows that are heads again or that are skipped are marked as taken.
    heads : MappedHeads
        Its heads.
    """

    def __init__(self, mapped: Mapped, heads: MappedHeads) -> None:
        self.mapped = mapped
        self.heads = heads
        self.columns = heads.columns
        downs = {plain_word(head) for head in mapped.own.down}
        # the columns whose empty cells have what stands above them
        self.downs = [
            column
            for column, value in enumerate(heads.row)
            if isinstance(value, str) and plain_word(value) in downs
        ]

    def lines(self) -> Iterator[Line]:
        """Give the rows below the heads."""
        heads = {plain_word(head) for head in self.mapped.own.columns}
        above: dict[int, Value] = {}
        others = 0
        for line, values in self.mapped.lines[self.heads.at + 1 :]:
            if line in self.heads.unit_lines:
                continue
            texts = {plain_word(value) for value in values if isinstance(value, str)}
            if len(texts & heads) > 1 and len(texts & heads) == len(heads & set(texts)) >= 2:
                self.mapped.taken[line] = True  # the same heads again
                continue
            if self._is_total(values):
                self.mapped.taken[line] = False
                shown = next(str(value) for value in values if value is not None)
                self.mapped.notes.append(
                    Sentence("line {line}: the row {shown!r} is skipped", line=line, shown=shown)
                )
                continue
            if not self._is_here(line, values):
                self.mapped.taken[line] = False
                others += 1
                continue
            yield line, self._row(line, values, above)
        if others:
            self.mapped.notes.append(
                Sentence("{others:,} rows of other plants are skipped", others=others)
            )

    def _is_total(self, values: list[Value]) -> bool:
        first = next((value for value in values if value is not None), None)
        if not isinstance(first, str):
            return False
        words = [plain_word(each) for each in self.mapped.own.totals]
        return any(plain_word(first).startswith(each) for each in words) or (
            is_total(first) and plain_text(first) not in self.mapped.names
        )

    def _is_here(self, line: int, values: list[Value]) -> bool:
        """Say whether a row is of the plant that is read."""
        for column, to in self.columns.items():
            if to != SITE:
                continue
            value = values[column] if column < len(values) else None
            if value is None and any(each is not None for each in values):
                what = "this row has no plant"
                raise self.mapped.fault(line, column, what, "write which plant it is of")
            return value is None or plain_text(str(value)) == plain_text(self.mapped.mapping.plant)
        return True

    def _row(self, line: int, values: list[Value], above: dict[int, Value]) -> list[Value]:
        """Return a row with days, names and words as the readers know them."""
        row = list(values)
        self._fill(row, above)
        day = next((at for at, to in self.columns.items() if to in ("day", DAY_OF_MONTH)), None)
        for column, to in self.columns.items():
            if column >= len(row):
                continue
            value = row[column]
            if to in ("", SITE):
                row[column] = None
            elif to == DAY_OF_MONTH:
                row[column] = self.mapped.day(line, column, value)
            elif to in _NAMED:
                row[column] = self.mapped.named(value)
            elif to in _WORDED and isinstance(value, str):
                row[column] = self.mapped.words.get(plain_word(value), value)
        self._put_time(line, row, day)
        if self.mapped.beside and any(value is not None for value in row):
            row += [None] * (self.mapped.width - len(row)) + list(self.mapped.beside.values())
        return row

    def _fill(self, row: list[Value], above: dict[int, Value]) -> None:
        """Give empty cells what stands above them, in the columns for which the mapping says so."""
        if not any(value is not None for at, value in enumerate(row) if at not in self.downs):
            return
        for column in self.downs:
            if column < len(row) and row[column] is not None:
                above[column] = row[column]
            elif column in above:
                row += [None] * (column + 1 - len(row))
                row[column] = above[column]

    def _put_time(self, line: int, row: list[Value], day: int | None) -> None:
        """Put a time of the day, or an hour, that has a column of its own to its day."""
        for column, to in self.columns.items():
            if to not in (TIME, HOUR) or column >= len(row):
                continue
            value, row[column] = row[column], None
            if value is None or day is None or day >= len(row) or row[day] is None:
                continue
            time = time_of(value)
            if time is None:
                what = Sentence("{value} isn't a time of the day", value=value)
                raise self.mapped.fault(line, column, what, "write it as 13:00")
            row[day] = with_time(row[day], time)
