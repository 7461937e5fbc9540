"""The heads of a sheet as its mapping says: their row, what each column is, units, the heads of its kind."""

from __future__ import annotations

import re
from collections.abc import Iterator

from plantbal.faults import InputFault
from plantbal.sentence import Sentence
from plantbal.workbook.hourheads import HoursAcross, NamedBy, hour_heads
from plantbal.workbook.mapping.form import BOTH, DAY_OF_MONTH, HEAD, HOUR, NAME, SITE, TIME
from plantbal.workbook.mapping.mapped import Line, Mapped, plain_text
from plantbal.workbook.mapping.months import month_of, month_word, short_year_of, year_of
from plantbal.workbook.mapping.profile import HEADS_WITHIN, is_day_number
from plantbal.workbook.mapping.vocabulary import plain_word
from plantbal.workbook.sheetkinds import SHEETS
from plantbal.workbook.sheets import Value, letters
from plantbal.workbook.units import UNITS, is_rate, unit_of
from plantbal.workbook.wide import OF_TANKS


class MappedHeads:
    """The heads of a sheet that has rows.

    Parameters
    ----------
    mapped : Mapped
        The sheet; its rows of heads and of units are marked as taken.

    Attributes
    ----------
    at : int
        The place of the row of heads.
    columns : dict of int to str
        What the columns are, by their places.
    units : dict of int to str
        Their units.
    unit_lines : set of int
        The numbers of rows that have units.
    across : HoursAcross or None
        The heads that are the hours of a day, if the mapping says that there are such.
    """

    def __init__(self, mapped: Mapped) -> None:
        self.mapped = mapped
        self.kind = SHEETS[mapped.own.kind]
        self.at = self._head_row()
        self.columns = self._columns(mapped.lines[self.at][1])
        self.units: dict[int, str] = {}
        self.unit_lines: set[int] = set()
        self._take_heads()
        self.across = self._hours() if mapped.own.hours else None

    @property
    def row(self) -> list[Value]:
        """The row of heads, as the sheet has it."""
        return self.mapped.lines[self.at][1]

    def above(self) -> list[Line]:
        """Return the rows above the heads that aren't heads or units themselves."""
        lines = [
            (line, values)
            for line, values in self.mapped.lines[: self.at]
            if line not in self.mapped.taken
        ]
        if lines and self._has_pairs():
            line, values = lines[-1]
            lines[-1] = line, [self.mapped.named(value) for value in values]
        return lines

    def lines(self) -> list[Line]:
        """Return the row of heads, and one of their units if there are any."""
        line, heads = self.mapped.lines[self.at]
        row: list[Value] = []
        for column in range(max([len(heads), *(n + 1 for n in self.columns)])):
            head = heads[column] if column < len(heads) else None
            to = self.columns.get(column)
            if to is None and self.mapped.own.month and is_day_number(head):
                row.append(self.mapped.day(line, column, head))  # the days of a month are across
            elif to is None:
                row.append(self._month(line, column, head) or self.mapped.named(head))
            else:
                row.append(None if to in ("", TIME, HOUR, SITE) else self._head_of(to))
        self.mapped.taken[line] = True
        units = {c: u for c, u in self.units.items() if c < len(row) and row[c] is not None}
        if not self.kind.columns and ("value" in self.columns.values() or self.across is not None):
            if "unit" not in self.columns.values() and units:
                self.mapped.beside["unit"] = next(iter(units.values()))
            units = {}
        places: list[Value] = [units.get(column) for column in range(len(row))]
        self.mapped.width = max(len(row), self.mapped.width)
        if self.mapped.beside:
            row += [None] * (self.mapped.width - len(row)) + list(self.mapped.beside)
        return [(line, row), *([(line, places)] if units else [])]

    def _head_row(self) -> int:
        """Return the place of the row with the heads: that with most of those of the mapping."""
        keys = {plain_word(head) for head in self.mapped.own.columns if not _letter_of(head)}
        keys |= {plain_word(head) for head in self.mapped.own.units if not _letter_of(head)}
        counts = [
            len({plain_word(value) for value in values if isinstance(value, str)} & keys)
            for _, values in self.mapped.lines[:HEADS_WITHIN]
        ]
        if max(counts, default=0):
            return counts.index(max(counts))
        for at, (line, _) in enumerate(self.mapped.lines):
            if line == self.mapped.own.heads or (not self.mapped.own.heads and not keys):
                return at if self.mapped.own.heads else self._first_heads()
        shown = ", ".join(list(self.mapped.own.columns)[:5])
        raise InputFault(
            Sentence("no row has the heads of the mapping: {shown}", shown=shown)
            if shown
            else "no row has the heads",
            place=self.mapped.given.place(),
            remedy="see what they are called here, and correct the mapping",
        )

    def _first_heads(self) -> int:
        """Return the place of the first row with the words of heads, if the mapping names none."""
        for at, (_, values) in enumerate(self.mapped.lines[:HEADS_WITHIN]):
            if sum(isinstance(value, str) for value in values) > 1:
                return at
        return 0

    def _columns(self, heads: list[Value]) -> dict[int, str]:
        """Return what the columns are, by their places; those that the mapping doesn't name not."""
        by_head = {plain_word(head): to for head, to in self.mapped.own.columns.items()}
        by_place = {_letter_of(head): to for head, to in self.mapped.own.columns.items()}
        width = max(len(values) for _, values in self.mapped.lines)
        found = {}
        for at in range(width):
            head = heads[at] if at < len(heads) else None
            if isinstance(head, str) and plain_word(head) in by_head:
                found[at] = by_head[plain_word(head)]
            elif letters(at + 1) in by_place:
                found[at] = by_place[letters(at + 1)]
        return found

    def _take_heads(self) -> None:
        """Mark the rows of heads; one of units below the heads is compared with the mapping."""
        at, heads = self.at, self.row
        self.units = {
            column: self.mapped.own.units.get(head, "")
            for column, head in self._heads_of(heads)
            if head in self.mapped.own.units
        }
        if self.mapped.own.unit:
            for column, head in enumerate(heads):
                if head is not None and column not in self.columns and column not in self.units:
                    self.units[column] = self.mapped.own.unit
        for below, values in self.mapped.lines[at + 1 : at + 4]:
            if _is_unit_row(values):
                self._compare(below, values)
                self.unit_lines.add(below)
                self.mapped.taken[below] = True
        for above, values in self.mapped.lines[: at - 1 if self._has_pairs() else at]:
            if _is_unit_row(values) or sum(isinstance(value, str) for value in values) > 1:
                self.mapped.taken[above] = True

    def _hours(self) -> HoursAcross:
        """Return the heads that are the hours of a day, and see that day and tag are there too."""
        own, line = self.mapped.own, self.mapped.lines[self.at][0]
        hours = hour_heads([None if n in self.columns else v for n, v in enumerate(self.row)])
        if not hours:
            what = "no head of this row is an hour of a day"
            remedy = "correct the mapping, or leave hours out of it"
            raise self.mapped.fault(line, 0, what, remedy)
        there = {*self.columns.values(), *self.mapped.beside}
        for of, words in (("day", {"day", DAY_OF_MONTH}), ("tag", {"tag"})):
            if not there & words:
                what = Sentence("no column has the {of} of the hours", of=of)
                raise self.mapped.fault(line, 0, what, "correct the mapping")
        return HoursAcross(line, hours, NamedBy(own.hours), own.twice == BOTH)

    def _heads_of(self, heads: list[Value]) -> Iterator[tuple[int, str]]:
        """Give the places and texts of heads, as the keys of the mapping have them."""
        keys = {plain_word(key): key for key in (*self.mapped.own.units, *self.mapped.own.columns)}
        for column, value in enumerate(heads):
            if isinstance(value, str):
                yield column, keys.get(plain_word(value), value)
        for key in (*self.mapped.own.units, *self.mapped.own.columns):
            letter = _letter_of(key)
            if letter:
                yield next(n for n in range(20_000) if letters(n + 1) == letter), key

    def _compare(self, line: int, values: list[Value]) -> None:
        for column, value in enumerate(values):
            if not isinstance(value, str) or not _is_unit(value):
                continue
            unit = unit_of(value)
            told = self.units.get(column)
            if told is not None and unit_of(told) != unit:
                what = Sentence(
                    "{value} is here, but the mapping has {told}", value=value, told=told
                )
                raise self.mapped.fault(line, column, what, "correct one of the two")
            self.units[column] = unit

    def _has_pairs(self) -> bool:
        """Say whether the row above the heads has tanks, each over a pair of level and volume."""
        found = {*self.columns.values()}
        return self.kind.word == "straps" and "volume" in found and "tank" not in found

    def _head_of(self, to: str) -> str:
        """Return the head that a column gets: that of its kind, or a name as it is in the book."""
        name, _, of = to.rpartition(" ")
        if of in OF_TANKS and plain_text(name) in self.mapped.names:
            return f"{self.mapped.names[plain_text(name)]} {of}"
        return "day" if to == DAY_OF_MONTH else self.mapped.names.get(plain_text(to), to)

    def _month(self, line: int, column: int, head: Value) -> str:
        """Return the month that a head is, if the mapping says of which year such heads are."""
        if not self.mapped.own.year or not isinstance(head, str) or not month_word(head):
            return ""
        if month_of(head):
            return ""  # it has its own year
        short = short_year_of(head)
        said = {NAME: year_of(self.mapped.given.name), HEAD: short}
        year = said.get(self.mapped.own.year, self.mapped.own.year)
        if short and short != year:
            what = Sentence(
                "{head!r} may be of {short}, and the mapping has the year {year}",
                head=head,
                short=short,
                year=year,
            )
            remedy = Sentence('write year = "{head}" if the two digits are the year', head=HEAD)
            raise self.mapped.fault(line, column, what, remedy)
        found = month_of(f"{month_word(head)} {year}") if year else None
        return f"{found[0]}-{found[1]:02}" if found else ""


def _letter_of(head: str) -> str:
    """Return the letters of a column that is told by its place, or nothing."""
    match = re.fullmatch(r"column ([A-Z]{1,3})", head)
    return match.group(1) if match else ""


def _is_unit(text: str) -> bool:
    return unit_of(text) in UNITS or is_rate(text)


def _is_unit_row(values: list[Value]) -> bool:
    """Say whether a row has units, and beside them at most a word for it."""
    there = [value for value in values if value is not None]
    texts = [value for value in there if isinstance(value, str)]
    units = [value for value in texts if _is_unit(value)]
    return len(texts) == len(there) and bool(units) and len(units) >= len(there) - 2
