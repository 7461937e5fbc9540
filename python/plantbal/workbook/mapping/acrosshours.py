"""What is proposed for a sheet of readings whose heads are the hours of a day.

Beside the hours there are a column of days and one of tags or streams; without the latter the name of
the sheet or a title says of which stream all figures are. What names an hour follows from the heads,
or it is a question.
"""

from __future__ import annotations

from collections import Counter
from dataclasses import dataclass, field
from decimal import Decimal

from plantbal.sentence import Phrase, Sentence, counted
from plantbal.workbook.hourheads import named_by
from plantbal.workbook.mapping import why
from plantbal.workbook.mapping.dating import month_said
from plantbal.workbook.mapping.form import DAY_OF_MONTH, OPEN, SheetMapping
from plantbal.workbook.mapping.known import KnownPlant
from plantbal.workbook.mapping.profile import (
    ColumnProfile,
    SheetProfile,
    is_day_number,
    rises,
    unit_of_title,
)
from plantbal.workbook.mapping.vocabulary import column_meanings, is_counter, is_remark, is_total
from plantbal.workbook.units import AMOUNTS, is_rate, unit_of


# What an hour is named by, if the heads decide it.
_NAMED = {
    "begin": "so each is the beginning of its hour",
    "end": "so each is the end of its hour",
    "count": "so each is the number of its hour",
}


@dataclass
class HourColumns:
    """Looks at a sheet with the hours of a day across.

    Attributes
    ----------
    profile : SheetProfile
        The sheet.
    known : KnownPlant
        What is known of the plant.
    has_units : bool
        Whether the streams say the units of their figures.
    evidence : dict
        What speaks for each value, by its path within the sheet.
    languages : Counter of str
        The languages of the words that were found.
    """

    profile: SheetProfile
    known: KnownPlant
    has_units: bool
    evidence: dict[tuple[str, ...], str] = field(default_factory=dict)
    languages: Counter[str] = field(default_factory=Counter)

    @property
    def others(self) -> list[ColumnProfile]:
        """The columns that aren't hours."""
        return [each for each in self.profile.columns if each.at not in self.profile.hours]

    def mapping(self, name: str) -> SheetMapping:
        """Return what is proposed for the sheet."""
        columns: dict[str, str] = {}
        for column in self.others:
            to, why = self._column(column, {*columns.values()})
            if why:
                columns[column.key], self.evidence["columns", column.key] = to, why
        month = ""
        if DAY_OF_MONTH in columns.values():
            month, self.evidence["month",] = month_said(self.profile)
        given = {} if "tag" in columns.values() else {"tag": self._given_tag()}
        totals = tuple(self.profile.totals)
        if totals:
            self.evidence["totals",] = "rows that begin so are sums, and aren't read"
        by_head = bool(columns) and not any(key.startswith("column ") for key in columns)
        return SheetMapping(
            name,
            "readings",
            heads=0 if by_head else self.profile.heads_line,
            month=month,
            columns=columns,
            unit="" if "unit" in columns.values() else self._unit(),
            down=self._down(columns),
            totals=totals,
            given=given,
            counters=self._counters(columns, given),
            hours=self._named(),
        )

    def _named(self) -> str:
        """Return what names an hour."""
        heads = [head for _, head in sorted(self.profile.hours.items())]
        named = named_by(heads)
        said: str = Phrase(
            "begin if each is the beginning of its hour, end if it is its end, or count"
        )
        if named is not None:
            said = Sentence(_NAMED[named.value])
        self.evidence["hours",] = Sentence(
            "the heads are hours, from {first} to {last}: {said}",
            first=self._shown(min(self.profile.hours)),
            last=self._shown(max(self.profile.hours)),
            said=said,
        )
        return OPEN if named is None else named.value

    def _shown(self, column: int) -> str:
        assert self.profile.at is not None, "a sheet with hours across has heads"
        value = self.profile.sheet.lines[self.profile.at][1][column]
        return f"{value:%H:%M}" if hasattr(value, "strftime") else f"{value}"

    def _column(self, column: ColumnProfile, taken: set[str]) -> tuple[str, str]:
        """Return what a column is that has no hour, and why; no reason if nothing is to be said."""
        meanings = {each.of: each for each in column_meanings(column.name or column.head)}
        if not taken & {"day", DAY_OF_MONTH}:
            if column.has_days:
                said = meanings["day"].said() if "day" in meanings else "it has days"
                return self._took("day", column, said)
            if "day" in meanings and column.decimals and all(map(is_day_number, column.values)):
                return self._took(DAY_OF_MONTH, column, meanings["day"].said())
        names = column.names()
        if "tag" not in taken and names and column.has_texts:
            meters = {*self.known.tags, *self.known.streams}
            count = len(meters.intersection(names))
            if 2 * count > len(names):
                one = "1 of its texts is a tag or stream of the plant"
                many = "{count} of its texts are tags or streams of the plant"
                return self._took("tag", column, counted(count, one, many))
            if not meters and {"tag", "stream"} & {*meanings}:
                of = "tag" if "tag" in meanings else "stream"
                return self._took("tag", column, meanings[of].said())
        if names and all(unit_of(text) in AMOUNTS or is_rate(text) for text in names):
            return ("unit", "its texts are units") if "unit" not in taken else ("", "it isn't read")
        if is_total(column.title):
            return "", "a column of sums"
        if is_remark(column.title) or (column.has_texts and column.title):
            return "", "remarks: it isn't read"
        if column.title and (column.has_figures or column.has_days):
            return OPEN, 'it has figures: day, tag or unit, or "" if it isn\'t to be read'
        return "", ""

    def _took(self, to: str, column: ColumnProfile, why: str) -> tuple[str, str]:
        for meaning in column_meanings(column.name or column.head):
            if meaning.of == to.split()[0]:
                self.languages[meaning.language] += 1
        return to, why

    def _given_tag(self) -> str:
        """Return the tag or stream of all figures: that in the sheet's name or in a title."""
        path = "given", "tag"
        for text in (self.profile.sheet.name, *self.profile.titles):
            found = self.known.meter(text)
            if found:
                self.evidence[path] = Sentence(
                    "{text!r} has it, and no column has tags", text=text[:60]
                )
                return found
        self.evidence[path] = "no column has tags: of which tag or stream are the figures?"
        return OPEN

    def _unit(self) -> str:
        """Return the unit of all figures: that of the row of units, of a title, or of the streams."""
        found = {column.unit for column in self.profile.columns if column.at in self.profile.hours}
        titles = {*map(unit_of_title, self.profile.titles)} - {""}
        for units, said in ((found, "the hours say so"), (titles, "a title above says so")):
            fit = [unit for unit in units if unit in AMOUNTS or is_rate(unit)]
            if len(fit) == 1:
                self.evidence["unit",] = said
                return fit[0]
        if self.has_units:
            return ""
        texts = [text for column in self.others for text in column.names()]
        texts = [text for text in texts if text in self.known.meters] or [
            self.known.meter(text) for text in (self.profile.sheet.name, *self.profile.titles)
        ]
        booked = self.known.units_of({*filter(None, texts)})
        if booked:
            self.evidence["unit",] = why.unit_of_book(booked)
            return ""
        own = [column for column in self.profile.columns if column.at in self.profile.hours]
        numbers = [number for column in own for number in column.decimals]
        form = "no unit is given: t, kg, m3, t/h .."
        ends = {"least": min(numbers), "most": max(numbers)} if numbers else {}
        if ends:
            form = "no unit is given for {least} to {most}: t, kg, m3, t/h .."
        self.evidence["unit",] = Sentence(form, **ends)
        return OPEN

    def _down(self, columns: dict[str, str]) -> tuple[str, ...]:
        """Return the heads of days or tags that are written once for several rows."""
        found = []
        for column in self.others:
            is_of_row = columns.get(column.key) in ("day", "tag", DAY_OF_MONTH)
            if is_of_row and column.head and column.there and 2 * column.blanks >= column.there:
                found.append(column.head)
                count = column.blanks + column.there
                self.evidence["down",] = why.often_empty(column.blanks, count)
        return tuple(found)

    def _counters(self, columns: dict[str, str], given: dict[str, str]) -> dict[str, str]:
        """Ask whether figures that only rise from hour to hour and day to day are a counter's."""
        tags = next((each for each in self.others if columns.get(each.key) == "tag"), None)
        texts = [self.profile.sheet.name, *self.profile.titles]
        said = next((text for text in texts if is_counter(text)), "")
        found: dict[str, str] = {}
        for tag, numbers in self._by_tag(tags, given.get("tag", "")).items():
            if tag and rises(numbers, noisy=not said):
                self.evidence["counters", tag] = why.counter_asked(said)
                found[tag] = OPEN
        return found

    def _by_tag(self, tags: ColumnProfile | None, given: str) -> dict[str, list[Decimal]]:
        """Return the figures of each tag in the order of its rows."""
        assert self.profile.at is not None, "a sheet with hours across has heads"
        found: dict[str, list[Decimal]] = {}
        tag = "" if given == OPEN else given
        for _, values in self.profile.sheet.lines[self.profile.at + 1 :]:
            if tags is not None and tags.at < len(values) and values[tags.at] is not None:
                tag = str(values[tags.at])
            of_row = [values[at] for at in self.profile.hours if at < len(values)]
            found.setdefault(tag, []).extend(each for each in of_row if isinstance(each, Decimal))
        return found
