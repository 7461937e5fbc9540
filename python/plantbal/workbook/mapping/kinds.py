"""Which kind of sheet a sheet is: by its heads, by its shape, by its name, or a question."""

from __future__ import annotations

import re
from collections.abc import Mapping, Sequence
from dataclasses import dataclass
from decimal import Decimal

from plantbal.sentence import Sentence, counted
from plantbal.workbook.mapping.columns import Columns
from plantbal.workbook.mapping.form import OPEN
from plantbal.workbook.mapping.known import KnownPlant, tag_in
from plantbal.workbook.mapping.months import month_of_head
from plantbal.workbook.mapping.profile import (
    FIGURES,
    ColumnProfile,
    SheetProfile,
    days_across,
    sort_of,
    tank_pairs,
)
from plantbal.workbook.mapping.vocabulary import (
    column_meanings,
    cover_meaning,
    sheet_meanings,
)
from plantbal.workbook.mapping.why import several
from plantbal.workbook.sheetkinds import PASSED, SHEETS
from plantbal.workbook.sheets import Sheet
from plantbal.workbook.units import LENGTHS

# The kinds that are known by their heads, those that say most first.
BY_HEADS = (
    "streams",
    "straps",
    "moistures",
    "tickets",
    "estimates",
    "dips",
    "assays",
    "critical",
    "tanks",
    "accounts",
    "settings",
    "periods",
)


_BEFORE_DAYS = 5  # columns in which tags may be before the days


@dataclass(frozen=True)
class KindsOfSheets:
    """Tells the kinds of sheets.

    Attributes
    ----------
    known : KnownPlant
        What is known of the plant.
    said : mapping of str to str
        What somebody says that sheets are, by their names.
    """

    known: KnownPlant
    said: Mapping[str, str]

    def of(self, profile: SheetProfile) -> tuple[str, str]:
        """Return the kind of a sheet, and what speaks for it."""
        name = profile.sheet.name
        if name in self.said:
            return self.said[name], "as it was said"
        plain = re.split(r"[^a-z]", name.strip().casefold(), maxsplit=1)[0]
        if plain in PASSED:
            return "", "sheets of this name are skipped"
        cover = cover_meaning(name)
        if cover is not None and not any(c.has_figures for c in profile.columns):
            return "", cover.said()
        if profile.hours and not self._has_tanks(profile):
            return "readings", Sentence(
                "{count} of its heads are the hours of a day", count=len(profile.hours)
            )
        meanings = [each for each in sheet_meanings(name) if each.of in SHEETS]
        fit = (each for each in meanings if self._fits(profile, each.of))
        meaning = next(fit, next(iter(meanings), None))
        by_name = plain if plain in SHEETS else meaning.of if meaning else ""
        by_name = by_name if by_name in SHEETS else ""
        said = (
            Sentence("its name is {plain}", plain=plain)
            if plain in SHEETS
            else meaning.said()
            if meaning
            else ""
        )
        if by_name == "gauges" and any(column.has_days for column in profile.columns):
            by_name, said = "dips", Sentence("{said}, but it has days, and so levels", said=said)
        by_shape, shape_said = self._by_shape(profile, by_name)
        if by_shape:
            return by_shape, shape_said
        by_heads = self.by_heads(profile, BY_HEADS)
        if by_name == "densities" and self._is_dated(profile):
            return by_name, said
        if by_name and by_name != by_heads and self._fits(profile, by_name):
            return by_name, said
        if by_heads:
            needed = ", ".join(SHEETS[by_heads].needed)
            by_words = Sentence("its heads say {needed}", needed=needed)
            return by_heads, several(by_words, said if by_name == by_heads else "")
        if by_name and profile.at is not None:
            return by_name, Sentence("{said}; its heads don't tell more", said=said)
        if by_name == "readings" or plain in SHEETS:
            return by_name, said
        if profile.at is None and self._has_tags_beside(profile.sheet):
            return "readings", "tags of the plant are beside the days of a month, by their numbers"
        if profile.at is None and _has_rows_of_figures(profile.sheet):
            return OPEN, Sentence(
                "there are rows of figures in it, and no heads: {kinds_said}",
                kinds_said=_kinds_said(),
            )
        if profile.at is None or not any(c.numbers or c.mixed for c in profile.columns):
            return "", "there is no figure below heads in it"
        return (
            OPEN,
            Sentence(
                "there are figures in it, and neither name nor heads say what: {kinds_said}",
                kinds_said=_kinds_said(),
            ),
        )

    def _has_tanks(self, profile: SheetProfile) -> bool:
        """Say whether a column of a sheet has tanks of the plant, so that its figures are levels."""
        texts = [set(column.names()) for column in profile.columns if column.has_texts]
        return any(2 * len(own.intersection(self.known.tanks)) > len(own) for own in texts if own)

    def _has_tags_beside(self, sheet: Sheet) -> bool:
        """Say whether a sheet has the days of a month across, and rows with tags below them."""
        at = days_across(sheet)
        below = sheet.lines[at + 1 :] if at is not None else []
        return any(
            isinstance(value, str) and value in (*self.known.tags, *self.known.streams)
            for _, values in below
            for value in values[:_BEFORE_DAYS]
        )

    def _is_dated(self, profile: SheetProfile) -> bool:
        """Say whether a sheet has densities of names or tickets, with or without their days."""
        heads = set(Columns(profile, SHEETS["densities"], self.known).assigned().values())
        return "density" in heads and bool(heads & {"name", "id"})

    def _fits(self, profile: SheetProfile, word: str) -> bool:
        """Say whether a sheet has the columns that a kind needs."""
        kind = SHEETS[word]
        found = Columns(profile, kind, self.known).assigned()
        return bool(kind.needed) and set(kind.needed) <= set(found.values())

    def by_heads(self, profile: SheetProfile, words: Sequence[str]) -> str:
        """Return the first of some kinds whose columns a sheet has; empty if it has none's."""
        if profile.at is None:
            return ""
        for word in words:
            kind = SHEETS[word]
            if len(kind.needed) > 1 and self._fits(profile, word):
                return word
            if word == "tanks" and len(kind.needed) == 1:
                heads = set(Columns(profile, kind, self.known).assigned().values())
                if "tank" in heads and heads & {"error", "density", "base", "since", "until"}:
                    return word
        return ""

    def _by_shape(self, profile: SheetProfile, by_name: str) -> tuple[str, str]:
        """Return the kind of a sheet that has tags or tanks over its columns, and why."""
        if profile.at is None:
            return "", ""
        days = [column for column in profile.columns if column.has_days]
        tags = [c for c in profile.columns if self.known.meter(c.head)]
        tanks = [
            c
            for c in profile.columns
            if c.has_figures
            and (tag_in(c.head, self.known.tanks) or tag_in(c.above, self.known.tanks))
        ]
        heads = self.by_heads(profile, ("streams", "tickets", "assays", "moistures", "estimates"))
        if by_name == "densities" and (tags or tanks) and not heads:
            return "densities", "its name says so, and names of the plant are its heads"
        if (len(tags) > 1 or tags and days) and len(tags) >= len(tanks) and not heads:
            one = "1 of its heads is a tag or stream of the plant"
            many = "{count} of its heads are tags or streams of the plant"
            return "readings", counted(len(tags), one, many)
        pairs = tank_pairs(profile, self.known.tanks)
        if pairs and not days and not heads:
            one = "1 tank is over pairs of levels and volumes"
            many = "{count} tanks are over pairs of levels and volumes"
            return "straps", counted(pairs, one, many)
        if tanks and not heads and 2 * len(tanks) >= len(profile.columns) - 2:
            return self._of_tanks(profile, tanks, days)
        months = [c for c in profile.columns if month_of_head(c.head)]
        if (len(months) > 1 or by_name == "densities") and not heads and not days:
            said = _densities_said(profile, months, by_name)
            if said:
                return "densities", said
        found = {m for c in profile.columns for m in meant_by(c.name)}
        if days and {"tag", "value"} <= found and "level" not in found and not heads:
            return "readings", "it has a row for each figure: a day, a tag and a value"
        return "", ""

    def _of_tanks(
        self, profile: SheetProfile, tanks: list[ColumnProfile], days: list[ColumnProfile]
    ) -> tuple[str, str]:
        """Return whether columns of tanks have levels of days, or volumes of levels."""
        count = Sentence("{count} of its heads are tanks", count=len(tanks))
        if days:
            return "dips", Sentence("{count}, and {key!r} has days", count=count, key=days[0].key)
        if any(column.unit in LENGTHS for column in tanks):
            return "dips", Sentence(
                "{count}, with levels in {unit}", count=count, unit=tanks[0].unit
            )
        kind = Columns(profile, SHEETS["dips"], self.known)
        if "day" in kind.assigned().values():
            return "dips", Sentence(
                "{count}, and it has the days of a month by their numbers", count=count
            )
        if any("level" in meant_by(column.name) for column in profile.columns):
            return "straps", Sentence("{count}, beside a column of levels", count=count)
        return "", ""


def _has_rows_of_figures(sheet: Sheet) -> bool:
    """Say whether several rows of a sheet have figures next to each other, as those of tables do."""
    counts = (sum(sort_of(value) in FIGURES for value in values) for _, values in sheet.lines)
    return sum(count > 2 for count in counts) > 1


def _densities_said(profile: SheetProfile, months: list[ColumnProfile], by_name: str) -> str:
    """Return why columns of months have densities: name or title say it, or the figures are so."""
    if not months or not all(column.has_figures for column in months if column.there):
        return ""
    titles = [*profile.titles, *(column.name for column in profile.columns)]
    said = [
        text for text in titles if "density" in meant_by(text) or "densities" in _sheets_of(text)
    ]
    if by_name == "densities" or said:
        why = (
            Sentence("its name says so")
            if by_name == "densities"
            else Sentence("{said!r} is in it", said=said[0][:60])
        )
        return Sentence("{why}, and {count} heads are months", why=why, count=len(months))
    numbers = [number for column in months for number in column.decimals]
    if numbers and (
        all(500 <= each <= 1200 for each in numbers)
        or all(Decimal("0.5") <= each <= Decimal("1.2") for each in numbers)
    ):
        ends = Sentence("{first} to {last}", first=min(numbers), last=max(numbers))
        return Sentence(
            "{count} heads are months, and the figures, {ends}, are as densities are",
            count=len(months),
            ends=ends,
        )
    return ""


def _sheets_of(text: str) -> set[str]:
    return {meaning.of for meaning in sheet_meanings(text)}


def meant_by(name: str) -> set[str]:
    """Return what a head of a column may mean."""
    return {meaning.of for meaning in column_meanings(name)}


def _kinds_said() -> str:
    return ", ".join(SHEETS)
