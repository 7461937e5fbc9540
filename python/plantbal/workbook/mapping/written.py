"""How the figures and days of a workbook are written: from its texts alone, and only if they decide.

`1.234,5` has one reading and `12.408` has two. A workbook without texts that decide and with texts
that could be read in two ways leaves the question open.
"""

from __future__ import annotations

import datetime
import re
from collections.abc import Iterable
from dataclasses import dataclass, field, fields
from plantbal.sentence import Sentence

_COMMA = re.compile(
    r"[-+]?[0-9]{1,3}(?:\.[0-9]{3})+,[0-9]+|[-+]?[0-9]+,(?:[0-9]{1,2}|[0-9]{4,})|[-+]?0,[0-9]+"
    r"|[-+]?[0-9]{1,3}(?:\.[0-9]{3}){2,}|[-+]?[0-9]{4,},[0-9]+"
)
_POINT = re.compile(
    r"[-+]?[0-9]{1,3}(?:,[0-9]{3})+\.[0-9]+|[-+]?[0-9]+\.(?:[0-9]{1,2}|[0-9]{4,})|[-+]?0\.[0-9]+"
    r"|[-+]?[0-9]{1,3}(?:,[0-9]{3}){2,}|[-+]?[0-9]{4,}\.[0-9]+"
)
_EITHER = re.compile(r"[-+]?[1-9][0-9]{0,2}[.,][0-9]{3}")
_DATE = re.compile(r"([0-9]{1,2})/([0-9]{1,2})/([0-9]{4}|[0-9]{2})(?:[ T].*)?")
_OF = {"de": "de_DE", "es": "es_ES", "fr": "fr_FR", "en": "en_GB"}


@dataclass
class Written:
    """What the texts of figures and days say.

    Attributes
    ----------
    comma, point, either : list of str
        The figures with a decimal comma, with a decimal point, and with one or the other.
    day_first, month_first, any_order : list of str
        The days of which the first number is the day, the month, or either of both.
    """

    comma: list[str] = field(default_factory=list)
    point: list[str] = field(default_factory=list)
    either: list[str] = field(default_factory=list)
    day_first: list[str] = field(default_factory=list)
    month_first: list[str] = field(default_factory=list)
    any_order: list[str] = field(default_factory=list)

    def take(self, text: str) -> None:
        """Take a text of a figure, of one with its unit, or of a day."""
        plain = re.sub(r"[\u00a0\u202f\u2009' ]", "", text)
        if date := _DATE.fullmatch(text.strip()):
            first, second = int(date[1]), int(date[2])
            if max(first, second) > 12:
                (self.day_first if first > 12 else self.month_first).append(text)
            elif first != second:
                self.any_order.append(text)
        for number in re.findall(r"[-+]?[0-9][0-9.,]*[0-9]", plain):
            if _EITHER.fullmatch(number):
                self.either.append(text)
            elif _COMMA.fullmatch(number):
                self.comma.append(text)
            elif _POINT.fullmatch(number) and not re.fullmatch(r"[0-9]{1,2}\.[0-9]{1,2}", number):
                self.point.append(text)
            elif re.fullmatch(r"[0-9]{1,2}\.[0-9]{1,2}", number) and "." not in number[-1:]:
                self.point.append(text)

    def take_run(self, texts: Iterable[str]) -> None:
        """Take the days of a column: an order in which they follow each other decides."""
        parts = [match for match in map(_DATE.fullmatch, map(str.strip, texts)) if match]
        if len(parts) < 5 or any(max(int(p[1]), int(p[2])) > 12 for p in parts):
            return
        day_first = _is_run([(int(p[3]), int(p[2]), int(p[1])) for p in parts])
        month_first = _is_run([(int(p[3]), int(p[1]), int(p[2])) for p in parts])
        if day_first != month_first:
            (self.day_first if day_first else self.month_first).append(parts[0][0])

    @property
    def mark(self) -> str:
        """The decimal mark that the figures have; empty if they don't say it, `?` for both."""
        if self.comma and self.point:
            return "?"
        return "," if self.comma else "." if self.point else ""

    @property
    def order(self) -> str:
        """What days begin with, ``d`` or ``m``; empty if they don't say it, `?` for both."""
        if self.day_first and self.month_first:
            return "?"
        return "d" if self.day_first else "m" if self.month_first else ""

    def agrees(self, other: Written, language: str) -> bool:
        """Say whether texts may be read as those of other sheets are.

        Parameters
        ----------
        other : Written
            The others.
        language : str
            The language of this sheet: what could be read in two ways has that of the others only
            if they write numbers as its language does.
        """
        if self.mark and other.mark and self.mark != other.mark:
            return False
        if self.order and other.order and self.order != other.order:
            return False
        if self.either and not self.mark and other.mark:
            return (other.mark == ".") == (language == "en")
        return True

    def add(self, other: Written) -> None:
        """Take the texts of another sheet too."""
        for each in fields(self):
            getattr(self, each.name).extend(getattr(other, each.name))

    def locale(self, language: str) -> tuple[str, str]:
        """Return whose figures and days these are, and why; `?` if they don't say.

        Parameters
        ----------
        language : str
            The language of most heads, which chooses among those with the same figures.
        """
        if self.comma and self.point:
            return "?", Sentence(
                "{comma!r} has a decimal comma, and {point!r} a point",
                comma=self.comma[0],
                point=self.point[0],
            )
        if self.day_first and self.month_first:
            both = Sentence(
                "{day_first!r} has its day first, and {month_first!r} its month",
                day_first=self.day_first[0],
                month_first=self.month_first[0],
            )
            return "?", both
        if self.any_order and not (self.day_first or self.month_first):
            if not self.comma or language == "en":
                return "?", Sentence(
                    "{any_order!r} can be read as two days: en_GB, or en_US",
                    any_order=self.any_order[0],
                )
        if self.comma:
            form = "{count} figures have a decimal comma, such as {comma!r}"
            said = Sentence(form, count=len(self.comma), comma=self.comma[0])
            return _OF.get(language if language != "en" else "de", "de_DE"), said
        if self.either and not self.point:
            return (
                "?",
                Sentence(
                    "{either!r} is a decimal number in one country, thousands in another",
                    either=self.either[0],
                ),
            )
        order = "en_US" if self.month_first else "en_GB" if self.day_first else ""
        if self.point or order:
            count = len(self.point)
            some: list[str] = []
            if count:
                form = "{count} figures have a decimal point, such as {point!r}"
                some.append(Sentence(form, count=count, point=self.point[0]))
            days = [*self.month_first, *self.day_first]
            if days:
                some.append(Sentence("days are as {days!r}", days=days[0]))
            if len(some) > 1:
                form = "{figures}, and {days}"
                return order or "en", Sentence(form, figures=some[0], days=some[1])
            return order or "en", some[0]
        return "", "its figures and days are cells of numbers and days, which need no locale"


def _is_run(days: list[tuple[int, int, int]]) -> bool:
    """Say whether days follow each other, each the next or the same."""
    try:
        found = [datetime.date(y if y > 99 else 2000 + y, m, d) for y, m, d in days]
    except ValueError:
        return False
    return all(0 <= (b - a).days <= 1 for a, b in zip(found, found[1:]))
