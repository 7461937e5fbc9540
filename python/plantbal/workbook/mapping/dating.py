"""Of which month the days of a sheet are that are numbers, and of which year months without one.

Each is told by the name of the sheet, by a title or by the heads themselves, or it is a question.
"""

from __future__ import annotations

from collections.abc import Sequence

from plantbal.sentence import Sentence
from plantbal.workbook.mapping.form import HEAD, NAME, OPEN
from plantbal.workbook.mapping.months import (
    month_of,
    month_of_head,
    month_of_sheet,
    month_word,
    short_year_of,
    year_of,
)
from plantbal.workbook.mapping.profile import SheetProfile


def month_said(profile: SheetProfile) -> tuple[str, str]:
    """Return the month of days that are numbers, and what says so."""
    name = profile.sheet.name
    if month_of_sheet(name):
        return NAME, Sentence("{name!r} names the month", name=name)
    for title in profile.titles:
        found = month_of(title)
        if found:
            return f"{found[0]}-{found[1]:02}", Sentence(
                "{title!r} is above the heads", title=title[:60]
            )
    word = month_word(name)
    if word:
        return OPEN, Sentence("days are numbers, and no year is given of {word}", word=word)
    return OPEN, "days are numbers, and no year is given"


def year_said(profile: SheetProfile) -> tuple[str, str]:
    """Return the year of heads that are months without one, and what says so; empty without such."""
    heads = [column.head for column in profile.columns]
    bare = [head for head in heads if month_of_head(head) and not month_of(head)]
    if not bare:
        return "", ""
    if any(map(short_year_of, bare)):
        return _short_years(profile, bare)
    name = profile.sheet.name
    if year_of(name):
        return NAME, Sentence("{name!r} names the year", name=name)
    for title in profile.titles:
        if year_of(title):
            return year_of(title), Sentence("{title!r} is above the heads", title=title[:60])
    return OPEN, Sentence("no year is given of {bare}", bare=bare[0])


def _short_years(profile: SheetProfile, heads: Sequence[str]) -> tuple[str, str]:
    """Return whether two digits after the names of months are years, which others may say."""
    years = [short_year_of(head) for head in heads]
    for text in (profile.sheet.name, *profile.titles):
        if all(years) and year_of(text) in years:
            return HEAD, Sentence(
                "{text!r} names a year that {heads!r} may have", text=text[:60], heads=heads[0]
            )
    months = [month_of(f"{month_word(head)} {year}") for head, year in zip(heads, years)]
    follow = [year * 12 + month for year, month in filter(None, months)]
    turns = all(years) and len(set(years)) > 1
    if turns and follow == list(range(follow[0], follow[0] + len(heads))):
        return HEAD, Sentence(
            "from {heads!r} to {heads2!r} month follows month", heads=heads[0], heads2=heads[-1]
        )
    ask = "{such}: {head} if the digits are the year, or the year"
    year, other = (
        "{text!r} may be a month of {year}, or a day",
        "{text!r} may be a month of another year, or a day",
    )
    such = Sentence(year if years[0] else other, text=heads[0], year=years[0])
    return OPEN, Sentence(ask, such=such, head=HEAD)
