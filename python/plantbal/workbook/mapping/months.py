"""The month that a text names, such as the name of a sheet: `Januar 2024`, `2024-01`, `01/2024`.

Two digits after the name of a month, `Jan 24`, are a year or a day: who asks says which.
"""

from __future__ import annotations

import re
from functools import lru_cache

from plantbal.workbook.locales import month_names

_LOCALES = ("en", "de", "es", "fr")
_NUMBERS = re.compile(
    r"(?<![0-9])(?:(20[0-9]{2})[-_./ ]?(0[1-9]|1[0-2])|(0[1-9]|1[0-2])[-_./ ](20[0-9]{2}))(?![0-9])"
)
_YEAR = re.compile(r"(?<![0-9])(20[0-9]{2})(?![0-9])")
# A word from its first letter on: from each of its letters, a long one would take forever.
_SHORT = re.compile(r"(?<![^\W\d_])([^\W\d_]+)\.?[\s._'\u2019-]*([0-9]{2})(?![0-9])")


@lru_cache
def _names() -> dict[str, int]:
    found: dict[str, int] = {}
    for locale in _LOCALES:
        found |= month_names(locale)
    return found


def month_word(text: str) -> str:
    """Return the word of a text that is the name of a month; empty if there is none."""
    for word in re.findall(r"[^\W\d_]+", text):
        if word.casefold().rstrip(".") in _names() and len(word) > 2:
            return str(word)
    return ""


def month_of(text: str) -> tuple[int, int] | None:
    """Return the year and the month that a text names; None unless it names both."""
    numbers = _NUMBERS.search(text)
    if numbers:
        year, month = (numbers[1], numbers[2]) if numbers[1] else (numbers[4], numbers[3])
        return int(year), int(month)
    word, years = month_word(text), _YEAR.findall(text)
    if word and len(set(years)) == 1:
        return int(years[0]), _names()[word.casefold().rstrip(".")]
    return None


def year_of(text: str) -> str:
    """Return the one year that a text names; empty if it names none, or several."""
    years = set(_YEAR.findall(text))
    return str(years.pop()) if len(years) == 1 else ""


def short_year_of(text: str) -> str:
    """Return the year that two digits after the name of a month would be; empty without such."""
    found = [digits for word, digits in _SHORT.findall(text) if month_word(word)]
    return f"20{found[0]}" if len(found) == 1 and not _YEAR.search(text) else ""


def month_of_sheet(name: str) -> tuple[int, int] | None:
    """Return the month that a sheet's name is of, which has the days of a month and no single day."""
    return month_of(name) or month_of(f"{month_word(name)} {short_year_of(name)}")


def month_of_head(text: str) -> bool:
    """Say whether a head is a month, with its year or without one."""
    return bool(month_of(text)) or bool(month_word(text)) and len(text.split()) < 3


def pattern_of(name: str) -> str:
    """Return a sheet's name with `*` for what is different each month."""
    pattern = _NUMBERS.sub("*", name)
    word = month_word(pattern)
    if short_year_of(pattern):
        pattern = _SHORT.sub(lambda found: "*" if found[1] == word else found[0], pattern)
    elif word:
        pattern = pattern.replace(word, "*", 1)
    pattern = _YEAR.sub("*", pattern)
    return re.sub(r"\*(?:[\s._-]*\*)+", "*", pattern)
