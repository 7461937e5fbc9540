"""How a locale writes numbers and days: its marks, the order of a day's parts, the names of months."""

from __future__ import annotations

from functools import lru_cache

from plantbal.faults import Fault, ToolMissing
from plantbal.sentence import Sentence


def check_locale(locale: str) -> str:
    """Return a locale, or say that there is none of this name."""
    if not locale:
        return ""
    from babel import Locale, UnknownLocaleError

    try:
        return str(Locale.parse(locale.replace("-", "_")))
    except (ValueError, UnknownLocaleError):
        remedy = "use de, en_GB, fr or another"
        raise Fault(
            Sentence("there is no locale {locale!r}", locale=locale), text=locale, remedy=remedy
        ) from None


@lru_cache
def symbols(locale: str) -> tuple[str, str]:
    """Return the decimal mark of a locale, and what it puts between thousands."""
    try:
        from babel.numbers import get_decimal_symbol, get_group_symbol
    except ImportError as error:
        raise ToolMissing("babel", "python3-babel") from error
    return get_decimal_symbol(locale), get_group_symbol(locale)


@lru_cache
def day_order(locale: str) -> str:
    """Return the order in which a locale writes day, month, year: ``dmy``, ``mdy``, ``ymd``."""
    from babel.dates import get_date_format

    pattern = str(get_date_format("short", locale=locale).pattern).casefold()
    return "".join(sorted("dmy", key=pattern.index))


@lru_cache
def month_names(locale: str) -> dict[str, int]:
    """Return the months by their names, in English and in a locale."""
    from babel.dates import get_month_names

    found = {}
    for language in ("en", locale or "en"):
        for width in ("wide", "abbreviated"):
            for number, name in get_month_names(width, locale=language).items():
                found[str(name).rstrip(".").casefold()] = int(number)
    return found
