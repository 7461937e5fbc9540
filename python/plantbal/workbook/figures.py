"""Texts of figures as numbers, by the decimal mark and what is between thousands.

Thousands begin with 1 to 9: with a comma for a decimal mark, `0.408` is no 408.
"""

from __future__ import annotations

import re
from decimal import ROUND_HALF_EVEN, Decimal
from fractions import Fraction
from functools import lru_cache

from plantbal import limits

# Between a figure's thousands nothing else can be meant by these.
_SPACES = " \u00a0\u2009\u202f'\u2019"
_SPACED = re.compile(rf"[+-]?[1-9][0-9]{{0,2}}(?:[{_SPACES}][0-9]{{3}})+(?:[.,][0-9]*)?")


def without_spaces(text: str) -> str:
    """Return a figure without the spaces or apostrophes between its thousands."""
    return re.sub(f"[{_SPACES}]", "", text) if _SPACED.fullmatch(text) else text


def plain_number(text: str, mark: str, group: str) -> Decimal | None:
    """Return the number of a text with this decimal mark and these thousands, or None."""
    if len(text) > limits.DIGITS or not _form_of(mark, group).fullmatch(text):
        return None
    return Decimal(text.replace(group, "").replace(mark, ".") if group else text.replace(mark, "."))


@lru_cache
def _form_of(mark: str, group: str) -> re.Pattern[str]:
    mark, group = re.escape(mark), re.escape(group)
    thousands = rf"[1-9][0-9]{{0,2}}(?:{group}[0-9]{{3}})+"
    return re.compile(rf"[+-]?(?:[0-9]+|{thousands})(?:{mark}[0-9]+)?")


def rounded_down(number: Fraction, places: int) -> str:
    """Return a number with some decimals, to say how much was rounded."""
    scaled = Decimal(number.numerator) / Decimal(number.denominator)
    return f"{scaled.quantize(Decimal(1).scaleb(-places), rounding=ROUND_HALF_EVEN):f}"
