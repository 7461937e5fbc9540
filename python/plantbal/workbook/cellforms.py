"""How a cell of Excel shows its number: what its form, such as `0.0%` or `#,##0" kg"`, puts after it."""

from __future__ import annotations

import re
from dataclasses import dataclass
from decimal import ROUND_FLOOR, ROUND_HALF_UP, Decimal
from functools import lru_cache

from plantbal.workbook.sheets import InThousands, Percent, Shown
from plantbal.workbook.units import UNITS, unit_of

# The parts of a form: a text in quotes, a letter after a backslash, what takes room or fills it, a condition or a colour, the digits,
# and any other letter.
_PART = re.compile(
    r'"(?P<quoted>[^"]*)"|\\(?P<letter>.)|[_*].|\[[^\]]*\]'
    r"|(?P<digits>General|[0#?.,]+|[eE][+-])|(?P<other>.)",
    re.DOTALL | re.IGNORECASE,
)

# What shows a number otherwise than by its digits: with a power of ten, or as a fraction.
_OTHER_FORM = re.compile("[0-9][eE][+-]?[0-9]|/")
_MOST_POWERS = 5  # of a thousand


@dataclass(frozen=True, slots=True)
class Form:
    """How a number is shown.

    Attributes
    ----------
    hundredfold : bool
        Whether it is shown a hundred times as great, with a percent sign.
    after : str
        A unit or a percent sign that stands after it as a text; empty for none.
    thousands : int
        By how many powers of a thousand less it is shown.
    is_blank : bool
        Whether it isn't shown at all.
    """

    hundredfold: bool
    after: str
    thousands: int = 0
    is_blank: bool = False

    def value(self, number: Decimal) -> Decimal | Percent:
        """Return a number as whoever looks at its cell reads it."""
        if self.hundredfold:
            return Percent((number * 100).normalize())
        if self.after == "%":
            return Percent(number)
        if self.after:
            return Shown(number.scaleb(-3 * self.thousands), self.after)
        return InThousands(number, self.thousands) if self.thousands and number else number


@lru_cache
def cell_form(text: str) -> Form:
    """Return a cell's form; of several, for numbers above and below 0, the first."""
    after, hundredfold, digits, is_text = "", False, "", False
    for part in _PART.finditer(text):
        if part["other"] == ";":
            break
        hundredfold |= part["other"] == "%"
        is_text |= part["other"] == "@"
        if part["digits"]:
            after, digits = "", part["digits"]
        else:
            after += part["quoted"] or part["letter"] or part["other"] or ""
    after = after.strip()
    thousands = len(digits) - len(digits.rstrip(","))
    return Form(hundredfold, _known(after), thousands, not digits and not is_text)


def form_shown(text: str, number: Decimal) -> Form:
    """Return the form of a cell whose number is shown as this text; empty if the file has none."""
    after = _known(text.strip().lstrip("0123456789.,'+-\u2212 \u00a0\u202f"))
    is_blank = bool(text) and not re.search(r"\d", text)
    return Form(False, after, _thousands(text, abs(number)), is_blank)


def _thousands(text: str, number: Decimal) -> int:
    """Return by how many powers of a thousand less a text shows a number than it is."""
    digits = re.sub("[^0-9]", "", text)
    if not digits or number < 1 or not number.is_finite() or _OTHER_FORM.search(text):
        return 0
    digits = digits.lstrip("0")
    for powers in range(_MOST_POWERS):
        shown = number.scaleb(-3 * powers)
        if shown < 1:
            return powers if not digits else 0
        near = shown.to_integral_value(ROUND_FLOOR), shown.to_integral_value(ROUND_HALF_UP)
        if digits and any(digits.startswith(f"{each:f}") for each in near):
            return powers
    return 0


def _known(after: str) -> str:
    """Return what stands after a number if it is a unit or a percent sign."""
    return after if after == "%" or unit_of(after) in UNITS else ""
