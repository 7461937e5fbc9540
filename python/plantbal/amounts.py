"""Exact amounts: whole grams and Decimal tonnes, never floats."""

from __future__ import annotations

import datetime
import re
from collections.abc import Sequence
from decimal import ROUND_CEILING, Context, Decimal, Inexact, InvalidOperation
from itertools import repeat
from math import isqrt
from numbers import Integral
from operator import index
from typing import SupportsIndex

from plantbal.faults import Fault

Tonnes = Decimal | SupportsIndex | str
Day = datetime.date | str

GRAMS_A_TONNE = 1_000_000
# Tonnes without a sign, a zero in front or more than six decimals, a line each.
_PLAIN = re.compile(r"(?:[1-9][0-9]{0,9}(?:\.[0-9]{1,6})?(?:\n|\Z))*+")
# More digits than any product here has, so that nothing is rounded without a word.
_EXACT = Context(prec=200, traps=[Inexact, InvalidOperation])


def decimal_of(amount: Tonnes, what: str) -> Decimal:
    """Return a decimal number exactly.

    Parameters
    ----------
    amount : Decimal, whole number or str
        The number, with a decimal point if it has one.
    what : str
        What it is called in what is said.

    Raises
    ------
    Fault
        If it is a float, or no number.
    """
    if isinstance(amount, Decimal):
        number = amount
    elif isinstance(amount, str):
        try:
            number = Decimal(amount)
        except InvalidOperation:
            raise Fault(
                f"{what} is {amount!r}, which isn't a number",
                text=amount,
                remedy="digits with at most one decimal point",
            ) from None
    else:
        number = _whole_number(amount, what)
    if not number.is_finite():
        raise Fault(f"{what} is {number}, which isn't a number", text=str(number))
    return number


def _whole_number(amount: SupportsIndex, what: str) -> Decimal:
    """Return a whole number of whatever type, numpy's too."""
    if isinstance(amount, Integral) and not isinstance(amount, bool):
        return Decimal(index(amount))
    raise Fault(
        f"{what} is {amount!r}, of type {type(amount).__name__}",
        text=repr(amount),
        remedy='say Decimal("12.5") or "12.5": floats are not exact',
    )


def grams_of(tonnes: Tonnes, what: str = "TONNES") -> int:
    """Return tonnes as whole grams.

    Raises
    ------
    Fault
        If they are finer than a gram, or no exact number.
    """
    if isinstance(tonnes, int) and not isinstance(tonnes, bool):
        return tonnes * GRAMS_A_TONNE
    number = decimal_of(tonnes, what)
    if number.adjusted() > 100:
        raise Fault(f"{what} is {tonnes}", remedy="at most 10,000,000 t")
    # `scaleb` moves the point alone, so it is exact however many digits there are
    grams = number.scaleb(6, _EXACT)
    whole = int(grams)
    if whole != grams:
        raise Fault(
            f"{what} is {tonnes}, which is finer than a gram",
            text=str(tonnes),
            remedy="at most six decimals",
        )
    return whole


def many_grams(tonnes: Sequence[Decimal]) -> list[int] | None:
    """Return tonnes as whole grams, all at once; None if one of them isn't such an amount."""
    try:
        if max(map(Decimal.adjusted, tonnes), default=0) > 100:
            return None
        grams = list(map(_EXACT.scaleb, tonnes, repeat(6)))
        whole = list(map(int, grams))
    except (Inexact, InvalidOperation, OverflowError, ValueError):
        return None
    return whole if whole == grams else None


def grams_of_texts(tonnes: Sequence[str]) -> list[str] | None:
    """Return tonnes in plain digits as texts of whole grams; None if one is written otherwise.

    The point is only moved, so nothing is calculated: 12.5 has the digits of 12500000.
    """
    distinct = list(dict.fromkeys(tonnes))
    lines = "\n".join(distinct)
    if lines.count("\n") != len(distinct) - 1 or not _PLAIN.fullmatch(lines):
        return None
    parts = [text.partition(".") for text in distinct]
    grams = [whole + part.ljust(6, "0") for whole, _, part in parts]
    if len(distinct) == len(tonnes):
        return grams
    return list(map(dict(zip(distinct, grams)).__getitem__, tonnes))


def whole_of(number: int | Decimal | str, what: str) -> str:
    """Return a whole number as a session writes it; a text is taken as it stands."""
    if isinstance(number, str):
        return number
    if isinstance(number, Decimal):
        if number.is_finite() and number.adjusted() <= 100 and number == int(number):
            return str(int(number))
        raise Fault(f"{what} is {number}", text=str(number), remedy="use a whole number")
    if isinstance(number, bool) or not hasattr(number, "__index__"):
        raise Fault(
            f"{what} is {number!r}, of type {type(number).__name__}",
            text=repr(number),
            remedy="use a whole number",
        )
    return str(number.__index__())


def variance_of(
    *,
    variance: int | str | None = None,
    deviation_grams: Tonnes | None = None,
    deviation_tonnes: Tonnes | None = None,
) -> str:
    """Return a variance in squared grams, from itself or from a standard deviation.

    A standard deviation is squared and rounded up to a whole number of squared grams.

    Raises
    ------
    Fault
        If not exactly one of them is given, or it is no exact number.
    """
    given = [value for value in (variance, deviation_grams, deviation_tonnes) if value is not None]
    if len(given) != 1:
        raise Fault(
            f"{len(given)} of variance, deviation_grams and deviation_tonnes are given",
            remedy="give one: the variance in squared grams, or the standard deviation",
        )
    if variance is not None:
        return whole_of(variance, "VARIANCE")
    if deviation_tonnes is not None:
        deviation = decimal_of(deviation_tonnes, "deviation_tonnes").scaleb(6, _EXACT)
    else:
        assert deviation_grams is not None
        deviation = decimal_of(deviation_grams, "deviation_grams")
    if deviation < 0:
        raise Fault(f"a standard deviation is {deviation} g", remedy="it is 0 or more")
    if deviation.adjusted() > 60:
        raise Fault(f"a standard deviation is {deviation} g", remedy="at most 3,162 t")
    square = _EXACT.multiply(deviation, deviation)
    return str(int(square.to_integral_value(rounding=ROUND_CEILING)))


def day_as_given(day: Day, what: str = "DATE") -> str:
    """Return a day as a session writes it; a text is taken as it stands.

    Raises
    ------
    Fault
        If it is no date, or has a time of the day.
    """
    if isinstance(day, str):
        return day
    if isinstance(day, datetime.datetime):
        if day != day:
            raise Fault(f"{what} is missing")
        # midnight of its own zone begins a day there
        if day.time() != datetime.time():
            raise Fault(f"{what} is {day}, with a time of the day", remedy="give a day")
        day = day.date()
    if not isinstance(day, datetime.date):
        raise Fault(
            f"{what} is {day!r}, of type {type(day).__name__}",
            remedy="give a datetime.date, or a text such as 2024-05-01",
        )
    return day.isoformat()


def tonnes_of(grams: int) -> Decimal:
    """Return whole grams as tonnes, exactly."""
    return Decimal(grams).scaleb(-6, _EXACT)


def tonnes_text(grams: int | str, places: int = 3, toward: str = "nearest") -> str:
    """Return whole grams as tonnes with commas between thousands.

    Parameters
    ----------
    grams : int or str
        Whole grams, or their digits.
    places : int
        How many decimals there are, at most six.
    toward : {'nearest', 'down', 'up'}
        Which way it is rounded; halves go away from 0.
    """
    number, unit = int(grams), 10 ** (6 - places)
    if toward == "nearest":
        scaled = (abs(number) + unit // 2) // unit * (-1 if number < 0 else 1)
    else:
        scaled = number // unit if toward == "down" else -(-number // unit)
    whole, part = divmod(abs(scaled), 10**places)
    decimals = f".{part:0{places}d}" if places else ""
    return f"{'-' if scaled < 0 else ''}{whole:,}{decimals}"


def root_up(number: int) -> int:
    """Return the least whole number whose square isn't less than a number."""
    root = isqrt(number)
    return root if root * root == number else root + 1
