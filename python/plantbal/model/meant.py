"""What was probably meant by a number or a day that the program doesn't take."""

from __future__ import annotations

import calendar
import datetime
import re
from collections.abc import Mapping, Sequence
from dataclasses import dataclass
from decimal import Decimal, InvalidOperation
from enum import unique

from plantbal.causes import Causes
from plantbal.sentence import Phrase, Sentence, phrase

Scale = tuple[str, int, str]
_UNIT = re.compile(r" ?([a-z]+(/[a-z]+)?3?|%)$", re.IGNORECASE)
# Its point may stand between thousands, or before decimals.
_EITHER = re.compile(r"[1-9][0-9]{0,2}\.[0-9]{3}")
_WRITE = "write {text}"
_SPACES = "  \t'"


def _exact(text: str) -> Decimal | None:
    """Return the number that a text writes with a point and an exponent, or None."""
    if not re.fullmatch(r"[-+]?[0-9]{1,40}(\.[0-9]{1,40})?([eE][-+]?[0-9]{1,3})?", text):
        return None
    try:
        return Decimal(text)
    except InvalidOperation:
        return None


@unique
class Odd(Causes):
    """What is odd about the form of a whole number, with what to write in its place."""

    SPACE = "write {number}, without the space"
    OTHER = "write {number}, in digits alone"
    THOUSANDS = "write {number}, without anything between the thousands"
    SIGN = "write {number}, without the sign"
    EXPONENT = "write {number}, if the spreadsheet that wrote an exponent lost no digit"
    POINT = "write {number}, without the point"
    ZERO = "write {number}, without the zero in front"


def whole_meant(text: str) -> tuple[int, Odd] | None:
    """Return the whole number that a text means, and what is odd about its form.

    Parameters
    ----------
    text : str
        A field that is no number in digits alone.

    Returns
    -------
    tuple or None
        The number, and what is odd about it; None if it means no whole number.
    """
    plain = text.strip(_SPACES)
    odd = Odd.SPACE if plain != text else Odd.OTHER
    grouped = re.fullmatch(r"[-+]?[0-9]{1,3}([ ,.'\u00a0])[0-9]{3}(\1[0-9]{3})*(\.0*)?", plain)
    if grouped and (grouped.group(1) != "." or plain.count(".") > 1):
        plain = plain.replace(grouped.group(1), "")
        odd = Odd.THOUSANDS
    elif plain.startswith("+"):
        odd = Odd.SIGN
    elif re.search("[eE]", plain):
        odd = Odd.EXPONENT
    elif "." in plain:
        odd = Odd.POINT
    elif re.fullmatch(r"-?0[0-9]+", plain):
        odd = Odd.ZERO
    exact = _exact(plain)
    if exact is None or abs(exact) > 10**40 or exact != int(exact):
        return None
    return int(exact), odd


def _with_unit(text: str, units: Mapping[str, int]) -> Decimal | None:
    """Return the number that a text writes before one of some units, counted in the column's own.

    It is None if there is no such unit, or if the number could be read in two ways.
    """
    number, unit = _UNIT.sub("", text), (_UNIT.search(text) or [""])[0].strip().casefold()
    exact = None if _EITHER.fullmatch(number) else _exact(number)
    return None if exact is None or unit not in units else exact * units[unit]


@dataclass(frozen=True, slots=True)
class Meant:
    """What was probably meant by a field.

    Attributes
    ----------
    text : str
        What to do about it; empty if nothing is known.
    writes : bool
        Whether it says what to write in place of the field.
    """

    text: str = ""
    writes: bool = False


def _write(form: str, text: str) -> Meant:
    """Return what to write in place of a field, or nothing for no text."""
    return Meant(Sentence(form, text=text), True) if text else Meant()


def number_meant(
    text: str,
    low: int,
    high: int,
    scales: Sequence[Scale] = (),
    units: Mapping[str, int] | None = None,
) -> Meant:
    """Return what was probably meant by a text that is no whole number of a range, or nothing.

    Parameters
    ----------
    text : str
        The field.
    low, high : int
        The range, both ends included.
    scales : sequence of tuple
        Greater units, how many of the number's own each has, and what these are called: a number
        with decimals is probably of the first one in which it is in the range.
    units : mapping of str to int, optional
        The units that may stand after the number, and how many of its own each has.
    """
    found = whole_meant(text)
    if found is not None:
        number, odd = found
        if not low <= number <= high:
            return Meant()
        for greater, count, own in scales if odd is Odd.POINT else ():
            if low <= number * count <= high:  # to whole tonnes one writes a point, to grams none
                said = Sentence(
                    "write {many} if it is in {greater}, and {number} if it is in {own}",
                    many=number * count,
                    greater=phrase(greater),
                    number=number,
                    own=phrase(own),
                )
                return Meant(said, True)
        return Meant() if str(number) == text else Meant(odd(number=number).sentence, True)
    plain = text.strip(_SPACES)
    if re.fullmatch(r"[-+]?([0-9]+|[0-9]{1,3}(\.[0-9]{3})+),[0-9]+", plain):
        plain = plain.replace(".", "").replace(",", ".")
    exact = _exact(plain)
    for greater, count, own in scales if exact is not None else ():
        assert exact is not None
        scaled = exact * count
        if scaled == int(scaled) and low <= scaled <= high:
            form = "if {text} is in {greater}, write {number}, in {own}"
            words = {"text": text.strip(), "greater": phrase(greater), "own": phrase(own)}
            return Meant(Sentence(form, number=int(scaled), **words))
    if re.fullmatch(r"[0-9]{4}-[0-9]{2}-[0-9]{2}", plain):
        return Meant("this is a day: are the fields in their order?")
    counted = _with_unit(plain, units or {})
    if counted is not None and counted == int(counted) and low <= counted <= high:
        return _write("write {text}, without the unit", str(int(counted)))
    unit = (_UNIT.search(plain) or [""])[0].strip().casefold()
    if "kg" in (units or {}) and unit in ("m3", "l", "ml", "bbl"):
        return Meant("an amount is in grams: multiply this volume by its density")
    if re.fullmatch(r"-?[0-9][0-9.,]* ?(kg|t|g|mm|cm|m3|m|l|ml)", plain):
        return Meant("take the unit of measure out")
    return Meant()


def _day(year: int, month: int, day: int) -> str:
    """Return a day as a session writes it, or nothing if the calendar hasn't it."""
    try:
        return datetime.date(year, month, day).isoformat()
    except ValueError:
        return ""


def day_meant(text: str) -> Meant:
    """Return what was probably meant by a text that is no day, or nothing."""
    plain = text.strip()
    timed = re.fullmatch(r"(.{8,10})[T ][0-9]{1,2}:[0-9]{2}(:[0-9]{2})?.*", plain)
    if timed:
        inner = timed.group(1)
        found = inner if re.fullmatch(r"[0-9]{4}-[0-9]{2}-[0-9]{2}", inner) else ""
        return _write("write {text}, without the time", found) if found else day_meant(inner)
    parts = re.fullmatch(r"([0-9]{1,4})[-./ ]([0-9]{1,2})[-./ ]([0-9]{1,4})", plain)
    if parts:
        one, two, three = (int(part) for part in parts.groups())
        if len(parts.group(1)) == 4:
            found = _day(one, two, three)
            if found:
                return _write(_WRITE, found) if found != text else Meant()
            if 1 <= two <= 12:
                count = calendar.monthrange(one, two)[1] if one else 0
                month = Phrase(calendar.month_name[two])
                form = "{month} {year} has {count} days"
                said = Sentence(form, month=month, year=one, count=count)
                return Meant(said) if count else Meant()
            return _write(_WRITE, _day(one, three, two))
        year = three + (2000 if len(parts.group(3)) == 2 else 0)
        some = [day for day in (_day(year, two, one), _day(year, one, two)) if day]
        either = list(dict.fromkeys(some))
        if len(either) > 1:
            said = Sentence("write {words} or {last}", words=either[0], last=either[1])
            return Meant(said, True)
        return _write(_WRITE, "".join(either))
    if re.fullmatch(r"(19|20|21)[0-9]{6}", plain):
        found = _day(int(plain[:4]), int(plain[4:6]), int(plain[6:]))
        return _write(_WRITE, found)
    if re.fullmatch(r"[1-7][0-9]{4}", plain):
        day = datetime.date(1899, 12, 30) + datetime.timedelta(days=int(plain))
        form = "write {text}, if this is a spreadsheet's number of a day"
        return _write(form, day.isoformat())
    return Meant()
