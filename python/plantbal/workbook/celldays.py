"""The day of a cell: a date, one of Excel's numbers, or a text as a locale writes days."""

from __future__ import annotations

import datetime
import re
from decimal import Decimal

from plantbal.causes import Case
from plantbal.sentence import Sentence
from plantbal.workbook.causes import SheetCause
from plantbal.workbook.cellfaults import cell_fault
from plantbal.workbook.locales import day_order, month_names
from plantbal.workbook.remedies import CellRemedy, OptionRemedy
from plantbal.workbook.sheets import Cell, NoValue

_DAY = re.compile(r"([0-9]{1,4})([./-])\s?([0-9]{1,2})\2\s?([0-9]{1,4})\.?")
_TIME = re.compile(r"(.*?)[ T]+([0-9]{1,2}:[0-9]{2}(?::[0-9]{2}(?:[.,][0-9]+)?)?)")
_NAMED = re.compile(r"([0-9]{1,2})\.?[ -]([^\W\d]+)\.?[ -]([0-9]{4})")
# Days that Excel's numbers stand for: 1954 to 2119.
SERIALS = 20_000, 80_000


def day_in_cell(cell: Cell, locale: str, head: str = "") -> datetime.date:
    """Return the day of a cell.

    Parameters
    ----------
    cell : Cell
        The cell.
    locale : str
        Whose days it has; empty for days that can be read in one way alone.
    head : str
        The head of its column.

    Raises
    ------
    CausedFault
        If it has no day, more than a day, or a text that can be read as two days.
    """
    value = cell.value
    time: datetime.time | str | None = None
    found: datetime.date | None = None
    if isinstance(value, datetime.datetime):
        found, time = value.date(), value.time()
    elif isinstance(value, Decimal):
        found = _serial(cell, value)
        time = None if value == int(value) else Sentence("{value:f} of a day", value=value % 1)
    elif isinstance(value, str):
        split = _TIME.fullmatch(value)
        time = split.group(2) if split else None
        found = _of_text(cell, split.group(1) if split else value, locale, head)
    if found is None:
        remedy: str | Case = _of_order(cell, locale)
        if isinstance(value, NoValue):
            remedy = "open the workbook and save it"
        what = SheetCause.NOT_A_DAY(text=cell.text) if cell.text else SheetCause.NO_DAY()
        raise cell_fault(cell, what, remedy or CellRemedy.WRITE_DAY(), head)
    if time is not None and not re.fullmatch(r"0?0:00(:00([.,]0+)?)?", str(time)):
        what = SheetCause.TIME_OF_DAY(text=cell.text, time=time)
        raise cell_fault(cell, what, CellRemedy.DAY_ALONE(), head)
    return found


def _of_order(cell: Cell, locale: str) -> str | Case:
    """Return what to do if a text is a day once its day and month are exchanged."""
    match = _DAY.fullmatch(cell.text)
    if not locale or match is None or match.group(2) == "." or len(match.group(1)) == 4:
        return ""
    order = day_order(locale)
    months = [part for part in match.group(1, 3) if int(part) <= 12]
    if order == "ymd" or len(months) != 1:
        return ""
    return (CellRemedy.MONTH_FIRST if order == "mdy" else CellRemedy.DAY_FIRST)(locale=locale)


def _serial(cell: Cell, number: Decimal) -> datetime.date | None:
    """Return the day of one of Excel's numbers."""
    if not SERIALS[0] <= number <= SERIALS[1]:
        return None
    return cell.sheet.epoch + datetime.timedelta(int(number))


def _of_text(cell: Cell, text: str, locale: str, head: str) -> datetime.date | None:
    text = text.strip()
    if re.fullmatch(r"[0-9]{5}", text):
        return _serial(cell, Decimal(text))
    named = _NAMED.fullmatch(text)
    if named:
        month = month_names(locale).get(named.group(2).casefold())
        return _date(int(named.group(3)), month or 0, int(named.group(1)))
    match = _DAY.fullmatch(text)
    if not match:
        return None
    first, part, second, third = match.groups()
    if len(first) == 4:
        return _date(int(first), int(second), int(third))
    if part != "." and len(first) == len(third) == 2 and not locale:
        if _date(2000 + int(first), int(second), int(third)):
            remedy = OptionRemedy.FOUR_DIGITS()
            what = SheetCause.YEAR_FIRST_OR_LAST(text=text)
            raise cell_fault(cell, what, remedy, head)
    order = _order(cell, text, part, (int(first), int(second)), locale, head)
    numbers = dict(zip(order, (first, second, third)))
    if len(numbers["y"]) not in (2, 4):
        return None
    year = int(numbers["y"])
    if len(numbers["y"]) == 2:
        year += 2000 if year < 70 else 1900
    return _date(year, int(numbers["m"]), int(numbers["d"]))


def _order(
    cell: Cell, text: str, part: str, numbers: tuple[int, int], locale: str, head: str
) -> str:
    """Return the order of a day's parts, of which the year is not the first."""
    if part == ".":
        return "dmy"
    if locale:
        order = day_order(locale)
        if order != "ymd":
            return order
    elif max(numbers) > 12:
        return "dmy" if numbers[0] > 12 else "mdy"
    raise cell_fault(cell, SheetCause.TWO_DAYS(text=text), OptionRemedy.DAY_OR_MONTH(), head)


def _date(year: int, month: int, day: int) -> datetime.date | None:
    try:
        return datetime.date(year, month, day)
    except ValueError:
        return None
