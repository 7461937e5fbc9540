"""Heads that are the hours of a day: `0` to `23`, `1` to `24`, `00:00`, `00-01`, `7 h`, `2A` and `2B`.

An hour is named by its beginning or by its end, or the hours are counted from the day's beginning: then
the last one is 23, 24 or 25. In autumn an hour comes twice. It may have a second column, whose head
has a `B` or a `*` after the number, or the number of the column before it once more.
"""

from __future__ import annotations

import datetime
import enum
import re
from collections.abc import Mapping, Sequence
from dataclasses import dataclass
from decimal import Decimal

from plantbal.workbook.sheets import Value

MOST_HOURS = 25  # of a day
_ONE = r"([0-9]{1,2})(?:[:h]00(?::00)?)?\s*(?:h|hrs?|uhr)?"
_WORD = r"(?:(?:h|hrs?|hour|std|stunde|hora|heure)\.?\s*)?"
_HOUR = re.compile(rf"{_WORD}{_ONE}\s*([ab*])?", re.IGNORECASE)
_RANGE = re.compile(rf"{_WORD}{_ONE}\s*(?:-|–|—|bis|to|à|a)\s*{_ONE}\s*([ab*])?", re.IGNORECASE)
# The last hour of a day as a time: a whole day after the first day that a workbook knows.
_FIRST_YEARS = (1899, 1900, 1904)


class NamedBy(enum.Enum):
    """What names an hour of a day in its head, by its word in a mapping."""

    BEGIN = "begin"
    END = "end"
    COUNT = "count"  # its number in its day, from 1 to 23, 24 or 25


@dataclass(frozen=True, slots=True)
class HourHead:
    """A head that is an hour of a day.

    Attributes
    ----------
    number : int
        Its number, of `00-01` the first.
    to : int or None
        The number of its end, if it has that too.
    is_again : bool
        Whether it is the hour of the head before it, which comes twice in autumn.
    is_plain : bool
        Whether nothing but the number says that it is an hour.
    """

    number: int
    to: int | None = None
    is_again: bool = False
    is_plain: bool = False


@dataclass(frozen=True)
class HoursAcross:
    """What a mapping says of a sheet whose heads are the hours of a day.

    Attributes
    ----------
    line : int
        The number of the row of heads.
    columns : mapping of int to HourHead
        The hours, by their columns, counted from 0.
    named : NamedBy
        What names an hour.
    is_of_both : bool
        Whether the figure of an hour that comes twice is of both, if they have one column.
    """

    line: int
    columns: Mapping[int, HourHead]
    named: NamedBy
    is_of_both: bool


def hour_head(value: Value) -> HourHead | None:
    """Return the hour that a head is; None if it is none."""
    if isinstance(value, datetime.datetime):
        is_last = value.year in _FIRST_YEARS and value.time() == datetime.time()
        return HourHead(24) if is_last else None
    if isinstance(value, datetime.time):
        return HourHead(value.hour) if not (value.minute or value.second) else None
    if isinstance(value, Decimal):
        is_hour = value == value.to_integral_value() and 0 <= value <= MOST_HOURS
        return HourHead(int(value), is_plain=True) if is_hour else None
    if not isinstance(value, str):
        return None
    text = value.strip()
    both = _RANGE.fullmatch(text)
    if both:
        first, last = int(both[1]), int(both[2])
        follow = last in (first + 1, (first + 1) % 24) and first < 24
        return HourHead(first, last, _is_second(both[3])) if follow else None
    one = _HOUR.fullmatch(text)
    if one is None or int(one[1]) > MOST_HOURS:
        return None
    return HourHead(int(one[1]), None, _is_second(one[2]), is_plain=text.isdigit())


def _is_second(mark: str | None) -> bool:
    return mark is not None and mark in "bB*"


def hour_heads(values: Sequence[Value]) -> dict[int, HourHead]:
    """Return the hours among the heads of a row, by their columns; a number again is its second."""
    found: dict[int, HourHead] = {}
    for column, value in enumerate(values):
        head = hour_head(value)
        if head is None:
            continue
        before = found.get(column - 1)
        if before is not None and before.number == head.number and not before.is_again:
            head = HourHead(head.number, head.to, True, head.is_plain)
        found[column] = head
    return found


def named_by(heads: Sequence[HourHead]) -> NamedBy | None:
    """Return what names the hours of heads; None if they can be read in two ways."""
    if all(head.to is not None for head in heads):
        return NamedBy.BEGIN
    numbers = [head.number for head in heads if not head.is_again]
    if numbers == list(range(1, MOST_HOURS + 1)):
        return NamedBy.COUNT
    if numbers[0] == 0 and numbers[-1] == 23:
        return NamedBy.BEGIN
    if 0 not in numbers and 24 in numbers or (numbers[0] == 1 and numbers[-1] == 0):
        return NamedBy.END
    return None


def hours_in_order(across: HoursAcross) -> list[tuple[int, int, HourHead]]:
    """Return the columns of the hours, each with the hour after its day's midnight at which it begins.

    The hours after the end of the clocks' day, such as those from 0 to 6 after 23, are of the next
    day: 24 and more. Hours that are counted begin with 0.

    Raises
    ------
    ValueError
        If they aren't the hours of one day in their order, each once.
    """
    found: list[tuple[int, int, HourHead]] = []
    for column, head in sorted(across.columns.items()):
        begin = head.number
        if head.to is None and across.named is not NamedBy.BEGIN:
            begin = (begin - 1) % 24 if across.named is NamedBy.END else begin - 1
        last = found[-1][1] if found else -1
        if head.is_again and found and begin == last % 24:
            begin = last
        elif begin <= last:
            begin += 24
        is_after = begin > last or (head.is_again and begin == last)
        first = found[0][1] if found else begin
        most = MOST_HOURS if across.named is NamedBy.COUNT else 24
        if begin < 0 or not is_after or begin - first >= most:
            raise ValueError(column)
        found.append((column, begin, head))
    return found
