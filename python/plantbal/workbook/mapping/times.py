"""A time of the day that has a column of its own, and its day with it."""

from __future__ import annotations

import datetime
import re
from decimal import Decimal

from plantbal.workbook.sheets import Value


def time_of(value: Value) -> str | None:
    """Return a time of the day as a text; the last hour may be 24."""
    if isinstance(value, datetime.time):
        return f"{value:%H:%M:%S}"
    if isinstance(value, datetime.datetime):
        return f"{value:%H:%M:%S}"
    if isinstance(value, Decimal):
        if value == int(value) and 0 <= value <= 24:
            return f"{int(value):02}:00"
        if 0 < value < 1:  # a part of a day, as a spreadsheet has it
            seconds = round(value * 86_400)
            return f"{seconds // 3600:02}:{seconds // 60 % 60:02}:{seconds % 60:02}"
        return None
    match = re.fullmatch(
        r"([0-9]{1,2})(?::([0-9]{2}))?(?::([0-9]{2}))?(?:\s*(?:h|Uhr))?", str(value)
    )
    if match is None or int(match[1]) > 24:
        return None
    return f"{int(match[1]):02}:{match[2] or '00'}:{match[3] or '00'}"


def with_time(day: Value, time: str) -> Value:
    """Return a day with a time of it, as `time_of` gives it."""
    if isinstance(day, datetime.datetime):
        hours, minutes, *rest = map(int, time.split(":"))
        return day + datetime.timedelta(hours=hours, minutes=minutes, seconds=sum(rest))
    return f"{day} {time}"
