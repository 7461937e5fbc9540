"""The forms of fields, and which row of the schema a record is: the codes from 1 to 5."""

from __future__ import annotations

import datetime
import re
from collections.abc import Iterable, Sequence
from functools import lru_cache

from plantbal.model.causes import Reason, Refused
from plantbal.schema import Column, Row, schema

LIMITS = schema().limits
# The days that a date may be: dates of service that aren't said are these.
FIRST_DAY = datetime.date(LIMITS["first_year"], 1, 1)
LAST_DAY = datetime.date(LIMITS["last_year"], 12, 31)
NAME = re.compile(rf"[A-Za-z0-9_.-]{{1,{LIMITS['most_name']}}}")
NAMES = re.compile(rf"(?:{NAME.pattern}(?:\n|\Z))*+")
_REASON = re.compile(rf"[ -~]{{1,{LIMITS['most_reason']}}}")
DATE = re.compile(r"[0-9]{4}-[0-9]{2}-[0-9]{2}")
_DATES = re.compile(rf"(?:{DATE.pattern}(?:\n|\Z))*+")
# A number of more digits is none that a column takes.
_DIGITS = 60
_WHOLE = re.compile(rf"0|-?[1-9][0-9]{{0,{_DIGITS - 1}}}")
_WHOLES = re.compile(rf"(?:(?:{_WHOLE.pattern})(?:\n|\Z))*+")
# What a field of a column may be as far as a pattern says it; words choose the row, and are looked at there.
_PATTERNS = {
    "name": NAME.pattern,
    "reason": _REASON.pattern,
    "number": f"(?:{_WHOLE.pattern})",
    "date": DATE.pattern,
    "word": r"[^\n]*",
}
# The rows that ask for output and aren't stored.
ASKS = ("design", "advise", "report", "history", "window", "component")
# The kinds of rows whose last field is a reason.
REASONED = frozenset(
    row.kind for row in schema().session if row.columns and row.columns[-1].type == "reason"
)


@lru_cache(maxsize=100_000)
def day_number(text: str) -> int | None:
    """Return the number of a day that is written as the program reads it, or None."""
    if not DATE.fullmatch(text):
        return None
    year, month, day = int(text[:4]), int(text[5:7]), int(text[8:])
    if not LIMITS["first_year"] <= year <= LIMITS["last_year"]:
        return None
    try:
        return datetime.date(year, month, day).toordinal()
    except ValueError:
        return None


def day_of(text: str) -> int:
    """Return the number of a day that was judged."""
    number = day_number(text)
    assert number is not None
    return number


def days_of(texts: Iterable[str]) -> dict[str, int]:
    """Return the number of the day that each of some texts writes; -1 for what is none."""
    some = list(set(texts))
    if all_match(_DATES, some):
        try:
            days = [datetime.date.fromisoformat(text) for text in some]
        except ValueError:
            days = []  # the day of one isn't there, and it is looked for below
        if days and FIRST_DAY <= min(days) and max(days) <= LAST_DAY:
            return {text: day.toordinal() for text, day in zip(some, days)}
    numbers = ((text, day_number(text)) for text in some)
    return {text: -1 if number is None else number for text, number in numbers}


def day_of_number(number: int) -> datetime.date:
    """Return the day of a number."""
    return datetime.date.fromordinal(number)


@lru_cache(maxsize=100_000)
def day_text(number: int) -> str:
    """Return the day of a number as a session writes it."""
    return datetime.date.fromordinal(number).isoformat()


def all_match(pattern: re.Pattern[str], texts: Sequence[str]) -> bool:
    """Say whether each of some texts is one line that a pattern of lines takes."""
    lines = "\n".join(texts)
    whole = lines.count("\n") == len(texts) - 1 and "" not in texts
    return whole and pattern.fullmatch(lines) is not None


def wholes_of(texts: Sequence[str]) -> list[int] | None:
    """Return the numbers that texts write; None if one isn't a whole number in digits."""
    distinct = set(texts)
    if len(distinct) * 4 < len(texts):
        some = list(distinct)
        numbers = wholes_of(some)
        return numbers and list(map(dict(zip(some, numbers)).__getitem__, texts))
    return list(map(int, texts)) if not texts or all_match(_WHOLES, texts) else None


def are_within(numbers: Sequence[int], low: int | None, high: int | None) -> bool:
    """Say whether all of some numbers are in a range, of which None is no end."""
    if not numbers:
        return True
    return (low is None or low <= min(numbers)) and (high is None or max(numbers) <= high)


def whole_number(text: str, low: int | None, high: int | None) -> int | None:
    """Return the number that a field writes, or None if it writes none of the range."""
    if not _WHOLE.fullmatch(text):
        return None
    number = int(text)
    return number if are_within((number,), low, high) else None


def fault_of(column: Column, text: str) -> Reason | None:
    """Return why a column doesn't take a field, or None; words are looked at elsewhere."""
    if column.type == "name":
        return None if NAME.fullmatch(text) else Reason.NO_NAME
    if column.type == "reason":
        return None if _REASON.fullmatch(text) else Reason.NO_REASON
    if column.type == "number":
        found = whole_number(text, column.low, column.high)
        return Reason.NO_NUMBER if found is None else None
    if column.type == "date":
        return Reason.NO_DATE if day_number(text) is None else None
    return None


def field_fits(column: Column, text: str) -> bool:
    """Say whether a field is of the form of its column."""
    if column.type == "word":
        return text in column.words
    return fault_of(column, text) is None


# ---- which row it is


def _rows_by_kind(version: int) -> dict[str, list[Row]]:
    found: dict[str, list[Row]] = {}
    for row in schema().session:
        if row.version <= version:
            found.setdefault(row.kind, []).append(row)
    return found


ROWS_OF = {version: _rows_by_kind(version) for version in (1, 2)}
ROWS = ROWS_OF[2]


def rows_of_kind(kind: str) -> list[Row]:
    """Return the rows of a kind, of whatever version, or none if there is no such kind."""
    return ROWS.get(kind, [])


def word_of(row: Row) -> tuple[str, ...]:
    """Return the word that chooses a row among those of its kind."""
    return row.columns[row.word - 1].words


def rows_of_word(record: Sequence[str]) -> list[Row]:
    """Return the rows of a record's kind that have its word; none if the kind has no such word."""
    rows = rows_of_kind(record[0]) if record else []
    return [
        row
        for row in rows
        if not row.word or tuple(record[row.word : row.word + 1]) == word_of(row)
    ]


def row_of(record: tuple[str, ...], version: int, stored: bool) -> Row | Refused:
    """Return the row of the schema that a record is, or why it is refused with 1 or 2.

    Parameters
    ----------
    record : tuple of str
        The record, without empty fields at its end.
    version : int
        The version of the session so far.
    stored : bool
        Whether the session has stored a row.
    """
    rows = ROWS_OF[version].get(record[0], [])
    if not rows or record[0] == "version":
        return _row_of_version(record, version, stored)
    place = rows[0].word if len(rows) > 1 else 0
    if place:
        if len(record) <= place:
            return Refused(Reason.FIELD_COUNT, values={"patterns": rows[0].pattern})
        found = [row for row in rows if (record[place],) == word_of(row)]
        if not found:
            column = rows[0].columns[place - 1].name
            return Refused(Reason.NO_SUCH_WORD, column, record[place], {"field": place + 1})
        rows = found
    for row in rows:
        if row.takes(len(record) - 1):
            return row
    if any(row.takes(len(record) - 1) for row in rows_of_word(record)):
        return Refused(Reason.SERVICE_OF_VERSION_2)
    patterns = " or ".join(row.pattern for row in rows)
    return Refused(Reason.FIELD_COUNT, values={"patterns": patterns})


def _row_of_version(record: tuple[str, ...], version: int, stored: bool) -> Row | Refused:
    """Return the row that makes a session one of version 2, or why a record is refused with 1."""
    word = record[0]
    if word != "version":
        reason = Reason.KIND_OF_VERSION_2 if word in ROWS else Reason.NO_SUCH_KIND
    elif record != ("version", "2"):
        reason = Reason.NOT_VERSION_2
    elif not stored:
        return ROWS["version"][0]
    else:
        reason = Reason.VERSION_AGAIN if version == 2 else Reason.VERSION_AFTER_ROWS
    return Refused(reason, "kind", word)


class FixedForm:
    """The form of a row of a fixed number of fields: one pattern of them, ranges and dates."""

    def __init__(self, row: Row) -> None:
        self.row = row
        patterns = (_PATTERNS[column.type] for column in row.columns)
        self._matches = re.compile("\n".join([re.escape(row.kind), *patterns])).fullmatch
        columns = list(enumerate(row.columns, 1))
        ends = -(10**_DIGITS), 10**_DIGITS
        self._ranges = [
            (
                at,
                *(
                    end if end is not None else most
                    for end, most in zip((each.low, each.high), ends)
                ),
            )
            for at, each in columns
            if each.type == "number"
        ]
        self._days = [at for at, each in columns if each.type == "date"]

    def fits(self, record: tuple[str, ...]) -> bool:
        """Say whether a record is of it."""
        if self._matches("\n".join(record)) is None:
            return False
        for at, low, high in self._ranges:
            if not low <= int(record[at]) <= high:
                return False
        for at in self._days:
            if day_number(record[at]) is None:
                return False
        return True


# The forms of rows by their identity: the rows of the schema are made once.
_FORMS_OF: dict[int, FixedForm] = {}


def fixed_form(row: Row) -> FixedForm:
    """Return the form of a row that has no tail."""
    found = _FORMS_OF.get(id(row))
    if found is None:
        found = _FORMS_OF[id(row)] = FixedForm(row)
    return found


def form_refused(row: Row, record: tuple[str, ...]) -> Refused | None:
    """Return why a record is refused whose fields aren't of their forms, or None.

    Names come first, then numbers, then dates.
    """
    if not row.tail and fixed_form(row).fits(record):
        return None
    worst: tuple[Reason, Column, str] | None = None
    columns = row.columns_for(len(record) - 1) if row.tail else row.columns
    for column, text in zip(columns, record[1:]):
        reason = fault_of(column, text)
        if reason is not None and (worst is None or reason.cause < worst[0].cause):
            worst = reason, column, text
    return None if worst is None else _of_form(*worst)


def _of_form(reason: Reason, column: Column, text: str) -> Refused:
    values: dict[str, str | int] = {"label": label_of(column)}
    if column.type == "number":
        values |= {"low": column.low or 0, "high": column.high or 0}
    return Refused(reason, column.name, text, values)


def label_of(column: Column) -> str:
    """Return the name that the guide has for a column."""
    return column.label if column.label != "0" else "BASEVAR"
