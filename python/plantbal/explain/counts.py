"""Which row a record is meant to be, and what is said of one with too many or too few fields."""

from __future__ import annotations

import re
from collections.abc import Iterable, Sequence
from dataclasses import dataclass

from plantbal.explain.text import quoted
from plantbal.model.forms import FIRST_DAY, LAST_DAY, field_fits, rows_of_kind, rows_of_word
from plantbal.model.meant import day_meant, number_meant
from plantbal.schema import Column, Row


def is_like(column: Column, text: str) -> bool:
    """Say whether a field is of the form of its column, or a day that is written otherwise."""
    return field_fits(column, text) or (column.type == "date" and bool(day_meant(text).text))


def row_meant(record: tuple[str, ...]) -> Row | None:
    """Return the row that a record is meant to be, or None."""
    rows = (rows_of_word(record) or rows_of_kind(record[0])[:1]) if record else []
    count = len(record) - 1

    def unlike(row: Row) -> tuple[bool, int, int]:
        """Return how far a record is from a row: by its count of fields, then by their forms."""
        fit = sum(map(is_like, row.columns, record[1:]))
        return not row.takes(count), abs(len(row.columns) - count), -fit

    return min(rows, key=unlike) if rows else None


@dataclass(frozen=True, slots=True)
class Count:
    """What is said of a row with too many or too few fields."""

    said: str
    label: str = ""
    first: int | None = None
    last: int | None = None


def _fits(row: Row, fields: Sequence[str]) -> bool:
    return len(fields) == len(row.columns) and all(map(field_fits, row.columns, fields))


def _labels(columns: Iterable[Column]) -> str:
    names = list(dict.fromkeys(column.label for column in columns))
    return names[0] if len(names) == 1 else f"{', '.join(names[:-1])} or {names[-1]}"


def _too_many(row: Row, fields: tuple[str, ...], extra: int) -> Count:
    """Return what is said of a row with more fields than its kind has."""
    for place, column in enumerate(row.columns):
        some = fields[place : place + extra + 1]
        rest = fields[:place], fields[place + extra + 1 :]
        joined = "".join(some)
        ends = place + 1, place + 1 + extra
        if column.type == "number" and len(some) == extra + 1:
            grouped = re.fullmatch(r"-?[0-9]{1,3}", some[0]) and all(
                re.fullmatch("[0-9]{3}", part) for part in some[1:]
            )
            if grouped and _fits(row, (*rest[0], joined, *rest[1])):
                said = f"{column.label} is {','.join(some)!r}; write {joined}, without commas"
                return Count(said, column.label, *ends)
            if extra == 1 and re.fullmatch("-?[0-9]+", some[0]) and re.fullmatch("[0-9]+", some[1]):
                if _fits(row, (*rest[0], "1", *rest[1])):
                    comma = ",".join(some)
                    low, high = column.low or 0, column.high or 0
                    scales = [("tonnes", 1_000_000, "grams")] if column.name == "grams" else []
                    meant = number_meant(comma, low, high, scales).text if scales else ""
                    said = f"{column.label} is '{comma}', with a comma"
                    said = both(said, meant or "write a whole number")
                    return Count(said, column.label, *ends)
        if column.type == "reason" and _fits(row, (*fields[:place], "x")):
            said = f"{column.label} has a comma in it; put it between double quotes"
            return Count(said, column.label, place + 1, len(fields))
    ends = len(row.columns) + 1, len(fields)
    what = "field" if extra == 1 else "fields"
    for place in range(len(row.columns), -1, -1):
        if _fits(row, (*fields[:place], *fields[place + extra :])):
            ends = place + 1, place + extra
            break
    label, value = f"field {ends[0] + 1}", quoted(fields[ends[0] - 1])
    said = f"{label} is {value}: it has {extra} {what} too many; write {row.pattern}"
    return Count(said, label, *ends)


def _too_few(row: Row, fields: tuple[str, ...], lacks: int) -> Count:
    """Return what is said of a row with fewer fields than its kind has."""
    count = len(row.columns)
    if all(map(field_fits, row.columns, fields)) and lacks > 1:
        names = ", ".join(column.label for column in row.columns[count - lacks :])
        return Count(f"{names} are missing at its end; write {row.pattern}", names)
    found = []
    if lacks == 1:
        for place in range(count):
            others = (*row.columns[:place], *row.columns[place + 1 :])
            if all(map(is_like, others, fields)):
                found.append(row.columns[place])
    if found:
        names = _labels(found)
        which = "" if len(found) == 1 else " (which one isn't clear)"
        if [column.name for column in found] == ["since", "until"]:
            which = f": dates of service are two, {FIRST_DAY} if it was always in service, "
            which += f"{LAST_DAY} if there is no end"
        return Count(f"{names} is missing{which}; write {row.pattern}", names)
    few = "a field is missing" if lacks == 1 else f"{lacks} fields are missing"
    return Count(f"{few}, and which isn't clear; write {row.pattern}")


def count_of_fields(record: tuple[str, ...]) -> Count:
    """Return what is said of a row whose number of fields is wrong."""
    rows = rows_of_kind(record[0])
    row = row_meant(record)
    assert row is not None
    if record[0] == "amend":
        row = rows[0] if len(record) < 6 else rows[-1]
    fields = record[1:]
    extra = len(fields) - len(row.columns)
    if len(record) == 1 and row.word:
        words = [each.columns[each.word - 1].words[0] for each in rows]
        patterns = " or ".join(each.pattern for each in rows if each.version == 1)
        return Count(f"it has no other field; write {patterns}", words[0])
    if row.tail:
        labels = [column.label for column in row.tail]
        lacks, such = labels[extra % len(labels)], ",".join([row.kind, *labels, *labels])
        return Count(f"{lacks} is missing at its end; write {such} and so on", lacks)
    if not extra:  # in a session of version 1
        said = "SINCE and UNTIL are of sessions of version 2; write version,2 as the first row"
        return Count(said, "SINCE", len(fields) - 1, len(fields))
    return _too_many(row, fields, extra) if extra > 0 else _too_few(row, fields, -extra)


def both(*parts: str) -> str:
    """Return what is said of a row, in one sentence."""
    return "; ".join(part for part in parts if part)
