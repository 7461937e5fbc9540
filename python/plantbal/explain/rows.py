"""What is said of a refused row: which field is at fault, and what was probably meant."""

from __future__ import annotations

from dataclasses import dataclass

from plantbal.explain.counts import both, count_of_fields, row_meant
from plantbal.explain.text import Field, Text, cut, marked_line, quoted, shown_bytes
from plantbal.explain.told import ExplainedRow
from plantbal.faults import Refusal
from plantbal.model.causes import Cause
from plantbal.model.forms import field_fits, rows_of_kind
from plantbal.records import Record

_OF_FORM = (Cause.NAME, Cause.NUMBER, Cause.DATE)


def field_at_fault(refusal: Refusal) -> tuple[int, str] | None:
    """Return the number of the field at fault, counted from 0, and its label, or None."""
    row = row_meant(refusal.row)
    if refusal.column == "kind" or row is None:
        return 0, "KIND"
    column = refusal.column
    if refusal.code == Cause.CLOSED and not column:
        column = "first" if "first" in row.names else "day"
    if refusal.code == Cause.DUPLICATE and row.kind == "critical":
        column = "dof" if "dof" in row.names else "word"
    repeated = [each.name for each in row.tail]
    if column in repeated:
        begin = len(row.columns) + repeated.index(column) + 1
        places = range(begin, len(refusal.row), len(repeated))
        said = [at for at in places if refusal.row[at] == refusal.text]
        # what stands there twice is at fault the second time
        return (
            said[-1 if refusal.code == Cause.DUPLICATE else 0],
            row.tail[repeated.index(column)].label,
        )
    if column not in row.names:
        return None
    place = row.names.index(column) + 1
    label = row.column(column).label
    if row.column(column).type == "word":
        label = f"field {place + 1}"
    if label == "0":
        label = "BASEVAR"
    return place, label


def _others(record: tuple[str, ...], place: int) -> str:
    """Return what is said of the other fields of a row that aren't of their forms, or nothing."""
    row = row_meant(record)
    assert row is not None
    bad = [
        column.label
        for number, (column, said) in enumerate(zip(row.columns, record[1:]), 1)
        if number != place and not field_fits(column, said)
    ]
    return f"{' and '.join(bad)} can't be read either" if bad else ""


def _word_elsewhere(record: tuple[str, ...], place: int) -> str:
    """Return what is said if a word stands in another field than its own, or nothing."""
    rows = rows_of_kind(record[0])
    words = {row.columns[row.word - 1].words[0] for row in rows if row.word}
    for number, text in enumerate(record):
        if number and number != place and text in words:
            few = "a field is missing before it"
            if number > place:
                few = "there is a field too many before it"
            return f"{text!r} is field {number + 1}, and has to be field {place + 1}: {few}"
    return ""


@dataclass(frozen=True, slots=True)
class _Said:
    """What is said of a row, what to do, and the first and the last field at fault."""

    said: str
    remedy: str = ""
    label: str = ""
    first: int | None = None
    last: int | None = None


def _of_count(row: tuple[str, ...]) -> _Said:
    """Return what is said of a row with too many or too few fields."""
    count = count_of_fields(row)
    return _Said(count.said, "", count.label, count.first, count.last)


def _of_field(refusal: Refusal, remedy: str, number: int) -> _Said:
    """Return what is said of a row by its field at fault, if a single one is.

    Parameters
    ----------
    refusal : Refusal
        Why it is refused.
    remedy : str
        What to do about it.
    number : int
        Its number as a record.
    """
    row, said, place = refusal.row, refusal.said, field_at_fault(refusal)
    if place is None:
        return _Said(f"{said}; no single field is at fault", remedy)
    first, label = place
    value = row[first] if first < len(row) else ""
    if label == "KIND":
        said, remedy = _of_kind(refusal, value), _of_no_kind(row, remedy, number)
    elif not refusal.refused.reason.names_field:
        said = f"{label} is {quoted(value)}: {said}"
    if refusal.code == Cause.KIND and first:
        remedy = _word_elsewhere(row, first) or remedy
    if refusal.says_form:
        said, remedy = f"{said}: it has to be {remedy}", ""
    if refusal.code in _OF_FORM:
        remedy = both(remedy, _others(row, first))
    return _Said(said, remedy, label, first)


def _of_kind(refusal: Refusal, value: str) -> str:
    """Return what is said of a row whose kind is at fault."""
    if value == "version":
        return f"KIND is 'version': {refusal.said}"
    if not value:
        return "KIND is empty"
    return f"KIND is {quoted(value)}, and there is no such kind of row"


def explained_row(text: Text, record: Record, refusal: Refusal, instead: str = "") -> ExplainedRow:
    """Return what is said of a refused row.

    Parameters
    ----------
    text : Text
        The file.
    record : Record
        The row.
    refusal : Refusal
        Why it is refused.
    instead : str
        What to do about it, if the refusal's own remedy isn't the best.
    """
    is_count = refusal.code == Cause.FIELDS
    if is_count:
        what = _of_count(refusal.row)
    else:
        what = _of_field(refusal, instead or refusal.remedy, record.number)
    number, line, mark = _marked(text, text.fields(record), what, is_count)
    said = what.said + _lines_said(text, record, number)
    for value in refusal.row:
        said = said.replace(repr(value), quoted(value))
    return ExplainedRow(
        file=text.source,
        line=number,
        record=record.number,
        code=refusal.code,
        word=refusal.word,
        sentence=both(f"{cut(shown_bytes(refusal.head))}: {said}", what.remedy),
        column=what.label,
        row=line,
        mark=mark,
    )


def _marked(
    text: Text, fields: list[Field], what: _Said, is_count: bool
) -> tuple[int, str, tuple[int, int]]:
    """Return the line of what is at fault, its text, and where the mark under it goes."""
    first, last = what.first, what.last
    if first is not None and first < len(fields):
        end = first if last is None else min(last, len(fields) - 1)
        return marked_line(text, fields[first], fields[end])
    number, line, mark = marked_line(text, Field(fields[0].begin, fields[-1].end))
    if is_count:  # what is missing comes at the end
        mark = (mark[0] + mark[1], 1)
    return number, line, mark


def _lines_said(text: Text, record: Record, number: int) -> str:
    """Return which lines a row goes over, if it is more than the one that is shown."""
    goes = text.line_at(text.fields(record)[-1].end)
    if number == record.line == goes:
        return ""
    return f"; the row goes from line {record.line} to line {goes}, within double quotes"


def _of_no_kind(row: tuple[str, ...], remedy: str, number: int) -> str:
    """Return what to do about a row of no kind."""
    if number == 1 and row[0].lower() in ("row", "kind", "type", "name", "record"):
        return "this looks like a row of heads: take it out"
    return remedy
