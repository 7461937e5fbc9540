"""What a file is that isn't a session, by its first bytes or its first thousand rows.

A file of another form is told at once: each of its rows would be a refused one, and there may be
millions of them.
"""

from __future__ import annotations

from pathlib import Path

from plantbal import limits
from plantbal.faults import InputFault, Place, read_beginning, read_bytes
from plantbal.records import read_records
from plantbal.schema import schema

_CONVERT = "a plant's workbook becomes a session by plantbal-desk convert; save other sheets as CSV"
_BEGINS = (
    (b"\xff\xfe", "this is UTF-16", 'save it as "CSV UTF-8"'),
    (b"\xfe\xff", "this is UTF-16", 'save it as "CSV UTF-8"'),
    (b"PK\x03\x04", "this is a workbook or another archive", _CONVERT),
    (b"\xd0\xcf\x11\xe0", "this is a workbook", _CONVERT),
    (b"\x1f\x8b", "this is compressed", "unpack it: gzip -d"),
    (b"%PDF", "this is a PDF", "get the sheet that it was printed from, and save it as CSV"),
    (b"{", "these are JSON lines", "a session is CSV: is this an output? Then name its session"),
)
# What may stand between fields in place of commas, and what it is called.
SIGNS = {";": "semicolons", "\t": "tabs", "|": "bars"}


def form_of(data: bytes) -> tuple[str, str] | None:
    """Return what a file is by its first bytes, if it is no CSV, and what to do."""
    for begin, what, remedy in _BEGINS:
        if data.startswith(begin):
            return what, remedy
    head = data[:2000]
    if len(head) > 8 and max(head[::2].count(0), head[1::2].count(0)) > len(head) // 4:
        return "this is UTF-16 without a mark", 'save it as "CSV UTF-8"'
    return None


def sign_between(first: str) -> str:
    """Return the sign that stands between a row's fields in place of commas, or nothing.

    Parameters
    ----------
    first : str
        The first field of the row.
    """
    kinds = {row.kind for row in schema().session}
    return next((s for s in SIGNS if s in first and first.split(s)[0].strip('" ') in kinds), "")


def other_form(source: str, data: bytes) -> InputFault | None:
    """Return the fault of a file of which none of the first rows is of a kind of a session's.

    Parameters
    ----------
    source : str
        What the file is called.
    data : bytes
        Its bytes. A file of fewer rows than `plantbal.limits` has is no matter.
    """
    kinds = {row.kind for row in schema().session}
    sign = ""
    for count, record in enumerate(read_records(data), 1):
        if record.fields[0] in kinds:
            return None
        sign = sign or sign_between(record.fields[0])
        if count == limits.ROWS_OF_ANOTHER_FORM:
            what = f"none of its first {count:,} rows is of a kind that a session has"
            remedy = "a session's rows begin with unit, stream, reading and so on"
            if sign:
                remedy = f"fields have {SIGNS[sign]} between them: save it with commas"
            what, remedy = form_of(data) or (what, remedy)
            return InputFault(what, place=Place(file=source), remedy=remedy)
    return None


def read_session(path: str | Path) -> tuple[str, bytes]:
    """Return how a session is called, and its bytes; ``-`` is standard input.

    Raises
    ------
    InputFault
        If it can't be read, has too many bytes, or is of another form.
    """
    return _judged(*read_bytes(path, limits.SESSION_BYTES))


def session_to_run(path: str | Path) -> tuple[str, bytes]:
    """Return the same of one that is run: of one with too many bytes, so many that it is refused.

    Raises
    ------
    InputFault
        If it can't be read, or is of another form.
    """
    return _judged(*read_beginning(path, limits.SESSION_BYTES + 1))


def _judged(source: str, data: bytes) -> tuple[str, bytes]:
    fault = other_form(source, data)
    if fault is not None:
        raise fault
    return source, data
