"""The explanation of a session: its refused rows, each with those that follow from it."""

from __future__ import annotations

from pathlib import Path

from plantbal import limits
from plantbal.explain.roots import DeclaringLines, Roots
from plantbal.explain.rows import explained_row
from plantbal.explain.text import Text
from plantbal.explain.told import ExplainedRow, Explanation
from plantbal.explain.whole import records_of, whole_file
from plantbal.faults import read_bytes
from plantbal.forms import other_form
from plantbal.model.causes import Cause
from plantbal.schema import schema
from plantbal.session import Session


def explain_bytes(source: str, data: bytes, *, whole: bool = True) -> Explanation:
    """Return what is wrong with a session.

    Parameters
    ----------
    source : str
        What it is called.
    data : bytes
        The session.
    whole : bool
        Whether what is wrong with the whole file is said too.
    """
    if len(data) > schema().limits["most_bytes"]:
        large = ExplainedRow(source, 0, 0, 0, "", "it has more than 67,108,864 bytes; split it")
        return Explanation([large], [], 0)
    other = other_form(source, data)
    if other is not None:
        return Explanation(
            [ExplainedRow(source, 0, 0, 0, "", f"{other.what}; {other.remedy}")], [], 0
        )
    text = Text(source, data)
    session = Session(strict=False, kept=limits.REFUSED_KEPT)
    session.take(source, data)
    refused = {refusal.place.record or 0: refusal for refusal in session.refused}
    text.read(refused)
    faults = whole_file(text, refused) if whole else []
    covered = {told.record for fault in faults for told in fault.under}
    declared, roots, rows = DeclaringLines(text, refused.values()), Roots(), list[ExplainedRow]()
    for record in records_of(text, refused):
        if record.number in covered:
            continue
        refusal = refused[record.number]
        told = explained_row(text, record, refusal, declared.instead(record, refusal))
        cause = roots.cause(refusal)
        if cause is not None:
            cause.under.append(told)
        else:
            rows.append(told)
        if refusal.code != Cause.DUPLICATE:  # otherwise nothing misses the name
            roots.add(refusal.row, cause or told)
    return Explanation(faults, rows, session.refused.total, session.refused)


def explain(session: str | Path) -> Explanation:
    """Return what is wrong with the session of a file; ``-`` is standard input."""
    return explain_bytes(*read_bytes(session, limits.SESSION_BYTES))
