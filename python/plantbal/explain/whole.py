"""What is wrong with a file as a whole: its bytes, the signs between its fields, that it asks for nothing."""

from __future__ import annotations

from plantbal.explain.text import WIDEST, Field, Text, marked_line, shown_bytes
from plantbal.explain.told import ExplainedRow
from plantbal.faults import Refusal
from plantbal.forms import SIGNS, form_of, sign_between
from plantbal.model.causes import Cause
from plantbal.records import Record


def whole_file(text: Text, refused: dict[int, Refusal]) -> list[ExplainedRow]:
    """Return what is wrong with a file as a whole; each has the refused rows that it covers under
    it."""

    def _told(sentence: str, line: int = 0) -> ExplainedRow:
        return ExplainedRow(text.source, line, 0, 0, "", sentence)

    kind = form_of(text.data)
    if kind is not None:
        made = _told(f"{kind[0]}; {kind[1]}")
        made.under = [_short(text, record, refused) for record in records_of(text, refused)]
        return [made]
    if text.last is None:
        return [_told("it has no row; write the session's rows into it")]
    found: list[ExplainedRow] = []
    by_sign: dict[str, list[Record]] = {}
    for record in records_of(text, refused):
        refusal = refused[record.number]
        sign = sign_between(refusal.row[0]) if refusal.code == Cause.KIND else ""
        if sign:
            by_sign.setdefault(sign, []).append(record)
    for sign, records in by_sign.items():
        line = records[0].line
        made = _told(
            f"fields have {SIGNS[sign]} between them; save the file with commas between fields",
            line,
        )
        made.row = shown_bytes(text.line(line).replace("\t", " "))[:WIDEST]
        made.under = [_short(text, record, refused) for record in records]
        found.append(made)
    last = text.last
    fields = text.fields(last)
    if not fields[-1].closed:
        number, line_text, mark = marked_line(text, Field(fields[-1].begin, fields[-1].begin + 1))
        made = _told(
            "a double quote opens here and is never closed, so that all after it is one field; "
            "close it, or take it out",
            number,
        )
        made.row, made.mark = line_text, mark
        if last.number in refused:
            made.under = [_short(text, last, refused)]
        found.append(made)
    if not text.is_asked and not by_sign:
        made = _told("it asks for nothing; add a row report,PERIOD after the facts")
        made.asks_nothing = True
        found.append(made)
    return found


def records_of(text: Text, refused: dict[int, Refusal]) -> list[Record]:
    """Return the refused records that are kept, in order."""
    return [text.refused[number] for number in refused]


def _short(text: Text, record: Record, refused: dict[int, Refusal]) -> ExplainedRow:
    refusal = refused[record.number]
    sentence = shown_bytes(f"{refusal.head}: {refusal.said}")
    return ExplainedRow(
        text.source, record.line, record.number, refusal.code, refusal.word, sentence
    )
