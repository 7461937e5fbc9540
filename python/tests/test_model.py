"""The model of a session: its causes, reasons, words and effects, and what the program answers."""

from __future__ import annotations

from pathlib import Path

import pytest
from compare_sessions import differing, of_model
from sessions import session_of

from plantbal import Session
from plantbal.model.causes import Cause, Reason, Refused
from plantbal.model.facts import At
from plantbal.model.file import Rows, rows_of, steps
from plantbal.model.forms import ASKS, REASONED
from plantbal.model.ledger import Ledger
from plantbal.model.remedies import _DO, _FORMS, _REMEDIES
from plantbal.model.state import EFFECTS, Accepted, State
from plantbal.model.words import _SAID, _SAYS
from plantbal.records import read_records
from plantbal.schema import schema


def test_causes_are_the_codes_of_the_program() -> None:
    """Each code of the schema is a cause, with the same word."""
    codes = {code.code: code.word for code in schema().refusals.values()}
    assert {int(cause): cause.word for cause in Cause} == codes
    assert {reason.cause for reason in Reason} == set(Cause), "each cause has a reason"


def test_each_reason_has_words() -> None:
    """Each reason has one sentence and one remedy."""
    for reason in Reason:
        said = (reason in _SAID) + (reason in _SAYS)
        done = (reason in _DO) + (reason in _FORMS) + (reason in _REMEDIES)
        assert (said, done) == (1, 1), reason


def test_each_kind_has_an_effect() -> None:
    """Each kind of row of the schema has an effect."""
    assert set(EFFECTS) == {row.kind for row in schema().session}


def test_what_asks_is_not_stored() -> None:
    """The rows that ask for output are those whose effects say so."""
    asks: dict[str, bool] = {}
    for number in range(150):
        for step in steps(State(), session_of(number)):
            if (
                not isinstance(step, Rows)
                and isinstance(step.answer, Accepted)
                and any(step.fields)
            ):
                asks[step.fields[0]] = step.answer.effect.asks
    assert {kind for kind, each in asks.items() if each} == set(ASKS)


def test_rows_with_a_reason() -> None:
    """The rows whose reasons a book writes in plain letters are those that end with one."""
    assert REASONED == {"amend", "strike"}


def test_program_says_the_same(program: Path) -> None:
    """Random sessions are refused, closed and edited as the program has it."""
    assert list(differing(program, range(150))) == []


def test_rows_of_a_file_are_its_records() -> None:
    """Rows in runs are those that are read one by one, with their numbers and lines."""
    reading = b"reading,a,S,2024-01-01,1,1\n"
    tries = [session_of(n) for n in range(40)]
    tries += [b"", b"\n\n", reading * 3, b"\xef\xbb\xbf" + reading, b'"unit",U\n\n' + reading * 2]
    tries += [
        reading + b"\n" + reading,
        reading * 3 + b'unit,"V\nW"\n' + reading,
        b"unit,U\runit,V",
    ]
    for data in tries:
        found = [
            (part.record + number, part.lines[number], tuple(row))
            for part in rows_of(data)
            for number, row in enumerate(part.rows)
        ]
        wanted = [(each.number, each.line, each.fields) for each in read_records(data)]
        assert found == wanted, data


PLANT = b"""unit,U
stream,S,env,U,metered,5
stream,R,env,U,metered,5
stream,P,env,U,plain,0
period,p,2024-01-01,2024-01-31
"""
# Readings of which one is refused, or all are accepted.
RUNS = [
    ["a,S,2024-01-01,1,1", "b,R,2024-01-01,1,1"],
    ["a,S,2024-01-01,1,1", "a,R,2024-01-01,1,1"],
    ["a,S,2024-01-01,1,1", "b,S,2024-01-01,1,1"],
    ["a,S,2024-01-01,1,1", "b,P,2024-01-01,1,1"],
    ["a,S,2024-01-01,1,1", ",S,2024-01-02,1,1"],
    ["a,S,2024-01-01,1,1", "b,S,2024-01-02,,1"],
    ["a,S,2024-01-01,1,1", "b,S,2024-01-02,1,-1"],
    ["a,S,2024-01-01,1,1", "b,S,2024-02-30,1,1"],
    ["a,S,2024-01-01,1,1", '"b\nc",S,2024-01-02,1,1'],
    ["a,S,2024-01-01,1,1", 'b,S,2024-01-02,"1\n2",1'],
]


@pytest.mark.parametrize("rows", RUNS, ids=[rows[1] for rows in RUNS])
def test_runs_are_judged_as_rows(rows: list[str]) -> None:
    """A run of readings is accepted and refused as its rows one by one."""
    data = PLANT + "".join(f"reading,{row}\n" for row in rows).encode()
    one, other = State(), State()
    at_once = [step for step in steps(one, data) if not isinstance(step, Rows)]
    causes = [step.answer.cause for step in at_once if isinstance(step.answer, Refused)]
    answers = [other.after(each.fields, At(each.number, each.line)) for each in read_records(data)]
    assert causes == [each.cause for each in answers if isinstance(each, Refused)]
    assert list(one.facts) == list(other.facts)


def test_a_fact_keeps_its_lines_and_edits() -> None:
    """A fact has the lines that booked, gave and touched it; its edits what it was and became."""
    rows = ["reading,a,S,2024-01-01,5,1", "amend,a,7,2,drift", "strike,a,wrong meter", "close,p"]
    state = State()
    for step in steps(
        state, PLANT + "\n".join([*rows, "late,reading,b,S,2024-01-01,1,1"]).encode()
    ):
        assert isinstance(step, Rows) or isinstance(step.answer, Accepted), step
    fact = state.facts.find("a")
    assert fact is not None
    assert (fact.booked, fact.line, fact.changed, fact.struck) == (6, 7, 8, True)
    said = [
        (edit.word, edit.before and edit.before.grams, edit.after and edit.after.grams, edit.reason)
        for edit in state.edits
    ]
    assert said == [
        ("amend", 5, 7, "drift"),
        ("strike", 7, None, "wrong meter"),
        ("close", None, None, ""),
        ("late", None, 1, ""),
    ]


# Rows that clash, and the line of the row with which the last one does.
CLASHES = [
    (["unit,U"], 1),
    (["period,p,2025-01-01,2025-01-01"], 5),
    (["period,q,2024-01-31,2024-02-01"], 5),
    (["critical,nodal,1", "critical,nodal,2"], 6),
    (["reading,a,S,2024-01-01,1,1", "reading,a,S,2024-01-02,1,1"], 6),
    (["reading,a,S,2024-01-01,1,1", "amend,a,1,1,x", "reading,b,S,2024-01-01,1,1"], 6),
    (["assay,cu,S,p,1,1", "assay,cu,S,p,1,1"], 6),
    (["close,p", "close,p"], 6),
]


@pytest.mark.parametrize("rows, line", CLASHES, ids=[rows[-1] for rows, _ in CLASHES])
def test_what_a_row_clashes_with(rows: list[str], line: int) -> None:
    *before, last = steps(State(), PLANT + "\n".join(rows).encode())
    assert all(isinstance(step, Rows) or isinstance(step.answer, Accepted) for step in before)
    assert not isinstance(last, Rows) and isinstance(last.answer, Refused), "the last is refused"
    assert last.answer.clash == line


def test_a_session_says_the_rule() -> None:
    """A `Session` refuses the rows that the model refuses, and says by which rule."""
    session = Session(strict=False)
    session.take("here", session_of(7))
    wanted = [int(row[1]) for row in of_model(session_of(7)) if row[0] == "refused"]
    assert [each.place.record for each in session.refused] == wanted
    assert all(isinstance(each.refused.reason, Reason) for each in session.refused)


def test_what_a_report_saw() -> None:
    """A report keeps what it saw; one after it shares the view if nothing was stored between."""
    rows = ["reading,a,S,2024-01-01,5,1", "report,p", "report,p", "amend,a,7,2,drift", "report,p"]
    ledger = Ledger("here", PLANT + "\n".join(rows).encode())
    grams = [[fact.grams for fact in seen.view.facts["S"]] for seen in ledger.seen]
    assert grams == [[5], [5], [7]], "the amendment is seen after it alone"
    first, second, third = ledger.seen
    assert first.view is second.view and second.view is not third.view
    assert len(first.view.missing["S"]) == 30 and len(first.view.missing["R"]) == 31
    assert [edit.word for edit in ledger.edits_of("p")] == ["amend"]
