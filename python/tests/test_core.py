"""The proved core answers the rows of a session, and what it says holds."""

from __future__ import annotations

from collections.abc import Iterable, Iterator
from functools import partial

import pytest
from hypothesis import given, settings
from hypothesis import strategies as st
from sessions import session_of

from plantbal import Session
from plantbal.faults import ModelFault, Refusal
from plantbal.model.causes import Cause, Reason, Refused
from plantbal.model.core import Core, installed_core
from plantbal.model.file import Rows, steps
from plantbal.model.ledger import Ledger
from plantbal.model.state import State
from plantbal.model.words import refusal_of


class Double:
    """A core by the rules of the package, which lies about some rows.

    Parameters
    ----------
    lies : dict of str to int
        The code of a row, by its text.
    """

    def __init__(self, lies: dict[str, int] | None = None) -> None:
        self.lies = lies or {}
        self.asked: list[str] = []
        self._state = State()

    def row(self, fields: Iterable[bytes]) -> int:
        """Take a row, and return its code."""
        texts = tuple(field.decode("utf-8", "surrogatepass") for field in fields)
        self.asked.append(",".join(texts))
        answer = self._state.after(texts)
        own = int(answer.cause) if isinstance(answer, Refused) else 0
        return self.lies.get(self.asked[-1], own)

    def rows(self, data: bytes) -> bytes:
        """Take lines without quotes, and return their codes."""
        return self.records(line.split(b",") for line in data.removesuffix(b"\n").split(b"\n"))

    def records(self, records: Iterable[Iterable[bytes]]) -> bytes:
        """Take rows, and return their codes."""
        return bytes(map(self.row, records))

    def output(self) -> bytes:
        """Return nothing."""
        return b""


def answered(data: bytes, core: Core | None) -> list[tuple[object, ...]]:
    """Return the answers to the rows of a session, and what it is in the end."""
    state, found = State(core), []
    for step in steps(state, data):
        if isinstance(step, Rows):
            found += [(step.record + n, 0, None) for n in range(len(step.rows))]
        elif isinstance(step.answer, Refused):
            refusal = refusal_of(state, step.fields, step.answer)
            found.append((step.at.record, int(step.answer.cause), str(refusal)))
        else:
            found.append((step.at.record, 0, None))
    end = list(state.facts), state.edits, state.assays, vars(state.plant), vars(state.periods)
    return [*found, (str(end), state.version, state.stored)]


def cores() -> Iterator[Core]:
    """Give a core by the rules of the package, and that of the library if it is there."""
    yield Double()
    core = installed_core()
    if core is not None:
        yield core


@settings(max_examples=60, deadline=None)
@given(st.integers(0, 10**6), st.sampled_from([b"", b'"unit",Q\n', b"\n"]))
def test_both_ways_give_the_same(number: int, first: bytes) -> None:
    """The core and the rules of the package answer each row alike, and the sessions are the same."""
    data = first + session_of(number)
    wanted = answered(data, None)
    for core in cores():
        assert answered(data, core) == wanted, core


PLANT = b"""unit,U
stream,S,env,U,metered,5
stream,P,env,U,plain,0
period,p,2024-01-01,2024-01-31
"""
RUN = [f"reading,r{n},S,2024-01-{n:02d},{n},1" for n in range(1, 31)]
# Rows of which some are refused, others not, in forms that a run has to be cut at.
RUNS: dict[str, list[str]] = {
    "all": RUN,
    "one of another stream": [*RUN[:20], "reading,x,P,2024-01-31,1,1", *RUN[20:]],
    "one with commas after it": [*RUN[:20], RUN[20] + ",,", *RUN[21:]],
    "one with a field more": [*RUN[:20], RUN[20] + ",x", *RUN[21:]],
    "an id again": [*RUN, RUN[3]],
    "a day again": [*RUN, "reading,y,S,2024-01-07,1,1"],
    "no day": [*RUN, "reading,y,S,2024-01-32,1,1", "reading,z,S,2024-01-31,01,1"],
    "every other one": [each for row in RUN for each in (row, row)],
    "after a close": ["close,p", *RUN],
}


@pytest.mark.parametrize("what", RUNS)
def test_runs_are_cut_where_rows_are_refused(what: str) -> None:
    """A run is taken in pieces as its rows are one by one, whoever answers."""
    data = PLANT + "\n".join(RUNS[what]).encode()
    quoted = data.replace(b"unit,U", b'"unit",U')
    wanted = answered(data, None)
    one = State()
    codes = [one.after(tuple(line.split(","))) for line in data.decode().splitlines()]
    assert [each[1] for each in wanted[:-1]] == [
        int(each.cause) if isinstance(each, Refused) else 0 for each in codes
    ]
    assert answered(quoted, None) == wanted
    for text in (data, quoted):
        for core in cores():
            assert answered(text, core) == wanted


def test_each_row_is_asked_once(monkeypatch: pytest.MonkeyPatch) -> None:
    """A `Session` asks for each row as it comes, and in strict ones what follows isn't taken."""
    made: list[Double] = []

    def core() -> Double:
        made.append(Double())
        return made[-1]

    monkeypatch.setattr("plantbal.session.rows.installed_core", core)
    session = Session(strict=False)
    session.unit("U")
    session.take("here", b"unit,U\nperiod,p,2024-01-01,2024-01-31\nreport,p\n")
    assert made[0].asked == ["unit,U", "unit,U", "period,p,2024-01-01,2024-01-31", "history,p"]
    strict = Session()
    with pytest.raises(Refusal):
        strict.take("here", b"unit,A\nunit,A\nunit,B\n")
    strict.unit("B")
    assert [row[1] for row in strict] == ["A", "B"]
    assert made[-1].asked == ["unit,A", "unit,B"], "it is asked again without the rest"


def test_a_core_that_refuses_more_holds() -> None:
    """What the core alone refuses is refused, and it is said that the package doesn't know why."""
    cases = {"unit,V": (7, "accept it"), "tank,U,1": (12, "refuse it with 7, duplicate")}
    for row, (code, said) in cases.items():
        state = State(Double({row: code}))
        *_, last = steps(state, PLANT + row.encode())
        assert not isinstance(last, Rows) and isinstance(last.answer, Refused)
        assert (last.answer.reason, last.answer.cause) == (Reason.CORE_ALONE, Cause(code))
        refusal = refusal_of(state, last.fields, last.answer)
        assert refusal.code == code and said in str(refusal) and "report this row" in refusal.remedy
        assert list(state.plant.nodes) == ["U"]
    # in a run of readings too, whose other rows are taken
    lie = {RUN[11]: 9}
    ledger = State(Double(lie))
    found = [step for step in steps(ledger, PLANT + "\n".join(RUN).encode())]
    refused = [each for each in found if not isinstance(each, Rows) and each.effect is None]
    assert [step.answer.cause for step in refused if isinstance(step.answer, Refused)] == [9]
    assert [fact.id for fact in ledger.facts] == [f"r{n}" for n in range(1, 31) if n != 12]


def test_a_core_that_refuses_less_is_told() -> None:
    """What the core alone accepts stops everything, with the row."""
    state = State(Double({"tank,U,1": 0}))
    with pytest.raises(ModelFault, match="line 5.*tank,U,1, and.*refuse it with 7, duplicate"):
        list(steps(state, PLANT + b"tank,U,1\n"))
    for what, row in {
        "an id again": "reading,r1,S,2024-01-31,1,1",
        "a day again": "reading,y,S,2024-01-01,1,1",
        "no day": "reading,y,S,2024-01-32,1,1",
        "no number": "reading,y,S,2024-01-31,1,-1",
        "a plain stream": "reading,y,P,2024-01-31,1,1",
        "no stream": "reading,y,Q,2024-01-31,1,1",
        "a field more": "reading,y,S,2024-01-31,1,1,1",
    }.items():
        state = State(Double({row: 0}))
        list(steps(state, PLANT + "\n".join([*RUN, row, ""]).encode()))
        assert len(state.facts) == 31
        for _ in range(2):
            with pytest.raises(ModelFault, match=f"line 35.*{row}"):
                list(state.facts), what


def test_refused_rows_beyond_the_limit_are_counted(monkeypatch: pytest.MonkeyPatch) -> None:
    """Of refused rows that nothing more is said of the code alone is kept, whoever answers."""
    data = PLANT + b"\n".join([b"unit,U", b"period,p,x,y"] * 3)
    found = []
    for core in (None, Double()):
        monkeypatch.setattr("plantbal.model.ledger.installed_core", lambda core=core: core)
        ledger = Ledger("here", data, kept=2)
        found.append((list(ledger.refused.pairs()), len(ledger.refused), ledger.rows))
    refused = [(number, 7 if number % 2 else 5) for number in range(5, 11)]
    assert found == [(refused, 2, 10)] * 2


def test_fields_of_any_text() -> None:
    """A field is handed over as it is, whatever stands in it."""
    for text in ("Ö", "\ud800", "a\nb", "a,b", '"', "x" * 33, ""):
        for core in cores():
            answers = [State(each).after(("unit", text)) for each in (None, core)]
            assert len({answer.cause for answer in answers if isinstance(answer, Refused)}) <= 1
            assert len({type(answer) for answer in answers}) == 1, text
    assert partial(State, None)().core is None
