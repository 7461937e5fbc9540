"""The library in process, where it is built: the program's bytes, codes of rows, and wrong use."""

from __future__ import annotations

from array import array
from concurrent.futures import ThreadPoolExecutor
from datetime import date
from functools import partial
from pathlib import Path

import pytest

from plantbal import certify, inside, program, solve
from plantbal.faults import ProgramFault

pytest.importorskip("cffi", reason="python3-cffi isn't installed")
from plantbal._looks import (  # noqa: E402
    Counts,
    EditLook,
    EditKind,
    FactLook,
    FactKind,
    Looks,
    Node,
    PeriodLook,
    StreamLook,
    StreamKind,
)
from plantbal._studies import ArrayStudy  # noqa: E402

EXAMPLES = Path(__file__).resolve().parents[2] / "examples"
ROWS = b"unit,A\nunit,A\nfrob\n"
REFUSALS = b"refused,2,7,duplicate\nrefused,3,1,kind\n"

native = pytest.importorskip("plantbal._native", reason="python3-cffi isn't installed")
if not native.is_there():
    pytest.skip("./build library hasn't built it", allow_module_level=True)


def refusal(call: object, *words: object, **named: object) -> int:
    """Return the status of the fault that a call raises."""
    assert callable(call)
    with pytest.raises(ProgramFault) as caught:
        call(*words, **named)
    return caught.value.status


def test_runs_and_checks() -> None:
    """A run and a check give what the examples say, from bytes and from anything with a buffer."""
    for name in ("crude_unit_meters", "badly_typed", "terminal_refused"):
        data = (EXAMPLES / f"{name}.csv").read_bytes()
        wanted = (EXAMPLES / f"{name}.out.csv").read_bytes()
        status = int((EXAMPLES / f"{name}.status").read_text("ascii"))
        assert native.run(data) == (status, wanted), name
        assert native.run(memoryview(bytearray(data))) == (status, wanted), name
    status, text = native.run(b"")
    assert (status, text) == (0, b"")


def test_rows_and_fields() -> None:
    """Rows in a block and by their fields have the same codes, and add the same."""
    with native.NativeSession() as session:
        assert list(session.rows(ROWS)) == [0, 7, 1]
        assert session.output() == REFUSALS
        assert session.output() == b""
        assert session.row([b"unit", b"B"]) == 0
        assert session.row([b"unit", b"B"]) == 7
        assert session.row([]) == 0
        assert list(session.rows(b"")) == []
        assert session.output() == b"refused,5,7,duplicate\n"
    with native.NativeSession() as session:
        codes = [session.row(row.split(b",")) for row in ROWS.splitlines()]
        assert (codes, session.output()) == ([0, 7, 1], REFUSALS)


def test_records() -> None:
    """Rows by their fields in a block have the codes and the output that they have as bytes."""
    rows = [row.split(b",") for row in ROWS.splitlines()]
    with native.NativeSession() as session:
        assert list(session.records(rows)) == [0, 7, 1]
        assert session.output() == REFUSALS
        assert list(session.records([])) == []
        # a row without fields is one that is blank, and a field may hold what a file quotes
        assert list(session.records([[], [b"unit", b"B,C"], [b"unit", b"D"]])) == [0, 3, 0]
        assert session.output() == b"refused,5,3,name\n"
    with native.NativeSession() as session:
        ends = array("Q", [4, 5, 9, 10])
        assert list(session.apart(b"unitAunitB", ends, array("Q", [2, 4]))) == [0, 0]
        cases: list[tuple[str, bytes, list[int], list[int]]] = [
            ("a place beyond the text", b"unitC", [4, 6], [2]),
            ("places that go back", b"unitC", [5, 4], [2]),
            ("more places than there are", b"unitC", [4, 5], [3]),
            ("counts that go back", b"unitC", [4, 5], [2, 1]),
        ]
        for what, text, places, counts in cases:
            call = partial(session.apart, text, array("Q", places), array("Q", counts))
            assert refusal(call) == 2, what
        # what stands before a wrong place is taken
        assert Looks(session).node("C") == 3
    assert refusal(session.records, rows) == 7


def test_graphs_of_periods() -> None:
    """The graph of a period and its names are those of its report."""
    text = (EXAMPLES / "two_meters.out.csv").read_text("ascii")
    report = [row.split(",") for row in text.splitlines()]
    rows = [row for row in report if row[0] == "stream"]
    with native.NativeSession() as session:
        session.rows((EXAMPLES / "two_meters.csv").read_bytes())
        looks = Looks(session)
        graph = looks.graph(0)
        assert graph.nodes == [row[1] for row in report if row[0] == "node"]
        assert graph.names == [row[1] for row in rows]
        assert [(one.grams, one.variance) for one in graph.streams] == [
            (int(row[4]), int(row[5])) for row in rows
        ]
        study = ArrayStudy(len(graph.nodes), graph.streams)
        assert [one.flow for one in study.results()] == [int(row[7]) for row in rows]
        with pytest.raises(IndexError):
            looks.graph(1)
    assert refusal(looks.graph, 0) == 7


def test_classes_of_the_plant() -> None:
    """The classes of the plant are those that its design says."""
    text = (EXAMPLES / "crude_unit_meters.out.csv").read_text("ascii")
    wanted = [row.split(",")[5] for row in text.splitlines() if row.startswith("class,")]
    with native.NativeSession() as session:
        session.rows((EXAMPLES / "crude_unit_meters.csv").read_bytes())
        assert [one.name.lower() for one in Looks(session).classes()] == wanted
        session.close()
        assert refusal(Looks(session).classes) == 7


def test_look_ups() -> None:
    """The book says what the rows said: each value here stands in its row."""
    rows = b"""unit,MILL
tank,SILO,1000000000000
strap,SILO,0,0
strap,SILO,9000,9000000000
stream,ORE,env,MILL,metered,10000000000
period,mar,2024-03-01,2024-03-31
reading,r1,ORE,2024-03-02,-5,10000000000000000000
dip,s1,SILO,2024-03-31,8120,1250000,25000000000000
amend,r1,11,13,read twice
close,mar
"""
    first, last = date(2024, 3, 1), date(2024, 3, 31)
    with native.NativeSession() as session:
        looks = Looks(session)
        assert looks.counts() == Counts(0, 1, 0, 0, 0, 0, 0)
        assert set(session.rows(rows)) == {0}
        assert looks.counts() == Counts(1, 3, 2, 1, 2, 0, 2)
        assert looks.nodes() == [Node("env", False), Node("MILL", False), Node("SILO", True)]
        assert looks.streams() == [
            StreamLook("SILO", StreamKind.TANK, 2, 0, 10**12, None),
            StreamLook("ORE", StreamKind.METERED, 0, 1, 10**10, None),
        ]
        assert looks.periods() == [PeriodLook("mar", first, last, True)]
        day = date(2024, 3, 2)
        assert looks.facts() == [
            FactLook("r1", "ORE", FactKind.READING, False, day, day, 11, 0, 13),
            FactLook("s1", "SILO", FactKind.DIP, False, last, last, 8120, 1250000, 25 * 10**12),
        ]
        assert looks.edits() == [
            EditLook(9, EditKind.AMEND, "r1", "read twice", 11, 0, 13),
            EditLook(10, EditKind.CLOSE, "mar", "", 0, 0, 0),
        ]
        assert (looks.node("SILO"), looks.stream("ORE"), looks.period("apr")) == (2, 1, None)
        assert (looks.fact("s1"), looks.fact("s2"), looks.node("no name")) == (1, None, None)
        assert looks.fact_touches(0, 0) and looks.edit_touches(1, 0)
        with pytest.raises(IndexError):
            looks.fact_touches(2, 0)
    assert refusal(looks.counts) == 7


def test_made_sessions() -> None:
    """What is made is what the program makes, and its limits are the program's."""
    made = native.make(3, 40)
    assert program.call(["make", "--number", "3", "--streams", "40"], b"") == (0, made)
    assert native.run(made)[0] == 0
    for number, streams in ((-1, 40), (3, 2), (3, 2001)):
        assert refusal(native.make, number, streams) == 2, streams


def test_wrong_use() -> None:
    """A closed session and numbers outside their limits are refused, and close twice does nothing."""
    session = native.NativeSession()
    session.close()
    session.close()
    cases: list[tuple[str, object, int]] = [
        ("rows of a closed session", lambda: session.rows(ROWS), 7),
        ("a row of a closed session", lambda: session.row([b"unit", b"A"]), 7),
        ("output of a closed session", session.output, 7),
        ("no gap", lambda: native.run(ROWS, gap=0), 2),
        ("a gap below 0", lambda: native.run(ROWS, gap=-1), 2),
        ("too many rounds", lambda: native.NativeSession(eliminate=21), 2),
        ("a number beyond 32 bits", lambda: native.NativeSession(sweeps=2**40), 2),
    ]
    for what, call, status in cases:
        assert refusal(call) == status, what


def test_threads() -> None:
    """Threads with sessions of their own come to the same output."""
    data = (EXAMPLES / "refinery_day.csv").read_bytes()
    wanted = native.run(data)
    with ThreadPoolExecutor(4) as pool:
        answers = list(pool.map(native.run, [data] * 8))
    assert all(answer == wanted for answer in answers)


def test_in_place_of_the_program(monkeypatch: pytest.MonkeyPatch) -> None:
    """A run and a check take the library unless a program or a limit is named."""
    monkeypatch.delenv("PLANTBAL", raising=False)
    monkeypatch.setattr(program, "find_program", lambda named=None: pytest.fail("a start"))
    words = program.words_of(tests=True, eliminate=2, gap=10, sweeps=500)
    assert program.call(words, ROWS) == (1, REFUSALS)
    assert program.call(["check"], b"") == native.check(b"")
    assert inside.answer(["make"], b"") is None
    assert inside.answer(["run", "--gap", "x"], b"") is None
    assert inside.answer(["run", "--format", "json"], b"frob\n") == native.run(b"frob\n", json=True)


def test_certify_in_place_of_the_program(monkeypatch: pytest.MonkeyPatch) -> None:
    """Figures are certified in this process unless a program is named, with the same bytes."""
    path = EXAMPLES / "two_meters.csv"
    flows = {"A": 101000000, "B": 101000000}
    outside = certify(path, flows, unit="grams", program=program.find_program())
    solved = solve(path, program=program.find_program())
    monkeypatch.delenv("PLANTBAL", raising=False)
    monkeypatch.setattr(program, "find_program", lambda named=None: pytest.fail("a start"))
    monkeypatch.setattr(program, "OWN", Path("/nowhere"))
    inside_this = certify(path, flows, unit="grams")
    assert inside_this.to_csv() == outside.to_csv()
    assert solve(path).to_csv() == solved.to_csv()
