"""Anybody's figures, certified: by hand, by numpy's least squares, and what isn't handed out."""

from __future__ import annotations

import pickle
from decimal import Decimal
from pathlib import Path
from typing import Any

import numpy
import pandas
import pytest
from conftest import example, session_of
from hypothesis import HealthCheck, given, settings
from hypothesis import strategies as st
from test_foreign import line

from plantbal import Session, Uncertified, certify, check, run, solve
from plantbal.faults import Fault, InputFault
from plantbal.study.solver import EngineTask

TONNE = 10**6
# Two meters in a row, 100 t and 104 t, each with a standard deviation of 1 t: 102 t flow, and the
# multiplier of the unit is 2 per tonne, since 102 = 100 + 1 * (2 - 0) = 104 + 1 * (0 - 2).
TWO = """unit,U
stream,A,env,U,metered,1
stream,B,U,env,metered,1
period,d,2024-01-01,2024-01-01
reading,a,A,2024-01-01,100000000,1000000000000
reading,b,B,2024-01-01,104000000,1000000000000
report,d"""
# The same on the next day, of 1 t more.
NEXT = """period,e,2024-01-02,2024-01-02
reading,c,A,2024-01-02,101000000,1000000000000
reading,f,B,2024-01-02,105000000,1000000000000
report,e"""
GRAMS = {"unit": "grams"}


@pytest.mark.parametrize(
    "flows, multipliers, how",
    [
        ({"A": 102, "B": 102}, None, {}),
        ({"A": 102.0, "B": Decimal("102")}, None, {}),
        ({"A": "102", "B": 102.0000001}, None, {}),
        (pandas.Series({"A": 102.0, "B": 102.0}), None, {}),
        (pandas.Series({"A": 102, "B": 102}, dtype="Int64"), None, {}),
        ({"d": {"A": 102, "B": 102}}, None, {}),
        (pandas.DataFrame({"d": [102.0, 102.0]}, index=["A", "B"]), None, {}),
        ([{"A": 102, "B": 102}], None, {}),
        ({"A": 102, "B": 102, "OUT_OF_SERVICE": float("nan"), "GONE": None}, None, {}),
        ({"A": 102 * TONNE, "B": numpy.int64(102 * TONNE)}, None, GRAMS),
        ({"A": 102, "B": 102}, {"U": 2}, {}),
        ({"A": 102, "B": 102}, {"U": 1.5, "env": -0.5}, {}),
        ({"A": 102, "B": 102}, pandas.Series({"U": 2.0}), {}),
        ({"A": 102 * TONNE, "B": 102 * TONNE}, {"U": 2e-6}, GRAMS),
    ],
)
def test_by_hand(program: Path, flows: Any, multipliers: Any, how: dict[str, Any]) -> None:
    output = certify(session_of(TWO), flows, multipliers, program=program, **how)
    assert output.require().streams["flow"].tolist() == [102 * TONNE, 102 * TONNE]
    assert output.solved[["state", "low", "high"]].values.tolist() == [["converged", 7999, 8000]]
    assert check(output, program=program)["verdict"].tolist() == ["yes"]


@pytest.mark.parametrize(
    "flows",
    [
        {"d": {"A": 102, "B": 102}, "e": {"A": 103, "B": 103}},
        [{"A": 102, "B": 102}, {"A": 103, "B": 103}],
        pandas.DataFrame({"e": [103, 103], "d": [102, 102]}, index=["A", "B"]),
    ],
)
def test_several_reports(program: Path, flows: Any) -> None:
    output = certify(session_of(f"{TWO}\n{NEXT}"), flows, program=program)
    assert output.streams["flow"].tolist() == [102 * TONNE, 102 * TONNE, 103 * TONNE, 103 * TONNE]


# Away from 102 t by one standard deviation each, figures are the root of 2 from the solution.
@pytest.mark.parametrize(
    "flows, multipliers, test, said",
    [
        ({"A": 102, "B": 102.1}, None, "balance", "don't balance: A is given as 102.000000 t, and"),
        ({"A": 103, "B": 103}, None, "gap", "up to 1,415 thousandths .* and 10 are allowed"),
        ({"A": 102, "B": 102}, {"U": -2}, "gap", "check their sign and unit: flow = value"),
        ({"A": 102, "B": 102}, {"U": 2e6}, "gap", "or leave the multipliers out"),
        ({"A": 1e300, "B": 1e300}, None, "gap", "thousandths"),
    ],
)
def test_uncertified(program: Path, flows: Any, multipliers: Any, test: str, said: str) -> None:
    with pytest.raises(Uncertified, match=said) as raised:
        certify(session_of(TWO), flows, multipliers, program=program)
    again = pickle.loads(pickle.dumps(raised.value))
    assert (again.subject, again.test, str(again)) == ("d", test, str(raised.value))
    assert again.as_dict()["test"] == test


@pytest.mark.parametrize(
    "flows, multipliers, how, said",
    [
        ({"A": 102}, None, {}, "flows: row d: there is no flow of B"),
        ({"A": 102, "B": float("nan")}, None, {}, "there is no flow of B"),
        (
            {"A": 102, "B": float("inf")},
            None,
            {},
            "flows: row d, B: it is inf, which isn't a number",
        ),
        ({"A": 102, "B": True}, None, {}, "row d, B: it is True, of type bool"),
        ({"A": 102, "B": "x"}, None, {}, "row d, B: it is 'x', which isn't a number"),
        ({"A": 102, "B": 102, "C": 1}, None, {}, "row d, C: there is no stream of this name"),
        ({"A": 102, "B": 102}, {"V": 1}, {}, "multipliers: row d, V: there is no node"),
        ({"A": 102, "B": 102}, {}, {}, "multipliers: row d: there is no multiplier of U"),
        ({"A": 102, "B": 102}, None, {"unit": "kg"}, "no unit 'kg' of figures: use 'tonnes' or"),
        (102, None, {}, "flows is of type int: give a mapping, a Series or a DataFrame"),
        ([], None, {}, "figures of 0 reports, and the session has 1"),
        ({"e": {"A": 102, "B": 102}}, None, {}, "there are no figures of d"),
    ],
)
def test_faults(flows: Any, multipliers: Any, how: dict[str, Any], said: str) -> None:
    with pytest.raises(InputFault, match=said):
        certify(session_of(TWO), flows, multipliers, **how)


def test_component() -> None:
    with pytest.raises(Fault, match="leave the component rows out"):
        certify(example("flotation_copper.csv"), {})


def by_lstsq(task: EngineTask, with_multipliers: bool) -> Any:
    """Solve a task by numpy: minimise half the weighted squares, subject to the balances."""
    streams, nodes = task.streams, list(task.nodes[1:])
    balance = numpy.zeros((len(nodes), len(streams)))
    for j, (one, other) in enumerate(zip(streams["from"], streams["to"])):
        for node, sign in ((one, -1), (other, 1)):
            if node != "env":
                balance[nodes.index(node), j] += sign
    there = streams["value"].notna().to_numpy()
    value = streams["value"].fillna(0).to_numpy(float)
    weight = numpy.where(there, 1e12 / streams["variance"].fillna(1).to_numpy(float), 0)
    # of d/df (sum weight (f - v)^2 / 2 - m . balance f): flow = value + variance (m_to - m_from)
    zero = numpy.zeros((len(nodes), len(nodes)))
    system = numpy.block([[numpy.diag(weight), -balance.T], [balance, zero]])
    right = numpy.concatenate([weight * value, numpy.zeros(len(nodes))])
    found = numpy.linalg.lstsq(system, right, rcond=None)[0]
    flows = dict(zip(streams["name"], found))
    return (flows, dict(zip(nodes, found[len(streams) :] / 1e12))) if with_multipliers else flows


@settings(max_examples=20, deadline=None, suppress_health_check=list(HealthCheck))
@given(data=st.data())
def test_engine(program: Path, data: st.DataObject) -> None:
    """Random plants by numpy's least squares, with its multipliers and without them."""
    nodes = ["env", *(f"U{i}" for i in range(data.draw(st.integers(1, 5))))]
    session = Session()
    for node in nodes[1:]:
        session.unit(node)
    session.period("d", "2024-01-01", "2024-01-01")
    for i in range(data.draw(st.integers(1, 12))):
        pair = st.lists(st.sampled_from(nodes), min_size=2, max_size=2, unique=True)
        one, other = data.draw(pair)
        if data.draw(st.booleans()):
            session.stream(f"S{i}", one, other, variance=10 ** data.draw(st.integers(10, 14)))
            grams = data.draw(st.integers(-(10**9), 10**9))
            session.reading(f"r{i}", f"S{i}", "2024-01-01", grams=grams, variance=0)
        else:
            session.stream(f"S{i}", one, other, "plain")
    session.report("d")
    wanted = solve(session, program=program)
    for with_multipliers in (False, True):
        output = solve(session, lambda task: by_lstsq(task, with_multipliers), program=program)
        assert output.blocks["state"].tolist() == ["converged"]
        both = output.streams["flow"] - wanted.streams["flow"]
        determined = output.streams["class"] != "unobservable"
        assert (both[determined].abs() <= 1000).all()  # a gap of 0.01 of 100 kg or more


@pytest.mark.parametrize("answer", [None, 3, ({"A": 1}, 2)])
def test_no_answer(program: Path, answer: Any) -> None:
    with pytest.raises(InputFault, match="the engine returns a"):
        solve(session_of(TWO), lambda task: answer, program=program)


def ring(units: int) -> Session:
    """Units in a ring with equal meters, and a chord from each to the one after the next."""
    session = Session()
    for i in range(units):
        session.unit(f"U{i}")
    for i in range(units):
        session.stream(f"R{i}", f"U{i}", f"U{(i + 1) % units}", variance=10**12)
        end = f"U{(i + 2) % units}" if i else "env"
        session.stream(f"C{i}", f"U{i}", end, variance=10**12)
    session.period("d", "2024-01-01", "2024-01-01")
    for i in range(units):
        session.reading(f"r{i}", f"R{i}", "2024-01-01", tonnes=1000 + i % 500, variance=0)
        session.reading(f"c{i}", f"C{i}", "2024-01-01", tonnes=500 - i % 500, variance=0)
    session.report("d")
    return session


def test_fallback(program: Path) -> None:
    """What isn't converged is solved and certified; what is converged stays as it is."""
    session = line(100)
    swept = run(session, sweeps=50, program=program)
    assert swept.why == ["d isn't converged after 50 sweeps (plantbal.solve needs none)"]
    found = run(session, fallback="scipy", sweeps=50, program=program)
    assert found.require() == solve(session, sweeps=50, program=program) != swept
    day = example("refinery_day.csv")
    assert run(day, fallback="scipy", program=program) == run(day, program=program)


def test_fallback_of_one_report(program: Path) -> None:
    """Of two reports the one that isn't converged is solved; the other keeps its bytes."""
    rows = line(100).to_csv() + "period,e,2024-01-02,2024-01-02\nreport,e\n"
    swept = run(rows.encode(), sweeps=50, program=program)
    assert swept.blocks["state"].tolist() == ["unconverged", "converged"]
    found = run(rows.encode(), fallback="scipy", sweeps=50, program=program)
    assert found.blocks["state"].tolist() == ["converged", "converged"]
    begin = [row["row"] for row in found.rows].index("end")
    kept = [row["row"] for row in swept.rows].index("end")
    assert found.rows[begin:] == swept.rows[kept:]


@pytest.mark.parametrize(
    "how, said",
    [
        ({"fallback": "cvxpy"}, "there is no engine 'cvxpy': use 'scipy'"),
        ({"fallback": "scipy", "eliminate": 1}, "elimination needs the program's own solver"),
    ],
)
def test_no_fallback(how: dict[str, Any], said: str) -> None:
    with pytest.raises(InputFault, match=said):
        run(session_of(TWO), **how)


def test_ring(program: Path) -> None:
    """2,000 streams that sweeps don't bring near (5,000 don't either) are certified at once."""
    session = ring(1000)
    how = {"sweeps": 50, "tests": False, "program": program}
    assert run(session, **how).blocks["state"].tolist() == ["unconverged"]
    output = run(session, fallback="scipy", **how)
    assert output.blocks[["state", "k"]].values.tolist() == [["converged", 0]]
    assert output.ok, output.why
