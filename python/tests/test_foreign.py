"""Another program's report, and solutions by scipy: what balances and fits gets the check's yes."""

from __future__ import annotations

import re
from pathlib import Path

import pytest
from conftest import TOP, Desk, example, text_of, words_of
from hypothesis import HealthCheck, given, settings
from hypothesis import strategies as st

from plantbal import Output, Session, check, read_report, run, solve
from plantbal.faults import Fault
from plantbal.program import call
from plantbal.report.output import parse_report
from plantbal.study.plant import NumberedPlant
from plantbal.study.uncertified import Uncertified

NAMES = ["heat_exchanger", "refinery_day", "badly_typed", "concentrator/session"]
HEAT = example("heat_exchanger.out.csv")


def within(output: Output, foreign: Output) -> list[str]:
    """What is wrong with a report beside plantbal's: a flow outside a bound, a node out of balance."""
    bounds = output.streams[output.streams["block"] == 0].set_index("name")
    found, net = [], {}
    for _, row in foreign.streams.iterrows():
        own = bounds.loc[row["name"]]
        if row["class"] != "unobservable":
            if not own["lo"] <= row["flow"] <= own["hi"]:
                found.append(f"outside: {row['name']}")
            if not own["least_lo"] <= row["flow"] <= own["least_hi"]:
                found.append(f"outside least: {row['name']}")
        net[row["from"]] = net.get(row["from"], 0) - row["flow"]
        net[row["to"]] = net.get(row["to"], 0) + row["flow"]
    return found + [f"no balance: {node}" for node, left in net.items() if left]


@pytest.mark.parametrize("name", NAMES)
def test_from_scipy(program: Path, say: Desk, name: str) -> None:
    path = example(f"{name}.out.csv")
    text = say("from-scipy", path).out
    foreign = parse_report(text)
    assert within(read_report(path), foreign) == []
    verdicts = check(text.encode(), program=program)
    assert verdicts["verdict"].tolist() == ["yes"]
    assert foreign.blocks["state"].tolist() == ["converged"]


def test_without_least(program: Path, say: Desk) -> None:
    text = say("from-scipy", HEAT).out
    bare = re.sub(r"(?m)^(stream(?:,[^,]*){9}),[^,]*,[^,]*", r"\1", text)
    found = say("from-scipy", "--without-least", HEAT).out
    assert found == bare != text
    assert check(found.encode(), program=program)["verdict"].tolist() == ["yes"]


def test_change(program: Path, say: Desk) -> None:
    text = say("from-scipy", HEAT).out
    wanted = re.sub(r"(?m)^(stream,F3(?:,[^,]*){5},)35720000", r"\g<1>35720500", text)
    found = say("from-scipy", "--change", "F3", 500, HEAT).out
    assert found == wanted != text
    assert "no balance: SPLITTER" in within(read_report(HEAT), parse_report(found))
    status, said = call(["check"], found.encode(), program=program)
    assert (status, said) == (1, b"no,day1,0,3,balance,SPLITTER,0,-500\n")
    frame = check(found.encode(), program=program).iloc[0]
    assert (frame["verdict"], frame["word"], frame["name"], frame["found"]) == (
        "no",
        "balance",
        "SPLITTER",
        -500,
    )
    said_so = say("check", "--program", program, text=found)
    assert said_so.status == 1 and "balance at SPLITTER (stated 0, found -500)" in said_so.out


@pytest.mark.parametrize(
    "words, said",
    [
        (["--change", "F7", "1"], "there is no stream F7"),
        (["--change", "F3", "1.5"], "'1.5' isn't a whole number of grams"),
        (["--period", "day3"], "there is no report of day3: there are "),
    ],
)
def test_mistakes(say: Desk, words: list[str], said: str) -> None:
    found = say("from-scipy", *words, HEAT)
    assert (found.status, found.out) == (1, "")
    assert said in found.err


def line(units: int) -> Session:
    """Units in a line with equal meters, each a little off: sweeps hardly come nearer."""
    session = Session()
    nodes = [f"U{i}" for i in range(units)]
    for node in nodes:
        session.unit(node)
    ends = ["env", *nodes, "env"]
    for i in range(units + 1):
        session.stream(f"S{i}", ends[i], ends[i + 1], variance=1)
    session.period("d", "2024-01-01", "2024-01-01")
    session.critical("global", dof=units, thousandths=10**9)
    session.critical("nodal", value="3.841")
    for i in range(units + 1):
        tonnes = 10_000 + (i * 7919) % 1000 - i
        session.reading(f"r{i}", f"S{i}", "2024-01-01", tonnes=tonnes, deviation_tonnes=30)
    session.report("d")
    return session


@pytest.mark.parametrize("units", [100, 999])
def test_line(program: Path, units: int) -> None:
    """A line on which the sweeps don't converge gets a yes, and bounds of some kilograms."""
    session = line(units)
    if units == 100:
        swept = run(session, program=program, tests=False)
        assert swept.blocks["state"].tolist() == ["unconverged"]
        assert not swept.ok
    output = solve(session, program=program)
    assert output.blocks["state"].tolist() == ["converged"]
    assert output.ok, output.why
    assert check(output, program=program)["verdict"].tolist() == ["yes"]
    streams = output.streams
    assert (streams["hi"] - streams["lo"]).max() < 5000
    assert len(output.tests) == units + 1


# A balance of a component isn't solved elsewhere.
SESSIONS = [
    path
    for path in sorted(TOP.glob("examples/*.csv"))
    if path.with_suffix(".status").exists()
    and words_of(path)[0] == "run"
    and "\ncomponent," not in text_of(path)
]


@pytest.mark.parametrize("path", SESSIONS, ids=lambda path: path.name)
def test_solve_examples(program: Path, path: Path) -> None:
    """Shipped sessions: the rows beside the solutions are those of a run, and so are nodal tests."""
    output = solve(path, program=program)
    swept = run(path, program=program)
    for name in ("refused", "classes", "histories", "history", "over"):
        assert getattr(output, name).equals(getattr(swept, name)), name
    whole = swept.tests[swept.tests["test"] == "nodal"]
    own = output.tests[output.tests["test"] == "nodal"]
    assert own.reset_index(drop=True).equals(whole.reset_index(drop=True))
    columns = ["period", "dof", "state", "critical", "verdict"]
    assert output.blocks[columns].equals(swept.blocks[columns])


def test_uncertified(program: Path, monkeypatch: pytest.MonkeyPatch) -> None:
    """What doesn't get a yes isn't handed out."""
    from plantbal.study import certificate

    flows_of = certificate.whole_flows

    def wrong(plant: NumberedPlant, prices: list[int]) -> list[int]:
        flows = flows_of(plant, prices)
        return [flows[0] + 1, *flows[1:]]

    monkeypatch.setattr(certificate, "whole_flows", wrong)
    with pytest.raises(Uncertified, match="doesn't say yes to 1 of 1 blocks: d: balance"):
        solve(line(3), program=program)


def test_no_engine() -> None:
    with pytest.raises(Fault, match="there is no engine 'cvxpy': use 'scipy'"):
        solve(Session(), engine="cvxpy")


@settings(max_examples=15, deadline=None, suppress_health_check=list(HealthCheck))
@given(data=st.data())
def test_solve_any_plant(program: Path, data: st.DataObject) -> None:
    """Random plants with streams of each kind: each solution is certified and has converged."""
    count = data.draw(st.integers(1, 5))
    nodes = ["env", *(f"U{i}" for i in range(count))]
    session = Session()
    for node in nodes[1:]:
        session.unit(node)
    session.period("d", "2024-01-01", "2024-01-01")
    session.critical("nodal", thousandths=3841)
    for i in range(data.draw(st.integers(1, 12))):
        one, other = data.draw(
            st.lists(st.sampled_from(nodes), min_size=2, max_size=2, unique=True)
        )
        if data.draw(st.booleans()):
            power = data.draw(st.integers(8, 18))
            session.stream(f"S{i}", one, other, variance=10**power)
            grams = data.draw(st.integers(-(10**12), 10**12))
            session.reading(f"r{i}", f"S{i}", "2024-01-01", grams=grams, variance=0)
        else:
            session.stream(f"S{i}", one, other, "plain")
    session.report("d")
    output = solve(session, program=program)
    assert output.blocks["state"].tolist() == ["converged"]
    swept = run(session, program=program)
    assert (
        output.tests[output.tests["test"] == "nodal"]
        .reset_index(drop=True)
        .equals(swept.tests[swept.tests["test"] == "nodal"].reset_index(drop=True))
    )


def test_text_of_examples() -> None:
    assert text_of(HEAT).startswith("report,day1,0,")
