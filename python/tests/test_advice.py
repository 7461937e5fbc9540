"""Which streams to meter: what the program advises as lines, tables, pictures and pages."""

from __future__ import annotations

from collections.abc import Iterable
from itertools import combinations
from pathlib import Path

import pytest
from conftest import Desk, example, text_of
from hypothesis import given
from hypothesis import strategies as st
from test_program import QUICK

from plantbal import Fault, Output, Session
from plantbal.model.topology import Arc, classes_of
from plantbal.page.command import page
from plantbal.report.output import parse_report
from plantbal.report.picture import advised
from plantbal.study.advice import advise, plant_session, read_costs

METERS = example("crude_unit_meters.csv")
COSTS = {"CRUDE": 12000, "RES": 9000, "NAPH": 4000, "KERO": 4500, "SLOP": 300}


def written() -> Output:
    """What the program writes of the crude unit."""
    return parse_report(text_of(example("crude_unit_meters.out.csv")))


def test_lines(program: Path) -> None:
    found = advise(plant_session("a", METERS.read_bytes()), COSTS, program=str(program))
    assert found.total == 13300
    assert [each["stream"] for each in found.meters] == ["RES", "NAPH", "SLOP"]
    assert list(found.lines()) == [
        "3 meters for 13,300 make every stream observable; no cheaper choice does",
        "RES   9,000  on its cycle: CRUDE 12,000",
        "NAPH  4,000  on its cycle: KERO 4,500",
        "SLOP    300  on its cycle: CRUDE 12,000",
    ]


def test_no_meter_is_needed(program: Path) -> None:
    plant = plant_session("a", example("two_meters.csv").read_bytes())
    found = advise(plant, program=str(program))
    assert list(found.lines()) == ["no meter is needed: every stream is observable as it is"]


def observable(session: Session, chosen: Iterable[str]) -> bool:
    """Whether each stream is observable, or has a meter, once some are metered."""
    arcs = [Arc(row[1], row[2], row[3]) for row in session if row[0] == "stream"]
    metered = {name for name, kind in session.streams.items() if kind != "plain"} | set(chosen)
    return "unobservable" not in classes_of(["env", *session.nodes], arcs, metered).values()


ENDS = st.tuples(st.sampled_from("UVWe"), st.sampled_from("UVWe")).filter(lambda e: e[0] != e[1])
STREAMS = st.lists(st.tuples(ENDS, st.integers(0, 4)), min_size=1, max_size=6)


@QUICK
@given(STREAMS)
def test_no_choice_is_cheaper(program: Path, streams: list[tuple[tuple[str, str], int]]) -> None:
    """Of all choices that make each stream observable none costs less."""
    session = Session()
    for name in "UVW":
        session.unit(name)
    costs = {}
    for place, (ends, cost) in enumerate(streams):
        session.stream(f"S{place}", *("env" if end == "e" else end for end in ends), "plain")
        costs[f"S{place}"] = cost
    found = advise(session, costs, program=str(program))
    chosen = [each["stream"] for each in found.meters]
    assert observable(session, chosen)
    every = (some for count in range(len(costs)) for some in combinations(costs, count))
    least = min(sum(map(costs.__getitem__, some)) for some in every if observable(session, some))
    assert found.total == least
    for each in found.meters:
        others = [part[1:] for part in each["parts"].split(" ")[1:]]
        assert all(costs[other] >= int(each["cost"]) for other in others)
        assert not set(others) & set(chosen)


def test_table() -> None:
    output = written()
    assert output.advice["stream"].tolist() == ["RES", "NAPH", "SLOP", "RES", "KERO", "SLOP"]
    assert output.advice["advice"].tolist() == [0, 0, 0, 1, 1, 1]
    assert output.advice["cost"].tolist()[:3] == [9000, 4000, 300]
    assert {"classes", "advice"} <= output.tables().keys()


def test_picture() -> None:
    picture = advised(written().rows)
    assert picture.title == "3 meters to buy, for 3"
    dot = picture.dot()
    assert 'label="+ KERO\nmeter: 1"' in dot and 'label="? CRUDE"' in dot
    picture.mark("KERO")
    assert picture.parts == {"KERO", "NAPH"}
    assert picture.dot().count('penwidth="4"') == 2


def test_page() -> None:
    made = page(written().rows)
    assert "Meters to buy <small>3, for 3</small>" in made
    assert "meter: 1</text>" in made and "+ to meter" in made
    none = [row for row in written().rows if row["row"] not in ("advise", "meter")]
    assert "Meters to buy" not in page(none) and "<h2>Design</h2>" in page(none)
    none.append({"row": "advise", "count": "0", "total": "0"})
    assert "no meter is needed" in page(none)


@pytest.mark.parametrize("cells", ["stream,cost\nRES,9000\n", "cost;stream;why\n9000;RES;old\n"])
def test_costs(tmp_path: Path, cells: str) -> None:
    path = tmp_path / "costs.csv"
    path.write_text(cells, encoding="utf-8")
    assert read_costs(path, plant_session("a", METERS.read_bytes())) == {"RES": 9000}


def test_locale(tmp_path: Path) -> None:
    path = tmp_path / "costs.csv"
    path.write_text("stream;cost\nRES;9.000\n", encoding="utf-8")
    plant = plant_session("a", METERS.read_bytes())
    assert read_costs(path, plant, "de") == {"RES": 9000}
    with pytest.raises(Fault, match="9.000.*use --locale en, --locale de"):
        read_costs(path, plant)


def test_command(program: Path, say: Desk, tmp_path: Path) -> None:
    costs = example("meters/costs.csv")
    found = say("advise", "--form", "csv", "--draw", tmp_path / "m.svg", METERS, costs)
    assert (found.status, found.err) == (0, "")
    assert found.out.splitlines()[:2] == ["stream,cost,cycle", "RES,9000,+RES +CRUDE"]
    assert "meter: 4,000" in (tmp_path / "m.svg").read_text(encoding="utf-8")
    say("advise", "--draw", tmp_path / "m.svg", example("terminal.csv"))
    for name in ("JETTY", "RAIL", "PIPELINE"):
        assert f">{name}</text>" in (tmp_path / "m.svg").read_text(encoding="utf-8")
