"""Uncertainties: against exact fractions, a dense projection, and simulated months."""

from __future__ import annotations

import json
import os
import sqlite3
import subprocess
import sys
from fractions import Fraction
from pathlib import Path
from typing import Any

import numpy
import pandas
import pytest
from conftest import TOP, Desk, example, least_spent, text_of
from hypothesis import HealthCheck, given, settings
from hypothesis import strategies as st

from plantbal import InputFault, Output, Session, read_report
from plantbal.program import call
from plantbal.report.blocks import Block
from plantbal.report.output import parse_report
from plantbal.study.uncertainty import COLUMNS, uncertainty_of

CONCENTRATOR = example("concentrator/session.out.csv")


def cycles_of(block: Block) -> list[list[int]]:
    """A basis of the balanced flows: a row a stream, a column a stream outside a spanning tree."""
    streams = block.streams
    tree: dict[str, list[tuple[int, int, str]]] = {node["name"]: [] for node in block.nodes}

    def path(start: str, end: str) -> list[tuple[int, int]] | None:
        """The streams of the tree from one node to another, with signs."""
        ways: dict[str, list[tuple[int, int]]] = {start: []}
        todo = [start]
        for node in todo:
            for sign, j, other in tree[node]:
                if other not in ways:
                    ways[other] = [*ways[node], (sign, j)]
                    todo.append(other)
        return ways.get(end)

    columns = []
    for j, stream in enumerate(streams):
        back = path(stream["to"], stream["from"])
        if back is None:
            tree[stream["from"]].append((1, j, stream["to"]))
            tree[stream["to"]].append((-1, j, stream["from"]))
        else:
            signs = {j: 1, **{k: sign for sign, k in back}}
            columns.append([signs.get(k, 0) for k in range(len(streams))])
    return [list(row) for row in zip(*columns)] if columns else [[] for _ in streams]


def solved_exactly(matrix: list[list[Fraction]], right: list[Fraction]) -> list[Fraction]:
    """Some solution of a system that has one, by elimination in fractions."""
    rows = [[*row, value] for row, value in zip(matrix, right)]
    size, pivots = len(rows), []
    for column in range(size):
        at = next((i for i in range(len(pivots), size) if rows[i][column]), None)
        if at is None:
            continue
        place = len(pivots)
        rows[place], rows[at] = rows[at], rows[place]
        rows[place] = [value / rows[place][column] for value in rows[place]]
        for i in range(size):
            if i != place and rows[i][column]:
                by = rows[i][column]
                rows[i] = [a - by * b for a, b in zip(rows[i], rows[place])]
        pivots.append(column)
    assert not any(row[-1] for row in rows[len(pivots) :])
    found = [Fraction(0)] * size
    for place, column in enumerate(pivots):
        found[column] = rows[place][-1]
    return found


def exact_parts(block: Block) -> dict[str, dict[str, Fraction]]:
    """Of each determined flow, what each meter contributes to its variance, in whole fractions.

    With the cycles N of the plant flows are N q. Least squares give q as G^-1 N' V^-1 y over the
    measured streams, with G = N' V^-1 N.
    """
    cycles = cycles_of(block)
    meters = [j for j, stream in enumerate(block.streams) if stream["value"]]
    weight = {j: Fraction(1, int(block.streams[j]["variance"])) for j in meters}
    size = len(cycles[0]) if cycles else 0
    scaled = {j: [weight[j] * entry for entry in cycles[j]] for j in meters}
    gram = [
        [sum((cycles[j][a] * scaled[j][b] for j in meters), Fraction()) for b in range(size)]
        for a in range(size)
    ]
    found = {}
    for row, stream in zip(cycles, block.streams):
        if stream["class"] != "unobservable":
            u = solved_exactly(gram, [Fraction(entry) for entry in row])
            found[stream["name"]] = {
                block.streams[j]["name"]: weight[j]
                * sum((a * b for a, b in zip(cycles[j], u)), Fraction()) ** 2
                for j in meters
            }
    return found


def dense_deviations(block: Block) -> dict[str, float]:
    """Standard deviations by a dense projection on the balanced flows, in floats."""
    flows = numpy.array(cycles_of(block), dtype=float)
    variances = [float(s["variance"]) if s["value"] else numpy.inf for s in block.streams]
    root = numpy.sqrt(variances)
    answers = flows @ numpy.linalg.pinv(flows / root[:, None], rcond=1e-12)
    deviations = numpy.sqrt((answers**2).sum(axis=1))
    return {
        stream["name"]: deviation
        for stream, deviation in zip(block.streams, deviations)
        if stream["class"] != "unobservable"
    }


@st.composite
def sessions(draw: st.DrawFn, greatest: int) -> Session:
    """A plant of up to five units and twelve streams, and one day of it."""
    session = Session()
    nodes = ["env", *(f"u{number}" for number in range(draw(st.integers(1, 5))))]
    for node in nodes[1:]:
        session.unit(node)
    session.period("d", "2024-05-01", "2024-05-01")
    ends = st.tuples(st.sampled_from(nodes), st.sampled_from(nodes)).filter(lambda e: e[0] != e[1])
    for number, (one, other) in enumerate(draw(st.lists(ends, min_size=1, max_size=12))):
        name, power = f"s{number}", draw(st.one_of(st.none(), st.integers(0, greatest)))
        if power is None:
            session.stream(name, one, other, "plain")
        else:
            session.stream(name, one, other, variance=1)
            variance = draw(st.integers(1, 9)) * 10**power
            session.reading(f"r{number}", name, "2024-05-01", grams=0, variance=variance)
    session.report("d")
    return session


def block_of(session: Session, program: Path) -> Block:
    """The report of a session."""
    text = call(["run", "--sweeps", "0"], session.to_csv().encode(), program=program)[1].decode()
    return parse_report(text).blocks_in_order[0]


def block_of_text(session: str, program: Path, period: str) -> Block:
    """The report of a period of a session."""
    text = call(["run"], session.encode(), program=program)[1].decode()
    return next(each for each in parse_report(text).blocks_in_order if each.period == period)


QUICK = settings(
    max_examples=150, deadline=None, suppress_health_check=[HealthCheck.function_scoped_fixture]
)


@QUICK
@given(st.data())
def test_exact(program: Path, data: st.DataObject) -> None:
    """They are those of exact fractions, though variances differ by eighteen powers of ten."""
    block = block_of(data.draw(sessions(18)), program)
    parts = exact_parts(block)
    found = uncertainty_of(block)
    assert list(found["name"]) == list(parts)
    for row in found.to_dict("records"):
        wanted = parts[row["name"]]
        total = sum(wanted.values(), Fraction())
        assert row["sd"] == pytest.approx(float(total) ** 0.5, rel=1e-6)
        greatest = sorted(wanted.values(), reverse=True)
        for rank, part in zip(("first", "second", "third"), [*greatest, *[Fraction()] * 3]):
            share = float(part / total) if total else 0.0
            if row[rank]:
                assert row[f"{rank}_share"] == pytest.approx(share, rel=1e-5)
                assert float(wanted[row[rank]] / total) == pytest.approx(share, rel=1e-5)
            else:
                assert share < 1.001e-6


@QUICK
@given(st.data())
def test_dense(program: Path, data: st.DataObject) -> None:
    """They are those of a dense projection."""
    block = block_of(data.draw(sessions(4)), program)
    found = uncertainty_of(block)
    wanted = dense_deviations(block)
    assert list(found["name"]) == list(wanted)
    assert found["sd"].tolist() == pytest.approx(list(wanted.values()), rel=1e-6, abs=1e-6)
    measured = found[found["meter_sd"].notna()]
    assert (measured["sd"] <= measured["meter_sd"]).all()
    alone = found[found["class"] == "nonredundant"]
    assert (alone["gain"] == 0).all() and (alone["first"] == alone["name"]).all()


def made(program: Path, streams: int) -> Output:
    """The report of a made session, its flows hardly solved for."""
    data = call(["make", "--number", "1", "--streams", str(streams)], b"", program=program)[1]
    return parse_report(call(["run", "--sweeps", "0"], data, program=program)[1].decode())


def test_made(program: Path) -> None:
    output = made(program, 300)
    wanted = dense_deviations(output.blocks_in_order[0])
    assert output.uncertainty["sd"].tolist() == pytest.approx(list(wanted.values()), rel=1e-6)


def widest(powers: tuple[int, int]) -> Block:
    """A report of the most units and streams that there may be, all of them measured."""
    random = numpy.random.default_rng(7)
    nodes = ["env", *(f"u{number}" for number in range(1000))]
    ends = [(j % 1001, (j + 1) % 1001) for j in range(1001)]
    while len(ends) < 2000:
        one, other = random.integers(0, 1001, 2)
        if one != other:
            ends.append((int(one), int(other)))
    variances = 10 ** random.uniform(*powers, len(ends))
    none = dict.fromkeys(("flow", "lo", "hi", "least_lo", "least_hi", "side", "parts"), "")
    streams = [
        {"name": f"s{j}", "from": nodes[one], "to": nodes[other], "value": "0", **none}
        | {"variance": str(int(variance)), "class": "redundant"}
        for j, ((one, other), variance) in enumerate(zip(ends, variances))
    ]
    head = {"row": "report", "period": "p", "round": "0"}
    return Block(0, head, nodes=[{"name": node} for node in nodes], streams=streams, ended=True)


@pytest.mark.parametrize("powers, most", [((13, 16), 2), ((0, 18), 4)], ids=str)
def test_time(powers: tuple[int, int], most: int) -> None:
    """2,000 streams between 1,000 merged nodes take less than 2 s, most unequal ones twice that."""
    uncertainty_of(read_report(CONCENTRATOR))  # the libraries are there
    block = widest(powers)
    assert least_spent(lambda: uncertainty_of(block), most) < most
    found = uncertainty_of(block)
    assert len(found) == 2000 and found["gain"].between(0, 1).all()
    # What is left of variances is a projection on as many dimensions as the balances leave free.
    assert ((1 - found["gain"]) ** 2).sum() == pytest.approx(1000, rel=1e-6)


def daily_variances(period: str, session: str) -> dict[str, list[int]]:
    """Of each meter of a session the variances of a month's days, the base one first."""
    rows = [line.split(",") for line in session.splitlines()]
    found = {row[1]: [int(row[5])] for row in rows if row[0] == "stream" and row[4] == "metered"}
    for row in rows:
        if row[0] == "reading" and row[3].startswith(period):
            found[row[2]].append(int(row[5]))
    return found


def simulated(block: Block, session: str, count: int = 10_000) -> Any:
    """The flows of simulated months like that of a block: a row a stream, a column a month.

    Each day's reading has an error, and each month one of the meter's base; the least squares flows
    of a month's sums are found by a dense solution.
    """
    random = numpy.random.default_rng(20240501)
    cycles = numpy.array(cycles_of(block), dtype=float)
    meters = [j for j, stream in enumerate(block.streams) if stream["value"]]
    daily = [daily_variances(block.period, session)[block.streams[j]["name"]] for j in meters]
    assert [sum(days) for days in daily] == [int(block.streams[j]["variance"]) for j in meters]
    root = numpy.sqrt([float(sum(days)) for days in daily])
    flows = numpy.array([float(stream["flow"]) for stream in block.streams])

    def solve(readings: Any) -> Any:
        """The least squares flows of readings, a column a month."""
        matrix, right = cycles[meters] / root[:, None], readings / root[:, None]
        return cycles @ numpy.linalg.lstsq(matrix, right, rcond=None)[0]

    # The estimator is the program's.
    own = solve(numpy.array([[float(block.streams[j]["value"])] for j in meters]))[:, 0]
    for stream, flow in zip(block.streams, own):
        assert int(stream["least_lo"]) - 1 <= flow <= int(stream["least_hi"]) + 1

    errors = [numpy.sqrt(days) @ random.normal(size=(len(days), count)) for days in daily]
    return solve(flows[meters][:, None] + numpy.array(errors))


def assert_simulated(block: Block, session: str) -> None:
    """Fails unless 10,000 simulated months vary as much as the uncertainties say, to two digits."""
    months = simulated(block, session)
    flows = numpy.array([float(stream["flow"]) for stream in block.streams])
    found = uncertainty_of(block)["sd"].to_numpy()
    # The standard error of a standard deviation of 10,000 months is 0.7 %, of a mean 1 %.
    assert months.std(axis=1, ddof=1) / found == pytest.approx(1, abs=0.02)
    assert (months.mean(axis=1) - flows) / found == pytest.approx(0, abs=0.03)


def test_simulated() -> None:
    """April, and May without the reading of a day: FILTERED varies by 953 t."""
    session = text_of(example("concentrator/session.csv"))
    for block in read_report(CONCENTRATOR).blocks_in_order:
        assert_simulated(block, session)


def test_simulated_with_an_estimate(program: Path) -> None:
    """May with an estimate of that day, as in the guide: FILTERED varies by 20 t."""
    estimate = "reading,estimate,FILTERED,2024-05-17,342000000,400000000000000\nreport,2024-05\n"
    session = text_of(example("concentrator/session.csv")).replace("report,2024-05\n", estimate)
    block = block_of_text(session, program, "2024-05")
    assert_simulated(block, session)
    filtered = uncertainty_of(block).set_index("name").loc["FILTERED"]
    assert filtered["sd"] == pytest.approx(20.1e6, rel=0.005)


# Period, stream, standard deviation and that of its meter in tonnes, and its greatest meter.
FIGURES = [
    ("2024-04", "FILTERED", "2.2", "2.2", "FILTERED"),
    ("2024-04", "TAILS", "474.8", "955.3", "ORE"),
    ("2024-05", "FILTERED", "953.3", "nan", "ORE"),
    ("2024-05", "ORE", "658.7", "658.7", "ORE"),
]


def test_concentrator() -> None:
    output = read_report(CONCENTRATOR)
    table = output.uncertainty
    assert tuple(table.columns) == COLUMNS
    assert output.uncertainty.equals(table)
    rows = table.set_index(["period", "name"])
    for period, name, sd, meter, first in FIGURES:
        row = rows.loc[(period, name)]
        assert (f"{row['sd'] / 1e6:.1f}", f"{row['meter_sd'] / 1e6:.1f}") == (sd, meter)
        assert row["first"] == first


def test_rounds() -> None:
    """Of each round there are rows; a meter that was taken has none of its own."""
    table = read_report(example("heat_exchanger_suspect.jsonl")).uncertainty
    taken = table[(table["round"] == 1) & (table["name"] == "F2")].iloc[0]
    assert pandas.isna(taken["meter_sd"]) and taken["class"] == "observable"
    six = table[(table["period"] == "day2") & (table["round"] == 0)]
    assert six["sd"].tolist() == pytest.approx([7.0710678e5] * 2 + [5e5 * 2**0.5] * 4, rel=0.3)


def test_unobservable_and_cut_off() -> None:
    text = example("refinery_day.out.csv").read_text(encoding="utf-8")
    names = set(parse_report(text).uncertainty["name"])
    assert "KEROSENE" in names and not {"RESIDUE", "SLOP"} & names
    assert parse_report(text.replace("end,may1,0\n", "")).uncertainty.empty
    assert parse_report("").uncertainty.empty


FAULTY = [
    (",901000000000000,", ",0,", "may1: the variance of CHARGE is below 1"),
    ("VDU,TK_BITUMEN,,,", "VDU,TK,,,", "may1: there is no node 'TK'"),
    ("GAS_OIL -BITUMEN\n", "GAS_OIL -SLOP\n", "the cut of BITUMEN doesn't determine it"),
]


@pytest.mark.parametrize("old, new, said", FAULTY, ids=[case[2] for case in FAULTY])
def test_faulty(old: str, new: str, said: str) -> None:
    text = example("refinery_day.out.csv").read_text(encoding="utf-8")
    assert old in text
    with pytest.raises(InputFault, match=said):
        uncertainty_of(parse_report(text.replace(old, new)))


def test_beside_each_flow(say: Desk, tmp_path: Path) -> None:
    """It stands in the table of flows, and in the workbook and the database."""
    lines = say("tables", "flows", CONCENTRATOR).out.splitlines()
    assert lines[0].startswith("stream,2024-04,2024-04 ±,2024-05,2024-05 ±,")
    filtered = next(line for line in lines if line.startswith("FILTERED"))
    assert filtered.split(",")[3:5] == ["10429.265808", "953.323464"]
    assert "SLOP,,\n" in say("tables", "flows", example("refinery_day.out.csv")).out
    output = read_report(CONCENTRATOR)
    output.to_xlsx(tmp_path / "o.xlsx")
    sheets = pandas.read_excel(tmp_path / "o.xlsx", sheet_name=["tonnes", "uncertainty"])
    tonnes = sheets["tonnes"].set_index(["period", "name"])
    assert tonnes.loc[("2024-05", "FILTERED"), "sd"] == pytest.approx(953.323464)
    assert list(tonnes.columns).index("sd") == list(tonnes.columns).index("flow") + 1
    assert tuple(sheets["uncertainty"].columns) == COLUMNS
    output.to_sqlite(tmp_path / "o.sqlite")
    with sqlite3.connect(tmp_path / "o.sqlite") as base:
        query = "select round(sd / 1e6) from uncertainty where period = '2024-05' and name = ?"
        assert base.execute(query, ["FILTERED"]).fetchall() == [(953.0,)]


def test_guide(program: Path, tmp_path: Path) -> None:
    """What the guide shows of it, and of an estimate for a missing day, is what comes."""
    guide = text_of(TOP / "docs/GUIDE.md")
    section = guide[guide.index("\n### How good a flow is\n") :].split("\n### ")[1]
    assert "10,403.330   20.115" in section and "10,429.266  953.323" in section
    page, command = tmp_path / "page.md", tmp_path / "plantbal-desk"
    page.write_text(section, encoding="utf-8")
    command.write_text(f'#!/bin/sh\nexec "{sys.executable}" -m plantbal "$@"\n', encoding="ascii")
    command.chmod(0o755)
    path = f"{tmp_path}{os.pathsep}{os.environ['PATH']}"
    done = subprocess.run(
        [TOP / ".ci/typed", page, TOP / "examples", program],
        env={**os.environ, "PATH": path, "PYTHONPATH": str(TOP / "python")},
        capture_output=True,
        text=True,
        check=True,
    )
    assert done.stdout == section


def test_command(say: Desk) -> None:
    found = say("uncertainty", CONCENTRATOR)
    head, *lines = found.out.splitlines()
    assert head.split() == "period stream class flow t ± t meter ± t gain rests on".split()
    line = next(line for line in lines if line.startswith("2024-05  FILTERED"))
    assert line.split()[2:] == "observable 10,429.266 953.323 ORE 48%, TAILS 27%, PULP 25%".split()
    rows = json.loads(say("uncertainty", "--form", "json", CONCENTRATOR).out)
    assert len(rows) == len(lines) == 18 and rows[10]["meter_sd"] is None
    table = say("uncertainty", "--form", "csv", CONCENTRATOR).out
    assert table.splitlines()[0] == ",".join(COLUMNS)
    found = say("uncertainty")
    assert found.status == 1 and "it is empty: run a session" in found.err
