"""The ± of plain Python: against scipy's, by hand, and where floats lose digits by differences."""

from __future__ import annotations

import random
from fractions import Fraction

import pytest
from conftest import TOP

import plantbal
from plantbal.report.blocks import Block
from plantbal.report.output import Output, parse_report
from plantbal.study import deviations
from plantbal.study.deviations import deviations_of

REPORTS = sorted((TOP / "examples").glob("*.out.csv"))


def test_the_examples() -> None:
    """Each block of each example has the ± that `uncertainty_of` reckons with scipy."""
    compared = 0
    for path in REPORTS:
        output = plantbal.read_report(path)
        for block in (each for each in output.blocks_in_order if each.ended):
            table = plantbal.uncertainty_of(block)
            wanted = dict(zip(table["name"], table["sd"]))
            assert deviations_of(block) == pytest.approx(wanted, rel=1e-9, abs=1e-3), path.name
            compared += len(wanted)
    assert compared > 100


def block_of(session: plantbal.Session) -> Block:
    output = plantbal.run(session, tests=False, sweeps=5000)
    return output.reports[-1]


def ring(count: int, seed: int) -> plantbal.Session:
    """A ring of units with chords; variances over many powers of ten, and some streams unmeasured."""
    chance, session = random.Random(seed), plantbal.Session()
    for k in range(count):
        session.unit(f"U{k}")
    ends = [(f"U{k}", f"U{(k + 1) % count}") for k in range(count)]
    ends += [
        (f"U{k}", f"U{(k * 7 + 3) % count}") for k in range(0, count, 2) if k != (k * 7 + 3) % count
    ]
    ends += [("env", f"U{k}") for k in range(0, count, 5)] + [
        (f"U{k}", "env") for k in range(1, count, 5)
    ]
    session.period("p", "2024-01-01", "2024-01-01")
    for k, (one, other) in enumerate(ends):
        if chance.random() < 0.15:
            session.stream(f"S{k}", one, other, "plain")
            continue
        session.stream(f"S{k}", one, other, variance=1)
        variance = int(10 ** chance.uniform(4, 14))
        session.reading(f"r{k}", f"S{k}", "2024-01-01", grams=50_000_000, variance=variance)
    session.report("p")
    return session


def exact(block: Block) -> dict[str, float]:
    """The same by least squares in fractions: V - V A' (A V A')^-1 A V, of the merged nodes."""
    plant = deviations.plant_of(block)
    groups = sorted(set(plant.group))
    free = [group for group in groups if group != plant.group[0]]
    rows = {
        j: [
            Fraction((plant.group[plant.ends[j][1]] == g) - (plant.group[plant.ends[j][0]] == g))
            for g in free
        ]
        for j in plant.measured
    }
    matrix = [
        [
            sum((plant.variance[j] * rows[j][a] * rows[j][b] for j in rows), Fraction(0))
            for b in range(len(free))
        ]
        for a in range(len(free))
    ]
    found = {}
    for j in plant.measured:
        solution = solved(matrix, rows[j])
        part = sum(a * b for a, b in zip(rows[j], solution))
        found[plant.streams[j]["name"]] = (
            float(plant.variance[j] - plant.variance[j] ** 2 * part) ** 0.5
        )
    return found


def solved(matrix: list[list[Fraction]], right: list[Fraction]) -> list[Fraction]:
    """Solve equations by Gauss; an unknown that nothing determines is 0."""
    rows = [[*row, value] for row, value in zip(matrix, right)]
    pivots: list[tuple[int, int]] = []
    for column in range(len(matrix)):
        at = next((k for k in range(len(pivots), len(rows)) if rows[k][column]), None)
        if at is None:
            continue
        place = len(pivots)
        rows[place], rows[at] = rows[at], rows[place]
        for k, row in enumerate(rows):
            if k != place and row[column]:
                factor = row[column] / rows[place][column]
                rows[k] = [a - factor * b for a, b in zip(row, rows[place])]
        pivots.append((place, column))
    answer = [Fraction(0)] * len(matrix)
    for place, column in pivots:
        answer[column] = rows[place][-1] / rows[place][column]
    return answer


@pytest.mark.parametrize("seed", range(6))
def test_exact_arithmetic(seed: int) -> None:
    """Of measured streams it is that of fractions to twelve digits, whatever the variances are."""
    block = block_of(ring(12, seed))
    found, wanted = deviations_of(block), exact(block)
    assert found is not None
    for name, deviation in wanted.items():
        assert found[name] == pytest.approx(deviation, rel=1e-12, abs=1e-9), name


def test_by_hand() -> None:
    """1 t2 before a unit and 3 t2 after it, with the base of 1 g2: both have 1 x 3 / (1 + 3) t2."""
    session = plantbal.Session()
    session.unit("U")
    session.stream("A", "env", "U", variance=1)
    session.stream("B", "U", "env", variance=1)
    session.stream("C", "U", "env", "plain")
    session.period("p", "2024-01-01", "2024-01-01")
    session.reading("a", "A", "2024-01-01", tonnes=100, variance=10**12 - 1)
    session.reading("b", "B", "2024-01-01", tonnes=60, variance=3 * 10**12 - 1)
    session.report("p")
    # C is what the others leave: 1 + 3 t2
    wanted = {"A": 1e6, "B": 3**0.5 * 1e6, "C": 2e6}
    assert deviations_of(block_of(session)) == pytest.approx(wanted, rel=1e-15)
    rows = [row for row in session if row[:2] != ("stream", "C")]
    session = plantbal.Session()
    for row in rows:
        session.row(*row)
    half = 0.75**0.5 * 1e6
    wanted = {"A": half, "B": half}
    assert deviations_of(block_of(session)) == pytest.approx(wanted, rel=1e-15)


def test_too_entangled(monkeypatch: pytest.MonkeyPatch) -> None:
    block = block_of(ring(12, 0))
    monkeypatch.setattr(deviations, "_MOST_STEPS", 100)
    assert deviations_of(block) is None


def test_a_stream_that_ends_nowhere() -> None:
    text = (TOP / "examples" / "two_meters.out.csv").read_text(encoding="utf-8")
    rows = [dict(row) for row in parse_report(text).rows]
    for row in rows:
        if row["row"] == "node" and row["name"] != "env":
            row["name"] = "ELSEWHERE"
    assert deviations_of(Output(rows).blocks_in_order[-1]) is None


@pytest.mark.parametrize("variance", [0, -1, 10**22 + 1, 10**400])
def test_a_variance_that_nothing_has(variance: int) -> None:
    """A report of other hands; one of this size was a traceback of an audit."""
    output = plantbal.read_report(TOP / "examples" / "refinery_day.out.csv")
    rows = [dict(row) for row in output.rows]
    stream = next(row for row in rows if row["row"] == "stream" and row["value"])
    stream["variance"] = str(variance)
    assert deviations_of(Output(rows).blocks_in_order[-1]) is None
