"""Flows and grades reconciled together: known cases, a second solver, what determines what, bad input."""

from __future__ import annotations

import math
import random
from pathlib import Path

import plants
import pytest
from plantbal.balance import Class, Flow, Known, Measured, Problem, solids_of, solve, water_of
from plantbal.balance.certify import pulls_of, session_of
from plantbal.balance.pulps import with_water
from plantbal.balance.solve import NoMinimum
from plantbal.balance.table import table_lines
from plantbal.faults import Fault


def separator(feed: float, *grades: float, error: float = 0.01) -> Problem:
    """Return one unit with a feed that is metered, a concentrate and a tailing, all assayed."""
    names = ("FEED", "CONC", "TAIL")
    assays = {
        (name, "cu"): Measured(grade, (error * grade) ** 2) for name, grade in zip(names, grades)
    }
    flows = [
        Flow("FEED", "env", "MILL", Measured(feed, (0.01 * feed) ** 2)),
        Flow("CONC", "MILL", "env"),
        Flow("TAIL", "MILL", "env"),
    ]
    return Problem(flows, ["cu"], assays)


def test_two_products_are_those_of_the_formula() -> None:
    # concentrate = feed * (f - t) / (c - t), by hand
    for feed, (f, c, t), wanted in (
        (1000, (0.008, 0.25, 0.0015), 1000 * 0.0065 / 0.2485),
        (100, (0.05, 0.6, 0.002), 100 * 0.048 / 0.598),
        (72.5, (0.3, 0.7, 0.1), 72.5 / 3),
    ):
        found = solve(separator(feed, f, c, t))
        assert found.flow("CONC") == pytest.approx(wanted, rel=1e-12), (f, c, t)
        assert found.flow("TAIL") == pytest.approx(feed - wanted, rel=1e-12), (f, c, t)
        known = Known(found)
        slopes = (
            (0.01 * feed, wanted / feed),
            (0.01 * f, feed / (c - t)),
            (0.01 * c, -feed * (f - t) / (c - t) ** 2),
            (0.01 * t, feed * (f - c) / (c - t) ** 2),
        )
        sd = math.sqrt(sum((error * slope) ** 2 for error, slope in slopes))
        assert known.flow_deviation("CONC") == pytest.approx(sd, rel=1e-9), (f, c, t)


SURE = 1e-10  # the variance of a figure that a book takes as exact


def exact(value: float) -> Measured:
    return Measured(value, SURE * max(value, 1e-3) ** 2)


def test_two_units_of_a_book() -> None:
    # Felder and Rousseau, Elementary Principles of Chemical Processes, Example 4.4-1: the flows of
    # four streams and their part of A are given; the book's answers are 60.0, 90.0 and 60.0 kg/h,
    # with 0.233 and 0.0833 of A in the first and the last
    flows = [
        Flow("FEED", "env", "ONE", exact(100.0)),
        Flow("TOP", "ONE", "env", exact(40.0)),
        Flow("S1", "ONE", "MIX"),
        Flow("SIDE", "env", "MIX", exact(30.0)),
        Flow("S2", "MIX", "TWO"),
        Flow("OUT", "TWO", "env", exact(30.0)),
        Flow("S3", "TWO", "env"),
    ]
    given = {"FEED": 0.500, "TOP": 0.900, "SIDE": 0.300, "OUT": 0.600}
    found = solve(Problem(flows, ["a"], {(name, "a"): exact(x) for name, x in given.items()}))
    for name, tonnes in (("S1", 60.0), ("S2", 90.0), ("S3", 60.0)):
        assert round(found.flow(name), 1) == tonnes, name
    assert round(found.grade("S1", "a"), 3) == 0.233
    assert round(found.grade("S3", "a"), 4) == 0.0833


def test_a_dilution_of_a_book() -> None:
    # Felder and Rousseau: 20.0 % NaOH diluted with water to 8.0 %; the book's answers are 2.50 kg of
    # product and 1.50 kg of water for each kg of feed
    flows = [
        Flow("FEED", "env", "MIX", exact(1.0)),
        Flow("WATER", "env", "MIX"),
        Flow("PRODUCT", "MIX", "env"),
    ]
    grades = {("FEED", "naoh"): exact(0.200), ("PRODUCT", "naoh"): exact(0.080)}
    grades["WATER", "naoh"] = exact(0.0)
    found = solve(Problem(flows, ["naoh"], grades))
    assert round(found.flow("PRODUCT"), 2) == 2.50
    assert round(found.flow("WATER"), 2) == 1.50


def test_a_cyclone_of_a_book() -> None:
    # Wills, Mineral Processing Technology: a cyclone is fed with 20 t/h of dry solids at 30 % solids,
    # and has 50 % in the underflow and 15 % in the overflow; the book's answer is 14.3 t/h of solids
    # in the underflow
    flows = [
        Flow("FEED", "env", "CYCLONE", exact(20.0)),
        Flow("UNDER", "CYCLONE", "env"),
        Flow("OVER", "CYCLONE", "env"),
    ]
    solids = {"FEED": 0.30, "UNDER": 0.50, "OVER": 0.15}
    grades = {(name, "water"): water_of(exact(part)) for name, part in solids.items()}
    found = solve(Problem(flows, ["water"], grades, ratios=frozenset({"water"})))
    assert round(found.flow("UNDER"), 1) == 14.3
    # the same by the densities of the pulps: quartz of 2.65 t/m3, m = 1 / (s / 2.65 + 1 - s)
    for part in solids.values():
        density = 1 / (part / 2.65 + 1 - part)
        assert solids_of(exact(density), 2.65).value == pytest.approx(part, rel=1e-12)


PULPS = """stream,measure,value,unit,error,solids density,from,to
FEED,solids,20,%,1 %,,,
UNDER,density,1452,,10 kg/m3,2.65 t/m3,,
FLOC,water,2.5,m3,1 %,,,THICKENER
OVER,water,,,,,THICKENER,
"""


def watered(tmp_path: Path, text: str = PULPS) -> Problem:
    """Return a thickener of 100 t of solids with the water of a sheet."""
    flows = (Flow("FEED", "env", "THICKENER", exact(100.0)), Flow("UNDER", "THICKENER", "env"))
    (tmp_path / "pulps.csv").write_text(text)
    return with_water(Problem(flows), str(tmp_path), "may")


def test_water_of_a_thickener_by_hand(tmp_path: Path) -> None:
    # 80 t of water with 20 t of solids: 400 t with 100. A pulp of 1.452 t/m3 is 2.65 * 0.452 /
    # (1.452 * 1.65) = 0.499958 solids, so 100.017 t go on; 2.5 t come with the flocculant
    known = Known(solve(watered(tmp_path)))
    lines = {(line.stream, line.component): line for line in table_lines(known)}
    solids = 2.65 * 0.452 / (1.452 * 1.65)
    left = 100 * (1 - solids) / solids
    over = lines["OVER", "water"]
    assert over.value == pytest.approx(400 + 2.5 - left, rel=1e-9)
    assert lines["UNDER", "solids"].value == pytest.approx(solids, rel=1e-9)
    assert lines["FEED", "water"].value == pytest.approx(400, rel=1e-9)
    # 1 % of 20 % is 0.002, times 100 / 0.2^2; 0.01 t/m3 times 2.65 / (1.452^2 * 1.65) is 0.007618
    errors = (0.002 * 100 / 0.2**2, 0.0076176 * 100 / solids**2, 0.025)
    assert over.sd == pytest.approx(math.hypot(*errors), rel=1e-4)
    assert [node for _, node in over.evidence] == ["THICKENER", "THICKENER"]
    # the program is given solids alone
    assert "OVER" not in session_of(known.system.problem, pulls_of(known.solution, known), "may")


def test_a_sheet_of_pulps_that_can_not_be(tmp_path: Path) -> None:
    for old, new, said in (
        ("FEED,solids,20", "FEED,solids,1200", "line 2, column 3 (value): 1200 % can't be the"),
        ("FEED,solids", "FEAD,solids", "line 2, column 1 (stream): there is no stream FEAD"),
        ("20,%", "20,", "line 2, column 3 (value): the grade 20 has no unit"),
        ("1452", "1.45", "line 3, column 3 (density): 1.45 kg/m3 isn't a density"),
        (
            "1452",
            "452",
            "line 3, column 3 (value): a pulp of 0.452 t/m3 isn't between water and solids",
        ),
        ("2.65 t/m3", "", "line 3, column 6 (solids density): there is no density"),
        ("1 %,,,THICKENER", "0 %,,,THICKENER", "line 4, column 5 (error): '0 %' isn't an error"),
        (
            "FLOC,water",
            "UNDER,water",
            "line 4, column 1 (stream): the water of UNDER is already given above",
        ),
        (",,,,,THICKENER,\n", ",,,,,MILL,\n", "line 5, column 7 (from): there is no unit MILL"),
        ("OVER,water", "OVER,wet", "line 5, column 2 (measure): 'wet' isn't a measure"),
        ("measure", "kind", "no row has the heads stream, measure, value, error"),
    ):
        assert old in PULPS, old
        with pytest.raises(Fault) as raised:
            watered(tmp_path, PULPS.replace(old, new))
        assert said in str(raised.value), (said, str(raised.value))


def test_assays_make_flows_observable() -> None:
    known = Known(solve(separator(1000, 0.008, 0.25, 0.0015)))
    assert known.class_of("FEED") is Class.NONREDUNDANT
    assert known.class_of("CONC") is Class.OBSERVABLE
    assert known.evidence("CONC") == [("", "MILL"), ("cu", "MILL")]
    alone = Known(solve(Problem(separator(1000, 0.01, 0.2, 0.001).flows)))
    assert alone.class_of("CONC") is Class.UNOBSERVABLE
    assert alone.evidence("CONC") == []


def test_a_second_solver_finds_the_same() -> None:
    found = plants.compared(4, 3, most=3)
    assert (found.same, found.other) == (4, 0), found
    assert found.number < 1e-8 and found.deviation < 1e-6, found


def test_the_truth_lies_within_the_deviations() -> None:
    for kind, (one, two, count) in plants.coverage(100, 4).items():
        error = 3 / (100 * min(count, 4)) ** 0.5  # figures of a month hang on each other
        assert abs(one - 0.683) < 0.466 * error, (kind, one)
        assert abs(two - 0.954) < 0.208 * error, (kind, two)


def test_a_concentrator_needs_no_more_meters() -> None:
    known = Known(solve(plants.concentrator(None)))
    for name, _, _, tonnes, copper, _, _ in plants.CONCENTRATOR:
        assert known.class_of(name) is not Class.UNOBSERVABLE, name
        assert known.solution.flow(name) == pytest.approx(tonnes, rel=1e-9), name
        assert known.solution.grade(name, "cu") == pytest.approx(copper / tonnes, rel=1e-9), name
    meters = [flow.name for flow in known.system.problem.flows if flow.measured]
    assert (len(meters), len(known.system.problem.grades)) == (7, 11)


def test_a_flow_is_not_below_nothing() -> None:
    flows = [
        Flow("A", "env", "U", Measured(100, 1)),
        Flow("B", "env", "U", Measured(1, 4)),
        Flow("C", "U", "env", Measured(97, 1)),
    ]
    found = solve(Problem(flows))
    assert found.flow("B") == pytest.approx(0, abs=1e-9)
    assert [bound.said for bound in found.active] == ["B can't flow backwards"]
    assert found.flow("A") == pytest.approx(98.5)
    assays = {(name, "cu"): Measured(0.02, 1e-8) for name in "AC"}
    empty = Known(solve(Problem(flows, ["cu"], assays)))
    assert empty.class_of("B", "cu") is Class.UNOBSERVABLE  # nothing flows, so it has no grade
    gain = [
        Flow("B", "env", "U", Measured(1, 4), either_way=True) if f.name == "B" else f
        for f in flows
    ]
    assert solve(Problem(gain)).flow("B") == pytest.approx(1 - 4 * 4 / 6)


def test_a_bound_tells_nothing_of_what_nothing_determines() -> None:
    # copper goes round from TWO to ONE in two streams that nobody assayed: any amount may
    flows = [
        Flow("FEED", "env", "ONE", Measured(100, 1)),
        Flow("ON", "ONE", "TWO", Measured(130, 1)),
        Flow("BACK", "TWO", "ONE", Measured(30, 1)),
        Flow("OUT", "TWO", "env", Measured(100, 1)),
    ]
    grades = {(name, "cu"): Measured(0.02, 1e-8) for name in ("FEED", "OUT")}
    known = Known(solve(Problem(flows, ["cu"], grades)))
    for name in ("ON", "BACK"):
        assert known.class_of(name, "cu") is Class.UNOBSERVABLE, name
    assert known.held == ()


def test_bounds_that_hold_together_count() -> None:
    # two side streams that nobody meters must add up to -5: both are at nothing, and are known
    flows = [
        Flow("A", "env", "U", Measured(100, 1)),
        Flow("B", "env", "U"),
        Flow("C", "env", "U"),
        Flow("D", "U", "env", Measured(95, 1)),
    ]
    known = Known(solve(Problem(flows)))
    assert len(known.held) == 2
    assert known.solution.flow("A") == pytest.approx(97.5)
    assert known.flow_deviation("A") == pytest.approx(0.5**0.5)
    assert known.class_of("B") is Class.OBSERVABLE
    assert known.flow_deviation("B") < 1e-12


def test_squares_that_fall_without_an_end_are_said() -> None:
    # the 17 streams of the eleventh plant; by solving with the flow of S2 held: from 0 on, the squares
    # fall from 15.13 over 10.9 at 0.1 and 2.56 at 1.5 of the greatest flow to 1.62 at 300
    rng = random.Random(17)
    for number, plant in enumerate(plants.plants(rng, 22, 4), 1):
        if len(plant.flows) > 40:
            continue
        problem = plant.problem(rng, rng.uniform(0.4, 0.9), rng.uniform(0.5, 0.95))
        if number == 11:
            break
    with pytest.raises(NoMinimum) as raised:
        solve(problem)
    assert "S2 can't flow backwards, and the greater it is, the better" in str(raised.value)


def test_bad_input_is_said() -> None:
    metered = Measured(10, 1)
    one, two = Flow("A", "env", "U", metered), Flow("B", "U", "env")
    grade = Measured(0.1, 1e-6)
    pair = {("A", "cu"): grade, ("B", "cu"): grade}
    for make, said in (
        (lambda: Problem([one, one]), "the stream A appears twice"),
        (lambda: Problem([Flow("A", "U", "U")]), "begins and ends at U"),
        (lambda: Problem([Flow("A", "env", "U", Measured(1, 0))]), "A has no error"),
        (lambda: Problem([one, two], ["cu"], {("C", "cu"): grade}), "C, which isn't a stream"),
        (lambda: Problem([one, two], ["cu"], pair | {("A", "au"): grade}), "au, which isn't"),
        (lambda: Problem([one, two], ["cu"], pair | {("A", "cu"): Measured(12, 1)}), "1200 %"),
        (lambda: Problem([one, two], ["cu"], {("A", "cu"): grade}), "assayed in A alone"),
        (lambda: Problem([one, two], ["cu"], {}), "assayed nowhere"),
        (
            lambda: Problem(
                [one, two],
                ["cu", "s"],
                {(n, c): Measured(0.6, 1e-6) for n in "AB" for c in ("cu", "s")},
            ),
            "sum to 120.00 %",
        ),
        (lambda: solve(Problem([Flow("A", "env", "U"), two])), "no flow was measured"),
        (lambda: water_of(Measured(12.0, 1.0)), "1200 % can't be the solids of a pulp"),
        (lambda: water_of(Measured(0.0, 1.0)), "0 % can't be the solids of a pulp"),
        (lambda: solids_of(Measured(1130, 1), 2.65), "1130 t/m3 isn't between water and solids"),
    ):
        with pytest.raises(Fault) as raised:
            make()
        assert said in str(raised.value), said
