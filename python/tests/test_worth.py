"""What meters and assays are worth: against other ways to find it, and the cheapest by all choices."""

from __future__ import annotations

import itertools
import random
from pathlib import Path

import plants
import pytest
from conftest import Desk, example

from plantbal import convert
from plantbal.balance import Flow, Known, Measured, Problem, solve
from plantbal.balance.choose import Aim, best_for, cheapest, redundant, within
from plantbal.balance.worth import Instrument, PeriodState, deviation_of, known_after

OFFERS = [
    Instrument("RGH_CONC", "", 38.0, 30),
    Instrument("SCAV_CONC", "", 6.4, 25),
    Instrument("UNDERFLOW", "", 3.6, 20),
    Instrument("CRUSHED", "", 123.0, 20),
    Instrument("SHIPPED", "", 1.3, 9),
    Instrument("RGH_CONC", "cu", 0.0005, 3),
    Instrument("SCAV_TAIL", "cu", 0.00001, 2),
    Instrument("CLN_TAIL", "", 30.0, 28),
]


@pytest.fixture(name="state", scope="module")
def fixture_state() -> PeriodState:
    return PeriodState(Known(solve(plants.concentrator(None))))


def test_a_meter_more_is_as_if_it_had_been_read(state: PeriodState) -> None:
    problem = plants.concentrator(None)
    flows = [
        Flow(f.name, f.start, f.end, Measured(1900, 38.0**2), f.either_way)
        if f.name == "RGH_CONC"
        else f
        for f in problem.flows
    ]
    grades = {key: grade for key, grade in problem.grades.items() if key[0] != "CLN_TAIL"}
    read = Known(solve(Problem(flows, ["cu"], grades)))
    then = known_after(state, [OFFERS[0]], [Instrument("CLN_TAIL", "cu")])
    for flow in flows:
        for component in ("", "cu"):
            one, other = (deviation_of(each, flow.name, component) for each in (then, read))
            assert one == pytest.approx(other, rel=1e-9), (flow.name, component)


def test_without_assays_it_is_that_of_mass() -> None:
    # A + B = C with errors 3, 4 and 12: A alone 3; with all three 3 * sqrt(1 - 9 / 169)
    flows = [
        Flow("A", "env", "U", Measured(10, 9)),
        Flow("B", "env", "U", Measured(20, 16)),
        Flow("C", "U", "env"),
    ]
    state = PeriodState(Known(solve(Problem(flows))))
    assert deviation_of(state.with_(state.here), "C") == pytest.approx(5)
    more = known_after(state, [Instrument("C", "", 12)], [])
    assert deviation_of(more, "A") == pytest.approx(3 * (1 - 9 / 169) ** 0.5)
    assert deviation_of(known_after(state, [], [Instrument("A")]), "C") == float("inf")
    twice = known_after(state, [Instrument("A", "", 3)], [])  # a second meter beside the first
    assert deviation_of(twice, "A") == pytest.approx(3 / 2**0.5)


def by_all_choices(offers: list[Instrument], aim: Aim) -> int:
    """The cost of the cheapest choice, found by trying each of them."""
    return min(
        sum(each.cost for each in some)
        for count in range(len(offers) + 1)
        for some in itertools.combinations(offers, count)
        if aim(some)
    )


def test_the_cheapest_is_the_cheapest_of_all(state: PeriodState) -> None:
    flows = [flow.name for flow in state.problem.flows]
    for offers, aim in (
        (OFFERS[:6], within(state, {"RGH_CONC": 30.0})),
        (OFFERS[:6], within(state, {"CAKE": 4.0, "SCAV_CONC": 10.0})),
        (OFFERS[3:], redundant(state, flows)),
    ):
        found = cheapest(offers, aim)
        assert aim(found.instruments)
        assert found.is_cheapest
        assert found.cost == by_all_choices(offers, aim)


def test_a_budget_buys_the_least(state: PeriodState) -> None:
    streams, rng = ["RGH_CONC", "CAKE"], random.Random(1)
    choice, ratio = best_for(state, OFFERS, streams, 34)
    assert choice.cost <= 34
    least = state.with_([*state.here, *OFFERS])

    def worst(some: tuple[Instrument, ...]) -> float:
        known = state.with_([*state.here, *some])
        return max(deviation_of(known, each) / deviation_of(least, each) for each in streams)

    assert worst(choice.instruments) == pytest.approx(ratio)
    for _ in range(30):
        some = tuple(each for each in OFFERS if rng.random() < 0.4)
        if sum(each.cost for each in some) <= 34:
            assert worst(some) > ratio / 1.006, some


def test_the_command(say: Desk, tmp_path: Path) -> None:
    plant = tmp_path / "plant.csv"
    convert(example("flotation_plant")).session.to_csv(plant)
    offers = tmp_path / "offers.csv"
    offers.write_text("stream,component,cost,error\nUNDERFLOW,,20000,0.5 %\nCRUSHED,,5,0.5 %\n")
    words = ("advise", plant, offers, "--period", "jul01")
    drawn = tmp_path / "worth.svg"
    what_if = say("advise", plant, "--period", "jul01", "--lose", "PULP", "--draw", drawn)
    assert "redundant → observable" in what_if.out and drawn.read_text().startswith("<?xml")
    assert "fewest: SCAV_CONC, CLN_TAIL" in what_if.out
    bought = say(*words, "--want", "CAKE=4t").out
    assert bought.startswith(
        "1 instrument for 20,000: ± of CAKE at most 4.000 t\nno cheaper choice"
    )
    for more, said in (
        (("--want", "CAKE=0.1t"), "all that could be bought together doesn't reach it"),
        (("--want", "CAKE"), "CAKE has no error"),
        (("--add", "NONE=2%"), "there is no stream NONE"),
        (("--lose", "CRUSHED"), "CRUSHED isn't measured"),
        (("--add", "CAKE:au=2%"), "no grade of au is known"),
        (("--redundant", "--budget", "3"), "there are several aims"),
    ):
        found = say(*words, *more)
        status = 2 if more[0] == "--redundant" else 1
        assert found.status == status and said in found.err, (more, found.err)
