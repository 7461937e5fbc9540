"""Where an error is, how great, and since when: against other methods, and in made-up months."""

from __future__ import annotations

import random
from collections.abc import Callable
from pathlib import Path

import numpy
import pytest
from conftest import Desk, example, spent
from diagnosed import LIMITS, Guilty, Theory, mistakes, months, told
from plants import ends_of
from refinery import DAYS, TANKS, Month, copy_of, month_of, scaled

from plantbal import run
from plantbal.diagnosis.balances import Balances
from plantbal.diagnosis.days import Days
from plantbal.diagnosis.gross import holes_of, sets_of_equals
from plantbal.diagnosis.kept import session_of_days
from plantbal.diagnosis.unseen import hidden_of, unchecked_of
from plantbal.model.ledger import Ledger
from plantbal.model.studies import studies_of
from plantbal.report.blocks import blocks_of
from plantbal.report.parsing import read_rows
from plantbal.model.topology import Arc

EXAMPLES = ["heat_exchanger_suspect", "bad_meter", "pipeline_suspect", "missed_dip"]


@pytest.mark.parametrize("name", EXAMPLES)
def test_ratio_is_the_programs_test(name: str) -> None:
    """The proved program finds what the weighted squares fall by without a measurement."""
    for block in blocks_of(read_rows(example(f"{name}.out.csv"))):
        balances = Balances.of_block(block)
        found = {each: e.statistic for e in sets_of_equals(balances) for each in e.names}
        for row in block.measure:
            low, high = int(row["low"]) / 1000, int(row["high"]) / 1000
            assert low - 2e-3 <= found[row["stream"]] <= high + 2e-3, (name, row)


def plant(number: int) -> tuple[list[str], list[Arc], dict[str, tuple[int, int]]]:
    """A random plant with its values."""
    rng = random.Random(number)
    nodes = [f"N{at}" for at in range(rng.randint(2, 7))]
    arcs = [Arc(*each) for each in ends_of(rng, nodes)]
    arcs += [Arc(node, node, "env") for node in nodes if rng.random() < 0.4]
    some = [arc for arc in arcs if rng.random() < 0.8]
    values = {arc.name: (rng.randrange(10**9), rng.randrange(1, 10**12)) for arc in some}
    return ["env", *nodes], arcs, values


def parallel(
    nodes: list[str], arcs: list[Arc], values: dict[str, tuple[int, int]]
) -> set[frozenset[str]]:
    """The sets of measurements whose columns are parallel once the others are eliminated."""
    place = {node: at for at, node in enumerate(nodes[1:])}
    columns = {}
    for arc in arcs:
        columns[arc.name] = numpy.zeros(len(place))
        for end, sign in ((arc.from_, -1), (arc.to, 1)):
            if end != "env":
                columns[arc.name][place[end]] += sign
    free = [columns[arc.name] for arc in arcs if arc.name not in values]
    left, sizes, _ = numpy.linalg.svd(numpy.array(free).reshape(-1, len(place)).T)
    basis = left[:, int((sizes > 1e-9).sum()) :].T
    rows = {name: basis @ columns[name] for name in values}
    sizes = {name: numpy.linalg.norm(row) for name, row in rows.items()}
    seen = {name: row / sizes[name] for name, row in rows.items() if sizes[name] > 1e-9}
    return {
        frozenset(other for other in seen if abs(seen[name] @ seen[other]) > 1 - 1e-9)
        for name in seen
    }


def test_sets_of_equals() -> None:
    """They are those whose columns are parallel in the projection of the constraints."""
    for number in range(60):
        given = plant(number)
        found = {frozenset(each.names) for each in sets_of_equals(Balances(*given))}
        assert found == parallel(*given), number


def test_two_errors_without_noise() -> None:
    """Sizes and signs by hand: F2 is 4 t too high, and 3 t of F5 aren't there."""
    arcs = [
        Arc(*each.split())
        for each in ("F1 env A", "F2 A B", "F3 A C", "F4 B D", "F5 C D", "F6 D env", "F7 A D")
    ]
    true = {"F1": 100, "F2": 40, "F3": 35, "F4": 40, "F5": 35, "F6": 100, "F7": 25}
    off = {"F2": 4, "F5": -3}
    values = {name: ((t + off.get(name, 0)) * 10**6, 10**10) for name, t in true.items()}
    holes = holes_of(Balances(["env", "A", "B", "C", "D"], arcs, values))
    assert [hole.names for hole in holes] == [("F2",), ("F5",)]
    for hole, name in zip(holes, off):
        assert hole.error_of(name) == pytest.approx(off[name] * 10**6)


# ---- months


def biased(month: Month) -> Guilty:
    """REFORMATE reads 3 % too much from the 12th on."""
    before = sum(month.readings["REFORMATE", day] for day in range(11, DAYS))
    scaled(month, "REFORMATE", 1.03, 11)
    return Guilty("REFORMATE", 0.03 * before, 11)


def ticket(number: int, twice: bool) -> Callable[[Month], Guilty]:
    """A ticket of the ships is missing, or appears twice."""

    def change(month: Month) -> Guilty:
        at = [at for at, each in enumerate(month.tickets) if each.stream == "DIES_SHIP"][number]
        each = month.tickets[at]
        if twice:
            month.tickets.append(each)
        else:
            del month.tickets[at]
        return Guilty("DIES_SHIP", each.tonnes * (1 if twice else -1), each.day)

    return change


def dipped(tank: str, mm: int) -> Callable[[Month], Guilty]:
    """The dip that closes a tank is off."""

    def change(month: Month) -> Guilty:
        level, density = month.dips[tank, DAYS - 1]
        month.dips[tank, DAYS - 1] = level + mm, density
        more = month.content(tank, level + mm, density) - month.content(tank, level, density)
        return Guilty(tank, more, DAYS - 1)

    return change


def frozen(month: Month) -> Guilty:
    """KFEED repeats for six days what it read on the 5th, when less flowed than on others."""
    month.readings["KFEED", 4] *= 0.92
    month.readings["KERO", 4] -= 0.08 / 0.92 * month.readings["KFEED", 4]
    before = [month.readings["KFEED", day] for day in range(5, 11)]
    for day in range(5, 11):
        month.readings["KFEED", day] = month.readings["KFEED", 4]
    return Guilty("KFEED", 6 * month.readings["KFEED", 4] - sum(before), 5)


CHANGES = {
    "biased": biased,
    "missing": ticket(1, False),
    "twice": ticket(0, True),
    "dip": dipped("T306", -500),
    "frozen": frozen,
}


@pytest.mark.parametrize("name", CHANGES)
def test_month(name: str) -> None:
    """The guilty one is in the first set and named first, with its size and its day."""
    month = copy_of(month_of(1))
    guilty = CHANGES[name](month)
    study, _, holes = told(month.session())
    assert guilty.name == holes[0].names[0], [each.names for each in holes]
    best = holes[0].best
    assert best is not None and best.first - study.period.first == guilty.day, best
    assert abs(best.error / 1e6 - guilty.tonnes) < 4 * best.deviation / 1e6, (best, guilty)


def test_a_month_without_daily_dips() -> None:
    """The set and the size are there; the day is that by which the tank would run over."""
    month = copy_of(month_of(1))
    guilty = ticket(1, False)(month)
    study, _, holes = told(month.session(dips=False))
    assert holes[0].names[0] == guilty.name and not holes[0].findings
    (over,) = holes[0].overruns
    assert over.tank == "T306" and over.is_above
    assert guilty.day <= over.day - study.period.first < guilty.day + 5


def test_nothing_wrong() -> None:
    """A month without a mistake has no hole."""
    assert not told(month_of(1).session())[2]


def test_simulated_months() -> None:
    """The shares of theory are the program's; a tank isn't named first more often than it is wrong."""
    found = months(8, 3)
    rejected = sum(each.rejected for each in found.values())
    power = sum(each.power for each in found.values())
    assert abs(rejected - power) < 4, (rejected, power)
    first = sum(each.first for each in found.values())
    theory = sum(each.first_theory for each in found.values())
    assert abs(first - theory) < 4, (first, theory)
    tank_first = sum(each.tank_first for each in found.values())
    assert tank_first <= sum(each.tank_guilty for each in found.values())


def test_time() -> None:
    """The days of a month of 82 streams and 25 tanks take 5 s at the most."""
    month = copy_of(month_of(1))
    ticket(1, False)(month)
    data = month.session()
    assert spent(lambda: told(data)) < 5


@pytest.mark.parametrize("seed", [1])
def test_mistakes(seed: int) -> None:
    """Of the first eight mistakes each that is rejected is told with set, size and day."""
    found = [each for each in mistakes(seed, 8) if each.rejected]
    assert len(found) == 7 and all(each.is_told for each in found), found


def test_session_of_days(program: Path) -> None:
    """The session of the days has their values, and the program finds the same statistics."""
    ledger = Ledger("a month", month_of(1).session())
    seen = ledger.seen[-1]
    days = Days(ledger.state, seen.view)
    spans = days.spans(TANKS)
    assert len(spans) == DAYS
    text = session_of_days(ledger, seen, spans[:2])
    kept = Ledger("its days", text.encode())
    assert not kept.refused and len(kept.seen) == 2
    output = run(text.encode(), tests=False, program=program)
    for span, study, block in zip(spans, studies_of(kept), output.blocks_in_order):
        nodes, measured = days.measured(span)
        values = {name: each.value for name, each in measured.items()}
        assert {name: each.value for name, each in study.streams.items()} == values
        statistic = Balances.of_measured(nodes, measured.values()).statistic
        assert block.solved is not None
        assert int(block.solved["low"]) <= 1000 * statistic + 1, (span, statistic)
        assert 1000 * statistic - 1 <= int(block.solved["high"]), (span, statistic)


def test_tables(say: Desk) -> None:
    """The published heat exchanger: F2 is 3.925 too high, as 1 of 6 equal meters in 4 balances."""
    path = example("heat_exchanger_suspect.out.csv")
    head, line = say("tables", "holes", path).out.splitlines()
    assert line == "day2,1,F2,3.925000,1.224745,3.20,,"
    assert "EXCHANGER,4.250000,3.01" in say("tables", "balances", path).out
    assert say("tables", "unseen", path).out.splitlines()[1:] == []
    assert "works only with the table holes" in say("tables", "flows", path, "--keep", "x").err


# ---- what can't be seen


def test_unchecked() -> None:
    """HEATERS of the refinery's day is in no balance; what it could hide is bounded by signs."""
    block = blocks_of(read_rows(example("refinery_day.out.csv")))[-1]
    found = {each.name: each for each in unchecked_of(block)}
    alone = {row["name"] for row in block.streams if row["class"] == "nonredundant"}
    assert found.keys() == alone
    for each in found.values():
        flows = {row["name"]: int(row["flow"]) for row in block.streams}
        assert each.most is None or each.most == min(flows[each.above], each.most)


def test_hidden() -> None:
    """An error of the size that can be hidden brings the statistic to the critical value."""
    study, balances, _ = told(month_of(1).session())
    theory = Theory.of(study)
    for each in hidden_of(balances, LIMITS)[:5]:
        size = theory.size(Guilty(each.name, each.grams / 1e6, 0))
        assert size == pytest.approx(LIMITS.of_period(balances.freedom))
