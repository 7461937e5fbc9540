"""Gates before a close: plausible months stop at none, and each of ten mistakes stops its month."""

from __future__ import annotations

import random
from decimal import Decimal

import pytest
from plantbal.faults import InputFault
from plantbal.workbook.cells import Reader
from plantbal.workbook.sheets import Cell, Sheet
from refinery_months import MISTAKES, Mistake, months_of, stops_of

from plantbal.gates import Gate, about, said_of_stop
from plantbal.lint import RULES

# `python3 python/tests/refinery_months.py COUNT` tries more of them.
PLAUSIBLE, TRIED = 3, 2


def test_plausible_months_stop_at_nothing() -> None:
    for seed in range(PLAUSIBLE):
        assert [said_of_stop(stop) for stop in stops_of(months_of(seed, 1 + seed % 2))] == []


@pytest.mark.parametrize("mistake", MISTAKES, ids=lambda each: each.__name__)
def test_mistake_is_stopped(mistake: Mistake) -> None:
    for seed in range(TRIED):
        months = months_of(seed, 1 + seed % 2)
        mistake(months[-1], random.Random(seed))
        found = {stop.gate for stop in stops_of(months)}
        assert found & MISTAKES[mistake], (mistake.__name__, seed, found)


def test_each_gate_has_its_words_and_those_of_names_are_rules() -> None:
    assert all(about(gate) for gate in Gate)
    assert {gate.value for gate in Gate if gate.is_of_names} <= set(RULES)


@pytest.mark.parametrize(
    "level, said",
    [
        ("5.368", "5.368 m or 5.368 cm?"),
        ("812.5", "812.5 cm?"),
        ("5368.4", 5368),
        ("5368", 5368),
    ],
)
def test_a_level_with_decimals_wants_its_unit(level: str, said: str | int) -> None:
    cell = Cell(Sheet("dips.csv", "dips", []), 2, 2, Decimal(level))
    if isinstance(said, int):
        assert Reader().level(cell, top=14_000) == said
        return
    with pytest.raises(InputFault) as fault:
        Reader().level(cell, top=14_000)
    assert said in str(fault.value)
