"""Mistakes that no test tells: plausible months and the examples are quiet, and each is told."""

from __future__ import annotations

import random
from collections.abc import Callable

import pytest
from conftest import TOP
from refinery_months import months_of, session_of

from plantbal.lint import Finding
from plantbal.lint.silent import exchanged, kinks, scatter
from plantbal.model.ledger import Ledger

RULES = (exchanged, kinks, scatter)
# How many plausible stretches of months; 300 were tried, and all are quiet.
PLAUSIBLE, TRIED = 3, 2


def told(data: bytes) -> list[Finding]:
    ledger = Ledger("session", data)
    return [each for rule in RULES for each in rule(ledger)]


def test_plausible_months_and_the_examples_are_quiet() -> None:
    for seed in range(PLAUSIBLE):
        assert told(session_of(months_of(seed, 1 + seed % 3))) == []
    for path in sorted((TOP / "examples").rglob("*.csv")):
        data = path.read_bytes()
        if b"\nreport," in data:
            assert told(data) == [], path


@pytest.mark.parametrize("seed", range(TRIED))
def test_two_columns_that_changed_places(seed: int) -> None:
    months = months_of(seed, 2)
    readings = months[-1].readings
    readings["NAPHTHA"], readings["COKE"] = readings["COKE"], readings["NAPHTHA"]
    (found,) = told(session_of(months))
    assert (found.code, set(found.names)) == ("exchanged", {"NAPHTHA", "COKE"})
    readings["NAPHTHA"], readings["COKE"] = readings["COKE"], readings["NAPHTHA"]
    assert told(session_of(months)) == []


def with_variance(data: bytes, names: tuple[str, ...], times: float) -> bytes:
    """The variances of some meters' readings by so many times."""
    rows = [row.split(",") for row in data.decode().splitlines()]
    for row in rows:
        if row[0] == "reading" and row[2] in names:
            row[5] = str(round(int(row[5]) * times))
    return "\n".join(",".join(row) for row in [*rows, [""]]).encode()


HDS = ("LGO_F", "H2", "DIESEL", "H2S", "HDS_OFF")


@pytest.mark.parametrize(
    "names, times, word", [(HDS[:1], 20.0, "too great"), (HDS, 1 / 40, "too small")]
)
def test_errors_of_another_size(names: tuple[str, ...], times: float, word: str) -> None:
    """The meters of the plausible months scatter by two fifths of their errors."""
    data = with_variance(session_of(months_of(1)), names, times**2)
    (found,) = told(data)
    assert found.code == "scatter" and word in found.text and set(found.names) == set(names)


def cylinder(level: int) -> int:
    """A horizontal cylinder's millilitres to the chord, near enough: 3 t (1 - t) + .. is smooth."""
    part = level / 4000
    return round(50_000_000 * part * part * (3 - 2 * part)) + level


def table(change: Callable[[list[int]], None]) -> bytes:
    levels = list(range(0, 4001, 200))
    volumes = [cylinder(level) for level in levels]
    change(volumes)
    straps = [f"strap,T,{mm},{ml}" for mm, ml in zip(levels, volumes)]
    return "\n".join(["unit,U", "tank,T,1", *straps, ""]).encode()


def test_a_point_of_a_table() -> None:
    assert told(table(lambda volumes: None)) == []
    rng, count = random.Random(58), 0
    for _ in range(20):
        at = rng.randrange(4, 17)

        def change(volumes: list[int], at: int = at) -> None:
            volumes[at] += round(0.6 * (volumes[at + 1] - volumes[at]))

        found = told(table(change))
        count += [each.code for each in found] == ["strap-slope"]
    assert count == 20
