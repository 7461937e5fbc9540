"""Wet tonnes become dry ones by their moisture: a day's, a shift's, a ticket's; or are refused."""

from __future__ import annotations

from fractions import Fraction
from pathlib import Path
from typing import Any

import pytest
from books import Rows, Sheets, folder

from plantbal import convert
from plantbal.session import Session

T = 10**6


def mill(moistures: Rows | None, unit: str = "wmt", **more: Any) -> Sheets:
    """A belt of wet ore over three days, and trucks of wet concentrate."""
    sheets: Sheets = {
        "streams": [
            ["tag", "stream", "from", "to", "kind", "unit", "error"],
            ["W-1", "ORE", "env", "MILL", "", unit, "1 %"],
            ["", "CAKE", "MILL", "env", "batch", "wmt", "0.5 t"],
            ["", "TAILS", "MILL", "env", "plain", "", ""],
        ],
        "periods": [["name", "first", "last"], ["p", "2024-07-01", "2024-07-03"]],
        "readings": [["day", "W-1"], *([f"2024-07-0{day}", "1000"] for day in (1, 2, 3))],
        **more,
    }
    if moistures is not None:
        sheets["moistures"] = [["stream", "id", "day", "last", "moisture", "error", "amount"]]
        sheets["moistures"] += moistures
    return sheets


def daily(*parts: str, error: str = "5 %") -> Rows:
    return [
        ["ORE", "", f"2024-07-0{day}", "", part, error, ""] for day, part in enumerate(parts, 1)
    ]


def rows(session: Session, kind: str) -> list[tuple[int, int]]:
    """The grams and the variances of the facts of a kind."""
    return [(int(row[-2]), int(row[-1])) for row in session if row[0] == kind]


def variance(wet: int, moisture: str, sd: str, meter: str) -> Fraction:
    """By hand: (1 - m)^2 of the meter's, and the tonnes' square times the moisture's."""
    m, s, v = Fraction(moisture), Fraction(sd), Fraction(meter)
    return ((1 - m) ** 2 * (v * T) ** 2) + (wet * T) ** 2 * s**2


def test_a_day_a_shift_several_days(tmp_path: Path) -> None:
    shifts = [
        ["ORE", "", "2024-07-01", "", "8 %", "5000 ppm", "600"],
        ["ORE", "", "2024-07-01", "", "6 %", "5000 ppm", "200"],
    ]
    for moistures, wanted in (
        (
            daily("8 %", "7.5 %", "10 %"),
            [
                (920 * T, variance(1000, "0.08", "0.004", "10")),
                (925 * T, variance(1000, "0.075", "0.00375", "10")),
                (900 * T, variance(1000, "0.1", "0.005", "10")),
            ],
        ),
        # three days have one moisture, whose error they share: 3 * its part of each is that of 3 sums
        (
            [["ORE", "", "2024-07-01", "2024-07-03", "8 %", "5 %", ""]],
            [
                (
                    920 * T,
                    variance(1000, "0.08", "0", "10") + 3 * variance(1000, "0.08", "0.004", "0"),
                )
            ]
            * 3,
        ),
        # (600 * 8 % + 200 * 6 %) / 800 = 7.5 %, with 5000 ppm * sqrt(600^2 + 200^2) / 800
        (
            [*shifts, *daily("0 %", "8 %", "8 %")[1:]],
            [
                (
                    925 * T,
                    variance(1000, "0.075", "0", "10")
                    + (1000 * T) ** 2 * Fraction("0.005") ** 2 * Fraction(40, 64),
                ),
                *[(920 * T, variance(1000, "0.08", "0.004", "10"))] * 2,
            ],
        ),
    ):
        found = convert(folder(tmp_path / "mill", mill(moistures)))
        assert found.ok, found.said()
        booked = rows(found.session, "reading")
        assert [grams for grams, _ in booked] == [grams for grams, _ in wanted]
        for (_, mine), (_, by_hand) in zip(booked, wanted):
            assert 0 <= mine - by_hand < 1, (mine, by_hand)


def test_tickets_of_one_moisture_share_its_error(tmp_path: Path) -> None:
    tickets = [["id", "stream", "first", "amount"]]
    tickets += [[f"t{n}", "CAKE", "2024-07-02", wet] for n, wet in ((1, "30"), (2, "10"))]
    tickets += [["t3", "CAKE", "2024-07-03", "20"]]
    moistures = [
        *daily("8 %", "8 %", "8 %"),
        ["CAKE", "", "2024-07-02", "", "9 %", "2000 ppm", ""],
        ["", "t3", "", "", "10 %", "2000 ppm", ""],
    ]
    found = convert(folder(tmp_path / "mill", mill(moistures, tickets=tickets)))
    assert found.ok, found.said()
    booked = sorted(rows(found.session, "transfer"))
    assert [grams for grams, _ in booked] == [9_100_000, 18_000_000, 27_300_000]
    meters = (Fraction("0.91") ** 2) * (T // 2) ** 2
    shared = sum(v for grams, v in booked if grams != 18_000_000) - 2 * meters
    assert 0 <= shared - (40 * T * Fraction("0.002")) ** 2 < 2  # as of 40 t at once
    assert found.notes[-1] == "CAKE: 3 wet figures are booked dry, by moistures of 9 % to 10 %"


@pytest.mark.parametrize(
    ("sheets", "said"),
    [
        (mill(None), "1000 wmt of W-1 (ORE) have no moisture on 2024-07-01; add it to a sheet"),
        (mill(daily("8 %")), "1000 wmt of W-1 (ORE) have no moisture on 2024-07-02"),
        (mill(daily("1200 %")), "1200 % isn't a moisture"),
        (mill(daily("100 %")), "100 % isn't a moisture"),
        (mill(daily("-2 %")), "-2 % isn't a moisture"),
        (mill(daily("0.08")), "the grade 0.08 has no unit"),
        (mill(daily("8 %", "8 %", "8 %"), unit="t"), "no figure of ORE is in wmt"),
        (mill([*daily("8 %"), *daily("9 %")]), "has a moisture of these days already"),
        (
            mill(
                daily("8 %", "8 %", "8 %"),
                tickets=[["id", "stream", "first", "amount"], ["t1", "CAKE", "2024-07-02", "30"]],
            ),
            "30 wmt of CAKE have no moisture in the ticket t1",
        ),
        (
            mill([["ORE", "", "2024-07-03", "2024-07-01", "8 %", "5 %", ""]]),
            "there is no day before the last one",
        ),
    ],
)
def test_what_cannot_be_is_said(tmp_path: Path, sheets: Sheets, said: str) -> None:
    found = convert(folder(tmp_path / "mill", sheets))
    assert not found.ok
    flat = [line.replace(": add", "; add") for line in found.said()]
    assert any(said in line for line in flat), (said, flat)
