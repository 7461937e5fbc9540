"""Workbooks as an office keeps them, saved by LibreOffice, and what is to be read of them."""

from __future__ import annotations

import datetime
import shutil
import subprocess
from decimal import Decimal
from functools import cache
from pathlib import Path
from tempfile import mkdtemp
from typing import Any

import openpyxl

Rows = list[list[Any]]
DAYS = [datetime.datetime(2024, 1, 1) + datetime.timedelta(at) for at in range(31)]
EVE = datetime.datetime(2023, 12, 31)


def office(source: Path, form: str, room: Path) -> Path:
    """A workbook saved again by LibreOffice in a form, ``xlsx`` or ``ods``."""
    profile = Path(mkdtemp(prefix="office"))
    try:
        words = ["soffice", f"-env:UserInstallation=file://{profile}", "--headless"]
        words += ["--convert-to", form, "--outdir", str(room), str(source)]
        subprocess.run(words, check=True, capture_output=True, timeout=300)
    finally:
        shutil.rmtree(profile, ignore_errors=True)
    return room / f"{source.stem}.{form}"


def written(sheets: dict[str, Rows], path: Path) -> Path:
    """A workbook of rows, as openpyxl writes it."""
    book = openpyxl.Workbook()
    book.remove(book.active)
    for name, rows in sheets.items():
        sheet = book.create_sheet(name)
        for row in rows:
            sheet.append(row)
    book.save(path)
    return path


def level(tank: int, day: int) -> int:
    """The level of a tank in mm at the end of a day; day 0 is the eve."""
    return 5_000 + 1_000 * tank + 37 * day - 411 * (day // 4)


def hourly(hour: int) -> Decimal:
    """What the pipeline's meter shows for an hour of the month."""
    return Decimal(40) + Decimal(hour % 24) / 4


@cache
def daily(day: int) -> tuple[Decimal, ...]:
    """What the daily meters show on a day: crude in t, naphtha in m3, gas oil in t, residue in t."""
    return Decimal(1500 + day), Decimal(400), Decimal(620 + 2 * day), Decimal("333.5")


def refinery() -> dict[str, Rows]:
    """A refinery's January: English and German sheets, titles, units, sums, hours, mm and m.

    A density that changes by month has a sheet of its own, with the months across.
    """
    return {
        "Cover": [["Haldenbek refinery"], ["Month end workbook, January 2024"]],
        "Flow list": [
            ["Haldenbek refinery: flows and meters"],
            [],
            ["Tag", "Stream", "From", "To", "Unit", "Density", "Accuracy", "Remarks"],
            ["", "", "", "", "", "kg/m3", "", ""],
            ["FI-101", "CRUDE", "outside", "CDU", "t", None, "0.5 %", "custody"],
            ["FI-102", "NAPHTHA", "CDU", "outside", "m3", None, "1 %", ""],
            ["FI-103", "GAS OIL", "CDU", "T101", "t", 842, "1 %", "since 2019"],
            ["FI-104", "RESIDUE", "CDU", "T102", "t", None, "1.5 % or 2 t", ""],
            ["FI-201", "PIPELINE", "T102", "outside", "t", None, "0.8 %", "hourly"],
            [None, "DIESEL_SHIP", "T101", "outside", None, None, "0.3 %", "tickets"],
        ],
        "Tanks": [
            ["Tank", "Gauge error [mm]", "Density [kg/m3]"],
            ["T101", 3, 842],
            ["T102", 4, 960],
        ],
        "Strapping tables": [
            ["Strapping tables (issued 2019)"],
            ["Level mm", "T101", "T102"],
            [None, "m3", "m3"],
            *([at * 1000, at * 500, at * 700] for at in range(17)),
        ],
        "Tankstände": [
            ["Tankstände 24:00 Uhr"],
            ["Datum", "T101 [mm]", "T102 [m]"],
            *(
                [
                    f"{EVE + datetime.timedelta(at):%d.%m.%Y}",
                    level(1, at),
                    f"{Decimal(level(2, at)) / 1000:.3f}".replace(".", ","),
                ]
                for at in range(32)
            ),
        ],
        "Dichten": [
            ["Dichten bei 15 °C (kg/m³), Labor"],
            ["Strom", *(datetime.datetime(2023 + at // 12, at % 12 + 1, 1) for at in (11, 12, 13))],
            ["NAPHTHA", 719.2, 720.4, 721],
        ],
        "Daily January 2024": [
            ["Daily meter readings"],
            ["", "Crude", "Naphtha", "Gas oil", "Residue", ""],
            ["Date", "FI-101", "FI-102", "FI-103", "FI-104", "Checked by"],
            ["", "t", "m3", "t", "t", ""],
            *([day, *map(float, daily(at)), "mb"] for at, day in enumerate(DAYS)),
            ["Total", *(float(sum(col)) for col in zip(*map(daily, range(31)))), None],
        ],
        "Pipeline hourly": [
            ["Pipeline, hourly"],
            ["Date", "Hour", "FI-201 [t/h]"],
            *([DAYS[at // 24], at % 24, float(hourly(at))] for at in range(24 * 31)),
        ],
        "Bills of lading": [
            ["B/L no", "Date", "Stream", "Net weight [t]"],
            ["BL-7", datetime.datetime(2024, 1, 12), "DIESEL_SHIP", 5123.456],
            ["BL-8", datetime.datetime(2024, 1, 25), "DIESEL_SHIP", 4987.5],
        ],
    }


def grams_of_streams() -> dict[str, Decimal]:
    """What the month's readings and tickets add up to, in grams, by arithmetic."""
    crude, naphtha, gas_oil, residue = (sum(col) for col in zip(*map(daily, range(31))))
    tonne = 10**6
    return {
        "CRUDE": crude * tonne,
        "NAPHTHA": naphtha * Decimal("0.7204") * tonne,
        "GAS_OIL": gas_oil * tonne,
        "RESIDUE": residue * tonne,
        "PIPELINE": sum(map(hourly, range(24 * 31)), Decimal(0)) * tonne,
        "DIESEL_SHIP": Decimal("10110.956") * tonne,
    }
