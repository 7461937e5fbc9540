"""Workbooks that aren't paths: tables by the names of sheets, and open files."""

from __future__ import annotations

import io
from decimal import Decimal
from pathlib import Path
from typing import Any

import pandas
import pytest
from conftest import example

from plantbal import convert
from plantbal.faults import InputFault

STREAMS = pandas.DataFrame(
    {
        "tag": ["F1", "F2"],
        "stream": ["A", "B"],
        "from": ["env", "U"],
        "to": ["U", "env"],
        "error": ["1 % or 0.2 t", "200 kg"],
    }
)
DAYS = pandas.date_range("2024-05-01", periods=2)
WIDE = pandas.DataFrame({"F1": [102.5, 0.1234567], "F2": [100, float("nan")]}, index=DAYS)
# as in a wide frame: 1.025 t squared; 0.2 t squared, twice; 0.1234567 t is 123,457 g but for 0.3 g
ROWS = [
    "reading,F1_2024-05-01,A,2024-05-01,102500000,1050625000000",
    "reading,F1_2024-05-02,A,2024-05-02,123457,40000000000",
    "reading,F2_2024-05-01,B,2024-05-01,100000000,40000000000",
]


@pytest.mark.parametrize(
    "readings",
    [
        WIDE,
        WIDE.tz_localize("Europe/Berlin"),
        WIDE.rename_axis("day").reset_index(),
        WIDE.set_index(DAYS.date),
        WIDE.astype("Float64"),
        WIDE.assign(F2=[Decimal("100.0"), None]),
    ],
)
def test_frames(readings: pandas.DataFrame) -> None:
    found = convert({"streams": STREAMS, "readings": readings})
    assert found.said() == []
    rows = [",".join(row) for row in found.session if row[0] == "reading"]
    assert sorted(rows) == ROWS
    assert any("1 figure was rounded to whole grams" in note for note in found.notes), found.notes


def test_folder_as_frames() -> None:
    """A shipped workbook, read as texts: the session of the folder."""
    folder = example("refinery_workbook")
    frames = {path.stem: pandas.read_csv(path, dtype=str) for path in sorted(folder.glob("*.csv"))}
    assert convert(frames).session.to_csv() == convert(folder).session.to_csv()


def test_open_file(tmp_path: Path) -> None:
    path = tmp_path / "plant.xlsx"
    with pandas.ExcelWriter(path) as book:
        STREAMS.to_excel(book, sheet_name="streams", index=False)
        WIDE.rename_axis("day").to_excel(book, sheet_name="readings")
    wanted = convert(path).session.to_csv()
    with open(path, "rb") as file:
        assert convert(file).session.to_csv() == wanted
    assert convert(io.BytesIO(path.read_bytes())).session.to_csv() == wanted
    with open(path, encoding="latin-1") as text, pytest.raises(InputFault, match="mode 'rb'"):
        convert(text)  # type: ignore[arg-type]


@pytest.mark.parametrize(
    "given, said",
    [
        (3, "a int isn't a workbook: give a path, an open xlsx file, or DataFrames"),
        ({"streams": 3}, "streams is of type int: give a pandas.DataFrame"),
        ({}, "there is no sheet streams"),
        (io.BytesIO(b"x"), "the workbook: this isn't an xlsx or ods workbook"),
        ({"streams": STREAMS, "readings": WIDE * 1e308 * 10}, r"column 2 \(F1\): it is inf"),
        ({"streams": STREAMS.assign(error=[[], 1])}, r"streams: line 2, column 5 \(error\): it is"),
    ],
)
def test_faults(given: Any, said: str) -> None:
    with pytest.raises(InputFault, match=said):
        convert(given)


def test_fault_in_a_table() -> None:
    readings = WIDE.astype(object)
    readings.iloc[1, 0] = "1O2"
    said = convert({"streams": STREAMS, "readings": readings}).said()
    assert said and said[0].startswith(
        "readings: line 3, column 2 (F1): '1O2' isn't a number"
    ), said
