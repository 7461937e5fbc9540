"""Frames as historians give them: days down, tags across, floats, zones; rounded with a note."""

from __future__ import annotations

import datetime
import re
from collections.abc import Callable
from decimal import Decimal
from typing import Any

import numpy
import pandas
import pytest

from plantbal import Session
from plantbal.faults import Fault, InputFault, Refusal

STREAMS = pandas.DataFrame(
    [("A", "env", "U", "1", "10FI01.PV"), ("B", "U", "env", "1", "10FI02.PV")],
    columns=["name", "from", "to", "deviation_tonnes", "tag"],
)
DAYS = pandas.DatetimeIndex(["2024-05-01", "2024-05-02"])
ERROR = "1 % or 0.2 t"
GRAM: dict[str, Any] = {"round": "gram", "error": ERROR}
# 1 % of 102.5 t is 1.025 t; of 0.1234567 t it is less than 0.2 t; of 304,000 t it is 3,040 t, whose
# square in grams is above 2^63.
FLOATS = {"A": [102.5, 0.1234567], "B": [304000.0, float("nan")]}
ROWS = [
    "reading,A_2024-05-01,A,2024-05-01,102500000,1050625000000",
    "reading,A_2024-05-02,A,2024-05-02,123457,40000000000",
    "reading,B_2024-05-01,B,2024-05-01,304000000000,9241600000000000000",
]
NOTES = [
    "readings: 1 figure was rounded to whole grams, by at most 0.3 g, the first in row 2024-05-02, "
    "column A",
    "readings: 1 figure is missing, the first in row 2024-05-02, column B",
]


def made(readings: pandas.DataFrame, streams: pandas.DataFrame = STREAMS, **how: Any) -> Session:
    return Session.from_frames(streams=streams, readings=readings, **how)


def readings_in(session: Session) -> list[str]:
    return [row for row in session.to_csv().splitlines() if row.startswith("reading")]


@pytest.mark.parametrize(
    "frame",
    [
        pandas.DataFrame(FLOATS, index=DAYS),
        pandas.DataFrame(FLOATS, index=DAYS.tz_localize("Europe/Berlin")),
        pandas.DataFrame(FLOATS, index=DAYS.tz_localize("America/New_York")),
        pandas.DataFrame(FLOATS, index=DAYS.date),
        pandas.DataFrame(FLOATS, index=["2024-05-01", "2024-05-02"]),
        pandas.DataFrame({"date": DAYS, **FLOATS}),
        pandas.DataFrame({"day": DAYS.tz_localize("UTC"), **FLOATS}),
        pandas.DataFrame(FLOATS, index=DAYS).astype("Float64"),
        pandas.DataFrame(FLOATS, index=DAYS).rename(columns={"A": "10FI01.PV", "B": "10FI02.PV"}),
    ],
)
def test_wide(frame: pandas.DataFrame) -> None:
    session = made(frame, **GRAM)
    assert readings_in(session) == ROWS
    if "10FI01.PV" not in frame:
        assert session.notes == NOTES
    assert frame.equals(frame.copy())


def test_errors_of_each_stream() -> None:
    error = {"A": "1 %", "B": "200 kg"}
    session = made(pandas.DataFrame(FLOATS, index=DAYS)[:1], round="gram", error=error)
    assert [row.split(",")[-1] for row in readings_in(session)] == ["1050625000000", "40000000000"]


@pytest.mark.parametrize(
    "column, values",
    [
        ("tonnes", pandas.array([102, 304], dtype="Int64")),
        ("tonnes", [102, 304]),
        ("tonnes", [102.0, 304.0]),
        ("tonnes", [Decimal("102"), Decimal("304.000000")]),
        ("tonnes", ["102", "304.0"]),
        ("grams", [Decimal("102000000"), Decimal("3.04e8")]),
        ("grams", pandas.array([102000000, 304000000], dtype="Int64")),
    ],
)
def test_long(column: str, values: Any) -> None:
    """A row for each reading: the same rows, with an error and with the variances of it."""
    frame = pandas.DataFrame({"stream": ["A", "B"], "day": DAYS[0], column: values})
    rows = [
        "reading,A_2024-05-01,A,2024-05-01,102000000,1040400000000",
        "reading,B_2024-05-01,B,2024-05-01,304000000,9241600000000",
    ]
    session = made(frame, **GRAM)
    assert (readings_in(session), session.notes) == (rows, [])
    if not isinstance(values, list) or not isinstance(values[0], float):
        exact = frame.assign(variance=[1040400000000, 9241600000000])
        assert readings_in(made(exact)) == rows


NAIVE = pandas.DataFrame(FLOATS, index=DAYS)


@pytest.mark.parametrize(
    "frame, how, said",
    [
        (NAIVE, {"error": ERROR}, "row 2024-05-01, column A: 102.5 is a float, .* round='gram'"),
        (NAIVE, {"round": "gram"}, "nothing says how good the readings are: use error="),
        (NAIVE, {"round": "kg", "error": ERROR}, "round is 'kg': use 'gram', or leave it out"),
        (NAIVE, {"round": "gram", "error": "1"}, "'1' isn't an error with its unit"),
        (NAIVE, {"round": "gram", "error": {"A": "1 %"}}, "there is no error of B"),
        (NAIVE.reset_index(drop=True), GRAM, "no column stream, and no days are in the index"),
        (NAIVE[[]], GRAM, "there is no column of readings"),
        (NAIVE[["A", "A"]], GRAM, "there are two columns A"),
        (NAIVE * float("inf"), GRAM, "column A: tonnes is Infinity, which isn't a number"),
        (NAIVE * 1e300, GRAM, "tonnes is 1.025e.302: at most 10,000,000 t"),
        (NAIVE.shift(6, freq="h"), GRAM, "with a time of the day"),
    ],
)
def test_faults(frame: pandas.DataFrame, how: dict[str, Any], said: str) -> None:
    with pytest.raises(InputFault, match=said):
        made(frame, **how)


def test_unknown_tag() -> None:
    with pytest.raises(Refusal, match="row 2024-05-01, column C: .*there is no stream C"):
        made(NAIVE.rename(columns={"B": "C"}), **GRAM)


def test_error_twice() -> None:
    frame = pandas.DataFrame({"stream": ["A"], "day": DAYS[:1], "tonnes": [1], "variance": [1]})
    with pytest.raises(Fault, match="error is given, and a column variance too"):
        made(frame, error=ERROR)


@pytest.mark.parametrize(
    "columns, said",
    [
        (
            {"deviation_tonnes": "0"},
            "streams: row 0, column deviation_tonnes: stream A: deviation_tonnes is '0', which makes"
            " base 0 .refused 4, number.: a number of tonnes above 0, and up to 3,162.27766",
        ),
        ({"from": "X"}, "streams: row 0, column from: stream A: there is no unit or tank X"),
    ],
)
def test_own_columns(columns: dict[str, str], said: str) -> None:
    """A refusal names the table's own column, in a session that isn't strict too."""
    streams, units = STREAMS.assign(**columns), ["U"]
    with pytest.raises(Refusal, match=said):
        Session.from_frames(streams=streams, units=units)
    kept = Session.from_frames(streams=streams, units=units, strict=False)
    assert re.search(said, str(kept.refused[0]))


def test_own_columns_of_readings() -> None:
    frame = pandas.DataFrame({"stream": "A", "date": ["2024-05-32"], "tonnes": 1, "variance": 1})
    with pytest.raises(Refusal, match="readings: row 0, column date: reading A_2024-05-32"):
        made(frame)


@pytest.mark.parametrize("kind", [numpy.int64, numpy.uint8, int, Decimal, str])
def test_numbers_of_any_type(kind: Callable[[int], Any]) -> None:
    """A whole number is one, whoever made it; a truth value is none."""
    session = Session.from_frames(streams=STREAMS, units=["U"])
    session.reading("a", "A", "2024-05-01", tonnes=kind(3), deviation_tonnes=kind(1))
    assert list(session)[-1][-2:] == ("3000000", "1000000000000")
    for wrong in (True, numpy.True_, numpy.float64(3)):
        with pytest.raises(Fault, match="floats are not exact"):
            session.reading("b", "A", "2024-05-02", tonnes=wrong, deviation_tonnes=1)


DAYS_OF_A_ZONE = [
    pandas.Timestamp("2024-05-01", tz="Europe/Berlin"),
    pandas.Timestamp("2024-04-30 22:00", tz="UTC").tz_convert("Europe/Berlin"),
    datetime.datetime(2024, 5, 1, tzinfo=datetime.timezone(datetime.timedelta(hours=1))),
]


@pytest.mark.parametrize("day", DAYS_OF_A_ZONE)
def test_midnight_of_a_zone(day: datetime.datetime) -> None:
    """Midnight of a zone begins a day there, in an index, a column and by itself."""
    session = Session.from_frames(streams=STREAMS, units=["U"])
    session.reading("a", "A", day, tonnes=1, deviation_tonnes=1)
    frame = pandas.DataFrame({"stream": "A", "day": [day], "tonnes": 1, "variance": 1})
    for found in (session, made(frame)):
        assert [row[3] for row in found if row[0] == "reading"] == ["2024-05-01"]
