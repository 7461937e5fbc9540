"""Outputs: what is read is what was written, period and round in every row, exact numbers."""

from __future__ import annotations

import io
import os
import sqlite3
import subprocess
import sys
from collections.abc import Callable
from decimal import Decimal
from pathlib import Path

import openpyxl
import pandas
import pytest
from conftest import spent
from hypothesis import given, settings
from hypothesis import strategies as st

from plantbal import InputFault, Output, read_report
from plantbal.faults import Fault
from plantbal.report.parsing import csv_fields, parse_rows
from plantbal.report.frames import whole_numbers
from plantbal.report.output import NotOk, parse_report
from plantbal.schema import schema

TOP = Path(__file__).resolve().parents[2]
OUTPUTS = sorted(TOP.glob("examples/**/*.out.csv"))


def example(name: str) -> Output:
    return read_report(TOP / "examples" / name)


@pytest.mark.parametrize("path", OUTPUTS, ids=lambda path: path.name)
def test_back_to_csv(path: Path) -> None:
    """What is read is written back, byte for byte."""
    assert read_report(path).to_csv() == path.read_text(encoding="utf-8")


def test_json_to_csv() -> None:
    found = example("heat_exchanger_suspect.jsonl").to_csv()
    wanted = TOP / "examples/heat_exchanger_suspect.out.csv"
    assert found == wanted.read_text(encoding="utf-8")


@pytest.mark.parametrize("path", OUTPUTS, ids=lambda path: path.name)
def test_rows_of_some_kinds(path: Path) -> None:
    """Some kinds of rows are those of all rows; the others are looked at all the same."""
    text, kinds = path.read_text(encoding="utf-8"), {"report", "solved", "refused", "edit"}
    wanted = [row for row in parse_rows("x", text) if row["row"] in kinds]
    assert parse_rows("x", text, kinds) == wanted
    assert parse_rows("x", text.replace("\n", "\r\n"), kinds) == wanted
    with pytest.raises(InputFault, match="a node row has 3 columns, this one has 2"):
        parse_rows("x", f"{text}node,env\n", kinds)
    with pytest.raises(InputFault, match=r"line 1: 1.5E\+12 is how a spreadsheet"):
        parse_rows("x", f"solved,1,converged,2,0,1,3,1.5E+12\n{text}", kinds)


def test_json_rows_of_some_kinds() -> None:
    text = (TOP / "examples/heat_exchanger_suspect.jsonl").read_text(encoding="utf-8")
    assert {row["row"] for row in parse_rows("x", text, {"taken", "stop"})} == {"taken", "stop"}


def test_older_form_stays() -> None:
    path = TOP / "examples/steam_of_another_program.csv"
    output = read_report(path)
    assert output.to_csv() == path.read_text(encoding="utf-8")
    assert output.streams["least_lo"].isna().all()


def test_period_and_round_in_every_row() -> None:
    output = example("heat_exchanger_suspect.jsonl")
    for name in ("streams", "nodes", "solved", "tests"):
        table = getattr(output, name)
        assert list(table.columns[:3]) == ["block", "period", "round"]
        assert sorted(set(table["round"])) == [0, 1]
    book = example("concentrator/tested.out.csv")
    assert list(dict.fromkeys(book.streams["period"])) == ["2024-04", "2024-05", "2024-06"]


def test_streams() -> None:
    streams = example("refinery_day.out.csv").streams.set_index("name")
    assert streams.loc["KEROSENE", "flow"] == 1_180_680_924
    assert streams.loc["RESIDUE", "value"] is pandas.NA
    assert str(streams["flow"].dtype) == "Int64"
    assert streams.loc["SLOP", "class"] == "unobservable"


def test_tonnes() -> None:
    output = example("refinery_day.out.csv")
    exact = output.tonnes().set_index("name")["flow"]
    assert exact["KEROSENE"] == Decimal("1180.680924")
    floats = output.tonnes(exact=False).set_index("name")["flow"]
    assert floats["KEROSENE"] == pytest.approx(1180.680924)
    rounds = example("heat_exchanger_suspect.jsonl").tonnes(anyway=True)
    assert set(rounds["round"]) == {1}


def test_tests() -> None:
    tests = example("heat_exchanger_suspect.jsonl").tests
    whole = tests[tests["test"] == "global"]
    assert list(whole["verdict"]) == ["reject", "accept"]
    assert list(whole["low"]) == [16674, 6403]
    measure = tests[(tests["test"] == "measure") & (tests["name"] == "F2")]
    assert measure["low"].tolist() == [10270]
    nodal = tests[(tests["test"] == "nodal") & (tests["name"] == "EXCHANGER")]
    assert nodal["net"].tolist() == [4_250_000]


def test_blocks_refused_history() -> None:
    blocks = example("heat_exchanger_suspect.jsonl").blocks
    assert blocks["taken"].tolist() == ["", "F2"]
    assert blocks["last"].tolist() == [False, True]
    month = example("month_end.out.csv")
    assert month.refused["at"].tolist() == [21, 26]
    assert month.refused["remedy"].str.len().min() > 0
    assert set(month.history.columns) == {"period", "state", "at", "word", "id", "reason"}
    assert set(month.history["period"]) == {"mar30", "mar31"}


def changed(name: str, old: str, new: str) -> Output:
    text = (TOP / "examples" / name).read_text(encoding="utf-8")
    assert old in text
    return parse_report(text.replace(old, new))


# An output, and why it isn't ok; nothing where it is.
STATES = [
    (lambda: example("refinery_day.out.csv"), ""),
    (lambda: example("heat_exchanger.out.csv"), ""),
    (lambda: example("heat_exchanger_suspect.out.csv"), "day2 is rejected by the global test"),
    (lambda: example("month_end.out.csv"), "2 rows of the session were refused"),
    (lambda: example("crude_unit_design.out.csv"), "there is no report"),
    (lambda: parse_report(""), "there is no report"),
    (lambda: parse_report("over,may,TANKER\n"), "there is no report; the total of TANKER in may"),
    (lambda: changed("two_meters.out.csv", "converged", "unconverged"), "d1 isn't converged"),
    (lambda: changed("two_meters.out.csv", "end,d1,0\n", ""), "d1 is cut off"),
    (lambda: example("handed_in.out.csv"), "a check finds fault with 3"),
]


@pytest.mark.parametrize(
    "made, why", STATES, ids=[case[1] or f"ok{i}" for i, case in enumerate(STATES)]
)
def test_ok(made: object, why: str) -> None:
    output: Output = made()  # type: ignore[operator]
    assert output.ok == (why == "")
    assert why in "; ".join(output.why)
    if why:
        with pytest.raises(NotOk) as caught:
            output.tonnes()
        assert caught.value.output is output
        with pytest.raises(NotOk):
            output.require()
        output.tonnes(anyway=True)


# Texts that are no output, and what is said of them.
FAULTY = [
    ("unit,U\n", "line 1, column 1: plantbal writes no row of the kind 'unit': this is a session"),
    ("report;p\n", "save it with commas"),
    ("report,p,0,1,0,10,5000\nnode,env\n", "line 2: a node row has 3 columns, this one has 2"),
    (
        "report,p,0,2,1,10,5000\nnode,env,0\nnode,U,1.5E+12\n",
        "line 3: 1.5E+12 is how a spreadsheet writes long numbers: take the file as",
    ),
    ('{"row":"end"}\n', "line 1: the keys of the row end are period, round, row"),
    ('{"row":"end"\n', "line 1, column 13: not a JSON object"),
    ('{"row":"unit"}\n', "its \"row\" is 'unit'"),
    ('{"period":"p","round":1,"row":"end"}\n', "a value isn't text"),
]


@pytest.mark.parametrize("text, said", FAULTY, ids=[case[1] for case in FAULTY])
def test_faulty(text: str, said: str) -> None:
    with pytest.raises(InputFault) as caught:
        parse_report(text, "x.csv")
    assert said in str(caught.value)
    assert str(caught.value).startswith("x.csv: ")


def test_no_utf8(tmp_path: Path) -> None:
    path = tmp_path / "r.csv"
    path.write_text("report,p\n", encoding="utf-16")
    with pytest.raises(InputFault, match="this is UTF-16"):
        read_report(path)
    with pytest.raises(InputFault, match="No such file"):
        read_report(tmp_path / "none")


@given(st.lists(st.one_of(st.none(), st.integers(-(2**80), 2**80), st.integers(-9, 9))))
def test_whole_numbers(values: list[int | None]) -> None:
    column = whole_numbers(values)
    assert [None if value is pandas.NA else value for value in column] == values


def test_numbers_beyond_64_bits(tmp_path: Path) -> None:
    output = changed("two_meters.out.csv", "node,U,-72057594038", f"node,U,{2**100}")
    assert output.nodes["price"].tolist() == [0, 2**100]
    output.to_sqlite(tmp_path / "o.sqlite")
    with sqlite3.connect(tmp_path / "o.sqlite") as base:
        assert base.execute("select price from nodes").fetchall() == [("0",), (str(2**100),)]


def test_sqlite(tmp_path: Path) -> None:
    path = tmp_path / "o.sqlite"
    output = example("heat_exchanger_suspect.jsonl")
    output.to_sqlite(path)
    with sqlite3.connect(path) as base:
        query = "select flow from streams where name = 'F2' and round = 1"
        assert base.execute(query).fetchall() == [(64_523_599,)]
    assert [p.name for p in tmp_path.iterdir()] == ["o.sqlite"]


def test_xlsx(tmp_path: Path) -> None:
    path = tmp_path / "o.xlsx"
    example("refinery_day.out.csv").to_xlsx(path)
    book = openpyxl.load_workbook(path)
    assert {"tonnes", "streams", "nodes", "blocks", "classes"} <= set(book.sheetnames)
    rows = list(book["streams"].iter_rows(values_only=True))
    at = {name: place for place, name in enumerate(rows[0])}
    kerosene = next(row for row in rows if row[at["name"]] == "KEROSENE")
    assert kerosene[at["flow"]] == 1_180_680_924
    assert all(cell.data_type != "f" for sheet in book for row in sheet.rows for cell in row)


def test_xlsx_keeps_digits(tmp_path: Path) -> None:
    """A spreadsheet keeps fifteen digits: a column with more is one of texts."""
    path = tmp_path / "o.xlsx"
    example("flotation_shift.out.csv").to_xlsx(path)
    rows = list(openpyxl.load_workbook(path)["streams"].iter_rows(values_only=True))
    at = {name: place for place, name in enumerate(rows[0])}
    feed = next(row for row in rows if row[at["name"]] == "FEED")
    assert feed[at["variance"]] == "43201000000000000"
    assert feed[at["flow"]] == 36_083_859_562


def test_files_are_whole_or_not_there(tmp_path: Path, monkeypatch: pytest.MonkeyPatch) -> None:
    output = example("two_meters.out.csv")
    path = tmp_path / "o.xlsx"
    path.write_bytes(b"before")

    def stop(*_: object, **__: object) -> None:
        raise KeyboardInterrupt

    monkeypatch.setattr(pandas.DataFrame, "to_excel", stop)
    with pytest.raises(BaseException):
        output.to_xlsx(path)
    assert path.read_bytes() == b"before"
    assert [p.name for p in tmp_path.iterdir()] == ["o.xlsx"]
    with pytest.raises(Fault, match="No such file"):
        output.to_csv(tmp_path / "none" / "o.csv")


def large(streams: int) -> str:
    """A report of many streams, with tests, in the form of the program's."""
    names = [f"S{i:04}" for i in range(streams)]
    rows = [f"report,p,0,1001,{streams},10,5000", "node,env,0"]
    rows += [f"node,U{i},{i * 12345678901}" for i in range(1000)]
    for i, name in enumerate(names):
        parts = " ".join(f"+{names[(i + j) % streams]}" for j in range(12))
        ends = f"U{i % 1000},U{(i + 1) % 1000}"
        numbers = f"{10**10 + i},{10**14 + i},redundant,{10**10},{10**10 - 5},{10**10 + 5}"
        rows.append(
            f"stream,{name},{ends},{numbers},{10**10 - 2},{10**10 + 2},cut,U1 U2 U3,{parts}"
        )
    rows.append("solved,755,converged,7239,0,999,2019,2020")
    rows += [f"measure,{name},123,124,3841,accept" for name in names]
    return "\n".join([*rows, "end,p,0"]) + "\n"


def seconds(*calls: Callable[[], object]) -> list[float]:
    """The least processor time of each call; they take turns, so that all find the same machine."""
    least = [float("inf")] * len(calls)
    for _ in range(9):
        for place, call in enumerate(calls):
            least[place] = min(least[place], spent(call))
    return least


def tell_times() -> None:
    """Print what pandas takes to read the bytes of a report, and what its tables take."""
    text = large(2000)
    data = text.encode()

    def tables() -> None:
        output = parse_report(text)
        assert len(output.streams) == 2000 and len(output.tests) == 2000
        assert len(output.nodes) == 1001 and len(output.blocks) == 1

    print(*seconds(lambda: pandas.read_csv(io.BytesIO(data), header=None, names=range(16)), tables))


def test_reading_is_quick() -> None:
    """A report of 2,000 streams takes at most three times what pandas takes to read its bytes.

    It is measured in a process of its own, as whoever reads a report has one: in a process that
    holds what thousands of tests left, the system has to find new memory for each report.
    """
    words = [sys.executable, "-c", "import test_output; test_output.tell_times()"]
    environment = os.environ | {"PYTHONPATH": os.pathsep.join(sys.path)}
    done = subprocess.run(words, env=environment, capture_output=True, text=True, check=True)
    plain, own = map(float, done.stdout.split())
    # the bound is three times; processors that are shared tell it within a fifth or so
    assert own < 3.6 * plain


@settings(max_examples=30, deadline=None)
@given(st.data())
def test_any_rows(data: st.DataObject) -> None:
    """Rows of any texts that the columns take are read as they were written."""
    row = data.draw(st.sampled_from(list(schema().output.values())))
    texts = st.text(st.characters(min_codepoint=32, max_codepoint=126), max_size=5)
    fields = [row.kind]
    for column in row.columns:
        if column.type == "number":
            fields.append(str(data.draw(st.integers(-9, 9))))
        elif column.type == "word":
            fields.append(data.draw(st.sampled_from(column.words)))
        else:
            fields.append(data.draw(texts))
    read = parse_report(parse_report_line(fields))
    assert [csv_fields(values) for values in read.rows] == [fields]


def parse_report_line(fields: list[str]) -> str:
    import csv

    out = io.StringIO()
    csv.writer(out, lineterminator="\n").writerow(fields)
    return out.getvalue()
