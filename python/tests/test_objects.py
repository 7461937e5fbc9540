"""Objects that are handed around: sent to other processes, compared, shown, and changed in place."""

from __future__ import annotations

import asyncio
import json
import pickle
import sys
from collections.abc import Callable, Iterator
from concurrent.futures import Executor, ProcessPoolExecutor, ThreadPoolExecutor
from contextlib import contextmanager
from pathlib import Path
from typing import Any

import pandas
import pytest

import plantbal
from plantbal.faults import Fault, InputFault, Place, ProgramFault, Refusal, ToolMissing
from plantbal.report.output import NotOk, Output

EXAMPLES = Path(__file__).resolve().parents[2] / "examples"
DAY = EXAMPLES / "refinery_day.csv"
TABLES = [
    "streams",
    "nodes",
    "solved",
    "blocks",
    "tests",
    "refused",
    "history",
    "histories",
    "over",
    "taken",
    "stops",
    "uncertainty",
    "classes",
    "advice",
    "components",
    "windows",
    "verdicts",
]


@pytest.fixture(scope="module", name="output")
def fixture_output() -> Output:
    return plantbal.read_report(EXAMPLES / "refinery_day.out.csv")


def refusal() -> Refusal:
    with pytest.raises(Refusal) as caught:
        plantbal.Session().stream("A", "env", "NOWHERE", deviation_tonnes="1")
    return caught.value


def faults() -> list[Fault]:
    return [
        Fault("it is wrong", place=Place(file="f", line=3), text="x", remedy="mend it"),
        InputFault("it can't be read", place=Place(file="g", sheet="s", cell="B7")),
        ToolMissing("openpyxl", "python3-openpyxl"),
        ProgramFault("it ended", status=6, name="NoMemory", remedy="give it more"),
        NotOk(plantbal.read_report(EXAMPLES / "refinery_day.out.csv")),
        refusal(),
    ]


def values_of(fault: Fault) -> dict[str, Any]:
    return {"said": str(fault), "args": fault.args, **vars(fault)}


@pytest.mark.parametrize("fault", faults(), ids=lambda fault: type(fault).__name__)
def test_a_fault_is_the_same_in_another_process(fault: Fault) -> None:
    again = pickle.loads(pickle.dumps(fault))
    assert type(again) is type(fault) and values_of(again) == values_of(fault)


@pytest.mark.parametrize("fault", faults(), ids=lambda fault: type(fault).__name__)
def test_a_fault_as_values(fault: Fault) -> None:
    found = json.loads(json.dumps(fault.as_dict()))
    assert found["fault"] == type(fault).__name__ and found["what"] == fault.what
    assert set(found["place"]) <= set(vars(fault.place))


def test_what_a_refusal_has_as_values() -> None:
    found = refusal().as_dict()
    assert (found["code"], found["word"], found["row"][:2]) == (6, "unknown", ["stream", "A"])


@contextmanager
def pool(kind: type[Executor]) -> Iterator[Executor]:
    with kind(max_workers=2) as executor:  # type: ignore[call-arg]
        yield executor


@pytest.mark.parametrize("kind", [ThreadPoolExecutor, ProcessPoolExecutor])
def test_a_pool(kind: type[Executor], program: Path) -> None:
    with pool(kind) as executor:
        lost = executor.submit(plantbal.run, "no such file.csv", program=program)
        done = [executor.submit(plantbal.run, DAY, program=program) for _ in range(2)]
        with pytest.raises(InputFault, match="no such file.csv"):
            lost.result()
        one, other = (future.result() for future in done)
    assert one == other and one.ok


def test_dask(program: Path) -> None:
    distributed = pytest.importorskip("distributed")
    with distributed.Client(n_workers=1, threads_per_worker=1, dashboard_address=None) as client:
        lost = client.submit(plantbal.run, "no such file.csv", program=program)
        with pytest.raises(InputFault, match="no such file.csv"):
            lost.result()
        assert client.submit(plantbal.run, DAY, program=program).result().ok


def test_outputs_are_equal_if_their_rows_are(output: Output) -> None:
    again = pickle.loads(pickle.dumps(output))
    other = Output([*output.rows][:-1])
    assert again == output and other != output and output != "refinery_day"


def spoil(table: pandas.DataFrame) -> None:
    """Change a table in place in each way that pandas has."""
    for column in table.columns:
        table[column] = "changed"
    table.drop(index=table.index, inplace=True)


def booked(output: Output, folder: Path) -> list[object]:
    """Return what is booked of an output: amounts, files, JSON."""
    sheet = folder / "out.xlsx"
    output.to_xlsx(sheet)
    sheets = pandas.read_excel(sheet, sheet_name=None)
    frames = {name: frame.to_csv() for name, frame in sheets.items()}
    return [output.tonnes().to_csv(), frames, output.to_csv(), output.to_json(), output.why]


def test_a_table_that_is_changed_changes_nothing(tmp_path: Path, output: Output) -> None:
    before = booked(output, tmp_path)
    for name in TABLES:
        spoil(getattr(output, name))
    for table in output.tables().values():
        spoil(table)
    assert booked(output, tmp_path) == before


def test_all_tables_are_tried(output: Output) -> None:
    made = {name for name in dir(Output) if type(vars(Output).get(name)).__name__ == "kept_table"}
    assert made == set(TABLES) and set(output.tables()) <= made


def test_a_table_cannot_be_set(output: Output) -> None:
    with pytest.raises(AttributeError, match="streams follows from the rows"):
        output.streams = pandas.DataFrame()


def test_json(output: Output, tmp_path: Path) -> None:
    path = tmp_path / "out.json"
    assert json.loads(output.to_json(path)) == json.loads(path.read_text())
    block = json.loads(path.read_text())["blocks"][0]
    rows = {row["name"]: row for row in block["streams"]}
    # 1,176,400,000 grams were measured with the variance 35,060,000,000,000
    assert rows["KEROSENE"]["value"] == 1176400000 and block["solved"]["state"] == "converged"
    assert rows["KEROSENE"]["variance"] == 35060000000000 and block["last"] is True
    assert rows["RESIDUE"]["value"] is None and rows["RESIDUE"]["class"] == "unobservable"
    assert output.to_dict()["ok"] is output.ok


@pytest.mark.parametrize(
    "number, shown",
    [(2**53 - 1, 2**53 - 1), (2**53, str(2**53)), (-(2**53), str(-(2**53)))],
)
def test_json_keeps_each_digit(output: Output, number: int, shown: object) -> None:
    rows = [dict(row) for row in output.rows]
    first = next(row for row in rows if row["row"] == "node")
    first["price"] = str(number)
    found = json.loads(Output(rows).to_json())
    assert found["blocks"][0]["nodes"][0]["price"] == shown


def test_a_notebook(output: Output) -> None:
    shown = output._repr_html_()
    # KEROSENE is 1,180.680924 t
    assert '<td style="text-align:right">1,180.681</td>' in shown and "± isn't known" not in shown


def test_a_notebook_of_a_wrong_report(output: Output) -> None:
    """What stands in a report is shown as text, and a report that can't be right is shown too."""
    names = {"NAPHTHA": "<b>x</b>"}
    rows = [
        {**row, "name": names.get(row.get("name", ""), row.get("name", ""))} for row in output.rows
    ]
    shown = Output(rows, source="<script>")._repr_html_()
    assert "<script>" not in shown and "<b>x</b>" not in shown and "± isn't known" in shown


def test_a_summary(output: Output) -> None:
    first, second = output.summary().splitlines()
    assert first == "ok" and second.startswith("may1: converged") and "23 streams" in second


@pytest.mark.parametrize(
    "name, value, said",
    [
        ("gap", 0, "gap is 0: give a whole number from 1 to 1,000,000"),
        ("gap", 1.5, "gap is 1.5: give a whole number"),
        ("gap", True, "gap is True: give a whole number"),
        ("sweeps", 100_001, "sweeps is 100001: give a whole number from 0 to 100,000"),
        ("eliminate", 21, "eliminate is 21: give a whole number from 0 to 20"),
        ("memory", 0, "memory is 0: give a whole number from 1"),
    ],
)
def test_ranges(name: str, value: object, said: str, program: Path) -> None:
    how: dict[str, Any] = {name: value}
    with pytest.raises(InputFault, match=said):
        plantbal.run(DAY, program=program, **how)


def test_a_text_is_no_file(program: Path) -> None:
    with pytest.raises(InputFault, match="give the rows themselves to run_text"):
        plantbal.run("unit,U\nunit,U\n", program=program)
    found = plantbal.run_text(str(DAY), program=program)
    assert found.why == ["1 row of the session was refused", "there is no report"]


def test_coroutines(program: Path) -> None:
    async def both() -> list[Output]:
        runs = [plantbal.arun(DAY, program=program) for _ in range(2)]
        return list(await asyncio.gather(*runs))

    one, other = asyncio.run(both())
    assert one == other and one.ok


def test_too_little_memory(program: Path) -> None:
    rows = "".join(f"unit,U{number}\n" for number in range(900)) * 400
    with pytest.raises(ProgramFault) as caught:
        plantbal.run_text(rows, program=program, memory=5_000_000)
    assert caught.value.name in ("NoMemory", "Ended")


def test_without_pandas(monkeypatch: pytest.MonkeyPatch, tmp_path: Path) -> None:
    """A Python that has no pandas, or none of its parts, is told which package has them."""
    modules: dict[str, Any] = sys.modules
    for name in ("numpy", "pandas"):
        monkeypatch.setitem(modules, name, None)
    output = plantbal.read_report(EXAMPLES / "refinery_day.out.csv")
    tables: tuple[Callable[[], object], ...] = (
        lambda: output.streams,
        lambda: output.blocks,
        lambda: output.tests,
        output.tonnes,
        lambda: output.to_xlsx(tmp_path / "output.xlsx"),
    )
    for table in tables:
        with pytest.raises(ToolMissing, match="python3-pandas"):
            table()
