"""Grades beside flows: on the statement, in its workbook and in a chart, as `balance` has them."""

from __future__ import annotations

import csv
import io
import json
from pathlib import Path

import openpyxl
import pytest
from conftest import Desk, example

from plantbal import convert


@pytest.fixture(name="plant")
def fixture_plant(tmp_path: Path) -> Path:
    path = tmp_path / "plant.csv"
    found = convert(example("flotation_plant"))
    assert found.ok, found.said()
    found.session.to_csv(path)
    return path


def test_all_flows_of_the_concentrator_have_a_value(say: Desk, plant: Path) -> None:
    lines = json.loads(say("balance", plant, "jul01", "--form", "json").out)
    flows = {line["stream"]: line for line in lines if not line["component"]}
    assert len(flows) == 16  # 14 streams and two gains
    assert all(line["value"] is not None for line in flows.values())
    # two products by hand: RGH_TAIL into SCAV_CONC and SCAV_TAIL, by their three grades
    tail, conc, out = 0.2205, 8.37, flows["SCAV_TAIL"]["value"]
    last = next(x for x in lines if (x["stream"], x["component"]) == ("SCAV_TAIL", "cu"))["value"]
    rougher = out * (conc - 100 * last) / (conc - tail)
    assert flows["RGH_TAIL"]["value"] == pytest.approx(rougher, rel=1e-6)


def test_on_the_statement_and_in_its_workbook(say: Desk, plant: Path, tmp_path: Path) -> None:
    lines = json.loads(say("balance", plant, "jul01", "--form", "json").out)
    html, xlsx = tmp_path / "page.html", tmp_path / "page.xlsx"
    say("page", plant, "--run", "--out", html, "--xlsx", xlsx)
    page = html.read_text(encoding="utf-8")
    assert "<h3>Grades of cu</h3>" in page
    sheet = openpyxl.load_workbook(xlsx)["grades"]
    heads, *rows = [[cell.value for cell in row] for row in sheet.rows]
    by_name = {str(row[2]): dict(zip(heads, row)) for row in rows}
    assert len(by_name) == 16
    for line in lines:
        row = by_name.get(line["stream"]) or by_name[f"gain of {line['stream']}"]
        value, sd = (
            ("reconciled", "± of it") if line["component"] else ("flow, t", "± of the flow, t")
        )
        assert row[value] == pytest.approx(line["value"]), line["stream"]
        assert row[sd] == pytest.approx(line["sd"]), line["stream"]
        if line["component"] and line["adjustment"] is not None:
            assert row["in sd"] == pytest.approx(line["adjustment"], abs=1e-9)
    shown = f"{100 * by_name['CAKE']['reconciled']:.3f}"
    assert f'data-head="Reconciled, %">{shown}</td>' in page
    drawn = tmp_path / "grades.svg"
    assert say("balance", plant, "jul01", "--chart", drawn).status == 0
    assert "SCAV_CONC" in drawn.read_text(encoding="utf-8")


def test_the_grade_of_a_stock_by_hand(say: Desk, plant: Path) -> None:
    words = ("balance", plant, "jul01", "--form", "json")
    plain = say(*words)
    assert "the grade of the stock isn't known: cu in HEAP, cu in STOCK" in plain.err
    held = ("--held", "STOCK=1000t,1%", "--held", "STOCK:cu=25%,2%")
    found = say(*words, *held)
    assert "isn't known: cu in HEAP\n" in found.err
    rows = {(row["stream"], row["component"]): row for row in json.loads(found.out)}
    gain, part = rows["STOCK", ""]["value"], rows["STOCK", "cu"]["value"]
    tonnes, grade = rows["stock of STOCK", ""], rows["stock of STOCK", "cu"]
    assert tonnes["value"] == pytest.approx(1000 + gain)
    assert grade["value"] == pytest.approx((250 + gain * part) / (1000 + gain))
    assert tonnes["sd"] == pytest.approx((10**2 + rows["STOCK", ""]["sd"] ** 2) ** 0.5)
    # 1000 t of ±0.5 % make ±0.46 %; the cake and what was shipped, by far less, add a little
    assert 0.005 * 1000 / (1000 + gain) < grade["sd"] < 0.0054
    for word, said in (
        ("CAKE=1t,1%", "there is no tank CAKE: there are HEAP, STOCK"),
        ("STOCK:au=1%,1%", "no grade of au is known: there are cu"),
        ("STOCK=1000t", "isn't an error with its unit: use --held STOCK=12000t,1%"),
        ("STOCK:cu=26,1%", "the grade 26 has no unit"),
        ("STOCK:cu=1200%,1%", "can't be what STOCK held"),
    ):
        assert said in say(*words, "--held", word).err, word


def test_tables_of_grades(say: Desk, plant: Path, tmp_path: Path) -> None:
    lines = json.loads(say("balance", plant, "jul01", "--form", "json").out)
    output = tmp_path / "out.csv"
    output.write_text(say("run", plant).out, encoding="utf-8")
    words = ("tables", "grades", output, "--session", plant)
    rows = list(csv.DictReader(io.StringIO(say(*words, "--component", "cu").out)))
    assert rows == list(csv.DictReader(io.StringIO(say(*words).out)))
    wanted = {line["stream"]: line for line in lines if line["component"]}
    for row in rows:
        line = wanted[row["stream"].removeprefix("gain of ")]
        for head, key in (("assay", "measured"), ("reconciled", "value"), ("± of it", "sd")):
            shown = float(row[head]) if row[head] else None
            assert shown == pytest.approx(line[key]), (row["stream"], head)
    for more, said in (
        ((*words, "--component", "au"), "no grades of au: there are grades of cu"),
        (words[:3], "grades need the assays: use --session"),
        ((*words, "--window"), "leave --window out"),
        ((*words, "--keep", "x"), "leave it out"),
    ):
        assert said in say(*more).err, more


def test_a_fault_of_an_assay_names_its_line(say: Desk, plant: Path) -> None:
    text = plant.read_text(encoding="ascii")
    number = next(n for n, row in enumerate(text.splitlines(), 1) if row.startswith("assay,cu,ORE"))
    row = text.splitlines()[number - 1]
    plant.write_text(text.replace(row, f"{row}\nassay,pb,ORE,jul01,999000,1"), encoding="ascii")
    for words, said in (
        ((), f"plant.csv: line {number + 1}: pb was assayed in ORE alone"),
        (("--component", "au"), "plant.csv: no assay of au in jul01"),
    ):
        assert said in say("balance", plant, "jul01", *words).err, words


def test_what_cannot_be_balanced_is_said_on_the_statement(say: Desk, plant: Path) -> None:
    text = plant.read_text(encoding="ascii")
    before, _, after = text.partition("report,")
    plant.write_text(before + "assay,au,CAKE,jul01,12,1\nreport," + after, encoding="ascii")
    page = say("page", plant, "--run").out
    assert "au is left out: it was assayed in CAKE alone" in page
    assert "<h3>Grades of cu</h3>" in page and "<h3>Grades of au</h3>" not in page
    for words, said in (
        ((), "au was assayed in CAKE alone"),
        (("--component", "cu", "--feed", "NONE"), "there is no stream NONE"),
    ):
        found = say("balance", plant, "jul01", *words)
        assert (found.status, found.out) == (1, "") and said in found.err, found.err
