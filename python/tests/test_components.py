"""Balances of components: assays in a session, outputs, recovery, charts, audits, workbooks."""

from __future__ import annotations

import io
import json
import re
import shutil
from decimal import Decimal
from pathlib import Path
from typing import Any

import numpy
import pandas
import pytest
from books import ANYWAY
from conftest import Desk, Said, assert_refused, example, session_of, text_of
from pages import read

from plantbal import Session, run, solve
from plantbal.faults import Fault, Refusal
from plantbal.page.command import page
from plantbal.report.blocks import Block
from plantbal.report.parsing import parse_rows
from plantbal.report.output import read_report
from plantbal.study.recovery import ComponentBalance, balances_of, mass_of, products_of, together
from plantbal.workbook.cells import Reader
from plantbal.workbook.sheets import Cell, Sheet

COPPER = example("flotation_copper.csv")
OUT = example("flotation_copper.out.csv")
PLANT = "unit,U\ntank,K,1\nstream,A,env,U,metered,1\nstream,B,U,K,plain,0\n"
PLANT += "period,d1,2024-03-01,2024-03-01\nperiod,d2,2024-03-02,2024-03-02\n"
PLANT += "assay,cu,A,d1,20000,0\nclose,d2\n"
REFUSED = [
    ("assay,cu,A,d1,1", 2, "it has 5 fields"),
    ("assay,c u,A,d1,1,x", 3, "COMPONENT is 'c u'"),
    ("assay,cu,A,d1,0.9,1", 4, "PPM is '0.9'"),
    ("assay,cu,B,d1,1000001,0", 4, "PPM is '1000001'"),
    ("assay,cu,B,d1,1,100000001", 4, "GRADEVAR is '100000001'"),
    ("assay,cu,U,d1,1,0", 6, "U is a unit, not a stream or tank"),
    ("assay,cu,env,d1,1,0", 6, "env is the world outside, not a stream or tank"),
    ("assay,cu,B,d9,1,0", 6, "there is no period d9"),
    ("assay,cu,A,d1,1,0", 7, "A has an assay of cu in d1 already"),
    ("assay,cu,A,d2,1,0", 11, "period d2 is closed"),
    ("late,assay,cu,A,d1,1,0", 1, "is 'assay'"),
    ("component,cu", 2, "it has 2 fields"),
    ("component,cu,d9", 6, "there is no period d9"),
    ("component,cu,d2", 6, "there is no assay of cu in d2"),
    ("component,CU,d1", 6, "did you mean cu?"),
]


@pytest.mark.parametrize("row, code, said", REFUSED, ids=[row for row, *_ in REFUSED])
def test_what_is_refused(row: str, code: int, said: str) -> None:
    assert_refused(session_of(PLANT), row, code, said)


def test_out_of_service() -> None:
    session = Session(version=2)
    session.unit("U")
    session.stream("A", "env", "U", "plain", since="2024-05-02")
    session.period("d1", "2024-05-01", "2024-05-01")
    with pytest.raises(Refusal, match="A is in service on no day of d1") as refused:
        session.assay("cu", "A", "d1", ppm=1, variance=0)
    assert refused.value.code == 12


def test_grades() -> None:
    session = session_of(PLANT)
    session.assay("au", "A", "d1", percent="0.9", deviation_percent="0.018")
    session.assay("au", "K", "d1", ppm=12, deviation_ppm=Decimal("0.5"))
    assert [row[4:] for row in session if row[:2] == ("assay", "au")] == [
        ("9000", "32400"),
        ("12", "1"),
    ]
    assert session.assays[-1] == ("au", "K", "d1")
    for words, said in (
        ({"ppm": 1}, "needs variance, deviation_ppm or deviation_percent"),
        ({"percent": "0.00001", "variance": 0}, "at most four decimals"),
        ({"variance": 0}, "needs ppm, or percent"),
    ):
        with pytest.raises(Fault, match=said):
            session.assay("ag", "A", "d1", **words)  # type: ignore[arg-type]


def test_tables_of_an_output() -> None:
    output = read_report(OUT)
    assert output.ok
    assert len(output.reports) == 6 and len(output.blocks_in_order) == 12
    cu = output.components.query("component == 'cu' and name == 'CONCENTRATE'")
    assert list(cu["period"]) == [f"jun0{day}" for day in range(3, 9)]
    assert cu["flow"].iloc[0] == 96340887
    assert set(output.streams["period"]) == {
        *(f"jun0{day}" for day in range(3, 9)),
        *(f"cu in jun0{day}" for day in range(3, 9)),
    }
    assert list(output.blocks["component"])[:2] == ["", "cu"]


def test_recovery() -> None:
    balances = [ComponentBalance(block) for block in balances_of(read_report(OUT))]
    feed, tailings, concentrate = balances[0].shares()
    assert (feed.stream, feed.way, feed.share, feed.grams) == ("FEED", "in", 1.0, 108950180)
    assert (tailings.stream, concentrate.stream) == ("TAILINGS", "CONCENTRATE")
    assert tailings.share + concentrate.share == pytest.approx(1)
    assert concentrate.share == pytest.approx(96340887 / 108950180)
    assert concentrate.raw == pytest.approx(96371876 / 108323753)
    # what one product gains the other loses, so both shares are known equally well
    assert concentrate.share_sd == pytest.approx(tailings.share_sd)
    assert feed.share_sd == pytest.approx(0, abs=1e-12)
    every = together(balances)
    assert [each.stream for each in every] == ["FEED", "TAILINGS", "CONCENTRATE"]
    total = sum(balance.fed for balance in balances)
    carried = sum(balance.grams("CONCENTRATE") or 0 for balance in balances)
    assert every[2].share == pytest.approx(carried / total)
    assert every[2].share_sd < concentrate.share_sd


def test_recovery_has_both_errors() -> None:
    session = session_of(
        "unit,U\nstream,FEED,env,U,metered,1\nstream,TAIL,U,env,metered,1\n"
        "stream,CONC,U,env,metered,1\nperiod,d,2024-05-01,2024-05-01"
    )
    for name, tonnes, ppm in (("FEED", 1000, 9000), ("TAIL", 960, 1100), ("CONC", 31, 260_000)):
        sd = tonnes * 10_000
        session.reading(name, name, "2024-05-01", grams=tonnes * 10**6, variance=sd**2)
        session.assay("cu", name, "d", ppm=ppm, variance=(ppm // 50) ** 2)
    session.report("d")
    session.component("cu", "d")
    output = run(session)
    (block,) = balances_of(output)
    mass = mass_of(output, block)
    assert mass is not None and mass.subject == "d"
    rng = numpy.random.default_rng(1)

    def fit(values: Any, variance: Any, node: Any) -> Any:
        """Least squares with one balance, of many samples at once: its multiplier, by hand."""
        off = values @ node / (variance @ node**2)
        return values - off[:, None] * node * variance

    def columns(of: Block, column: str) -> Any:
        return numpy.array([float(row[column] or "nan") for row in of.streams])

    node = numpy.array(
        [(row["to"] != "env") - (row["from"] != "env") * 1.0 for row in mass.streams]
    )
    count = 40_000
    meters, variance = columns(mass, "value"), columns(mass, "variance")
    flows = fit(rng.normal(meters, variance**0.5, (count, 3)), variance[None, :], node)
    true = fit(meters[None, :], variance[None, :], node)[0]
    assert true == pytest.approx(columns(mass, "flow"), abs=3 * 10**5)
    grades = columns(block, "value") / true
    errors = columns(block, "variance") ** 0.5 / true
    sampled = rng.normal(grades, errors, (count, 3))
    carried = fit(sampled * flows, (errors * flows) ** 2, node)
    found = {each.stream: each for each in ComponentBalance(block, mass=mass).shares()}
    names = [row["name"] for row in block.streams]
    for at, name in enumerate(names):
        for mine, samples in (
            (found[name].sd, carried[:, at]),
            (found[name].grade_sd, carried[:, at] / flows[:, at]),
            (found[name].share_sd, carried[:, at] / carried[:, names.index("FEED")]),
        ):
            assert mine == pytest.approx(float(samples.std()), rel=0.02, abs=1e-12), name
    alone = {each.stream: each for each in ComponentBalance(block).shares()}
    assert alone["FEED"].sd < 0.95 * found["FEED"].sd  # meters count
    fed = next(row for row in block.streams if row["name"] == "FEED")
    flow = next(row for row in mass.streams if row["name"] == "FEED")
    assert found["FEED"].grade == int(fed["flow"]) / int(flow["flow"])


def test_a_gain_with_a_strange_grade_is_named(say: Desk, tmp_path: Path) -> None:
    # 1,000 t of 26 % come in and 900 t of 26 % go out, and the dips say that 100 t more are there;
    # with 900 t of 20 % going out the gain would have (260 - 180) / 100 = 80 %
    for ppm, strange in ((260_000, False), (200_000, True)):
        session = session_of(
            "tank,T,1\nstrap,T,0,0\nstrap,T,10000,10000000000\nstream,IN,env,T,metered,1\n"
            "stream,OUT,T,env,metered,1\nperiod,d,2024-05-01,2024-05-01"
        )
        for name, tonnes, grade in (("IN", 1000, 260_000), ("OUT", 900, ppm)):
            session.reading(name, name, "2024-05-01", grams=tonnes * 10**6, variance=10**12)
            session.assay("cu", name, "d", ppm=grade, variance=1000**2)
        for day, mm in (("2024-04-30", 1000), ("2024-05-01", 1100)):
            session.dip(f"t{day}", "T", day, mm=mm, density=10**6, variance=10**12)
        session.report("d")
        session.component("cu", "d")
        out = tmp_path / "out.csv"
        run(session).to_csv(out)
        found = say("recovery", out)
        assert ("cu in d: what T gained has 80." in found.err) is strange, found.err
        assert "gain of T" in found.out


def test_share_that_is_not_known() -> None:
    session = session_of(
        "unit,U\nstream,A,env,U,metered,1\nstream,B,env,U,metered,1\n"
        "stream,C,U,env,metered,1\nperiod,d,2024-05-01,2024-05-01"
    )
    for name, grams in (("A", 100), ("B", 50), ("C", 150)):
        session.reading(name, name, "2024-05-01", grams=grams * 10**6, variance=10**10)
    session.assay("cu", "A", "d", ppm=9000, variance=100)
    session.component("cu", "d")
    shares = ComponentBalance(run(session).blocks_in_order[-1]).shares()
    assert {each.stream: each.grams for each in shares} == {"A": 900000, "B": None, "C": None}
    assert all(each.share != each.share for each in shares)
    assert products_of(shares, []) == ["C"]


def test_recovery_of_a_mill_in_a_mine(say: Desk, tmp_path: Path) -> None:
    """Nobody assays what the trucks haul to the stockpile; the feed of the mill is sampled."""
    session = session_of(
        "unit,MILL\ntank,PILE,1\nstrap,PILE,0,0\nstrap,PILE,100,100000000\n"
        "stream,HAULED,env,PILE,metered,1\nstream,FEED,PILE,MILL,metered,1\n"
        "stream,CONC,MILL,env,metered,1\nstream,TAILS,MILL,env,metered,1\n"
        "period,d,2024-05-01,2024-05-01"
    )
    for name, tonnes in (("HAULED", 100), ("FEED", 100), ("CONC", 3), ("TAILS", 97)):
        session.reading(name, name, "2024-05-01", tonnes=tonnes, variance=10**8)
    for name, ppm in (("FEED", 9000), ("CONC", 270000), ("TAILS", 930)):
        session.assay("cu", name, "d", ppm=ppm, variance=(ppm // 50) ** 2)
    session.report("d")
    session.component("cu", "d")
    output = run(session)
    balance = ComponentBalance(output.blocks_in_order[-1], ["FEED"])
    shares = {each.stream: each for each in balance.shares()}
    assert list(shares) == ["FEED", "PILE", "CONC", "TAILS"]
    carried = {name: balance.grams(name) or 0 for name in ("FEED", "CONC", "TAILS")}
    assert shares["CONC"].share == carried["CONC"] / carried["FEED"]
    assert shares["CONC"].share + shares["TAILS"].share == pytest.approx(1)
    assert shares["CONC"].share_sd == pytest.approx(shares["TAILS"].share_sd)
    path = tmp_path / "out.csv"
    output.to_csv(path)
    said = say("recovery", path)
    assert "nothing determines the cu of HAULED in d, so no share is known there" in said.err
    said = say("recovery", path, "--feed", "HAULED", "--product", "FEED", "--form", "json")
    assert [row["way"] for row in json.loads(said.out)] == ["in", "gain", "within", "out", "out"]
    said = say("recovery", path, "--feed", "FEED")
    assert said.err == "" and f"{shares['CONC'].share:.2%}" in said.out
    assert (
        "there is no stream FED: use one of PILE, HAULED"
        in say("recovery", path, "--feed", "FED").err
    )


def test_recovery_over_a_change_of_the_plant() -> None:
    """A stream that isn't in service in a period carries nothing there."""
    session = Session(version=2)
    session.unit("U")
    session.stream("A", "env", "U", variance=1)
    session.stream("B", "U", "env", variance=1)
    session.stream("C", "U", "env", variance=1, since="2024-05-02")
    for number, day in enumerate(("2024-05-01", "2024-05-02"), 1):
        session.period(f"d{number}", day, day)
        streams = {"A": 100, "B": 60, "C": 40} if number == 2 else {"A": 100, "B": 100}
        for name, tonnes in streams.items():
            session.reading(f"{name}{number}", name, day, tonnes=tonnes, variance=10**10)
            session.assay("cu", name, f"d{number}", ppm=9000, variance=900)
        session.component("cu", f"d{number}")
    balances = [ComponentBalance(block) for block in balances_of(run(session))]
    shares = {each.stream: each for each in together(balances)}
    assert {name: each.grams for name, each in shares.items()} == {
        "A": 1_800_000,
        "B": 1_440_000,
        "C": 360_000,
    }
    assert shares["C"].share == pytest.approx(0.2)
    # what C gains B loses, so both shares are known equally well
    assert shares["C"].share_sd == pytest.approx(shares["B"].share_sd)


def test_recovery_command(say: Desk, tmp_path: Path) -> None:
    text = say("recovery", OUT).out
    line = next(each for each in text.splitlines() if "jun03   CONCENTRATE" in each)
    assert (
        line.split()
        == "cu jun03 CONCENTRATE out 96.341 0.665 28.0910% 0.1379% -0.06".split()
        + [
            "88.43%",
            "0.33%",
        ]
    )
    assert text.splitlines()[-1].startswith("cu         all     CONCENTRATE  out  570.025")
    rows = json.loads(say("recovery", OUT, "--form", "json").out)
    assert rows[0]["grams"] == 108950180 and rows[-1]["period"] == "all"
    assert say("recovery", OUT, "--form", "csv").out.startswith("component,period,stream,way,")
    chart = tmp_path / "recovery.svg"
    assert say("recovery", OUT, "--session", COPPER, "--chart", chart).status == 0
    drawn = text_of(chart)
    assert 'id="recovery-CONCENTRATE"' in drawn and 'id="carried-TAILINGS-jun08"' in drawn
    for words, status, said in (
        (("--component", "au"), 1, "there are balances of cu"),
        (("--product", "FEED"), 1, "FEED doesn't leave the plant"),
        (("--chart", tmp_path / "x.gif"), 2, "use .svg, .png or .pdf"),
    ):
        found = say("recovery", OUT, *words)
        assert (found.status, said in found.err) == (status, True), found.err
    none = say("recovery", example("two_meters.out.csv"))
    assert (none.status, "there is no component in it" in none.err) == (1, True)


def test_tables(say: Desk) -> None:
    flows = say("tables", "flows", OUT, "--component", "cu").out
    assert flows.startswith("stream,jun03,jun03 ±,jun04") and "FEED,108.95018," in flows
    assert say("tables", "classes", OUT).out.startswith("stream,jun03,jun04")
    none = say("tables", "flows", OUT, "--component", "au")
    assert (none.status, "there is no balance of au" in none.err) == (1, True)


def test_drawing_and_chart(say: Desk, tmp_path: Path) -> None:
    assert "cu in jun08" in say("draw", OUT, "--component", "cu", "--dot").out
    chart = tmp_path / "cu.svg"
    assert say("chart", OUT, "--component", "cu", "--out", chart).status == 0
    assert 'id="meter-FEED"' in text_of(chart)


def test_page(say: Desk) -> None:
    page = say("page", OUT, "--session", COPPER, "--seconds", "0").out
    assert page.count("cu in jun03") > 1 and "96.341" in page
    assert "The grades fit together: the statistic is between 0.090 and 0.091" in page
    assert (
        "Of the cu that came in, 88.43 % ± 0.33 % went into CONCENTRATE and 11.57 % ± 0.33 %"
        in page
    )
    assert "An assay on any stream of the cycle settles" in page


def test_audit(say: Desk, program: Path, tmp_path: Path) -> None:
    good = say("audit", OUT, COPPER, "--program", program)
    assert good.status == 0, good.out
    assert "cu in jun03, block 1 of 1: flows balance" in good.out
    assert "are those of the assays and of the period's flows" in good.out
    changed = tmp_path / "changed.csv"
    session = text_of(COPPER).replace("assay,cu,FEED,jun03,9000,", "assay,cu,FEED,jun03,9001,")
    changed.write_text(session, encoding="utf-8")
    found = say("audit", OUT, changed, "--no-program")
    assert (found.status, "the value of FEED is 108,323,753 g" in found.out) == (1, True)


def test_audit_without_the_report(say: Desk, program: Path, tmp_path: Path) -> None:
    session, output = tmp_path / "s.csv", tmp_path / "o.csv"
    session.write_text(text_of(COPPER).replace("report,jun03\n", ""), encoding="utf-8")
    output.write_text(run(session, program=program).to_csv(), encoding="utf-8")
    found = say("audit", output, session, "--no-program")
    assert found.status == 0, found.out
    assert "so its values aren't compared with the assays" in found.out


def test_from_frames() -> None:
    ends = pandas.DataFrame(
        [("FEED", "env", "MILL", 1), ("FINES", "MILL", "env", 1)],
        columns=["name", "from", "to", "variance"],
    )
    periods = pandas.DataFrame(
        [("d1", "2024-05-01", "2024-05-01"), ("d2", "2024-05-02", "2024-05-02")],
        columns=["name", "first", "last"],
    )
    assays = pandas.DataFrame(
        [("cu", "FEED", "d1", "0.9", "0.018"), ("cu", "FINES", "d1", "0.91", "0.02")],
        columns=["component", "stream", "period", "percent", "deviation_percent"],
    )
    session = Session.from_frames(streams=ends, periods=periods, assays=assays)
    rows = [row for row in session if row[0] in ("assay", "report", "component")]
    assert rows == [
        ("assay", "cu", "FEED", "d1", "9000", "32400"),
        ("assay", "cu", "FINES", "d1", "9100", "40000"),
        ("report", "d1"),
        ("component", "cu", "d1"),
        ("report", "d2"),
    ]
    whole = assays.drop(columns=["percent", "deviation_percent"]).assign(ppm=9, variance=4)
    made = Session.from_frames(streams=ends, periods=periods, assays=whole, reports=["d2"])
    assert [row[4:] for row in made if row[0] == "assay"] == [("9", "4"), ("9", "4")]
    assert [row[0] for row in made][-1] == "report"
    with pytest.raises(Fault, match="assays: there is no column variance or deviation_ppm or"):
        Session.from_frames(streams=ends, periods=periods, assays=assays.iloc[:, :4])


def test_lint(say: Desk) -> None:
    text = text_of(COPPER)
    without = text.replace("component,cu,jun03\n", "")
    assert "[no-balance]" in say("lint", "-", text=without).out
    # nor is its report asked for
    assert "[no-balance]" not in say("lint", "-", text=without.replace("report,jun03\n", "")).out
    late = text + "assay,cu,ROUGHER_CONC,jun03,150000,90000\n"
    assert "ROUGHER_CONC comes after the last balance" in say("lint", "-", text=late).out
    unit = text.replace("assay,cu,FEED,jun05,9300,", "assay,cu,FEED,jun05,9,")
    assert "a percent is 10,000 ppm" in say("lint", "-", text=unit).out
    alone = "\n".join(
        line
        for line in text.splitlines()
        if not line.startswith(("assay,cu,CONCENTRATE,jun03", "assay,cu,TAILINGS,jun03"))
    )
    assert "FEED alone has an assay of cu in jun03" in say("lint", "-", text=alone).out


def test_solve_refuses(program: Path) -> None:
    with pytest.raises(Fault, match="rests on the flows of the program's own sweeps"):
        solve(text_of(COPPER).encode(), program=program)


@pytest.mark.parametrize(
    "grade, unit, error, ppm, deviation",
    [
        ("0.9 %", None, "2 %", 9000, 180),
        ("12.4 g/t", None, "0.5 g/t", Decimal("12.4"), Decimal("0.5")),
        ("9000", "ppm", "2 % or 200 ppm", 9000, 200),
        ("3", "kg/t", "1 ppm", 3000, 1),
    ],
)
def test_cells(grade: str, unit: str | None, error: str, ppm: object, deviation: object) -> None:
    sheet, reader = Sheet("a.csv", "assays", []), Reader()
    cell, beside = Cell(sheet, 1, 1, grade), Cell(sheet, 1, 2, unit)
    found = reader.grade(cell, beside)
    assert float(found) == pytest.approx(float(str(ppm)))
    deviated = reader.grade_error(Cell(sheet, 1, 3, error), found)
    assert float(deviated) == pytest.approx(float(str(deviation)))


def test_workbook(say: Desk, tmp_path: Path, program: Path) -> None:
    book = tmp_path / "mill"
    book.mkdir()
    for name, text in {
        "streams": "tag,stream,from,to,error\nF1,FEED,env,MILL,1 %\nP1,FINES,MILL,env,1 %\n"
        "P2,COARSE,MILL,env,1 %\n",
        "readings": "day,F1,P1,P2\n2024-04-01,100,60,41\n",
        "periods": "name,first,last\napr1,2024-04-01,2024-04-01\n",
        "assays": "component,stream,period,grade,error\ncu,F1,apr1,0.9 %,2 %\n"
        "cu,FINES,apr1,1.2 %,2 %\ncu,COARSE,apr1,0.45 %,3 %\n",
    }.items():
        (book / f"{name}.csv").write_text(text, encoding="utf-8")
    out = tmp_path / "mill.csv"
    assert say("convert", book, "--out", out).status == 0
    rows = text_of(out).splitlines()
    assert "assay,cu,FEED,apr1,9000,32400" in rows
    assert rows[-2:] == ["report,apr1", "component,cu,apr1"]
    assert run(out, program=program).ok
    wrong = "component,stream,period,grade,error\ncu,F1,apr1,0.9,2 %\ncu,F9,apr1,1 %,2 %\n"
    (book / "assays.csv").write_text(wrong, encoding="utf-8")
    said = say("convert", book).err
    assert "the grade 0.9 has no unit" in said and "F9" in said
    # neither much of a grade nor much of its error may be lost
    wrong = "component,stream,period,grade,error\nau,F1,apr1,1.5 g/t,5 %\nau,P1,apr1,3 g/t,2 %\n"
    (book / "assays.csv").write_text(f"{wrong}au,P2,apr1,120 %,2 %\n", encoding="utf-8")
    said = say("convert", book).err
    assert "1.5 g/t with the error 5 % would become 2 ppm with an error of 1 ppm" in said
    assert "3 g/t with the error 2 % would become 3 ppm" in said and "component au_mg" in said
    assert "120 % isn't a grade" in said and "rounded" not in said


def test_the_program_agrees() -> None:
    for name in ("component", "component_json", "every_kind"):
        session = Session.read(example(f"conformance/{name}.in"))
        rows = parse_rows("out", text_of(example(f"conformance/{name}.out")))
        refused = [(row["at"], row["code"]) for row in rows if row["row"] == "refused"]
        assert refused == [(str(each.place.record), str(each.code)) for each in session.refused]


def test_book(say: Desk, tmp_path: Path, program: Path) -> None:
    plant, april, books = tmp_path / "plant", tmp_path / "april", tmp_path / "books"
    for folder in (plant, april):
        folder.mkdir()
    streams = "tag,stream,from,to,error\nF1,FEED,env,MILL,1 %\nP1,FINES,MILL,env,1 %\n"
    (plant / "streams.csv").write_text(streams, encoding="utf-8")
    readings = "day,F1,P1\n2024-04-01,100,101\n"
    (april / "readings.csv").write_text(readings, encoding="utf-8")
    periods = "name,first,last\napr1,2024-04-01,2024-04-01\n"
    (april / "periods.csv").write_text(periods, encoding="utf-8")
    heads = "component,stream,period,grade,error\n"
    assays = april / "assays.csv"
    assays.write_text(f"{heads}cu,F1,apr1,0.9 %,2 %\ncu,FINES,apr1,0.91 %,2 %\n", encoding="utf-8")
    assert say("book", "new", "2024", plant, "--book", books).status == 0
    assert "2 assays" in say("book", "add", april, "--book", books).out
    assert "nothing new" in say("book", "add", april, "--book", books).out
    said = say("book", "report", "apr1", "--book", books).out
    assert "cu in apr1: converged" in said
    assert "component,cu,apr1\n" in text_of(books / "reports" / "apr1.csv")
    other = tmp_path / "assays.csv"
    other.write_text(f"{heads}cu,FINES,apr1,0.92 %,2 %\n", encoding="utf-8")
    found = say("book", "add", other, "--book", books)
    assert (found.status, "9,100 ppm of cu in apr1 in the book" in found.err) == (1, True)
    untested = ("--anyway", "untested=a single day")
    assert say("book", "close", "apr1", *untested, "--book", books).status == 0
    other.write_text(f"{heads}au,FINES,apr1,300 g/t,2 %\n", encoding="utf-8")
    found = say("book", "add", other, "--book", books)
    assert (found.status, "before plantbal-desk book close" in found.err) == (1, True)
    rows = "au,FINES,may,300 g/t,2 %\nau,FINES,june,300 g/t,2 %\n"
    other.write_text(heads + rows, encoding="utf-8")
    found = say("book", "add", other, "--book", books)
    assert (found.status, "there is no period may in this book" in found.err) == (1, True)
    assert "there is no period june" in found.err and "2 faults, and nothing" in found.err
    # what the laboratory still owes
    (april / "readings.csv").write_text("day,F1,P1\n2024-04-02,100,101\n", encoding="utf-8")
    (april / "periods.csv").write_text("name,first,last\napr2,2024-04-02,2024-04-02\n")
    assays.unlink()
    assert say("book", "add", april, "--book", books).out == "2024.csv: new: 1 period, 2 readings\n"
    owed = "apr2: no assay of cu in FEED, FINES, which apr1 has: enter it before the close\n"
    assert owed in say("book", "status", "--book", books).out
    other.write_text(f"{heads}cu,F1,apr2,0.9 %,2 %\n", encoding="utf-8")
    assert say("book", "add", other, "--book", books).status == 0
    for command in ("report", "status"):
        said = say("book", command, "--book", books).out
        assert said.count(owed.replace("FEED, ", "")) == 1
    said = say("book", "close", "apr2", "--book", books)
    assert "apr2 isn't closed: " in said.err and "'unassayed=REASON'" in said.err
    assert say("book", "close", "apr2", *ANYWAY, "--book", books).status == 0


FLOWS = ["96340887,96340885,96340890", "342960413,342960232,342960593"]  # of copper, of all
# Two standard deviations of the concentrate's copper, by the variances of the measured copper of
# feed, tailings and concentrate: of a sum of two that is measured too.
FEED, TAILINGS, CONCENTRATE = 4693614270963, 143562862303, 232188462351
ERROR = round(2 * (CONCENTRATE - CONCENTRATE**2 / (FEED + TAILINGS + CONCENTRATE)) ** 0.5)
MOST = 342960593 + ERROR
IMPOSSIBLE = [
    (FLOWS[0], f"{MOST + 1},{MOST},{MOST + 2}", ""),
    (FLOWS[0], f"{MOST + 2},{MOST + 1},{MOST + 3}", "343.902 t of cu in 342.960 t, more"),
    (FLOWS[0], f"{-ERROR - 1},{-ERROR - 2},{-ERROR}", ""),
    (
        FLOWS[0],
        f"{-ERROR - 2},{-ERROR - 3},{-ERROR - 1}",
        "-0.941 t of cu in 342.960 t, against the",
    ),
    (FLOWS[1], "-342960413,-342960593,-342960232", "96.341 t of cu in -342.960 t, against the"),
    (FLOWS[1], "100,-100,96340900", ""),
]


def with_flow(old: str, new: str) -> str:
    """The shift's output with another flow of the concentrate, or of its copper."""
    head = r"(stream,CONCENTRATE,THICKENER,env,\d+,\d+,redundant),"
    text, count = re.subn(head + old, rf"\1,{new}", text_of(OUT), count=1)
    assert count == 1
    return text


@pytest.mark.parametrize("old, new, said", IMPOSSIBLE, ids=[case[1] for case in IMPOSSIBLE])
def test_what_cannot_be(say: Desk, tmp_path: Path, old: str, new: str, said: str) -> None:
    """A stream can't carry more of a component than its whole mass, nor the other way.

    What the error of the assays explains is possible: pure copper may be a little more than all.
    """
    (tmp_path / "out.csv").write_text(with_flow(old, new))
    found = read_report(tmp_path / "out.csv")
    assert found.ok == read_report(OUT).ok and not read_report(OUT).impossible
    of_copper = [each for each in found.impossible if each.startswith("cu in jun03")]
    assert len(of_copper) == (1 if said else 0)
    err = say("recovery", tmp_path / "out.csv").err
    assert "look at the assays and meters around it" in err if said else not err
    if said:
        assert of_copper[0].startswith(f"cu in jun03: CONCENTRATE carries {said}")
        assert of_copper[0] in err


# A unit whose product B carries what the assays of A and C leave over.
LEFT_OVER = """unit,U
stream,A,env,U,metered,1
stream,B,U,env,metered,1
stream,C,U,env,metered,1
period,jun03,2024-06-03,2024-06-03
reading,a,A,2024-06-03,150000000,100
reading,b,B,2024-06-03,10000000,100
reading,c,C,2024-06-03,140000000,100
assay,cu,A,jun03,900000,1
assay,cu,C,jun03,GRADE,1
report,jun03
component,cu,jun03
"""


def test_where_it_is_said(say: Desk, tmp_path: Path, program: Path) -> None:
    """The statement's verdict of the balance has it, and the fleet wants a person."""
    said = "CONCENTRATE carries 351.204 t of cu in 342.960 t, more than its whole mass"
    out = tmp_path / "out.csv"
    out.write_text(with_flow(FLOWS[0], "351204000,351203990,351204010"))
    made = read(page(parse_rows("out", text_of(out)))).text
    assert "but the flow of CONCENTRATE can't be" in made and f"{said}: look at the assays" in made
    assert "can't be" not in read(page(parse_rows("out", text_of(OUT)))).text
    sessions = tmp_path / "sessions"
    sessions.mkdir()
    for name, grade in (("bad", "500000"), ("good", "900000")):
        (sessions / f"{name}.csv").write_text(LEFT_OVER.replace("GRADE", grade))
    found = say("fleet", "--program", program, "--out", tmp_path / "nights", sessions)
    said = "B carries 65.000 t of cu in 10.000 t, more than its whole mass"
    assert found.status == 1 and f"bad, cu in jun03: {said}" in found.err
    looks = pandas.read_csv(io.StringIO(found.out)).set_index(["site", "period"])["look"].dropna()
    assert list(looks.index) == [("bad", "cu in jun03")] and looks.iloc[0].startswith(said)


def test_a_mistyped_grade_in_a_book(say: Desk, tmp_path: Path, program: Path) -> None:
    """A book from before it takes the right one; after the close it stays, and so it is said."""
    month, books = tmp_path / "month", tmp_path / "books"
    month.mkdir()
    for name, text in {
        "streams": "tag,stream,from,to,error\nF1,FEED,env,MILL,1 %\nP1,FINES,MILL,env,1 %\n",
        "readings": "day,F1,P1\n2024-04-01,100,101\n",
        "periods": "name,first,last\napr1,2024-04-01,2024-04-01\n",
    }.items():
        (month / f"{name}.csv").write_text(text, encoding="utf-8")
    assays = tmp_path / "assays.csv"

    def add(grade: str) -> Said:
        text = f"component,stream,period,grade,error\ncu,F1,apr1,{grade} %,2 %\n"
        assays.write_text(text, encoding="utf-8")
        return say("book", "add", assays, "--book", books)

    assert say("book", "new", "2024", month, "--book", books).status == 0
    assert say("book", "add", month, "--book", books).status == 0
    shutil.copytree(books, tmp_path / "before")
    assert add("9").status == 0
    said = add("0.9")
    assert said.status == 1 and "90,000 ppm of cu in apr1 in the book, and 9,000 ppm" in said.err
    assert "or if the book is wrong, put back its folder from before that assay" in said.err
    shutil.rmtree(books)
    shutil.copytree(tmp_path / "before", books)
    assert add("0.9").status == 0
    assert say("book", "close", "apr1", *ANYWAY, "--book", books).status == 0
    said = add("0.8")
    assert (said.status, "apr1 is closed, so its assays stay as they are" in said.err) == (1, True)


def test_a_close_that_cannot_be(say: Desk, tmp_path: Path, program: Path) -> None:
    """A period isn't closed while a stream carries more of a component than its whole mass.

    Ninety per cent was typed for the feed's 0.9: 90 t of copper come in and 0.9 t go to tailings,
    so that 89.1 t are left for 10 t of concentrate.
    """
    month, books = tmp_path / "month", ["--book", tmp_path / "books"]
    month.mkdir()
    for name, text in {
        "streams": "tag,stream,from,to,error\nF1,FEED,env,MILL,1 %\nT1,TAILS,MILL,env,1 %\n"
        "C1,CONC,MILL,env,1 %\n",
        "readings": "day,F1,T1,C1\n2024-04-01,100,90,10\n",
        "periods": "name,first,last\napr1,2024-04-01,2024-04-01\n",
        "assays": "component,stream,period,grade,error\ncu,F1,apr1,90 %,1 %\ncu,T1,apr1,1 %,2 %\n",
    }.items():
        (month / f"{name}.csv").write_text(text, encoding="utf-8")
    assert say("book", "new", "2024", month, *books).status == 0
    assert say("book", "add", month, *books).status == 0
    said = "cu in apr1: CONC carries 89.100 t of cu in 10.000 t, more than its whole mass"
    assert said in say("book", "report", "apr1", *books).out
    found = say("book", "close", "apr1", *books)
    assert found.status == 1 and said in found.out
    assert "apr1 isn't closed: " in found.err and "'impossible=REASON'" in found.err
    found = say("book", "close", "apr1", *ANYWAY, *books)
    assert found.status == 0 and said in found.out and "apr1 is closed" in found.out
