"""Windows: what a session refuses, how an output is read, tables, drawing, page and audit."""

from __future__ import annotations

import datetime
import shutil
from html import unescape
from pathlib import Path

import pytest
from books import ANYWAY, folder
from conftest import Desk, Said, assert_refused, example, session_of, text_of

from plantbal import Session, run, solve
from plantbal.book.window import undipped
from plantbal.faults import Refusal
from plantbal.page.command import page
from plantbal.report.blocks import blocks_of, last_blocks, reports_of
from plantbal.report.parsing import parse_rows
from plantbal.report.output import Output, read_report
from plantbal.schema import schema

MISSED = example("missed_dip.csv")
OUT = example("missed_dip.out.csv")

# Rows of a session, the last of which is refused, its code, and what is said.
PLANT = "tank,K,1\nstream,A,env,K,plain,0\nperiod,p2,2024-05-02,2024-05-02\n"
PLANT += "period,p1,2024-05-01,2024-05-01\nperiod,p4,2024-05-04,2024-05-04\n"
REFUSED = [
    ("window,p1", 2, "it has 2 fields"),
    ("window,p1,p2,p4", 2, "it has 4 fields"),
    ("window,p 1,p2", 3, "FIRST is 'p 1'"),
    ("window,p1,p 2", 3, "LAST is 'p 2'"),
    ("window,p1,p9", 6, "there is no period p9"),
    ("window,p9,p1", 6, "there is no period p9"),
    ("window,p2,p1", 8, "period p1 begins before period p2"),
    ("window,p1,p4", 9, "2024-05-03 is in no period, between p2 and p4"),
]


@pytest.mark.parametrize("row, code, said", REFUSED, ids=[row for row, *_ in REFUSED])
def test_what_is_refused(row: str, code: int, said: str) -> None:
    assert_refused(session_of(PLANT), row, code, said)


def test_how_many_periods() -> None:
    session = session_of("unit,U\nstream,A,env,U,plain,0")
    first = datetime.date(2024, 5, 1)
    for day in range(1, 34):
        on = first + datetime.timedelta(day - 1)
        session.period(f"d{day}", on, on)
    session.window("d1", "d31")
    session.window("d3", "d33")
    with pytest.raises(Refusal, match="32 periods are from d1 to d32"):
        session.window("d1", "d32")


@pytest.mark.parametrize("periods, code", [(10, 0), (11, 13)])
def test_how_many_nodes(periods: int, code: int) -> None:
    session = Session()
    for unit in range(100):
        session.unit(f"u{unit}")
        session.stream(f"s{unit}", "env", f"u{unit}", "plain")
    for day in range(1, periods + 1):
        session.period(f"d{day}", f"2024-05-{day:02}", f"2024-05-{day:02}")
    session.strict = False
    session.window("d1", f"d{periods}")
    assert [refused.code for refused in session.refused] == ([code] if code else [])


def test_nothing_is_stored() -> None:
    session = session_of("period,p1,2024-05-01,2024-05-01\nunit,U")
    session.window("p1", "p1")
    session.close("p1")
    session.window("p1", "p1")
    assert [row[0] for row in session][-3:] == ["window", "close", "window"]


def test_blocks() -> None:
    rows = parse_rows("out", text_of(OUT))
    blocks = blocks_of(rows)
    assert [block.subject for block in blocks] == ["may2", "may3", "may2 to may3", "may1 to may4"]
    assert [block.title for block in reports_of(rows)] == ["may2", "may3"]
    window = blocks[2].window
    assert window is not None and window.periods == ["may2", "may3"]
    assert window.shown("c1.0") == "TK_RUN after may2"
    assert window.shown("c0.1") == "TK_SHIP before may2"
    assert window.shown("s2.4") == "SHIPS in may3"
    assert (window.shown("env"), len(last_blocks(blocks))) == ("env", 4)


def test_rounds_of_a_window() -> None:
    text = text_of(OUT)
    window = text[text.index("window,may2") : text.index("window,may1")]
    later = window[window.index("report") :].replace(",may2,0", ",may2,1", 1)
    rows = parse_rows("out", window + "taken,may2,1,s1.2,60\n" + later)
    blocks = blocks_of(rows)
    assert [block.title for block in blocks] == ["may2 to may3", "may2 to may3, round 1"]
    assert [block.taken for block in blocks] == [[], ["s1.2"]]
    # a person reads the declared name
    assert "after RUNDOWN in may2 was taken out" in blocks[1].verdict
    made = unescape(page(rows, seconds=0))
    # with the pump of that day it is a set of equals
    assert (
        "Accepted without one of " in made and "That it was RUNDOWN in may2 isn't a finding" in made
    )
    assert "before RUNDOWN in may2 was taken out" in made and ">s1.2" not in made


def test_tables_of_an_output() -> None:
    output = read_report(OUT)
    assert output.ok
    flows = output.windows.query("window == 'may3' and what == 'flow'")
    assert list(flows["declared"])[:2] == ["RUNDOWN", "PUMP"]
    run_down = output.windows.query("window == 'may3' and declared == 'TK_RUN'")
    assert list(run_down["what"]) == ["before", "after", "after"]
    assert list(run_down["period"]) == ["may2", "may2", "may3"]
    assert list(run_down["flow"]) == [5392004889, 5775462034, 6201003111]
    assert list(output.streams.query("period == 'may2'")["name"])[:2] == ["TK_RUN", "TK_SHIP"]
    assert list(output.blocks["window"]) == ["", "", "may3", "may4"]
    assert "windows" in output.tables() and "components" not in output.tables()


def test_tables(say: Desk) -> None:
    flows = say("tables", "flows", OUT, "--window").out
    assert flows.startswith("stream,may1,may1 ±,may2,may2 ±,may3,may3 ±,may4,may4 ±\nRUNDOWN,24")
    reports = say("tables", "flows", OUT).out
    assert reports.startswith("stream,may2,may2 ±,may3,may3 ±\nTK_RUN,381.52118,")
    contents = say("tables", "contents", OUT).out
    assert contents.startswith("tank,before may1,before may1 ±,after may1,")
    assert say("tables", "flows", "--window", OUT).out == flows
    assert "TK_RUN,5000.473011," in contents
    none = say("tables", "contents", example("two_meters.out.csv"))
    assert (none.status, "there is no window in what was read" in none.err) == (1, True)


def test_drawing(say: Desk) -> None:
    drawn = say("draw", OUT, "--window", "--period", "may2", "--mark", "TK_RUN after may2", "--dot")
    assert "may2 to may3: cut of TK_RUN after may2" in drawn.out
    assert "△ TK_RUN after may2" in drawn.out and "5,775.462 t" in drawn.out
    assert "may3" in say("draw", OUT, "--dot").out


def test_uncertainty(say: Desk) -> None:
    lines = say("uncertainty", OUT).out.splitlines()
    line = next(each for each in lines if each.startswith("may2 to may3  TK_RUN after"))
    assert "5,775.462" in line and "RUNDOWN in may2 38%" in line


def test_page(say: Desk) -> None:
    page = say("page", OUT, "--session", MISSED, "--seconds", "0").out
    assert "may2 to may3" in page and "TK_RUN\u00a0after\u00a0may2" in page
    assert "2024-05-02</span>" in page


def test_audit(say: Desk, program: Path, tmp_path: Path) -> None:
    good = say("audit", OUT, MISSED, "--program", program)
    assert good.status == 0, good.out
    assert "may2 to may3, block 1 of 1: flows balance" in good.out
    changed = tmp_path / "changed.csv"
    for old, new, said in (
        ("place,c1.0,may2,TK_RUN", "place,c1.0,may2,TK_SHIP", "the session has c1.0,may2,TK_RUN"),
        ("c0.0,env,n1.1,5391792000", "c0.0,env,n1.1,5391792001", "5,391,792,000"),
        ("window,may2,may3,2", "window,may2,may4,2", "the session asks for may2 to may3 here"),
    ):
        changed.write_text(text_of(OUT).replace(old, new), encoding="utf-8")
        found = say("audit", changed, MISSED, "--no-program")
        assert (found.status, said in found.out) == (1, True), found.out


def test_the_program_agrees(program: Path) -> None:
    for name in ("window", "window_json"):
        path = example(f"conformance/{name}.in")
        session = Session.read(path)
        rows = parse_rows("out", text_of(example(f"conformance/{name}.out")))
        refused = [(row["at"], row["code"]) for row in rows if row["row"] == "refused"]
        assert refused == [(str(each.place.record), str(each.code)) for each in session.refused]


def test_a_session_made(program: Path) -> None:
    session = session_of(PLANT)
    session.window("p1", "p2")
    output = run(session, program=program)
    assert [block.subject for block in output.blocks_in_order] == ["p1 to p2"]
    assert isinstance(output, Output) and output.windows["declared"].tolist().count("K") == 3


def test_solved_elsewhere(program: Path) -> None:
    output = solve(text_of(MISSED).encode(), program=program)
    subjects = [block.subject for block in output.blocks_in_order]
    assert subjects == ["may2", "may3", "may2 to may3", "may1 to may4"]
    content = output.windows.query("window == 'may3' and name == 'c1.0'")["flow"].iloc[0]
    assert abs(content - 5775462034) < 100_000


def test_kinds_are_told(say: Desk) -> None:
    assert {"window", "place", "component"} <= set(schema().output)
    told = say("explain", "-", text="tank,K,1\nperiod,p1,2024-05-01,2024-05-01\nwindow,p1,p2\n")
    assert "LAST is 'p2': there is no period p2" in told.out
    assert say("lint", MISSED).status == 0


# ---- workbooks and books

FARM = example("tank_farm_workbook")


def test_workbook(say: Desk, tmp_path: Path) -> None:
    said = say("convert", "--locale", "en", FARM, "--out", tmp_path / "farm.csv")
    assert "a sheet windows with may2, may3 has what it held then" in said.err
    workbook, out = tmp_path / "farm", tmp_path / "windows.csv"
    shutil.copytree(FARM, workbook)
    sheet = workbook / "windows.csv"
    sheet.write_text("first,last\nmay2,may3\nmay1,may4\n", encoding="utf-8")
    said = say("convert", "--locale", "en", workbook, "--out", out)
    assert said.status == 0 and "a sheet windows" not in said.err
    rows = text_of(out).splitlines()
    assert rows[-3:] == ["report,may4", "window,may2,may3", "window,may1,may4"]
    facts = ("reading", "transfer", "dip")

    def plain(row: str) -> str:
        """A row, without the id of a fact."""
        kind, _, rest = row.partition(",")
        return f"{kind},{rest.partition(',')[2]}" if kind in facts else row

    missed = [row for row in text_of(MISSED).splitlines() if not row.startswith("report,")]
    ours = [row for row in rows if not row.startswith("report,")]
    assert sorted(map(plain, ours)) == sorted(map(plain, missed))
    sheet.write_text("first,last\nmay3,may2\n", encoding="utf-8")
    said = say("convert", "--locale", "en", workbook)
    assert "windows.csv: line 2, column 2: window may3 may2: period may2 begins before" in said.err


def test_book(say: Desk, tmp_path: Path, program: Path) -> None:
    book = tmp_path / "book"

    def typed(*words: object) -> Said:
        return say("book", *words, "--book", book, "--who", "anna")

    assert typed("new", "2024", FARM, "--locale", "en").status == 0
    said = typed("add", FARM, "--locale", "en").out
    missing = "no dip of TK_RUN on 2024-05-02; if nobody took it: "
    missing += "plantbal-desk book window may2 may3"
    assert f"may2: {missing}\nmay3: {missing}\n" in said
    asked = tmp_path / "asked.csv"
    found = typed("window", "may2", "may3", "--session", asked)
    assert (found.status, found.err) == (0, "")
    assert "may2 to may3: converged, accepted by the global test" in found.out
    assert "TK_RUN after may2: 5,775.462 t ± 9.724 t, by the flows around it\n" in found.out
    report = book / "reports" / "may2+may3.csv"
    assert text_of(report).startswith("window,may2,may3,2\n")
    assert text_of(asked).endswith("window,may2,may3\n")
    assert text_of(asked)[: -len("window,may2,may3\n")] == text_of(book / "2024.csv")
    assert "as it was" in typed("window", "may2", "may3").out
    assert typed("close", "may2", *ANYWAY).status == 0
    assert typed("window", "may2", "may3").status == 0
    for first, last, wanted in (
        ("may3", "may2", "period may2 begins before period may3: exchange the periods"),
        ("may2", "may9", "there is no period may9 in this book"),
    ):
        found = typed("window", first, last)
        assert (found.status, wanted in found.err) == (1, True), found.err
    assert typed("next", "2024-2").status == 0
    may5 = folder(
        tmp_path / "may5",
        {
            "readings": [["day", "FI-1", "FI-2"], ["2024-05-05", "2400", "2000"]],
            "periods": [["name", "first", "last"], ["may5", "2024-05-05", "2024-05-05"]],
            "windows": [["first", "last"], ["may4", "may5"]],
        },
    )
    said = typed("add", may5)
    assert said.status == 0 and "plantbal-desk book window asks for a window" in said.out
    found = typed("window", "may4", "may5")
    assert (found.status, "may4 and may5 are of two years" in found.err) == (1, True)


def test_nothing_determines_a_content(say: Desk, tmp_path: Path, program: Path) -> None:
    """A tank into which something flows unmeasured, and which is dipped at its ends alone."""
    session = session_of(
        "tank,K,1\nstrap,K,0,0\nstrap,K,1000,1000000\nstream,A,env,K,plain,0\n"
        "period,p1,2024-05-01,2024-05-01\nperiod,p2,2024-05-02,2024-05-02\n"
        "dip,d0,K,2024-04-30,100,850000,1\ndip,d2,K,2024-05-02,500,850000,1"
    )
    session.window("p1", "p2")
    block = run(session, program=program).blocks_in_order[-1]
    assert list(undipped(block)) == ["K after p1: nothing determines what it held"]
