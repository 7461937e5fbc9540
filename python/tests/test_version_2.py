"""Sessions of version 2 in each part of the package: boundaries, dates of service, many streams."""

from __future__ import annotations

import csv
import datetime
import io
import itertools
from collections.abc import Sequence
from pathlib import Path

import pandas
import pytest
from books import ANYWAY, PLANT, Sheets, Type, fixture_book, folder, month, rows_of
from conftest import Desk, Said, example, text_of
from hypothesis import given
from hypothesis import strategies as st
from test_program import QUICK, judged, refusals

from plantbal import Session, convert
from plantbal.book import beginning
from plantbal.audit.held import Pair, answered_rows, refused_differ
from plantbal.faults import Refusal
from plantbal.lint import lint_session
from plantbal.model.ledger import Ledger
from plantbal.model.studies import studies_of
from plantbal.page.command import page
from plantbal.program import call
from plantbal.report.parsing import parse_rows
from plantbal.report.output import parse_report
from plantbal.report.tables import frame, pivot, with_deviations
from plantbal.report.trend import trend_of

__all__ = ["fixture_book"]

TERMINAL = example("terminal.csv")
WRITTEN = text_of(example("terminal.out.csv"))
SERVED = "TK1 SHIPS FILL1 TRAINS LINE TK2 FILL2 TRUCKS".split()

# ---- sessions


def test_methods() -> None:
    session = Session(version=2)
    session.boundary("JETTY")
    session.unit("U")
    session.tank("K", variance=1, since="2024-03-15")
    session.stream("A", "JETTY", "U", variance=1, until=datetime.date(2024, 6, 10))
    session.stream("P", "U", "K", "plain")
    session.advise({"P": 7})
    assert session.to_csv().splitlines() == [
        "version,2",
        "boundary,JETTY",
        "unit,U",
        "tank,K,1,2024-03-15,2199-12-31",
        "stream,A,JETTY,U,metered,1,1900-01-01,2024-06-10",
        "stream,P,U,K,plain,0",
        "advise,P,7",
    ]
    assert (session.boundaries, session.node_of("JETTY"), session.node_of("U")) == (
        ("JETTY",),
        "env",
        "U",
    )
    assert session.service("P") is None and session.service("K") is not None
    with pytest.raises(Refusal, match="boundaries are of sessions of version 2"):
        Session().boundary("JETTY")


def test_frames() -> None:
    streams = pandas.DataFrame(
        {
            "name": ["A", "B"],
            "from": ["JETTY", "U"],
            "to": ["U", "env"],
            "variance": [1, 1],
            "since": [None, "2024-03-15"],
            "until": [None, None],
        }
    )
    session = Session.from_frames(streams=streams, boundaries=["JETTY"])
    assert list(session) == [
        ("version", "2"),
        ("boundary", "JETTY"),
        ("unit", "U"),
        ("stream", "A", "JETTY", "U", "metered", "1"),
        ("stream", "B", "U", "env", "metered", "1", "2024-03-15", "2199-12-31"),
    ]
    old = Session.from_frames(streams=streams.drop(columns=["since", "until"]))
    assert old.version == 1 and old.nodes == {"JETTY": "unit", "U": "unit"}


def test_readings_at_once() -> None:
    """Readings that are taken as columns are asked for their service too."""
    session = Session(strict=False, version=2)
    session.row("unit", "U")
    session.row("stream", "A", "env", "U", "metered", "1", "2024-03-15", "2024-03-16")
    days = ["2024-03-15", "2024-03-17"]
    columns = ["a", "b"], ["A", "A"], days, ["5", "5"], ["0", "0"]
    frame = pandas.DataFrame(dict(zip(("id", "stream", "day", "grams", "variance"), columns)))
    from plantbal.session.frames import FrameTable

    session.take_readings(columns, FrameTable("readings", frame).place)
    assert [(each.row[1], each.code) for each in session.refused] == [("b", 12)]


@pytest.mark.parametrize("name", ["version_2", "refusals_version_2", "full_version_2", "metering"])
def test_refusals_that_are_kept(tmp_path: Path, name: str) -> None:
    """What a session refuses is what stands in the outputs that are kept."""
    rows = csv.reader(io.StringIO(text_of(example(f"conformance/{name}.out"))))
    wanted = [(int(row[1]), int(row[2]), row[3]) for row in rows if row[0] == "refused"]
    assert refusals(judged(example(f"conformance/{name}.in").read_bytes(), tmp_path)) == wanted


# ---- what a report is of


def test_each_report_has_what_is_in_service() -> None:
    ledger = Ledger("t", TERMINAL.read_bytes())
    assert [(seen.period.name, list(seen.streams)) for seen in studies_of(ledger)] == [
        ("feb", SERVED[:5]),
        ("mar", SERVED),
        ("jun", SERVED),
        ("feb", SERVED[:5]),
    ]
    assert [seen.nodes for seen in studies_of(ledger)[:2]] == [
        ["env", "MANIFOLD", "TK1"],
        ["env", "MANIFOLD", "TK1", "TK2"],
    ]
    answers = answered_rows(WRITTEN.encode())
    for pair in map(Pair, studies_of(ledger), answers):
        assert not list(pair.differ())


DAYS = [f"2024-03-{day:02}" for day in range(1, 7)]
SPANS = [span for span in itertools.product(DAYS, DAYS) if span[0] <= span[1]]
SPAN = st.one_of(st.just(("", "")), st.sampled_from(SPANS))
AMOUNT = st.integers(-9, 9).map(str)


def session_of(
    spans: Sequence[tuple[str, str]], facts: Sequence[tuple[str, str, str]], period: tuple[str, str]
) -> bytes:
    """A session of two units and a tank, of which each has such dates; its facts are numbered."""
    plant = ["tank,K,1", "stream,A,J,U,metered,1", "stream,B,U,K,plain,0"]
    plant += ["stream,C,K,env,batch,1", "stream,D,U,V,metered,1", "stream,E,V,J,plain,0"]
    rows = ["version,2", "boundary,J", "unit,U", "unit,V"]
    for row, span in zip(plant, spans):
        rows.append(",".join([row, *span]).rstrip(","))
    rows += ["strap,K,0,0", "strap,K,1000,1000000"]
    for number, (kind, day, amount) in enumerate(facts):
        level = f"{200 + int(amount)},850000"
        row = {
            "A": f"reading,f{number},A,{day},{amount},1",
            "D": f"reading,f{number},D,{day},{amount},1",
            "C": f"transfer,f{number},C,{day},{DAYS[-1]},{amount},1",
            "K": f"dip,f{number},K,{day},{level},1",
        }[kind]
        rows.append(row)
    rows += [f"period,p,{period[0]},{period[1]}", "report,p", "close,p", "design"]
    rows += ["tank,L,1,2024-03-05,2024-03-06", "late,dip,z,L,2024-03-04,0,1,1", "report,p"]
    return ("\n".join(rows) + "\n").encode()


FACT = st.tuples(st.sampled_from("AADKKC"), st.sampled_from(DAYS), AMOUNT)


@QUICK
@given(
    st.lists(SPAN, min_size=6, max_size=6),
    st.lists(FACT, min_size=5, max_size=25),
    st.sampled_from(SPANS),
)
def test_random_services(
    program: Path,
    spans: list[tuple[str, str]],
    facts: list[tuple[str, str, str]],
    period: tuple[str, str],
) -> None:
    """Nodes, streams and measured values are those that the program takes, and so are refusals."""
    data = session_of(spans, facts, period)
    output = call(["run", "--sweeps", "0"], data, program=program)[1]
    ledger, answers = Ledger("s", data), answered_rows(output)
    assert not list(refused_differ(output, ledger))
    for pair in map(Pair, studies_of(ledger), answers):
        assert not list(pair.differ())


# ---- lint


def terminal(old: str, new: str) -> bytes:
    """The terminal's session with one text in the place of another."""
    text = text_of(TERMINAL)
    assert text.count(old) == 1, old
    return text.replace(old, new).encode()


LINT = [
    (
        "missing-reading",
        terminal("reading,fill2-0316,", "reading,x,FILL2,2024-05-01,1,1\n#"),
        "FILL2 has no value in mar: no reading on 2024-03-16, 1 of 2 days",
    ),
    (
        "missing-dip",
        terminal("dip,tk2-0314,TK2,2024-03-14", "dip,tk2-0314,TK2,2024-03-15"),
        "tank TK2 has no value in mar: it has no dip of the day before its first in service, 2024",
    ),
    (
        "unused-dip",
        terminal("dip,tk2-0316,TK2", "dip,x,TK2,2024-03-15,0,745000,1\ndip,tk2-0316,TK2"),
        "dip x of TK2 is of 2024-03-15, neither the last day of a period nor the day before one",
    ),
    (
        "never-served",
        terminal("report,jun", "stream,VENT,TK1,env,plain,0,2042-06-01,2042-06-30\nreport,jun"),
        "VENT is in service from 2042-06-01 to 2042-06-30, on no day of a period",
    ),
    (
        "no-transfer",
        terminal("transfer,trucks-0316", "transfer,x,TRUCKS,2024-04-01,2024-04-01,1,1\n#"),
        "TRUCKS has no transfer in mar",
    ),
    (
        "no-critical",
        terminal("critical,global,3,7815\n", ""),
        "mar, jun have 3 degrees of freedom, and there is no critical value for them",
    ),
    (
        "worse-class",
        terminal("reading,line-0316,LINE", "reading,line-0401,LINE,2024-04-01,1,1\n#"),
        "in mar",
    ),
    (
        "near-names",
        terminal("boundary,RAIL\n", "boundary,RAIL\nboundary,JETYT\n"),
        "the nodes JETTY and JETYT have nearly the same name",
    ),
]


@pytest.mark.parametrize("code, session, said", LINT, ids=[case[0] for case in LINT])
def test_lint(code: str, session: bytes, said: str) -> None:
    found = [str(each) for each in lint_session(session) if each.code == code]
    assert any(said in each for each in found), found


def test_nothing_looks_wrong() -> None:
    assert [each.code for each in lint_session(TERMINAL)] == ["no-elimination"]


# ---- what is made of an output


def test_tables() -> None:
    rows = parse_rows("o", WRITTEN)
    table = with_deviations(pivot(frame(rows), "flows"), rows)
    assert table.index.tolist() == SERVED
    assert table["mar"].notna().all() and table["feb"].isna().sum() == 3
    assert pivot(frame(rows), "classes").loc["TK2"].tolist()[1:] == ["redundant"] * 2
    assert pivot(frame(rows), "count").loc["redundant"].tolist() == [5, 8, 8]


def test_trend() -> None:
    trend = trend_of(parse_report(WRITTEN), TERMINAL.read_bytes())
    assert trend.names == ["feb", "mar", "jun"]
    assert list(trend.lines["FILL2"].flow[1:].round()) == [3992, 2004]
    assert trend.lines["FILL2"].flow[0] != trend.lines["FILL2"].flow[0]  # there is none


def test_page() -> None:
    rows = parse_rows("o", WRITTEN)
    made = page(rows, session=("terminal.csv", TERMINAL.read_bytes()))
    # TK2 is opened by the dip of its eve, and no day of February is one of it
    march = made[made.index('id="p1"') : made.index('id="p2"')]
    february = made[made.index('id="p0"') : made.index('id="p1"')]
    assert "TK2" in march and "TK2" not in february
    assert "3,672.850" in march
    assert "JETTY → MANIFOLD" in march and "TK1 → RAIL" in march and "env → MANIFOLD" not in made
    assert "env → MANIFOLD" in page(rows)  # which has no session


def test_uncertainty() -> None:
    found = parse_report(WRITTEN).uncertainty
    assert len(found) == 26 and found["sd"].notna().all()


def test_largest_session_is_read(tmp_path: Path) -> None:
    """4,000 streams are taken in version 2, and 2,000 in version 1."""
    streams = [f"stream,s{number},env,u,plain,0" for number in range(4001)]
    for head, count in ((["version,2"], 4000), ([], 2000)):
        data = "\n".join([*head, "unit,u", *streams]).encode()
        found = refusals(judged(data, tmp_path))
        assert found[0] == (len(head) + count + 2, 13, "full") and len(found) == 4001 - count


# ---- workbooks and books

SHEETS: Sheets = {
    "boundaries": [["name"], ["JETTY"]],
    "streams": [
        ["tag", "stream", "from", "to", "kind", "error", "since", "until"],
        ["F-1", "FEED", "JETTY", "MILL", "", "1 % or 5 t", "", ""],
        ["P-1", "PRODUCT", "MILL", "SILO", "", "2 t", "2024-04-02", ""],
        ["", "TRUCKS", "SILO", "env", "batch", "0.1 t", "", "2024-12-31"],
        ["", "BYPASS", "MILL", "env", "plain", "", "", ""],
    ],
    "tanks": [["tank", "error", "density", "since"], ["SILO", "3 mm", "1250", "2024-04-02"]],
    "straps": PLANT["straps"],
    "readings": [["day", "F-1", "P-1"], ["2024-04-01", "9", ""], ["2024-04-02", "9", "9"]],
    "dips": [["tank", "day", "level"], ["SILO", "2024-04-01", "0"], ["SILO", "2024-04-02", "9"]],
    "periods": [["name", "first", "last"], ["p", "2024-04-01", "2024-04-02"]],
}


def test_workbook(tmp_path: Path) -> None:
    found = convert(folder(tmp_path / "book", SHEETS))
    assert found.ok and not found.notes, (found.said(), found.notes)
    assert [",".join(row) for row in found.session][:9] == [
        "version,2",
        "boundary,JETTY",
        "unit,MILL",
        "tank,SILO,1,2024-04-02,2199-12-31",
        "strap,SILO,0,2000000",
        "strap,SILO,20000,4710000000",
        "stream,FEED,JETTY,MILL,metered,1",
        "stream,PRODUCT,MILL,SILO,metered,1,2024-04-02,2199-12-31",
        "stream,TRUCKS,SILO,env,batch,1,1900-01-01,2024-12-31",
    ]


def test_from_spreadsheet(say: Desk, tmp_path: Path) -> None:
    """Rows in front may have boundaries, which are no units then."""
    concentrator = example("concentrator")
    before, tags = tmp_path / "before.csv", tmp_path / "tags.csv"
    before.write_text("version,2\nboundary,MINE\n", encoding="ascii")
    text = text_of(concentrator / "tags.csv")
    tags.write_text(text.replace("ORE;env;", "ORE;MINE;"), encoding="utf-8")
    words = ("--decimal", "comma", "--date", "%d.%m.%Y", "--skip", "Remark", "--before", before)
    said = say("from-spreadsheet", *words, tags, concentrator / "readings.csv")
    assert said.status == 0, said.err
    assert "stream,ORE,MINE,GRINDING,metered" in said.out and "unit,MINE" not in said.out


BAD_CELLS = [
    ("streams", 2, 6, "2.4.24 x", "streams.csv: line 3, column 7 (since): '2.4.24 x' isn't a day"),
    ("streams", 2, 7, "2024-04-01", "streams.csv: line 3, column 7: stream PRODUCT: its first day"),
    ("streams", 1, 2, "QUAY", "there is no unit, tank or boundary QUAY"),
    ("boundaries", 1, 0, "JE TTY", "boundaries.csv: line 2, column 1: boundary JE TTY: NAME is"),
    ("readings", 1, 2, "9", "PRODUCT isn't in service on 2024-04-01: it is from 2024-04-02"),
]


@pytest.mark.parametrize("sheet, row, column, text, said", BAD_CELLS)
def test_bad_cells(tmp_path: Path, sheet: str, row: int, column: int, text: str, said: str) -> None:
    sheets = {name: [list(cells) for cells in rows] for name, rows in SHEETS.items()}
    sheets["units"] = [["name"], ["MILL"]]
    sheets[sheet][row][column] = text
    found = convert(folder(tmp_path / "book", sheets))
    assert any(said in line for line in found.said()), found.said()


DATED: Sheets = {
    **PLANT,
    "streams": [[*row, head] for row, head in zip(PLANT["streams"], ["since", "", "", ""])],
}
NEW: Sheets = {
    **DATED,
    "streams": [*DATED["streams"], ["", "BAGS", "HOPPER", "env", "batch", "0.1 t", "2024-05-01"]],
    "tanks": [
        ["tank", "error", "density", "since"],
        ["SILO", "3 mm", "1250", ""],
        ["HOPPER", "3 mm", "1250", "2024-05-01"],
    ],
    "straps": [*PLANT["straps"], ["HOPPER", "0", "0"], ["HOPPER", "2000", "471"]],
}


@pytest.fixture(name="dated")
def fixture_dated(say: Desk, tmp_path: Path) -> Type:
    """A book of a plant with a column of dates, the April of which is closed."""

    def typed(*words: object) -> object:
        return say("book", *words, "--book", tmp_path / "mill", "--who", "anna")

    for words in (
        ("new", "2024", folder(tmp_path / "plant", DATED)),
        ("add", folder(tmp_path / "april", month(1, 30))),
        ("close", "2024-04", *ANYWAY),
    ):
        said = typed(*words)
        assert said.status == 0, said  # type: ignore[attr-defined]
    return typed  # type: ignore[return-value]


def test_book_takes_a_tank_after_a_close(program: Path, dated: Type, tmp_path: Path) -> None:
    assert rows_of(tmp_path)[0] == "version,2"
    said = dated("add", folder(tmp_path / "new", NEW | month(1, 31, "05")))
    assert (said.status, said.err) == (0, "")
    assert "5 rows of the plant" not in said.out and "4 rows of the plant" in said.out
    assert "tank,HOPPER,1,2024-05-01,2199-12-31" in rows_of(tmp_path)
    assert "no dip of HOPPER on 2024-04-30, 2024-05-31" in said.out
    said = dated("report", "2024-04", "2024-05")
    assert "reports/2024-04.csv, with 1 edit, as it was" in said.out
    report = text_of(tmp_path / "mill" / "reports" / "2024-05.csv")
    assert "stream,HOPPER,HOPPER,env" in report
    dips = {"dips": [["tank", "day", "level"], ["HOPPER", "2024-05-31", "900"]]}
    said = dated("add", folder(tmp_path / "dips", dips))
    assert "no dip of HOPPER on 2024-04-30, the evening before it is in service" in said.out


def test_book_refuses_a_tank_without_a_date(program: Path, dated: Type, tmp_path: Path) -> None:
    sheets = NEW | {"tanks": [[*row[:3], ""] for row in NEW["tanks"]]}
    sheets["tanks"][0][3] = "since"
    said = dated("add", folder(tmp_path / "new", sheets | month(1, 31, "05")))
    assert said.status == 1
    assert "write a day after the closed periods into its column since" in said.err


def test_book_of_version_1_takes_no_dates(
    say: Desk, tmp_path: Path, monkeypatch: pytest.MonkeyPatch
) -> None:
    """A book as an older version of plantbal made it works as it did."""
    monkeypatch.setattr(beginning, "VERSION", ())

    def book(*words: object) -> Said:
        return say("book", *words, "--book", tmp_path / "mill")

    assert book("new", "2024", folder(tmp_path / "plant", PLANT)).status == 0
    assert book("add", folder(tmp_path / "april", month())).err == ""
    assert rows_of(tmp_path)[0] != "version,2"
    said = book("add", folder(tmp_path / "new", NEW | month(1, 3)))
    assert said.status == 1
    assert "dates of service and boundaries come with the next year" in said.err
