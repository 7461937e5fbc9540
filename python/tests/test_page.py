"""The month's statement: what it says, that it is well formed, and how its words are taken."""

from __future__ import annotations

import hashlib
import re
from dataclasses import replace
from pathlib import Path

import pytest
from conftest import Desk, example, least_spent, text_of
from hypothesis import given, settings
from hypothesis import strategies as some
from pages import read

from plantbal.faults import InputFault
from plantbal.model.ledger import Ledger
from plantbal.page.account import account_of
from plantbal.page.command import page
from plantbal.page.head import program_text
from plantbal.page.render import soft
from plantbal.page.spoken import SpokenPage
from plantbal.page.statement import StreamLine, Worth
from plantbal.page.verdict import plus_minus
from plantbal.report.blocks import Values
from plantbal.report.parsing import parse_rows
from plantbal.runs import run
from plantbal.sentence import ENGLISH

# The machine may be busy.
QUICK = settings(deadline=None, max_examples=60)
SAMPLES = {
    "tanks": ("refinery_day.out.csv", "refinery_day.csv"),
    "without its session": ("refinery_day.out.csv", ""),
    "edits": ("month_end.out.csv", "month_end.csv"),
    "periods": ("concentrator/tested.out.csv", "concentrator/session.csv"),
    "elimination": ("heat_exchanger_suspect.jsonl", "heat_exchanger_suspect.csv"),
    "older form": ("steam_of_another_program.csv", ""),
    "refused": ("badly_typed.out.csv", "badly_typed.csv"),
    "design": ("crude_unit_design.out.csv", "crude_unit_design.csv"),
}


def page_of(output: str, session: str = "", title: str = "") -> str:
    """The page of shipped files."""
    rows = parse_rows(output, text_of(example(output)))
    named = (session, example(session).read_bytes()) if session else None
    return page(rows, session=named, title=title)


def cells(made: str, stream: str) -> list[str]:
    """The texts of a stream's row."""
    row = re.search(rf'<tr[^>]* data-stream="{stream}"[^>]*>(.*?)</tr>', made)
    assert row is not None, stream
    found = re.findall(r"<td[^>]*>(.*?)</td>", row[1])
    return [" ".join(re.sub(r"<[^>]*>", " ", cell.replace("<wbr>", "")).split()) for cell in found]


@pytest.mark.parametrize("files", SAMPLES.values(), ids=list(SAMPLES))
def test_well_formed(files: tuple[str, str]) -> None:
    """Each element is closed, each id is there once, and nothing is fetched."""
    made = page_of(*files)
    found = read(made)
    assert all(link.startswith("#p") for link in found.links)
    assert set(re.findall(r"https?://[^\"' ]*", made)) <= {"http://www.w3.org/2000/svg"}
    assert "url(" not in made and "@import" not in made
    assert "default-src 'none'" in made


def test_hostile_texts() -> None:
    """Titles and files are texts, whatever they are."""
    rows = parse_rows("x", text_of(example("refinery_day.out.csv")))
    data = example("refinery_day.csv").read_bytes()
    made = page(rows, session=("<b>&day", data), title="Day & </title><script>night")
    assert "<h1>Day &amp; &lt;/title&gt;&lt;script&gt;night</h1>" in made
    assert "&lt;b&gt;&amp;day, 68 rows" in made
    read(made)


# ---- what stands on it


def test_head() -> None:
    said = read(page_of(*SAMPLES["tanks"])).text
    digest = hashlib.sha256(example("refinery_day.csv").read_bytes()).hexdigest()
    for part in (
        "4 units, 4 tanks, 19 streams",
        "may1, 2024-05-01, open",
        f"SHA-256 of the session {digest}",
        "not known: the page was made of a report",
        "Page plantbal-desk ",
    ):
        assert part in said
    without = read(page_of(*SAMPLES["without its session"])).text
    assert "need --session" in without and "2024-05-01" not in without


def test_tanks() -> None:
    """Opening, in, out, closing by the books and by dip, and the adjustment between these two."""
    made = page_of(*SAMPLES["tanks"])
    wanted = "TK_CRUDE 35,605.220 7,999.864 9,905.463 33,699.621 33,698.911 +0.710 +0.06"
    assert cells(made, "TK_CRUDE")[:8] == wanted.split()
    opening, into, out, closing = 35605220, 7999864, 9905463, 33699621
    assert opening + into - out == closing
    # without the session the dips aren't known, and the gain stands in their place
    assert cells(page_of(*SAMPLES["without its session"]), "TK_CRUDE")[1:6] == [
        "",
        "7,999.864",
        "9,905.463",
        "gain -1,905.600",
        "",
    ]


def test_streams() -> None:
    """Measured, adjustment in t, % and standard deviations, booked, ±, class as word and sign."""
    made = page_of(*SAMPLES["tanks"])
    row = cells(made, "KEROSENE")
    assert row[:7] == "KEROSENE|CDU → TK_KEROSENE|1,176.400|+4.281|+0.36|+0.72|1,180.681".split("|")
    assert re.fullmatch(r"[0-9.]+", row[7]) and row[8] == "● redundant"
    assert cells(made, "NAPHTHA")[2:7] == ["", "", "", "", "1,756.945"]
    assert cells(made, "NAPHTHA")[8] == "△ observable"
    assert cells(made, "GAS_IMPORT")[3:6] == ["0.000", "0.00", "0.00"]
    assert cells(made, "GAS_IMPORT")[8] == "○ nonredundant"


def test_boundaries() -> None:
    """A reader sees the name of a boundary; the drawing near a stream ends there."""
    made = page_of("terminal.out.csv", "terminal.csv")
    assert cells(made, "SHIPS")[1] == "JETTY → MANIFOLD"
    assert 'data-stream="SHIPS" data-from="env" data-to="MANIFOLD"' in made


def test_no_figure_of_an_unobservable_stream() -> None:
    """RESIDUE is printed with 3,999.850 t, which nothing determines: the page has no such figure."""
    made = page_of(*SAMPLES["tanks"])
    assert "3,999.8" not in made
    said = read(made).text
    assert "RESIDUE and SLOP have no figure to book: nothing determines them." in said
    assert cells(made, "RESIDUE") == ["RESIDUE", "CDU → VDU", "+SLOP +RESIDUE", "? unobservable"]


def test_bounds_behind_a_switch() -> None:
    """Bounds are rounded outward, and stand folded with the certificates."""
    made = page_of(*SAMPLES["tanks"])
    front, proof = made.split('<details class="proof">')
    assert "1,180.660" in proof and "1,180.702" in proof and "1,180.660" not in front
    said = " ".join(re.sub("<[^>]*>", "", proof).split())
    assert "cut round CDU VDU SPLITTER TK_BITUMEN: -TK_BITUMEN +CHARGE" in said


def test_a_long_certificate_is_cut() -> None:
    """A page of a plant whose certificates have thousands of members isn't beyond all bounds."""
    line = StreamLine(
        "A", "env", "U", "redundant", shape="cut", side="U", parts=" ".join(["+AAAA"] * 2000)
    )
    made = str(SpokenPage(ENGLISH).certificate(line))
    assert made.count("<span>+AAAA</span>") == 166 and made.endswith(" … and 1,834 more")
    line = replace(line, parts="+" + "A" * 32)
    assert str(SpokenPage(ENGLISH).certificate(line)).count("more") == 0


def test_version_of_the_program(tmp_path: Path) -> None:
    """The build record says the version of the very program, and of no other."""
    program, record = tmp_path / "bin" / "plantbal", tmp_path / "share" / "plantbal" / "BUILD"
    for file in (program, record):
        file.parent.mkdir(parents=True)
    program.write_bytes(b"x")
    digest = hashlib.sha256(b"x").hexdigest()
    assert program_text(program) == f"plantbal (version not known), SHA-256 {digest}"
    record.write_text(f"version: 1.2.3\nsha256 of the program as installed: {digest}\n")
    assert program_text(program) == f"plantbal 1.2.3, SHA-256 {digest}"
    program.write_bytes(b"y")
    assert "version not known" in program_text(program)


def test_edits() -> None:
    """Each edit with what was there before, what is there after, and the reason."""
    made = page_of(*SAMPLES["edits"])
    said = read(made).text
    for part in (
        "mar31 2024-03-31, closed",
        "23 amend dip s31 of SILO, 2024-03-31 6,580 mm at 1.250 t/m³ ± 1.581 t (3,290.000 t) "
        "6,560 mm at 1.250 t/m³ ± 1.581 t (3,280.000 t) gauge read to the wrong mark",
        "24 strike reading r31 of RECYCLE, 2024-03-31 48.000 t ± 0.316 t struck out wrong counter",
        "22 late transfer b2 of BAGS, 2024-03-31 1,052.000 t ± 0.632 t",
    ):
        assert part in said
    without = read(page_of("month_end.out.csv")).text
    assert "23 amend s31 gauge read to the wrong mark" in without


def test_edits_are_those_of_the_history() -> None:
    ledger = Ledger("month_end.csv", example("month_end.csv").read_bytes())
    found: dict[str, list[tuple[str, str]]] = {}
    for row in parse_rows("x", text_of(example("month_end.out.csv"))):
        if row["row"] == "history":
            found[row["period"]] = []
        elif row["row"] == "edit":
            list(found.values())[-1].append((row["at"], row["word"]))
    for period, edits in found.items():
        assert [(str(edit.at.record), edit.word) for edit in ledger.edits_of(period)] == edits


def test_refused_rows_in_sentences() -> None:
    made = page_of(*SAMPLES["refused"])
    assert "badly_typed.csv:27: reading g1: GRAMS is &#39;121,300,000&#39;; write 121300000" in made
    assert "reading,g1,GYPSUM,2024-03-01,<mark>&#34;121,300,000&#34;</mark>,1440000000000" in made
    assert "not to be booked" in read(made).text
    without = read(page_of("badly_typed.out.csv")).text
    assert "With --session the page shows each row" in without and "Record Why" in without


def test_the_verdict_comes_first() -> None:
    """It stands above the refused rows; of several periods the index has the verdict of each."""
    made = page_of(*SAMPLES["refused"])
    assert made.index('class="verdict bad"') < made.index('id="refused"') < made.index("<h3>Tanks")
    assert made.count('class="verdict') == 1
    several = page_of(*SAMPLES["edits"])
    assert several.index('id="periods"') < several.index('id="refused"')
    assert several.index('id="refused"') < several.index('class="verdict')


def test_words() -> None:
    """No day is broken at its hyphens, what is to be typed is code, and the rest is a text."""
    assert SpokenPage(ENGLISH).worded("on 2024-05-02: write `late,` <") == (
        'on <span class="day">2024-05-02</span>: write <code>late,</code> &lt;'
    )


def test_suspects_only_under_a_reject() -> None:
    """After an elimination that ends with an accept nothing is red; the round before had its suspect."""
    made = page_of(*SAMPLES["elimination"])
    said = read(made).text
    assert "Accepted without F2" in said and "F2 was taken out: the rest is accepted" in said
    front, rounds = made.split('<details class="round">')
    assert "! suspect" not in front and "Round 0, before F2 was taken out: Look at F2" in rounds
    assert (
        "! suspect" in rounds
        and cells(front, "F2")[8].split() == "× taken out △ observable".split()
    )


def test_suspects_first() -> None:
    made = page_of(*SAMPLES["periods"])
    last = made.split('id="p2"')[1]
    assert re.findall('tr[^>]*data-stream="([^"]*)"', last)[:3] == ["TAILS", "ORE", "FILTERED"]
    assert "Look at TAILS" in read(made).text


def test_index_of_periods() -> None:
    made = page_of(*SAMPLES["periods"])
    said = read(made).text
    assert "3 periods, 2024-04-01 to 2024-06-30; none closed" in said
    assert "2024-05 2024-05-01 to 2024-05-31 open ! Accepted, but FILTERED has no value" in said
    assert made.count('<svg class="spark"') == 3
    assert 'aria-label="the greatest is TAILS, -4.10"' in made
    assert "FILTERED has no value in 2024-05: no reading on 2024-05-17" in said
    assert "its flow is what the other streams leave over (± 953 t)." in said
    # of several periods the last is open
    assert re.findall(r'<details class="period" id="(p\d)"( open)?', made) == [
        ("p0", ""),
        ("p1", ""),
        ("p2", " open"),
    ]
    # and the balance of copper after it: the flows to book are on paper too
    copper = page_of("flotation_copper.out.csv", "flotation_copper.csv")
    is_open = re.findall(r'<details class="period" id="p\d+"( open)?', copper)
    assert is_open == [""] * 10 + [" open"] * 2


MONTH = """
unit,U
stream,A,env,U,metered,1
stream,B,U,env,metered,1
critical,global,1,3841
critical,measure,3841
period,p,2024-01-01,2024-01-01
reading,a,A,2024-01-01,1000000,1000000
reading,b,B,2024-01-01,1000900,1000000
report,p
amend,b,1900000,1000000,a digit
report,p
close,p
late,transfer,x,B,2024-01-01,2024-01-01,1,1
amend,b,1000500,1000000,the slip
report,p
"""


@pytest.fixture(name="book", scope="module")
def fixture_book(program: Path) -> tuple[list[Values], bytes]:
    """A session with three reports of one period, and its output."""
    data = MONTH.lstrip().encode()
    return run(data, program=program).rows, data


def test_older_reports(book: tuple[list[Values], bytes]) -> None:
    """The last report of a period counts; those before are folded, and named by their records."""
    rows, data = book
    made = page(rows, session=("book.csv", data))
    assert made.count('<section class="period"') == 1 and made.count('class="older"') == 2
    said = read(made).text
    assert "Earlier report of p, of record 11: Look at" in said
    assert "Earlier report of p, of record 9: Accepted" in said
    without = read(page(rows)).text
    assert "Earlier report of p, 2 of 3:" in without and "Earlier report of p, 1 of 3:" in without
    # the row of a stream's kind that isn't right is refused before the last report alone
    assert "1 row refused: not to be booked" in said


def test_a_fact_after_the_report(program: Path) -> None:
    """What comes after the last report of its period isn't in it, and the verdict says so."""
    data = MONTH.replace("report,p\nclose,p", "close,p").encode().lstrip()
    data = data[: data.rindex(b"report,p")]
    said = read(page(run(data, program=program).rows, session=("book.csv", data))).text
    assert "Accepted, but facts come after the report" in said


def test_other_session(book: tuple[list[Values], bytes]) -> None:
    rows, data = book
    with pytest.raises(Exception, match="isn't the output of day.csv"):
        page(rows, session=("day.csv", example("refinery_day.csv").read_bytes()))
    with pytest.raises(Exception, match="isn't the output of book.csv"):
        page(rows, session=("book.csv", data + b"report,p\n"))
    with pytest.raises(Exception, match="book.csv: p: the value of B is 1,000,500 g, and"):
        page(rows, session=("book.csv", data.replace(b"1000500", b"1000400")))
    silent = b"unit,U\nstream,A,env,U,plain,0\nstream,B,U,env,plain,0\n"
    plain = [row for row in rows if row["row"] != "refused"]
    with pytest.raises(Exception, match="asks for none: name the one that asks"):
        page(plain, session=("2024.csv", silent))


def test_a_total_beyond_the_limits() -> None:
    said = read(page(parse_rows("x", "over,may,FEED\n"))).text
    assert "No report" in said and "The total of FEED is beyond the limits" in said


def test_a_history_alone() -> None:
    """A period whose history was asked for and no report has its edits on the page."""
    rows = "history,may,closed,1\nedit,20,close,,\n"
    said = read(page(parse_rows("x", rows))).text
    assert "may, closed" in said and "No report The row report,may asks for one." in said
    assert "20 close" in said


def test_nothing(say: Desk) -> None:
    """A page of nothing says so, on standard error too, and the status is 1."""
    found = say("page", text="refused,2,6,unknown\n")
    assert (
        found.status == 1
        and found.err == "plantbal-desk page: standard input: there is no report\n"
    )
    assert "✗ No report Nothing was asked for" in read(found.out).text


HEAD = "report,d,0,3,3,10,5000\nnode,env,0\nnode,U,0\nnode,V,0\n"
A = "stream,A,env,U,1000000,4000000,{},1000400,1,2,1,2,cut,U,+A -B\n"
B = "stream,B,U,V,,,{},1000400,1,2,1,2,cut,U,+A -B\nstream,C,V,env,1000800,4000000,redundant,1000400,1,2,1,2,cut,V,+B -C\n"
SOLVED = "solved,3,{},7,0,1,{}\n"
MEASURE = "measure,A,9000,9001,3841,reject\nmeasure,C,8000,8001,3841,reject\n"
VERDICTS = {
    "accepted": ("", "converged", "39,40", "global,3841,accept\n", "good", "Accepted"),
    "rejected": (
        "",
        "converged",
        "9000,9001",
        f"global,3841,reject\n{MEASURE}",
        "look",
        "Look at A or C",
    ),
    "no suspect": (
        *("", "converged", "9000,9001", "global,3841,reject\n"),
        *("look", "Rejected: look at the meters"),
    ),
    "undecided": (
        *("", "converged", "3800,3900", "global,3841,undecided\n"),
        *("look", "The global test is undecided"),
    ),
    "no critical value": ("", "converged", "39,40", "global,,nocritical\n", "plain", "Not tested"),
    "no tests": ("", "converged", "39,40", "", "plain", "Not tested"),
    "not converged": (
        *("", "unconverged", "39,", "global,3841,accept\n"),
        *("bad", "Not converged: not to be booked"),
    ),
    "refused": (
        *("refused,2,6,unknown\n", "converged", "9000,9001", f"global,3841,reject\n{MEASURE}"),
        *("bad", "1 row refused: not to be booked"),
    ),
    "a duplicate": (
        *("refused,2,7,duplicate\n", "converged", "39,40", "global,3841,accept\n"),
        *("good", "Accepted"),
    ),
}


@pytest.mark.parametrize("case", VERDICTS.values(), ids=list(VERDICTS))
def test_verdict(case: tuple[str, ...]) -> None:
    refused, state, ends, tests, level, headline = case
    lines = A.format("redundant") + B.format("observable")
    text = refused + HEAD + lines + SOLVED.format(state, ends) + tests + "end,d,0\n"
    account = account_of(parse_rows("x", text))
    said = account.statements[0].verdict
    assert (said.level, said.headline) == (level, headline)
    marks = {line.name for line in account.statements[0].report.rounds[-1].lines if line.mark}
    assert marks == ({"A", "C"} if headline == "Look at A or C" else set())


def test_cut_off() -> None:
    text = HEAD + A.format("redundant")
    assert (
        account_of(parse_rows("x", text)).statements[0].verdict.headline == "The report is cut off"
    )
    read(page(parse_rows("x", text)))


STREAM = "stream,A,env,U,5,4,redundant,5,1,9,1,9,cut,U,+A"
CANT = {
    "no,d1,0,9,bounds,A,2,1": "this is what a check said: give the report that was checked",
    STREAM.replace(
        "redundant,5", "redundant,x"
    ): "flow of a stream row is 'x': it has to be a whole",
    STREAM.replace("redundant", "red"): "class of a stream row is 'red': it has to be one of",
    STREAM.replace("5,4", "5,"): "A has a value without a variance",
    f"{STREAM}\n{STREAM}": "record 2: the stream A already exists",
    "design,2,2\nclass,A,env,U,no,observable,cut,U,+A": "the design is cut off",
    "design,2,2\nrefused,1,1,kind": "record 2: the design before this row is cut off",
}


@pytest.mark.parametrize("rows", CANT)
def test_what_cannot_be_shown(rows: str) -> None:
    with pytest.raises(InputFault) as raised:
        page(parse_rows("x", f"{rows}\n"))
    assert CANT[rows] in str(raised.value)


@QUICK
@given(some.data())
def test_a_page_or_a_fault(data: some.DataObject) -> None:
    """Of a report with another field, or one row less or more, a page is made, or a fault is said."""
    name = data.draw(some.sampled_from(["month_end", "heat_exchanger_suspect", "refinery_day"]))
    rows = [line.split(",") for line in text_of(example(f"{name}.out.csv")).splitlines()]
    fields = sorted({field for row in rows for field in row} | {"", "-1", "x", "9" * 40})
    at = some.integers(0, len(rows) - 1)
    for _ in range(data.draw(some.integers(1, 3))):
        place, how = data.draw(at), data.draw(some.sampled_from(["change", "drop", "repeat"]))
        if how == "change":
            column = data.draw(some.integers(0, len(rows[place]) - 1))
            rows[place][column] = data.draw(some.sampled_from(fields))
        else:
            rows[place : place + 1] = [] if how == "drop" else [rows[place], rows[place][:]]
            at = some.integers(0, len(rows) - 1)
    try:
        made = page(parse_rows("x", "".join(",".join(row) + "\n" for row in rows)), seconds=0)
    except InputFault:
        return
    read(made)


def test_plus_minus() -> None:
    """Three digits that say something."""
    said = {953e6: "953", 20.4e6: "20.4", 2.187e6: "2.19", 1234.5e6: "1,234", 0.0: "0.000"}
    assert {size: plus_minus(Worth(size)) for size in said} == said


@QUICK
@given(some.text("abAB-_.", min_size=1, max_size=32))
def test_a_name_may_be_broken(name: str) -> None:
    pieces = str(soft(name)).split("<wbr>")
    assert "".join(pieces) == name
    assert all(len(piece.rstrip("-_.")) <= 14 for piece in pieces)


# ---- the command


def test_words_of_before(say: Desk) -> None:
    """A report on standard input, and a page on standard output."""
    found = say("page", "--title", "May", text=text_of(example("refinery_day.out.csv")))
    assert found.status == 0 and "<h1>May</h1>" in found.out


def test_run(say: Desk, program: Path, tmp_path: Path) -> None:
    """A session is run, and the program is named with its digest."""
    words = ["--run", "--program", program, "--out", tmp_path / "page.html"]
    found = say("page", example("refinery_day.csv"), *words)
    made = (tmp_path / "page.html").read_text(encoding="utf-8")
    digest = hashlib.sha256(program.read_bytes()).hexdigest()
    assert (found.status, found.out) == (0, "")
    assert f"SHA-256 {digest}" in made and "<h1>refinery_day may1</h1>" in made
    found = say("page", example("concentrator/session.csv"), *words)
    assert found.status == 1 and "2024-06 is rejected by the global test" in found.err


WRONG = [
    (
        ["--eliminate", "2", example("refinery_day.out.csv")],
        "--eliminate works only with --run: use --run too",
    ),
    ([example("refinery_day.csv")], "run it first"),
    (
        ["--run", "--session", example("refinery_day.csv"), example("refinery_day.csv")],
        "give it once",
    ),
    (
        ["--session", example("refinery_day.csv"), example("badly_typed.out.csv")],
        "isn't the output",
    ),
]


@pytest.mark.parametrize("words, said", WRONG, ids=[case[1] for case in WRONG])
def test_wrong_words(say: Desk, words: list[object], said: str) -> None:
    found = say("page", *words)
    status = 2 if "--eliminate" in words and "--run" not in words else 1
    assert (found.status, found.out) == (status, "") and said in found.err


def test_xlsx(say: Desk, tmp_path: Path) -> None:
    """One table a sheet, tonnes as numbers, texts as texts."""
    import openpyxl

    path = tmp_path / "may.xlsx"
    words = ["--session", example("month_end.csv"), "--xlsx", path]
    found = say("page", *words, example("month_end.out.csv"))
    assert (found.status, found.out) == (0, "")
    book = openpyxl.load_workbook(path)
    assert book.sheetnames[:5] == ["head", "periods", "streams", "tanks", "bounds"]
    streams = list(book["streams"].iter_rows(values_only=True))
    row = dict(zip(streams[0], next(row for row in streams if row[1] == "CRUSHED")))
    assert row["measured, t"] == 1215 and row["booked, t"] == pytest.approx(1213.447115)
    parts = [cell for cell in book["bounds"]["J"] if str(cell.value).startswith("+")]
    assert parts and all(cell.data_type == "s" for cell in parts)
    edits = list(book["edits"].iter_rows(values_only=True))
    (edit,) = [row for row in edits if row[1] == 23]
    assert edit[2:4] == (23, "amend")
    assert edit[6] == "6,580 mm at 1.250 t/m³ ± 1.581 t (3,290.000 t)"


def test_xlsx_says_where_to_look(say: Desk, tmp_path: Path) -> None:
    import openpyxl

    path, session = tmp_path / "day.xlsx", example("heat_exchanger_suspect.csv")
    words = ["--session", session, "--xlsx", path]
    assert say("page", example("heat_exchanger_suspect.out.csv"), *words).status == 0
    head, *rows = openpyxl.load_workbook(path)["diagnosis"].iter_rows(values_only=True)
    assert head[:5] == ("period", "what", "where", "amount, t", "±, t")
    assert rows[0][1:4] == ("doesn't close", "EXCHANGER", 4.25)  # 68.45 less 64.20
    assert ("one of", "F2") in [row[1:3] for row in rows]


# ---- large plants


LARGE = {300: (5, 2_000_000), 2000: (15, 10_000_000)}


@pytest.mark.parametrize("count", LARGE)
def test_large_plants(say: Desk, program: Path, tmp_path: Path, count: int) -> None:
    """The page of a plant comes in time, and isn't larger than it may be."""
    import subprocess

    make = [program, "make", "--number", "1", "--streams", str(count)]
    session, output = tmp_path / "made.csv", tmp_path / "made.out.csv"
    session.write_bytes(subprocess.run(make, capture_output=True, check=True).stdout)
    run(session, tests=False, sweeps=20, program=program).to_csv(output)
    path = tmp_path / "made.html"
    words = ["page", "--session", session, "--out", path, output]
    seconds, size = LARGE[count]
    assert least_spent(lambda: say(*words), seconds) < seconds
    made = text_of(path)
    assert len(made.encode()) < size
    assert 'data-near="' in made and '<svg class="plant"' in made
    read(made)


def test_no_statement_of_a_report_that_is_wrong(say: Desk, tmp_path: Path) -> None:
    """A flow that was changed unbalances a node: whoever signs isn't shown it as booked."""
    text = text_of(example("refinery_day.out.csv"))
    row = next(row for row in text.split("\n") if row.startswith("stream,"))
    fields = row.split(",")
    fields[7] = str(int(fields[7]) + 1_000_000)
    forged, out = tmp_path / "forged.csv", tmp_path / "page.html"
    forged.write_text(text.replace(row, ",".join(fields)), encoding="ascii")
    for words in ((), ("--session", example("refinery_day.csv"))):
        said = say("page", forged, *words, "--out", out)
        assert said.status == 1 and "fails the test balance (3) at env" in said.err, said
        assert "no statement is made of it" in said.err and not out.exists()
