"""What a report leaves out is left out of the close, the bundle and later reports too."""

from __future__ import annotations

import json
import os
import shutil
import zipfile
from collections.abc import Callable
from pathlib import Path

import pytest
from books import files_of
from conftest import TOP, Desk, text_of

from plantbal import Book, read_report, run
from plantbal.book.forms import report_file
from plantbal.book.rounds import OtherSettings
from plantbal.gates import Gate
from plantbal.program import RunSettings
from plantbal.report.output import parse_report
from plantbal.report.rounds import rounds_shown, settings_in
from plantbal.workbook.options import ReadingOptions

GERMAN = ReadingOptions(locale="de")
MONTH_END = TOP / "examples" / "month_end"
JUNE = "2024-06"
ANYWAY = {gate: "as it is" for gate in Gate}


@pytest.fixture(name="june", scope="module")
def fixture_june(tmp_path_factory: pytest.TempPathFactory) -> Path:
    """A mill whose June has a meter that reads too much."""
    book = Book(tmp_path_factory.mktemp("mill") / "mill")
    book.begin("2023-24", MONTH_END / "plant", reading=GERMAN)
    book.add(MONTH_END / "june", reading=GERMAN)
    return book.folder


@pytest.fixture(name="mill")
def fixture_mill(june: Path, tmp_path: Path) -> Path:
    """A copy of the mill that a test may change."""
    return Path(shutil.copytree(june, tmp_path / "mill"))


def eliminated(mill: Path, rounds: int, period: str = JUNE) -> None:
    """Make a report with some suspects taken out."""
    Book(mill).report(period, settings=RunSettings(eliminate=rounds))


def kept(mill: Path, period: str = JUNE) -> tuple[int, list[str]]:
    """With how many rounds the kept report was made, and what it leaves out."""
    output = parse_report(text_of(mill / report_file(period)), period)
    return rounds_shown(output), output.reports[-1].taken


def late(mill: Path, amount: str = "12001 t") -> None:
    """Change a figure of June that is no suspect."""
    Book(mill).amend("WIC-101", "2024-06-03", amount, why="read again")


# ---- what a report shows


@pytest.mark.parametrize("most", range(5))
@pytest.mark.parametrize("name", ("heat_exchanger_suspect", "refinery_day", "pipeline_suspect"))
def test_the_fewest_rounds(name: str, most: int, program: Path) -> None:
    """With so many rounds as it shows, and not with fewer, an output is the same."""
    session = (TOP / "examples" / f"{name}.csv").read_bytes()
    output = run(session, eliminate=most, program=program)
    shown = rounds_shown(output)
    assert shown <= most
    assert run(session, eliminate=shown, program=program) == output
    if shown:
        assert run(session, eliminate=shown - 1, program=program) != output


def test_an_output_without_one() -> None:
    assert rounds_shown(read_report(TOP / "examples" / "refinery_day.out.csv")) == 0


# ---- as the last report of the period


def test_a_close_is_of_what_was_looked_at(mill: Path) -> None:
    eliminated(mill, 2)
    before = kept(mill)
    assert before == (1, ["TAILS"])
    seen = Book(mill).closing(JUNE)
    assert seen is not None and seen.output.reports[-1].taken == ["TAILS"]
    assert Book(mill).report(JUNE)[0].is_new is False
    done = Book(mill).close(JUNE)
    assert done.report is not None and done.report.output.ok is False
    assert kept(mill) == before


def test_a_number_wins(mill: Path) -> None:
    eliminated(mill, 1)
    Book(mill).report(JUNE, settings=RunSettings(eliminate=0))
    assert kept(mill) == (0, [])
    assert Book(mill).report(JUNE)[0].is_new is False
    eliminated(mill, 1)
    Book(mill).close(JUNE, anyway=ANYWAY, settings=RunSettings(eliminate=0))
    assert kept(mill) == (0, [])


def test_without_tests_none(mill: Path) -> None:
    eliminated(mill, 1)
    Book(mill).report(JUNE, settings=RunSettings(tests=False))
    assert kept(mill) == (0, [])


def test_none_without_a_report(mill: Path) -> None:
    Book(mill).close(JUNE, anyway=ANYWAY)
    assert kept(mill) == (0, [])


def test_each_period_by_its_own_report(mill: Path) -> None:
    """Two open periods in one run: one with a suspect out, one without."""
    Book(mill).add(MONTH_END / "april", reading=GERMAN)
    eliminated(mill, 1)
    Book(mill).report("2024-04")
    late(mill)
    made = Book(mill).report()
    assert {each.period: each.output.reports[-1].taken for each in made} == {
        "2024-04": [],
        JUNE: ["TAILS"],
    }


def test_a_window_by_its_own_report(mill: Path) -> None:
    Book(mill).add(MONTH_END / "may", reading=GERMAN)
    words = ("2024-05", JUNE)
    first = Book(mill).window(*words, settings=RunSettings(eliminate=1))
    again = Book(mill).window(*words)
    assert (first.is_new, again.is_new) == (True, False)
    assert (
        again.output
        == first.output
        != Book(mill).window(*words, settings=RunSettings(eliminate=0)).output
    )


def test_the_same_bytes_by_commands_and_library(
    mill: Path, say: Desk, tmp_path: Path, monkeypatch: pytest.MonkeyPatch
) -> None:
    monkeypatch.setattr("plantbal.book.store.now", lambda: "2024-07-01T00:00:00Z")
    other = Path(shutil.copytree(mill, tmp_path / "other"))
    story: list[tuple[list[str], Callable[[Book], object]]] = [
        (
            ["report", JUNE, "--eliminate", "2"],
            lambda b: b.report(JUNE, settings=RunSettings(eliminate=2)),
        ),
        (["report", JUNE], lambda b: b.report(JUNE)),
        (["close", JUNE], lambda b: b.close(JUNE)),
    ]
    for words, call in story:
        say("book", *words, "--book", str(mill))
        call(Book(other))
        assert files_of(mill) == files_of(other), words
    assert kept(mill) == (1, ["TAILS"])


RULES = """
[wants]
close = true
[people.anna]
users = [1001]
may = ["submit"]
[people.paul]
users = [1002]
may = ["approve"]
"""


def test_a_submission_has_its_number(
    mill: Path, tmp_path: Path, monkeypatch: pytest.MonkeyPatch
) -> None:
    """What is approved is what was submitted, although a report with none out was made since."""
    (tmp_path / "rules").write_text(RULES, "ascii")
    monkeypatch.setenv("PLANTBAL_TRUST", str(mill))
    monkeypatch.setattr(os, "getuid", lambda: 1001)
    Book(mill).set_rules(tmp_path / "rules")
    eliminated(mill, 2)
    head = Book(mill).submit(JUNE).head
    assert Book(mill).waiting()[0].proposal.settings["eliminate"] == 1
    Book(mill).report(JUNE, settings=RunSettings(eliminate=0))
    monkeypatch.setattr(os, "getuid", lambda: 1002)
    Book(mill).approve(str(head))
    assert kept(mill) == (1, ["TAILS"])
    assert Book(mill).status().years[0].periods[0].closed


# ---- bundles


def archived(mill: Path, say: Desk, out: Path, *words: str) -> list[str]:
    """The words of the run in the manifest of a bundle of June."""
    session = out.with_suffix(".csv")
    session.write_text(Book(mill).session_asking(JUNE), "ascii")
    said = say("archive", str(session), "--book", str(mill), "--out", str(out), *words)
    assert said.status in (0, 1), said
    with zipfile.ZipFile(out) as bundle:
        manifest = json.loads(bundle.read("manifest.json"))
        output = parse_report(bundle.read("output.csv").decode("ascii"), "output.csv")
    assert output.reports[-1].taken == (["TAILS"] if "--eliminate" in manifest["words"] else [])
    found: list[str] = manifest["words"].split()
    return found


def test_a_bundle_is_of_the_close(mill: Path, say: Desk, tmp_path: Path) -> None:
    eliminated(mill, 3)
    Book(mill).close(JUNE)
    words = archived(mill, say, tmp_path / "b.zip")
    assert words[words.index("--eliminate") + 1] == "1"
    said = say("audit", str(tmp_path / "b.zip"), "--book", str(mill))
    assert said.status == 0, said
    session = tmp_path / "b.csv"
    said = say("audit", str(mill / report_file(JUNE)), str(session))
    assert said.status == 0, said


def closed_bundle(mill: Path, say: Desk, tmp_path: Path) -> tuple[Path, Path]:
    """A bundle of June, closed with a suspect out, and its session."""
    eliminated(mill, 1)
    Book(mill).close(JUNE, anyway=ANYWAY)
    archived(mill, say, tmp_path / "b.zip")
    return tmp_path / "b.zip", tmp_path / "b.csv"


@pytest.mark.parametrize(
    "words",
    (["--eliminate", "0"], ["--gap", "1"], ["--sweeps", "4000"], ["--no-tests"]),
)
def test_a_bundle_of_a_closed_month_is_of_its_report(
    words: list[str], mill: Path, say: Desk, tmp_path: Path
) -> None:
    _, session = closed_bundle(mill, say, tmp_path)
    out = tmp_path / "c.zip"
    given = ("archive", str(session), "--book", str(mill), "--out", str(out))
    assert say(*given, *words).status == 1 and not out.exists()


def test_a_page_of_a_closed_month_is_of_its_report(mill: Path, say: Desk, tmp_path: Path) -> None:
    _, session = closed_bundle(mill, say, tmp_path)
    words = ("page", str(session), "--run", "--seconds", "0.01", "--book", str(mill))
    said = say(*words, "--eliminate", "0")
    assert said.status == 1 and not said.out
    assert "Accepted without TAILS" in say(*words).out


def test_a_bundle_by_other_hands(
    mill: Path, say: Desk, tmp_path: Path, monkeypatch: pytest.MonkeyPatch
) -> None:
    """One that wasn't refused when it was made is wrong to an audit, with the book and without."""
    good, session = closed_bundle(mill, say, tmp_path)
    bad = tmp_path / "c.zip"
    with monkeypatch.context() as patch:
        patch.setattr("plantbal.audit.archive._check_closed", lambda *given: None)
        words = ("--eliminate", "0", "--out", str(bad))
        say("archive", str(session), "--book", str(mill), *words)
    for path, wrong in ((good, 0), (bad, 1)):
        assert say("audit", str(path)).status == wrong
        assert say("audit", str(path), "--book", str(mill)).status == wrong


def test_a_bundle_of_facts_since_the_report(mill: Path, say: Desk, tmp_path: Path) -> None:
    """It is refused until the report is made again; then its audit finds nothing wrong."""
    Book(mill).close(JUNE, anyway=ANYWAY)
    late(mill)
    session, out = tmp_path / "s.csv", tmp_path / "s.zip"
    session.write_text(Book(mill).session_asking(JUNE), "ascii")
    words = ("archive", str(session), "--book", str(mill), "--out", str(out))
    assert say(*words).status == 1 and not out.exists()
    Book(mill).report(JUNE)
    say(*words)
    assert say("audit", str(out)).status == 0
    assert say("audit", str(out), "--book", str(mill)).status == 0


# ---- gap, sweeps and tests


ASKED = (
    RunSettings(gap=1),
    RunSettings(sweeps=4000),
    RunSettings(tests=False),
    RunSettings(gap=3, eliminate=1),
)


@pytest.mark.parametrize("asked", ASKED, ids=str)
def test_all_settings_are_carried(asked: RunSettings, mill: Path) -> None:
    """From a report to the next, to the close, and from there on nothing else is taken."""
    Book(mill).report(JUNE, settings=asked)
    text = text_of(mill / report_file(JUNE))
    shown = settings_in(text, JUNE)
    assert shown.words == asked.words
    assert Book(mill).report(JUNE)[0].is_new is False
    Book(mill).close(JUNE, anyway=ANYWAY)
    assert settings_in(text_of(mill / report_file(JUNE)), JUNE) == shown
    before = files_of(mill)
    with pytest.raises(OtherSettings) as fault:
        Book(mill).report(JUNE, settings=RunSettings(True, 0, 7, 3000))
    assert fault.value.settings == shown
    assert files_of(mill) == before
    assert Book(mill).report(JUNE)[0].is_new is False


def test_what_is_said_wins() -> None:
    last = RunSettings(False, 0, 1, 100)
    assert RunSettings().after(last) == last
    assert RunSettings(gap=10).after(last) == RunSettings(False, 0, 10, 100)
    assert RunSettings(eliminate=2).after(last) == RunSettings(True, 2, 1, 100)
    assert RunSettings(tests=False).after(RunSettings(True, 3, 1, 100)) == last
    assert RunSettings().after(RunSettings()).words == RunSettings(True, 0, 10, 5000).words


def test_tests_again(mill: Path, say: Desk) -> None:
    words = ("book", "report", JUNE, "--book", str(mill))
    say(*words, "--no-tests")
    assert settings_in(text_of(mill / report_file(JUNE)), JUNE).tests is False
    say(*words, "--tests")
    assert settings_in(text_of(mill / report_file(JUNE)), JUNE).tests is True


def test_a_text_without_a_report_shows_none() -> None:
    assert settings_in("", "nothing") == settings_in("over,x,y\n", "over") == RunSettings()


def test_a_bundle_of_several_periods(mill: Path, say: Desk, tmp_path: Path) -> None:
    """One run has one number of rounds: it is refused if the book's reports have several."""
    Book(mill).add(MONTH_END / "april", reading=GERMAN)
    eliminated(mill, 1)
    Book(mill).report("2024-04")
    session = tmp_path / "s.csv"
    session.write_text(Book(mill).session_asking("2024-04", JUNE), "ascii")
    words = ("archive", str(session), "--book", str(mill), "--out", str(tmp_path / "b.zip"))
    assert say(*words).status == 1 and not (tmp_path / "b.zip").exists()
    assert say(*words, "--eliminate", "1").status in (0, 1) and (tmp_path / "b.zip").exists()


def test_a_page_of_the_book(mill: Path, say: Desk, tmp_path: Path) -> None:
    """A session that is run for a page is run as the book's report of it."""
    eliminated(mill, 1)
    session = tmp_path / "s.csv"
    session.write_text(Book(mill).session_asking(JUNE), "ascii")
    words = ("page", str(session), "--run", "--seconds", "0.01")
    with_book = ("--book", str(mill))
    assert "Accepted without TAILS" in say(*words, *with_book).out
    assert "Accepted without TAILS" not in say(*words, *with_book, "--eliminate", "0").out
    assert "Accepted without TAILS" not in say(*words).out


# ---- closed periods


def test_a_window_over_closed_periods(mill: Path) -> None:
    """It names those whose booked figures are others."""
    Book(mill).add(MONTH_END / "may", reading=GERMAN)
    assert Book(mill).window("2024-05", JUNE).closed == ()
    Book(mill).close("2024-05", anyway=ANYWAY)
    assert Book(mill).window("2024-05", JUNE).closed == ("2024-05",)


def test_a_closed_report_leaves_out_what_its_close_did(mill: Path) -> None:
    eliminated(mill, 2)
    Book(mill).close(JUNE)
    before = files_of(mill)
    with pytest.raises(OtherSettings) as fault:
        Book(mill).report(JUNE, settings=RunSettings(eliminate=0))
    assert (fault.value.period, fault.value.settings.rounds) == (JUNE, 1)
    assert files_of(mill) == before
    for rounds in (1, 3):  # the same report
        eliminated(mill, rounds)
        assert files_of(mill) == before


def test_a_closed_report_without_an_elimination(mill: Path) -> None:
    Book(mill).close(JUNE, anyway=ANYWAY)
    with pytest.raises(OtherSettings):
        eliminated(mill, 1)
    Book(mill).report(JUNE, settings=RunSettings(eliminate=0))
    assert kept(mill) == (0, [])


def statement(mill: Path, say: Desk, tmp_path: Path) -> str:
    """June's statement with its book."""
    session = tmp_path / "s.csv"
    session.write_text(Book(mill).session_asking(JUNE), "ascii")
    words = ("--session", str(session), "--book", str(mill))
    return say("page", str(mill / report_file(JUNE)), *words).out


def test_the_reasons_of_a_close_stay(mill: Path, say: Desk, tmp_path: Path) -> None:
    """A report that is made again after the close may stop at nothing: the reasons are shown still."""
    why = "looked at by the shift, work order 4711"
    Book(mill).close(JUNE, anyway={Gate.REJECTED: why})
    before = statement(mill, say, tmp_path)
    assert why in before and "Closed all the same" in before and "at the close:" not in before
    mended = {"reading": GERMAN, "strike": True, "why": "FI-302 read high"}
    Book(mill).add(MONTH_END / "june_mended", **mended)
    assert Book(mill).report(JUNE)[0].output.ok
    after = statement(mill, say, tmp_path)
    assert why in after and "Closed all the same" in after
    assert "at the close: the global test rejects" in after


def test_a_late_fact_leaves_out_the_same(mill: Path) -> None:
    eliminated(mill, 1)
    Book(mill).close(JUNE)
    late(mill)
    eliminated(mill, 1)
    assert kept(mill) == (1, ["TAILS"])
    late(mill, "12002 t")
    made = Book(mill).report(JUNE)[0]
    assert made.is_new and kept(mill) == (1, ["TAILS"])
    with pytest.raises(OtherSettings):
        Book(mill).report(JUNE, settings=RunSettings(eliminate=0))
