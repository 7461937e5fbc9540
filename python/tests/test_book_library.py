"""A month's end by the library alone: the bytes are those that the commands leave."""

from __future__ import annotations

import ast
import shutil
from collections.abc import Callable
from pathlib import Path

import pytest
from books import PLANT, files_of, folder, month
from conftest import TOP, Desk

from plantbal import Book, Fault
from plantbal.book.adding import Unreasoned
from plantbal.book.closing import NotClosed
from plantbal.book.results import ReportState
from plantbal.gates import Gate
from plantbal.lint import lint_session
from plantbal.program import RunSettings
from plantbal.workbook.options import ReadingOptions

GERMAN = ReadingOptions(locale="de")
WHY = "FI-302 read high all June, work order 4711"
GUESSED = "342 t is from the shift's log"
# What is typed, and the same as a call.
STORY: list[tuple[list[str], Callable[[Book], object]]] = [
    (
        ["new", "2023-24", "plant", "--locale", "de"],
        lambda b: b.begin("2023-24", "plant", reading=GERMAN),
    ),
    (["add", "april", "--locale", "de"], lambda b: b.add("april", reading=GERMAN)),
    (["add", "april", "--locale", "de"], lambda b: b.add("april", reading=GERMAN)),
    (["report", "2024-04"], lambda b: b.report("2024-04")),
    (
        ["amend", "FI-302", "2024-04-18", "12188 t", "--why", "typed a digit short"],
        lambda b: b.amend("FI-302", "2024-04-18", "12188 t", why="typed a digit short"),
    ),
    (["add", "assays.csv", "--locale", "de"], lambda b: b.add("assays.csv", reading=GERMAN)),
    (["report", "2024-04"], lambda b: b.report("2024-04")),
    (["close", "2024-04"], lambda b: b.close("2024-04")),
    (["add", "tickets.csv", "--locale", "de"], lambda b: b.add("tickets.csv", reading=GERMAN)),
    (["report", "2024-04"], lambda b: b.report("2024-04")),
    (["add", "may", "--locale", "de"], lambda b: b.add("may", reading=GERMAN)),
    (["add", "estimates.csv", "--locale", "de"], lambda b: b.add("estimates.csv", reading=GERMAN)),
    (
        ["close", "2024-05", "--anyway", f"estimated={GUESSED}"],
        lambda b: b.close("2024-05", anyway={Gate.ESTIMATED: GUESSED}),
    ),
    (["add", "june", "--locale", "de"], lambda b: b.add("june", reading=GERMAN)),
    (
        ["report", "2024-06", "--eliminate", "1"],
        lambda b: b.report("2024-06", settings=RunSettings(eliminate=1)),
    ),
    (
        ["add", "june_mended", "--locale", "de", "--strike", "--why", WHY],
        lambda b: b.add("june_mended", reading=GERMAN, strike=True, why=WHY),
    ),
    (["close", "2024-06"], lambda b: b.close("2024-06")),
    (
        ["close", "2024-06", "--anyway", f"missing={WHY}"],
        lambda b: b.close("2024-06", anyway={Gate.MISSING: WHY}),
    ),
    (
        ["quiet", "near-names", "TAILS", "TAILINGS", "--why", "they are called so"],
        lambda b: b.quiet("near-names", "TAILS", "TAILINGS", why="they are called so"),
    ),
    (
        ["next", "2024-25", "--plant", "plant_2024-25", "--locale", "de"],
        lambda b: b.next("2024-25", plant="plant_2024-25", reading=GERMAN),
    ),
    (["add", "july", "--locale", "de"], lambda b: b.add("july", reading=GERMAN)),
    (["report"], lambda b: b.report()),
]


def test_a_month_end_by_the_library_alone(
    say: Desk, tmp_path: Path, monkeypatch: pytest.MonkeyPatch, program: Path
) -> None:
    monkeypatch.setattr("plantbal.book.store.now", lambda: "2024-07-01T00:00:00Z")
    for name in ("typed", "called"):
        shutil.copytree(TOP / "examples" / "month_end", tmp_path / name)
    for words, call in STORY:
        monkeypatch.chdir(tmp_path / "typed")
        typed = say("book", *words)
        monkeypatch.chdir(tmp_path / "called")
        try:
            call(Book("."))
        except NotClosed:
            assert typed.status == 1, (words, typed)
        assert files_of(tmp_path / "typed") == files_of(tmp_path / "called"), words
    book = Book(tmp_path / "called")
    years = book.status().years
    assert [(each.name, each.closed, each.report) for each in years[0].periods] == [
        ("2024-04", True, ReportState.CURRENT),
        ("2024-05", True, ReportState.CURRENT),
        ("2024-06", True, ReportState.CURRENT),
    ]
    assert [each.name for each in years[1].periods] == ["2024-07"]
    found = book.verify()
    assert found.ok and found.head == book.head and found.head.number == len(book_lines(book))


def book_lines(book: Book) -> list[str]:
    """The lines of a book's journal after its head."""
    return (book.folder / "journal.csv").read_text(encoding="utf-8").splitlines()[1:]


def test_what_the_library_returns(tmp_path: Path, monkeypatch: pytest.MonkeyPatch) -> None:
    """The figures are those of MONTH_END.md."""
    shutil.copytree(TOP / "examples" / "month_end", tmp_path / "mill")
    monkeypatch.chdir(tmp_path / "mill")
    book = Book("mill.book", who="ms")
    begun = book.begin("2023-24", "plant", reading=GERMAN)
    assert begun.is_begun and begun.year == "2023-24" and begun.rows > 0
    seen = book.add("april", reading=GERMAN, dry_run=True)
    assert not seen.is_booked
    added = book.add("april", reading=GERMAN)
    assert added.is_booked and [year.rows for year in added.years] == [
        year.rows for year in seen.years
    ]
    facts = [row for row in added.years[0].rows if row[0] in ("reading", "transfer")]
    assert len(facts) == 152
    again = book.add("april", reading=GERMAN)
    assert not again.is_booked and again.changes.same == 152
    edited = book.amend("FI-302", "2024-04-18", "12188 t", why="typed a digit short")
    assert edited.new is not None and edited.new.values == (12_188_000_000,)
    assert (edited.is_booked, edited.older_reports) == (True, ())
    assert not book.amend("FI-302", "2024-04-18", "12188 t", why="again").is_booked
    (report,) = book.report("2024-04")
    assert report.output.ok and report.edits == 1 and report.path.is_file()
    assert book.strike("FI-302", "2024-04-18", why="x").older_reports == ("2024-04",)
    with pytest.raises(Fault, match="FI-302_2024-04-18 was struck"):
        book.amend("FI-302", "2024-04-18", "12188 t", why="x")


def test_a_change_needs_a_reason_that_may_be_a_call(
    tmp_path: Path, monkeypatch: pytest.MonkeyPatch
) -> None:
    shutil.copytree(TOP / "examples" / "month_end", tmp_path / "mill")
    monkeypatch.chdir(tmp_path / "mill")
    book = Book(".")
    book.begin("2023-24", "plant", reading=GERMAN)
    book.add("june", reading=GERMAN)
    before = files_of(tmp_path / "mill")
    with pytest.raises(Unreasoned) as fault:
        book.add("june_mended", reading=GERMAN, strike=True)
    assert len(fault.value.changes) == 30 and files_of(tmp_path / "mill") == before
    asked: list[str] = []

    def why(said: str) -> str:
        asked.append(said)
        return WHY

    assert book.add("june_mended", reading=GERMAN, strike=True, why=why).is_booked
    assert len(asked) == 30 and asked[0].endswith("is struck")


def test_the_domain_neither_prints_nor_parses() -> None:
    """No module of the book's package has words of a command, or writes to the terminal."""
    for path in sorted((TOP / "python/plantbal/book").glob("*.py")):
        tree = ast.parse(path.read_text(encoding="utf-8"))
        names = {node.id for node in ast.walk(tree) if isinstance(node, ast.Name)}
        assert not names & {"argparse", "print", "input"}, path


# What an added workbook can make look wrong, by the codes of lint.
LOOKED_AT = ("near-names", "magnitude", "small-deviation", "large-deviation", "density")


def test_what_looks_wrong_since_is_what_lint_finds_then_and_not_before(tmp_path: Path) -> None:
    """`add` looks at the streams alone that it touches; lint at all of them."""
    book = Book(tmp_path / "mill")
    book.begin("2024", folder(tmp_path / "plant", PLANT))

    def looked() -> list[tuple[str, str, str]]:
        found = lint_session(tmp_path / "mill" / "2024.csv")
        return [(each.code, each.text, each.remedy) for each in found if each.code in LOOKED_AT]

    counts = []
    for feed, product in [
        ("1200", "119950"),  # one of P-1 is a hundred times too much
        ("1200", "119950"),  # nothing new
        ("1", "119950"),  # F-1, too
        ("1200", "119950"),  # that one is corrected
        ("1200", "1199.5"),  # and that of P-1
    ]:
        sheets = month(last=5)
        sheets["readings"][4][1:] = [feed, product]
        before = looked()
        (year,) = book.add(folder(tmp_path / "april", sheets), why="typed wrong").years
        new = [one for one in looked() if one not in before]
        assert [(each.code, each.text, each.remedy) for each in year.doubts] == new
        counts.append(len(new))
    assert counts == [1, 0, 1, 0, 0]
