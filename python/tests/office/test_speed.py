"""How long pages take of a refinery of 25 tanks and 53 streams, in time of processors."""

from __future__ import annotations

import secrets
import sys
from pathlib import Path
from typing import Any

import pytest
from books import folder
from conftest import least_spent
from months import Refinery, write
from office import site_of
from office.times import ladder

# A page that was seen before, and one of a report that is new: seconds.
SEEN, NEW = 0.3, 2.5
PAGES = (
    "",
    "enter/",
    "enter/grid/2024-01/dips",
    "look/2024-01/",
    "look/2024-01/drawing",
    "look/2024-01/stream/FLARE",
    "look/journal",
    "ask/",
    "ask/2024-01/whatif",
)


@pytest.fixture(name="refinery", scope="module")
def fixture_refinery(made: Path, tmp_path_factory: pytest.TempPathFactory) -> site_of.Site:
    """A person in a refinery with January, reported."""
    from plantbal import Book
    from plantbal.workbook.options import ReadingOptions

    room = tmp_path_factory.mktemp("refinery")
    plant, british = Refinery(), ReadingOptions("en_GB")
    book = Book(room / "book")
    book.begin("2024", write(room, "plant", plant.plant()), reading=british)
    book.add(write(room, "2024-01", plant.month("2024-01")), reading=british)
    book.report("2024-01")
    name = "q" + secrets.token_hex(4)
    return site_of.Site(room, name, ("clerk", "engineer", "approver"), room / "book")


@pytest.mark.parametrize("page", PAGES)
def test_speed(page: str, refinery: site_of.Site) -> None:
    """A page is there in time, the first time and after that, and isn't too long."""
    answers = []
    assert least_spent(lambda: answers.append(refinery.get(page)), NEW) < NEW, "the first time"
    assert least_spent(lambda: answers.append(refinery.get(page)), SEEN) < SEEN, "after that"
    assert {each.status_code for each in answers} == {200}
    assert len(answers[-1].content) < 3_000_000


def test_proof_of_a_large_plant(refinery: site_of.Site, monkeypatch: pytest.MonkeyPatch) -> None:
    """What is too long for a page comes after it, and is the same."""
    from plantbal_office.look import statement
    from plantbal_office.shelf import KEPT

    whole = refinery.get("look/2024-01/").content.decode()
    monkeypatch.setattr(statement, "MOST_PROOF", 0)
    monkeypatch.setattr(KEPT, "_made", {})
    page = refinery.get("look/2024-01/").content.decode()
    proof = refinery.get("look/2024-01/proof").content.decode()
    assert proof.startswith('<details class="proof">') and proof in whole
    assert proof not in page and 'data-load="' in page


def made_large(room: Path, count: int) -> site_of.Site:
    """A person in a plant of so many streams, with January, reported."""
    from plantbal import Book

    of_plant, of_month = ladder(count, 2)
    book = Book(room / "book")
    book.begin("2024", folder(room / "plant", of_plant))
    book.add(folder(room / "month", of_month))
    book.report("2024-01")
    return site_of.Site(room, "l" + secrets.token_hex(4), ("engineer",), room / "book")


def work_of(site: site_of.Site, page: str) -> int:
    """How many functions of Python a page calls."""
    calls = 0

    def count(_frame: object, event: str, _of: object) -> None:
        nonlocal calls
        calls += event == "call"

    sys.setprofile(count)
    try:
        answer = site.get(page)
    finally:
        sys.setprofile(None)
    assert answer.status_code == 200, answer
    return calls


def test_work_grows_with_the_plant(
    made: Path, tmp_path: Path, monkeypatch: pytest.MonkeyPatch
) -> None:
    """A statement of four times the streams takes four times the work, and reads its report once."""
    from django.db import connection
    from django.test.utils import CaptureQueriesContext
    from plantbal.report.parsing import parse_rows
    from plantbal_office.warm import warm

    warm()
    read: list[str] = []
    queries: list[int] = []
    works: list[int] = []

    def tell(source: str, text: str) -> Any:
        read.append(source)
        return parse_rows(source, text)

    for module in ("plantbal_office.look.statement", "plantbal.book.accounting"):
        monkeypatch.setattr(f"{module}.parse_rows", tell)
    for count in (100, 400):
        (tmp_path / str(count)).mkdir()
        site = made_large(tmp_path / str(count), count)
        site.get("")
        read.clear()
        with CaptureQueriesContext(connection) as seen:
            works.append(work_of(site, "look/2024-01/"))
        queries.append(len(seen))
        assert len(read) == 1, read
    assert queries[0] == queries[1] <= 12, queries
    assert works[1] < 4.4 * works[0], works
    assert work_of(site, "look/2024-01/") < works[1] / 20, "what was made is kept"


def test_flows_asked_by_parts(monkeypatch: pytest.MonkeyPatch, refinery: site_of.Site) -> None:
    """The ± of a large plant are asked by parts, each small, and are those of all at once."""
    from plantbal import Book
    from plantbal.report.parsing import parse_rows
    from plantbal.report.blocks import blocks_of
    from plantbal.study import uncertainty

    blocks = blocks_of(parse_rows("January", Book(refinery.book).kept("2024-01").text))
    whole = uncertainty.flows_known(blocks)
    widths = []
    ask = uncertainty.Answers.to

    def wide(answers: uncertainty.Answers, weights: Any) -> Any:
        widths.append(weights.shape[1])
        return ask(answers, weights)

    monkeypatch.setattr(uncertainty.Answers, "to", wide)
    monkeypatch.setattr(uncertainty, "_AT_ONCE", 10)
    parts = uncertainty.flows_known(blocks)
    assert max(widths) == 10 and sum(widths) == len(whole)
    assert [each.name for each in parts] == [each.name for each in whole]
    assert [each.sd for each in parts] == pytest.approx([each.sd for each in whole], rel=1e-9)
