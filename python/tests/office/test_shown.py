"""What pages show of figures and states: one form of a percentage, and no verdict that no test gave."""

from __future__ import annotations

from pathlib import Path

import pytest
from office.site_of import TOP, Site
from office.test_bad_input import drop, sentence, workbook
from plantbal import Book


@pytest.mark.parametrize(
    ("language", "shown"), [("en", "1,234.5\xa0%"), ("de", "1.234,5\xa0%"), ("es", "1.234,5\xa0%")]
)
def test_percentages(language: str, shown: str, made: Path) -> None:
    """However a percentage is written before, its sign stands behind a space that doesn't part."""
    assert made.is_dir()
    from django.utils import translation
    from plantbal_office.sentences import figure
    from plantbal_office.shown import percent

    with translation.override(language):
        written = ("1,234.5%", "1,234.5 %", "1,234.5\xa0%")
        assert {figure(text) for text in written} == {shown}
        assert percent(1234.5, 1) == figure("1,234.5%")
        assert percent(None) == "" and figure("%") == "%"


def test_untested_is_not_rejected(made: Path, tmp_path: Path) -> None:
    """A month without critical values has a state of its own, until it is tested."""
    from plantbal_office.plants.standing import Standing, stand_of
    from plantbal_office.shelf import book_contents

    workbook = TOP / "examples" / "refinery_workbook"
    book = Book(tmp_path / "made")
    book.begin("2024", workbook)
    book.add(workbook)
    book.report("may1")
    site = Site(tmp_path, "untested", ("engineer",), tmp_path / "made")
    (month,) = [each for each in book_contents(site.plant).months if each.name == "may1"]
    stand = stand_of(site.plant, month)
    assert stand.standing is Standing.UNTESTED and stand.is_untested
    for path in ("", "look/may1/"):
        page = site.get(path).content.decode()
        assert 'class="state untested"' in page and 'class="state rejected"' not in page


def test_a_rejected_month(site: Site) -> None:
    """One that a test rejects is rejected."""
    assert 'class="state rejected"' in site.get("").content.decode()
    assert sentence(site.get("look/2024-04/"))


def test_a_fault_of_a_row_is_said_once(made: Path, tmp_path: Path) -> None:
    """Two tanks of a row that lack the same are one sentence at its cell; another remains another."""
    assert made.is_dir()
    from plantbal.faults import Fault, Faults, Place
    from plantbal_office.enter.picture import pictures_of

    workbook = tmp_path / "dips.csv"
    workbook.write_text("day,TK-1,TK-2\n2024-04-30,8000,6000\n", encoding="utf-8")
    place = Place(file=str(workbook), line=2, column=1)
    some = [Fault(what, place=place) for what in ("no error", "no error", "no density")]
    (picture,), rest = pictures_of(Faults(some, [], ""), workbook)
    assert not rest and picture.rows[1].cells[0].faults == ["no error", "no density"]


def test_a_changed_meter_is_seen_before_it_is_booked(site: Site) -> None:
    """An error that a workbook changes is on its preview, as it is said once it is booked."""
    plant = TOP / "examples" / "month_end" / "plant" / "streams.csv"
    rows = plant.read_text("utf-8").replace(
        "TAILS;FLOTATION;env;metered;1,5 %", "TAILS;FLOTATION;env;metered;50 %"
    )
    page = drop(site, workbook("streams.csv", rows.encode())).content.decode()
    beside = page.partition('<ul class="beside">')[2].partition("</ul>")[0]
    assert "50" in beside
