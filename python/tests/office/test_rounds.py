"""A month whose report leaves suspects out is closed as it was looked at, by the desk too."""

from __future__ import annotations

import re
from pathlib import Path

from office.site_of import Site
from office.test_bundles import ANYWAY, bundle_in

from plantbal import Book
from plantbal.book.forms import report_file
from plantbal.program import RunSettings
from plantbal.report.output import parse_report
from plantbal.report.rounds import rounds_shown

APRIL = "2024-04"


def left_out(site: Site) -> tuple[int, list[str]]:
    """With how many rounds April's report was made, and what it leaves out."""
    text = (Path(site.book) / report_file(APRIL)).read_text(encoding="ascii")
    output = parse_report(text, APRIL)
    return rounds_shown(output), output.reports[-1].taken


def reported(site: Site, rounds: str) -> str:
    """Make April's report as its page does; what is said."""
    form = site.fields(f"look/{APRIL}/") | ({"eliminate": rounds} if rounds else {})
    address = f"/p/{site.plant.slug}/correct/{APRIL}/report"
    return site.client.post(address, form, follow=True).content.decode()


def page(site: Site, path: str) -> str:
    """A page."""
    return site.get(path).content.decode()


def chosen(site: Site) -> list[str]:
    """Which numbers the page of the statement has chosen beforehand."""
    return re.findall(r'<option value="(\d+)" selected', page(site, f"look/{APRIL}/"))


def closed(site: Site, **more: str) -> None:
    """Close April as the page does."""
    form = site.fields("correct/quiet") | ANYWAY | more
    site.client.post(f"/p/{site.plant.slug}/correct/{APRIL}/close", form, follow=True)


def test_what_the_last_report_left_out(site: Site) -> None:
    """The page offers it, what follows keeps it, and a number wins."""
    assert chosen(site) == ["0"]
    reported(site, "1")
    assert (left_out(site), chosen(site)) == ((1, ["TAILS"]), ["1"])
    reported(site, "")
    assert left_out(site) == (1, ["TAILS"]), "as from the page of months"
    reported(site, "0")
    assert (left_out(site), chosen(site)) == ((0, []), ["0"])


def test_tests_come_back(site: Site) -> None:
    """A report that a command made without tests is made with them at the desk, as the page says."""
    untested = RunSettings(tests=False)
    Book(site.book, who="Ann").report(APRIL, settings=untested)
    made = Path(site.book) / report_file(APRIL)
    assert parse_report(made.read_text(encoding="ascii"), APRIL).reports[-1].tested is None
    reported(site, "")
    assert parse_report(made.read_text(encoding="ascii"), APRIL).reports[-1].tested is not None


def test_a_close_leaves_it_out(site: Site, tmp_path: Path) -> None:
    reported(site, "2")
    said = page(site, f"correct/{APRIL}/close")
    assert 'class="leftout"' in said and "<b>TAILS</b>" in said and 'href="?eliminate=0"' in said
    assert 'name="eliminate"' not in said
    closed(site)
    assert left_out(site) == (1, ["TAILS"])
    _, manifest = bundle_in(site, APRIL, tmp_path)
    assert "--eliminate 1" in manifest.words


def test_a_close_that_leaves_none_out(site: Site) -> None:
    """It is chosen on the page, which then shows that report."""
    reported(site, "1")
    said = page(site, f"correct/{APRIL}/close?eliminate=0")
    assert '<input type="hidden" name="eliminate" value="0">' in said
    assert "messages leftout" in said and 'href="?"' in said
    closed(site, eliminate="0")
    assert left_out(site) == (0, [])


def test_a_closed_month_offers_nothing_else(site: Site) -> None:
    reported(site, "1")
    closed(site)
    before = site.head(), left_out(site)
    assert 'name="eliminate"' not in page(site, f"look/{APRIL}/")
    assert "is closed with a report that takes out at most 1 suspect" in reported(site, "0")
    assert (site.head(), left_out(site)) == before
    reported(site, "")
    assert left_out(site) == (1, ["TAILS"])


def test_a_preview_compares_like_with_like(site: Site) -> None:
    """What an amendment would do is said of reports that leave out as much."""
    reported(site, "1")
    words = "amount=12001+t&why=typed+wrong"
    said = page(site, f"correct/fact/2023-24/WIC-101_2024-04-03/amend?{words}")
    assert said.count("TAILS was taken out") == 2, said
