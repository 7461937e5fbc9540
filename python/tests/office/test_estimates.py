"""The page of estimates: what is compared, on what a proposal rests, and a figure of one's own."""

from __future__ import annotations

from typing import Any

import pytest
from office.site_of import Site
from office.test_bad_input import sentence
from plantbal import Book

MONTH, DAY = "2024-04", "2024-04-18"
PAGE = f"correct/{MONTH}/estimate"
OWN = {"own-stream": "TAILS", "own-day": DAY, "own-amount": "11900", "own-error": "3 %"}


@pytest.fixture(name="gap")
def fixture_gap(site: Site) -> Site:
    """April without one reading of the tailings, whose report was made before."""
    Book(site.book).strike("FI-302", DAY, why="the transmitter was out")
    return site


def test_a_fresh_report_is_compared_with(gap: Site) -> None:
    """The report that is kept is older than the strike: the effect is that of the estimate alone."""
    from plantbal_office.effects import fresh_output, kept_output, report_said
    from plantbal_office.shelf import book_contents

    page = sentence(gap.get(PAGE))
    assert "made anew of what is booked now" in page
    kept = kept_output(gap.plant, book_contents(gap.plant), MONTH)
    fresh = fresh_output(gap.plant, MONTH)
    assert kept is not None and report_said(kept) != report_said(fresh)
    Book(gap.book).report(MONTH)
    assert "made anew of what is booked now" not in sentence(gap.get(PAGE))


def test_what_a_proposal_rests_on(gap: Site) -> None:
    """The proposal is made of the readings of a meter that the report suspects, and says so."""
    from plantbal_office.correct.estimates import rests_on
    from plantbal_office.effects import suspects_now

    Book(gap.book).amend("FI-201", "2024-04-22", "20000 t", why="a digit was wrong")
    suspects = suspects_now(gap.plant, MONTH)
    (each,) = Book(gap.book).estimate(MONTH).proposals
    assert "PULP" in rests_on(each, suspects) and "which the report suspects" in sentence(
        gap.get(PAGE)
    )
    assert not rests_on(each, frozenset({"ORE_TO_NOWHERE"}))


def own(site: Site, **words: str) -> Any:
    """What is answered to a figure of one's own."""
    data = site.fields(PAGE) | OWN | {f"own-{key}": text for key, text in words.items()}
    return site.client.post(f"/p/{site.plant.slug}/{PAGE}", data, follow=True)


def test_a_figure_of_ones_own(gap: Site) -> None:
    """It is seen before it is booked, and booked as an estimate."""
    head = gap.head()
    answer = own(gap)
    said = sentence(answer)
    assert "what it would do" in said and gap.head() == head
    path = answer.redirect_chain[-1][0].partition(f"/p/{gap.plant.slug}/")[2]
    gap.post(f"{path}/book", gap.fields(path))
    (fact,) = [
        each.fact
        for each in Book(gap.book).facts(MONTH).facts
        if not each.struck and (each.fact.place, str(each.fact.first)) == ("TAILS", DAY)
    ]
    assert fact.values[0] == 11_900_000_000 and fact.id.endswith(".est")


@pytest.mark.parametrize("field", ["day", "amount", "error"])
def test_a_field_that_is_empty(gap: Site, field: str) -> None:
    """The fault is at the field, and what was typed into the others is kept."""
    answer = own(gap, **{field: ""})
    said = sentence(answer)
    assert answer.status_code == 400 and "This field is required." in said
    for key, text in OWN.items():
        assert key == f"own-{field}" or text in said


def test_a_reason_that_is_missing(gap: Site) -> None:
    """Without a reason the page is shown again with the fault at the field, and nothing is booked."""
    head = gap.head()
    answer = gap.post(PAGE, gap.fields(PAGE) | {"why": " "})
    assert answer.status_code == 400 and "This field is required." in sentence(answer)
    assert gap.head() == head
