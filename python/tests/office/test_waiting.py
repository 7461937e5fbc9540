"""Workbooks that wait: what is gone on to after a booking, and what was rejected or replaced."""

from __future__ import annotations

from pathlib import Path
from typing import Any

from libre import Rows, written
from office.site_of import Site
from office.test_bad_input import drop, readings, sentence, workbook

GOOD = "2024-05-01,11900"
BAD = "2024-05-01,zwoelf"


def drops(site: Site) -> list[Any]:
    """The workbooks of the plant, the oldest first."""
    from plantbal_office.enter.models import Drop

    return list(Drop.objects.filter(plant=site.plant).order_by("made"))


def book(site: Site, identity: object) -> Any:
    """What the form of a workbook's page is answered."""
    path = f"enter/{identity}"
    return site.post(f"{path}/book", site.fields(path) | {"why": "as it was read"})


def test_nothing_old_is_opened(site: Site) -> None:
    """After a booking the months are shown, not a workbook that was rejected before."""
    from plantbal_office.enter.models import DropState

    said = sentence(drop(site, workbook("old.csv", f"day,FI-302\n{BAD}\n".encode())))
    assert "nothing is booked" in said
    drop(site, readings(GOOD))
    old, new = drops(site)
    assert (old.state, old.faults, new.state) == (DropState.REJECTED, 1, DropState.READY)
    then = book(site, new.pk)
    assert then.status_code == 302 and str(old.pk) not in then["Location"]
    assert then["Location"].startswith(f"/p/{site.plant.slug}/#m-")


def test_what_is_listed(site: Site) -> None:
    """What was rejected is listed with its state and its day, and can be discarded; what was booked isn't."""
    drop(site, readings(BAD))
    drop(site, readings(GOOD))
    old, new = drops(site)
    page = sentence(site.get("enter/"))
    waiting, _, put_by = page.partition("Rejected or replaced")
    assert f"enter/{new.pk}" in waiting and f"enter/{old.pk}" not in waiting
    assert f"enter/{old.pk}" in put_by and "rejected: 1 fault" in put_by
    assert "one of this name was dropped on" in put_by
    book(site, new.pk)
    page = sentence(site.get("enter/"))
    assert "Waiting to be booked" not in page and "one of this name was booked on" in page
    assert "one of this name was booked after it" in sentence(site.get(f"enter/{old.pk}"))
    site.post(f"enter/{old.pk}/forget", {})
    assert "Rejected or replaced" not in sentence(site.get("enter/"))


def test_a_booked_one_is_no_longer_open(site: Site) -> None:
    """The address of a workbook that was booked leads to what can be entered, and books nothing."""
    drop(site, readings(GOOD))
    (one,) = drops(site)
    book(site, one.pk)
    head = site.head()
    answer = site.client.get(f"/p/{site.plant.slug}/enter/{one.pk}", follow=True)
    assert "nothing of it waits" in sentence(answer) and "Book it" not in sentence(answer)
    assert site.head() == head


def test_those_of_one_drop_follow_each_other(site: Site, tmp_path: Path) -> None:
    """Of workbooks that were dropped together the next is gone on to, without one that was rejected."""
    files = []
    for name, day, figure in (
        ("a", "2024-05-01", 11900),
        ("b", "x", 1),
        ("c", "2024-05-02", 11800),
    ):
        sheet: dict[str, Rows] = {"readings": [["day", "FI-302"], [day, figure]]}
        path = written(sheet, tmp_path / f"{name}.xlsx")
        files.append(workbook(f"{name}.xlsx", path.read_bytes()))
    drop(site, *files)
    first, second, third = drops(site)
    site.get(f"enter/{second.pk}")
    assert str(third.pk) in book(site, first.pk)["Location"]


def test_the_last_booked_workbook_is_kept(site: Site) -> None:
    """Its file stays, for whoever changes how it is read; that of the one before goes."""
    from plantbal_office.enter.drops import folder_of
    from plantbal_office.enter.waiting import last_booked

    drop(site, readings(GOOD))
    (one,) = drops(site)
    book(site, one.pk)
    drop(site, readings("2024-05-02,11950"))
    two = drops(site)[-1]
    book(site, two.pk)
    kept = last_booked(site.plant)
    assert kept is not None and kept.pk == two.pk and folder_of(kept).exists()
    assert not folder_of(one).exists() and drops(site) == [kept]
