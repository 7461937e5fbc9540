"""The mapping that a plant's workbooks are read by: it is shown, changed with a workbook, and says why."""

from __future__ import annotations

import re
import shutil
from pathlib import Path
from typing import Any

import pytest
from libre import Rows, written
from office.by_commands import call
from office.site_of import Site
from office.test_bad_input import drop, sentence, workbook
from plantbal import Book
from plantbal.workbook.mapping.form import read_mapping

DAYS = [f"{day:02}.05.2024" for day in range(1, 6)]
MAPPING = """
locale = "de"
[[sheet]]
name = "Tageswerte"
kind = "readings"
[sheet.columns]
"Tag" = "day"
"Produkt" = "FI-302"
[sheet.units]
"Produkt" = "kg"
"""


@pytest.fixture(name="mapped")
def fixture_mapped(site: Site, tmp_path: Path) -> Site:
    """A plant whose workbooks are read by a mapping: in kg, which no workbook says."""
    (tmp_path / "own.toml").write_text(MAPPING, encoding="utf-8")
    path = written({"Tageswerte": sheet(11900)}, tmp_path / "may.xlsx")
    call("add", path, "--mapping", tmp_path / "own.toml", "--book", site.book)
    return site


def sheet(figure: int, head: str = "Produkt") -> Rows:
    """A sheet that doesn't say in which unit its figures are."""
    return [["Tag", head], *[[day, figure + n] for n, day in enumerate(DAYS)]]


def dropped(site: Site, tmp_path: Path, figure: int, head: str = "Produkt") -> Any:
    """Drop a workbook of that sheet, and return it as the desk has it."""
    from plantbal_office.enter.models import Drop

    path = written({"Tageswerte": sheet(figure, head)}, tmp_path / "own.xlsx")
    drop(site, workbook("own.xlsx", path.read_bytes()), locale="")
    return Drop.objects.filter(plant=site.plant).order_by("-made")[0]


def answers(site: Site, path: str) -> dict[str, str]:
    """What the form of a mapping's page has, as a browser would send it."""
    text = sentence(site.get(path))
    form = text[text.index('<form method="post" class="mapping">') :]
    found = dict(re.findall(r'<input[^>]*name="([^"]+)"[^>]*value="([^"]*)"', form))
    for name, options in re.findall(r'<select[^>]*name="([^"]+)".*?>(.*?)</select>', form):
        chosen = re.search(r'<option(?: value="([^"]*)")? selected>([^<]*)', options)
        assert chosen is not None, name
        found[name] = chosen[2] if chosen[1] is None else chosen[1]
    return found


def test_the_page(mapped: Site, tmp_path: Path) -> None:
    """It shows sheets, columns and units, and which workbooks were read by it."""
    page = sentence(mapped.get("enter/mapping"))
    for word in ("Tageswerte", "Produkt", "FI-302", "kg", "may.xlsx", "--mapping"):
        assert word in page, word
    assert "How workbooks are read" in sentence(mapped.get("enter/"))


def test_without_a_mapping(site: Site) -> None:
    """The book of a plant whose workbooks are as ours are has a locale alone."""
    page = sentence(site.get("enter/mapping"))
    assert "How workbooks are read" in page


def test_a_unit_that_the_file_does_not_say(mapped: Site, tmp_path: Path) -> None:
    """The page says that the mapping has the unit, and that nothing in the file does."""
    one = dropped(mapped, tmp_path, 11900)
    page = sentence(mapped.get(f"enter/{one.pk}/mapping"))
    assert "the book&#x27;s mapping says so; nothing in the file does" in page


def test_a_change(mapped: Site, tmp_path: Path) -> None:
    """The last workbook by a changed mapping: its effect is shown, and mapping and rows are booked as one action."""
    from plantbal_office.enter.waiting import last_booked

    one = dropped(mapped, tmp_path, 11900)
    mapped.post(f"enter/{one.pk}/book", mapped.fields(f"enter/{one.pk}"))
    last = last_booked(mapped.plant)
    assert last is not None and last.name == "own.xlsx"
    assert f"enter/{last.pk}/mapping" in sentence(mapped.get("enter/mapping"))
    copy = shutil.copytree(mapped.book, tmp_path / "by_command")

    path, head = f"enter/{last.pk}/mapping", mapped.head()
    form = answers(mapped, path)
    (name,) = [each for each, value in form.items() if value == "kg"]
    data = form | mapped.fields(path) | {name: "t", "take": "yes"}
    seen = mapped.client.post(f"/p/{mapped.plant.slug}/{path}", data, follow=True)
    said = sentence(seen)
    assert "It is booked already" in said and "11,900" in said
    assert mapped.head() == head, "nothing is booked before it is seen"
    why = {"why": "the plant writes tonnes"}
    mapped.post(f"enter/{last.pk}/book", mapped.fields(f"enter/{last.pk}") | why)
    assert mapped.head() == head + 1
    kept = Book(mapped.book).mapping()
    assert kept is not None and dict(kept.sheets[0].units) == {"Produkt": "t"}

    text = (copy / "mapping.toml").read_text(encoding="utf-8").replace('"kg"', '"t"')
    (tmp_path / "changed.toml").write_text(text, encoding="utf-8")
    words = ("--mapping", tmp_path / "changed.toml", "--why", why["why"], "--book", copy)
    call("add", written({"Tageswerte": sheet(11900)}, tmp_path / "own.xlsx"), *words)
    assert (copy / "2023-24.csv").read_bytes() == (mapped.book / "2023-24.csv").read_bytes()
    assert read_mapping(copy / "mapping.toml") == read_mapping(mapped.book / "mapping.toml")


def test_leaving_it(mapped: Site, tmp_path: Path) -> None:
    """Who looks at a change and leaves it has the mapping and the workbook as they were."""
    from plantbal_office.enter.mapped import accepted
    from plantbal_office.enter.waiting import last_booked

    one = dropped(mapped, tmp_path, 11900)
    mapped.post(f"enter/{one.pk}/book", mapped.fields(f"enter/{one.pk}"))
    path = f"enter/{one.pk}/mapping"
    data = answers(mapped, path) | mapped.fields(path) | {"take": "yes"}
    mapped.post(path, data)
    assert accepted(one) is not None
    mapped.post(f"enter/{one.pk}/forget", {})
    assert accepted(one) is None and last_booked(mapped.plant) is not None


def test_with_another_workbook(mapped: Site, tmp_path: Path) -> None:
    """Without a kept workbook one is dropped, and it is shown how it is read."""
    path = written({"Tageswerte": sheet(11900)}, tmp_path / "june.xlsx")
    data = {
        **mapped.fields("enter/mapping"),
        "workbook": [workbook("june.xlsx", path.read_bytes())],
    }
    answer = mapped.post("enter/mapping", data)
    assert answer.status_code == 302 and answer["Location"].endswith("/mapping")
    assert "Produkt" in sentence(mapped.client.get(answer["Location"]))


def test_a_question_stays_one(site: Site, tmp_path: Path) -> None:
    """The book has no unit for the meter and the file none: it is asked, and clearing the mark answers nothing."""
    one = dropped(site, tmp_path, 11900, "FI-302")
    path = f"enter/{one.pk}/mapping"
    form = answers(site, path)
    open_ = [name for name, value in form.items() if value == "?"]
    assert open_ == ["all-0"], form
    data = form | site.fields(path) | {name: "" for name in open_} | {"take": "yes"}
    answer = site.post(path, data)
    assert answer.status_code == 400 and "still open" in sentence(answer)
