"""How the desk's pages look at each width: nothing cut off, readable, labelled, and as it was.

The references are in the folder `pictures`, as text. PLANTBAL_PICTURES=write makes them anew, and
the pictures of docs/OFFICE.md with them: look at what changed before you keep them.
"""

from __future__ import annotations

import os
import re
from pathlib import Path
from typing import Protocol

import pytest
from looks import SCRIPT, Look, differences, faults
from office.hands import Browser
from office.test_month_end import EXAMPLES, MILL, TOP
from selenium import webdriver
from selenium.webdriver.support.ui import WebDriverWait

KEPT = Path(__file__).with_name("pictures")
SHOWN = TOP / "docs" / "pictures"
WRITES = os.environ.get("PLANTBAL_PICTURES") == "write"
# 640 is what 1,280 is at 200 %.
WIDTHS = (1440, 1280, 800, 640, 390)
PAGES = {
    "plants": "/",
    "begin": "/begin",
    "months": "",
    "enter": "enter/",
    "grid": "enter/grid/2024-05/readings",
    "statement": "look/2024-04/",
    "drawing": "look/2024-04/drawing",
    "stream": "look/2024-04/stream/TAILS",
    "fact": "look/fact/2023-24/FI-302_2024-04-18",
    "amend": "correct/fact/2023-24/FI-302_2024-04-18/amend?amount=12188+t&why=typed",
    "close": "correct/2024-05/close",
    "ask": "ask/",
    "journal": "look/journal",
}
# The pages that the guide shows, and those whose look is kept at a width.
PICTURED = {"months": 1280, "seen": 1280, "faults": 1280, "statement": 1280, "amend": 1280}
PICTURED |= {"mapping": 1280}
REFERENCES = {"months": (1280, 390), "stream": (1280,), "amend": (1280, 800), "close": (390,)}
LEAST_CONTRAST = 4.5
# What no page may have: a field, a button or a link without a name that a screen reader says.
NAMELESS = """
return [...document.querySelectorAll('input:not([type=hidden]), select, textarea, button, a[href], img, [role]')]
  .filter(each => each.checkVisibility())
  .filter(each => !(each.labels && each.labels.length) && !each.getAttribute('aria-label') && !each.getAttribute('aria-labelledby')
    && !each.textContent.trim() && each.getAttribute('alt') === null && !each.querySelector('title'))
  .filter(each => !each.matches('td[role=gridcell], p[role=status], ul[role=status]'))
  .map(each => each.outerHTML.slice(0, 120))
"""


@pytest.fixture(name="shown", scope="module")
def fixture_shown(
    served: object, chromium: object, tmp_path_factory: pytest.TempPathFactory
) -> Browser:
    """A mill with a rejected April and a May that lacks a day."""
    room = tmp_path_factory.mktemp("pages")
    chromium.get(served.address)  # type: ignore[attr-defined]
    desk = Browser(chromium, served.root, room)  # type: ignore[attr-defined,arg-type]
    desk.book = room / "mountain-mill"
    desk.begin("2023-24", MILL / "plant", "de")
    for name in ("april", "may"):
        desk.add(MILL / name, "de")
    desk.report("2024-04")
    desk.report("2024-05")
    return desk


class Driven(Protocol):
    """Somebody at a browser."""

    driver: webdriver.Chrome


def look_of(desk: Driven, width: int) -> Look:
    """How the page looks at a width."""
    desk.driver.set_window_size(width, 900)
    inner = lambda driver: driver.execute_script("return innerWidth") == width  # noqa: E731
    WebDriverWait(desk.driver, 20).until(inner)
    answer = desk.driver.execute_script(f"return ({SCRIPT})({width})")
    look = Look.of(answer)
    steady = [
        type(text)(*(plain(each) if isinstance(each, str) else each for each in fields(text)))
        for text in look.texts
    ]
    return Look(steady, look.on_one_another, look.beyond, look.drawn)


def fields(text: object) -> tuple[object, ...]:
    """The fields of a text that was seen."""
    names = ("left", "right", "size", "weight", "ink", "ground", "kind", "text")
    return tuple(getattr(text, name) for name in names)


def plain(text: str) -> str:
    """A text without what is another one on each run: digests, times, folders, users."""
    text = re.sub(r"[0-9a-f]{64}", "DIGEST", text)
    text = re.sub(r"20\d\d-\d\d-\d\d \d\d:\d\d|\d+/\d+/20\d\d \d+:\d\d [ap].m.", "WHEN", text)
    text = re.sub(r"/\S*/mountain-mill", "FOLDER", text)
    return re.sub(r"\b[a-z_-]+ \(\d+\)", "USER", text)


def contrast(one: str, other: str) -> float:
    """The contrast of two colours, as WCAG 2 has it."""
    bright = sorted(map(luminance, (one, other)), reverse=True)
    return (bright[0] + 0.05) / (bright[1] + 0.05)


def luminance(colour: str) -> float:
    """The relative luminance of a colour such as `#1c2430` or `rgb(28, 36, 48)`."""
    if colour.startswith("#"):
        parts = [int(colour[at : at + 2], 16) / 255 for at in (1, 3, 5)]
    else:
        parts = [float(each) / 255 for each in re.findall(r"[0-9.]+", colour)[:3]]
    linear = [p / 12.92 if p <= 0.04045 else ((p + 0.055) / 1.055) ** 2.4 for p in parts]
    return sum(w * p for w, p in zip((0.2126, 0.7152, 0.0722), linear))


def complaints_of(desk: Driven, name: str, width: int) -> list[str]:
    """What no page may be, at a width."""
    look = look_of(desk, width)
    said = faults(look, width)
    if name in ("grid", "faults", "log"):  # their tables scroll in boxes of their own
        said = [each for each in said if not each.startswith("beyond")]
    for text in look.texts:
        if text.text and contrast(text.ink, text.ground) < LEAST_CONTRAST:
            said.append(f"hard to read, {contrast(text.ink, text.ground):.1f}: {text.line()}")
    wide = desk.driver.execute_script("return document.documentElement.scrollWidth")
    said += [f"{wide} pixels wide"] if wide > width else []
    return [f"{name} at {width}: {each}" for each in said]


@pytest.mark.parametrize("name", PAGES)
def test_page(name: str, shown: Browser) -> None:
    """A page is readable at each width, nothing is cut off, and everything has a name."""
    shown.driver.set_window_size(1280, 900)
    shown.open(PAGES[name])
    assert shown.driver.execute_script(NAMELESS) == [], "each field, button and picture has a name"
    said = [each for width in WIDTHS for each in complaints_of(shown, name, width)]
    assert not said, "\n".join(said)
    assert shown.complaints() == [], "nothing is blocked"
    for width in REFERENCES.get(name, ()):
        path = KEPT / f"{name}_{width}.txt"
        look = look_of(shown, width)
        if WRITES:
            KEPT.mkdir(exist_ok=True)
            path.write_text(look.text(), encoding="utf-8")
        assert differences(look, Look.read(path.read_text(encoding="utf-8"))) == [], path.name
    if WRITES and name in PICTURED:
        pictured(shown, name)


def pictured(desk: Browser, name: str) -> None:
    """Make the picture of a page for the guide."""
    desk.driver.set_window_size(PICTURED[name], 900)
    high = desk.driver.execute_script("return document.querySelector('main').scrollHeight + 60")
    desk.driver.set_window_size(PICTURED[name], min(1500, high) + 90)
    tidy = (
        "for (const each of document.querySelectorAll('dd.hash')) if (each.textContent[0] === '/') "
    )
    desk.driver.execute_script(tidy + "each.textContent = '/srv/books/mountain-mill'")
    desk.driver.save_screenshot(str(SHOWN / f"office_{name}.png"))


def test_what_a_workbook_would_do(shown: Browser, tmp_path: Path) -> None:
    """The preview of a workbook, and the picture of its faults, are readable at each width."""
    shown.look_at(MILL / "june", "de")
    said = [each for width in WIDTHS for each in complaints_of(shown, "seen", width)]
    if WRITES:
        pictured(shown, "seen")
    (tmp_path / "bad").mkdir()
    text = (MILL / "june" / "readings.csv").read_text(encoding="utf-8")
    rows = text.splitlines()
    rows[3] = rows[3].replace(";", ";x", 1)
    (tmp_path / "bad" / "readings.csv").write_text("\n".join(rows), encoding="utf-8")
    shown.driver.set_window_size(1280, 900)
    shown.look_at(tmp_path / "bad", "de")
    assert shown.has("td.wrong"), shown.text()
    said += [each for width in WIDTHS for each in complaints_of(shown, "faults", width)]
    if WRITES:
        pictured(shown, "faults")
    shown.driver.set_window_size(1280, 900)
    assert not said, "\n".join(said)


def test_how_a_workbook_is_read(shown: Browser) -> None:
    """What a workbook with sheets of its own is taken for is readable at each width."""
    shown.driver.set_window_size(1280, 900)
    shown.look_at(EXAMPLES / "own_workbook")
    assert "how it is read" in shown.text(), shown.text()
    assert shown.driver.execute_script(NAMELESS) == [], "each field, button and picture has a name"
    said = [each for width in WIDTHS for each in complaints_of(shown, "mapping", width)]
    shown.driver.set_window_size(800, 900)
    heads = "return [...document.querySelectorAll('table.mapped thead')].map(e => e.clientHeight)"
    assert all(high > 9 for high in shown.driver.execute_script(heads)), "columns have their heads"
    if WRITES:
        pictured(shown, "mapping")
    shown.driver.set_window_size(1280, 900)
    assert not said, "\n".join(said)
    assert shown.complaints() == [], "nothing is blocked"


@pytest.mark.parametrize(
    ("code", "word", "figure", "day"),
    [
        ("de", "abgelehnt", "346.499,555", "01.04.2024"),
        ("es", "rechazado", "346.499,555", "01/04/2024"),
    ],
)
def test_languages(code: str, word: str, figure: str, day: str, shown: Browser) -> None:
    """Words, figures and days are those of the person's language; typed figures too."""
    shown.driver.set_window_size(1280, 900)
    shown.open("")
    shown.click(f"button[value={code}]")
    try:
        assert word in shown.text() and day in shown.text()
        shown.open("look/2024-04/stream/TAILS")
        assert figure in shown.text() and day in shown.text()
        shown.open("correct/fact/2023-24/FI-302_2024-04-18/amend?amount=12.188,5+t&why=x")
        assert "→ 12.188,5 t" in shown.text(), shown.text()
    finally:
        shown.click("button[value=en]")
