"""The grid in a browser: typing, moving, pasting, what is said of a cell, and what is sent."""

from __future__ import annotations

from pathlib import Path

import pytest
from office.hands import Browser, settled
from selenium.webdriver.common.keys import Keys
from selenium.webdriver.support.ui import WebDriverWait
from office.test_month_end import MILL

PASTE = """
const data = new DataTransfer(); data.setData('text/plain', arguments[1]);
arguments[0].dispatchEvent(new ClipboardEvent('paste', {clipboardData: data, bubbles: true, cancelable: true}));
"""


@pytest.fixture(name="april")
def fixture_april(desk: Browser, tmp_path: Path) -> Browser:
    """A mill with April."""
    desk.book = tmp_path / f"grid{tmp_path.name[-6:]}".replace("_", "")
    desk.begin("2023-24", MILL / "plant", "de")
    desk.add(MILL / "april", "de")
    return desk


def cell(desk: Browser, name: str, day: str) -> str:
    """The selector of a cell."""
    return f"td[data-name='{name}'][data-day='{day}']"


def said_of(desk: Browser, css: str, level: str) -> str:
    """What is said of a cell, once it is judged."""
    WebDriverWait(desk.driver, 20).until(lambda _: desk.has(f"{css}.{level}"))
    return desk.one(css).get_attribute("title") or ""


def test_grid(april: Browser) -> None:
    """A digit too few is told, a text is a fault, a block is pasted, and the effect comes before the
    booking."""
    april.open("enter/grid/2024-04/readings")
    wrong = cell(april, "FI-302", "2024-04-18")
    april.one(wrong).click()
    april.one(wrong).send_keys("121x", Keys.ENTER)
    assert "121x" in said_of(april, wrong, "fault")
    april.one(wrong).click()
    april.one(wrong).send_keys("1218.5", Keys.ENTER)
    assert "median" in said_of(april, wrong, "look")
    april.one(wrong).click()
    april.driver.execute_script(PASTE, april.one(wrong), "12188\n12188.5\t330")
    settled()
    assert [each.text for each in april.all("td.changed")] == ["12188", "12188.5", "330"]
    april.press("See what it would do")
    assert "1,218 t becomes 12,188 t" in april.text() and "accepted" in april.text()
    april.fill("why", "the shift's log")
    april.press("Book it")
    april.open("look/2024-04/stream/FI-302")
    assert "12,188.5" in april.text() and "amended" in april.text()
    assert april.complaints() == []


def test_keyboard(april: Browser) -> None:
    """The grid is used with keys alone: arrows, Tab, Escape, Home and End."""
    april.open("enter/grid/2024-04/readings")
    first = april.all("table.grid td[data-part]")[0]
    april.driver.execute_script("arguments[0].focus()", first)
    first.send_keys(Keys.ARROW_DOWN)
    april.driver.switch_to.active_element.send_keys(Keys.ARROW_RIGHT)
    here = april.driver.switch_to.active_element
    assert (here.get_attribute("data-name"), here.get_attribute("data-day")) == (
        "FI-201",
        "2024-04-02",
    )
    here.send_keys("5", Keys.ESCAPE)
    assert not april.has("td.changed"), "Escape undoes"
    april.driver.switch_to.active_element.send_keys(Keys.END)
    assert april.driver.switch_to.active_element.get_attribute("data-name") == "WIC-401"
