"""A month as somebody does it who has never seen the desk: by what is labelled, and nothing else.

Each step takes what docs/OFFICE.md names: a link, a button or a field by its text.
"""

from __future__ import annotations

from pathlib import Path

from office.hands import Browser, files_of
from office.test_month_end import EXAMPLES
from selenium.webdriver.common.by import By
from selenium.webdriver.remote.webelement import WebElement
from selenium.webdriver.support.ui import Select


class Newcomer:
    """Sees a page, and does what is labelled."""

    def __init__(self, desk: Browser) -> None:
        self.desk = desk

    def sees(self, text: str) -> None:
        """It is on the page."""
        assert text in self.desk.text("body"), f"{text!r} isn't on {self.desk.text()[:1500]}"

    def follows(self, text: str) -> None:
        """Follow a link, or press a button, that says so."""
        path = f"//main//*[self::a or self::button][normalize-space(.)={text!r}]"
        found = self.desk.driver.find_elements(By.XPATH, path)
        found += self.desk.driver.find_elements(By.XPATH, f"//nav//a[normalize-space(.)={text!r}]")
        seen = [each for each in found if each.is_displayed() and each.is_enabled()]
        assert seen, f"stuck: nothing says {text!r} on {self.desk.text()[:1500]}"
        self.desk._left(seen[0].click)

    def field(self, label: str) -> WebElement:
        """The field with a label."""
        path = f"//main//label[normalize-space(.)={label!r}]"
        found = self.desk.driver.find_elements(By.XPATH, path)
        assert found, f"stuck: no field is called {label!r} on {self.desk.text()[:1500]}"
        return self.desk.one(f"[id='{found[0].get_attribute('for')}']")

    def fills(self, label: str, text: str) -> None:
        """Write into a field."""
        field = self.field(label)
        if field.tag_name == "select":
            Select(field).select_by_visible_text(text)
        else:
            field.clear()
            field.send_keys(text)


def test_newcomer(desk: Browser, tmp_path: Path) -> None:
    """From the workbook as it is to a month that is closed, and its bundle."""
    one = Newcomer(desk)
    desk.open("/")
    one.follows("Begin a book")
    one.fills("Name of the plant", "north")
    one.fills("Folder of its book", str(tmp_path / "north"))
    one.fills("First year", "2024")
    one.field("Workbook of the plant").send_keys(
        "\n".join(map(str, files_of(EXAMPLES / "own_workbook")))
    )
    one.fills("Name of the workbook, if it is a set of CSV files", "own_workbook")
    one.follows("Begin")
    one.sees("Tagesmengen")
    one.follows("Begin the book this way")
    one.sees("The rest of the workbook isn't booked yet")
    assert not desk.has(".verdict.look[role=status]"), "it doesn't replace itself"
    one.follows("Book it")
    one.sees("2024-06")
    one.follows("Make the report")
    one.follows("Have it tested at 5 %")
    one.follows("Book it")
    one.follows("Statement")
    one.follows("Make the report")
    one.follows("Berge")
    one.follows("FI-302_2024-06-18")
    one.follows("Amend")
    one.fills("Amount with unit", "11900 t")
    one.fills("Reason", "read off wrong")
    one.follows("See what it would do")
    one.follows("Book it")
    desk.driver.back()
    assert not desk.one(
        ".decide button.primary"
    ).is_enabled(), "the back button books nothing twice"
    desk.driver.forward()
    one.follows("2024-06")
    one.sees("Something has been booked since this report.")
    one.follows("Make the report")
    one.follows("Close")
    for label in desk.driver.find_elements(By.XPATH, "//fieldset//label"):
        desk.one(f"[id='{label.get_attribute('for')}']").send_keys("looked at, and right")
    one.follows("Close the month")
    one.sees("2024-06 is closed.")
    one.follows("Months")
    one.sees("Every month is closed." if desk.has(".note") else "closed")
    one.follows("Statement")
    assert desk.driver.find_element(By.LINK_TEXT, "bundle").is_displayed()
    assert desk.complaints() == []
