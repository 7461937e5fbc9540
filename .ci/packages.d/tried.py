"""The examples of the site, run in a browser, from files: each gives what stands on its page, and another answer once it is changed.

tried.py FOLDER PROGRAM [PICTURES]

What it gives is compared with the program's output, byte for byte, and with the block of the page
below it. With a third word pictures of some pages are left in that folder.
"""

from __future__ import annotations

import subprocess
import sys
from pathlib import Path

from chromium import WIDTHS, browser, wide
from selenium import webdriver
from selenium.webdriver.common.by import By
from selenium.webdriver.common.keys import Keys
from selenium.webdriver.remote.webelement import WebElement
from selenium.webdriver.support.ui import WebDriverWait

# The longest time that an example may take on a busy machine, in seconds.
PATIENCE = 60
# The page that is looked at in each width.
SHOWN = "gallery/badly_typed.html"
# The text of the block below an example's own, or of its own if it is a report.
BELOW = """
const blocks = [...document.querySelectorAll('article pre')].filter(each => !each.closest('.try'));
const after = blocks.filter(each => arguments[0].compareDocumentPosition(each) & Node.DOCUMENT_POSITION_FOLLOWING);
return after[1] ? after[1].textContent : '';
"""


class Example:
    """An example of a page: what it is run with, and its parts in the browser."""

    def __init__(self, driver: webdriver.Chrome, place: WebElement) -> None:
        self.driver = driver
        self.place = place
        self.words = (place.get_attribute("data-words") or "").split()

    def one(self, css: str) -> WebElement:
        """The first part of a selector."""
        return self.place.find_element(By.CSS_SELECTOR, css)

    def begin(self) -> None:
        """Press its button by a key, and wait for the text."""
        self.one(".try-begin").send_keys(Keys.ENTER)
        WebDriverWait(self.driver, PATIENCE).until(
            lambda _: self.place.find_elements(By.CSS_SELECTOR, "textarea")
            or self.place.find_elements(By.CSS_SELECTOR, ".try-said")
        )

    @property
    def text(self) -> str:
        """What stands in its field."""
        return str(self.one("textarea").get_property("value"))

    def write(self, text: str) -> None:
        """Put another text into its field."""
        self.driver.execute_script("arguments[0].value = arguments[1]", self.one("textarea"), text)

    def run(self, by_key: bool = False) -> str:
        """Run it, and return the output."""
        before = self.place.get_attribute("data-runs")
        if by_key:
            self.one("textarea").send_keys(Keys.CONTROL, Keys.ENTER)
        else:
            self.one(".try-run").send_keys(Keys.ENTER)
        WebDriverWait(self.driver, PATIENCE).until(
            lambda _: self.place.get_attribute("data-runs") != before
        )
        return str(self.one(".try-output").get_property("textContent"))


def wrong_of(example: Example, program: str) -> str:
    """Return what is wrong with an example, or nothing."""
    example.begin()
    text = example.text
    said = example.run()
    wanted = subprocess.run([program, *example.words], input=text, text=True, capture_output=True)
    if said != wanted.stdout:
        return "it gives another output than the program"
    below = str(example.driver.execute_script(BELOW, example.place))
    if example.words[0] == "run" and not (below.strip() and below in said):
        return "it doesn't give what stands below it"
    lines = text.splitlines(keepends=True)
    is_session = example.words[0] == "run"
    example.write(text + "nonsense,1\n" if is_session else "".join([lines[0], *lines[2:]]))
    changed = example.run(by_key=True)
    if changed == said:
        return "it gives the same once it is changed"
    if is_session and not example.place.find_elements(By.CSS_SELECTOR, ".try-refused li"):
        return "a refused row isn't told"
    reset = example.one(".try-acts button:nth-of-type(2)")
    if reset.text != "Reset":
        return "it has no Reset"
    reset.send_keys(Keys.ENTER)
    return "" if example.text == text else "Reset doesn't put its text back"


def looked(driver: webdriver.Chrome, base: str, pictures: Path | None) -> list[str]:
    """Return what is wrong with an example that is open, in each width."""
    wrong = []
    for width in WIDTHS:
        wide(driver, width)
        driver.get(f"{base}/{SHOWN}")
        example = Example(driver, driver.find_element(By.CSS_SELECTOR, ".try"))
        example.begin()
        example.run()
        found = driver.execute_script("return document.documentElement.scrollWidth")
        if found > width:
            wrong.append(f"{SHOWN} with its example is {found} wide at {width}")
        if pictures is not None:
            driver.execute_script("arguments[0].scrollIntoView()", example.place)
            driver.save_screenshot(str(pictures / f"example_{width}.png"))
    return wrong


def main() -> int:
    """Run the examples, and return the status."""
    site, program = Path(sys.argv[1]).resolve(), sys.argv[2]
    pictures = Path(sys.argv[3]) if len(sys.argv) > 3 else None
    pages = [
        page for page in sorted(site.rglob("*.html")) if 'class="try"' in page.read_text("utf-8")
    ]
    wrong, count = [], 0
    driver = browser()
    try:
        for page in pages:
            driver.get(page.as_uri())
            for place in driver.find_elements(By.CSS_SELECTOR, ".try"):
                said = wrong_of(Example(driver, place), program)
                wrong += [f"{page.relative_to(site)}: {said}"] if said else []
                count += 1
            wrong += [f"{page.name}: {entry['message']}" for entry in driver.get_log("browser")]
        wrong += looked(driver, site.as_uri(), pictures)
    finally:
        driver.quit()
    if not count:
        wrong.append("there is no example: make page builds their core, and then make site")
    print("\n".join(wrong) or f"{count} examples of {len(pages)} pages, each of them changed too")
    return 1 if wrong else 0


if __name__ == "__main__":
    sys.exit(main())
