"""The site in a browser, from files: pages fit at three widths, nothing is missing, and search finds a word.

site.py FOLDER
"""

from __future__ import annotations

import sys
import time
from pathlib import Path

from chromium import WIDTHS, browser, wide
from selenium import webdriver

PAGES = ("index.html", "gallery/refinery_day.html", "docs/GUIDE.html", "docs/REFERENCE.html")
# The longest time that a search of a busy machine may take, in seconds.
PATIENCE = 60


def found_by_search(driver: webdriver.Chrome, base: str, word: str) -> int:
    """Return how many pages a search finds."""
    driver.get(f"{base}/search.html?q={word}")
    end = time.monotonic() + PATIENCE
    while time.monotonic() < end:
        found = driver.execute_script(
            "return document.querySelectorAll('#search-results li').length"
        )
        if found:
            return int(found)
        time.sleep(0.2)
    return 0


def main() -> int:
    """Look at the pages, and return the status."""
    base = Path(sys.argv[1]).resolve().as_uri()
    wrong = []
    driver = browser()
    try:
        for page in PAGES:
            for width in WIDTHS:
                wide(driver, width)
                driver.get(f"{base}/{page}")
                found = driver.execute_script("return document.documentElement.scrollWidth")
                if found > width:
                    wrong.append(f"{page} is {found} wide at {width}")
            wrong += [f"{page}: {entry['message']}" for entry in driver.get_log("browser")]
        found = found_by_search(driver, base, "refusal")
        if not found:
            wrong.append("a search for refusal finds nothing")
    finally:
        driver.quit()
    print(
        "\n".join(wrong)
        or f"{len(PAGES)} pages at {len(WIDTHS)} widths, and {found} pages found by a search"
    )
    return 1 if wrong else 0


if __name__ == "__main__":
    sys.exit(main())
