"""The page in a browser: how it is opened, given files and asked; and Chromium, by Selenium."""

from __future__ import annotations

import base64
import json
import time
from collections.abc import Callable
from pathlib import Path
from typing import Any

HERE = Path(__file__).resolve().parent
TOP = HERE.parents[1]
WORDS = {
    each: json.loads((HERE.parent / "words" / f"{each}.json").read_text("utf-8"))
    for each in ("en", "de", "es")
}
EXAMPLES = TOP / "examples"
PATIENCE = 240  # seconds, on a machine with other work


class Page:
    """The page in a browser, and what is wrong with it."""

    def __init__(self, browser: Any, name: str, address: str, downloads: Path) -> None:
        self.browser, self.name, self.address, self.downloads = browser, name, address, downloads
        self.js = browser.js
        self.failed = 0

    def holds(self, what: str, is_so: object, more: object = "") -> None:
        """Say whether something holds."""
        self.failed += not is_so
        print(
            f"page: {self.name}: {'' if is_so else 'WRONG: '}{what}{'' if is_so else f': {more}'}",
            flush=True,
        )

    def open(self, language: str = "en") -> None:
        """Open the page anew, in a language."""
        self.browser.open(self.address)
        self.wait(
            lambda: self.js("return document.documentElement.dataset.ready") == "yes",
            "the page isn't ready",
        )
        self.js("document.querySelector(`#languages [lang=${arguments[0]}]`).click()", language)

    def wait(self, asked: Callable[[], object], what: str) -> None:
        """Wait for something."""
        end = time.monotonic() + PATIENCE
        while not asked():
            if time.monotonic() > end:
                raise TimeoutError(f"{self.name}: {what} after {PATIENCE} s")
            time.sleep(0.03)

    @property
    def done(self) -> int:
        """How many files were judged or refused."""
        return int(self.js("return document.documentElement.dataset.done || 0"))

    def judged(self, act: Callable[[], object]) -> str:
        """Do what gives the page a file, and return the headline that it shows in the end."""
        before = self.done
        act()
        self.wait(lambda: self.done > before, "no answer")
        return self.headline

    @property
    def headline(self) -> str:
        """The headline."""
        return str(self.js("return document.getElementById('headline').textContent"))

    def choose(self, path: Path) -> str:
        """Choose a file, and return the headline."""
        return self.judged(lambda: self.browser.choose(path))

    def saved(self) -> bytes:
        """Return the bytes of the file that the page saves."""
        for old in self.downloads.iterdir():
            old.unlink()
        self.js("document.getElementById('save').click()")
        found: list[Path] = []

        def there() -> bool:
            found[:] = [each for each in self.downloads.iterdir() if each.suffix == ".csv"]
            return (
                bool(found)
                and len({each.stat().st_size for each in found * 2}) == 1
                and not list(self.downloads.glob("*.part"))
                and not list(self.downloads.glob("*.crdownload"))
            )

        self.wait(there, "no file was saved")
        size = -1
        while size != found[0].stat().st_size:
            size = found[0].stat().st_size
            time.sleep(0.1)
        return found[0].read_bytes()


class Chromium:
    """A Chromium without a window."""

    def __init__(self, downloads: Path) -> None:
        from selenium import webdriver
        from selenium.webdriver.chrome.options import Options
        from selenium.webdriver.chrome.service import Service

        options = Options()
        options.binary_location = "/usr/bin/chromium"
        for word in (
            "--headless=new",
            "--no-sandbox",
            "--disable-gpu",
            "--hide-scrollbars",
            "--lang=en",
            "--disable-dev-shm-usage",
            "--force-device-scale-factor=1",
        ):
            options.add_argument(word)
        # Else the second file that a script saves waits for an answer.
        saving = {
            "download.default_directory": str(downloads),
            "profile.default_content_setting_values.automatic_downloads": 1,
        }
        options.add_experimental_option("prefs", saving)
        options.set_capability("goog:loggingPrefs", {"browser": "ALL"})
        self.driver = webdriver.Chrome(service=Service("/usr/bin/chromedriver"), options=options)
        self.driver.set_script_timeout(PATIENCE)
        self.version = self.driver.capabilities["browserVersion"]
        self.size(1280, 1000)

    def open(self, address: str) -> None:
        self.driver.get(address)

    def js(self, text: str, *values: Any) -> Any:
        return self.driver.execute_script(text, *values)

    def choose(self, path: Path) -> None:
        self.driver.find_element("id", "pick").send_keys(str(path))

    def size(self, width: int, height: int) -> None:
        """Give the page a width and a height."""
        size = {"width": width, "height": height, "deviceScaleFactor": 1, "mobile": False}
        self.driver.execute_cdp_cmd("Emulation.setDeviceMetricsOverride", size)

    def picture(self) -> bytes:
        """Return the whole page as a PNG."""
        found = self.driver.execute_cdp_cmd(
            "Page.captureScreenshot", {"captureBeyondViewport": True}
        )
        return base64.b64decode(found["data"])

    def press(self, *keys: str) -> None:
        """Press keys."""
        from selenium.webdriver.common.action_chains import ActionChains

        ActionChains(self.driver).send_keys(*keys).perform()

    def quit(self) -> None:
        self.driver.quit()
