"""What the desk's tests share: a desk that is served, a browser, and hands that use either way."""

from __future__ import annotations

import os
import secrets
import signal
import subprocess
import sys
from collections.abc import Iterator
from pathlib import Path

import pytest
from office import site_of
from office.hands import Browser
from selenium import webdriver
from selenium.webdriver.chrome.options import Options
from selenium.webdriver.chrome.service import Service

TOP = Path(__file__).resolve().parents[3]
WORDS = ("--headless=new", "--no-sandbox", "--disable-dev-shm-usage", "--hide-scrollbars")


class Served:
    """A desk that `plantbal-desk serve` serves, with books or without."""

    def __init__(self, folder: Path, *books: Path) -> None:
        self.folder = folder
        words = [sys.executable, "-m", "plantbal", "serve", "--no-browser"]
        words += ["--state", str(folder / "state"), *map(str, books)]
        here = {name: text for name, text in os.environ.items() if "DJANGO" not in name}
        here["PYTHONPATH"] = str(TOP / "python")
        self.log = open(folder / "serve.log", "wb")
        self.process = subprocess.Popen(
            words, stdout=subprocess.PIPE, stderr=self.log, env=here, text=True
        )
        assert self.process.stdout is not None
        line = self.process.stdout.readline()
        assert line.startswith("the desk is at "), (folder / "serve.log").read_text()
        self.address = line.removeprefix("the desk is at ").strip()
        self.root = self.address.partition("/people")[0]

    def end(self) -> None:
        """End it, as Ctrl-C does."""
        self.process.send_signal(signal.SIGINT)
        self.process.communicate(timeout=20)
        self.log.close()


@pytest.fixture(name="chromium", scope="session")
def fixture_chromium() -> Iterator[webdriver.Chrome]:
    """A browser without a screen."""
    options = Options()
    for word in WORDS:
        options.add_argument(word)
    options.set_capability("goog:loggingPrefs", {"browser": "ALL"})
    driver = webdriver.Chrome(service=Service("/usr/bin/chromedriver"), options=options)
    driver.set_window_size(1280, 900)
    driver.implicitly_wait(0)
    yield driver
    driver.quit()


@pytest.fixture(name="served", scope="session")
def fixture_served(tmp_path_factory: pytest.TempPathFactory) -> Iterator[Served]:
    """A desk without a book."""
    served = Served(tmp_path_factory.mktemp("desk"))
    yield served
    served.end()


@pytest.fixture(name="desk")
def fixture_desk(served: Served, tmp_path: Path, chromium: webdriver.Chrome) -> Browser:
    """A browser that has the desk's key."""
    chromium.get(served.address)
    chromium.get_log("browser")
    return Browser(chromium, served.root, tmp_path)


@pytest.fixture(name="made", scope="session")
def fixture_made(tmp_path_factory: pytest.TempPathFactory) -> Path:
    """Django ready, and a book to copy."""
    site_of.begun(tmp_path_factory.mktemp("state"))
    return site_of.mill(tmp_path_factory.mktemp("made") / "mill")


@pytest.fixture(name="site")
def fixture_site(made: Path, tmp_path: Path) -> site_of.Site:
    """A person with all roles that act, in a plant with a book of its own."""
    name = "s" + secrets.token_hex(4)
    return site_of.Site(tmp_path, name, ("clerk", "engineer", "approver"), made)
