"""Hands that keep a book: one in the browser and one by commands, with the same calls.

A story is told once, to each of them; then both books are held against one another.
"""

from __future__ import annotations

import csv
import io
import re
import time
from collections.abc import Mapping
from pathlib import Path

from office.by_commands import call
from selenium import webdriver
from selenium.common.exceptions import WebDriverException
from selenium.webdriver.common.by import By
from selenium.webdriver.common.keys import Keys
from selenium.webdriver.remote.webelement import WebElement
from selenium.webdriver.support.ui import Select, WebDriverWait

PATIENCE = 60


def files_of(workbook: Path) -> list[Path]:
    """The files of a workbook: itself, or the CSV files of a folder."""
    return sorted(workbook.glob("*.csv")) if workbook.is_dir() else [workbook]


class Commands:
    """Keeps a book by commands."""

    def __init__(self, book: Path) -> None:
        self.book = book

    def _call(self, *words: object, allowed: tuple[int, ...] = (0,)) -> str:
        return call(*words, "--book", self.book, allowed=allowed)

    def begin(self, year: str, workbook: Path, locale: str = "") -> None:
        self._call("new", year, workbook, "--locale", locale)

    def begin_mapped(self, year: str, workbook: Path) -> None:
        """Begin with a workbook as the plant has it, and add what else is in it."""
        mapping = self.book.parent / "mapping.toml"
        self.book.parent.mkdir(parents=True, exist_ok=True)
        call(workbook, "--out", mapping, command="map")
        self._call("new", year, workbook, "--mapping", mapping)
        self._call("add", workbook)

    def type(self, period: str, cells: Mapping[tuple[str, str], str], why: str) -> None:
        """Add a workbook with all readings of a month, of which some are others or none."""
        folder = self.book.parent / f"typed_{period}_readings"
        folder.mkdir()
        table = readings_of(self.book, period) | dict(cells)
        names = sorted({name for name, _ in table})
        days = sorted({day for _, day in table})
        rows = [[day, *(table.get((name, day), "") for name in names)] for day in days]
        with open(folder / "readings.csv", "w", encoding="utf-8", newline="") as out:
            csv.writer(out).writerows([["day", *names], *rows])
        self._call("add", folder, "--locale", "en_US", "--strike", "--why", why)

    def add(self, workbook: Path, locale: str = "", why: str = "", strike: bool = False) -> None:
        words = ["--why", why] if why else []
        words += ["--strike"] if strike else []
        self._call("add", workbook, "--locale", locale, *words)

    def report(self, period: str, eliminate: int | None = None) -> None:
        words = [] if eliminate is None else ["--eliminate", eliminate]
        # the status is 1 if the report has to be looked at
        self._call("report", period, *words, allowed=(0, 1))

    def amend(self, name: str, day: str, amount: str, why: str) -> None:
        self._call("amend", name, day, amount, "--why", why)

    def amend_ticket(self, identity: str, amount: str, why: str) -> None:
        self._call("amend", identity, amount, "--why", why)

    def close(self, period: str, reasons: Mapping[str, str] | None = None) -> None:
        words = [f"{gate}={why}" for gate, why in (reasons or {}).items()]
        self._call("close", period, *[w for word in words for w in ("--anyway", word)])

    def next(self, year: str, workbook: Path | None = None, locale: str = "") -> None:
        words = ["--plant", workbook, "--locale", locale] if workbook is not None else []
        self._call("next", year, *words)

    def quiet(self, code: str, names: str, why: str, off: bool = False) -> None:
        self._call("quiet", *(["--off"] if off else []), code, *names.split(), "--why", why)

    def window(self, first: str, last: str) -> None:
        self._call("window", first, last)

    def post(self, period: str, reasons: Mapping[str, str] | None = None) -> None:
        words = [f"{gate}={why}" for gate, why in (reasons or {}).items()]
        self._call("posted", period, *[w for word in words for w in ("--anyway", word)])


class Browser:
    """Keeps a book in the browser."""

    def __init__(self, driver: webdriver.Chrome, root: str, folder: Path) -> None:
        self.driver = driver
        self.root = root
        self.folder = folder
        self.plant = ""
        self.book = folder
        self.months: dict[str, str] = {}

    # ---- pages

    def open(self, path: str) -> None:
        """Open a page of the plant, or of the desk if it begins with a slash."""
        self.driver.get(self.root + (path if path.startswith("/") else f"/p/{self.plant}/{path}"))

    def one(self, css: str) -> WebElement:
        """The first element of a selector."""
        return self.driver.find_element(By.CSS_SELECTOR, css)

    def all(self, css: str) -> list[WebElement]:
        """All elements of a selector."""
        return self.driver.find_elements(By.CSS_SELECTOR, css)

    def has(self, css: str) -> bool:
        """Whether there is one."""
        return bool(self.all(css))

    def text(self, css: str = "main") -> str:
        """The text of an element."""
        return self.one(css).text

    def click(self, css: str) -> None:
        """Click on an element that leads to another page, and wait for it."""
        self._left(lambda: self.one(css).click())

    def link(self, text: str) -> None:
        """Follow a link by its text."""
        self._left(lambda: self.driver.find_element(By.LINK_TEXT, text).click())

    def press(self, text: str, within: str = "main") -> None:
        """Press a button by its text."""
        buttons = [each for each in self.all(f"{within} button") if each.text == text]
        assert buttons, f"no button {text!r} in {self.driver.current_url}: {self.text()[:2000]}"
        self._left(buttons[0].click)

    def _left(self, act: object) -> None:
        assert callable(act)
        before = self.one("html")
        act()

        def is_gone(_driver: object) -> bool:
            try:
                before.is_enabled()
                return False
            except WebDriverException:  # it is stale, or the browser has lost it
                return True

        WebDriverWait(self.driver, PATIENCE).until(is_gone)
        until = lambda d: d.execute_script("return document.readyState") == "complete"  # noqa: E731
        WebDriverWait(self.driver, PATIENCE).until(until)

    def fill(self, name: str, text: str) -> None:
        """Type into a field."""
        field = self.one(f"main [name='{name}']")
        if field.tag_name == "select":
            Select(field).select_by_value(text)
            return
        field.clear()
        field.send_keys(text)

    def said(self) -> str:
        """What the desk says above the page."""
        return "\n".join(each.text for each in self.all(".messages li"))

    def complaints(self) -> list[str]:
        """What the browser complains of: blocked by the policy, or a script that fails."""
        return [each["message"] for each in self.driver.get_log("browser")]

    def drop(self, workbook: Path) -> None:
        """Choose the files of a workbook."""
        files = files_of(workbook)
        self.one("#workbook").send_keys("\n".join(map(str, files)))
        if workbook.is_dir():
            self.fill("called", workbook.name)

    # ---- the same calls

    def begin(self, year: str, workbook: Path, locale: str = "") -> None:
        self.open("/begin")
        self.fill("name", self.book.name)
        self.fill("folder", str(self.book))
        self.fill("year", year)
        self.fill("locale", locale)
        self.drop(workbook)
        self.press("Begin")
        self.plant = self.book.name
        assert self.driver.current_url.endswith(f"/p/{self.plant}/"), self.text()

    def begin_mapped(self, year: str, workbook: Path) -> None:
        self.open("/begin")
        self.fill("name", self.book.name)
        self.fill("folder", str(self.book))
        self.fill("year", year)
        self.drop(workbook)
        self.press("Begin")
        assert "how it is read" in self.text(), self.text()
        self.press("Begin the book this way")
        self.plant = self.book.name
        assert "what it would do" in self.text(), self.text()
        self.press("Book it")

    def type(self, period: str, cells: Mapping[tuple[str, str], str], why: str) -> None:
        self.open(f"enter/grid/{period}/readings")
        for (name, day), text in cells.items():
            cell = self.one(f"td[data-name='{name}'][data-day='{day}']")
            cell.click()
            cell.send_keys(text or Keys.DELETE, *([Keys.ENTER] if text else []))
        self.press("See what it would do")
        self.fill("why", why)
        self.press("Book it")

    def look_at(self, workbook: Path, locale: str = "") -> None:
        """Drop a workbook, and look at what it would do."""
        self.open("enter/")
        self.drop(workbook)
        self.fill("locale", locale)
        self.press("Preview")

    def add(self, workbook: Path, locale: str = "", why: str = "", strike: bool = False) -> None:
        self.look_at(workbook, locale)
        if strike:
            self.link("Preview with them struck")
        if why:
            self.fill("why", why)
        self.press("Book it")
        assert "/enter/" not in self.driver.current_url, self.text()

    def report(self, period: str, eliminate: int | None = None) -> None:
        self.open(f"look/{period}/")
        if eliminate is not None:
            self.fill("eliminate", str(eliminate))
        self.press("Make the report")
        assert self.has(".statement"), self.text()

    def amend(self, name: str, day: str, amount: str, why: str) -> None:
        self.open(f"look/{self.month_of(day)}/stream/{name}")
        self.link(f"{name}_{day}")
        self.link("Amend")
        self.fill("amount", amount)
        self.fill("why", why)
        self.press("See what it would do")
        assert self.has(".effect"), self.text()
        self.press("Book it")

    def amend_ticket(self, year: str, identity: str, amount: str, why: str, period: str) -> None:
        """Amend a ticket, from its stream."""
        self.open(f"look/{period}/stream/{identity.rpartition('-')[2]}")
        self.link(identity)
        self.link("Amend")
        self.fill("amount", amount)
        self.fill("why", why)
        self.press("See what it would do")
        self.press("Book it")
        assert f"/fact/{year}/" in self.driver.current_url, self.text()

    def gates_of(self, period: str, page: str = "correct/{}/close") -> dict[str, str]:
        """A reason for each gate that a close, or another page with a decision, asks for."""
        self.open(page.format(period))
        words = [each.get_attribute("name") or "" for each in self.all("main [name^=why-]")]
        return {word.removeprefix("why-"): "looked at, and right" for word in words}

    def month_of(self, day: str) -> str:
        """The month of a day: its name, or that of the story."""
        return self.months.get(day, day[:7])

    def close(self, period: str, reasons: Mapping[str, str] | None = None) -> None:
        self.open(f"correct/{period}/close")
        for gate, why in (reasons or {}).items():
            self.fill(f"why-{gate}", why)
        self.press("Close the month")
        assert "closed" in self.said(), self.text()

    def next(self, year: str, workbook: Path | None = None, locale: str = "") -> None:
        self.open("next")
        self.fill("year", year)
        self.fill("locale", locale)
        if workbook is not None:
            self.drop(workbook)
        self.press("Begin")
        assert year in self.said(), self.text()

    def quiet(self, code: str, names: str, why: str, off: bool = False) -> None:
        self.open("correct/quiet")
        self.fill("code", code)
        self.fill("names", names)
        self.fill("why", why)
        self.press("Report it again" if off else "Quiet the rule")

    def window(self, first: str, last: str) -> None:
        self.open("ask/")
        self.fill("first", first)
        self.fill("last", last)
        self.press("Reconcile")

    def post(self, period: str, reasons: Mapping[str, str] | None = None) -> None:
        self.open(f"ask/{period}/difference")
        for gate, why in (reasons or {}).items():
            self.fill(f"why-{gate}", why)
        self.press("Hand over and record")
        assert f"{period} is posted as" in self.said(), self.text()


Hand = Commands | Browser


# ---- two books held against one another


def readings_of(book: Path, period: str) -> dict[tuple[str, str], str]:
    """The readings of a month by tag and day, as a workbook may have them."""
    from plantbal import Book

    flows = {flow.name: flow for flow in next(iter(Book(book).contents().flows.values()))}
    found = {}
    for each in Book(book).facts(period).facts:
        if each.fact.kind == "reading" and not each.struck:
            meter = flows[each.fact.place].meter
            label = (meter.tag if meter is not None else "") or each.fact.place
            found[label, str(each.fact.first)] = each.fact.said().replace(",", "")
    return found


def bytes_of(book: Path) -> dict[str, bytes]:
    """The files of a book but for its journal and what hangs on times."""
    found = {}
    for path in sorted(book.rglob("*.csv")):
        name = str(path.relative_to(book))
        if name != "journal.csv":
            found[name] = path.read_bytes()
    return found


def lines_of(book: Path) -> list[list[str]]:
    """The lines of a journal without times and what hangs on them."""
    text = (book / "journal.csv").read_text(encoding="utf-8")
    rows = list(csv.reader(io.StringIO(text)))
    return [[row[0], *row[2:10], _files(row[10])] for row in rows[1:]]


def _files(cell: str) -> str:
    """The files of a line; of a posting, which has its time in it, not the digest."""
    return re.sub(r"(posted/\S+ \S+ \S+) \S+", r"\1", cell)


def settled(seconds: float = 0.05) -> None:
    """Let a script act."""
    time.sleep(seconds)
