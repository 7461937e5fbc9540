"""Cells that are judged in the browser by the proved core: the server's sentences, without a request, and the server where there is no core."""

from __future__ import annotations

import json
import random
from collections.abc import Iterator
from pathlib import Path
from typing import Any

import pytest
from books import Rows, Sheets, folder
from office import site_of
from office.conftest import Served
from office.hands import Browser, Commands
from plantbal.gates import Gate
from selenium import webdriver
from selenium.webdriver.common.keys import Keys
from selenium.webdriver.support.ui import WebDriverWait

TOP = Path(__file__).resolve().parents[3]
CORE = TOP / "page" / "out" / "plantbal.wasm"
CLOSED, OPEN = "2024-04", "2024-05"
PLANT: Sheets = {
    "streams": [
        ["tag", "stream", "from", "to", "kind", "error", "unit", "density", "since", "until"],
        ["F-1", "FEED", "env", "MILL", "", "1 % or 5 t", "", "", "", ""],
        ["G-1", "GAS", "env", "MILL", "", "2 %", "m3", "800", "", ""],
        ["N-1", "NEW", "env", "MILL", "", "1 %", "", "", "2024-05-10", ""],
        ["P-1", "PRODUCT", "MILL", "SILO", "", "2 t", "", "", "", ""],
        ["", "TRUCKS", "SILO", "env", "batch", "0.1 t", "", "", "", ""],
        ["", "RAIL", "BIN", "env", "batch", "0.1 t", "", "", "2024-05-10", ""],
        ["", "LEAK", "MILL", "env", "plain", "", "", "", "", ""],
    ],
    "tanks": [
        ["tank", "error", "density", "since", "until"],
        ["SILO", "3 mm", "1250", "", ""],
        ["BIN", "3 mm", "", "2024-05-10", ""],
    ],
    "straps": [
        ["tank", "level", "volume"],
        ["SILO", "10", "2"],
        ["SILO", "20000", "4710"],
        ["BIN", "0", "0"],
        ["BIN", "900", "30"],
    ],
}
DIPS = {("SILO", "2024-03-31"), ("SILO", "2024-04-30"), ("SILO", "2024-05-31")}
TEXTS = """121x|1218.5|12,188.5|12.188,5|1218,5|0|-5|1e3|1e999|12 188|#REF!|5 t/h|100 bbl|12 m3|12 kt|5 wmt|5 tons|+3|3t|it's|
10000001|20000000|1e-7|n/a|12 L|0.0000005|−5|½|500|25000|-1|1.25|1.5 m|2 cm|
6.766|6,766|6.7664|0.408|0,408|1.234E+03|1,234E+03|0 408|12 ML|12 mL""".replace(
    "\n", ""
).split(
    "|"
)
DENSITIES = ("862", "0.862 t/m3", "0,862 t/m3", "", "-", "5", "x", "30 t/m3")
DAYS = """2024-05-03|3.5.2024|5/3/2024|03.05.24|45415|2024-05-32|12 May 2024|12. Mai 2024|15/04/2024|2024-05-03 06:00|2024-05-03 0:00|
x||1850-05-05|2300-01-01|2024-04-30|2023-03-01|2024-05-09|1/2/3""".replace(
    "\n", ""
).split(
    "|"
)
IDS = ("truck-05", "truck-04", "gone", "T1", "ä", "x" * 33, "a b", "", "_", "T-2")
# What has to be among the sentences: each kind of refusal, and each cause of a text that can't be read.
KINDS = (
    "ID is 'a b'",
    "ID is empty",
    "GRAMS is '20000000000000'",
    "FIRST is '1850-05-05'",
    "the id truck-05 is that of a transfer of TRUCKS",
    "the id gone is that of a struck transfer of TRUCKS",
    "its first day is after its last",
    "LEAK is a plain stream",
    "it touches period 2024-04, which is closed",
    "it has 367 days",
    "NEW isn't in service on 2024-05-0",
    "RAIL isn't in service on 2024-05-03",
    "BIN isn't in service on 2024-04-30",
    "MM is 25000, and the table of SILO goes from 10 to 20000",
    "there is no density",
    "isn't a number",
    "has a decimal comma, and the workbook is read as en_US",
    "the formula of this cell fails",
    "not a rate",
    "a reading of 0 has no error in percent",
    "the level 1.25 has decimals and no unit",
    "DENSITY is '30000000'",
    "isn't a unit",
    "isn't a day",
    "has a time of the day",
    "has no tickets",
    "there is no stream or tank NOPE",
    "below 0",
    "of the median of its other days",
)
# Judges cells here and asks the server: the answers of both.
BOTH = """
const [at, cells, done] = [arguments[0], arguments[1], arguments[arguments.length - 1]];
const form = document.querySelector('form[data-grid]'), {script, wasm, worker} = form.dataset;
(async () => {
  const {Judge} = await import('/static/office/judging/judge.js');
  const judge = await Judge.open({rules: at.rules, script, wasm, worker});
  const here = [], there = [];
  for (const cell of cells) here.push(await judge.judge(cell));
  for (let from = 0; from < cells.length; from += 400) {
    const body = new FormData();
    body.append('cells', JSON.stringify(cells.slice(from, from + 400).map(({was, ...cell}) => cell)));
    const headers = {'X-CSRFToken': form.querySelector('[name=csrfmiddlewaretoken]').value};
    there.push(...(await (await fetch(at.judge, {method: 'POST', body, headers})).json()).cells);
  }
  done([here, there]);
})().catch(fault => done(String(fault && fault.stack || fault)));
"""
ASKED = "return performance.getEntriesByType('resource').map(each => each.name)"


@pytest.fixture(name="core", scope="session")
def fixture_core() -> None:
    """The core for browsers: .ci/office fails without it, and a checkout needn't have built it."""
    if not CORE.exists():
        pytest.skip("there is no page/out/plantbal.wasm: make page builds it")


def month(name: str, days: range, ticket: str) -> Sheets:
    """Readings of some days of a month, its dips, and tickets."""
    eve, end = {CLOSED: ("2024-03-31", "2024-04-30"), OPEN: ("2024-04-30", "2024-05-31")}[name]
    rows: Rows = [["day", "F-1", "G-1", "P-1"]]
    rows += [[f"{name}-{day:02}", str(1200 + day), "1500", "2400"] for day in days]
    tickets = [["id", "stream", "first", "amount"], [ticket, "TRUCKS", f"{name}-01", "800"]]
    tickets += [["gone", "TRUCKS", f"{name}-02", "5"]] if name == CLOSED else []
    dips = [["tank", "day", "level"], ["SILO", end, "9500"]]
    dips += [["SILO", eve, "8000"]] if name == CLOSED else []
    periods = [["name", "first", "last"], [name, f"{name}-01", end]]
    return {"readings": rows, "tickets": tickets, "dips": dips, "periods": periods}


@pytest.fixture(name="kept", scope="module")
def fixture_kept(tmp_path_factory: pytest.TempPathFactory) -> Path:
    """A book with a month that is closed, an open one, a ticket that was struck, and a meter of May."""
    room = tmp_path_factory.mktemp("kept")
    hand = Commands(room / "judged")
    hand.begin("2024", folder(room / "plant", PLANT))
    hand.add(folder(room / CLOSED, month(CLOSED, range(1, 5), "truck-04")))
    hand._call("strike", "gone", "--why", "it was another day's")
    hand.report(CLOSED)
    hand.close(CLOSED, {gate.value: "as it is" for gate in Gate})
    hand.add(folder(room / OPEN, month(OPEN, range(1, 7), "truck-05")))
    return hand.book


@pytest.fixture(name="own", scope="module")
def fixture_own(
    kept: Path, core: None, tmp_path_factory: pytest.TempPathFactory
) -> Iterator[Served]:
    """A desk with that book."""
    served = Served(tmp_path_factory.mktemp("own"), kept)
    yield served
    served.end()


@pytest.fixture(name="grid")
def fixture_grid(own: Served, tmp_path: Path, chromium: webdriver.Chrome) -> Browser:
    """A browser with the key of that desk."""
    chromium.get(own.address)
    chromium.get_log("browser")
    desk = Browser(chromium, own.root, tmp_path)
    desk.plant = "judged"
    return desk


def cells_of(kind: str, name: str) -> list[dict[str, Any]]:
    """Cells of a grid that are typed in all ways."""
    draw = random.Random(f"{kind} {name}")
    if kind == "readings":
        found = [
            {"name": tag, "day": f"{name}-{draw.randint(1, 30):02}", "amount": text}
            for tag in ("F-1", "G-1", "N-1", "PRODUCT")
            for text in TEXTS
        ]
        found += [{"name": "NOPE", "day": f"{name}-01", "amount": "5"}]
        there = {
            (tag, f"{month}-{day:02}")
            for tag in ("F-1", "G-1", "PRODUCT")
            for month, last in ((CLOSED, 4), (OPEN, 6))
            for day in range(1, last + 1)
        }
        return [each | {"was": (each["name"], each["day"]) in there} for each in found]
    if kind == "dips":
        days = {
            CLOSED: ("2024-03-31", "2024-04-10"),
            OPEN: ("2024-04-30", "2024-05-31", "2024-05-10"),
        }
        rows = [
            {"name": tank, "day": draw.choice(days[name]), "level": text, "density": dense}
            for tank in ("SILO", "BIN")
            for text in TEXTS
            for dense in draw.sample(DENSITIES, 2)
        ]
        sure = (("SILO", "25000", "862"), ("SILO", "500", "30 t/m3"), ("BIN", "500", "862"))
        rows += [
            {"name": tank, "day": days[name][0], "level": level, "density": dense}
            for tank, level, dense in sure
        ]
        return [each | {"was": (each["name"], each["day"]) in DIPS} for each in rows]
    units = ["", "", "", "t", "kg", "foo", "tons", "wmt", "t/h", "bbl"]
    streams = ("TRUCKS", "TRUCKS", "RAIL", "LEAK", "FEED", "SILO", "NOPE", "")
    rows = [
        {
            "id": draw.choice(IDS),
            "stream": draw.choice(streams),
            "first": draw.choice(DAYS),
            "last": draw.choice(["", draw.choice(DAYS)]),
            "amount": draw.choice(["12"] * 8 + TEXTS),
            "unit": draw.choice(units),
            "error": "",
        }
        for _ in range(360)
    ]
    plain = {"amount": "12", "unit": "", "error": "", "last": ""}
    sure = ((IDS[0], "TRUCKS"), (IDS[2], "TRUCKS"), ("T3", "RAIL"), ("T4", "LEAK"))
    rows += [plain | {"id": i, "stream": s, "first": f"{OPEN}-03"} for i, s in sure]
    rows.append(
        plain | {"id": "T4", "stream": "TRUCKS", "first": "2024-05-03", "last": "2025-05-04"}
    )
    return rows


@pytest.mark.parametrize("language", ["en", "de"])
def test_same_sentences(grid: Browser, language: str) -> None:
    """Whatever is typed, the browser says what the server says: level, sentence, mass and volume."""
    grid.driver.set_script_timeout(120)
    grid.open(f"enter/grid/{OPEN}/readings")
    grid.click(f".languages button[value='{language}']")
    seen: set[str] = set()
    for kind, name in (
        ("readings", OPEN),
        ("readings", CLOSED),
        ("dips", OPEN),
        ("dips", CLOSED),
        ("tickets", OPEN),
    ):
        at = {
            "rules": f"/p/judged/enter/rules/{name}/{kind}",
            "judge": f"/p/judged/enter/judge/{name}",
        }
        cells = cells_of(kind, name)
        answers = grid.driver.execute_async_script(BOTH, at, cells)
        assert not isinstance(answers, str), answers
        for cell, here, there in zip(cells, *answers, strict=True):
            assert here == there, (kind, name, cell)
            seen.add(there["said"])
    lacking = [kind for kind in KINDS if not any(kind in said for said in seen)]
    assert language != "en" or not lacking, sorted(seen)
    grid.click(".languages button[value='en']")
    assert grid.complaints() == []


def opened(desk: Browser, kind: str) -> str:
    """Open a grid, and return whether it judges by itself: yes or no."""
    desk.open(f"enter/grid/{OPEN}/{kind}")
    form = "form[data-grid]"
    WebDriverWait(desk.driver, 30).until(lambda _: desk.one(form).get_attribute("data-here"))
    return desk.one(form).get_attribute("data-here") or ""


def typed(desk: Browser, css: str, text: str) -> str:
    """Type into a cell, and return what is said of it."""
    desk.one(css).click()
    desk.one(css).send_keys(text, Keys.ENTER)
    WebDriverWait(desk.driver, 30).until(lambda _: desk.one(css).get_attribute("title"))
    return desk.one(css).get_attribute("title") or ""


CELL = f"td[data-name='F-1'][data-day='{OPEN}-20']"


def test_no_request(grid: Browser) -> None:
    """A wrong cell is told without any request, and though the server doesn't answer at all."""
    assert opened(grid, "readings") == "yes"
    before = grid.driver.execute_script(ASKED)
    words = {"offline": True, "latency": 0, "downloadThroughput": 0, "uploadThroughput": 0}
    grid.driver.execute_cdp_cmd("Network.enable", {})
    grid.driver.execute_cdp_cmd("Network.emulateNetworkConditions", words)
    try:
        assert "'121x' isn't a number" in typed(grid, CELL, "121x")
        assert "of the median of its other days" in typed(grid, CELL, "12")
        assert "GRAMS is '20000000000000'" in typed(grid, CELL, "20000000")
        assert grid.driver.execute_script(ASKED) == before
    finally:
        words = words | {"offline": False, "downloadThroughput": -1, "uploadThroughput": -1}
        grid.driver.execute_cdp_cmd("Network.emulateNetworkConditions", words)
    assert grid.complaints() == []


@pytest.mark.parametrize("lacks", ["WebAssembly", "the core"])
def test_without_a_core(grid: Browser, lacks: str) -> None:
    """Where the browser has no WebAssembly, or doesn't get the core, the server says it."""
    driver = grid.driver
    driver.execute_cdp_cmd("Network.enable", {})
    if lacks == "WebAssembly":
        source = {"source": "delete globalThis.WebAssembly"}
        made = driver.execute_cdp_cmd("Page.addScriptToEvaluateOnNewDocument", source)
    else:
        driver.execute_cdp_cmd("Network.setBlockedURLs", {"urls": ["*plantbal.wasm"]})
    try:
        assert opened(grid, "readings") == "no"
        assert "'121x' isn't a number" in typed(grid, CELL, "121x")
        assert any("/enter/judge/" in each for each in driver.execute_script(ASKED))
    finally:
        if lacks == "WebAssembly":
            driver.execute_cdp_cmd("Page.removeScriptToEvaluateOnNewDocument", made)
        driver.execute_cdp_cmd("Network.setBlockedURLs", {"urls": []})
        grid.complaints()


# ---- what the server gives


def test_policy(site: site_of.Site, monkeypatch: pytest.MonkeyPatch) -> None:
    """Only a grid that is judged in the browser may compile the core; without a core it asks the server."""
    from plantbal_office.enter import grid

    files = {"wasm": "/static/a", "worker": "/static/b", "script": "/static/c"}
    for found, kinds in ((files, ("readings", "dips", "tickets")), (None, ())):
        monkeypatch.setattr(grid, "core_files", lambda found=found: found)
        for kind in ("readings", "dips", "tickets", "assays", "estimates"):
            answer = site.get(f"enter/grid/2024-04/{kind}")
            is_here = kind in kinds
            assert (b"data-rules=" in answer.content) == is_here, kind
            policy = answer["Content-Security-Policy"]
            assert ("'wasm-unsafe-eval'" in policy) == is_here and "'unsafe" not in policy
    assert "unsafe" not in site.get("enter/")["Content-Security-Policy"]


def test_few_rows(site: site_of.Site) -> None:
    """A page gets no row of a fact, and the rows don't grow with the readings."""
    for kind in ("readings", "dips", "tickets"):
        rules = site.get(f"enter/rules/2024-04/{kind}").json()["rules"]
        kinds = {row.partition(",")[0] for row in rules["rows"].splitlines()}
        assert kinds <= {
            "version",
            "boundary",
            "unit",
            "tank",
            "stream",
            "strap",
            "period",
            "close",
        }
        assert len(json.dumps(rules)) < 20_000, kind
    for kind in ("assays", "estimates"):
        assert site.get(f"enter/rules/2024-04/{kind}").json() == {"rules": None}


def test_many_facts(site: site_of.Site, monkeypatch: pytest.MonkeyPatch) -> None:
    """A year with almost as many facts as there may be, or very many tickets, is judged by the server."""
    from plantbal_office.enter import rules

    monkeypatch.setattr(rules, "MOST_TICKETS", 0)
    assert site.get("enter/rules/2024-04/tickets").json() == {"rules": None}
    assert site.get("enter/rules/2024-04/readings").json()["rules"]
    monkeypatch.setattr(rules, "MOST_CELLS", 200_000)
    assert site.get("enter/rules/2024-04/readings").json() == {"rules": None}
