"""Books of a refinery and a concentrator: accounts over months, a reopened month, what is posted."""

from __future__ import annotations

import csv
import datetime
import io
import random
import re
from collections.abc import Callable, Iterable
from decimal import Decimal
from pathlib import Path
from typing import Any

import months
import openpyxl
import pytest
from books import Sheets, folder, typed
from conftest import Desk, Said
from dense import Dense
from hypothesis import HealthCheck, given, settings
from hypothesis import strategies as some
from months import (
    INTO_SERVICE,
    OUT_OF_SERVICE,
    PRODUCTS,
    Refinery,
    concentrator_months,
    concentrator_plant,
    tanks_of,
    write,
)

from plantbal.accounts.account import MonthAccount, Rolled
from plantbal.accounts.entries import AccountLine
from plantbal.accounts.stock import Opened, Why
from plantbal.book.accounting import rolled_of
from plantbal.book.store import Store

MONTHS = ["2024-01", "2024-02", "2024-03"]
THIRD_QUARTER = ["2024-07", "2024-08", "2024-09"]
LATE = [
    ["id", "stream", "first", "last", "amount", "error"],
    ["2024-01-608", "LIFT_fuel_oil1", "2024-01-30", "2024-01-30", "6.77 t", "0.2 t"],
]


def rolled(place: Path) -> Rolled:
    book = Store(place)
    with book.opened(reading=True):
        return rolled_of(book)


def assert_sums_to_0(found: Rolled) -> list[MonthAccount]:
    """From the first opening to the last closing nothing is left over, to the gram."""
    accounts = [found.account(month.name) for month in found.months]
    before: dict[str, int] | None = None
    for account in accounts:
        assert [table.rest for table in account.tables] == [0] * len(account.tables)
        stocks = {each.stock.tank: each.stock for each in account.tanks}
        opening = {tank: stock.opening for tank, stock in stocks.items() if stock.opening}
        assert before is None or opening == {t: g for t, g in before.items() if g}
        before = {tank: stock.closing for tank, stock in stocks.items()}
        assert sum(table.closing for table in account.groups) == account.plant.closing
        assert sum(table.closing for table in account.owners) in (0, account.plant.closing)
    moved = [
        amount.grams
        for account in accounts
        for line, amount in account.plant.lines.items()
        if line.value not in ("opening stock", "closing stock")
    ]
    first = accounts[0].plant.lines[next(iter(accounts[0].plant.lines))].grams
    assert first + sum(moved) == accounts[-1].plant.closing
    return accounts


def booked(place: Path, plant: Sheets, months: Iterable[tuple[str, Sheets]]) -> Path:
    """A book of closed months."""
    words = ["--book", place, "--locale", "en"]
    assert typed("new", "2024", write(place.parent, "plant", plant), *words) == 0
    for month, sheets in months:
        assert typed("add", write(place.parent, month, sheets), *words) == 0
        assert typed("close", month, "--book", place) == 0
    return place


@pytest.fixture(name="refinery", scope="module")
def fixture_refinery(tmp_path_factory: pytest.TempPathFactory) -> Path:
    """A book of three closed months."""
    plant, place = Refinery(), tmp_path_factory.mktemp("refinery") / "book"
    return booked(place, plant.plant(), ((month, plant.month(month)) for month in MONTHS))


@pytest.fixture(name="concentrator", scope="module")
def fixture_concentrator(tmp_path_factory: pytest.TempPathFactory) -> Path:
    """A book of three closed months."""
    place = tmp_path_factory.mktemp("concentrator") / "book"
    months = zip(THIRD_QUARTER, concentrator_months(THIRD_QUARTER))
    return booked(place, concentrator_plant(), months)


def copy_of(book: Path, room: Path) -> Path:
    import shutil

    shutil.copytree(book, room / "book")
    return room / "book"


def test_refinery_over_three_months(refinery: Path) -> None:
    accounts = assert_sums_to_0(rolled(refinery))
    assert [len(account.tanks) for account in accounts] == [24, 25, 25]
    why = {each.stock.tank: each.stock.why for each in accounts[2].tanks}
    left = {each.stock.tank: each.stock for each in accounts[2].tanks}[OUT_OF_SERVICE]
    assert (why[OUT_OF_SERVICE], left.closing, left.opening) == (Why.ENDS, 0, -left.adjustment)
    came = {each.stock.tank: each.stock for each in accounts[1].tanks}[INTO_SERVICE]
    assert (came.opening, came.adjustment, came.opened.name) == (0, 0, "EMPTY")
    for each in accounts[1].tanks:  # an adjustment is within what its ± says
        if each.adjustment and each.stock.why is Why.DIP:
            assert abs(each.stock.adjustment) < 5 * each.adjustment
    assert {table.name for table in accounts[0].owners} == {"Alpha", "Beta"}


def test_over_a_close_of_the_year(tmp_path: Path, monkeypatch: pytest.MonkeyPatch) -> None:
    """December has an emptied tank and a new one, and is reopened after January opened on it."""
    for name, day in (("LEAVES", 20), ("COMES", 10)):
        monkeypatch.setattr(months, name, datetime.date(2023, 12, day))
    plant, place = Refinery(), tmp_path / "book"
    booked(place, plant.plant(), [("2023-12", plant.month("2023-12"))])
    assert typed("next", "2024", "--book", place) == 0
    words = ["--book", place, "--locale", "en"]
    assert typed("add", write(tmp_path, "2024-01", plant.month("2024-01")), *words) == 0
    assert typed("close", "2024-01", "--book", place) == 0
    before = assert_sums_to_0(rolled(place))
    late = [LATE[0], ["608", "LIFT_fuel_oil1", "2023-12-30", "2023-12-30", "6.77 t", "0.2 t"]]
    assert typed("add", folder(tmp_path / "late", {"tickets": late}), *words) == 0
    assert typed("report", "2023-12", "--book", place) == 0
    after = assert_sums_to_0(rolled(place))
    stocks = {each.stock.tank: each.stock for each in after[1].tanks}
    left = stocks[OUT_OF_SERVICE]
    assert (left.why, left.closing, left.adjustment) == (Why.ENDS, 0, -left.opening)
    assert stocks[INTO_SERVICE].opened is Opened.BOOKED and stocks[INTO_SERVICE].opening
    opens = [account[1].plant.lines[AccountLine.OPENING].grams for account in (before, after)]
    assert opens == [account[0].plant.closing for account in (before, after)]
    assert opens[0] != opens[1] and before[1].plant.closing == after[1].plant.closing


def test_concentrator_over_three_months(concentrator: Path) -> None:
    accounts = assert_sums_to_0(rolled(concentrator))
    assert {table.name for table in accounts[2].groups} == {"ore", "concentrate", "tailings"}
    assert {table.unit for table in accounts[2].products} == {"dmt"}


# ---- the ± of totals


def refinery_model(book: Path) -> Dense:
    """A dip is good to 3 mm of 2 m3 each, at the density of its product."""
    plant = Refinery()
    names = [(product, tank) for product in PRODUCTS for tank in tanks_of(product)]
    errors = {tank: 3 * 2 * PRODUCTS[product][1] / 1000 for product, tank in names}
    sheets = plant.plant()
    return Dense(sheets, errors, [plant.month(month) for month in MONTHS], book / "reports")


def concentrator_model(book: Path) -> Dense:
    errors, months = {"HEAP": 2600, "STORE": 40}, concentrator_months(THIRD_QUARTER)
    return Dense(concentrator_plant(), errors, months, book / "reports")


@pytest.mark.parametrize(
    "plant, model", [("refinery", refinery_model), ("concentrator", concentrator_model)]
)
def test_deviations_over_three_months(
    plant: str, model: Callable[[Path], Dense], request: pytest.FixtureRequest
) -> None:
    """The ± of all lines, of what is unaccounted and of tanks, by one dense model of all months."""
    book = request.getfixturevalue(plant)
    dense, found = model(book), rolled(book)
    for month, (lines, closing) in zip(found.months, dense.totals()):
        account = found.account(month.name)
        pairs = [
            (amount.deviation, lines[table.level.value, table.name, line.value])
            for table in [account.plant, *account.groups, *account.products]
            for line, amount in table.lines.items()
        ]
        pairs += [
            (
                table.unaccounted.amount.deviation,
                lines[table.level.value, table.name, "unaccounted"],
            )
            for table in [account.plant, *account.groups, *account.products]
            if table.unaccounted is not None
        ]
        stocks = {each.stock.tank: each for each in account.tanks}
        pairs += [(stocks[tank].closing, row) for tank, row in closing.items()]
        assert len(pairs) > 25
        for deviation, row in pairs:
            assert deviation == pytest.approx(dense.deviation(row), rel=1e-6, abs=1)


def said_of(say: Desk, book: Path) -> Callable[..., Said]:
    return lambda *words: say("book", *words, "--book", book)


def test_reopened_month(refinery: Path, tmp_path: Path, say: Desk) -> None:
    book = copy_of(refinery, tmp_path)
    typed_ = said_of(say, book)
    nothing = typed_("difference", "2024-01")
    assert "posted and now" not in nothing.out and nothing.status == 0
    for month in MONTHS[:2]:
        assert typed_("posted", month, "--who", "anna").status == 0
    again = typed_("posted", "2024-01")
    assert (again.status, "2024-01 is already posted, as 2024-01.1-" in again.err) == (1, True)
    late = folder(tmp_path / "late", {"tickets": LATE})
    assert typed_("add", late, "--locale", "en", "--who", "paul").status == 0
    assert "changed since its report" in typed_("posted", "2024-01").err
    assert typed_("report", "2024-01").status == 0
    file, table, xlsx = (tmp_path / name for name in ("p.csv", "d.csv", "d.xlsx"))
    said = typed_("difference", "2024-01", "--postings", file, "--csv", table, "--xlsx", xlsx)
    assert "cause: 2024-01-608 (LIFT_fuel_oil1) late, 6.77 t" in said.out
    rows = list(csv.DictReader(io.StringIO(file.read_text())))
    assert rows and sum(Decimal(row["t"]) for row in rows) == 0
    assert all("2024-01-608 (LIFT_fuel_oil1) late" in row["cause"] for row in rows)
    assert all(" by paul" in row["cause"] for row in rows)
    # what one report has otherwise than the other, by the reports themselves
    changed = {row["stream or tank"]: row for row in csv.DictReader(io.StringIO(table.read_text()))}
    one, other = (
        flows_of(book / "reports" / name) for name in ("earlier/2024-01.1.csv", "2024-01.csv")
    )
    tanks = {each.stock.tank for each in rolled(book).account("2024-01").tanks}
    wanted = {name: other[name] - one[name] for name in one if other[name] != one[name]}
    for name, grams in wanted.items():
        assert Decimal(changed[name]["difference, t"].replace(",", "")) * 10**6 == grams
    assert set(changed) == set(wanted) and tanks & set(wanted)
    assert evaluated(xlsx, "postings")[-1] == 0
    # the second posting is the difference, under the same id, and only once
    posted = typed_("posted", "2024-01", "--postings", tmp_path / "q.csv", "--who", "anna")
    assert (posted.status, (tmp_path / "q.csv").read_text()) == (0, file.read_text())
    assert rows[0]["posting"] in posted.out
    assert typed_("posted", "2024-01").status == 1
    assert "have the same figures" in typed_("difference", "2024-01").out
    # February opens otherwise, and its adjustment takes that back
    february = typed_("difference", "2024-02").out
    assert "stock adjustment" in february and "the month before is booked differently" in february
    assert_sums_to_0(rolled(book))
    assert typed_("verify").status == 0


@pytest.mark.parametrize("keeps", [True, False], ids=["", "by an older version"])
def test_posted_while_open(
    tmp_path: Path, say: Desk, monkeypatch: pytest.MonkeyPatch, keeps: bool
) -> None:
    """The report that was posted is kept, and what changed since names its facts, and no sheet."""
    if not keeps:  # as books are that were written before reports of open months were kept
        monkeypatch.setattr("plantbal.book.reporting._is_posted", lambda *_: False)
    place, month = tmp_path / "book", "2024-07"
    typed_ = said_of(say, place)
    plant = write(tmp_path, "plant", concentrator_plant())
    assert typed_("new", "2024", plant, "--locale", "en").status == 0
    sheets = concentrator_months([month])[0]
    assert typed_("add", write(tmp_path, month, sheets), "--locale", "en").status == 0
    assert typed_("report", month).status == 0
    assert typed_("posted", month).status == 1  # it is open
    assert typed_("posted", month, "--anyway", "--why", "early").status == 0
    amount = ("196000 t", "--error", "900 t", "--why", "typed wrongly", "--who", "paul")
    assert typed_("amend", f"{month}-FEED", *amount).status == 0
    assert typed_("report", month).status == 0
    assert (place / f"reports/earlier/{month}.1.csv").exists() == keeps
    file = tmp_path / "p.csv"
    said = typed_("difference", month, "--postings", file).out
    assert f"cause: {month}-FEED (FEED) amended, 194,504.634 t becomes 196,000 t" in said
    rows = list(csv.DictReader(io.StringIO(file.read_text())))
    assert rows and all("by paul: typed wrongly" in row["cause"] for row in rows)


def flows_of(report: Path) -> dict[str, int]:
    """The flows of a report's stream rows, read without the package."""
    rows = [line.split(",") for line in report.read_text().splitlines()]
    return {row[1]: int(row[7]) for row in rows if row[0] == "stream"}


# ---- workbooks: a small evaluator of the formulas that they have


def evaluated(path: Path, sheet: str) -> list[float]:
    """The values of a sheet's formulas: sums, sums of rows with a number, differences."""
    book = openpyxl.load_workbook(path)
    values: dict[tuple[str, str], float] = {}

    def cell(name: str, at: str) -> float:
        value = book[name][at].value
        if isinstance(value, str) and value.startswith("="):
            if (name, at) not in values:
                values[name, at] = formula(name, value[1:])
            return values[name, at]
        return float(value or 0)

    def formula(name: str, text: str) -> float:
        text = re.sub(
            r"SUMIFS\((\w+)!\$(\w)\$2:\$\w\$(\d+),\w+!\$A\$2:\$A\$\d+,(\d+)\)",
            lambda m: repr(
                sum(
                    cell(m[1], f"{m[2]}{row}")
                    for row in range(2, int(m[3]) + 1)
                    if book[m[1]][f"A{row}"].value == int(m[4])
                )
            ),
            text,
        )
        text = re.sub(
            r"SUM\((\w)(\d+):\w(\d+)\)",
            lambda m: repr(
                sum(cell(name, f"{m[1]}{row}") for row in range(int(m[2]), int(m[3]) + 1))
            ),
            text,
        )
        text = re.sub(r"\b([A-H]\d+)\b", lambda m: repr(cell(name, m[1])), text)
        found: Any = eval(text.replace("ROUND", "round"))  # noqa: S307
        return float(found)

    return [
        cell(name, c.coordinate)
        for name in [sheet]
        for row in book[name]
        for c in row
        if isinstance(c.value, str) and c.value.startswith("=")
    ]


def owned_by(name: str, account: MonthAccount) -> float:
    """What an owner has in the end, in tonnes."""
    return next(table.closing for table in account.owners if table.name == name) / 10**6


def test_workbook_and_page(refinery: Path, tmp_path: Path, say: Desk) -> None:
    typed_ = said_of(say, refinery)
    xlsx, page = tmp_path / "a.xlsx", tmp_path / "a.html"
    assert typed_("account", "2024-02", "--xlsx", xlsx, "--page", page).status == 0
    account = rolled(refinery).account("2024-02")
    wanted = []
    for table in account.tables:
        lines = [*table.moving, *[line for line in table.lines if line.value == "closing stock"]]
        closing = 0 if "closing stock" not in {line.value for line in table.lines} else None
        for line in table.moving:
            wanted.append(table.lines[line].grams / 10**6)
            if table.unit:
                wanted.append(float(table.lines[line].sales))
        wanted += [table.closing / 10**6, 0.0]
        assert lines or closing == 0
    assert evaluated(xlsx, "account") == pytest.approx(wanted, abs=2e-6)
    assert evaluated(xlsx, "stock")[-1] == pytest.approx(account.plant.closing / 10**6)
    text = page.read_text()
    assert "Account of the period" in text and "Stock by tank" in text
    for name in ("Alpha", "Beta"):
        out = tmp_path / f"{name}.html"
        assert typed_("account", "2024-02", "--owner", name, "--page", out).status == 0
        assert f"Account of {name}" in out.read_text()
    assert typed_("account", "2024-02", "--owner", "Alpha", "--xlsx", xlsx).status == 0
    assert len(evaluated(xlsx, "account")) == 9  # each line, and the check, which is 0
    assert evaluated(xlsx, "account")[-2:] == [pytest.approx(owned_by("Alpha", account)), 0]
    stock = [cell.value for cell in openpyxl.load_workbook(xlsx)["entries"][2]]
    assert stock[2:6] == ["opening stock", "stock", None, None]  # of all products
    assert "there is no owner 'Gamma'" in typed_("account", "2024-02", "--owner", "Gamma").err


def test_statement_with_its_account(refinery: Path, tmp_path: Path, say: Desk) -> None:
    session, out, xlsx = (tmp_path / name for name in ("s.csv", "p.html", "p.xlsx"))
    book = copy_of(refinery, tmp_path)
    assert said_of(say, book)("report", "2024-02", "--session", session).status == 0
    words = ["page", book / "reports/2024-02.csv", "--session", session, "--seconds", "0"]
    assert say(*words, "--book", book, "--out", out, "--xlsx", xlsx).status == 0
    text = out.read_text()
    assert text.index("Accepted") < text.index("Account of the period") < text.index("<h3>Tanks")
    assert {"account", "entries", "stock"} <= set(openpyxl.load_workbook(xlsx).sheetnames)
    alone = say(*words)
    assert "Account of the period" not in alone.out


# ---- what is wrong with the sheet, at its cell


ROWS = [["SHIP_crude1", "receipt", "crude", "", "", "bbl", "860"]]


@pytest.mark.parametrize(
    "row, said",
    [
        (
            ["NOBODY", "", "", "", "", "", ""],
            "line 2, column 1: there is no stream or tank 'NOBODY'",
        ),
        (
            ["FLARE", "receipt, shipment", "", "", "", "", ""],
            "column 2 (kind): FLARE is both receipt and shipment",
        ),
        (["FLARE", "receipt", "", "", "", "", ""], "FLARE is no receipt: it comes from UNITS"),
        (["SHIP_crude1", "shipment", "", "", "", "", ""], "it goes to crude1, within the plant"),
        (["FEED_crude1", "production", "", "", "", "", ""], "it goes to UNITS, which isn't a tank"),
        (["crude1", "receipt", "", "", "", "", ""], "column 2 (kind): crude1 is a tank"),
        (["FLARE", "flame", "", "", "", "", ""], "'flame' isn't a kind of account"),
        (["FLARE", "", "gas", "", "", "bbl", ""], "column 6 (unit): the unit bbl has no density"),
        (["FLARE", "", "gas", "", "", "barrles", ""], "'barrles' isn't a unit"),
        (
            ["FLARE", "", "gas", "", "A 60 %; B 30 %", "", ""],
            "column 5 (owner): these shares add up to 90 %",
        ),
        (["FLARE", "", "gas", "", "A 1/3; B 1/3", "", ""], "these shares add up to 66.66666667 %"),
        (["FLARE", "", "gas", "", "A 60 %; A 40 %", "", ""], "A appears twice"),
        (["FLARE", "", "gas", "", "60 % or so", "", ""], "isn't a list of shares"),
        (
            ["SHIP_crude1", "", "", "", "by receipts", "", ""],
            "SHIP_crude1 comes in, and can't be shared",
        ),
        (["FLARE", "", "=1+1", "", "", "", ""], "a spreadsheet would compute '=1+1'"),
        (["FLARE", "", "Crude", "", "", "", ""], "'Crude' is 'crude' at"),
        (["FLARE", "", "crude", "gas", "", "", ""], "crude is in the group 'crude' at"),
        (["SHIP_crude1", "", "", "", "", "", ""], "SHIP_crude1 has two accounts"),
    ],
)
def test_bad_accounts(refinery: Path, tmp_path: Path, say: Desk, row: list[str], said: str) -> None:
    heads = ["name", "kind", "product", "group", "owner", "unit", "density"]
    rows = ROWS if "'crude'" in said or "two accounts" in said else []
    sheet = folder(tmp_path / "w", {"accounts": [heads, *([*rows, row] if rows else [row])]})
    found = say("book", "add", sheet, "--book", refinery, "--dry-run")
    assert (found.status, said in found.err) == (1, True), found.err


def test_what_is_in_no_account_is_said_at_its_cell(tmp_path: Path, say: Desk) -> None:
    sheets = concentrator_plant()
    sheets["accounts"] = [row for row in sheets["accounts"] if row[0] != "TAILS"]
    said = say(
        "book",
        "new",
        "2024",
        folder(tmp_path / "plant", sheets),
        "--locale",
        "en",
        "--book",
        tmp_path / "book",
    )
    assert "streams.csv: line 5, column 1: TAILS is in no account" in said.out


def test_accounts_are_merged(tmp_path: Path, say: Desk) -> None:
    """Rows that come later replace theirs alone, and may not contradict the others."""
    place = tmp_path / "book"
    words = ["--book", place, "--locale", "en"]
    assert typed("new", "2024", folder(tmp_path / "plant", concentrator_plant()), *words) == 0
    heads = concentrator_plant()["accounts"][0]
    one = folder(
        tmp_path / "a", {"accounts": [heads, ["TAILS", "loss", "tailings", "", "", "", ""]]}
    )
    assert "accounts.csv: 1 row, new or changed" in say("book", "add", one, *words).out
    two = folder(
        tmp_path / "b", {"accounts": [heads, ["TAILS", "loss", "ore", "rock", "", "", ""]]}
    )
    assert "would contradict itself" in say("book", "add", two, *words).err
    text = (place / "accounts.csv").read_text()
    assert "TAILS,loss,tailings,tailings,,t," in text and "MINED,receipt,ore" in text


def test_amending_a_closed_month_says_so(refinery: Path, tmp_path: Path, say: Desk) -> None:
    book = copy_of(refinery, tmp_path)
    said = said_of(say, book)(
        "amend", "2024-01-FLARE", "100 t", "--why", "typed", "--error", "30 t"
    )
    assert "2024-01 is closed" in said.out and "plantbal-desk book difference 2024-01" in said.out


# ---- random books with closings, amendments and years


@settings(max_examples=3, deadline=None, suppress_health_check=list(HealthCheck))
@given(data=some.data(), seed=some.integers(0, 2**16))
def test_random_books(
    tmp_path_factory: pytest.TempPathFactory, data: some.DataObject, seed: int
) -> None:
    rng, room = random.Random(seed), tmp_path_factory.mktemp("random")
    months = ["2023-11", "2023-12", "2024-01", "2024-02"][: data.draw(some.integers(2, 4))]
    place = room / "book"
    words = ["--book", place, "--locale", "en"]
    plant = concentrator_plant()
    owners = ["", "A", "A 60 %; B 40 %", "by receipts", "by stock"]
    for row in plant["accounts"][1:]:
        row[4] = rng.choice(owners if row[0] != "MINED" else owners[:3])
    assert typed("new", "2023", write(room, "plant", plant), *words) == 0
    for month, sheets in zip(months, concentrator_months(months, seed)):
        if month == "2024-01":
            assert typed("next", "2024", "--book", place) == 0
        assert typed("add", write(room, month, sheets), *words) == 0
        typed("report", month, "--book", place)
        if rng.random() < 0.7:
            typed("close", month, "--book", place)  # one that is rejected stays open
    for month in months:
        if rng.random() < 0.5:
            fact = f"{month}-{rng.choice(['MINED', 'FEED', 'TAILS'])}"
            amount = f"{rng.randint(150_000, 250_000)} t"
            assert (
                typed("amend", fact, amount, "--why", "typed", "--error", "900 t", "--book", place)
                == 0
            )
            typed("report", month, "--book", place)
    assert_sums_to_0(rolled(place))
