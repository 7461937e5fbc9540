"""The month's account as a library: stock that rolls forward, totals and their ±, shares."""

from __future__ import annotations

import datetime
from dataclasses import replace
from fractions import Fraction

import numpy
import pytest
from conftest import example
from hypothesis import HealthCheck, given, settings
from hypothesis import strategies as some

from plantbal.accounts.account import AccountTable, Level, MonthAccount, Rolled
from plantbal.accounts.entries import AccountLine
from plantbal.accounts.month import Basis, Gain, Month, MonthFlow
from plantbal.accounts.posting import parse_posted
from plantbal.accounts.shares import split
from plantbal.accounts.sheet import Account, AccountKind, Accounts, Ownership, SalesUnit, SplitRule
from plantbal.accounts.spread import Sum, deviations
from plantbal.accounts.stock import Opened, Why, rolled
from plantbal.accounts.trend import Unusual, unusual
from plantbal.book import journal
from plantbal.book.difference import line_of_posting
from plantbal.faults import InputFault
from plantbal.model.ledger import Ledger
from plantbal.report.blocks import last_blocks, blocks_of
from plantbal.report.parsing import read_rows

FIRST = datetime.date(2024, 11, 1)
DAY = datetime.timedelta(1)


def fixed(**parts: int) -> Ownership:
    """Shares in percent."""
    return Ownership(SplitRule.FIXED, {name: Fraction(part, 100) for name, part in parts.items()})


# ---- shares


@pytest.mark.parametrize(
    "grams, weights, wanted",
    [
        (100, {"a": 1, "b": 1, "c": 1}, {"a": 34, "b": 33, "c": 33}),
        (101, {"a": 1, "b": 1, "c": 1}, {"a": 34, "b": 34, "c": 33}),
        (-100, {"a": 1, "b": 1, "c": 1}, {"a": -34, "b": -33, "c": -33}),
        (10, {"b": Fraction(1, 3), "a": Fraction(2, 3)}, {"a": 7, "b": 3}),
        (10, {"a": Fraction(1, 4), "b": Fraction(3, 4)}, {"a": 3, "b": 7}),  # equal: by name
        (10, {"a": -5, "b": 5}, {"b": 10}),
        (7, {"a": 0}, {"": 7}),
        (7, {}, {"": 7}),
        (0, {"a": 1}, {}),
    ],
)
def test_last_gram(grams: int, weights: dict[str, Fraction | int], wanted: dict[str, int]) -> None:
    assert split(grams, weights) == wanted


@settings(deadline=None, suppress_health_check=[HealthCheck.too_slow])
@given(
    some.integers(-(10**15), 10**15), some.lists(some.fractions(0, 1), min_size=1, max_size=6)
)
def test_shares_add_up(grams: int, parts: list[Fraction]) -> None:
    weights = {f"o{at}": part for at, part in enumerate(parts)}
    found = split(grams, weights)
    assert sum(found.values()) == grams
    total = sum(parts)
    for name, number in found.items():
        if name:
            assert abs(number - grams * weights[name] / total) < 1


# ---- random books without a program


@some.composite
def books(draw: some.DrawFn) -> tuple[list[Month], Accounts]:
    """Months of a plant with a unit and tanks, whose flows balance; tanks come and go."""
    tanks = [f"T{at}" for at in range(draw(some.integers(1, 4)))]
    products = [draw(some.sampled_from(["crude", "diesel", "naphtha"])) for _ in tanks]
    rules = [
        fixed(Alpha=60, Beta=40),
        fixed(Beta=100),
        Ownership(SplitRule.BY_RECEIPTS),
        Ownership(SplitRule.BY_STOCK),
        Ownership(),
    ]
    rows = [
        Account(tank, None, product, f"g-{product[0]}", draw(some.sampled_from(rules)))
        for tank, product in zip(tanks, products)
    ]
    grams = some.integers(-(10**12), 10**13)
    months, first = [], FIRST
    for number in range(draw(some.integers(1, 5))):
        there = [tank for tank in tanks if draw(some.integers(0, 5))] or tanks[:1]
        flows, gains, unit = {}, {}, 0
        for tank in there:
            into, out = draw(grams), draw(grams)
            for name, start, end, amount in (
                (f"IN_{tank}", "env", tank, into),
                (f"OUT_{tank}", tank, "env", out),
                (f"FED_{tank}", tank, "U", feed := draw(grams)),
            ):
                flows[name] = MonthFlow(
                    name, start, end, amount, draw(some.sampled_from([None, amount]))
                )
            unit += feed
            dip = draw(some.one_of(some.none(), some.integers(0, 10**13)))
            gains[tank] = Gain(tank, into - out - feed, dip, begins=draw(some.booleans()))
        flows["GAS"] = MonthFlow("GAS", "U", "env", unit, None, Basis.REST)
        last = first + 29 * DAY
        months.append(Month(f"m{number}", first, last, flows, gains))
        first = last + draw(some.integers(1, 2)) * DAY
    rows += [
        Account(f"IN_{tank}", AccountKind.RECEIPT, "crude", "g-c", fixed(Alpha=50, Beta=50))
        for tank in tanks[:2]
    ]
    rows.append(Account("GAS", AccountKind.FLARE, "gas", "g-g", draw(some.sampled_from(rules))))
    return months, Accounts(rows)


@settings(max_examples=60, deadline=None, suppress_health_check=[HealthCheck.too_slow])
@given(books())
def test_each_account_closes(found: tuple[list[Month], Accounts]) -> None:
    months, accounts = found
    book = Rolled(months, accounts)
    before: dict[str, int] = {}
    owned: dict[str, int] = {}
    for month in months:
        account = book.account(month.name)
        for table in account.tables:
            assert table.rest == 0, (month.name, table.title)
        stocks = {each.stock.tank: each.stock for each in account.tanks}
        assert {tank: stock.opening for tank, stock in stocks.items() if stock.opening} == {
            tank: grams for tank, grams in before.items() if grams
        } or not before
        before = {tank: stock.closing for tank, stock in stocks.items() if tank in month.gains}
        for tank, gain in month.gains.items():
            if gain.opening is not None:  # the report's own closing stock stays
                assert stocks[tank].closing == gain.opening + gain.grams
        whole = account.plant.closing
        for level in (account.groups, account.products, account.owners):
            assert not level or sum(table.closing for table in level) == whole
        for line in AccountLine:
            _assert_adds_up(account.plant, account.groups, line)
        closing = {table.name: table.closing for table in account.owners}
        opening = {
            table.name: table.lines[AccountLine.OPENING].grams
            for table in account.owners
            if AccountLine.OPENING in table.lines
        }
        if owned:
            assert {k: v for k, v in opening.items() if v} == {k: v for k, v in owned.items() if v}
        owned = closing


def _assert_adds_up(plant: AccountTable, parts: list[AccountTable], line: AccountLine) -> None:
    grams = [table.lines[line].grams for table in parts if line in table.lines]
    whole = plant.lines[line].grams if line in plant.lines else 0
    assert sum(grams) == whole, line


def month(number: int, gains: list[Gain], gap: int = 0) -> Month:
    first = FIRST + 30 * number * DAY + gap * DAY
    return Month(f"m{number}", first, first + 29 * DAY, {}, {gain.tank: gain for gain in gains})


def test_why_stock_is_adjusted() -> None:
    # by hand: T1 is emptied and leaves 10 g in the books, T2 comes with 7 g, T3's dip differs
    months = [
        month(0, [Gain("T1", -90, 100), Gain("T3", 5, 50)]),
        month(1, [Gain("T2", 3, 7), Gain("T3", 1, 53)]),
        month(2, [Gain("T2", 1, 10), Gain("T3", -1, None)], gap=1),
    ]
    found = [
        {s.tank: (s.opening, s.adjustment, s.gain, s.closing, s.why) for s in each}
        for each in rolled(months)
    ]
    assert found == [
        {"T1": (100, 0, -90, 10, Why.NONE), "T3": (50, 0, 5, 55, Why.NONE)},
        {
            "T2": (0, 7, 3, 10, Why.BEGINS),
            "T3": (55, -2, 1, 54, Why.DIP),
            "T1": (10, -10, 0, 0, Why.ENDS),
        },
        {"T2": (10, 0, 1, 11, Why.NONE), "T3": (54, 0, -1, 53, Why.NONE)},
    ]
    alone = rolled(
        [month(0, [Gain("T1", 5, None, 20), Gain("T2", 5), Gain("T3", 1, 4, begins=True)])]
    )
    assert [(s.opening, s.adjustment, s.opened) for s in alone[0]] == [
        (15, 0, Opened.CLOSING_DIP),
        (0, 0, Opened.NOTHING),
        (0, 4, Opened.EMPTY),
    ]
    gap = rolled([month(0, [Gain("T", 1, 4)]), month(1, [Gain("T", 1, 9)], gap=2)])
    assert (gap[1][0].adjustment, gap[1][0].why) == (4, Why.GAP)


def test_regraded_and_direct() -> None:
    """By hand: a ship's crude into a tank of slops, fuel gas burned, naphtha shipped at once."""
    flows = [
        MonthFlow("SHIP", "env", "T", 100),
        MonthFlow("FEED", "T", "U", 60),
        MonthFlow("FUEL", "U", "env", 20),
        MonthFlow("NAPHTHA", "U", "env", 40),
        MonthFlow("LOOP", "U", "V", 5),
        MonthFlow("BACK", "V", "U", 5),
    ]
    rows = [
        Account("SHIP", AccountKind.RECEIPT, "crude", "crude"),
        Account("T", None, "slops", "slops"),
        Account("FEED", AccountKind.INTERNAL, "slops", "slops"),
        Account("FUEL", AccountKind.OWN_USE, "fuel gas", "gas"),
        Account("NAPHTHA", AccountKind.SHIPMENT, "naphtha", "light"),
    ]
    one = Month("m", FIRST, FIRST, {f.name: f for f in flows}, {"T": Gain("T", 40, 8)})
    account = Rolled([one], Accounts(rows)).account("m")
    found = {
        table.name: {line.value: amount.grams for line, amount in table.lines.items()}
        for table in account.groups
    }
    assert found == {
        "crude": {"receipts": 100, "regraded": -100},
        "slops": {"opening stock": 8, "regraded": 100, "processed": -60, "closing stock": 48},
        "gas": {"production": 20, "own use": -20},
        "light": {"production": 40, "shipments": -40},
    }
    assert {line.value: amount.grams for line, amount in account.plant.lines.items()} == {
        "opening stock": 8,
        "receipts": 100,
        "production": 60,
        "processed": -60,
        "shipments": -40,
        "own use": -20,
        "closing stock": 48,
    }


def test_sales_units() -> None:
    """By hand: 800 t at 0.8 t/m3 are 1,000 m3; a tank of another density leaves the difference."""
    unit, tank = SalesUnit("m3", Fraction(800_000)), SalesUnit("m3", Fraction(1_000_000))
    rows = [
        Account("IN", AccountKind.RECEIPT, "oil", "oil", unit=unit),
        Account("T", None, "oil", "oil", unit=tank),
    ]
    one = Month(
        "m",
        FIRST,
        FIRST,
        {"IN": MonthFlow("IN", "env", "T", 800 * 10**6)},
        {"T": Gain("T", 800 * 10**6, 0)},
    )
    table = Rolled([one], Accounts(rows)).account("m").products[0]
    assert (table.unit, table.lines[AccountLine.RECEIPTS].sales, table.expansion) == (
        "m3",
        1000,
        -200,
    )
    assert SalesUnit("bbl", Fraction(862_000)).amount(10**9) == 10**9 / (
        Fraction("0.158987294928") * 862_000
    )


# ---- what was posted


POSTED = """posting,period,name,what,from,to,product,group,grams
m.1-a,m,IN,flow,receipts,stock T,oil,oil,-5
m.1-a,m,T,closing stock,,,oil,oil,95
"""


@pytest.mark.parametrize(
    "old, new, said",
    [
        ("posting,", "posted,", "line 1: this isn't a file of what was posted"),
        (POSTED, "", "line 1: this isn't a file of what was posted"),
        ("oil,95", "oil,95\r\r", "this isn't a row of what was posted"),
        ("receipts", "rec\reipts", "this isn't a row"),
        ("oil,95", 'oil,"95', "this isn't CSV"),
        ("m.1-a,m,T", "m.2-b,m,T", "line 3: this isn't a row of what was posted"),
        ("T,closing stock,,", "IN,flow,receipts,stock T", "line 3: this isn't a row"),
        ("oil,95", "oil", "line 3: this isn't a row"),
        ("95", "", "line 3: this isn't a row"),
        ("95", "--5", "line 3: this isn't a row"),
        ("95", "9" * 5000, "line 3: this isn't a row"),
        ("95", "\u0661", "line 3: this isn't a row"),
    ],
)
def test_damaged_postings(old: str, new: str, said: str) -> None:
    assert list(parse_posted("p.csv", POSTED).state.values()) == [-5, 95]
    with pytest.raises(InputFault) as fault:
        parse_posted("p.csv", POSTED.replace(old, new, 1))
    assert said in str(fault.value)


def test_a_posting_that_the_journal_has_not() -> None:
    line = journal.JournalLine(
        1, "", "", "", journal.Act.POSTED, "m", files={"posted/m.1.csv": journal.Kept.of(b"x")}
    )
    assert line_of_posting([line], "m", 1) is line
    for period, number in (("m", 2), ("n", 1)):
        with pytest.raises(
            InputFault, match=f"posted/{period}.{number}.csv: no line of the journal"
        ):
            line_of_posting([line], period, number)


# ---- beside the months before


def receipts_of(first: str, grams: int, deviation: float | None = None) -> MonthAccount:
    """The account of a month in which a unit received so much, with a ±."""
    flows = [MonthFlow("IN", "env", "U", grams), MonthFlow("OUT", "U", "env", grams)]
    day = datetime.date.fromisoformat(first)
    one = Month(first, day, day, {flow.name: flow for flow in flows})
    account = Rolled([one], Accounts([Account("IN", AccountKind.RECEIPT, "ore", "ore")])).account(
        first
    )
    lines = dict(account.plant.lines)
    lines[AccountLine.RECEIPTS] = replace(lines[AccountLine.RECEIPTS], deviation=deviation)
    return replace(account, plant=replace(account.plant, lines=lines))


@pytest.mark.parametrize(
    "grams, deviation, wanted",
    [
        # By hand: the mean is 105,000, the standard deviation the root of 500,000,000 / 3, that is
        # 12,909.9, and a table has 5.841 as Student's 99.5 % at 3 degrees of freedom. So half of
        # the range is 5.841 * 12,909.9 * root of 1.25 = 84,307.
        (189_200, None, None),
        (189_400, None, (20_694, 189_306)),
        (20_500, None, (20_694, 189_306)),
        # Its own ± of 20,000 is more than their spread: 5.841 * 20,000 * root of 1.25 = 130,609.
        (189_400, 20_000.0, None),
        (236_000, 20_000.0, (-25_606, 235_606)),
    ],
)
def test_unusual(grams: int, deviation: float | None, wanted: tuple[int, int] | None) -> None:
    said = {"2023-11-01": 100_000, "2024-08-01": 110_000, "2024-09-01": 90_000}
    before = [receipts_of(*each) for each in {**said, "2024-10-01": 120_000}.items()]
    now = receipts_of("2024-11-01", grams, deviation)

    def beside(some: list[MonthAccount]) -> list[Unusual]:
        every = unusual(now, some)
        return [each for each in every if (each.account, each.line) == ("plant", "receipts")]

    found = beside(before)
    assert len(found) == (wanted is not None)
    for each in found:
        assert (each.now, each.mean, each.year_ago) == (grams, 105_000, 100_000)
        assert (each.low, each.high) == pytest.approx(wanted, abs=4)
    assert not beside(before[2:])  # two months have no spread to speak of
    assert {each.year_ago for each in beside(before[1:])} <= {None}


# ---- ± from the covariance


def refinery() -> Month:
    ledger = Ledger("refinery_day.csv", example("refinery_day.csv").read_bytes())
    rows = read_rows(str(example("refinery_day.out.csv")))
    seen = ledger.reported["may1"]
    return Month.of(last_blocks(blocks_of(rows))["may1"], ledger, seen)


def dense(one: Month) -> tuple[dict[str, int], numpy.ndarray, numpy.ndarray, list[tuple[str, str]]]:
    """How all flows answer to dips, bases and meters: dense least squares by a pseudo-inverse."""
    assert one.block is not None
    streams = one.block.streams
    place = {row["name"]: at for at, row in enumerate(streams)}
    nodes = sorted({end for row in streams for end in (row["from"], row["to"])} - {"env"})
    balance = numpy.zeros((len(nodes), len(streams)))
    for at, row in enumerate(streams):
        for end, sign in ((row["from"], -1), (row["to"], 1)):
            if end != "env":
                balance[nodes.index(end), at] += sign
    sources, weights = [], []
    for row in streams:
        if row["value"]:
            gain = one.gains.get(row["name"])
            own = [gain.opening_variance, gain.closing_variance] if gain else [0, 0]
            for what, v in zip(("open", "close", "own"), (*own, int(row["variance"]) - sum(own))):
                sources.append((row["name"], what))
                weights.append(float(v))
    to_value = numpy.zeros((len(streams), len(sources)))
    for at, (name, what) in enumerate(sources):
        to_value[place[name], at] = -1 if what == "open" else 1
    weight = numpy.diag(
        [1 / float(row["variance"]) * 1e12 if row["value"] else 0 for row in streams]
    )
    n, m = len(streams), len(nodes)
    kkt = numpy.block([[weight, balance.T], [balance, numpy.zeros((m, m))]])
    inverse = numpy.linalg.pinv(kkt, rcond=1e-12)
    slopes = inverse[:n, :n] @ weight @ to_value
    return place, slopes, numpy.array(weights), sources


def test_deviations_agree_with_a_dense_computation() -> None:
    one = refinery()
    place, slopes, variance, sources = dense(one)
    known = [row["name"] for row in one.block.streams if row["class"] != "unobservable"]
    random = numpy.random.default_rng(7)
    wanted, answers = [], []
    for _ in range(25):
        flows = {name: float(random.integers(-2, 3)) for name in known}
        dips = {tank: float(random.integers(0, 2)) for tank in one.gains}
        value = {known[0]: 1.0} if one.block.streams[place[known[0]]]["value"] else {}
        slope = sum(number * slopes[place[name]] for name, number in flows.items())
        for at, (name, what) in enumerate(sources):
            slope[at] += dips.get(name, 0) if what == "open" else 0
            slope[at] += value.get(name, 0) * (-1 if what == "open" else 1)
        wanted.append({0: Sum(flows, value, dips)})
        answers.append(float(slope**2 @ variance) ** 0.5)
    found = deviations([one], wanted)
    assert numpy.allclose(found, answers, rtol=1e-6)


def test_a_sum_may_be_determined_though_its_parts_are_not() -> None:
    one = refinery()
    loose = {row["name"]: row for row in one.block.streams if row["class"] == "unobservable"}
    assert set(loose) == {"RESIDUE", "SLOP"}
    # what goes round between two nodes: the difference is determined, each alone isn't
    sign = 1 if loose["RESIDUE"]["from"] == loose["SLOP"]["from"] else -1
    both = {0: Sum({"RESIDUE": 1, "SLOP": sign})}
    alone, sure = deviations([one], [{0: Sum({"SLOP": 1})}, both])
    assert alone is None and sure is not None and sure > 0


def test_a_month_after_another_shares_its_dips() -> None:
    """The stock at the end of a month is no worse than its dip, however many months there were."""
    one = refinery()
    account = Rolled([one], Accounts()).account("may1")
    for each in account.tanks:
        gain = one.gains[each.stock.tank]
        base = int(
            one.block.streams[[r["name"] for r in one.block.streams].index(gain.tank)]["variance"]
        )
        assert each.closing**2 <= base - gain.opening_variance + 1
    assert account.plant.level is Level.PLANT
