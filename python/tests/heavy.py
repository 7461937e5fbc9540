"""Sessions that make a reader of them work hard, each family of any size: for tests that count, and for `bench/lint`."""

from __future__ import annotations

import datetime
import random
from collections.abc import Callable, Iterator

DAY = datetime.date(2024, 1, 1)
DEVIATION = 10**12


def day(number: int) -> str:
    """Return a day by its number: the first is 2024-01-01, the last of all 2199-12-31."""
    return (DAY + datetime.timedelta(days=number)).isoformat()


def _meters(count: int) -> list[str]:
    """Return a chain of units with that many meters."""
    ends = ["env", *(f"U{k}" for k in range(count - 1)), "env"]
    rows = [f"unit,{name}" for name in ends[1:-1]]
    return rows + [f"stream,S{k},{ends[k]},{ends[k + 1]},metered,{DEVIATION}" for k in range(count)]


def _around(count: int, kind: str = "metered", variance: int = DEVIATION) -> list[str]:
    """Return one unit with that many streams to it."""
    return ["unit,U", *(f"stream,S{k},env,U,{kind},{variance}" for k in range(count))]


def _periods(count: int, days: int) -> list[str]:
    """Return that many periods of as many days each."""
    return [f"period,p{k},{day(k * days)},{day(k * days + days - 1)}" for k in range(count)]


def _readings(size: int, streams: int, prefix: str = "S") -> Iterator[str]:
    """Give that many readings of some streams, day by day."""
    for number in range(size):
        name = f"{prefix}{number % streams}"
        grams = 500_000_000 + number * 7919 % 1_000_003
        yield f"reading,r{number},{name},{day(number // streams)},{grams},{DEVIATION}"


def one_stream(size: int) -> list[str]:
    """Readings of three streams, and periods of a hundred days without a report."""
    days = size // 3 + 1
    return [*_around(3), *_periods(min(600, days // 100 + 1), 100), *_readings(size, 3)]


def no_report(size: int) -> list[str]:
    """Readings of many streams, without a report."""
    streams = max(2, min(2000, size // 10))
    return [*_around(streams), *_periods(1, 100), *_readings(size, streams)]


def one_report(size: int) -> list[str]:
    """The same with a report."""
    return [*no_report(size), "report,p0"]


def no_period(size: int) -> list[str]:
    """Readings in no period."""
    return [
        *_around(max(2, min(2000, size // 10))),
        *_readings(size, max(2, min(2000, size // 10))),
    ]


def _refused(size: int, every: int) -> list[str]:
    streams = max(2, min(2000, size // 10))
    rows = [*_around(streams), *_periods(1, 100)]
    for number, row in enumerate(_readings(size, streams)):
        rows.append(row.replace(",S", ",T", 1) if number % every == 0 else row)
    return [*rows, "report,p0"]


def all_refused(size: int) -> list[str]:
    """Readings of streams that aren't there, and a report."""
    return _refused(size, 1)


def every_other_refused(size: int) -> list[str]:
    """Readings of which every other one is of no stream, and a report."""
    return _refused(size, 2)


def every_fiftieth_refused(size: int) -> list[str]:
    """Readings of which every fiftieth is of no stream, and a report."""
    return _refused(size, 50)


def booked_twice(size: int) -> list[str]:
    """Readings that are all there twice, and a report."""
    rows = no_report(size // 2)
    return [*rows, *(row for row in rows if row.startswith("reading")), "report,p0"]


def wrong_figures(size: int) -> list[str]:
    """Readings whose amounts have a decimal point."""
    rows = no_report(size)
    return [row.replace(",5", ",5.", 1) if row.startswith("reading") else row for row in rows]


def other_refused(size: int) -> list[str]:
    """Transfers of streams that aren't there."""
    rows = _around(10, "batch")
    return rows + [f"transfer,t{k},X{k % 7},{day(0)},{day(1)},{k},1" for k in range(size)]


def year(size: int) -> list[str]:
    """A year of a chain of meters, reported each month of 31 days."""
    chance = random.Random(1)
    streams = max(2, size // 372)
    rows = [*_meters(streams), *(f"critical,global,{dof},{dof * 2000}" for dof in range(1, 21))]
    for month in range(12):
        rows.append(f"period,m{month},{day(month * 31)},{day(month * 31 + 30)}")
        for number in range(month * 31, month * 31 + 31):
            on = day(number)
            rows += [
                f"reading,S{k}_{on},S{k},{on},{500_000_000 + chance.randint(-2_000_000, 2_000_000)},{DEVIATION}"
                for k in range(streams)
            ]
        rows.append(f"report,m{month}")
    return rows


def daily(size: int) -> list[str]:
    """A chain of meters, each day of which is a period with a report."""
    streams = max(2, size // 1000)
    days = min(1000, size // streams)
    rows = [*_meters(streams), *_periods(days, 1)]
    rows += _readings(days * streams, streams)
    return rows + [f"report,p{k}" for k in range(days)]


def amended(size: int) -> list[str]:
    """Readings that are each amended, and a report."""
    rows = no_report(size // 2)
    edits = [f"amend,r{k},{500_000_000 + k},{DEVIATION},drift" for k in range(size // 2)]
    return [*rows, *edits, "report,p0"]


def struck(size: int) -> list[str]:
    """Readings that are each struck and booked again, and a report."""
    rows = no_report(size // 3)
    edits = [
        each
        for k, row in enumerate(each for each in rows if each.startswith("reading"))
        for each in (f"strike,r{k},wrong", row.replace(",r", ",n", 1))
    ]
    return [*rows, *edits, "report,p0"]


def transfers(size: int) -> list[str]:
    """Transfers of many streams over two months with reports."""
    streams = max(2, min(1000, size // 20))
    rows = [*_around(streams, "batch"), *_periods(2, 31)]
    rows += [
        f"transfer,t{k},S{k % streams},{day(k % 60)},{day(k % 60 + k % 2)},{1_000_000 + k},1"
        for k in range(size)
    ]
    return [*rows, "report,p0", "report,p1"]


def long_transfers(size: int) -> list[str]:
    """Transfers of a year each, over periods of a day, without reports."""
    rows = [*_around(3, "batch"), *_periods(min(1000, size // 10 + 1), 1)]
    return rows + [
        f"transfer,t{k},S{k % 3},{day(k % 300)},{day(k % 300 + 365)},{1_000_000 + k},1"
        for k in range(size)
    ]


def tanks(size: int) -> list[str]:
    """Dips of many tanks on each day of two months with reports."""
    count = max(1, min(1000, size // 62))
    rows = []
    for k in range(count):
        rows += [f"tank,T{k},5", f"strap,T{k},0,0", f"strap,T{k},1000,1000000000"]
        rows.append(f"stream,S{k},env,T{k},batch,5")
    rows += _periods(2, 31)
    number = 0
    for on in range(62):
        for k in range(count):
            if number < size:
                rows.append(f"dip,d{number},T{k},{day(on)},{500 + (on * 7 + k) % 200},850000,1000")
                number += 1
    return [*rows, "report,p0", "report,p1"]


def assays(size: int) -> list[str]:
    """Assays of many components and periods, whose balances are asked for."""
    streams = 20
    rows = [*_around(streams), *_periods(max(1, min(1000, size // streams)), 1)]
    many = [row.split(",")[1] for row in rows if row.startswith("period")]
    for number in range(size):
        stream, period = number % streams, number // streams % len(many)
        component = f"c{number // (streams * len(many))}"
        rows.append(f"assay,{component},S{stream},{many[period]},{1000 + number % 97},4")
        if stream == streams - 1:
            rows.append(f"component,{component},{many[period]}")
    return rows


def reports(size: int) -> list[str]:
    """A report after each amendment of another period."""
    rows = [*_around(20), *_periods(2, 31), *_readings(20 * 62, 20)]
    for k in range(size // 22):
        rows += [f"amend,r{20 * 31 + k % 600},{500_000_000 + k},{DEVIATION},drift", "report,p0"]
    return rows


def histories(size: int) -> list[str]:
    """Rows that ask for histories, of a book with few edits."""
    rows = [*_around(3), *_periods(1, 31), *_readings(90, 3), "amend,r1,5,5,why"]
    return rows + ["history,p0"] * size


def quoted(size: int) -> list[str]:
    """Readings in quotes, and a report."""
    rows = one_report(size)
    return [row.replace("reading,", '"reading",') for row in rows]


def near(size: int) -> list[str]:
    """Streams whose names differ in capitals alone."""
    count = max(2, min(2000, size))
    names = [
        "".join(
            letter.upper() if k >> at & 1 else letter for at, letter in enumerate("productline")
        )
        for k in range(count)
    ]
    return ["unit,U", *(f"stream,{name},env,U,metered,5" for name in names), "design"]


# Each family, and how many rows of it are many.
FAMILIES: dict[str, tuple[Callable[[int], list[str]], int]] = {
    each.__name__: (each, size)
    for each, size in (
        (one_report, 200_000),
        (no_report, 200_000),
        (no_period, 200_000),
        (one_stream, 180_000),
        (all_refused, 100_000),
        (every_other_refused, 200_000),
        (every_fiftieth_refused, 200_000),
        (booked_twice, 200_000),
        (wrong_figures, 100_000),
        (other_refused, 100_000),
        (year, 186_000),
        (daily, 100_000),
        (amended, 200_000),
        (struck, 150_000),
        (transfers, 200_000),
        (long_transfers, 100_000),
        (tanks, 62_000),
        (assays, 20_000),
        (reports, 40_000),
        (histories, 50_000),
        (quoted, 200_000),
        (near, 2_000),
    )
}


def session(family: str, size: int = 0) -> bytes:
    """Return a session of a family, of some rows or of as many as are many."""
    make, many = FAMILIES[family]
    return "\n".join([*make(size or many), ""]).encode()
