"""A workbook edited at random and added again: the book reports what it would report anew."""

from __future__ import annotations

import calendar
import datetime
import tempfile
from collections.abc import Iterable
from dataclasses import dataclass, replace
from pathlib import Path

from books import ANYWAY, Sheets, folder, typed
from hypothesis import HealthCheck, given, settings
from hypothesis import strategies as st

from plantbal import convert
from plantbal.book.ledger import FACT_KINDS, BookFact
from plantbal.book.store import Store
from plantbal.book.years import Years
from plantbal.program import call
from plantbal.report.blocks import Block, blocks_of
from plantbal.report.parsing import parse_rows
from plantbal.session import Session

PLANT: Sheets = {
    "streams": [
        ["tag", "stream", "from", "to", "kind", "error", "base"],
        ["F-1", "FEED", "env", "MILL", "", "1 % or 5 t", "2 t"],
        ["P-1", "PRODUCT", "MILL", "SILO", "", "2 t", ""],
        ["", "FINES", "MILL", "SILO", "plain", "", ""],
        ["", "TRUCKS", "SILO", "env", "batch", "0.1 t", ""],
    ],
    "tanks": [["tank", "error", "density"], ["SILO", "3 mm", "1250"]],
    "straps": [["tank", "level", "volume"], ["SILO", "0", "2"], ["SILO", "20000", "4710"]],
    "critical": [["test", "dof", "value"], ["global", "1", "3.84"], ["global", "2", "5.99"]],
}
MONTHS = (4, 5)
TAGS = ("F-1", "P-1")
TONNES = st.integers(-50, 3_000).map(str)


def day_of(month: int, day: int) -> datetime.date:
    return datetime.date(2024, month, day)


DAYS = [
    day_of(month, day)
    for month in MONTHS
    for day in range(1, calendar.monthrange(2024, month)[1] + 1)
]
SOME = [day_of(month, day) for month in MONTHS for day in (1, 17, 30)]
ENDS = [day_of(3, 31), day_of(4, 30), day_of(5, 31)]


@dataclass(frozen=True)
class Version:
    """A workbook as it stands at some time.

    Attributes
    ----------
    readings : dict of (date, str) to str
        The figures of some days and tags, of which some are empty; the others are all alike.
    dips : dict of date to (str, str)
        The level and the density of the tank at the end of days.
    tickets : dict of str to (date, int, str)
        The first day, the days after it, and the amount of each ticket.
    """

    readings: dict[tuple[datetime.date, str], str]
    dips: dict[datetime.date, tuple[str, str]]
    tickets: dict[str, tuple[datetime.date, int, str]]

    def sheets(self) -> Sheets:
        """The sheets; each has a row at least, without which it isn't there."""
        read = self.readings
        rows = [[str(day), *(read.get((day, tag), "1200") for tag in TAGS)] for day in DAYS]
        dips = [["SILO", str(day), *values] for day, values in self.dips.items()]
        tickets = [
            [name, "TRUCKS", str(first), str(first + datetime.timedelta(more)), amount]
            for name, (first, more, amount) in self.tickets.items()
        ]
        return {
            "readings": [["day", *TAGS], *rows],
            "dips": [["tank", "day", "level", "density"], *dips],
            "tickets": [["id", "stream", "first", "last", "amount"], *tickets],
        }


LEVELS = st.tuples(st.integers(0, 20_000).map(str), st.sampled_from(["", "1200", "1250"]))
FIGURES = st.just("") | TONNES
BATCHES = st.tuples(st.sampled_from(SOME), st.integers(0, 40), TONNES)
# A sheet without a row isn't there, so one dip and one ticket always are.
VERSIONS = st.builds(
    Version,
    st.fixed_dictionaries({}, optional={(day, tag): FIGURES for day in SOME for tag in TAGS}),
    st.fixed_dictionaries({ENDS[1]: LEVELS}, optional={ENDS[0]: LEVELS, ENDS[2]: LEVELS}),
    st.fixed_dictionaries({"t-1": BATCHES}, optional={"t-2": BATCHES, "t-3": BATCHES}),
)


def block_of(output: bytes, period: str) -> Block:
    """The last report of a period, whatever stands before it."""
    blocks = blocks_of(parse_rows("the output", output.decode("ascii")))
    found = next(block for block in reversed(blocks) if block.period == period)
    return replace(found, number=0)


def reported(session: Session, period: str) -> Block:
    """The report of a converted session."""
    status, output = call(["run", "--tests"], session.to_csv().encode("ascii"))
    assert status == 0
    return block_of(output, period)


def nameless(facts: Iterable[BookFact]) -> set[BookFact]:
    """Facts without their ids."""
    return {replace(fact, id="") for fact in facts}


@settings(
    deadline=None,
    max_examples=25,
    suppress_health_check=[HealthCheck.too_slow, HealthCheck.data_too_large],
)
@given(
    versions=st.lists(VERSIONS, min_size=2, max_size=4),
    closed=st.lists(st.sampled_from([*MONTHS, 0]), min_size=4, max_size=4),
    begun=st.sampled_from([0, 1, 9]),
)
def test_a_book_reports_the_last_workbook(
    versions: list[Version], closed: list[int], begun: int
) -> None:
    """Whatever was booked, changed, struck and closed before, and in one year or in two.

    Each year has the facts of the workbook that touch it, and the program refuses none of its rows.
    """
    with tempfile.TemporaryDirectory() as made:
        room = Path(made)
        mill = ["--book", room / "mill"]
        assert typed("new", "2024", folder(room / "plant", PLANT), *mill) == 0
        for at, (version, month) in enumerate(zip(versions, closed)):
            book = folder(room / "months", version.sheets())
            assert typed("add", book, "--strike", "--why", "edited", *mill) == 0
            if month:
                assert typed("close", f"2024-{month:02}", *ANYWAY, *mill) == 0
            if at == begun and at + 1 < len(versions):
                typed("next", "2024-2", *mill)
        whole = convert(folder(room / "whole", PLANT | versions[-1].sheets()))
        assert whole.said() == []
        for month in MONTHS:
            period = f"2024-{month:02}"
            typed("report", period, *mill)
            found = block_of((room / "mill/reports" / f"{period}.csv").read_bytes(), period)
            assert found == reported(whole.session, period)
        facts = [BookFact.of(row) for row in whole.session if row[0] in FACT_KINDS]
        years = Years(Store(room / "mill"))
        for ledger in years.all():
            wanted = [fact for fact in facts if ledger in years.of_fact(fact)]
            assert nameless(ledger.facts.values()) == nameless(wanted)
            session = (room / "mill" / f"{ledger.name}.csv").read_bytes()
            assert call(["run"], session) == (0, b"")
