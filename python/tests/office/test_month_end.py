"""The whole of MONTH_END in a browser: the same bytes in sessions, journal and reports as by commands."""

from __future__ import annotations

from collections.abc import Callable
from pathlib import Path

import pytest
from office.hands import Browser, Commands, Hand, bytes_of, lines_of

from plantbal import read_report

TOP = Path(__file__).resolve().parents[3]
EXAMPLES = TOP / "examples"
MILL = EXAMPLES / "month_end"


def mill(hand: Hand) -> None:
    """A mill's year: April to June, a late ticket, a missing day, a bad meter, and the next year."""
    hand.begin("2023-24", MILL / "plant", "de")
    hand.add(MILL / "april", "de")
    hand.report("2024-04")
    hand.amend("FI-302", "2024-04-18", "12188 t", "typed a digit short")
    hand.report("2024-04")
    hand.add(MILL / "assays.csv", "de")
    hand.report("2024-04")
    hand.close("2024-04")
    hand.add(MILL / "tickets.csv", "de")
    hand.report("2024-04")
    hand.add(MILL / "may", "de")
    hand.report("2024-05")
    hand.add(MILL / "estimates.csv", "de")
    hand.close("2024-05", {"estimated": "the scale was out of order, 342 t is from the log"})
    hand.quiet("near-names", "TAILS TAILINGS", "two lines that are called so")
    hand.quiet("near-names", "TAILS TAILINGS", "there is no line TAILINGS", off=True)
    hand.add(MILL / "june", "de")
    hand.report("2024-06")
    hand.report("2024-06", eliminate=1)
    hand.report("2024-06")
    hand.add(MILL / "june_mended", "de", "FI-302 read high all June, work order 4711", strike=True)
    hand.report("2024-06")
    hand.close("2024-06", {"missing": "FI-302 is in the shop, work order 4711"})
    hand.next("2024-25", MILL / "plant_2024-25", "de")
    hand.add(MILL / "july", "de")
    hand.report("2024-07")


def bad_meter(hand: Hand) -> None:
    """June as it was looked at: its bad meter is left out of the close, and of what comes late."""
    hand.begin("2023-24", MILL / "plant", "de")
    hand.add(MILL / "june", "de")
    hand.report("2024-06")
    hand.report("2024-06", eliminate=2)
    hand.close("2024-06")
    hand.amend("WIC-101", "2024-06-03", "12001 t", "typed wrong")
    hand.report("2024-06")


def own(hand: Hand) -> None:
    """A workbook as the plant has it, by the mapping that is proposed; then the grid, two days
    otherwise and one cleared."""
    hand.begin_mapped("2024", EXAMPLES / "own_workbook")
    hand.report("2024-06")
    cells = {("FI-201", "2024-06-05"): "1201.5 t", ("WIC-101", "2024-06-06"): ""}
    hand.type("2024-06", cells | {("FI-201", "2024-06-07"): "1199 t"}, "the shift's log")
    hand.report("2024-06")


def refinery(hand: Hand) -> None:
    """Tanks at the year's end: a part that begins on the following day."""
    workbook = EXAMPLES / "refinery_workbook"
    hand.begin("2024", workbook)
    hand.add(workbook)
    hand.close("may1", {"untested": "a single day, closed to show its tanks"})
    hand.next("2024-2")


def terminal(hand: Hand) -> None:
    """A tank commissioned in the middle of the year."""
    folder = EXAMPLES / "terminal_workbook"
    hand.begin("2024", folder / "plant", "en_GB")
    hand.add(folder / "february")
    hand.close("feb")
    hand.add(folder / "march")
    hand.report("feb")
    hand.report("mar")


def farm(hand: Hand) -> None:
    """A dip that nobody took, the account, and what is handed over, twice."""
    workbook = EXAMPLES / "tank_farm_workbook"
    hand.begin("2024", workbook, "en_GB")
    hand.add(workbook, "en_GB")
    for period in ("may1", "may2", "may3", "may4"):
        hand.report(period)
    hand.window("may2", "may3")
    hand.close("may1")
    hand.post("may1")
    if isinstance(hand, Browser):
        hand.months = {"2024-05-01": "may1"}
    hand.amend("FI-1", "2024-05-01", "2418.5 t", "meter factor of the proving of 8 May")
    hand.report("may1")
    hand.post("may1")
    hand.window("may1", "may2")
    if isinstance(hand, Browser):
        assert (
            len(hand.all(".of-closed li")) == 1
        ), "the figures of a closed period are said to be others"


STORIES: tuple[Callable[[Hand], None], ...] = (mill, bad_meter, own, refinery, terminal, farm)


@pytest.mark.parametrize("story", STORIES, ids=lambda story: story.__name__)
def test_same_bytes(story: Callable[[Hand], None], desk: Browser, tmp_path: Path) -> None:
    """A story in the browser leaves the files that the commands leave, times aside."""
    name = story.__name__
    by_commands = Commands(tmp_path / "commands" / name)
    desk.book = tmp_path / name
    story(desk)
    assert desk.complaints() == [], "the browser blocks or fails nothing"
    story(by_commands)
    one, other = bytes_of(desk.book), bytes_of(by_commands.book)
    assert list(one) == list(other), "the same files"
    differ = [each for each in one if one[each] != other[each] and not each.startswith("posted/")]
    assert not differ, "the same bytes in each"
    assert lines_of(desk.book) == lines_of(by_commands.book), "the same lines of the journal"
    if story is bad_meter:
        taken = read_report(desk.book / "reports" / "2024-06.csv").reports[-1].taken
        assert taken == ["TAILS"], "what is left out stays left out"
