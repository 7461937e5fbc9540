"""A refinery's first quarter in a browser, with a ticket that turns out wrong after January's close."""

from __future__ import annotations

from pathlib import Path

import pytest
from months import Refinery, write
from office.hands import Browser, Commands, Hand, bytes_of, lines_of

MONTHS = ("2024-01", "2024-02", "2024-03")
Closes = dict[str, dict[str, str]]


@pytest.fixture(name="workbooks", scope="module")
def fixture_workbooks(tmp_path_factory: pytest.TempPathFactory) -> dict[str, Path]:
    """The workbooks of 25 tanks and 53 streams: the plant, and three months."""
    room = tmp_path_factory.mktemp("workbooks")
    plant = Refinery()
    found = {"plant": write(room, "plant", plant.plant())}
    return found | {name: write(room, name, plant.month(name)) for name in MONTHS}


def quarter(hand: Hand, workbooks: dict[str, Path], closes: Closes) -> None:
    """January to March, each closed, and January amended after that, and handed over again."""
    hand.begin("2024", workbooks["plant"], "en_GB")
    for name in MONTHS:
        hand.add(workbooks[name], "en_GB")
        hand.report(name)
        if isinstance(hand, Browser):
            closes[name] = hand.gates_of(name)
        hand.close(name, closes[name])
    hand.post("2024-01")
    ticket = "2024-01-FLARE"
    if isinstance(hand, Browser):
        hand.amend_ticket("2024", ticket, "900.5 t", "weighed again", "2024-01")
    else:
        hand.amend_ticket(ticket, "900.5 t", "weighed again")
    hand.report("2024-01")
    # the ticket turned a loss round, which the close had no reason for
    if isinstance(hand, Browser):
        closes["posted"] = hand.gates_of("2024-01", "ask/{}/difference")
        assert list(closes["posted"]) == ["negative-flow"]
    hand.post("2024-01", closes["posted"])


def test_quarter(desk: Browser, tmp_path: Path, workbooks: dict[str, Path]) -> None:
    """The quarter in the browser leaves the files that the commands leave, times aside."""
    desk.book = tmp_path / "quarter"
    by_commands = Commands(tmp_path / "commands" / "quarter")
    closes: Closes = {}
    quarter(desk, workbooks, closes)
    assert desk.complaints() == [], "the browser blocks or fails nothing"
    quarter(by_commands, workbooks, closes)
    one, other = bytes_of(desk.book), bytes_of(by_commands.book)
    assert list(one) == list(other), "the same files"
    differ = [each for each in one if one[each] != other[each] and not each.startswith("posted/")]
    assert not differ, "the same bytes in each"
    assert lines_of(desk.book) == lines_of(by_commands.book), "the same lines of the journal"
