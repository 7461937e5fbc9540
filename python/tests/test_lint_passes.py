"""How much lint does for a row: counted in calls of functions, which no busy machine changes."""

from __future__ import annotations

import sys
from collections.abc import Callable
from types import FrameType

import heavy
import pytest

from plantbal.lint import lint_session

# The most calls for each further row of a family, from a first size on to twice as many rows.
FIRST, FIRST_OF_YEAR = 300, 800
MOST = {
    "one_report": 67,
    "no_report": 22,
    "no_period": 24,
    "one_stream": 15,
    "all_refused": 53,
    "every_other_refused": 67,
    "every_fiftieth_refused": 75,
    "booked_twice": 101,
    "wrong_figures": 45,
    "other_refused": 100,
    "year": 66,
    "daily": 215,
    "amended": 66,
    "struck": 141,
    "transfers": 108,
    "long_transfers": 80,
    "tanks": 192,
    "assays": 198,
    "reports": 910,
    "histories": 76,
    "quoted": 71,
    "near": 163,
}


def counted(call: Callable[[], object]) -> int:
    """Return how many functions a call calls, those in C too."""
    count = 0

    def note(frame: FrameType, event: str, argument: object) -> None:
        """Count an event, if it is a call."""
        nonlocal count
        count += event in ("call", "c_call")

    before = sys.getprofile()
    sys.setprofile(note)
    try:
        call()
    finally:
        sys.setprofile(before)
    return count


def for_each_row(family: str) -> float:
    """Return how many more calls lint makes for each further row."""
    first = FIRST_OF_YEAR if family == "year" else FIRST
    some = [heavy.session(family, size) for size in (first, 2 * first)]
    one, other = (counted(lambda data=data: lint_session(data)) for data in some)
    return (other - one) / (some[1].count(b"\n") - some[0].count(b"\n"))


@pytest.mark.parametrize("family", MOST)
def test_calls_for_each_row(family: str, monkeypatch: pytest.MonkeyPatch) -> None:
    """A further row costs lint so many calls, whatever is there already: its time is in proportion."""
    monkeypatch.setenv("PLANTBAL_LIBRARY", "none")
    assert for_each_row(family) <= MOST[family]


def test_each_family_has_a_limit() -> None:
    """Each family of sessions is counted."""
    assert MOST.keys() == heavy.FAMILIES.keys()
