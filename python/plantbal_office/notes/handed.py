"""The bundles that were handed out: that of a closed month is kept, and the next month's names it.

So the bundles of a plant are a chain, though each is made when somebody asks for it. One that is
kept is given out again, byte for byte, as long as its output is the report of the month. After that
a new one is made, and the one before it is kept beside it under a number.
"""

from __future__ import annotations

import fcntl
import os
from collections.abc import Callable, Iterator
from contextlib import contextmanager
from pathlib import Path

from django.conf import settings

from plantbal.audit.bundle import OUTPUT, unpacked
from plantbal.book.results import ReportState
from plantbal.faults import Fault
from plantbal.newfile import write_new
from plantbal_office.plants.models import Plant
from plantbal_office.shelf import book_contents, plain_book


def bundles_of(plant: Plant) -> Path:
    """Return where the bundles of a plant are kept."""
    return Path(settings.MEDIA_ROOT) / "bundles" / str(plant.pk)


def bundle_handed(plant: Plant, period: str, make: Callable[[Path | None], Path]) -> bytes:
    """Return the bundle of a month, made if the one that is kept isn't of its report.

    Parameters
    ----------
    plant : Plant
        The plant.
    period : str
        The month.
    make : callable
        Makes a bundle that names the one that it is given, if any, as the one before it.
    """
    folder = bundles_of(plant)
    folder.mkdir(parents=True, exist_ok=True)
    with _locked(folder):
        before, is_closed = _before(plant, period), _is_closed(plant, period)
        if not is_closed:
            return make(before).read_bytes()
        place = folder / f"{period}.zip"
        if place.exists():
            if _is_of(place, plant, period):
                return place.read_bytes()
            place.rename(_aside(place))
        data = make(before).read_bytes()
        write_new(place, data)
        return data


@contextmanager
def _locked(folder: Path) -> Iterator[None]:
    """Keep others from handing out a bundle of the same plant meanwhile."""
    handle = os.open(folder, os.O_RDONLY)
    try:
        fcntl.flock(handle, fcntl.LOCK_EX)
        yield
    finally:
        os.close(handle)


def _before(plant: Plant, period: str) -> Path | None:
    """Return the bundle that was handed out of the latest month before one; None without one."""
    names = [each.name for each in book_contents(plant).months]
    for name in reversed(names[: names.index(period)]):
        place = bundles_of(plant) / f"{name}.zip"
        if place.exists():
            return place
    return None


def _is_closed(plant: Plant, period: str) -> bool:
    """Say whether a month is closed, with nothing booked in it since its report."""
    month = book_contents(plant).month(period)
    return month is not None and month.closed and month.report is not ReportState.OLDER


def _is_of(place: Path, plant: Plant, period: str) -> bool:
    """Say whether a bundle that is kept has the report of the month as it is now."""
    try:
        found = unpacked(str(place))
    except Fault:
        return False
    report = plain_book(plant).kept(period).text.encode("utf-8")
    return not found.wrong and found.files.get(OUTPUT) == report


def _aside(place: Path) -> Path:
    """Return another name for a bundle that isn't the latest of its month any more."""
    number = 1
    while (found := place.with_name(f"{place.stem}~{number}.zip")).exists():
        number += 1
    return found
