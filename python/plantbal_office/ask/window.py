"""The report of a window at the desk: its page, what tanks held in between, closed periods."""

from __future__ import annotations

from dataclasses import dataclass
from pathlib import Path

from django.utils.translation import get_language

from plantbal.book.window import closed_said, undipped
from plantbal.faults import Fault
from plantbal.page.command import Source, prepare
from plantbal.page.render import render, speaking
from plantbal.report.output import parse_report
from plantbal.report.parsing import parse_rows
from plantbal_office.look.statement import inner_main
from plantbal_office.plants.models import Plant
from plantbal_office.sentences import spoken
from plantbal_office.shelf import KEPT, book_contents, plain_book

_SECONDS = 8.0


@dataclass(frozen=True)
class ShownWindow:
    """A window: its page, what tanks held at dips not taken, and a sentence on each closed period."""

    body: str
    held: tuple[str, ...]
    closed: tuple[str, ...]


def window_shown(plant: Plant, first: str, last: str) -> ShownWindow | None:
    """Return the report of a window as it is kept, or None if there is none."""

    def make() -> ShownWindow | None:
        try:
            kept = plain_book(plant).kept_window(first, last)
        except Fault:
            return None
        name = f"the report of {first} to {last}"
        prepared = prepare(Source(parse_rows(name, kept.text), name))
        with speaking(spoken()):
            page = render(prepared, title=kept.period, seconds=_SECONDS)
        blocks = [each for each in parse_report(kept.text, name).blocks_in_order if each.window]
        if not blocks or blocks[-1].window is None:
            return ShownWindow(inner_main(page), (), ())
        closed = {month.name for month in book_contents(plant).months if month.closed}
        covered = [name for name in blocks[-1].window.periods if name in closed]
        held = tuple(undipped(blocks[-1]))
        return ShownWindow(inner_main(page), held, tuple(closed_said(covered)))

    return KEPT.of(Path(plant.folder), "page", ("window", first, last, get_language()), make)
