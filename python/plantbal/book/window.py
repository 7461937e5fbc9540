"""Reconciles several periods of a book at once, and says what tanks held at dips that nobody took.
"""

from __future__ import annotations

from collections.abc import Iterable, Iterator

from plantbal.amounts import tonnes_text
from plantbal.audit.believed import program_digest
from plantbal.book.forms import window_file, year_file
from plantbal.book.overview import is_window_older
from plantbal.book.reporting import keep_as, written_of
from plantbal.book.results import Windowed
from plantbal.book.rounds import settled
from plantbal.book.store import Act, Action, Store
from plantbal.book.years import Years
from plantbal.faults import Fault, Refusal
from plantbal.program import RunSettings
from plantbal.report.blocks import Block, last_blocks
from plantbal.sentence import Figure, Sentence
from plantbal.study.uncertainty import uncertainty_of


def window(
    book: Store, first: str, last: str, settings: RunSettings = RunSettings(), who: str = ""
) -> Windowed:
    """Write the report of a window; the parameters are those of `plantbal.Book.window`."""
    with book.opened():
        years = Years(book)
        ledger = years.of_period(first)
        if years.of_period(last) is not ledger:
            what = Sentence("{first} and {last} are of two years", first=first, last=last)
            raise Fault(what, remedy="a window is of periods of one year's session")
        try:
            ledger.session.judge(("window", first, last))
        except Refusal as refusal:
            raise Fault(refusal.said, text=refusal.text, remedy=refusal.remedy) from refusal
        asked = f"{book.text(f'{ledger.name}.csv')}window,{first},{last}\n"
        name = window_file(first, last)
        text, output = written_of(settled(book, name, settings), asked, f"{first} to {last}")
        action = Action(Act.WINDOW, f"{first} {last}", who=who)
        action.program = program_digest(settings.program)
        new = keep_as(book, action, ledger, name, text)
        if not new and is_window_older(book, ledger, book.journal(), first, last):
            action.seen = [year_file(ledger.name), name]
        if action.seen:
            book.do(action)
        covered = last_blocks(output.blocks_in_order).values()
        names = dict.fromkeys(n for each in covered if each.window for n in each.window.periods)
        closed = tuple(each for each in names if ledger.periods[each].closed)
    return Windowed(first, last, output, book.path(name), new, asked, closed)


def undipped(block: Block) -> Iterator[str]:
    """Give what each tank held at a dip that isn't there, a line each.

    Parameters
    ----------
    block : Block
        A round of a window.
    """
    assert block.window is not None
    sd = {each.name: each.sd / 1e6 for each in uncertainty_of(block).itertuples()}
    for row in block.streams:
        spot = block.window.spots[row["name"]]
        if not spot.is_content or row["value"]:
            continue
        if row["name"] not in sd:
            yield Sentence("{name}: nothing determines what it held", name=spot.shown)
        else:
            held = Figure(f"{tonnes_text(int(row['flow']))} t ± {sd[row['name']]:,.3f} t")
            form = "{name}: {held}, by the flows around it"
            yield Sentence(form, name=spot.shown, held=held)


def closed_said(closed: Iterable[str]) -> Iterator[str]:
    """Give of each closed period of a window that its booked figures are others, a line each."""
    for period in closed:
        yield Sentence(
            "{period} is closed, and these aren't the figures of its report", period=period
        )
