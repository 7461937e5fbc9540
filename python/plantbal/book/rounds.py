"""With which settings a report is made: as the one that is kept, unless somebody says otherwise.

So what is booked is what a person has looked at: suspects that the last report leaves out are left
out of the close too, and of each later report, and its gap, sweeps and tests are theirs.
"""

from __future__ import annotations

from plantbal.book.forms import report_file
from plantbal.book.opening import read_book
from plantbal.book.remedies import BookRemedy
from plantbal.book.store import Store
from plantbal.book.years import Years
from plantbal.faults import Fault
from plantbal.program import RunSettings
from plantbal.report.blocks import Block, last_blocks
from plantbal.report.output import Output, parse_report
from plantbal.report.rounds import settings_in
from plantbal.sentence import Sentence, counted


class OtherSettings(Fault):
    """A report of a closed period that would be made with other settings than the one it has.

    Attributes
    ----------
    period : str
        The period.
    settings : RunSettings
        With which its report is made.
    """

    def __init__(self, period: str, settings: RunSettings, asked: RunSettings) -> None:
        rounds = settings.rounds
        if asked.numbers | {"eliminate": rounds} != settings.numbers:
            what = Sentence(
                "{period} is closed with a report of {words}, and other settings would change it",
                period=period,
                words=" ".join(settings.words),
            )
        elif rounds:
            what = counted(
                rounds,
                "{period} is closed with a report that takes out at most {count} suspect, and another number would change it",
                "{period} is closed with a report that takes out at most {count} suspects, and another number would change it",
                period=period,
            )
        else:
            what = Sentence(
                "{period} is closed with a report that takes out no suspect, and this would change it",
                period=period,
            )
        super().__init__(
            what,
            remedy=Sentence(
                "leave its settings as they are; amend or strike readings that are wrong, with a reason"
            ),
        )
        self.period = period
        self.settings = settings


def kept_settings(book: Store, name: str) -> RunSettings:
    """Return with which settings a report of a book was made; those of nobody if it isn't there.

    Parameters
    ----------
    book : Store
        The book.
    name : str
        The file of the report.
    """
    return settings_in(book.text(name), name)


def settled(book: Store, name: str, settings: RunSettings) -> RunSettings:
    """Return settings with those of a report of a book in place of what they don't say."""
    return settings.after(kept_settings(book, name))


def settings_asked(folder: str, session: bytes, settings: RunSettings) -> RunSettings:
    """Return how a session of a book is run that asks for its reports.

    Parameters
    ----------
    folder : str
        The book's folder.
    session : bytes
        The session.
    settings : RunSettings
        What is said of it; the rest is as the reports have it that the book has of these periods.

    Raises
    ------
    Fault
        If its reports of them were made with different settings.
    """
    asked = [row.split(b",")[1] for row in session.splitlines() if row.startswith(b"report,")]
    with read_book(folder) as book:
        names = [name.decode("ascii", "replace") for name in dict.fromkeys(asked)]
        kept = [name for name in names if book.has(report_file(name))]
        found = {name: settled(book, report_file(name), settings) for name in kept}
    if len({tuple(each.words) for each in found.values()}) > 1:
        said = ", ".join(f"{name} {' '.join(each.words[1:])}" for name, each in found.items())
        raise Fault(
            f"the book's reports are made with different settings: {said}",
            remedy="take a session for each of them: plantbal-desk book report PERIOD --session "
            "FILE; or give the settings for all of them, such as --eliminate N",
        )
    return next(iter(found.values()), settings)


def is_kept(book: Store, period: str, output: Output) -> bool:
    """Say whether an output has the figures of the report that a book keeps of a period."""
    text = book.text(report_file(period))
    there = last_blocks(parse_report(text, report_file(period)).blocks_in_order).get(period)
    return same_figures(there, last_blocks(output.blocks_in_order).get(period))


def same_figures(one: Block | None, other: Block | None) -> bool:
    """Say whether two rounds of a report have the same figures, found in the same way."""
    if one is None or other is None:
        return one is other
    same = (one.head, one.streams, one.whole, one.taken)
    return same == (other.head, other.streams, other.whole, other.taken)


def check_closed(folder: str, output: Output, settings: RunSettings, *, older: bool) -> None:
    """Refuse an output that has other figures of a closed period than its report.

    Parameters
    ----------
    folder : str
        The book's folder.
    output : Output
        The output of a session of the book.
    settings : RunSettings
        With which it was made.
    older : bool
        Whether one is refused too whose period has changed since its report.

    Raises
    ------
    OtherSettings
        If the settings are other ones.
    Fault
        If its report is older than its facts.
    """
    with read_book(folder) as book:
        years = Years(book)
        for name in dict.fromkeys(block.period for block in output.reports):
            is_closed = years.of_period(name).periods[name].closed
            if not is_closed or not book.has(report_file(name)) or is_kept(book, name, output):
                continue
            last = kept_settings(book, report_file(name))
            if settings.words != last.words:
                raise OtherSettings(name, last, settings)
            if older:
                form = "the report of {period} isn't there, or is older than its facts"
                remedy = BookRemedy.MAKE_REPORT(period=name).sentence
                raise Fault(Sentence(form, period=name), text=name, remedy=remedy)
