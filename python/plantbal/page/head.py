"""The head of a page: which plant, which periods, which session, which program."""

from __future__ import annotations

from dataclasses import dataclass
from pathlib import Path

import plantbal
from plantbal.build import UNKNOWN, build_of
from plantbal.page.statement import PageContents
from plantbal.page.verdict import count_of
from plantbal.sentence import Day, Sentence


@dataclass(frozen=True, slots=True)
class Origin:
    """Where a page comes from.

    Attributes
    ----------
    plant : str
        What the plant is called; empty if nobody said.
    session : str
        The file of the session, if there is one.
    program : Path or None
        The program, if it was run for the page.
    book : str
        The head of the book that the session is from; empty if none was named.
    """

    plant: str = ""
    session: str = ""
    program: Path | None = None
    book: str = ""


def program_text(program: Path | None) -> str:
    """Return what is known of the program."""
    if program is None:
        return "not known: the page was made of a report that was there"
    build = build_of(program)
    version = build.version if build.version != UNKNOWN else "(version not known)"
    return f"plantbal {version}, SHA-256 {build.sha256}"


def days_text(days: tuple[str, str] | None) -> str:
    """Return the days of a period."""
    if days is None:
        return ""
    first, last = map(Day, days)
    return first if first == last else Sentence("{first} to {last}", first=first, last=last)


def period_text(account: PageContents) -> str:
    """Return which periods there are, with their days and whether they are open."""
    some = account.periods
    if len(some) == 1:
        parts = [some[0].period, days_text(some[0].days), some[0].state]
        return ", ".join(part for part in parts if part)
    closed = sum(each.state == "closed" for each in some)
    said = count_of(len(some), "period", "periods")
    known = [each.days for each in some if each.days]
    if known:
        said += f", {min(first for first, _ in known)} to {max(last for _, last in known)}"
    if any(each.state for each in some):
        said += f"; {closed or 'none'} closed"
    return said


def size_text(account: PageContents) -> str:
    """Return how large the plant is."""
    last = account.periods[-1].report.last if account.statements else None
    lines = last.lines if last is not None else (account.designs[-1] if account.designs else [])
    tanks = [line for line in lines if line.is_tank]
    nodes = {end for line in lines for end in (line.from_, line.to)} - {"env"}
    counts = (
        (len(nodes) - len(tanks), "unit", "units"),
        (len(tanks), "tank", "tanks"),
        (len(lines) - len(tanks), "stream", "streams"),
    )
    return ", ".join(count_of(*each) for each in counts if each[0])


def head_terms(account: PageContents, origin: Origin) -> list[tuple[str, str, str]]:
    """Return the terms of a head, each with its text and its class."""
    plant = ": ".join(part for part in (origin.plant, size_text(account)) if part)
    found = [("Plant", plant, "")]
    if account.statements:
        found.append(
            ("Period" if len(account.periods) == 1 else "Periods", period_text(account), "")
        )
    ledger = account.ledger
    if ledger is not None:
        found.append(("Session", f"{ledger.source}, {count_of(ledger.rows, 'row', 'rows')}", ""))
        found.append(("SHA-256 of the session", ledger.digest, "hash"))
    else:
        lacks = "days, the opening and closing of tanks, what edits changed"
        found.append(
            ("Session", f"not named: {lacks} and the text of refused rows need --session", "")
        )
    found.append(("Head of the book", origin.book, "hash"))
    found.append(("Program", program_text(origin.program), ""))
    found.append(("Page", f"plantbal-desk {plantbal.__version__}", ""))
    return [(term, text, kind) for term, text, kind in found if text]
