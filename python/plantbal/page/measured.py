"""How masses were calculated, beside the facts on a statement: what was measured, what was applied.

The book keeps it for each fact whose mass follows from a temperature, free water, a floating roof or
a density of its days. A fact that was changed by hand since then has none. Each mass is calculated
again here from the figures that are shown, so a reader who does so by hand comes to the same.
"""

from __future__ import annotations

import re
from collections.abc import Iterator, Mapping, Sequence
from dataclasses import dataclass, field
from decimal import Decimal
from math import sqrt

from plantbal import limits
from plantbal.amounts import tonnes_text
from plantbal.audit.reckoned import differs, rows_of_session, trails_of_session
from plantbal.model.facts import Fact
from plantbal.model.forms import day_number
from plantbal.model.ledger import Ledger
from plantbal.page.account import NO_BREAK
from plantbal.page.statement import PageContents, Statement
from plantbal.page.summed import SummedPart, SummedReading, summed_of_book, summed_part
from plantbal.volumes.factor import OWN_TABLE
from plantbal.sentence import Figure, Sentence, phrase
from plantbal.volumes.trail import HEADS, Trail

_KINDS = {"dip": "dip of {name}", "reading": "reading of {name}", "transfer": "ticket of {name}"}


@dataclass(frozen=True, slots=True)
class MeasuredFact:
    """A fact, and how its mass was calculated.

    Attributes
    ----------
    fact : Fact
        The fact, as it stands in the session.
    trail : Trail
        How its mass was calculated.
    wrong : str
        In what the figures contradict each other or the session; empty if in nothing.
    """

    fact: Fact
    trail: Trail
    wrong: str = ""

    @property
    def what(self) -> str:
        """What it is, and of what."""
        return Sentence(_KINDS[self.fact.kind], name=self.fact.of)

    @property
    def measured(self) -> list[str]:
        """What was measured, each with its standard deviation."""
        said = [
            self._said("level {figure}", "level", "mm"),
            self._said("free water {figure}", "water", "mm"),
        ]
        if not self._has("level"):
            said.append(self._said("volume {figure}", "volume", "m³"))
        said.append(self._said("temperature {figure}", "temperature", "°C"))
        at, by = self._text("density_at"), self._text("density_by")
        density = self._said("density {figure}", "density", "kg/m³")
        if at and density:
            density = Sentence("{density} at {at} °C", density=density, at=at)
        if by and density:
            density = Sentence("{density}, by {by}", density=density, by=phrase(str(by)))
        return [each for each in [*said, density] if each]

    @property
    def applied(self) -> list[str]:
        """What was applied to it: volumes by tables, the density at 15 degrees, factor and roof."""
        said: list[str] = []
        if self._has("level"):
            form = "{volume} m³ at the level, by the tank's table"
            said.append(Sentence(form, volume=self._text("volume")))
        if self._counts("water_volume"):
            said.append(Sentence("less {volume} m³ of water", volume=self._text("water_volume")))
        if self._has("density_table"):
            words = {"density": self._text("density_15"), "table": self._by("density_table")}
            said.append(Sentence("{density} kg/m³ at 15 °C, by {table}", **words))
        if self._has("factor_table"):
            words = {"factor": self._text("factor"), "table": self._by("factor_table")}
            said.append(Sentence("factor {factor}, by {table}", **words))
        if self._counts("roof"):
            said.append(self._said("less the roof, {figure}", "roof", "kg"))
        return said

    @property
    def formula(self) -> str:
        """The mass in kilograms as a product that can be calculated again."""
        volume: str = self._text("volume")
        if self._counts("water_volume"):
            volume = f"({volume} − {self._text('water_volume')})"
        product = f"{volume} × {self._text('density_15')}"
        if self._has("factor_table"):
            product += f" × {self._text('factor')}"
        if self._counts("roof"):
            product += f" − {self._text('roof')}"
        kilograms = Decimal(self.trail.figures["grams"]) / 1000
        return Figure(f"{product} = {kilograms:,f} kg")

    @property
    def deviation(self) -> str:
        """The standard deviation of what is booked, in tonnes."""
        return Figure(tonnes_text(round(sqrt(self.fact.variance))))

    @property
    def booked(self) -> str:
        """What is booked, in tonnes."""
        return Figure(tonnes_text(int(self.trail.figures["booked"])))

    @property
    def source(self) -> str:
        """The file in which the figures stand, and where."""
        return self.trail.figures.get("source", "").rpartition("/")[2]

    def _has(self, head: str) -> bool:
        return bool(self.trail.figures.get(head))

    def _text(self, head: str) -> str:
        """Return a figure with a comma between thousands; empty without one."""
        text = self.trail.figures.get(head, "")
        is_figure = re.fullmatch(r"-?[0-9]+(\.[0-9]+)?", text) is not None
        return Figure(f"{Decimal(text):,f}") if is_figure else text

    def _said(self, form: str, head: str, unit: str) -> str:
        """Return a figure with its unit and its standard deviation; empty without one."""
        if not self._has(head):
            return ""
        sd = self._text(f"{head}_sd")
        figure = [self._text(head), unit, *(("±", sd) if sd else ())]
        return Sentence(form, figure=Figure(NO_BREAK.join(figure)))

    def _counts(self, head: str) -> bool:
        """Say whether there is such a figure, and it isn't 0."""
        return self._has(head) and Decimal(self.trail.figures[head]) != 0

    def _by(self, head: str) -> str:
        """Return the table of a figure: one of the petroleum tables, or the product's own."""
        table = self._text(head)
        if table == OWN_TABLE:
            return phrase("the product's own factors")
        return Sentence("table {table}", table=str(table))


@dataclass(frozen=True)
class MeasuredPart:
    """What a period's statement has of it.

    Attributes
    ----------
    facts : list of MeasuredFact
        Those that are shown: first what its balance rests on, then the dips of other days.
    more : int
        How many others there are.
    summed : SummedPart
        The readings that were made of hours.
    """

    facts: list[MeasuredFact] = field(default_factory=list)
    more: int = 0
    summed: SummedPart = SummedPart()

    def place(self, of: str, day: int | None = None) -> str:
        """Return the mark of the first fact of a stream, or of a tank's dip of a day; or nothing.

        It is `m` and the place of a mass, or `h` and that of a reading that was made of hours.
        """
        for at, each in enumerate(self.facts):
            if each.fact.of == of and day in (None, each.fact.last):
                return f"m{at}"
        for at, reading in enumerate(self.summed.readings):
            if reading.fact.of == of and day is None:
                return f"h{at}"
        return ""


def measured_on(
    book: str | None, session: tuple[str, bytes] | None, ledger: Ledger | None, page: PageContents
) -> dict[str, MeasuredPart]:
    """Return how the masses of each period on a page were calculated, as the session's book has it.

    Parameters
    ----------
    book : str or None
        The folder of the book.
    session : tuple of str and bytes, or None
        The session.
    ledger : Ledger or None
        The session, read.
    page : PageContents
        What the page shows.

    Raises
    ------
    InputFault
        If the book's file can't be read.
    """
    if session is None or ledger is None:
        return {}
    trails = {(each.row, each.fact): each for each in trails_of_session(book, session[1])}
    summed = summed_of_book(book, ledger.state.facts)
    if not trails and not summed:
        return {}
    rows = rows_of_session(session[1])
    found = []
    for fact in ledger.state.facts:
        trail = trails.get((fact.line, fact.id))
        if trail is not None and not fact.struck:
            found.append(MeasuredFact(fact, trail, differs(trail, rows)))
    periods = [each for each in page.statements if each.is_of_period and each.days]
    parts = {each.period: _part(each, found, summed) for each in periods}
    return {name: part for name, part in parts.items() if part.facts or part.summed.readings}


def _part(
    statement: Statement, found: Sequence[MeasuredFact], summed: Sequence[SummedReading]
) -> MeasuredPart:
    """Return the facts of a period, those first on which its balance rests."""
    first, last = (day_number(text) or 0 for text in statement.days or ("", ""))
    own: list[tuple[bool, str, int, str, MeasuredFact]] = []
    for each in found:
        fact = each.fact
        is_dip = fact.kind == "dip"
        if first - is_dip <= fact.last and fact.first <= last:
            is_between = is_dip and fact.last not in (first - 1, last)
            own.append((is_between, fact.of, fact.first, fact.id, each))
    own.sort(key=lambda each: each[:4])
    shown = [each[-1] for each in own[: limits.MEASURED_SHOWN]]
    return MeasuredPart(shown, len(own) - len(shown), summed_part(summed, first, last))


def measured_sheet(
    parts: Mapping[str, MeasuredPart]
) -> Iterator[tuple[str | int | Decimal | None, ...]]:
    """Give the rows of it for a workbook, with the heads of the book's file after the period."""
    for period, part in parts.items():
        for each in part.facts:
            texts = each.trail.texts()
            yield period, *(_cell(text) for text in texts)


SHEET = ("period", *HEADS)


def _cell(text: str) -> str | Decimal:
    """Return a figure as a number, if a workbook keeps all its digits."""
    is_number = re.fullmatch(r"-?[0-9]+(\.[0-9]+)?", text) is not None
    return Decimal(text) if is_number and len(text.lstrip("-").replace(".", "")) <= 15 else text
