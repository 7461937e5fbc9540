"""A session after its rows so far, and its one fold: `State.after`.

If the library of the proved core is installed, each row is answered by it, and the rules of this
package say what the answer means: which rule refuses the row, its column, its values, the row it
clashes with. Without the library these rules answer. All that reads a session in this package reads
this state; no rule of acceptance stands anywhere but in the effects of rows.
"""

from __future__ import annotations

from collections import defaultdict
from collections.abc import Callable
from dataclasses import dataclass
from typing import Any

from plantbal.model.asking import Advise, Component, Design, History, Report, Window
from plantbal.model.booking import (
    Amends,
    Assay,
    BooksAssay,
    BooksFact,
    Closes,
    FactRule,
    Strikes,
)
from plantbal.model.causes import Cause, Reason, Refused
from plantbal.model.core import Core, CoreSession
from plantbal.model.doubts import doubtful, unformed, unmetered
from plantbal.model.effects import (
    AddsPoint,
    Blank,
    DeclaresBoundary,
    DeclaresCritical,
    DeclaresStream,
    DeclaresTank,
    DeclaresUnit,
    Effect,
    Fields,
    MakesVersion2,
    OpensPeriod,
)
from plantbal.faults import ModelFault, Place
from plantbal.model.facts import At, Edit, Fact, Facts
from plantbal.model.forms import form_refused, row_of
from plantbal.model.periods import Period, Periods
from plantbal.model.plant import DeclaredPlant
from plantbal.model.readings import ReadingRun
from plantbal.records import without_empty_end

# What reads the effect of each kind of row.
EFFECTS: dict[str, Callable[[Fields], Effect]] = {
    "version": MakesVersion2.of,
    "boundary": DeclaresBoundary.of,
    "unit": DeclaresUnit.of,
    "tank": DeclaresTank.of,
    "strap": AddsPoint.of,
    "stream": DeclaresStream.of,
    "period": OpensPeriod.of,
    "critical": DeclaresCritical.of,
    "reading": BooksFact.reading,
    "transfer": BooksFact.transfer,
    "dip": BooksFact.dip,
    "late": BooksFact.of,
    "amend": Amends.of,
    "strike": Strikes.of,
    "close": Closes.of,
    "assay": BooksAssay.of,
    "design": Design.of,
    "advise": Advise.of,
    "report": Report.of,
    "history": History.of,
    "window": Window.of,
    "component": Component.of,
}


@dataclass(frozen=True, slots=True)
class Accepted:
    """The answer to a row that the program accepts.

    Attributes
    ----------
    effect : Effect
        What it does, or asks for.
    """

    effect: Effect


# What a row is answered.
Answer = Accepted | Refused


class State:
    """A session after its rows so far.

    Parameters
    ----------
    core : Core, optional
        A session of the library that has taken no row; it takes the rows of this one.

    Attributes
    ----------
    core : CoreSession or None
        What answers the rows; without it the rules of this package do.
    version : int
        The version of the session.
    stored : bool
        Whether a row is stored: one that doesn't ask for output.
    plant : DeclaredPlant
        What is declared.
    periods : Periods
        The periods.
    facts : Facts
        The readings, transfers and dips.
    assays : dict of (str, str, str) to Assay
        The assays by component, stream or tank, and period.
    grades : dict of (str, str) to dict of str to Assay
        The same by component and period, and by the stream or tank.
    edits : list of Edit
        The edits and closes, in order.
    asked : dict of FactRule to dict
        The code that a rule refuses each reading of a stream, or of a day, with, as far as it was
        asked; 0 if it refuses none.
    left : dict of (str, str) to list of FactRule
        The rules that are left to ask of each fact of a kind and a stream that a session may have.
    passed_days : set of (int, int)
        The first and last days of which no rule refuses a reading or a transfer.
    """

    def __init__(self, core: Core | None = None) -> None:
        self.core = None if core is None else CoreSession(core)
        self.version = 1
        self.stored = False
        self.plant = DeclaredPlant()
        self.periods = Periods()
        self.facts = Facts(self._verify)
        self.assays: dict[tuple[str, str, str], Assay] = {}
        self.grades: dict[tuple[str, str], dict[str, Assay]] = {}
        self.edits: list[Edit] = []
        self.asked: defaultdict[FactRule, dict[Any, int]] = defaultdict(dict)
        self.left: dict[tuple[str, str], list[FactRule]] = {}
        self.passed_days: set[tuple[int, int]] = set()

    def __getstate__(self) -> dict[str, Any]:
        # a session of the library can't be copied; who copies a state asks anew, or has these rules
        return {**self.__dict__, "core": None}

    def judge(self, fields: tuple[str, ...]) -> Answer:
        """Return the answer to a row by the rules of this package, without taking it.

        Parameters
        ----------
        fields : tuple of str
            Its fields, of which the first is its kind. Empty ones at the end are dropped.
        """
        record = without_empty_end(fields)
        if not record:
            return Accepted(Blank())
        row = row_of(record, self.version, self.stored)
        if isinstance(row, Refused):
            return row
        wrong = form_refused(row, record)
        if wrong is not None:
            return wrong
        effect = EFFECTS[row.kind](Fields(row.names, record[1:]))
        return effect.refused(self) or Accepted(effect)

    def after(self, fields: tuple[str, ...], at: At = At()) -> Answer:
        """Take a row, and return the answer to it.

        Parameters
        ----------
        fields : tuple of str
            Its fields.
        at : At
            Where it stands.

        Raises
        ------
        ModelFault
            If the core accepts the row, and the rules of this package refuse it.
        """
        if self.core is None:
            return self._taken(self.judge(fields), at)
        return self.after_core(self.core.code(fields), fields, at)

    def after_core(self, code: int, fields: tuple[str, ...], at: At) -> Answer:
        """Take a row that the core has answered, and return what the answer means.

        The core's answer holds. If the rules of this package refuse the row otherwise, or not at
        all, the answer says so; if they refuse what the core accepts, nothing can be said of the
        session any more.

        Parameters
        ----------
        code : int
            The code of the core, 0 if it accepts the row.
        fields, at
            As in `after`.

        Raises
        ------
        ModelFault
            As in `after`.
        """
        own = self.judge(fields)
        if code == (own.cause if isinstance(own, Refused) else 0):
            return self._taken(own, at)
        said = "accept it" if isinstance(own, Accepted) else f"refuse it with {own.cause.said}"
        if code:
            return Refused(Reason.CORE_ALONE, values={"own": said}, core=Cause(code))
        place = Place(line=at.line or None, record=at.record or None)
        raise ModelFault(without_empty_end(fields), said, place)

    def _taken(self, answer: Answer, at: At) -> Answer:
        """Do what an answered row does, and return the answer."""
        if isinstance(answer, Accepted):
            effect = answer.effect
            effect.store(self, at)
            if not isinstance(effect, BooksFact):
                self.asked.clear()
                self.left.clear()
                self.passed_days.clear()
            self.stored = self.stored or not (effect.asks or isinstance(effect, Blank))
        return answer

    def takes_run(self, run: ReadingRun) -> bool:
        """Take a run of readings if each of them is accepted, and say whether it is taken.

        Parameters
        ----------
        run : ReadingRun
            The readings.
        """
        if doubtful(self, run) or not self.facts.book_run(run):
            return False
        self.stored = True
        return True

    def apart(self, run: ReadingRun) -> set[int]:
        """Return the places of the readings of a run that have to be judged by themselves.

        All others are accepted, and `after_readings` takes them.
        """
        return doubtful(self, run) | self.facts.taken(run)

    def after_readings(self, run: ReadingRun) -> None:
        """Take readings of which `apart` had no doubt, when all before them are taken."""
        booked = self.facts.book_run(run)
        assert booked, "its ids and days are nowhere else"
        self.stored = True

    def after_accepted(self, run: ReadingRun) -> None:
        """Take a run of readings that the core has accepted."""
        self.facts.book_unseen(run)
        self.stored = True

    def _verify(self, run: ReadingRun) -> None:
        """Look at a run that the core accepted, before its facts are made.

        Raises
        ------
        ModelFault
            If it has no six fields, a form that isn't one, or a stream that isn't metered.
        """
        places = run.rows.odd or unformed(run) | unmetered(self, run)
        if places:
            raise run.disagreement(min(places))

    # ---- what is there

    def periods_of(self, fact: Fact) -> list[Period]:
        """Return the periods that a fact counts in; a dip closes one and opens the next."""
        if fact.kind != "dip":
            return self.periods.within(fact.first, fact.last)
        day, tank = fact.first, self.plant.streams[fact.of]
        near = self.periods.within(day, day + 1)
        return [each for each in near if tank.is_in(each) and day in tank.ends_of(each)]

    def touched(self, edit: Edit) -> list[str]:
        """Return the names of the periods that an edit touches, or of the one that it closes."""
        fact = edit.fact
        if fact is None:
            return [edit.period]
        return [period.name for period in self.periods_of(fact)]

    def content(self, dip: Fact) -> int:
        """Return what a tank holds at the level of a dip, in grams."""
        return self.plant.volume(dip.of, dip.mm) * dip.density // 1_000_000
