"""What looks wrong in the years of a book after a workbook is added, and didn't before.

Rules about amounts compare the facts of a stream or tank with each other. So only those to which the
workbook adds facts, or of which it changes or strikes some, can look otherwise than before, and only
their facts are looked at, twice: before anything is put, and after.
"""

from __future__ import annotations

from collections import defaultdict
from collections.abc import Callable, Collection, Iterable, Iterator

from plantbal.book.forms import year_file
from plantbal.book.ledger import YearLedger
from plantbal.lint import SEVERITIES, Finding
from plantbal.lint.plant import near_names
from plantbal.lint.values import densities, magnitudes, odd_deviations
from plantbal.model.ledger import Ledger

Rule = Callable[[Ledger], Iterator[Finding]]
_OF_NAMES: tuple[Rule, ...] = (near_names,)
_OF_FACTS: tuple[Rule, ...] = (magnitudes, odd_deviations, densities)


class Doubts:
    """What looked wrong in years before rows were put to them, and what does since."""

    def __init__(self) -> None:
        self._places: frozenset[str] = frozenset()
        self._before: defaultdict[str, set[tuple[str, str]]] = defaultdict(set)

    def look_at_names(self, ledger: YearLedger) -> None:
        """Look at the names of a year to which nothing was put."""
        self._note(ledger, _found(ledger, _OF_NAMES, ()))

    def look_at_facts(self, ledgers: Iterable[YearLedger], places: Iterable[str]) -> None:
        """Look at the facts of some streams and tanks, in years to which no fact was put."""
        self._places = frozenset(places)
        for ledger in ledgers:
            self._note(ledger, _found(ledger, _OF_FACTS, self._places))

    def _note(self, ledger: YearLedger, findings: Iterable[Finding]) -> None:
        self._before[ledger.name].update((each.text, each.remedy) for each in findings)

    def since(self, ledger: YearLedger) -> list[Finding]:
        """Return what looks wrong in a year since rows were put to it, the worst first."""
        if not ledger.added:
            return []
        known = self._before[ledger.name]
        every = _found(ledger, (*_OF_NAMES, *_OF_FACTS), self._places)
        found = [each for each in every if (each.text, each.remedy) not in known]
        return sorted(
            found, key=lambda each: (SEVERITIES.index(each.severity), each.place.line or 0)
        )


def _found(ledger: YearLedger, rules: Iterable[Rule], places: Collection[str]) -> Iterator[Finding]:
    """Give what some rules say of a year; of facts those of some streams and tanks.

    Its rows aren't judged again: the rules look at the session that the ledger has.
    """
    session = Ledger.of_state(year_file(ledger.name), ledger.session.state, places)
    for rule in rules:
        yield from rule(session)
