"""What lint looks for: each rule gives its findings in a session's accepted rows."""

from __future__ import annotations

from collections.abc import Callable, Iterator, Sequence

from plantbal.faults import Refusal
from plantbal.lint.components import assays, grades, unused_assays
from plantbal.lint.findings import Finding
from plantbal.lint.gates import gates
from plantbal.lint.lacking import (
    after_report,
    in_no_period,
    missing_dips,
    missing_readings,
    no_transfers,
    not_looked_at,
    not_reported,
    nothing_asked,
    refused_rows,
)
from plantbal.lint.plant import nearly_full, near_names, never_served, one_sided
from plantbal.lint.silent import exchanged, kinks, scatter
from plantbal.lint.studies import costs, untested_reports, worse_classes
from plantbal.lint.values import densities, magnitudes, odd_deviations
from plantbal.model.ledger import Ledger

_FINDERS: tuple[Callable[[Ledger], Iterator[Finding]], ...] = (
    nothing_asked,
    missing_readings,
    missing_dips,
    in_no_period,
    after_report,
    no_transfers,
    not_reported,
    one_sided,
    never_served,
    near_names,
    magnitudes,
    odd_deviations,
    densities,
    exchanged,
    kinks,
    scatter,
    worse_classes,
    untested_reports,
    gates,
    assays,
    unused_assays,
    grades,
    costs,
    nearly_full,
)


# Those that would take a row that wasn't looked at for one that isn't there.
_OF_ALL_ASKED = frozenset((missing_dips, after_report, not_reported, assays))


def find(ledger: Ledger, left_out: Sequence[Refusal] = ()) -> Iterator[Finding]:
    """Give what looks wrong in a session, rule by rule.

    Parameters
    ----------
    ledger : Ledger
        The session.
    left_out : sequence of Refusal
        Rows that were refused before the session was written.
    """
    yield from refused_rows(ledger, left_out)
    yield from not_looked_at(ledger)
    for rule in _FINDERS:
        if not ledger.unlooked or rule not in _OF_ALL_ASKED:
            yield from rule(ledger)
