"""What each stream carries of each component, as rows of a page."""

from __future__ import annotations

from plantbal.report.output import Output
from plantbal.sentence import Joined, phrase
from plantbal.study.recovering import lines_of_shares
from plantbal.study.recovery import ComponentBalance, balances_of, mass_of
from plantbal_office.sentences import said

_FIGURES = ("t", "± t", "grade", "± of it", "in sd", "share", "±")


def component_rows(output: Output) -> list[tuple[str, list[dict[str, object]]]]:
    """Return the components of a report, each with a row for each stream."""
    found: list[tuple[str, list[dict[str, object]]]] = []
    for block in balances_of(output) if any(b.component for b in output.blocks_in_order) else []:
        lines = lines_of_shares(ComponentBalance(block, mass=mass_of(output, block)).shares())
        rows: list[dict[str, object]] = [
            {
                "stream": said(Joined("", [line["stream"]])),
                "way": said(phrase(line["way"])),
                "figures": [line[name] for name in _FIGURES],
            }
            for line in lines
        ]
        found.append((block.component, rows))
    return found
