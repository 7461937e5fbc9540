"""The words of a run: as they are asked for, as a manifest has them, as a report shows them."""

from __future__ import annotations

import re

from plantbal.audit.held import whole_or_none
from plantbal.faults import Fault
from plantbal.program import words_of
from plantbal.report.output import Output
from plantbal.report.rounds import rounds_shown


def words_read(text: str) -> list[str]:
    """Return the words of a run.

    Raises
    ------
    Fault
        If they are no words of a run: nothing else is ever run.
    """
    words = text.split()
    rest = " ".join(words[1:])
    known = r"(--tests|--(gap|sweeps|eliminate) [0-9]{1,7})"
    if words[:1] != ["run"] or not re.fullmatch(rf"({known}( |$))*", rest):
        raise Fault(
            f"the words {text!r} aren't those of a run",
            text=text,
            remedy="such as: run --gap 10 --sweeps 5000 --tests",
        )
    return words


def words_shown(output: Output) -> list[str]:
    """Return words of a run that give a report, as far as it shows them."""
    blocks = output.blocks_in_order
    if not blocks:
        return words_of(tests=True, eliminate=0, gap=10, sweeps=5000)
    head = blocks[0].head
    return words_of(
        tests=blocks[0].whole is not None,
        eliminate=rounds_shown(output),
        gap=whole_or_none(head["gap"]) or 0,
        sweeps=whole_or_none(head["sweeps"]) or 0,
    )
