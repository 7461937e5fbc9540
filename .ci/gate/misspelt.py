"""Misspelt words that a checker of types has to find: `mypy` says so if one of these lines is good."""

from __future__ import annotations

from plantbal import Finding, Session
from plantbal.report.blocks import Block


def misspelt(session: Session, block: Block, finding: Finding) -> list[bool]:
    """Say each wrong word once; nothing calls this."""
    session.stream("A", "env", "U", "metred")  # type: ignore[arg-type]
    session.critical("globl", value="3.841")  # type: ignore[arg-type]
    return [
        block.classes["A"] == "redundent",  # type: ignore[comparison-overlap]
        block.state == "konverged",  # type: ignore[comparison-overlap]
        block.tested == "accepted",  # type: ignore[comparison-overlap]
        finding.severity == "fatal",  # type: ignore[comparison-overlap]
    ]
