"""The second judge of a report, whose proof is in Coq: ``plantbal-verify``, if it is there."""

from __future__ import annotations

import os
import shutil
from pathlib import Path

from plantbal.faults import ProgramFault, ToolMissing
from plantbal.program import call


def find_verify() -> Path | None:
    """Return where ``plantbal-verify`` is, or None.

    It is that of the environment's ``PLANTBAL_VERIFY``, else the one on the path. An empty
    ``PLANTBAL_VERIFY`` asks for none.

    Raises
    ------
    ToolMissing
        If ``PLANTBAL_VERIFY`` names a program that isn't there.
    """
    named = os.environ.get("PLANTBAL_VERIFY")
    if named == "":
        return None
    found = shutil.which(named or "plantbal-verify")
    if found is not None:
        return Path(found).resolve()
    if named:
        raise ToolMissing(f"program {named}", "plantbal-verify, or leave PLANTBAL_VERIFY out")
    return None


def second_verdict(data: bytes, said: bytes, seconds: float | None = None) -> tuple[bool, str]:
    """Return whether the second judge says the same of a report, and a sentence about it.

    Parameters
    ----------
    data : bytes
        The report.
    said : bytes
        The rows that a check of it wrote.
    seconds : float, optional
        How long the second judge may take.

    Returns
    -------
    tuple of bool and str
        The sentence is empty if there is no second judge.
    """
    program = find_verify()
    if program is None:
        return True, ""
    try:
        rows = call([], data, program=program, timeout=seconds)[1]
    except ProgramFault as fault:
        return False, str(fault)
    if rows == said:
        return True, "plantbal-verify, whose proof is in Coq, says the same of each block"
    lines, others = said.splitlines(), rows.splitlines()
    place = next(
        (at for at, (one, other) in enumerate(zip(lines, others)) if one != other),
        min(len(lines), len(others)),
    )
    one, other = ((b.decode() for b in each[place : place + 1]) for each in (lines, others))
    what = f"plantbal-verify says {next(other, 'nothing')}, and the check {next(one, 'nothing')}"
    return False, f"finding {place + 1}: {what}: one of the two errs"
