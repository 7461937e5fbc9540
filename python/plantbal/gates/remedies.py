"""What to do at a gate where that is a command or an option: the desk in the browser has its own."""

from __future__ import annotations

from plantbal.causes import Causes


class GateRemedy(Causes):
    """What to do at a gate, by what the commands offer."""

    MORE_SWEEPS = "allow more sweeps: --sweeps 50000, or plantbal-desk solve"
    SMALLER_GAP = "ask for a smaller gap: --gap 1"
    ONE_CRITICAL = "`plantbal-desk critical 0.05 {dof}` gives one"
    WITH_TESTS = "make the report with --tests"
