"""What to do about findings of lint where that is a command or a row: what shows them may have more to offer."""

from __future__ import annotations

from plantbal.causes import Causes


class LintRemedy(Causes):
    """What to do about a finding, by what a session and the commands offer."""

    BY_ASSAYS = (
        "assays may determine it: plantbal-desk balance reconciles both at once; "
        "or book what is missing, or measure a stream of its cycle"
    )
    WRITE_CRITICAL = "`plantbal-desk critical 0.05 1-20` writes them"
    WRITE_ONE_CRITICAL = "`plantbal-desk critical 0.05 {dof}` writes it"
    WRITE_LACKING = "`plantbal-desk {words}` writes them"
    WRITE_TESTS = "`plantbal-desk {words}` writes them, N being the number of such tests"
    BY_WINDOW = (
        "book the dip; a tank that stood still has the same dip on both days; if nobody "
        "dipped it, `window,{one},{after}` has what it held"
    )
