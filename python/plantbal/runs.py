"""A run of a session, and a check of a report, by the program."""

from __future__ import annotations

from collections.abc import Callable
from pathlib import Path
from typing import TYPE_CHECKING, Any

from plantbal.audit.believed import require_believed
from plantbal.faults import InputFault, Place, read_bytes
from plantbal.forms import session_to_run
from plantbal.program import call, words_of
from plantbal.report.parsing import parse_rows
from plantbal.report.frames import verdict_frame
from plantbal.report.output import Output, parse_report
from plantbal.session import Session

if TYPE_CHECKING:
    import pandas


def session_bytes(session: Session | str | Path | bytes) -> tuple[str, bytes, int]:
    """Return how a session is called, its bytes, and how many rows were left out of it.

    Parameters
    ----------
    session : Session, bytes, str or Path
        The session, its bytes, or the name of a file. Of a file with more bytes than a session may
        have, as many are read as show it.

    Raises
    ------
    InputFault
        If there is no such file, or the name is the text of a session.
    """
    if isinstance(session, Session):
        return "session", session.to_csv().encode("ascii"), session.refused.total
    if isinstance(session, bytes):
        return "session", session, 0
    if isinstance(session, str) and "\n" in session:
        what = "a text is the name of a file, and this one has several lines"
        remedy = "give the rows themselves to run_text, or as bytes"
        raise InputFault(what, text=session[:80], remedy=remedy)
    return *session_to_run(session), 0


def run(
    session: Session | str | Path | bytes,
    *,
    tests: bool = True,
    eliminate: int = 0,
    gap: int = 10,
    sweeps: int = 5000,
    program: str | Path | None = None,
    timeout: float | None = None,
    memory: int | None = None,
    watch: Callable[[bytes], None] | None = None,
    judged: bool = False,
    fallback: str = "",
) -> Output:
    """Run a session.

    Parameters
    ----------
    session : Session, bytes, str or Path
        The session, its bytes, or the name of a file. Rows in a text are for `run_text`.
    tests : bool
        Whether the global, nodal and measurement tests are made.
    eliminate : int
        At most this many rounds of elimination, with the tests; 0 is none.
    gap : int
        The greatest gap of a report that has converged, in thousandths of a standard deviation.
    sweeps : int
        At most this many sweeps.
    program : str or Path, optional
        The program, if it isn't the one that `find_program` finds.
    timeout : float, optional
        The most seconds that it may take.
    memory : int, optional
        The most bytes of memory that it may take, for a stranger's session; 100 bytes for each
        byte of the session and 20,000,000 more are ample without tests.
    watch : callable, optional
        Gets what the program writes piece by piece, and an empty piece once in a while.
    judged : bool
        Whether each report has to agree with itself, as the checker in plain Python finds: this
        takes 0.1 s for a report of 300 streams, and 1 s for one of 2,000.
    fallback : {'', 'scipy'}
        What solves a report that isn't converged, as `plantbal.solve` does: certified, and without
        tests of single measurements. It needs a run without elimination. A report on whose flows
        balances of components rest stays as it is. With tests the program first tries each
        measurement of such a report in vain, which takes minutes for 2,000 streams.

    Returns
    -------
    Output
        What the program wrote. Its `ok` is false if a row was refused, no report came, or a global
        test rejects: look at it before its flows are booked.

    Raises
    ------
    ProgramFault
        If the program ends with 2 to 6.
    InputFault
        If a number isn't in its range, or a report is judged, and doesn't agree with itself.
    Uncertified
        If what the fallback solves doesn't get the check's `yes`.
    """
    _require_fallback(fallback, eliminate)
    words = words_of(tests=tests, eliminate=eliminate, gap=gap, sweeps=sweeps)
    source, data, left_out = session_bytes(session)
    status, text = call(words, data, program=program, timeout=timeout, memory=memory, watch=watch)
    if judged:
        require_believed(text, f"the output of {source}", program)
    output = parse_report(text.decode("utf-8"), f"the output of {source}", status)
    output.left_out = left_out
    if fallback:
        from plantbal.study.solver import solved_again

        return solved_again(output, data, tests=tests, program=program, timeout=timeout)
    return output


def _require_fallback(fallback: str, eliminate: int) -> None:
    """Return if a run may have this fallback.

    Raises
    ------
    InputFault
        If there is no such engine, or rounds of elimination are asked for beside it.
    """
    if fallback not in ("", "scipy"):
        raise InputFault(
            f"there is no engine {fallback!r}", text=str(fallback), remedy="use 'scipy'"
        )
    if fallback and eliminate:
        what = "elimination needs the program's own solver, so it can't be combined with a fallback"
        raise InputFault(what, remedy="leave one of the two out")


def run_text(text: str, **how: Any) -> Output:
    """Run the rows of a text, which is never taken for the name of a file.

    Parameters
    ----------
    text : str
        The rows of a session.
    **how
        As in `run`.

    Examples
    --------
    >>> print(run_text("unit,U\\nunit,U\\ndesign\\n").summary())
    not ok: 1 row of the session was refused; there is no report
    """
    return run(text.encode("utf-8"), **how)


async def arun(session: Session | str | Path | bytes, **how: Any) -> Output:
    """Run a session, and let other coroutines go on meanwhile.

    Parameters
    ----------
    session : Session, bytes, str or Path
        As in `run`.
    **how
        As in `run`. Without a `timeout` a run that is given up goes on to its end.
    """
    import asyncio

    return await asyncio.to_thread(run, session, **how)


def check(
    report: Output | str | Path | bytes,
    *,
    program: str | Path | None = None,
    timeout: float | None = None,
    source: str = "the report",
) -> pandas.DataFrame:
    """Check the blocks of a report by their own numbers.

    Parameters
    ----------
    report : Output, bytes, str or Path
        An output, its bytes in CSV or JSON lines, or a file.
    program, timeout : optional
        As in `run`.
    source : str
        What bytes are called in what is said.

    Returns
    -------
    DataFrame
        A row a block: `verdict` is ``yes`` or ``no``, and of a ``no`` the first test that it fails,
        at which node or stream, what is stated there and what the rule gives. A row that can't be
        read is ``unreadable``, and nothing after it is judged.

    Raises
    ------
    Fault
        If there is nothing to check.
    """
    if isinstance(report, Output):
        data = report.to_csv().encode("utf-8")
    elif isinstance(report, bytes):
        data = report
    else:
        source, data = read_bytes(report)
    if data.lstrip().startswith(b"{"):
        data = parse_report(data.decode("utf-8"), source).to_csv().encode("utf-8")
    _, text = call(["check"], data, program=program, timeout=timeout)
    frame = verdict_frame(parse_rows("the check", text.decode("utf-8")))
    if not len(frame):
        raise InputFault(
            "there is no block to check",
            place=Place(file=source),
            remedy="ask for a report in the session",
        )
    return frame
