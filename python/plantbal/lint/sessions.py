"""The findings of a session, and in how many words they are said."""

from __future__ import annotations

import sys
from collections import Counter
from collections.abc import Iterable, Sequence
from pathlib import Path

from plantbal import limits
from plantbal.faults import too_large
from plantbal.forms import other_form
from plantbal.lint.findings import SEVERITIES, Finding
from plantbal.lint.rules import find
from plantbal.memory import uncollected
from plantbal.model.ledger import Ledger
from plantbal.runs import session_bytes
from plantbal.session import Session


def lint_session(
    session: Session | str | Path | bytes,
    *,
    ignore: Iterable[str] = (),
    accounts: str | Path | None = None,
) -> list[Finding]:
    """Return what of a session is accepted and looks wrong, the worst first.

    Parameters
    ----------
    session : Session, bytes, str or Path
        The session, its bytes, or a file; ``-`` is standard input.
    ignore : iterable of str
        Codes to leave out.
    accounts : str or Path, optional
        The accounts of a book: what is in none is a finding too.
    """
    source, data, left_out = session_bytes(session)
    with uncollected():
        ledger = _ledger(source, data)
        kept_out = session.refused if isinstance(session, Session) and left_out else ()
        found = list(find(ledger, kept_out))
        if accounts is not None:
            from plantbal.lint.accounts import lacking

            found += lacking(ledger, accounts)
    unwanted = set(ignore)
    kept = [each for each in found if each.code not in unwanted]
    return sorted(kept, key=lambda each: (SEVERITIES.index(each.severity), each.place.line or 0))


def _ledger(source: str, data: bytes) -> Ledger:
    """Return a session with the first of its refused rows: only of this one the sentence is said.

    Raises
    ------
    InputFault
        If it has too many bytes, or is of another form.
    """
    if len(data) > limits.SESSION_BYTES:
        raise too_large(source, limits.SESSION_BYTES)
    fault = other_form(source, data)
    if fault is not None:
        raise fault
    return Ledger(source, data, kept=1, most=limits.LINT_STREAMS)


def summary(findings: Sequence[Finding]) -> str:
    """Return in one line how many findings there are; nothing if there are none."""
    said = []
    for severity in SEVERITIES:
        some = [each.code for each in findings if each.severity == severity]
        if some:
            codes = ", ".join(
                f"{code} ({count})" if count > 1 else code for code, count in Counter(some).items()
            )
            said.append(f"{len(some)} {severity}{'s' if len(some) > 1 else ''}: {codes}")
    return "; ".join(said)


def brief(findings: Sequence[Finding]) -> str:
    """Return the same of errors and warnings alone."""
    return summary([each for each in findings if each.severity != "note"])


def say_brief(prog: str, session: Session | str | Path | bytes) -> None:
    """Say on standard error in one line what looks wrong in a session, if anything does."""
    found = brief(lint_session(session))
    if found:
        said = f"lint of the session: {found} (plantbal-desk lint SESSION says more)"
        print(f"{prog}: {said}", file=sys.stderr)
