"""What a book requires to be approved: its rules, submissions, approvals, and who has signed what."""

from __future__ import annotations

from collections.abc import Mapping
from pathlib import Path

from plantbal.book import closing
from plantbal.book.approval import approving, history, ruling, state
from plantbal.book.approval.approving import Approved
from plantbal.book.approval.history import Looked
from plantbal.book.approval.record import ApprovalDeed
from plantbal.book.approval.rules import Rules
from plantbal.book.approval.state import Waiting
from plantbal.book.library.base import Base
from plantbal.book.results import Closed, Reported
from plantbal.book.store import Head
from plantbal.gates import Gate
from plantbal.program import RunSettings


class Approvals(Base):
    """The approvals of a book."""

    def rules(self) -> Rules | None:
        """Return the rules of the book, or None if it has none."""
        store = self._store()
        with store.opened(reading=True):
            return state.rules_of(store)

    def set_rules(
        self,
        rules: str | Path | None = None,
        *,
        signers: str | Path | None = None,
        revoked: str | Path | None = None,
        why: str = "",
    ) -> Head:
        """Give the book rules, and say who may sign in it.

        Parameters
        ----------
        rules : str or Path, optional
            The file of rules.
        signers : str or Path, optional
            Who may sign, as OpenSSH's `allowed_signers`.
        revoked : str or Path, optional
            Keys that are revoked.
        why : str
            What there is to say of it.

        Raises
        ------
        Submitted
            If the book has rules: then others need an approval by these.
        Fault
            If nothing could be approved by them, or a key would be lost.
        """
        store, who = self._store(), self.who
        return ruling.set_rules(
            store, rules=rules, signers=signers, revoked=revoked, why=why, who=who
        )

    def closing(self, period: str, *, settings: RunSettings | None = None) -> Reported | None:
        """Return the report with which a period would be closed, and what stops it; do nothing.

        Parameters
        ----------
        period : str
            The period.
        settings : RunSettings, optional
            How it is run; without a number of rounds as its last report.

        Returns
        -------
        Reported or None
            None if the period is closed already.
        """
        return closing.closing(self._store(), period, self._settings(settings))

    def submit(
        self,
        period: str,
        *,
        anyway: Mapping[Gate, str] | None = None,
        settings: RunSettings | None = None,
        record: str = "",
        signature: str = "",
    ) -> Closed:
        """Submit the close of a period, which waits for an approval by somebody else.

        The other parameters are those of `close`; the head of what is returned is that which an
        approval has to name.

        Parameters
        ----------
        record, signature : str
            The text of `close_to_sign`, and its signature, if it was signed elsewhere.

        Raises
        ------
        NotClosed
            If there is no reason for a gate.
        Fault
            If the book has no rules, or whoever does this may not.
        """
        store = self._store((record, signature) if signature else None)
        how = self._settings(settings)
        return closing.submit(store, period, anyway=anyway or {}, settings=how, who=self.who)

    def close_to_sign(
        self,
        period: str,
        *,
        anyway: Mapping[Gate, str] | None = None,
        settings: RunSettings | None = None,
    ) -> str:
        """Return the text that the submission of a close signs, to be signed elsewhere.

        The parameters are those of `close`. What is submitted within an hour with the same reasons
        and nothing done in the book since takes it.
        """
        store, how = self._store(), self._settings(settings)
        return closing.close_to_sign(store, period, anyway=anyway or {}, settings=how, who=self.who)

    def waiting(self) -> list[Waiting]:
        """Return what waits for an approval."""
        store = self._store()
        with store.opened(reading=True, tested=False):
            return state.waiting_in(store)

    def approve(self, head: str, *, record: str = "", signature: str = "") -> Approved:
        """Approve what was submitted, and do it if it has all approvals that it wants.

        Parameters
        ----------
        head : str
            The head of the submission, as it was shown.
        record, signature : str
            The text of `to_sign`, and its signature, if it was signed elsewhere.

        Raises
        ------
        SamePerson
            If it is whoever has submitted it, or the last one who has changed a figure.
        Voided
            If what was submitted isn't what would be done now.
        Fault
            If nothing of that head waits, or the signature isn't believed.
        """
        store = self._store((record, signature) if signature else None)
        program = str(self.program) if self.program is not None else None
        return approving.approve(store, head, program=program, who=self.who)

    def reject(self, head: str, *, why: str, record: str = "", signature: str = "") -> Head:
        """Reject what was submitted, or take it back; it is done no more.

        Parameters
        ----------
        head : str
            The head of the submission.
        why : str
            The reason.
        record, signature : str
            The text of `to_sign`, and its signature, if it was signed elsewhere.

        Raises
        ------
        Fault
            If nothing of that head waits, or there is no reason.
        """
        store = self._store((record, signature) if signature else None)
        return approving.reject(store, head, why=why, who=self.who)

    def to_sign(self, head: str, deed: ApprovalDeed = ApprovalDeed.APPROVE) -> str:
        """Return what an approval of a submission signs, to be signed elsewhere; or a rejection."""
        return approving.to_sign(self._store(), head, deed, who=self.who)

    def signed(self, authority: str = "") -> list[Looked]:
        """Return who has signed and approved what, and what isn't signed or approved.

        Parameters
        ----------
        authority : str
            The certificate of the time stamps' authority, if these are to be judged.
        """
        store = self._store()
        with store.opened(reading=True, tested=False):
            return list(history.looked(store, authority))
