"""Looks at each action of a book: who has signed and approved it, and what should have been.

The commands hold back what needs an approval. Whoever writes into the folder by other means isn't
held back; so here all of it is judged once more, from the journal and the rows alone, by the rules
that held at the time.
"""

from __future__ import annotations

import csv
from collections.abc import Iterator
from dataclasses import dataclass

from plantbal.audit.said import SentenceKind
from plantbal.book.answers import overruled_gates
from plantbal.book.approval.changers import changers, marks_of_doer
from plantbal.book.approval.identity import marks_of
from plantbal.book.approval.proposal import SubmittedMonth
from plantbal.book.approval.record import ApprovalDeed, ApprovalRecord
from plantbal.book.approval.rules import May, Rules, Want, read_rules
from plantbal.book.approval.state import keys_of, record_of, rules_of, signed_of, submitted_month
from plantbal.book.forms import ACCOUNTS, APPROVALS, RULES, approval_file, year_file
from plantbal.book.journal import Act, JournalLine, Kept, printable_line
from plantbal.book.ledger import BookFact
from plantbal.book.said import touched_by
from plantbal.book.store import Store
from plantbal.book.years import Years
from plantbal.faults import Fault
from plantbal.gates import Gate
from plantbal.signing.stamps import stamped


@dataclass(frozen=True)
class Looked:
    """What was found of an action.

    Attributes
    ----------
    kind : SentenceKind
        How it is.
    number : int
        The action; 0 if it is about the whole book.
    said : str
        What was found, in a sentence.
    """

    kind: SentenceKind
    number: int
    said: str


@dataclass(frozen=True)
class _Approval:
    """What an action that was approved rests on."""

    line: JournalLine
    record: ApprovalRecord
    submission: JournalLine
    proposal: SubmittedMonth


class _Look:
    """A look at a book that is open."""

    def __init__(self, book: Store) -> None:
        self.book = book
        self.lines = book.journal()
        self.keys = keys_of(book)
        self.years = Years(book)
        self.rules: Rules | None = None
        self.used: set[int] = set()
        self.changes = dict(_changes_of_closed(book, self.years))

    def at(self, line: JournalLine) -> Iterator[Looked]:
        """Give what is found of a line."""
        try:
            record = record_of(self.book, line)
        except Fault as fault:
            yield Looked(SentenceKind.WRONG, line.number, f"{line.said()}: {fault}")
            return
        if record is not None:
            yield from self._record(line, record)
        elif any(name.startswith(f"{APPROVALS}/") for name in line.files):
            what = f"{line.said()}: its record is of another action"
            yield Looked(SentenceKind.WRONG, line.number, what)
        if self.rules is not None:
            yield from self._approvals(line, record, self.rules)
        elif line.act is Act.CLOSE:
            yield Looked(
                SentenceKind.NOTE, line.number, f"{line.said()}: nobody has signed or approved it"
            )
        if line.act is Act.RULES:
            self._take_rules(line, record)

    def _take_rules(self, line: JournalLine, record: ApprovalRecord | None) -> None:
        """Take the rules that hold from a line on."""
        number = line.number
        if record is not None and record.submission is not None:
            number = record.submission[0]
        proposal = submitted_month(self.book, number)
        if RULES in proposal.written:
            self.rules = read_rules(RULES, proposal.written[RULES])

    def _record(self, line: JournalLine, record: ApprovalRecord) -> Iterator[Looked]:
        """Give whether a record is of its line, and who has signed it."""
        before = self.lines[line.number - 2]
        place = (before.number, before.digest)
        if (record.number, record.after, record.book) != (line.number, place, self.lines[0].digest):
            what = f"{line.said()}: its record is of another place or another book"
            yield Looked(SentenceKind.WRONG, line.number, what)
        if record.user != line.user:
            what = f"{line.said()}: its record is of another user, {record.user}"
            yield Looked(SentenceKind.WRONG, line.number, what)
        if not before.when <= record.when <= line.when:
            what = f"{line.said()}: its record says {record.when}, which isn't between the actions"
            yield Looked(SentenceKind.WRONG, line.number, what)
        signed = signed_of(self.book, record, self.keys)
        if signed is None:
            is_wanted = self.rules is not None and self.rules.keys
            kind = SentenceKind.WRONG if is_wanted else SentenceKind.NOTE
            yield Looked(kind, line.number, f"{line.said()}: nobody has signed it")
            return
        kind = SentenceKind.GOOD if signed.name else SentenceKind.WRONG
        yield Looked(kind, line.number, f"{line.said()}: {signed.said()}")
        yield from self._stamp(line)

    def _stamp(self, line: JournalLine) -> Iterator[Looked]:
        """Give what the time stamp of a signature says, as it is: an authority isn't named here."""
        name = approval_file(line.number, "tsr")
        if not self.book.has(name):
            what = f"{line.said()}: no server has stamped its time: it is what this machine said"
            yield Looked(SentenceKind.NOTE, line.number, what)

    def stamps(self, authority: str) -> Iterator[Looked]:
        """Give whether the time stamps are of an authority, and what they say."""
        for line in self.lines:
            token, name = (approval_file(line.number, kind) for kind in ("tsr", "sig"))
            if self.book.has(token):
                data = self.book.text(name).encode("utf-8")
                found = stamped(data, self.book.text(token), authority)
                kind = SentenceKind.GOOD if found.when is not None else SentenceKind.WRONG
                yield Looked(kind, line.number, f"{line.said()}: {found.said()}")

    # ---- approvals

    def _approvals(
        self, line: JournalLine, record: ApprovalRecord | None, rules: Rules
    ) -> Iterator[Looked]:
        """Give whether an action has the approvals that it wants."""
        wants = list(self._wants(line, rules))
        is_done = line.act not in (Act.SUBMIT, Act.APPROVE, Act.REJECT)
        if not (wants or record is not None) or not is_done:
            return
        said = f"{line.said()}: it needs an approval ({', '.join(wants)})"
        if record is None or record.deed is not ApprovalDeed.APPROVE or record.submission is None:
            yield Looked(SentenceKind.WRONG, line.number, f"{said}, and nobody has approved it")
            return
        try:
            found = self._approval(line, record)
        except Fault as fault:
            yield Looked(SentenceKind.WRONG, line.number, f"{line.said()}: {fault}")
            return
        why = list(self._against(found, rules))
        for each in why:
            yield Looked(SentenceKind.WRONG, line.number, f"{line.said()}: {each}")
        if not why:
            by, of = record.who or record.user, found.submission
            what = f"{line.said()}: submitted by {self._who(of)} as action {of.number}"
            yield Looked(SentenceKind.GOOD, line.number, f"{what}, approved by {by}")

    def _who(self, line: JournalLine) -> str:
        record = record_of(self.book, line)
        signed = signed_of(self.book, record, self.keys) if record is not None else None
        return (signed.name if signed is not None else "") or line.who or line.user

    def _approval(self, line: JournalLine, record: ApprovalRecord) -> _Approval:
        """Return what an approved action rests on.

        Raises
        ------
        Fault
            If there is no such submission.
        """
        assert record.submission is not None
        number, digest = record.submission
        there = self.lines[number - 1] if 0 < number < line.number else None
        if there is None or there.digest != digest or there.act is not Act.SUBMIT:
            raise Fault(f"action {number}, which it approves, isn't a submission of this book")
        if number in self.used:
            raise Fault(f"action {number} was done already, or rejected")
        self.used.add(number)
        return _Approval(line, record, there, submitted_month(self.book, number))

    def _against(self, found: _Approval, rules: Rules) -> Iterator[str]:
        """Give what speaks against an approval."""
        line, proposal = found.line, found.proposal
        if (proposal.act, proposal.of) != (line.act.value, line.of):
            yield f"{proposal.act} {proposal.of} was submitted"
        if (printable_line(proposal.what), printable_line(proposal.why)) != (line.what, line.why):
            yield "it says something else, or another reason, than was submitted"
        yield from self._other_rows(found)
        some = [each for each in self.lines if self._approves(each, found.submission)]
        if len(some) + 1 < rules.approvers:
            yield f"{len(some) + 1} of {rules.approvers} have approved it"
        yield from self._against_people([*some, line], found, rules)

    def _approves(self, line: JournalLine, submission: JournalLine) -> bool:
        record = record_of(self.book, line) if line.act is Act.APPROVE else None
        return record is not None and record.submission == (submission.number, submission.digest)

    def _against_people(
        self, approvals: list[JournalLine], found: _Approval, rules: Rules
    ) -> Iterator[str]:
        """Give which of those who approved may not, and who is one person with another."""
        doer = marks_of_doer(self.book, found.submission, rules)
        marks: list[frozenset[str]] = []
        for line in approvals:
            record = record_of(self.book, line)
            signed = signed_of(self.book, record, self.keys) if record is not None else None
            key = signed.name if signed is not None else ""
            name = key or (record.who if record is not None else "")
            # A line that was approved names who submitted it; who approved it stands in its record.
            who, user = (record.who, record.user) if record is not None else (line.who, line.user)
            own = marks_of(user, who, rules, key) | ({f"name {who}"} if who else set())
            if own & doer:
                yield f"{name or line.user} has submitted it and approved it"
            if any(own & other for other in marks):
                yield f"{name or line.user} has approved it twice"
            if not rules.may(name, May.APPROVE):
                yield f"{name or line.user} may not approve"
            marks.append(own)
        if found.proposal.act == Act.CLOSE:
            yield from self._against_changers(marks, found, rules)

    def _against_changers(
        self, marks: list[frozenset[str]], found: _Approval, rules: Rules
    ) -> Iterator[str]:
        """Give who has approved a close and changed a figure of it."""
        ledger = self.years.of_period(found.proposal.of)
        kept = found.record.files.get(year_file(ledger.name))
        upto = kept.lines if kept is not None else None
        for line, doer in changers(
            self.book, ledger, found.proposal.of, rules, rules.changed, upto=upto
        ):
            if line.number < found.line.number and any(doer & each for each in marks):
                yield f"whoever approved it has changed a figure of it: {line.said()}"

    def _other_rows(self, found: _Approval) -> Iterator[str]:
        """Give what was done otherwise than it was submitted."""
        for name, text in found.proposal.rows.items():
            added = found.line.added.get(name.removesuffix(".csv"), range(0))
            rows = self.book.text(name).split("\n")[added.start - 1 : added.stop - 1]
            if "".join(f"{row}\n" for row in rows) != text:
                yield f"other rows of {name} were added than were submitted"
        for name, text in found.proposal.written.items():
            kept = found.line.files.get(name)
            if kept is not None and kept != Kept.of(text.encode("utf-8")):
                yield f"another {name} was written than was submitted"

    # ---- what wanted one

    def _wants(self, line: JournalLine, rules: Rules) -> Iterator[Want]:
        """Give why an action wanted an approval, by the rules that held."""
        if line.act is Act.RULES:
            yield Want.RULES
        if line.act is Act.ACCEPT:
            yield Want.ACCEPT
        gates = overruled_gates(line)
        if line.act is Act.CLOSE and Want.CLOSE in rules.wants:
            yield Want.CLOSE
        early = line.act is Act.QUIET or any(gate != Gate.ESTIMATED for gate in gates)
        if early and Want.ANYWAY in rules.wants:
            yield Want.ANYWAY
        if Want.AMEND in rules.wants and self._changed_closed(line):
            yield Want.AMEND

    def _changed_closed(self, line: JournalLine) -> bool:
        """Say whether an action changed the figures of a closed period."""
        if line.number in self.changes:
            return True
        closed = any(each.act is Act.CLOSE for each in self.lines[: line.number - 1])
        return line.act is Act.ADD and ACCOUNTS in line.files and closed


def looked(book: Store, authority: str = "") -> Iterator[Looked]:
    """Give what is found of each action of a book that is open.

    Parameters
    ----------
    book : Store
        The book.
    authority : str
        The certificate of the time stamps' authority, as PEM, if they are to be judged.
    """
    rules_of(book)  # they are as the journal says
    look = _Look(book)
    for line in look.lines:
        yield from look.at(line)
    if authority:
        yield from look.stamps(authority)
    if look.rules is None:
        what = "the book has no rules: nobody had to approve anything"
        yield Looked(SentenceKind.NOTE, 0, what)


def _changes_of_closed(book: Store, years: Years) -> Iterator[tuple[int, tuple[str, ...]]]:
    """Give the actions that changed closed periods, with these."""
    texts = {span.name: book.text(year_file(span.name)).split("\n") for span in years.spans}
    for line in book.journal():
        found: dict[str, None] = {}
        for year, numbers in line.added.items():
            if year in texts:
                found |= dict.fromkeys(_closed_by(years, year, texts[year], numbers))
        if found:
            yield line.number, tuple(found)


def _closed_by(years: Years, year: str, rows: list[str], numbers: range) -> Iterator[str]:
    """Give the periods that some rows of a year change after their close."""
    closes = {row.split(",")[1]: at for at, row in enumerate(rows, 1) if row.startswith("close,")}
    for number in numbers:
        text = rows[number - 1] if number <= len(rows) else ""
        if not text.startswith(("late,", "amend,", "strike,")):
            continue
        ledger = years[year]
        row = next(csv.reader([text]))
        facts = [BookFact.of(row)] if row[0] == "late" else []
        facts += [fact for at, fact in ledger.edits.get(row[1], ()) if at == number]
        for fact in facts:
            touched = touched_by(ledger, fact)
            yield from (name for name in touched if closes.get(name, number) < number)
