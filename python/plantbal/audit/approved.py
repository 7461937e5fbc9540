"""What a bundle has of the approvals of its month: an audit judges them without the book.

The manifest has the lines of the journal that closed the month, submitted and approved that, and changed
figures before it; the records that these name, with signatures and time stamps; and the rules and who
might sign, as they were. Each has its digest in a line, or in a record that was signed; the rows that
were approved are the first of the session, and the report that was approved is the output.
"""

from __future__ import annotations

import argparse
import hashlib
from collections.abc import Iterator, Mapping
from dataclasses import dataclass, field

from plantbal.audit.bundle import APPROVED, MANIFEST, OUTPUT, SESSION, Manifest
from plantbal.audit.linked import only_asks
from plantbal.audit.said import SentenceKind
from plantbal.audit.since import changed_since
from plantbal.audit.signed import given_keys, given_text
from plantbal.book.approval.identity import Marks, marks_of, marks_of_line
from plantbal.book.approval.record import ApprovalDeed, ApprovalRecord
from plantbal.book.approval.rules import May, Rules, read_rules
from plantbal.book.forms import RULES, REVOKED, SIGNERS, approval_file, is_year_file, report_file
from plantbal.book.journal import Act, Kept, JournalLine, read_line
from plantbal.faults import Fault, InputFault, Place
from plantbal.signing.signatures import BOOK, Keys, Signed, verified
from plantbal.signing.signers import read_signers
from plantbal.signing.stamps import stamped

# What the manifest has of them: lines of the journal by their numbers, and files by their names.
CarriedTexts = Mapping[str, Mapping[str, str]]
JOURNAL, FILES = "journal", "files"
_OWN_LIST = (
    "who may sign is what the bundle says itself: --signers compares it with the list that you have"
)


class BrokenApprovals(Fault):
    """BundleApprovals that aren't of their form: a line or a record doesn't fit another."""


@dataclass(frozen=True)
class BundledAction:
    """An action of the journal that a bundle has.

    Attributes
    ----------
    line : JournalLine
        Its line.
    record : ApprovalRecord or None
        Its record, if it was submitted or approved.
    signed : Signed or None
        Whose the record's signature is; None without one.
    """

    line: JournalLine
    record: ApprovalRecord | None = None
    signed: Signed | None = None

    @property
    def key_name(self) -> str:
        """Who has signed it, if that is believed."""
        return self.signed.name if self.signed is not None else ""

    @property
    def by(self) -> str:
        """Who did it."""
        if self.record is not None:
            return self.key_name or self.record.who or self.record.user
        return self.line.who or self.line.user

    @property
    def of(self) -> int:
        """The number of the submission that it approves; 0 if it approves none."""
        submission = self.record.submission if self.record is not None else None
        return submission[0] if submission is not None else 0

    def marks(self, rules: Rules) -> Marks:
        """Return the marks of whoever did it: a line that was approved names who submitted it."""
        if self.record is None:
            return marks_of_line(self.line, rules, self.key_name)
        who = self.record.who
        found = marks_of(self.record.user, who, rules, self.key_name)
        return found | ({f"name {who}"} if who else set())


@dataclass(frozen=True)
class BundleApprovals:
    """The approvals of a bundle, once each line and record fits.

    Attributes
    ----------
    acts : dict of int to BundledAction
        The actions, by number.
    close : BundledAction
        The close of the month.
    rules : Rules or None
        The rules that held.
    has_signers : bool
        Whether the bundle has who might sign.
    """

    acts: dict[int, BundledAction]
    close: BundledAction
    rules: Rules | None = None
    has_signers: bool = False

    @property
    def submission(self) -> BundledAction | None:
        """What the close was submitted by."""
        found = self.acts.get(self.close.of)
        return found if found is not None and found.line.act is Act.SUBMIT else None

    @property
    def approvals(self) -> list[BundledAction]:
        """The approvals of the close, the close itself last."""
        some = [each for each in self.acts.values() if each.line.act is Act.APPROVE]
        return [*(each for each in some if each.of == self.close.of), self.close]

    @property
    def changers(self) -> list[BundledAction]:
        """Who did what changed figures of the month before: of what was approved, who submitted it."""
        found = []
        for each in self.acts.values():
            is_own = each.line.act in (Act.CLOSE, Act.SUBMIT, Act.APPROVE, Act.REJECT)
            if not is_own and each.line.number < self.close.line.number:
                found.append(self.acts.get(each.of, each))
        return found


# ---- reading them


def read_approvals(kept: CarriedTexts, keys: Keys | None) -> BundleApprovals | None:
    """Return the approvals that a manifest has, or None if it has none.

    Parameters
    ----------
    kept : dict
        The manifest's item.
    keys : Keys, optional
        Who may sign; without it those that the bundle names.

    Raises
    ------
    BrokenApprovals
        If a line or a record doesn't fit.
    """
    if not kept:
        return None
    files = kept.get(FILES, {})
    try:
        lines = [read_line(JOURNAL, text) for text in kept.get(JOURNAL, {}).values()]
        rules = read_rules(RULES, files[RULES]) if RULES in files else None
        if keys is None:
            keys = Keys(read_signers(SIGNERS, files.get(SIGNERS, "")), files.get(REVOKED, ""))
        acts = {line.number: _act(line, files, keys) for line in lines}
        closes = [each for each in acts.values() if each.line.act is Act.CLOSE]
    except Fault as fault:
        raise BrokenApprovals(
            f"its approvals have the wrong form: {fault.place} {fault.what}"
        ) from fault
    if (
        list(kept) != [JOURNAL, FILES]
        or len(closes) != 1
        or [*map(str, acts)] != list(kept[JOURNAL])
    ):
        raise BrokenApprovals("its approvals aren't those of one close")
    found = BundleApprovals(acts, closes[0], rules, SIGNERS in files)
    _check_places(found, files)
    return found


def _act(line: JournalLine, files: Mapping[str, str], keys: Keys) -> BundledAction:
    """Return an action with its record, whose files are as its line says.

    Raises
    ------
    InputFault
        If one isn't.
    """
    names = {kind: approval_file(line.number, kind) for kind in ("txt", "sig", "tsr")}
    for name in names.values():
        kept = line.files.get(name)
        if (kept is None) != (name not in files) or (
            kept and kept != Kept.of(files[name].encode())
        ):
            what = f"action {line.number} left a different one"
            raise InputFault(what, place=Place(file=name))
    if names["txt"] not in files:
        return BundledAction(line)
    record = ApprovalRecord.read(names["txt"], files[names["txt"]])
    signature = files.get(names["sig"], "")
    if not signature:
        return BundledAction(line, record)
    return BundledAction(
        line, record, verified(record.text.encode(), signature, keys, BOOK, record.time)
    )


def _check_places(found: BundleApprovals, files: Mapping[str, str]) -> None:
    """Raise if a record is of another place, book, user or time, or of other rules than are there.

    Raises
    ------
    BrokenApprovals
        If one is.
    """
    books = {each.record.book for each in found.acts.values() if each.record is not None}
    for each in found.acts.values():
        line, record = each.line, each.record
        if record is None:
            continue
        place = (line.number, (line.number - 1, line.before), line.user)
        is_here = (record.number, record.after, record.user) == place and len(books) == 1
        if not is_here or record.when > line.when:
            raise BrokenApprovals(
                f"{line.said()}: its record is of another place, book, user or time"
            )
        of = found.acts.get(each.of)
        if of is not None and (of.line.number, of.line.digest) != record.submission:
            raise BrokenApprovals(f"{line.said()}: what it approves is another submission")
    of = found.submission
    for name in (RULES, SIGNERS, REVOKED) if of is not None and of.record is not None else ():
        kept = of.record.files.get(name) if of is not None and of.record is not None else None
        if name in files and kept != Kept.of(files[name].encode()):
            raise BrokenApprovals(f"{name} isn't as it was when the close was submitted")


# ---- judging them


def approvals_held(
    path: str, manifest: Manifest, files: Mapping[str, bytes], options: argparse.Namespace
) -> Iterator[tuple[SentenceKind, str]]:
    """Give what is found of the approvals of a bundle: ``good``, ``note`` or ``wrong``, a sentence.

    Parameters
    ----------
    path : str
        The bundle.
    manifest : Manifest
        Its manifest.
    files : mapping of str to bytes
        Its files.
    options : Namespace
        The words of the command.
    """
    try:
        found = read_approvals(manifest.approvals, given_keys(options))
        if found is not None and found.close.line.of != manifest.period:
            raise BrokenApprovals(f"its approvals are those of {found.close.line.of}")
    except BrokenApprovals as fault:
        yield SentenceKind.WRONG, f"{path}!{MANIFEST}: {fault.what}"
        return
    if found is None and manifest.book and manifest.archive >= APPROVED:
        yield SentenceKind.NOTE, f"{path}: it has no line of the journal that closed {manifest.period}"
    if found is not None:
        judged = JudgedApprovals(
            found,
            files[SESSION],
            files[OUTPUT],
            manifest.book,
            options.signers is not None,
            given_text(options.authority),
            manifest.approvals[FILES],
            options.book is not None,
        )
        for kind, said in judged.held():
            yield kind, f"{path}: {said}"


@dataclass(frozen=True)
class JudgedApprovals:
    """The approvals of a bundle as they are judged.

    Attributes
    ----------
    found : BundleApprovals
        The approvals.
    session, output : bytes
        The session and the output of the bundle.
    head : dict
        The head of the book that the bundle names.
    is_given : bool
        Whether who may sign was given from outside.
    authority : str
        The certificate of the time stamps' authority, if they are to be judged.
    files : dict
        The files that the manifest has.
    has_book : bool
        Whether the session's rows are compared with those of the book, which knows who approved each.
    """

    found: BundleApprovals
    session: bytes
    output: bytes
    head: Mapping[str, str]
    is_given: bool
    authority: str = ""
    files: Mapping[str, str] = field(default_factory=dict)
    has_book: bool = False

    def held(self) -> Iterator[tuple[SentenceKind, str]]:
        """Give what is found: ``good``, ``note`` or ``wrong``, and a sentence."""
        found = self.found
        if self.is_other():
            what = "its output isn't the report with which this closed it"
            yield SentenceKind.WRONG, f"{found.close.line.said()}: {what}"
        if found.close.record is None:
            yield SentenceKind.NOTE, f"{found.close.line.said()}: nobody has signed or approved it"
            return
        for each in (found.submission, *found.approvals):
            if each is not None:
                yield from self._signed(each)
        why = list(self._against())
        for text in why:
            yield SentenceKind.WRONG, f"{found.close.line.said()}: {text}"
        if not why and found.submission is not None:
            by = " and ".join(each.by for each in found.approvals)
            of = found.submission
            what = f"submitted by {of.by} as action {of.line.number}, approved by {by}"
            yield self._good(), f"{found.close.line.said()}: {what}"
            yield from self._is_of_this()
        signs = any(each.signed is not None for each in found.acts.values())
        if signs and not self.is_given:
            yield SentenceKind.NOTE, _OWN_LIST

    def is_other(self) -> bool:
        """Say whether the output isn't the report of the close, though it is of the same rows.

        That is known if the session asks for it as a book does, and has booked nothing since.
        """
        line = self.found.close.line
        kept = line.files.get(report_file(line.of))
        rows = next((each for name, each in line.files.items() if is_year_file(name)), None)
        if kept is None or rows is None or rows.size is None or Kept.of(self.output) == kept:
            return False
        begin, asked = self.session[: rows.size], self.session[rows.size :].splitlines()
        own, name = hashlib.sha256(begin).hexdigest() == rows.digest, line.of.encode("ascii")
        ends = asked[:1] == [b"report," + name] and asked[-1:] == [b"history," + name]
        between = asked[1:-1]
        return (
            own
            and ends
            and all(row.startswith(b"component,") and row.endswith(b"," + name) for row in between)
        )

    def _good(self) -> SentenceKind:
        """Return what a name is that a list of keys bears out: a note, if that is the bundle's own."""
        return SentenceKind.GOOD if self.is_given else SentenceKind.NOTE

    def _signed(self, each: BundledAction) -> Iterator[tuple[SentenceKind, str]]:
        """Give who has signed an action, and when by a time stamp."""
        said, rules = each.line.said(), self.found.rules
        if each.signed is None:
            kind = SentenceKind.WRONG if rules is not None and rules.keys else SentenceKind.NOTE
            yield kind, f"{said}: nobody has signed it"
            return
        yield self._good() if each.signed.name else SentenceKind.WRONG, f"{said}: {each.signed.said()}"
        token = self.files.get(approval_file(each.line.number, "tsr"))
        if token is not None and self.authority:
            signature = self.files[approval_file(each.line.number, "sig")].encode("ascii")
            stamp = stamped(signature, token, self.authority)
            yield SentenceKind.GOOD if stamp.when is not None else SentenceKind.WRONG, f"{said}: {stamp.said()}"

    def _against(self) -> Iterator[str]:
        """Give what speaks against the approval of the close."""
        found, record = self.found, self.found.close.record
        of, rules = found.submission, found.rules
        if (
            record is None
            or record.deed is not ApprovalDeed.APPROVE
            or of is None
            or of.record is None
        ):
            yield "nobody has approved it"
            return
        if rules is None:
            yield "the rules under which it was approved aren't in the bundle"
            return
        if (of.record.act, of.record.of) != (Act.CLOSE.value, found.close.line.of):
            yield f"{of.record.act} {of.record.of} was submitted"
        if any(each.record and each.record.files != of.record.files for each in found.approvals):
            yield "other files were approved than were submitted"
        if len(found.approvals) < rules.approvers:
            yield f"{len(found.approvals)} of {rules.approvers} have approved it"
        yield from self._against_people(of, rules)

    def _against_people(self, of: BundledAction, rules: Rules) -> Iterator[str]:
        """Give who has approved it and may not, or is one person with another."""
        doer, marks = of.marks(rules), list[Marks]()
        for each in self.found.approvals:
            own = each.marks(rules)
            if own & doer:
                yield f"{each.by} has submitted it and approved it"
            if any(own & before for before in marks):
                yield f"{each.by} has approved it twice"
            if not rules.may(
                each.key_name or (each.record.who if each.record else ""), May.APPROVE
            ):
                yield f"{each.by} may not approve"
            for other in self.found.changers:
                if own & other.marks(rules):
                    yield f"{each.by} has approved it and changed a figure of it: {other.line.said()}"
            marks.append(own)

    def _is_of_this(self) -> Iterator[tuple[SentenceKind, str]]:
        """Give whether what was approved is what the bundle has."""
        close = self.found.close
        assert close.record is not None, "it was approved"
        years = [(name, kept) for name, kept in close.record.files.items() if is_year_file(name)]
        for name, kept in years:
            begin = self.session[: kept.size] if kept.size else b""
            if hashlib.sha256(begin).hexdigest() == kept.digest:
                what = (
                    f"its session begins with the {kept.lines:,} rows of {name} that were approved"
                )
                yield SentenceKind.GOOD, what
                yield from self.after(kept)
            else:
                what = f"its session doesn't begin with the rows of {name} that were approved"
                yield SentenceKind.WRONG, what
        rows = self.session.split(b"\n")
        for number in (number for some in close.line.added.values() for number in some):
            if rows[number - 1 : number] != [f"close,{close.line.of}".encode("ascii")]:
                yield SentenceKind.WRONG, f"row {number:,} of its session isn't the close of {close.line.of}"
        yield self._report(close, [kept.lines or 0 for _, kept in years])
        number, digest = close.line.number, close.line.digest
        if self.head.get("number") == str(number) and self.head.get("head") != digest:
            yield SentenceKind.WRONG, f"the head of action {number} that it names isn't that of the close"
        elif self.head.get("number") != str(number):
            what = f"the close is action {number}, and the head that it names is of a later one"
            yield SentenceKind.NOTE, f"{what}: --book compares what lies between"

    def after(self, kept: Kept) -> Iterator[tuple[SentenceKind, str]]:
        """Give what was booked after the rows that were approved, and what it changes of the period."""
        rows = self.session[kept.size or 0 :].split(b"\n")
        booked = [at for at, row in enumerate(rows) if row.strip() and not only_asks(row)]
        if booked:
            line = (kept.lines or 0) + booked[0] + 1
            are = "row is" if len(booked) == 1 else "rows are"
            what = (
                f"{len(booked):,} {are} after those that were approved, the first in line {line:,}"
            )
            period = self.found.close.line.of
            changed = changed_since(SESSION, self.session, kept.size or 0, period)
            if changed:
                kind = SentenceKind.NOTE if self.has_book else SentenceKind.WRONG
                yield kind, f"{what}, and {period} isn't what was approved: {changed}"
            else:
                yield SentenceKind.NOTE, f"{what}: --book says whether the book has them"

    def _report(self, close: BundledAction, rows: list[int]) -> tuple[SentenceKind, str]:
        """Return whether the output is the report that was approved.

        The row of the close has its own number in it, which is another one if other months had rows
        between submission and approval.
        """
        assert close.record is not None, "it was approved"
        kept = close.record.files.get(report_file(close.line.of))
        texts = [self.output]
        for row in rows:
            fields = [line.split(b",") for line in self.output.split(b"\n")]
            for some in fields:
                if some[0] == b"edit" and some[2:3] == [b"close"]:
                    some[1] = b"%d" % (row + 1)
            texts.append(b"\n".join(b",".join(some) for some in fields))
        if kept is not None and any(Kept.of(text) == kept for text in texts):
            return SentenceKind.GOOD, "its output is the report that was approved, to the byte"
        what = "its output isn't the report that was approved, to the byte: rows were added since"
        return (
            SentenceKind.NOTE,
            f"{what}, or it was asked for otherwise; --book says what was done since",
        )
