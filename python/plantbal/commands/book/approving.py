"""Submits, shows, approves and rejects what needs an approval; sets the rules; says who signed."""

from __future__ import annotations

import argparse
from types import SimpleNamespace

from plantbal.book.answers import reasons_of
from plantbal.audit.said import SentenceKind
from plantbal.book.approval.state import Waiting
from plantbal.book.closing import NotClosed, unneeded
from plantbal.book.forms import report_file
from plantbal.book.library import Book
from plantbal.book.said import count_said
from plantbal.commands.book.closing import add_anyway, say_report
from plantbal.commands.options import AS_LAST_REPORT, add_program, add_run, settings_of
from plantbal.faults import Fault
from plantbal.files import write_text
from plantbal.signing.signatures import read_signature
from plantbal.statuses import ExitStatus

_MOST = 12  # rows of a submission that are shown


def _book(options: argparse.Namespace) -> Book:
    program = getattr(options, "program", None)
    return Book(options.book, who=options.who, key=options.key, program=program)


def _add_head(parser: argparse.ArgumentParser) -> None:
    head = "the head of what was submitted, as `book submitted` shows it"
    parser.add_argument("--head", metavar="HEAD", required=True, help=head)


# ---- rules


def _add_rules(parser: argparse.ArgumentParser) -> None:
    parser.add_argument("rules", metavar="FILE", nargs="?", help="the rules, as TOML")
    signers = "who may sign: a file in the form of OpenSSH's allowed_signers"
    parser.add_argument("--signers", metavar="FILE", help=signers)
    parser.add_argument("--revoked", metavar="FILE", help="keys that are revoked")
    parser.add_argument("--why", metavar="TEXT", default="", help="a remark on it")


def _rules(options: argparse.Namespace) -> int:
    """Give a book rules; without a file say whether it has some."""
    book = _book(options)
    if options.rules is None and options.signers is None and options.revoked is None:
        options.found = rules = book.rules()
        if rules is None:
            print("this book has no rules: nobody has to approve anything")
            return ExitStatus.GOOD
        wants = [*rules.wants, *(["estimates"] if rules.estimates is not None else [])]
        print(f"needs an approval: {', '.join(sorted(wants)) or 'the rules alone'}")
        print(f"by {count_said(rules.approvers, 'person')}{', signed' if rules.keys else ''}")
        for person in rules.people.values():
            print(f"{person.name}: may {', '.join(sorted(person.may)) or 'do neither'}")
        return ExitStatus.GOOD
    head = book.set_rules(
        options.rules, signers=options.signers, revoked=options.revoked, why=options.why
    )
    options.found = head
    print("the book has these rules from now on; changing them needs an approval")
    print(f"head {head}")
    return ExitStatus.GOOD


# ---- submit


def _add_submit(parser: argparse.ArgumentParser) -> None:
    parser.add_argument("period", metavar="PERIOD", help="the period that is to be closed")
    add_anyway(parser)
    add_run(parser, default=AS_LAST_REPORT)


def _submit(options: argparse.Namespace) -> int:
    """Submit the close of a period."""
    given = reasons_of(options.anyway)
    try:
        found = _book(options).submit(options.period, anyway=given, settings=settings_of(options))
    except NotClosed as fault:
        options.found = fault.report
        say_report(fault.report)
        raise
    options.found = found
    if found.report is None or found.head is None:
        print(f"{found.period} is closed already")
        return ExitStatus.GOOD
    say_report(found.report)
    for gate, reason in found.reasons.items():
        print(f"{found.period}: {gate}: {reason}")
    for line in unneeded(given, found):
        print(line)
    print(f"{found.period} is submitted as action {found.head.number}, and waits for an approval")
    print(f"head {found.head}")
    return ExitStatus.GOOD


# ---- submitted


def _add_submitted(parser: argparse.ArgumentParser) -> None:
    number = "the number of a submission; all that wait without it"
    parser.add_argument("number", metavar="NUMBER", nargs="?", type=int, help=number)
    report = "write the report with which the period would be closed"
    parser.add_argument("--report", metavar="FILE", help=report)


def _submitted(options: argparse.Namespace) -> int:
    """Say what waits for an approval."""
    waiting = _book(options).waiting()
    if options.number is not None:
        waiting = [each for each in waiting if each.line.number == options.number]
        if not waiting:
            raise Fault(f"action {options.number} doesn't wait for an approval")
    options.found = waiting
    if not waiting:
        print("nothing waits for an approval")
    for each in waiting:
        for line in _shown(each):
            print(line)
        if options.report is not None:
            _write_report(each, options.report)
    return ExitStatus.GOOD


def _shown(waiting: Waiting) -> list[str]:
    """Return what waits, in lines; the last is the head that an approval names."""
    proposal, line = waiting.proposal, waiting.line
    by = line.who or line.user
    said = f"{line.number}: {proposal.act} {proposal.of} {proposal.what}".rstrip()
    lines = [f"{said}: submitted {line.when} by {by}, wants {', '.join(proposal.wants)}"]
    if proposal.why:
        lines.append(f"  why: {proposal.why}")
    lines += [f"  {gate}: {reason}" for gate, reason in proposal.reasons.items()]
    for name, text in proposal.rows.items():
        rows = text.splitlines()
        lines += [f"  {name}: {row}" for row in rows[:_MOST]]
        if len(rows) > _MOST:
            lines.append(f"  {name}: {len(rows) - _MOST:,} rows more")
    lines += [f"  {name} is written anew" for name in proposal.written]
    lines += [f"  approved by {each.who or each.user}" for each in waiting.approvals]
    return [*lines, f"  head {waiting.head}"]


def _write_report(waiting: Waiting, path: str) -> None:
    """Write the report of a close that waits."""
    name = report_file(waiting.proposal.of)
    if name not in waiting.proposal.written:
        raise Fault(f"action {waiting.line.number} has no report")
    write_text(path, waiting.proposal.written[name])
    print(f"  its report is {path}")


# ---- approve and reject


def _add_approve(parser: argparse.ArgumentParser) -> None:
    _add_head(parser)
    text = "write the text that is to be signed, and approve nothing yet"
    parser.add_argument("--text", metavar="FILE", help=text)
    signed = "the text that was signed elsewhere, with its signature in FILE.sig"
    parser.add_argument("--signed", metavar="FILE", help=signed)
    add_program(parser)


def _approve(options: argparse.Namespace) -> int:
    """Approve what was submitted."""
    book = _book(options)
    if options.text is not None:
        write_text(options.text, book.to_sign(options.head))
        print(f"sign it: ssh-keygen -Y sign -n plantbal-book -f KEY {options.text}")
        return ExitStatus.GOOD
    record = signature = ""
    if options.signed is not None:
        record = read_signature(options.signed)
        signature = read_signature(f"{options.signed}.sig")
    found = book.approve(options.head, record=record, signature=signature)
    options.found = found
    said = f"{found.act} {found.of}".rstrip()
    if found.lacking:
        print(f"{said} is approved by {found.by}; {count_said(found.lacking, 'approval')} to come")
    else:
        print(f"{said} is approved by {found.by}, and done")
    print(f"head {found.head}")
    return ExitStatus.GOOD


def _add_reject(parser: argparse.ArgumentParser) -> None:
    _add_head(parser)
    parser.add_argument("--why", metavar="TEXT", required=True, help="the reason")


def _reject(options: argparse.Namespace) -> int:
    """Reject what was submitted, or take it back."""
    options.found = head = _book(options).reject(options.head, why=options.why)
    print("it is rejected, and nothing of it is done")
    print(f"head {head}")
    return ExitStatus.GOOD


# ---- signed


def _add_signed(parser: argparse.ArgumentParser) -> None:
    authority = "the certificate of the time stamps' authority, as PEM: each stamp is judged"
    parser.add_argument("--stamps", metavar="FILE", help=authority)


def _signed(options: argparse.Namespace) -> int:
    """Say who has signed and approved what."""
    authority = read_signature(options.stamps) if options.stamps else ""
    options.found = found = _book(options).signed(authority)
    for each in found:
        print(f"{each.kind}: {each.said}")
    wrong = sum(each.kind is SentenceKind.WRONG for each in found)
    if wrong:
        raise Fault(f"{count_said(wrong, 'thing')} isn't as the rules of the book require")
    return ExitStatus.GOOD


RULES = SimpleNamespace(
    __doc__="Gives the book rules: what needs an approval, by whom, and whether it is signed; and "
    "says who may sign. The first rules apply at once. Later ones need an approval by those before "
    "them.",
    add_arguments=_add_rules,
    run=_rules,
)
SUBMIT = SimpleNamespace(
    __doc__="Submits the close of a period, with its report and a reason for each gate. It is "
    "closed once somebody else has approved it. The last line is the head that an approval names.",
    add_arguments=_add_submit,
    run=_submit,
)
SUBMITTED = SimpleNamespace(
    __doc__="Says what waits for an approval, by whom and why, and the head that it has to name.",
    add_arguments=_add_submitted,
    run=_submitted,
)
APPROVE = SimpleNamespace(
    __doc__="Approves what was submitted, by the head that was shown. It is done if that is still "
    "what would be done now: if a figure was changed since, the approval is void. Whoever "
    "submitted it, or was the last to change one of its figures, can't approve it.",
    add_arguments=_add_approve,
    run=_approve,
)
REJECT = SimpleNamespace(
    __doc__="Rejects what was submitted, with a reason; or withdraws what you submitted yourself.",
    add_arguments=_add_reject,
    run=_reject,
)
SIGNED = SimpleNamespace(
    __doc__="Says who signed or approved each action, with which key, and since when that is "
    "allowed, and which actions aren't signed; and judges all approvals again by the rules.",
    add_arguments=_add_signed,
    run=_signed,
)
