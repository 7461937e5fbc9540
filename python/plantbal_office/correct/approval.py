"""What two people do: one submits a close, another looks at what waits, and approves or rejects it."""

from __future__ import annotations

from django.contrib import messages
from django.http import HttpRequest, HttpResponse
from django.shortcuts import render
from django.urls import reverse
from django.utils.translation import gettext as _

from plantbal.book.approval.record import ApprovalDeed
from plantbal.book.approval.state import Waiting
from plantbal.faults import Fault
from plantbal.gates import Gate
from plantbal_office.deeds.once import once
from plantbal_office.deeds.signing import SUBMISSION, signed_text
from plantbal_office.shelf import (
    book_contents,
    book_of,
    given_by,
    plain_book,
    rounds_given,
    run_settings,
)

_REASON = 80  # characters
_ROWS = 40  # of what waits


def submit_page(request: HttpRequest, period: str) -> HttpResponse:
    """Submit the close of a month; or give the text that this signs, as a file."""
    anyway = {gate: request.POST.get(f"why-{gate.value}", "").strip() for gate in Gate}
    given = {gate: why[: _REASON + 1] for gate, why in anyway.items() if why}
    settings = run_settings(rounds_given(request.POST))
    if request.POST.get("answer") == "text":
        book = book_of(request, expected=True)
        text = book.close_to_sign(period, anyway=given, settings=settings)
        return signed_text(text, SUBMISSION)
    record, signature = _signed(request)

    def act() -> str:
        done = book_of(request, expected=True).submit(
            period, anyway=given, settings=settings, record=record, signature=signature
        )
        what = _("{name} is submitted, and waits for an approval by somebody else.")
        messages.success(request, what.format(name=done.period))
        return reverse("correct:waiting", args=[request.plant.slug])

    return once(request, act)


def waiting(request: HttpRequest) -> HttpResponse:
    """Show what waits for an approval."""
    book = plain_book(request.plant)
    rules = book.rules()
    words = {
        "waiting": [(each, _rows(each)) for each in book.waiting()],
        "keys": rules is not None and rules.keys,
        "ruled": rules is not None,
        "version": book_contents(request.plant).version,
        "section": "statement",
    }
    return render(request, "correct/waiting.html", words)


def _rows(waiting: Waiting) -> list[str]:
    """Return the rows that wait, the first of many."""
    return [
        f"{name}: {row}"
        for name, text in waiting.proposal.rows.items()
        for row in text.splitlines()[:_ROWS]
    ]


def signing_text(request: HttpRequest) -> HttpResponse:
    """Give the text that an approval or a rejection signs, as a file."""
    deed = (
        ApprovalDeed.REJECT
        if request.GET.get("deed") == ApprovalDeed.REJECT.value
        else ApprovalDeed.APPROVE
    )
    text = book_of(request).to_sign(request.GET.get("head", ""), deed)
    return signed_text(text, f"{deed.value}.txt")


def approve_page(request: HttpRequest) -> HttpResponse:
    """Approve what was shown, or reject it with a reason."""
    head, why = request.POST.get("head", ""), request.POST.get("why", "").strip()
    is_rejected = request.POST.get("answer") == "reject"
    record, signature = _signed(request)

    def act() -> str:
        book = book_of(request)
        if is_rejected:
            book.reject(head, why=why[:_REASON], record=record, signature=signature)
            messages.success(request, _("It is rejected, and nothing of it is done."))
        else:
            done = book.approve(head, record=record, signature=signature)
            what = (
                _("{of} is approved, and done.")
                if not done.lacking
                else _("{of} is approved; more approvals are needed.")
            )
            messages.success(request, what.format(of=f"{done.act} {done.of}".strip()))
        return reverse("correct:waiting", args=[request.plant.slug])

    return once(request, act)


def _signed(request: HttpRequest) -> tuple[str, str]:
    """Return the text that was signed and its signature, if the book wants that.

    Raises
    ------
    Fault
        If it wants it and one of the two isn't there.
    """
    given, rules = given_by(request), plain_book(request.plant).rules()
    if rules is not None and rules.keys and given is None:
        remedy = _(
            "download the text to be signed, sign it with the command shown, and send both files"
        )
        raise Fault(_("this book requires a signature"), remedy=remedy)
    return given or ("", "")
