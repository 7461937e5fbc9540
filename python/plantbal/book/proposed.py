"""What a proposal of estimates says: a figure with its error, and what it rests on."""

from __future__ import annotations

from plantbal.diagnosis.proposal import Proposal, ProposalBasis
from plantbal.diagnosis.words import amount_said
from plantbal.gates.words import days_said
from plantbal.lint.findings import some_of
from plantbal.sentence import Figure, Sentence

_BASES = {
    ProposalBasis.DAY: "by the balance of the day, {beside}",
    ProposalBasis.DAYS: "by the balance between two dips, {beside}, less its own readings",
    ProposalBasis.PERIOD: "by the balance of the period, {beside}, less its own readings",
    ProposalBasis.OTHERS: "the mean of its {readings} other days",
    ProposalBasis.EARLIER: "the mean of its {readings} days before",
}


def proposal_said(proposal: Proposal) -> Sentence:
    """Return a proposal in a line."""
    amount = _amount(proposal, 1)
    count = len(proposal.days)
    if count > 1:
        form = "{amount} each, {total} on {count} days"
        amount = Sentence(form, amount=amount, total=_amount(proposal, count), count=count)
    beside = Sentence("of {names}", names=some_of(proposal.names)) if proposal.names else ""
    return Sentence(
        "{stream} {days}: {amount}, {basis}"
        if proposal.is_needed
        else "{stream} {days}: {amount}, {basis}; the report has this without an estimate, which "
        "would count the others twice",
        stream=proposal.stream,
        days=days_said(proposal.days),
        amount=amount,
        basis=Sentence(_BASES[proposal.basis], beside=beside, readings=proposal.readings),
    )


def _amount(proposal: Proposal, count: int) -> Sentence:
    """Return what is proposed for some days together, with its error."""
    grams, error = count * proposal.grams, count * proposal.error
    signed = Figure(f"{'-' if grams < 0 else ''}{amount_said(grams)}")
    return Sentence("{amount} ± {error}", amount=signed, error=amount_said(error))
