"""Which flows of a component can't be: a stream carries more of it than there is of the stream."""

from __future__ import annotations

from collections.abc import Iterable, Iterator
from dataclasses import dataclass

from plantbal.amounts import tonnes_text
from plantbal.report.blocks import Block, Values, last_blocks
from plantbal.sentence import Figure, Sentence, phrase
from plantbal.study.uncertainty import uncertainty_of

# By how many of its standard deviations a flow is beyond what can be before that is said: the
# copper of pure copper is a little more or less than all of it, by the error of the assay.
_MOST_DEVIATIONS = 2


@dataclass(frozen=True, slots=True)
class Impossible:
    """A stream whose flow of a component can't be.

    Attributes
    ----------
    subject : str
        The balance, such as ``cu in may``.
    stream : str
        The stream.
    said : str
        Why it can't be, in a sentence.
    """

    subject: str
    stream: str
    said: str

    def __str__(self) -> str:
        return str(self.sentence)

    @property
    def sentence(self) -> str:
        """The same as one sentence."""
        return Sentence("{subject}: {said}", subject=self.subject, said=self.said)


def impossible(blocks: Iterable[Block]) -> list[Impossible]:
    """Return the streams whose flow of a component can't be.

    A stream carries between nothing and all of itself, in its own direction. A balance of a
    component knows nothing of that: it is one of grades times flows, and is accepted if these agree
    with each other. The flows are those of the last reports and balances of each period. Only what
    the bounds of both flows leave no doubt of is said, and what two standard deviations of the
    component's flow don't explain; what a tank gains may be anything.

    Parameters
    ----------
    blocks : iterable of Block
        The blocks of an output.
    """
    last = [block for block in last_blocks(blocks).values() if block.ended and block.solved]
    mass = {block.period: block for block in last if block.is_report}
    return [
        found
        for block in last
        if block.component and block.period in mass
        for found in _of_balance(block, mass[block.period])
    ]


def _of_balance(balance: Block, report: Block) -> Iterator[Impossible]:
    """Give each stream of a balance whose flow can't be beside that of a report."""
    flows = {row["name"]: row for row in report.streams if row["lo"]}
    beyond = [
        (row, flows[row["name"]])
        for row in balance.streams
        if row["name"] in flows and row["lo"] and row["name"] != row["from"]
    ]
    if not any(_fault(row, flow) for row, flow in beyond):
        return
    deviation = uncertainty_of(balance).set_index("name")["sd"]
    for row, flow in beyond:
        name = row["name"]
        if why := _fault(row, flow, round(_MOST_DEVIATIONS * deviation[name])):
            carried, whole = tonnes_text(row["flow"]), tonnes_text(flow["flow"])
            form = "{name} carries {carried} t of {component} in {whole} t"
            of = {"name": name, "component": balance.component}
            what = Sentence(form, carried=Figure(carried), whole=Figure(whole), **of)
            form = "{what}, {why}: look at the assays and meters around it"
            said = Sentence(form, what=what, why=phrase(why))
            yield Impossible(balance.subject, name, said)


def _fault(carried: Values, flow: Values, error: int = 0) -> str:
    """Return why a flow of a component can't be beside the flow of its stream, if it can't."""
    low, high = int(carried["lo"]), int(carried["hi"])
    least, most = int(flow["lo"]), int(flow["hi"])
    if most < 0:  # it flows the other way
        low, high, least, most = -high, -low, -most, -least
    if least < 0:
        return ""  # nobody knows which way it flows
    if high < -error:
        return phrase("against the direction of the stream")
    return phrase("more than its whole mass") if low > most + error else ""
