"""Why an output has to be looked at before it is booked, and which of its flows can't be."""

from __future__ import annotations

from collections.abc import Sequence

from plantbal.report.blocks import Block, Values
from plantbal.sentence import Joined, Sentence, counted, phrase


def why_not_ok(
    rows: Sequence[Values], blocks: Sequence[Block], status: int | None, left_out: int
) -> list[str]:
    """Return why an output isn't ok, a sentence each; nothing if it is.

    Parameters
    ----------
    rows : sequence of dict
        Its rows.
    blocks : sequence of Block
        Its blocks.
    status : int or None
        The status that the program ended with, if it was run.
    left_out : int
        How many rows were left out of the session before it was run.
    """
    said: list[str] = []
    if status is not None and status not in (0, 1):
        said.append(Sentence("the program ended with status {status}", status=status))
    count = sum(row["row"] == "refused" for row in rows) + left_out
    if count:
        one, many = (
            "1 row of the session was refused",
            "{count} rows of the session were refused",
        )
        said.append(counted(count, one, many))
    if not blocks:
        said.append(phrase("there is no report"))
    form = "the total of {stream} in {period}"
    over = [
        Sentence(form, stream=row["stream"], period=row["period"]) for row in _of_kind(rows, "over")
    ]
    if over:
        said.append(Sentence("{totals} is beyond the limits", totals=Joined(", ", over)))
    said += _of_blocks(blocks)
    wrong = _of_kind(rows, "no") + _of_kind(rows, "unreadable")
    if wrong:
        said.append(Sentence("a check finds fault with {count} blocks or rows", count=len(wrong)))
    return said


def _of_kind(rows: Sequence[Values], kind: str) -> list[Values]:
    return [row for row in rows if row["row"] == kind]


def _of_blocks(blocks: Sequence[Block]) -> list[str]:
    """Return what keeps blocks from being booked: cut off, not converged, rejected."""
    cut = [b.title for b in blocks if not b.ended or b.solved is None]
    said: list[str] = [Sentence("{report} is cut off", report=title) for title in cut]
    form = "{report} isn't converged after {sweeps} sweeps (plantbal.solve needs none)"
    said += [
        Sentence(form, report=b.title, sweeps=b.head["sweeps"])
        for b in blocks
        if b.solved and b.solved["state"] != "converged"
    ]
    for block, later in zip(blocks, [*blocks[1:], None]):
        if block.whole and block.whole["verdict"] == "reject":
            taken = later.taken[len(block.taken) :] if later and later.round else []
            what = Sentence("{report} is rejected by the global test", report=block.title)
            form = "{what} before {taken}"
            before = Sentence(form, what=what, taken=block.taken_said(taken)) if taken else what
            said.append(before)
    return said


def impossible_of(blocks: Sequence[Block]) -> list[str]:
    """Return which flows of blocks can't be, a sentence each."""
    from plantbal.gates import line_of_stop, negative_flows
    from plantbal.report.carried import impossible

    return [
        *map(line_of_stop, negative_flows(blocks)),
        *(each.sentence for each in impossible(blocks)),
    ]
