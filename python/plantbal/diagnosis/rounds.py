"""How suspects, and what an elimination takes out, are named: by their sets of equals."""

from __future__ import annotations

from collections.abc import Sequence

from plantbal.diagnosis.balances import Balances
from plantbal.diagnosis.diagnose import Diagnosis
from plantbal.diagnosis.gross import sets_of_equals
from plantbal.diagnosis.words import choice_said
from plantbal.sentence import Sentence
from plantbal.report.blocks import Block


def equals_in(block: Block) -> dict[str, tuple[str, ...]]:
    """Return the set of equals that each measurement of a round is in.

    In a set those come first whose own error is the greatest, as far as their variances say: an
    order of the file says nothing.
    """
    found = {}
    for equals in sets_of_equals(Balances.of_block(block)):
        members = sorted(equals.members, key=lambda each: (-each.variance, each.name))
        names = tuple(each.name for each in members)
        found.update({name: names for name in names})
    return found


def suspects_by_set(block: Block) -> list[tuple[str, ...]]:
    """Return the suspects of a round as sets of equals, those of the greatest test first."""
    sets = equals_in(block)
    some = (sets.get(name, (name,)) for name in block.suspects())
    return list(dict.fromkeys(some))


def taken_by_set(blocks: Sequence[Block], block: Block) -> list[tuple[str, ...]]:
    """Return for each measurement that was taken out before a round the set that it was in.

    Parameters
    ----------
    blocks : sequence of Block
        The rounds of the report from the first one on.
    block : Block
        One of them.
    """
    pairs = zip(block.taken, blocks)
    return [equals_in(before).get(name, (name,)) for name, before in pairs]


def in_order(sets: Sequence[tuple[str, ...]], diagnosis: Diagnosis | None) -> list[tuple[str, ...]]:
    """Return sets of equals with their names in the order of a diagnosis, as far as it has them."""
    orders = {frozenset(told.names): told.names for told in diagnosis.holes} if diagnosis else {}
    return [orders.get(frozenset(names), names) for names in sets]


def one_of_said(names: Sequence[str], block: Block, most: int = 0) -> str:
    """Return a set as a choice; of one name just that, and of a long one the beginning."""
    shown = [block.shown(name) for name in names]
    if most and len(shown) > most:
        shown = [*shown[: most - 1], Sentence("{count} more", count=len(shown) - most + 1)]
    return choice_said(shown)
