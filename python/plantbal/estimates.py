"""Estimates among the readings: how one is marked, and how the days of one guess share its error.

A session has no kind of row for an estimate, so the mark is at the end of its id: `FI-302_2024-05-17`
is a reading and `FI-302_2024-05-17.est` an estimate, as long as nobody has amended it.

The program adds up the variances of a stream's readings, as of independent ones. But the days of
one guess have one error in common: six days of 1,900 t ± 100 t are 11,400 t ± 600 t, not ± 245 t.
So each of the six rows has six times the variance of 100 t: their sum is the square of 600 t, to
the squared gram.
"""

from __future__ import annotations

import re

from plantbal.model.facts import Fact
from plantbal.schema import schema

# The day and the mark at the end of an id, which are short after a long tag. A fact that was struck
# and comes again has a number after its id.
_MARKED = re.compile(r".*(?:_[0-9]{4}-[0-9]{2}-[0-9]{2}\.est|_[0-9]{8}\.e)(?:\.[0-9]+)?")
# What is in each of them.
MARK = ".e"
_MOST = schema().limits["most_name"]


def estimate_id(label: str, day: str) -> str:
    """Return the id of an estimate: that of the day's reading, with the mark.

    Parameters
    ----------
    label : str
        What the facts of its stream are called by.
    day : str
        The day, such as ``2024-05-17``.
    """
    plain = f"{label}_{day}.est"
    return plain if len(plain) <= _MOST else f"{label}_{day.replace('-', '')}.e"


def is_marked(identity: str) -> bool:
    """Say whether an id is that of an estimate."""
    return _MARKED.fullmatch(identity) is not None


def is_estimate(fact: Fact) -> bool:
    """Say whether a fact is an estimate: it is marked, and its values are those it came with."""
    return fact.kind == "reading" and is_marked(fact.id) and fact.line == fact.booked
