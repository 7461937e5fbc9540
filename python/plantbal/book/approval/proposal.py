"""An action that is submitted: all that it does, and the state of the book on which that rests."""

from __future__ import annotations

import json
from collections.abc import Mapping
from dataclasses import asdict, dataclass, field
from typing import Any

from plantbal.book.approval.rules import Want
from plantbal.book.journal import Act
from plantbal.faults import InputFault, Place
from plantbal.gates import Gate


@dataclass(frozen=True)
class SubmittedMonth:
    """What is submitted.

    Attributes
    ----------
    act, of, what, why : str
        The action, as its line in the journal will have it.
    wants : tuple of str
        Why it needs an approval.
    periods : tuple of str
        The periods that it is about.
    rows : mapping of str to str
        The rows that it adds to each year's file.
    written : mapping of str to str
        The files that it writes as a whole.
    seen, gone : tuple of str
        The files that it takes as they are, or as lost.
    bases : mapping of str to str
        How files are on which it rests: lines, bytes and SHA-256.
    reasons : mapping of str to str
        Of a close its reason for each gate.
    settings : mapping of str to int
        Of a close how its session is run.
    """

    act: str
    of: str
    what: str = ""
    why: str = ""
    wants: tuple[str, ...] = ()
    periods: tuple[str, ...] = ()
    rows: Mapping[str, str] = field(default_factory=dict)
    written: Mapping[str, str] = field(default_factory=dict)
    seen: tuple[str, ...] = ()
    gone: tuple[str, ...] = ()
    bases: Mapping[str, str] = field(default_factory=dict)
    reasons: Mapping[str, str] = field(default_factory=dict)
    settings: Mapping[str, int] = field(default_factory=dict)

    @property
    def text(self) -> str:
        """It as it is kept."""
        return json.dumps(asdict(self), indent=1, sort_keys=True) + "\n"

    @property
    def why_wanted(self) -> list[Want]:
        """Why it needs an approval."""
        return [Want(each) for each in self.wants]

    @property
    def gates(self) -> dict[Gate, str]:
        """The reason for each gate."""
        return {Gate(gate): reason for gate, reason in self.reasons.items()}

    @classmethod
    def read(cls, file: str, text: str) -> SubmittedMonth:
        """Return the proposal of a text.

        Raises
        ------
        InputFault
            If it isn't one, to the byte.
        """
        try:
            found: Any = json.loads(text)
            lists = ("wants", "periods", "seen", "gone")
            proposal = cls(**found | {name: tuple(found[name]) for name in lists})
            Act(proposal.act), proposal.why_wanted, proposal.gates
        except (ValueError, TypeError, KeyError, RecursionError):
            proposal = None
        if proposal is None or proposal.text != text:
            what = "this isn't an action that was submitted"
            raise InputFault(what, place=Place(file=file), remedy="put it back, from a backup")
        return proposal
