"""The refused rows of a session: some with their sentences, all by their numbers and codes."""

from __future__ import annotations

from array import array
from collections.abc import Iterator
from dataclasses import dataclass

from plantbal.faults import Refusal


@dataclass(frozen=True, slots=True)
class Coded:
    """Refused readings of a run, of which nothing is asked but their codes.

    Attributes
    ----------
    records : list of int
        The numbers of their records.
    codes : bytes
        The code of each.
    """

    records: list[int]
    codes: bytes


class Refusals(list[Refusal]):
    """Refused rows, of which the first ones are kept with what is said of them.

    Parameters
    ----------
    most : int or None
        How many are kept so; None for all.

    Attributes
    ----------
    numbers, codes : array
        Of all refused rows the numbers of their records, 0 without one, and their codes.
    """

    def __init__(self, most: int | None = None) -> None:
        super().__init__()
        self.most = most
        self.numbers, self.codes = array("Q"), array("B")

    @property
    def total(self) -> int:
        """How many rows are refused."""
        return len(self.codes)

    @property
    def is_full(self) -> bool:
        """Whether what is said of further ones isn't kept."""
        return self.most is not None and len(self) >= self.most

    def take(self, refusal: Refusal) -> None:
        """Take a refused row."""
        self.note(refusal.place.record, refusal.code)
        if not self.is_full:
            self.append(refusal)

    def note(self, number: int | None, code: int) -> None:
        """Take a refused row of which nothing is kept but its number and its code."""
        self.numbers.append(number or 0)
        self.codes.append(code)

    def note_all(self, coded: Coded) -> None:
        """Take refused rows of which nothing is kept but their numbers and their codes."""
        self.numbers.extend(coded.records)
        self.codes.frombytes(coded.codes)

    def take_back(self) -> Refusal:
        """Return the row that was taken last, and forget it; it has to be one that is kept."""
        self.numbers.pop()
        self.codes.pop()
        return self.pop()

    def pairs(self) -> Iterator[tuple[int, int]]:
        """Give the number and the code of each."""
        return zip(self.numbers, self.codes)
