"""What is said of a row, of a file, and of the rows that follow from one."""

from __future__ import annotations

from collections.abc import Sequence
from dataclasses import dataclass, field

from plantbal.model.refusals import Refusals


@dataclass(slots=True)
class ExplainedRow:
    """A row, and what is said of it.

    Attributes
    ----------
    file : str
        The file.
    line, record : int
        Its line and its number as a record, each counted from 1; the record is 0 of a whole file.
    code, word : int, str
        Why it is refused, or which test fails; 0 and empty of a whole file.
    sentence : str
        Which row it is, which field, what stands there, what it has to be, and what was meant.
    column : str
        The label of the field at fault; empty if no single one is.
    row : str
        The line as it stands, cut to what is near the field if it is long.
    mark : tuple of int or None
        Where the mark under the row begins, and how many columns it has.
    under : list of ExplainedRow
        The rows that are refused only because this one is.
    asks_nothing : bool
        Whether it says that no row of the session asks for output, which is no fault of a row.
    """

    file: str
    line: int
    record: int
    code: int
    word: str
    sentence: str
    column: str = ""
    row: str = ""
    mark: tuple[int, int] | None = None
    under: list[ExplainedRow] = field(default_factory=list)
    asks_nothing: bool = False

    @property
    def headline(self) -> str:
        """The sentence, after its file and line."""
        place = f"{self.file}:{self.line}" if self.line else self.file
        return f"{place}: {self.sentence}"

    def __str__(self) -> str:
        lines = [self.headline]
        if self.row:
            number = f"{self.line:>5} | "
            lines.append(number + self.row)
            if self.mark is not None:
                begin, count = self.mark
                lines.append(" " * 5 + " | " + " " * begin + "^" * max(1, count))
        if self.under:
            lines.append(_follow(self.under, self.record == 0))
        return "\n".join(lines)


def _follow(under: Sequence[ExplainedRow], whole: bool) -> str:
    """Return what is said of the rows that follow from another, or from a fault of the whole
    file."""
    numbers = [str(told.line) for told in under]
    why = "for this reason" if whole else "only because of this row"
    if len(under) == 1:
        return f"      = line {numbers[0]} is refused {why}"
    most = 8
    lines = ", ".join(numbers[:most])
    if len(numbers) > most:
        lines += f" and {len(numbers) - most} more"
    else:
        lines = ", ".join(numbers[:-1]) + f" and {numbers[-1]}"
    return f"      = {len(under)} rows are refused {why}: lines {lines}"


@dataclass
class Explanation:
    """What is wrong with a session or a report.

    Attributes
    ----------
    whole : list of ExplainedRow
        What is wrong with the file as a whole.
    rows : list of ExplainedRow
        The rows, each with those that follow from it; rows that a whole-file fault covers aren't
        here.
    refused : int
        How many rows are refused in all.
    refusals : Refusals
        The numbers and codes of all of them.
    """

    whole: list[ExplainedRow]
    rows: list[ExplainedRow]
    refused: int
    refusals: Refusals = field(default_factory=Refusals)

    def __str__(self) -> str:
        said = list(map(str, [*self.whole, *self.rows]))
        if self.more:
            rows = "row is" if self.more == 1 else "rows are"
            said.append(f"{self.more:,} more {rows} refused: correct these first")
        return "\n".join(said)

    @property
    def more(self) -> int:
        """How many refused rows nothing is said of."""
        return self.refused - len(self.refusals)

    def by_record(self) -> dict[int, str]:
        """Return for each refused record what is said of it, with its line."""
        found = {}
        for told in [*self.whole, *self.rows]:
            if told.record:
                found[told.record] = told.headline
            for other in told.under:
                found[other.record] = f"{other.headline} (only because of line {told.line})"
        return found
