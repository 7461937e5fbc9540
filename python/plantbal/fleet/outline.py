"""An output read as a stream: what the table needs of it, however long it is.

An output may have a thousand times the bytes of its session, since each `report` row asks for all
streams. It is read some lines at a time. Of each subject only the last report is kept, and of that
only the rows that say something of it as a whole and the streams whose tests reject; of refused
rows the first ones and how many there are.
"""

from __future__ import annotations

from collections.abc import Iterator
from dataclasses import dataclass, field, replace
from itertools import chain
from pathlib import Path

from plantbal.faults import InputFault, Place, decoded
from plantbal.fleet.limits import REFUSED_KNOWN, SENTENCES
from plantbal.packed import opened_output
from plantbal.report.blocks import Subject, Values
from plantbal.report.parsing import parse_rows
from plantbal.report.judged import judge_fields

_PIECE = 1 << 20
# The rows of an output that say something of the plant as a whole.
_TOLD = frozenset(
    "refused over window place component report taken solved global measure end yes no unreadable"
    " design class advise meter".split()
)
_HEADS = frozenset(["window", "place", "component"])
_CHECKS = frozenset(["yes", "no", "unreadable"])
# What is cut off if an output ends after a row of a kind.
_CUT = {"window": "a window", "place": "a window", "component": "a balance"}


@dataclass
class Outline:
    """What the table needs of an output.

    Attributes
    ----------
    refused : set of int
        The numbers of the first refused rows.
    refused_count : int
        How many rows are refused.
    answers : list of dict
        The first row of each answer: an `over` row, or the `report` row of a round 0.
    last : dict of Subject to list of dict
        The rows of the last answer of each subject.
    states : dict of str to str
        Of each checked period whether all its blocks pass, ``yes`` or ``no``.
    failed : list of dict
        The first `no` and `unreadable` rows.
    has_components : bool
        Whether there is a balance of a component.
    kinds : set of str
        The kinds of rows that are there.
    """

    refused: set[int] = field(default_factory=set)
    refused_count: int = 0
    answers: list[Values] = field(default_factory=list)
    last: dict[Subject, list[Values]] = field(default_factory=dict)
    states: dict[str, str] = field(default_factory=dict)
    failed: list[Values] = field(default_factory=list)
    kinds: set[str] = field(default_factory=set)
    _head: list[Values] = field(default_factory=list)
    _answer: list[Values] = field(default_factory=list)
    _wanted: dict[str, int] = field(default_factory=dict)
    _same: dict[tuple[str, ...], Values] = field(default_factory=dict)
    _end: str = ""

    @property
    def has_components(self) -> bool:
        """Whether there is a balance of a component."""
        return "component" in self.kinds

    @property
    def rows(self) -> list[Values]:
        """The rows of the last answers of all subjects."""
        return list(chain.from_iterable(self.last.values()))

    def cut(self) -> list[str]:
        """Return what is cut off beside the reports, such as ``the design``."""
        found = [
            what
            for head, what in (("design", "the design"), ("advise", "the advice"))
            if self._wanted.get(head, 0) > 0
        ]
        return [*found, *([_CUT[self._end]] if self._end in _CUT else [])]

    def take(self, row: Values) -> None:
        """Take in a row."""
        kind = self._end = row["row"]
        self.kinds.add(kind)
        if kind == "refused":
            self.refused_count += 1
            if self.refused_count <= REFUSED_KNOWN:
                self.refused.add(int(row["at"]))
        elif kind in _HEADS:
            self._head.append(row)
        elif kind == "report" and row["round"] == "0":
            self._begin(row)
        elif kind == "over":
            self.answers.append(self._shared("over", row["period"], row["stream"]))
        elif kind in _CHECKS:
            self._take_check(row)
        elif kind in ("design", "advise"):
            wanted = int(row["streams" if kind == "design" else "count"])
            self._wanted[kind] = self._wanted.get(kind, 0) + wanted
        elif kind in ("class", "meter"):
            head = "design" if kind == "class" else "advise"
            self._wanted[head] = self._wanted.get(head, 0) - 1
        elif kind != "measure" or row["verdict"] == "reject":
            self._answer.append(row)

    def _begin(self, row: Values) -> None:
        """Begin the answer that a `report` row begins; one before it of its subject is dropped."""
        head = self._head[0] if self._head else {}
        subject = Subject(row["period"], head.get("last", ""), head.get("component", ""))
        self._answer = [*self._head, row]
        self._head = []
        self.last[subject] = self._answer
        self.answers.append(self._shared("report", row["period"], ""))

    def _shared(self, kind: str, period: str, stream: str) -> Values:
        """Return the first row of an answer, one and the same for all that are alike."""
        made = {"row": kind, "period": period}
        made |= {"stream": stream} if kind == "over" else {"round": "0"}
        return self._same.setdefault((kind, period, stream), made)

    def _take_check(self, row: Values) -> None:
        """Take in a row of a check."""
        kind = row["row"]
        if kind != "unreadable" and self.states.get(row["period"]) != "no":
            self.states[row["period"]] = kind
        if kind != "yes" and len(self.failed) < SENTENCES:
            self.failed.append(row)


def outline_of(path: Path) -> Outline:
    """Read an output.

    Raises
    ------
    InputFault
        If it can't be read, or a row is none of the program's.
    """
    found, source = Outline(), str(path)
    for line, data in _pieces(path):
        try:
            rows = parse_rows(source, decoded(source, data), _TOLD)
        except InputFault as fault:
            raise _moved(fault, line) from fault
        place = Place(file=source)
        for row in rows:
            if row["row"] != "refused" or found.refused_count < REFUSED_KNOWN:
                judge_fields(row, place)
            found.take(row)
    return found


def _pieces(path: Path) -> Iterator[tuple[int, bytes]]:
    """Give the lines of a file some at a time, each time with how many lines are before them."""
    before, rest = 0, b""
    with opened_output(path) as file:
        while piece := file.read(_PIECE):
            whole, feed, rest = (rest + piece).rpartition(b"\n")
            if feed:
                yield before, whole + feed
                before += whole.count(b"\n") + 1
    if rest:
        yield before, rest


def _moved(fault: InputFault, lines: int) -> InputFault:
    """Return a fault with its line counted from the beginning of the file."""
    place: Place = fault.place
    if place.line is not None:
        place = replace(place, line=place.line + lines)
    return InputFault(fault.what, place=place, text=fault.text, remedy=fault.remedy)
