"""Whether the rows of an output can be read: their fields, and what belongs together.

Every command that reads an output asks here, once, so that none of them comes to a row that it
can't make sense of. A row's fields have the forms and ranges of `schema.json`; names stand for
rows of the same block. A pattern for each kind of row lets most rows through at once; a row that
isn't of its pattern is looked at field by field.
"""

from __future__ import annotations

import re
from collections.abc import Iterable, Sequence
from functools import lru_cache

from plantbal import limits
from plantbal.faults import InputFault, Place
from plantbal.report.rows import Values
from plantbal.schema import Column, schema

REMEDY = "plantbal-desk check says more"
_OF_CHECKS = ("yes", "no", "unreadable")
# A row that says how many rows of a kind follow: what these are together, their kind, the column.
_HEADS = {"design": ("design", "class", "streams"), "advise": ("advice", "meter", "count")}
# Rows that stand between `report` and `end`.
_WITHIN = ("node", "stream", "solved", "global", "nodal", "measure", "end")
# Columns of a stream that are there together, or not at all.
_PAIRS = (("value", "variance"), ("lo", "hi"), ("least_lo", "least_hi"))
_NAME = rf"[A-Za-z0-9_.-]{{1,{schema().limits['most_name']}}}"
_FORMS = {
    "name": _NAME,
    "names": rf"{_NAME}(?: {_NAME})*",
    "parts": rf"[+-]{_NAME}(?: [+-]{_NAME})*",
    "reason": rf"[ -~]{{1,{schema().limits['most_reason']}}}",
    "date": r"[0-9]{4}-[0-9]{2}-[0-9]{2}",
}


def _form(column: Column) -> str:
    """Return a pattern of texts that a column takes; of numbers, those with fewer digits alone."""
    if column.type == "word":
        form = "|".join(map(re.escape, column.words))
    elif column.type == "number":
        low, high = column.low or 0, column.high or 0
        digits = max(0, min(len(str(high)), limits.DIGITS) - 2)
        form = ("" if low > 0 else "0|") + (
            f"-?[1-9][0-9]{{0,{digits}}}" if low == -high else f"[1-9][0-9]{{0,{digits}}}"
        )
    else:
        form = _FORMS[column.type]
    return f"(?:{form})?" if column.optional else f"(?:{form})"


@lru_cache(maxsize=None)
def _pattern(kind: str, count: int) -> re.Pattern[str]:
    """Return the pattern of rows of a kind with as many fields, between commas."""
    row = schema().output[kind]
    names = row.names if count == len(row.names) else row.older
    return re.compile(",".join([row.kind, *(_form(row.column(name)) for name in names)]))


def _fits(column: Column, text: str) -> bool:
    """Say whether a field is of the form and in the range of its column."""
    if column.type == "word":
        return text in column.words
    if column.type != "number":
        return re.fullmatch(_FORMS[column.type], text) is not None
    if len(text) > limits.DIGITS or not re.fullmatch("0|-?[1-9][0-9]*", text):
        return False
    low, high = column.low, column.high
    return (low is None or low <= int(text)) and (high is None or int(text) <= high)


def _wanted(column: Column) -> str:
    """Return what a column has to be."""
    if column.type == "number":
        range_ = ""
        if column.low is not None and column.high is not None:
            range_ = f", {column.low:,} to {column.high:,}"
        return f"a whole number{range_}"
    if column.type == "word":
        return f"one of {', '.join(column.words)}"
    return "a name" if column.type == "name" else f"of the form of {column.name}"


def judge_rows(rows: Sequence[Values], source: str, *, checks: bool = False) -> None:
    """Raise a fault if some row can't be read.

    Parameters
    ----------
    rows : sequence of dict
        The rows in order.
    source : str
        What the output is called in what is said.
    checks : bool
        Whether it may be what a check said.

    Raises
    ------
    InputFault
        If the rows are a check's and this isn't meant, a field isn't of its column, a name stands
        for nothing, a stream stands twice, has a value without a variance, a row stands in no
        report, or a design or an advice is cut off.
    """
    if not checks and any(row["row"] in _OF_CHECKS for row in rows):
        raise InputFault(
            "this is what a check said",
            place=Place(file=source),
            remedy="give the report that was checked",
        )
    judge = _Judge(source)
    for number, row in enumerate(rows, 1):
        judge.take(number, row)
    judge.end()


def judge_fields(row: Values, place: Place) -> None:
    """Raise a fault if a field of a row isn't of its column.

    Raises
    ------
    InputFault
        If it is so.
    """
    kind = row["row"]
    if _pattern(kind, len(row) - 1).fullmatch(",".join(row.values())):
        return
    for column in schema().output[kind].columns:
        text = row.get(column.name)  # a stream of the older form has two fewer
        if text is None or (column.optional and not text) or _fits(column, text):
            continue
        what = f"{column.name} of a {kind} row is {text[:60]!r}"
        raise InputFault(what, place=place, text=text, remedy=f"it has to be {_wanted(column)}")


class _Judge:
    """Takes the rows of an output one after the other, and knows what they may name.

    Parameters
    ----------
    source : str
        What the output is called in what is said.
    """

    def __init__(self, source: str) -> None:
        self.source = source
        self.place = Place(file=source)
        self.stray: InputFault | None = None  # of the first stream that stands in no report
        self.block: Values | None = None
        self.before: Values | None = None
        self.nodes: set[str] = set()
        self.streams: set[str] = set()
        self.spots: set[str] | None = None
        self.named: dict[str, Place] = {}  # streams as parts name them, and where
        self.of, self.below, self.left = "", "", 0

    def fault(self, what: str, text: str = "", place: Place | None = None) -> InputFault:
        """Return the fault of the row that was taken last."""
        return InputFault(what, place=place or self.place, text=text, remedy=REMEDY)

    def take(self, number: int, row: Values) -> None:
        """Take a row."""
        kind = row["row"]
        self.place = Place(file=self.source, record=number)
        judge_fields(row, self.place)
        self._count(kind, row)
        if kind in _WITHIN and self.block is None:
            self.stray = self.stray or self.fault(f"this {kind} row is in no report")
            if kind != "stream":
                raise self.stray
        taker = getattr(self, f"_take_{kind}", None)
        if taker is not None:
            taker(row)

    def end(self) -> None:
        """Say what is wrong with the output as a whole."""
        if self.left > 0:
            raise InputFault(
                f"the {self.of} is cut off",
                place=Place(file=self.source),
                remedy="run the session again",
            )
        self._close()
        if self.stray is not None:
            raise self.stray

    def _count(self, kind: str, row: Values) -> None:
        """Count the rows that a row before this one says to follow."""
        if self.left and kind != self.below:
            raise self.fault(f"the {self.of} before this row is cut off")
        self.left -= bool(self.left)
        if kind in _HEADS:
            self._close()
            self.of, self.below, count = _HEADS[kind]
            self.left = int(row[count])

    def _close(self) -> None:
        """Say which streams are named and aren't there, at the end of a block or a design.

        Of a block that is cut off nothing is said: its other streams may be lost.
        """
        if self.block is not None:
            self.named.clear()
        for parts, place in self.named.items():
            names = [part[1:] for part in parts.split()]
            if not self.streams.issuperset(names):
                name = next(name for name in names if name not in self.streams)
                raise self.fault(f"there is no stream {name}", name, place)
        self.named.clear()

    def _know(self, name: str, names: Iterable[str], what: str) -> None:
        if self.block is not None and name not in names:
            raise self.fault(f"there is no {what} {name}", name)

    def _take_window(self, row: Values) -> None:
        del row
        self.spots = set()

    def _take_place(self, row: Values) -> None:
        if self.spots is None:
            raise self.fault("this place row is in no window")
        self.spots.add(row["code"])

    def _take_component(self, row: Values) -> None:
        del row
        self.spots = None

    def _take_report(self, row: Values) -> None:
        self._close()
        before = self.before
        if row["round"] == "0":
            pass
        elif before is None or (before["period"], int(before["round"]) + 1) != (
            row["period"],
            int(row["round"]),
        ):
            raise self.fault(f"there is no round before round {row['round']}")
        self.block = self.before = row
        self.nodes, self.streams = set(), set()

    def _take_end(self, row: Values) -> None:
        block, self.block = self.block, None
        if block is not None and block["period"] != row["period"]:
            raise self.fault(f"this ends the report of {row['period']}, which hasn't begun")
        self._close()

    def _take_node(self, row: Values) -> None:
        if row["name"] in self.nodes and self.block is not None:
            raise self.fault(f"the node {row['name']} already exists", row["name"])
        self.nodes.add(row["name"])
        self._spot(row["name"])

    def _take_stream(self, row: Values) -> None:
        self._declare(row)
        for one, other in _PAIRS:
            if bool(row.get(one)) != bool(row.get(other)):
                what = f"{row['name']} has a {one} without a {other}, or the other way round"
                raise self.fault(what)
        for name in (row["from"], row["to"], *row["side"].split()):
            self._know(name, self.nodes, "node")
        self._spot(row["name"])

    def _take_class(self, row: Values) -> None:
        self._declare(row)

    def _declare(self, row: Values) -> None:
        """Take the name of a stream, and the names of those that show its class."""
        if row["name"] in self.streams:
            raise self.fault(f"the stream {row['name']} already exists", row["name"])
        self.streams.add(row["name"])
        self.named.setdefault(row["parts"], self.place)

    def _take_design(self, row: Values) -> None:
        del row
        self.nodes, self.streams, self.spots = set(), set(), None

    def _take_nodal(self, row: Values) -> None:
        self._know(row["node"], self.nodes, "node")

    def _take_measure(self, row: Values) -> None:
        self._know(row["stream"], self.streams, "stream")

    def _take_taken(self, row: Values) -> None:
        if self.before is not None and row["stream"] not in self.streams:
            raise self.fault(f"there is no stream {row['stream']}", row["stream"])

    def _spot(self, name: str) -> None:
        """Say that a node or stream of a window is of no period."""
        if self.spots is not None and self.block is not None and name not in {"env", *self.spots}:
            raise self.fault(f"no place of the window has the code {name}", name)
