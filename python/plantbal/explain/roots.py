"""Which refusals follow from others, and in which lines names are declared."""

from __future__ import annotations

import re
from collections.abc import Iterable

from plantbal.explain.text import Text
from plantbal.explain.told import ExplainedRow
from plantbal.faults import Refusal
from plantbal.model.causes import Cause, Reason
from plantbal.model.remedies import kind_near
from plantbal.records import Record, without_empty_end

_NAMED = {
    "unit": "node",
    "tank": "node",
    "boundary": "node",
    "stream": "stream",
    "period": "period",
}
_FACTS = ("reading", "transfer", "dip")
# A column that names something, and what it names; a component has assays of a period.
_USES = {
    "from": ("node",),
    "to": ("node",),
    "tank": ("node",),
    "stream": ("stream",),
    "period": ("period",),
    "first": ("period",),
    "last": ("period",),
    "component": ("component",),
    "id": ("fact",),
}


def _plain(name: str) -> str:
    return re.sub(r"[^a-z0-9_.-]+", "_", name.strip().lower())


def _declares(row: tuple[str, ...]) -> list[tuple[str, str]]:
    """Return the names that a refused row would have declared, each with what it names."""
    if len(row) < 2:
        return []
    kind = kind_near(row[0])
    if kind == "late":
        return _declares(row[1:])
    if kind == "assay":
        return [("component", _of_period(row[1], row[3]))] if len(row) > 3 else []
    if kind in _NAMED:
        return [(_NAMED[kind], row[1])]
    if kind in _FACTS:
        return [("fact", row[1])]
    return []


def _of_period(component: str, period: str) -> str:
    """Return what an assay declares: a component of a period."""
    return f"{component} in {period}"


def _wanted(refusal: Refusal) -> list[tuple[str, str]]:
    """Return the name that a refused row uses and that isn't there, with what it may name."""
    name, row = refusal.text, refusal.row
    if row[0] == "component" and refusal.column == "component":
        name = _of_period(name, row[2])
    return [(what, name) for what in _USES.get(refusal.column, ())]


class Roots:
    """Refused rows by the names that they would have declared."""

    def __init__(self) -> None:
        self._by_name: dict[tuple[str, str], ExplainedRow] = {}
        self._straps: dict[str, ExplainedRow] = {}

    def cause(self, refusal: Refusal) -> ExplainedRow | None:
        """Return the row that a refusal follows from, or None."""
        row = refusal.row
        answer = refusal.refused
        if answer.reason is Reason.TABLE_EMPTY and "dip" in row[:2]:
            return self._straps.get(str(answer.values["tank"]))
        if answer.cause not in (Cause.NAME, Cause.UNKNOWN) or answer.reason is Reason.FACT_STRUCK:
            return None
        names_a_new_id = refusal.column == "id" and row[0] not in ("amend", "strike")
        if answer.cause is Cause.NAME and names_a_new_id:
            return None
        for what, name in _wanted(refusal):
            found = self._by_name.get((what, _plain(name)))
            if found is not None:
                return found
        return None

    def add(self, row: tuple[str, ...], root: ExplainedRow) -> None:
        """Remember what a refused row would have declared."""
        for what, name in _declares(row):
            self._by_name.setdefault((what, _plain(name)), root)
        if row[0] == "strap" and len(row) > 1:
            self._straps.setdefault(row[1], root)


class DeclaringLines:
    """The lines in which the rows of a file declare names that refused rows use, accepted or not.

    Parameters
    ----------
    text : Text
        The file.
    refused : iterable of Refusal
        The refused rows.
    """

    def __init__(self, text: Text, refused: Iterable[Refusal]) -> None:
        unknown = (each for each in refused if each.refused.cause is Cause.UNKNOWN)
        self._lines: dict[tuple[str, str], list[int]] = {
            key: [] for each in unknown for key in _wanted(each)
        }
        for record in text.records if self._lines else ():
            for key in _declares(without_empty_end(record.fields)):
                if key in self._lines:
                    self._lines[key].append(record.line)

    def instead(self, record: Record, refusal: Refusal) -> str:
        """Return a remedy that says in which line the other row is, or nothing."""
        answer = refusal.refused
        if answer.cause is Cause.DUPLICATE and answer.clash:
            return f"the first is in line {answer.clash}: {refusal.remedy}"
        if answer.cause is Cause.UNKNOWN and answer.reason is not Reason.FACT_STRUCK:
            for wanted in _wanted(refusal):
                later = [line for line in self._lines.get(wanted, []) if line > record.line]
                if later:
                    return f"it is declared in line {later[0]}, after this one: move that row up"
        return ""
