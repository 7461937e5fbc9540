"""What tanks hold at the end of a day, as the program calculates it."""

from __future__ import annotations

import datetime
from collections.abc import Iterable
from pathlib import Path

from plantbal.book.ledger import BookFact, rows_text
from plantbal.faults import Fault
from plantbal.program import call
from plantbal.records import text_of
from plantbal.report.parsing import parse_rows
from plantbal.schema import schema
from plantbal.sentence import Sentence

_DAY = datetime.timedelta(1)
_MOST = schema().limits["most_units_and_tanks"]


def grams_by_program(
    plant: Iterable[tuple[str, ...]], dips: Iterable[BookFact], program: str | Path | None = None
) -> dict[str, int]:
    """Return the grams in tanks by their dips, calculated by the program.

    The program reports what the contents of a tank gain. So each tank gets a table that goes on to
    a level at which it is empty, and stands there on the day before its dip: what it gains on the
    day of the dip are its contents.

    Parameters
    ----------
    plant : iterable of tuple of str
        The rows of the plant, with the tables.
    dips : iterable of BookFact
        A dip a tank, all of one day.
    program : str, optional
        The program.

    Raises
    ------
    Fault
        If the program refuses a row, such as a level outside its table.
    """
    tables: dict[str, list[tuple[int, int]]] = {}
    for row in plant:
        if row[0] == "strap":
            tables.setdefault(row[1], []).append((int(row[2]), int(row[3])))
    found: dict[str, int] = {}
    asked = list(dips)
    for at in range(0, len(asked), _MOST):
        found |= _reckoned(tables, asked[at : at + _MOST], program)
    return found


def _reckoned(
    tables: dict[str, list[tuple[int, int]]], dips: list[BookFact], program: str | Path | None
) -> dict[str, int]:
    rows: list[tuple[object, ...]] = []
    for at, dip in enumerate(dips):
        points = tables.get(dip.place, [])
        below = [] if points[:1] == [(0, 0)] else [(0, 0)]
        up = 1 if below and points and points[0][0] == 0 else 0
        rows.append(("tank", dip.place, 1))
        rows += [("strap", dip.place, mm, ml) for mm, ml in below]
        rows += [("strap", dip.place, mm + up, ml) for mm, ml in points]
        rows.append(("dip", f"empty.{at}", dip.place, dip.first - _DAY, 0, 1, 0))
        level, density = dip.values
        rows.append(("dip", f"full.{at}", dip.place, dip.first, level + up, density, 0))
    if dips:
        rows.append(("period", "eve", dips[0].first, dips[0].first))
        rows.append(("report", "eve"))
    texts = [tuple(map(str, row)) for row in rows]
    text = rows_text(texts)
    status, output = call(["run", "--sweeps", "0"], text.encode("ascii"), program=program)
    answer = parse_rows("the contents", output.decode("ascii"))
    refused = [row for row in answer if row["row"] == "refused"]
    if status or refused:
        said = text_of(texts[int(refused[0]["at"]) - 1]) if refused else "a row"
        form = "the contents of tanks can't be calculated: {row} is refused"
        raise Fault(Sentence(form, row=said), text=said)
    return {row["name"]: int(row["value"]) for row in answer if row["row"] == "stream"}
