"""Rows of an output as tables of pandas: whole numbers kept exact, block and period in front."""

from __future__ import annotations

from collections.abc import Iterable, Sequence
from typing import TYPE_CHECKING, Any

from plantbal.faults import ToolMissing
from plantbal.report.blocks import Block, Values, last_blocks
from plantbal.schema import Column, schema

if TYPE_CHECKING:
    import pandas

INT64 = range(-(2**63), 2**63)


def need_pandas() -> None:
    """Do nothing if pandas and its numpy are there.

    Raises
    ------
    ToolMissing
        If they aren't.
    """
    try:
        import numpy  # noqa: F401
        import pandas  # noqa: F401
    except ImportError as error:
        raise ToolMissing("pandas", "python3-pandas") from error


def whole_numbers(values: Sequence[int | None]) -> Any:
    """Return whole numbers as a column: Int64 if all of them fit, else Python's own ints.

    Parameters
    ----------
    values : sequence of int or None
        The numbers; None is one that is missing.
    """
    import numpy
    import pandas

    missing = numpy.array([value is None for value in values], dtype=bool)
    try:
        numbers = numpy.array([value or 0 for value in values], dtype=numpy.int64)
    except OverflowError:
        return pandas.array(list(values), dtype=object)
    return pandas.arrays.IntegerArray(numbers, missing)


def numbers_of(texts: Sequence[str | None]) -> Any:
    """Return texts of whole numbers as `whole_numbers` does; what is empty or None is missing."""
    import numpy
    import pandas

    if not all(texts):
        return whole_numbers([int(text) if text else None for text in texts])
    values = list(map(int, filter(None, texts)))
    try:
        numbers = numpy.array(values, dtype=numpy.int64)
    except OverflowError:
        return whole_numbers(values)
    return pandas.arrays.IntegerArray(numbers, numpy.zeros(len(values), dtype=bool))


def _column(column: Column, texts: Sequence[str | None]) -> Any:
    """Return the texts of a column by its type."""
    import numpy
    import pandas

    if column.type == "number":
        return numbers_of(texts)
    if None in texts:
        texts = [text or "" for text in texts]
    return pandas.arrays.PandasArray(numpy.array(texts, dtype=object))


def _columns(kind: str, rows: Sequence[Values]) -> dict[str, Any]:
    """Return the columns of rows of a kind."""
    columns = schema().output[kind].columns
    # the columns of a row come in their order, after its kind
    if rows and all(map((len(columns) + 1).__eq__, map(len, rows))):
        texts = list(zip(*(row.values() for row in rows)))[1:]
        return {column.name: _column(column, each) for column, each in zip(columns, texts)}
    return {each.name: _column(each, [row.get(each.name) for row in rows]) for each in columns}


def frame_of(kind: str, rows: Sequence[Values], front: dict[str, Any]) -> pandas.DataFrame:
    """Return rows of a kind as a table, with further columns in front."""
    import pandas

    return pandas.DataFrame({**front, **_columns(kind, rows)})


def repeat(values: list[Any], count: list[int]) -> Any:
    """Return a column with each value as many times as its count says."""
    import numpy

    if not values:
        return numpy.array([], dtype=object)
    kind = object if isinstance(values[0], str) else numpy.int64
    return numpy.repeat(numpy.array(values, dtype=kind), count)


def is_missing(value: Any) -> bool:
    """Whether a value of a column is none."""
    import pandas

    return value is None or value is pandas.NA


def texts_of(column: Iterable[Any]) -> list[str | None]:
    """Return a column's values as texts; what is missing stays so."""
    return [None if is_missing(value) else str(value) for value in column]


def _front(blocks: Sequence[Block], count: list[int]) -> dict[str, Any]:
    """Return block, period and round, each as many times as its block has rows."""
    return {
        "block": repeat([block.number for block in blocks], count),
        "period": repeat([str(block.subject) for block in blocks], count),
        "round": repeat([block.round for block in blocks], count),
    }


def frame_in_blocks(
    kind: str, blocks: Sequence[Block], rows: Sequence[Sequence[Values]]
) -> pandas.DataFrame:
    """Return the rows of a kind of each block, with the block, the period and the round of each."""
    need_pandas()
    front = _front(blocks, [len(some) for some in rows])
    return frame_of(kind, [row for some in rows for row in some], front)


def frame_of_blocks(blocks: Sequence[Block]) -> pandas.DataFrame:
    """Return a row a block; `plantbal.report.output.Output.blocks` says what it has."""
    need_pandas()
    import pandas

    none: Values = {}
    last = {block.number for block in last_blocks(blocks).values()}
    return pandas.DataFrame(
        {
            "block": range(len(blocks)),
            **_columns(
                "report", [{**block.head, "period": str(block.subject)} for block in blocks]
            ),
            **_columns("solved", [block.solved or none for block in blocks]),
            **_columns("global", [block.whole or none for block in blocks]),
            "component": [block.component for block in blocks],
            "window": [block.window.last if block.window else "" for block in blocks],
            "taken": [" ".join(block.taken) for block in blocks],
            "suspects": [" ".join(block.suspects()) for block in blocks],
            "ended": [block.ended for block in blocks],
            "last": [block.number in last for block in blocks],
        }
    )


def frame_of_tests(blocks: Sequence[Block]) -> pandas.DataFrame:
    """Return all tests; `plantbal.report.output.Output.tests` says what the table has."""
    need_pandas()
    import pandas

    rows: list[list[Values]] = []
    for block in blocks:
        ends = {end: block.solved[end] if block.solved else "" for end in ("low", "high")}
        whole: list[Values] = [{**block.whole, **ends}] if block.whole else []
        rows.append([*whole, *block.nodal, *block.measure])
    flat = [row for some in rows for row in some]
    data: dict[str, Any] = {
        **_front(blocks, [len(some) for some in rows]),
        "test": [row["row"] for row in flat],
        "name": [row.get("stream") or row.get("node") or "" for row in flat],
    }
    for name in ("low", "high", "net", "variance", "critical"):
        texts = [row.get(name) for row in flat]
        data[name] = numbers_of(texts)
    data["verdict"] = [row["verdict"] for row in flat]
    return pandas.DataFrame(data)


def frame_of_components(blocks: Iterable[Block]) -> pandas.DataFrame:
    """Return the streams of the last balances; `Output.components` says what the table has."""
    own = [block for block in last_blocks(blocks).values() if block.component]
    count = [len(block.streams) for block in own]
    front = {
        "component": repeat([block.component for block in own], count),
        "period": repeat([block.period for block in own], count),
        "block": repeat([block.number for block in own], count),
    }
    return frame_of("stream", [row for block in own for row in block.streams], front)


def frame_of_windows(blocks: Iterable[Block]) -> pandas.DataFrame:
    """Return the streams of the last windows; `Output.windows` says what the table has."""
    rows: list[Values] = []
    front: dict[str, list[Any]] = {
        name: [] for name in ("first", "window", "period", "declared", "what", "block")
    }
    for block in last_blocks(blocks).values():
        for row in block.streams if block.window else ():
            assert block.window is not None
            spot = block.window.spots[row["name"]]
            what = "before" if spot.is_opening else "after"
            said = (block.window.first, block.window.last, spot.period, spot.name)
            found = (*said, what if spot.is_content else "flow", block.number)
            for values, value in zip(front.values(), found):
                values.append(value)
            rows.append(row)
    return frame_of("stream", rows, dict(front))


def frame_of_edits(rows: Iterable[Values]) -> pandas.DataFrame:
    """Return the edits of histories, with the period and its state in each row."""
    edits: list[Values] = []
    front: dict[str, list[str]] = {"period": [], "state": []}
    head: Values = {}
    for row in rows:
        if row["row"] == "history":
            head = row
        elif row["row"] == "edit":
            edits.append(row)
            for name, texts in front.items():
                texts.append(head.get(name, ""))
    return frame_of("edit", edits, dict(front))


def frame_under(rows: Iterable[Values], head: str, kind: str, name: str = "") -> pandas.DataFrame:
    """Return the rows of a kind, each with the number of the head that it follows, from 0."""
    found: list[Values] = []
    numbers: list[int] = []
    number = -1
    for row in rows:
        if row["row"] == head:
            number += 1
        elif row["row"] == kind:
            found.append(row)
            numbers.append(number)
    return frame_of(kind, found, {name or head: numbers})


def verdict_frame(rows: Iterable[Values]) -> pandas.DataFrame:
    """Return the rows of a check as a table: a row a block, and one for a row that can't be
    read."""
    import pandas

    names = ("period", "round", "at", "code", "word", "name", "stated", "found")
    judged = [row for row in rows if row["row"] in ("yes", "no", "unreadable")]
    data: dict[str, Any] = {"verdict": [row["row"] for row in judged]}
    for name in names:
        texts = [row.get(name, "") for row in judged]
        if name in ("period", "word", "name"):
            data[name] = texts
        else:
            data[name] = numbers_of(texts)
    codes = {"no": schema().tests, "unreadable": schema().unreadable}
    found = [codes[row["row"]].get(int(row["code"])) if "code" in row else None for row in judged]
    data["about"] = [code.about if code else "" for code in found]
    return pandas.DataFrame(data)
