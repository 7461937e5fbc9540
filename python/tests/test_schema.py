"""The schema follows from the sources, the guide says the same, and each shipped row fits it."""

from __future__ import annotations

import csv
import re
from pathlib import Path
from typing import Any

import pytest

from gate.documentation import guide, rows
from gate.documentation.sources import Sources
from plantbal.schema import Column, Row, schema

TOP = Path(__file__).resolve().parents[2]
SESSION = "crates/pb_form/specs/SessionRows.antt"
OUTPUT = "crates/pb_form/specs/OutputRows.antt"
REFERENCE = "docs/REFERENCE.md"


def otherwise(path: str, *changes: tuple[str, str]) -> Sources:
    """Sources in which a file has other texts."""
    text = Sources().text(path)
    for old, new in changes:
        assert old in text
        text = text.replace(old, new)
    return Sources({path: text})


def test_schema_is_fresh() -> None:
    data, complaints = guide.schema(Sources())
    assert complaints == []
    assert (TOP / rows.SCHEMA).read_text(encoding="utf-8") == rows.text_of(data)


# Something else in a source or in the guide, and what is said of it.
OTHERWISE = [
    (
        "crates/pb_limits/specs/Limits.antt",
        "most_level = 100000",
        "most_level = 100001",
        "MM is from 0",
    ),
    (OUTPUT, '"dof" (from_zero', '"free" (from_zero', "`solved` rows have"),
    (SESSION, 'row "dip"', 'row "dips"', "no dips,ID"),
    (
        SESSION,
        'row "unit" (column "name" Name ∷ [])',
        'row "unit" (column "name" Name ∷ column "to" Name ∷ [])',
        "no unit,NAME,TO",
    ),
    (SESSION, "kind.StreamBatch", "kind.RiverBatch", "RiverBatch isn't named"),
    (SESSION, "session_columns kind.StreamBatch =", "session_columns kind.Strap =", "no equation"),
    (SESSION, 'column "last" Date', 'column "last" Time', "what is Time"),
    (SESSION, 'column "last" Date', 'column "last" λ', "what is this"),
    ("crates/pb_form/specs/Words.antt", 'codes "sealed"', 'codes "shut"', "10 shut"),
    (
        OUTPUT,
        'row "end" (column "period" Name ∷ column "round" round_range ∷ [])',
        'row "end" (column "period" Name ∷ column "price" round_range ∷ [])',
        "`end` rows have",
    ),
    (
        OUTPUT,
        "kind.StreamBefore = bounded_columns ++",
        'kind.StreamBefore = bounded_columns ++ column "low" wide_range ∷',
        "StreamBefore isn't a stream row",
    ),
    (
        REFERENCE,
        "| DOF | degrees of freedom | 1 | 2,000 |",
        "| DOF | degrees of freedom | 1 | 3,000 |",
        "DOF is from",
    ),
    (REFERENCE, "| k | sweeps done", "| sweeps | sweeps done", "`solved` rows have"),
    (REFERENCE, "`strike,ID,REASON`", "`strike,ID`", "no strike,ID,REASON"),
]


@pytest.mark.parametrize("path, old, new, said", OTHERWISE, ids=[case[3] for case in OTHERWISE])
def test_sources_and_guide_disagree(path: str, old: str, new: str, said: str) -> None:
    """Whatever is otherwise in one place alone is told."""
    try:
        _, complaints = guide.schema(otherwise(path, (old, new)))
    except SystemExit as error:
        complaints = [str(error)]
    assert re.search(said, "\n".join(complaints)), complaints


def sessions(*changes: tuple[str, str]) -> list[dict[str, Any]]:
    """The rows of a session of another table."""
    return rows.session(otherwise(SESSION, *changes))


def row(found: list[dict[str, Any]], kind: str, variant: str = "") -> dict[str, Any]:
    """The row of a kind."""
    wanted = [it for it in found if (it["kind"], it.get("variant", "")) == (kind, variant)]
    assert len(wanted) == 1, found
    return wanted[0]


def test_columns_that_repeat() -> None:
    whole = "session_schema kind = record"
    tail = 'tail = column "stream" Name ∷ column "cost" (from_zero most_level) ∷ []'
    close = f"session_schema kind.Close = record {{ columns = session_columns kind.Close; {tail} }}"
    found = row(sessions((whole, f"{close}\n{whole}")), "close")
    assert guide.pattern_of(found) == "close,PERIOD[,STREAM,COST]..."
    assert [column["type"] for column in found["tail"]] == ["name", "number"]
    assert '"tail": [{' in rows.row_text(found)
    columns = tuple(Column(it["name"], it["type"], it["label"]) for it in found["columns"])
    tail_columns = tuple(Column(it["name"], it["type"], it["label"]) for it in found["tail"])
    assert Row("close", columns, tail_columns).pattern == "close,PERIOD[,STREAM,COST]..."


def test_columns_that_may_be_missing_at_the_end() -> None:
    since = 'session_columns kind.Tank ++ column "since" Date ∷ []'
    strap = "session_columns kind.Strap ="
    found = sessions(
        (strap, f"session_columns kind.TankSince = {since}\n{strap}"),
        ("kind.Tank ∷ kind.Strap", "kind.Tank ∷ kind.TankSince ∷ kind.Strap"),
    )
    assert guide.pattern_of(row(found, "tank")) == "tank,NAME,BASEVAR"
    assert guide.pattern_of(row(found, "tank", "since")) == "tank,NAME,BASEVAR,SINCE"


def test_columns_that_may_be_empty() -> None:
    found = sessions(
        (
            'row "close" (column "period" Name',
            'row "close" (record { key = codes "period"; holds = Name; optional = true }',
        ),
    )
    assert row(found, "close")["columns"][0]["optional"] is True


def fits(column: Column, text: str) -> bool:
    """Whether a field is one that a column takes."""
    if column.optional and text == "":
        return True
    if column.type == "number":
        if not re.fullmatch(r"0|-?[1-9][0-9]*", text):
            return False
        low = column.low if column.low is not None else int(text)
        high = column.high if column.high is not None else int(text)
        return low <= int(text) <= high
    if column.type == "word":
        return text in column.words
    return text != "" or column.type in ("names", "parts")


EXAMPLES = sorted(TOP.glob("examples/**/*.out.csv"))


@pytest.mark.parametrize("path", EXAMPLES, ids=lambda path: path.name)
def test_outputs_fit(path: Path) -> None:
    rows = schema().output
    with path.open(encoding="utf-8", newline="") as file:
        for fields in csv.reader(file):
            row = rows[fields[0]]
            assert len(fields) == len(row.columns) + 1
            assert all(fits(column, text) for column, text in zip(row.columns, fields[1:]))


def test_examples_of_rows() -> None:
    """The example of each row of a session has its kind and its number of fields."""
    for row in schema().session:
        fields = next(csv.reader([row.example]))
        assert fields[0] == row.kind
        assert row.kind == "late" or row.takes(len(fields) - 1)


def test_older_stream_rows() -> None:
    stream = schema().output["stream"]
    assert (len(stream.names), len(stream.older)) == (14, 12)
    assert stream.without == ("least_lo", "least_hi")


def test_keys_of_json() -> None:
    """What JSON lines call the columns."""
    import json

    lines = (TOP / "examples/heat_exchanger_suspect.jsonl").read_text(encoding="utf-8").splitlines()
    for line in lines:
        found = json.loads(line)
        row = schema().output[found.pop("row")]
        assert sorted(found) == sorted(row.names)
