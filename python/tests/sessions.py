"""Random sessions of all kinds of rows, refusals and versions, each from a number."""

from __future__ import annotations

import csv
import datetime
import io
import random

from plantbal.schema import Column, Row, schema

# Names of a column, those that are declared more often.
NAMES = {
    "name": ["W", "X", "q", "U", "S", "env", "p", "J"],
    "from": ["env", "U", "V", "T", "W", "J"],
    "to": ["env", "U", "V", "T", "S", "Y", "L"],
    "stream": ["S", "R", "B", "P", "T", "Q", "Z", "N", "C"],
    "tank": ["T", "T", "U", "S", "K", "Y", "Y"],
    "period": ["p", "p", "o", "q"],
    "first": ["p", "p", "o", "q"],
    "last": ["o", "o", "p", "q"],
    "component": ["cu", "cu", "au", "S", "p"],
    "id": ["a", "b", "c", "d", "e", "f"],
}
DAYS = ["2024-01-30", "2024-01-31", "2024-01-31", "2024-02-01", "2024-05-31", "2025-02-28"]
# Fields that hardly a column takes.
WRONG = [
    "",
    "x y",
    "-0",
    "01",
    "1.0",
    "1,5",
    "2.7 t",
    "2024-02-30",
    "1899-12-31",
    "9999-12-31",
    "31.01.2024",
    "é",
    "a" * 33,
    "+1",
    " 1",
    '"',
    "9" * 70,
]
WORDS = ["metered", "batch", "plain", "global", "nodal", "reading", "dip", "tank", "meterd"]
REASONS = ["why", "typed, twice", "~" * 80, "~" * 81, '"']
# Records of no kind, and others that are wrong as a whole.
ODD = [
    ["unti", "U"],
    ["UNIT", "U"],
    [""],
    ["", "", ""],
    ["stream", "S"],
    ["late"],
    ["late", "assay", "cu", "S", "p", "1", "1"],
    ["# a comment"],
    [" unit", "U"],
    ["unit,U"],
    ["jetty", "J"],
    ["report", "p", "1", "2"],
    ["solved", "p"],
    ["amend", "a"],
    ["critical"],
]
OFTEN = {
    "reading": 5,
    "transfer": 3,
    "dip": 4,
    "late": 3,
    "amend": 3,
    "strike": 3,
    "close": 1,
    "assay": 4,
    "component": 2,
    "window": 2,
}
ROWS = [row for row in schema().session for _ in range(OFTEN.get(row.kind, 1))]
PLANT = """unit,U
unit,V
tank,T,5
strap,T,0,0
strap,T,1000,1000000
stream,S,env,U,metered,5
stream,R,U,V,metered,5
stream,B,V,env,batch,5
stream,P,U,V,plain,0
period,p,2024-01-31,2024-01-31
period,o,2024-02-01,2024-02-02
critical,nodal,3841
reading,a,S,2024-01-31,5,5
dip,b,T,2024-01-31,500,5,5
""".splitlines()
# The same in version 2, with boundaries and dates of service.
PLANT_2 = [
    "version,2",
    "boundary,J",
    "boundary,L",
    *PLANT,
    "stream,C,J,V,plain,0",
    "tank,Y,5,2024-01-31,2024-02-01",
    "strap,Y,0,0",
    "strap,Y,1000,1000000",
    "stream,Z,J,Y,metered,5,2024-02-01,2024-05-31",
    "stream,N,Y,L,batch,5,2024-01-31,2024-02-01",
]


def field_of(chance: random.Random, column: Column) -> str:
    """Return a field of a column: mostly such as it takes, at times another text."""
    if chance.random() < 0.03:
        return chance.choice(WRONG)
    if column.type == "name":
        return chance.choice(NAMES[column.name])
    if column.type == "number":
        low, high = column.low or 0, column.high or 0
        if chance.random() < 0.05:
            return str(chance.choice([low - 1, high + 1]))
        ends = [low, high, min(5, high), min(500, high), min(1000, high), min(1001, high)]
        return str(chance.choice(ends))
    if column.type == "date":
        return chance.choice(DAYS)
    if column.type == "word":
        return column.words[0] if chance.random() < 0.9 else chance.choice(WORDS)
    return chance.choice(REASONS)


def record_of(chance: random.Random) -> list[str]:
    """Return a record of any kind; at times one has a field too few or too many."""
    if chance.random() < 0.04:
        return list(chance.choice(ODD))
    row: Row = chance.choice(ROWS)
    fields = [field_of(chance, column) for column in row.columns]
    for _ in range(chance.randint(0, 3) if row.tail else 0):
        fields += [field_of(chance, column) for column in row.tail]
    turn = chance.randint(0, 29)
    if turn == 0 and fields:
        fields.pop()
    if turn > 27:
        fields += ["", "x"][: turn - 27]
    return [row.kind, *fields]


def run_of(chance: random.Random) -> list[list[str]]:
    """Return a run of readings, most of which are accepted, in a session of the plants here."""
    first, rows = datetime.date(2024, 1, 1), []
    often = chance.choice([0, 0.05, 0.5])
    for number in range(chance.randint(9, 40)):
        day = first + datetime.timedelta(days=number // 2)
        row = [f"r{number}", "SR"[number % 2], day.isoformat(), str(number), "5"]
        if chance.random() < often:
            place = chance.randrange(5)
            near = rows[-1][place + 1] if rows else ""
            row[place] = chance.choice([near, *WRONG, *NAMES["stream"], *DAYS])
        rows.append(["reading", *row])
        if chance.random() < often / 10:
            rows[-1] += chance.choice([["x"], [""], ["", "x"]])
    return rows


def session_of(number: int) -> bytes:
    """Return the session of a number, as the bytes of a file."""
    chance = random.Random(number)
    rows = list(chance.choice([PLANT, PLANT_2]))
    for _ in range(chance.choice([0, 0, 1, 2])):
        rows.pop(chance.randrange(len(rows)))
    out = io.StringIO()
    records = [record_of(chance) for _ in range(chance.randint(10, 40))]
    if chance.random() < 0.4:
        place = chance.randrange(len(records))
        records[place:place] = run_of(chance)
    csv.writer(out, lineterminator=chance.choice(["\n", "\r\n"])).writerows(records)
    asks = "".join(f"history,{name}\n" for name in ("p", "o"))
    return ("".join(f"{row}\n" for row in rows) + out.getvalue() + asks).encode()
