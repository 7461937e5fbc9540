"""Sentences about refused rows: each code with each kind of row, files that are wrong as a whole, rows that
follow from others, and anything at all."""

from __future__ import annotations

import csv
import io
from pathlib import Path

import pytest
from conftest import Desk, example
from hypothesis import given, settings
from hypothesis import strategies as st
from test_program import PLANT, PLANT_2, QUICK, lines_of, record, refused_by

from plantbal.explain import ExplainedRow, Explanation, Text, explain_bytes
from plantbal.session import LIMITS

SMALL = """unit,U
unit,V
tank,T,1
strap,T,0,0
strap,T,1000,5000
tank,E,1
stream,S,env,U,metered,1
stream,B,V,env,batch,5
stream,P,U,V,plain,0
period,p,2024-01-01,2024-01-31
period,o,2024-03-01,2024-03-31
critical,global,1,3841
critical,nodal,3841
critical,measure,3841
reading,r,S,2024-01-05,5,5
transfer,t,B,2024-01-05,2024-01-06,5,5
dip,d,T,2024-01-05,500,5,5
"""
CLOSED = SMALL + "close,p\n"

# A row after SMALL (or CLOSED, of 10 and 11): its code, its kind, the row, the field at fault, and what is
# said.
CASES = [
    (1, "", "untt,X", "KIND", "did you mean unit?"),
    (1, "", "Unit,X", "KIND", "did you mean unit?"),
    (1, "", "# a remark", "KIND", "a session has no comments"),
    (1, "", " unit,X", "KIND", "take the space beside 'unit' out"),
    (1, "", '"unit,X"', "KIND", "the whole row is in double quotes"),
    (1, "", ",unit,X", "KIND", "a row begins with its kind"),
    (1, "", "solved,1,converged,0,0,0,0,0", "KIND", "is this an output?"),
    (1, "stream", "stream,X,env,U,meterd,1", "field 5", "did you mean metered?"),
    (1, "stream", "stream,X,env,metered,1", "field 5", "a field is missing before it"),
    (1, "stream", "stream,X,A,env,U,metered,1", "field 5", "there is a field too many before it"),
    (1, "critical", "critical,glbal,1,5", "field 2", "did you mean global?"),
    (1, "late", "late,readings,q,S,2024-01-06,1,1", "field 2", "did you mean reading?"),
    (2, "unit", "unit", "NAME", "NAME is missing; write unit,NAME"),
    (2, "unit", "unit,X,2", "field 3", "1 field too many"),
    (2, "tank", "tank,X", "BASEVAR", "BASEVAR is missing"),
    (2, "strap", "strap,T,2000", "MM or ML", "MM or ML is missing (which one isn't clear)"),
    (2, "stream", "stream,X,env,U,metered", "BASEVAR", "BASEVAR is missing"),
    (2, "period", "period,x,2024-05-01", "FIRST or LAST", "FIRST or LAST is missing"),
    (2, "critical", "critical", "global", "it has no other field"),
    (2, "critical", "critical,global,3841", "DOF", "DOF is missing"),
    (2, "critical", "critical,global,2", "DOF or VALUE", "DOF or VALUE is missing"),
    (2, "reading", "reading,q,S,2024-01-06,5", "GRAMS or VARIANCE", "isn't clear"),
    (2, "reading", "reading,q,S,2024-01-06,2,741,000,5", "GRAMS", "write 2741000, without commas"),
    (
        2,
        "reading",
        "reading,q,S,2024-01-06,27,5,5",
        "GRAMS",
        "'27,5', with a comma; if 27,5 is in tonnes, write 27500000",
    ),
    (2, "reading", "reading,S,2024-01-06,5,5", "ID, STREAM or DATE", "is missing"),
    (2, "reading", "reading,q,S", "DATE, GRAMS, VARIANCE", "are missing at its end"),
    (2, "reading", "reading,x y,2024-01-06,x", "", "which isn't clear"),
    (2, "transfer", "transfer,q,B,2024-01-05,5,5", "FIRST or LAST", "is missing"),
    (2, "dip", "dip,q,T,2024-01-06,500,5", "MM, DENSITY or VARIANCE", "is missing"),
    (2, "late", "late", "reading", "it has no other field"),
    (2, "late", "late,reading,q,S,2024-01-06,5", "GRAMS or VARIANCE", "is missing"),
    (2, "amend", "amend,r", "GRAMS, VARIANCE, REASON", "are missing at its end"),
    (2, "amend", "amend,r,5,5,5,a,b", "REASON", "put it between double quotes"),
    (2, "strike", "strike,r", "ID or REASON", "is missing"),
    (2, "strike", "strike,r,wrong,really", "REASON", "put it between double quotes"),
    (2, "close", "close", "PERIOD", "PERIOD is missing"),
    (2, "design", "design,p", "field 2", "write design"),
    (2, "report", "report", "PERIOD", "PERIOD is missing"),
    (2, "history", "history,p,o", "field 3", "too many"),
    (3, "unit", "unit,FUEL GAS", "NAME", "such as FUEL_GAS"),
    (3, "tank", "tank,TK-Öl,1", "NAME", "letters, digits"),
    (3, "strap", "strap,T 1,5000,1", "TANK", "such as T_1"),
    (3, "stream", "stream,X,env, U,metered,1", "TO", "such as U"),
    (3, "stream", "stream,X,,U,metered,1", "FROM", "FROM is empty"),
    (3, "period", "period,may 24,2024-05-01,2024-05-31", "NAME", "such as may_24"),
    (3, "reading", f"reading,{'r' * 33},S,2024-01-06,5,5", "ID", "has 33 characters"),
    (3, "transfer", "transfer,q,B/1,2024-01-06,2024-01-06,5,5", "STREAM", "such as B_1"),
    (3, "dip", "dip,q,T#,2024-01-06,5,5,5", "TANK", "letters, digits"),
    (3, "late", "late,reading,q q,S,2024-01-06,5,5", "ID", "such as q_q"),
    (3, "amend", "amend,r,5,5,drift ü", "REASON", "plain characters"),
    (3, "amend", "amend,d d,5,5,5,drift", "ID", "such as d_d"),
    (3, "strike", f"strike,r,{'x' * 81}", "REASON", "1 to 80"),
    (3, "close", "close,p 1", "PERIOD", "such as p_1"),
    (3, "report", "report,p+", "PERIOD", "letters"),
    (3, "history", "history,p?", "PERIOD", "letters"),
    (4, "tank", "tank,X,0", "BASEVAR", "1 to 10,000"),
    (4, "strap", "strap,T,-1,5", "MM", "0 to 100,000"),
    (4, "stream", "stream,X,env,U,metered,1.0", "BASEVAR", "write 1, without the point"),
    (4, "stream", "stream,X,env,U,batch,+1", "BASEVAR", "write 1, without the sign"),
    (4, "stream", "stream,X,env,U,plain,1", "BASEVAR", "a plain stream has no variance"),
    (4, "critical", "critical,global,2,5.991", "VALUE", "write 5991, in thousandths"),
    (4, "critical", "critical,global,0,5", "DOF", "1 to 2,000"),
    (4, "critical", "critical,nodal,x", "VALUE", "digits alone"),
    (4, "critical", "critical,measure,-1", "VALUE", "0 to 1,000"),
    (
        4,
        "reading",
        "reading,q,S,2024-01-06,2741.0,5",
        "GRAMS",
        "write 2741000000 if it is in tonnes, and 2741 if it is in grams",
    ),
    (4, "reading", "reading,q,S,2024-01-06,2.741E+09,5", "GRAMS", "write 2741000000, if"),
    (4, "reading", 'reading,q,S,2024-01-06,"2,741,000",5', "GRAMS", "write 2741000, without any"),
    (4, "reading", "reading,q,S,2024-01-06,2741.25,5", "GRAMS", "write 2741250000, in grams"),
    (4, "reading", 'reading,q,S,2024-01-06,"2.741,25",5', "GRAMS", "write 2741250000, in grams"),
    (4, "reading", "reading,q,S,2024-01-06,007,5", "GRAMS", "without the zero in front"),
    (4, "reading", "reading,q,S,2024-01-06,5 t,5", "GRAMS", "write 5000000, without the unit"),
    (4, "reading", "reading,q,S,2024-01-06,5.000 t,5", "GRAMS", "take the unit of measure out"),
    (4, "reading", "reading,q,S,2024-01-06,5 m3,5", "GRAMS", "multiply this volume by its density"),
    (4, "reading", "reading,q,S,2024-01-06,,5", "GRAMS", "GRAMS is empty"),
    (4, "reading", "reading,q,S,1.1.24,x,5", "GRAMS", "DATE can't be read either"),
    (4, "transfer", "transfer,q,B,2024-01-06,2024-01-06,5,-5", "VARIANCE", "0 to"),
    (4, "dip", "dip,q,T,2024-01-06,5.5,5,5", "MM", "if 5.5 is in metres, write 5500"),
    (4, "dip", "dip,q,T,2024-01-06,500,0,5", "DENSITY", "1 to 20,000,000"),
    (
        4,
        "dip",
        "dip,q,T,2024-01-06,500,862.0,5",
        "DENSITY",
        "write 862000 if it is in kilograms per",
    ),
    (
        4,
        "dip",
        "dip,q,T,2024-01-06,500,0.862,5",
        "DENSITY",
        "is in tonnes per cubic metre, write 862000",
    ),
    (
        4,
        "dip",
        "dip,q,T,2024-01-06,5.0,5,5",
        "MM",
        "write 5000 if it is in metres, and 5 if it is in",
    ),
    (4, "late", "late,reading,q,S,2024-01-06,5,2024-01-06", "VARIANCE", "in their order?"),
    (4, "amend", "amend,r,5 000,5,typed wrong", "GRAMS", "write 5000"),
    (4, "amend", "amend,d,-5,5,5,typed wrong", "MM", "0 to 100,000"),
    (5, "period", "period,x,1.5.2024,2024-05-31", "FIRST", "write 2024-05-01 or 2024-01-05"),
    (5, "period", "period,x,2024-02-01,2024-02-30", "LAST", "February 2024 has 29 days"),
    (5, "reading", "reading,q,S,2024-01-06 00:00,5,5", "DATE", "write 2024-01-06, without the"),
    (5, "reading", "reading,q,S,45383,5,5", "DATE", "write 2024-04-01, if this is a spreadsheet's"),
    (5, "transfer", "transfer,q,B,20240106,2024-01-07,5,5", "FIRST", "write 2024-01-06"),
    (5, "dip", "dip,q,T,2024-1-6,500,5,5", "DATE", "write 2024-01-06"),
    (5, "late", "late,dip,q,T,06/13/24,500,5,5", "DATE", "write 2024-06-13"),
    (6, "strap", "strap,U,5,5", "TANK", "U is a unit, not a tank; name a tank"),
    (6, "stream", "stream,X,W,U,metered,1", "FROM", "there is no unit or tank W"),
    (
        6,
        "stream",
        "stream,X,U,S,metered,1",
        "TO",
        "S is a metered stream, not a unit or tank; name the unit",
    ),
    (
        6,
        "reading",
        "reading,q,T,2024-01-06,5,5",
        "STREAM",
        "T is a tank, not a stream; name a stream, or write a dip row",
    ),
    (6, "transfer", "transfer,q,Q,2024-01-06,2024-01-06,5,5", "STREAM", "there is no stream Q"),
    (6, "dip", "dip,q,TT,2024-01-06,5,5,5", "TANK", "there is no tank TT"),
    (6, "late", "late,reading,q,s,2024-01-06,5,5", "STREAM", "did you mean S?"),
    (6, "amend", "amend,q,5,5,typed wrong", "ID", "there is no fact q"),
    (6, "strike", "strike,q,typed wrong", "ID", "book the fact in a row before"),
    (6, "close", "close,q", "PERIOD", "there is no period q"),
    (6, "report", "report,P", "PERIOD", "did you mean p?"),
    (6, "history", "history,q", "PERIOD", "declare it in a row before"),
    (7, "unit", "unit,U", "NAME", "the first is in line 1"),
    (7, "unit", "unit,env", "NAME", "env is the world outside"),
    (7, "tank", "tank,S,1", "NAME", "the first is in line 7"),
    (7, "stream", "stream,T,env,U,metered,1", "NAME", "T is a tank already"),
    (7, "period", "period,p,2025-01-01,2025-01-31", "NAME", "the first is in line 10"),
    (7, "critical", "critical,global,1,5", "DOF", "the first is in line 12"),
    (7, "critical", "critical,nodal,5", "field 2", "the first is in line 13"),
    (7, "critical", "critical,measure,5", "field 2", "the first is in line 14"),
    (7, "reading", "reading,r,S,2024-01-06,5,5", "ID", "the first is in line 15"),
    (7, "reading", "reading,q,S,2024-01-05,5,5", "DATE", "the first is in line 15"),
    (7, "transfer", "transfer,d,B,2024-01-05,2024-01-06,5,5", "ID", "the first is in line 17"),
    (7, "dip", "dip,q,T,2024-01-05,500,5,5", "DATE", "the first is in line 17"),
    (7, "late", "late,dip,r,T,2024-01-06,500,5,5", "ID", "the id r is that of a reading"),
    (8, "strap", "strap,T,500,9000", "MM", "from bottom to top"),
    (8, "strap", "strap,T,2000,9", "ML", "ML is 9"),
    (8, "period", "period,x,2024-06-02,2024-06-01", "FIRST", "exchange the days"),
    (8, "transfer", "transfer,q,B,2024-01-06,2024-01-05,5,5", "FIRST", "exchange the days"),
    (8, "late", "late,transfer,q,B,2024-01-06,2024-01-05,5,5", "FIRST", "exchange the days"),
    (9, "stream", "stream,X,U,U,metered,1", "TO", "two different ends"),
    (9, "period", "period,x,2024-01-31,2024-02-01", "FIRST", "shares a day with period p"),
    (9, "reading", "reading,q,B,2024-01-06,5,5", "STREAM", "a batch stream has transfers"),
    (
        9,
        "transfer",
        "transfer,q,P,2024-01-06,2024-01-06,5,5",
        "STREAM",
        "a plain stream has no facts: declare it as metered or batch",
    ),
    (9, "late", "late,transfer,q,S,2024-01-06,2024-01-06,5,5", "STREAM", "has readings"),
    (9, "amend", "amend,d,5,5,typed wrong", "ID", "give it a level"),
    (9, "amend", "amend,r,5,5,5,typed wrong", "ID", "give it an amount"),
    (10, "unit", "unit,X", "", "no single field is at fault"),
    (10, "tank", "tank,X,1", "", "before the first close"),
    (10, "strap", "strap,T,2000,9000", "", "period p is closed"),
    (10, "stream", "stream,X,env,U,plain,0", "", "no single field is at fault"),
    (11, "reading", "reading,q,S,2024-01-06,5,5", "DATE", "write `late,` before the row"),
    (11, "transfer", "transfer,q,B,2024-01-31,2024-02-02,5,5", "FIRST", "touches period p"),
    (11, "dip", "dip,q,T,2023-12-31,500,5,5", "DATE", "touches period p"),
    (11, "close", "close,p", "PERIOD", "closed already"),
    (12, "period", "period,x,2024-06-01,2024-09-30", "LAST", "it has 122 days"),
    (12, "transfer", "transfer,q,B,2024-05-01,2025-06-01,5,5", "LAST", "at most 366"),
    (12, "dip", "dip,q,T,2024-01-06,1001,5,5", "MM", "from 0 to 1000"),
    (12, "dip", "dip,q,E,2024-01-06,5,5,5", "MM", "write its strap rows before"),
    (12, "late", "late,dip,q,T,2024-01-06,5000,5,5", "MM", "a digit too many"),
    (12, "amend", "amend,d,5000,5,5,typed wrong", "MM", "a digit too many"),
]
NAMED = "unit tank strap stream period reading transfer dip late amend strike close report history"
# The kinds that each code can arise with; of 13 see below.
KINDS = {
    1: {"", "stream", "critical", "late"},
    2: {*NAMED.split(), "critical", "design"},
    3: set(NAMED.split()),
    4: {"tank", "strap", "stream", "critical", "reading", "transfer", "dip", "late", "amend"},
    5: {"period", "reading", "transfer", "dip", "late"},
    6: set(NAMED.split()) - {"unit", "tank", "period"},
    7: {"unit", "tank", "stream", "period", "critical", "reading", "transfer", "dip", "late"},
    8: {"strap", "period", "transfer", "late"},
    9: {"stream", "period", "reading", "transfer", "late", "amend"},
    10: {"unit", "tank", "strap", "stream"},
    11: {"reading", "transfer", "dip", "close"},
    12: {"period", "transfer", "dip", "late", "amend"},
}


def only(found: Explanation) -> ExplainedRow:
    """The one row that is explained."""
    assert len(found.rows) == 1, str(found)
    return found.rows[0]


def marked(told: ExplainedRow) -> str:
    """What stands over the mark."""
    assert told.mark is not None
    begin, count = told.mark
    return told.row[begin : begin + count]


@pytest.mark.parametrize(
    "code, kind, row, label, said", CASES, ids=[case[2][:50] for case in CASES]
)
def test_each(program: Path, code: int, kind: str, row: str, label: str, said: str) -> None:
    data = ((CLOSED if code in (10, 11) else SMALL) + row + "\nreport,o\n").encode()
    told = only(explain_bytes("day.csv", data))
    assert [(told.record, told.code, told.word)] == refused_by(program, data)
    assert told.code == code
    assert told.column == label, told.sentence
    assert said in told.sentence
    line = 18 + (code in (10, 11))
    assert str(told).startswith(f"day.csv:{line}: ")
    assert not label or label == "KIND" or label in told.sentence or label == "global"
    if label and code not in (2, 7) and code != 1:
        fields = next(csv.reader([row]))
        assert marked(told).strip('"') in fields
    assert "  " not in told.sentence and not told.sentence.endswith((".", ";", ":"))


def test_cases_are_all() -> None:
    """Each code is tried with each kind that it can arise with."""
    found: dict[int, set[str]] = {}
    for code, kind, row, _, _ in CASES:
        assert kind in ("", row.split(",")[0])
        found.setdefault(code, set()).add(kind)
    assert found == KINDS


SMALL_2 = (
    "version,2\nboundary,J\nboundary,R\n"
    + SMALL
    + """tank,Y,1,2024-03-05,2024-03-20
strap,Y,0,0
strap,Y,1000,5000
stream,Z,J,U,metered,1,2024-03-05,2024-03-20
stream,N,V,R,batch,1,2024-03-05,2024-03-20
close,p
"""
)
# The same of boundaries, dates of service and advice, with the session before the row.
LATER = [
    (SMALL, 1, "boundary,J", "KIND", "boundaries are of sessions of version 2"),
    (SMALL, 1, "version,2", "KIND", "rows are stored before it"),
    (SMALL, 2, "tank,X,1,2024-03-05,2024-03-20", "SINCE", "are of sessions of version 2"),
    (SMALL, 2, "stream,X,env,U,plain,0,2024-03-05,2024-03-20", "SINCE", "write version,2 as the"),
    (SMALL, 2, "advise,P", "COST", "COST is missing at its end; write advise,STREAM,COST,STREAM"),
    (SMALL, 3, "advise,a b,1", "STREAM", "such as a_b"),
    (SMALL, 4, "advise,P,1.50", "COST", "costs may be in any unit, such as cents"),
    (SMALL, 6, "advise,Q,1", "STREAM", "there is no stream Q"),
    (SMALL, 6, "advise,P,1,T,1", "STREAM", "leave it out: a tank is measured by its dips"),
    (SMALL, 6, "advise,U,1", "STREAM", "U is a unit, not a stream; name a stream that leads to it"),
    (SMALL, 7, "advise,P,1,P,2", "STREAM", "P has a cost already"),
    (SMALL, 9, "advise,P,1,S,2", "STREAM", "S is a metered stream, which is measured already"),
    (SMALL_2, 1, "version,2", "KIND", "this session is of version 2 already"),
    (SMALL_2, 1, "version,3", "KIND", "it isn't the row version,2"),
    (SMALL_2, 1, "boundry,K", "KIND", "did you mean boundary?"),
    (SMALL_2, 1, "jetty,K", "KIND", "a row boundary,NAME declares one"),
    (SMALL_2, 1, "stream,X,J,U,truck,0,2024-03-05,2024-03-20", "field 5", "write metered, batch"),
    (SMALL_2, 2, "boundary", "NAME", "NAME is missing; write boundary,NAME"),
    (SMALL_2, 2, "tank,X,1,2024-03-05", "SINCE or UNTIL", "is missing: dates of service are two"),
    (SMALL_2, 2, "tank,X,1,05/03/2024,", "SINCE or UNTIL", "is missing: dates of service are two"),
    (SMALL_2, 2, "stream,X,J,U,plain,0,2024-03-05", "SINCE or UNTIL", "is missing"),
    (SMALL_2, 3, "boundary,a b", "NAME", "such as a_b"),
    (SMALL_2, 5, "tank,X,1,,2024-03-20", "SINCE", "write 1900-01-01 if it was"),
    (SMALL_2, 5, "tank,X,1,2024-03-05,20.3.2024", "UNTIL", "write 2024-03-20"),
    (SMALL_2, 5, "tank,X,1,2024-03-05,9999-12-31", "UNTIL", "write 2199-12-31 if there is no end"),
    (SMALL_2, 5, "tank,X,1,1800-01-01,2024-03-05", "SINCE", "write 1900-01-01 if it was always"),
    (SMALL_2, 6, "strap,J,5,5", "TANK", "J is a boundary, not a tank"),
    (SMALL_2, 6, "reading,q,J,2024-03-05,5,5", "STREAM", "J is a boundary, not a stream"),
    (SMALL_2, 6, "stream,X,QUAY,U,plain,0", "FROM", "there is no unit, tank or boundary QUAY"),
    (SMALL_2, 7, "boundary,J", "NAME", "J is a boundary already"),
    (SMALL_2, 7, "unit,R", "NAME", "R is a boundary already"),
    (SMALL_2, 8, "tank,X,1,2024-03-20,2024-03-05", "SINCE", "exchange the days"),
    (SMALL_2, 8, "stream,X,J,J,plain,0,2024-03-20,2024-03-05", "SINCE", "exchange the days"),
    (SMALL_2, 9, "stream,X,J,R,plain,0", "TO", "J and R are both the world outside"),
    (SMALL_2, 10, "tank,X,1", "", "period p is closed"),
    (SMALL_2, 10, "stream,X,J,U,plain,0,2024-01-31,2024-12-31", "SINCE", "SINCE 2024-02-01 or la"),
    (SMALL_2, 12, "reading,q,Z,2024-03-04,5,5", "DATE", "it is from 2024-03-05 to 2024-03-20"),
    (SMALL_2, 12, "transfer,q,N,2024-03-20,2024-03-21,5,5", "LAST", "in service on 2024-03-21"),
    (SMALL_2, 12, "transfer,q,N,2024-03-04,2024-03-06,5,5", "FIRST", "in service on 2024-03-0"),
    (SMALL_2, 12, "late,dip,q,Y,2024-03-03,5,5,5", "DATE", "Y isn't in service on 2024-03-03"),
    (SMALL_2, 12, "dip,q,Y,2024-03-03,5,5,5", "DATE", "the first dip may be of 2024-03-04"),
]
# The same of windows, assays and balances: p and n follow each other, and p is closed.
SMALL_3 = (
    "version,2\n"
    + SMALL
    + """stream,Z,U,env,metered,1,2024-03-05,2024-03-20
period,n,2024-02-01,2024-02-10
assay,cu,S,n,9000,100
assay,cu,S,o,9000,100
close,p
"""
)
LATER += [
    (SMALL_3, 2, "window,p", "FIRST or LAST", "is missing"),
    (SMALL_3, 2, "window,p,n,o", "field 4", "1 field too many; write window,FIRST,LAST"),
    (SMALL_3, 3, "window,p,n o", "LAST", "such as n_o"),
    (SMALL_3, 6, "window,p,N", "LAST", "did you mean n?"),
    (SMALL_3, 6, "window,2024-01-05,n", "FIRST", "write p, the period of this day"),
    (SMALL_3, 8, "window,n,p", "LAST", "period p begins before period n; exchange the periods"),
    (SMALL_3, 9, "window,p,o", "LAST", "2024-02-11 is in no period, between n and o"),
    (
        SMALL_3,
        1,
        "late,assay,cu,B,p,1,1",
        "field 2",
        "an assay can't come late: put its row before",
    ),
    (SMALL_3, 2, "assay,cu,B,n,9000", "PPM or GRADEVAR", "is missing"),
    (SMALL_3, 3, "assay,c u,B,n,1,1", "COMPONENT", "such as c_u"),
    (SMALL_3, 4, "assay,cu,B,n,0.9,1", "PPM", "if 0.9 is in percent, write 9000"),
    (SMALL_3, 4, "assay,cu,B,n,0.9 %,1", "PPM", "write 9000, without the unit"),
    (SMALL_3, 4, "assay,cu,B,n,12 g/t,1", "PPM", "write 12, without the unit"),
    (SMALL_3, 4, "assay,cu,B,n,1,0.5", "GRADEVAR", "0 to 100,000,000"),
    (SMALL_3, 6, "assay,cu,V,n,1,1", "STREAM", "V is a unit, not a stream or tank"),
    (SMALL_3, 6, "assay,cu,env,n,1,1", "STREAM", "env is the world outside, not a stream or tank"),
    (SMALL_3, 6, "assay,B,cu,n,1,1", "STREAM", "B is one; exchange the two fields"),
    (SMALL_3, 6, "assay,cu,B,2024-02-05,1,1", "PERIOD", "write n, the period of this day"),
    (SMALL_3, 7, "assay,cu,S,n,1,1", "STREAM", "the first is in line 21"),
    (SMALL_3, 11, "assay,cu,B,p,1,1", "PERIOD", "put it before the close"),
    (SMALL_3, 12, "assay,cu,Z,n,1,1", "STREAM", "Z is in service on no day of n"),
    (SMALL_3, 2, "component,cu", "COMPONENT or PERIOD", "is missing"),
    (SMALL_3, 6, "component,cu,x", "PERIOD", "there is no period x"),
    (SMALL_3, 6, "component,n,cu", "PERIOD", "n is one; exchange the two fields"),
    (SMALL_3, 6, "component,au,n", "COMPONENT", "there is no assay of au in n"),
    (SMALL_3, 6, "amend,cu,1,1,wrong", "ID", "it can't be amended or struck; correct its own row"),
    (SMALL_3, 6, "strike,S,wrong", "ID", "S is a metered stream: name a fact by its id"),
]


@pytest.mark.parametrize("before, code, row, label, said", LATER, ids=[one[2] for one in LATER])
def test_each_later(program: Path, before: str, code: int, row: str, label: str, said: str) -> None:
    data = (before + row + "\nreport,o\n").encode()
    told = only(explain_bytes("day.csv", data))
    assert [(told.record, told.code, told.word)] == refused_by(program, data)
    assert (told.code, told.column) == (code, label), told.sentence
    assert said in told.sentence
    if label and code not in (1, 2):
        assert marked(told) in row.split(",")


FULL = [
    ("most_units_and_tanks", 4, "unit,X"),
    ("most_units_and_tanks", 4, "tank,X,1"),
    ("most_streams_of_version_1", 5, "tank,X,1"),
    ("most_streams_of_version_1", 5, "stream,X,env,U,plain,0"),
    ("most_points", 2, "strap,T,2000,9000"),
    ("most_periods", 2, "period,x,2024-06-01,2024-06-01"),
    ("most_facts", 3, "reading,q,S,2024-01-06,5,5"),
    ("most_facts", 3, "transfer,q,B,2024-01-06,2024-01-06,5,5"),
    ("most_facts", 3, "dip,q,T,2024-01-06,500,5,5"),
    ("most_facts", 3, "late,reading,q,S,2024-01-06,5,5"),
]


FULL_2 = [
    ("most_boundaries", 1, "boundary,K", "1 boundaries are the limit"),
    ("most_streams", 6, "tank,X,1,2024-03-05,2024-03-20", "6 streams and tanks are the limit"),
    ("most_assays", 2, "assay,cu,B,n,1,1", "2 assays are the limit"),
    ("most_nodes", 3, "window,p,n", "it would have 9 nodes, and at most 3 may be"),
    ("most_periods_of_window", 1, "window,p,n", "2 periods are from p to n"),
]


@pytest.mark.parametrize("limit, most, row, said", FULL_2, ids=[one[2] for one in FULL_2])
def test_full_later(
    monkeypatch: pytest.MonkeyPatch, limit: str, most: int, row: str, said: str
) -> None:
    monkeypatch.setattr("plantbal.model.core._is_installed", lambda _: False)  # it has its own
    monkeypatch.setitem(LIMITS, limit, most)  # type: ignore[arg-type]
    before = SMALL_3.replace("version,2\n", "version,2\nboundary,J\n")
    told = only(explain_bytes("day.csv", f"{before}{row}\nreport,o\n".encode()))
    assert said in told.sentence, told.sentence


@pytest.mark.parametrize("limit, most, row", FULL, ids=[f"{one}, {row}" for one, _, row in FULL])
def test_full(monkeypatch: pytest.MonkeyPatch, limit: str, most: int, row: str) -> None:
    monkeypatch.setattr("plantbal.model.core._is_installed", lambda _: False)  # it has its own
    monkeypatch.setitem(LIMITS, limit, most)  # type: ignore[arg-type]
    told = only(explain_bytes("day.csv", f"{SMALL}{row}\nreport,o\n".encode()))
    assert (told.code, told.column) == (13, "")
    assert f"{most} " in told.sentence and "no single field is at fault" in told.sentence


@settings(QUICK, max_examples=20)
@given(
    st.sampled_from([PLANT, PLANT_2]),
    st.sets(st.sampled_from(PLANT_2), max_size=2),
    st.lists(record(), min_size=5, max_size=30),
)
def test_whatever_is_refused(
    program: Path, whole: list[str], missing: set[str], records: list[list[str]]
) -> None:
    """Each refused row is explained: the field is named, or it is said that it can't be."""
    plant = [row for row in whole if row not in missing]
    data = ("".join(f"{row}\n" for row in plant) + lines_of(records)).encode()
    found = explain_bytes("day.csv", data)
    all_told = [told for each in [*found.whole, *found.rows] for told in [each, *each.under]]
    told_rows = sorted((told.record, told.code, told.word) for told in all_told if told.record)
    assert told_rows == refused_by(program, data)
    for told in all_told:
        if told.record and told.row:
            no_field = "no single field" in told.sentence or "isn't clear" in told.sentence
            assert told.column or no_field, told.sentence
            assert told.mark is not None and told.mark[0] + told.mark[1] <= len(told.row) + 1


def unquoted(text: str) -> str:
    """A field as the program reads it."""
    return next(csv.reader(io.StringIO(text, newline="")), [""])[0]


@settings(max_examples=60, deadline=None)
@given(st.text(st.sampled_from('ab,"\r\n ä'), max_size=40))
def test_places_of_fields(text: str) -> None:
    found = Text("day.csv", text.encode())
    for each in found.records:
        fields = found.fields(each)
        assert [unquoted(found.text[f.begin : f.end]) for f in fields] == list(each.fields)


@settings(max_examples=60, deadline=None)
@given(st.binary(max_size=80))
def test_any_bytes(data: bytes) -> None:
    assert isinstance(str(explain_bytes("day.csv", data)), str)


WHOLE = [
    (b"", "it has no row"),
    (b"\n\n,,,\n", "it has no row"),
    ("\ufeff".encode("utf-16-le") + SMALL.encode("utf-16-le"), "this is UTF-16; save it as"),
    (SMALL.encode("utf-16-be"), "this is UTF-16 without a mark"),
    (SMALL.replace(",", ";").encode(), "fields have semicolons between them"),
    (SMALL.replace(",", "\t").encode(), "fields have tabs between them"),
    (SMALL.encode(), "it asks for nothing; add a row report,PERIOD"),
    (b"PK\x03\x04 and so on", "this is a workbook"),
    (b'{"row":"unit"}\n', "these are JSON lines"),
    ((SMALL + 'strike,r,"wrong\nreport,o\n').encode(), "a double quote opens here"),
]


@pytest.mark.parametrize("data, said", WHOLE, ids=[said for _, said in WHOLE])
def test_whole_file(data: bytes, said: str) -> None:
    """What is wrong with the whole file is said once, and no row besides."""
    found = explain_bytes("day.csv", data)
    assert said in found.whole[0].headline
    assert found.rows == []
    assert len(str(found).splitlines()) <= 5
    assert not found.whole[0].under or "refused for this reason" in str(found)


def test_too_large() -> None:
    found = explain_bytes("day.csv", b"\n" * 67_108_865)
    assert "67,108,864 bytes; split it" in str(found)


def test_follow() -> None:
    """Rows that are refused only because of another stand under it."""
    data = b"""unit,FUEL GAS

tank,T,x
unit,U
stream,GAS,env,FUEL_GAS,metered,1
stream,OIL,env,FUEL GAS,metered,1
stream,GOOD,env,U,metered,1
strap,T,0,0
reading,g,GAS,2024-01-01,1,1
reading,h,GOOD,2024-01-01,1.0,1
amend,h,1,1,typed wrong
period,m,2024-01-01,2024-02-31
report,m
tank,D,1
strap,D,0,x
dip,y,D,2024-01-01,0,1,1
"""
    found = explain_bytes("day.csv", data)
    under = {told.line: [other.line for other in told.under] for told in found.rows}
    assert under == {1: [5, 6, 9], 3: [8], 10: [11], 12: [13], 15: [16]}
    assert "3 rows are refused only because of this row: lines 5, 6 and 9" in str(found)
    assert found.by_record()[8].endswith("(only because of line 1)")


def test_balances_follow_from_the_assays_of_their_period() -> None:
    data = f"{SMALL_3}assay,au,S,n,1.5,1\ncomponent,au,n\ncomponent,au,o\nreport,o\n".encode()
    found = explain_bytes("day.csv", data)
    under = {told.line: [other.line for other in told.under] for told in found.rows}
    assert under == {24: [25], 26: []}
    later = SMALL_3 + "component,au,n\nassay,au,S,n,1,1\nreport,o\n"
    told = only(explain_bytes("day.csv", later.encode()))
    assert "it is declared in line 25, after this one: move that row up" in told.sentence


def test_later() -> None:
    data = b"stream,S,env,U,metered,1\nunit,U\nperiod,p,2024-01-01,2024-01-01\nreport,p\n"
    told = only(explain_bytes("day.csv", data))
    assert "it is declared in line 2, after this one: move that row up" in told.sentence


def test_lines_by_the_programs_rules() -> None:
    """Empty lines, quotes over lines, the forms of line ends and a mark in front."""
    data = b'\xef\xbb\xbfunit,U\r\n\r\n\nperiod,p,2024-01-01,2024-01-01\rstrike,q,"a\n\nb"\r\nunit,V W\nreport,p'
    found = explain_bytes("day.csv", data)
    assert [(told.line, told.record) for told in found.rows] == [(5, 3), (8, 4)]
    assert "the row goes from line 5 to line 7" in found.rows[0].sentence
    assert marked(found.rows[1]) == "V W"


def test_wide_letters_and_long_rows() -> None:
    told = only(explain_bytes("d", SMALL.encode() + "unit,燃料\nreport,p\n".encode()))
    assert told.mark == (5, 4) and "'燃料'" in told.sentence
    row = f"reading,{'a' * 300},S,2024-01-01,1,1"
    told = only(explain_bytes("d", f"{SMALL}{row}\nreport,p\n".encode()))
    assert len(told.row) <= 112 and "a…,S,2024" in told.row and len(told.sentence) < 250
    row = f"reading,q,S,x,1,1,{'a' * 300}"
    told = only(explain_bytes("d", f"{SMALL}{row}\nreport,p\n".encode()))
    assert len(told.row) <= 112 and told.row.endswith("…") and len(told.sentence) < 250
    told = only(explain_bytes("d", SMALL.encode() + b"unit,\xd6L\nreport,p\n"))
    assert marked(told) == "ÖL"


def test_command(say: Desk, tmp_path: Path) -> None:
    session, output = example("badly_typed.csv"), example("badly_typed.out.csv")
    found = say("explain", session, output)
    assert found.status == 1 and found.err == ""
    assert f"{session}:27: reading g1: GRAMS is '121,300,000'; write 121300000" in found.out
    assert found.out.count("^\n") == 17
    assert say("explain", "-", text=session.read_bytes()).out.startswith("standard input:3: ")
    good = say("explain", example("refinery_day.csv"))
    assert (good.status, good.out) == (0, "") and "nothing to explain" in good.err
    other = say("explain", example("refinery_day.csv"), output)
    assert other.status == 1 and "isn't the output of" in other.err
    assert say("explain", tmp_path / "none").status == 3
