"""What lint finds: each code, what it lets pass, and the forty-seven mistakes."""

from __future__ import annotations

import json
import time
from collections.abc import Iterator
from pathlib import Path

import pytest
from conftest import TOP, Desk, example
from hypothesis import given, settings
from hypothesis import strategies as st
from mistakes import BASE, MISTAKES, Mistake

import plantbal
from plantbal import limits
from plantbal.fleet.running import lint_plants
from plantbal.fleet.rows import FleetPlant, FleetRow
from plantbal.fleet.sites import sites
from plantbal.fleet.taking import Taker
from plantbal.lint import brief, lint_session, summary
from plantbal.lint.findings import RULES, SEVERITIES
from plantbal.lint.plant import MOST_PAIRS, near_pairs, one_letter_apart
from plantbal.sentence import Sentence
from plantbal.lint.rules import find
from plantbal.model.ledger import Ledger
from plantbal.model.topology import Arc, classes_of, degrees_of_freedom
from plantbal.program import call
from plantbal.report.blocks import Block, blocks_of
from plantbal.report.parsing import parse_rows
from plantbal.session import LIMITS

# A unit with a tank after it, over two days.
PLANT = """\
unit,MILL
tank,SILO,1000000000000
strap,SILO,0,0
strap,SILO,10000,4000000000
stream,FEED,env,MILL,metered,1000000
stream,DUST,MILL,env,metered,1000000
stream,MEAL,MILL,SILO,metered,1000000
stream,BAGS,SILO,env,batch,1000000
critical,global,1,3841
critical,global,2,5991
critical,nodal,3841
critical,measure,3841
period,d1,2024-03-01,2024-03-02
"""
FACTS = """\
reading,f1,FEED,2024-03-01,1200000000,100000000000000
reading,f2,FEED,2024-03-02,1210000000,100000000000000
reading,u1,DUST,2024-03-01,100000000,1000000000000
reading,u2,DUST,2024-03-02,101000000,1000000000000
reading,m1,MEAL,2024-03-01,1100000000,100000000000000
reading,m2,MEAL,2024-03-02,1109000000,100000000000000
transfer,b1,BAGS,2024-03-01,2024-03-02,1000000000,100000000000
dip,s0,SILO,2024-02-29,2000,1250000,100000000000000
dip,s2,SILO,2024-03-02,4417,1250000,100000000000000
"""
GOOD = f"{PLANT}{FACTS}report,d1\n"


def codes(session: str | bytes, *, notes: bool = True) -> list[str]:
    """The codes of a session's findings."""
    data = session.encode() if isinstance(session, str) else session
    return [each.code for each in lint_session(data) if notes or each.severity != "note"]


def changed(old: str, new: str) -> str:
    """The good session with one text in the place of another."""
    assert GOOD.count(old) == 1, old
    return GOOD.replace(old, new)


def days(stream: str, grams: list[int], variance: int = 100000000000000) -> str:
    """A session of a unit whose feed has these readings, a day each; the product has them too."""
    rows = ["unit,U", f"stream,{stream},env,U,metered,1", "stream,OUT,U,env,metered,1"]
    rows += ["critical,global,1,3841", "critical,nodal,3841", "critical,measure,3841"]
    rows.append(f"period,p,2024-01-01,2024-01-{len(grams):02}")
    for day, amount in enumerate(grams, 1):
        rows.append(f"reading,i{day},{stream},2024-01-{day:02},{amount},{variance}")
        rows.append(f"reading,o{day},OUT,2024-01-{day:02},1000000000,100000000000000")
    return "\n".join([*rows, "report,p", ""])


def dip(tank: str, day: str, mm: int) -> str:
    """The row of a dip with an error of 1 t."""
    return f"dip,{tank}_{day},{tank},{day},{mm},1000000,1000000000000\n"


def test_nothing_looks_wrong() -> None:
    assert codes(GOOD) == []
    assert codes(BASE) == []


# Two streams side by side of which nothing determines either.
LOOPED = changed(
    "period,d1", "stream,ONE,MILL,SILO,plain,0\nstream,TWO,MILL,SILO,plain,0\nperiod,d1"
)
CASES = [
    (
        "refused",
        changed("unit,MILL\n", "unit,MILL\nUnit,KILN\n"),
        "1 row is refused, and the report of d1 is made without it: Unit KILN",
    ),
    (
        "refused",
        changed("report,d1\n", "report,d1\nreport,d2\n"),
        "1 row is refused: report d2: there is no period d2",
    ),
    ("refused", GOOD.replace(",", ";"), "fields have semicolons between them: save it"),
    ("refused", GOOD.replace(",", "\t"), "fields have tabs between them"),
    (
        "nothing-asked",
        changed("report,d1\n", ""),
        "9 facts are there, and no report is asked for: add `report,d1`",
    ),
    (
        "nothing-asked",
        "unit,U\nstream,A,env,U,metered,1\nreading,a,A,2024-03-01,1,1\n",
        "1 fact is there, and no report is asked for",
    ),
    ("nothing-asked", "", "there is no row"),
    (
        "nothing-asked",
        "unit,U\n",
        "no report, window, balance, design, advice or history is asked for",
    ),
    (
        "missing-reading",
        changed("reading,u1,", "reading,u1,FEED,x\n#"),
        "DUST has no value in d1: no reading on 2024-03-01, 1 of 2 days; its flow is what the other streams leave over",
    ),
    (
        "missing-reading",
        changed(
            "FEED,env,MILL,metered,1000000\n",
            "FEED,env,MILL,metered,1000000\nstream,MORE,env,MILL,metered,1\n",
        ),
        "MORE has no value in d1: no reading on any of its 2 days",
    ),
    (
        "missing-dip",
        changed("dip,s0,SILO,2024-02-29,", "dip,s0,SILO,2024-03-01,"),
        "tank SILO has no value in d1: it has no dip of the day before d1, 2024-02-29",
    ),
    (
        "missing-dip",
        changed("dip,s2,SILO,2024-03-02,", "dip,s2,SILO,2024-03-03,"),
        "no dip of the last day of d1, 2024-03-02",
    ),
    (
        "no-period",
        changed("FEED,2024-03-01", "FEED,2023-03-01"),
        "reading f1 of FEED is of 2023-03-01, which is in no period: did you mean 2024-03-01?",
    ),
    (
        "no-period",
        changed("b1,BAGS,2024-03-01,2024-03-02", "b1,BAGS,2024-04-01,2024-04-02"),
        "transfer b1 of BAGS is of 2024-04-01, which is in no period: correct its date",
    ),
    (
        "no-period",
        GOOD.replace("period,d1,2024-03-01,2024-03-02\n", "").replace("report,d1\n", "design\n"),
        "no period is declared, and 9 facts count nowhere",
    ),
    (
        "after-report",
        GOOD.replace("report,d1\n", "").replace("reading,u1", "report,d1\nreading,u1"),
        "rows of 7 facts come after the last report of d1",
    ),
    (
        "after-report",
        GOOD + "amend,f1,1201000000,100000000000000,typed wrong\n",
        "1 row of a fact comes after the last report of d1",
    ),
    (
        "after-report",
        GOOD + "strike,f1,typed wrong\n",
        "1 row of a fact comes after the last report of d1",
    ),
    (
        "one-sided",
        changed("stream,FEED,env,MILL", "unit,MIL\nstream,FEED,env,MIL"),
        "nothing goes out of unit MIL: FEED is booked as 0, whatever its meter says: did you mean MILL?",
    ),
    (
        "one-sided",
        changed(
            "stream,FEED,env,MILL",
            "unit,CRUSHER\nstream,ORE,CRUSHER,MILL,plain,0\nstream,FEED,env,MILL",
        ),
        "nothing comes in at unit CRUSHER: ORE is booked as 0",
    ),
    (
        "one-sided",
        changed("unit,MILL\n", "unit,MILL\nunit,KILN\n"),
        "no stream leads to unit KILN, and none from it",
    ),
    (
        "never-served",
        "version,2\n"
        + changed("period,d1", "stream,VENT,MILL,env,plain,0,2042-03-01,2042-03-02\nperiod,d1"),
        "VENT is in service from 2042-03-01 to 2042-03-02, on no day of a period",
    ),
    (
        "near-names",
        changed(
            "unit,MILL\n",
            "unit,MILL\nunit,MLIL\nstream,X,MILL,MLIL,plain,0\nstream,Y,MLIL,MILL,plain,0\n",
        ),
        "the nodes MILL and MLIL have nearly the same name",
    ),
    (
        "near-names",
        changed("stream,DUST", "stream,DUSTS,MILL,env,plain,0\nstream,DUST"),
        "the streams DUSTS and DUST have nearly the same name",
    ),
    (
        "magnitude",
        days("IN", [1000000000, 1001000000, 1002000000, 1000000]),
        "reading i4 of IN is 1.000 t, 1/1,000 of the median, 1,000.000 t",
    ),
    (
        "magnitude",
        days("IN", [1000000000, 1001000000, 1002000000, 100100000000]),
        "reading i4 of IN is 100,100.000 t, 100 times the median, 1,001.000 t",
    ),
    (
        "small-deviation",
        changed("1200000000,100000000000000", "1200000000,10000000"),
        "reading f1 of FEED has VARIANCE 10000000, a standard deviation of 3,162 g at 1,200.000 t: if 10,000,000 g is the standard deviation, write its square, 100000000000000",
    ),
    (
        "small-deviation",
        changed("2024-03-02,1000000000,100000000000", "2024-03-02,1000000000,5"),
        "if 5 t is the standard deviation, write its square, 25000000000000",
    ),
    (
        "small-deviation",
        changed("2000,1250000,100000000000000", "2000,1250000,10000"),
        "dip s0 of SILO has VARIANCE 10000, a standard deviation of 100 g at 1,000.000 t",
    ),
    (
        "small-deviation",
        changed("FEED,env,MILL,metered,1000000", "FEED,env,MILL,metered,1000").replace(
            "1200000000,100000000000000", "1200000000,0"
        ),
        "reading f1 of FEED has VARIANCE 0",
    ),
    (
        "large-deviation",
        changed("-03-01,100000000,1000000000000", "-03-01,100000,1000000000000"),
        "reading u1 of DUST has a standard deviation of 1.000 t, more than its value, 100,000 g: if the amount is in kilograms, write 100000000",
    ),
    (
        "large-deviation",
        changed("2000,1250000,100000000000000", f"2000,1250000,{10**18}").replace(
            "4000000000", "400000000"
        ),
        "dip s0 of SILO has a standard deviation of 1,000.000 t, more than the full tank, 500.000 t",
    ),
    (
        "density",
        changed("2000,1250000", "2000,1250"),
        "dip s0 of SILO has a density of 1,250 g per cubic metre: did you mean 1250000?",
    ),
    (
        "density",
        changed("2000,1250000", "2000,12500000"),
        "dip s0 of SILO has a density of 12,500,000 g per cubic metre: water has 1000000",
    ),
    (
        "worse-class",
        changed("reading,u1,", "reading,u1,FEED,x\n#"),
        "in d1 FEED is nonredundant, and redundant by design, since DUST has no value",
    ),
    (
        "no-critical",
        changed("critical,global,2,5991\n", ""),
        "d1 has 2 degrees of freedom, and there is no critical value for them: `plantbal-desk critical 0.05 2`",
    ),
    ("untested", GOOD.replace("critical,", "strike,no"), "no critical value is declared"),
    (
        "no-elimination",
        changed("critical,global,1,3841\n", ""),
        "an elimination asks for critical values for 1 degree of freedom, which aren't there",
    ),
    (
        "no-elimination",
        changed("critical,measure,3841\n", ""),
        "an elimination asks for critical values for `measure`, which aren't there",
    ),
    (
        "no-transfer",
        changed("transfer,b1,BAGS,2024-03-01,2024-03-02,1000000000,100000000000\n", ""),
        "BAGS has no transfer in d1, and counts as 0 there",
    ),
    (
        "unused-dip",
        changed("dip,s2", "dip,s1,SILO,2024-03-01,3000,1250000,100000000000000\ndip,s2"),
        "dip s1 of SILO is of 2024-03-01, neither the last day of a period nor the day before one",
    ),
    (
        "not-reported",
        changed("period,d1", "period,d3,2024-03-03,2024-03-03\nperiod,d1").replace(
            "report,d1", "reading,f3,FEED,2024-03-03,1200000000,100000000000000\nreport,d1"
        ),
        "d3 has 1 fact, and no report is asked for",
    ),
    (
        "no-balance",
        changed("report,d1", "assay,cu,FEED,d1,9000,100\nassay,cu,MEAL,d1,9900,100\nreport,d1"),
        "2 assays of cu in d1, and no balance is asked for: add `component,cu,d1`",
    ),
    (
        "after-balance",
        GOOD + "assay,cu,FEED,d1,9000,100\ncomponent,cu,d1\nassay,cu,MEAL,d1,9900,100\n",
        "MEAL comes after the last balance of cu in d1: put `component,cu,d1` after",
    ),
    (
        "unchecked-grade",
        GOOD + "assay,cu,FEED,d1,9000,100\ncomponent,cu,d1\n",
        "FEED alone has an assay of cu in d1: nothing checks it",
    ),
    (
        "grade",
        GOOD
        + "".join(
            f"period,e{day},2024-04-0{day},2024-04-0{day}\n"
            f"assay,cu,FEED,e{day},{9000 if day > 1 else 9},1\n"
            for day in (1, 2, 3, 4)
        ),
        "FEED has 9 ppm of cu in e1, and 9,000 ppm in the middle of its periods",
    ),
    (
        "large-deviation",
        GOOD + "assay,cu,FEED,d1,9000,82000000\n",
        "the assay of cu in FEED in d1 has a standard deviation of 9,055 ppm, more than its grade",
    ),
    (
        "near-names",
        GOOD + "assay,cu,FEED,d1,9000,100\nassay,Cu,MEAL,d1,9900,100\n",
        "the components cu and Cu have nearly the same name",
    ),
    (
        "unused-assay",
        LOOPED + "assay,cu,FEED,d1,9000,4\nassay,cu,ONE,d1,9,4\ncomponent,cu,d1\n",
        "nothing determines the flow of ONE in d1, so the balance of cu leaves its assay out",
    ),
    (
        "negative",
        days("FEED", [*range(10**9, 10**9 + 9), -(10**9)]),
        "FEED is below 0 on 2024-01-10, 1 reading of 10, at least -1,000.000 t: look at its sign",
    ),
    (
        "zero",
        days("FEED", [10**9] * 8 + [0, 0]),
        "FEED reads 0 on 2024-01-09, 2024-01-10, though the unit that it serves keeps running",
    ),
    (
        "frozen",
        days("FEED", [1_001_000_000 + day * 10**6 for day in range(10)] + [999_000_000] * 5),
        "FEED has the same figure, 999.000 t, on 5 days, 2024-01-11 to 2024-01-15: if it stuck",
    ),
    (
        "copy",
        days("FEED", [10**9 + day for day in range(6)])
        + "".join(f"amend,o{day + 1},{10**9 + day},1,x\n" for day in range(6))
        + "report,p\n",
        "FEED, OUT have the same figures on each of 6 days: look whether one column was copied",
    ),
    (
        "tank-range",
        changed(",4417,", ",4,").replace(
            "report,d1", "".join(dip("SILO", f"2024-02-{day}", 2000) for day in (25, 26, 27))
        )
        + "report,d1\n",
        "SILO has 4 mm on 2024-03-02, and 2,000 to 2,000 mm in its 4 other dips: "
        "if it is in metres, write it in mm with all its decimals, such as 4000 mm for exactly 4 m",
    ),
    (
        "tank-jump",
        "unit,U\ntank,T,1\nstrap,T,0,0\nstrap,T,10000,10000000000\nstream,IN,U,T,plain,0\n"
        + "stream,FEED,env,U,plain,0\nperiod,p,2024-01-01,2024-01-09\n"
        + "".join(dip("T", f"2024-01-0{day}", 5000 + 100 * day) for day in range(1, 9))
        + dip("T", "2023-12-31", 5000)
        + dip("T", "2024-01-09", 3000)
        + "report,p\n",
        "the dip of T on 2024-01-09 asks for a change of -2,800.000 t up to 2024-01-08; "
        "booked flows and its other days give 100.000 t",
    ),
    (
        "negative-flow",
        "unit,U\nstream,IN,env,U,metered,1\nstream,OUT,env,U,plain,0\n"
        "period,p,2024-01-01,2024-01-01\nreading,a,IN,2024-01-01,5000000000,100\nreport,p\n",
        "OUT from env to U is booked as -5,000.000 t ± 10 g: it would run backward: "
        "exchange the ends of OUT if it runs from U to env",
    ),
    (
        "estimated",
        changed("reading,f1,", "reading,FEED_2024-03-01.est,"),
        "FEED is estimated on 2024-03-01, 1 day: 1,200.000 t ± 10.000 t: put in the true figures",
    ),
    (
        "no-cost",
        LOOPED + "advise,ONE,30\n",
        "TWO has no cost in this advise row, and counts as 1: add the costs",
    ),
]


@pytest.mark.parametrize(
    "code, session, text", CASES, ids=[f"{c[0]}-{i}" for i, c in enumerate(CASES)]
)
def test_code(code: str, session: str, text: str) -> None:
    said = [str(each) for each in lint_session(session.encode()) if each.code == code]
    assert any(text in line for line in said), said


def test_each_code_has_a_case() -> None:
    silent = {"exchanged", "strap-slope", "scatter"}  # which have tests of their own
    others = {"nearly-full", "not-looked-at", "no-account", "no-owner"} | silent
    assert {case[0] for case in CASES} | others == set(RULES)


QUIET = [
    ("a base that carries all of the error", GOOD.replace(",100000000000000\n", ",0\n").replace("metered,1000000\n", f"metered,{10**12}\n")),
    ("a reading of 0", changed("-03-01,100000000,1000000000000\n", "-03-01,0,1000000000000\n")),
    ("a day at a hundredth", days("IN", [1000000000, 1001000000, 1002000000, 10000000])),
    ("a stop among small values", days("IN", [1000000, 0, 1200000, 900000], 10**12)),
    ("an amended value", changed("1200000000,1000000", "1200000,1000000").replace("report", "amend,f1,1200000000,100000000000000,unit\nreport")),
    ("a struck fact", changed("report,d1", "reading,x,FEED,2023-03-01,1,1\nstrike,x,wrong year\nreport,d1")),
    ("a second report", GOOD + "amend,f1,1201000000,100000000000000,typed wrong\nreport,d1\n"),
    ("a late fact before the report", GOOD.replace("report,d1\n", "").replace("reading,u1", "close,d1\nlate,reading,u1").replace("\nreading,u2", "\nlate,reading,u2").replace("\nreading,m", "\nlate,reading,m").replace("\ntransfer", "\nlate,transfer").replace("\ndip", "\nlate,dip") + "report,d1\n"),
    ("a design alone", PLANT + "design\n"),
    ("costs of all plain streams", LOOPED + "advise,ONE,30,TWO,1\nadvise\n"),
]  # fmt: skip


@pytest.mark.parametrize("what, session", QUIET, ids=[case[0] for case in QUIET])
def test_quiet(what: str, session: str) -> None:
    assert codes(session, notes=False) == [], what


def test_accounts(tmp_path: Path) -> None:
    file = tmp_path / "accounts.csv"
    heads = "name,kind,product,group,owner,unit,density\n"
    file.write_text(f"{heads}FEED,,ore,ore,Alpha,t,\nSILO,,ore,ore,,t,\n")
    found = lint_session(GOOD.encode(), accounts=file)
    said = {each.name: each.code for each in found if each.code in ("no-account", "no-owner")}
    names = [
        line.split(",")[1] for line in GOOD.splitlines() if line.startswith(("stream", "tank"))
    ]
    wanted = {name: "no-account" for name in names} | {"SILO": "no-owner"}
    assert said == {name: code for name, code in wanted.items() if name != "FEED"}
    assert codes(GOOD, notes=False) == []


def test_many_near_names() -> None:
    """The first hundred pairs are named, and it is said that there are more."""
    names = [f"MILL{one}{other}" for one in "ACEGIK" for other in "MOQSUW"]
    for count, more in ((14, 0), (len(names), 1)):
        rows = "".join(f"unit,{name}\n" for name in names[:count])
        found = [each for each in lint_session(rows.encode()) if each.code == "near-names"]
        said = [each for each in found if not each.names]
        assert len(said) == more and len(found) <= MOST_PAIRS + more
        assert all(str(MOST_PAIRS) in each.text for each in said)


def test_nearly_full(monkeypatch: pytest.MonkeyPatch) -> None:
    rows = "".join(f"unit,u{number}\n" for number in range(800))
    said = [str(each) for each in lint_session(rows.encode()) if each.code == "nearly-full"]
    assert len(said) == 1 and "800 units and tanks are there, and at most 1,000 may be" in said[0]
    assert "nearly-full" not in codes(rows.replace("unit,u799\n", ""))
    streams = "streams_of_version_1"
    for limit, most in (("facts", 10), ("periods", 1), (streams, 6), ("points", 2)):
        monkeypatch.setitem(LIMITS, f"most_{limit}", most)
    monkeypatch.setitem(LIMITS, "most_bytes", len(GOOD))
    said = [each.text.split(" are there")[0] for each in lint_session(GOOD.encode())]
    assert said == [
        "9 readings, transfers and dips",
        "1 periods",
        "5 streams and tanks",
        "2 points of a tank's table",
        f"{len(GOOD):,} bytes",
    ]


PAIRS = [
    ("THICKENER", "THICKENR", True),
    ("NAPHTHA", "NAPHTA", True),
    ("FUEL_GAS", "FUEL_GSA", False),
    ("FUEL_GAS", "FULE_GAS", True),
    ("FUEL_GAS", "Fuel-Gas", True),
    ("CHARGE", "CHANGE", True),
    ("PUMP_A", "PUMP_B", False),
    ("MILLA", "MILLB", False),
    ("STEAM_HP", "STEAM_LP", False),
    ("TANK1", "TANK2", False),
    ("TANK_1", "TANK_11", False),
    ("F1", "G1", False),
    ("CRUDE", "CRUDE", False),
    ("LIGHT", "HEAVY", False),
    ("COARSE", "COURSES", False),
]


@pytest.mark.parametrize("one, other, wanted", PAIRS)
def test_one_letter_apart(one: str, other: str, wanted: bool) -> None:
    assert one_letter_apart(one, other) is wanted
    assert one_letter_apart(other, one) is wanted
    assert list(near_pairs([one, other])) == ([(one, other)] if wanted else [])


@settings(deadline=None, max_examples=50)
@given(st.lists(st.text("ABCab_1", min_size=1, max_size=8), unique=True, max_size=8))
def test_near_pairs(names: list[str]) -> None:
    """No pair is skipped by the look-up."""
    wanted = [
        (one, other)
        for place, one in enumerate(names)
        for other in names[place + 1 :]
        if one_letter_apart(one, other)
    ]
    assert list(near_pairs(names)) == wanted


# ---- classes and degrees of freedom without the program


def reports() -> Iterator[Block]:
    for path in sorted(TOP.glob("examples/**/*.out.csv")):
        if example("conformance") not in path.parents:
            yield from blocks_of(parse_rows(str(path), path.read_text(encoding="utf-8")))


def test_classes_are_those_of_the_program() -> None:
    blocks = list(reports())
    assert len(blocks) > 10
    for block in blocks:
        nodes = [row["name"] for row in block.nodes]
        arcs = [Arc(row["name"], row["from"], row["to"]) for row in block.streams]
        measured = {row["name"] for row in block.streams if row["value"]}
        wanted = {row["name"]: row["class"] for row in block.streams}
        assert classes_of(nodes, arcs, measured) == wanted
        assert block.solved is not None
        assert str(degrees_of_freedom(nodes, arcs, measured)) == block.solved["dof"]


# ---- the forty-seven mistakes


@pytest.mark.parametrize("mistake", MISTAKES, ids=[each.name for each in MISTAKES])
def test_mistake(mistake: Mistake, program: Path) -> None:
    session = mistake.session()
    _, text = call(["run", "--tests"], session, program=program)
    rows = parse_rows("output", text.decode())
    blocks = blocks_of(rows)
    whole = blocks[-1].whole if blocks else None
    assert {int(row["code"]) for row in rows if row["row"] == "refused"} == mistake.refused
    assert set(codes(session, notes=False)) == mistake.lint
    assert (whole["verdict"] if whole else "-") == mistake.verdict
    assert bool(blocks and blocks[-1].suspects()) == mistake.suspects


def test_each_mistake_is_told_or_in_the_guide() -> None:
    assert len(MISTAKES) == 47
    guide = (TOP / "docs" / "GUIDE.md").read_text(encoding="utf-8")
    begin = guide.index("\n## Before a report is booked")
    part = guide[begin : guide.index("\n## ", begin + 1)]
    harmless = {"byte order mark and CRLF", "CR alone"}
    for mistake in MISTAKES:
        if mistake.guide:
            assert not mistake.is_told and mistake.guide in part, mistake.name
        else:
            assert mistake.is_told != (mistake.name in harmless), mistake.name
    for rule in RULES.values():
        assert f"| `{rule.code}` | {rule.severity} |" in part, rule.code


# ---- the command


def test_command(say: Desk, tmp_path: Path) -> None:
    path = tmp_path / "may.csv"
    path.write_text(changed("2000,1250000", "2000,1250"), encoding="ascii")
    said = say("lint", path)
    line = f"{path}:21: warning: dip s0 of SILO has a density of 1,250 g per cubic metre: "
    assert (said.status, said.out) == (0, f"{line}did you mean 1250000? [density]\n")
    assert said.err == "plantbal-desk lint: 1 warning: density\n"
    assert say("lint", "--strict", path).status == 1
    assert say("lint", "--strict", "--ignore", "density", path).status == 0
    found = json.loads(say("lint", "--json", path).out)
    assert found == [
        {
            "code": "density",
            "severity": "warning",
            "file": str(path),
            "line": 21,
            "period": "",
            "name": "SILO",
            "text": "dip s0 of SILO has a density of 1,250 g per cubic metre",
            "remedy": "did you mean 1250000?",
        }
    ]


def test_command_of_a_good_session(say: Desk) -> None:
    said = say("lint", "--strict", text=GOOD)
    assert (said.status, said.out) == (0, "")
    assert said.err == "plantbal-desk lint: nothing looks wrong\n"
    assert say("lint", "--json", text=GOOD).out == "[]\n"


def test_command_of_an_error(say: Desk, tmp_path: Path) -> None:
    assert say("lint", text="").status == 1
    said = say("lint", tmp_path / "none.csv")
    assert said.status == 3 and "none.csv: No such file" in said.err
    assert say("lint", "--ignore", "nothing", text=GOOD).status == 2


def test_session_in_memory() -> None:
    session = plantbal.Session(strict=False)
    session.unit("FUEL GAS")
    session.unit("U")
    session.design()
    (first, second) = plantbal.lint_session(session)
    assert (first.code, first.place.line) == ("refused", None)
    assert "unit FUEL GAS: NAME is 'FUEL GAS'" in first.text
    assert second.code == "one-sided"
    assert plantbal.lint_session(session, ignore=["refused", "one-sided"]) == []


def test_summary() -> None:
    found = lint_session(changed("reading,u1,", "reading,u1,FEED,x\n#").encode())
    assert summary(found) == ("1 error: refused; 2 warnings: missing-reading, worse-class")
    assert brief(found) == summary(found)
    assert brief(lint_session(GOOD.replace("critical,", "strike,").encode()))[:7] == "1 error"


def test_the_guide_shows_it(say: Desk, monkeypatch: pytest.MonkeyPatch) -> None:
    monkeypatch.chdir(TOP / "examples")
    words = "plantbal-desk lint flotation_shift.csv"
    shown = "".join(f"    {line}\n" for line in [words, *say(*words.split()[1:]).out.splitlines()])
    guide = (TOP / "docs" / "GUIDE.md").read_text(encoding="utf-8")
    assert f"\n{shown}\n" in guide
    for name in ("standard deviation for variance", "another year"):
        (session,) = [each.session() for each in MISTAKES if each.name == name]
        said = str(lint_session(session)[0])
        assert said.replace("session:", "    may.csv:", 1) in guide


def test_page(say: Desk, program: Path, tmp_path: Path) -> None:
    path = tmp_path / "may.csv"
    path.write_text(changed("2000,1250000", "2000,1250"), encoding="ascii")
    page = say("page", "--run", path, "--program", program).out
    assert '>21</td><td class="text wide">dip s0 of SILO has a density of 1,250 g' in page
    page = say("page", "--session", example("two_meters.csv"), example("two_meters.out.csv")).out
    assert "What looks wrong" not in page


def test_fleet(tmp_path: Path) -> None:
    (tmp_path / "good.csv").write_text(GOOD, encoding="ascii")
    (tmp_path / "bad.csv").write_text(changed("report,d1\n", ""), encoding="ascii")
    chosen = sites(tmp_path).sites
    plants = [FleetPlant(site.name, [FleetRow(site.name)]) for site in chosen]
    with Taker(count=1) as taker:
        lint_plants(taker, plants, chosen)
    found = {plant.site: plant.rows[0].warnings for plant in plants}
    assert found == {"bad": "1 error: nothing-asked", "good": ""}


@settings(deadline=None, max_examples=60)
@given(st.data())
def test_never_fails(data: st.DataObject) -> None:
    """Whatever rows are there, in whatever order, lint says something or nothing, and in lines."""
    lines = GOOD.splitlines()
    rows = data.draw(st.lists(st.sampled_from(lines), max_size=40))
    rows += data.draw(st.lists(st.sampled_from(lines) | st.text(max_size=8), max_size=3))
    for each in lint_session("\n".join(rows).encode()):
        assert "\n" not in str(each) and each.severity in SEVERITIES
        assert each.text and each.remedy


def test_lint_ends(say: Desk, tmp_path: Path) -> None:
    """A session may ask for many windows over many streams: lint has a limit of time."""
    rows = ["unit,U", *(f"stream,S{k},env,U,metered,1" for k in range(600))]
    rows += [
        f"period,p{k},2024-{k // 28 + 1:02}-{k % 28 + 1:02},2024-{k // 28 + 1:02}-{k % 28 + 1:02}"
        for k in range(300)
    ]
    rows += [f"window,p{a},p{b}" for a in range(150) for b in range(a + 1, a + 60)]
    path = tmp_path / "windows.csv"
    path.write_text("".join(f"{row}\n" for row in rows))
    begun = time.monotonic()
    found = say("lint", "--timeout", "0.2", path)
    assert time.monotonic() - begun < 20
    assert found.status == 3 and "lint didn't finish within 0.2 s: use --timeout" in found.err


# ---- more than lint looks at

TWICE = """version,2
unit,U
stream,S,env,U,metered,1
stream,T,U,env,metered,1
stream,P,U,env,plain,0
period,a,2024-01-01,2024-01-01
period,b,2024-01-02,2024-01-02
reading,s1,S,2024-01-01,1000,10
reading,t1,T,2024-01-01,1000,10
reading,s2,S,2024-01-02,1000,10
assay,cu,S,a,1000,10
assay,cu,T,a,1000,10
"""
ASKS = {
    "windows": ["window,a,b"],
    "reports": ["report,a", "report,b"],
    "balances": ["component,cu,a"],
    "designs": ["design"],
    "advice": ["advise,P,1"],
}


@pytest.mark.parametrize("kind", ASKS)
def test_more_is_asked_for_than_is_looked_at(kind: str, monkeypatch: pytest.MonkeyPatch) -> None:
    """The finding is at the first row that isn't looked at, and what isn't asked for isn't judged."""
    asked = "".join(f"{row}\namend,s1,{1000 + n},10,why\n" for n in range(50) for row in ASKS[kind])
    rows = f"{TWICE}{asked}report,a\nreport,b\nwindow,a,b\ncomponent,cu,a\n"
    whole = [each.code for each in lint_session(rows.encode())]
    assert "not-looked-at" not in whole
    monkeypatch.setattr(limits, "LINT_STREAMS", 1000)
    some = lint_session(rows.encode())
    (said,) = [each for each in some if each.code == "not-looked-at"]
    first = said.place.line
    assert first is not None and rows.split("\n")[first - 1].split(",")[0] in ASKED_KINDS
    assert 12 < first < rows.count("\n") and said.severity == "warning"
    assert not {"not-reported", "no-balance", "after-report"} & {each.code for each in some}
    beyond = rows.split("\n")[first - 1 :]
    count = sum(row.split(",")[0] in ASKED_KINDS for row in beyond)
    assert isinstance(said.text, Sentence) and said.text.values["count"] == count


ASKED_KINDS = ("report", "window", "component", "design", "advise")


def test_lint_keeps_the_last_row_of_each_subject() -> None:
    """What it finds is the same, and a session that asks often takes no more memory."""
    rows = (
        TWICE + "report,a\nwindow,a,b\n" * 30 + "reading,t2,T,2024-01-02,9,10\nreport,b\nreport,a\n"
    )
    ledger, kept = Ledger("s", rows.encode()), Ledger("s", rows.encode(), most=10**6)
    assert (len(ledger.seen), len(kept.seen)) == (62, 3)
    assert kept.reported.keys() == ledger.reported.keys() and kept.windows == ledger.windows
    for name, seen in kept.reported.items():
        assert seen.line == ledger.reported[name].line
    assert [*find(ledger)] == [*find(kept)]
