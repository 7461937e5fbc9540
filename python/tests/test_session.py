"""Sessions: what is refused, by the cases that the program's book is tried with; amounts; frames."""

from __future__ import annotations

import copy
import csv
import datetime
from decimal import Decimal
from pathlib import Path

import pandas
import pytest
from conftest import least_spent
from hypothesis import given, settings
from hypothesis import strategies as st

from plantbal import Fault, InputFault, Refusal, Session
from plantbal.amounts import grams_of, tonnes_of, tonnes_text, variance_of
from plantbal.records import read_records
from plantbal.schema import schema

TOP = Path(__file__).resolve().parents[2]
CASES = TOP / "crates/book_cases"
WORDS = {code.word for code in schema().refusals.values()}


def answer(session: Session, fields: list[str], store: bool) -> str:
    """What a session answers to a record, in the words of the cases."""
    try:
        if store:
            session.row(*fields)
        else:
            session = copy.deepcopy(session)
            session.judge(fields)
    except Refusal as refusal:
        assert str(refusal)
        assert schema().refusals[refusal.code].word == refusal.word
        return refusal.word
    return ""


def test_cases_of_the_book() -> None:
    """Each of the cases that a book answers to, in order, gets the same refusal here, or none."""
    session, refused, accepted = Session(), 0, 0
    answers, at = (CASES / "stdout").read_text(encoding="utf-8"), 0
    for line in (CASES / "stdin").read_text(encoding="utf-8").splitlines():
        end = answers.index(line + "\n", at)
        told, at = answers[at:end].strip(), end + len(line) + 1
        fields = line.split(",")
        if fields[0] == "case":
            session = Session()
        if fields[0] in ("case", "edits", "touched", "plain"):
            continue
        store = fields[0] != "try"
        wanted = told if told in WORDS else ""
        assert answer(session, fields if store else fields[1:], store) == wanted, line
        refused, accepted = refused + (wanted != ""), accepted + (wanted == "")
    assert refused > 180 and accepted > 180


SESSIONS = sorted(
    path
    for path in TOP.glob("examples/*.csv")
    if not path.name.endswith(".out.csv") and path.read_bytes()[:7] != b"report,"
)


@pytest.mark.parametrize("path", SESSIONS, ids=lambda path: path.name)
def test_examples(path: Path) -> None:
    """Shipped sessions: the refused rows are those of their output."""
    output = path.with_name(path.stem + ".out.csv")
    with output.open(encoding="utf-8", newline="") as file:
        wanted = [row[1:] for row in csv.reader(file) if row[0] == "refused"]
    session = Session.read(path)
    assert [[str(r.place.record), str(r.code), r.word] for r in session.refused] == wanted


def small() -> Session:
    session = Session()
    session.unit("MILL")
    session.tank("SILO", deviation_tonnes="0.5")
    session.strap("SILO", 0, 0)
    session.strap("SILO", 20000, 6280000000)
    session.stream("FEED", "env", "MILL", deviation_tonnes=1)
    session.stream("CEMENT", "MILL", "SILO", "plain")
    session.stream("TRUCKS", "SILO", "env", "batch", variance=1)
    session.period("mar", datetime.date(2024, 3, 1), datetime.date(2024, 3, 31))
    session.reading("f1", "FEED", "2024-03-01", tonnes="121.3", deviation_tonnes="1.5")
    return session


# A mistake, and what is said of it: its code, and a part of the sentence.
MISTAKES = [
    (("unti", "X"), 1, "did you mean unit?"),
    (("stream", "X", "env", "MILL", "meterd", "1"), 1, "did you mean metered?"),
    (("unit",), 2, "write unit,NAME"),
    (("amend", "f1"), 2, "amend,ID,GRAMS,VARIANCE,REASON or amend,ID,MM"),
    (("unit", "RAW MILL"), 3, "such as RAW_MILL"),
    (("strike", "f1", "drift ü"), 3, "plain characters"),
    (("reading", "f2", "FEED", "2024-03-02", "2741.0", "1"), 4, "GRAMS is '2741.0'.*write 2741"),
    (("reading", "f2", "FEED", "2024-03-02", "2,741,000", "1"), 4, "write 2741000"),
    (("reading", "f2", "FEED", "2024-03-02", "2.741E+09", "1"), 4, "write 2741000000, if"),
    (("reading", "f2", "FEED", "2024-03-02", "2.7 t", "1"), 4, "write 2700000, without the unit"),
    (("stream", "X", "env", "MILL", "plain", "5"), 4, "write 0"),
    (("period", "x", "1.3.2024", "2024-03-01"), 5, "write 2024-03-01 or 2024-01-03"),
    (("period", "x", "2024-02-30", "2024-03-01"), 5, "FIRST is '2024-02-30'"),
    (("reading", "f2", "FED", "2024-03-02", "1", "1"), 6, "did you mean FEED?"),
    (("dip", "d", "MILL", "2024-03-02", "1", "1", "1"), 6, "MILL is a unit, not a tank"),
    (("report", "april"), 6, "there is no period april"),
    (("unit", "MILL"), 7, "MILL is a unit already"),
    (("reading", "f2", "FEED", "2024-03-01", "1", "1"), 7, "FEED has a reading of 2024-03-01"),
    (("strap", "SILO", "15000", "1"), 8, "MM is 15000"),
    (("transfer", "t", "TRUCKS", "2024-03-02", "2024-03-01", "1", "1"), 8, "first day is after"),
    (("reading", "r", "TRUCKS", "2024-03-01", "1", "1"), 9, "a batch stream has transfers"),
    (("period", "q1", "2024-01-01", "2024-03-01"), 9, "shares a day with period mar"),
    (("dip", "d", "SILO", "2024-03-01", "84600", "1", "1"), 12, "goes from 0 to 20000"),
    (("period", "x", "2024-06-01", "2024-09-30"), 12, "has 122 days"),
]


@pytest.mark.parametrize("fields, code, said", MISTAKES, ids=[",".join(m[0]) for m in MISTAKES])
def test_mistakes(fields: tuple[str, ...], code: int, said: str) -> None:
    session = small()
    before = session.to_csv()
    with pytest.raises(Refusal, match=said) as caught:
        session.row(*fields)
    assert caught.value.code == code
    assert caught.value.remedy
    assert session.to_csv() == before


def test_closed() -> None:
    session = small()
    session.close("mar")
    with pytest.raises(Refusal, match="touches period mar, which is closed") as caught:
        session.reading("f2", "FEED", "2024-03-02", grams=1, variance=1)
    assert caught.value.code == 11
    session.reading("f2", "FEED", "2024-03-02", grams=1, variance=1, late=True)
    session.amend("f2", "typed wrong", tonnes="121.4", deviation_tonnes="1.5")
    session.strike("f1", "wrong counter, see log")
    session.history("mar")
    with pytest.raises(Refusal) as caught:
        session.unit("W")
    assert caught.value.code == 10
    assert session.to_csv().splitlines()[-3:] == [
        "amend,f2,121400000,2250000000000,typed wrong",
        'strike,f1,"wrong counter, see log"',
        "history,mar",
    ]


def test_amounts() -> None:
    assert grams_of("12408.5") == 12_408_500_000
    assert grams_of(Decimal("-0.000001")) == -1
    assert tonnes_of(12_408_500_000) == Decimal("12408.5")
    assert variance_of(deviation_tonnes=Decimal("124.085")) == "15397087225000000"
    assert variance_of(deviation_grams="0.5") == "1"
    assert [tonnes_text(1_234_567_890, 3, way) for way in ("nearest", "down", "up")] == [
        "1,234.568",
        "1,234.567",
        "1,234.568",
    ]
    for wrong in (1.5, float("nan"), True, "1,5", "Infinity", None):
        with pytest.raises(Fault):
            grams_of(wrong)  # type: ignore[arg-type]
    with pytest.raises(Fault, match="finer than a gram"):
        grams_of("0.0000001")
    with pytest.raises(Fault, match="3 of variance"):
        variance_of(variance=1, deviation_grams=1, deviation_tonnes=1)


@given(st.integers(-(10**13), 10**13))
def test_tonnes_are_exact(grams: int) -> None:
    assert grams_of(tonnes_of(grams)) == grams
    assert grams_of(str(tonnes_of(grams))) == grams


def test_records() -> None:
    text = b'\xef\xbb\xbfunit,U\r\n\n\nunit,"V\nW"\r"a"b,c"d\n,,,\n""\nx'
    found = [(r.number, r.line, r.fields) for r in read_records(text)]
    assert found == [
        (1, 1, ("unit", "U")),
        (2, 4, ("unit", "V\nW")),
        (3, 6, ("ab", 'c"d')),
        (4, 7, ("", "", "", "")),
        (5, 8, ("",)),
        (6, 9, ("x",)),
    ]


STREAMS = pandas.DataFrame(
    {
        "name": ["FEED", "PRODUCT", "SLIP"],
        "from": ["env", "U", "U"],
        "to": ["U", "env", "T"],
        "kind": ["metered", "metered", "plain"],
        "deviation_tonnes": ["0.5", "0.5", None],
    }
)


def test_from_frames() -> None:
    readings = pandas.DataFrame(
        {
            "stream": ["FEED", "PRODUCT"],
            "date": pandas.to_datetime(["2024-05-01", "2024-05-01"]),
            "tonnes": [Decimal("102.5"), Decimal(100)],
            "deviation_tonnes": ["1", "1"],
        }
    )
    session = Session.from_frames(
        tanks=pandas.DataFrame({"name": ["T"], "variance": [1]}),
        straps=pandas.DataFrame({"tank": ["T", "T"], "mm": [0, 1000], "ml": [0, 5]}),
        streams=STREAMS,
        periods=pandas.DataFrame(
            {"name": ["may"], "first": ["2024-05-01"], "last": ["2024-05-01"]}
        ),
        critical=pandas.DataFrame(
            {"test": ["global", "nodal"], "dof": [1, None], "value": ["3.841", "5"]}
        ),
        readings=readings,
        dips=pandas.DataFrame(
            {
                "id": ["d"],
                "tank": ["T"],
                "day": ["2024-05-01"],
                "mm": [5],
                "density": [9],
                "variance": [0],
            }
        ),
    )
    assert session.to_csv().splitlines() == [
        "unit,U",
        "tank,T,1",
        "strap,T,0,0",
        "strap,T,1000,5",
        "stream,FEED,env,U,metered,250000000000",
        "stream,PRODUCT,U,env,metered,250000000000",
        "stream,SLIP,U,T,plain,0",
        "critical,global,1,3841",
        "critical,nodal,5000",
        "period,may,2024-05-01,2024-05-01",
        "reading,FEED_2024-05-01,FEED,2024-05-01,102500000,1000000000000",
        "reading,PRODUCT_2024-05-01,PRODUCT,2024-05-01,100000000,1000000000000",
        "dip,d,T,2024-05-01,5,9,0",
        "report,may",
    ]


def frame_of_readings(**columns: object) -> pandas.DataFrame:
    whole = {"id": ["a", "b"], "stream": ["FEED", "PRODUCT"], "day": ["2024-05-01"] * 2}
    return pandas.DataFrame(
        {**whole, "grams": [1, 2], "variance": [1, 1], **columns}, index=["x", "y"]
    )


# Columns that are wrong, and what is said of them.
WRONG = [
    ({"grams": [1.0, 2.0]}, "readings: row x, column grams: floats aren't exact"),
    ({"grams": [1, None]}, "row x, column grams: floats aren.t exact"),
    (
        {"grams": pandas.array([1, None], "Int64")},
        "readings: row y, column grams: there is no value",
    ),
    ({"grams": ["1", "2 741"]}, "readings: row y, column grams: reading b: GRAMS is '2 741'"),
    (
        {"stream": ["FEED", "PRODUKT"]},
        "readings: row y, column stream: reading b: .*did you mean PRODUCT",
    ),
    (
        {"day": ["2024-05-01", "1.5.2024"]},
        "readings: row y, column day: reading b: DATE is '1.5.2024'",
    ),
    (
        {"day": pandas.to_datetime(["2024-05-01", "2024-05-01 06:00"])},
        "row y, column day: day is .* time of the day",
    ),
    ({"id": ["a", "a"]}, "readings: row y, column id: reading a: the id a is that of a reading"),
    (
        {"stream": ["FEED", "FEED"]},
        "readings: row y, column day: reading b: FEED has a reading of 2024-05-01",
    ),
    ({"tonnes": ["1", "2"]}, "the columns grams and tonnes are there"),
    ({"variance": [0, 10**19 + 1]}, "row y, column variance: reading b: VARIANCE is"),
]


@pytest.mark.parametrize("columns, said", WRONG, ids=[case[1] for case in WRONG])
def test_frames_that_are_wrong(columns: dict[str, object], said: str) -> None:
    streams = STREAMS.iloc[:2]
    with pytest.raises(Fault, match=said):
        Session.from_frames(streams=streams, readings=frame_of_readings(**columns))


def test_frames_that_lack_a_column() -> None:
    frame = frame_of_readings().drop(columns=["grams"])
    with pytest.raises(
        Fault, match="there is no column grams or tonnes: the columns are id, stream"
    ):
        Session.from_frames(streams=STREAMS.iloc[:2], readings=frame)


def test_frames_not_strict() -> None:
    frame = frame_of_readings(stream=["FEED", "NO"])
    session = Session.from_frames(streams=STREAMS.iloc[:2], readings=frame, strict=False)
    assert [(r.code, r.place.row) for r in session.refused] == [(6, "y")]
    assert "reading,a" in session.to_csv() and "reading,b" not in session.to_csv()


@settings(max_examples=25, deadline=None)
@given(st.data())
def test_many_readings_as_one_by_one(data: st.DataObject) -> None:
    """Readings taken at once are accepted and refused as those taken one by one."""
    count = data.draw(st.integers(0, 6))
    frame = pandas.DataFrame(
        {
            "id": [data.draw(st.sampled_from(["a", "b", "c", "d e", "é"])) for _ in range(count)],
            "stream": [
                data.draw(st.sampled_from(["FEED", "PRODUCT", "SLIP", "T"])) for _ in range(count)
            ],
            "day": [
                data.draw(st.sampled_from(["2024-05-01", "2024-05-02", "x"])) for _ in range(count)
            ],
            "grams": [
                data.draw(st.sampled_from(["1", "-7", "01", "10000000000001"]))
                for _ in range(count)
            ],
            "variance": [data.draw(st.sampled_from(["0", "-1", "5"])) for _ in range(count)],
        },
        dtype=object,
    )
    tanks = pandas.DataFrame({"name": ["T"], "variance": [1]})
    session = Session.from_frames(tanks=tanks, streams=STREAMS, readings=frame, strict=False)
    other = Session.from_frames(tanks=tanks, streams=STREAMS, strict=False)
    for fields in frame.itertuples(index=False):
        other.row("reading", *fields)
    assert session.to_csv() == other.to_csv()
    assert [r.code for r in session.refused] == [r.code for r in other.refused]


def test_many_readings_are_quick() -> None:
    """200,000 readings of Decimal tonnes, in processor time (three times what a free one is to take)."""
    names = [f"S{i}" for i in range(1000)]
    streams = pandas.DataFrame({"name": names, "from": "env", "to": "U", "variance": 1})
    days = pandas.date_range("2024-01-01", periods=200)
    readings = pandas.DataFrame(
        {
            "stream": names * 200,
            "day": [day for day in days for _ in names],
            "tonnes": [Decimal(1_000_000 + i) / 1000 for i in range(200_000)],
            "deviation_tonnes": ["1.5"] * 200_000,
        }
    )
    assert least_spent(lambda: Session.from_frames(streams=streams, readings=readings), 6) < 6
    session = Session.from_frames(streams=streams, readings=readings)
    assert len(session) == 201_001
    with pytest.raises(Refusal, match="200,000 readings"):
        session.reading("one-more", "S0", "2025-01-01", grams=1, variance=1)


def test_to_csv_is_whole_or_not_there(tmp_path: Path) -> None:
    session = small()
    path = tmp_path / "s.csv"
    session.to_csv(path)
    assert path.read_text(encoding="utf-8") == session.to_csv()
    assert [p.name for p in tmp_path.iterdir()] == ["s.csv"]
    with pytest.raises(Fault, match="No such file"):
        session.to_csv(tmp_path / "none" / "s.csv")


def test_rows_as_dicts() -> None:
    """As JSON has them: the keys are the names of the columns, and no float is taken."""
    rows: list[dict[str, object]] = [
        {"kind": "unit", "name": "U"},
        {"kind": "stream", "name": "A", "from": "env", "to": "U", "word": "metered", "base": 1},
        {"kind": "stream", "name": "B", "from": "U", "to": "env", "word": "plain", "base": 0},
        {"kind": "period", "name": "d1", "first": "2024-03-01", "last": datetime.date(2024, 3, 1)},
        {"kind": "critical", "word": "global", "dof": "1", "value": 3841},
        {
            "kind": "reading",
            "id": "r",
            "stream": "A",
            "day": "2024-03-01",
            "grams": 5,
            "variance": 9,
        },
        {"kind": "report", "period": "d1"},
    ]
    assert Session.from_dicts(rows).to_csv().splitlines() == [
        "unit,U",
        "stream,A,env,U,metered,1",
        "stream,B,U,env,plain,0",
        "period,d1,2024-03-01,2024-03-01",
        "critical,global,1,3841",
        "reading,r,A,2024-03-01,5,9",
        "report,d1",
    ]
    wrong: list[tuple[dict[str, object], str]] = [
        ({"kind": "units", "name": "U"}, "row 1: there is no kind 'units': use one of version"),
        ({"name": "U"}, "there is no kind None"),
        ({"kind": "unit"}, "its keys aren't those of a row unit: beside kind it has name"),
        ({"kind": "unit", "name": 1.5}, "name is 1.5, of type float: use a text"),
        ({"kind": "unit", "name": True}, "of type bool"),
    ]
    for row, said in wrong:
        with pytest.raises(InputFault) as fault:
            Session.from_dicts([row])
        assert said in str(fault.value), row
    refused = Session.from_dicts([*rows[:1], *rows[:1]], strict=False).refused
    assert len(refused) == 1 and "row 2" in str(refused[0])
