"""Charts: what they show, and that their labels can be read at 1, 12 and 120 periods."""

from __future__ import annotations

import dataclasses
import datetime
import itertools
import re
import xml.dom.minidom
from pathlib import Path

import numpy
import pytest
from conftest import Desk, example, text_of

from plantbal import Output, read_report
from plantbal.report.chart import Chart, write_chart
from plantbal.report.output import parse_report
from plantbal.report.trend import Trend, days_of_name, trend_of

TESTED = example("concentrator/tested.out.csv")


def months(count: int, form: str) -> Output:
    """The concentrator's April and June, again and again."""
    blocks = re.split("(?<=^end,2024-0[456],0\n)", text_of(TESTED), flags=re.MULTILINE)
    texts = []
    for number in range(count):
        name = form.format(year=2015 + number // 12, month=number % 12 + 1, number=number + 1)
        texts.append(re.sub("2024-0[46]", name, blocks[2 if number % 10 == 3 else 0]))
    return parse_report("".join(texts))


@pytest.fixture(name="concentrator", scope="module")
def fixture_concentrator() -> Trend:
    return trend_of(read_report(TESTED))


def test_trend(concentrator: Trend) -> None:
    assert concentrator.names == ["2024-04", "2024-05", "2024-06"]
    assert concentrator.dated and concentrator.rejected.tolist() == [False, False, True]
    assert concentrator.high.tolist() == [0.974, 0.816, 22.155]
    assert concentrator.critical.tolist() == [5.991, 3.841, 5.991]
    filtered = concentrator.lines["FILTERED"]
    assert filtered.flow == pytest.approx([10224.482553, 10429.265808, 10271.735341])
    assert filtered.sd == pytest.approx([2.1909, 953.3235, 2.1909], abs=1e-4)
    assert filtered.value == pytest.approx([10224.48, numpy.nan, 10271.75], nan_ok=True)
    tails = concentrator.lines["TAILS"]
    assert tails.meter == pytest.approx([955.328, 958.888, 968.715], abs=1e-3)
    assert tails.away == pytest.approx([0.850, 0.628, -4.097], abs=1e-3)
    assert tails.sum == pytest.approx([812.120745, 1414.354937, -2554.529175])
    assert numpy.isnan(concentrator.lines["OVERFLOW"].sum).all()
    assert [line.name for line in concentrator.greatest(2)] == ["ORE", "TAILS"]


def test_rounds() -> None:
    """Flows are of the last round; meters, adjustments and the statistic of the first one."""
    trend = trend_of(read_report(example("heat_exchanger_suspect.jsonl")))
    line = trend.lines["F2"]
    assert (trend.high[0], trend.rejected[0], trend.dated) == (16.675, True, False)
    assert line.value[0] == 68.45 and line.flow[0] == pytest.approx(64.523599)
    assert line.sum[0] == pytest.approx(65.832029 - 68.45)


DAYS = [
    ("2024", "2024-01-01", "2024-12-31"),
    ("2024-Q2", "2024-04-01", "2024-06-30"),
    ("2024-02", "2024-02-01", "2024-02-29"),
    ("2024-05-17", "2024-05-17", "2024-05-17"),
    *((name, "", "") for name in ("may1", "2024-13", "2024-02-30", "2024-Q5", "0000", "2024-5")),
]


@pytest.mark.parametrize("name, first, last", DAYS, ids=[case[0] for case in DAYS])
def test_days_of_names(name: str, first: str, last: str) -> None:
    found = days_of_name(name)
    wanted = tuple(map(datetime.date.fromisoformat, (first, last))) if first else None
    assert found == wanted


def test_days_of_a_session() -> None:
    """Periods stand in order of time, at their days; a line breaks between those far apart."""
    output = months(3, "p{number}")
    session = b"period,p1,2024-06-01,2024-06-30\nperiod,p2,2024-03-01,2024-03-31\nperiod,p3,,\n"
    assert trend_of(output, session).names == ["p1", "p2", "p3"]
    trend = trend_of(output, session.replace(b"p3,,", b"p3,2024-04-01,2024-04-30"))
    assert trend.dated and trend.names == ["p2", "p3", "p1"]
    across, flow = trend.stairs(trend.lines["ORE"].flow)
    assert len(across) == 7 and numpy.isnan(flow).nonzero()[0].tolist() == [4]
    assert across[1] == across[2] and across[5] - across[3] == 31


def test_chart(say: Desk) -> None:
    found = say("chart", TESTED)
    xml.dom.minidom.parseString(found.out)
    for part in ("meter-TAILS", "band-TAILS", "value-TAILS", "adjustment-TAILS-2024-06"):
        assert f'id="{part}"' in found.out
    for part in ("sum-FILTERED", "statistic-2024-05", "critical-2024-06", "rejected-2024-06"):
        assert f'id="{part}"' in found.out
    assert 'id="rejected-2024-05"' not in found.out
    found = say("chart", "--stream", "OVERFLOW", TESTED)
    assert 'id="band-OVERFLOW"' in found.out and "meter-TAILS" not in found.out
    assert 'id="critical-day2"' in say("chart", example("heat_exchanger_suspect.jsonl")).out


def test_several_reports(say: Desk, tmp_path: Path) -> None:
    """Reports of a period each make the chart of the one that has all; of two the later counts."""
    parts = re.split("(?<=^end,2024-0[456],0\n)", text_of(TESTED), flags=re.MULTILINE)
    names = ["june.csv", "april.csv", "may.csv"]
    for name, text in zip(names, [parts[2], parts[0], parts[1]]):
        (tmp_path / name).write_text(text)
    (tmp_path / "earlier.csv").write_text(parts[2].replace("FILTERED", "LATER"))
    found = say("chart", *(tmp_path / name for name in ["earlier.csv", *names]))
    assert (found.status, found.out) == (0, say("chart", TESTED).out)
    (tmp_path / "cut.csv").write_text(parts[2][:200])
    found = say("chart", tmp_path / "may.csv", tmp_path / "cut.csv")
    assert found.status == 1 and f"{tmp_path / 'cut.csv'}: " in found.err


def test_days_of_several_sessions(say: Desk, tmp_path: Path) -> None:
    """Each year's session has the days of its own periods."""
    parts = re.split("(?<=^end,2024-0[456],0\n)", text_of(TESTED), flags=re.MULTILINE)
    for name, days in (("last", "2023-12-01,2023-12-31"), ("first", "2024-01-01,2024-01-31")):
        (tmp_path / f"{name}.out.csv").write_text(parts[0].replace("2024-04", name))
        (tmp_path / f"{name}.csv").write_text(f"period,{name},{days}")
    words = ["chart", tmp_path / "first.out.csv", tmp_path / "last.out.csv", "--session"]
    found = say(*words, tmp_path / "first.csv", "--session", tmp_path / "last.csv")
    assert found.status == 0 and "first</text>" not in found.out
    assert found.out.index("statistic-last") < found.out.index("statistic-first")
    assert "first</text>" in say(*words, tmp_path / "first.csv").out


def test_a_sum_of_nothing(concentrator: Trend, tmp_path: Path) -> None:
    """What nothing checks isn't adjusted: its ticks are of kilograms, not of a float's last bit."""
    write_chart(concentrator, [], tmp_path / "chart.svg", "svg")  # which chooses what draws
    none = numpy.array([0.0, -1e-16, -1e-16])
    chart = Chart(concentrator, [dataclasses.replace(concentrator.lines["ORE"], sum=none)])
    chart.draw()
    assert (-0.001, 0.001) in [axes.get_ylim() for axes in chart.figure.axes]


def test_files(say: Desk, tmp_path: Path) -> None:
    session = example("concentrator/session.csv")
    for ending, head in (("svg", b"<?xml"), ("png", b"\x89PNG"), ("pdf", b"%PDF")):
        path = tmp_path / f"chart.{ending}"
        found = say("chart", "--session", session, "--most", 1, "--out", path, TESTED)
        assert (found.status, found.out) == (0, "")
        assert path.read_bytes().startswith(head)
    assert len(list(tmp_path.iterdir())) == 3


FAULTY = [
    ([], "", "it is empty: run a session that asks for a report"),
    (["--out", "chart.doc", TESTED], "", "chart.doc ends with 'doc': use .svg, .png or .pdf"),
    (["--stream", "TAIL", TESTED], "", "there is no flow of TAIL to chart: correct --stream"),
]


@pytest.mark.parametrize("words, text, said", FAULTY, ids=[case[2] for case in FAULTY])
def test_faulty(say: Desk, words: list[object], text: str, said: str) -> None:
    found = say("chart", *words, text=text)
    assert (found.status, found.out) == (2 if "--out" in words else 1, "")
    assert said in found.err


FORMS = [(1, "{year}-{month:02}"), (12, "{year}-{month:02}"), (120, "{year}-{month:02}")]
FORMS += [(12, "period_{number}"), (120, "a_rather_long_name_{number}")]


def test_rejected_months_are_named(tmp_path: Path) -> None:
    """Of ten years each month that the test rejects is named, none on another, each month a tick."""
    trend = trend_of(months(120, "{year}-{month:02}"))
    write_chart(trend, [], tmp_path / "chart.svg", "svg")  # which chooses what draws
    chart = Chart(trend, trend.greatest(1))
    chart.draw()
    chart.figure.canvas.draw()
    axes = chart.figure.axes[-1]
    texts = [text for text in axes.texts if text.get_text()]
    wanted = [name for name, is_rejected in zip(trend.names, trend.rejected) if is_rejected]
    assert [text.get_text() for text in texts] == wanted and len(wanted) == 12
    boxes = [text.get_window_extent() for text in texts]
    assert all(one.x1 < other.x0 for one, other in itertools.pairwise(boxes))
    assert len(axes.xaxis.get_minorticklocs()) >= 100


@pytest.mark.parametrize("count, form", FORMS, ids=[f"{count}-{form}" for count, form in FORMS])
def test_labels_can_be_read(count: int, form: str, tmp_path: Path) -> None:
    """No label of an axis of time lies on its neighbour, and each axis that has labels has some."""
    trend = trend_of(months(count, form))
    write_chart(trend, [], tmp_path / "chart.svg", "svg")  # which chooses what draws
    chart = Chart(trend, trend.greatest(2))
    chart.draw()
    chart.figure.canvas.draw()
    shown = 0
    for axes in chart.figure.axes:
        labels = [label for label in axes.get_xticklabels() if label.get_text()]
        boxes = [label.get_window_extent() for label in labels if label.get_visible()]
        left, right = axes.bbox.x0 - 1, axes.bbox.x1 + 1
        inside = [box for box in boxes if left <= (box.x0 + box.x1) / 2 <= right]
        for one, other in itertools.pairwise(sorted(inside, key=lambda box: box.x0)):
            assert one.x1 < other.x0
        shown += len(inside) > 0
    assert shown >= 4
