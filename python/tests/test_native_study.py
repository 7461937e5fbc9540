"""Studies of arrays in process, compared with the reports of the examples, number by number."""

from __future__ import annotations

import csv
from dataclasses import dataclass, field
from pathlib import Path

import pytest

from plantbal.faults import InputFault, ProgramFault

pytest.importorskip("cffi", reason="python3-cffi isn't installed")
native = pytest.importorskip("plantbal._native", reason="python3-cffi isn't installed")
if not native.is_there():
    pytest.skip("./build library hasn't built it", allow_module_level=True)

from plantbal._studies import (
    LAYOUT,
    Ending,
    MeasuredStream,
    ArrayStudy,
    StageTest,
    StudyVerdict,
)  # noqa: E402

EXAMPLES = Path(__file__).resolve().parents[2] / "examples"
VERDICTS = {
    "reject": StudyVerdict.REJECT,
    "accept": StudyVerdict.ACCEPT,
    "undecided": StudyVerdict.UNDECIDED,
    "nocritical": StudyVerdict.NO_CRITICAL,
    "notest": StudyVerdict.NO_TEST,
}
STOPS = {
    "accepted": Ending.ACCEPTED,
    "undecided": Ending.UNDECIDED,
    "nocritical": Ending.NO_CRITICAL,
    "notest": Ending.NO_TEST,
    "nosuspect": Ending.NO_SUSPECT,
    "spent": Ending.SPENT,
}


@dataclass
class Block:
    """The rows of one stage of a report, by their kinds."""

    gap: int
    sweeps: int
    rows: dict[str, list[list[str]]] = field(default_factory=dict)

    def of(self, kind: str) -> list[list[str]]:
        """Return the rows of a kind."""
        return self.rows.get(kind, [])


@dataclass
class Report:
    """The stages of a report, what was taken out between them, and why it stopped."""

    blocks: list[Block] = field(default_factory=list)
    taken: list[list[str]] = field(default_factory=list)
    stop: Ending = Ending.NOT_ASKED


def reports() -> list[tuple[str, Report]]:
    """Return each report of the examples with the name of its file."""
    found: list[tuple[str, Report]] = []
    for path in sorted(EXAMPLES.glob("*.out.csv")):
        going = False
        for row in csv.reader(path.read_text("ascii").splitlines()):
            match row[0]:
                case "report":
                    if not going:
                        found.append((path.name, Report()))
                    found[-1][1].blocks.append(Block(int(row[5]), int(row[6])))
                    going = False
                case "taken":
                    found[-1][1].taken.append(row)
                    going = True
                case "stop":
                    found[-1][1].stop = STOPS[row[2]]
                case kind if found and found[-1][1].blocks:
                    found[-1][1].blocks[-1].rows.setdefault(kind, []).append(row)
    return found


def number(text: str) -> int | None:
    """Return a number, or None if there is none."""
    return int(text) if text else None


def pair(low: str, high: str) -> tuple[int, int] | None:
    """Return both ends of bounds, or None if there are none."""
    return (int(low), int(high)) if low else None


def study_of(report: Report) -> ArrayStudy:
    """Return the study of the graph of a report, with what its rows say was asked."""
    first = report.blocks[0]
    nodes = [row[1] for row in first.of("node")]
    places = {name: place for place, name in enumerate(nodes)}
    streams = [
        MeasuredStream(places[row[2]], places[row[3]], number(row[4]), int(row[5] or 0))
        for row in first.of("stream")
    ]
    limits = {}
    for block in report.blocks:
        for row in block.of("global"):
            if row[1]:
                limits[int(block.of("solved")[0][5])] = int(row[1])
    return ArrayStudy(
        len(nodes),
        streams,
        gap=first.gap,
        sweeps=first.sweeps,
        eliminate=0 if report.stop == Ending.NOT_ASKED else max(1, len(report.taken)),
        tests=bool(first.of("global")),
        limits=limits,
        nodal=next((number(row[4]) for row in first.of("nodal")), None),
        measure=next((number(row[4]) for row in first.of("measure")), None),
    )


def say_as_rows(study: ArrayStudy, place: int, block: Block) -> None:
    """Assert that a stage says what the rows of a block say."""
    nodes = [row[1] for row in block.of("node")]
    names = [row[1] for row in block.of("stream")]
    assert study.prices(place) == [int(row[2]) for row in block.of("node")]
    stage = study.stage(place)
    solved = block.of("solved")[0]
    assert stage.converged == (solved[2] == "converged")
    told = (stage.sweeps, *stage.gap, stage.freedom, stage.low, stage.high)
    assert told == (*map(int, solved[1:2] + solved[3:7]), number(solved[7]))
    for at, (result, row) in enumerate(zip(study.results(place), block.of("stream"), strict=True)):
        members = " ".join(("+" if sign > 0 else "-") + names[k] for k, sign in result.members)
        side = " ".join(nodes[node] for node in study.side(at, place))
        flow = (result.stream_class.name.lower(), result.flow, result.bounds, result.least)
        assert flow == (row[6], int(row[7]), pair(row[8], row[9]), pair(row[10], row[11])), row
        assert ("cut" if result.cut else "cycle", side, members) == tuple(row[12:15]), row
    for row in block.of("global"):
        assert (stage.critical, stage.verdict) == (number(row[1]), VERDICTS[row[2]])
    for kind, tests, among in (
        ("nodal", study.nodal(place), nodes),
        ("measure", study.measure(place), names),
    ):
        wanted = [
            StageTest(
                among.index(row[1]), int(row[2]), number(row[3]), number(row[4]), VERDICTS[row[5]]
            )
            for row in block.of(kind)
        ]
        assert tests == wanted, kind


def test_reports_of_the_examples() -> None:
    """The study of each report's graph says each number of the report, in each of its stages."""
    found = reports()
    assert len(found) > 20, "the examples have reports"
    for name, report in found:
        study = study_of(report)
        assert study.stages == len(report.blocks), name
        assert study.stop == report.stop, name
        for place, block in enumerate(report.blocks):
            say_as_rows(study, place, block)


def test_what_is_refused() -> None:
    """A stream that isn't one of a graph is named by its place, and limits are kept."""
    good, loop = MeasuredStream(0, 1, 5, 1), MeasuredStream(1, 1)
    with pytest.raises(InputFault) as caught:
        ArrayStudy(2, [good, loop])
    assert caught.value.text == "1"
    cases: list[dict[str, int]] = [
        {"gap": 0},
        {"eliminate": 21},
        {"nodal": -1},
        {"measure": 10**19},
    ]
    for named in cases:
        with pytest.raises(ProgramFault) as fault:
            ArrayStudy(2, [good], **named)
        assert fault.value.status == 2, named
    assert ArrayStudy(1, []).results() == []


def test_streams_in_arrays() -> None:
    """An array of streams, from bytes, numpy or anything with a buffer, is what a list of them is."""
    listed = [
        MeasuredStream(0, 1, 100, 1),
        MeasuredStream(1, 0, 104, 2**64 + 3),
        MeasuredStream(0, 1),
    ]
    packed = b"".join(
        LAYOUT.pack(
            one.origin,
            one.target,
            one.grams is not None,
            one.grams or 0,
            one.variance % 2**64,
            one.variance >> 64,
        )
        for one in listed
    )
    wanted = ArrayStudy(2, listed).results()
    assert ArrayStudy(2, packed).results() == wanted
    assert ArrayStudy(2, memoryview(bytearray(packed))).results() == wanted
    numpy = pytest.importorskip("numpy")
    fields = {"names": ["from", "to", "measured", "value", "low", "high"]}
    fields |= {"formats": ["u4", "u4", "?", "i8", "u8", "i8"], "offsets": [0, 4, 8, 16, 24, 32]}
    made = numpy.frombuffer(packed, numpy.dtype({**fields, "itemsize": LAYOUT.size}))
    assert ArrayStudy(2, made).results() == wanted
    assert ArrayStudy(1, b"").results() == []
    for wrong in (packed[:-1], packed[:8] + b"\2" + packed[9:]):
        with pytest.raises(ProgramFault) as fault:
            ArrayStudy(2, wrong)
        assert fault.value.status == 2
