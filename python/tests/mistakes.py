"""Forty-seven copies of the refinery day with one mistake each, and by what each is told."""

from __future__ import annotations

from collections.abc import Callable
from dataclasses import dataclass

from conftest import example

CRITICAL = b"".join(
    f"critical,{row}\n".encode()
    for row in ("global,1,3841", "global,2,5991", "global,3,7815", "global,4,9488")
    + ("nodal,3841", "measure,3841")
)
BASE = (example("refinery_day.csv").read_bytes()).replace(b"design\n", b"design\n" + CRITICAL)
Edit = Callable[[bytes], bytes]


@dataclass(frozen=True)
class Mistake:
    """A mistake: how it is made, and what finds it.

    `refused` are the codes of the refused rows, `lint` those of errors and warnings of lint, `verdict`
    is that of the global test (`-` if there is no report), `suspects` says whether a measurement test
    rejects. One that nothing finds, and that does harm, has the words of the guide for it.
    """

    name: str
    edit: Edit
    refused: frozenset[int] = frozenset()
    lint: frozenset[str] = frozenset()
    verdict: str = "accept"
    suspects: bool = False
    guide: str = ""

    def session(self) -> bytes:
        """The session with the mistake."""
        made = self.edit(BASE)
        assert made != BASE, self.name
        return made

    @property
    def is_told(self) -> bool:
        """Whether anything finds it."""
        return bool(self.refused or self.lint or self.suspects or self.verdict == "reject")


def put(old: str, new: str) -> Edit:
    """Put a text in the place of another, which stands there once."""

    def edit(data: bytes) -> bytes:
        assert data.count(old.encode()) == 1, old
        return data.replace(old.encode(), new.encode("cp1252"))

    return edit


def without(begin: str) -> Edit:
    """Leave out the row that begins so."""

    def edit(data: bytes) -> bytes:
        lines = data.splitlines(keepends=True)
        kept = [line for line in lines if not line.startswith(begin.encode())]
        assert len(kept) == len(lines) - 1, begin
        return b"".join(kept)

    return edit


def after(begin: str, *rows: str) -> Edit:
    """Put rows after the one that begins so."""

    def edit(data: bytes) -> bytes:
        lines = data.splitlines(keepends=True)
        (place,) = [i for i, line in enumerate(lines) if line.startswith(begin.encode())]
        lines[place + 1 : place + 1] = [f"{row}\n".encode() for row in rows]
        return b"".join(lines)

    return edit


def exchanged(data: bytes) -> bytes:
    """Exchange the light and the heavy naphtha, amounts and variances."""
    light, heavy = b"LIGHT,2024-05-01,641900000,10240000000000", b"1113600000,31360000000000"
    of_heavy = b"HEAVY,2024-05-01," + heavy
    assert light in data and of_heavy in data
    of_light = light.replace(b"LIGHT", b"HEAVY")
    return data.replace(of_heavy, of_light).replace(light, b"LIGHT,2024-05-01," + heavy)


DIESEL = "DIESEL,2024-05-01,2741000000,"


def refused(*codes: int) -> frozenset[int]:
    """The codes of refused rows."""
    return frozenset(codes)


def found(*codes: str) -> frozenset[str]:
    """The codes of lint."""
    return frozenset(codes)


MISTAKES: tuple[Mistake, ...] = (
    # ---- refused by a code and a word that are enough
    Mistake(
        "date with points",
        put("dip,tk-crude-0501,TK_CRUDE,2024-05-01", "dip,tk-crude-0501,TK_CRUDE,01.05.2024"),
        refused=refused(5),
        lint=found("missing-dip", "refused", "worse-class"),
    ),
    Mistake(
        "date with slashes",
        put("heavy-0501,HEAVY,2024-05-01", "heavy-0501,HEAVY,2024/05/01"),
        refused=refused(5),
        lint=found("missing-reading", "refused", "worse-class"),
    ),
    Mistake(
        "date not in the calendar",
        put("light-0501,LIGHT,2024-05-01", "light-0501,LIGHT,2024-04-31"),
        refused=refused(5),
        lint=found("missing-reading", "refused", "worse-class"),
    ),
    Mistake("unit twice", after("unit,VDU", "unit,CDU"), refused=refused(7), lint=found("refused")),
    Mistake(
        "id twice",
        put("reading,heavy-0501", "reading,light-0501"),
        refused=refused(7),
        lint=found("missing-reading", "refused", "worse-class"),
    ),
    Mistake(
        "day twice",
        after("reading,heavy-0501", "reading,heavy-2,HEAVY,2024-05-01,1113700000,31360000000000"),
        refused=refused(7),
        lint=found("refused"),
    ),
    Mistake(
        "unknown end",
        put("stream,OFFGAS,CDU,FUEL_GAS", "stream,OFFGAS,CDU,FUEL_GSA"),
        refused=refused(6),
        lint=found("refused"),
        verdict="reject",
        suspects=True,
    ),
    Mistake(
        "unknown stream",
        put("heavy-0501,HEAVY", "heavy-0501,HEAVI"),
        refused=refused(6),
        lint=found("missing-reading", "refused", "worse-class"),
    ),
    Mistake(
        "unknown tank",
        put("dip,tk-crude-0501,TK_CRUDE", "dip,tk-crude-0501,TK_CRUD"),
        refused=refused(6),
        lint=found("missing-dip", "refused", "worse-class"),
    ),
    Mistake(
        "unknown period",
        put("report,may1", "report,may01"),
        refused=refused(6),
        lint=found("nothing-asked", "refused"),
        verdict="-",
    ),
    Mistake(
        "heading",
        lambda data: b"kind,name,from,to,type,variance\n" + data,
        refused=refused(1),
        lint=found("refused"),
    ),
    Mistake(
        "comment", after("unit,FUEL_GAS", "# tanks"), refused=refused(1), lint=found("refused")
    ),
    # ---- refused, and the field has to be found
    Mistake(
        "decimals",
        put(DIESEL, "DIESEL,2024-05-01,2741000000.0,"),
        refused=refused(4),
        lint=found("missing-reading", "refused"),
    ),
    Mistake(
        "exponent",
        put(DIESEL, "DIESEL,2024-05-01,2.741E+09,"),
        refused=refused(4),
        lint=found("missing-reading", "refused"),
    ),
    Mistake(
        "commas between thousands",
        put(DIESEL, 'DIESEL,2024-05-01,"2,741,000,000",'),
        refused=refused(4),
        lint=found("missing-reading", "refused"),
    ),
    Mistake(
        "plus sign",
        put(DIESEL, "DIESEL,2024-05-01,+2741000000,"),
        refused=refused(4),
        lint=found("missing-reading", "refused"),
    ),
    Mistake(
        "unit after the number",
        put(DIESEL, "DIESEL,2024-05-01,2741 t,"),
        refused=refused(4),
        lint=found("missing-reading", "refused"),
    ),
    Mistake(
        "field missing",
        put(DIESEL, "DIESEL,2741000000,"),
        refused=refused(2),
        lint=found("missing-reading", "refused"),
    ),
    Mistake(
        "field too many",
        put("unit,VDU", "unit,VDU,vacuum column"),
        refused=refused(2, 6),
        lint=found("no-critical", "refused"),
        verdict="nocritical",
        suspects=True,
    ),
    Mistake(
        "bare commas between thousands",
        put(DIESEL, "DIESEL,2024-05-01,2,741,000,000,"),
        refused=refused(2),
        lint=found("missing-reading", "refused"),
    ),
    Mistake(
        "quote not closed",
        put("stream,NAPHTHA", '"stream,NAPHTHA'),
        refused=refused(1),
        lint=found("nothing-asked", "one-sided", "refused"),
        verdict="-",
    ),
    Mistake(
        "space in front",
        put("unit,SPLITTER", "unit, SPLITTER"),
        refused=refused(3, 6),
        lint=found("refused"),
        verdict="reject",
        suspects=True,
    ),
    Mistake(
        "letter of cp1252",
        put("unit,FUEL_GAS", "unit,FUEL_GÄS"),
        refused=refused(3, 6),
        lint=found("refused"),
        verdict="reject",
        suspects=True,
    ),
    Mistake(
        "space in a name",
        put("unit,FUEL_GAS", "unit,FUEL GAS"),
        refused=refused(3, 6),
        lint=found("refused"),
        verdict="reject",
        suspects=True,
    ),
    Mistake(
        "UTF-16",
        lambda data: data.decode().encode("utf-16"),
        refused=refused(1),
        lint=found("nothing-asked", "refused"),
        verdict="-",
    ),
    Mistake(
        "semicolons",
        lambda data: data.replace(b",", b";"),
        refused=refused(1),
        lint=found("refused"),
        verdict="-",
    ),
    Mistake(
        "tabs",
        lambda data: data.replace(b",", b"\t"),
        refused=refused(1),
        lint=found("refused"),
        verdict="-",
    ),
    Mistake(
        "kind with a capital",
        put("unit,SPLITTER", "Unit,SPLITTER"),
        refused=refused(1, 6),
        lint=found("refused"),
        verdict="reject",
        suspects=True,
    ),
    Mistake(
        "days exchanged",
        put("TANKER,2024-04-30,2024-05-02", "TANKER,2024-05-02,2024-04-30"),
        refused=refused(8),
        lint=found("refused"),
        verdict="reject",
        suspects=True,
    ),
    Mistake(
        "reading of a batch stream",
        put("transfer,train-88,RAIL,2024-05-01,", "reading,train-88,RAIL,"),
        refused=refused(9),
        lint=found("refused"),
        verdict="reject",
        suspects=True,
    ),
    Mistake(
        "level above the table",
        put("2024-05-01,13838,", "2024-05-01,23838,"),
        refused=refused(12),
        lint=found("missing-dip", "refused", "worse-class"),
    ),
    # ---- no faults
    Mistake(
        "byte order mark and CRLF", lambda data: b"\xef\xbb\xbf" + data.replace(b"\n", b"\r\n")
    ),
    Mistake("CR alone", lambda data: data.replace(b"\n", b"\r")),
    # ---- accepted
    Mistake(
        "kilograms",
        put(DIESEL, "DIESEL,2024-05-01,2741000,"),
        lint=found("large-deviation"),
        verdict="reject",
        suspects=True,
    ),
    Mistake(
        "stream reversed",
        put("KEROSENE,CDU,TK_KEROSENE", "KEROSENE,TK_KEROSENE,CDU"),
        verdict="reject",
        suspects=True,
    ),
    Mistake(
        "density in kilograms",
        put("2024-05-01,13838,862000", "2024-05-01,13838,862"),
        lint=found("density"),
        verdict="reject",
        suspects=True,
    ),
    Mistake(
        "level in centimetres",
        put("2024-05-01,13838,", "2024-05-01,1384,"),
        verdict="reject",
        suspects=True,
    ),
    Mistake("ticket forgotten", without("transfer,train-89"), verdict="reject", suspects=True),
    Mistake(
        "stream left out",
        without("stream,HEATERS"),
        lint=found("no-critical", "one-sided"),
        verdict="nocritical",
        suspects=True,
    ),
    Mistake("no report row", without("report"), lint=found("nothing-asked"), verdict="-"),
    Mistake("empty file", lambda data: b"", lint=found("nothing-asked"), verdict="-"),
    Mistake("reading missing", without("reading,kerosene"), lint=found("missing-reading")),
    Mistake("dip missing", without("dip,tk-diesel-0430"), lint=found("missing-dip", "worse-class")),
    Mistake(
        "another year",
        put("heavy-0501,HEAVY,2024", "heavy-0501,HEAVY,2023"),
        lint=found("missing-reading", "no-period", "worse-class"),
    ),
    Mistake(
        "standard deviation for variance",
        put("9931400000,900000000000000", "9931400000,30000000"),
        lint=found("small-deviation"),
        suspects=True,
    ),
    Mistake("digits transposed", put("2438700000", "2437800000"), guide="transposed"),
    Mistake("products exchanged", exchanged, guide="exchanged"),
)
