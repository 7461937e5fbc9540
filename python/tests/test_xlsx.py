"""The sheets of an xlsx file, cell by cell as openpyxl reads them, and what is refused."""

from __future__ import annotations

import datetime
import importlib.machinery
import importlib.util
import io
import zipfile
from collections.abc import Iterator
from decimal import Decimal
from pathlib import Path
from typing import Any
from xml.sax.saxutils import escape

import openpyxl
import pytest
from hypothesis import given, settings
from hypothesis import strategies as st

from plantbal.causes import CausedFault
from plantbal.workbook.cellforms import cell_form
from plantbal.workbook.packed import PackedCause
from plantbal.workbook.sheets import NoValue, Percent, Sheet, Shown, Value, letters, read_workbook
from plantbal.workbook.xlsxparts import XlsxCause

MAIN = "http://schemas.openxmlformats.org/spreadsheetml/2006/main"
_OFFICE = "http://schemas.openxmlformats.org/officeDocument/2006/relationships"
_PACKAGE = "http://schemas.openxmlformats.org/package/2006"
_SHEETML = "application/vnd.openxmlformats-officedocument.spreadsheetml"
TYPES = (
    f'<Types xmlns="{_PACKAGE}/content-types"><Default Extension="xml" ContentType="application/xml"/>'
    f'<Override PartName="/xl/book.xml" ContentType="{_SHEETML}.sheet.main+xml"/>'
    f'<Override PartName="/xl/texts.xml" ContentType="{_SHEETML}.sharedStrings+xml"/></Types>'
)
BOOK = (
    f'<workbook xmlns="{MAIN}" xmlns:r="{_OFFICE}"><workbookPr date1904="{{}}"/><sheets>'
    '<sheet name="first" sheetId="1" r:id="a"/><sheet name="second" sheetId="2" state="hidden" r:id="b"/>'
    "</sheets></workbook>"
)
LINKS = (
    f'<Relationships xmlns="{_PACKAGE}/relationships">'
    f'<Relationship Id="a" Type="{_OFFICE}/worksheet" Target="/xl/sheets/one.xml"/>'
    f'<Relationship Id="b" Type="{_OFFICE}/worksheet" Target="sheets/two.xml"/></Relationships>'
)
# The forms of numbers, each in a style of its own: plain ones, percent, a unit, days, times, a span.
FORMS = ("General", "0.00%", '#,##0" kg"', "0.0", "yyyy-mm-dd", "hh:mm", "[h]:mm:ss", '0.0,"t"')
FONTS = ("<font/>", "<font><strike/></font>", '<font><strike val="0"/></font>')
STYLES = (
    f'<styleSheet xmlns="{MAIN}"><numFmts>'
    + "".join(
        f'<numFmt numFmtId="{170 + at}" formatCode="{escape(form, {chr(34): "&quot;"})}"/>'
        for at, form in enumerate(FORMS)
    )
    + f'</numFmts><fonts>{"".join(FONTS)}</fonts>'
    + "<fills><fill><patternFill/></fill></fills><borders><border/></borders><cellXfs>"
    + "".join(
        f'<xf numFmtId="{number}" fontId="{font}" fillId="0" borderId="0"/>'
        for number in (0, 10, 14, *range(170, 170 + len(FORMS)))
        for font in range(len(FONTS))
    )
    + "</cellXfs></styleSheet>"
)
STYLE_COUNT = 3 * (3 + len(FORMS))
TEXTS = ("<t>tag</t>", "<t xml:space='preserve'> F-1 </t>", "<t/>", "<t>a &amp; b</t>", "<t> </t>")
TEXTS += (
    "<r><rPr><b/></rPr><t>in </t></r><r><t>runs</t></r>",
    "<t>x</t><rPh sb='0' eb='1'><t>y</t></rPh>",
)
SHARED = f'<sst xmlns="{MAIN}">{"".join(f"<si>{text}</si>" for text in TEXTS)}</sst>'


def packed(sheet: str, other: str = "", is_1904: bool = False, **parts: str) -> bytes:
    """Return the bytes of a workbook with these rows in its first sheet, and in its second."""
    out = io.BytesIO()
    own = {
        "[Content_Types].xml": TYPES,
        "xl/book.xml": BOOK.format(int(is_1904)),
        "xl/_rels/book.xml.rels": LINKS,
        "xl/styles.xml": STYLES,
        "xl/texts.xml": SHARED,
        "xl/sheets/one.xml": f'<worksheet xmlns="{MAIN}">{sheet}</worksheet>',
        "xl/sheets/two.xml": f'<worksheet xmlns="{MAIN}"><sheetData>{other}</sheetData></worksheet>',
    } | {f"xl/{name}.xml": text for name, text in parts.items()}
    with zipfile.ZipFile(out, "w") as archive:
        for name, text in own.items():
            archive.writestr(name, text)
    return out.getvalue()


def read(data: bytes) -> list[Sheet]:
    """Return the sheets of the bytes of a workbook."""
    return read_workbook(io.BytesIO(data))


# ---- the same cells as openpyxl's

NUMBERS = st.one_of(
    st.integers(-(10**17), 10**17).map(str),
    st.floats(-1e9, 1e9).map(repr),
    st.sampled_from(
        ["0.1", "1E-3", "2e5", "45000.25", "0.5", "59", "60.5", "-0", "0.30000000000000004"]
    ),
)
CONTENTS = st.one_of(
    NUMBERS.map(lambda text: ("n", f"<v>{text}</v>")),
    NUMBERS.map(lambda text: ("n", f"<f>A1*2</f><v>{text}</v>")),
    st.integers(0, len(TEXTS) - 1).map(lambda at: ("s", f"<v>{at}</v>")),
    st.sampled_from(TEXTS).map(lambda text: ("inlineStr", f"<is>{text}</is>")),
    st.sampled_from(
        [
            ("b", "<v>1</v>"),
            ("b", "<v>0</v>"),
            ("e", "<v>#N/A</v>"),
            ("str", "<f>B2</f><v>a text</v>"),
            ("d", "<v>2024-04-30</v>"),
            ("d", "<v>2024-04-30T06:30:00</v>"),
            ("d", "<v>06:30:00</v>"),
            ("n", "<f>SUM(A1:A9)</f>"),
            ("n", "<v/>"),
            ("n", ""),
            ("n", "<v>7</v><extLst><ext uri='x'><f>9</f></ext></extLst>"),
            ("str", "<v/>"),
        ]
    ),
)


@st.composite
def sheets(draw: st.DrawFn) -> str:
    """Rows of a sheet as a stranger's program writes them: with places or without, hidden, out of order."""
    lines = draw(st.lists(st.integers(1, 30), min_size=1, max_size=6, unique=True))
    rows, is_numbered, are_placed = [], draw(st.booleans()), draw(st.booleans())
    for line in lines if draw(st.booleans()) else sorted(lines):
        has_places = draw(st.booleans()) if is_numbered else are_placed
        columns = sorted(draw(st.sets(st.integers(1, 30), max_size=5)))
        cells = []
        for column in columns:
            kind, inner = draw(CONTENTS)
            place = f' r="{letters(column)}{line}"' if has_places else ""
            style = draw(
                st.one_of(st.just(""), st.integers(0, STYLE_COUNT - 1).map(' s="{}"'.format))
            )
            kind = "" if kind == "n" else f' t="{kind}"'
            cells.append(f"<c{place}{style}{kind}>{inner}</c>")
        hidden = draw(st.sampled_from(["", "", ' hidden="1"', ' hidden="0" spans="1:9"']))
        point = "" if hidden else draw(st.sampled_from(["", ".0"]))
        number = f' r="{line}{point}"' if is_numbered else ""
        rows.append(f"<row{number}{hidden}>{''.join(cells)}</row>")
    return f"<sheetData>{''.join(rows)}</sheetData>"


def as_value(cell: Any) -> Value:
    """Return what stands in a cell of openpyxl, as a sheet has it."""
    value = cell.value
    if value is None or isinstance(value, (bool, datetime.datetime, datetime.time)):
        return value  # type: ignore[no-any-return]
    if isinstance(value, (int, float)):
        return cell_form(str(cell.number_format or "")).value(Decimal(repr(value)))
    if isinstance(value, datetime.date):
        return datetime.datetime.combine(value, datetime.time())
    return str(value).strip() or None


def by_openpyxl(data: bytes) -> Iterator[tuple[str, dict[str, tuple[Value, str]], list[str]]]:
    """Give the cells of each sheet by their places, with their units, and those struck through."""
    for sheet in openpyxl.load_workbook(io.BytesIO(data), data_only=True).worksheets:
        cells = [cell for row in sheet.iter_rows() for cell in row]
        found = {cell.coordinate: as_value(cell) for cell in cells}
        struck = [c.coordinate for c in cells if c.font.strike and found[c.coordinate] is not None]
        named = {at: (value, _after(value)) for at, value in found.items() if value is not None}
        yield sheet.title, named, struck


def _after(value: Value) -> str:
    return value.unit if isinstance(value, Shown) else ""


def cells_of(sheet: Sheet) -> dict[str, tuple[Value, str]]:
    """Return the cells of a sheet by their places, with their units; not formulas without a value."""
    assert [line for line, _ in sheet.lines] == sorted(
        {line for line, _ in sheet.lines}
    ), "in order"
    return {
        f"{letters(cell.column)}{cell.line}": (cell.value, _after(cell.value))
        for row in sheet.rows()
        for cell in row
        if cell.value is not None and not isinstance(cell.value, NoValue)
    }


@settings(max_examples=60, deadline=None)
@given(sheet=sheets(), is_1904=st.booleans())
@pytest.mark.filterwarnings(
    "ignore"
)  # openpyxl's: of days that are none, and of what it leaves out
def test_cells_are_those_of_openpyxl(sheet: str, is_1904: bool) -> None:
    data = packed(sheet, is_1904=is_1904)
    for (name, cells, struck), own in zip(by_openpyxl(data), read(data), strict=True):
        assert (own.name, cells_of(own)) == (name, cells)
        said = [note for note in own.notes if "struck" in note]
        assert bool(said) == bool(struck) and all(
            any(at in note for note in said) for at in struck[:1]
        )


# ---- what is refused, and what isn't told by openpyxl

CELL = '<row r="5"><c r="B5">{}</c></row>'
REFUSED = {
    "a row that its cell contradicts": '<row r="5"><c r="B7"><v>1</v></c></row>',
    "two values in a cell": CELL.format("<v>1</v><v>2</v>"),
    "no such style": '<row><c s="99"><v>1</v></c></row>',
    "a style below 0": '<row><c s="-1"><v>1</v></c></row>',
    "no such text": '<row><c t="s"><v>99</v></c></row>',
    "a text below 0": '<row><c t="s"><v>-1</v></c></row>',
    "an endless number": CELL.format("<v>1e999</v>"),
    "no number": CELL.format("<v>12,5</v>"),
    "no column": '<row><c r="A-1"><v>1</v></c></row>',
    "half a row": '<row r="1.5"><c><v>1</v></c></row>',
    "a cell that isn't closed": "<row><c><v>1</v></row>",
}
BEYOND = {
    "row 0": ('<row r="0"><c><v>1</v></c></row>', {"row": 0}),
    "row 1,048,577": ('<row r="1048577"/>', {"row": 1_048_577}),
    "column 18,278": ('<row r="3"><c r="ZZZ3"><v>1</v></c></row>', {"column": 18_278}),
}


@pytest.mark.parametrize("case", REFUSED)
def test_what_cant_be_read(case: str) -> None:
    with pytest.raises(CausedFault) as fault:
        read(packed(f"<sheetData>{REFUSED[case]}</sheetData>"))
    assert fault.value.case.cause is PackedCause.UNREADABLE


@pytest.mark.parametrize("case", BEYOND)
def test_a_cell_that_no_sheet_has(case: str) -> None:
    sheet, named = BEYOND[case]
    with pytest.raises(CausedFault) as fault:
        read(packed(f"<sheetData>{sheet}</sheetData>"))
    assert fault.value.case.cause is XlsxCause.BEYOND_SHEET
    assert fault.value.case.values.items() >= named.items()


@pytest.mark.parametrize("part", ["sheets/one", "texts", "styles", "book"])
def test_entities_are_refused(part: str) -> None:
    declared = '<!DOCTYPE x [<!ENTITY a "aaaaaaaaaa">]>'
    own = {"sheets/one": f'<worksheet xmlns="{MAIN}"/>', "texts": SHARED, "styles": STYLES}
    text = own.get(part, BOOK.format(0))
    with pytest.raises(CausedFault) as fault:
        read(packed("", **{part: declared + text}))
    assert fault.value.case.cause is PackedCause.UNREADABLE


def test_a_million_shared_strings() -> None:
    """They are read once, and take no more of a cell than the one that it names."""
    texts = f'<sst xmlns="{MAIN}">{"<si><t>a</t></si>" * 1_000_000}</sst>'
    rows = '<sheetData><row r="1"><c t="s"><v>999999</v></c></row></sheetData>'
    assert read(packed(rows, texts=texts))[0].lines == [(1, ["a"])]


def test_cells_without_a_reading_of_openpyxl() -> None:
    """A formula without a value, a row that is there twice, hidden rows and columns, a hidden sheet."""
    columns = '<cols><col min="2" max="3" hidden="1"/><col min="9" max="16384" hidden="1"/></cols>'
    rows = (
        '<row r="4" hidden="1"><c r="A4"><f>B4</f></c></row><row r="2"><c r="A2"><v>1</v></c></row>'
    )
    rows += '<row r="4"><c r="B4"><v>2</v></c><c r="C4"/></row>'
    first, second = read(
        packed(f"{columns}<sheetData>{rows}</sheetData>", '<row r="1"><c><v>3</v></c></row>')
    )
    assert first.lines == [(2, [Decimal(1)]), (4, [NoValue(), Decimal(2)])]
    assert first.notes == ["row 4 is hidden, and read", "column B is hidden, and read"]
    assert second.notes == ["the sheet is hidden, and is read"]


def test_a_number_is_shown_as_its_style_says() -> None:
    styles = {form: 3 * (3 + at) for at, form in enumerate(FORMS)}
    shown = {"0.00%": "0.015", '#,##0" kg"': "1500", '0.0,"t"': "2500"}
    cells = "".join(f'<c s="{styles[form]}"><v>{text}</v></c>' for form, text in shown.items())
    ((_, values),) = read(packed(f"<sheetData><row>{cells}</row></sheetData>"))[0].lines
    percent, kilograms, tonnes = values
    assert percent == Percent(Decimal("1.5"))
    assert isinstance(kilograms, Shown) and (kilograms, kilograms.unit) == (1500, "kg")
    assert isinstance(tonnes, Shown) and (tonnes, tonnes.unit) == (Decimal("2.5"), "t")


# ---- many readings


def bench_of_hours() -> Any:
    """Return what measures a million hourly readings, as a module."""
    path = str(Path(__file__).resolve().parents[2] / "bench" / "hours")
    loader = importlib.machinery.SourceFileLoader("bench_of_hours", path)
    spec = importlib.util.spec_from_loader(loader.name, loader)
    assert spec is not None
    module = importlib.util.module_from_spec(spec)
    loader.exec_module(module)
    return module


@pytest.mark.parametrize("form", ["xlsx/long", "xlsx/wide"])
def test_readings_of_hours_take_their_share(form: str, tmp_path: Path) -> None:
    """A hundredth of a million readings takes at most a hundredth of 60 s and 500 MB, after the start."""
    bench = bench_of_hours()
    used = []
    for count in (480, 10_080):
        bench.READINGS, bench.HOURS, bench.METERS = count, max(24, count // 84), 84
        room = tmp_path / str(count)
        room.mkdir()
        used.append(bench.measured(bench.made(room, form), room / "out.csv"))
        assert bench.sums(room / "out.csv") == bench.wanted(form.endswith("long"))
    (start, base), (seconds, memory) = used
    share = 10_080 / 10**6
    assert (
        seconds - start <= bench.MOST_SECONDS * share * 2
    ), "twice: the gate's processors are busy"
    assert memory - base <= bench.MOST_MB * share, f"{base} MB, and then {memory} MB"
