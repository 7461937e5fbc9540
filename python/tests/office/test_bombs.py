"""Workbooks that are made to take all memory or all time: each is read or refused, and a sentence is said."""

from __future__ import annotations

import io
import zipfile
from typing import Any
from xml.sax.saxutils import quoteattr

import pytest
from office.site_of import Site

MAIN = "http://schemas.openxmlformats.org/spreadsheetml/2006/main"
_OFFICE = "http://schemas.openxmlformats.org/officeDocument/2006/relationships"
_PACKAGE = "http://schemas.openxmlformats.org/package/2006"
_SHEETML = "application/vnd.openxmlformats-officedocument.spreadsheetml"
TYPES = (
    f'<Types xmlns="{_PACKAGE}/content-types"><Default Extension="xml" ContentType="application/xml"/>'
    f'<Override PartName="/xl/workbook.xml" ContentType="{_SHEETML}.sheet.main+xml"/>'
    f'<Override PartName="/xl/sharedStrings.xml" ContentType="{_SHEETML}.sharedStrings+xml"/></Types>'
)
LINKS = (
    f'<Relationships xmlns="{_PACKAGE}/relationships">'
    f'<Relationship Id="a" Type="{_OFFICE}/worksheet" Target="sheet.xml"/>'
    f'<Relationship Id="b" Type="{_OFFICE}/sharedStrings" Target="sharedStrings.xml"/></Relationships>'
)
# Ten times ten times .. a word: a gigabyte, if somebody unfolds it.
LAUGHS = "".join(f'<!ENTITY a{n} "{f"&a{n - 1};" * 10}">' for n in range(1, 10))
NESTED = f'<!DOCTYPE x [<!ENTITY a0 "ha">{LAUGHS}]>'
TEXTS = ("day", "FI-302", "2024-04-18")
# One figure of a day, which the book has otherwise.
FIGURE = '<row r="2"><c r="A2" t="s"><v>2</v></c><c r="B2"><v>12188</v></c></row>'


def xlsx(
    name: str = "readings",
    texts: tuple[str, ...] = TEXTS,
    more: str = "",
    declared: str = "",
    rows: str = FIGURE,
) -> bytes:
    """The bytes of a workbook with a sheet of readings: its name, shared strings, and further ones."""
    sheet = f'<row r="1"><c r="A1" t="s"><v>0</v></c><c r="B1" t="s"><v>1</v></c></row>{rows}'
    shared = "".join(f"<si><t>{text}</t></si>" for text in texts) + more
    parts = {
        "[Content_Types].xml": TYPES,
        "xl/workbook.xml": f'<workbook xmlns="{MAIN}" xmlns:r="{_OFFICE}"><sheets>'
        f'<sheet name={quoteattr(name)} sheetId="1" r:id="a"/></sheets></workbook>',
        "xl/_rels/workbook.xml.rels": LINKS,
        "xl/sharedStrings.xml": f'{declared}<sst xmlns="{MAIN}">{shared}</sst>',
        "xl/sheet.xml": f'<worksheet xmlns="{MAIN}"><sheetData>{sheet}</sheetData></worksheet>',
    }
    return zipped(parts)


def zipped(parts: dict[str, str]) -> bytes:
    """The bytes of an archive."""
    out = io.BytesIO()
    with zipfile.ZipFile(out, "w", zipfile.ZIP_DEFLATED) as archive:
        for part, text in parts.items():
            archive.writestr(part, text)
    return out.getvalue()


def dropped(site: Site, data: bytes, name: str = "april.xlsx") -> Any:
    """What the desk answers if somebody drops a file; whatever it is, nothing is booked."""
    file = io.BytesIO(data)
    file.name = name
    form = {**site.fields("enter/"), "locale": "en_GB", "workbook": [file]}
    answer = site.client.post(f"/p/{site.plant.slug}/enter/", form, follow=True)
    assert answer.status_code < 500, answer.content[:500]
    assert site.head() == 3
    return answer


def is_read(answer: Any) -> bool:
    """Say whether what a workbook would do is shown: the figure that it changes."""
    return b"12,188 t" in answer.content


def is_refused(answer: Any) -> bool:
    """Say whether a sentence is said, and nothing would be booked."""
    return b"verdict bad" in answer.content or b'class="faults"' in answer.content


def test_many_strings(site: Site) -> None:
    """A workbook of some kilobytes with 200,000 shared strings, of which it uses three, is read."""
    data = xlsx(more="<si><t>a</t></si>" * 200_000)
    assert len(data) < 100_000
    assert is_read(dropped(site, data))


def test_strings_that_arent_there(site: Site) -> None:
    """A string beyond the last one is a sentence."""
    rows = FIGURE.replace("<v>2</v>", "<v>1000000</v>")
    assert is_refused(dropped(site, xlsx(rows=rows)))


@pytest.mark.parametrize("kind", ["xlsx", "ods"])
def test_nested_entities(site: Site, kind: str) -> None:
    """Entities within entities aren't unfolded."""
    data = xlsx(more="<si><t>&a9;</t></si>", declared=NESTED)
    if kind == "ods":
        mime = "application/vnd.oasis.opendocument.spreadsheet"
        data = zipped({"mimetype": mime, "content.xml": f"{NESTED}<x>&a9;</x>"})
    assert is_refused(dropped(site, data, f"april.{kind}"))


def test_nested_elements(site: Site) -> None:
    """Elements within elements, however deep, end nobody's process."""
    deep = 100_000
    dropped(site, xlsx(rows="<x>" * deep + "</x>" * deep + FIGURE))


def test_photograph(site: Site) -> None:
    """A workbook with a photograph of 50 MB in it is read as without it."""
    out = io.BytesIO(xlsx())
    with zipfile.ZipFile(out, "a") as archive:
        archive.writestr("xl/media/image1.jpeg", b"\xff" * 50_000_000)
    assert is_read(dropped(site, out.getvalue()))


@pytest.mark.parametrize("where", ["sheet", "head", "stream", "day"])
def test_long_name(site: Site, where: str) -> None:
    """A name of 10,000 characters is a name like others, that nothing has; no page is without end."""
    long = "n" * 10_000
    made = {
        "sheet": lambda: xlsx(name=long),
        "head": lambda: xlsx(texts=("day", long, "2024-04-18")),
        "stream": lambda: xlsx(name="streams", texts=("stream", "from", long)),
        "day": lambda: xlsx(texts=("day", "FI-302", long)),
    }
    answer = dropped(site, made[where]())
    assert len(answer.content) < 500_000
    assert is_refused(answer) or not is_read(answer)
