"""The head of a book where it is wanted: at the close, on the statement, in the bundle and in the next bundle."""

from __future__ import annotations

import hashlib
import io
import zipfile
from pathlib import Path

from office.site_of import TOP, Site

from plantbal import Book
from plantbal.audit.bundle import MANIFEST, Manifest, unpacked
from plantbal.gates import Gate
from plantbal.workbook.options import ReadingOptions

MONTHS = TOP / "examples" / "month_end"
ANYWAY = {f"why-{gate.value}": "as it is" for gate in Gate}


def bundle_in(site: Site, period: str, folder: Path) -> tuple[Path, Manifest]:
    """The bundle within what is handed out of a month, and its manifest."""
    zipped = zipfile.ZipFile(io.BytesIO(site.get(f"notes/bundle/{period}").content))
    path = folder / f"{period}.zip"
    path.write_bytes(zipped.read(f"{site.plant.slug}_{period}.zip"))
    found = unpacked(str(path))
    assert not found.wrong
    return path, Manifest.read(found.files[MANIFEST])


def closed(site: Site, period: str) -> str:
    """Close a month as the page does; the head that is shown."""
    form = site.fields("correct/quiet") | ANYWAY
    answer = site.client.post(f"/p/{site.plant.slug}/correct/{period}/close", form, follow=True)
    page, head = answer.content.decode(), str(Book(site.book).head)
    on_statement = f'<dd class="hash">{head}</dd>'
    assert head in page.replace(on_statement, ""), "at the close"
    assert on_statement in page, "on the statement"
    assert head in site.get(f"look/{period}/file/page").content.decode(), "on its page"
    return head


def test_head_of_the_book(site: Site, tmp_path: Path) -> None:
    """A bundle that was handed out stays the same, and the next names it and the head in it."""
    head = closed(site, "2024-04")
    path, april = bundle_in(site, "2024-04", tmp_path)
    assert f"{april.book['number']} {april.book['head']}" == head and not april.before
    data = path.read_bytes()
    Book(site.book).add(MONTHS / "may", reading=ReadingOptions("de"))
    Book(site.book).report("2024-05")
    assert bundle_in(site, "2024-04", tmp_path)[0].read_bytes() == data, "as it was"
    head = closed(site, "2024-05")
    _, may = bundle_in(site, "2024-05", tmp_path)
    assert f"{may.book['number']} {may.book['head']}" == head
    assert may.before == {"sha256": hashlib.sha256(data).hexdigest()} | april.book
    names = [str(tmp_path / f"{period}.zip") for period in ("2024-04", "2024-05")]
    assert Book(site.book).verify(names).ok, "and the book has both heads"


def test_a_month_that_changes(site: Site, tmp_path: Path) -> None:
    """Another report wants another bundle; the one that was handed out is kept beside it."""
    from plantbal_office.notes.handed import bundles_of

    closed(site, "2024-04")
    first = bundle_in(site, "2024-04", tmp_path)[0].read_bytes()
    Book(site.book).amend("FI-302", "2024-04-18", "12188 t", why="a digit short")
    Book(site.book).report("2024-04")
    second = bundle_in(site, "2024-04", tmp_path)[0].read_bytes()
    assert second != first
    assert bundle_in(site, "2024-04", tmp_path)[0].read_bytes() == second
    kept = {path.name: path.read_bytes() for path in bundles_of(site.plant).iterdir()}
    assert kept == {"2024-04.zip": second, "2024-04~1.zip": first}
