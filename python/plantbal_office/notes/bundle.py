"""A month to hand over: its bundle, which an audit reads, and beside it the comments and files.

The bundle has a form of its own, in which nothing else may be. So what is handed over is a zip with
the bundle, `comments.json`, the files, and `SHA256SUMS` of all of them.
"""

from __future__ import annotations

import argparse
import contextlib
import hashlib
import io
import zipfile
from pathlib import Path

from plantbal.audit import archive
from plantbal.faults import Fault
from plantbal_office.notes.handed import bundle_handed
from plantbal_office.plants.models import Plant
from plantbal_office.shelf import plain_book, run_settings


def archived(plant: Plant, period: str, folder: Path, before: Path | None = None) -> Path:
    """Return the bundle of a month, made in a folder; it names the one before it.

    Raises
    ------
    Fault
        If it can't be made.
    """
    session = folder / "session.csv"
    session.write_text(plain_book(plant).session_asking(period), encoding="ascii")
    parser = argparse.ArgumentParser()
    archive.add_arguments(parser)
    path = folder / f"{plant.slug}_{period}.zip"
    words = [str(session), "--period", period, "--plant", plant.name, "--out", str(path)]
    words += ["--book", plant.folder]
    if before is not None:
        words += ["--before", str(before)]
    if run_settings().program:
        words += ["--program", str(run_settings().program)]
    options = parser.parse_args(words)
    options.prog = "archive"
    said = io.StringIO()
    with contextlib.redirect_stderr(said), contextlib.redirect_stdout(said):
        archive.run(options)
    if not path.is_file():
        raise Fault(said.getvalue().strip() or "the bundle can't be made")
    return path


def bundle_of(
    plant: Plant, period: str, folder: Path, notes: list[dict[str, str]], files: Path
) -> bytes:
    """Return the zip that is handed over."""
    from plantbal_office.notes.views import as_text

    inner = bundle_handed(plant, period, lambda before: archived(plant, period, folder, before))
    contents = {f"{plant.slug}_{period}.zip": inner}
    contents["comments.json"] = as_text(notes).encode("utf-8")
    for note in notes:
        if note["file"] and (files / note["kept"]).is_file():
            contents[note["file"]] = (files / note["kept"]).read_bytes()
    sums = "".join(
        f"{hashlib.sha256(data).hexdigest()}  {name}\n" for name, data in contents.items()
    )
    contents["SHA256SUMS"] = sums.encode("utf-8")
    out = io.BytesIO()
    with zipfile.ZipFile(out, "w", zipfile.ZIP_DEFLATED) as zipped:
        for name, data in contents.items():
            zipped.writestr(name, data)
    return out.getvalue()
