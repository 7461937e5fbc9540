"""Comments and files, and the bundle of a month with them."""

from __future__ import annotations

import hashlib
import json
import os
import tempfile
from pathlib import Path, PurePosixPath

from django.conf import settings
from django.contrib import messages
from django.core.files.uploadedfile import UploadedFile
from django.http import Http404, HttpRequest, HttpResponse
from django.utils.http import url_has_allowed_host_and_scheme
from django.utils.translation import gettext as _

from plantbal.book.writing import sync
from plantbal.faults import Fault, InputFault, Place
from plantbal_office.deeds.once import once
from plantbal_office.look.views import month_in_address
from plantbal_office.notes.bundle import bundle_of
from plantbal_office.notes.models import Note
from plantbal_office.shelf import book_contents

# What may be put beside a figure, by how the name ends; a browser shows none of it as a page.
KINDS = {
    ".pdf": "application/pdf",
    ".png": "image/png",
    ".jpg": "image/jpeg",
    ".jpeg": "image/jpeg",
    ".txt": "text/plain; charset=utf-8",
    ".csv": "text/csv; charset=utf-8",
    ".xlsx": "application/vnd.openxmlformats-officedocument.spreadsheetml.sheet",
}
MOST_TEXT, LONGEST_NAME = 2_000, 100


def folder() -> Path:
    """Return the folder of the files."""
    return Path(settings.MEDIA_ROOT) / "notes"


def add_note(request: HttpRequest) -> HttpResponse:
    """Take a comment, perhaps with a file."""
    about = request.POST.get("about", "")
    then = request.POST.get("then", "/")
    if not url_has_allowed_host_and_scheme(then, {request.get_host()}):
        then = "/"

    def act() -> str:
        period = checked_about(request, about)
        text = request.POST.get("text", "").strip()
        file: UploadedFile | None = request.FILES.get("file")
        if len(text) > MOST_TEXT:
            what = _("this comment has more than {most:,} characters").format(most=MOST_TEXT)
            raise Fault(what, remedy=_("put it into a file"))
        if not text and file is None:
            raise Fault(
                _("there is neither a comment nor a file"),
                remedy=_("write a comment, or choose a file"),
            )
        note = Note(plant=request.plant, person=request.user, about=about, period=period, text=text)
        if file is not None:
            _attach(note, file)
        note.save(force_insert=True)
        messages.success(request, _("The comment is saved."))
        return then + "#notes"

    return once(request, act)


def checked_about(request: HttpRequest, about: str) -> str:
    """Return the month of what a comment is on; empty of a stream.

    Raises
    ------
    Fault
        If there is no such thing.
    """
    word, _colon, rest = about.partition(":")
    contents = book_contents(request.plant)
    if len(about) <= 120 and word == "month" and contents.month(rest) is not None:
        return rest
    if len(about) <= 120 and word == "stream":
        names = [each.name for some in contents.flows.values() for each in some]
        names += [each.name for some in contents.vessels.values() for each in some]
        if rest in names:
            return ""
    if len(about) <= 120 and word == "fact":
        year, _colon, identity = rest.partition(":")
        from plantbal_office.shelf import plain_book

        found = plain_book(request.plant).fact(year, identity)
        return found.periods[0] if found.periods else ""
    raise Fault(_("there is nothing of this name to comment on"))


def _attach(note: Note, file: UploadedFile) -> None:
    """Keep the file of a comment.

    Raises
    ------
    Fault
        If it is too long, or of a kind that isn't kept.
    """
    name = PurePosixPath((file.name or "").replace("\\", "/")).name
    ending = Path(name).suffix.lower()
    place = Place(file=name[:40])
    if len(name) > LONGEST_NAME or not name.isprintable() or ending not in KINDS:
        what = _("a file of this kind or name can't be kept")
        remedy = _("use one of {kinds}").format(kinds=", ".join(KINDS))
        raise InputFault(what, place=place, remedy=remedy)
    if file.size > settings.PLANTBAL_ATTACHED:
        what = _("it has more than {most:,} bytes").format(most=settings.PLANTBAL_ATTACHED)
        raise InputFault(what, place=place, remedy=_("make the picture smaller"))
    folder().mkdir(parents=True, exist_ok=True)
    digest = hashlib.sha256()
    with open(folder() / str(note.pk), "xb") as out:
        for part in file.chunks():
            digest.update(part)
            out.write(part)
        out.flush()
        os.fsync(out.fileno())
    for inner in (folder(), folder().parent, folder().parent.parent):
        sync(inner)  # before the database says that it is kept
    note.name, note.kind, note.sha256 = name, KINDS[ending], digest.hexdigest()


def file(request: HttpRequest, note: str) -> HttpResponse:
    """Give the file of a comment."""
    found = Note.objects.filter(pk=note, plant=request.plant).exclude(name="").first()
    if found is None or not (folder() / str(found.pk)).is_file():
        raise Http404
    data = (folder() / str(found.pk)).read_bytes()
    if hashlib.sha256(data).hexdigest() != found.sha256:
        raise Fault(
            _("this file has changed since it was saved"), remedy=_("ask whoever runs the desk")
        )
    answer = HttpResponse(data, content_type=found.kind)
    answer["Content-Security-Policy"] = "default-src 'none'; sandbox"
    from urllib.parse import quote

    answer["Content-Disposition"] = f"attachment; filename*=UTF-8''{quote(found.name)}"
    return answer


def bundle(request: HttpRequest, period: str) -> HttpResponse:
    """Give the bundle of a month, with its comments and files beside it."""
    month_in_address(request, period)
    notes = Note.objects.filter(plant=request.plant, period__in=[period, ""])
    with tempfile.TemporaryDirectory(prefix="plantbal-bundle-") as made:
        data = bundle_of(request.plant, period, Path(made), notes_of(notes), folder())
    answer = HttpResponse(data, content_type="application/zip")
    name = f"{request.plant.slug}_{period}.zip"
    answer["Content-Disposition"] = f'attachment; filename="{name}"'
    return answer


def notes_of(notes: object) -> list[dict[str, str]]:
    """Return comments as data."""
    return [
        {
            "about": note.about,
            "text": note.text,
            "by": note.person.shown_name,
            "when": note.made.isoformat(timespec="seconds"),
            "file": f"files/{note.pk}_{note.name}" if note.name else "",
            "kept": str(note.pk) if note.name else "",
            "sha256": note.sha256,
        }
        for note in notes  # type: ignore[attr-defined]
    ]


def as_text(notes: list[dict[str, str]]) -> str:
    """Return comments as JSON."""
    shown = [{key: each[key] for key in each if key != "kept"} for each in notes]
    return json.dumps(shown, indent=1, ensure_ascii=False) + "\n"
