"""What people do: twice, late, in two tabs, with files that are none; a sentence, and nothing lost."""

from __future__ import annotations

import errno
import io
import zipfile
from typing import Any

import pytest
from office.site_of import Site

AMEND = "correct/fact/2023-24/FI-302_2024-04-18/amend"
WORDS = {"amount": "12188 t", "why": "typed a digit short"}


def sentence(answer: Any) -> str:
    """What an answer says, as a person reads it; it is no page of an error."""
    assert answer.status_code < 500, answer.content[:500]
    return answer.content.decode()


def workbook(name: str, data: bytes) -> io.BytesIO:
    """A file as a browser sends it."""
    file = io.BytesIO(data)
    file.name = name
    return file


def drop(site: Site, *files: io.BytesIO, **words: str) -> Any:
    """Drop files, and follow to what is said of them."""
    data = {**site.fields("enter/"), "locale": "de", "workbook": list(files), **words}
    return site.client.post(f"/p/{site.plant.slug}/enter/", data, follow=True)


def readings(*rows: str) -> io.BytesIO:
    """A sheet of readings."""
    return workbook("readings.csv", "\n".join(["day,FI-302", *rows]).encode())


def test_double_click(site: Site) -> None:
    """The same form sent twice is done once, and both are shown what came of it."""
    form = site.fields(f"{AMEND}?amount=12188+t&why=x") | WORDS
    first, second = site.post(AMEND, form), site.post(AMEND, form)
    assert (first.status_code, second.status_code) == (302, 302)
    assert first["Location"] == second["Location"], "the back button leads to the same"
    assert site.head() == 4, "one action was booked"


def test_two_tabs(site: Site) -> None:
    """Who acts on an old version is told what was done since, and nothing is written over."""
    one = site.fields(f"{AMEND}?amount=12188+t&why=x") | WORDS
    other = site.fields(f"{AMEND}?amount=12188+t&why=x") | WORDS | {"amount": "11000 t"}
    assert site.post(AMEND, one).status_code == 302
    said = site.post(AMEND, other)
    assert said.status_code == 409 and "amend FI-302_2024-04-18" in sentence(said)
    assert site.head() == 4


def test_command_meanwhile(site: Site) -> None:
    """A command at work in the book is seen, and a form from before it is refused."""
    from plantbal import Book

    form = site.fields(f"{AMEND}?amount=12188+t&why=x") | WORDS
    Book(site.book).amend("FI-302", "2024-04-18", "12000 t", why="by a command")
    assert site.post(AMEND, form).status_code == 409
    assert "12,000 t" in sentence(site.get("look/fact/2023-24/FI-302_2024-04-18"))


def test_session_ended(site: Site) -> None:
    """After the sign-in has ended a form is answered by the way to sign in, and books nothing."""
    form = site.fields(f"{AMEND}?amount=12188+t&why=x") | WORDS
    site.client.logout()
    answer = site.post(AMEND, form)
    assert answer.status_code == 302 and "sign-in" in answer["Location"]
    assert site.head() == 3


@pytest.mark.parametrize(
    ("field", "text"),
    [
        ("amount", "x" * 10_000),
        ("amount", "zwölf"),
        ("amount", "=1+1"),
        ("amount", "1e999 t"),
        ("why", ""),
        ("why", "y" * 10_000),
        ("version", "0 none"),
        ("version", "z" * 10_000),
        ("deed", "k"),
        ("deed", "k" * 10_000),
    ],
)
def test_words(site: Site, field: str, text: str) -> None:
    """Each text that is none is answered by a sentence, and nothing is booked."""
    form = site.fields(f"{AMEND}?amount=12188+t&why=x") | WORDS | {field: text}
    answer = site.post(AMEND, form)
    assert answer.status_code in (200, 400, 409), answer
    assert site.head() == 3


def bomb() -> bytes:
    """A workbook of some kilobytes with a sheet of a gigabyte."""
    out = io.BytesIO()
    with zipfile.ZipFile(out, "w", zipfile.ZIP_DEFLATED) as zipped:
        zipped.writestr("[Content_Types].xml", "<Types/>")
        zipped.writestr("xl/workbook.xml", b" " * (1 << 29))
    return out.getvalue()


@pytest.mark.parametrize(
    ("name", "data"),
    [
        ("a.xlsx", b"no workbook at all"),
        ("a.xlsx", b""),
        ("readings.csv", b"day;FI-302\n2024-04-18;\0\n"),
        ("readings.csv", b'day,FI-302\n2024-04-18,"12\n'),
        ("readings.csv", b"\xff\xfe\x00"),
        ("photo.png", b"\x89PNG"),
        ("n" * 10_000 + ".xlsx", b"x"),
        ("..\\..\\etc\\passwd", b"x"),
        (".hidden.csv", b"x"),
    ],
    ids=["no-zip", "empty", "nul", "quote", "utf-16", "picture", "long", "outside", "hidden"],
)
def test_no_workbook(site: Site, name: str, data: bytes) -> None:
    """What is no workbook is answered by a sentence, and isn't booked."""
    said = sentence(drop(site, workbook(name, data)))
    assert "verdict bad" in said or "faults" in said
    assert site.head() == 3


def test_bomb(site: Site) -> None:
    """A workbook that unpacks to more than any has is refused before it is unpacked."""
    said = sentence(drop(site, workbook("bomb.xlsx", bomb())))
    assert "verdict bad" in said
    assert site.head() == 3


def test_too_long(site: Site) -> None:
    """What is longer than any workbook isn't read."""
    from django.conf import settings

    length = settings.PLANTBAL_UPLOAD + (2 << 20)
    answer = site.client.generic(
        "POST", f"/p/{site.plant.slug}/enter/", b"", CONTENT_LENGTH=str(length)
    )
    assert answer.status_code == 413 and b"67,108,864" in answer.content


def test_faults_at_cells(site: Site) -> None:
    """A fault stands at its cell in a picture of the sheet, with what to do."""
    said = sentence(drop(site, readings("2024-04-18,12188", "2024-04-19,12x"), called="april"))
    assert said.count('class="wrong"') == 1 and "12x" in said and "readings.csv" in said


def test_change_wants_a_reason(site: Site) -> None:
    """What a workbook changes is shown with its effect, and is booked with a reason alone."""
    page = drop(site, readings("2024-04-18,12188"), called="april")
    said = sentence(page)
    assert "1,218 t becomes 12,188 t" in said and "accepted by the global test" in said
    path = page.redirect_chain[-1][0]
    form = site.fields(path.partition(f"/p/{site.plant.slug}/")[2])
    assert site.client.post(f"{path}/book", form).status_code == 302 and site.head() == 3
    form = site.fields(path.partition(f"/p/{site.plant.slug}/")[2]) | {"why": "typed wrong"}
    assert site.client.post(f"{path}/book", form).status_code == 302 and site.head() == 4


def test_disk_full(site: Site, monkeypatch: pytest.MonkeyPatch) -> None:
    """A full disk is a sentence, and nothing is booked; once there is room the same form goes."""
    from plantbal.book import writing

    form = site.fields(f"{AMEND}?amount=12188+t&why=x") | WORDS
    full = OSError(errno.ENOSPC, "No space left on device")

    def no_room(*_: object, **__: object) -> None:
        raise full

    with monkeypatch.context() as patch:
        patch.setattr(writing.os, "fsync", no_room)
        said = sentence(site.post(AMEND, form))
    assert "nothing was booked" in said
    assert site.head() == 3
    assert site.post(AMEND, form).status_code == 302 and site.head() == 4


@pytest.mark.parametrize(
    "cells", ["", "[", "{}", "[[]]", "[" * 5_000, '[{"name": 1}]', '[{"a": "' + "x" * 100 + '"}]']
)
def test_grid_of_nonsense(site: Site, cells: str) -> None:
    """A grid that is none is answered by a sentence."""
    form = site.fields("enter/grid/2024-04/readings") | {"cells": cells}
    answer = site.post("enter/grid/2024-04/readings", form)
    assert answer.status_code == 400 and b"faults" in answer.content
    assert site.post("enter/judge/2024-04", {"cells": cells}).status_code in (200, 400)


def test_comment(site: Site) -> None:
    """A comment and a file are kept, given back as they were, and go into the month's bundle."""
    form = site.fields("look/2024-04/") | {
        "about": "month:2024-04",
        "then": "/",
        "text": "<b>seen</b>",
    }
    photo = workbook("ticket 1.png", b"\x89PNG of a ticket")
    assert site.post("notes/add", form | {"file": photo}).status_code == 302
    page = sentence(site.get("look/2024-04/"))
    assert "&lt;b&gt;seen" in page and "ticket 1.png" in page
    zipped = zipfile.ZipFile(io.BytesIO(site.get("notes/bundle/2024-04").content))
    names = zipped.namelist()
    assert {"comments.json", "SHA256SUMS"} <= set(names)
    inside = [zipped.read(name) for name in names if name.startswith("files/")]
    assert inside == [b"\x89PNG of a ticket"]


@pytest.mark.parametrize(
    ("about", "name"),
    [("month:none", "a.png"), ("fact:2023-24:none", "a.png"), ("x" * 500, "a.png")]
    + [("month:2024-04", name) for name in ("a.html", "a.svg", "a.exe", "n" * 300 + ".png")],
)
def test_comment_on_nothing(site: Site, about: str, name: str) -> None:
    """A comment on nothing, and a file that a browser might run, aren't kept."""
    form = site.fields("look/2024-04/") | {"about": about, "then": "/", "text": "x"}
    assert site.post("notes/add", form | {"file": workbook(name, b"x")}).status_code == 400


def test_undo(site: Site) -> None:
    """An amendment is undone by another, with a reason; the journal has both."""
    fact = "look/fact/2023-24/FI-302_2024-04-18"
    site.post(AMEND, site.fields(f"{AMEND}?amount=12188+t&why=x") | WORDS)
    undo = "correct/fact/2023-24/FI-302_2024-04-18/undo"
    assert site.post(undo, site.fields(fact) | {"why": "it was right"}).status_code == 302
    from plantbal import Book

    found = Book(site.book).fact("2023-24", "FI-302_2024-04-18")
    assert (found.shown.fact.said(), len(found.edits)) == ("1,218 t", 2)
    assert found.shown.fact.variance == found.shown.before[0].variance, "its error too"


def test_without_a_token(site: Site) -> None:
    """A form of another site, without this sign-in's token, does nothing."""
    from django.test import Client

    form = site.fields(f"{AMEND}?amount=12188+t&why=x") | WORDS
    client = Client(enforce_csrf_checks=True)
    client.force_login(site.person)
    assert client.post(f"/p/{site.plant.slug}/{AMEND}", form).status_code == 403
    assert site.head() == 3


def test_killed(site: Site) -> None:
    """A form whose work was killed is said to be at work, and goes again after a while, once."""
    from datetime import timedelta

    from django.utils import timezone
    from plantbal_office.deeds.models import Deed

    form = site.fields(f"{AMEND}?amount=12188+t&why=x") | WORDS
    Deed.objects.create(key=form["deed"], person=site.person, plant=site.plant, address="/")
    answer = site.client.post(f"/p/{site.plant.slug}/{AMEND}", form, follow=True)
    assert "still being worked on" in sentence(answer) and site.head() == 3
    Deed.objects.filter(key=form["deed"]).update(begun=timezone.now() - timedelta(hours=1))
    assert site.post(AMEND, form).status_code == 302 and site.head() == 4


def test_another_person(site: Site, made: Any, tmp_path: Any) -> None:
    """A form of another person, and a workbook of another plant, are nobody else's."""
    other = Site(tmp_path, site.plant.slug + "x", ("engineer", "clerk"), made)
    page = drop(site, readings("2024-04-18,12188"), called="april")
    path = page.redirect_chain[-1][0].replace(site.plant.slug, other.plant.slug, 1)
    assert other.client.get(path).status_code == 404
    assert site.client.get(f"/p/{other.plant.slug}/").status_code == 404


def test_many_at_once(site: Site, made: Any, tmp_path: Any) -> None:
    """People at work in several books at once: each change is booked, or its person told; none is lost.

    `make office-times` has twenty people in five books.
    """
    import os
    import re
    import threading

    from django.db import connection

    people, books = (
        int(os.environ.get(f"PLANTBAL_{n}", m)) for n, m in (("PEOPLE", 3), ("BOOKS", 2))
    )
    names = [f"{site.plant.slug}y{n}" for n in range(1, books)]
    sites = [site, *(Site(tmp_path, name, ("engineer",), made) for name in names)]
    done: list[tuple[str, str]] = []

    def work(here: Site, day: int) -> None:
        from django.test import Client

        client = Client()
        client.force_login(here.person)
        path = f"/p/{here.plant.slug}/correct/fact/2023-24/FI-302_2024-04-{day:02}/amend"
        for _ in range(60):
            page = client.get(f"{path}?amount={11_000 + day}+t&why=x").content.decode()
            form = {
                n: re.findall(rf'name="{n}" value="([^"]*)"', page) for n in ("deed", "version")
            }
            if not form["deed"]:
                continue
            words = {n: found[0] for n, found in form.items()}
            answer = client.post(path, words | {"amount": f"{11_000 + day} t", "why": "x"})
            if answer.status_code == 302:
                done.append((here.plant.slug, f"FI-302_2024-04-{day:02}"))
                break
            assert answer.status_code in (400, 409), answer
        connection.close()

    threads = [
        threading.Thread(target=work, args=(here, day))
        for here in sites
        for day in range(1, people + 1)
    ]
    for thread in threads:
        thread.start()
    for thread in threads:
        thread.join()
    assert len(done) == people * books, done
    for here in sites:
        assert here.head() == 3 + people, "an amendment of each person"


def test_undo_of_a_strike(site: Site) -> None:
    """A struck fact is booked again by a button, with a reason; the journal has both."""
    fact = "fact/2023-24/FI-302_2024-04-18"
    strike = f"correct/{fact}/strike"
    site.post(strike, site.fields(f"{strike}?why=x") | {"why": "of another day"})
    page = sentence(site.get(f"look/{fact}"))
    assert "Book it again" in page
    undo = f"correct/{fact}/undo"
    assert site.post(undo, site.fields(f"look/{fact}") | {"why": ""}).status_code == 400
    answer = site.post(undo, site.fields(f"look/{fact}") | {"why": "of this day after all"})
    assert answer["Location"].endswith("/FI-302_2024-04-18.2"), answer
    assert "1,218 t" in sentence(site.client.get(answer["Location"]))
    assert site.head() == 5
    again = site.post(undo, site.fields(f"look/{fact}") | {"why": "twice"})
    assert again.status_code == 400 and site.head() == 5, "the day has a figure again"


def test_cleared(site: Site) -> None:
    """A cleared cell strikes its figure, with a reason, and after its effect was shown."""
    grid = "enter/grid/2024-04/readings"
    cells = '[{"name": "FI-302", "day": "2024-04-18", "amount": ""}]'
    answer = site.post(grid, site.fields(grid) | {"cells": cells})
    path = answer["Location"].partition(f"/p/{site.plant.slug}/")[2]
    page = sentence(site.get(path))
    assert "FI-302_2024-04-18: 1,218 t" in page and "What the balance would say" in page
    assert site.post(f"{path}/book", site.fields(path)).status_code == 302 and site.head() == 3
    form = site.fields(path) | {"why": "it is of May"}
    assert site.post(f"{path}/book", form).status_code == 302 and site.head() == 4
    from plantbal import Book

    assert Book(site.book).fact("2023-24", "FI-302_2024-04-18").shown.struck


def test_tasks(site: Site) -> None:
    """A task is given once, shown with what its month waits for, and done; no book knows of it."""
    form = site.fields("") | {"month": "2024-04", "what": "<i>dip</i> of T4", "due": "2024-05-02"}
    assert [site.post("task", form).status_code for _ in range(2)] == [302, 302]
    page = sentence(site.get(""))
    assert page.count("&lt;i&gt;dip") == 2 and "overdue" in page, "said once, and for its button"
    assert "&lt;i&gt;dip" in sentence(site.client.get("/")), "on the page of the plants too"
    for wrong in ({"month": "none"}, {"what": "x" * 10_000}, {"what": ""}, {"due": "soon"}):
        again = site.fields("") | {"month": "2024-04", "what": "y"} | wrong
        assert site.post("task", again).status_code == 400, wrong
    from plantbal_office.plants.models import Task

    task = Task.objects.get(plant=site.plant)
    for _ in range(2):
        assert site.post(f"done/{task.pk}", {}).status_code == 302
    assert "&lt;i&gt;dip" not in sentence(site.get("")) and site.head() == 3


def test_languages_of_sentences(site: Site) -> None:
    """What has a code is said in the person's language; English is the library's own sentence."""
    from django.utils import translation
    from plantbal.gates import Gate, Stop, said_of_stop
    from plantbal_office.sentences import said

    stop = Stop(Gate.MISSING, "2024-04", ("FI-302",), (738996, 738997, 738998), {"is_tank": 0})
    with translation.override("en"):
        assert said(said_of_stop(stop)) == said_of_stop(stop)
    texts = {}
    for code in ("de", "es"):
        with translation.override(code):
            texts[code] = said(said_of_stop(stop))
    assert texts["de"] == "keine Ablesung von FI-302 am 20.04.2024 bis 22.04.2024", texts
    assert "falta la lectura" in texts["es"], texts


def test_fifty_megabytes(site: Site) -> None:
    """A file of 50 MB that is no workbook is read once, and said to be none."""
    out = io.BytesIO()
    with zipfile.ZipFile(out, "w") as zipped:
        zipped.writestr("xl/workbook.xml", b"x" * 50_000_000)
    said = sentence(drop(site, workbook("large.xlsx", out.getvalue())))
    assert "verdict bad" in said and site.head() == 3


def test_program_killed(site: Site, tmp_path: Any, monkeypatch: pytest.MonkeyPatch) -> None:
    """If the program is killed there is a sentence, and no report; then the same form goes."""
    from django.conf import settings

    script = tmp_path / "killed"
    script.write_text("#!/bin/sh\nkill -9 $$\n")
    script.chmod(0o755)
    form = site.fields("")
    with monkeypatch.context() as patch:
        patch.setattr(settings, "PLANTBAL_PROGRAM", str(script))
        said = sentence(site.post("correct/2024-04/report", form))
    assert "verdict bad" in said and site.head() == 3
    assert site.post("correct/2024-04/report", form).status_code == 302


def test_no_room_for_a_workbook(site: Site, monkeypatch: pytest.MonkeyPatch) -> None:
    """A workbook for which there is no room is a sentence, and nothing of it is kept."""
    from pathlib import Path

    from django.conf import settings
    from plantbal_office.enter import drops
    from plantbal_office.enter.models import Drop

    def no_room(*_: object) -> None:
        raise OSError(errno.ENOSPC, "No space left on device")

    kept = Path(settings.MEDIA_ROOT) / "drops"
    before = sorted(kept.glob("*")) if kept.exists() else []
    with monkeypatch.context() as patch:
        patch.setattr(drops, "_copy", no_room)
        said = sentence(drop(site, readings("2024-04-18,12188"), called="april"))
    assert "the disk is full" in said
    assert not Drop.objects.filter(plant=site.plant).exists()
    assert (sorted(kept.glob("*")) if kept.exists() else []) == before


@pytest.mark.parametrize("sheet", ["Werte", "x" * 10_000])
def test_mapping_of_nonsense(site: Site, sheet: str) -> None:
    """A workbook with a sheet of its own is asked about; answers that are none are a sentence."""
    text = b"Datum;FI-302;Etwas\n18.04.2024;12188;5\n19.04.2024;12190;7\n"
    files = workbook("Werte April 2024.csv", text), workbook("readings.csv", b"day,FI-302\n")
    page = drop(site, *files, called="april")
    assert "how it is read" in sentence(page) and "question" in sentence(page)
    path = page.redirect_chain[-1][0].partition(f"/p/{site.plant.slug}/")[2]
    form = site.fields(path) | {"take": "yes", "was-0": "readings", "kind-0": "readings"}
    for wrong in ({}, {"locale": "xx"}, {"sheet-0": sheet, "col-0-2": "none"}, {"col-0-1": "="}):
        answer = site.post(path, form | wrong)
        assert answer.status_code in (200, 400), (wrong, answer)
    assert site.head() == 3
