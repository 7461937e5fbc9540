"""What the desk says in German and Spanish: each form that it can show, and pages with them."""

from __future__ import annotations

import io
import re
from pathlib import Path
from typing import Any

import pytest
from babel.messages.catalog import Catalog
from babel.messages.mofile import read_mo
from babel.messages.pofile import read_po
from office.shown_forms import HOME, WHOLE, fields, formless, shown_forms
from office.site_of import TOP, Site

from plantbal.book.naming import cell_of
from plantbal.causes import CausedFault
from plantbal.book.remedies import BookRemedy
from plantbal.gates.remedies import GateRemedy
from plantbal.lint.remedies import LintRemedy
from plantbal.workbook.cells import Reader
from plantbal.workbook.remedies import CellRemedy, OptionRemedy
from plantbal_office.remedies import AT_DESK

LOCALE = HOME / "plantbal_office" / "locale"


def catalogue(language: str, ending: str = "po") -> Catalog:
    """The forms of a language, as they are written or as they are compiled."""
    with open(LOCALE / language / "LC_MESSAGES" / f"django.{ending}", "rb") as file:
        return read_po(file) if ending == "po" else read_mo(file)


@pytest.mark.parametrize("language", ("de", "es"))
def test_each_form_has_a_translation(language: str) -> None:
    """No sentence that a page can show is without one, and each is filled with the same values."""
    known = catalogue(language)
    forms = shown_forms()
    assert len(forms) > 1200
    missing = sorted(
        form for form in forms if known.get(form) is None or not known.get(form).string
    )
    assert not missing, f"{len(missing)} forms without a translation, the first: {missing[:5]}"
    for form in forms:
        said = known.get(form).string
        said = said if isinstance(said, str) else said[0]
        assert fields(said) == fields(form), f"{language}: {form!r} is filled as {said!r}"


@pytest.mark.parametrize("module", WHOLE)
def test_forms(module: str) -> None:
    """No module whose sentences a page can show fills names and figures into English ones where they stand."""
    found = list(formless((HOME / f"plantbal/{module}.py").read_text(encoding="utf-8")))
    assert found == []


@pytest.mark.parametrize("language", ("de", "es"))
def test_compiled(language: str) -> None:
    """The compiled catalogue is that of the written one: pybabel compile -D django -d .. makes it."""
    compiled = catalogue(language, "mo")
    for written in catalogue(language):
        if written.id:
            found = compiled.get(written.id)
            assert found is not None, f"{language}: {written.id!r} isn't compiled"
            assert list(found.string) == list(written.string), written.id


def spoken(site: Site, language: str) -> Site:
    """The site in a language."""
    site.person.language = language
    site.person.save()
    site.client.cookies["django_language"] = language
    return site


def text_of(answer: Any) -> str:
    """What a page says, without its marks."""
    assert answer.status_code < 500
    main = re.sub(r"<(script|style)\b.*?</\1>", "", answer.content.decode(), flags=re.S)
    return re.sub(r"\s+", " ", re.sub(r"<[^>]+>", " ", main)).replace("&#x27;", "'")


PAGES = {
    "de": {
        "": ("Monate", "30.04.2024"),
        "look/2024-04/": (
            *("Sehen Sie TAILS an", "2 Freiheitsgraden, und angenommen wird bis 5,991"),
            *("Bilanzen, die nicht aufgehen", "+12.131,390"),
            *("Konto des Zeitraums", "472,644", "nicht erklärter Verlust", "redundant"),
        ),
        "correct/2024-04/close": ("vom globalen Test abgelehnt", "122,514"),
    },
    "es": {
        "look/2024-04/": ("Mire TAILS", "Cuenta del período", "pérdida sin explicar"),
        "correct/2024-04/close": ("rechazado por la prueba global",),
    },
}
# English that a page in another language has no place for.
ENGLISH = re.compile(r"\b(the|and|is|are|of|with|which|below|nothing|measured|booked)\b")


@pytest.mark.parametrize("language", PAGES)
def test_pages(site: Site, language: str) -> None:
    """The statement and the pages around it are in the language, but for names and reasons."""
    spoken(site, language)
    for path, words in PAGES[language].items():
        said = text_of(site.get(path)).replace(str(site.book), "")
        for word in words:
            assert word in said, f"{path} in {language} lacks {word!r}"
        found = [said[max(0, m.start() - 40) : m.end() + 40] for m in ENGLISH.finditer(said)]
        assert not found, f"{path} in {language} has English: {found[:6]}"


@pytest.mark.parametrize(
    ("language", "words"),
    (
        ("en", "leaves out suspects, as the last one did: TAILS"),
        ("de", "lässt Verdächtige aus, wie der letzte: TAILS"),
        ("es", "deja fuera sospechosos, como el anterior: TAILS"),
    ),
)
def test_a_close_after_an_elimination(site: Site, language: str, words: str) -> None:
    """A close takes nobody out: that it isn't the report that was looked at is said beside it."""
    spoken(site, language)
    assert words not in text_of(site.get("correct/2024-04/close"))
    data = {**site.fields("look/2024-04/"), "eliminate": "1"}
    site.client.post(f"/p/{site.plant.slug}/correct/2024-04/report", data, follow=True)
    assert words in text_of(site.get("correct/2024-04/close"))


def test_faults(site: Site) -> None:
    """The faults of a workbook are said at their cells in German, what to do about them too."""
    spoken(site, "de")
    file = io.BytesIO(b"day,FI-302,FI-999\n2024-05-01,zwoelf,1\n2024-13-01,11,2\n")
    file.name = "readings.csv"
    data = {**site.fields("enter/"), "locale": "de", "workbook": [file]}
    answer = site.client.post(f"/p/{site.plant.slug}/enter/", data, follow=True)
    said = text_of(answer)
    for word in ("3 Fehler, und nichts", "'zwoelf' ist keine Zahl", "'2024-13-01' ist kein Tag"):
        assert word in said, said[:1500]
    assert not ENGLISH.search(said.split("Nichts ist gebucht")[1]), said


@pytest.mark.parametrize(("language", "text"), (("en", "6.766"), ("de", "6,766"), ("es", "6,766")))
def test_level_in_metres(made: Path, language: str, text: str) -> None:
    """A level in metres is said in millimetres by all its digits, in each language."""
    from django.utils import translation
    from plantbal_office.sentences import said

    locale = "en_GB" if language == "en" else language
    with pytest.raises(CausedFault) as caught:
        Reader(locale).level(cell_of(text), unit=cell_of("mm"), top=20_000)
    with translation.override(language):
        what, remedy = said(caught.value.what), said(caught.value.remedy)
    assert text in what and "6766 mm" in remedy and "7000" not in remedy
    assert language == "en" or not ENGLISH.search(what + remedy)


OPTION = re.compile(r"--[a-z]|plantbal-desk")


def test_no_options() -> None:
    """What names a command or its option has another form at the desk, and none of these does."""
    remedies = (*CellRemedy, *OptionRemedy, *LintRemedy, *BookRemedy, *GateRemedy)
    named = {each for each in remedies if OPTION.search(str(each.value))}
    assert named <= set(AT_DESK)
    assert not [text for text in AT_DESK.values() if OPTION.search(text)]


@pytest.mark.parametrize("language", ("en", "de", "es"))
def test_faults_without_options(site: Site, language: str) -> None:
    """A column too many, a word for nothing, another's decimal mark: what to do is what the desk offers."""
    spoken(site, language)
    text = 'day,FI-302,FI-999,Summe\n2024-05-01,n.v.,1,3\n2024-05-02,"11,5",2,4\n03/04/05,1,2,5\n'
    file = io.BytesIO(text.encode())
    file.name = "readings.csv"
    data = {**site.fields("enter/"), "locale": "en_GB", "workbook": [file]}
    answer = site.client.post(f"/p/{site.plant.slug}/enter/", data, follow=True)
    assert answer.content.count(b'class="wrong"') >= 3
    assert not OPTION.search(text_of(answer)), text_of(answer)


# What a sheet may have, by the names that the workbook's own columns have for it.
CHOICES = re.compile(r"<option(?: selected)?>[^<]*</option>")


@pytest.mark.parametrize("language", ("de", "es"))
def test_mapping(site: Site, language: str) -> None:
    """Each guess, what speaks for it, and each question of a workbook's mapping are in the language."""
    spoken(site, language)
    own = sorted((TOP / "examples" / "own_workbook").glob("*.csv"))
    files = [io.BytesIO(each.read_bytes()) for each in own]
    for file, each in zip(files, own):
        file.name = each.name
    data = {**site.fields("enter/"), "locale": "", "workbook": files, "called": "own"}
    answer = site.client.post(f"/p/{site.plant.slug}/enter/", data, follow=True)
    assert "/mapping" in answer.redirect_chain[-1][0]
    assert answer.content.count(b'class="sheetform"') == len(own)
    answer.content = CHOICES.sub("", answer.content.decode()).encode()
    found = ENGLISH.findall(text_of(answer).replace(str(site.book), ""))
    assert not found, (found, text_of(answer))


def test_refusal(site: Site) -> None:
    """What the grid's judge says of a cell is German, with figures as Germans write them."""
    spoken(site, "de")
    from plantbal.sentence import Day, Figure, Sentence
    from plantbal_office.sentences import said

    from django.utils.translation import override

    form = "{name} is estimated on {days}, {count:,} days: {amount} ± {error}"
    words: dict[str, object] = {"name": "NAPHTHA", "days": Day("2024-05-03"), "count": 1200}
    with override("de"):
        text = said(Sentence(form, amount=Figure("12,188.5 t"), error=Figure("0.2 t"), **words))
    assert text == "NAPHTHA ist am 03.05.2024 geschätzt, 1.200 Tage: 12.188,5 t ± 0,2 t"
