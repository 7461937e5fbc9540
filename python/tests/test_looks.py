"""How the month's statement looks: by its texts and boxes in any font, and by pictures besides.

The references are in the folder `pictures`: a page's look as text, which holds on every machine,
and its picture, which is compared where browser and font are those that it was made with. With
PLANTBAL_PICTURES=write both are made anew: look at the pictures, and at what changed in the texts,
before they are kept.
"""

from __future__ import annotations

import hashlib
import os
import subprocess
import warnings
from collections.abc import Sequence
from pathlib import Path

import pytest
from conftest import TOP, text_of
from looks import Look, asked, differences, faults, in_columns
from pages import ask_all, difference, kept_form, paper_shot, shot
from PIL import Image
from test_page import page_of
from test_page_drawing import contrast

from plantbal.page.paper import browser

PICTURES = TOP / "python/tests/pictures"
MADE_WITH = PICTURES / "made_with.txt"
SHOWN = TOP / "docs/pictures/concentrator_page.png"
WRITE = os.environ.get("PLANTBAL_PICTURES") == "write"
REFINERY = ("refinery_day.out.csv", "refinery_day.csv")
CONCENTRATOR = ("concentrator/tested.out.csv", "concentrator/session.csv")
# Each page with its width in pixels; 0 is paper.
LOOKS: dict[str, tuple[tuple[str, str], int]] = {
    "refinery_1280": (REFINERY, 1280),
    "refinery_800": (REFINERY, 800),
    "refinery_390": (REFINERY, 390),
    "refinery_a4": (REFINERY, 0),
    "concentrator_1280": (CONCENTRATOR, 1280),
    "concentrator_a4": (CONCENTRATOR, 0),
}
# Fonts of other widths; what isn't installed is another font of the browser's choice.
FONTS = ("", "DejaVu Sans", "DejaVu Sans Condensed", "DejaVu Serif", "DejaVu Sans Mono")
HIDDEN = "<style>td.booked { visibility: hidden }</style></head>"
# The part of a picture that may differ; a column that isn't there is more than this.
MOST_APART = 0.01


def looks_of(
    font: str, folder: Path, names: Sequence[str] = tuple(LOOKS), end: str = "</head>"
) -> dict[str, Look]:
    """How pages look in a font, with something more at the end of their heads."""
    made = {files: page_of(*files).replace("</head>", end) for files in (REFINERY, CONCENTRATOR)}
    questions = [asked(made[LOOKS[name][0]], LOOKS[name][1], font) for name in names]
    return {name: Look.of(answer) for name, answer in zip(names, ask_all(questions, folder))}


def kept(name: str) -> Look:
    """The reference of a page."""
    return Look.read(text_of(PICTURES / f"{name}.txt"))


@pytest.mark.skipif(not WRITE, reason="the references aren't to be made anew")
def test_references_made_anew(tmp_path: Path) -> None:
    for name, look in looks_of("DejaVu Sans", tmp_path).items():
        (PICTURES / f"{name}.txt").write_text(look.text(), encoding="utf-8")


@pytest.mark.parametrize("font", FONTS, ids=lambda font: font or "its own")
def test_looks(font: str, tmp_path: Path) -> None:
    """In each font the texts, their sizes and colours are those of the reference, and near their
    places."""
    for name, look in looks_of(font, tmp_path).items():
        assert not faults(look, LOOKS[name][1]), name
        assert not differences(look, kept(name)), name


@pytest.mark.parametrize("name", LOOKS)
def test_references(name: str) -> None:
    """In the references each text stands out from its ground, and columns stand side by side."""
    look = kept(name)
    low = [t.line() for t in look.texts if t.text and contrast(t.ink, t.ground) < 4.5]
    assert not low and look.drawn
    cells = [t for t in look.texts if t.kind.startswith("th")]
    if LOOKS[name][1] in (0, 1280):
        heads = [t for t in cells if t.text]
        assert heads and in_columns(heads[:3])
    else:  # a row is a card
        assert not cells


def test_a_column_that_is_not_there_shows(tmp_path: Path) -> None:
    """A hidden column, a smaller letter and another colour are seen, in whatever font."""
    names = ("refinery_1280", "refinery_390", "refinery_a4")
    changes = {
        "gone: ": HIDDEN,
        "new: ": "<style>td.n { font-size: 11px }</style></head>",
        "elsewhere: ": "<style>table.streams { width: 60% }</style></head>",
    }
    for said, end in changes.items():
        for name, look in looks_of("", tmp_path, names, end).items():
            found = differences(look, kept(name))
            if said != "elsewhere: " or name == "refinery_1280":
                assert any(each.startswith(said) for each in found), (said, name)


# ---- pictures, as a second look


def surroundings() -> str:
    """The browser, the font and the renderer of paper, by which a picture is as it is."""
    version = subprocess.run([browser(), "--version"], capture_output=True, text=True, check=True)
    match = ["fc-match", "--format", "%{file}", "DejaVu Sans"]
    font = Path(subprocess.run(match, capture_output=True, text=True, check=True).stdout)
    paper = subprocess.run(["pdftoppm", "-v"], capture_output=True, text=True, check=True).stderr
    sum_ = hashlib.sha256(font.read_bytes()).hexdigest()
    return f"{version.stdout.strip()}\n{font.name} {sum_}\n{paper.splitlines()[0]}\n"


def apart(picture: Image.Image, name: str) -> float:
    """Return which part of a picture differs from the one that is kept; all of it if the sizes
    do."""
    small, reference = kept_form(picture), Image.open(PICTURES / f"{name}.png").convert("RGB")
    if small.width != reference.width or abs(small.height / reference.height - 1) > 0.02:
        return 1.0
    box = (0, 0, small.width, min(small.height, reference.height))
    return difference(small.crop(box), reference.crop(box))


def judge(part: float, name: str) -> None:
    """Fail if a picture differs; with another browser or font than it was made with, only say
    so."""
    if surroundings() != text_of(MADE_WITH):
        warnings.warn(f"{name}: {part:.1%} differs, with another browser or font", stacklevel=2)
    else:
        assert part < MOST_APART, f"{part:.1%} of {name} differs"


@pytest.mark.parametrize("name", LOOKS)
def test_pictures(name: str, tmp_path: Path) -> None:
    """The page looks as in the picture that is kept, of nearly the same size."""
    files, width = LOOKS[name]
    made = page_of(*files)
    picture = shot(made, tmp_path, width, 5000) if width else paper_shot(made, tmp_path)
    if WRITE:
        small = kept_form(picture).quantize(96, Image.Quantize.FASTOCTREE)
        small.save(PICTURES / f"{name}.png", optimize=True)
        MADE_WITH.write_text(surroundings(), encoding="utf-8")
        if name == "concentrator_1280":
            SHOWN.write_bytes((PICTURES / f"{name}.png").read_bytes())
    judge(apart(picture, name), name)


def test_picture_of_the_guide() -> None:
    assert SHOWN.read_bytes() == (PICTURES / "concentrator_1280.png").read_bytes()


def test_a_column_that_is_not_there_shows_in_pictures(tmp_path: Path) -> None:
    """The pictures are compared closely enough to see that a column isn't there."""
    made = page_of(*REFINERY).replace("</head>", HIDDEN)
    assert apart(shot(made, tmp_path, 1280, 5000), "refinery_1280") > MOST_APART
