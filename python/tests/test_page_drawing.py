"""The drawing of the month's statement, and the colours of its style sheet."""

from __future__ import annotations

import re

import pytest
from conftest import TOP, example, text_of
from hypothesis import given
from hypothesis import strategies as some
from pages import read
from test_page import QUICK, SAMPLES, cells, page_of

from plantbal.model.topology import Arc
from plantbal.page.command import page
from plantbal.page.drawing import MOST, Draftsman, width_of
from plantbal.page.layout import near
from plantbal.page.statement import StreamLine
from plantbal.report import picture
from plantbal.report.parsing import parse_rows


def test_width_by_tonnes() -> None:
    made = page_of(*SAMPLES["tanks"])
    widths = dict(re.findall(r'data-arrow="([^"]*)" style="--w:([0-9.]*)px"', made))
    assert widths["CHARGE"] == "9.0" and widths["SLOP"] == "1.2"
    assert float(widths["STEAM"]) < float(widths["DIESEL"]) < float(widths["TANKER"])
    line = StreamLine("A", "env", "U", "redundant", flow=-50)
    assert width_of(line, 100) == pytest.approx(5.1)


def test_no_arrow_crosses_a_name() -> None:
    """The names of all arrows stand above the arrows and the units."""
    drawn = page_of(*SAMPLES["tanks"]).split("<svg ")[1].split("</svg>")[0]
    names = re.findall(r'<g id="p0-label-([^"]*)"', drawn)
    assert sorted(names) == sorted(re.findall(r'<g id="p0-stream-([^"]*)"', drawn)) and names
    assert drawn.index("p0-label-") > max(drawn.rindex("p0-stream-"), drawn.rindex("p0-node-"))


def test_legend() -> None:
    said = read(page_of(*SAMPLES["tanks"])).text
    assert "● redundant: measured, and checked by the other meters" in said
    assert "Width grows with tonnes: the widest arrow is 9,905.463 t" in said


def test_layout_is_shared() -> None:
    """Three months of one plant are laid out once."""
    made = page_of(*SAMPLES["periods"])
    places = re.findall(r'<text x="([0-9.]+)" y="[0-9.]+">(?:[●○△?!]|!!) TAILS', made)
    assert len(places) == 3 and len(set(places)) == 1


def test_no_time_for_a_layout(monkeypatch: pytest.MonkeyPatch) -> None:
    """The page comes without the drawing, and says so."""
    rows = parse_rows("x", text_of(example("refinery_day.out.csv")))
    made = page(rows, seconds=0)
    read(made)
    assert "Without a drawing: the layout of the drawing took more than" in made
    assert cells(made, "KEROSENE")[6] == "1,180.681" and '<svg class="plant"' not in made
    monkeypatch.setenv("PATH", "/nowhere")
    assert "Without a drawing: there is no `dot`: install graphviz." in page(rows)


def ring(count: int) -> list[StreamLine]:
    """The streams of a ring of units."""
    names = [f"u{number}" for number in range(count)]
    ends = zip(names, names[1:] + names[:1])
    return [StreamLine(f"s{n}", a, b, "redundant", 5, 4, 5) for n, (a, b) in enumerate(ends)]


def test_large_plants_are_drawn_near_a_stream() -> None:
    drawn = Draftsman([ring(MOST)]).draw(ring(MOST))
    assert (drawn.chosen, len(drawn.arrows)) == ("", MOST)
    drawn = Draftsman([ring(MOST + 1)]).draw(ring(MOST + 1), "s10")
    assert drawn.chosen == "s10"
    assert sorted(arrow.line.name for arrow in drawn.arrows) == "s10 s11 s12 s8 s9".split()


@QUICK
@given(some.lists(some.tuples(some.integers(0, 12), some.integers(0, 12)), min_size=1))
def test_near(ends: list[tuple[int, int]]) -> None:
    """What is drawn near a stream touches it, or touches what touches it."""
    name = {number: f"u{number}" if number else "env" for number in range(13)}
    arcs = [Arc(f"s{n}", name[a], name[b]) for n, (a, b) in enumerate(ends) if a != b]
    arcs += [Arc("u1", "u1", "env")]
    found = near(arcs, arcs[0].name, 1000)
    assert arcs[0] in found
    one = {arcs[0].from_, arcs[0].to} - {"env"}
    two = {end for arc in arcs if {arc.from_, arc.to} & one for end in (arc.from_, arc.to)} - {
        "env"
    }
    for arc in found:
        assert {arc.from_, arc.to} & two or arc.name == arc.from_


# ---- colours


def colours() -> dict[str, str]:
    """The colours of the style sheet, by their names."""
    style = (TOP / "python/plantbal/page/templates/style.css").read_text(encoding="utf-8")
    root, rest = style.split("}", 1)
    assert not re.findall("#[0-9a-f]{3,8}\\b|rgb", rest), "a colour has a name in :root"
    return dict(re.findall(r"--([a-z-]+): (#[0-9a-f]{6});", root))


def luminance(colour: str) -> float:
    """The relative luminance of a colour, by the definition of the WCAG."""
    parts = [int(colour[place : place + 2], 16) / 255 for place in (1, 3, 5)]
    red, green, blue = (c / 12.92 if c <= 0.04045 else ((c + 0.055) / 1.055) ** 2.4 for c in parts)
    return 0.2126 * red + 0.7152 * green + 0.0722 * blue


def contrast(one: str, other: str) -> float:
    """The contrast of two colours: 1 to 21."""
    dark, light = sorted((luminance(one), luminance(other)))
    return (light + 0.05) / (dark + 0.05)


def test_contrast() -> None:
    """Each colour of texts stands on each ground with at least 4.5 to 1."""
    assert contrast("#000000", "#ffffff") == pytest.approx(21)
    found = colours()
    inks = {name: colour for name, colour in found.items() if name.startswith("ink")}
    grounds = {n: c for n, c in found.items() if n.startswith(("paper", "fill", "side"))}
    assert len(inks) >= 10 and len(grounds) >= 6
    low = {
        (ink, ground): round(contrast(inks[ink], grounds[ground]), 2)
        for ink in inks
        for ground in grounds
        if contrast(inks[ink], grounds[ground]) < 4.5
    }
    assert low == {}


def test_contrast_of_drawings() -> None:
    """So do the colours of `plantbal-desk draw`, on white and on the units of a marked side."""
    for colour in [*picture.COLOURS.values(), picture.SUSPECT]:
        assert min(contrast(colour, ground) for ground in ("#ffffff", "#fff0b0")) >= 4.5
