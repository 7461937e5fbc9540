"""The month's statement in a browser: choices, widths, paper. Without chromium these fail."""

from __future__ import annotations

import re
from collections.abc import Callable
from pathlib import Path

import pytest
from conftest import Desk, example, text_of
from pages import PAPER, Asked, ask, ask_all, on_paper
from test_page import page_of

from plantbal.page.command import page
from plantbal.report.blocks import Values
from plantbal.report.parsing import parse_rows

REFINERY = ("refinery_day.out.csv", "refinery_day.csv")
CONCENTRATOR = ("concentrator/tested.out.csv", "concentrator/session.csv")

# ---- choices

MARKED = (
    "[...document.querySelectorAll('g.part, g.side')].map(g => g.id + ' ' + g.className.baseVal)"
)


def marked(found: object) -> str:
    """The marked parts of a drawing, a line each, without the classes of colours."""
    assert isinstance(found, list)
    kinds = r" (redundant|nonredundant|observable|unobservable|tank|chosen)(?= |$)"
    return "".join(f"{re.sub(kinds, '', each)}\n" for each in sorted(found))


@pytest.mark.parametrize(
    "click",
    [
        "document.querySelector('tr[data-stream=KEROSENE]').click()",
        "document.querySelector('[data-arrow=KEROSENE] path').dispatchEvent("
        "new MouseEvent('click', {bubbles: true}))",
    ],
    ids=["row", "arrow"],
)
def test_choice(click: str, tmp_path: Path) -> None:
    """A row and an arrow of kerosene mark the streams of its cut, the units of its side, and its row."""
    rows = "[...document.querySelectorAll('tr.chosen, tr.member')].map(row => row.dataset.stream)"
    says = "document.querySelector('.certificate').textContent"
    found = ask(page_of(*REFINERY), f"({click}, [{MARKED}, {rows}, {says}])", tmp_path)
    assert isinstance(found, list)
    assert marked(found[0]) == text_of(example("refinery_day.marked"))
    assert len(found[1]) == 11 and {"KEROSENE", "TK_BITUMEN", "TRUCKS"} <= set(found[1])
    assert found[2].startswith("KEROSENE, redundant: cut round CDU VDU SPLITTER TK_BITUMEN: -TK_")


def test_escape(tmp_path: Path) -> None:
    """Esc takes the mark away."""
    keys = "document.dispatchEvent(new KeyboardEvent('keydown', {key: 'Escape'}))"
    click = "document.querySelector('tr[data-stream=KEROSENE]').click()"
    assert ask(page_of(*REFINERY), f"({click}, {keys}, {MARKED})", tmp_path) == []


def test_folded_period(tmp_path: Path) -> None:
    """A link of the index opens its period."""
    opened = "(location.hash = '#p0', unfold(), document.getElementById('p0').open)"
    assert ask(page_of(*CONCENTRATOR), opened, tmp_path) is True


def test_sorting(tmp_path: Path) -> None:
    """A head sorts: adjustments by their size, names as words."""
    click = "document.querySelectorAll('#p0 table.sortable th')[{}].click()"
    names = (
        "[...document.querySelectorAll('table.streams tbody tr')].map(row => row.dataset.stream)"
    )
    questions = (
        f"({click.format(5)}, {names})",
        f"({click.format(0)}, {click.format(0)}, {names})",
    )
    found = ask(page_of(*REFINERY), f"[{', '.join(questions)}]", tmp_path)
    assert isinstance(found, list)
    assert found[0][:3] == ["CHARGE", "KEROSENE", "DIESEL"]
    assert found[1][:3] == ["BITUMEN", "CHARGE", "DIESEL"]


def chain(count: int) -> list[Values]:
    """A report of a chain of units, with a branch to the outside at each."""
    rows = [f"report,p,0,{count + 1},{2 * count},10,5000", "node,env,0"]
    rows += [f"node,u{number},0" for number in range(count)]
    for number in range(count):
        end = f"u{number + 1}" if number + 1 < count else "env"
        for name, to in ((f"s{number}", end), (f"b{number}", "env")):
            rows.append(f"stream,{name},u{number},{to},5,4,nonredundant,5,1,9,1,9,cycle,,+{name}")
    rows += ["solved,1,converged,0,0,1,0,1", "end,p,0"]
    return parse_rows("chain", "\n".join(rows) + "\n")


def test_neighbourhood(tmp_path: Path) -> None:
    """In a large plant the choice of a row draws what lies within two steps of its stream."""
    made = page(chain(100))
    assert 'data-near="' in made
    click = "document.querySelector('tr[data-stream=s50]').click()"
    arrows = "[...document.querySelectorAll('svg.plant g.edge')].map(g => g.dataset.arrow).sort()"
    said = "document.querySelector('.near').textContent"
    told = "[...document.querySelectorAll('g.told')].map(g => g.id + ' ' + g.textContent)"
    found = ask(made, f"({click}, [{arrows}, {MARKED}, {said}, {told}])", tmp_path)
    assert found == [
        "b49 b50 b51 b52 s48 s49 s50 s51 s52".split(),
        ["p0-stream-s50 edge nonredundant part chosen"],
        "s50",
        ["p0-label-s50 0.000 t○ s50"],
    ]


def test_names_in_a_drawing_can_be_read(tmp_path: Path) -> None:
    """A drawing is scrolled rather than made too small, and to what is chosen."""
    size = "(svg => svg.getBoundingClientRect().width / svg.viewBox.baseVal.width)"
    svg, canvas = "document.querySelector('svg.plant')", "document.querySelector('.canvas')"
    click = "document.querySelector('tr[data-stream=TRUCKS]').click()"
    aside = f"{canvas}.scrollLeft"
    seen = (
        f"((box, frame) => box.left >= frame.left && box.right <= frame.right)("
        f"document.getElementById('p0-stream-TRUCKS').getBoundingClientRect(), "
        f"{canvas}.getBoundingClientRect())"
    )
    question = f"[{size}({svg}), {aside}, ({click}, {seen}), {aside} > 0]"
    found = ask_all([Asked(page_of(*REFINERY), question, 390)], tmp_path)[0]
    assert isinstance(found, list)
    assert found[0] > 0.8 and found[1:] == [0, True, True]


# ---- widths


def wide() -> list[Values]:
    """A report with the longest names and the greatest amounts, all of them suspects."""
    text = text_of(example("concentrator/tested.out.csv"))
    long = {
        "FILTERED": "FILTERED_WITHOUT.BREAKS-ABCDEFGH",
        "TAILS": "T" * 32,
        "GRINDING": "GRINDINGMILLWITHOUTANYSIGNINITXX",
        "FLOTATION": "FLOTATION-BANK-OF-CELLS-NUMBER-1",
    }
    for name, other in long.items():
        text = re.sub(rf"\b{name}\b", other, text)
    text = re.sub(
        r"(?<=,)(\d{10,12})(?=,)", lambda found: found[1] + "0" * (15 - len(found[1])), text
    )
    return parse_rows("wide", text)


WIDTHS = {"1280": (1280, False), "800": (800, False), "390": (390, False), "A4": (PAPER, True)}
SAMPLES: dict[str, Callable[[], str]] = {
    "refinery": lambda: page_of(*REFINERY),
    "concentrator": lambda: page_of(*CONCENTRATOR),
    "edits": lambda: page_of("month_end.out.csv", "month_end.csv"),
    "refused": lambda: page_of("badly_typed.out.csv", "badly_typed.csv"),
    "window": lambda: page_of("missed_dip.out.csv", "missed_dip.csv"),
    "component": lambda: page_of("flotation_copper.out.csv", "flotation_copper.csv"),
    "wide": lambda: page(wide()),
}


def fits(made: str, width: str) -> Asked:
    """The question which texts of a page reach beyond it, with all that is folded opened."""
    pixels, paper = WIDTHS[width]
    unfold = "document.querySelectorAll('details').forEach(each => { each.open = true })"
    beyond = (
        "[document.documentElement.scrollWidth, "
        "[...document.querySelectorAll('td, th, p, li, dd, pre, svg.spark, h1, h2')].filter(each =>"
        " !each.closest('.canvas') && getComputedStyle(each.closest('thead') || each).position !== "
        f"'absolute' && each.getBoundingClientRect().right > {pixels} + 1)"
        ".slice(0, 3).map(each => each.textContent)]"
    )
    style = "body { padding: 0 !important }" if paper else ""
    return Asked(on_paper(made) if paper else made, f"({unfold}, {beyond})", pixels, style)


def test_fits(tmp_path: Path) -> None:
    """Nothing reaches beyond the page on any width, and no column is cut on paper."""
    cases = [(name, width) for name in SAMPLES for width in WIDTHS]
    found = ask_all([fits(SAMPLES[name](), width) for name, width in cases], tmp_path)
    assert dict(zip(cases, found)) == {case: [WIDTHS[case[1]][0], []] for case in cases}


# ---- on paper


def test_pdf(say: Desk, tmp_path: Path) -> None:
    """The PDF has pages of A4, and nothing goes to standard output."""
    path = tmp_path / "may.pdf"
    found = say("page", "--pdf", path, "--session", example(REFINERY[1]), example(REFINERY[0]))
    assert (found.status, found.out) == (0, "")
    data = path.read_bytes()
    sizes = re.findall(rb"/MediaBox \[0 0 ([0-9.]+) ([0-9.]+)\]", data)
    assert data.startswith(b"%PDF") and len(sizes) == 2
    assert {(round(float(w)), round(float(h))) for w, h in sizes} == {(595, 842)}
