"""What the tests of pages share: well-formed HTML, a browser, and pictures."""

from __future__ import annotations

import json
import re
import subprocess
from collections.abc import Sequence
from dataclasses import dataclass, field
from html.parser import HTMLParser
from pathlib import Path
from urllib.parse import unquote

from PIL import Image, ImageChops

from plantbal.page.paper import in_browser, print_pdf

VOID = {"meta", "br", "input", "wbr", "path", "polygon", "rect"}
INLINE = {"wbr", "b", "small", "span", "mark", "a"}
# One font for all pictures, so that they don't hang on which others are installed.
FONT = '<style>body, svg text { font-family: "DejaVu Sans" !important }</style></head>'
# Blocks whose colours are so far apart, of 255, differ.
FAR = 16
PAPER = 703  # the pixels of an A4 page between its margins


class Wrong(Exception):
    """HTML that isn't well formed."""


@dataclass
class Html(HTMLParser):
    """A page that was read: each element closed, each id once."""

    ids: set[str] = field(default_factory=set)
    links: list[str] = field(default_factory=list)
    words: list[str] = field(default_factory=list)
    open: list[str] = field(default_factory=list)

    def __post_init__(self) -> None:
        super().__init__(convert_charrefs=True)

    def handle_starttag(self, tag: str, attrs: list[tuple[str, str | None]]) -> None:
        """Take an element that opens."""
        given = dict(attrs)
        name = given.get("id")
        if name is not None:
            if name in self.ids:
                raise Wrong(f"the id {name} appears twice")
            self.ids.add(name)
        self.links += [given[key] or "" for key in ("src", "href") if key in given]
        if tag not in INLINE:
            self.words.append(" ")
        if tag not in VOID:
            self.open.append(tag)

    def handle_startendtag(self, tag: str, attrs: list[tuple[str, str | None]]) -> None:
        """Take an element that is empty."""
        self.handle_starttag(tag, attrs)
        if tag not in VOID:
            self.open.pop()

    def handle_endtag(self, tag: str) -> None:
        """Take the end of an element."""
        if not self.open or self.open.pop() != tag:
            raise Wrong(f"{tag} is closed at {self.getpos()}, and isn't open")
        if tag not in INLINE:
            self.words.append(" ")

    def handle_data(self, data: str) -> None:
        """Take a text."""
        if not {"script", "style"} & set(self.open):
            self.words.append(data)

    @property
    def text(self) -> str:
        """What a reader sees, with one space between words."""
        return " ".join("".join(self.words).split())


def read(page: str) -> Html:
    """Read a page, or say what isn't well formed."""
    found = Html()
    found.feed(page)
    found.close()
    if found.open:
        raise Wrong(f"{found.open} aren't closed")
    return found


@dataclass(frozen=True)
class Asked:
    """A page that is asked in a browser of some width.

    Attributes
    ----------
    page : str
        The page.
    question : str
        An expression of JavaScript.
    width : int
        The width of the window.
    style : str
        Further rules of style.
    """

    page: str
    question: str
    width: int = 1280
    style: str = ""


def ask_all(asked: Sequence[Asked], folder: Path) -> list[object]:
    """Ask some pages at once, and return their answers."""
    frames = []
    for number, each in enumerate(asked):
        told = f"parent.postMessage(JSON.stringify([{number}, {each.question}]), '*')"
        inner = each.page.replace("</head>", f"<style>{each.style}</style></head>")
        inner = inner.replace("</body>", f"<script>{told}</script></body>")
        (folder / f"inner{number}.html").write_text(inner, encoding="utf-8")
        style = f"width:{each.width}px;height:900px;border:0"
        frames.append(f"<iframe src=inner{number}.html style='{style}'></iframe>")
    outer = folder / "asked.html"
    outer.write_text(
        "<!DOCTYPE html><body><pre id=said></pre><script>"
        "addEventListener('message', e => { said.textContent += encodeURIComponent(e.data) + ' ' })"
        f"</script>{''.join(frames)}",
        encoding="utf-8",
    )
    said = in_browser(outer, "--dump-dom", "--virtual-time-budget=20000").decode()
    found = re.search(r'<pre id="said">([^<]*)</pre>', said)
    assert found is not None, "the pages don't answer"
    answers = dict(json.loads(unquote(answer)) for answer in found[1].split())
    assert len(answers) == len(asked), f"only the pages {sorted(answers)} answer"
    return [answers[number] for number in range(len(asked))]


def ask(page: str, question: str, folder: Path) -> object:
    """Ask a page in a browser: the question is an expression of JavaScript."""
    return ask_all([Asked(page, question)], folder)[0]


def on_paper(page: str) -> str:
    """Return a page as it is printed, to be measured on a screen."""
    return page.replace("@media print", "@media all").replace("@media screen", "@media not all")


def shot(page: str, folder: Path, width: int, height: int) -> Image.Image:
    """Return the picture of a page in a browser of some width, without the white below it."""
    (folder / "inner.html").write_text(page.replace("</head>", FONT), encoding="utf-8")
    outer, made = folder / "outer.html", folder / "shot.png"
    outer.write_text(
        "<!DOCTYPE html><body style='margin:0'><iframe src=inner.html "
        f"style='border:0;width:{width}px;height:{height}px'></iframe>",
        encoding="utf-8",
    )
    in_browser(outer, f"--window-size={max(width, 600)},{height}", f"--screenshot={made}")
    return trimmed(Image.open(made).convert("RGB").crop((0, 0, width, height)))


def paper_shot(page: str, folder: Path) -> Image.Image:
    """Return the picture of the first page of A4 that a page is printed on."""
    printed = folder / "page.pdf"
    print_pdf(page.replace("</head>", FONT), printed)
    words = ["pdftoppm", "-r", "110", "-f", "1", "-l", "1", "-png", "-singlefile"]
    subprocess.run([*words, printed, folder / "paper"], check=True)
    return Image.open(folder / "paper.png").convert("RGB")


def trimmed(picture: Image.Image) -> Image.Image:
    """Return a picture without the white below it."""
    white = Image.new("RGB", picture.size, "white")
    box = ImageChops.difference(picture, white).getbbox()
    assert box is not None, "the picture is white"
    return picture.crop((0, 0, picture.width, min(picture.height, box[3] + 10)))


def kept_form(picture: Image.Image) -> Image.Image:
    """Return a picture as it is kept: of half the size."""
    return picture.resize((picture.width // 2, picture.height // 2), Image.Resampling.LANCZOS)


def difference(one: Image.Image, other: Image.Image) -> float:
    """Return which part of two pictures differs: of blocks of 8 pixels, each taken as its mean."""
    size = (one.width // 8, one.height // 8)
    small = [picture.convert("RGB").resize(size, Image.Resampling.BOX) for picture in (one, other)]
    bands = ImageChops.difference(*small).split()
    greatest = ImageChops.lighter(ImageChops.lighter(bands[0], bands[1]), bands[2])
    return sum(greatest.histogram()[FAR:]) / (size[0] * size[1])
