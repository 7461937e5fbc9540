"""How a page looks by what a browser makes of it: texts, sizes, colours and boxes, whatever the
fonts."""

from __future__ import annotations

from collections.abc import Sequence
from dataclasses import dataclass
from pathlib import Path
from typing import Any, cast

from pages import PAPER, Asked, on_paper

import plantbal

SCRIPT = Path(__file__).with_name("looks.js").read_text(encoding="utf-8")
# By how many parts in a hundred of the page's width a box may stand elsewhere than in the
# reference: a column is as wide as its texts are, and that depends on the font.
MOST_ASIDE = 9.0


@dataclass(frozen=True)
class Seen:
    """A text as a reader sees it.

    Attributes
    ----------
    left, right : float
        Where its box begins and ends, in parts of a hundred of the page's width.
    size : float
        The size of its letters, in pixels.
    weight : str
        Their weight: 400 is plain, 700 is bold.
    ink, ground : str
        The colours of the text, and of what it stands on.
    kind : str
        Its element with its classes.
    text : str
        What it says.
    """

    left: float
    right: float
    size: float
    weight: str
    ink: str
    ground: str
    kind: str
    text: str

    @property
    def style(self) -> tuple[object, ...]:
        """All but its place: no font changes it."""
        return (self.kind, self.size, self.weight, self.ink, self.ground, self.text)

    def aside(self, other: Seen) -> float:
        """Return how far its box stands from where another one does."""
        return max(abs(self.left - other.left), abs(self.right - other.right))

    def line(self) -> str:
        """Return it as a line of a reference."""
        fields = (self.left, self.right, self.size, self.weight, self.ink, self.ground)
        return "\t".join(map(str, (*fields, self.kind, self.text)))

    @classmethod
    def read(cls, line: str) -> Seen:
        """Return it by its line of a reference."""
        left, right, size, *rest = line.split("\t")
        return cls(float(left), float(right), float(size), *rest)


@dataclass(frozen=True)
class Look:
    """A page in a browser of some width.

    Attributes
    ----------
    texts : list of Seen
        Its texts, from above.
    on_one_another, beyond : list of str
        Texts of cells that lie on another one, and texts that reach beyond their boxes.
    drawn : int
        How many arrows its drawings have.
    """

    texts: list[Seen]
    on_one_another: list[str]
    beyond: list[str]
    drawn: int

    @classmethod
    def of(cls, answer: object) -> Look:
        """Return the look that a browser answers with."""
        said = cast(dict[str, Any], answer)
        texts = [
            Seen(
                *each["sides"],
                *(each[name] for name in ("size", "weight", "ink", "ground", "kind")),
                each["text"].replace(plantbal.__version__, "VERSION"),
            )
            for each in said["found"]
        ]
        return cls(texts, said["onOneAnother"], said["beyond"], said["drawn"])

    def text(self) -> str:
        """Return it as it is kept."""
        lines = [f"{self.drawn} arrows", *(text.line() for text in self.texts)]
        return "".join(f"{line}\n" for line in lines)

    @classmethod
    def read(cls, text: str) -> Look:
        """Return the look of a reference."""
        head, *lines = text.splitlines()
        return cls([Seen.read(line) for line in lines], [], [], int(head.split()[0]))


def asked(page: str, width: int, font: str = "") -> Asked:
    """Return the question how a page looks: at a width, or on paper if this is 0, in a font or its
    own."""
    style = f'body, svg text {{ font-family: "{font}" !important }}' if font else ""
    if not width:
        style += " body { padding: 0 !important }"
        return Asked(on_paper(page), f"{SCRIPT}({PAPER})", PAPER, style)
    return Asked(page, f"{SCRIPT}({width})", width, style)


def differences(look: Look, kept: Look) -> list[str]:
    """Return in what a look differs from a reference, a sentence each."""
    said = []
    if look.drawn != kept.drawn:
        said.append(f"{look.drawn} arrows are drawn, and {kept.drawn} were")
    found, wanted = [t.style for t in look.texts], [t.style for t in kept.texts]
    said += [f"new: {text.line()}" for text in look.texts if text.style not in wanted]
    said += [f"gone: {text.line()}" for text in kept.texts if text.style not in found]
    if said or found != wanted:
        return said or ["the texts are in another order"]
    for text, before in zip(look.texts, kept.texts):
        if text.aside(before) > MOST_ASIDE:
            said.append(f"elsewhere: {text.line()}: it was at {before.left} to {before.right}")
    return said


def faults(look: Look, width: int) -> list[str]:
    """Return what no page may be, a sentence each: cut off, on one another, hard to read."""
    said = [f"on another text: {text}" for text in look.on_one_another]
    said += [f"beyond its box: {text}" for text in look.beyond]
    said += [f"beyond the page: {text.line()}" for text in look.texts if text.right > 100.2]
    least = 11.0 if width else 8.0
    return said + [f"too small: {t.line()}" for t in look.texts if t.text and t.size < least]


def in_columns(texts: Sequence[Seen]) -> bool:
    """Say whether texts stand side by side, each to the right of the one before."""
    return all(one.right <= other.left + 0.2 for one, other in zip(texts, texts[1:]))
