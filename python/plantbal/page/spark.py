"""The spark line of a period: how far each meter was adjusted, side by side."""

from __future__ import annotations

from collections.abc import Callable
from typing import TYPE_CHECKING, Any

from plantbal.sentence import Sentence

if TYPE_CHECKING:
    from plantbal.page.statement import Statement

WIDTH, HEIGHT = 150.0, 26.0
# An adjustment of this many standard deviations reaches the edge.
MOST = 5.0
FAR = 2.0
MOST_BARS = 75


def spark(statement: Statement, said: Callable[[str], Any] = str) -> Any:
    """Return the adjustments of a period's meters in standard deviations as a small SVG.

    Each meter is a bar, up or down, in the order of the report; beyond two it is red. Of more than
    75 meters those that were adjusted most are shown.

    Parameters
    ----------
    statement : Statement
        The statement of the period.
    said : callable
        Says a sentence in the language of the page.
    """
    from markupsafe import Markup, escape

    last = statement.report.last
    moved = [(line.name, line.deviations) for line in last.lines] if last else []
    bars = [(name, size) for name, size in moved if size is not None]
    if not bars:
        return ""
    if len(bars) > MOST_BARS:
        least = sorted((abs(size) for _, size in bars), reverse=True)[MOST_BARS - 1]
        bars = [(name, size) for name, size in bars if abs(size) >= least][:MOST_BARS]
    name, size = max(bars, key=lambda bar: abs(bar[1]))
    form = "the greatest is {name}, {size:+.2f}"
    label = escape(said(Sentence(form, name=name, size=size)))
    middle, step = HEIGHT / 2, WIDTH / (len(bars) + 1)
    scale = (middle - 1) / MOST
    paths = {"": "", "far": ""}
    for place, (_, size) in enumerate(bars, 1):
        kind = "far" if abs(size) > FAR else ""
        reach = max(-MOST, min(MOST, size)) * scale
        paths[kind] += f"M{place * step:.1f},{middle:g}v{-reach:.1f}"
    two = f"M0,{middle - FAR * scale:.1f}H{WIDTH:g}M0,{middle + FAR * scale:.1f}H{WIDTH:g}"
    wide = f'style="stroke-width:{min(8, 0.7 * step):.1f}"'
    drawn = "".join(
        f'<path class="{kind}" {wide} d="{path}"/>' for kind, path in paths.items() if path
    )
    return Markup(
        f'<svg class="spark" viewBox="0 0 {WIDTH:g} {HEIGHT:g}" role="img" aria-label="{label}">'
        f'<title>{label}</title><path class="two" d="{two}"/><path class="axis" '
        f'd="M0,{middle:g}H{WIDTH:g}"/>{drawn}</svg>'
    )
