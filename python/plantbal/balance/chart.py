"""Draws grades as they were assayed and reconciled, and ± before and after a change of meters."""

from __future__ import annotations

import math
from collections.abc import Sequence
from pathlib import Path
from typing import Any

from plantbal.balance.grades import Grade, Grades, unit_of_grades
from plantbal.balance.worth import SpreadChange
from plantbal.report.chart import BAND, DARK, INK, begin_drawing, save

# Rows of a panel take so many inches, and what is around them.
_ROW, _AROUND, _WIDE = 0.26, 1.1, 9.0


def write_grades_chart(grades: Grades, out: Path, form: str) -> None:
    """Write the chart: a panel a component, a row a stream.

    Parameters
    ----------
    grades : Grades
        What is drawn.
    out : Path
        Where it goes.
    form : {'svg', 'png', 'pdf'}
        Its form.
    """
    begin_drawing(form)
    from matplotlib import pyplot

    rows = {
        component: [row for row in some if row.value == row.value or row.assay == row.assay]
        for component, some in grades.by_component.items()
    }
    heights = [_ROW * max(1, len(some)) + _AROUND for some in rows.values()]
    figure, panels = pyplot.subplots(
        len(rows),
        1,
        figsize=(_WIDE, sum(heights)),
        height_ratios=heights,
        constrained_layout=True,
        squeeze=False,
    )
    for axes, (component, some) in zip(panels[:, 0], rows.items()):
        _panel(axes, component, some)
    save(figure, out, form)


def _panel(axes: Any, component: str, rows: list[Grade]) -> None:
    """Draw the grades of a component, on a logarithmic scale: tailings stand beside concentrates."""
    unit, scale = unit_of_grades(rows)
    names = [f"gain of {row.stream}" if row.is_gain else row.stream for row in rows]
    positive = [row.value * scale for row in rows if row.value > 0]
    positive += [row.assay * scale for row in rows if row.assay > 0]
    least = min(positive, default=1.0) / 2
    for place, row in enumerate(rows):
        low, high = (max(least, (row.value + way * row.sd) * scale) for way in (-2, 2))
        if row.value == row.value:
            axes.plot([low, high], [place, place], color=BAND, linewidth=7, solid_capstyle="butt")
            axes.plot(max(least, row.value * scale), place, "|", color=INK, markersize=9)
        if row.assay == row.assay:
            bar = 2 * row.assay_sd * scale
            axes.errorbar(
                row.assay * scale,
                place,
                xerr=min(bar, row.assay * scale - least / 2),
                fmt="o",
                markersize=4.5,
                markerfacecolor="white",
                color=DARK,
                linewidth=0.8,
            )
    axes.set_xscale("log")
    axes.set_yticks(range(len(rows)), names)
    axes.set_ylim(len(rows) - 0.4, -0.6)
    axes.set_xlabel(f"{component}, {unit}: assayed (circle) and reconciled (line), each with ±2 sd")
    axes.tick_params(labelsize="small")
    axes.grid(axis="x", which="both", linewidth=0.3)
    for side in ("top", "right"):
        axes.spines[side].set_visible(False)


def write_worth(changes: Sequence[SpreadChange], out: Path, form: str) -> None:
    """Write the chart of the ± of all flows before and after a change.

    Parameters
    ----------
    changes : sequence of SpreadChange
        The flows' ± before and after; those of grades aren't drawn.
    out : Path
        Where it goes.
    form : {'svg', 'png', 'pdf'}
        Its form.
    """
    begin_drawing(form)
    from matplotlib import pyplot

    rows = [each for each in changes if not each.component]
    known = [n for each in rows for n in (each.before, each.after) if 0 < n < math.inf]
    most = max(known, default=1.0) * 3
    figure, axes = pyplot.subplots(
        figsize=(_WIDE, _ROW * len(rows) + _AROUND), constrained_layout=True
    )
    for place, each in enumerate(rows):
        ends = [min(max(n, min(known, default=1.0) / 3), most) for n in (each.before, each.after)]
        axes.plot(ends, [place, place], color=BAND, linewidth=5, solid_capstyle="butt")
        axes.plot(ends[0], place, "o", markerfacecolor="white", color=DARK, markersize=5)
        axes.plot(ends[1], place, "o", color=INK, markersize=5)
        for number, end in zip((each.before, each.after), ends):
            if number == math.inf:
                axes.annotate("unknown", (end, place), (6, -3), textcoords="offset points", size=7)
    axes.set_xscale("log")
    axes.set_yticks(range(len(rows)), [each.stream for each in rows])
    axes.set_ylim(len(rows) - 0.4, -0.6)
    axes.set_xlabel("± of the flow, t: now (circle) and then (dot)")
    axes.tick_params(labelsize="small")
    axes.grid(axis="x", which="both", linewidth=0.3)
    for side in ("top", "right"):
        axes.spines[side].set_visible(False)
    save(figure, out, form)
