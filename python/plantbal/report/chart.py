"""Charts periods: flows and how good they are, adjustments, the statistic."""

from __future__ import annotations

import argparse
import sys
from collections.abc import Callable
from pathlib import Path
from typing import Any, BinaryIO

from plantbal.faults import Fault, ToolMissing, WordsFault
from plantbal.files import replacing
from plantbal.forms import read_session
from plantbal.report.output import read_all
from plantbal.report.trend import Trend, TrendLine, trend_of
from plantbal.sentence import ENGLISH, Language, Sentence, said_in
from plantbal.statuses import ExitStatus

HELP = """
OUTPUT is what plantbal wrote, as CSV or as JSON lines; without it standard input is read. Several
are charted as one, such as the reports of a book; if two have the same period, the later one
counts. The picture goes to standard output as SVG, or to the file of --out as SVG, PNG or PDF by
its ending.

A row for each meter:

  left    the flow to book in tonnes, in a band of two of its standard deviations to each side,
          which holds 95 times in 100; and what the meter says, as circles
  middle  flow less meter, in standard deviations of the meter, as bars, with the same band. A meter
          that is adjusted the same way in each period is worth a look
  right   the sum of flow less meter since the first period, in tonnes: a drift moves away from 0

Below: the statistic of the global test, and its critical value if the session has one and was run
with --tests. Periods that the global test rejects are hatched everywhere; below they have a cross
and their names.

Flows to book are from the last round of each period's last report; meters, adjustments and
statistic are from its first round, before any meter was taken out. Periods are placed at their
days if --session names the session (of several years each session), or if their names are days
(2024, 2024-Q2, 2024-05, 2024-05-17); otherwise they come in the order of the outputs.

examples:
  plantbal run --tests < year.csv | plantbal-desk chart --session year.csv > year.svg
  plantbal-desk chart --stream FILTERED --stream TAILS --out tails.pdf year.out.csv
  plantbal-desk chart --out year.svg book/reports/2024-*.csv
"""

ENDINGS = ("svg", "png", "pdf")
INK, BAND, REJECTED, PALE = "#0b3d6b", "#a9cbe8", "#b2182b", "#fbe3da"
GREY, DARK = "#d3d6d9", "#5a6066"
HATCHED = {"facecolor": PALE, "edgecolor": REJECTED, "hatch": "////"}
HEADINGS = (
    "flow, t",
    "flow less meter,\nstandard deviations of the meter",
    "sum of flow less meter, t",
)
STATISTIC_LABEL = "statistic of\nthe global test"
LEGEND_LABELS = (
    *("flow to book", "± 2 standard deviations", "meter", "critical value"),
    "rejected by the global test",
)
# In inches: the width of a chart, and the heights of a meter, of the statistic and of the legend.
WIDTH, METER, STATISTIC, LEGEND = 13.0, 1.55, 2.0, 0.45
# With more periods than these circles are small.
MANY = 40
# An axis with more ticks than these has one for each month besides, of up to that many months.
MANY_TICKS, MONTH, MOST_MONTHS = 12, 31.0, 150
# How many rejected periods have below the statistic what is missing in them, the last ones.
MOST_HOLES = 3
# How many names there is room for above the statistic, how long one may be, and of how many periods
# they stand across.
MOST_NAMES, LONGEST, FEW = 105, 12, 17


class Chart:
    """A chart that is being drawn.

    Parameters
    ----------
    trend : Trend
        What it shows.
    lines : list of TrendLine
        Its meters.
    language : Language
        In what it speaks.
    """

    def __init__(self, trend: Trend, lines: list[TrendLine], language: Language = ENGLISH) -> None:
        from matplotlib import pyplot

        heights = [LEGEND, *[METER] * len(lines), STATISTIC]
        self.trend, self.lines, self.language = trend, lines, language
        self.figure = pyplot.figure(figsize=(WIDTH, sum(heights)), constrained_layout=True)
        self.grid = self.figure.add_gridspec(len(heights), 3, height_ratios=heights)

    def draw(self) -> None:
        """Draw all of it."""
        self._legend()
        panels: list[list[Any]] = []
        for row, line in enumerate(self.lines, 1):
            drawn = (self._flow, self._adjustment, self._sum)
            panels.append([self._panel(row, column) for column in range(3)])
            for axes, draw in zip(panels[-1], drawn):
                draw(axes, line)
        for column, heading in enumerate(HEADINGS):
            if panels:
                panels[0][column].set_title(self._said(heading), fontsize="medium")
        self._same_scale([row[1] for row in panels])
        for place, row_of in enumerate(panels):
            for axes in row_of:
                self._ticks(axes, 6, labels=place == len(panels) - 1)
        axes = self._panel(len(self.lines) + 1, slice(None))
        self._statistic(axes)
        self._ticks(axes, 18, labels=True)

    def _said(self, text: str) -> str:
        """Return a text in the language."""
        return said_in(self.language, text)

    @property
    def _days(self) -> float:
        """How long all periods are together."""
        return float(self.trend.ends.max() - self.trend.starts.min())

    def _panel(self, row: int, column: int | slice) -> Any:
        """Return a panel with the rejected periods hatched."""
        axes = self.figure.add_subplot(self.grid[row, column])
        trend = self.trend
        axes.set_xlim(trend.starts.min(), trend.ends.max())
        for place in trend.rejected.nonzero()[0]:
            span = trend.starts[place], trend.ends[place]
            axes.axvspan(*span, linewidth=0, alpha=0.6, zorder=0, **HATCHED)
        axes.tick_params(labelsize="small")
        axes.yaxis.set_major_formatter(lambda x, _at: self.language.figure(f"{x:,.10g}"))
        for side in ("top", "right"):
            axes.spines[side].set_visible(False)
        return axes

    def _flow(self, axes: Any, line: TrendLine) -> None:
        """Draw the flow of a meter in its band, and the meter."""
        across, flow = self.trend.stairs(line.flow)
        band = self._band(axes, line.flow, line.sd)
        band.set_gid(f"band-{line.name}")
        axes.plot(across, flow, color=INK, linewidth=1.2, gid=f"meter-{line.name}")
        axes.plot(
            self.trend.middles,
            line.value,
            linestyle="none",
            marker="o",
            markersize=3.5 if len(self.trend.names) <= MANY else 1.8,
            markerfacecolor="white",
            markeredgecolor="black",
            markeredgewidth=0.7 if len(self.trend.names) <= MANY else 0.4,
            gid=f"value-{line.name}",
        )
        axes.margins(y=0.22)
        axes.text(
            *(0.012, 0.96, line.name),
            transform=axes.transAxes,
            verticalalignment="top",
            fontsize="small",
            fontweight="bold",
            bbox={"facecolor": "white", "edgecolor": "none", "alpha": 0.8, "pad": 1.5},
        )

    def _band(self, axes: Any, flow: Any, sd: Any) -> Any:
        """Draw a band of two standard deviations to each side of a flow."""
        across, low, high = self.trend.stairs(flow - 2 * sd, flow + 2 * sd)
        return axes.fill_between(across, low, high, color=BAND, linewidth=0)

    def _adjustment(self, axes: Any, line: TrendLine) -> None:
        """Draw flow less meter in standard deviations of the meter."""
        trend = self.trend
        self._band(axes, (line.flow - line.value) / line.meter, line.sd / line.meter)
        widths = (trend.ends - trend.starts) * 0.5
        bars = axes.bar(trend.middles, line.away, widths, color=INK)
        for bar, name in zip(bars, trend.names):
            bar.set_gid(f"adjustment-{line.name}-{name}")
        axes.axhline(0, color="black", linewidth=0.8)

    def _sum(self, axes: Any, line: TrendLine) -> None:
        """Draw the sum of flow less meter in tonnes."""
        across, total = self.trend.stairs(line.sum)
        axes.plot(across, total, color=INK, linewidth=1.2, gid=f"sum-{line.name}")
        axes.axhline(0, color="black", linewidth=0.8)
        axes.margins(y=0.15)
        low, high = axes.get_ylim()
        if high - low < 0.002:  # what nothing checks isn't adjusted: the ticks are of kilograms
            axes.set_ylim(-0.001, 0.001)

    def _same_scale(self, column: list[Any]) -> None:
        """Give panels the same scale, with 0 in the middle."""
        most = max((abs(end) for axes in column for end in axes.get_ylim()), default=1.0)
        for axes in column:
            axes.set_ylim(-1.1 * most, 1.1 * most)

    def _statistic(self, axes: Any) -> None:
        """Draw the statistic as bars, with the critical values, and crosses where they reject."""
        trend = self.trend
        widths = (trend.ends - trend.starts) * 0.86
        bars = axes.bar(trend.middles, trend.high, widths, color=GREY, edgecolor=DARK)
        for bar, name in zip(bars, trend.names):
            bar.set_gid(f"statistic-{name}")
            bar.set_linewidth(0.6)
        for start, end, critical, name in zip(
            trend.starts, trend.ends, trend.critical, trend.names
        ):
            if critical == critical:
                ends, gid = [start, end], f"critical-{name}"
                axes.plot(ends, [critical] * 2, color=REJECTED, linewidth=1.6, gid=gid)
        axes.margins(y=0.15)
        axes.set_ylim(bottom=0)
        axes.set_ylabel(self._said(STATISTIC_LABEL), fontsize="small")
        top = axes.get_ylim()[1]
        for place in trend.rejected.nonzero()[0]:
            axes.plot(
                *([trend.middles[place]], [top * 0.94]),
                color=REJECTED,
                marker="x",
                markersize=6,
                markeredgewidth=1.8,
                gid=f"rejected-{trend.names[place]}",
            )
        self._rejected_names(axes)
        holes = [hole for hole in trend.holes if hole][-MOST_HOLES:]
        if holes:
            axes.set_xlabel(
                "\n".join(map(self._said, holes)), color=REJECTED, fontsize=7.5, loc="left"
            )

    def _rejected_names(self, axes: Any) -> None:
        """Write the names of rejected periods above a panel, each that doesn't touch another."""
        trend = self.trend
        few = len(trend.names) <= FEW
        room, free = self._days / (FEW if few else MOST_NAMES), float("-inf")
        for place in trend.rejected.nonzero()[0]:
            middle, name = trend.middles[place], trend.names[place]
            if middle < free or len(name) > LONGEST:
                continue
            free = middle + room
            axes.text(
                *(middle, 1.02, name),
                transform=axes.get_xaxis_transform(),
                color=REJECTED,
                fontsize=7,
                rotation=0 if few else 90,
                horizontalalignment="center",
                verticalalignment="bottom",
            )

    def _ticks(self, axes: Any, most: int, *, labels: bool) -> None:
        """Set the ticks of the axis of time: a limited number, or one for each of few periods."""
        from matplotlib import dates, ticker

        trend = self.trend
        axes.tick_params(labelbottom=labels)
        longest = max(map(len, trend.names))
        if len(trend.names) == 1:
            axes.set_xticks(trend.middles, trend.names)
        elif trend.dated:
            locator = dates.AutoDateLocator(minticks=min(3, most), maxticks=most)
            axes.xaxis.set_major_locator(locator)
            axes.xaxis.set_major_formatter(dates.ConciseDateFormatter(locator))
            if most > MANY_TICKS and MONTH < self._days < MOST_MONTHS * MONTH:
                axes.xaxis.set_minor_locator(dates.MonthLocator())
        else:
            room = max(1, min(most, 7 * most // longest))
            axes.xaxis.set_major_locator(ticker.MaxNLocator(room, integer=True))
            axes.xaxis.set_major_formatter(ticker.FuncFormatter(_name_at(trend.names)))

    def _legend(self) -> None:
        """Draw the legend above all."""
        from matplotlib.lines import Line2D
        from matplotlib.patches import Patch

        flow, band, meter, critical, rejected = map(self._said, LEGEND_LABELS)
        circle = {"marker": "o", "markerfacecolor": "white", "markeredgecolor": "black"}
        handles = [
            Line2D([], [], color=INK, label=flow),
            Patch(color=BAND, label=band),
            Line2D([], [], linestyle="none", markersize=4, label=meter, **circle),
            Line2D([], [], color=REJECTED, label=critical),
            Patch(label=rejected, **HATCHED),
        ]
        axes = self.figure.add_subplot(self.grid[0, :])
        axes.axis("off")
        axes.legend(handles=handles, loc="center", ncol=len(handles), frameon=False)


def _name_at(names: list[str]) -> Callable[[float, int], str]:
    """Return what writes the name of a period at its place."""

    def text(at: float, _: int) -> str:
        """Return the name of the period there, or nothing between two."""
        place = round(at)
        return names[place] if abs(at - place) < 1e-6 and 0 <= place < len(names) else ""

    return text


def chosen_lines(trend: Trend, most: int, names: list[str]) -> list[TrendLine]:
    """Return the lines of the streams that are named, or of the meters that are adjusted most.

    Raises
    ------
    Fault
        If a stream isn't there, or nothing determines it in any period.
    """
    if not names:
        return trend.greatest(most)
    for name in names:
        if name not in trend.lines:
            said = Sentence("there is no flow of {name} to chart", name=name)
            raise Fault(said, text=name, remedy="correct --stream")
    return [trend.lines[name] for name in dict.fromkeys(names)]


def begin_drawing(form: str) -> None:
    """Set matplotlib to files of a form, ``svg``, ``png`` or ``pdf``, the same each time.

    Raises
    ------
    ToolMissing
        If there is no matplotlib.
    """
    try:
        import matplotlib
    except ImportError as error:
        raise ToolMissing("matplotlib", "python3-matplotlib") from error
    matplotlib.use("agg" if form == "png" else form)
    look = {"svg.hashsalt": "plantbal", "svg.fonttype": "none", "hatch.linewidth": 0.5}
    matplotlib.rcParams.update(look)


def save(figure: Any, out: BinaryIO | Path, form: str) -> None:
    """Write a figure of matplotlib, without the time of day, and close it."""
    from matplotlib import pyplot

    told: dict[str, dict[str, str | None]] = {
        "svg": {"Date": None, "Creator": "plantbal"},
        "pdf": {"CreationDate": None, "Creator": "plantbal"},
    }
    figure.savefig(out, format=form, dpi=110, metadata=told.get(form))
    pyplot.close(figure)


def write_chart(
    trend: Trend,
    lines: list[TrendLine],
    out: BinaryIO | Path,
    form: str,
    language: Language = ENGLISH,
) -> None:
    """Write the chart of periods.

    Parameters
    ----------
    trend : Trend
        The periods.
    lines : list of TrendLine
        The streams that are shown.
    out : file or Path
        Where it goes.
    form : {'svg', 'png', 'pdf'}
        Its form.
    language : Language
        In what it speaks.
    """
    begin_drawing(form)
    chart = Chart(trend, lines, language)
    chart.draw()
    save(chart.figure, out, form)


def add_arguments(parser: argparse.ArgumentParser) -> None:
    """Add the words of the command."""
    parser.add_argument("outputs", metavar="OUTPUT", nargs="*")
    parser.add_argument(
        "--most",
        metavar="N",
        type=int,
        default=12,
        help="show the N meters that are adjusted most (default: 12)",
    )
    parser.add_argument(
        "--stream",
        metavar="NAME",
        action="append",
        default=[],
        help="show this stream, measured or observable; may be given more than once",
    )
    component = "chart the balances of a component in place of the reports of mass"
    parser.add_argument("--component", metavar="NAME", default="", help=component)
    days = "the session, which has the days of the periods; may be given more than once"
    parser.add_argument("--session", metavar="SESSION", action="append", default=[], help=days)
    parser.add_argument("--out", metavar="FILE", help="a .svg, .png or .pdf file")


def run(options: argparse.Namespace) -> int:
    """Write the chart."""
    form = Path(options.out).suffix[1:].lower() if options.out else "svg"
    if form not in ENDINGS:
        raise WordsFault(
            f"{options.out} ends with {form!r}", text=options.out, remedy="use .svg, .png or .pdf"
        )
    session = b"\n".join(read_session(path)[1] for path in options.session)
    output = read_all(options.outputs or ["-"], "report")
    trend = trend_of(output, session, options.component)
    lines = chosen_lines(trend, options.most, options.stream)
    if options.out:
        with replacing(options.out) as made:
            write_chart(trend, lines, made, form)
    else:
        write_chart(trend, lines, sys.stdout.buffer, form)
    return ExitStatus.GOOD
