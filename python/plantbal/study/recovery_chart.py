"""The chart of a component's recovery: a panel for each product, and where the rest went."""

from __future__ import annotations

from collections.abc import Sequence
from pathlib import Path
from typing import TYPE_CHECKING, Any

from plantbal.report.chart import BAND, DARK, HATCHED, INK, REJECTED, begin_drawing, save
from plantbal.study.recovery import Share

if TYPE_CHECKING:
    from plantbal.report.trend import Trend

_NAN = float("nan")
# The colours of streams that leave, below the recovery; each has a hatch of its own too.
_LOOKS = (
    ("#0b3d6b", ""),
    ("#d3d6d9", ""),
    ("#a9cbe8", "///"),
    ("#8c6d46", "..."),
    ("#7fa67a", "xxx"),
    ("#efe3b8", "---"),
    ("#b08fc7", "ooo"),
    ("#e0a58a", "+++"),
)


def write_recovery_chart(
    trend: Trend, shares: Sequence[Share], products: Sequence[str], out: Path, form: str
) -> None:
    """Write the chart of a component's recovery.

    Parameters
    ----------
    trend : Trend
        The periods.
    shares : sequence of Share
        What each stream carries in each of them.
    products : sequence of str
        The streams whose recovery is drawn.
    out : Path
        Where it goes.
    form : {'svg', 'png', 'pdf'}
        Its form.
    """
    begin_drawing(form)
    from matplotlib import pyplot

    count = len(products)
    figure, panels = pyplot.subplots(
        count + 1,
        1,
        figsize=(9.0, 2.4 * count + 2.6),
        height_ratios=[*[1.0] * count, 1.1],
        constrained_layout=True,
        squeeze=False,
    )
    for axes, product in zip(panels[:, 0], products):
        _recovery(axes, trend, [each for each in shares if each.stream == product])
    leaving = [each for each in shares if each.way in ("out", "gain")]
    _whither(panels[-1, 0], trend, sorted(leaving, key=lambda each: each.stream not in products))
    for axes in panels[:, 0]:
        _look(axes, trend)
    save(figure, out, form)


def _look(axes: Any, trend: Trend) -> None:
    """Set what both panels share: the periods below, and those that the test rejects hatched."""
    from matplotlib import dates

    axes.set_xlim(trend.starts.min(), trend.ends.max())
    for place in trend.rejected.nonzero()[0]:
        span = trend.starts[place], trend.ends[place]
        axes.axvspan(*span, linewidth=0, alpha=0.6, zorder=0, **HATCHED)
    for side in ("top", "right"):
        axes.spines[side].set_visible(False)
    axes.tick_params(labelsize="small")
    if trend.dated and len(trend.names) > 1:
        locator = dates.AutoDateLocator(minticks=3, maxticks=12)
        axes.xaxis.set_major_locator(locator)
        axes.xaxis.set_major_formatter(dates.ConciseDateFormatter(locator))
    else:
        axes.set_xticks(trend.middles, trend.names)
    axes.legend(loc="upper left", bbox_to_anchor=(1.0, 1.0), frameon=False, fontsize="small")


def _over(trend: Trend, shares: Sequence[Share], what: str, scale: float) -> Any:
    """Return a figure of the shares in each period; NaN where there is none."""
    import numpy

    by_period = {each.period: getattr(each, what) for each in shares}
    values = [by_period.get(name) for name in trend.names]
    return numpy.array([_NAN if value is None else scale * value for value in values])


def _recovery(axes: Any, trend: Trend, shares: Sequence[Share]) -> None:
    """Draw the recovery of a product in its band, and what the assays alone say."""
    share, sd = (_over(trend, shares, what, 100.0) for what in ("share", "share_sd"))
    if (share != share).all():
        no = "nothing determines what came in"
        axes.text(0.5, 0.5, no, transform=axes.transAxes, ha="center", fontsize="small")
        axes.set_yticks([])
    across, low, high, middle = trend.stairs(share - 2 * sd, share + 2 * sd, share)
    axes.fill_between(across, low, high, color=BAND, linewidth=0, label="± 2 standard deviations")
    name = shares[0].stream if shares else ""
    gid = f"recovery-{name}"
    axes.plot(across, middle, color=INK, linewidth=1.4, label="recovery, reconciled", gid=gid)
    circle = {"marker": "o", "markerfacecolor": "white", "markeredgecolor": "black"}
    raw = _over(trend, shares, "raw", 100.0)
    label = "by the assays alone"
    axes.plot(trend.middles, raw, linestyle="none", markersize=4, label=label, **circle)
    if trend.rejected.any():
        axes.plot([], [], color=REJECTED, marker="s", linestyle="none", label="rejected")
    component = shares[0].component if shares else ""
    axes.set_ylabel(f"{component} in {name}, %", fontsize="small")
    axes.margins(y=0.15)


def _whither(axes: Any, trend: Trend, leaving: Sequence[Share]) -> None:
    """Draw how much leaves by each stream, one above the other."""
    import numpy

    below = numpy.zeros(len(trend.names))
    widths = (trend.ends - trend.starts) * 0.86
    for place, name in enumerate(dict.fromkeys(each.stream for each in leaving)):
        colour, hatch = _LOOKS[place % len(_LOOKS)]
        some = [each for each in leaving if each.stream == name]
        tonnes = numpy.nan_to_num(_over(trend, some, "grams", 1e-6))
        bars = axes.bar(
            trend.middles, tonnes, widths, below, color=colour, edgecolor=DARK, hatch=hatch
        )
        bars.set_label(f"gain of {name}" if some[0].way == "gain" else name)
        for bar, period in zip(bars, trend.names):
            bar.set_gid(f"carried-{name}-{period}")
            bar.set_linewidth(0.5)
        below = below + tonnes
    axes.set_ylabel("where it goes, t", fontsize="small")
