"""Draws a report or a design with Graphviz: units, tanks, streams by class, flows in tonnes, one
certificate marked, and which streams to meter."""

from __future__ import annotations

import argparse
import subprocess
from collections.abc import Callable, Iterable, Mapping, Sequence

from plantbal import limits
from plantbal.amounts import tonnes_text
from plantbal.faults import Fault, Hindered, ToolMissing, WordsFault
from plantbal.files import write_bytes
from plantbal.report.blocks import Block, Values, advice_of, blocks_of, designs_of
from plantbal.report.parsing import read_rows
from plantbal.session import Session
from plantbal.statuses import ExitStatus

HELP = """
OUTPUT is what plantbal wrote, as CSV or as JSON lines; without it standard input is read. The last
report is drawn, or, if there is none, the last design. The picture is SVG, and goes to standard
output, or to the file of --out.

Units are boxes, tanks are cylinders with what they gained, `env` is left open; --session names the
boundaries in its place, such as a jetty. The width of an arrow shows its tonnes. Streams: redundant
green, with a full dot; nonredundant brown and dashed, with a ring; observable blue and dashed, with
a triangle; unobservable grey and dotted, with a question mark, and without a figure; red with a `!`
is a suspect (its measurement test rejects, and so does the global test), or was taken out. With
--mark the certificate of a stream is shown: the parts of its cut or cycle are drawn thick, and the
units on the cut's side are filled. A plant of 300 streams takes a second or two, a plant of 2,000
some minutes.

With --advice the last design is drawn with the last advice: the streams to meter are violet, with a
`+` and what the meter costs; --mark shows the cycle for which one of them is metered.

examples:
  plantbal run < day.csv | plantbal-desk draw --mark KEROSENE > day.svg
  plantbal run < plant.csv | plantbal-desk draw --advice --mark RES > meters.svg
  plantbal run < terminal.csv | plantbal-desk draw --session terminal.csv --out terminal.svg
"""
# Each has at least 4.5 to 1 on white, and a sign, so that none is known by its colour alone.
COLOURS = {
    "redundant": "#1b5e20",
    "nonredundant": "#7d4200",
    "observable": "#0d47a1",
    "unobservable": "#505a66",
}
SIGNS = {"redundant": "●", "nonredundant": "○", "observable": "△", "unobservable": "?"}
STYLES = {"nonredundant": "dashed", "observable": "dashed", "unobservable": "dotted"}
SUSPECT, SUSPECT_SIGN = "#a3001b", "!"
METER, METER_SIGN = "#6a1b9a", "+"
# Arrows are as wide as their tonnes, between these.
THINNEST, WIDEST = 1.2, 6.0
# Above this many streams Graphviz is asked for its fast layout: its best one of 300 takes a minute.
MANY = 100
FAST = {"splines": "line", "nslimit": 1, "nslimit1": 1, "mclimit": 0.1}


def quoted_for_graphviz(text: str) -> str:
    """Return a text as Graphviz reads it."""
    escaped = text.replace("\\", "\\\\").replace('"', '\\"')
    return f'"{escaped}"'


def attributes(**values: object) -> str:
    """Return attributes as Graphviz reads them; an underscore at the end of a name is dropped."""
    said = ", ".join(
        f"{key.rstrip('_')}={quoted_for_graphviz(str(value))}" for key, value in values.items()
    )
    return f"[{said}]"


class Picture:
    """The streams of a report or of a design, and what is red or marked.

    Parameters
    ----------
    title : str
        What stands above it.
    streams : list of dict
        The rows of the streams.
    nodes : iterable of str
        The nodes, in their order.
    suspects : iterable of str
        The streams that are red.
    prefix : str
        What the names of its elements begin with, so that a page may have several.
    meters : iterable of dict
        The rows of the streams to meter.
    shown : callable
        Gives what a person reads in place of a name.
    outside : mapping of str to str
        The boundary of the session at which a stream crosses into `env`, or out of it.
    """

    def __init__(
        self,
        title: str,
        streams: Sequence[Values],
        nodes: Iterable[str] = (),
        suspects: Iterable[str] = (),
        prefix: str = "",
        meters: Iterable[Values] = (),
        shown: Callable[[str], str] = str,
        outside: Mapping[str, str] | None = None,
    ) -> None:
        self.title, self.streams, self.prefix, self.shown = title, streams, prefix, shown
        self.outside: Mapping[str, str] = outside or {}
        self.meters = {meter["stream"]: meter for meter in meters}
        self.suspects = list(dict.fromkeys(suspects))
        names = list(nodes) + [end for stream in streams for end in (stream["from"], stream["to"])]
        self.nodes = [name for name in dict.fromkeys(names) if name != "env"]
        self.tanks = {s["name"]: s for s in streams if s["name"] == s["from"]}
        found = [s for s in streams if "flow" in s and s["class"] != "unobservable"]
        self.widest = max((abs(int(s["flow"])) for s in found), default=0)
        self.side: set[str] = set()
        self.parts: set[str] = set()

    def mark(self, name: str) -> None:
        """Mark the certificate of a stream, or the cycle for which it is to be metered."""
        if name in self.meters:
            self.parts = {part[1:] for part in self.meters[name]["parts"].split(" ")}
            self.title += f": cycle of {name}"
            return
        for stream in self.streams:
            if name in (stream["name"], self.shown(stream["name"])):
                self.side = set(stream["side"].split(" ")) if stream["side"] else set()
                self.parts = {part[1:] for part in stream["parts"].split(" ") if part}
                self.title += f": {stream['shape']} of {self.shown(stream['name'])}"
                return
        raise Fault(f"there is no stream {name} in {self.title}")

    def id_of_node(self, name: str) -> str:
        """Return the element of a node."""
        return f"{self.prefix}node-{name}"

    def id_of(self, name: str) -> str:
        """Return the element of a stream: that of the tank if it is a tank's."""
        return self.id_of_node(name) if name in self.tanks else f"{self.prefix}stream-{name}"

    def colour(self, stream: Values) -> str:
        """Return the colour of a stream."""
        if stream["name"] in self.meters:
            return METER
        return SUSPECT if stream["name"] in self.suspects else COLOURS[stream["class"]]

    def label(self, stream: Values) -> str:
        """Return a stream's name after its sign, and its tonnes or what its meter costs."""
        if stream["name"] in self.meters:
            cost = int(self.meters[stream["name"]]["cost"])
            return f"{METER_SIGN} {stream['name']}\nmeter: {cost:,}"
        sign = SUSPECT_SIGN if stream["name"] in self.suspects else SIGNS[stream["class"]]
        name = self.shown(stream["name"])
        if "flow" not in stream or stream["class"] == "unobservable":
            return f"{sign} {name}"
        return f"{sign} {name}\n{tonnes_text(stream['flow'])} t"

    def width(self, stream: Values) -> float:
        """Return the width of a stream: it grows with its tonnes."""
        if "flow" not in stream or stream["class"] == "unobservable" or not self.widest:
            return THINNEST
        return round(THINNEST + (WIDEST - THINNEST) * abs(int(stream["flow"])) / self.widest, 2)

    def legend(self) -> str:
        """Return what the signs mean, of the classes that are there."""
        there = {s["class"] for s in self.streams if s["name"] not in self.meters}
        said = [f"{sign} {name}" for name, sign in SIGNS.items() if name in there]
        said += [f"{SUSPECT_SIGN} suspect"] if self.suspects else []
        return "    ".join(said + ([f"{METER_SIGN} to meter"] if self.meters else []))

    def node(self, name: str) -> str:
        """Return the line of a unit or a tank; a tank's stream is drawn as the tank itself."""
        shape, label = "box", self.shown(name)
        look: dict[str, object] = {}
        if name in self.tanks:
            tank = self.tanks[name]
            shape = "cylinder"
            label = "\n" + self.label(tank)  # below the lid
            look["color"] = self.colour(tank)
            look["penwidth"] = 4 if name in self.parts else 1.5
        if name in self.side:
            look.update(style="filled", fillcolor="#fff0b0")
        said = attributes(id_=self.id_of_node(name), shape=shape, label=label, **look)
        return f"  {quoted_for_graphviz(name)} {said}"

    def edge(self, number: int, stream: Values) -> list[str]:
        """Return the lines of a stream; its end in `env` is a point or a boundary of its own."""
        lines, ends = [], []
        for place in ("from", "to"):
            if stream[place] == "env":
                ends.append(f"env-{place}-{number}")
                filled = "env" in self.side
                look: dict[str, object] = {"width": 0.04, "color": "#a0a0a0"}
                if filled:
                    look = {"width": 0.12, "color": "#c09000"}
                look = {"shape": "point", **look}
                if stream["name"] in self.outside:
                    look = {"shape": "plaintext", "label": self.outside[stream["name"]]}
                    look |= {"style": "filled", "fillcolor": "#fff0b0"} if filled else {}
                lines.append(f"  {quoted_for_graphviz(ends[-1])} {attributes(**look)}")
            else:
                ends.append(stream[place])
        style = STYLES.get(stream["class"])
        width = self.width(stream)
        said = attributes(
            id_=self.id_of(stream["name"]),
            label=self.label(stream),
            color=self.colour(stream),
            fontcolor=self.colour(stream),
            penwidth=max(4, width) if stream["name"] in self.parts else width,
            **({"style": style} if style else {}),
        )
        lines.append(f"  {quoted_for_graphviz(ends[0])} -> {quoted_for_graphviz(ends[1])} {said}")
        return lines

    def dot(self) -> str:
        """Return the text for Graphviz."""
        fast: dict[str, object] = dict(FAST) if len(self.streams) > MANY else {}
        graph = attributes(
            rankdir="LR",
            label=f"{self.title}\n{self.legend()}",
            labelloc="t",
            fontname="Helvetica",
            pad=0.2,
            **fast,
        )
        lines = [
            "digraph plant {",
            f"  graph {graph}",
            f"  node {attributes(fontname='Helvetica', fontsize=11)}",
            f"  edge {attributes(fontname='Helvetica', fontsize=9)}",
        ]
        lines += [self.node(name) for name in self.nodes]
        for number, stream in enumerate(self.streams):
            if stream["name"] not in self.tanks:
                lines += self.edge(number, stream)
        return "\n".join([*lines, "}"]) + "\n"


def picture_of(block: Block, prefix: str = "") -> Picture:
    """Return the picture of a round."""
    nodes = [node["name"] for node in block.nodes]
    # if the global test doesn't reject, that of one meter counts for nothing
    rejected = block.whole is not None and block.whole["verdict"] == "reject"
    suspects = block.suspects() if rejected else []
    taken = suspects + block.taken
    return Picture(block.title, block.streams, nodes, taken, prefix, shown=block.shown)


def advised(rows: Sequence[Values], outside: Mapping[str, str] | None = None) -> Picture:
    """Return the picture of the last design with the streams that the last advice says to meter.

    Parameters
    ----------
    rows : list of dict
        The rows of an output, which has `env` in place of boundaries.
    outside : mapping of str to str, optional
        The boundaries of streams.

    Raises
    ------
    Fault
        If there is no advice, or no design, which has the ends of the streams.
    """
    meters, designs = advice_of(rows), designs_of(rows)
    if meters is None or not designs:
        lacks = "advice" if meters is None else "design"
        raise Fault(
            f"there is no {lacks} in what was read",
            remedy="write the rows design and advise at the end of the session",
        )
    total = sum(int(meter["cost"]) for meter in meters)
    count = "1 meter" if len(meters) == 1 else f"{len(meters)} meters"
    return Picture(f"{count} to buy, for {total:,}", designs[-1], meters=meters, outside=outside)


def chosen_picture(
    rows: Sequence[Values],
    period: str | None,
    number: int | None,
    component: str = "",
    window: bool = False,
) -> Picture:
    """Return the picture of the last report of the period and the round, or of the last design.

    Parameters
    ----------
    rows : list of dict
        The rows of an output.
    period : str or None
        The period.
    number : int or None
        The round.
    component : str
        The component whose balance is drawn in place of a report.
    window : bool
        Whether a window is drawn; its period is its first one.
    """
    blocks = [
        block
        for block in blocks_of(rows)
        if period in (None, block.period)
        and number in (None, block.round)
        and (block.component, block.window is not None) == (component, window)
    ]
    if blocks:
        return picture_of(blocks[-1])
    if period is not None or number is not None or component or window:
        there = ", ".join(dict.fromkeys(block.title for block in blocks_of(rows)))
        said = "there is no report of this period and round"
        said = "there is no such window" if window else said
        said = f"there is no such balance of {component}" if component else said
        raise Fault(said, remedy=f"there are {there or 'none'}")
    designs = designs_of(rows)
    if not designs:
        raise Fault("there is neither a report nor a design in what was read")
    return Picture("design", designs[-1])


def svg(dot: str) -> bytes:
    """Return the picture that Graphviz makes.

    Raises
    ------
    ToolMissing
        If there is no Graphviz.
    Fault
        If it fails, or takes longer than `plantbal.limits` has.
    """
    seconds = limits.DRAWING_SECONDS
    try:
        return subprocess.run(
            ["dot", "-Tsvg"],
            input=dot.encode(),
            stdout=subprocess.PIPE,
            check=True,
            timeout=seconds,
        ).stdout
    except FileNotFoundError as error:
        raise ToolMissing("`dot`", "graphviz") from error
    except subprocess.TimeoutExpired as error:
        remedy = "draw a smaller part, or use --dot and have the text drawn by another program"
        raise Hindered(f"dot didn't finish within {seconds:g} seconds", remedy=remedy) from error
    except subprocess.CalledProcessError as error:
        raise Hindered(f"dot ended with the status {error.returncode}") from error


def add_arguments(parser: argparse.ArgumentParser) -> None:
    """Add the words of the command."""
    parser.add_argument("output", metavar="OUTPUT", nargs="?", default="-")
    parser.add_argument("--period", metavar="NAME", help="the period to draw")
    parser.add_argument(
        "--round",
        metavar="N",
        type=int,
        help="the round to draw, 0 for the one before any meter was taken",
    )
    parser.add_argument("--component", metavar="NAME", default="", help="draw its balance")
    parser.add_argument("--window", action="store_true", help="draw a window of several periods")
    parser.add_argument("--advice", action="store_true", help="draw which streams to meter")
    parser.add_argument("--mark", metavar="STREAM", help="the stream whose cut or cycle is marked")
    session = "the session, which has the boundaries that streams come from and go to"
    parser.add_argument("--session", metavar="SESSION", help=session)
    parser.add_argument(
        "--dot", action="store_true", help="write the text for Graphviz in place of SVG"
    )
    parser.add_argument("--out", metavar="FILE", default="-", help="the picture")


def run(options: argparse.Namespace) -> int:
    """Write the picture."""
    rows = read_rows(options.output, "report", "design")
    if options.component and options.window:
        raise WordsFault("a balance of a component covers one period", remedy="leave --window out")
    of_report = options.period is not None or options.round is not None
    if options.advice and (of_report or options.component or options.window):
        what = "--advice is for a plant, not for a report"
        raise WordsFault(what, remedy="leave out the options that choose a report")
    asked = options.period, options.round, options.component, options.window
    picture = advised(rows) if options.advice else chosen_picture(rows, *asked)
    if options.session is not None:
        picture.outside = Session.read(options.session).crossings()
    if options.mark is not None:
        picture.mark(options.mark)
    dot = picture.dot()
    write_bytes(options.out, dot.encode() if options.dot else svg(dot))
    return ExitStatus.GOOD
