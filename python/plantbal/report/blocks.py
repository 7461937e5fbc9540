"""The blocks that the rows of an output make: rounds of reports, of windows, of components."""

from __future__ import annotations

from collections.abc import Collection, Iterable, Sequence
from dataclasses import dataclass, field
from typing import cast

from plantbal.kinds import State, StreamClass, Verdict
from plantbal.records import read_records
from plantbal.report.rows import Values as Values
from plantbal.sentence import Joined, Sentence, counted

# What the verdict of a global test says.
_GLOBAL = {
    "accept": ("accepted by the global test", "accepted by the global test"),
    "reject": ("rejected by the global test", "rejected by the global test"),
    "undecided": ("the global test is undecided", "the global test is undecided"),
    "nocritical": (
        "no global test: no critical value for 1 degree of freedom",
        "no global test: no critical value for {count} degrees of freedom",
    ),
    "notest": ("no global test: nothing tests it", "no global test: nothing tests it"),
}


@dataclass(frozen=True, slots=True)
class Spot:
    """What a code of a window stands for: a node or a stream of a period, or a tank's content.

    Attributes
    ----------
    code : str
        The code, such as ``s1.2``.
    period : str
        The period; of what a tank holds at the beginning of the window, the first one.
    name : str
        The declared name.
    """

    code: str
    period: str
    name: str

    @property
    def is_content(self) -> bool:
        """Whether it is what a tank holds between two periods, or at an end of the window."""
        return self.code.startswith("c")

    @property
    def is_opening(self) -> bool:
        """Whether it is what a tank holds before the first period."""
        return self.code.startswith("c0.")

    @property
    def shown(self) -> str:
        """What a person reads in place of the code."""
        if not self.is_content:
            return f"{self.name} in {self.period}"
        return f"{self.name} {'before' if self.is_opening else 'after'} {self.period}"


@dataclass(frozen=True, slots=True)
class ReportedWindow:
    """Several periods that are reported at once.

    Attributes
    ----------
    first, last : str
        The first and the last period.
    spots : dict of str to Spot
        What each code of a node or a stream stands for, in order.
    """

    first: str
    last: str
    spots: dict[str, Spot] = field(default_factory=dict)

    @property
    def periods(self) -> list[str]:
        """The periods in order of days."""
        flows = [spot.period for spot in self.spots.values() if not spot.is_content]
        return list(dict.fromkeys([self.first, *flows, self.last]))

    def shown(self, code: str) -> str:
        """Return what a person reads in place of a code; a name that is no code, as it is."""
        return self.spots[code].shown if code in self.spots else code


@dataclass(frozen=True, slots=True)
class Subject:
    """What flows are asked for: a period's report, a window's, or a component's balance.

    Attributes
    ----------
    period : str
        The period; of a window the first one.
    last : str
        The last period of a window; empty if it is none.
    component : str
        The component whose balance it is; empty if it is one of mass.
    """

    period: str
    last: str = ""
    component: str = ""

    @property
    def what(self) -> str:
        """What is asked for: ``report``, ``window`` or ``balance``."""
        return "balance" if self.component else "window" if self.last else "report"

    @property
    def said(self) -> str:
        """It in words: ``may``, ``cu in may`` of a balance, ``may to june`` of a window."""
        if self.component:
            return Sentence("{component} in {period}", component=self.component, period=self.period)
        if self.last:
            return Sentence("{first} to {last}", first=self.period, last=self.last)
        return self.period

    def __str__(self) -> str:
        return str(self.said)


@dataclass
class Block:
    """One block of rows: a round of a period's report, of a window's, or of a component's balance.

    Attributes
    ----------
    number : int
        Its number in the output, counted from 0.
    head : dict
        Its ``report`` row.
    taken : list of str
        The streams that were taken before it.
    nodes, streams, nodal, measure : list of dict
        Its rows of these kinds.
    solved, whole : dict or None
        Its ``solved`` and its ``global`` row.
    ended : bool
        Whether its ``end`` row is there.
    component : str
        The component whose balance it is; empty if it is one of mass.
    window : ReportedWindow or None
        The periods that it is of, if they are reported at once.
    """

    number: int
    head: Values
    taken: list[str] = field(default_factory=list)
    nodes: list[Values] = field(default_factory=list)
    streams: list[Values] = field(default_factory=list)
    nodal: list[Values] = field(default_factory=list)
    measure: list[Values] = field(default_factory=list)
    solved: Values | None = None
    whole: Values | None = None
    ended: bool = False
    component: str = ""
    window: ReportedWindow | None = None

    @property
    def period(self) -> str:
        """The period; of a window the first one."""
        return self.head["period"]

    @property
    def is_report(self) -> bool:
        """Whether it is of a period's report: no window's, and no component's balance."""
        return not self.component and self.window is None

    @property
    def subject(self) -> str:
        """What it is of: ``may``, ``cu in may`` of a balance, ``may to june`` of a window."""
        return self.asked.said

    @property
    def asked(self) -> Subject:
        """What it is of, by its names."""
        last = self.window.last if self.window else ""
        return Subject(self.period, last, self.component)

    @property
    def classes(self) -> dict[str, StreamClass]:
        """The class of each stream, by its name."""
        return {row["name"]: cast(StreamClass, row["class"]) for row in self.streams}

    @property
    def state(self) -> State | None:
        """Whether it has converged; None of one that is cut off."""
        return cast(State, self.solved["state"]) if self.solved else None

    @property
    def tested(self) -> Verdict | None:
        """The verdict of its global test; None if it wasn't tested."""
        return cast(Verdict, self.whole["verdict"]) if self.whole else None

    def shown(self, name: str) -> str:
        """Return what a person reads in place of the name of a node or a stream."""
        return self.window.shown(name) if self.window else name

    @property
    def round(self) -> int:
        """The round: how many streams were taken before."""
        return int(self.head["round"])

    @property
    def title(self) -> str:
        """What it is of, and the round if it isn't the first."""
        if not self.round:
            return self.subject
        return Sentence("{subject}, round {round}", subject=self.subject, round=self.round)

    @property
    def verdict(self) -> str:
        """What it says as a whole: its state, what was taken out before it, and the global test."""
        if self.solved is None:
            return Sentence("cut off")
        said = Sentence(self.solved["state"])
        if self.taken:
            form = "{said} after {taken}"
            said = Sentence(form, said=said, taken=self.taken_said(self.taken))
        if self.whole is None:
            return said
        one, many = _GLOBAL[self.whole["verdict"]]
        verdict = counted(int(self.solved["dof"]), one, many)
        return Sentence("{said}, {verdict}", said=said, verdict=verdict)

    def taken_said(self, names: Sequence[str]) -> str:
        """Return that streams were taken out, as a clause."""
        shown = Joined(", ", map(self.shown, names))
        one, many = "{names} was taken out", "{names} were taken out"
        return counted(len(names), one, many, names=shown)

    def suspects(self) -> list[str]:
        """Return the streams whose measurement test rejects, the greatest statistic first."""
        rejected = [row for row in self.measure if row["verdict"] == "reject"]
        return [row["stream"] for row in sorted(rejected, key=lambda row: -int(row["low"]))]


def blocks_of(rows: Iterable[Values]) -> list[Block]:
    """Return the blocks of the rows in order."""
    found: list[Block] = []
    block: Block | None = None
    taken: list[str] = []
    component, window = "", None
    for row in rows:
        kind = row["row"]
        if kind == "report":
            if row["round"] == "0":
                taken = []
            elif found:
                component, window = found[-1].component, found[-1].window
            block = Block(len(found), row, list(taken), component=component, window=window)
            found.append(block)
            component, window = "", None
        elif kind == "component":
            component = row["component"]
        elif kind == "window":
            window = ReportedWindow(row["first"], row["last"])
        elif kind == "place":
            if window is not None:
                window.spots[row["code"]] = Spot(row["code"], row["period"], row["name"])
        elif kind == "taken":
            taken.append(row["stream"])
        elif block is None:
            continue
        elif kind == "node":
            block.nodes.append(row)
        elif kind == "stream":
            block.streams.append(row)
        elif kind == "nodal":
            block.nodal.append(row)
        elif kind == "measure":
            block.measure.append(row)
        elif kind == "solved":
            block.solved = row
        elif kind == "global":
            block.whole = row
        elif kind == "end":
            block.ended, block = True, None
    return found


def designs_of(rows: Sequence[Values]) -> list[Sequence[Values]]:
    """Return the streams of each design in order."""
    places = [place for place, row in enumerate(rows) if row["row"] == "design"]
    return [rows[place + 1 : place + 1 + int(rows[place]["streams"])] for place in places]


def advice_of(rows: Sequence[Values]) -> Sequence[Values] | None:
    """Return the meters of the last advice, or None if there is no advice."""
    places = [place for place, row in enumerate(rows) if row["row"] == "advise"]
    if not places:
        return None
    return rows[places[-1] + 1 : places[-1] + 1 + int(rows[places[-1]]["count"])]


def reports_of(rows: Iterable[Values]) -> list[Block]:
    """Return the blocks of the reports of periods in order: no window's, and no balance's."""
    return [block for block in blocks_of(rows) if block.is_report]


def subjects_of(session: bytes, refused: Collection[int]) -> list[Subject]:
    """Return what a session asks flows of, in the order of its answers.

    Parameters
    ----------
    session : bytes
        The session.
    refused : collection of int
        The numbers of the refused rows.
    """
    found = []
    for record in read_records(session):
        kind, names = record.fields[0], record.fields[1:]
        if record.number in refused:
            continue
        if kind == "report":
            found.append(Subject(names[0]))
        elif kind == "window":
            found.append(Subject(names[0], last=names[1]))
        elif kind == "component":
            found.append(Subject(names[1], component=names[0]))
    return found


def over_of(rows: Iterable[Values], asked: Sequence[Subject]) -> dict[Subject, str]:
    """Return the stream beyond the limits of each subject whose last answer is an `over` row.

    Parameters
    ----------
    rows : iterable of dict
        The rows of the output. An `over` row has a period alone, whatever is asked for.
    asked : sequence of Subject
        What the session asks for. If that isn't as many as there are answers, each `over` row
        counts, as one of its period.
    """
    answers = [
        row
        for row in rows
        if row["row"] == "over" or (row["row"] == "report" and row["round"] == "0")
    ]
    if len(asked) != len(answers):
        return {Subject(row["period"]): row["stream"] for row in answers if row["row"] == "over"}
    last = {subject: row.get("stream", "") for subject, row in zip(asked, answers)}
    return {subject: stream for subject, stream in last.items() if stream}


def last_blocks(blocks: Iterable[Block]) -> dict[str, Block]:
    """Return the last round of the last report of each subject, by the subjects in order."""
    return {block.subject: block for block in blocks}
