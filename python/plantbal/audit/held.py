"""A report held against its session: the study of each row that asks for flows, and what the output
says of it."""

from __future__ import annotations

from collections.abc import Iterable, Iterator, Mapping
from dataclasses import dataclass, field, replace

from plantbal.model.ledger import Ledger
from plantbal.model.studies import StreamMeasurement, Study
from plantbal.records import Record, read_records
from plantbal.schema import schema

PPM = 10**6


# ---- what an output says


@dataclass
class AnsweredRow:
    """What an output says of one row that asks for flows: the records of its blocks, or `over`.

    Attributes
    ----------
    period : str
        The period; of a window the first one.
    blocks : list of list of Record
        The records of each block; none if the total of a stream is beyond the limits.
    over : Record or None
        The `over` row.
    taken : list of str
        The streams that were taken, in their order.
    component : str
        The component whose balance it is, if it is one.
    last : str
        The last period of a window, if it is one.
    places : list of Record
        The `window` row and its `place` rows.
    """

    period: str
    blocks: list[list[Record]] = field(default_factory=list)
    over: Record | None = None
    taken: list[str] = field(default_factory=list)
    component: str = ""
    last: str = ""
    places: list[Record] = field(default_factory=list)

    @property
    def subject(self) -> str:
        """What it is of, as `plantbal.report.blocks.Block.subject` says it."""
        if self.component:
            return f"{self.component} in {self.period}"
        return f"{self.period} to {self.last}" if self.last else self.period

    def flows(self) -> dict[str, tuple[int, bool]]:
        """Return the flow of each stream in the last round, and whether it is unobservable."""
        found = {}
        for record in self.blocks[-1] if self.blocks else ():
            if record.fields[0] == "stream":
                row = fields_by_column(record)
                flow = whole_or_none(row.get("flow", "")) or 0
                found[row.get("name", "")] = flow, row.get("class") == "unobservable"
        return found


def answered_rows(data: bytes) -> list[AnsweredRow]:
    """Return what an output says of each report, window and balance, in order."""
    return answers_in(read_records(data))


def answers_in(records: Iterable[Record]) -> list[AnsweredRow]:
    """Return what the records of an output say of each report, window and balance, in order."""
    found: list[AnsweredRow] = []
    inside = False
    component, places = "", list[Record]()
    for record in records:
        fields = (*record.fields, "", "", "", "")
        if fields[0] == "component":
            component = fields[1]
        elif fields[0] in ("window", "place"):
            places.append(record)
        elif fields[0] == "report":
            if fields[2] == "0" or not found:
                last = (*places[0].fields, "", "")[2] if places else ""
                answer = AnsweredRow(fields[1], component=component, last=last, places=places)
                found.append(answer)
                component, places = "", []
            found[-1].blocks.append([record])
        elif fields[0] == "over":
            found.append(AnsweredRow(fields[1], over=record))
        elif fields[0] == "taken" and found:
            found[-1].taken.append(fields[3])
        elif inside:
            found[-1].blocks[-1].append(record)
        inside = fields[0] == "report" or (inside and fields[0] != "end")
    return found


def fields_by_column(record: Record) -> dict[str, str]:
    """Return the fields of a row by its columns."""
    row = schema().output[record.fields[0]]
    short = row.without and len(record.fields) == len(row.older) + 1
    return dict(zip(row.older if short else row.names, record.fields[1:]))


@dataclass(frozen=True, slots=True)
class Differs:
    """A place at which a report isn't that of its session.

    Attributes
    ----------
    line : int
        The line of the output; 0 if it is none.
    text : str
        What is said there, and what the session gives.
    """

    line: int
    text: str


def grams(number: int | None) -> str:
    """Return an amount as it is said; a stream without one isn't measured."""
    return "none" if number is None else f"{number:,}"


def whole_or_none(text: str) -> int | None:
    """Return the whole number of a field, or nothing if it is empty or none."""
    try:
        return int(text) if text else None
    except ValueError:
        return None


def carried(seen: Study, flows: Mapping[str, tuple[int, bool]]) -> dict[str, StreamMeasurement]:
    """Return what the streams carry of a component, by the flows of the period's last round.

    Parameters
    ----------
    seen : Study
        What the `component` row saw.
    flows : mapping
        The flow of each stream, and whether it is unobservable.
    """
    found = {}
    for name, mass in seen.streams.items():
        grade, (flow, is_unobservable) = seen.grades.get(name), flows.get(name, (0, True))
        found[name] = StreamMeasurement(mass.arc, None, None)
        if grade is not None and not is_unobservable:
            value = flow * grade.ppm // PPM
            variance = -(-flow * flow * grade.variance // PPM**2) + 1
            found[name] = StreamMeasurement(mass.arc, value, variance, (grade.line,))
    return found


def block_differs(block: list[Record], seen: Study, taken: list[str]) -> Iterator[Differs]:
    """Give the places at which a block isn't of what its row saw.

    Parameters
    ----------
    block : list of Record
        The block.
    seen : Study
        What the row saw.
    taken : list of str
        The streams that were taken before the block, so that they count as not measured.
    """
    nodes = [record for record in block if record.fields[0] == "node"]
    streams = [record for record in block if record.fields[0] == "stream"]
    for record, name in zip(nodes, seen.nodes):
        said = fields_by_column(record).get("name", "")
        if said != name:
            yield Differs(record.line, f"found node {said} where the session has {name}")
    if len(nodes) != len(seen.nodes):
        what = f"the block has {len(nodes)} nodes, and the session {len(seen.nodes)}"
        yield Differs(block[0].line, what)
    for record, (name, measured) in zip(streams, seen.streams.items()):
        yield from _stream_differs(record, name, measured, name in taken)
    if len(streams) != len(seen.streams):
        what = f"the block has {len(streams)} streams, and the session {len(seen.streams)}"
        yield Differs(block[0].line, f"{what} with its tanks")
    yield from _critical_differ(block, seen)


def _stream_differs(
    record: Record, name: str, measured: StreamMeasurement, taken: bool
) -> Iterator[Differs]:
    """Give the columns of a stream row that aren't those of the session."""
    row = fields_by_column(record)
    arc = measured.arc
    ends = (row.get("name"), row.get("from"), row.get("to"))
    if ends != (name, arc.from_, arc.to):
        said = f"{ends[0]} from {ends[1]} to {ends[2]}"
        what = f"found stream {said} where the session has {name} from {arc.from_} to {arc.to}"
        yield Differs(record.line, what)
        return
    for column, found, unit in (
        ("value", measured.value, " g"),
        ("variance", measured.variance, " g2"),
    ):
        found = None if taken else found
        stated = whole_or_none(row.get(column, ""))
        if column == "variance" and (row.get("value") == "") != (found is None):
            continue  # the value said it
        if stated != found:
            why = "it was taken out" if taken else f"{measured.facts()} gives {grams(found)}"
            end = "" if taken or found is None else unit
            what = f"the {column} of {name} is {grams(stated)}{unit if stated is not None else ''}"
            yield Differs(record.line, f"{what}, and {why}{end}")


def _critical_differ(block: list[Record], seen: Study) -> Iterator[Differs]:
    """Give the test rows whose critical value isn't that of the session."""
    dof = 0
    for record in block:
        kind = record.fields[0]
        row = fields_by_column(record) if kind in schema().output else {}
        if kind == "solved":
            dof = whole_or_none(row.get("dof", "")) or 0
        if kind in ("global", "nodal", "measure"):
            found = seen.critical.get((kind, dof if kind == "global" else 0))
            stated = whole_or_none(row.get("critical", ""))
            if stated != found:
                of = f"at {dof} degrees of freedom" if kind == "global" else "of these tests"
                name = row.get("node") or row.get("stream") or ""
                what = f"the critical value of the {kind} test{' of ' + name if name else ''} is"
                yield Differs(
                    record.line,
                    f"{what} {grams(stated)}, and that of the session {of} is {grams(found)}",
                )


def refused_differ(output: bytes, ledger: Ledger) -> Iterator[Differs]:
    """Give the refused rows that an output has and the rules don't, or the reverse."""
    stated = {}
    for record in read_records(output):
        if record.fields[0] == "refused" and len(record.fields) > 2:
            stated[whole_or_none(record.fields[1])] = (record.line, record.fields[2])
    found = {each.place.record: each for each in ledger.refused}
    for number, (line, code) in stated.items():
        if number not in found:
            yield Differs(line, f"record {number} is said to be refused, and by the rules it isn't")
        elif str(found[number].code) != code:
            what = f"record {number} is said to be refused with code {code}"
            yield Differs(line, f"{what}, and by the rules the code is {found[number].code}")
    for number, refusal in found.items():
        if number not in stated:
            what = f"line {refusal.place.line} of the session is refused ({refusal.word})"
            yield Differs(0, f"{what}, and the output doesn't say so")


@dataclass(frozen=True, slots=True)
class Pair:
    """A report, a window or a balance that a session asks for, and what an output says of it.

    Attributes
    ----------
    seen : Study
        What the row saw.
    answer : AnsweredRow
        What the output says.
    mass : AnsweredRow or None
        Of a balance, a report of the same facts of its period, by whose flows it can be held.
    """

    seen: Study
    answer: AnsweredRow
    mass: AnsweredRow | None = None

    def differ(self) -> Iterator[Differs]:
        """Give the places at which the answer isn't that of the session."""
        is_over = self.answer.over is not None
        name = self.seen.period.name if is_over else self.seen.subject
        if name != (self.answer.period if is_over else self.answer.subject):
            lines = [block[0].line for block in self.answer.blocks]
            line = lines[0] if lines else getattr(self.answer.over, "line", 0)
            said = self.answer.period if is_over else self.answer.subject
            what = f"this is a report of {said}, and the session asks for {name} here"
            yield Differs(line, f"{what} (line {self.seen.line} of the session)")
            return
        if self.seen.component and not self.seen.over:
            yield from self._balance_differs()
            return
        over = self.seen.over
        if self.answer.over is not None:
            stated = self.answer.over.fields[2] if len(self.answer.over.fields) > 2 else ""
            if stated != over:
                what = f"the total of {stated} is said to be beyond the limits"
                rule = f"that of {over} is" if over else "by the session none is"
                yield Differs(self.answer.over.line, f"{what}, and {rule}")
            return
        if over:
            what = f"there is a report, and by the session the total of {over} is beyond the limits"
            yield Differs(self.answer.blocks[0][0].line, what)
        yield from self._places_differ()
        for number, block in enumerate(self.answer.blocks):
            yield from block_differs(block, self.seen, self.answer.taken[:number])

    def _places_differ(self) -> Iterator[Differs]:
        """Give the rows of a window that aren't those of the session."""
        for record, wanted in zip(self.answer.places[1:], self.seen.places):
            if tuple(record.fields[1:]) != wanted:
                said = ",".join(record.fields[1:])
                what = f"found the place {said} where the session has {','.join(wanted)}"
                yield Differs(record.line, what)
        count = len(self.answer.places) - 1 if self.answer.places else 0
        if count != len(self.seen.places):
            what = f"the window has {count} places, and by the session {len(self.seen.places)}"
            yield Differs(self.answer.places[0].line if self.answer.places else 0, what)

    def _balance_differs(self) -> Iterator[Differs]:
        """Give the places at which the balance of a component isn't that of its grades.

        Without a report of the same facts only its streams and critical values are held.
        """
        if self.mass is None or self.answer.over is not None:
            for block in self.answer.blocks:
                yield from _critical_differ(block, self.seen)
            return
        streams = carried(self.seen, self.mass.flows())
        for number, block in enumerate(self.answer.blocks):
            seen = replace(self.seen, streams=streams)
            yield from block_differs(block, seen, self.answer.taken[:number])


def pairs_of(seen: list[Study], answers: list[AnsweredRow]) -> list[Pair]:
    """Return what a session asks for beside what an output says of it, in order."""
    found: list[Pair] = []
    for one, answer in zip(seen, answers):
        same = [
            pair.answer
            for pair in found
            if one.component
            and not (pair.seen.component or pair.seen.last)
            and pair.answer.blocks
            and (pair.seen.period.name, pair.seen.streams, pair.seen.critical)
            == (one.period.name, one.streams, one.critical)
        ]
        found.append(Pair(one, answer, same[-1] if same else None))
    return found
