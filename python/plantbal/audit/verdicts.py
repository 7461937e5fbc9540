"""Says of each `no` and `unreadable` of a check which field it is about, and what the test asks."""

from __future__ import annotations

import re
from collections.abc import Iterable, Sequence
from dataclasses import dataclass
from difflib import get_close_matches
from pathlib import Path

from plantbal.audit.asks import ReportBlock, asked, places_of, some
from plantbal.explain import ExplainedRow, Explanation, Field, Text, marked_line, shown_bytes
from plantbal.faults import InputFault, Place, read_bytes
from plantbal.program import call
from plantbal.records import Record
from plantbal.report.blocks import Values
from plantbal.report.parsing import parse_rows
from plantbal.report.judged import judge_rows
from plantbal.schema import Column, Row, schema
from plantbal.session import whole_number

_NAME = re.compile(rf"[A-Za-z0-9_.-]{{1,{schema().limits['most_name']}}}")
_PASSED_OVER = (
    "refused, over, design, class, history, edit, taken, stop, advise, meter, window, place "
    "or component"
)


def _blocks(text: Text) -> list[ReportBlock]:
    """Return the blocks of a report."""
    found: list[ReportBlock] = []
    for record in text.records:
        if record.fields[0] == "report":
            found.append(ReportBlock())
        if found:
            found[-1].rows.append((record, places_of(record)))
    return found


@dataclass(frozen=True, slots=True)
class _At:
    """A row of a report, and the columns at fault; without columns no single one is."""

    record: Record | None
    first: str = ""
    last: str = ""
    note: str = ""


def _which(record: Record | None, columns: Sequence[str], stated: str) -> str:
    """Return the first of some columns in which a number stands, or the first one."""
    if record is None:
        return columns[0]
    places = places_of(record)
    for column in columns:
        at = places.get(column, 0)
        said = record.fields[at] if 0 < at < len(record.fields) else ""
        if said == stated or (said == "" and stated == "-1"):
            return column
    return columns[0]


def _fault_of(block: ReportBlock, verdict: Values) -> _At:
    """Return where the fault of a `no` is."""
    code, name, stated = int(verdict["code"]), verdict["name"], verdict["stated"]
    stream = block.find("stream", name) if name else None
    solved = block.find("solved")
    if code == 1:
        return _At(stream, "class")
    if code == 2:
        return _At(stream, "shape", "parts")
    if code == 3:
        note = "which one, the balances alone can't say"
        return _At(block.find("node", name), "name", note=note)
    if code == 4:
        return _At(block.find("node", name), "price")
    if code == 5:
        return _At(stream, note="no single field is at fault: see the prices of both its ends")
    if code in (6, 8):
        return _At(solved, {6: "dof", 8: "state"}[code])
    if code == 7:
        return _At(solved, _which(solved, ("g", "h"), stated))
    if code == 10:
        return _At(solved, _which(solved, ("low", "high"), stated))
    if code in (9, 13):
        columns = ("lo", "hi") if code == 9 else ("least_lo", "least_hi")
        return _At(stream, _which(stream, columns, stated))
    if code == 11 and name:
        nodal = block.find("nodal", name, "node")
        column = _which(nodal, ("net", "variance"), stated)
        places = places_of(nodal) if nodal else {}
        if nodal and nodal.fields[places[column]] != stated:
            column = "node"
        return _At(nodal, column)
    if code == 11:
        return _At(block.find("nodal") or block.find("global"))
    if not name:
        return _At(block.find("global"), "verdict")
    nodal, measure = block.find("nodal", name, "node"), block.find("measure", name, "stream")
    if nodal and measure:
        note = f"{name} is a tank: if this row is right, its measure row is wrong"
        return _At(nodal, "verdict", note=note)
    return _At(nodal or measure, "verdict")


def _told(text: Text, verdict: Values, at: _At, head: str, said: str) -> ExplainedRow:
    """Return what is said of a row of a report."""
    code = int(verdict["code"])
    if at.record is None:
        sentence = f"{head}: {said}; its row isn't in this file"
        return ExplainedRow(text.source, 0, 0, code, verdict["word"], sentence)
    record, places, fields = at.record, places_of(at.record), text.fields(at.record)
    label = at.first
    begin = places.get(at.first, 0)
    if at.first and begin < len(fields):
        end = min(places.get(at.last or at.first, begin), len(fields) - 1)
        number, line, mark = marked_line(text, fields[begin], fields[end])
    else:
        label = ""
        number, line, mark = marked_line(text, Field(fields[0].begin, fields[-1].end))
    value = record.fields[begin] if label and begin < len(record.fields) else ""
    if label and label != "name":
        labels = [name.upper() for name in list(places)[begin - 1 : places.get(at.last, begin)]]
        head += f": {some(labels)}" if at.last else f": {label.upper()} is {value!r}"
    sentence = f"{head}: {said}" + (f"; {at.note}" if at.note else "")
    return ExplainedRow(
        file=text.source,
        line=number,
        record=record.number,
        code=code,
        word=verdict["word"],
        sentence=shown_bytes(sentence),
        column=label,
        row=line,
        mark=mark,
    )


def _no(text: Text, blocks: list[ReportBlock], number: int, verdict: Values) -> ExplainedRow:
    """Return what is said of a `no`."""
    code = int(verdict["code"])
    at = _fault_of(blocks[number], verdict) if number < len(blocks) else _At(None)
    name = f" of {verdict['name']}" if verdict["name"] else ""
    about = f"{verdict['period']}, round {verdict['round']}, fails test {code}, {verdict['word']}"
    kind = f", in the {at.record.fields[0]} row{name}" if at.record else name
    said = (
        asked(blocks[number], verdict) if number < len(blocks) else "the report has no such block"
    )
    return _told(text, verdict, at, about + kind, said)


# ---- rows that can't be read


def _column_fits(column: Column, said: str) -> bool:
    if not said and column.optional:
        return True
    if column.type == "number":
        return whole_number(said, column.low, column.high) is not None
    if column.type == "name":
        return _NAME.fullmatch(said) is not None
    return column.type != "word" or said in column.words


def _unfit(row: Row, record: Record, type_: str) -> str:
    """Return the first column of a type whose field has the wrong form, or nothing."""
    places = places_of(record)
    for column in row.columns:
        at = places.get(column.name, 0)
        if column.type == type_ and 0 < at < len(record.fields):
            if not _column_fits(column, record.fields[at]):
                return column.name
    return ""


def _range(column: Column) -> str:
    """Return the range of a number, if it is one that a person can read."""
    low, high = column.low, column.high
    return (
        f", {low:,} to {high:,}" if low is not None and high is not None and high < 10**15 else ""
    )


class _Seen:
    """What stands in a block before a row: the names of its nodes and streams."""

    def __init__(self, text: Text, number: int) -> None:
        self.nodes: list[str] = []
        self.streams: list[str] = []
        self.lines: dict[tuple[str, str], int] = {}
        self.head: Record | None = None
        self.last = ""
        self.columns = 0
        for record in text.records:
            if record.number >= number:
                break
            kind, second = record.fields[0], "".join(record.fields[1:2])
            if kind == "report":
                self.nodes, self.streams, self.head, self.columns = [], [], record, 0
                self.lines = {}
            elif kind == "node":
                self.nodes.append(second)
            elif kind == "stream":
                self.streams.append(second)
                self.columns = self.columns or len(record.fields)
            elif kind == "end":
                self.head = None
            self.lines.setdefault((kind, second), record.line)
            self.last = kind

    def all_streams(self, text: Text) -> list[str]:
        """Return the names of the streams of the block, those of later rows too."""
        begin = self.head.number if self.head else 0
        found: list[str] = []
        for record in text.records:
            if record.number > begin and record.fields[0] in ("report", "solved"):
                break
            if record.number > begin and record.fields[0] == "stream":
                found += record.fields[1:2]
        return found

    def wanted(self) -> str:
        """Return which row may stand next."""
        if self.head is None:
            return f"a report row, or one that may be between blocks ({_PASSED_OVER}),"
        fields = self.head.fields
        for kind, have, at in (("node", self.nodes, 3), ("stream", self.streams, 4)):
            count = whole_number(fields[at], 0, None) if at < len(fields) else None
            if count is not None and len(have) < count:
                return f"{kind} row {len(have) + 1} of {count}"
        after = {
            "solved": "the end row or a global row",
            "global": "a nodal, measure or end row",
            "nodal": "a nodal, measure or end row",
            "measure": "a measure row or the end row",
        }
        return after.get(self.last, "the solved row")


def _unknown_in(row: Row, record: Record, seen: _Seen) -> str:
    """Return the column that names what the block hasn't, or nothing."""
    places = places_of(record)
    for column in row.columns:
        if column.name not in places:
            continue  # an older stream row has no least bounds
        said = record.fields[places[column.name]]
        if row.kind == "end" and seen.head is not None:
            if column.name in ("period", "round"):
                at = {"period": 1, "round": 2}[column.name]
                if said != seen.head.fields[at]:
                    return column.name
        elif column.name in ("from", "to", "node") and said not in seen.nodes:
            return column.name
        elif column.name == "side" and any(n not in seen.nodes for n in said.split(" ") if n):
            return "side"
        elif column.name == "stream" and said not in seen.streams:
            return column.name
    return "parts" if "parts" in row.names else ""


def _near(name: str, names: Iterable[str]) -> str:
    """Return which name was probably meant, or nothing."""
    found = get_close_matches(name, list(names), 1, 0.6)
    return f"did you mean {found[0]}?" if found else ""


def _count_said(record: Record, row: Row, seen: _Seen) -> str:
    """Return what is said of a row with another number of fields."""
    count = len(row.columns) + 1
    if row.kind == "stream" and seen.columns:
        count = seen.columns
    said = f"it has {len(record.fields)} fields, and {count} are expected"
    if row.kind == "stream" and seen.columns:
        said += ", as many as the first stream row of the block has"
    elif row.kind == "stream":
        said += f", or {len(row.older) + 1} without least bounds"
    if len(record.fields) > count and not any(record.fields[count:]):
        said += "; a spreadsheet put the empty ones at its end: take them out"
    return said


def _form_said(record: Record, row: Row, code: int) -> tuple[_At, str]:
    """Return where a field has the wrong form, and what it has to be."""
    first = _unfit(row, record, {3: "name", 4: "number", 7: "word"}[code])
    if not first and code == 4 and row.kind == "stream":
        values = dict(zip(places_of(record), record.fields[1:]))
        for one, other in (("value", "variance"), ("lo", "hi"), ("least_lo", "least_hi")):
            if bool(values.get(one)) != bool(values.get(other)):
                return _At(record, one, other), "both are there or neither is"
    if not first:
        return _At(record), "which field it is isn't clear"
    column = row.column(first)
    asked_for = {
        "name": "1 to 32 letters, digits, `_`, `-` or `.`",
        "word": f"{', '.join(column.words[:-1])} or {''.join(column.words[-1:])}",
        "number": "a whole number in digits alone" + _range(column),
    }.get(column.type, "")
    return _At(record, first), f"it has to be {asked_for}" + (
        ", or empty" if column.optional else ""
    )


def _unknown_said(text: Text, record: Record, row: Row, seen: _Seen) -> tuple[_At, str]:
    """Return where a name is none of the block's, and what is said of it."""
    first = _unknown_in(row, record, seen)
    said = record.fields[places_of(record)[first]] if first else ""
    if row.kind == "end" and seen.head is not None:
        of = f"{seen.head.fields[1]}, round {seen.head.fields[2]}"
        return _At(record, first), f"the block that ends here is that of {of}"
    if first in ("from", "to", "node", "side"):
        unknown = [name for name in said.split(" ") if name not in seen.nodes][:1]
        near = _near(unknown[0], seen.nodes) if unknown else ""
        what = f"no node row of the block has the name {some(unknown)}"
    else:
        streams = seen.all_streams(text)
        names = [part[1:] for part in said.split(" ")] if first == "parts" else [said]
        unknown = [name for name in names if name not in streams][:1]
        near = _near(unknown[0], streams) if unknown else ""
        what = f"no stream row of the block has the name {some(unknown)}"
    return _At(record, first), what + (f"; {near}" if near else "")


def _shape_said(record: Record, seen: _Seen) -> tuple[_At, str]:
    """Return which of a certificate's fields has the wrong form."""
    places = places_of(record)
    side, parts = record.fields[places["side"]], record.fields[places["parts"]]
    if record.fields[places["shape"]] == "cycle" and side:
        return _At(record, "side"), "a cycle has no side: it has to be empty"
    if re.fullmatch(r"([-+][A-Za-z0-9_.-]{1,32}( [-+][A-Za-z0-9_.-]{1,32})*)?", parts):
        order = [name for name in seen.nodes if name in side.split(" ")]
        said = "a side is names of nodes, in the order of the node rows, with one space between"
        return _At(record, "side"), f"{said}: {' '.join(order)}" if order else said
    said = "parts are names of streams, each with `+` or `-` in front, with one space between"
    return _At(record, "parts"), said


def _size_said(record: Record, row: Row) -> tuple[_At, str]:
    """Return which number of rows can't be, or that a stream leads to its own beginning."""
    limits = schema().limits
    if row.kind == "stream":
        return _At(record, "from", "to"), "it leads from a node to itself"
    values = dict(zip(places_of(record), record.fields[1:]))
    if whole_number(values.get("nodes", ""), 1, limits["most_nodes"]) is None:
        return _At(record, "nodes"), f"a block has 1 to {limits['most_nodes']:,} nodes"
    return _At(record, "streams"), f"a block has at most {limits['most_streams']:,} streams"


def _said_of(text: Text, record: Record, code: int, seen: _Seen) -> tuple[_At, str]:
    """Return where the fault of a row that can't be read is, and what is said of it."""
    kind = record.fields[0]
    row = schema().output.get(kind)
    if code == 1 or row is None:
        said = f"{seen.wanted()} has to come here"
        if kind in {each.kind for each in schema().session} and row is None:
            said += f"; {kind!r} is a row of a session: is this a session?"
        elif row is None and (near := _near(kind, schema().output)):
            said += f"; {near}"
        return _At(record, "row"), said
    if code == 2:
        return _At(record), _count_said(record, row, seen)
    if code in (3, 4, 7):
        return _form_said(record, row, code)
    if code == 5:
        return _unknown_said(text, record, row, seen)
    if code == 6:
        line = seen.lines.get((kind, record.fields[1]), 0)
        return _At(record, "name"), f"line {line} has the {kind} {record.fields[1]} already"
    if code == 8:
        return _shape_said(record, seen)
    if code == 9:
        return _size_said(record, row)
    return _At(record, "name"), "the first node of a block has to be env, the world outside"


def _unreadable(text: Text, verdict: Values) -> ExplainedRow:
    """Return what is said of a row that can't be read."""
    at, code = int(verdict["at"]), int(verdict["code"])
    record = next((each for each in text.records if each.number == at), None)
    if record is None:
        last = text.line_at(len(text.text))
        ends = last - 1 if text.text.endswith(("\n", "\r")) else last
        sentence = (
            "the file ends within a block: its end row is missing; it was cut on the way, so ask "
            "for it again"
        )
        return ExplainedRow(text.source, max(1, ends), 0, code, verdict["word"], sentence)
    where, said = _said_of(text, record, code, _Seen(text, at))
    head = f"row {at} can't be read ({code} {verdict['word']}), and nothing after it is judged: "
    head += " ".join(filter(None, record.fields[:2]))
    return _told(text, verdict, where, head, said)


def _whole(source: str, failed: int) -> list[ExplainedRow]:
    """Return what is to be done about blocks that fail."""
    if not failed:
        return []
    blocks = "1 block fails a test" if failed == 1 else f"{failed} blocks fail a test"
    said = (
        f"{blocks}, and no report that plantbal writes does: it was changed since, or another "
        "program made it; run its session again, or send it back to whoever made it"
    )
    return [ExplainedRow(source, 0, 0, 0, "", said)]


def explain_check(
    source: str,
    data: bytes,
    verdicts: str | Path | None = None,
    program: str | Path | None = None,
    said: bytes | None = None,
) -> Explanation:
    """Return what a check finds wrong with a report.

    Parameters
    ----------
    source : str
        What the report is called.
    data : bytes
        The report, as CSV.
    verdicts : str or Path, optional
        What a check said of it. Without it the check is made here.
    program : str or Path, optional
        The program, if it isn't the one that `find_program` finds.
    said : bytes, optional
        The rows of the check, if they are there already.

    Raises
    ------
    InputFault
        If the report is of JSON lines, or the verdicts are none.
    """
    if data.lstrip().startswith(b"{"):
        raise InputFault(
            "these are JSON lines",
            place=Place(file=source),
            remedy="make CSV of them: plantbal-desk report",
        )
    if said is not None:
        name = f"the check of {source}"
    elif verdicts is None:
        name, said = f"the check of {source}", call(["check"], data, program=program)[1]
    else:
        name, said = read_bytes(verdicts)
    rows = parse_rows(name, said.decode("utf-8", "replace"))
    if any(row["row"] not in ("yes", "no", "unreadable") for row in rows) or not rows:
        raise InputFault(
            "this isn't what a check says",
            place=Place(file=name),
            remedy="plantbal check < REPORT writes it",
        )
    judge_rows(rows, name, checks=True)
    text = Text(source, data)
    blocks, found, number = _blocks(text), list[ExplainedRow](), 0
    for row in rows:
        if row["row"] == "no":
            found.append(_no(text, blocks, number, row))
        elif row["row"] == "unreadable":
            found.append(_unreadable(text, row))
        number += 1
    failed = sum(row["row"] == "no" for row in rows)
    return Explanation(_whole(source, failed), found, 0)
