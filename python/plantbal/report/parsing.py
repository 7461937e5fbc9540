"""An output's text as rows, from its CSV or its JSON lines, and rows as such a text again."""

from __future__ import annotations

import csv
import io
import json
import re
import sys
from collections.abc import Collection, Iterable, Iterator, Mapping, Sequence
from itertools import islice
from pathlib import Path

from plantbal import limits
from plantbal.faults import InputFault, Place, read_text
from plantbal.memory import uncollected
from plantbal.report.blocks import blocks_of
from plantbal.report.judged import judge_rows
from plantbal.report.rows import OutputRows, Values
from plantbal.schema import Row, schema

# A field with a power of ten; no name has a plus sign.
_POWER = re.compile(r"(?<=,)-?[0-9]+(?:\.[0-9]+)?[eE]\+[0-9]+(?=[,\r\n])")
_ROWS_AT_ONCE = 10_000  # that are written to a text
_PART = 1 << 20  # characters whose lines are in memory at once
_AS_WRITTEN = "give the file as plantbal wrote it: this one was cut off, or edited"
_REPORT = "report,PERIOD"
_ASKING = {"component": "component,COMPONENT,PERIOD", "design": "design"}
_OF_CHECKS = ("yes", "no", "unreadable")


def _names_of(source: str, line: int, fields: list[str]) -> tuple[str, ...]:
    """Return the names of a row's fields; an older row of a stream has fewer of them."""
    kind, count = fields[0], len(fields)
    row = schema().output.get(kind)
    if row is None:
        raise InputFault(
            f"plantbal writes no row of the kind {kind[:40]!r}",
            place=Place(file=source, line=line, column=1),
            text=kind,
            remedy=_instead(kind),
        )
    for names in (row.names, row.older):
        if len(names) + 1 == count:
            return ("row", *names)
    raise InputFault(
        f"a {kind} row has {len(row.names) + 1} columns, this one has {count}",
        place=Place(file=source, line=line),
        text=",".join(fields)[:200],
        remedy=_of_columns(fields[1:], len(row.names)),
    )


def _instead(kind: str) -> str:
    """Return what a row of another kind may be."""
    if any(row.kind == kind for row in schema().session):
        return "this is a session: run it first"
    if ";" in kind or "\t" in kind:
        return "save it with commas between fields"
    if kind.startswith("["):
        return "write an object a line: jq -c '.[]'"
    if kind.startswith("PK"):
        return "this is a workbook: save the sheet as CSV"
    return "give what `plantbal run` wrote"


def _of_columns(values: list[str], wanted: int) -> str:
    """Return what to do about a row with too many columns, or too few."""
    if len(values) > wanted and not any(values[wanted:]):
        return "a spreadsheet put commas at the ends of rows: give the file as plantbal wrote it"
    return "give the file as plantbal wrote it: this one was cut off, or edited"


def _row_of_json(source: str, line: int, text: str) -> Values:
    """Return a row by its JSON object."""
    place = Place(file=source, line=line)
    try:
        found = json.loads(text)
    except RecursionError as error:
        what = "not a JSON object of a row: it has brackets within brackets"
        raise InputFault(what, place=place, text=text[:200], remedy=_AS_WRITTEN) from error
    except ValueError as error:
        column = getattr(error, "colno", 1)
        place = Place(file=source, line=line, column=column)
        raise InputFault(
            f"not a JSON object: {error}", place=place, text=text[:200], remedy=_AS_WRITTEN
        ) from error
    kind = found.get("row") if isinstance(found, dict) else None
    row = schema().output.get(kind) if isinstance(kind, str) else None
    if row is None:
        raise InputFault(
            f'not a row of plantbal: its "row" is {kind!r}',
            place=place,
            text=text[:200],
            remedy="give what `plantbal run --format json` wrote",
        )
    keys = sorted(found)
    if keys != sorted([*row.names, "row"]) and not (
        row.without and keys == sorted([*row.older, "row"])
    ):
        wanted = ", ".join([*row.names, "row"])
        said = f"the keys of the row {kind} are {wanted}"
        raise InputFault(said, place=place, text=text[:200], remedy=_AS_WRITTEN)
    if not all(isinstance(value, str) for value in found.values()):
        said = "a value isn't text"
        raise InputFault(said, place=place, text=text[:200], remedy=_AS_WRITTEN)
    names = row.names if len(found) == len(row.names) + 1 else row.older
    return {"row": row.kind, **{name: found[name] for name in names}}


def _lines_of(text: str, passed: Mapping[str, int]) -> Iterator[tuple[int, list[str]]]:
    """Give the number and the fields of each line, but not of whole rows that are skipped.

    Parameters
    ----------
    text : str
        The lines. Only quotes and CR need the reader of CSV.
    passed : mapping of str to int
        The kinds that are skipped, and how many columns such a row has after its kind.
    """
    if '"' in text or "\r" in text:
        csv.field_size_limit(sys.maxsize)
        reader = csv.reader(io.StringIO(text, newline=""))
        for fields in reader:
            if fields and len(fields) - 1 != passed.get(fields[0]):
                yield reader.line_num, fields
        return
    if not passed:
        yield from (
            (number, line.split(",")) for number, line in enumerate(lines_of(text), 1) if line
        )
        return
    for number, line in enumerate(lines_of(text), 1):
        if line and line.count(",") != passed.get(line.partition(",")[0]):
            yield number, line.split(",")


def lines_of(text: str) -> Iterator[str]:
    """Give the lines of a text between LFs; only a part of them is in memory at once."""
    begin = 0
    while begin <= len(text):
        end = text.find("\n", begin + _PART)
        end = len(text) if end < 0 else end
        yield from text[begin:end].split("\n")
        begin = end + 1


@uncollected()
def parse_rows(source: str, text: str, kinds: Collection[str] | None = None) -> Sequence[Values]:
    """Return the rows of an output: CSV, or JSON lines if it begins with a brace.

    Parameters
    ----------
    source : str
        What the output is called in messages.
    text : str
        The output.
    kinds : collection of str, optional
        The kinds of rows to return; of other rows only the columns are counted. Without it, all.

    Raises
    ------
    InputFault
        If a row is none of the program's.
    """
    if text.startswith("{"):
        lines = enumerate(lines_of(text), 1)
        rows = (_row_of_json(source, number, line) for number, line in lines if line.strip())
        return [row for row in rows if kinds is None or row["row"] in kinds]
    if kinds is None:
        _refuse_powers(source, 1, text)
    output = schema().output
    keys = {kind: ("row", *row.names) for kind, row in output.items()}
    unwanted = [] if kinds is None else [kind for kind in output if kind not in kinds]
    found = OutputRows()
    plain = found.plain()
    for number, fields in _lines_of(text, {kind: len(output[kind].names) for kind in unwanted}):
        kind = fields[0]
        names = keys.get(kind, ())
        if len(names) != len(fields):
            names = _names_of(source, number, fields)
        if kinds is not None:
            if kind not in kinds:
                continue
            _refuse_powers(source, number, ",".join([*fields, ""]))
        if kind == "refused":
            if found.take_refused(fields):
                continue
            plain = found.plain()
        elif found.refused > limits.REFUSED_KEPT:
            plain = found.plain()
        plain.append(dict(zip(names, fields)))
    return found.whole()


def _refuse_powers(source: str, line: int, text: str) -> None:
    """Refuse a text that begins in a line if it has numbers as a spreadsheet writes them."""
    # Most outputs have no power of ten, and a search for one is slow.
    powers = _POWER.search(text) if "e+" in text or "E+" in text else None
    if powers:
        raise InputFault(
            f"{powers.group()} is how a spreadsheet writes long numbers",
            place=Place(file=source, line=line + text.count("\n", 0, powers.start())),
            text=powers.group(),
            remedy="take the file as plantbal wrote it; plantbal-desk report FILE --out FILE.xlsx "
            "makes a workbook of it",
        )


def read_rows(path: str | Path, *wanted: str) -> Sequence[Values]:
    """Return the rows of an output; ``-`` is standard input.

    Parameters
    ----------
    path : str or Path
        The file.
    *wanted : str
        Kinds of rows, such as ``report``, of which one at least has to be there.

    Raises
    ------
    InputFault
        If it can't be read, isn't whole, or has no such row.
    """
    source, text = read_text(path)
    rows = parse_rows(source, text)
    judge_rows(rows, source)
    refuse_parts(source, rows)
    if wanted and not any(row["row"] in wanted for row in rows):
        asking = _ASKING.get(wanted[0], _REPORT)
        raise InputFault(
            f"there is no {' and no '.join(wanted)} in it",
            place=Place(file=source),
            remedy=f"ask for one in the session, by a row such as {asking}",
        )
    return rows


def refuse_other(source: str, text: str) -> None:
    """Refuse what is no report by its first row: a session, another form, what a check said.

    Raises
    ------
    InputFault
        If it is to be refused, or is empty.
    """
    first = next(filter(None, csv.reader(io.StringIO(text, newline=""))), None)
    if first is None:
        refuse_parts(source, [])
    elif first[0] in _OF_CHECKS:
        refuse_parts(source, [{"row": first[0]}])
    elif first[0] not in schema().output:
        _names_of(source, 1, first)


def refuse_parts(source: str, rows: Sequence[Values], *, checks: bool = False) -> None:
    """Refuse an output that is empty or cut off, or is a check's although this isn't meant.

    Parameters
    ----------
    source : str
        What it is called.
    rows : list of dict
        Its rows.
    checks : bool
        Whether it may be what a check said.

    Raises
    ------
    InputFault
        If it is to be refused.
    """
    place = Place(file=source)
    if not rows:
        raise InputFault(
            "it is empty",
            place=place,
            remedy="run a session that asks for a report, by a row report,PERIOD",
        )
    if not checks and any(row["row"] in _OF_CHECKS for row in rows):
        raise InputFault(
            "this is what a check said", place=place, remedy="give the report that was checked"
        )
    cut = [block.title for block in blocks_of(rows) if not block.ended or block.solved is None]
    cut = [f"the report of {title}" for title in cut] + cut_beside_blocks(rows)
    if cut:
        raise InputFault(f"{cut[0]} is cut off", place=place, remedy="run the session again")


def cut_beside_blocks(rows: Sequence[Values]) -> list[str]:
    """Return what is cut off of an output outside its blocks, such as ``the design``."""
    cut = []
    for head, below, count, what in (
        ("design", "class", "streams", "the design"),
        ("advise", "meter", "count", "the advice"),
    ):
        wanted = sum(int(row[count]) for row in rows if row["row"] == head)
        if sum(row["row"] == below for row in rows) < wanted:
            cut.append(what)
    if rows and rows[-1]["row"] in ("window", "place", "component"):
        cut.append("a window" if rows[-1]["row"] != "component" else "a balance")
    return cut


def csv_fields(values: Values) -> list[str]:
    """Return the fields of a row as the program writes it in CSV."""
    row: Row = schema().output[values["row"]]
    names = row.names if len(values) == len(row.names) + 1 else row.older
    return [values["row"], *(values[name] for name in names)]


def csv_of(rows: Iterable[Values]) -> str:
    """Return rows as the program writes them in CSV."""
    parts, each = [], iter(rows)
    while some := list(islice(each, _ROWS_AT_ONCE)):
        out = io.StringIO()
        csv.writer(out, lineterminator="\n").writerows(map(csv_fields, some))
        parts.append(out.getvalue())
    return "".join(parts)
