"""The designs of an output held against its session, without the program.

A class is shown by its cut or its cycle, which the checker in plain Python tests as it tests those
of a report: a cut of measured streams shows that a stream is determined, a cycle of unmeasured ones
that it isn't. So no class need be computed here.
"""

from __future__ import annotations

from collections.abc import Iterable, Iterator
from itertools import islice, zip_longest
from types import SimpleNamespace as Row

from plantbal import checker
from plantbal.audit.held import Differs, fields_by_column
from plantbal.model.ledger import Declared, Ledger
from plantbal.records import Record, read_records

Design = list[Record]  # its `design` row, and its `class` rows
_KINDS = {"yes": ("redundant", "nonredundant"), "no": ("observable", "unobservable")}


def audited_designs(output: bytes) -> Iterator[Design]:
    """Give the designs of an output, in order."""
    found: Design = []
    for record in read_records(output):
        if record.fields[0] == "design":
            if found:
                yield found
            found = [record]
        elif record.fields[0] == "class" and found:
            found.append(record)
    if found:
        yield found


def designs_differ(output: bytes, ledger: Ledger) -> Iterator[Differs]:
    """Give the places at which the designs of an output aren't those of its session."""
    for design, declared in zip_longest(audited_designs(output), ledger.designs):
        if declared is None:
            yield Differs(design[0].line, "there is a design, and the session asks for none here")
        elif design is None:
            yield Differs(0, f"the design that line {declared.line} asks for isn't there")
        else:
            yield from _design_differs(design, declared)


def _design_differs(design: Design, declared: Declared) -> Iterator[Differs]:
    """Give the places at which a design isn't that of a plant."""
    rows = [fields_by_column(record) for record in design]
    stated = rows[0].get("nodes"), rows[0].get("streams"), len(rows) - 1
    nodes, streams = len(declared.nodes), len(declared.streams)
    if stated != (str(nodes), str(streams), streams):
        what = f"the design has {stated[0]} nodes and {stated[1]} streams in {stated[2]} rows"
        yield Differs(design[0].line, f"{what}, and the plant {nodes} and {streams} with its tanks")
        return
    for record, row, stream in zip(design[1:], rows[1:], declared.streams):
        wanted = stream.arc.name, stream.arc.from_, stream.arc.to
        measured = "no" if stream.kind == "plain" else "yes"
        if (row.get("name"), row.get("from"), row.get("to")) != wanted:
            what = f"found stream {row.get('name')} where the session has {wanted[0]}"
            yield Differs(record.line, f"{what} from {wanted[1]} to {wanted[2]}")
            return
        if row.get("measured") != measured or row.get("class") not in _KINDS[measured]:
            what = f"{wanted[0]} is {row.get('class')}, measured {row.get('measured')}"
            yield Differs(record.line, f"{what}, and by the session its measured is {measured}")
            return
    try:
        block = _block(rows, declared)
    except checker.Bad as bad:
        yield Differs(
            design[0].line, f"a cut or a cycle of the design can't be read ({bad.args[0]})"
        )
        return
    lines = {row["name"]: record.line for record, row in zip(design[1:], rows[1:])}
    for name, _, _ in block.test_witness():
        yield Differs(lines[name], f"the cut or cycle of {name} doesn't show its class")


def _block(rows: list[dict[str, str]], declared: Declared) -> checker.CheckedBlock:
    """Return a design as a block in which each measured stream has nothing: that decides no class.

    Raises
    ------
    Bad
        If a cut or a cycle has the wrong form.
    """
    nodes = {name: Row(name=name, price=0) for name in declared.nodes}
    named = {}
    for row in islice(rows, 1, None):
        measured = 0 if row["measured"] == "yes" else None
        named[row["name"]] = Row(
            name=row["name"],
            start=row["from"],
            end=row["to"],
            value=measured,
            variance=measured,
            kind=row["class"],
            shape=row.get("shape", ""),
            side=row.get("side", ""),
            parts=checker.parts_of(row.get("parts", "")),
        )
    checker.ask(
        _are_known((name for row in named.values() for name, _ in row.parts), named), "name"
    )
    return checker.CheckedBlock(Row(), nodes, named, Row(g=0, h=0), [])


def _are_known(names: Iterable[str], known: dict[str, Row]) -> bool:
    return all(name in known for name in names)
