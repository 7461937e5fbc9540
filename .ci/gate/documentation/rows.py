"""The rows of a session and of an output as data: python/plantbal/schema.json.

Kinds, columns, keys, ranges and words stand in the two tables of `pb_form` alone, the limits in
`pb_limits`, and what they mean in words in docs/REFERENCE.md. A form of a table that isn't known here
ends with a sentence that names it.
"""

from __future__ import annotations

import json
import re
from dataclasses import dataclass
from typing import Any

from .expressions import Made, Values
from .sources import Sources, Unknown

Data = dict[str, Any]

SCHEMA = "python/plantbal/schema.json"
# The columns of sessions that the guide calls otherwise than the table does.
LABELS = {"base": "BASEVAR", "day": "DATE"}
# Those of one kind alone: the variance of a grade has a range of its own.
OWN_LABELS = {("assay", "variance"): "GRADEVAR"}
# What the lists of an output hold.
ITEMS = {"side": "names", "parts": "parts"}
# The rows that another command than `run` writes.
WRITERS = {"summary": "make", "yes": "check", "no": "check", "unreadable": "check"}


@dataclass
class Kind:
    """A kind of rows by its table: its name there, its word, its columns, and those that repeat."""

    name: str
    word: str
    columns: list[Data]
    tail: list[Data]

    def variant(self) -> str:
        """Return what distinguishes the kind among those of its word: `metered` of `StreamMetered`.

        A kind with dates of service may have a name without its word, such as `MeteredInService`.
        """
        front = len(self.word) if self.name.lower().startswith(self.word) else 0
        if not front and not self.name.endswith("InService"):
            raise Unknown(f"rows: the kind {self.name} isn't named for its word {self.word}")
        return "-".join(re.findall(r"[A-Z][a-z0-9]*", self.name[front:])).lower()


def column_of(column: Data) -> Data:
    """Return a column of a table as data."""
    holds, found = column["holds"], {"name": column["key"]}
    if not isinstance(holds, Made):
        raise Unknown(f"rows: what does a column {column['key']} hold?")
    optional = {"optional": True} if column["optional"] or holds.name == "Items" else {}
    if holds.name == "Word":
        return {**found, "type": "word", **optional, "words": holds.parts[0]}
    if holds.name == "Number":
        low, high = holds.parts
        return {**found, "type": "number", **optional, "from": low, "to": high}
    if holds.name in ("Name", "Reason", "Date"):
        return {**found, "type": holds.name.lower(), **optional}
    if holds.name == "Items" and column["key"] in ITEMS:
        return {**found, "type": ITEMS[column["key"]], **optional}
    raise Unknown(f"rows: what does a column {column['key']} hold by {holds.name}?")


def kinds_of(sources: Sources, module: str, table: str) -> list[Kind]:
    """Return the kinds of a table in their order."""
    values, spec, found = Values(sources), sources.spec(module), []
    for kind in values.of(spec, f"{table}_kinds"):
        schema = values.of(spec, f"{table}_schema", kind)
        if sorted(schema) != ["columns", "tail"]:
            raise Unknown(f"rows: a schema has {sorted(schema)}")
        columns, tail = ([column_of(one) for one in schema[part]] for part in ("columns", "tail"))
        first = columns.pop(0)
        if first["name"] != "row" or len(first.get("words", [])) != 1:
            raise Unknown(f"rows: the first column of {kind.name} has no word of the kind")
        found.append(Kind(kind.name, first["words"][0], columns, tail))
    return found


def labelled(column: Data, kind: str) -> Data:
    """Return a column of a session with what the guide calls it."""
    label = LABELS.get(column["name"], column["name"].upper())
    label = OWN_LABELS.get((kind, column["name"]), label)
    if column["type"] == "word" and len(column["words"]) == 1:
        label = column["words"][0]
    elif column["type"] == "number" and column["from"] == column["to"]:
        label = str(column["from"])
    return {"name": column["name"], "label": label, **column}


def is_dated(row: Data) -> bool:
    """Say whether a row of a session has dates of service."""
    return any(column["name"] == "since" for column in row["columns"])


def session(sources: Sources) -> list[Data]:
    """Return the rows of a session; kinds of one word are its variants, and stand together."""
    kinds, found = kinds_of(sources, "pb_form.specs.SessionRows", "session"), []
    words = [kind.word for kind in kinds]
    for kind in kinds:
        variant = kind.variant() if words.count(kind.word) > 1 else ""
        row: Data = {"kind": kind.word}
        if variant:
            row["variant"] = variant
        if kind.tail:
            row["tail"] = [labelled(column, kind.word) for column in kind.tail]
        columns = [labelled(column, kind.word) for column in kind.columns]
        found.append({**row, "columns": columns})
    first = {row["kind"]: place for place, row in enumerate(found) if not is_dated(row)}
    found.sort(key=lambda row: (first[row["kind"]], is_dated(row)))
    shown = [(row["kind"], row.get("variant")) for row in found]
    if len(set(shown)) < len(shown):
        raise Unknown(f"rows: two kinds of a session have one word and one variant: {shown}")
    return found


def output(sources: Sources) -> list[Data]:
    """Return the rows of an output; a second kind of a word is an older form with fewer columns."""
    found: dict[str, Data] = {}
    for kind in kinds_of(sources, "pb_form.specs.OutputRows", "output"):
        row = found.get(kind.word)
        if row is None:
            tail = {"tail": kind.tail} if kind.tail else {}
            by = WRITERS.get(kind.word, "run")
            found[kind.word] = {"kind": kind.word, **tail, "by": by, "columns": kind.columns}
            continue
        kept = [column for column in row["columns"] if column in kind.columns]
        if "without" in row or kept != kind.columns or kind.tail:
            raise Unknown(f"rows: {kind.name} isn't a {kind.word} row with fewer columns")
        without = [one["name"] for one in row["columns"] if one not in kept]
        found[kind.word] = {"kind": kind.word, "without": without, **row}
    return list(found.values())


def limits(sources: Sources) -> dict[str, int]:
    """Return the limits of plants, books, runs and fields."""
    values, found = Values(sources), {}
    for module, names in (
        ("pb_limits.specs.Limits", None),
        ("pb_facts.specs.Assays", ["most_assays"]),
        ("pb_rows.specs.Reason", ["most_reason"]),
        ("pb_rows.specs.Date", ["first_year", "last_year"]),
    ):
        spec = sources.spec(module)
        for name in names or [one for one in spec.names if spec.names[one].code.count(" : ℕ\n")]:
            found[name] = values.of(spec, name)
    form = sources.spec("pb_form.specs.OutputRows")
    found["most_round"] = values.of(form, "round_range").parts[1]
    name_form = sources.spec("pb_rows.specs.Name")
    most = re.search(r"nat_le \(length field\) (\d+) &&", name_form.names["is_name"].code)
    if not most:
        raise Unknown(f"{name_form.path}: how long may a name be?")
    found["most_name"] = int(most[1])
    return found


def codes(sources: Sources, words: str) -> list[Data]:
    """Return a list of words with their codes, from 1."""
    listed = Values(sources).of(sources.spec("pb_form.specs.Words"), words)
    return [{"code": code, "word": word} for code, word in enumerate(listed, 1)]


def data_of(sources: Sources) -> Data:
    """Return all that the definitions say of rows."""
    return {
        "about": "Made by .ci/documents write from the definitions of the program and from"
        " docs/REFERENCE.md.",
        "limits": limits(sources),
        "session": session(sources),
        "output": output(sources),
        "refusals": codes(sources, "cause_words"),
        "tests": codes(sources, "test_words"),
        "unreadable": codes(sources, "unread_words"),
    }


def flat(item: object) -> str:
    """Return an item on one line."""
    return json.dumps(item, ensure_ascii=False)


def member(name: str, items: list[str], begin: str = "[", end: str = "]") -> str:
    """Return a member of the file with a line for each of its items."""
    lines = ",\n".join(f"    {item}" for item in items)
    return f"  {flat(name)}: {begin}\n{lines}\n  {end}"


def row_text(row: Data) -> str:
    """Return a row: what it is on a line, and a line for each of its columns."""
    about = ", ".join(f"{flat(name)}: {flat(row[name])}" for name in row if name != "columns")
    columns = ",\n".join(f"      {flat(column)}" for column in row["columns"])
    return f'{{{about}, "columns": [\n{columns}' + ("\n    ]}" if columns else "    ]}")


def text_of(data: Data) -> str:
    """Return the text of the file."""
    parts = [f'  "about": {flat(data["about"])}']
    limited = [f"{flat(name)}: {number}" for name, number in data["limits"].items()]
    parts.append(member("limits", limited, "{", "}"))
    parts += [member(name, list(map(row_text, data[name]))) for name in ("session", "output")]
    for name in ("refusals", "tests", "unreadable"):
        parts.append(member(name, list(map(flat, data[name]))))
    return "{\n" + ",\n".join(parts) + "\n}\n"
