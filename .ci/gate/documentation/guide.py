"""What the pages for users say of rows and codes, and the parts of them that are made."""

from __future__ import annotations

import re
from functools import cache
from typing import Any

from .rows import Data, data_of
from .sources import Sources, Unknown

GUIDE = "docs/GUIDE.md"
AUDIT = "docs/AUDIT.md"
REFERENCE = "docs/REFERENCE.md"
PAGES = (GUIDE, AUDIT, REFERENCE)
CONTENTS = "<!-- contents: made by .ci/documents write -->"
KEYS = "<!-- keys: made by .ci/documents write -->"
# What the guide calls the number that stands in place of a base variance.
NO_VARIANCE = "BASEVAR of a plain stream"


def between(text: str, mark: str, lines: list[str], path: str) -> str:
    """Return a document with these lines between its two marks."""
    if text.count(mark) != 2:
        raise Unknown(f"{path} has the mark {mark} {text.count(mark)} times, not twice")
    before, _, after = text.split(mark)
    return before + mark + "\n" + "\n".join(lines) + "\n" + mark + after


def table_under(text: str, head: str) -> list[list[str]]:
    """Return the rows of the first table under a place, as lists of cells."""
    if head not in text:
        raise Unknown(f"{REFERENCE} and {AUDIT}: there is no {head.strip()}")
    lines = text[text.index(head) :].splitlines()
    while lines and not lines[0].startswith("|"):
        lines.pop(0)
    found = []
    for line in lines:
        if not line.startswith("|"):
            break
        found.append([cell.strip() for cell in re.split(r"(?<!\\)\|", line.strip()[1:-1])])
    return found[2:]


def whole(text: str) -> int | str:
    """Return a number as the guide writes it, or the text if it isn't one."""
    text = text.replace(",", "")
    if re.fullmatch(r"-?[0-9]+", text):
        return int(text)
    power = re.fullmatch(r"10\^([0-9]+)", text)
    return 10 ** int(power[1]) if power else text


def pattern_of(row: Data) -> str:
    """Return a row of a session as the guide writes it."""
    if row["kind"] == "late":
        return "late,"
    tail = "".join(f",{column['label']}" for column in row.get("tail", []))
    pattern = ",".join([row["kind"], *(column["label"] for column in row["columns"])])
    return f"{pattern}[{tail}]..." if tail else pattern


def columns_of(row: Data) -> list[Data]:
    """Return all columns of a row, those that repeat among them."""
    return [*row["columns"], *row.get("tail", [])]


class Guide:
    """The guide's words, which are given to rows, columns and codes; and what it says otherwise.

    Attributes
    ----------
    complaints : list of str
        What the guide says and the tables don't, or the reverse.
    """

    def __init__(self, text: str) -> None:
        self.text = text
        self.complaints: list[str] = []

    def say(self, what: str) -> None:
        """Note what is otherwise."""
        self.complaints.append(f"{REFERENCE}: {what}")

    def sessions(self, rows: list[Data]) -> None:
        """Give the rows of a session what the guide says of them."""
        said = {
            re.sub(r"^`([^`]*)`.*", r"\1", cells[0]): (cells[1], cells[2].replace("`", ""))
            for cells in table_under(self.text, "\n## Rows\n")
        }
        for row in rows:
            if pattern_of(row) in said:
                row["about"], row["example"] = said[pattern_of(row)]
            else:
                self.say(f"the table of rows has no {pattern_of(row)}")
        for pattern in said:
            if pattern not in map(pattern_of, rows):
                self.say(f"the table of rows has {pattern}, which is none of the program")

    def fields(self, rows: list[Data], years: tuple[int, int]) -> None:
        """Hold the table of ranges against the columns of a session, and give them its words."""
        said = {
            label: (cells[1], (whole(cells[2]), whole(cells[3])))
            for cells in table_under(self.text, "\n| field | what it is |")
            for label in cells[0].split(", ")
        }
        found: dict[str, tuple[Any, Any]] = {}
        for column in (one for row in rows for one in columns_of(row)):
            label = NO_VARIANCE if column["label"] == "0" else column["label"]
            if column["type"] == "number":
                found[label] = (column["from"], column["to"])
            elif column["type"] == "date":
                found[label] = (f"{years[0]}-01-01", f"{years[1]}-12-31")
            else:
                continue
            about = said.get(label, ("", None))[0]
            if about:
                column["about"] = about
        for label, ends in found.items():
            if label not in said:
                self.say(f"the table of fields has no {label}")
            elif said[label][1] != ends:
                low, high = said[label][1]
                self.say(
                    f"{label} is from {low} to {high}, and the definitions say"
                    f" {ends[0]} to {ends[1]}"
                )
        for label in said:
            if label not in found:
                self.say(f"the table of fields has {label}, which no row has")

    def outputs(self, rows: list[Data]) -> None:
        """Give the rows of an output and their columns what the guide says of them."""
        begin = self.text.index("\n## All rows of the output\n")
        paragraphs = self.text[begin : self.text.index("\n## JSON lines\n")].split("\n\n")
        by_kind = {row["kind"]: row for row in rows}
        seen: dict[str, list[str]] = {kind: [] for kind in by_kind}
        for paragraph, following in zip(paragraphs, [*paragraphs[1:], ""]):
            if not paragraph.startswith("`"):
                continue
            own = self.output_about(paragraph.replace("\n", " "), by_kind)
            for cells in table_under(following, "|") if following.startswith("|") else []:
                self.output_column(cells, own, by_kind, seen)
        self.output_end(by_kind["end"], seen)
        for kind, row in by_kind.items():
            names = [column["name"] for column in columns_of(row)]
            if sorted(seen[kind]) != sorted(names):
                self.say(
                    f"`{kind}` rows have the columns {', '.join(names)}, and all rows of the output"
                    f" say {', '.join(seen[kind])}"
                )

    def output_about(self, head: str, by_kind: dict[str, Data]) -> list[str]:
        """Give the kinds at the head of a paragraph what it says of them, and return them."""
        front, mark, about = head.partition(": ")
        named = re.findall(r"`([a-z]+)`", front if mark else head)
        own = [kind for kind in named if kind in by_kind]
        for kind in own:
            by_kind[kind].setdefault("about", about if mark and len(own) == 1 else head)
        return own

    def output_column(
        self,
        cells: list[str],
        own: list[str],
        by_kind: dict[str, Data],
        seen: dict[str, list[str]],
    ) -> None:
        """Give columns what a row of a table says: kinds if there are several, names, words."""
        wide = len(cells) == 3
        kinds = re.findall(r"`([a-z]+)`", cells[0]) if wide else own[:1]
        if wide and cells[0] == "all three":
            kinds = own[:3]
        for kind in kinds:
            if kind not in by_kind:
                self.say(f"all rows of the output have a {kind}, which is none of the program")
                continue
            for name in cells[wide].split(", "):
                seen[kind].append(name)
                for column in columns_of(by_kind[kind]):
                    if column["name"] == name:
                        column["about"] = cells[wide + 1]

    def output_end(self, row: Data, seen: dict[str, list[str]]) -> None:
        """Give the last row of a block its words: the guide has it with the first one."""
        row["about"] = "the last row of a block"
        names = [column["name"] for column in row["columns"]]
        seen["end"] = seen["end"] or [name for name in names if name in seen["report"]]
        for column in row["columns"]:
            column["about"] = "as in the `report` row of the block"

    def codes(self, heading: str, wanted: list[Data]) -> None:
        """Hold a table of codes and words against the definitions, and take what it says."""
        said = {}
        for cells in table_under(self.text, heading):
            found = re.match(r"([0-9]+) (\w+)", cells[0])
            if found is None:
                raise Unknown(f"{AUDIT}: there is no code in {cells[0]}")
            said[int(found[1])] = (found[2], re.sub(r"\s+", " ", cells[1]))
        for item in wanted:
            if said.get(item["code"], ("", ""))[0] == item["word"]:
                item["about"] = said[item["code"]][1]
            else:
                self.say(f"{heading.strip()[4:]}: code {item['code']} is {item['word']}")

    def refusals(self, wanted: list[Data]) -> None:
        """Do the same for the refusals, each a paragraph of its own."""
        part = self.text[self.text.index("\n## Refusals\n") :]
        for item in wanted:
            found = re.search(
                rf"\*\*{item['code']} {item['word']}\.\*\* (.*?)\s*\*Example:\*(.*?)"
                r"\*What\s+to\s+do:\*(.*?)(?=\n\n)",
                part,
                re.S,
            )
            if found:
                said = (re.sub(r"\s+", " ", one).strip() for one in found.groups())
                item["about"], item["example"], item["remedy"] = said
            else:
                self.say(
                    f"Refusals: there is no **{item['code']} {item['word']}.** with an example and"
                    " what to do"
                )


@cache
def schema(sources: Sources) -> tuple[Data, list[str]]:
    """Return the rows as data with the guide's words, and what the guide says otherwise of them."""
    words = sources.text(REFERENCE) + sources.text(AUDIT)
    data, guide = data_of(sources), Guide(words)
    guide.sessions(data["session"])
    guide.fields(data["session"], (data["limits"]["first_year"], data["limits"]["last_year"]))
    guide.outputs(data["output"])
    guide.refusals(data["refusals"])
    guide.codes("\n### What a `no` means\n", data["tests"])
    guide.codes("\n### What can't be read\n", data["unreadable"])
    return data, guide.complaints


def anchor_of(heading: str) -> str:
    """Return what a link calls a heading."""
    return "#" + re.sub(r"[^a-z0-9 _-]", "", heading.lower()).replace(" ", "-")


def contents_of(text: str) -> list[str]:
    """Return the headings of a text as a list of links."""
    headings = re.findall(r"^##(#?) (.*)$", text, re.M)
    return [f"{'  ' * len(deep)}- [{title}]({anchor_of(title)})" for deep, title in headings]


def keys(sources: Sources) -> list[str]:
    """Return the table of the keys of JSON lines."""
    lines = ["| row | keys |", "|---|---|"]
    for row in schema(sources)[0]["output"]:
        if row["by"] == "run":
            names = ", ".join(f"`{column['name']}`" for column in row["columns"])
            lines.append(f"| `{row['kind']}` | {names} |")
    return lines


def document(sources: Sources, path: str) -> str:
    """Return a page with its list of contents, and the reference with its table of keys."""
    text = sources.text(path)
    text = between(text, CONTENTS, contents_of(text.rpartition(CONTENTS)[2]), path)
    return between(text, KEYS, keys(sources), path) if path == REFERENCE else text
