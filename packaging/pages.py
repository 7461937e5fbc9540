"""Manual pages that follow from other files.

They are plantbal-desk(1), plantbal-session(5) and plantbal-report(5).
"""

from __future__ import annotations

import argparse
import re
import textwrap
from collections.abc import Iterable, Mapping
from itertools import groupby

import words
from plantbal.schema import Code, Column, Row, schema

MADE = '.\\" Made by packaging/derived write.'
RELEASE = re.compile(r"^## \[([0-9.]+)\] - (\d{4}-\d{2}-\d{2})$", re.M)
LIMITS = {
    "most_bytes": "bytes of an input",
    "most_units_and_tanks": "units and tanks",
    "most_streams_of_version_1": "streams and tanks in version 1",
    "most_streams": "streams and tanks in version 2",
    "most_boundaries": "boundaries",
    "most_points": "points in a strapping table",
    "most_periods": "periods",
    "most_days_of_period": "days of a period",
    "most_days_of_transfer": "days of a transfer",
    "most_facts": "facts: readings, transfers and dips",
}


def release() -> tuple[str, str]:
    """Return the version and the day of the last release, by the change log."""
    found = RELEASE.search((words.TOP / "CHANGELOG.md").read_text(encoding="utf-8"))
    if not found:
        raise SystemExit("CHANGELOG.md: there is no line `## [0.16.0] - 2026-11-29`")
    return found[1], found[2]


def wrapped(lines: list[str]) -> str:
    """Return the lines of a page as its text, none of them long but those of examples."""
    out: list[str] = []
    literal = False
    for line in "\n".join(lines).splitlines():
        literal = line == ".EX" or (literal and line != ".EE")
        if literal or line.startswith("."):
            out.append(line)
            continue
        for part in textwrap.wrap(line, 79, break_long_words=False, break_on_hyphens=False) or [""]:
            out.append("\\&" + part if part.startswith((".", "'")) else part)
    return "\n".join(out) + "\n"


def head(name: str, section: int, manual: str, about: str) -> list[str]:
    """Return the first lines of a page."""
    version, day = release()
    return [
        MADE,
        f'.TH {name.upper()} {section} {day} "plantbal {version}" "{manual}"',
        ".nh",
        ".ad l",
        ".SH NAME",
        f"{name} \\- {about}",
    ]


def raw(text: str) -> str:
    """Return a text with what troff would read as its own taken away."""
    for character, escape in (("\\", "\\e"), ("-", "\\-"), ("·", "\\(pc"), ("²", "\\(S2")):
        text = text.replace(character, escape)
    return "\\&" + text if text.startswith((".", "'")) else text


def breakable(shape: str) -> str:
    """Return a row that may go on to the next line after a comma."""
    return raw(shape).replace(",", ",\\:")


def grouped(number: int) -> str:
    """Return a number as a reader likes it: powers of ten above a million as such."""
    size = abs(number)
    sign = "\\-" if number < 0 else ""
    power = len(str(size)) - 1
    if power >= 9 and size == 10**power:
        return f"{sign}10^{power}"
    for two in range(60, 128):
        if size in (2**two, 2**two - 1):
            return f"{sign}2^{two}" + (" \\- 1" if size == 2**two - 1 else "")
    return f"{sign}{size:,}"


def marked(text: str) -> str:
    """Return a text of the guide for a page: words between backticks bold, links taken away."""
    text = re.sub(r' \("[^"]+"\)', "", text)
    parts = re.split(r"`([^`]*)`", text)
    out = "".join(f"\\fB{raw(part)}\\fR" if at % 2 else raw(part) for at, part in enumerate(parts))
    return "\\&" + out if out.startswith((".", "'")) else out


def sentence(text: str) -> str:
    """Return a text as a sentence of its own."""
    text = text[:1].upper() + text[1:]
    return text if text.endswith((".", ":")) else text + "."


def item(term: str, *texts: str) -> list[str]:
    """Return a term in bold with what it means."""
    return [".TP", f".B {breakable(term)}", *(text for text in texts if text)]


def code_items(codes: Mapping[int, Code]) -> list[str]:
    """Return the codes with their words."""
    lines = []
    for cause in codes.values():
        lines += item(f"{cause.code} {cause.word}", marked(sentence(cause.about)))
        if cause.example:
            lines.append(f"Example: {marked(cause.example)}")
        if cause.remedy:
            lines.append(f"What to do: {marked(cause.remedy)}")
    return lines


# plantbal-session(5)

SESSION = """
A session is a file of rows in CSV: what
.B plantbal run
reads from standard input.
It declares a plant, books facts, and asks for reports of periods, in one list of rows that are
read in order: a row sees only what comes before it.
.PP
Fields are separated by commas.
A field that begins with a double quote continues to the next single one, and may contain commas
and line ends; two double quotes in it stand for one.
A record ends with a line feed, a carriage return, or both.
A byte order mark at the beginning of the file is removed, empty lines aren't records, and empty
fields at the end of a record are dropped.
Spaces are never dropped; there is no header line, and there are no comments.
.PP
A session is of version 2 if the row
.B version,2
comes before all rows that are stored; otherwise it is of version 1.
A session of version 2 may have boundaries, and tanks and streams that are in service from the day
SINCE to the day UNTIL inclusive; its reports contain what is in service on some day of their period.
.PP
A row that can't be accepted writes one
.B refused
row with the number of its record and a code and changes nothing, and the session goes on.
"""
FIELDS = """
A
.B name
is 1 to 32 letters of ASCII, digits, underscores, hyphens or full stops.
Units, tanks, streams and boundaries share one space of names, in which
.B env
stands for the world outside; periods have a space of their own, and so do the ids of facts.
A
.B reason
is 1 to 80 characters from the space to the tilde.
A
.B day
is written as in
.BR 2024\\-05\\-01 ,
from 1900\\-01\\-01 to 2199\\-12\\-31.
.PP
A number is whole and written in digits only, without leading zeros, with a hyphen in front if it
is negative.
A tonne is 1,000,000 grams.
"""


def number_fields(rows: Iterable[Row]) -> list[Column]:
    """Return the columns of numbers, each range once."""
    found: dict[tuple[str, int | None, int | None], Column] = {}
    for row in rows:
        for column in (*row.columns, *row.tail):
            if column.type == "number" and column.about:
                found.setdefault((column.label, column.low, column.high), column)
    return list(found.values())


def range_of(column: Column) -> str:
    """Return the range of a column of numbers as words, if it is one that a reader may meet."""
    if column.low is None or column.high is None:
        return ""
    if column.high >= 2**60 and 0 in (
        column.high & (column.high - 1),
        column.high & (column.high + 1),
    ):
        return ""
    return f"From {grouped(column.low)} to {grouped(column.high)}."


def session_page() -> str:
    """Return the page plantbal-session(5)."""
    rows = schema()
    lines = head("plantbal-session", 5, "File formats", "the rows that plantbal run reads")
    lines += [".SH DESCRIPTION", SESSION.strip(), ".SH ROWS"]
    shown = set()
    for row in rows.session:
        lines += item(row.pattern, marked(sentence(row.about)))
        if row.example not in shown:
            lines += [".EX", raw(row.example), ".EE"]
        shown.add(row.example)
    lines += [".SH FIELDS", FIELDS.strip()]
    for column in number_fields(rows.session):
        lines += item(column.label, marked(sentence(column.about)), range_of(column))
    lines += [".SH LIMITS", "A session has at most"]
    for key, about in LIMITS.items():
        lines += [".IP \\(bu 2", f"{rows.limits[key]:,} {about},"]
    lines[-1] = lines[-1].rstrip(",") + "."
    lines += [".SH REFUSALS", "The row gives the lowest code that applies."]
    lines += code_items(rows.refusals)
    lines += [
        ".SH EXAMPLES",
        "A unit with a meter on each side, and its report of a day:",
        ".PP",
        ".EX",
    ]
    example = (words.TOP / "examples" / "two_meters.csv").read_text(encoding="utf-8")
    lines += [raw(line) for line in example.splitlines()]
    lines += [".EE", ".SH SEE ALSO"]
    lines += [".BR plantbal (1),", ".BR plantbal\\-report (5),", ".BR plantbal\\-desk (1)"]
    return wrapped(lines)


# plantbal-report(5)

REPORT = """
This is what
.B plantbal run
and
.B plantbal check
write to standard output, and what
.B plantbal check
reads: rows in CSV, each of which begins with its kind.
Each row ends with a line feed; a field with a comma, a double quote or a line end is put between
double quotes.
.PP
A report is a block of rows:
.BR report ,
one
.B node
row for each node, one
.B stream
row for each stream,
.BR solved ,
the rows of tests if they were asked for
.RB ( global ,
.BR nodal ,
.BR measure ),
and
.BR end .
If suspects were taken out there are several blocks for a period, with a
.B taken
row between two of them and
.B stop
after the last one.
All other rows come between blocks.
.PP
A
.B stream
row of a report without least bounds doesn't have the two columns
.B least_lo
and
.BR least_hi ,
as in the reports of other programs; then all stream rows of its block do.
"""
JSON = """
With
.B \\-\\-format json
each row of
.B run
is one object on a line: the key
.B row
has its kind, and each column has its name as its key.
The keys come in byte order, every value is a string, and an empty field is the empty string.
.B plantbal check
reads only CSV.
"""


def column_items(row: Row) -> list[str]:
    """Return the columns of a row, neighbours with the same description together."""
    lines: list[str] = []
    for about, columns in groupby((*row.columns, *row.tail), key=lambda column: column.about):
        group = list(columns)
        text = marked(sentence(about)) if about else ""
        for column in group:
            if column.words and not all(f"`{word}`" in about for word in column.words):
                known = ", ".join(f"\\fB{raw(word)}\\fR" for word in column.words)
                text += f" One of {known}."
        ranges = {column.name: range_of(column) for column in group if range_of(column)}
        if len(set(ranges.values())) == 1 and len(ranges) == len(group):
            text += " " + next(iter(ranges.values()))
        else:
            text += "".join(f" {name}: {said.lower()}" for name, said in ranges.items())
        lines += [".TP", ".I " + raw(", ".join(column.name for column in group)), text]
    return lines


def report_page() -> str:
    """Return the page plantbal-report(5)."""
    rows = schema()
    lines = head(
        "plantbal-report",
        5,
        "File formats",
        "the rows that plantbal writes, and that its check reads",
    )
    lines += [".SH DESCRIPTION", REPORT.strip()]
    titles = {
        "run": "ROWS OF RUN",
        "check": "ROWS OF CHECK",
        "make": "ROW OF MAKE WITH SUMMARY",
    }
    for by, title in titles.items():
        lines.append(f".SH {title}")
        for row in rows.output.values():
            if row.by == by:
                lines += [
                    f".SS {row.kind}",
                    f".B {breakable(row.pattern)}",
                    ".PP",
                    marked(sentence(row.about)),
                ]
                lines += column_items(row)
    lines += [".SH TESTS OF A CHECK", "The code of a"]
    lines += [".B no", "row is that of the first test that the block fails:"]
    lines += code_items(rows.tests)
    lines += [
        ".SH ROWS THAT CAN'T BE READ",
        "The code of an",
        ".B unreadable",
        "row says that the row",
    ]
    lines += code_items(rows.unreadable)
    lines += [".SH JSON LINES", JSON.strip(), ".SH SEE ALSO"]
    lines += [".BR plantbal (1),", ".BR plantbal\\-session (5),", ".BR plantbal\\-desk (1)"]
    return wrapped(lines)


# plantbal-desk(1)


def prose(text: str) -> list[str]:
    """Return a text of a parser for a page: paragraphs filled, indented lines as they stand."""
    lines: list[str] = []
    literal = False
    for line in text.strip("\n").splitlines():
        indented = line.startswith("  ")
        if indented != literal and line.strip():
            while lines and lines[-1] in ("", ".PP"):
                lines.pop()
            lines += [".PP", ".EX"] if indented else [".EE", ".PP"]
            literal = indented
        if line.strip():
            lines.append(raw(line[2:]) if literal else marked(line))
        elif literal:
            lines.append("")
        elif lines and lines[-1] != ".PP":
            lines.append(".PP")
    while lines and lines[-1] in ("", ".PP"):
        lines.pop()
    if literal:
        lines.append(".EE")
    # An empty line before the end of an example is no paragraph.
    return [
        line
        for at, line in enumerate(lines)
        if not (line == "" and lines[at + 1 : at + 2] == [".EE"])
    ]


def synopsis(parser: argparse.ArgumentParser) -> list[str]:
    """Return the usage of a parser in one paragraph."""
    usage = re.sub(r"\s+", " ", parser.format_usage().removeprefix("usage: ")).strip()
    return [raw(usage)]


def option_items(command: words.Command) -> list[str]:
    """Return the options of a command."""
    lines = []
    for option in command.options:
        value = f" {option.value.name}" if option.value else ""
        names = ", ".join(raw(name) for name in option.names)
        lines += [".TP", f'.BI "{names}" "{raw(value)}"' if value else f".B {names}"]
        about = sentence(raw(option.about)) if option.about else "Takes a value."
        if option.value and option.value.choices:
            about += " One of " + ", ".join(raw(word) for word in option.value.choices) + "."
        lines.append(about)
    return lines


def parsers_below(parser: argparse.ArgumentParser) -> list[argparse.ArgumentParser]:
    """Return the parsers of the words of a parser, in order."""
    return [
        below
        for action in parser._actions
        if isinstance(action, argparse._SubParsersAction)
        for below in action.choices.values()
    ]


def subcommand_lines(command: words.Command, parser: argparse.ArgumentParser) -> list[str]:
    """Return what a page says of a subcommand, and of its inner words after it."""
    lines = [
        f".SS {raw(parser.prog.removeprefix('plantbal-desk '))}",
        *synopsis(parser),
        ".PP",
        *prose(parser.description or ""),
    ]
    lines += option_items(command)
    if parser.epilog:
        lines += [".PP", *prose(parser.epilog)]
    for inner, below in zip(command.inner, parsers_below(parser)):
        lines += subcommand_lines(inner, below)
    return lines


def desk_page() -> str:
    """Return the page plantbal-desk(1)."""
    parser, command = words.desk_parser(), words.desk()
    lines = head(
        "plantbal-desk",
        1,
        "User commands",
        "sessions, reports, pictures and fleets around plantbal",
    )
    lines += [".SH SYNOPSIS", ".B plantbal\\-desk", ".I SUBCOMMAND", "[options]", ".br"]
    lines += [
        ".B plantbal\\-desk \\-\\-version",
        ".SH DESCRIPTION",
        *prose(parser.description or ""),
    ]
    lines += [".SH OPTIONS", *option_items(command), ".SH SUBCOMMANDS"]
    for inner, below in zip(command.inner, parsers_below(parser)):
        lines += subcommand_lines(inner, below)
    if parser.epilog:
        lines += [".SH EXIT STATUS AND EXAMPLES", *prose(parser.epilog)]
    lines += [".SH ENVIRONMENT", *item("PLANTBAL", "The program, if it isn't on the path.")]
    lines += [
        ".SH SEE ALSO",
        ".BR plantbal (1),",
        ".BR plantbal\\-session (5),",
        ".BR plantbal\\-report (5)",
    ]
    return wrapped(lines)


def files() -> dict[str, str]:
    """Return the text of each page, by its file's name."""
    return {
        "plantbal-session.5": session_page(),
        "plantbal-report.5": report_page(),
        "plantbal-desk.1": desk_page(),
    }


def faults() -> list[str]:
    """Return what is wrong with the versions that stand in files written by hand."""
    version, _ = release()
    found = []
    if (words.TOP / "VERSION").read_text(encoding="ascii").strip() != version:
        found.append(f"VERSION isn't {version}, the last release of CHANGELOG.md")
    for page in (words.PAGE, words.PAGE.with_name("plantbal-verify.1")):
        first = page.read_text(encoding="utf-8").splitlines()[0]
        if f'"plantbal {version}"' not in first:
            found.append(f"docs/{page.name}: its .TH line hasn't the version plantbal {version}")
    return found
