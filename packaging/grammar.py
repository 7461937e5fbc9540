"""The parts of docs/FORMAT.md that follow from the schema and from the conformance files."""

from __future__ import annotations

import csv
import io
import re
from collections.abc import Iterable

import words
from plantbal.schema import Column, schema

FORMAT = words.TOP / "docs" / "FORMAT.md"
CONFORMANCE = words.TOP / "examples" / "conformance"
PART = re.compile(
    r"(<!-- (?P<name>[a-z ]+): made by packaging/derived write -->\n).*?(<!-- end -->\n)", re.S
)
BASICS = """\
BOM     = %xEF.BB.BF
ending  = %x0A / %x0D / %x0D.0A
letter  = %x41-5A / %x61-7A
digit   = %x30-39
name    = 1*32( letter / digit / "_" / "-" / "." )
natural = "0" / %x31-39 *digit
whole   = natural / "-" %x31-39 *digit
day     = 4digit "-" 2digit "-" 2digit"""

NAMES = """\
names           = name *( " " name )
parts           = part *( " " part )
part            = ( "+" / "-" ) name"""


def bounds(column: Column) -> str:
    """Return the range of a column of numbers, as a comment of the grammar."""
    if column.low is None or column.high is None:
        return ""
    return f"{power(column.low)} to {power(column.high)}"


def power(number: int) -> str:
    """Return a number, long ones as powers."""
    sign, size = ("-" if number < 0 else ""), abs(number)
    if size >= 10**9 and size == 10 ** (len(str(size)) - 1):
        return f"{sign}10^{len(str(size)) - 1}"
    if size >= 2**60:
        up = size.bit_length()
        if size == 2**up - 1:
            return f"{sign}(2^{up} - 1)" if sign else f"2^{up} - 1"
        if size == 2 ** (up - 1):
            return f"{sign}2^{up - 1}"
    return f"{sign}{size}"


def literal(word: str) -> str:
    """Return a word of the grammar, in small letters as it is written."""
    return f'%s"{word}"'


def rule_of(column: Column) -> str:
    """Return the name of the rule of a session's column."""
    if column.type == "word":
        return " / ".join(literal(word) for word in column.words)
    if column.type == "number":
        if column.low == column.high == 0:
            return '"0"'
        return column.label.lower()
    return {"name": "name", "reason": "reason", "date": "day"}[column.type]


def session_rule(column: Column) -> str:
    """Return what a session's column may hold."""
    return f"[{rule_of(column)}]" if column.optional else rule_of(column)


def line_of(name: str, parts: Iterable[str], kind: str, tail: Iterable[str] = ()) -> list[str]:
    """Return a rule of the grammar, on more lines if it is long; what is in the tail repeats."""
    text = f"{name:<15} = {literal(kind)}"
    lines = []
    repeated = "".join(f' "," {part}' for part in tail)
    for piece in [*(f' "," {part}' for part in parts), *([f" *({repeated} )"] if repeated else [])]:
        if len(text) + len(piece) > 96:
            lines.append(text)
            text = " " * 18 + piece.lstrip()
        else:
            text += piece
    return [*lines, text]


def session_grammar() -> str:
    """Return the grammar of a session's rows."""
    numbers: dict[str, Column] = {}
    lines: list[str] = []
    names: dict[str, None] = {}
    for row in schema().session:
        name = f"{row.kind}-{row.variant}" if row.variant else row.kind
        names[name] = None
        columns, more = map(session_rule, row.columns), map(session_rule, row.tail)
        lines += line_of(name, columns, row.kind, more)
        for column in (*row.columns, *row.tail):
            if column.type == "number" and rule_of(column) != '"0"':
                numbers.setdefault(rule_of(column), column)
    kinds = list(names)
    head = ["session         = [BOM] *( [row] ending ) [row]"]
    text = "row             = "
    for at, kind in enumerate(kinds):
        piece = kind + (" / " if at + 1 < len(kinds) else "")
        if len(text) + len(piece) > 96:
            head.append(text.rstrip())
            text = " " * 16 + "/ "
            head[-1] = head[-1].removesuffix(" /")
        text += piece
    head.append(text)
    tail = []
    for rule, column in numbers.items():
        kind = "natural" if (column.low or 0) >= 0 else "whole"
        tail.append(f"{rule:<15} = {kind:<8} ; {bounds(column)}")
    most = schema().limits["most_reason"]
    tail.append(f"reason          = 1*{most}( %x20-7E ) ; quoted if it has a comma or a quote")
    return "```abnf\n" + "\n".join([BASICS, "", *head, "", *lines, "", *tail]) + "\n```\n"


def word_rules() -> dict[tuple[str, ...], str]:
    """Return the name of each list of words of an output, by its words."""
    found: dict[tuple[str, ...], str] = {}
    for row in schema().output.values():
        for column in row.columns:
            if len(column.words) > 1 and column.words not in found:
                taken = column.name in found.values() or column.name in ("state", "word", "reason")
                found[column.words] = f"{row.kind}-{column.name}" if taken else column.name
    return found


def output_rule(column: Column) -> str:
    """Return what an output's column may hold."""
    if column.type == "word":
        text = word_rules().get(column.words) or literal(column.words[0])
    elif column.type == "number":
        text = "whole" if (column.low or 0) < 0 else "natural"
    else:
        text = {"date": "day"}.get(column.type, column.type)
    return f"[{text}]" if column.optional else text


def word_lines(name: str, choices: tuple[str, ...]) -> list[str]:
    """Return the rule of a list of words."""
    lines = []
    text = f"{name:<15} = {literal(choices[0])}"
    for word in choices[1:]:
        piece = f" / {literal(word)}"
        if len(text) + len(piece) > 96:
            lines.append(text)
            text = " " * 16 + piece.lstrip()
        else:
            text += piece
    return [*lines, text]


def output_grammar() -> str:
    """Return the grammar of an output's rows."""
    lines = []
    for row in schema().output.values():
        columns, more = map(output_rule, row.columns), map(output_rule, row.tail)
        lines += line_of(f"{row.kind}-row", columns, row.kind, more)
        if row.without:
            older = [column for column in row.columns if column.name not in row.without]
            rules = (output_rule(column) for column in older)
            lines += line_of(f"{row.kind}-row-older", rules, row.kind)
    lines += ["", *NAMES.splitlines(), ""]
    for choices, name in word_rules().items():
        lines += word_lines(name, choices)
    return "```abnf\n" + "\n".join(lines) + "\n```\n"


def ranges() -> str:
    """Return a table of the ranges of the numbers of a block, which a check reads."""
    lines = ["| row | column | from | to |", "|---|---|---|---|"]
    kinds = list(schema().output)
    for kind in kinds[kinds.index("report") : kinds.index("end") + 1]:
        row = schema().output[kind]
        for column in row.columns:
            if column.low is not None and column.high is not None:
                lines.append(
                    f"| `{row.kind}` | {column.name} | {power(column.low)} | {power(column.high)} |"
                )
    return "\n".join(lines) + "\n"


def session_examples() -> str:
    """Return one row of each kind of a session."""
    shown = list(dict.fromkeys(row.example for row in schema().session))
    return "\n".join(f"    {row}" for row in shown) + "\n"


def output_examples() -> str:
    """Return one row of each kind of an output, as the program wrote it for a conformance file."""
    found: dict[str, str] = {}
    order = ["every_kind", "verdicts", "refusals", "over", "summary", "check_tests", "check_yes"]
    for name in order + sorted(path.stem for path in CONFORMANCE.glob("*.out")):
        path = CONFORMANCE / f"{name}.out"
        if not path.is_file():
            continue
        for line in path.read_text(encoding="utf-8").splitlines():
            kind = next(csv.reader(io.StringIO(line)))[0]
            if kind in schema().output:
                found.setdefault(kind, line)
    missing = set(schema().output) - set(found)
    if missing:
        raise SystemExit(f"examples/conformance: no output has a row {', '.join(sorted(missing))}")
    return "\n".join(f"    {found[kind]}" for kind in schema().output) + "\n"


def keys() -> str:
    """Return the keys of each kind in JSON lines, in the order in which they are written."""
    lines = ["| row | keys, in byte order as they are written |", "|---|---|"]
    for row in schema().output.values():
        if row.by == "run":
            names = sorted([column.name for column in row.columns] + ["row"])
            lines.append(f"| `{row.kind}` | " + ", ".join(f"`{name}`" for name in names) + " |")
    return "\n".join(lines) + "\n"


def refusals() -> str:
    """Return the codes of refusals with what each says."""
    lines = ["| code | word | when |", "|---|---|---|"]
    for code in schema().refusals.values():
        lines.append(f"| {code.code} | `{code.word}` | {code.about} |")
    return "\n".join(lines) + "\n"


def unreadable() -> str:
    """Return the codes of rows that can't be read."""
    lines = ["| code | word | the row |", "|---|---|---|"]
    for code in schema().unreadable.values():
        lines.append(f"| {code.code} | `{code.word}` | {code.about} |")
    return "\n".join(lines) + "\n"


PARTS = {
    "grammar of a session": session_grammar,
    "rows of a session": session_examples,
    "refusals": refusals,
    "grammar of an output": output_grammar,
    "rows of an output": output_examples,
    "keys": keys,
    "ranges": ranges,
    "unreadable": unreadable,
}


def document() -> str:
    """Return docs/FORMAT.md with its parts made anew."""
    text = FORMAT.read_text(encoding="utf-8")
    names = [found["name"] for found in PART.finditer(text)]
    if sorted(names) != sorted(PARTS):
        raise SystemExit(f"docs/FORMAT.md: its parts are {names}, and should be {list(PARTS)}")
    return PART.sub(lambda found: found[1] + PARTS[found["name"]]() + found[3], text)
