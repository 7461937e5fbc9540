"""Forms of the sources that are to become fewer: what there is of each, and how many there may be.

.ci/at_most.txt has a number for each. `.ci/documents write` lowers a number to what there is and
never raises it; `.ci/documents check` refuses more.
"""

from __future__ import annotations

import re
from collections.abc import Callable, Iterator
from functools import cache

from .answers import unreached
from .names import classes_twice, functions_twice
from .plain import ruled_out
from .rust import Function, of_libraries
from .sources import Sources, Unknown
from .statement import page_of, repeated, short

AT_MOST = ".ci/at_most.txt"
# One operator over two operands, or before one.
OPERAND = r"[*&]?(?:([a-z_][a-z_0-9]*)|[0-9][0-9_]*|[A-Z][A-Z_0-9]*)"
OPERATOR = r"[-+*/%&|^]|&&|\|\||[=!]=|[<>]=?|<<|>>"
ONE_OPERATOR = re.compile(rf"(?:{OPERAND} (?:{OPERATOR}) |[-!]){OPERAND}")
# How many places are shown of a form of which there are too many.
SHOWN = 20
# The most columns of a line of a definition, and a column that a definition names by its number.
WIDE = 100
COLUMN = re.compile(r"\b(?:values|row|kind) [0-9]+\b")
LAWS = re.compile(r"\s*(?:(?:\w+(?:\.|::))*\w+_laws?\([^;]*\);?\s*)*")


@cache
def working(sources: Sources) -> list[Function]:
    """Return the functions that do something: none of tests, and none that only cites laws."""
    found = of_libraries(sources)
    return [one for one in found if one.body and not LAWS.fullmatch(one.body)]


def places(found: list[Function], pattern: str) -> list[str]:
    """Return each place of a pattern in bodies."""
    return [
        f"{short(one.path)}:{one.line}: {one.called}: {text}"
        for one in found
        for text in re.findall(pattern, one.body or "")
    ]


def laws_called(sources: Sources) -> list[str]:
    """Return the calls of laws in working bodies."""
    return places(working(sources), r"\b\w+_laws?\(")


def calls_for_clauses(sources: Sources) -> list[str]:
    """Return the values that are made and not used, but for what they make known."""
    return places(working(sources), r"let _\w+ = [^;]*;")


def unused_parameters(sources: Sources) -> list[str]:
    """Return the parameters that a body doesn't use, but for those that a trait asks for."""
    return [
        f"{short(one.path)}:{one.line}: {one.called}: {name}"
        for one in working(sources)
        for name, _ in one.parameters
        if name.startswith("_") and not one.trait
    ]


def unreachable(sources: Sources) -> list[str]:
    """Return the places that say that nothing reaches them."""
    return places(working(sources), r"unreachable!\(")


def one_operator(sources: Sources) -> list[str]:
    """Return the functions whose body is one operator over their parameters and constants."""
    found = []
    for one in working(sources):
        formed = ONE_OPERATOR.fullmatch((one.body or "").strip())
        names = {name for name, _ in one.parameters}
        if formed and not one.trait and {x for x in formed.groups() if x} <= names:
            found.append(f"{short(one.path)}:{one.line}: {one.called}: {(one.body or '').strip()}")
    return found


# A value that says out of memory, and the places that may make one: an arm or a closure that has caught a failure, an `else` of one, a
# conversion from AllocError, and the answer to an error that was handed over.
NO_MEMORY = re.compile(r"\b(?:AllocError|NoMemory|OutOfMemory)\b(?!\s*=>|\)\s*=>|\s*\{)")
CAUGHT = re.compile(
    r"Err\([^()]*(?:\([^()]*\))?\) => (?:return )?(?:Err\()?(?:\w+::)*$"
    r"|(?:NoMemory|OutOfMemory) => (?:\w+::)*$"
    r"|\.map_err\(\|_\w*\| (?:\w+::)*$"
    r"|let Ok\(\w+\) = [^;]*? else \{\s*return (?:Err\()?(?:\w+::)*$"
)


def out_of_memory(sources: Sources) -> Iterator[tuple[bool, str]]:
    """Yield each value made by hand that says out of memory, and whether a failure was caught there."""
    for one in working(sources):
        body = one.body or ""
        from_error = any(kind.endswith("Error") for _, kind in one.parameters)
        for found in NO_MEMORY.finditer(body):
            before = body[: found.start()]
            if re.search(r"(?:==|!=) (?:\w+::)*$", before):
                continue
            caught = from_error or CAUGHT.search(before) is not None
            line = body[: found.end()].splitlines()[-1].strip()
            yield caught, f"{short(one.path)}:{one.line}: {one.called}: {line}"


def out_of_memory_after_failure(sources: Sources) -> list[str]:
    """Return the places that say out of memory after they have caught a failure."""
    return [place for caught, place in out_of_memory(sources) if caught]


def out_of_memory_unasked(sources: Sources) -> list[str]:
    """Return the places that say out of memory where no failure was caught."""
    return [place for caught, place in out_of_memory(sources) if not caught]


def repeated_names(sources: Sources) -> list[str]:
    """Return the names that two or more files of statements define."""
    return [f"{name}: {', '.join(map(short, paths))}" for name, paths in repeated(sources).items()]


def names_not_defined(sources: Sources) -> list[str]:
    """Return the names of the page of what must be believed that are defined nowhere on it."""
    found = page_of(sources).renamed()
    return [f"{name}: {', '.join(map(short, found[name]))}" for name in sorted(found)]


def definition_lines(sources: Sources, of: int | None = None) -> list[str]:
    """Return the lines of the definitions that must be believed, or of those of the first chapters alone, without comments and blank ones."""
    chapters = page_of(sources).chapters[:of]
    return [
        f"{short(spec.path)}: {one.name}: {line.strip()}"
        for chapter in chapters
        for spec, one in chapter.definitions
        for line in one.lines
        if line.strip()
    ]


def core_lines(sources: Sources) -> list[str]:
    """Return the lines of the first chapter, which says what a certified stage means."""
    return definition_lines(sources, 1)


def wide_lines(sources: Sources) -> list[str]:
    """Return the lines of definitions that are wider than a reader's page."""
    chapters = page_of(sources).chapters
    lines = [
        (spec, line)
        for chapter in chapters
        for spec, one in chapter.definitions
        for line in one.lines
    ]
    return [f"{short(spec.path)}: {line.strip()}" for spec, line in lines if len(line) > WIDE]


def columns_by_number(sources: Sources) -> list[str]:
    """Return the places of definitions that name a column by its number and not by its key."""
    return [
        line for line in definition_lines(sources) for _ in COLUMN.findall(line.split(": ", 2)[2])
    ]


FORMS: dict[str, Callable[[Sources], list[str]]] = {
    "names_in_two_statement_files": repeated_names,
    "names_defined_nowhere_on_the_page": names_not_defined,
    "lines_of_definition_in_the_core": core_lines,
    "lines_of_definition_on_all_pages": definition_lines,
    "lines_of_definition_above_100_columns": wide_lines,
    "columns_named_by_number": columns_by_number,
    "laws_called_in_bodies": laws_called,
    "calls_for_their_clause": calls_for_clauses,
    "unused_parameters": unused_parameters,
    "unreachable_places": unreachable,
    "functions_of_one_operator": one_operator,
    "answers_that_nothing_reaches": unreached,
    "out_of_memory_where_no_failure_was_caught": out_of_memory_unasked,
    "out_of_memory_after_a_caught_failure": out_of_memory_after_failure,
    "names_of_two_python_classes": classes_twice,
    "names_of_two_python_functions": functions_twice,
    "words_that_style_rules_out": ruled_out,
}


def at_most(sources: Sources) -> dict[str, int]:
    """Return how many of each form there may be."""
    pairs = [
        line.split()
        for line in sources.text(AT_MOST).splitlines()
        if line.strip() and not line.startswith("#")
    ]
    found = {name: int(number) for name, number in pairs}
    if list(found) != list(FORMS):
        raise Unknown(f"{AT_MOST} has numbers of {list(found)}, and should have {list(FORMS)}")
    return found


def document(sources: Sources) -> str:
    """Return the file of the numbers, each no greater than what there is."""
    text = sources.text(AT_MOST)
    for name, most in at_most(sources).items():
        there = len(FORMS[name](sources))
        text = re.sub(rf"(?m)^{name} \d+$", f"{name} {min(there, most)}", text)
    return text


def complaints(sources: Sources) -> list[str]:
    """Return what there is more of than there may be."""
    found = []
    for name, most in at_most(sources).items():
        there = FORMS[name](sources)
        if len(there) > most:
            found.append(f"{name}: {len(there)}, and {AT_MOST} says at most {most}:")
            found += [f"    {one}" for one in there[:SHOWN]]
            if len(there) > SHOWN:
                found.append(f"    and {len(there) - SHOWN} more: .ci/documents list {name}")
    return found
