"""The files that are made, and what is wrong with the documents."""

from __future__ import annotations

from gate.checkout import TOP

from . import (
    answers,
    calls,
    citations,
    described,
    forms,
    guide,
    laws,
    links,
    messages,
    numbers,
    rows,
    second,
    sheets,
    sizes,
    statement,
)
from .sources import Sources


def made(sources: Sources) -> dict[str, str]:
    """Return the text of each file that is made, or has a part that is."""
    path = numbers.ASSURANCE
    assurance = guide.between(sources.text(path), numbers.NUMBERS, numbers.table(sources), path)
    assurance = guide.between(
        assurance, answers.ANSWERS, answers.table(sources, sizes.column(sources)), path
    )
    assurance = guide.between(assurance, laws.LAWS, laws.table(sources), path)
    times = numbers.times(sources)
    times[described.ARCHITECTURE] = described.document(sources, times[described.ARCHITECTURE])
    return {
        **statement.documents(sources),
        path: assurance,
        **{page: guide.document(sources, page) for page in guide.PAGES},
        rows.SCHEMA: rows.text_of(guide.schema(sources)[0]),
        messages.MESSAGES: messages.document(sources),
        sheets.PAGE: sheets.document(sources),
        **times,
    }


def write(sources: Sources) -> None:
    """Write the files that are made, and lower the numbers of forms that became fewer."""
    for path, text in {**made(sources), forms.AT_MOST: forms.document(sources)}.items():
        (TOP / path).parent.mkdir(exist_ok=True)
        (TOP / path).write_text(text, encoding="utf-8")


def stale(sources: Sources) -> list[str]:
    """Return the made files that aren't what the sources give."""
    return [
        f"{path} is stale: run .ci/documents write"
        for path, text in made(sources).items()
        if not sources.has(path) or sources.text(path) != text
    ]


def heads(sources: Sources) -> list[str]:
    """Return the files of definitions that don't say, or say wrongly, what they are."""
    found = [
        f"{spec.path}: its first line says neither Statement nor Inside"
        for spec in sources.specs.values()
        if spec.kind is None
    ]
    for spec, definitions in statement.page_of(sources).files:
        if spec.kind == "Inside":
            name = definitions[0].name
            found.append(
                f"{spec.path} is marked Inside, and the contract of the top call reaches {name}"
            )
    return found


def second_names(sources: Sources) -> list[str]:
    """Return the names that coq/names.txt pairs and that aren't there."""
    shown: dict[str, set[str]] = {}
    for spec, definitions in statement.page_of(sources).files:
        shown.setdefault(statement.in_crate(spec), set()).update(it.name for it in definitions)
    return second.missing(sources, shown)


CHECKS = (
    stale,
    lambda sources: guide.schema(sources)[1],
    heads,
    second_names,
    calls.complaints,
    laws.complaints,
    forms.complaints,
    sizes.complaints,
    citations.missing,
    citations.edits,
    citations.rows_of_examples,
    citations.lemmas,
    links.complaints,
)


def complaints(sources: Sources) -> list[str]:
    """Return what is wrong with the documents."""
    return [one for check in CHECKS for one in check(sources)]
