"""Words that docs/STYLE.md rules out, wherever a user reads: pages, manual pages, messages, help, packages, the page's words."""

from __future__ import annotations

import json
import re
from collections.abc import Iterator
from functools import cache

from .messages import forms as sentences
from .sources import Sources

# What is read by users as text. STYLE has the words in its table, and MESSAGES has the sentences of the code.
PAGES = r"[A-Z]+\.md|coq/README\.md|docs/(?!STYLE|MESSAGES).*\.md|docs/.*\.[0-9]|packaging/.*\.control|libplantbal/plantbal\.h"
WORDS_OF_THE_PAGE = "page/words/en.json"
TEMPLATES = r"python/plantbal_office/.*\.html"
# What is quoted or typed: blocks of code, lines of code, quotations, spans of code.
QUOTED = re.compile(r"^```.*?^```$|^(?:    |>).*?$|`[^`\n]*(?:\n[^`\n]+)?`", re.M | re.S)
# The words of the house style that aren't to be used, in a table of ARCHITECTURE.
TABLE = re.compile(r"^\| write \| not \|\n.*?(?=^$)", re.M | re.S)
SHOWN = re.compile(
    r"{%\s*translate\s+([\"'])(.*?)\1|{%\s*blocktranslate[^%]*%}(.*?){%\s*endblock", re.S
)
COMPARED = r"(?:longer|more|less|greater|worse|farther|fewer|later|earlier|smaller|wider|larger|higher|lower)"
RULED_OUT = {
    "is no X": rf"(?<![Tt]here )\b(?:is|are|was|were) no (?!{COMPARED}\b)[a-z]+",
    "is none": r"(?<![Tt]here )\b(?:is|are|was|were) none\b",
    "stands": r"(?<![\w-])stands\b(?! for\b| on its\b| alone\b)|(?<![\w-])(?:may|to) stand\b(?! for\b)|\bas (?:it|they) stands?\b",
    "is wanted": r"\b(?:is|are|was|were) wanted\b|\bwants (?:a|an|to be)\b|\bnone came\b",
    "is told": r"\b(?:is|are) told\b",
    "behind": r"\bbehind (?:it|them|these|those|each)\b",
    "want of": r"\bwant of\b",
    "reckon": r"\b[Rr]eckon",
    "passed over": r"\bpass(?:ed|es) over\b",
    "one of both": r"\bone of both\b",
    "so many": r"\bby so many\b",
    "lacks": r"\black(?:s|ed)\b",
    "is there already": r"\b(?:is|are|being) there already\b|\bthere already is\b",
    "booked otherwise": r"\bbooked otherwise\b",
    "none of its own": r"\bnone of its own\b",
    "say --": r"\b[Ss]ay --",
    "and else": r"\band else\b",
}
PATTERN = re.compile("|".join(f"(?:{each})" for each in RULED_OUT.values()))


def texts(sources: Sources) -> Iterator[tuple[str, str]]:
    """Yield what users read, each text with its file."""
    for path in sources.files(PAGES):
        text = sources.text(path)
        yield path, QUOTED.sub(" ", TABLE.sub("", text)) if path.endswith(".md") else text
    for key, text in json.loads(sources.text(WORDS_OF_THE_PAGE)).items():
        yield f"{WORDS_OF_THE_PAGE}: {key}", text
    for path in sources.files(TEMPLATES):
        for found in SHOWN.finditer(sources.text(path)):
            yield path, found[2] or found[3] or ""
    for form in sentences(sources):
        yield f"python/{form.module}.py", form.text


@cache
def ruled_out(sources: Sources) -> list[str]:
    """Return each place of a word that docs/STYLE.md rules out, with the words around it."""
    found = []
    for path, text in texts(sources):
        flat = " ".join(text.split())
        for place in PATTERN.finditer(flat):
            found.append(f"{path}: {flat[max(0, place.start() - 40) : place.end() + 40]}")
    return found
