"""Whether the links of all pages lead somewhere: to a file, and to a heading of it."""

from __future__ import annotations

import posixpath
import re
from collections.abc import Iterator

from .guide import anchor_of
from .sources import Sources

PAGES = r"(?:README|CONTRIBUTING|CHANGELOG)\.md|(?:docs|coq|packaging/site)/[A-Za-z_]+\.md"
# A link or a picture: its words may be broken over lines.
LINK = re.compile(r"!?\[[^\]]*\]\(([^)\s]+)\)")
HEADING = re.compile(r"^#{1,6} (.*)$", re.M)
INLINE = re.compile(r"`[^`\n]*`")


def bare(text: str) -> str:
    """Return a page without its code, of which no part is a link."""
    text = re.sub(r"^```.*?^```$", "", text, flags=re.M | re.S)
    return INLINE.sub("", re.sub(r"^ {4}(?![-*\d ]).*$", "", text, flags=re.M))


def anchors(text: str) -> set[str]:
    """Return what links call the headings of a page; a second one of the same words has a number."""
    found: set[str] = set()
    text = re.sub(r"^```.*?^```$", "", text, flags=re.M | re.S)
    for heading in HEADING.findall(text):
        name = anchor_of(heading)
        number = 0
        while name + (f"-{number}" if number else "") in found:
            number += 1
        found.add(name + (f"-{number}" if number else ""))
    return found


def broken(sources: Sources, page: str) -> Iterator[str]:
    """Return the links of a page that lead nowhere."""
    for target in LINK.findall(bare(sources.text(page))):
        path, mark, heading = target.partition("#")
        if "://" in path or path.startswith("mailto:"):
            continue
        file = posixpath.normpath(posixpath.join(posixpath.dirname(page), path)) if path else page
        # the site has the pages of docs/ beside its own
        if page.startswith("packaging/site/"):
            file = posixpath.normpath(path)
            if file in ("gallery/index.md", "api.rst"):
                continue
        if not sources.has(file):
            yield f"{page}: the link to {target} leads to no file"
        elif mark and file.endswith(".md") and f"#{heading}" not in anchors(sources.text(file)):
            yield f"{page}: the link to {target} leads to no heading"


def complaints(sources: Sources) -> list[str]:
    """Return the links of all pages that lead nowhere."""
    return [line for page in sources.files(PAGES) for line in broken(sources, page)]
