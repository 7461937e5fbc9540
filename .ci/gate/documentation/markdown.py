"""Parts of a made page: blocks of code, paragraphs, and who made it."""

from __future__ import annotations

import textwrap


def code_block(language: str, text: str) -> list[str]:
    """Return a text as a block of code."""
    return [f"```{language}", text.rstrip(), "```"]


def paragraph(text: str) -> list[str]:
    """Return a paragraph in lines of a width."""
    return textwrap.wrap(text, 120, break_long_words=False, break_on_hyphens=False)


def made_by() -> list[str]:
    """Return the paragraph that says how a page is made."""
    return paragraph(
        "Made by `.ci/documents write` from the sources; `.ci/documents check` fails if it is stale."
    )
