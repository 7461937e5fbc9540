"""A text to be signed on somebody's own machine, as a file: no key is ever here."""

from __future__ import annotations

from django.http import HttpResponse

SUBMISSION = "submission.txt"  # what the text of a submission is called


def signed_text(text: str, name: str) -> HttpResponse:
    """Give a text as a file."""
    answer = HttpResponse(text, content_type="text/plain; charset=utf-8")
    answer["Content-Disposition"] = f'attachment; filename="{name}"'
    return answer
