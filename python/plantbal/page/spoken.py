"""What a page says, in its language: texts of templates, sentences, figures, days, certificates."""

from __future__ import annotations

import datetime
import re
from collections.abc import Callable
from typing import TYPE_CHECKING, Any

from plantbal.sentence import (
    Capital,
    Day,
    English,
    Figure,
    Filler,
    Joined,
    Language,
    Moment,
    Phrase,
    Sentence,
    said_in,
)

if TYPE_CHECKING:
    from plantbal.page.statement import StreamLine

# How many letters of a certificate are shown: in a large plant each may have thousands of members.
MOST_LETTERS = 1_000
# A day within a sentence of another language: as a session writes it, and as the language does.
_BEGIN, _MIDDLE, _END = "\ue000", "\ue001", "\ue002"
_MARKED = re.compile(f"{_BEGIN}([^{_MIDDLE}]*){_MIDDLE}([^{_END}]*){_END}")
_SAYABLE = (Sentence, Joined, Capital, Figure, Day, Moment, Phrase)


class _Marking:
    """A language that marks each of its days."""

    def __init__(self, language: Language) -> None:
        self.form, self.figure = language.form, language.figure
        self._day = language.day

    def day(self, day: datetime.date) -> str:
        """Return a day with its marks."""
        return f"{_BEGIN}{day.isoformat()}{_MIDDLE}{self._day(day)}{_END}"


class SpokenPage:
    """What makes the texts of a page in a language.

    Parameters
    ----------
    language : Language
        The language.
    """

    def __init__(self, language: Language) -> None:
        from markupsafe import Markup

        self.language = language
        self._is_english = isinstance(language, English)
        self._texts: dict[str, Markup] = {}

    def text(self, form: str, /, **values: Any) -> Any:
        """Return a text of a template, with what it is filled with escaped."""
        from markupsafe import Markup

        if not values:
            found = self._texts.get(form)
            if found is None:
                found = self._texts[form] = Markup(self.language.form(form))
            return found
        return Markup(_Escaping(self.language).vformat(self.language.form(form), (), values))

    def shown(self, value: Any) -> Any:
        """Return what stands between two marks of a template in the language."""
        if self._is_english or not isinstance(value, _SAYABLE):
            return value
        return said_in(self.language, value)

    def worded(self, text: str) -> Any:
        """Return a text, none of its days broken, and what is typed as code in place of its marks."""
        from markupsafe import Markup, escape

        if isinstance(text, Markup):
            return text
        if self._is_english:
            text = re.sub(
                r"\b\d{4}-\d\d-\d\d\b", r'<span class="day">\g<0></span>', str(escape(text))
            )
        else:
            said = said_in(_Marking(self.language), text)
            whole = r'<span class="day" data-day="\1">\2</span>'
            text = _MARKED.sub(whole, str(escape(said)))
        return Markup(re.sub("`([^`]+)`", r"<code>\1</code>", text))

    def day_spans(self, days: tuple[str, str] | None) -> Any:
        """Return the days of a period, none of them broken."""
        from markupsafe import Markup

        if days is None:
            return ""
        first, last = (
            Markup('<span class="day">{}</span>').format(self.shown(Day(day))) for day in days
        )
        said = (
            first if days[0] == days[1] else self.text("{first} to {last}", first=first, last=last)
        )
        return Markup("<span>{}</span>").format(said)

    def some(self, text: str, kind: str) -> Any:
        """Return the names of a list, no sign parted from its name, and how many more there are."""
        from markupsafe import Markup, escape

        shown = text
        if len(text) > MOST_LETTERS:
            shown = text[: text.rfind(" ", 0, MOST_LETTERS)] if " " in text[:MOST_LETTERS] else text
        more = text.count(" ") - shown.count(" ")
        names = str(escape(shown)).replace(" ", "</span> <span>")
        rest = self.text(" … and {count:,} more", count=more) if more else ""
        return Markup(f'<span class="{kind}"><span>{names}</span></span>{rest}')

    def certificate(self, line: StreamLine) -> Any:
        """Return the certificate of a stream's class; of a long one the beginning."""
        from markupsafe import Markup

        parts = self.some(line.parts, "parts")
        shape = self.text(line.shape) if line.shape else ""
        if not line.side:
            return Markup("{}: {}").format(shape, parts)
        side = self.some(line.side, "side")
        return self.text("{shape} round {side}: {parts}", shape=shape, side=side, parts=parts)

    def filters(self) -> dict[str, Callable[..., Any]]:
        """Return the filters that speak."""
        return {
            "words": self.worded,
            "day_spans": self.day_spans,
            "some": self.some,
            "said": self.shown,
            "certificate": self.certificate,
        }


class _Escaping(Filler):
    """Fills values into a text of HTML."""

    def format_field(self, value: Any, format_spec: str) -> str:
        """Return a value as the language writes it, escaped."""
        from markupsafe import Markup, escape

        if isinstance(value, Markup):
            return str(value)
        return str(escape(super().format_field(value, format_spec)))
