"""An account as HTML, by the templates of the package."""

from __future__ import annotations

import re
from collections.abc import Callable, Iterable, Iterator, Mapping, Sequence
from contextlib import contextmanager
from contextvars import ContextVar
from math import sqrt
from types import MappingProxyType
from typing import TYPE_CHECKING, Any

from plantbal.amounts import tonnes_text
from plantbal.faults import ToolMissing
from plantbal.model.facts import Fact
from plantbal.model.forms import day_number, day_text
from plantbal.model.ledger import Ledger
from plantbal.page import diagnosed, gates
from plantbal.page.drawing import KINDS, Draftsman
from plantbal.page.grades import real
from plantbal.page.head import Origin, days_text, head_terms
from plantbal.page.spark import spark
from plantbal.page.spoken import SpokenPage
from plantbal.page.statement import PageContents, Prepared, Round, Statement, StreamLine
from plantbal.page.verdict import plus_minus, thousandths
from plantbal.sentence import ENGLISH, Figure, Language, Sentence

if TYPE_CHECKING:
    from plantbal.balance.grades import Grade
    from jinja2 import Environment
    from jinja2.bccache import Bucket

    from plantbal.explain import ExplainedRow

# How many items of a long list are shown, and how many without a click.
MOST, FEW = 100, 5
# Grams: an amount from here on has nine digits of tonnes.
HUGE = 10**14
# How many letters wide a name may be.
LONGEST = 14


def tonnes(grams: int | None) -> str:
    """Return grams as tonnes; nothing if there are none."""
    return "" if grams is None else Figure(tonnes_text(grams))


def signed_tonnes(grams: int | None) -> str:
    """Return grams as tonnes with their sign."""
    text = tonnes(grams)
    return Figure(f"+{text}") if grams is not None and grams > 0 and text.strip("0.,") else text


def with_places(number: float | None, places: int, plus: bool = False) -> str:
    """Return a number with that many decimals."""
    if number is None:
        return ""
    text = f"{number:{'+' if plus else ''},.{places}f}"
    return Figure(text[1:] if float(text.replace(",", "")) == 0 and text[0] in "+-" else text)


def end_of(pair: tuple[int, int] | None, which: int) -> str:
    """Return an end of bounds in tonnes, rounded outward."""
    if pair is None:
        return ""
    return Figure(tonnes_text(pair[which], toward=("down", "up")[which]))


def soft(name: str) -> Any:
    """Return a name that, if it is long, may be broken after its marks or where it has none."""
    from markupsafe import Markup, escape

    if len(name) <= LONGEST:
        return escape(name)
    pieces = re.findall(rf"[^-_.\u00a0]{{1,{LONGEST}}}[-_.\u00a0]*|[-_.\u00a0]+", name)
    return Markup("<wbr>").join(escape(piece) for piece in pieces)


def way_of(line: StreamLine, crossings: Mapping[str, str]) -> Any:
    """Return the ends of a line, in place of `env` the boundary that the session has for it."""
    from markupsafe import Markup

    outside = crossings.get(line.name, "env")
    ends = (outside if end == "env" else end for end in (line.from_, line.to))
    return Markup(" → ").join(map(soft, ends))


def ends_of(line: StreamLine) -> Any:
    """Return the ends of a line as attributes of its row, which the drawing is made of."""
    from markupsafe import Markup, escape

    return Markup(f'data-from="{escape(line.from_)}" data-to="{escape(line.to)}"')


def near_mark(name: str) -> Any:
    """Return a name that a script may put another in place of."""
    from markupsafe import Markup

    return Markup('<b class="near">{}</b>').format(name)


def is_huge(lines: Iterable[StreamLine]) -> bool:
    """Say whether some amount has enough digits to make its column wide."""
    amounts = [amount for line in lines for amount in (line.value, line.flow) if amount is not None]
    return any(abs(amount) >= HUGE for amount in amounts)


def sign_of(line: StreamLine) -> str:
    """Return the sign of a stream: of its class, or that it is suspect, taken out or to meter."""
    if line.is_first:
        return "!!"
    return {"suspect": "!", "taken": "×", "meter": "+"}.get(line.mark) or KINDS[line.class_].sign


def fact_text(fact: Fact | None, ledger: Ledger | None) -> str:
    """Return the values of a fact."""
    if fact is None:
        return ""
    deviation = tonnes(round(sqrt(fact.variance)))
    if fact.kind != "dip":
        form = "{amount} t ± {deviation} t"
        return Sentence(form, amount=tonnes(fact.grams), deviation=deviation)
    form = "{level:,} mm at {density:.3f} t/m³ ± {deviation} t"
    density = fact.density / 1e6
    held = Sentence(form, level=fact.mm, density=density, deviation=deviation)
    if ledger is None:
        return held
    form = "{held} ({content} t)"
    return Sentence(form, held=held, content=tonnes(ledger.state.content(fact)))


def fact_days(fact: Fact) -> str:
    """Return the days of a fact."""
    return days_text((day_text(fact.first), day_text(fact.last)))


def marked(told: ExplainedRow) -> Any:
    """Return the row of a refusal with the field at fault marked."""
    from markupsafe import Markup, escape

    if told.mark is None:
        return escape(told.row)
    begin, count = told.mark
    front, middle, rest = (
        told.row[:begin],
        told.row[begin : begin + count],
        told.row[begin + count :],
    )
    return (
        escape(front) + Markup("<mark>") + escape(middle or "␣") + Markup("</mark>") + escape(rest)
    )


def lines_text(under: Sequence[ExplainedRow]) -> str:
    """Return the lines of rows that follow from another."""
    numbers = [str(told.line) for told in under[:12]]
    if len(under) <= 12:
        return ", ".join(numbers)
    return Sentence("{names} and {count} more", names=", ".join(numbers), count=len(under) - 12)


def marks(lines: Iterable[StreamLine]) -> dict[str, Any]:
    """Return what a legend has to explain."""
    some = list(lines)
    return {
        "classes": {line.class_ for line in some},
        "first": [line.name for line in some if line.is_first],
        "suspect": any(line.mark == "suspect" and not line.is_first for line in some),
        "taken": any(line.mark == "taken" for line in some),
        "meter": any(line.mark == "meter" for line in some),
    }


def statistic(statement: Statement) -> str:
    """Return the statistic of a period's report."""
    last = statement.report.last
    return thousandths(last.block.solved["low"]) if last and last.block.solved else ""


def critical(statement: Statement) -> str:
    """Return the critical value of a period's global test."""
    last = statement.report.last
    return thousandths(last.block.whole["critical"]) if last and last.block.whole else ""


def _grade_unit(grades: Sequence[Grade]) -> tuple[str, float]:
    from plantbal.balance.grades import unit_of_grades

    return unit_of_grades(grades)


def by_name(found: Round | None) -> dict[str, StreamLine]:
    """Return the streams of a round by their names."""
    return {line.name: line for line in found.lines} if found else {}


# The filters that each page has of its own.
OWN = ("gates", "measured", "way", "apart")
# The language in which pages are made.
_LANGUAGE: ContextVar[Language] = ContextVar("language", default=ENGLISH)


@contextmanager
def speaking(language: Language) -> Iterator[None]:
    """Make pages in a language."""
    token = _LANGUAGE.set(language)
    try:
        yield
    finally:
        _LANGUAGE.reset(token)


# The templates as they were compiled in this process, by their keys.
_COMPILED: dict[str, bytes] = {}


def environment() -> Environment:
    """Return the templates with their filters; each is compiled once in a process."""
    try:
        from jinja2 import BytecodeCache, Environment, PackageLoader, StrictUndefined
    except ImportError as error:
        raise ToolMissing("jinja2", "python3-jinja2") from error

    class Compiled(BytecodeCache):
        """The compiled templates of this process."""

        def load_bytecode(self, bucket: Bucket) -> None:
            """Give a template that was compiled before."""
            if bucket.key in _COMPILED:
                bucket.bytecode_from_string(_COMPILED[bucket.key])

        def dump_bytecode(self, bucket: Bucket) -> None:
            """Keep a template that was compiled."""
            _COMPILED[bucket.key] = bucket.bytecode_to_string()

    spoken = SpokenPage(_LANGUAGE.get())
    made = Environment(
        bytecode_cache=Compiled(),
        loader=PackageLoader("plantbal.page"),
        autoescape=True,
        undefined=StrictUndefined,
        finalize=spoken.shown,
        trim_blocks=True,
        lstrip_blocks=True,
    )
    made.filters.update(
        t=tonnes,
        signed=signed_tonnes,
        dec=with_places,
        pm=plus_minus,
        end=end_of,
        sign=sign_of,
        soft=soft,
        near=near_mark,
        ends=ends_of,
        kind_sign=lambda name: KINDS[name].sign,
        f=lambda number: f"{number:.1f}",
        fact=fact_text,
        days=fact_days,
        from_to=days_text,
        is_huge=is_huge,
        marked=marked,
        lines=lines_text,
        marks=marks,
        statistic=statistic,
        critical=critical,
        by_name=by_name,
        spark=lambda statement: spark(statement, spoken.shown),
        real=real,
        grade_unit=_grade_unit,
        estimated=gates.estimates_said,
        day_number=day_number,
        **diagnosed.FILTERS,
        **spoken.filters(),
    )
    made.globals["_"] = spoken.text
    return made


def render(
    prepared: Prepared,
    *,
    title: str = "",
    origin: Origin = Origin(),
    seconds: float = 10,
    parts: Mapping[str, Any] = MappingProxyType({}),
    apart: Callable[[str], Any] = lambda text: text,
) -> str:
    """Return the page of an account.

    Parameters
    ----------
    prepared : Prepared
        What it shows.
    title : str
        Its heading.
    origin : Origin
        Where it comes from.
    seconds : float
        How long the layout of its drawings may take; 0 is none.
    parts : mapping of str to Markup
        What stands below the verdicts of periods, such as their accounts.
    apart : callable
        What stands in place of a report's bounds and certificates, which in a large plant are most
        of the page: they themselves, or what leads to them.
    """
    account = prepared.account
    rounds = [each.report.last.lines for each in account.statements if each.report.last]
    draftsman = Draftsman([*rounds, *account.designs], seconds)
    drawings = {
        each.number: draftsman.draw(each.report.last.lines if each.report.last else [])
        for each in account.statements
    }
    designs = account.designs[-1:] if account.is_advised or not rounds else []
    made = environment()
    crossings = account.ledger.state.plant.crossings() if account.ledger is not None else {}
    own = (
        lambda each: account.gates.get(each.period) if each.is_of_period else None,
        lambda each: prepared.measured.get(each.period),
        lambda line: way_of(line, crossings),
        apart,
    )
    made.filters.update(zip(OWN, own))
    return made.get_template("page.html.j2").render(
        title=title or default_title(account, origin),
        head=head_terms(account, origin),
        told=prepared.told,
        why_no_worth=prepared.why_no_worth,
        more=prepared.more,
        refused=account.refused,
        refused_rows=account.refused_rows,
        statements=account.statements,
        unfolded=account.unfolded,
        last=account.periods[-1] if account.statements else None,
        drawings=drawings,
        designs=[(lines, draftsman.draw(lines)) for lines in designs],
        is_advised=account.is_advised,
        meters=account.meters,
        findings=account.findings,
        quieted=account.quieted,
        to_look_at=account.to_look_at,
        is_empty=account.is_empty,
        ledger=account.ledger,
        grades=prepared.grades,
        kinds=KINDS,
        parts=parts,
        most=MOST,
        few=FEW,
        has_worth=any(line.worth for lines in rounds for line in lines),
    )


def default_title(account: PageContents, origin: Origin) -> str:
    """Return the heading of a page that nobody gave one."""
    period = account.statements[-1].period if len(account.statements) == 1 else ""
    return " ".join(part for part in (origin.plant, period) if part) or "plantbal"
