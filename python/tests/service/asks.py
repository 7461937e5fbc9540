"""Each address of the office's service with each method: where it is asked, what is sent, what whoever may is answered.

Words in braces are names of what `behind.py` has made.
"""

from __future__ import annotations

from collections.abc import Mapping, Sequence
from dataclasses import dataclass, field


@dataclass(frozen=True)
class Ask:
    """How an address is asked.

    Attributes
    ----------
    status : int
        How whoever may is answered.
    paths : sequence of str
        Where it is asked; each of them in turn.
    data : mapping
        What is sent beside the key of the form and the version of the book.
    files : mapping
        The files that are sent, by field: names of `behind.FILES`.
    plant : str
        The plant in which there is something to be shown or done.
    elsewhere : int
        How somebody with the role in another plant is answered who names this object there; 0 if
        its name is of the plant alone.
    """

    status: int
    paths: Sequence[str] = ("",)
    data: Mapping[str, str] = field(default_factory=dict)
    files: Mapping[str, str] = field(default_factory=dict)
    plant: str = "mill"
    elsewhere: int = 0


# The words with which the service's own door is asked for something by name and password.
PASSWORD = "a long passphrase of theirs"
_CELLS = '[{"name": "FI-302", "day": "2024-05-20", "amount": "12000"}]'
_WHY = {"why": "tried"}
CLOSED, OPEN, YEAR = "2024-04", "2024-05", "2023-24"
FACT, AMENDED = "WIC-101_2024-05-10", "FI-302_2024-05-18"
_CHANGED = f"correct/fact/{YEAR}"
_NAMED = {"name": "New", "year": "2024"}

# Of plants: the paths are below the plant's.
_PLANTS: dict[tuple[str, str], Ask] = {
    ("plants:months", "GET"): Ask(200),
    ("plants:verify", "GET"): Ask(200, ["verify"]),
    ("plants:next", "GET"): Ask(200, ["next"]),
    ("plants:next", "POST"): Ask(302, ["next"], {"year": "2024-25", "first": "2024-06-01"}),
    ("plants:retire", "POST"): Ask(302, ["retire"], {"name": "TAILS", "day": "2024-06-30"}),
    ("plants:task", "POST"): Ask(302, ["task"], {"month": OPEN, "what": "look"}),
    ("plants:done", "POST"): Ask(302, ["done/{task}"], elsewhere=404),
    ("enter:drop", "GET"): Ask(200, ["enter/"]),
    ("enter:drop", "POST"): Ask(302, ["enter/"], {"locale": "de"}, {"workbook": "june"}),
    ("enter:kept", "GET"): Ask(200, ["enter/mapping"]),
    ("enter:kept", "POST"): Ask(302, ["enter/mapping"], {}, {"workbook": "june"}),
    ("enter:seen", "GET"): Ask(200, ["enter/{drop}"], elsewhere=404),
    ("enter:mapping", "GET"): Ask(200, ["enter/{own}/mapping"], elsewhere=404),
    ("enter:mapping", "POST"): Ask(200, ["enter/{own}/mapping"], elsewhere=404),
    ("enter:book", "POST"): Ask(302, ["enter/{drop}/book"], _WHY, elsewhere=400),
    ("enter:forget", "POST"): Ask(302, ["enter/{drop}/forget"], elsewhere=302),
    ("enter:template", "GET"): Ask(200, ["enter/template"]),
    ("enter:grid", "GET"): Ask(
        200,
        [f"enter/grid/{OPEN}/{kind}" for kind in ("readings", "dips", "tickets", "assays")],
    ),
    ("enter:grid", "POST"): Ask(302, [f"enter/grid/{OPEN}/readings"], {"cells": _CELLS}),
    ("enter:rules", "GET"): Ask(200, [f"enter/rules/{OPEN}/readings"]),
    ("enter:judge", "POST"): Ask(200, [f"enter/judge/{OPEN}"], {"cells": _CELLS}),
    ("enter:tests", "POST"): Ask(302, ["enter/tests"]),
    ("look:statement", "GET"): Ask(200, [f"look/{CLOSED}/", f"look/{OPEN}/"]),
    ("look:earlier", "GET"): Ask(200, [f"look/{CLOSED}/earlier/1"]),
    ("look:stream", "GET"): Ask(200, [f"look/{CLOSED}/stream/TAILS"]),
    ("look:fact", "GET"): Ask(200, [f"look/fact/{YEAR}/{AMENDED}"]),
    ("look:journal", "GET"): Ask(200, ["look/journal"]),
    ("look:drawing", "GET"): Ask(200, [f"look/{CLOSED}/drawing"]),
    ("look:proof", "GET"): Ask(200, [f"look/{CLOSED}/proof"]),
    ("look:export", "GET"): Ask(
        200, [f"look/{CLOSED}/file/{kind}" for kind in ("report", "session", "xlsx")]
    ),
    ("correct:amend", "GET"): Ask(
        200, [f"{_CHANGED}/{FACT}/amend", f"{_CHANGED}/{FACT}/amend?amount=12001 t&why=tried"]
    ),
    ("correct:amend", "POST"): Ask(302, [f"{_CHANGED}/{FACT}/amend"], {"amount": "12001 t"} | _WHY),
    ("correct:strike", "GET"): Ask(200, [f"{_CHANGED}/{FACT}/strike"]),
    ("correct:strike", "POST"): Ask(302, [f"{_CHANGED}/{FACT}/strike"], _WHY),
    ("correct:undo", "POST"): Ask(302, [f"{_CHANGED}/{AMENDED}/undo"], _WHY),
    ("correct:estimate", "GET"): Ask(200, [f"correct/{OPEN}/estimate"]),
    ("correct:estimate", "POST"): Ask(302, [f"correct/{OPEN}/estimate"], _WHY),
    ("correct:report", "POST"): Ask(302, [f"correct/{OPEN}/report"], {"eliminate": "1"}),
    ("correct:close", "GET"): Ask(200, [f"correct/{OPEN}/close", f"correct/{CLOSED}/close"]),
    ("correct:close", "POST"): Ask(302, [f"correct/{OPEN}/close"], {"why-*": "as it is"}),
    ("correct:submit", "POST"): Ask(
        302, [f"correct/{OPEN}/submit"], {"why-*": "as it is"}, plant="two"
    ),
    ("correct:waiting", "GET"): Ask(200, ["correct/waiting"], plant="two"),
    ("correct:to_sign", "GET"): Ask(
        200, ["correct/to-sign?head={head}&deed=approve"], plant="two", elsewhere=400
    ),
    ("correct:approve", "POST"): Ask(
        302,
        ["correct/approve"],
        {"head": "{head}", "answer": "approve"},
        plant="two",
        elsewhere=400,
    ),
    ("correct:quiet", "GET"): Ask(200, ["correct/quiet"]),
    ("correct:quiet", "POST"): Ask(
        302, ["correct/quiet"], {"code": "near-names", "names": "TAILS ORE"} | _WHY
    ),
    ("ask:menu", "GET"): Ask(200, ["ask/"]),
    ("ask:difference", "GET"): Ask(200, [f"ask/{CLOSED}/difference"]),
    ("ask:posted", "POST"): Ask(302, [f"ask/{CLOSED}/posted"], _WHY),
    ("ask:window", "GET"): Ask(200, ["ask/window"]),
    ("ask:window", "POST"): Ask(302, ["ask/window"], {"first": CLOSED, "last": OPEN}),
    ("ask:whatif", "GET"): Ask(200, [f"ask/{CLOSED}/whatif?lose=TAILS"]),
    ("ask:advice", "GET"): Ask(200, ["ask/advice?ask=yes"]),
    ("ask:recovery", "GET"): Ask(200, [f"ask/{CLOSED}/recovery"]),
    ("ask:chart", "GET"): Ask(200, ["ask/chart"]),
    ("ask:picture", "GET"): Ask(200, ["ask/chart.svg"]),
    ("notes:add", "POST"): Ask(
        302, ["notes/add"], {"about": f"month:{OPEN}", "text": "seen"}, {"file": "ticket"}
    ),
    ("notes:file", "GET"): Ask(200, ["notes/file/{note}"], elsewhere=404),
    ("notes:bundle", "GET"): Ask(200, [f"notes/bundle/{CLOSED}"]),
}

# Of no plant.
_OTHERS: dict[tuple[str, str], Ask] = {
    ("alive", "GET"): Ask(200, ["/alive"]),
    ("people:language", "POST"): Ask(302, ["/people/language"], {"language": "de"}),
    ("plants:list", "GET"): Ask(200, ["/"]),
    ("plants:open", "GET"): Ask(200, ["/open"]),
    ("plants:open", "POST"): Ask(302, ["/open"], {"name": "Spare", "folder": "{spare}"}),
    ("plants:begin", "GET"): Ask(200, ["/begin"]),
    ("plants:begin", "POST"): Ask(
        302, ["/begin"], _NAMED | {"folder": "{new}", "locale": "de"}, {"workbook": "plant"}
    ),
    ("plants:mapping", "GET"): Ask(200, ["/begin/{begun}"]),
    ("plants:mapping", "POST"): Ask(200, ["/begin/{begun}"], _NAMED | {"folder": "{new}"}),
    ("deeds:outcome", "GET"): Ask(302, ["/deeds/{done}"]),
    ("service:signin", "GET"): Ask(200, ["/people/sign-in"]),
    ("service:signin", "POST"): Ask(
        302, ["/people/sign-in"], {"name": "viewer", "password": PASSWORD}
    ),
    ("service:second", "GET"): Ask(302, ["/people/second"]),
    ("service:second", "POST"): Ask(302, ["/people/second"], {"code": "000000"}),
    ("service:oidc", "GET"): Ask(503, ["/people/oidc"]),
    ("service:back", "GET"): Ask(403, ["/people/oidc/back?code=x&state=y"]),
    ("service:signout", "POST"): Ask(302, ["/people/sign-out"]),
    ("service:enroll", "GET"): Ask(200, ["/people/enroll"]),
    ("service:enroll", "POST"): Ask(200, ["/people/enroll"], {"code": "000000"}),
    ("service:password", "GET"): Ask(200, ["/people/password"]),
    ("service:password", "POST"): Ask(
        302,
        ["/people/password"],
        {"old_password": PASSWORD}
        | dict.fromkeys(("new_password1", "new_password2"), "another long passphrase"),
    ),
    ("service:log", "GET"): Ask(200, ["/people/log"]),
}

# The desk's own door, in whose place the service has one at the same paths.
REPLACED = {
    ("people:signin", "GET"),
    ("people:signin", "POST"),
    ("people:signout", "POST"),
}


def below(ask: Ask, plant: str) -> Ask:
    """Return an ask of a plant with whole paths."""
    paths = [f"/p/{plant}/{path}" for path in ask.paths]
    return Ask(ask.status, paths, ask.data, ask.files, ask.plant, ask.elsewhere)


OF_PLANTS = _PLANTS
ASKS = {key: below(ask, ask.plant) for key, ask in _PLANTS.items()} | _OTHERS
