"""Who may do what: one table, which the code obeys and the tests try, address by address.

An address that isn't in the table isn't served. A person has roles in a plant; an administrator is
one of the whole service, keeps people and plants, and sees no figure.
"""

from __future__ import annotations

from collections.abc import Iterable
from dataclasses import dataclass
from enum import Enum


class Role(str, Enum):
    """What a person is in a plant, or, of the administrator, in the service."""

    VIEWER = "viewer"
    CLERK = "clerk"
    ENGINEER = "engineer"
    APPROVER = "approver"
    AUDITOR = "auditor"
    ADMINISTRATOR = "administrator"


# The roles that a person has in a plant.
IN_A_PLANT = tuple(role for role in Role if role is not Role.ADMINISTRATOR)


class Scope(Enum):
    """For whom an address is, before any role is asked."""

    ANYBODY = "whoever comes, also before the sign-in"
    PERSON = "whoever has signed in"
    PLANT = "a person with a role in the plant that the address names"
    SERVICE = "an administrator"


@dataclass(frozen=True)
class AccessRule:
    """Who may do one thing at one address.

    Attributes
    ----------
    address : str
        The name of the address, as in ``look:statement``.
    method : str
        ``GET`` to look, ``POST`` to act.
    scope : Scope
        For whom it is.
    roles : frozenset of Role
        Which roles may, if it is of a plant.
    figures : bool
        Whether it shows or changes figures, so that no administrator may.
    """

    address: str
    method: str
    scope: Scope
    roles: frozenset[Role] = frozenset()

    @property
    def figures(self) -> bool:
        """Whether it shows or changes figures of a plant."""
        return self.scope is Scope.PLANT

    def allows(self, roles: Iterable[Role]) -> bool:
        """Say whether somebody with some roles may."""
        found = frozenset(roles)
        if self.scope is Scope.PLANT:
            return bool(self.roles & found)
        return self.scope is not Scope.SERVICE or Role.ADMINISTRATOR in found


SEES = frozenset(IN_A_PLANT)
ENTERS = frozenset({Role.CLERK, Role.ENGINEER})
RECONCILES = frozenset({Role.ENGINEER})
CLOSES = frozenset({Role.APPROVER})
SPEAKS = frozenset({Role.CLERK, Role.ENGINEER, Role.APPROVER, Role.AUDITOR})


def _rules() -> Iterable[AccessRule]:
    """Give the rules of the whole desk."""
    for address, method in (
        ("people:signin", "GET"),
        ("people:signin", "POST"),
        ("people:language", "POST"),
        ("alive", "GET"),
    ):
        yield AccessRule(address, method, Scope.ANYBODY)
    for address, method in (
        ("plants:list", "GET"),
        ("people:signout", "POST"),
        ("deeds:outcome", "GET"),
    ):
        yield AccessRule(address, method, Scope.PERSON)
    for address in ("plants:open", "plants:begin", "plants:mapping"):
        yield AccessRule(address, "GET", Scope.SERVICE)
        yield AccessRule(address, "POST", Scope.SERVICE)
    for address, method, roles in _OF_PLANTS:
        yield AccessRule(address, method, Scope.PLANT, roles)


# The door of an office's service; a desk of one person has none of these.
_OF_SERVICE = (
    AccessRule("service:signin", "GET", Scope.ANYBODY),
    AccessRule("service:signin", "POST", Scope.ANYBODY),
    AccessRule("service:second", "GET", Scope.ANYBODY),
    AccessRule("service:second", "POST", Scope.ANYBODY),
    AccessRule("service:oidc", "GET", Scope.ANYBODY),
    AccessRule("service:back", "GET", Scope.ANYBODY),
    AccessRule("service:signout", "POST", Scope.PERSON),
    AccessRule("service:enroll", "GET", Scope.PERSON),
    AccessRule("service:enroll", "POST", Scope.PERSON),
    AccessRule("service:password", "GET", Scope.PERSON),
    AccessRule("service:password", "POST", Scope.PERSON),
    AccessRule("service:log", "GET", Scope.SERVICE),
)

_OF_PLANTS: tuple[tuple[str, str, frozenset[Role]], ...] = (
    ("plants:months", "GET", SEES),
    ("plants:verify", "GET", SEES),
    ("plants:next", "GET", RECONCILES),
    ("plants:next", "POST", RECONCILES),
    ("plants:retire", "POST", RECONCILES),
    ("plants:task", "POST", SPEAKS),
    ("plants:done", "POST", SPEAKS),
    ("enter:drop", "GET", ENTERS),
    ("enter:drop", "POST", ENTERS),
    ("enter:seen", "GET", ENTERS),
    ("enter:kept", "GET", ENTERS),
    ("enter:kept", "POST", ENTERS),
    ("enter:mapping", "GET", ENTERS),
    ("enter:mapping", "POST", ENTERS),
    ("enter:book", "POST", ENTERS),
    ("enter:forget", "POST", ENTERS),
    ("enter:template", "GET", SEES),
    ("enter:grid", "GET", ENTERS),
    ("enter:grid", "POST", ENTERS),
    ("enter:judge", "POST", ENTERS),
    ("enter:rules", "GET", ENTERS),
    ("enter:tests", "POST", ENTERS),
    ("look:statement", "GET", SEES),
    ("look:earlier", "GET", SEES),
    ("look:stream", "GET", SEES),
    ("look:fact", "GET", SEES),
    ("look:journal", "GET", SEES),
    ("look:drawing", "GET", SEES),
    ("look:proof", "GET", SEES),
    ("look:export", "GET", SEES),
    ("correct:amend", "GET", RECONCILES),
    ("correct:amend", "POST", RECONCILES),
    ("correct:strike", "GET", RECONCILES),
    ("correct:strike", "POST", RECONCILES),
    ("correct:undo", "POST", RECONCILES),
    ("correct:estimate", "GET", RECONCILES),
    ("correct:estimate", "POST", RECONCILES),
    ("correct:report", "POST", RECONCILES | CLOSES),
    ("correct:close", "GET", SEES),
    ("correct:close", "POST", CLOSES),
    ("correct:submit", "POST", RECONCILES | CLOSES),
    ("correct:waiting", "GET", SEES),
    ("correct:to_sign", "GET", CLOSES),
    ("correct:approve", "POST", CLOSES),
    ("correct:quiet", "GET", SEES),
    ("correct:quiet", "POST", RECONCILES),
    ("ask:menu", "GET", SEES),
    ("ask:difference", "GET", SEES),
    ("ask:posted", "POST", CLOSES),
    ("ask:window", "GET", SEES),
    ("ask:window", "POST", RECONCILES),
    ("ask:whatif", "GET", SEES),
    ("ask:advice", "GET", SEES),
    ("ask:recovery", "GET", SEES),
    ("ask:chart", "GET", SEES),
    ("ask:picture", "GET", SEES),
    ("notes:add", "POST", SPEAKS),
    ("notes:file", "GET", SEES),
    ("notes:bundle", "GET", SEES),
)

RULES: dict[tuple[str, str], AccessRule] = {(rule.address, rule.method): rule for rule in _rules()}
SERVICE_RULES = {(rule.address, rule.method): rule for rule in _OF_SERVICE}


def rule_of(address: str, method: str) -> AccessRule | None:
    """Return the rule of an address, or None if there is none: then nobody may."""
    asked = address, "GET" if method == "HEAD" else method
    return RULES.get(asked) or SERVICE_RULES.get(asked)
