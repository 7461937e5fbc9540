"""Each address with each method, as somebody of each role, of each role elsewhere, as an administrator, a stranger and nobody.

Something is behind each of them (`behind.py`), and a form is sent with all that it wants, so that
whoever may is answered by a page or goes on to one, and nothing but the role decides.
"""

from __future__ import annotations

import subprocess
import sys
from collections import Counter
from collections.abc import Iterator
from pathlib import Path

import pytest
import services
from asks import ASKS

from plantbal_office.access import IN_A_PLANT, RULES, SERVICE_RULES, Role, Scope

ELSEWHERE = "other-"
LINES = (
    '[sign_in]\nsecond = "none"\n'
    '[oidc]\nname = "Mill"\nserver = "https://localhost:1/none"\nclient = "c"\nsecret_file = "{}"\n'
)


@pytest.fixture(name="said", scope="module")
def fixture_said() -> Iterator[list[list[str]]]:
    """What came of each ask."""
    office = services.Service()
    try:
        secret = office.room / "etc" / "oidc"
        secret.write_text("secret", "ascii")
        secret.chmod(0o600)
        office.configure(LINES.format(secret))
        script = Path(__file__).with_name("each_address.py")
        words = [sys.executable, str(script), str(office.room)]
        done = subprocess.run(
            words, env=office.here, capture_output=True, text=True, timeout=1500, check=False
        )
        assert done.returncode == 0, done.stderr[-4000:]
        yield [line.split("|") for line in done.stdout.splitlines()]
    finally:
        office.end()


def wanted(name: str, method: str, who: str, where: str) -> int:
    """How somebody is answered, by the table alone."""
    rule = (RULES | SERVICE_RULES).get((name, method))
    if rule is None:
        return 405
    ask = ASKS[name, method]
    if rule.scope is Scope.ANYBODY:
        return ask.status
    if not who:
        return 302
    if rule.scope is Scope.PERSON:
        return ask.status
    if rule.scope is Scope.SERVICE:
        return ask.status if who == "root" else 403
    role = who.removeprefix(ELSEWHERE)
    is_here = who.startswith(ELSEWHERE) == (where == "elsewhere")
    if role not in list(Role) or not is_here:
        return 404
    if not rule.allows([Role(role)]):
        return 403
    return ask.elsewhere if where else ask.status


def test_each_address_with_each_role(said: list[list[str]]) -> None:
    """As the table says, each; and nobody is sent on but to the sign-in."""
    wrong = []
    for name, method, who, where, status, to, _ in said:
        want = wanted(name, method, who, where)
        is_sent = (
            want == 302
            and not who
            and (RULES | SERVICE_RULES)[name, method].scope is not Scope.ANYBODY
        )
        if int(status) != want or (is_sent and not to.startswith("/people/sign-in?next=")):
            wrong.append((name, method, who or "nobody", where, int(status), want, to))
    assert not wrong, (len(wrong), wrong[:12])
    asked = Counter(who.removeprefix(ELSEWHERE) for _, _, who, *_ in said)
    assert set(asked) == {role.value for role in IN_A_PLANT} | {"root", "stranger", ""}


def test_whoever_may_not_changes_nothing(said: list[list[str]]) -> None:
    """No row and no file is another after a refusal; and each form that is for doing does something."""
    nothing = {"enter:judge", "enter:mapping", "correct:report", "plants:mapping", "service:oidc"}
    does = set()
    for name, method, who, where, status, _, changed in said:
        rule = (RULES | SERVICE_RULES).get((name, method))
        want = wanted(name, method, who, where)
        if (
            rule is None
            or want in (400, 403, 404, 405)
            or (not who and rule.scope is not Scope.ANYBODY)
        ):
            assert not changed, (name, method, who, where, changed)
        elif where:
            assert not changed, (name, who, "another plant's object")
        elif changed:
            does.add(name)
    acts = {name for name, method in ASKS if method == "POST" and not name.startswith("service:")}
    assert acts - does <= nothing, acts - does - nothing
