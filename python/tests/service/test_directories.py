"""Who somebody is, said by others: a directory (slapd) and a provider of OpenID Connect, each started by the test."""

from __future__ import annotations

import subprocess
import sys
from collections.abc import Iterator
from pathlib import Path

import pytest
import services
from provider import Provider

_SLAPD = """include /etc/ldap/schema/core.schema
include /etc/ldap/schema/cosine.schema
include /etc/ldap/schema/inetorgperson.schema
modulepath /usr/lib/ldap
moduleload back_mdb
pidfile {room}/pid
database mdb
suffix dc=mill
rootdn cn=admin,dc=mill
rootpw secret
directory {room}/db
"""
_NO_ACCOUNT, _NOT_SAID = "there is no account for you here", "t say who you are"


@pytest.fixture(name="database", scope="module")
def fixture_database() -> Iterator[services.Database]:
    """A PostgreSQL for the services of this file."""
    room = services.new_room()
    database = services.Database(room)
    yield database
    database.end()
    services.removed(room)


# ---- LDAP


class Directory:
    """A slapd of its own, with Ada, Eve and Otto in it."""

    def __init__(self, room: Path) -> None:
        (room / "db").mkdir(parents=True)
        self.port, self.room = services.free_port(), room
        (room / "slapd.conf").write_text(_SLAPD.format(room=room), "ascii")
        (room / "password").write_text("secret\n", "ascii")
        (room / "password").chmod(0o600)
        self._fill()
        words = ["/usr/sbin/slapd", "-d", "0", "-f", str(room / "slapd.conf"), "-h", self.address]
        self.process = subprocess.Popen(words)
        services.reached(self.port)

    @property
    def address(self) -> str:
        """Where it answers."""
        return f"ldap://127.0.0.1:{self.port}"

    def _fill(self) -> None:
        """Put its people in."""
        entries = (
            "dn: dc=mill\nobjectClass: dcObject\nobjectClass: organization\no: mill\ndc: mill\n"
        )
        for name in ("ada", "eve", "otto"):
            entries += (
                f"\ndn: uid={name},dc=mill\nobjectClass: inetOrgPerson\nuid: {name}\ncn: {name}\n"
            )
            entries += f"sn: {name}\nuserPassword: {name}-of-the-mill\n"
        done = services.run(["/usr/sbin/slapadd", "-f", self.room / "slapd.conf"], input=entries)
        assert done.returncode == 0, done.stderr

    def lines(self) -> str:
        """The lines of the configuration that name it."""
        return (
            f'[sign_in]\nsecond = "none"\n[ldap]\nserver = "{self.address}"\nbase = "dc=mill"\n'
            f'bind = "cn=admin,dc=mill"\npassword_file = "{self.room}/password"\n'
        )

    def end(self) -> None:
        """End it."""
        self.process.terminate()
        self.process.wait(timeout=30)


def test_sign_in_by_ldap(database: services.Database, tmp_path: Path) -> None:
    """Whoever has an account here and is right by the directory, and nobody else."""
    directory = Directory(tmp_path / "ldap")
    try:
        office = services.Service(directory.lines(), database)
        try:
            office.office("user", "ada", "--elsewhere")
            office.office("user", "otto", "--elsewhere", "--off")
            office.start(workers=1)
            visitor = office.visitor()
            assert visitor.sign_in("ada", "wrong").status_code == 403
            assert visitor.sign_in("ada", "").status_code == 200, "an empty password binds nobody"
            assert visitor.sign_in("eve", "eve-of-the-mill").status_code == 403, "no account here"
            assert visitor.sign_in("otto", "otto-of-the-mill").status_code == 403, "it is off"
            assert visitor.sign_in("*", "ada-of-the-mill").status_code == 403
            assert visitor.sign_in("ada)(uid=*", "ada-of-the-mill").status_code == 403
            assert visitor.sign_in("ada", "ada-of-the-mill").status_code == 302
            assert visitor.get("/").status_code == 200
            office.office("user", "ada", "--elsewhere", "--off")
            assert visitor.get("/").status_code == 302, "a sign-in ends with the account"
            office.office("user", "ada", "--elsewhere")
            directory.end()
            assert office.visitor().sign_in("ada", "ada-of-the-mill").status_code == 403
            root = office.visitor().sign_in("root", office.passwords["root"])
            assert root.status_code == 302, "without the directory the others still sign in"
        finally:
            office.end()
    finally:
        directory.end()


# ---- OpenID Connect


def test_sign_in_by_openid(database: services.Database, tmp_path: Path) -> None:
    """By a code of the provider, with state, nonce and PKCE; whoever has an account here."""
    with Provider("plantbal", "a secret of the mill") as provider:
        secret = tmp_path / "secret"
        secret.write_text("a secret of the mill\n", "ascii")
        secret.chmod(0o600)
        office = services.Service(
            f'[sign_in]\nsecond = "none"\n[oidc]\nname = "Mill"\nserver = "{provider.metadata}"\n'
            f'client = "plantbal"\nsecret_file = "{secret}"\n',
            database,
        )
        try:
            for words in (("ada", "--elsewhere"), ("otto", "--elsewhere", "--off")):
                office.office("user", *words)
            office.start(workers=1)
            _in_and_out(office, provider)
            _told_wrong(office, provider)
        finally:
            office.end()


def _in_and_out(office: services.Service, provider: Provider) -> None:
    """Ada signs in; Eve has no account, and Otto's is off; nothing works twice."""
    visitor = office.visitor()
    assert 'href="/people/oidc"' in visitor.get("/people/sign-in").text
    back = provider.answered(visitor.get("/people/oidc").headers["Location"], "ada")
    before = visitor.session.cookies.get("__Host-plantbal")
    assert visitor.get(back).headers["Location"] == "/"
    assert visitor.get("/").status_code == 200
    assert visitor.session.cookies.get("__Host-plantbal") != before, "session fixation"
    assert office.visitor().get(back).status_code == 403, "another browser with the same answer"
    assert visitor.get(back).status_code == 403, "an answer counts once"
    office.office("user", "ada", "--elsewhere", "--off")
    assert visitor.get("/").status_code == 302, "a sign-in ends with the account"
    office.office("user", "ada", "--elsewhere")
    for name, what in (("eve", _NO_ACCOUNT), ("otto", _NO_ACCOUNT), ("", _NOT_SAID)):
        visitor = office.visitor()
        back = provider.answered(visitor.get("/people/oidc").headers["Location"], name)
        answer = visitor.get(back)
        assert answer.status_code == 403 and what in answer.text, name
        assert visitor.get("/").status_code == 302, name


def _told_wrong(office: services.Service, provider: Provider) -> None:
    """What isn't the provider's word for this very sign-in is refused."""
    for lie in provider.LIES:
        visitor = office.visitor()
        back = provider.answered(visitor.get("/people/oidc").headers["Location"], "ada", lie)
        answer = visitor.get(back)
        assert answer.status_code == 403 and _NOT_SAID in answer.text, lie
        assert visitor.get("/").status_code == 302, lie
    assert office.visitor().get("/people/oidc/back?code=x&state=y").status_code == 403
    assert office.visitor().get("/people/oidc/back").status_code == 403
    assert office.visitor().get("/people/oidc/back?error=access_denied").status_code == 403
    provider.end()
    answer = office.visitor().get("/people/oidc")
    assert answer.status_code == 503 and "answer" in answer.text


# ---- the configuration


@pytest.mark.parametrize(
    ("more", "what"),
    [
        ('[ldap]\nserver = "ldap://10.0.0.1"\nbase = "dc=mill"\n', "sends passwords in plain text"),
        (
            '[oidc]\nserver = "http://login.example/x"\nclient = "c"\nsecret_file = "/s"\n',
            "sends codes in plain text",
        ),
        ('[sign_in]\nsecond = "some"\n', "'some' is not a valid Second"),
        ("[sign_in]\ncolour = 1\n", "has no setting colour"),
        ("hosts = 1\n", "Cannot overwrite"),
    ],
)
def test_configurations_that_are_refused(tmp_path: Path, more: str, what: str) -> None:
    """With a sentence; a directory or a provider without TLS isn't asked for anything."""
    from plantbal.faults import Fault
    from plantbal_office.service.config import read_config

    path = tmp_path / "office.toml"
    path.write_text('hosts = ["x"]\nbooks = "/b"\nstate = "/s"\n' + more)
    with pytest.raises(Fault, match=what):
        read_config(path)


# ---- packages that it suggests, and doesn't depend on

_IMPORTED = """
import sys
sys.modules |= dict.fromkeys({missing!r})
import importlib, pkgutil
from plantbal_office.service.command import ready
ready()
import plantbal_office
# One person's desk, and what is imported if the configuration has a directory.
others = ("plantbal_office.settings.desk", "plantbal_office.service.directory")
for each in pkgutil.walk_packages(plantbal_office.__path__, "plantbal_office."):
    if each.name not in others:
        importlib.import_module(each.name)
        print(each.name)
"""


def test_with_what_the_package_depends_on(database: services.Database) -> None:
    """Each module of the service is imported where nothing is installed but what its package depends on."""
    rows = [
        line.split(" ")
        for line in (services.TOP / "packaging" / "needs.txt").read_text("ascii").splitlines()
        if line and not line.startswith("#")
    ]
    modules = {(name, by) for _, kind, name, by in rows if kind == "module"}
    own = {name for name, by in modules if by in ("depends", "office")}
    own.add("django")  # the control file has it
    missing = sorted({name for name, _ in modules} - own)
    assert {"authlib", "django_auth_ldap", "requests"} < set(missing)
    office = services.Service(database=database)
    try:
        words = [sys.executable, "-c", _IMPORTED.format(missing=missing)]
        done = services.run(words, env=office.here)
    finally:
        office.end()
    assert done.returncode == 0, done.stderr[-2000:]
    assert "plantbal_office.service.oidc" in done.stdout


@pytest.mark.parametrize(
    ("table", "module", "package"),
    [
        ("ldap", "django_auth_ldap", "python3-django-auth-ldap"),
        ("oidc", "authlib", "python3-authlib"),
        ("oidc", "requests", "python3-requests"),
    ],
)
def test_what_a_table_needs(
    tmp_path: Path, monkeypatch: pytest.MonkeyPatch, table: str, module: str, package: str
) -> None:
    """A configuration that wants what isn't installed says which package has it."""
    from plantbal.faults import ToolMissing
    from plantbal_office.service.config import read_config

    monkeypatch.setitem(sys.modules, module, None)
    path = tmp_path / "office.toml"
    path.write_text(f'hosts = ["x"]\nbooks = "/b"\nstate = "/s"\n[{table}]\nserver = "x"\n')
    with pytest.raises(ToolMissing, match=f"install {package}"):
        read_config(path)
