"""An office's service with real parts: PostgreSQL, gunicorn, nginx with TLS, slapd, on own ports.

All of it is in one folder, answers on 127.0.0.1 alone, and is ended by the test.
"""

from __future__ import annotations

import os
import re
import shutil
import signal
import socket
import subprocess
import sys
import tempfile
import time
from collections.abc import Mapping, Sequence
from contextlib import suppress
from pathlib import Path

import requests
from requests.adapters import HTTPAdapter

TOP = Path(__file__).resolve().parents[3]
BIN = Path("/usr/lib/postgresql/15/bin")
ELSEWHERE = "127.0.0.66"  # another address of this machine
_TOKEN = re.compile(r'name="csrfmiddlewaretoken" value="([^"]+)"')
_PASSWORDS = re.compile(r"the password of (\S+): (\S+)")


def free_port() -> int:
    """A port that nobody has."""
    with socket.socket() as found:
        found.bind(("127.0.0.1", 0))
        port: int = found.getsockname()[1]
        return port


def new_room() -> Path:
    """A new folder whose name is short, since the name of a socket may not be long."""
    return Path(tempfile.mkdtemp(prefix="pb."))


def removed(room: Path) -> None:
    """Remove a folder."""
    shutil.rmtree(room, ignore_errors=True)


def reached(port: int) -> None:
    """Wait until a port of this machine answers."""
    until = time.monotonic() + 60
    while time.monotonic() < until:
        with socket.socket() as tried:
            if tried.connect_ex(("127.0.0.1", port)) == 0:
                return
        time.sleep(0.05)
    raise AssertionError(f"nothing answers on port {port}")


def children(parent: int) -> list[int]:
    """The numbers of the processes that a process has started."""
    text = Path(f"/proc/{parent}/task/{parent}/children").read_text("ascii")
    return [int(each) for each in text.split()]


def ended(process: int) -> None:
    """Wait until a process is no more, or is one that nobody asks for any more."""
    until = time.monotonic() + 30
    while time.monotonic() < until:
        try:
            if Path(f"/proc/{process}/stat").read_text().rpartition(") ")[2].startswith("Z"):
                return
        except (FileNotFoundError, ProcessLookupError):
            return
        time.sleep(0.02)
    raise AssertionError(f"process {process} doesn't end")


def run(words: Sequence[object], **more: object) -> subprocess.CompletedProcess[str]:
    """Run a command to its end, within five minutes."""
    texts = list(map(str, words))
    done = subprocess.run(texts, capture_output=True, text=True, timeout=300, **more)  # type: ignore[call-overload]
    found: subprocess.CompletedProcess[str] = done
    return found


class Database:
    """A PostgreSQL of its own, on a socket in its folder."""

    def __init__(self, room: Path) -> None:
        self.room, self.data = room / "pg", room / "pg" / "data"
        self.room.mkdir()
        self._as = ["runuser", "-u", "postgres", "--"] if os.geteuid() == 0 else []
        if self._as:
            room.chmod(0o755)
            shutil.chown(self.room, "postgres")
        words = [
            *self._as,
            BIN / "initdb",
            "-D",
            self.data,
            "-A",
            "trust",
            "-U",
            "postgres",
            "-E",
            "UTF8",
        ]
        done = run([*words, "--no-sync"], cwd="/")
        assert done.returncode == 0, done.stderr
        self.start()

    @classmethod
    def found(cls, data: Path, room: Path) -> Database:
        """Start a database that a machine left when its power was cut."""
        database = cls.__new__(cls)
        database.data, database.room = data, room
        database._as = ["runuser", "-u", "postgres", "--"] if os.geteuid() == 0 else []
        if database._as:
            shutil.chown(room, "postgres")
        (data / "postmaster.pid").unlink(missing_ok=True)  # the number is a process of this machine
        database.start()
        return database

    def start(self) -> None:
        """Start it."""
        options = f"-c listen_addresses='' -c unix_socket_directories='{self.room}'"
        words = [*self._as, BIN / "pg_ctl", "-D", self.data, "-w", "-l", self.room / "log"]
        done = subprocess.run(
            [*map(str, words), "-o", options, "start"],
            cwd="/",
            stdout=subprocess.DEVNULL,
            timeout=60,
        )
        assert done.returncode == 0, (self.room / "log").read_text()

    def call(self, *words: object) -> str:
        """Call psql or another command as its owner."""
        done = run([words[0], "-h", self.room, "-U", "postgres", *words[1:]])
        assert done.returncode == 0, done.stderr
        return done.stdout

    @property
    def processes(self) -> list[int]:
        """The numbers of its processes, the first of all first."""
        first = int((self.data / "postmaster.pid").read_text().split("\n")[0])
        return [first, *children(first)]

    def kill(self) -> None:
        """Kill all of it at once, as a power cut does to its processes."""
        some = self.processes
        for each in some:
            with suppress(ProcessLookupError):
                os.kill(each, signal.SIGKILL)
        for each in some:
            ended(each)
        # A process that its parent doesn't ask for keeps its number, and would look alive.
        (self.data / "postmaster.pid").unlink(missing_ok=True)
        (self.room / ".s.PGSQL.5432.lock").unlink(missing_ok=True)

    def end(self) -> None:
        """End it."""
        run([*self._as, BIN / "pg_ctl", "-D", self.data, "-m", "immediate", "stop"], cwd="/")


class Service:
    """The service.

    Parameters
    ----------
    more : str
        More lines of its configuration.
    database : Database, optional
        The database server; one of its own without it.
    disk : Path, optional
        Where its books and its state are; in its folder without it.
    """

    def __init__(
        self, more: str = "", database: Database | None = None, disk: Path | None = None
    ) -> None:
        self.room = new_room()
        self.owns = database is None
        self.database = database or Database(self.room)
        self.name = f"office_{self.room.name[3:].lower()}"
        self.port, self.more = free_port(), more
        self.config = self.room / "etc" / "office.toml"
        self.config.parent.mkdir()
        self.books, self.state = (disk or self.room) / "books", (disk or self.room) / "state"
        self.socket = self.room / "socket"
        self.processes: list[subprocess.Popen[bytes]] = []
        self.passwords: dict[str, str] = {}
        self.configure(more)
        try:
            self._set_up()
        except BaseException:
            self.end()
            raise

    def _set_up(self) -> None:
        """Have its database and its first administrator made."""
        self.database.call("createdb", self.name)
        said = self.office("init", "--host", "localhost", "--admin", "root", "--user", _own_user())
        self.passwords = dict(_PASSWORDS.findall(said))

    def configure(self, more: str) -> None:
        """Write the configuration."""
        self.config.write_text(
            f'hosts = ["localhost"]\nbooks = "{self.books}"\nstate = "{self.state}"\n'
            f'program = "{os.environ["PLANTBAL"]}"\n'
            f'[database]\nname = "{self.name}"\nhost = "{self.database.room}"\nuser = "postgres"\n{more}'
        )
        self.config.chmod(0o640)

    @property
    def here(self) -> dict[str, str]:
        """The environment of its processes."""
        kept = {name: text for name, text in os.environ.items() if "DJANGO" not in name}
        kept |= {"PYTHONPATH": str(TOP / "python"), "PLANTBAL_OFFICE": str(self.config)}
        return kept | {"PYTHONDONTWRITEBYTECODE": "1", "PYTHONWARNINGS": "ignore"}

    def office(self, *words: object, allowed: Sequence[int] = (0,)) -> str:
        """Type plantbal-office, and return what it said."""
        script = "import sys; from plantbal_office.service.command import main; sys.exit(main())"
        done = run([sys.executable, "-c", script, *words], env=self.here)
        assert done.returncode in allowed, (words, done.returncode, done.stdout, done.stderr)
        return done.stdout + done.stderr

    def inside(self, code: str) -> str:
        """Run a few lines of Python in Django, as an administrator at the machine could."""
        begin = "from plantbal_office.service.command import ready; ready()\n"
        done = run([sys.executable, "-c", begin + code], env=self.here)
        assert done.returncode == 0, done.stderr
        return done.stdout

    def person(self, name: str, *roles: str, plant: str = "mill") -> str:
        """Make an account with roles, and return its password."""
        self.people({name: roles}, plant)
        return self.passwords[name]

    def people(self, roles: Mapping[str, Sequence[str]], *plants: str) -> None:
        """Make accounts with roles in plants, by the commands for it, all of them in one process."""
        words: list[tuple[str, ...]] = [("user", name) for name in roles]
        for plant in plants or ("mill",):
            words += [("role", name, plant, role) for name in roles for role in roles[name]]
        code = "from plantbal_office.service.command import main\n"
        said = self.inside(f"{code}for words in {words!r}: assert main(words) == 0, words")
        self.passwords |= dict(_PASSWORDS.findall(said))

    def plant(self, slug: str, folder: Path) -> None:
        """Have a plant whose book is in a folder."""
        code = "from plantbal_office.plants.models import Plant\n"
        self.inside(
            code + f"Plant.objects.create(slug={slug!r}, name={slug!r}, folder={str(folder)!r})"
        )

    def start(self, workers: int = 2) -> None:
        """Start gunicorn and nginx."""
        words = [sys.executable, "-m", "gunicorn", "--bind", f"unix:{self.socket}"]
        words += ["--config", str(TOP / "packaging" / "office" / "gunicorn.py")]
        words += ["--workers", str(workers), "--pid", str(self.room / f"gunicorn.{self.port}.pid")]
        here = self.here | {"DJANGO_SETTINGS_MODULE": "plantbal_office.settings.office"}
        log = open(self.room / "gunicorn.log", "ab")
        words.append("plantbal_office.wsgi:application")
        self.processes.append(subprocess.Popen(words, env=here, stdout=log, stderr=log))
        self._nginx()
        self._wait()

    def _nginx(self) -> None:
        """Start nginx with the configuration that the package has."""
        cert = self.room / "cert.pem"
        words = ["openssl", "req", "-x509", "-newkey", "rsa:2048", "-nodes", "-days", "2"]
        words += ["-subj", "/CN=localhost", "-addext", "subjectAltName=DNS:localhost"]
        if not cert.exists():
            run([*words, "-keyout", self.room / "key.pem", "-out", cert])
        text = (TOP / "packaging" / "office" / "nginx.conf").read_text()
        for old, new in (
            ("listen 80;", f"listen 127.0.0.1:{free_port()};"),
            ("listen 443 ssl http2;", f"listen 127.0.0.1:{self.port} ssl http2;"),
            ("    listen [::]:80;\n", ""),
            ("    listen [::]:443 ssl http2;\n", ""),
            ("accounts.mill.example", "localhost"),
            ("/etc/ssl/certs/accounts.pem", str(cert)),
            ("/etc/ssl/private/accounts.key", str(self.room / "key.pem")),
            ("/run/plantbal-office.sock", str(self.socket)),
            ("/usr/lib/python3/dist-packages/", f"{TOP}/python/"),
        ):
            assert old in text, old
            text = text.replace(old, new)
        site = self.room / f"site.{self.port}.conf"
        site.write_text(text)
        user = "user root;\n" if os.geteuid() == 0 else ""
        conf = self.room / f"nginx.{self.port}.conf"
        conf.write_text(
            f"{user}daemon off;\nworker_processes 1;\npid {self.room}/nginx.{self.port}.pid;\n"
            f"error_log {self.room}/nginx.log;\nevents {{}}\nhttp {{\naccess_log off;\n"
            f"include /etc/nginx/mime.types;\nclient_body_temp_path {self.room}/body.{self.port};\n"
            f"proxy_temp_path {self.room}/proxy.{self.port};\ninclude {site};\n}}\n"
        )
        words = ["/usr/sbin/nginx", "-c", str(conf), "-p", str(self.room)]
        self.processes.append(subprocess.Popen(words))

    @property
    def workers(self) -> list[int]:
        """The numbers of gunicorn's workers."""
        return children(int((self.room / f"gunicorn.{self.port}.pid").read_text()))

    def _wait(self) -> None:
        until = time.monotonic() + 180
        while time.monotonic() < until:
            try:
                if self.visitor().get("/alive").status_code == 200:
                    return
            except requests.RequestException:
                pass
            time.sleep(0.2)
        raise AssertionError((self.room / "gunicorn.log").read_text()[-2000:])

    def visitor(self, address: str = "") -> Visitor:
        """Somebody who hasn't signed in, from an address of this machine."""
        return Visitor(f"https://localhost:{self.port}", self.room / "cert.pem", address)

    def signed_in(self, name: str) -> Visitor:
        """Somebody who has signed in."""
        visitor = self.visitor()
        answer = visitor.sign_in(name, self.passwords[name])
        assert answer.status_code == 302, answer.text
        return visitor

    def end(self) -> None:
        """End all of it, and remove its folder."""
        for process in self.processes:
            process.terminate()
        for process in self.processes:
            process.wait(timeout=180)
        if self.owns:
            self.database.end()
        shutil.rmtree(self.room, ignore_errors=True)


def _own_user() -> str:
    import pwd

    return pwd.getpwuid(os.geteuid()).pw_name


class From(HTTPAdapter):
    """Connections from an address of this machine."""

    def __init__(self, address: str) -> None:
        self.address = address
        super().__init__()

    def init_poolmanager(self, *words: object, **more: object) -> None:
        super().init_poolmanager(*words, **more, source_address=(self.address, 0))


class Visitor:
    """A browser without scripts: it keeps cookies and fills forms in."""

    def __init__(self, root: str, certificate: Path, address: str = "") -> None:
        self.root = root
        self.session = requests.Session()
        if address:
            self.session.mount("https://", From(address))
        self.session.trust_env = False
        self.session.verify = str(certificate)

    def get(self, path: str, **more: object) -> requests.Response:
        """A page, without going where it sends one."""
        return self.session.get(self.root + path, allow_redirects=False, timeout=180, **more)  # type: ignore[arg-type]

    def token(self, path: str) -> str:
        """The token of the forms of a page."""
        return _TOKEN.findall(self.get(path).text)[0]

    def post(
        self, path: str, data: dict[str, str], at: str = "", **more: object
    ) -> requests.Response:
        """What a form is answered; its token is that of the page `at`."""
        words = data | {"csrfmiddlewaretoken": self.token(at or path)}
        heads = {"Referer": self.root + path}
        return self.session.post(
            self.root + path, data=words, headers=heads, allow_redirects=False, timeout=180, **more  # type: ignore[arg-type]
        )

    def sign_in(self, name: str, password: str, then: str = "/") -> requests.Response:
        """Sign in."""
        path = f"/people/sign-in?next={then}"
        return self.post(path, {"name": name, "password": password})
