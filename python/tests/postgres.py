"""A server of PostgreSQL for tests: in its own folder, on its own port of 127.0.0.1, bounded."""

from __future__ import annotations

import os
import pwd
import shutil
import socket
import subprocess
from collections.abc import Iterator
from contextlib import contextmanager
from dataclasses import dataclass
from pathlib import Path

BIN = Path("/usr/lib/postgresql/15/bin")
# How long a statement of a test may take, in seconds: on a machine with nothing else it is one.
LONGEST = 300
PASSWORD = "a pass'word:of @tests"


@dataclass(frozen=True)
class Server:
    """A server: where it is, and how statements are given to it as its owner."""

    folder: Path
    port: int
    user: str

    @property
    def url(self) -> str:
        """Where it is, for the reader of a mapping."""
        return f"postgresql://reader@127.0.0.1:{self.port}/plant"

    def sql(self, text: str, database: str = "plant") -> str:
        """Carry out statements, and return what they print."""
        words = [BIN / "psql", "-h", self.folder, "-p", str(self.port), "-U", "owner", "-At"]
        words += ["-v", "ON_ERROR_STOP=1", "-d", database]
        done = _as(self.user, words, input=text)
        assert done.returncode == 0, done.stderr
        return done.stdout


def _as(user: str, words: list[object], **given: object) -> subprocess.CompletedProcess[str]:
    """Run a program as a user that isn't root, which the server refuses."""
    texts = [str(word) for word in words]
    if os.getuid() == 0:
        found = pwd.getpwnam(user)
        ids = f"--reuid={found.pw_uid}", f"--regid={found.pw_gid}"
        texts = ["setpriv", *ids, "--clear-groups", *texts]
    return subprocess.run(
        texts, capture_output=True, text=True, timeout=LONGEST, cwd="/", **given  # type: ignore[call-overload,no-any-return]
    )


@contextmanager
def served(room: Path) -> Iterator[Server]:
    """Give a server with a database `plant` and a user `reader` who has a password."""
    user = "nobody" if os.getuid() == 0 else pwd.getpwuid(os.getuid()).pw_name
    folder = (
        Path("/tmp") / f"plantbal-pg-{os.getpid()}-{room.name[-12:]}"
    )  # sockets want short names
    shutil.rmtree(folder, ignore_errors=True)
    folder.mkdir(mode=0o700)
    if os.getuid() == 0:
        found = pwd.getpwnam(user)
        os.chown(folder, found.pw_uid, found.pw_gid)
    with socket.socket() as free:
        free.bind(("127.0.0.1", 0))
        port = free.getsockname()[1]
    data = folder / "data"
    password = folder / "owner"
    try:
        password.write_text("owner's\n", encoding="ascii")
        password.chmod(0o644)
        words = ["--auth-host=scram-sha-256", "--auth-local=trust", "-E", "UTF8", "--no-locale"]
        made = _as(
            user, [BIN / "initdb", "-D", data, "-U", "owner", "-N", *words, f"--pwfile={password}"]
        )
        assert made.returncode == 0, made.stderr
        small = "-c fsync=off -c shared_buffers=16MB -c max_connections=20 -c jit=off"
        given = f"-h 127.0.0.1 -p {port} -k {folder} {small}"
        log = folder / "log"
        begun = _as(
            user,
            [
                BIN / "pg_ctl",
                "-D",
                data,
                "-w",
                "-t",
                str(LONGEST - 10),
                "-l",
                log,
                "-o",
                given,
                "start",
            ],
        )
        assert begun.returncode == 0, (begun.stderr, log.read_text(encoding="utf-8"))
        server = Server(folder, port, user)
        text = PASSWORD.replace("'", "''")
        server.sql(f"CREATE DATABASE plant; CREATE USER reader PASSWORD '{text}';", "postgres")
        yield server
    finally:
        _as(user, [BIN / "pg_ctl", "-D", data, "-w", "-m", "immediate", "stop"])
        shutil.rmtree(folder, ignore_errors=True)
