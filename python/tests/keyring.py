"""What tests of signatures share: keys of people, and a time stamp server of their own."""

from __future__ import annotations

import subprocess
import threading
from collections.abc import Iterator
from contextlib import contextmanager
from http.server import BaseHTTPRequestHandler, HTTPServer
from pathlib import Path

_AUTHORITY = """
[req]
distinguished_name = name
x509_extensions = both
prompt = no
[name]
CN = stamps of the test
[both]
basicConstraints = critical, CA:true
extendedKeyUsage = critical, timeStamping
[tsa]
default_tsa = own
[own]
serial = {room}/serial
signer_cert = {room}/tsa.pem
signer_key = {room}/tsa.key
signer_digest = sha256
default_policy = 1.2.3.4.1
digests = sha256
"""


def key(room: Path, name: str, kind: str = "ed25519") -> Path:
    """Make a key of OpenSSH without a passphrase, and return the private one."""
    room.mkdir(parents=True, exist_ok=True)
    path = room / name
    words = ["ssh-keygen", "-q", "-t", kind, "-N", "", "-C", "", "-f", path]
    subprocess.run(words, check=True, stdin=subprocess.DEVNULL)
    return path


def line(name: str, private: Path, options: str = "") -> str:
    """Return the line that allows a key to sign."""
    public = private.with_name(f"{private.name}.pub").read_text("ascii").split(" ")[:2]
    return " ".join(filter(None, (name, options, *map(str.strip, public)))) + "\n"


def minisign_key(room: Path, name: str) -> tuple[Path, str]:
    """Make a key of minisign without a password, and return the private one and the public one."""
    path, public = room / name, room / f"{name}.pub"
    words = ["minisign", "-G", "-W", "-f", "-p", public, "-s", path]
    subprocess.run(words, check=True, stdin=subprocess.DEVNULL, stdout=subprocess.DEVNULL)
    return path, public.read_text("ascii").split("\n")[1]


def authority(room: Path) -> str:
    """Make a time stamp authority in a folder, and return its certificate."""
    room.mkdir(parents=True, exist_ok=True)
    (room / "tsa.cnf").write_text(_AUTHORITY.format(room=room), "ascii")
    (room / "serial").write_text("01\n", "ascii")
    words = ["openssl", "req", "-x509", "-newkey", "rsa:2048", "-nodes", "-days", "30"]
    words += ["-config", str(room / "tsa.cnf")]
    words += ["-keyout", str(room / "tsa.key"), "-out", str(room / "tsa.pem")]
    subprocess.run(words, check=True, stderr=subprocess.DEVNULL)
    return (room / "tsa.pem").read_text("ascii")


@contextmanager
def stamp_server(room: Path) -> Iterator[str]:
    """A time stamp server on a free port of this machine; its address."""

    class Handler(BaseHTTPRequestHandler):
        def do_POST(self) -> None:  # noqa: N802
            asked = room / "asked.tsq"
            asked.write_bytes(self.rfile.read(int(self.headers["Content-Length"])))
            words = ["openssl", "ts", "-reply", "-config", str(room / "tsa.cnf")]
            done = subprocess.run(
                [*words, "-queryfile", str(asked)], capture_output=True, check=True
            )
            self.send_response(200)
            self.end_headers()
            self.wfile.write(done.stdout)

        def log_message(self, *_: object) -> None:
            pass

    server = HTTPServer(("127.0.0.1", 0), Handler)
    thread = threading.Thread(target=server.serve_forever, daemon=True)
    thread.start()
    try:
        yield f"http://127.0.0.1:{server.server_port}/"
    finally:
        server.shutdown()
        server.server_close()
        thread.join()
