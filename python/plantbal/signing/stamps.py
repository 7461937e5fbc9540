"""Time stamps: a server that the plant names says when a signature was there, by `openssl ts`.

The server gets a digest and nothing else. What it answers is a token of RFC 3161, which `openssl ts
-verify` judges with the certificate of the server's authority.
"""

from __future__ import annotations

import base64
import binascii
import datetime
import re
import tempfile
import urllib.error
import urllib.request
from dataclasses import dataclass
from pathlib import Path

from plantbal.faults import Fault
from plantbal.limits import STAMP_BYTES
from plantbal.sentence import Sentence, phrase
from plantbal.signing.tools import call_tool, said_last

_SECONDS = 30.0

_TIME = re.compile(
    r"^Time stamp: ([A-Z][a-z]{2}) +([0-9]+) ([0-9:]{8})(?:\.[0-9]+)? ([0-9]{4}) GMT$", re.MULTILINE
)


@dataclass(frozen=True)
class Stamped:
    """What is known of a time stamp.

    Attributes
    ----------
    when : datetime or None
        The time that it says, if it is believed.
    why : str
        Why it isn't.
    """

    when: datetime.datetime | None
    why: str = ""

    def said(self) -> str:
        """Return it in words."""
        if self.when is None:
            return Sentence("its time stamp isn't believed: {why}", why=phrase(self.why))
        when = f"{self.when:%Y-%m-%dT%H:%M:%SZ}"
        return Sentence("it was there at {when}, by its time stamp", when=when)


def stamp(data: bytes, server: str) -> str:
    """Return the time stamp of bytes by a server, in base64.

    Parameters
    ----------
    data : bytes
        What was there; only its digest is sent.
    server : str
        The server's address, ``http://tsa.example/``.

    Raises
    ------
    Fault
        If the server can't be reached, or gives none.
    """
    if not server.startswith(("http://", "https://")):
        what = Sentence("{server} isn't a time stamp server", server=server)
        raise Fault(what, text=server, remedy="write its https:// address")
    with tempfile.TemporaryDirectory() as name:
        path = Path(name) / "data"
        path.write_bytes(data)
        asked = call_tool("openssl", ["openssl", "ts", "-query", "-data", path, "-sha256", "-cert"])
        if asked.returncode != 0:
            form = "openssl couldn't make the request: {said}"
            raise Fault(Sentence(form, said=said_last(asked)))
    head = {"Content-Type": "application/timestamp-query"}
    request = urllib.request.Request(server, data=asked.stdout, headers=head)
    try:
        with urllib.request.urlopen(request, timeout=_SECONDS) as answer:
            token: bytes = answer.read(STAMP_BYTES + 1)
    except (OSError, ValueError) as error:
        form = "the time stamp server {server} doesn't answer: {error}"
        what = Sentence(form, server=server, error=str(error))
        raise Fault(
            what, text=server, remedy="try again later, or leave the time stamp out"
        ) from error
    if len(token) > STAMP_BYTES:
        form = "the time stamp server {server} sent more than a time stamp"
        raise Fault(Sentence(form, server=server), text=server)
    text = base64.encodebytes(token).decode("ascii")
    if _time_in(token) is None:
        raise Fault(
            Sentence("the time stamp server {server} gives none", server=server), text=server
        )
    return text


def stamped(data: bytes, token: str, authority: str) -> Stamped:
    """Return what a time stamp of bytes says, if it is believed.

    Parameters
    ----------
    data : bytes
        What was there.
    token : str
        The time stamp, in base64.
    authority : str
        The certificate of the server's authority, as PEM.
    """
    try:
        answer = base64.b64decode(token, validate=False)
    except (ValueError, binascii.Error):
        return Stamped(None, "it isn't a time stamp")
    with tempfile.TemporaryDirectory() as name:
        room = Path(name)
        (room / "data").write_bytes(data)
        (room / "token").write_bytes(answer)
        (room / "authority").write_text(authority, "utf-8")
        words: list[str | Path] = ["openssl", "ts", "-verify", "-data", room / "data"]
        words += ["-in", room / "token", "-CAfile", room / "authority"]
        done = call_tool("openssl", words)
    when = _time_in(answer)
    if done.returncode != 0 or when is None:
        return Stamped(None, "it doesn't fit, or isn't of the authority that is named")
    return Stamped(when)


def _time_in(answer: bytes) -> datetime.datetime | None:
    """Return the time that an answer states, or None if it has none."""
    with tempfile.TemporaryDirectory() as name:
        path = Path(name) / "token"
        path.write_bytes(answer)
        done = call_tool("openssl", ["openssl", "ts", "-reply", "-in", path, "-text"])
    found = _TIME.search(done.stdout.decode("ascii", "replace"))
    if done.returncode != 0 or found is None:
        return None
    when = datetime.datetime.strptime(" ".join(found.groups()), "%b %d %H:%M:%S %Y")
    return when.replace(tzinfo=datetime.timezone.utc)
