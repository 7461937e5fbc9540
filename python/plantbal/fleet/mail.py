"""Sends a letter by SMTP or by the system's sendmail, and tries again if that may help.

A server may be away for a moment, or say with a code of 400 to 499 that it can't take a letter now:
then it is tried again, after 1, 2, 4 .. times the pause. A code of 500 or more, and a sendmail that
isn't there, say that no other try will do.
"""

from __future__ import annotations

import os
import smtplib
import ssl
import subprocess
import time
from collections.abc import Callable, Sequence
from dataclasses import dataclass
from email.errors import MessageError
from email.headerregistry import Address
from email.message import EmailMessage
from email.utils import formatdate, make_msgid
from typing import Protocol

from plantbal.faults import Fault, Hindered, ToolMissing, WordsFault
from plantbal.fleet.letter import Letter

SENDMAIL = "/usr/sbin/sendmail"
_SECONDS = 60.0  # that a server, or a sendmail, has for each answer
_PORT, _PORT_TLS = 25, 465
_NOT_NOW = 75  # EX_TEMPFAIL: the status of a sendmail that may be asked again
_TEMPORARY = range(400, 500)


class LetterRefused(Hindered):
    """A letter that isn't taken, now or ever.

    Attributes
    ----------
    may_help : bool
        Whether another try may help.
    """

    def __init__(self, what: str, *, may_help: bool, remedy: str = "") -> None:
        super().__init__(what, remedy=remedy)
        self.may_help = may_help


class Sender(Protocol):
    """What sends a message."""

    def send(self, message: EmailMessage) -> None:
        """Send it.

        Raises
        ------
        LetterRefused
            If it isn't taken.
        """


def address_of(text: str) -> Address:
    """Return an address of mail.

    Raises
    ------
    WordsFault
        If it is none.
    """
    name, at, domain = text.rpartition("@")
    remedy = "write it as accounts@example.org"
    if not (at and name and domain and text.isascii() and text.isprintable()):
        raise WordsFault(f"{text!r} isn't an address", text=text, remedy=remedy)
    try:
        return Address(addr_spec=text)
    except (MessageError, ValueError, IndexError) as error:
        raise WordsFault(f"{text!r} isn't an address", text=text, remedy=remedy) from error


def message_of(letter: Letter, sender: Address, receivers: Sequence[Address]) -> EmailMessage:
    """Return a letter as a message of mail."""
    message = EmailMessage()
    message["Subject"] = letter.subject
    message["From"] = sender
    message["To"] = tuple(receivers)
    message["Date"] = formatdate(localtime=True)
    message["Message-ID"] = make_msgid("plantbal", domain=sender.domain)
    message["Auto-Submitted"] = "auto-generated"  # so that no machine answers it
    message.set_content(letter.text, cte="quoted-printable")
    return message


@dataclass(frozen=True, slots=True)
class Smtp:
    """A server of mail.

    Attributes
    ----------
    host, port : str, int
        Where it is.
    security : str
        ``none``, ``starttls`` (asked for after the greeting) or ``tls`` (from the first byte).
    user, password : str
        Who signs in; empty if nobody does.
    """

    host: str
    port: int
    security: str = "none"
    user: str = ""
    password: str = ""

    @classmethod
    def of(cls, text: str, security: str, user: str, password: str) -> Smtp:
        """Return the server of a word such as ``mail.example.org:587``.

        Raises
        ------
        WordsFault
            If it is none.
        """
        host, colon, port = text.rpartition(":") if text.count(":") == 1 else (text, "", "")
        if colon and not (port.isascii() and port.isdecimal() and 0 < int(port) < 1 << 16):
            raise WordsFault(f"{text!r} has no port", text=text, remedy="write HOST or HOST:587")
        if not host or not host.isprintable() or " " in host:
            raise WordsFault(f"{text!r} isn't a server", text=text, remedy="write HOST or HOST:587")
        usual = _PORT_TLS if security == "tls" else _PORT
        return cls(host, int(port) if port else usual, security, user, password)

    def __str__(self) -> str:
        return f"the server {self.host}, port {self.port}"

    def send(self, message: EmailMessage) -> None:
        """Send a message.

        Raises
        ------
        LetterRefused
            If the server isn't there, or doesn't take it for each of its receivers.
        """
        try:
            with self._connected() as server:
                if self.user:
                    server.login(self.user, self.password)
                refused = server.send_message(message)
        except smtplib.SMTPResponseException as error:
            said = f"{error.smtp_code} {_text(error.smtp_error)}"
            may_help = error.smtp_code in _TEMPORARY
            raise LetterRefused(f"{self} says {said}", may_help=may_help) from error
        except smtplib.SMTPRecipientsRefused as error:
            raise self._not_for(error.recipients) from error
        except (ssl.SSLError, smtplib.SMTPNotSupportedError) as error:
            remedy = "see --security, and the server's certificate"
            raise LetterRefused(f"{self}: {error}", may_help=False, remedy=remedy) from error
        except (OSError, smtplib.SMTPException) as error:
            said = getattr(error, "strerror", None) or str(error) or type(error).__name__
            raise LetterRefused(f"{self}: {said}", may_help=True) from error
        if refused:
            raise self._not_for(refused, taken=True)

    def _connected(self) -> smtplib.SMTP:
        """Return a connection, secured as it is asked for."""
        if self.security == "tls":
            context = ssl.create_default_context()
            return smtplib.SMTP_SSL(self.host, self.port, timeout=_SECONDS, context=context)
        server = smtplib.SMTP(self.host, self.port, timeout=_SECONDS)
        if self.security == "starttls":
            try:
                server.starttls(context=ssl.create_default_context())
            except BaseException:
                server.close()
                raise
        return server

    def _not_for(self, refused: dict[str, tuple[int, bytes]], taken: bool = False) -> LetterRefused:
        """Return what is said of the receivers that a server doesn't take a letter for."""
        each = (f"{name} ({code} {_text(said)})" for name, (code, said) in refused.items())
        others = ", and took it for the others" if taken else ""
        codes = [code for code, _ in refused.values()]
        may_help = not taken and all(code in _TEMPORARY for code in codes)
        return LetterRefused(
            f"{self} doesn't take it for {', '.join(each)}{others}", may_help=may_help
        )


@dataclass(frozen=True, slots=True)
class Sendmail:
    """The system's own way out for mail, or another program with its words."""

    path: str = SENDMAIL

    def __str__(self) -> str:
        return self.path

    def send(self, message: EmailMessage) -> None:
        """Send a message.

        Raises
        ------
        ToolMissing
            If the program isn't there.
        LetterRefused
            If it doesn't take the message.
        """
        receivers = [address.addr_spec for address in message["To"].addresses]
        sender = message["From"].addresses[0].addr_spec
        command = [self.path, "-i", "-f", sender, "--", *receivers]
        try:
            done = subprocess.run(
                command,
                input=message.as_bytes(),
                capture_output=True,
                timeout=_SECONDS,
                check=False,
            )
        except FileNotFoundError as error:
            tool = "a mail server's sendmail, such as that of exim4 or msmtp-mta; or use --smtp"
            raise ToolMissing(self.path, tool) from error
        except subprocess.TimeoutExpired as error:
            what = f"{self.path} didn't finish within {_SECONDS:g} s"
            raise LetterRefused(what, may_help=True) from error
        except OSError as error:
            raise LetterRefused(f"{self.path}: {error.strerror}", may_help=False) from error
        if done.returncode:
            said = _text(done.stderr or done.stdout)
            what = f"{self.path} ended with status {done.returncode}: {said or 'it says no more'}"
            raise LetterRefused(what, may_help=done.returncode == _NOT_NOW)


def _text(said: bytes | str) -> str:
    """Return what a server said in one line."""
    text = said if isinstance(said, str) else said.decode("utf-8", "replace")
    return " ".join("".join(c if c.isprintable() else " " for c in text).split())[:500]


def send(
    sender: Sender,
    message: EmailMessage,
    *,
    tries: int,
    pause: float,
    say: Callable[[str], None],
    wait: Callable[[float], None] = time.sleep,
) -> None:
    """Send a message, and try again while that may help.

    Parameters
    ----------
    sender : Sender
        What sends it.
    message : EmailMessage
        The message.
    tries : int
        How often it is tried in all.
    pause : float
        Seconds to wait before the second try; twice as many before the third, and so on.
    say : callable
        Gets what is said of a try that failed before another one.
    wait : callable
        Waits for some seconds.

    Raises
    ------
    Fault
        If the last try failed, or no other one would help.
    """
    for number in range(1, tries + 1):
        try:
            sender.send(message)
            return
        except LetterRefused as fault:
            if number == tries or not fault.may_help:
                count = "" if number == 1 else f" after {number} tries"
                raise Hindered(f"the mail isn't sent{count}: {fault.what}", remedy=fault.remedy)
            seconds = pause * 2 ** (number - 1)
            say(f"try {number} of {tries}: {fault}; again in {seconds:g} s")
            wait(seconds)


def mail_password(path: str | None) -> str:
    """Return the password in the first line of a file; empty without one.

    Raises
    ------
    Fault
        If it can't be read, or others than its owner may read it.
    """
    if path is None:
        return ""
    from plantbal.faults import Place, read_text

    source, text = read_text(path, 1 << 12)
    if path != "-" and os.stat(path).st_mode & 0o007:
        remedy = "chmod 600 it"
        raise Fault("everybody may read this password", place=Place(file=source), remedy=remedy)
    return text.partition("\n")[0].strip()
