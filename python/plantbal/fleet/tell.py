"""Sends a mail about the last night if somebody has to look, or if there was none."""

from __future__ import annotations

import argparse
import datetime
import os
import re
import socket
import sys
from pathlib import Path

from plantbal.commands.options import seconds_of, whole_between
from plantbal.faults import Fault, FileFault, WordsFault
from plantbal.files import write_text
from plantbal.fleet.alarms import age_of
from plantbal.fleet.letter import Letter, NightFile, letter_of
from plantbal.fleet.mail import (
    SENDMAIL,
    Sender,
    Sendmail,
    Smtp,
    address_of,
    mail_password,
    message_of,
    send,
)
from plantbal.statuses import ExitStatus

HELP = """
NIGHTS is the folder of all nights, or its night.json. A mail goes out if a plant needs a person, if
the night ended with a status other than 0, or, with --age, if the last night is older than that.
Without --to the mail is written to standard output.

The mail goes to the server of --smtp, or else to the system's sendmail. A server that can't be
reached, or that takes no mail for the moment, is tried again: --tries times in all, after a pause
that doubles each time. If the mail can't be sent, standard error says why and has its text, and the
status is 3. It is 0 if the mail was sent, or if there is nothing to tell.

With --status the status of a night that has just ended is reported too, since a night that fails
early leaves the night.json of the night before. Under systemd it needn't be given: it is in the
variable MONITOR_EXIT_STATUS.

examples:
  plantbal-desk tell /var/lib/plantbal --to accounts@example.org --smtp mail.example.org
  plantbal-desk tell nights --to accounts@example.org --age 26h
"""
_ANSWERS = re.compile(r"[0-9]{1,3}")


def add_arguments(parser: argparse.ArgumentParser) -> None:
    """Add the words of the command."""
    add = parser.add_argument
    add("nights", metavar="NIGHTS")
    to = "who gets it; may be given more than once"
    add("--to", metavar="ADDRESS", action="append", default=[], help=to)
    add("--from", metavar="ADDRESS", dest="sender", help="who sends it (default: plantbal@HOST)")
    add("--smtp", metavar="HOST[:PORT]", help="the mail server (default: the system's sendmail)")
    security = "how to connect to the server: starttls, tls from the first byte, or none"
    add("--security", choices=["none", "starttls", "tls"], default="none", help=security)
    add("--user", metavar="NAME", default="", help="sign in to the server with this name")
    password = "the password, in the first line of this file"
    add("--password-file", metavar="FILE", help=password)
    add("--sendmail", metavar="PATH", help=f"the program in place of {SENDMAIL}")
    tries = "try N times in all (default: 5)"
    add("--tries", metavar="N", type=whole_between(1, 100), default=5, help=tries)
    pause = "wait before the second try; twice as long before the third (default: 30)"
    add("--pause", metavar="SECONDS", type=seconds_of, default=30.0, help=pause)
    add("--age", metavar="AGE", type=age_of, help="send a mail if no night ended for 26h, or 3d")
    status = "the status that the night ended with"
    add("--status", metavar="N", type=whole_between(0, 255), help=status)
    add("--always", action="store_true", help="send a mail after a good night too")


def _status_of(options: argparse.Namespace) -> int | None:
    """Return the status that the night ended with, by its word, or by systemd's variable."""
    if options.status is not None:
        return int(options.status)
    said = os.environ.get("MONITOR_EXIT_STATUS", "")
    return int(said) if _ANSWERS.fullmatch(said) else None


def _sender_of(options: argparse.Namespace) -> Sender:
    """Return what sends the mail.

    Raises
    ------
    WordsFault
        If its words don't go together.
    """
    if options.smtp is None:
        for word in ("user", "password_file"):
            if getattr(options, word):
                name = word.replace("_", "-")
                raise WordsFault(f"--{name} is for a server", remedy="use --smtp HOST too")
        return Sendmail(options.sendmail or SENDMAIL)
    if options.sendmail is not None:
        raise WordsFault("--smtp and --sendmail are two ways", remedy="leave one out")
    if options.user and options.security == "none":
        what = "the password would cross the network in plain text"
        raise WordsFault(what, remedy="use --security starttls or tls")
    if bool(options.user) != bool(options.password_file):
        raise WordsFault("--user and --password-file go together", remedy="give both, or neither")
    return Smtp.of(
        options.smtp, options.security, options.user, mail_password(options.password_file)
    )


def _told(path: Path) -> tuple[NightFile | None, str]:
    """Return the last night, or why none is known: of a folder that has none yet, that's told.

    Raises
    ------
    FileFault
        If there is no such folder or file.
    """
    file = path / "night.json" if path.is_dir() else path
    try:
        return NightFile.read(file), ""
    except FileFault as fault:
        if file is path or file.exists():
            raise
        return None, str(fault)
    except Fault as fault:
        return None, str(fault)


def run(options: argparse.Namespace) -> int:
    """Tell, and return the status."""
    now = datetime.datetime.now().astimezone()
    receivers = [address_of(each) for each in options.to]
    sender = _sender_of(options) if receivers else None
    own = options.sender or f"plantbal@{socket.getfqdn() or 'localhost'}"
    status = _status_of(options)
    told, why = _told(Path(options.nights))
    letter = letter_of(told, status, options.age, now)
    if letter is None and options.always and told is not None:
        letter = Letter(
            f"plantbal {told.night}: a good night", f"{told.plants:,} plants, all good\n"
        )
    if letter is None:
        print(f"{options.prog}: a good night, nothing to tell", file=sys.stderr)
        return ExitStatus.GOOD
    if why:
        letter = Letter(letter.subject, f"{letter.text}\n{why}\n")
    if sender is None:
        write_text("-", f"{letter.subject}\n\n{letter.text}")
        return ExitStatus.GOOD
    try:
        send(
            sender,
            message_of(letter, address_of(own), receivers),
            tries=options.tries,
            pause=options.pause,
            say=lambda said: print(f"{options.prog}: {said}", file=sys.stderr),
        )
    except Fault:
        # whoever reads the log has to find what nobody got
        print(f"{letter.subject}\n\n{letter.text}", file=sys.stderr)
        raise
    print(f"{options.prog}: told {', '.join(options.to)}: {letter.subject}", file=sys.stderr)
    return ExitStatus.GOOD
