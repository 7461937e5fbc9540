"""One person's desk: its folder and keys, its database, the books it opens, and its server.

It answers on 127.0.0.1 alone. The address has a key, made anew at each start, as notebooks have it:
whoever has no key has no page, another user of the machine too. The server has a thread a request,
and WSGI of the standard library; behind it a page takes part of a second, and one person waits.
"""

from __future__ import annotations

import os
import secrets
import socketserver
import sys
import webbrowser
from collections.abc import Sequence
from dataclasses import dataclass
from pathlib import Path
from typing import Any
from wsgiref.simple_server import WSGIRequestHandler, WSGIServer, make_server

from plantbal.faults import Fault
from plantbal.files import unwritten
from plantbal_office.warm import warm_meanwhile

HOST = "127.0.0.1"
SETTINGS = "plantbal_office.settings.desk"


def state_folder(named: str | None) -> Path:
    """Return the folder for the desk's own data, made if it isn't there."""
    base = os.environ.get("XDG_STATE_HOME") or Path.home() / ".local" / "state"
    folder = Path(named) if named else Path(base) / "plantbal" / "desk"
    try:
        folder.mkdir(parents=True, exist_ok=True, mode=0o700)
        folder.chmod(0o700)
    except OSError as error:
        raise unwritten(folder, error) from error
    return folder.resolve()


@dataclass
class Desk:
    """One person's desk.

    Attributes
    ----------
    state : Path
        The folder for what it keeps of its own.
    key : str
        The key in its address.
    """

    state: Path
    key: str

    @classmethod
    def made(cls, state: str | None, program: str | None) -> Desk:
        """Return a desk with its database, and Django ready for it."""
        import django
        from django.core.management import call_command

        desk = cls(state_folder(state), secrets.token_urlsafe(24))
        os.environ["PLANTBAL_DESK_STATE"] = str(desk.state)
        os.environ["PLANTBAL_DESK_SECRET"] = secrets.token_urlsafe(48)
        os.environ["PLANTBAL_DESK_KEY"] = desk.key
        if program:
            os.environ["PLANTBAL_DESK_PROGRAM"] = str(Path(program).resolve())
        os.environ["DJANGO_SETTINGS_MODULE"] = SETTINGS
        os.umask(0o077)
        django.setup()
        call_command("migrate", verbosity=0, interactive=False)
        return desk

    def open(self, books: Sequence[str]) -> None:
        """Have books in the desk, besides those that were there before.

        Raises
        ------
        Fault
            If a folder has no book.
        """
        from plantbal.book.library import Book
        from plantbal_office.enter.drops import tidy
        from plantbal_office.people.models import Membership, Person
        from plantbal_office.people.views import ONE
        from plantbal_office.plants.models import Plant
        from plantbal_office.plants.views import ALL, free_slug

        person, _ = Person.objects.get_or_create(username=ONE, defaults={"is_administrator": True})
        for named in books:
            folder = Path(named).expanduser().resolve()
            Book(folder).contents()
            plant = Plant.objects.filter(folder=str(folder)).first()
            if plant is None:
                slug = free_slug(folder.name)
                plant = Plant.objects.create(slug=slug, name=folder.name[:80], folder=str(folder))
            for role in ALL:
                Membership.objects.get_or_create(person=person, plant=plant, role=role.value)
        tidy()

    def server(self, port: int) -> WSGIServer:
        """Return the server, on a free port if it is 0.

        Raises
        ------
        Fault
            If the port is taken.
        """
        from django.core.wsgi import get_wsgi_application

        application: Any = with_static(get_wsgi_application())
        try:
            return make_server(HOST, port, application, Threaded, QuietHandler)
        except OSError as error:
            what = f"port {port}: {error.strerror}"
            raise Fault(what, remedy="leave out --port, and a free one is used") from error

    def address(self, server: WSGIServer) -> str:
        """Return the address with the key."""
        return f"http://{HOST}:{server.server_port}/people/sign-in?key={self.key}"

    def serve(self, port: int, *, browser: bool) -> None:
        """Serve until it is stopped."""
        server = self.server(port)
        address = self.address(server)
        print(f"the desk is at {address}", flush=True)
        print("Ctrl-C stops it", flush=True)
        warm_meanwhile()
        if browser:
            webbrowser.open(address)
        try:
            server.serve_forever()
        except KeyboardInterrupt:
            print("the desk has stopped", file=sys.stderr)
        finally:
            server.server_close()


class Threaded(socketserver.ThreadingMixIn, WSGIServer):
    """A server with a thread for each request."""

    daemon_threads = True
    request_queue_size = 64


class QuietHandler(WSGIRequestHandler):
    """Answers requests, and writes no line for each."""

    def log_message(self, format: str, *args: Any) -> None:  # noqa: A002
        """Write nothing: the address has the key in it."""


def with_static(application: Any) -> Any:
    """Return an application that serves the desk's own files, whatever DEBUG says."""
    from django.contrib.staticfiles.handlers import StaticFilesHandler
    from django.contrib.staticfiles.views import serve

    class Handler(StaticFilesHandler):
        """Serves static files from the package."""

        def serve(self, request: Any) -> Any:
            """Return a file."""
            answer = serve(request, self.file_path(request.path), insecure=True)
            answer["Cache-Control"] = "max-age=3600"
            answer["X-Content-Type-Options"] = "nosniff"
            return answer

    return Handler(application)
