"""Fifty people at work, as Locust has them: most look, some write comments, some try wrong passwords from elsewhere.

test_many.py starts this with the address of a service of its own on this machine, and for how long.
"""

from __future__ import annotations

import os
import re

from locust import HttpUser, between, events, task
from services import ELSEWHERE, From

_TOKEN = re.compile(r'name="csrfmiddlewaretoken" value="([^"]+)"')
_HIDDEN = re.compile(r'name="(deed|version)" value="([^"]*)"')
_HERE = ("https://localhost:", "https://127.0.0.1:")
PAGES = (
    "/",
    "/p/mill/",
    "/p/mill/look/2024-04/",
    "/p/mill/look/journal",
    "/p/mill/look/2024-04/stream/TAILS",
    "/p/mill/ask/",
    "/p/mill/correct/quiet",
)


@events.init.add_listener
def _only_here(environment: object, **_: object) -> None:
    """Ask no other machine, whatever the words are."""
    host = str(getattr(environment, "host", ""))
    if not host.startswith(_HERE):
        raise SystemExit(f"{host} is not this machine")


class Somebody(HttpUser):  # type: ignore[misc]
    """Somebody with a browser."""

    abstract = True
    wait_time = between(0.2, 1.0)

    def on_start(self) -> None:
        self.client.verify = os.environ["OFFICE_CERTIFICATE"]
        self.client.trust_env = False

    def get(self, path: str, name: str = "") -> str:
        """A page that has to be there."""
        with self.client.get(
            path, name=name or path, allow_redirects=False, catch_response=True
        ) as got:
            if got.status_code != 200:
                got.failure(f"{path} is answered by {got.status_code}")
            return str(got.text)

    def post(self, path: str, words: dict[str, str], page: str, wanted: tuple[int, ...]) -> int:
        """Send a form of a page."""
        token = _TOKEN.findall(page)
        words = words | {"csrfmiddlewaretoken": token[0] if token else ""}
        heads = {"Referer": self.host + path}
        with self.client.post(
            path, data=words, headers=heads, allow_redirects=False, catch_response=True
        ) as got:
            if got.status_code not in wanted:
                got.failure(f"{path} is answered by {got.status_code}, and not by {wanted}")
            else:
                got.success()
            return int(got.status_code)


class Person(Somebody):
    """Somebody who has signed in."""

    weight = 9

    def on_start(self) -> None:
        super().on_start()
        words = {"name": "engineer", "password": os.environ["OFFICE_PASSWORD"]}
        self.post("/people/sign-in", words, self.get("/people/sign-in"), (302,))

    @task(20)
    def look(self) -> None:
        """Look at a page."""
        for path in PAGES:
            self.get(path)

    @task(2)
    def comment(self) -> None:
        """Write a comment."""
        page = self.get("/p/mill/look/2024-04/")
        words = dict(_HIDDEN.findall(page))
        words |= {"about": "month:2024-04", "text": "looked at", "then": "/p/mill/"}
        self.post("/p/mill/notes/add", words, page, (302,))

    @task(1)
    def again(self) -> None:
        """Sign out, and in again."""
        self.post("/people/sign-out", {}, self.get("/"), (302,))
        self.on_start()


class Guesser(Somebody):
    """Somebody who guesses passwords, from elsewhere."""

    weight = 1

    def on_start(self) -> None:
        super().on_start()
        self.client.mount("https://", From(ELSEWHERE))

    @task
    def guess(self) -> None:
        """Try a wrong one: it is refused, and after some time nothing of it is even looked at."""
        words = {"name": "root", "password": "123456789012"}
        self.post("/people/sign-in", words, self.get("/people/sign-in"), (403, 429))
