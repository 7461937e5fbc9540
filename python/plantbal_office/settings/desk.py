"""One person's desk on one machine: SQLite in the user's state folder, a key in the address."""

from __future__ import annotations

import os
from pathlib import Path

from plantbal_office.settings.base import *  # noqa: F401,F403

# `plantbal-desk serve` says these: the folder, and the two keys that no other process knows.
STATE = Path(os.environ["PLANTBAL_DESK_STATE"])
SECRET_KEY = os.environ["PLANTBAL_DESK_SECRET"]
PLANTBAL_KEY = os.environ["PLANTBAL_DESK_KEY"]
PLANTBAL_PROGRAM = os.environ.get("PLANTBAL_DESK_PROGRAM") or None

ALLOWED_HOSTS = ["127.0.0.1", "localhost", "[::1]"]
DATABASES = {
    "default": {
        "ENGINE": "django.db.backends.sqlite3",
        "NAME": STATE / "desk.sqlite3",
        "OPTIONS": {"timeout": 20},
    }
}
MEDIA_ROOT = STATE / "files"
SESSION_COOKIE_NAME = "plantbal-desk"
# The journal has the user of the process already, as with a command.
PLANTBAL_NAMES_PEOPLE = False
