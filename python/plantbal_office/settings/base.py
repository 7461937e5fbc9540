"""What every desk has, whoever runs it: applications, middleware, templates, languages, limits.

A module of settings of its own begins with ``from plantbal_office.settings.base import *`` and adds
the key, the database, the hosts, the folder for files, and whose name the journal gets.
"""

from __future__ import annotations

from pathlib import Path

from plantbal import limits

HERE = Path(__file__).resolve().parent.parent
STATEMENT = HERE.parent / "plantbal" / "page" / "templates"

DEBUG = False
USE_TZ = True
TIME_ZONE = "UTC"
DEFAULT_AUTO_FIELD = "django.db.models.BigAutoField"
AUTH_USER_MODEL = "people.Person"
ROOT_URLCONF = "plantbal_office.urls"
WSGI_APPLICATION = "plantbal_office.wsgi.application"

INSTALLED_APPS = [
    "django.contrib.auth",
    "django.contrib.contenttypes",
    "django.contrib.sessions",
    "django.contrib.messages",
    "django.contrib.staticfiles",
    "plantbal_office.people",
    "plantbal_office.plants",
    "plantbal_office.deeds",
    "plantbal_office.enter",
    "plantbal_office.look",
    "plantbal_office.correct",
    "plantbal_office.ask",
    "plantbal_office.notes",
]

MIDDLEWARE = [
    "plantbal_office.middleware.Headers",
    "django.middleware.security.SecurityMiddleware",
    "django.contrib.sessions.middleware.SessionMiddleware",
    "django.middleware.locale.LocaleMiddleware",
    "django.middleware.common.CommonMiddleware",
    "plantbal_office.middleware.Sizes",
    "django.middleware.csrf.CsrfViewMiddleware",
    "django.contrib.auth.middleware.AuthenticationMiddleware",
    "django.contrib.messages.middleware.MessageMiddleware",
    "plantbal_office.middleware.Access",
    "plantbal_office.middleware.Sentences",
]

TEMPLATES = [
    {
        "BACKEND": "django.template.backends.django.DjangoTemplates",
        "DIRS": [HERE / "templates"],
        "APP_DIRS": True,
        "OPTIONS": {
            "context_processors": [
                "django.template.context_processors.request",
                "django.contrib.auth.context_processors.auth",
                "django.contrib.messages.context_processors.messages",
                "plantbal_office.shown.context",
            ],
            "builtins": ["plantbal_office.shown"],
        },
    }
]

STATIC_URL = "/static/"
STATICFILES_DIRS: list[Path | tuple[str, Path]] = [HERE / "static", ("statement", STATEMENT)]
# In a checkout the core for browsers is where `make page` builds it; a package has it in `static`.
_BUILT = HERE.parent.parent / "page" / "out"
if (_BUILT / "plantbal.wasm").exists():
    STATICFILES_DIRS.append(("office/core", _BUILT))

LANGUAGE_CODE = "en"
LANGUAGES = [("en", "English"), ("de", "Deutsch"), ("es", "Español")]
LOCALE_PATHS = [HERE / "locale"]
USE_I18N = True
USE_L10N = True
USE_THOUSAND_SEPARATOR = True

# Sign-ins end with the browser, or after twelve hours without a click.
SESSION_COOKIE_AGE = 12 * 3600
SESSION_SAVE_EVERY_REQUEST = False
SESSION_COOKIE_HTTPONLY = True
SESSION_COOKIE_SAMESITE = "Lax"
CSRF_COOKIE_SAMESITE = "Lax"
CSRF_FAILURE_VIEW = "plantbal_office.middleware.csrf_failed"
CSRF_USE_SESSIONS = True
SECURE_CONTENT_TYPE_NOSNIFF = True
SECURE_REFERRER_POLICY = "same-origin"
X_FRAME_OPTIONS = "DENY"
LOGIN_URL = "people:signin"
MESSAGE_STORAGE = "django.contrib.messages.storage.session.SessionStorage"

# A workbook is written to disk as it comes, and one that is longer than any is refused before that.
FILE_UPLOAD_MAX_MEMORY_SIZE = 1 << 16
DATA_UPLOAD_MAX_MEMORY_SIZE = 1 << 22
DATA_UPLOAD_MAX_NUMBER_FIELDS = 2_000
PLANTBAL_UPLOAD = limits.WORKBOOK_BYTES
PLANTBAL_ATTACHED = 1 << 24

# Whose name a journal gets beside that of the process: nobody's, or that of who has signed in.
PLANTBAL_NAMES_PEOPLE = True
# Whether all of it is one person's, who signs in by the key in the address.
PLANTBAL_KEY = ""
# The program; without it that of PLANTBAL, of the path or of the checkout.
PLANTBAL_PROGRAM: str | None = None
