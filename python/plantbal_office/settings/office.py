"""An office's service: PostgreSQL, accounts with argon2, LDAP, sign-ins that end, behind a proxy."""

from __future__ import annotations

from plantbal_office.service.config import read_config, secret_of
from plantbal_office.settings.base import *  # noqa: F401,F403
from plantbal_office.settings.base import INSTALLED_APPS, MIDDLEWARE

CONFIG = read_config()
SECRET_KEY = secret_of(CONFIG.path.with_name("secret"))
ALLOWED_HOSTS = list(CONFIG.hosts)
PLANTBAL_PROGRAM = CONFIG.program or None
PLANTBAL_SECOND = CONFIG.second
PLANTBAL_LONGEST = CONFIG.longest
PLANTBAL_NAMES_PEOPLE = True
MEDIA_ROOT = CONFIG.state / "files"
ROOT_URLCONF = "plantbal_office.service.urls"
INSTALLED_APPS = [*INSTALLED_APPS, "plantbal_office.service"]

_at = MIDDLEWARE.index("plantbal_office.middleware.Access")
MIDDLEWARE = [*MIDDLEWARE[:_at], "plantbal_office.service.watch.Watch", *MIDDLEWARE[_at:]]

DATABASES = {
    "default": {
        "ENGINE": "django.db.backends.postgresql",
        "NAME": CONFIG.database.get("name", "plantbal_office"),
        "HOST": CONFIG.database.get("host", ""),
        "PORT": str(CONFIG.database.get("port", "")),
        "USER": CONFIG.database.get("user", ""),
        "PASSWORD": secret_of(CONFIG.database["password_file"])
        if "password_file" in CONFIG.database
        else "",
        # A connection to this machine takes some milliseconds, and none outlives a restart of the database.
        "CONN_MAX_AGE": 0,
    }
}

PASSWORD_HASHERS = ["django.contrib.auth.hashers.Argon2PasswordHasher"]
_VALID = "django.contrib.auth.password_validation"
AUTH_PASSWORD_VALIDATORS = [
    {"NAME": f"{_VALID}.MinimumLengthValidator", "OPTIONS": {"min_length": 12}},
    {"NAME": f"{_VALID}.CommonPasswordValidator"},
    {"NAME": f"{_VALID}.UserAttributeSimilarityValidator"},
]
AUTHENTICATION_BACKENDS = ["django.contrib.auth.backends.ModelBackend"]
if CONFIG.ldap:
    import ldap
    from django_auth_ldap.config import LDAPSearch

    # Who has no account here isn't let in, whatever the directory says; roles are given here.
    AUTHENTICATION_BACKENDS.append("plantbal_office.service.directory.Directory")
    AUTH_LDAP_SERVER_URI = CONFIG.ldap["server"]
    AUTH_LDAP_START_TLS = bool(CONFIG.ldap.get("start_tls", False))
    AUTH_LDAP_BIND_DN = CONFIG.ldap.get("bind", "")
    AUTH_LDAP_BIND_PASSWORD = (
        secret_of(CONFIG.ldap["password_file"]) if "password_file" in CONFIG.ldap else ""
    )
    AUTH_LDAP_USER_SEARCH = LDAPSearch(
        CONFIG.ldap["base"], ldap.SCOPE_SUBTREE, CONFIG.ldap.get("user", "(uid=%(user)s)")
    )
    AUTH_LDAP_NO_NEW_USERS = True
    AUTH_LDAP_ALWAYS_UPDATE_USER = False
    AUTH_LDAP_CONNECTION_OPTIONS = {ldap.OPT_NETWORK_TIMEOUT: 5, ldap.OPT_REFERRALS: 0}
PLANTBAL_OIDC = (
    {
        "name": CONFIG.oidc.get("name", "OpenID"),
        "server": CONFIG.oidc["server"],
        "client": CONFIG.oidc["client"],
        "secret": secret_of(CONFIG.oidc["secret_file"]),
        "claim": CONFIG.oidc.get("claim", "preferred_username"),
    }
    if CONFIG.oidc
    else {}
)

# The proxy in front speaks TLS, and says so; without it no cookie is given.
SECURE_PROXY_SSL_HEADER = ("HTTP_X_FORWARDED_PROTO", "https")
SECURE_SSL_REDIRECT = False
SECURE_HSTS_SECONDS = 365 * 24 * 3600
SESSION_COOKIE_NAME = "__Host-plantbal"
SESSION_COOKIE_SECURE = True
SESSION_COOKIE_AGE = CONFIG.idle
SESSION_SAVE_EVERY_REQUEST = True
SESSION_EXPIRE_AT_BROWSER_CLOSE = True
LANGUAGE_COOKIE_SECURE = True
CSRF_COOKIE_SECURE = True

# What Django's check of a deployment says besides: our own middleware sets the header against frames, TLS is the proxy's, and
# other names of the same domain aren't ours to bind.
SILENCED_SYSTEM_CHECKS = ["security.W002", "security.W005", "security.W008", "security.W021"]
