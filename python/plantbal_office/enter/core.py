"""The program's core for browsers, among the desk's own files: where it is, if it was built and installed."""

from __future__ import annotations

from django.contrib.staticfiles import finders
from django.templatetags.static import static

_FOLDER = "office/core"
# Installed as a .js, since not every web server knows what an .mjs is.
_SCRIPTS = ("plantbal.js", "plantbal.mjs")


def core_files() -> dict[str, str] | None:
    """Return the addresses of the core, its worker and its script; None if a file isn't there."""
    script = next((name for name in _SCRIPTS if finders.find(f"{_FOLDER}/{name}")), "")
    names = {"wasm": "plantbal.wasm", "worker": "plantbal.worker.js", "script": script}
    if not all(name and finders.find(f"{_FOLDER}/{name}") for name in names.values()):
        return None
    return {what: static(f"{_FOLDER}/{name}") for what, name in names.items()}
