"""Puts nginx in front of the service: its site for a name, and a certificate until there is a better one."""

from __future__ import annotations

import shutil
import subprocess
from collections.abc import Iterator
from pathlib import Path

from plantbal.faults import Fault, ToolMissing
from plantbal.files import write_text

ETC = Path("/etc")
SITE = Path("/usr/share/plantbal-office/nginx.conf")
_NAME, _CERTIFICATE = "accounts.mill.example", "/etc/ssl/certs/accounts.pem"
_KEY = "/etc/ssl/private/accounts.key"
_DAYS = 397
_SITES = ("sites-available", "sites-enabled")
_PATH = "/usr/sbin:/usr/bin:/sbin:/bin"


def put_in_front(host: str, etc: Path = ETC, site: Path = SITE) -> Iterator[str]:
    """Have nginx serve a name, and say so; nothing without nginx, or if it has such a site.

    Parameters
    ----------
    host : str
        The name by which browsers call the service.
    etc : Path
        The folder of configurations.
    site : Path
        The site as the package has it.

    Raises
    ------
    Fault
        If the certificate can't be made, or nginx doesn't take the site.
    """
    folder = etc / "nginx"
    available, enabled = (folder / each / "plantbal-office" for each in _SITES)
    if shutil.which("nginx", path=_PATH) is None or not enabled.parent.is_dir():
        return
    if available.exists() or enabled.is_symlink():
        return
    own = etc / "plantbal-office"
    certificate, key = own / "tls.pem", own / "tls.key"
    if not certificate.exists():
        _certify(host, certificate, key)
        yield f"{certificate} is a self-signed certificate, which browsers don't trust: replace it by yours"
    text = site.read_text("utf-8")
    for old, new in ((_NAME, host), (_CERTIFICATE, str(certificate)), (_KEY, str(key))):
        text = text.replace(old, new)
    available.parent.mkdir(exist_ok=True)
    write_text(available, text)
    enabled.symlink_to(available)
    if etc == ETC:
        _reload()
    yield f"nginx serves https://{host}"


def _certify(host: str, certificate: Path, key: Path) -> None:
    """Make a certificate that nobody but its key has signed."""
    if shutil.which("openssl") is None:
        raise ToolMissing("program openssl", "openssl")
    words = ["openssl", "req", "-x509", "-newkey", "rsa:2048", "-nodes", "-days", str(_DAYS)]
    words += ["-subj", f"/CN={host[:64]}", "-addext", f"subjectAltName=DNS:{host}"]
    _call([*words, "-keyout", str(key), "-out", str(certificate)])
    key.chmod(0o600)
    certificate.chmod(0o644)


def _reload() -> None:
    """Have nginx take the site, or take it away again."""
    try:
        _call(["nginx", "-t", "-q"])
    except Fault:
        (ETC / "nginx" / _SITES[1] / "plantbal-office").unlink()
        raise
    if Path("/run/systemd/system").is_dir():
        _call(["systemctl", "reload-or-restart", "nginx"])


def _call(words: list[str]) -> None:
    done = subprocess.run(words, capture_output=True, text=True, env={"PATH": _PATH}, check=False)
    if done.returncode != 0:
        raise Fault(f"{words[0]}: {done.stderr.strip()[-300:]}", remedy="docs/OFFICE.md")
