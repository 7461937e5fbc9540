"""Firefox by its own protocol, Marionette, since Debian 12 has no geckodriver."""

from __future__ import annotations

import base64
import json
import os
import socket
import subprocess
import time
from pathlib import Path
from typing import Any

_PREFERENCES = {
    "browser.download.folderList": 2,
    "browser.download.useDownloadDir": True,
    "browser.download.always_ask_before_handling_new_types": False,
    "browser.helperApps.neverAsk.saveToDisk": "text/csv",
    "intl.accept_languages": "en",
    "datareporting.policy.dataSubmissionEnabled": False,
    "browser.shell.checkDefaultBrowser": False,
}
_START = 90  # seconds


def _free_port() -> int:
    with socket.create_server(("127.0.0.1", 0)) as server:
        port: int = server.getsockname()[1]
        return port


class Firefox:
    """A Firefox without a window.

    Parameters
    ----------
    folder : Path
        An empty folder for its profile.
    downloads : Path
        Where it saves files.
    """

    def __init__(self, folder: Path, downloads: Path) -> None:
        self._asked = 0
        port = _free_port()
        chosen = {**_PREFERENCES, "browser.download.dir": str(downloads), "marionette.port": port}
        lines = (
            f"user_pref({json.dumps(name)}, {json.dumps(value)});" for name, value in chosen.items()
        )
        (folder / "user.js").write_text("\n".join(lines), "utf-8")
        self._process = subprocess.Popen(
            ["firefox-esr", "--headless", "--marionette", "--no-remote", "--profile", str(folder)],
            env={**os.environ, "HOME": str(folder), "MOZ_DISABLE_CONTENT_SANDBOX": "1"},
            stdout=subprocess.DEVNULL,
            stderr=subprocess.DEVNULL,
        )
        try:
            self._socket = self._connected(port)
            self._read()
            self.version = self.do("WebDriver:NewSession")["capabilities"]["browserVersion"]
        except BaseException:
            self.quit()
            raise

    def _connected(self, port: int) -> socket.socket:
        end = time.monotonic() + _START
        while True:
            try:
                return socket.create_connection(("127.0.0.1", port), timeout=180)
            except OSError:
                if time.monotonic() > end or self._process.poll() is not None:
                    raise
                time.sleep(0.2)

    def _read(self) -> Any:
        length = b""
        while not length.endswith(b":"):
            length += self._socket.recv(1)
        left, data = int(length[:-1]), b""
        while len(data) < left:
            data += self._socket.recv(left - len(data))
        return json.loads(data)

    def do(self, what: str, **how: Any) -> Any:
        """Return what a command of the protocol gives."""
        self._asked += 1
        message = json.dumps([0, self._asked, what, how]).encode("utf-8")
        self._socket.sendall(b"%d:%b" % (len(message), message))
        _, _, fault, found = self._read()
        if fault:
            raise RuntimeError(f"{what}: {fault['message']}")
        return found

    def open(self, address: str) -> None:
        """Open a page."""
        self.do("WebDriver:Navigate", url=address)

    def js(self, text: str, *values: Any) -> Any:
        """Return what a script gives."""
        return self.do("WebDriver:ExecuteScript", script=text, args=list(values))["value"]

    def choose(self, path: Path) -> None:
        """Choose a file, as a reader does."""
        found = self.do("WebDriver:FindElement", using="css selector", value="#pick")["value"]
        self.do("WebDriver:ElementSendKeys", id=next(iter(found.values())), text=str(path))

    def picture(self) -> bytes:
        """Return what is seen, as a PNG."""
        return base64.b64decode(self.do("WebDriver:TakeScreenshot", full=False)["value"])

    def quit(self) -> None:
        """End it."""
        self._process.terminate()
        try:
            self._process.wait(20)
        except subprocess.TimeoutExpired:
            self._process.kill()
            self._process.wait()
