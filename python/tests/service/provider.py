"""A small provider of OpenID Connect on 127.0.0.1, with Authlib's keys and tokens: it says who somebody is, or lies."""

from __future__ import annotations

import base64
import hashlib
import json
import secrets
import threading
import time
from enum import Enum
from http.server import BaseHTTPRequestHandler, ThreadingHTTPServer
from typing import Any
from urllib.parse import parse_qs, urlencode, urlsplit

from authlib.jose import JsonWebKey, jwt


class Lie(Enum):
    """What a provider, or somebody between, may say wrongly."""

    STATE = "the state of another sign-in"
    NONCE = "a token made for another sign-in"
    KEY = "a token signed with another key"
    AUDIENCE = "a token for another client"
    ISSUER = "a token of another issuer"
    EXPIRED = "a token of yesterday"
    NO_SIGNATURE = "a token without a signature"
    NO_TOKEN = "no token of who it is"
    CODE = "a code that was never given"


def _rsa() -> Any:
    return JsonWebKey.generate_key("RSA", 2048, {"kid": "own"}, is_private=True)


class Provider:
    """A provider with one client.

    Parameters
    ----------
    client, secret : str
        The client, and its secret.
    """

    LIES = tuple(Lie)

    def __init__(self, client: str, secret: str) -> None:
        self.client, self.secret = client, secret
        self.key, self.other = _rsa(), _rsa()
        self.codes: dict[str, dict[str, Any]] = {}
        provider = self

        class Handler(BaseHTTPRequestHandler):
            def do_GET(self) -> None:  # noqa: N802
                self._answer(provider.shown(self.path))

            def do_POST(self) -> None:  # noqa: N802
                words = self.rfile.read(int(self.headers.get("Content-Length", 0))).decode()
                self._answer(provider.token(words, self.headers.get("Authorization", "")))

            def _answer(self, found: tuple[int, dict[str, Any]]) -> None:
                data = json.dumps(found[1]).encode()
                self.send_response(found[0])
                self.send_header("Content-Type", "application/json")
                self.send_header("Content-Length", str(len(data)))
                self.end_headers()
                self.wfile.write(data)

            def log_message(self, *_: object) -> None:
                pass

        self.server = ThreadingHTTPServer(("127.0.0.1", 0), Handler)
        self.root = f"http://127.0.0.1:{self.server.server_port}"
        self.metadata = f"{self.root}/.well-known/openid-configuration"

    def __enter__(self) -> Provider:
        threading.Thread(target=self.server.serve_forever, daemon=True).start()
        return self

    def __exit__(self, *_: object) -> None:
        self.end()

    def end(self) -> None:
        """End it."""
        self.server.shutdown()
        self.server.server_close()

    def shown(self, path: str) -> tuple[int, dict[str, Any]]:
        """What it says of itself, and its public keys."""
        if path == "/keys":
            return 200, {"keys": [self.key.as_dict(is_private=False) | {"kid": "own"}]}
        if path != "/.well-known/openid-configuration":
            return 404, {}
        return 200, {
            "issuer": self.root,
            "authorization_endpoint": f"{self.root}/authorize",
            "token_endpoint": f"{self.root}/token",
            "jwks_uri": f"{self.root}/keys",
            "id_token_signing_alg_values_supported": ["RS256"],
        }

    def answered(self, asked: str, name: str, lie: Lie | None = None) -> str:
        """Sign somebody in, and return the path to which the browser is sent back.

        Parameters
        ----------
        asked : str
            The address to which the service has sent the browser.
        name : str
            Who signs in.
        lie : Lie, optional
            What is wrong with it.
        """
        split = urlsplit(asked)
        assert f"{split.scheme}://{split.netloc}{split.path}" == f"{self.root}/authorize"
        words = {key: values[0] for key, values in parse_qs(split.query).items()}
        assert words["response_type"] == "code" and words["client_id"] == self.client
        assert words["code_challenge_method"] == "S256" and len(words["nonce"]) > 10
        code = secrets.token_urlsafe(16)
        self.codes[code] = words | {"name": name, "lie": lie}
        state = "x" * 30 if lie is Lie.STATE else words["state"]
        given = "never" if lie is Lie.CODE else code
        back = urlsplit(words["redirect_uri"])
        assert back.scheme == "https", "it comes back by TLS"
        return f"{back.path}?{urlencode({'code': given, 'state': state})}"

    def token(self, text: str, authorization: str) -> tuple[int, dict[str, Any]]:
        """Give a token for a code, once, to who has the secret and the verifier."""
        words = {key: values[0] for key, values in parse_qs(text).items()}
        found = self.codes.pop(words.get("code", ""), None)
        basic = base64.b64encode(f"{self.client}:{self.secret}".encode()).decode()
        verifier = hashlib.sha256(words.get("code_verifier", "").encode()).digest()
        challenge = base64.urlsafe_b64encode(verifier).decode().rstrip("=")
        if (
            found is None
            or authorization != f"Basic {basic}"
            or challenge != found["code_challenge"]
        ):
            return 400, {"error": "invalid_grant"}
        answer: dict[str, Any] = {"access_token": "nothing", "token_type": "Bearer"}
        if found["lie"] is not Lie.NO_TOKEN:
            answer["id_token"] = self._signed(found)
        return 200, answer

    def _signed(self, found: dict[str, Any]) -> str:
        lie, now = found["lie"], int(time.time())
        now -= 86400 if lie is Lie.EXPIRED else 0
        said = {
            "iss": "http://127.0.0.1:1" if lie is Lie.ISSUER else self.root,
            "aud": "another" if lie is Lie.AUDIENCE else self.client,
            "sub": f"number of {found['name']}",
            "iat": now,
            "exp": now + 300,
            "nonce": "another" if lie is Lie.NONCE else found["nonce"],
            "preferred_username": found["name"],
        }
        if lie is Lie.NO_SIGNATURE:
            parts = ({"alg": "none", "typ": "JWT"}, said)
            inner = (base64.urlsafe_b64encode(json.dumps(part).encode()) for part in parts)
            return ".".join(part.decode().rstrip("=") for part in inner) + "."
        key = self.other if lie is Lie.KEY else self.key
        made: bytes = jwt.encode({"alg": "RS256", "kid": "own"}, said, key)
        return made.decode("ascii")
