"""Access control of the server: tokens, origins, rate limits, and the headers of every response."""
import hashlib
import hmac
import os
import re
import time
from dataclasses import dataclass, field
from urllib.parse import urlsplit

from colregs.errors import Fault
from colregs.io.files import read_text

LEAST_TOKEN = 16                # letters
COOKIE, COOKIE_DAYS = "colregs-live", 30
TILES = re.compile(r"https?://(?:\{s\}\.)?[A-Za-z0-9.:-]+/")
LOOPBACK = ("127.0.0.1", "::1", "localhost")
HEADERS = {
    "X-Content-Type-Options": "nosniff", "Referrer-Policy": "no-referrer", "X-Frame-Options": "SAMEORIGIN",
    "Cache-Control": "no-store", "Cross-Origin-Opener-Policy": "same-origin",
    "Cross-Origin-Resource-Policy": "same-origin", "Permissions-Policy": "geolocation=(), camera=()"
}


@dataclass(frozen=True)
class Address:
    """The address on which the server listens: a host and a port, or the path of a socket."""

    host: str = ""
    port: int = 0
    socket: str = ""

    @property
    def is_private(self) -> bool:
        """Returns whether only programs on this machine can reach it."""
        return bool(self.socket) or self.host in LOOPBACK


def address_of(words: str) -> Address:
    """Parses an address such as 127.0.0.1:8080 or [::1]:8080."""
    host, colon, port = words.rpartition(":")
    host = host[1:-1] if host.startswith("[") and host.endswith("]") else host
    if not colon or not host or not port.isdecimal() or not 0 <= int(port) <= 65535:
        raise Fault(f"--listen {words}: write HOST:PORT, such as 127.0.0.1:8080")
    return Address(host, int(port))


def token_in(path: str) -> str:
    """Reads the token from a file."""
    token = read_text(path).strip()
    if len(token) < LEAST_TOKEN or not token.isascii() or not token.isprintable() or " " in token:
        raise Fault(f"{path}: a token is one word of at least {LEAST_TOKEN} letters; make one with "
                    "`openssl rand -hex 32`")
    if os.stat(path).st_mode & 0o077:
        raise Fault(f"{path}: other users can read the token; run `chmod 600 {path}`")
    return token


@dataclass
class Bucket:
    """Limits the requests per second, and those that arrive at once."""

    rate: float
    most: float
    left: float = field(init=False)
    at: float = field(default_factory=time.monotonic)

    def __post_init__(self) -> None:
        self.left = self.most

    def takes(self) -> bool:
        """Returns whether one more request may pass."""
        now = time.monotonic()
        self.left, self.at = min(self.most, self.left + (now - self.at) * self.rate), now
        if self.left < 1:
            return False
        self.left -= 1
        return True


class Access:
    """The access rules of one server. `origins` are those of proxies in front of it: https://live.example.org."""

    def __init__(self, address: Address, token: str | None, origins: list[str], tiles: str | None) -> None:
        self.address, self.token, self.origins, self.tiles = address, token, [
            origin.rstrip("/").lower() for origin in origins
        ], tiles
        self.refused = 0
        self.logins = Bucket(0.5, 5)

    def is_host(self, host: str) -> bool:
        """Returns whether the header Host names this server. On loopback, any other name means that a foreign page made
        its own host name resolve to this machine."""
        if any(urlsplit(origin).netloc == host.lower() for origin in self.origins):
            return True
        name = urlsplit(f"//{host}").hostname or ""
        return bool(self.address.socket) or self.address.host not in LOOPBACK or name in LOOPBACK

    def is_origin(self, origin: str | None, host: str) -> bool:
        """Returns whether a request comes from a page of this server, or from no page."""
        if origin is None:
            return True
        parts = urlsplit(origin.lower())
        return origin.lower() in self.origins or parts.scheme in ("http", "https") and parts.netloc == host.lower()

    def is_token(self, given: str) -> bool:
        """Returns whether a token is right, in a time that does not depend on where the two differ."""
        return self.token is not None and hmac.compare_digest(given.encode("utf-8", "replace"), self.token.encode())

    def sign(self, until: int) -> str:
        """Returns the cookie for a browser that gave the token, valid until a time."""
        assert self.token is not None
        return f"{until}.{hmac.new(self.token.encode(), f'colregs-live {until}'.encode(), hashlib.sha256).hexdigest()}"

    def cookie(self) -> str:
        """Returns a new cookie."""
        return self.sign(int(time.time()) + COOKIE_DAYS * 86400)

    def is_cookie(self, given: str) -> bool:
        """Returns whether this server made a cookie with this token, and the cookie is still valid."""
        until, _, _ = given.partition(".")
        if not until.isdecimal() or len(until) > 12 or int(until) < time.time():
            return False
        return hmac.compare_digest(given.encode("utf-8", "replace"), self.sign(int(until)).encode())

    def may(self, authorization: str, cookie: str) -> bool:
        """Returns whether a request is authorized: always if there is no token, otherwise by the token or a cookie."""
        if self.token is None:
            return True
        scheme, _, given = authorization.partition(" ")
        return scheme.lower() == "bearer" and self.is_token(given.strip()) or bool(cookie) and self.is_cookie(cookie)

    def policy(self) -> str:
        """Returns the page's content security policy: its own scripts and styles, and from other addresses only the
        tiles that the user named."""
        parts = urlsplit(self.tiles or "")
        tiles = f" {parts.scheme}://{parts.netloc.replace('{s}', '*')}" if self.tiles else ""
        return ("default-src 'none'; script-src 'self'; style-src 'self'; connect-src 'self'; frame-src 'self'; "
                "base-uri 'none'; form-action 'self'; "
                f"frame-ancestors 'none'; img-src 'self' data:{tiles}")


def access_of(listen: str, socket: str | None, token_file: str | None, origins: list[str], tiles: str | None) -> Access:
    """Returns the access rules that the arguments ask for. Raises Fault if other machines could reach the server
    without a token."""
    address = Address(socket=os.path.abspath(socket)) if socket else address_of(listen)
    token = token_in(token_file) if token_file else None
    if not address.is_private and token is None:
        raise Fault(f"--listen {listen}: other machines can reach this address: give --token-file, or listen on "
                    "127.0.0.1 or a --socket behind a proxy")
    for origin in origins:
        parts = urlsplit(origin)
        if parts.scheme not in ("http", "https") or not parts.netloc or parts.path not in ("", "/"):
            raise Fault(f"--origin {origin}: write https://HOST")
    if tiles and not (TILES.match(tiles) and all(part in tiles for part in ("{x}", "{y}", "{z}"))):
        raise Fault(f"--tiles {tiles}: write https://HOST/{{z}}/{{x}}/{{y}}.png")
    return Access(address, token, origins, tiles)
