"""Places of servers: the URLs that name them, and connections to them."""
import _socket

from . import http_connection
from .failures import Stop, reason

_HOST = frozenset("abcdefghijklmnopqrstuvwxyz0123456789.-")
_PATH = frozenset("ABCDEFGHIJKLMNOPQRSTUVWXYZabcdefghijklmnopqrstuvwxyz0123456789._~-/")


class Place:
    """The place of a server: `http://HOST[:PORT]`, `https://HOST[:PORT]` or `unix:/PATH`.

    A path after the host is the prefix of each target.
    """

    def __init__(self, url: str):
        self.url, self.socket, self.host, self.port, self.prefix = url, None, None, None, ""
        self.scheme, _, rest = url.partition(":")
        if self.scheme == "unix" and rest.startswith("/"):
            self.socket = rest
            return
        parts = self.scheme in ("http", "https") and (_plain(rest) or _any(url))
        if not parts:
            # (without a password in it)
            shown = f"{self.scheme}://{rest.rpartition('@')[2]}" if "@" in rest else url
            raise Stop(f"failed: server: {shown}: http://HOST:PORT, https://HOST or unix:/PATH is meant")
        self.host, self.port, path = parts
        self.prefix = path.rstrip("/")

    @property
    def is_private(self) -> bool:
        """Whether nobody on the way can read what is sent there."""
        return self.scheme in ("https", "unix") or self.host == "localhost" or _is_loopback(self.host)

    def is_same(self, other: "Place") -> bool:
        """Whether both name the same server."""
        key = lambda place: (place.scheme, place.socket, place.host, place.port or {"https": 443}.get(place.scheme, 80))
        return key(self) == key(other)

    def connection(self, ca: str | None = None) -> http_connection.Connection:
        """A connection. `ca` is a file of certificates, or None for those of the system."""
        if self.socket:
            return http_connection.UnixConnection(self.socket)
        if self.scheme == "http":
            return http_connection.Connection(self.host, self.port)
        return http_connection.TlsConnection(self.host, self.port, ca and _context(ca))


def _context(ca):
    """A context of TLS that trusts the certificates in a file."""
    import ssl

    try:
        return ssl.create_default_context(cafile=ca)
    except OSError as error:
        raise Stop(f"failed: certificate: {ca}: {reason(error)}") from None


def _plain(rest):
    """The host, the port or None, and the path of a URL without its scheme; None if `_any` has to read it."""
    authority, slash, path = rest.removeprefix("//").partition("/")
    host, colon, port = authority.partition(":")
    is_plain = rest.startswith("//") and host and _HOST.issuperset(host) and _PATH.issuperset(path)
    if not is_plain or (colon and not _is_port(port)):
        return None
    return host, int(port) if colon else None, slash + path


def _is_port(text):
    return text.isascii() and text.isdigit() and len(text) <= 5 and int(text) <= 65_535


def _any(url):
    """The host in ASCII, the port or None, and the path of any URL; None if it is none or has more than these."""
    import urllib.parse

    try:
        parts = urllib.parse.urlsplit(url)
        host, port = parts.hostname, parts.port
        host = host if not host or host.isascii() else host.encode("idna").decode()
    except ValueError:
        return None
    has_more = parts.query or parts.fragment or parts.username or not parts.path.isascii()
    return None if not host or has_more else (host, port, parts.path)


def _is_loopback(host):
    """Whether the host is an address of this machine: 127.0.0.0/8 or ::1."""
    try:
        return _socket.inet_pton(_socket.AF_INET, host)[0] == 127
    except OSError:
        pass
    try:
        return int.from_bytes(_socket.inet_pton(_socket.AF_INET6, host.partition("%")[0]), "big") == 1
    except OSError:
        return False
