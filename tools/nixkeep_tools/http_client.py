"""A client of `nixkeep serve`, directly or through a reverse proxy.

    server = Server(Place("https://store.example.org"))
    reply = server.ask("GET", "/paths")
    for part in reply.parts(): ..

A Reply is the server's own, whether the request was done or not. A proxy's own answer and a failed connection raise
Stop with one line. A request is sent with its length, because the server takes no transfer coding. A reply is a stream.
"""
from __future__ import annotations

import sys

from . import http_connection
from .credentials import Credentials
from .failures import DENIED, DONE, FAILED, REFUSED, Stop, reason
from .http_connection import SECONDS, Connection, Cut, NotHttp, SocketConnection
from .http_place import Place

# (for hints alone: see `http_connection`)
TYPE_CHECKING = False
if TYPE_CHECKING:
    from collections.abc import Callable, Iterable, Iterator

CHUNK = 65_536
MOST_OF_BODY = 20_971_520
# The bytes of a reply that is read whole: a listing of millions of paths has fewer. The digits of a refusal's number.
MOST_OF_REPLY, DIGITS = 1 << 28, 9
_TYPES = ("text/plain", "application/octet-stream", "text/x-nix-cache-info")
_NAME = frozenset("abcdefghijklmnopqrstuvwxyz-")


# ---- the lines by which the server says why a request isn't done


def _is_refusal(line):
    number, _, name = line.removeprefix("refused: ").partition(" ")
    is_number = number.isascii() and number.isdigit() and len(number) <= DIGITS
    return line.startswith("refused: ") and is_number and _is_name(name)


def _is_denial(line):
    rule, _, about = line.removeprefix("denied: ").partition(" ")
    return line.startswith("denied: ") and _is_name(rule) and "\n" not in about


def _is_failure(line):
    return line in ("failed: memory", "failed: size", "failed: disk")


def _is_blob(line):
    return line.startswith(("failed: blob-missing ", "failed: blob-damaged ")) and "\n" not in line


def _is_full(line):
    return line.startswith("failed: full ") and "\n" not in line


def _is_name(text):
    return text != "" and _NAME.issuperset(text)


# By HTTP status: what tests the line, and the exit status.
_LINES = {
    400: (_is_refusal, REFUSED),
    404: (_is_refusal, REFUSED),
    405: (_is_refusal, REFUSED),
    403: (_is_denial, DENIED),
    503: (_is_failure, FAILED),
    # (nixkeep-cache's own: a large archive is gone or damaged, and the file may not become larger)
    502: (_is_blob, FAILED),
    507: (_is_full, FAILED),
}


class _Closing:
    """Closes a connection at any exception, or an answer that is late would be taken for the next one. (contextlib
    takes a millisecond to load.)"""

    def __init__(self, connection):
        self.connection = connection

    def __enter__(self):
        return self

    def __exit__(self, kind, *_):
        if kind:
            self.connection.close()


class Reply:
    """A reply of the server. `status` is the exit status of a command with it. The text is a stream, read once."""

    def __init__(self, server: "Server", response: http_connection.Reply, status: int, text: bytes | None = None):
        self.server, self.response, self.status = server, response, status
        self.length = len(text) if text is not None else response.length
        self._text = text

    def parts(self) -> Iterator[bytes]:
        """Yields the bytes of the text."""
        if self._text is not None:
            yield self._text
            return
        left = self.length
        with self.server.closing_at_faults():
            while part := self.server.guard(self.response.read, CHUNK):
                left = left and left - len(part)
                yield part
            if left:
                raise self.server.gone(f"the connection ended {left} bytes before the end of the answer")

    def bounded(self, most: int | None = None) -> Iterator[bytes]:
        """Yields the bytes of a text that is read whole. Raises Stop for one that has more than `most` (else 256 MiB),
        or no end."""
        size, most = 0, MOST_OF_REPLY if most is None else most
        for part in self.parts():
            size += len(part)
            if size > most:
                raise Stop(f"failed: answer: {self.server.place.url}: it has more than {most} bytes")
            yield part

    def text(self, most: int | None = None) -> str:
        """The text whole, of at most as many bytes as `bounded` yields."""
        return b"".join(self.bounded(most)).decode("utf-8", "backslashreplace")

    def refusal(self) -> int | None:
        """The number of the refusal, or None."""
        return int(self._text.split(b" ")[1]) if self.status == REFUSED else None


class Server:
    """A server, with one connection, which the first request opens.

    `caller` holds the fields that name a caller to a server without a proxy. `credentials` are for a proxy, `ca` is a
    file of certificates, `connection` is one that is open already.
    """

    def __init__(self, place: Place, caller: dict[str, str] | tuple[()] = (), credentials: Credentials | None = None,
                 ca: str | None = None, connection: Connection | None = None):
        self.place, self.credentials = place, credentials
        self.fields = dict(caller)
        if credentials:
            self.fields["authorization"] = credentials.field
        self.connection = connection or place.connection(ca)

    def ask(self, method: str, target: str, body: bytes | Iterable[bytes] = b"", length: int | None = None,
            is_repeated: bool = False) -> Reply:
        """Sends a request, and returns the reply.

        `body` is bytes, or an iterable of bytes whose `length` is given. `is_repeated`, for a body of bytes, sends the
        request once more if the connection was lost since its last use.
        """
        length = len(body) if length is None else length
        is_used = self.connection.sock is not None
        try:
            return self.sent(method, target, body, length)
        except Lost:
            if not (is_repeated and is_used and self.connection.auto_open):
                raise
            self.connection.close()
            return self.sent(method, target, body, length)

    def sent(self, method: str, target: str, body: bytes | Iterable[bytes], length: int) -> Reply:
        fields = {**self.fields, "content-length": str(length)} if length or method == "POST" else self.fields
        with self.closing_at_faults():
            self.guard(self.send, method, self.place.prefix + target, body, fields)
            return self.reply(self.guard(self.connection.response), length)

    def takes_large(self) -> bool:
        """Whether this is a nixkeep-cache that takes archives of any size."""
        try:
            reply = self.ask("GET", "/nix-cache-info", is_repeated=True)
            return "\nLargeFrom: " in reply.text() and reply.status == DONE
        except Foreign:
            return False

    def closing_at_faults(self) -> _Closing:
        return _Closing(self.connection)

    def send(self, method: str, target: str, body: bytes | Iterable[bytes], fields: dict[str, str]) -> None:
        """Sends a request, or the part of it that is taken before the other side answers and closes."""
        self.connection.open()
        try:
            self.connection.send(method, target, [body] if isinstance(body, bytes) else body, fields)
        except (BrokenPipeError, ConnectionResetError):
            pass

    def reply(self, response: http_connection.Reply, length: int) -> Reply:
        media = response.fields.get("content-type", "none").partition(";")[0]
        if response.status == 200 and media in _TYPES:
            return Reply(self, response, DONE)
        if response.status in _LINES:
            text = self.guard(response.read, CHUNK)
            is_line, status = _LINES[response.status]
            if text.endswith(b"\n") and is_line(text[:-1].decode("latin-1")):
                return Reply(self, response, status, text)
        self.connection.close()
        raise self.foreign(response, media, length)

    def guard(self, work: Callable, *words: object) -> bytes | http_connection.Reply | None:
        """The result of `work(*words)`, a part of a request; Stop if the connection fails in it."""
        try:
            return work(*words)
        except (ConnectionResetError, BrokenPipeError):
            raise self.gone("the connection ended before the answer; the request may be done") from None
        except Cut as cut:
            raise self.gone(f"the connection ended {cut.left or 0} bytes before the end of the answer") from None
        except NotHttp:
            raise Stop(f"failed: proxy: {self.place.url}: the answer isn't HTTP") from None
        except TimeoutError:
            raise Stop(f"failed: unreachable: {self.place.url}: no answer within {SECONDS} seconds") from None
        except OSError as error:
            raise Stop(f"failed: {self.fault(error)}") from None

    def fault(self, error: OSError) -> str:
        """What is said of an error of the system, or of TLS where that is in use."""
        ssl = sys.modules.get("ssl")
        if ssl and isinstance(error, ssl.SSLCertVerificationError):
            return f"certificate: {self.place.url}: {error.verify_message}"
        tls = "TLS: " if ssl and isinstance(error, ssl.SSLError) else ""
        return f"unreachable: {self.place.url}: {tls}{reason(error)}"

    def gone(self, why: str) -> "Lost":
        return Lost(f"failed: unreachable: {self.place.url}: {why}")

    def foreign(self, response: http_connection.Reply, media: str, length: int) -> "Foreign":
        """Foreign for an answer that isn't the server's own."""
        status, why = f"{response.status} {response.reason}".rstrip(), ""
        if response.status == 401:
            sent = self.credentials
            why = f"; it doesn't accept the credentials of {sent.source}" if sent else "; it wants credentials"
        elif response.status == 413:
            why = f"; it takes no body of {length} bytes, and has to take {MOST_OF_BODY}"
        elif response.status == 429:
            why = "; it takes no more requests for now: try again"
        elif response.status in (502, 503, 504):
            why = "; the server behind it doesn't answer"
        elif 300 <= response.status < 400:
            why = f"; it points to {response.fields.get('location', 'nowhere')}"
        elif response.status == 200:
            why = f"; a reply of type {media} isn't nixkeep's"
        return Foreign(f"failed: proxy: {self.place.url}: {status}{why}")


class Foreign(Stop):
    """A proxy answered in the place of the server."""


class Lost(Stop):
    """The connection was lost before the end of an answer."""


__all__ = ["MOST_OF_BODY", "Foreign", "Lost", "Place", "Server", "SocketConnection"]
