"""Connections to an HTTP server: a request, its reply, and then the next request.

Starting fast is the point: loading `http.client` and `socket` takes many times as long as a request. So a connection is
a socket of `_socket`, which `socket` wraps. A reply is read here if it has the form of the server's own: a status line
of HTTP/1.1, fields in printable ASCII, and a length. `http.client` reads a reply of another form, from its first byte.
"""
from __future__ import annotations

import _socket

# For hints alone: ssl takes longer to load than a request, and collections and typing take milliseconds.
TYPE_CHECKING = False
if TYPE_CHECKING:
    import ssl
    from collections.abc import Iterable

SECONDS = 600
PIECE = 8_192
# A head that is longer is read by http.client, which has limits of its own.
MOST_OF_HEAD, MOST_LINES, MOST_DIGITS = 16_384, 100, 18


class NotHttp(Exception):
    """An answer, or a request, that isn't HTTP."""


class Cut(Exception):
    """The connection ended before the end of a reply. `left` is the number of missing bytes, or None."""

    def __init__(self, left: int | None):
        super().__init__(f"{left} bytes are missing")
        self.left = left


class Connection:
    """A connection to a port, opened by the first request. `host` is ASCII."""

    default_port, auto_open = 80, True

    def __init__(self, host: str, port: int | None = None):
        self.host, self.port = host, self.default_port if port is None else port
        self.sock = self.reply = None

    def connect(self) -> None:
        self.sock = connected(self.host, self.port)

    def open(self) -> None:
        """Connects, unless a connection is open that takes another request."""
        if self.reply is not None and not self.reply.is_read():
            self.close()
        if self.sock is None:
            if not self.auto_open:
                raise ConnectionResetError
            self.connect()

    def close(self) -> None:
        for sock in (self.sock, self.reply and self.reply.sock):
            if sock is not None:
                sock.close()
        self.sock = self.reply = None

    # ---- a request

    def authority(self):
        """The host and the port as a request names them."""
        host = f"[{self.host}]" if ":" in self.host else self.host
        return host if self.port == self.default_port else f"{host}:{self.port}"

    def head(self, method: str, target: str, fields: dict[str, str]) -> bytes:
        if not (target.isascii() and target.isprintable()) or " " in target:
            raise NotHttp
        lines = [f"{method} {target} HTTP/1.1", f"Host: {self.authority()}", "Accept-Encoding: identity"]
        lines += [f"{name}: {value}" for name, value in fields.items()]
        return "".join(f"{line}\r\n" for line in [*lines, ""]).encode("latin-1")

    def send(self, method: str, target: str, body: Iterable[bytes], fields: dict[str, str]) -> None:
        """Sends a request. The body is an iterable of bytes, of which short ones are sent together."""
        waiting = self.head(method, target, fields)
        for piece in body:
            if len(waiting) + len(piece) > PIECE:
                self.sock.sendall(waiting)
                waiting = b""
            waiting += piece
        self.sock.sendall(waiting)

    # ---- its reply

    def response(self) -> "Reply":
        """The reply to the request, once its head is there."""
        ahead = b""
        while b"\r\n\r\n" not in ahead and len(ahead) < MOST_OF_HEAD:
            piece = self.sock.recv(PIECE)
            if not piece:
                break
            ahead += piece
        if not ahead:
            raise ConnectionResetError
        head, end, rest = ahead.partition(b"\r\n\r\n")
        plain = plain_head(head) if end else None
        if plain:
            self.reply = Reply(self.sock, *plain, rest)
        else:
            from . import http_replies

            self.reply = http_replies.Reply(self.sock, ahead)
        if self.reply.is_last:
            # The reply closes it.
            self.sock = None
        return self.reply


def reached(sock, address):
    """The socket, connected to an address."""
    try:
        sock.settimeout(SECONDS)
        sock.connect(address)
    except BaseException:
        sock.close()
        raise
    return sock


def connected(host, port):
    """A socket that is connected to the first of the host's addresses that accepts that."""
    fault = OSError("the name has no address")
    # (a name in bytes, as the codec of a text takes long to load)
    for family, kind, protocol, _, address in _socket.getaddrinfo(host.encode(), port, 0, _socket.SOCK_STREAM):
        try:
            connection = reached(_socket.socket(family, kind, protocol), address)
            connection.setsockopt(_socket.IPPROTO_TCP, _socket.TCP_NODELAY, 1)
            return connection
        except OSError as error:
            fault = error
    raise fault


class TlsConnection(Connection):
    """A connection over TLS. `context` is one of `ssl`, or None for one that trusts the certificates of the system."""

    default_port = 443

    def __init__(self, host: str, port: int | None, context: "ssl.SSLContext | None" = None):
        super().__init__(host, port)
        self.context = context

    def connect(self) -> None:
        import ssl

        # Of a folder, OpenSSL loads those that it needs. It loads all of a file, which takes longer than all else.
        folder = None if self.context else ssl.get_default_verify_paths().capath
        if folder:
            try:
                return self.wrap(ssl.create_default_context(capath=folder))
            except ssl.SSLCertVerificationError:
                self.close()
        return self.wrap(self.context or ssl.create_default_context())

    def wrap(self, context):
        super().connect()
        self.sock = context.wrap_socket(self.sock, server_hostname=self.host)


class UnixConnection(Connection):
    """A connection to the Unix socket of a path."""

    def __init__(self, path: str):
        super().__init__("localhost")
        self.path = path

    def connect(self) -> None:
        self.sock = reached(_socket.socket(_socket.AF_UNIX, _socket.SOCK_STREAM), self.path)


class SocketConnection(Connection):
    """A connection over a socket that is connected already, such as one to a child process."""

    auto_open = False

    def __init__(self, sock: _socket.socket):
        super().__init__("localhost")
        self.sock = sock


def plain_head(head: bytes) -> tuple[int, str, dict[str, str], int] | None:
    """The status, the reason, the fields and the length in the head of a reply that has the form of the server's own;
    None for another form. Of fields with one name the first counts."""
    if not head.isascii():
        return None
    first, *lines = head.decode().split("\r\n")
    version, _, rest = first.partition(" ")
    status, _, reason = rest.partition(" ")
    is_final = len(status) == 3 and status.isdigit() and status >= "200" and status not in ("204", "304")
    if version != "HTTP/1.1" or not is_final or not first.isprintable() or len(lines) >= MOST_LINES:
        return None
    fields = {}
    for line in lines:
        name, colon, value = line.partition(":")
        if not colon or not name or " " in name or not line.isprintable():
            return None
        fields.setdefault(name.lower(), value.lstrip(" "))
    length = fields.get("content-length", "")
    if "transfer-encoding" in fields or not length.isdigit() or len(length) > MOST_DIGITS:
        return None
    return int(status), reason.strip(), fields, int(length)


class Reply:
    """A reply with its length, whose text is read from a socket. `ahead` is what was read after its head."""

    def __init__(self, sock: _socket.socket, status: int, reason: str, fields: dict[str, str], length: int,
                 ahead: bytes):
        self.sock, self.status, self.reason, self.fields, self.length = sock, status, reason, fields, length
        self.ahead, self.is_last = ahead, "close" in fields.get("connection", "").lower()

    def is_read(self) -> bool:
        return not self.length

    def read(self, count: int) -> bytes:
        """The next bytes of the text: `count` of them unless it ends before."""
        left = min(count, self.length)
        pieces, self.ahead = [self.ahead[:left]], self.ahead[left:]
        left -= len(pieces[0])
        while left and (piece := self.sock.recv(left)):
            pieces.append(piece)
            left -= len(piece)
        data = b"".join(pieces)
        self.length -= len(data)
        if self.is_last and (left or not self.length):
            self.sock.close()
        return data
