"""Replies as a reverse proxy may write them, and what nixkeep-remote makes of each.

A reply of the server has a status line, `content-type`, `content-length` and the text. RFC 9112 allows a proxy more
than that, and a faulty one writes anything.
"""
import collections
import contextlib
import http.client
import io
import random
import socket
import ssl
import struct
import threading
import time
import types
from collections.abc import Iterator
from typing import Any

# What a client makes of a reply: the exit status, the standard output, and the line on standard error, with URL for
# that of the server.
Outcome = collections.namedtuple("Outcome", "status output line")
TEXT = b"path\n"
DONE = Outcome(0, TEXT, "")
NOT_HTTP = Outcome(1, b"", "failed: proxy: URL: the answer isn't HTTP")
NONE = Outcome(1, b"", "failed: unreachable: URL: the connection ended before the answer; the request may be done")
# A piece of a reply that stands for the end of the connection by a reset.
RESET = None


def proxy(text: str) -> Outcome:
    """What comes of a reply that isn't the server's own."""
    return Outcome(1, b"", f"failed: proxy: URL: {text}")


def cut(left, output=b""):
    """What comes of a reply that ends too early."""
    why = f"the connection ended {left} bytes before the end of the answer"
    return Outcome(1, output, f"failed: unreachable: URL: {why}")


def reply(*fields: str, text: bytes = TEXT, status: str = "HTTP/1.1 200 OK", kind: str | None = "text/plain",
          end: str = "\r\n") -> bytes:
    """A reply without a length."""
    head = [status, *([f"content-type: {kind}"] if kind else []), *fields, "", ""]
    return end.join(head).encode("latin-1") + text


def whole(*fields: str, text: bytes = TEXT, **more: Any) -> bytes:
    """A reply with its length."""
    return reply(*fields, f"content-length: {len(text)}", text=text, **more)


def chunked(*fields: str, text: bytes = b"3\r\npat\r\n2\r\nh\n\r\n0\r\n\r\n", **more: Any) -> bytes:
    return reply(*fields, "transfer-encoding: chunked", text=text, **more)


def bytewise(data):
    return [bytes([byte]) for byte in data]


LARGE = bytes(range(256)) * 1000
HTML, PAGE = b"<html>bad gateway</html>", {"status": "HTTP/1.1 502 Bad Gateway", "kind": "text/html"}
REFUSED = {"status": "HTTP/1.1 404 Not Found", "text": b"refused: 23 not-valid\n"}
OF_TEXT = {"text": b"16\r\nrefused: 23 not-valid\n\r\n0\r\n\r\n"}
BEHIND = "502 Bad Gateway; the server behind it doesn't answer"
# Of each the pieces of the reply, or the reply whole, and what comes of it.
TABLE = {
    # ---- lengths, and the end of a text
    "the server's own reply": (whole(), DONE),
    "no text": (whole(text=b""), DONE._replace(output=b"")),
    "chunks": (chunked(), DONE),
    "a chunk with an extension, and a trailer":
        (chunked(text=b"5;a=b\r\npath\n\r\n0;c\r\nx-sum: 1\r\nx-more: 2\r\n\r\n"), DONE),
    "chunks and a length": (chunked("content-length: 3"), DONE),
    "chunks, in capitals": (reply("Transfer-Encoding: CHUNKED", text=b"5\r\npath\n\r\n0\r\n\r\n"), DONE),
    "a coding before chunks": (reply("transfer-encoding: gzip, chunked", text=b"0\r\n\r\n"),
                               DONE._replace(output=b"0\r\n\r\n")),
    "another coding": (whole("transfer-encoding: gzip"), DONE),
    "a text that ends with the connection": (reply(), DONE),
    "no text that ends with the connection": (reply(text=b""), DONE._replace(output=b"")),
    "a length and bytes after it": (whole() + b"HTTP/1.1 400 Bad Request\r\n\r\n", DONE),
    "a length of more digits": (reply("content-length: 0000000005"), DONE),
    "a length with blanks": (reply("content-length:   5  "), DONE),
    "a length with a sign": (reply("content-length: +5"), DONE),
    "a length below zero": (reply("content-length: -5"), DONE),
    "a length that is none": (reply("content-length: 5x"), DONE),
    "an empty length": (reply("content-length:"), DONE),
    "a list of lengths": (reply("content-length: 2, 2"), DONE),
    "two lengths": (reply("content-length: 2", "content-length: 5"), DONE._replace(output=b"pa")),
    "a length of digits that aren't ASCII": (reply("content-length: \xb2"), DONE),
    "a length of 5,000 digits": (reply(f"content-length: {'0' * 4999}5"), DONE),
    # ---- fields
    "names in capitals": (reply(f"CONTENT-LENGTH: {len(TEXT)}").replace(b"content-type", b"Content-Type"), DONE),
    "more fields": (whole("Server: nginx", "Date: Sat, 28 Nov 2026 22:00:00 GMT", "Via: 1.1 a, 1.1 b", "x-empty:",
                          "Set-Cookie: a=b; Path=/", "Set-Cookie: c=d", "Vary: accept-encoding"), DONE),
    "a field that isn't ASCII": (whole("server: caf\xe9"), DONE),
    "a name that isn't ASCII": (whole("caf\xe9: 1"), DONE),
    "a field with a tab": (whole("x-tab:\ta\tb"), DONE),
    "a folded field": (whole("x-folded: a", "\tb", "  c"), DONE),
    "a folded type": (whole(kind="text/plain;\r\n charset=utf-8"), DONE),
    "a folded length": (reply("content-length:\r\n 5"), DONE),
    "a blank before the colon": (reply("x-blank : 1", "content-length: 3"), DONE),
    "a line without a colon": (reply("nothing", "content-length: 3"), DONE),
    "the fields of a mailbox": (whole("From ann", "From: ann"), DONE),
    "line feeds alone": (whole(end="\n"), DONE),
    "a carriage return in a field": (whole("x-return: a\rb"), DONE),
    "99 fields": (whole(*[f"x-{at}: 1" for at in range(97)]), DONE),
    "100 fields": (whole(*[f"x-{at}: 1" for at in range(98)]), NOT_HTTP),
    "a field of 60,000 bytes": (whole(f"x-long: {'x' * 60_000}"), DONE),
    "a field of 70,000 bytes": (whole(f"x-long: {'x' * 70_000}"), NOT_HTTP),
    "the connection is kept": (whole("connection: keep-alive", "keep-alive: timeout=5"), DONE),
    "the connection is closed": (whole("Connection: Close"), DONE),
    "the connection is closed, among more": (whole("connection: x-a, close"), DONE),
    "a coding of the contents": (whole("content-encoding: gzip"), DONE),
    "a type with a parameter": (whole(kind="text/plain; charset=utf-8"), DONE),
    "the type of an archive": (whole(kind="application/octet-stream"), DONE),
    "no type": (whole(kind=None), proxy("200 OK; a reply of type none isn't nixkeep's")),
    "two types": (whole("content-type: text/html"), DONE),
    "a type and a blank": (whole(kind="text/plain ;x"), proxy("200 OK; a reply of type text/plain  isn't nixkeep's")),
    "a type in capitals": (whole(kind="Text/Plain"), proxy("200 OK; a reply of type Text/Plain isn't nixkeep's")),
    # ---- statuses
    "version 1.0 and a length": (whole(status="HTTP/1.0 200 OK"), DONE),
    "version 1.0 without a length": (reply(status="HTTP/1.0 200 OK"), DONE),
    "version 1.0 that keeps the connection": (whole("connection: keep-alive", status="HTTP/1.0 200 OK"), DONE),
    "version 1.2": (whole(status="HTTP/1.2 200 OK"), DONE),
    "version 2": (whole(status="HTTP/2 200"), NOT_HTTP),
    "a version in small letters": (whole(status="http/1.1 200 OK"), NOT_HTTP),
    "another protocol": (b"SSH-2.0-OpenSSH_9.2\r\n", NOT_HTTP),
    "no protocol": (b"hello\n", NOT_HTTP),
    "an empty line before it": (b"\r\n" + whole(), NOT_HTTP),
    "a status without a reason": (whole(status="HTTP/1.1 200"), DONE),
    "a status with an empty reason": (whole(status="HTTP/1.1 200 "), DONE),
    "a status with more blanks": (whole(status="HTTP/1.1  200 \t OK "), DONE),
    "a status of two digits": (whole(status="HTTP/1.1 20 OK"), NOT_HTTP),
    "a status of four digits": (whole(status="HTTP/1.1 2000 OK"), NOT_HTTP),
    "a status of letters": (whole(status="HTTP/1.1 OK"), NOT_HTTP),
    "no status": (whole(status="HTTP/1.1"), NOT_HTTP),
    "a reason of 1,000 bytes": (whole(status=f"HTTP/1.1 599 {'long ' * 200}"), proxy(f"599 {('long ' * 200).strip()}")),
    "a reason of 70,000 bytes": (whole(status=f"HTTP/1.1 200 {'x' * 70_000}"), NOT_HTTP),
    "a reason that isn't ASCII": (whole(status="HTTP/1.1 500 D\xe9faut"), proxy("500 D\xe9faut")),
    "a reason with escapes": (whole(status="HTTP/1.1 500 a\x1b]0;b\x07\x9b2J"), proxy(r"500 a\x1b]0;b\x07\x9b2J")),
    "100 before it": (b"HTTP/1.1 100 Continue\r\n\r\n" + whole(), DONE),
    "100 with fields, twice": (b"HTTP/1.1 100 Continue\r\nx-a: b\r\n\r\n" * 2 + whole(), DONE),
    "100 and the end": (b"HTTP/1.1 100 Continue\r\n\r\n", NONE),
    "102 before it": (b"HTTP/1.1 102 Processing\r\n\r\n" + whole(), proxy("102 Processing")),
    "103 before it": (b"HTTP/1.1 103 Early Hints\r\nlink: </a>\r\n\r\n" + whole(), proxy("103 Early Hints")),
    "204": (reply(status="HTTP/1.1 204 No Content", text=b""), proxy("204 No Content")),
    "204 with a length": (whole(status="HTTP/1.1 204 No Content"), proxy("204 No Content")),
    "304": (reply(status="HTTP/1.1 304 Not Modified", text=b""), proxy("304 Not Modified; it points to nowhere")),
    "206": (whole(status="HTTP/1.1 206 Partial Content"), proxy("206 Partial Content")),
    "302": (whole("location: https://a/b?c", text=b"", status="HTTP/1.1 302 Found"),
            proxy("302 Found; it points to https://a/b?c")),
    "302 with escapes": (whole("location: a\x1b[2J", text=b"", status="HTTP/1.1 302 Found"),
                         proxy(r"302 Found; it points to a\x1b[2J")),
    "302 in chunks": (chunked("location: /in", status="HTTP/1.1 302 Found"), proxy("302 Found; it points to /in")),
    "401": (whole("www-authenticate: Basic", status="HTTP/1.1 401 Unauthorized", kind="text/html"),
            proxy("401 Unauthorized; it wants credentials")),
    # ---- pages, and the server's own refusals
    "a page": (whole(text=HTML, **PAGE), proxy(BEHIND)),
    "a page in chunks": (chunked(text=b"6\r\n<html>\r\n0\r\n\r\n", **PAGE), proxy(BEHIND)),
    "a page that ends with the connection": (reply(text=HTML, **PAGE), proxy(BEHIND)),
    "a page of 2 MB": (whole(text=HTML * 83_334, **PAGE), proxy(BEHIND)),
    "a page with the status of done": (whole(text=HTML, kind="text/html"),
                                       proxy("200 OK; a reply of type text/html isn't nixkeep's")),
    "a refusal": (whole(**REFUSED), Outcome(3, b"", "refused: 23 not-valid")),
    "a refusal in chunks": (chunked(**{**REFUSED, **OF_TEXT}), Outcome(3, b"", "refused: 23 not-valid")),
    "a refusal that ends with the connection": (reply(**REFUSED), Outcome(3, b"", "refused: 23 not-valid")),
    "a refusal as a page": (whole(**REFUSED, kind="text/html"), Outcome(3, b"", "refused: 23 not-valid")),
    "a refusal and more": (whole(**{**REFUSED, "text": b"refused: 23 not-valid\n\n"}), proxy("404 Not Found")),
    "a refusal without its end": (whole(**{**REFUSED, "text": b"refused: 23 not-valid"}), proxy("404 Not Found")),
    "a refusal without a number": (whole(**{**REFUSED, "text": b"refused: not-valid\n"}), proxy("404 Not Found")),
    "a refusal in capitals": (whole(**{**REFUSED, "text": b"refused: 23 Not-Valid\n"}), proxy("404 Not Found")),
    "a denial": (whole(text=b"denied: live /nix/store/a by b\n", status="HTTP/1.1 403 Forbidden"),
                 Outcome(4, b"", "denied: live /nix/store/a by b")),
    "a denial of one word": (whole(text=b"denied: connect\n", status="HTTP/1.1 403 Forbidden"),
                             Outcome(4, b"", "denied: connect")),
    "a denial with escapes": (whole(text=b"denied: live \x1b[2J\xc2\x9b\n", status="HTTP/1.1 403 Forbidden"),
                              Outcome(4, b"", r"denied: live \x1b[2J\x9b")),
    "a denial of two lines": (whole(text=b"denied: live a\nb\n", status="HTTP/1.1 403 Forbidden"),
                              proxy("403 Forbidden")),
    "a denial without a word": (whole(text=b"denied: \n", status="HTTP/1.1 403 Forbidden"), proxy("403 Forbidden")),
    "a failure": (whole(text=b"failed: disk\n", status="HTTP/1.1 503 Service Unavailable"),
                  Outcome(1, b"", "failed: disk")),
    "another failure": (whole(text=b"failed: fan\n", status="HTTP/1.1 503 Service Unavailable"),
                        proxy("503 Service Unavailable; the server behind it doesn't answer")),
    "a denial with the status of a failure": (whole(text=b"denied: connect\n", status="HTTP/1.1 503 Busy"),
                                              proxy("503 Busy; the server behind it doesn't answer")),
    # ---- early ends
    "nothing": (b"", NONE),
    "an end in the status line": (b"HTTP/1.1 20", NOT_HTTP),
    "an end after the status line": (b"HTTP/1.1 200 OK\r\n", proxy("200 OK; a reply of type none isn't nixkeep's")),
    "an end in the fields": (b"HTTP/1.1 200 OK\r\ncontent-type: text/plain\r\ncontent-le", DONE._replace(output=b"")),
    "an end before the empty line": (b"HTTP/1.1 200 OK\r\ncontent-type: text/plain\r\ncontent-length: 5\r\n", cut(5)),
    "an end before the text": (whole()[:-5], cut(5)),
    "an end in the text": (whole()[:-2], cut(2, b"pat")),
    "an end in a long text": (whole(text=LARGE)[:-7], cut(7, LARGE[:-7])),
    "an end in a chunk": (chunked(text=b"5\r\npat"), cut(0)),
    "an end between chunks": (chunked(text=b"3\r\npat\r\n"), cut(0)),
    "a chunk of no number": (chunked(text=b"x\r\npath\n\r\n0\r\n\r\n"), cut(0)),
    "an end in a refusal": (whole(**REFUSED)[:-2], proxy("404 Not Found")),
    # ---- pieces
    "byte by byte": (bytewise(whole()), DONE),
    "chunks byte by byte": (bytewise(chunked()), DONE),
    "a text in pieces": ([whole(text=LARGE)[at : at + 30_000] for at in range(0, 260_000, 30_000)],
                         DONE._replace(output=LARGE)),
    "chunks of a long text": (chunked(text=b"".join(b"%x\r\n%b\r\n" % (len(data), data)
                                                    for data in (LARGE, LARGE, b""))),
                              DONE._replace(output=LARGE + LARGE)),
    "the head alone, then the text": ([whole()[:-5], TEXT], DONE),
    "a head in two pieces": ([whole()[:-7], whole()[-7:]], DONE),
}
# Over a port alone: elsewhere a reset is an end like others.
OF_PORTS = {
    "a reset": ([RESET], NONE),
    "a reset in the text": ([whole()[:-2], RESET], NONE),
}


# ---- random heads

HEADS = [data.partition(b"\r\n\r\n")[0] for data, _ in TABLE.values() if isinstance(data, bytes) and len(data) < 1000]
TOKENS = [b"\r\n", b"\n", b"\r", b" ", b"\t", b":", b"\0", b"close", b"0", b"100", b"content-length: 7\r\n", b"\r\n ",
          b"connection: close\r\n", b"transfer-encoding: chunked\r\n", b"HTTP/1.1 200 OK\r\n", b"\x1c", b"From "]


def spoiled(heads: random.Random) -> bytes:
    """A random head of a reply, without the empty line after it: one of the table with a few changes."""
    head = bytearray(heads.choice(HEADS))
    for _ in range(heads.randrange(4)):
        at = heads.randrange(len(head) + 1)
        to = at + heads.randrange(12)
        other = heads.choice(TOKENS), head[at:to], bytes([heads.randrange(256)]), b""
        head[at : heads.choice((at, to))] = heads.choice(other)
    return bytes(head)


def by_http_client(head: bytes) -> tuple | None:
    """The status, reason, type, place and length that http.client reads of a head, and whether the connection ends with
    the text; None where it finds a fault."""
    stream = types.SimpleNamespace(makefile=lambda _: io.BytesIO(head + b"\r\n\r\n"))
    reply = http.client.HTTPResponse(stream)
    try:
        reply.begin()
    except http.client.HTTPException:
        return None
    fields = [reply.headers.get(name) for name in ("content-type", "location")]
    return reply.status, reply.reason, fields, reply.length, reply.will_close


# ---- a server that writes them


def request(stream, is_whole):
    """Reads a request from a stream, or its head alone, and returns whether there is one."""
    head = []
    while (line := stream.readline()) not in (b"\r\n", b""):
        head.append(line.lower())
    length = [int(field.partition(b":")[2]) for field in head if field.startswith(b"content-length:")]
    stream.read(sum(length) if is_whole else 0)
    return bool(head)


def answer(connection, pieces):
    for piece in [pieces] if isinstance(pieces, bytes) else pieces:
        if piece is RESET:
            connection.setsockopt(socket.SOL_SOCKET, socket.SO_LINGER, struct.pack("ii", 1, 0))
            # (what was sent before is lost if it isn't read yet)
            time.sleep(0.3)
            return
        connection.sendall(piece)
        if not isinstance(pieces, bytes):
            time.sleep(0.001)


def serve(listening, context, replies, is_early):
    """Answers a connection: each request with a reply, until all are sent or the client ends. An early reply is sent
    before the body is read."""
    with contextlib.suppress(OSError), listening.accept()[0] as plain:
        with context.wrap_socket(plain, server_side=True) if context else plain as connection:
            with contextlib.suppress(OSError), connection.makefile("rb") as stream:
                for pieces in replies:
                    if request(stream, not is_early):
                        answer(connection, pieces)
            if is_early:
                # (closed with bytes that nobody has read, which resets it once the reply is read)
                time.sleep(0.3)


@contextlib.contextmanager
def server(*connections: list, path: str | None = None, certificate: tuple[str, str] | None = None,
           is_early: bool = False) -> Iterator[str]:
    """The URL of a server that answers these connections in turn, each with its replies; at a Unix socket, or by TLS
    with the files of a certificate and its key."""
    context = None
    if certificate:
        context = ssl.SSLContext(ssl.PROTOCOL_TLS_SERVER)
        context.load_cert_chain(*certificate)
    with socket.socket(socket.AF_UNIX if path else socket.AF_INET) as listening:
        listening.bind(path or ("127.0.0.1", 0))
        listening.listen()
        listening.settimeout(60)

        def run():
            for replies in connections:
                serve(listening, context, replies, is_early)

        thread = threading.Thread(target=run, daemon=True)
        thread.start()
        scheme = "https" if certificate else "http"
        yield f"unix:{path}" if path else f"{scheme}://127.0.0.1:{listening.getsockname()[1]}"
        thread.join(1)
