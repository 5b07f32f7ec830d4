"""What tests of the tools share: servers of the program and of anything, a small proxy, and a terminal."""
import base64
import contextlib
import fcntl
import http.client
import os
import pty
import shlex
import socket
import ssl
import struct
import subprocess
import tempfile
import termios
import threading
from collections.abc import Callable, Iterator
from http.server import BaseHTTPRequestHandler, ThreadingHTTPServer
from pathlib import Path
from typing import IO, Any

from tests.tools import shim


def ran(command: list[str], given: bytes = b"", **more: Any) -> tuple[int, bytes, bytes]:
    """The exit status of a command, and what it wrote to standard output and error."""
    done = subprocess.run(command, input=given, capture_output=True, timeout=600, **more)
    return done.returncode, done.stdout, done.stderr


def limited(words: list[str], most: int) -> list[str]:
    """A command that can write no file beyond `most` KiB, as where the disk is full."""
    return ["bash", "-c", f'ulimit -f {most}; exec "$@"', "-", *words]


def unstopped(program: str, folder: str) -> str:
    """A program that goes on at such a limit, as on a full disk. (What starts one gives signals their effects back.)"""
    made = Path(folder, "unstopped")
    made.write_text(f"#!/bin/sh\ntrap '' XFSZ\nexec {shlex.quote(program)} \"$@\"\n")
    made.chmod(0o755)
    return str(made)


@contextlib.contextmanager
def server(program: str, *words: str, connections: int = 10_000) -> Iterator[int]:
    """A server with these options: its port."""
    with tempfile.TemporaryFile() as errors:
        started, port = shim.started(program, words, errors, connections)
        try:
            yield port
        finally:
            started.terminate()
            started.wait()


def on_terminal(command: list[str], take: Callable[[IO[bytes]], Any] = lambda pipe: pipe.read(),
                **more: Any) -> tuple[int, Any, bytes]:
    """The exit status of a command, its output, and what it wrote to the terminal that is its standard error."""
    ours, theirs = pty.openpty()
    fcntl.ioctl(theirs, termios.TIOCSWINSZ, struct.pack("HHHH", 24, 100, 0, 0))
    running = subprocess.Popen(command, stdout=subprocess.PIPE, stderr=theirs, **more)
    os.close(theirs)
    output, shown = take(running.stdout), b""
    running.stdout.close()
    # The end of a terminal is an error.
    with contextlib.suppress(OSError):
        while part := os.read(ours, 4096):
            shown += part
    os.close(ours)
    return running.wait(), output, shown


# ---- a proxy


class Handler(BaseHTTPRequestHandler):
    """A proxy that recognises users by Basic authentication or a token, and passes their requests on with their names.

    A hook is called with the method and the target of each request. The connection ends there if it returns True.
    """

    protocol_version = "HTTP/1.1"

    def user(self) -> str | None:
        field = self.headers.get("authorization", "")
        kind, _, value = field.partition(" ")
        if kind == "Bearer":
            return self.server.tokens.get(value)
        name, _, password = base64.b64decode(value if kind == "Basic" else "").decode().partition(":")
        return name if name and self.server.users.get(name) == password else None

    def answer(self, status: int, text: bytes, media: str = "text/html", **fields: str) -> None:
        self.send_response(status)
        for key, value in {"content-type": media, "content-length": str(len(text)), **fields}.items():
            self.send_header(key, value)
        self.end_headers()
        self.wfile.write(text)

    def pass_on(self):
        behind = self.server
        length = int(self.headers.get("content-length", 0))
        if behind.hook and behind.hook(self.command, self.path):
            self.close_connection = True
            return None
        if behind.page:
            return self.answer(*behind.page)
        if length > behind.most:
            self.close_connection = True
            return self.answer(413, b"<html>too large</html>")
        body, user = self.rfile.read(length), self.user() if behind.users else behind.everybody
        if not user:
            return self.answer(401, b"<html>who are you?</html>", **{"www-authenticate": "Basic"})
        try:
            with contextlib.closing(http.client.HTTPConnection("127.0.0.1", behind.port, timeout=600)) as connection:
                connection.request(self.command, self.path.removeprefix(behind.prefix), body, {"store-user": user})
                reply = connection.getresponse()
                text = reply.read()
        except OSError:
            return self.answer(502, b"<html>nobody is behind</html>")
        if behind.cut:
            self.close_connection = True
            return self.answer(200, text[: behind.cut], "text/plain", **{"content-length": str(len(text))})
        return self.answer(reply.status, text, reply.headers["content-type"])

    do_GET = do_POST = do_DELETE = pass_on

    def log_message(self, *_):
        pass


class UnixServer(ThreadingHTTPServer):
    address_family = socket.AF_UNIX

    def server_bind(self):
        self.socket.bind(self.server_address)
        self.server_name, self.server_port = "localhost", 0

    def get_request(self):
        connection, _ = super().get_request()
        return connection, ("unix", 0)


class TcpServer(ThreadingHTTPServer):
    def handle_error(self, *_):
        # (a client that doesn't trust the certificate closes the connection)
        pass


@contextlib.contextmanager
def proxy(port: int, path: str | None = None, certificate: tuple[str, str] | None = None,
          **more: Any) -> Iterator["UnixServer | TcpServer"]:
    """A proxy for the server on a port: on the Unix socket `path`, or else on a port of its own.

    With a certificate it speaks TLS. `more` are settings.
    """
    made = UnixServer(path, Handler) if path else TcpServer(("127.0.0.1", 0), Handler)
    made.daemon_threads = True
    settings = {"users": {}, "tokens": {}, "everybody": "ann", "most": 1 << 30, "page": None, "prefix": "", "cut": 0,
                "hook": None, "port": port}
    for key, value in {**settings, **more}.items():
        setattr(made, key, value)
    if certificate:
        context = ssl.SSLContext(ssl.PROTOCOL_TLS_SERVER)
        context.load_cert_chain(*certificate)
        made.socket = context.wrap_socket(made.socket, server_side=True, do_handshake_on_connect=False)
    threading.Thread(target=made.serve_forever, args=(0.05,), daemon=True).start()
    try:
        yield made
    finally:
        made.shutdown()
        made.server_close()


def url(made: Any, scheme: str = "http") -> str:
    return f"{scheme}://127.0.0.1:{made.server_address[1]}"


# ---- a server of anything


class Answers(BaseHTTPRequestHandler):
    """Answers by a function of the method, the target and the fields: a status, a media type, a text or None for one
    without an end, and further fields."""

    protocol_version = "HTTP/1.1"

    def answer(self) -> None:
        self.rfile.read(int(self.headers.get("content-length", 0)))
        status, media, text, *fields = self.server.reply_to(self.command, self.path, self.headers)
        self.send_response(status)
        length = 1 << 40 if text is None else len(text)
        for field in [("content-type", media), ("content-length", str(length)), *fields]:
            self.send_header(*field)
        self.end_headers()
        with contextlib.suppress(OSError):
            while text is None:
                self.wfile.write(bytes(1 << 20))
            self.wfile.write(b"" if self.command == "HEAD" else text)

    do_GET = do_HEAD = do_PUT = do_POST = do_DELETE = answer

    def log_message(self, *_):
        pass


@contextlib.contextmanager
def answering(reply_to: Callable) -> Iterator[str]:
    """A server on a port of its own that answers by a function: its URL."""
    with ThreadingHTTPServer(("127.0.0.1", 0), Answers) as made:
        made.reply_to, made.daemon_threads = reply_to, True
        threading.Thread(target=made.serve_forever, args=(0.05,), daemon=True).start()
        yield url(made)
        made.shutdown()
