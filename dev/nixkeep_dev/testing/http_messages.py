"""Messages to the server of a store, and its replies."""
import collections
import contextlib
import random
import re
import socket
import subprocess
import time
from collections.abc import Iterable
from io import BufferedReader
from typing import Any

from nixkeep_dev.testing import report

# The ports that `free_port` chooses from, and what holds the last of those that it chose. Pages have lower ones.
PORTS, TAKEN = (10_000, 32_000), collections.deque(maxlen=100)

# The messages that ask for the whole state of a store.
STATE = [("root", "GET", f"/{name}") for name in ("paths", "roots", "live", "report")]


def message(user: str, method: str, target: str, body: bytes | None = None) -> bytes:
    length = "" if body is None else f"content-length: {len(body)}\r\n"
    return f"{method} {target} HTTP/1.1\r\nstore-user: {user}\r\n{length}\r\n".encode() + (body or b"")


def messages(requests: Iterable[tuple]) -> bytes:
    return b"".join(message(*request) for request in requests)


def lines(*pairs: tuple, payload: bytes = b"") -> bytes:
    """A body: its entries, an empty line, and what follows."""
    return "".join(f"{key}: {value}\n" for key, value in pairs).encode() + b"\n" + payload


def replies(written: bytes) -> tuple[list, bytes]:
    """The whole replies one by one, each its head and its text; and what is left after them."""
    complete = []
    while True:
        head, end, rest = written.partition(b"\r\n\r\n")
        length = re.search(rb"content-length: (\d+)", head)
        if not end or not length or len(rest) < int(length[1]):
            return complete, written
        complete.append((head, rest[: int(length[1])]))
        written = rest[int(length[1]) :]


def all_replies(written: bytes, count: int) -> list[tuple]:
    """As many replies as there were messages, and nothing else."""
    complete, left = replies(written)
    if left or len(complete) != count:
        report.fail(f"{len(complete)} replies to {count} messages, and {left[:300]!r}")
    return complete


def next_replies(output: BufferedReader, count: int) -> list:
    """As many replies as there were messages, from the output of a server that goes on."""
    written = b""
    while len(replies(written)[0]) < count:
        written += output.read1() or report.fail(f"the server ended after {written[-300:]!r}")
    return all_replies(written, count)


def last_reply(connection: socket.socket, *request: Any) -> bytes:
    """Sends a message after which the server closes the connection: all that comes until then."""
    connection.sendall(message(*request).replace(b"\r\n\r\n", b"\r\nconnection: close\r\n\r\n", 1))
    return b"".join(iter(lambda: connection.recv(65_536), b""))


def state_of(written: bytes) -> list[tuple]:
    """The replies to the messages of STATE."""
    return all_replies(written, len(STATE))


def connected(port: int, ran: subprocess.Popen | None = None, timeout: float | None = None,
              within: float = 150) -> socket.socket | None:
    """A connection to a port of this machine, as soon as something listens there; None where the process has ended, or
    nothing listens within `within` seconds."""
    end = time.monotonic() + within
    while time.monotonic() < end:
        with contextlib.suppress(ConnectionRefusedError):
            return socket.create_connection(("127.0.0.1", port), timeout)
        if ran and ran.poll() is not None:
            break
        time.sleep(0.005)


def free_port() -> int:
    """A port of this machine where nobody listens, below those that the system gives to clients. Until this process
    has chosen a hundred more, no other gets it from here: an abstract socket of its name is taken."""
    while True:
        port, taken = random.randrange(*PORTS), socket.socket(socket.AF_UNIX)
        try:
            taken.bind(f"\0nixkeep-test-port-{port}")
        except OSError:
            continue
        # (nothing listens here to find that out: a program that is being started would hold it open for a while)
        with socket.socket() as client:
            if client.connect_ex(("127.0.0.1", port)):
                TAKEN.append(taken)
                return port
