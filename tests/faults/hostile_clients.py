"""Serves an honest client while others are hostile, one kind of them after another.

Hostile are: heads and bodies that come byte by byte, bodies that never end, replies that nobody reads, 1,000
connections that say nothing, bodies of tiny lines, large bodies that can only be refused, whole and in small pieces,
and connections that are reset in a head, a body or a reply. Each kind goes on for --count seconds, and lets go of the
server then, since it serves one connection after another. Meanwhile an honest client opens one connection after
another and asks for the paths of the store: each time it has to get them. A client that is never silent keeps the
server as long as it likes, so an honest one may wait for the end of the attack; its answer has to come within 10
seconds of that or, on a machine that is slow or busy, within the time of ten large bodies. After each kind the memory
that the server had at most has to be below 96 MiB.

Then servers are left alone with a client that stops within a head, within a body, between two messages or before
reading a reply, or that reads a byte of it a second: they have to end by themselves when the limit of 60 seconds is
over, at the latest in twice that time, and say what they should.
"""
import contextlib
import functools
import socket
import struct
import subprocess
import tempfile
import threading
import time
from concurrent.futures import ThreadPoolExecutor
from pathlib import Path

import pytest

from nixkeep_dev.testing import processes, report
from nixkeep_dev.testing.http_messages import last_reply, message, replies
from nixkeep_dev.testing.nar import archive
from nixkeep_dev.testing.requests import imported
from nixkeep_dev.testing.store import Server

MOST, LIMIT, GRANTED, SECONDS, AFTER, BODIES = 96, 60, 4, 6, 10, 10
LARGE = 20_971_520
CONFIG = 'trusted-users = ["root"]\nallowed-users = ["ann"]\n'
CONTENTS = bytes(1_048_576)
LISTED = f"/nix/store/{'0' * 32}-large\n".encode()


class Target(Server):
    """A server of a new store in a file."""

    def __init__(self, file, folder, **how):
        room = tempfile.mkdtemp(dir=folder)
        Path(config := f"{room}/store.toml").write_text(CONFIG)
        super().__init__(file, "--config", config, "--db", f"{room}/store.db", **how)
        self.large, self.wrong = "0" * 32 + "-large", []

    def asks(self, *request):
        """What comes on a connection of its own for a message, up to its end."""
        with self.connect() as client:
            return last_reply(client, *request)


# ---- hostile clients: each is given a server and a time to end at


POST = b"POST /text HTTP/1.1\r\nstore-user: ann\r\ncontent-length: %d\r\n\r\n"


def wait(until):
    time.sleep(max(0, until - time.monotonic()))


def trickle(front, server, until):
    """One byte of a head or a body at a time."""
    with server.connect() as client:
        client.sendall(front)
        while time.monotonic() < until:
            client.sendall(b"x")
            time.sleep(0.05)


def pour(front, piece, server, until):
    """Bytes without an end, as many as are taken."""
    with server.connect() as client:
        client.sendall(front)
        client.settimeout(0.2)
        while time.monotonic() < until:
            with contextlib.suppress(TimeoutError):
                client.sendall(piece)


def bodies_never_ended(server, until):
    with server.connect() as client:
        client.sendall(message("ann", "POST", "/text", b"name: a\n\n" + bytes(LARGE - 9))[:-1])
        wait(until)


def bodies_too_large(server, until):
    """A body that is refused for its length, sent whole in small pieces. Its sender hears so where it is sent in
    the time that the server grants."""
    since, came = time.monotonic(), b""
    with server.connect() as client, contextlib.suppress(OSError):
        since = time.monotonic()
        client.sendall(POST % (LARGE + 1))
        for _ in range((LARGE + 1) // 1024):
            client.sendall(bytes(1024))
        client.sendall(bytes(1))
        came = b"".join(iter(lambda: client.recv(65_536), b""))
    if not came.endswith(b"refused: 38 too-large\n") and time.monotonic() - since < GRANTED:
        server.wrong.append(f"the sender of a body that is too large gets {came!r}")


def replies_never_read(server, until):
    with server.connect() as client:
        client.setsockopt(socket.SOL_SOCKET, socket.SO_RCVBUF, 4096)
        client.sendall(message("ann", "GET", f"/nar/{server.large}") * 32)
        wait(until)


def silent(server, until):
    """1,000 connections at once. More wait than the system queues, so some are only asked for."""
    with contextlib.ExitStack() as held:
        for _ in range(1000):
            client = held.enter_context(socket.socket())
            client.setblocking(False)
            client.connect_ex(("127.0.0.1", server.port))
        wait(until)


def answered(requests, server, until):
    """Large bodies, each of one piece again and again, which have to be answered so."""
    for user, target, piece, wanted in requests:
        if time.monotonic() < until:
            came = server.asks(user, "POST", target, piece * (LARGE // len(piece)))
            if wanted not in came:
                server.wrong.append(f"a body of {piece!r} to {target} is answered {came!r}")


def resets(server, until):
    """Connections that are reset within a head, a body and a reply."""
    messages = [b"GET /pa", message("ann", "POST", "/text", bytes(9999))[:-99],
                message("ann", "GET", f"/nar/{server.large}")]
    while time.monotonic() < until:
        for given in messages:
            with server.connect() as client:
                client.setsockopt(socket.SOL_SOCKET, socket.SO_LINGER, struct.pack("ii", 1, 0))
                client.sendall(given)
        time.sleep(0.01)


TINY = [("ann", "/source", piece, b"refused: 41 bad-body-head") for piece in (b"a: \n", b"reference: \n", b"name: a\n")]
TINY += [("ann", "/source", b"\n", b"")]
REFUSED = [(*request, b"\0", b"HTTP/1.1 40") for request in (("eve", "/text"), ("ann", "/nowhere"), ("ann", "/paths"))]
KINDS = {
    "slow heads": functools.partial(trickle, b"GET /paths HTTP/1.1\r\nstore-user: "),
    "slow bodies": functools.partial(trickle, POST % 1000 + b"name: "),
    "bodies never ended": bodies_never_ended,
    "bodies too large, in small pieces": bodies_too_large,
    "bodies too large, without an end": functools.partial(pour, POST % 99_999_999_999, bytes(1024)),
    "replies never read": replies_never_read,
    "1,000 connections that say nothing": silent,
    "bodies of tiny lines": functools.partial(answered, TINY),
    "bodies that can only be refused": functools.partial(answered, REFUSED),
    "resets": resets,
}


def attack(kind, server, until):
    """One hostile client after another. That the server closes a connection is no fault of it."""
    while time.monotonic() < until:
        with contextlib.suppress(OSError):
            kind(server, until)


def granted(server):
    """The seconds that an answer may take after an attack: those of some large bodies on this machine now, at least
    10, and at most those after which a client is let go."""
    since = time.monotonic()
    server.asks("eve", "POST", "/text", bytes(LARGE))
    return min(max(AFTER, BODIES * (time.monotonic() - since)), 2 * LIMIT)


@pytest.fixture(scope="module")
def server(program, shared_folder):
    with Target(program, shared_folder, stderr=subprocess.DEVNULL) as made:
        added = replies(made.asks(*imported(made.large, archive(CONTENTS))))
        report.same("the answer to an import", [reply[1] for reply in added[0]], [LISTED])
        yield made


@pytest.mark.parametrize("name", KINDS)
def test_an_honest_client_next_to(server, count, name):
    """What the honest client gets, and what it waits for the slowest answer."""
    seconds, answers, slowest = count or SECONDS, 0, 0
    until = time.monotonic() + seconds
    with ThreadPoolExecutor(1) as pool:
        hostile = pool.submit(attack, KINDS[name], server, until)
        while time.monotonic() < until or not answers:
            since = time.monotonic()
            came = replies(server.asks("ann", "GET", "/paths"))
            if [reply[1] for reply in came[0]] != [LISTED]:
                report.fail(f"{name}: the honest client gets {came!r}")
            answers, slowest = answers + 1, max(slowest, time.monotonic() - since)
            time.sleep(0.05)
        hostile.result()
    is_late = slowest > seconds + AFTER and slowest > seconds + granted(server)
    report.right(f"{name}: the honest client's answers",
                 is_late and f"one took {slowest:.1f} s, and the attack {seconds} s")
    wrong, server.wrong = server.wrong, []
    assert not wrong
    most = processes.memory(server.ran.pid) / 1024
    report.right("the memory of the server", most >= MOST and f"{most:.1f} MiB, and it may have {MOST}")


# ---- the time limits


SIPS = "reads a byte of a reply each second"
STOPS = {
    "stops within a head": (b"GET /pa", (1, b"failed: input\n")),
    "stops within a body": (message("ann", "POST", "/text", bytes(9))[:-1], (1, b"failed: input\n")),
    "sends nothing": (b"", (1, b"failed: input\n")),
    "stops between two messages": (message("ann", "GET", "/paths"), (1, b"failed: input\n")),
    "reads nothing of a reply": (None, (1, b"failed: output\n")),
    SIPS: (None, (1, b"failed: output\n")),
}


def sip(client):
    with contextlib.suppress(OSError):
        while client.recv(1):
            time.sleep(1)


def stop_at(program, folder, name):
    """Leaves a server alone with such a client: its status and what it says as it ends, and the seconds until then."""
    given, _ = STOPS[name]
    with Target(program, folder, connections=2 if given is None else 1) as server:
        if given is None:
            server.asks(*imported(server.large, archive(CONTENTS)))
            given = message("ann", "GET", f"/nar/{server.large}") * 32
        with server.connect() as client:
            client.setsockopt(socket.SOL_SOCKET, socket.SO_RCVBUF, 4096)
            since = time.monotonic()
            client.sendall(given)
            if name == SIPS:
                threading.Thread(target=sip, args=[client], daemon=True).start()
            return server.ended(2 * LIMIT + 20), time.monotonic() - since


@pytest.fixture(scope="module")
def stops(program, shared_folder):
    """The ends of all these servers, which begin at once."""
    with ThreadPoolExecutor(len(STOPS)) as pool:
        yield {name: pool.submit(stop_at, program, shared_folder, name) for name in STOPS}


@pytest.mark.parametrize("name", STOPS)
def test_limits(stops, name):
    ended, seconds = stops[name].result()
    report.same(f"a client that {name}", ended, STOPS[name][1])
    report.right(f"a client that {name} is let go after {seconds:.1f} s",
                 not LIMIT - 1 < seconds < 2 * LIMIT + 10 and f"{LIMIT} s is the limit")
