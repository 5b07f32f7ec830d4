"""Asks a server again and again, and compares its end with its beginning: descriptors, memory and time.

Each connection adds a text, reads it, lists roots, asks for what isn't there, and is refused for a bad body, so each
kind of reply is sent. After --count connections the server has to have the descriptors that it had after a tenth of
them, at most 2 MiB more memory, and requests take at most four times as long: the store stays small, so nothing grows.
A request is also compared with a round trip on loopback between two Python programs, which says how fast this machine
is: it takes at most 100 times that, and 10 milliseconds where that is more. Times are the least of a tenth of the
connections. Where other programs take the processors, that is asked for again, some times: a server that has become
slow stays so, and a machine that is busy doesn't. With --minutes it goes on in between for so long, as `soak --minutes
60` does by hand.
"""
import os
import socket
import statistics
import threading
import time
import typing
from pathlib import Path

import pytest

from nixkeep_dev.testing import processes, report
from nixkeep_dev.testing.http_messages import last_reply, message, replies
from nixkeep_dev.testing.store import Server

CONNECTIONS, MORE, SLOWER, ROUND_TRIPS, LEAST = 1000, 2048, 4, 100, 0.01
# How many more tenths of the connections measure a time that is above its limit, and the seconds within which those
# that have ended are closed.
TIMES, SETTLED = 10, 30
# What counts as no growth of a time, in seconds: other programs take the processors, too.
LITTLE = 0.0005
TEXT = b"name: soaked\n\nthe same each time\n"
REQUESTS = [("POST", "/text", TEXT, 200), ("GET", "/roots", None, 200), ("GET", "/nothing", None, 404),
            ("POST", "/text", b"name: a/b\n\nrefused\n", 400), ("GET", "/report", None, 200)]


def round_trip():
    """The median seconds in which a byte comes back on loopback."""
    listener, seconds = socket.create_server(("127.0.0.1", 0)), []

    def echo():
        with listener.accept()[0] as client:
            while data := client.recv(64):
                client.sendall(data)

    threading.Thread(target=echo, daemon=True).start()
    with listener, socket.create_connection(listener.getsockname()) as client:
        for _ in range(300):
            since = time.monotonic()
            client.sendall(b"x")
            client.recv(64)
            seconds.append(time.monotonic() - since)
    return statistics.median(seconds)


class Soaked(Server):
    """A server, what it has at a time, and what a connection of all requests takes."""

    def descriptors(self, most=None):
        """How many it has open; the least of some looks, since it may still be closing a connection: of more looks as
        long as there are more than `most`."""
        looks, until = [], time.monotonic() + SETTLED
        while len(looks) < 20 or most is not None and min(looks) > most and time.monotonic() < until:
            looks.append(len(os.listdir(f"/proc/{self.ran.pid}/fd")))
            time.sleep(0.02)
        return min(looks)

    def memory(self):
        """The KiB that it has in memory now."""
        return processes.memory(self.ran.pid, "VmRSS")

    def ask_all(self):
        """The seconds that a request took on a connection of all; their statuses have to be those that are meant."""
        since = time.monotonic()
        with self.connect() as client:
            for method, target, body, _ in REQUESTS[:-1]:
                client.sendall(message("ann", method, target, *[body] if body else []))
            came = last_reply(client, "ann", *REQUESTS[-1][:2])
        statuses = [int(head.split()[1]) for head, _ in replies(came)[0]]
        if statuses != [request[3] for request in REQUESTS]:
            report.fail(f"the statuses are {statuses}")
        return (time.monotonic() - since) / len(REQUESTS)


def least(server, count, most):
    """The least seconds that a request took, of `count` connections, which says what the server takes, whatever else
    this machine does; of more connections as long as that is above `most`."""
    times = [server.ask_all() for _ in range(count)]
    for _ in range(TIMES * count // 10):
        if min(times) <= most:
            break
        times.append(server.ask_all())
    return min(times)


class Figures(typing.NamedTuple):
    """What a server has at a time, and the least seconds that a request takes."""
    descriptors: int
    memory: int
    seconds: float


class Soak(typing.NamedTuple):
    """The figures of the first tenth of the connections and of the last, and the most that a request may take."""
    first: Figures
    last: Figures
    most: float


@pytest.fixture(scope="module")
def soaked(program, shared_folder, pytestconfig, count):
    """Asks a server that often, and for so long."""
    Path(config := f"{shared_folder}/store.toml").write_text('allowed-users = ["ann"]\n')
    count, most = count or CONNECTIONS, max(ROUND_TRIPS * round_trip(), LEAST)
    tenth, until, between = max(count // 10, 1), time.monotonic() + 60 * pytestconfig.getoption("--minutes"), 0
    with Soaked(program, "--config", config, "--db", f"{shared_folder}/store.db") as server:
        seconds = least(server, tenth, most)
        first = Figures(server.descriptors(), server.memory(), seconds)
        while between < count - 2 * tenth or time.monotonic() < until:
            server.ask_all()
            between += 1
        seconds = least(server, tenth, min(most, max(SLOWER * first.seconds, LITTLE)))
        last = Figures(server.descriptors(first.descriptors), server.memory(), seconds)
    # (how many more there were depends on this machine, so they aren't counted)
    report.passes(count)
    return Soak(first, last, most)


def test_descriptors(soaked):
    assert soaked.last.descriptors == soaked.first.descriptors


def test_memory(soaked):
    """In KiB."""
    assert soaked.last.memory <= soaked.first.memory + MORE


def test_time(soaked):
    """In seconds: it is within the limit, and doesn't grow."""
    assert max(soaked.first.seconds, soaked.last.seconds) <= soaked.most
    assert soaked.last.seconds <= max(SLOWER * soaked.first.seconds, LITTLE)
