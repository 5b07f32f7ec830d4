"""Tests that nixkeep-cache answers records from memory, and only while the store says the same."""
import asyncio
import base64
import concurrent.futures
import contextlib
import os
import re
import signal
import subprocess
import types
from pathlib import Path
from unittest import mock

import pytest

import parts
from nixkeep_dev.testing import nar
from nixkeep_tools import cache_recent, cache_server
from parts import body
from tests.tools.cached import CONFIG, ask, figures, file_name, record, text

pytestmark = pytest.mark.needs("curl", "python3-aiohttp")
DIGITS = "4" * 32


class Store:
    """A running store, with a record in memory. `more` are words of curl."""

    def __init__(self, place):
        self.place = place
        self.path = self.add()
        self.first = self.get()
        assert self.first[0] == 200 and self.get() == self.first

    def add(self):
        return ask(self.place, "ann", "POST", "/text", text("held"))[1].decode().strip()

    def get(self, user="bob", method="GET", more=()):
        return ask(self.place, user, method, f"/{self.path[11:43]}.narinfo", None, *more)

    def delete(self):
        return ask(self.place, "ann", "POST", "/delete", body(("path", self.path)))[0]

    def is_answered(self, *words):
        """Whether a reply comes soon."""
        return self.get(*words, more=("--max-time", "5"))[0] != 0


@contextlib.contextmanager
def stopped(store):
    """A unit's server takes nothing meanwhile."""
    os.kill(pid := store.server(), signal.SIGSTOP)
    try:
        yield
    finally:
        os.kill(pid, signal.SIGCONT)


@pytest.mark.needs("python3-prometheus_client")
def test_who_gets_a_record_from_memory(unit):
    """Whoever may read, by GET, also while the server doesn't answer. It is counted like any other."""
    with unit("--monitor", "prometheus") as running:
        store = Store(running.place)
        assert store.get("eve") == (403, b"denied: connect\n"), "eve is denied, who isn't known in memory then"
        with stopped(running):
            assert store.get() == store.first
            assert store.get("eve") == (403, b"denied: connect\n")
            assert parts.curl("--unix-socket", store.place, f"http://red/{store.path[11:43]}.narinfo")[0] == 400
            values = figures(running)
            assert not store.is_answered("bob", "HEAD"), "by HEAD the server is asked"
            assert not store.is_answered("build"), "and whether another user may read"
        counts = [values.get(("nixkeep_requests_total", "GET", "record", status)) for status in ("200", "403", "400")]
        assert counts == [3, 2, 1] and values["nixkeep_lookups_total", "yes"] == 3
        assert values["nixkeep_sent_bytes_total", "GET", "record"] == sum(map(len, (
            3 * store.first[1], 2 * b"denied: connect\n", b"refused: 20 bad-caller\n")))


def test_a_reply_from_memory_has_the_same_head(unit):
    with unit() as running:
        path = ask(running.place, "ann", "POST", "/text", text("held"))[1].decode().strip()
        heads = [ask(running.place, "ann", "GET", f"/{path[11:43]}.narinfo", None, "-D", "-")[1] for _ in range(2)]
    assert len({re.sub(rb"(?m)^Date: .*$", b"", head) for head in heads}) == 1 and b"max-age=60" in heads[0]


def test_a_deletion_that_is_on_its_way(unit):
    """From when it is sent nobody gets the record from memory."""
    with unit() as running, concurrent.futures.ThreadPoolExecutor() as pool:
        store = Store(running.place)
        with stopped(running):
            deletion = pool.submit(store.delete)
            parts.until("it is sent", lambda: not store.is_answered(), 60)
            late = pool.submit(store.get)
        assert (deletion.result(), late.result()[0]) == (200, 404)
        assert store.add() == store.path and store.get() == store.first, "when it is added again it is there"


def test_a_deletion_whose_client_leaves(unit):
    """It is done, and the record isn't in memory any more."""
    with unit() as running:
        store = Store(running.place)
        with stopped(running):
            leaving = subprocess.Popen(["curl", "-s", "--unix-socket", store.place, "-H", "store-user: ann",
                                        "--data-binary", f"path: {store.path[11:]}\n\n", "http://red/delete"])
            parts.until("it is sent", lambda: not store.is_answered(), 60)
            leaving.kill()
            leaving.wait()
        parts.until("it is deleted", lambda: store.get()[0] == 404, 60)


def test_what_another_server_has(program, folder):
    """What was deleted while no server ran isn't in memory."""
    Path(config := f"{folder}/store.toml").write_text(CONFIG)
    with parts.server(program, folder, config, f"{folder}/store.db") as server, \
            parts.cache(folder, server.place, f"{folder}/socket") as cache:
        store = Store(cache.place)
        server.end()
        words = [*server.words[: server.words.index("serve")], "--user", "ann", "delete", store.path]
        subprocess.run(words, check=True, capture_output=True)
        server.start()
        assert store.get()[0] == 404


def test_two_paths_with_the_same_digits(unit):
    """The record is that of the first one that is there."""
    with unit() as running:
        get = lambda: re.search(rb"-(\w+)\n", ask(running.place, "bob", "GET", f"/{DIGITS}.narinfo")[1])[1].decode()
        seen, archive = [], nar.archive(b"contents")
        for name in ("b", "c", "a"):
            lines = ("path", f"{DIGITS}-{name}"), ("nar-hash", nar.nar_hash(archive))
            assert ask(running.place, "build", "POST", "/import", body(*lines, payload=archive))[0] == 200
            seen += [get(), get()]
        assert ask(running.place, "ann", "POST", "/delete", body(("path", f"{DIGITS}-a")))[0] == 200
        seen.append(get())
    assert seen == [*"bbbbaab"]


@pytest.mark.needs("python3-nacl")
def test_signatures_of_a_record_in_memory(unit):
    """One that comes later is in the record at once."""
    from nacl import signing

    path, archive = f"/nix/store/{DIGITS}-signed", nar.archive(b"signed")
    message = f"1;{path};{nar.nar_hash(archive)};{len(archive)};".encode()
    coded = lambda data: base64.b64encode(bytes(data)).decode()
    keys = {name: signing.SigningKey(name.encode() * 32) for name in "pq"}
    public = " ".join(f"{name}:{coded(key.verify_key)}" for name, key in keys.items())
    with unit("--trusted-public-keys", public) as running:
        for at in range(2):
            sigs = [("Sig", f"{name}:{coded(key.sign(message).signature)}") for name, key in [*keys.items()][: at + 1]]
            name = file_name(archive)
            ask(running.place, "build", "PUT", f"/nar/{name}", archive)
            given = record(path, archive, name, *sigs)
            assert ask(running.place, "build", "PUT", f"/{DIGITS}.narinfo", given)[0] == 200
            for _ in range(2):
                served = ask(running.place, "bob", "GET", f"/{DIGITS}.narinfo")[1].decode()
                assert re.findall("^Sig: (.*)$", served, re.M) == [sig for _, sig in sigs]


class Place:
    """A server that answers each request with the next of these statuses."""

    idle, why = None, "it starts"

    def __init__(self, *statuses):
        self.statuses, self.reader = [*statuses], None

    async def open(self):
        self.reader = asyncio.StreamReader()
        return self.reader, mock.Mock(asyncio.StreamWriter, write=self.write, is_closing=lambda: False)

    def write(self, _):
        status = self.statuses.pop(0)
        self.reader.feed_data(f"HTTP/1.1 {status} x\r\ncontent-type: text/plain\r\ncontent-length: 0\r\n\r\n".encode())

    def close(self, _):
        pass


@pytest.mark.parametrize("method, target, status, stays", [
    ("GET", "/info/a", 200, True), ("GET", "/info/a", 404, True), ("POST", "/import", 200, True),
    ("POST", "/temp/ann/1", 200, True), ("DELETE", "/root/user/ann/a", 200, True), ("POST", "/import", 507, False),
    ("GET", "/info/b", 503, False), ("POST", "/delete", 200, False), ("POST", "/collect", 503, False)])
def test_what_voids_records(method, target, status, stays):
    """A deletion, and a reply by which the server fails: it may have no file any more."""
    async def run():
        server, ann = cache_server.Server(Place(404, status, 404), 4, 4), cache_server.Caller("ann", None)
        recent = cache_recent.Recent(server, types.SimpleNamespace(changes=0))
        recent.add("a", b"early", recent.now())
        assert recent.text("a") is None, "nothing is known before there is a connection"
        await server.ask(ann, "GET", "/")
        before = recent.now()
        recent.add("a", b"text", before)
        assert recent.text("a") == b"text"
        await server.ask(ann, method, target)
        assert recent.text("a") == (b"text" if stays else None)
        recent.add("b", b"asked before", before)
        assert recent.text("b") == (b"asked before" if stays else None), "nor is what was asked for before"
        recent.add("a", b"text", recent.now())
        server.close()
        assert recent.text("a") is None, "a connection that has ended"
        await server.ask(ann, "GET", "/")
        assert recent.text("a") is None, "or another one"

    asyncio.run(run())


def test_a_connection_on_which_little_is_asked():
    """It isn't closed as an idle one while clients are answered from memory: now and then the server is asked."""
    async def run():
        place = Place(404, 404)
        place.idle = 100
        server, ann = cache_server.Server(place, 4, 4), cache_server.Caller("ann", None)
        recent = cache_recent.Recent(server, types.SimpleNamespace(changes=0))
        await server.ask(ann, "GET", "/")
        recent.add("a", b"text", recent.now())
        assert recent.text("a") == b"text"
        server.closing.cancel()
        server.closing = asyncio.get_running_loop().call_later(40, server.close)
        assert recent.text("a") is None, "after more than half of the time that it may be idle"
        await server.ask(ann, "GET", "/")
        assert recent.text("a") == b"text" and server.connections == 1

    asyncio.run(run())


def test_the_memory_of_records():
    """It has a bound, and those that were asked for last are in it."""
    server = types.SimpleNamespace(age=lambda: 1)
    recent = cache_recent.Recent(server, types.SimpleNamespace(changes=0), 10 * (cache_recent.EACH + 100))
    for at in range(30):
        recent.add(str(at), bytes(100), recent.now())
        assert recent.text("0")
    assert [number for number in range(30) if recent.text(str(number))] == [0, *range(21, 30)]
    recent.add("0", bytes(10_000), recent.now())
    assert len(recent.texts) < 10 and recent.size <= recent.most
    recent.add("large", bytes(recent.most), recent.now())
    assert (len(recent.texts), recent.size) == (0, 0), "one that is larger than all is in none"
