"""Tests of how many requests nixkeep-cache has at once: of one user, and in all."""
import asyncio
import contextlib
import resource
import socket
import time
import types

import pytest

from nixkeep_tools import cache, cache_admission, cache_fair, cache_http, cache_server, store_size
from tests.tools.test_cache_at_once import stores

pytestmark = pytest.mark.needs("curl", "python3-aiohttp")


class Request(dict):
    """A request for something, by a user who is named, or by nobody."""

    method, raw_path = "GET", "/paths"

    def __init__(self, *users, target="/paths"):
        super().__init__()
        self.headers, self.raw_path = types.SimpleNamespace(getall=lambda name, _: self.values(name)), target
        self.values = lambda name: list(users) if name == "store-user" else []


def answered(fair, requests, work, denial=lambda _: asyncio.sleep(0)):
    """What requests get that come at once: a status, a text, and when to try again."""
    server = types.SimpleNamespace(denial=denial)
    middlewares = [cache_admission.naming(None, False), fair.counted, cache_admission.admission(server, "monitor")]
    chain = cache.together(middlewares)

    async def ask(request):
        answer = await chain(request, work)
        return answer.status, answer.text, answer.headers.get("retry-after")

    async def run():
        return await asyncio.gather(*map(ask, requests))

    return asyncio.run(run())


async def slow(_):
    await asyncio.sleep(0.1)
    return cache_http.reply(200, "")


def test_a_user_has_half_of_what_others_leave():
    fair, users = cache_fair.Fair(16), [*["ann"] * 20, *["bob"] * 9, *["carl"] * 3, *["dora"] * 2, "eve"]
    for _ in range(2):
        replies = answered(fair, map(Request, users), slow)
        done = [user for user, (status, *_) in zip(users, replies) if status == 200]
        assert [done.count(user) for user in ("ann", "bob", "carl", "dora", "eve")] == [8, 4, 2, 1, 0]
        assert replies[8] == (429, "failed: busy 8 requests of ann are being answered: try again later\n", "1")
        assert replies[-1] == (503, "failed: busy 15 requests are being answered: try again later\n", "1")
    assert not fair.running, "what has ended counts no more"


def test_one_user_has_all():
    replies = answered(cache_fair.Fair(5, True), [Request("ann") for _ in range(9)], slow)
    assert [status for status, *_ in replies] == [200] * 5 + [429] * 4


def test_who_waits_to_be_admitted_counts():
    """The server is asked for each caller that isn't known yet. So do those who ask whether it is well."""
    async def denial(_):
        await asyncio.sleep(0.1)
        return cache_server.Reply(403, "text/plain", b"denied: connect\n")

    replies = answered(cache_fair.Fair(8), [Request("ann") for _ in range(9)], slow, denial)
    assert [status for status, *_ in replies] == [403] * 4 + [429] * 5
    replies = answered(cache_fair.Fair(8), [Request(target="/health") for _ in range(9)], slow, denial)
    assert [status for status, *_ in replies] == [200] * 4 + [429] * 5


def test_what_fails_counts_no_more():
    async def fails(_):
        raise ConnectionError

    fair = cache_fair.Fair(2)
    for _ in range(5):
        with pytest.raises(ConnectionError):
            answered(fair, [Request("ann")], fails)
    assert not fair.running


@pytest.fixture
def clients():
    """400 sockets."""
    soft, hard = resource.getrlimit(resource.RLIMIT_NOFILE)
    resource.setrlimit(resource.RLIMIT_NOFILE, (min(hard, 8192), hard))
    with contextlib.ExitStack() as held:
        yield [held.enter_context(socket.socket(socket.AF_UNIX)) for _ in range(400)]
    resource.setrlimit(resource.RLIMIT_NOFILE, (soft, hard))


def sent(client, place, method, target, user):
    """Sends a request without waiting for room in the queue of the socket, as nginx does."""
    client.setblocking(False)
    client.connect(place)
    client.settimeout(300)
    client.sendall(f"{method} {target} HTTP/1.1\r\nhost: red\r\nstore-user: {user}\r\n\r\n".encode())


def first_lines(clients):
    return {client.recv(1000).partition(b"\r\n")[0] for client in clients}


@pytest.mark.parametrize("users", [["ann"], ["ann", "bob"]])
def test_many_changes_at_once(program, folder, users, clients):
    """Of 400 changes at once, by one user or by two, none is refused."""
    with stores(program, folder, "--proxied") as (made, _):
        for at, client in enumerate(clients):
            user = users[at % len(users)]
            sent(client, made.place, "DELETE", f"/temp/{user}/1", user)
        assert first_lines(clients) == {b"HTTP/1.1 200 OK"}


def test_many_wait_while_it_restarts(unit, clients):
    """400 requests that come to the unit's socket while the store is stopped are answered by the next process."""
    with unit() as store:
        store.end()
        for client in clients:
            sent(client, store.place, "GET", "/who", "ann")
        store.start()
        assert first_lines(clients) == {b"HTTP/1.1 200 OK"}


def test_bodies_that_wait_take_little_memory(program, folder):
    """A body waits outside of the memory until it has room, but for its first bytes."""
    count = 300
    with stores(program, folder, "--proxied") as (made, _), contextlib.ExitStack() as held:
        memory = lambda: store_size.resident(made.running.pid)
        before, clients = memory(), [held.enter_context(socket.socket(socket.AF_UNIX)) for _ in range(count)]
        head = b"POST /text HTTP/1.1\r\nhost: red\r\nstore-user: ann\r\ncontent-length: 20000000\r\n\r\n"
        for client in clients:
            client.connect(made.place)
            client.sendall(head)
            client.setblocking(False)
        for _ in range(5):
            for client in clients:
                with contextlib.suppress(BlockingIOError):
                    client.send(bytes(100_000))
            time.sleep(0.2)
        assert memory() - before < count * 120_000
