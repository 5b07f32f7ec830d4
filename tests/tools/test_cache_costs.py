"""Tests of what one user's requests may cost the others: memory, and time in which nixkeep-cache does nothing else."""
import asyncio
import contextlib
import io
import lzma
import random
import re
import socket
import sqlite3
import subprocess
import threading
import time
import types
from pathlib import Path

import pytest

import parts
from nixkeep_dev.testing import nar, stores
from nixkeep_tools import blob_packing, cache, cache_ending, cache_large, cache_records, cache_shares, cache_sweep, drv
from nixkeep_tools import cache_changes, cache_http, cache_limit, cache_listings, cache_metrics, cache_names
from nixkeep_tools import cache_overview, cache_passing, cache_places, cache_room, cache_roots, cache_server
from nixkeep_tools import cache_uploads, cache_watched, overview_day, overview_source, pointers, store_file
from parts import body
from tests.tools import large
from tests.tools.cached import ask, file_name, record

pytestmark = pytest.mark.needs("curl", "python3-aiohttp")
# Runs Python with some words, and prints the KiB of memory that it has had.
PEAK = """import resource, subprocess, sys
subprocess.run([sys.executable, "-B", *sys.argv[1:]], check=True)
print(resource.getrusage(resource.RUSAGE_CHILDREN).ru_maxrss)"""


def nested(depth, count):
    """An archive with `count` links in a folder that is in others, each of which has a long name."""
    links = [nar.strings(b"entry", b"(", b"name", b"%06d" % at, b"node", b"(", b"type", b"symlink", b"target", b"x",
                         b")", b")") for at in range(count)]
    before = nar.strings(b"(", b"type", b"directory", b"entry", b"(", b"name", b"n" * 255, b"node")
    folder = nar.strings(b"(", b"type", b"directory") + b"".join(links) + nar.strings(b")")
    return nar.strings(b"nix-archive-1") + before * depth + folder + nar.strings(b")", b")") * depth


def test_no_listing_fills_the_memory(unit, program):
    """A listing that would fill the memory isn't made. A small archive may have one."""
    with unit() as store:
        def listed(archive):
            given = body(("name", "nested"), payload=archive)
            path = ask(store.place, "ann", "POST", "/source", given)[1].decode().strip()
            return ask(store.place, "ann", "GET", f"/ls/{path[11:]}")

        archive = nested(20, 200)
        printed = subprocess.run([program, "ls"], input=archive, capture_output=True).stdout
        assert len(printed) > 1_000_000
        assert listed(archive) == (200, printed), "a listing of 1 MB is made"
        archive = nested(250, 300)
        assert len(archive) < 200_000
        assert listed(archive) == (503, b"failed: size the listing is longer than an archive may be\n"), "one of 19 MB"
        assert ask(store.place, "ann", "GET", f"/ls/{'1' * 32}-none") == (404, b"refused: 23 not-valid\n"), "of nothing"


def test_no_listing_of_what_comes_meanwhile_fills_the_memory():
    """A user asks for the listing of a path that isn't there, and adds it right after the look at its archive."""
    replies = [cache_server.Reply(404, "text/plain", b"refused: 23 not-valid\n")]

    async def ask(*_):
        return replies.pop()

    class Request(dict):
        raw_path, method, transport = f"/ls/{'1' * 32}-it", "GET", types.SimpleNamespace(is_closing=lambda: False)

    request = Request(caller=cache_server.Caller("ann", None))
    with pytest.raises(cache_http.Answered, match="not-valid") as answered:
        asyncio.run(cache_listings.Listings(types.SimpleNamespace(ask=ask)).demand(request))
    assert answered.value.reply.status == 404 and not replies, "the server isn't asked for the listing then"


def test_long_records_hold_up_nobody_else(unit):
    """The long records of a user, which take long to read, hold up no other one."""
    references = " ".join(f"{at:032}-{'x' * 211}".replace("e", "0") for at in range(4_000))
    record = (f"StorePath: /nix/store/{'7' * 32}-it\nURL: nar/{'0' * 52}.nar\nCompression: none\n"
              f"NarHash: sha256:{'0' * 52}\nNarSize: 120\nReferences: {references}\n").encode()
    head = f"PUT /{'7' * 32}.narinfo HTTP/1.1\r\nhost: red\r\nstore-user: ann\r\ncontent-length: {len(record)}\r\n\r\n"
    replies = []

    def send(place):
        with socket.socket(socket.AF_UNIX) as client:
            client.connect(place)
            client.sendall(head.encode() + record)
            replies.append(client.recv(1000).partition(b"\r\n")[0])

    with unit() as store:
        assert ask(store.place, "bob", "GET", "/nix-cache-info")[0] == 200, "a first request"
        tasks = [threading.Thread(target=send, args=[store.place]) for _ in range(60)]
        for task in tasks:
            task.start()
        parts.until("a reply", lambda: replies)
        before = len(replies)
        assert {ask(store.place, "bob", "GET", "/nix-cache-info")[0] for _ in range(8)} == {200}, "another is answered"
        assert len(replies) - before < 30, "before most of them are read"
        for task in tasks:
            task.join()
    assert {*replies} == {b"HTTP/1.1 400 Bad Request"}, "all of them are answered"


def test_unknown_records_cause_one_listing():
    """All who ask for unknown paths at once, as after a restart, wait for one listing of all paths."""
    requests, replies = [], []

    class Server:
        connections = 1

        async def ask(self, *request):
            requests.append(request)
            await asyncio.sleep(0.01)
            return cache_server.Reply(*replies.pop())

    async def run(every, count):
        names = cache_names.Names(Server(), every)
        for _ in range(count):
            bases = await asyncio.gather(*(names.base(cache_server.Caller(user, None), f"{1:032}")
                                           for user in "abcdefgh"))
        return bases

    replies += [(200, "text/plain", f"/nix/store/{1:032}-x\n".encode())]
    assert asyncio.run(run(30, 3)) == [(f"{1:032}-x", None)] * 8 and len(requests) == 1, "one that is there"
    replies += [(200, "text/plain", b"")]
    assert asyncio.run(run(30, 3)) == [(None, None)] * 8 and len(requests) == 2, "one that isn't"
    replies += [(200, "text/plain", b"")] * 3
    assert asyncio.run(run(0, 3)) == [(None, None)] * 8 and len(requests) == 5, "each time when it is old"
    replies += [(200, "text/plain", b""), (503, "text/plain", b"failed: memory\n")]
    assert asyncio.run(run(30, 2)) == [(None, None)] * 8, "one that fails is tried again"
    assert len(requests) == 7


@pytest.mark.parametrize("target", ["/paths", "/live", "/dead", "/roots", "/roots-of/x"])
def test_listings_of_all_paths_are_made_one_at_a_time(target):
    """Each may have hundreds of MB, since a path may have all the roots. So the next one is made once there is room for
    it, and none is in memory that waits."""
    users, sending = [], cache_http.Sending(1_000_000, 60)

    class Server:
        async def ask(self, caller, *_):
            users.append(caller.user)
            return cache_server.Reply(200, "text/plain", bytes(900_000))

    class Listed(dict):
        raw_path, method = target, "GET"
        transport = types.SimpleNamespace(is_closing=lambda: False, abort=lambda: None)

    async def run():
        passing = cache_passing.Passing(Server(), None, None, None, None, sending, [], 60, None)
        callers = [cache_server.Caller(user, None) for user in ["ann"] * 5 + ["bob"]]
        requests, counts = [Listed(caller=caller) for caller in callers], []
        replies = [asyncio.ensure_future(
            passing.replied(request, cache_server.Request(request["caller"], "GET", target))) for request in requests]
        for _ in range(3):
            await asyncio.sleep(0.05)
            counts.append((len(users), sum(reply.done() for reply in replies)))
            sending.give(next(request["room"] for request in requests if request.get("room") in sending.held))
        for reply in replies:
            reply.cancel()
        return counts

    assert asyncio.run(run()) == [(1, 1), (2, 2), (3, 3)]
    assert users[:4].count("bob") == 1, "another user is among the first"


def test_slow_readers_of_listings_hold_up_no_other_user():
    """A user who reads long listings slowly waits for room without the turn of others."""
    sending = cache_http.Sending(1_000_000, 60)

    class Server:
        async def ask(self, caller, *_):
            return cache_server.Reply(200, "text/plain", bytes(900_000 if caller.user == "ann" else 10))

    class Listed(dict):
        transport, method = types.SimpleNamespace(is_closing=lambda: False, abort=lambda: None), "GET"

    async def run():
        passing = cache_passing.Passing(Server(), None, None, None, None, sending, [], 60, None)

        def get(user, target):
            request = Listed(caller=cache_server.Caller(user, None))
            request.raw_path = target
            return asyncio.ensure_future(
                passing.replied(request, cache_server.Request(request["caller"], "GET", target)))

        slow = [get("ann", "/roots") for _ in range(5)]
        await asyncio.sleep(0.05)
        async with asyncio.timeout(5):
            assert (await get("bob", "/paths")).status == 200
        assert sum(task.done() for task in slow) == 1
        for task in slow:
            task.cancel()

    asyncio.run(run())


class Busy(cache_server.Server):
    """A server that takes a while for each request, and answers that there is nothing."""

    def __init__(self):
        super().__init__(None, 60)
        self.users = []

    async def connect(self, came):
        self.connections = 1

    async def sent(self, messages):
        await asyncio.sleep(0.001)
        self.users += [head.partition(b"store-user: ")[2].partition(b"\r\n")[0] for head, _ in messages]
        return [cache_server.Reply(200, "text/plain", b"") for _ in messages]


def unknown_record(server):
    names = cache_names.Names(server, 0)
    return lambda caller: names.base(caller, "1" * 32)


def all_paths(server):
    passing = cache_passing.Passing(server, None, None, None, None, cache_http.Sending(100, 60), [], 60, None)
    request = type("Request", (dict,), {"raw_path": "/paths", "transport": types.SimpleNamespace(
        is_closing=lambda: False)})
    return lambda caller: passing.replied(request(caller=caller), cache_server.Request(caller, "GET", "/paths"))


def overview(server):
    return cache_overview.Overviews(server, "/nix/store", (True, True), None, None).figures


def first_root(server):
    return cache_roots.Roots(server, "/nix/store").known


@pytest.mark.parametrize("what", [unknown_record, all_paths, overview, first_root])
def test_nobody_waits_for_the_other_requests_of_a_user(what):
    """What is done once for many, or by one at a time, doesn't wait for the other requests of the user who began."""
    server, (ann, bob) = Busy(), [cache_server.Caller(user, None) for user in ("ann", "bob")]

    async def run():
        done = what(server)
        many = [asyncio.ensure_future(server.ask(ann, "GET", "/report")) for _ in range(100)]
        await asyncio.sleep(0)
        first = asyncio.ensure_future(done(ann))
        await asyncio.sleep(0)
        await done(bob)
        count = sum(task.done() for task in many)
        await asyncio.gather(first, *many)
        return count

    assert asyncio.run(run()) < 20


LONG = b"%s /nix/store/0-x\n" % (b"x" * 4500)


@pytest.mark.parametrize("objects, roots, refused", [
    (11, b"", "11 objects takes too much memory: collect"), (1, b"x /nix/store/0-x\n" * 11, "11 roots takes"),
    (1, LONG, "1 roots takes too much memory: drop roots"), (10, b"x /nix/store/0-x\n" * 10, None)])
def test_many_objects_or_roots(objects, roots, refused, monkeypatch):
    """The overview of a store with many objects reads none of them, and neither are many roots read. Those that are
    read hold up nobody."""
    targets, threads, read = [], [], overview_source.root
    listed = b"".join(b"/nix/store/%032d-x\n" % at for at in range(objects))
    replies = {"/paths": listed, "/roots": roots, "/live": b""}

    class Server:
        connections = 1

        async def ask(self, _, __, target):
            targets.append(target)
            return cache_server.Reply(200, "text/plain", replies[target])

        async def gets(self, *_):
            for nothing in ():
                yield nothing

    monkeypatch.setattr(cache_overview, "LINES", 10)
    monkeypatch.setattr(overview_source, "root",
                        lambda *words: threads.append(threading.current_thread()) or read(*words))
    overviews = cache_overview.Overviews(Server(), "/nix/store", (False, True), None, None)
    make = lambda: asyncio.run(overviews.make(cache_server.Caller("ann", None)))
    if not refused:
        make()
        assert len(threads) == 10 and threading.main_thread() not in threads
        return
    with pytest.raises(cache_http.Answered, match=f"the overview of {refused}") as answered:
        make()
    assert (answered.value.reply.status, targets) == (503, ["/paths", "/roots"][:1 + bool(roots)])
    assert not threads


def test_what_a_long_body_names_is_looked_for_in_its_first_part():
    """The record of changes takes no more time for a body of 20 MB than for one of 64 KiB."""
    class Request(dict):
        method = "POST"

    request = Request()
    cache_changes.note(request, b"path: a\n" * 2_500_000)
    assert len(request["named"]) == 8_192
    given = b"path: /nix/store/x\nroot: user y\nreference: z\n\npath: no\n"
    cache_changes.note(request, given, b"/nix/store/a\nfreed 1\n")
    assert (request["named"], request["changed"]) == ([b"/nix/store/x", b"y"], [b"/nix/store/a"])


def test_what_the_head_of_an_import_says():
    """A head may have 20 MB, so it is read without a regular expression, and as by one."""
    rng = random.Random(6)
    for _ in range(2000):
        words = [b"ca: ", b"path: ", b"\n", b"\n", b" ", b"x", b"\xff", b"ca:", b"\r"]
        head = b"".join(rng.choices(words, k=rng.randrange(8)))
        for key in ("ca", "path"):
            match = re.search(rf"^{key}: (.*)$", head.decode("latin-1"), re.M)
            assert cache_large.said(head, key) == (match[1] if match else ""), head


def test_heads_of_large_imports_have_room():
    """Who isn't trusted sends no head of a large import, and those of others have a bounded part of the memory."""
    reading, denied = [], []

    class Request(dict):
        content_length, method, transport = 30_000_000, "POST", None

        class content:
            async def readany():
                reading.append(1)
                await asyncio.sleep(60)

    async def class_of(_, caller):
        return ("trusted" if caller.user == "build" else "allowed"), None

    large = cache_large.Large(None, types.SimpleNamespace(server=None), 0, None, "/nix/store")

    async def ask(user):
        try:
            await large.import_(Request(caller=cache_server.Caller(user, None)))
        except cache_http.Answered as answered:
            denied.append(answered.reply.status)

    async def run():
        large.passing = types.SimpleNamespace(coming=cache_room.Room(6 * cache_large.HEAD), idle=60)
        tasks = [asyncio.ensure_future(ask(user)) for user in ["ann"] * 5 + ["build"] * 9]
        await asyncio.sleep(0.2)
        for task in tasks:
            task.cancel()

    kept, cache_large.class_of = cache_large.class_of, class_of
    try:
        asyncio.run(run())
    finally:
        cache_large.class_of = kept
    assert (denied, len(reading)) == ([403] * 5, 3)


def test_heads_of_uploads_that_wait_have_room():
    """A head is in memory until its upload is done, which may wait for others."""
    head, going_on = b"path: it\n" + b"reference: x\n" * 80_000 + b"\n", []

    class Request(dict):
        content_length, method, transport = 30_000_000, "POST", None

        def __init__(self, user):
            super().__init__(caller=cache_server.Caller(user, None))
            self.left = [head + b"x"]
            self.content = types.SimpleNamespace(readany=self.readany)

        async def readany(self):
            return self.left.pop()

    large = cache_large.Large(None, types.SimpleNamespace(server=None), 0, None, "/nix/store")

    async def waits(request, *_):
        going_on.append(request["caller"].user)
        await asyncio.sleep(60)

    async def trusts(_):
        pass

    async def run():
        large.passing = types.SimpleNamespace(coming=cache_room.Room(8 * cache_large.HEAD), idle=60)
        large.import_pieces, large.demand_trust = waits, trusts
        tasks = [asyncio.ensure_future(large.import_(Request(user))) for user in ["ann"] * 20 + ["bob"]]
        await asyncio.sleep(0.5)
        for task in tasks:
            task.cancel()

    asyncio.run(run())
    assert (going_on.count("ann"), going_on.count("bob")) == (4, 1)


def test_a_user_leaves_room_for_others():
    """What is at work for a user, and waits, has half of the room that others leave. A user's own clients that don't
    move make room in that half."""
    aborted = []

    class Request(dict):
        def __init__(self, user):
            super().__init__(caller=cache_server.Caller(user, None))
            self.transport = types.SimpleNamespace(abort=lambda: aborted.append(user), is_closing=lambda: False)

    async def run():
        room, counts = cache_room.Room(8), []

        async def holds(user, is_safe):
            async with room.taken(Request(user), 1, is_safe):
                await asyncio.sleep(60)

        tasks = []
        for user, is_safe in (("ann", True), ("bob", False), ("carol", True), ("dora", True)):
            tasks += [asyncio.ensure_future(holds(user, is_safe)) for _ in range(9)]
            await asyncio.sleep(0.05)
            counts.append(sum(held.user == user for held in room.held))
        for held in room.held:
            held.began = held.since = held.since - 60
        await asyncio.sleep(1.2 * cache_room.LOOK)
        for task in tasks:
            task.cancel()
        return counts

    assert asyncio.run(run()) == [4, 2, 1, 1]
    assert {*aborted} == {"bob"}


class Request(dict):
    """A request, whose client may have left."""

    def __init__(self, user, is_gone=False):
        super().__init__(caller=cache_server.Caller(user, None))
        self.transport = types.SimpleNamespace(abort=lambda: None, is_closing=lambda: is_gone)


def test_nothing_waits_for_a_client_that_has_left(monkeypatch):
    """Whoever sends requests and leaves has nothing that waits, and no other client loses its room by that."""
    monkeypatch.setattr(cache_room, "LOOK", 0.1)
    room, left = cache_room.Room(8), []

    async def holds(request, size):
        try:
            async with room.taken(request, size):
                await asyncio.sleep(60)
        except cache_room.Left:
            left.append(size)

    async def run():
        tasks = [asyncio.ensure_future(holds(Request("bob"), 6))]
        await asyncio.sleep(0)
        room.held[0].began = room.held[0].since = -60
        tasks += [asyncio.ensure_future(holds(Request("ann", True), 4)) for _ in range(20)]
        tasks += [asyncio.ensure_future(holds(Request("carl"), 5))]
        await asyncio.sleep(0.05)
        lost = [held.user for held in room.held if held.is_lost]
        await asyncio.sleep(0.2)
        waiting = [wanted.user for user in room.waiting.values() for wanted in user]
        for task in tasks:
            task.cancel()
        return lost, waiting

    assert asyncio.run(run()) == (["bob"], ["carl"]), "the one that is there gets its room"
    assert left == [4] * 20


def test_thousands_that_wait_take_little_time():
    """The time for one more that waits, for room or for a place, doesn't grow with their number."""
    async def wait(made, count):
        tasks = [asyncio.ensure_future(made()) for _ in range(count)]
        await asyncio.sleep(0)
        for task in tasks:
            task.cancel()
        await asyncio.gather(*tasks, return_exceptions=True)

    def of_room(count):
        room = cache_room.Room(8)
        return lambda: asyncio.run(wait(lambda: holding(room.taken(Request("ann"), 4)), count))

    def of_places(count):
        places = cache_places.Places(2, 2, 0)
        return lambda: asyncio.run(wait(lambda: holding(places.taken("ann")), count))

    for work in (of_room, of_places):
        takes_linear_time(work, (500, 4_000))


async def holding(taken):
    async with taken:
        await asyncio.sleep(60)


def test_users_take_turns_at_places():
    """Of those that wait, one of each user gets a place before a second one does."""
    order = []

    async def at(places, user):
        async with places.taken(user):
            order.append(user)
            await asyncio.sleep(0)

    async def run():
        places = cache_places.Places(1, 1, 0)
        await asyncio.gather(*(at(places, user) for user in ["ann"] * 5 + ["bob"] * 2 + ["carl"]))

    asyncio.run(run())
    assert order == ["ann", "ann", "bob", "carl", "ann", "bob", "ann", "ann"]


@pytest.mark.parametrize("made, is_idle", [
    (lambda: cache_places.Places(3, 2, 1), lambda places: not places.running),
    (lambda: cache_room.Room(8), lambda room: not room.held and not room.bytes),
])
def test_whoever_leaves_gives_back_what_it_has(made, is_idle, monkeypatch):
    """Whenever one that waits or has something is cancelled: all is there again, and nobody waits for what is free."""
    monkeypatch.setattr(cache_room, "LOOK", 0.005)

    async def has(taken, rng):
        async with taken:
            for _ in range(rng.randint(0, 3)):
                await asyncio.sleep(0)

    async def run(rng):
        shared, tasks = made(), []
        for _ in range(60):
            user, size = rng.choice("abc"), rng.randint(1, 9)
            taken = shared.taken(Request(user), size) if isinstance(shared, cache_room.Room) else shared.taken(user)
            tasks.append(asyncio.ensure_future(has(taken, rng)))
            for task in tasks:
                if rng.random() < 0.1:
                    task.cancel()
            await asyncio.sleep(0)
        async with asyncio.timeout(60):
            await asyncio.gather(*tasks, return_exceptions=True)
        return is_idle(shared) and not shared.waiting

    assert all(asyncio.run(run(random.Random(seed))) for seed in range(40))


def test_records_of_an_archive_that_waits(program, folder):
    """Many records of one archive, which would become a blob, don't have it in memory many times."""
    given = nar.archive(random.Random(4).randbytes(16_700_000))
    with large.Team(program, folder, "--large-from", "16777216") as team:
        assert team.put(given, "ann")[0] == 201
        path, name = "/nix/store/" + "1" * 32 + "-it", file_name(given)
        text = record(path, given, name).replace(b"NarSize: ", b"NarSize: 9")
        head = f"PUT /{path[11:43]}.narinfo HTTP/1.1\r\nhost: red\r\nstore-user: ann\r\n"
        head += f"content-length: {len(text)}\r\n\r\n"
        with contextlib.ExitStack() as held:
            clients = [held.enter_context(socket.socket(socket.AF_UNIX)) for _ in range(30)]
            for client in clients:
                client.connect(team.place)
            for client in clients:
                client.sendall(head.encode() + text)
            assert {client.recv(100).split(b" ")[1] for client in clients} == {b"403"}
        status = Path(f"/proc/{team.running.pid}/status").read_text()
        assert int(re.search(r"VmHWM:\s*(\d+)", status)[1]) < 200_000, "KiB"


def test_bodies_that_wait_have_room():
    """A user may have thousands that wait for one another, each with a body that isn't long."""
    going_on = []

    class Request(dict):
        content_length, method, transport, raw_path = 40_000, "PUT", None, "/text"

        def __init__(self, user):
            super().__init__(caller=cache_server.Caller(user, None))
            left = [bytes(self.content_length), b""]
            self.content = types.SimpleNamespace(readany=lambda: asyncio.sleep(0, left.pop(0)))

    async def waits(request, *_):
        going_on.append(request["caller"].user)
        await asyncio.sleep(60)

    async def run():
        uploads, passing = cache_uploads.Uploads(*[None] * 10), cache_passing.Passing(*[None] * 9)
        uploads.records, passing.coming = cache_room.Room(20 * 3 * 40_000), cache_room.Room(20 * 40_000)
        uploads.idle = passing.idle = 60
        uploads.recorded, look = waits, lambda caller, _: waits({"caller": caller})
        users = ["ann"] * 30 + ["bob"]
        tasks = [asyncio.ensure_future(uploads.record(Request(user), "")) for user in users]
        tasks += [asyncio.ensure_future(passing.request(Request(user), look)) for user in users]
        await asyncio.sleep(0.5)
        for task in tasks:
            task.cancel()

    asyncio.run(run())
    assert (going_on.count("ann"), going_on.count("bob")) == (20, 2)


def test_long_records_are_read_in_a_thread():
    """Others go on meanwhile: here the reading of one ends only once they have."""
    others, uploads = threading.Event(), cache_uploads.Uploads(*[None] * 10)

    async def run():
        reading = asyncio.ensure_future(uploads.read("ann", lambda _: others.wait(5), bytes(cache_http.LARGE + 1)))
        await asyncio.sleep(0)
        others.set()
        return await reading

    assert asyncio.run(run())


def takes_linear_time(work, sizes=(20_000, 160_000)):
    """Work for eight times as much takes about eight times as long, and not 64 times: at most 24 times."""
    spent = []
    for size in sizes:
        given = work(size)
        began = time.process_time()
        given()
        spent.append(time.process_time() - began)
    assert spent[1] < 24 * spent[0] + 0.05


def test_derivations_are_read_in_linear_time():
    """The time for a derivation grows with its length, however many strings or escapes it has."""
    def of(text, more=0):
        return lambda: drv.outputs(b'Derive([],[],["%s"],"","%s",[],[])' % (text, b"x" * more))

    sizes = 1_000, 8_000
    takes_linear_time(lambda count: of(b'","'.join([b"a"] * count), 1_000 * count), sizes)
    takes_linear_time(lambda count: of(b"a\\n" * count + b"x" * 1_000 * count), sizes)
    assert of(b'a\\"b","\\\\","')() == [], "escapes of quotes end no string"


def keeps(kept, roots):
    """The keepers of a graph with roots at these places."""
    return store_file.keepers(types.SimpleNamespace(roots=[types.SimpleNamespace(target=root) for root in roots]), kept)


def test_keepers_are_found_in_one_pass():
    """Who keeps what is found in one pass, also where objects keep one another."""
    def line(count):
        """A line of objects, each of which keeps its neighbours: a pass from its end brings a root on by one."""
        kept = {at: [to for to in (at - 1, at + 1) if 0 <= to < count] for at in reversed(range(count))}
        return lambda: keeps(kept, [0])

    takes_linear_time(line, (500, 4_000))
    takes_linear_time(lambda count: lambda: keeps({at: [at + 1] * (at + 1 < count) for at in range(count)}, [0]))
    for seed in range(300):
        rng = random.Random(seed)
        count = rng.randrange(1, 14)
        kept = {at: [rng.randrange(count) for _ in range(rng.randrange(4))] for at in range(count)}
        roots = [rng.randrange(count + 1) for _ in range(rng.randrange(5))]
        reached = [store_file.reach(kept, [root]) for root in roots]
        wanted = {at: sum(1 << bit for bit, reach in enumerate(reached) if at in reach) for at in kept}
        assert keeps(kept, roots) == wanted, ("keepers are those that reach", seed, kept, roots)


def test_an_overview_has_one_derivation_in_memory():
    """An overview has one derivation in memory at a time."""
    text = nar.archive(b'Derive([("out","/nix/store/%s-out","","")],[],[],"","",[],[])' % (b"1" * 32))
    together = []

    class Server:
        async def gets(self, _, route, bases):
            together.append(bases if route == "/nar/" else [])
            record = f"NarSize: {len(text)}\nReferences: \n".encode()
            for base in bases:
                yield base, types.SimpleNamespace(status=200, text=text if route == "/nar/" else record)

        async def ask(self, _, __, target):
            together.append([target])
            return types.SimpleNamespace(status=200 if "gone" not in target else 404, text=text)

    records = overview_source.Records(Server(), True)
    asyncio.run(records.read(["a.drv", "b.drv", "gone.drv", "c"], None, "/nix/store"))
    assert [len(bases) for bases in together if bases] == [1, 1, 1], "derivations are read one at a time"
    outputs = [records.objects[base].outputs for base in ("a.drv", "gone.drv", "c")]
    assert outputs == [{"out": f"{'1' * 32}-out"}, {}, {}], "and their outputs"


def test_few_records_of_a_store_are_in_memory():
    """All pointers, a sweep and an overview need the records of all objects, which are read a hundred at a time."""
    targets, bases = [], [f"{at:032}-x" for at in range(250)]
    server = cache_server.Server(None, 1)

    async def asks(requests):
        targets.append([request.target for request in requests])
        return [cache_server.Reply(200, "text/plain", request.target.encode()) for request in requests]

    async def read():
        server.asks, seen = asks, []
        async for base, answer in server.gets(cache_server.Caller("ann", None), "/info/", bases):
            assert answer.text == f"/info/{base}".encode()
            assert len(targets) == len(seen) // 100 + 1, "the next ones are asked for once these are used"
            seen.append(base)
        return seen

    assert asyncio.run(read()) == bases


def test_pointers_are_listed_once_at_a_time():
    """Each listing of all pointers has the names of all objects in memory, so those who ask at once take turns."""
    running, most = [], []

    class Lookup:
        server = None

        async def listed(self, _):
            running.append(1)
            most.append(len(running))
            await asyncio.sleep(0)
            return []

        async def among(self, *_):
            running.pop()
            return {}

    class Request(dict):
        transport = types.SimpleNamespace(is_closing=lambda: False)

    async def ask():
        large = cache_large.Large(None, Lookup(), 0, None, "/nix/store")
        large.passing = types.SimpleNamespace(sending=cache_http.Sending(1 << 20, 60))
        names = ["ann", "bob"] * 5
        return await asyncio.gather(*(large.listing(Request(caller=cache_server.Caller(name, None))) for name in names))

    assert [answer.status for answer in asyncio.run(ask())] == [200] * 10
    assert most == [1] * 10


def test_a_long_listing_of_pointers_has_room():
    """As other long replies have it, since a client may take it slowly."""
    pointer, had = pointers.Pointer("/nix/store/x", bytes(32), 1, bytes(32), 1), []

    class Lookup:
        server = None

        async def listed(self, _):
            return []

        async def among(self, *_):
            return {str(at): pointer for at in range(1000)}

    class Request(dict):
        transport = types.SimpleNamespace(is_closing=lambda: False)

    class Sending(cache_http.Sending):
        async def send(self, request, answer):
            had.append((self.bytes, len(answer.body)))
            return answer

    large = cache_large.Large(None, Lookup(), 0, None, "/nix/store")
    large.passing = types.SimpleNamespace(sending=Sending(1 << 20, 60))
    asyncio.run(large.listing(Request(caller=cache_server.Caller("ann", None))))
    assert had[0][0] == had[0][1] > cache_http.LARGE


def test_a_large_import_is_in_memory_once():
    """It becomes a blob piece by piece, and what isn't large is left to the store."""
    archive, came = nar.archive(bytes(range(256)) * 4_000), []

    async def import_pieces(_, head, given, size):
        came.append((head, [piece async for piece in given], size))
        return "done"

    async def run(least):
        large = cache_large.Large(None, types.SimpleNamespace(server=None), least, None, "/nix/store")
        large.import_pieces = import_pieces
        return await large.import_whole(None, "ann", b"path: it\n\n" + archive)

    assert (asyncio.run(run(len(archive))), came) == (None, [])
    assert asyncio.run(run(len(archive) - 1)) == "done"
    (head, pieces, size), = came
    assert (head, b"".join(pieces), size) == (b"path: it\n\n", archive, 10 + len(archive))
    assert max(map(len, pieces)) == cache_http.PIECE


def test_a_thread_that_reads_something_long_leaves_others_their_turns(monkeypatch):
    """It would take five milliseconds of each step of all others."""
    said = []
    monkeypatch.setattr("sys.setswitchinterval", said.append)
    with pytest.raises(SystemExit):
        cache.main(["--user", "ann", "--config", "/nowhere"])
    assert said == [0.0005]


def test_a_sweep_that_nobody_reads_ends():
    """Others wait for their turns."""
    swept = cache_sweep.Sweep(None, None, None, 0, 0.05, "none")
    answer = types.SimpleNamespace(write=lambda _: asyncio.sleep(60))
    with pytest.raises(TimeoutError):
        asyncio.run(swept.send_line({}, answer, "line"))


def test_the_page_of_the_last_day_is_made_once_for_many(folder, monkeypatch):
    """Whoever asks for the page of the last day again and again has it made once a second at most."""
    made, make = [], overview_day.page
    monkeypatch.setattr(overview_day, "page", lambda *words: made.append(1) or make(*words))
    said, waiting = types.SimpleNamespace(db=None, backup_state=None), types.SimpleNamespace(folder=folder)
    server = types.SimpleNamespace(turns=types.SimpleNamespace(waiting=lambda: 0))
    watched = cache_watched.Watched(said, server, waiting, cache_limit.Limit(None, None), "/nix/store")
    began = time.monotonic()
    replies = [asyncio.run(watched.page(None)).status for _ in range(100)]
    assert replies == [200] * 100
    assert len(made) <= 1 + time.monotonic() - began


@pytest.mark.needs("python3-prometheus_client")
def test_between_two_pages_of_figures_others_go_on():
    """Whoever asks for the figures many times at once has others served in between."""
    metrics, request = cache_metrics.Metrics(), {"caller": types.SimpleNamespace(user="ann")}
    left = []

    async def page():
        await metrics.page(request)
        left.pop()

    async def other():
        """Counts how many steps of another one come before the last page."""
        left.extend(range(30))
        tasks, steps = [asyncio.create_task(page()) for _ in range(30)], 0
        while left:
            await asyncio.sleep(0)
            steps += 1
        await asyncio.gather(*tasks)
        return steps

    assert asyncio.run(other()) >= 29


def test_an_end_waits_for_no_reader():
    """An end waits for no reader for longer than two looks, however fast it takes a reply of any size; for a fast
    upload, and for one whom the server still answers, it does."""
    closed = []

    class Request(dict):
        def __init__(self, name, **more):
            super().__init__(more)
            self.transport = types.SimpleNamespace(abort=lambda: closed.append(name), is_closing=lambda: False)
            self.content = types.SimpleNamespace(total_bytes=0)

    reader, upload = Request("reader", waits=True, sent=0), Request("upload", waits=True)
    ending = cache_ending.Ending()
    ending.running = dict(enumerate([reader, upload, Request("asked", waits=False)]))

    async def run():
        cutting = asyncio.ensure_future(ending.cut_slow())
        for _ in range(35):
            await asyncio.sleep(0.02)
            reader["sent"] += 1 << 30
            upload.content.total_bytes += 1 << 30
            if len(closed) > 1:
                break
        cutting.cancel()

    look, cache_ending.LOOK = cache_ending.LOOK, 0.2
    try:
        asyncio.run(run())
    finally:
        cache_ending.LOOK = look
    assert {*closed} == {"reader"}, "a fast reader is cut off, and nobody else"


def test_an_end_waits_for_no_client_that_has_left(monkeypatch):
    """Nor for thousands of requests of one that leaves each time."""
    monkeypatch.setattr(cache_ending, "LINGER", 0)
    monkeypatch.setattr(cache_ending, "FINISH", 5)
    ending = cache_ending.Ending()
    ending.is_idle.clear()
    ending.running = dict(enumerate(Request("ann", True) for _ in range(4_000)))
    began = time.monotonic()
    asyncio.run(ending.begin(None))
    assert time.monotonic() - began < 5


@pytest.mark.needs("python3-zstandard")
def test_a_head_byte_by_byte():
    """The head of an import that comes byte by byte is looked at once."""
    def head(count):
        async def given():
            for _ in range(count):
                yield b"x"
            yield b"\n"
            yield b"\nrest"

        return lambda: heads.append(asyncio.run(cache_large.head_of(given())))

    heads = []
    takes_linear_time(head)
    assert [(len(data), rest) for data, rest in heads] == [(20_002, b"rest"), (160_002, b"rest")]


def test_a_deletion_takes_its_own_rows_of_a_list(folder):
    """What a deletion of one path takes of the list of shares doesn't grow with the list."""
    steps = []
    for count in (100, 10_000):
        shares = cache_shares.Shares(f"{folder}/{count}.db", 1 << 40)
        rows = [(f"{at:032}-x", f"user{at % 2}", 10) for at in range(count)]
        shares.conn.executemany("INSERT INTO added VALUES (?, ?, ?)", rows)
        shares.count()
        shares.conn.set_progress_handler(lambda: steps.append(count), 1)
        shares.deleted(f"/nix/store/{3:032}-x\n/nix/store/{count:032}-x\nfreed 2 paths 20 bytes\n".encode())
        shares.conn.set_progress_handler(None, 1)
        assert shares.used == {"user0": count * 5, "user1": count * 5 - 10}
        shares.count()
        assert shares.used == {"user0": count * 5, "user1": count * 5 - 10}, "as the list itself says"
    assert steps.count(10_000) < 2 * steps.count(100), "steps of SQLite"


def by_zstd(data, window):
    """Data as one frame of zstd, which asks for 1 << `window` bytes of memory."""
    import zstandard

    given = zstandard.ZstdCompressionParameters.from_level(1, window_log=window)
    made = zstandard.ZstdCompressor(compression_params=given).compressobj()
    return made.compress(data) + made.flush()


@pytest.mark.needs("python3-zstandard")
def test_readers_have_the_memory_in_which_an_archive_is_unpacked(folder):
    """What an archive asks for while it is unpacked counts as what its reader has. Thus the readers of one that asks
    for much don't fill the memory. What is sent as it is takes no such memory."""
    from nixkeep_tools import blobs_folder, cache_blobs, pointers

    sizes, place = {}, blobs_folder.Folder(f"{folder}/blobs")
    place.begin()

    class Sending:
        idle = 60

        async def take(self, _, size):
            sizes[name, form] = size
            raise ConnectionResetError

    kept = cache_blobs.Blobs(place, 1, Sending())
    client = types.SimpleNamespace(is_closing=lambda: False)
    request = types.SimpleNamespace(if_none_match=(), headers={}, method="GET", transport=client)
    for window in (20, 25):
        archive = nar.archive(bytes(window) * 100_000)
        data, digest = by_zstd(archive, window), nar.sha256(archive)
        name = nar.base32(digest)
        with open(part := place.part(), "wb") as out:
            out.write(data)
        assert place.put(part, name)
        pointer = pointers.Pointer("/nix/store/x", digest, len(archive), nar.sha256(data), len(data))
        for form in ("none", "zstd"):
            with pytest.raises(ConnectionResetError):
                asyncio.run(kept.send(request, pointer, form))
    plain, *others = sorted(sizes.values())
    assert plain == cache_blobs.HELD and others == [plain, plain + (1 << 20), plain + (32 << 20)]


@pytest.mark.needs("python3-zstandard")
def test_dear_parts_of_archives_leave_some_for_others(folder):
    """A reply may have one byte from the end of an archive, all of which has to be unpacked for it, or an archive that
    has to be compressed by xz. A user has two of these at once, and two are left for users who have none."""
    from nixkeep_tools import blobs_folder, cache_blobs, pointers

    running, most, order = [], [], []

    class Request(dict):
        method, if_none_match, transport = "GET", None, types.SimpleNamespace(is_closing=lambda: False)

        def __init__(self, user, **headers):
            super().__init__(caller=cache_server.Caller(user, None))
            self.headers = headers

    async def streamed(request, *_):
        user = request["caller"].user
        running.append(user)
        dear = [name for name in running if name != "fay"]
        most.append((dear.count(user), len(dear)))
        await asyncio.sleep(0.05)
        running.remove(user)
        order.append(user)

    async def run():
        kept = cache_blobs.Blobs(blobs_folder.Folder(f"{folder}/blobs"), 1, None)
        kept.streamed, pointer = streamed, pointers.Pointer("/nix/store/x", bytes(32), 1 << 30, bytes(32), 1 << 20)
        large = cache_large.Large(kept, types.SimpleNamespace(server=None, at=at), 0, None, "/nix/store")
        named.append(pointer)
        part = {"range": "bytes=-1"}
        sends = [kept.send(Request("ann", **part), pointer, "none") for _ in range(4)]
        sends += [large.uploaded(Request("ann"), "x.nar.xz", "x") for _ in range(4)]
        others = ["bob", "carl", "dora", "eve"]
        sends += [kept.send(Request(user, **part), pointer, "none") for user in others for _ in range(2)]
        sends += [kept.send(Request("fay"), pointer, form) for form in ("none", "zstd")]
        sends += [kept.send(Request("fay", **part), pointer, "zstd") for _ in range(4)]
        await asyncio.gather(*sends)

    named = []

    async def at(*_):
        return None, named[0]

    asyncio.run(run())
    assert [max(counts) for counts in zip(*most)] == [2, 6], "of one user two at once, and of all six"
    first = ["ann", "ann", "bob", "bob", "carl", "dora", *["fay"] * 6]
    assert sorted(order[:12]) == first, "others come before the many of one, and what isn't dear is sent at once"
    assert len(order) == 22


@pytest.mark.needs("python3-zstandard")
def test_an_upload_that_is_broken_off_is_unpacked_no_further(folder):
    """A few bytes may unpack to very many, and whoever has left waits for none of them."""
    class Broken(io.BytesIO):
        is_broken = True

    data = by_zstd(nar.archive(bytes(8 << 20)), 20)
    with open(f"{folder}/out", "wb") as out:
        assert blob_packing.packed(io.BytesIO(data), "zstd", out, 1).nar_size > 8 << 20
        with pytest.raises(EOFError):
            blob_packing.packed(Broken(data), "zstd", out, 1)


@pytest.mark.needs("python3-zstandard")
def test_the_last_bytes_of_an_upload_are_unpacked_in_time(monkeypatch):
    """An upload that has come, and is unpacked for longer than a proxy waits, is refused, and its work ends."""
    from nixkeep_tools import cache_blobs

    ended = threading.Event()

    def work(feed, *_):
        for _ in range(300):
            if getattr(feed, "is_broken", False):
                ended.set()
                return
            time.sleep(0.1)

    async def given():
        yield b"x"

    monkeypatch.setattr(cache_blobs, "LAST_BYTES", 0.2, raising=False)
    with pytest.raises(cache_records.Bad, match="longer than 0.2 seconds"):
        asyncio.run(cache_blobs.Blobs(None, 1, None).fed(given(), work, "zstd", None))
    assert ended.is_set()


@pytest.mark.needs("python3-zstandard")
@pytest.mark.parametrize("windows, is_taken", [([25], True), ([20, 23], True), ([25, 25, 20], True), ([26], False),
                                               ([20, 24], False), ([24, 25], False)])
def test_what_frames_may_ask_for(windows, is_taken):
    """A file compressed by zstd asks for 32 MiB of memory at most, and its later frames for no more than the first one
    or 8 MiB."""
    data = b"".join(by_zstd(b"x" * 100, window) for window in windows)
    work = lambda: b"".join(blob_packing.of_zstd(io.BytesIO(data)))
    if is_taken:
        assert work() == b"x" * 100 * len(windows)
    else:
        with pytest.raises(cache_records.Bad, match="memory"):
            work()


@pytest.mark.parametrize("mebibytes, is_taken", [(64, True), (96, False)])
def test_what_xz_may_ask_for(mebibytes, is_taken):
    """A large file compressed by xz asks for no more memory than level 9 does."""
    filters = [{"id": lzma.FILTER_LZMA2, "preset": 0, "dict_size": mebibytes << 20}]
    data = lzma.compress(b"x" * 100, filters=filters)
    work = lambda: b"".join(blob_packing.of_xz(io.BytesIO(data)))
    if is_taken:
        assert work() == b"x" * 100
    else:
        with pytest.raises(cache_records.Bad, match="emory"):
            work()


def test_users_take_turns_at_sweeps():
    """The many sweeps of one user delay that of another by the one that is made, and who has left gets none."""
    swept, order = cache_sweep.Sweep(None, None, None, 0, 1, "none"), []

    async def lines(caller, *_):
        order.append(caller.user)
        await asyncio.sleep(0.02)
        yield "swept"

    async def empty(*_):
        return b""

    class Request(dict):
        def __init__(self, user, is_closing=False):
            super().__init__(caller=types.SimpleNamespace(user=user))
            self.transport = types.SimpleNamespace(is_closing=lambda: is_closing, abort=lambda: None)

    async def sweep(request):
        with contextlib.suppress(AttributeError, cache_room.Left):
            # (no reply can be sent to these)
            await swept.request(request)

    async def run():
        many = [asyncio.ensure_future(sweep(Request("ann"))) for _ in range(9)]
        many += [asyncio.ensure_future(sweep(Request("carl", True))) for _ in range(9)]
        await asyncio.sleep(0)
        await asyncio.gather(sweep(Request("bob")), *many)

    kept, cache_sweep.body, swept.lines = cache_sweep.body, empty, lines
    try:
        asyncio.run(run())
    finally:
        cache_sweep.body = kept
    assert order.index("bob") <= 2, ("another user's sweep comes before the many of one", order)
    assert order.count("carl") == 0, "none is made for a client that has left"


def test_a_copy_of_many_references(folder):
    """The test of a copy takes little memory for each reference of its objects, of which a store may have millions."""
    peaks = []
    for count in (0, 300):
        file, made = f"{folder}/references{count}.db", []
        with contextlib.closing(sqlite3.connect(file)) as conn, conn:
            stores.put_tables(conn, 3)
            for at in range(600):
                made.append(stores.put_text(conn, "it", b"%d" % at, sorted(made[-count:]) if count else ()))
        code = f"import sys; sys.path.insert(0, {parts.TOOLS!r})\nfrom nixkeep_tools import backup_file\n"
        for given in ([f"{parts.TOOLS}/nixkeep-explain", file], ["-c", f"{code}backup_file.rows({file!r})"]):
            ran = subprocess.run(["/usr/bin/python3", "-B", "-c", PEAK, *given], capture_output=True, text=True)
            peaks.append(int(ran.stdout.split()[-1]) if ran.returncode == 0 else ran)
    each = [1024 * (peaks[at + 2] - peaks[at]) / (600 * 300 - 300 * 301 / 2) for at in (0, 1)]
    assert max(each) < 500, ("bytes for each reference", peaks, each)
