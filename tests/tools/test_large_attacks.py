"""Tests of nixkeep-cache against who may write its blobs, users who take what others need, and disks that fail."""
import asyncio
import contextlib
import hashlib
import http.client
import os
import random
import signal
import socket
import sqlite3
import subprocess
import threading
import time
import types
from concurrent.futures import ThreadPoolExecutor
from pathlib import Path

import pytest

pytest.importorskip("aiohttp", reason="needs python3-aiohttp (Debian: python3-aiohttp)")
import parts
from nixkeep_dev.build.program import HERE
from nixkeep_dev.testing import nar, stores
from nixkeep_tools import cache_blobs, cache_http, cache_overview, cache_records, cache_server, cache_shares
from nixkeep_tools import cache_waiting
from parts import body, some_path
from tests.tools import cached, large, servers
from tests.tools.large import archive_of, is_sound, send_half

pytestmark = pytest.mark.needs("curl", "python3-aiohttp", "python3-zstandard")
TRUSTED = 'allowed-users = ["ann", "bob"]\ntrusted-users = ["build", "carl", "dora"]\n'


class Team(large.Team):
    """A store with two trusted users, whose blobs a sweep deletes at once."""

    def __init__(self, program, folder, *more, **how):
        super().__init__(program, folder, "--grace", "0", *more, config=TRUSTED, **how)

    def import_(self, user, archive, *more):
        given = body(("path", self.path(archive)), ("nar-hash", nar.nar_hash(archive)), payload=archive)
        return self(user, "POST", "/import", given, *more)

    def path(self, archive):
        """Where an archive is imported."""
        return some_path(random.Random(hashlib.sha256(archive).digest()), "it")


@pytest.fixture
def team_of(program, folder):
    """Makes a team in the folder, with further options."""
    return lambda *more, **how: Team(program, folder, *more, **how)


@pytest.fixture
def rng():
    return random.Random(8)


# ---- the folder of the blobs


def test_what_a_terminal_obeys_of_a_hostile_server(folder):
    """Paths that a server lists are printed without it."""
    digest = "sha256:" + "0" * 52
    lines = [f"{name} {digest} 1 {digest} 1\n" for name in ("\x1b]0;title\x07", "\x1b[2J", "\x9b2J", "\u202eright")]
    with servers.answering(lambda *_: (200, "text/plain", "".join(lines).encode())) as url:
        words = [f"{HERE}/tools/nixkeep-cache", "verify", "--server", url, "--user", "ann", "--blobs", folder]
        status, output, errors = servers.ran(words)
    assert (status, errors) == (1, b"") and b"missing " in output and b"\\x1b[2J" in output
    assert not output.translate(None, bytes([10, *range(32, 127)]))


def starts(team):
    """Whether nixkeep-cache starts, and what it says. It is ended."""
    with open(f"{team.folder}/start", "wb") as log:
        words = [word for word in team.words if word != "--proxied"] + [
            "--user", "ann", "--listen", f"{team.folder}/other"]
        running = subprocess.Popen(words, stdin=subprocess.DEVNULL, stdout=log, stderr=log)
    parts.until("it starts or ends", lambda: parts.is_open(f"{team.folder}/other") or running.poll() is not None)
    has_started = running.poll() is None
    running.send_signal(signal.SIGTERM)
    running.wait()
    return has_started, Path(f"{team.folder}/start").read_text()


def test_links_in_the_folder_of_the_blobs(team_of):
    """Whoever may write the folder of the blobs leads nixkeep-cache to no other file."""
    with team_of() as team:
        assert team("ann", "POST", "/text", cached.text("kept"))[0] == 200, "an object"
        victim = Path(f"{team.folder}/victim")
        victim.write_text("precious")
        for made in (os.symlink, os.link):
            made(victim, f"{team.blobs}/incoming/answer")
            assert team("ann", "GET", "/health")[0] == 200, "health is answered"
            assert victim.read_text() == "precious", "and cuts off no file to which a link leads"
            parts.until("it is asked again", lambda: not time.sleep(2.1))
    lock, store, incoming = f"{team.blobs}/lock", f"{team.folder}/store.db", f"{team.blobs}/incoming"
    before = Path(store).read_bytes()
    for made in (os.symlink, os.link):
        os.unlink(lock)
        made(store, lock)
        has_started = starts(team)[0]
        assert Path(store).read_bytes()[:16] == before[:16], "the lock cuts off no file to which a link leads"
        assert made == os.link or not has_started, "nor is a link locked"
    os.unlink(lock)
    os.mkdir(other := f"{team.folder}/others")
    Path(other, "precious").touch()
    os.rmdir(incoming)
    os.symlink(other, incoming)
    has_started, said = starts(team)
    assert not has_started and "Not a directory" in said, ("a link in the place of incoming is a line", said)
    assert os.listdir(other) == ["precious"], "and deletes nothing elsewhere"
    os.unlink(incoming)
    with team:
        assert len(team("ann", "GET", "/paths")[1].split()) == 1, "the store is what it was"


def test_what_is_no_file_in_the_place_of_a_blob(rng, team_of, folder):
    """What isn't a file in the place of a blob holds up nobody, and a sweep goes on after it."""
    with team_of() as team:
        archive = archive_of(rng)
        assert team.import_("build", archive)[0] == 200, "an archive is there"
        file = team.file(archive)
        file.unlink()
        os.mkfifo(file)
        target = f"/nar/{team.path(archive)[11:]}"
        assert team("ann", "GET", target, None, "--max-time", "60")[0] == 502, "a pipe is no blob"
        assert team.import_("build", archive, "--max-time", "60")[0] == 200, "an upload replaces it"
        is_sound(team)
        file.symlink_to(file.rename(f"{folder}/elsewhere"))
        status, lines = team.verify()
        named = any(line.startswith(f"damaged {file.name[:52]} ") for line in lines)
        assert status == 1 and named and lines[-1].startswith("verified "), (
            "verify names a link, also one to the bytes of the blob", lines)
        file.unlink()
        unused = sorted((archive_of(rng) for _ in range(5)), key=lambda other: team.file(other).name)
        assert {team.put(other)[0] for other in unused} == {201}, "archives whose records never come"
        team.end()
        team.start()
        team.file(unused[1]).unlink()
        team.file(unused[1]).mkdir()
        status, lines = team.tool("sweep")
        words = [line.split()[0] for line in lines]
        assert (status, words) == (1, ["deleted", "failed", "deleted", "deleted", "deleted", "swept"]), (
            "a sweep names what it can't delete, and deletes the others")
        team.file(unused[1]).rmdir()
        assert team.tool("sweep")[0] == 0, "then it has nothing left"


@pytest.mark.parametrize("aside", ["aside-2026-01-02T03-04-05Z", "aside"])
def test_a_sweep_after_a_restore(aside, rng, team_of):
    """The files that a restore has moved aside are the way back, so no sweep deletes what they may name. OPERATING has
    the first name for restores with the units, and the other one for those by hand."""
    archive = archive_of(rng)
    with team_of() as team:
        assert team.import_("build", archive)[0] == 200
        team.end()
        os.mkdir(f"{team.folder}/{aside}")
        for name in ("store.db", "store.db-wal"):
            os.rename(f"{team.folder}/{name}", f"{team.folder}/{aside}/{name}")
        team.start()
        said = f"failed {aside}: a restore has left this folder, which may name any blob: delete it first"
        for words in ([], ["--dry-run"], ["--grace", "1"]):
            assert team.tool("sweep", *words) == (1, [said, "swept 0 blobs 0 bytes, kept 1"])
        team.end()
        for name in ("store.db", "store.db-wal"):
            os.rename(f"{team.folder}/{aside}/{name}", f"{team.folder}/{name}")
        os.rmdir(f"{team.folder}/{aside}")
        team.start()
        assert team("ann", "GET", f"/nar/{team.path(archive)[11:]}") == (200, archive), "the way back has all"
        team("build", "DELETE", "/temp/build/4194304")
        assert team("build", "POST", "/delete", body(("path", team.path(archive))))[0] == 200
        assert team.tool("sweep")[1][-1].startswith("swept 1 blob "), "and sweeps go on"


def test_uploads_sweeps_collections_and_kills_at_once(team_of):
    """Uploads of the same archives, sweeps without a time of grace, collections and `kill -9` at once: each object that
    is there is whole."""
    with team_of("--session-seconds", "1") as team:
        archives, stop, replies = [archive_of(random.Random(at), 150_000) for at in range(5)], threading.Event(), []

        def upload(user, seed):
            rng = random.Random(seed)
            while not stop.is_set():
                archive, path = rng.choice(archives), some_path(rng, "race")
                replies.append(team.upload(path, archive, user=user)[0])
                if replies[-1] == 200:
                    root = body(("path", path))
                    replies.append(team(user, "POST", f"/root/user/{user}/{rng.randrange(5)}", root)[0])

        def ask(target):
            while not stop.is_set():
                replies.append(team("build", "POST", target, b"" if target == "/collect" else b"\n")[0])

        tasks = [(upload, "build", 1), (upload, "carl", 2), (ask, "/sweep"), (ask, "/sweep"), (ask, "/collect")]
        with ThreadPoolExecutor(len(tasks)) as pool, contextlib.ExitStack() as at_the_end:
            at_the_end.callback(stop.set)
            for task in tasks:
                pool.submit(*task)
            for kill in (team.kill_server, lambda: team.end(signal.SIGKILL), team.kill_server):
                before = len(replies)
                parts.until("forty replies", lambda: len(replies) >= before + 40)
                kill()
                if not team.running:
                    team.start()
        assert replies.count(200) > 40, ("uploads were done meanwhile", replies)
        is_sound(team)
        is_there = [team("ann", "GET", f"/nar/{word[11:]}")[1] in archives
                    for word in team("ann", "GET", "/paths")[1].decode().split()]
        assert is_there and all(is_there), ("and each object is read", is_there)


# ---- one reply to each request


def replies_to(team, *targets):
    """What comes to requests on one connection: each status and text."""
    with contextlib.closing(http.client.HTTPConnection("red")) as connection, socket.socket(socket.AF_UNIX) as client:
        client.connect(team.place)
        connection.sock = client
        answers = []
        for target in targets:
            connection.request("GET", target, headers={"store-user": "ann"})
            reply = connection.getresponse()
            answers.append((reply.status, reply.read().decode()))
        return answers


def test_a_long_record_of_a_large_archive(rng, team_of, folder):
    """It has what the pointer names, and whoever asks next on its connection gets a reply of their own."""
    with contextlib.closing(sqlite3.connect(f"{folder}/store.db")) as conn, conn:
        stores.put_tables(conn, 3)
        named = [stores.put_text(conn, f"{at:03}{'n' * 200}", b"x") for at in range(280)]
    with team_of() as team:
        archive, path = archive_of(rng), some_path(rng, "wide")
        lines = [("path", path), ("nar-hash", nar.nar_hash(archive)), *(("reference", base) for base in named)]
        assert team("build", "POST", "/import", body(*lines, payload=archive))[0] == 200
        (status, record), *others = replies_to(team, f"/info/{path[11:]}", "/who", f"/{path[11:43]}.narinfo")
        assert status == 200 and len(record) > cache_http.LARGE
        for text in (record, others[1][1]):
            assert f"\nNarHash: {nar.nar_hash(archive)}\nNarSize: {len(archive)}\n" in text
            assert f"\nReferences: {' '.join(sorted(named))}\n" in text
        assert others[0] == (200, "class: allowed\nconnect: yes\n")
        refused = team("ann", "GET", f"/info/{path[11:]}", b"x")
        assert refused == (400, b"refused: 41 bad-body-head\n"), "as by the server"


def test_no_reply_follows_one_that_has_begun(folder):
    """The connection ends in its place."""
    from aiohttp import web

    async def answer(request):
        begun = web.StreamResponse(headers={"content-length": "3"})
        await begun.prepare(request)
        await begun.write(b"all")
        return cache_http.reply(503, "failed\n")

    async def run():
        made = web.Application(middlewares=[cache_http.alone])
        made.router.add_get("/", answer)
        made.on_response_prepare.append(cache_http.begins)
        runner = web.AppRunner(made)
        await runner.setup()
        await web.UnixSite(runner, f"{folder}/one").start()
        reader, writer = await asyncio.open_unix_connection(f"{folder}/one")
        writer.write(2 * b"GET / HTTP/1.1\r\nhost: red\r\n\r\n")
        try:
            return await asyncio.wait_for(reader.read(), 30)
        finally:
            writer.close()
            await runner.cleanup()

    came = asyncio.run(run())
    assert came.count(b"HTTP/1.1") <= 1 and b"failed" not in came


# ---- what others need


@pytest.mark.needs("prlimit")
def test_requests_that_never_end(team_of):
    """One user's requests that never end leave connections for others."""
    with team_of(before=[parts.place_of("prlimit"), "--nofile=200"]) as team, contextlib.ExitStack() as held:
        statuses = []
        for _ in range(60):
            client = socket.socket(socket.AF_UNIX)
            held.enter_context(client)
            client.connect(team.place)
            client.sendall(b"POST /text HTTP/1.1\r\nhost: x\r\nstore-user: ann\r\ncontent-length: 60000\r\n\r\nname")
        client.settimeout(30)
        with contextlib.suppress(TimeoutError):
            statuses.append(client.recv(1000).partition(b"\r\n")[0])
        assert statuses == [b"HTTP/1.1 429 Too Many Requests"], "one user's sixtieth request at once is refused"
        assert team("bob", "GET", "/paths", None, "--max-time", "30")[0] == 200, "and another user is answered"


def test_slow_uploads(rng, team_of):
    """The slow uploads of a user, and of two, hold up no upload of another one."""
    with team_of() as team, contextlib.ExitStack() as held:
        for user, other, count in (("build", "carl", 2), ("carl", "dora", 3)):
            for _ in range(12):
                archive = archive_of(rng)
                name = nar.digest(archive)
                half = send_half(team, "PUT", f"/nar/{name}.nar", archive[:1000], len(archive), user)
                held.enter_context(half)
            parts.until("uploads come", lambda: len(team.incoming()) >= count)
            came = team.import_(other, archive_of(rng), "--max-time", "30")
            assert came[0] == 200, f"while {count} uploads don't come, one of another user is done"


def test_shares(rng, team_of):
    """A share has what comes at once, and blobs without a record, also after a restart."""
    with team_of("--most-bytes-each", "450000") as team:
        with ThreadPoolExecutor(20) as pool:
            adds = [*pool.map(lambda at: team("ann", "POST", "/text", cached.text(f"t{at}", bytes(100_000)))[0],
                              range(20))]
        assert (adds.count(200), {*adds}) == (4, {200, 507}), "of adds at once no more are done than the share has"
        first, second = archive_of(rng, 300_000), archive_of(rng, 300_000)
        with send_half(team, "PUT", f"/nar/{nar.digest(first)}.nar", first[:1000], len(first)):
            parts.until("an upload comes", team.incoming)
            assert team.put(second)[0] == 507, "what comes counts before it has come"
        parts.until("nothing comes", lambda: not team.incoming())
        assert team.put(first)[0] == 201, "an archive without its record"
        assert team.put(second)[0] == 507, "counts for its user"
        team.end()
        team.start()
        assert (team.put(second)[0], team.import_("build", second)[0]) == (507, 507), "also after a restart"
        assert not team.file(second).exists(), "and what is refused is no blob"
        assert team.import_("carl", second)[0] == 200, "another user has a share"
        assert team.record(some_path(rng, "first"), first)[0] == 200, "its record counts no second time"
        assert team.put(archive_of(rng, 300_000))[0] == 507, "the object counts"
        for user in ("build", "carl"):
            team(user, "DELETE", f"/temp/{user}/4194304")
        assert team("build", "POST", "/collect")[0] == 200, "once it is collected"
        third = archive_of(rng, 300_000)
        assert team.put(third)[0] == 201, "there is room"
        team.end()
        team.start()
        assert team.tool("sweep")[0] == 0, "a sweep deletes what has no record"
        assert team.put(archive_of(rng, 300_000))[0] == 201, "and then it counts no more"


def test_an_upload_that_takes_too_long(folder):
    """An upload that takes longer than archives may wait is refused by name, and leaves nothing."""
    waiting = cache_waiting.Waiting(f"{folder}/late", 10, 1000, 0.2)

    async def pieces():
        yield b"x"
        await asyncio.sleep(0.5)
        waiting.expire()
        yield b"y"

    with pytest.raises(cache_records.Bad, match=f"^nar/{'0' * 52}.nar took longer than 0 seconds$"):
        asyncio.run(waiting.take("ann", f"{'0' * 52}.nar", 2, pieces()))
    assert (os.listdir(f"{folder}/late"), waiting.files) == ([], {}), "leaves nothing"


def test_many_roots():
    """The overview of a store with many roots takes no more memory than nixkeep-cache may have."""
    overviews = cache_overview.Overviews(None, "/nix/store", (False, True), None, None)
    counts = {"ann": (20_000, 10_000), "bob": (20_000, 10_000), "carl": (100_000, 10_738)}

    async def store(caller):
        objects, roots = counts[caller.user]
        return types.SimpleNamespace(objects=range(objects), roots=range(roots)), set()

    async def made(*_):
        return "figures"

    async def run():
        overviews.records, overviews.apart = types.SimpleNamespace(store=store), made
        replies = []
        for user in counts:
            try:
                figures = await overviews.figures(cache_server.Caller(user, None))
                replies.append((figures, [caller.user for caller in overviews.made]))
            except cache_http.Answered as answered:
                replies.append((answered.reply.status, answered.reply.text))
        return replies

    *figures, refused = asyncio.run(run())
    assert figures == [("figures", ["ann"]), ("figures", ["bob"])], "large figures of one user are kept at a time"
    text = "the overview of 100000 objects and 10738 roots takes too much memory: drop roots\n"
    assert refused == (503, text), "larger ones are refused"


@pytest.mark.needs("python3-jinja2")
def test_many_pages(monkeypatch):
    """The many overviews of one user delay that of another by the page that is being made."""
    overviews = cache_overview.Overviews(None, "/nix/store", (False, True), cache_http.Sending(1 << 20, 1), "red")
    order = []

    async def figures(_):
        return None

    async def ask(user):
        caller = types.SimpleNamespace(user=user)
        await overviews.page({"caller": caller, "room": None}, None)
        order.append(user)

    async def run():
        overviews.figures = figures
        many = [asyncio.ensure_future(ask("ann")) for _ in range(20)]
        await asyncio.sleep(0.2)
        await asyncio.gather(ask("bob"), *many)

    def page(*_):
        time.sleep(0.1)
        return "page"

    monkeypatch.setattr(cache_overview.overview_page, "page", page)
    asyncio.run(run())
    assert order.index("bob") <= 5, "another user's page comes before the many of one"


def test_room_for_others(folder):
    """What one user, or two, upload without records leaves room for others. What is in the store makes room."""
    waiting = cache_waiting.Waiting(f"{folder}/rooms", 16, 10_000, 3600)

    async def pieces(data):
        yield data

    def put(owner, number):
        data = number.to_bytes(8, "little")
        name = f"{nar.digest(data)}.nar"
        asyncio.run(waiting.take(owner, name, len(data), pieces(data)))
        return name

    def taken(owner, first):
        names = []
        with contextlib.suppress(cache_waiting.Full):
            for at in range(20):
                names.append(put(owner, first + at))
        return names

    names = {owner: taken(owner, 100 * at) for at, owner in enumerate(("ann", "bob", "carl"))}
    assert [len(value) for value in names.values()] == [8, 4, 2], "each user has half of what the others leave"
    for name in names["ann"]:
        waiting.use(name)
    assert len(taken("dora", 1000)) == 5, "what is in the store makes room for another user"


def test_who_relied_on_a_blob():
    """Who relied on a blob is forgotten once no sweep asks for it."""
    kept = cache_blobs.Blobs.__new__(cache_blobs.Blobs)
    kept.relied = {"old": 99, "new": 100}
    kept.forget(100)
    assert kept.relied == {"new": 100}, "who relied on a blob before is forgotten"


# ---- a disk that fails


def test_a_list_that_cannot_be_written(folder, monkeypatch):
    """A list that can't be written is a line. What was done is answered so, and is counted right later."""
    lists = cache_shares.Shares(f"{folder}/unwritten.db", 1000)
    said = []
    monkeypatch.setattr(cache_shares.cache_lists, "warn", said.append)
    lists.added("ann", b"/nix/store/a\n", 300)
    lists.conn.execute("PRAGMA query_only = 1")
    lists.added("ann", b"/nix/store/b\n", 300)
    lists.deleted(b"/nix/store/a\nfreed 1 paths 300 bytes\n")
    lists.listed([])
    assert (lists.used["ann"], len(said)) == (300, 3), "a share that can't be written stays as it was"
    lists.conn.execute("PRAGMA query_only = 0")
    lists.listed([])
    assert lists.used["ann"] == 0, "and is right after the next listing"
    lists.conn.close()
