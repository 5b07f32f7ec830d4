"""Tests of nixkeep-cache and its server: a server as a child, servers that die, the limit of the file, sessions."""
import asyncio
import contextlib
import fcntl
import gc
import os
import random
import re
import shutil
import signal
import socket
import sqlite3
import subprocess
import sys
import termios
import threading
import time
import tracemalloc
import zlib
from concurrent.futures import ThreadPoolExecutor
from pathlib import Path
from unittest import mock

import pytest

import parts
from nixkeep_dev.testing import nar
from nixkeep_tools import cache_child, cache_limit, cache_lists, cache_server, cache_sessions, cache_shares, store_size
from nixkeep_tools.cache_turns import Turns
from parts import body, curl, some_path
from tests.tools.cached import ask, file_name, record, text

pytestmark = pytest.mark.needs("curl", "python3-aiohttp")


def test_a_server_that_is_a_child(unit):
    """The server is a child: it serves, it is started again, and it ends with the cache."""
    with unit() as store:
        add = lambda name: ask(store.place, "ann", "POST", "/text", text(name))[0]
        assert add("one") == 200, "an add to a server that is a child"
        pid = store.server()
        files = [os.readlink(path) for path in Path(f"/proc/{pid}/fd").iterdir()]
        assert not any(file.startswith("socket:") for file in files), "the server has no socket"
        for count in range(3):
            store.kill_server()
            assert add(f"more{count}") == 200, f"killed {count + 1} times, it is started again"
        lines = store.lines()
        assert [line.rpartition("in ")[2] for line in lines] == [
        "0.5 s", "1 s", "2 s"], "each later start waits for longer"
        pid = store.server()
        store.end()
        assert not Path(f"/proc/{pid}").exists(), "it ends with the cache"
        assert len(store.lines()) == 3, "and no line is a fault"
        late = subprocess.Popen(["curl", "-s", "--max-time", "300", "--unix-socket", store.place,
                                 "-H", "store-user: ann", "http://red/paths"], stdout=subprocess.PIPE)
        time.sleep(1)
        store.start()
        assert len(late.communicate()[0].splitlines()) == 4, "who connects between two starts is answered"


def test_a_program_that_was_replaced(unit, folder):
    """A server that ends after an upgrade isn't started again by nixkeep-cache, which ends too: the unit copies a file
    of an earlier schema before another program opens it."""
    with unit() as store:
        at = store.words.index("--nixkeep") + 1
        was, store.words[at] = store.words[at], f"{folder}/program"
        store.end()
        shutil.copy(was, f"{folder}/program")
        store.start()
        assert ask(store.place, "ann", "POST", "/text", text("one"))[0] == 200
        shutil.copy(was, f"{folder}/another")
        os.rename(f"{folder}/another", f"{folder}/program")
        assert ask(store.place, "ann", "POST", "/text", text("two"))[0] == 200, "the server goes on"
        os.kill(store.server(), signal.SIGSTOP)
        requests = ("POST", "/text", text("x")), ("GET", "/paths")
        with ThreadPoolExecutor() as pool:
            late = [pool.submit(ask, store.place, "ann", *request) for request in requests]
            parts.until("they wait for the server", lambda: not time.sleep(1))
            store.kill_server()
            try:
                assert store.running.wait(60) == 1, "it waits for nobody who waits for a server"
            finally:
                store.running.kill()
            assert {answer.result() for answer in late} == {(502, b"the server has ended: try again later\n")}
        last = f"{folder}/program is another program by now: start this again"
        assert any(line.endswith(last) for line in store.lines())
        store.start()
        assert len(ask(store.place, "ann", "GET", "/paths")[1].splitlines()) == 2, "the next start is as any"


def test_stores_that_are_refused(program, folder):
    """A store that is refused ends the cache, with the status of the server; a program that isn't there, too."""
    Path(f"{folder}/store.toml").write_text("allowed-users = 1\n")
    Path(f"{folder}/store.db").write_text("no store")
    command = [f"{parts.TOOLS}/nixkeep-cache", "--user", "ann", "--db", f"{folder}/store.db", "--waiting",
               f"{folder}/waiting", "--listen", f"{folder}/socket"]
    run = lambda *more: subprocess.run([*command, *more], capture_output=True, text=True, timeout=300)
    ran = run("--nixkeep", program)
    assert ran.returncode == 3 and "refused: 21" in ran.stderr, ("a file that is no store ends the cache", ran.stderr)
    ran = run("--nixkeep", program, "--config", f"{folder}/store.toml")
    assert ran.returncode == 3 and "refused: 19" in ran.stderr, ("so does a wrong configuration", ran.stderr)
    Path(f"{folder}/bytes.toml").write_bytes(b"\xff\xfe")
    ran = run("--config", f"{folder}/bytes.toml")
    assert ran.returncode == 1 and ran.stderr.count("\n") == 1, ("one that is no text is a line", ran.stderr)
    ran = run("--nixkeep", f"{folder}/none")
    assert ran.returncode == 1 and "No such file" in ran.stderr, ("and a program that isn't there", ran.stderr)


NOTHING = b"HTTP/1.1 404 Not Found\r\ncontent-type: text/plain\r\ncontent-length: 0\r\n\r\n"


@contextlib.contextmanager
def deadly(deaths):
    """A server that ends the connection at each request whose target has `deadly`. The targets go to a list."""
    with socket.create_server(("127.0.0.1", 0)) as listener:

        def serve():
            while True:
                with contextlib.suppress(OSError):
                    connected = listener.accept()[0]
                    with connected, connected.makefile("rwb") as stream:
                        while line := stream.readline():
                            length = 0
                            while (field := stream.readline()) != b"\r\n":
                                length = int(field[16:]) if field.lower().startswith(b"content-length: ") else length
                            stream.read(length)
                            if b"deadly" in line:
                                deaths.append(line)
                                break
                            stream.write(NOTHING)
                            stream.flush()
                if listener.fileno() < 0:
                    return

        threading.Thread(target=serve, daemon=True).start()
        yield listener.getsockname()[1]


def test_requests_by_which_a_server_dies(folder):
    """A request that makes the server die is sent once more, where that does no harm, and then it is a 502."""
    deaths = []
    with deadly(deaths) as port, parts.cache(folder, port) as cache:
        url = f"http://127.0.0.1:{cache.place}"
        for method, target, times in (("GET", "/deadly", 2), ("POST", "/rollback/ann/deadly", 1),
                                      ("DELETE", "/deadly", 1)):
            deaths.clear()
            seen = curl("-H", "store-user: ann", "-X", method, url + target)[0], len(deaths)
            assert seen == (502, times), f"{method} {target}: it is sent {times} times, and then it is a 502"
        assert curl("-H", "store-user: ann", f"{url}/paths")[0] == 404, "other requests are answered"
    lines = cache.lines()
    assert len(lines) == 3 and all("before its reply" in line for line in lines), ("each has one line", lines)


def test_turns_of_users():
    """One user's thousand requests delay those of another user by one."""
    async def run():
        made, order = Turns(), []

        async def work(key):
            async with made.turn(key):
                await asyncio.sleep(0)
                order.append(key)

        tasks = [asyncio.create_task(work("ann")) for _ in range(1000)]
        await asyncio.sleep(0)
        given_up = [asyncio.create_task(work("bob")) for _ in range(3)]
        await asyncio.sleep(0)
        for task in given_up[:2]:
            task.cancel()
        await asyncio.gather(*tasks, *given_up, return_exceptions=True)
        async with made.turn("carol"):
            return order

    order = asyncio.run(run())
    assert order.index("bob") <= 3, ("a user's thousand requests delay another by one or two", order[:10])
    assert len(order) == 1001, "those that are given up are left out, and the others are done"


def test_the_limit_of_the_file(unit):
    """A file that is nearly as large as it may be takes no adds, until something is collected."""
    contents = random.Random(9).randbytes(100_000)
    with unit("--most-bytes", "1000000") as store:
        ann = lambda *words: ask(store.place, "ann", *words)
        added = []
        while len(added) < 20 and (reply := ann("POST", "/text", text(f"t{len(added)}", contents)))[0] == 200:
            added.append(reply[1].decode().strip())
        assert 5 < len(added) < 10, ("the file grows up to its limit", len(added))
        assert reply[0] == 507 and reply[1].startswith(b"failed: full ") and reply[1].endswith(b"collect\n"), reply
        assert ann("PUT", f"/nar/{'0' * 52}.nar", contents)[0] == 507, "so is an upload"
        assert ann("POST", "/root/user/ann/kept", body(("path", added[0])))[0] == 200, "for a collection"
        assert "warning: the store has" in Path(store.log).read_text(), Path(store.log).read_text()
        remote = subprocess.run([f"{parts.TOOLS}/nixkeep-remote", "--server", f"unix:{store.place}", "--as", "ann",
                                 "add-text", "more"], input=contents, capture_output=True)
        assert remote.returncode == 1 and remote.stderr.startswith(b"failed: full "), remote
        assert ann("POST", "/collect")[0] == 200, "a collection"
        time.sleep(1.1)
        assert ann("POST", "/text", text("again", contents))[0] == 200, "makes room at once"


def test_the_share_of_a_user(unit, folder):
    """A user who has added a share takes no more, until something of it is collected. Other users aren't concerned."""
    contents = bytes(10_000)
    with unit("--most-bytes-each", "25000") as store:
        add = lambda user, name: ask(store.place, user, "POST", "/text", text(name, contents))
        assert [add("ann", name)[0] for name in ("a", "b", "c")] == [200, 200, 507], "a third isn't within the share"
        said = add("ann", "c")[1]
        assert said.endswith(b"of 25000 bytes are used by ann: drop roots, and collect\n"), ("the reply says so", said)
        assert add("bob", "c")[0] == 200, "another user has a share, too"
        assert add("bob", "b")[0] == 200, "what another has added counts for that one"
        store.end()
        store.start()
        assert [add(user, "d")[0] for user in ("ann", "bob")] == [507, 200], "the share is known after a restart"
        ask(store.place, "bob", "POST", "/collect")
        assert add("ann", "c")[0] == 200, "what is collected counts no more"
        store.end()
        file = f"{folder}/waiting/shares.db"
        Path(file).write_bytes(b"no list" * 1000)
        store.start()
        assert [add("bob", name)[0] for name in ("e", "f")] == [200, 200], "a damaged list of shares is begun anew"
        assert Path(f"{file}.damaged").exists() and Path(store.log).read_text().count("begun anew") == 1, (
            "it is set aside, and a line says so", Path(store.log).read_text())
        store.end()
        Path(f"{file}.damaged").unlink()
        with contextlib.closing(sqlite3.connect(file, isolation_level=None)) as other:
            other.execute("BEGIN EXCLUSIVE")
            store.start()
            assert add("bob", "g")[0] == 200, "one that can't be used costs no request"
            store.end()
        store.start()
        assert (add("bob", "h")[0], Path(f"{file}.damaged").exists()) == (507, False), "and is whole afterwards"


@pytest.mark.parametrize("is_running", [False, True])
def test_a_list_with_a_damaged_page(is_running, folder):
    """A page of any list, since the store doesn't depend on one: before a start it is begun anew, and while it is used
    it has less."""
    file, count = f"{folder}/shares.db", 2000
    shares = cache_shares.Shares(file, 1 << 30)
    for at in range(count):
        shares.add("ann", f"{at:032}-x", 10)
    cache_lists.close()
    good = Path(file).read_bytes()
    for at in range(4096, len(good), 4096 * 7):
        Path(file).write_bytes(good)
        if is_running:
            shares = cache_shares.Shares(file, 1 << 30)
            shares.conn.execute("PRAGMA cache_size = 0")
            shares.conn.execute("PRAGMA shrink_memory")
        with open(file, "r+b") as damaged:
            damaged.seek(at)
            damaged.write(bytes(range(255, 55, -1)))
        shares = shares if is_running else cache_shares.Shares(file, 1 << 30)
        assert is_running or (Path(f"{file}.damaged").exists() and not shares.used["ann"]), at
        shares.listed([])
        shares.add("bob", "b", 1)
        with shares.room("ann", 5, "a"):
            pass
        shares.deleted(b"/nix/store/" + b"0" * 32 + b"-x\n")
        cache_lists.close()
        for suffix in ("-wal", "-shm", ".damaged"):
            Path(file + suffix).unlink(missing_ok=True)


def test_what_counts_for_no_share(unit):
    """An object counts for the user who has added it first, whoever keeps it; and roots for nobody, since a user whose
    share is full needs them before a collection."""
    with unit("--most-bytes-each", "25000") as store:
        add = lambda user, name: ask(store.place, user, "POST", "/text", text(name, bytes(10_000)))
        (_, one), (_, two) = add("ann", "a"), add("ann", "b")
        root = lambda user, name, path: ask(store.place, user, "POST", f"/root/user/{user}/{name}",
                                            body(("path", path.decode().strip())))
        assert [root("ann", f"root{at}", one)[0] for at in range(5)] == [200] * 5, "roots of a user whose share is full"
        assert root("bob", "mine", two)[0] == 200, "another user's root"
        assert ask(store.place, "bob", "POST", "/collect")[0] == 200
        assert add("ann", "c")[0] == 507, "doesn't move the object into that user's share"
        assert [add("bob", name)[0] for name in ("d", "e")] == [200, 200]


# The limit of a group that has none, by the first version of control groups.
NONE = 9_223_372_036_854_771_712


@pytest.mark.parametrize("own, place, name, none", [
    ("0::{}\n", "", "memory.max", "max"),
    ("4:memory:{}\n", "/memory", "memory.limit_in_bytes", NONE),
    ("5:cpuset:/\n4:cpu,memory:{}\n0::/other\n", "/memory", "memory.limit_in_bytes", NONE),
])
def test_the_limit_of_a_group(own, place, name, none, folder, monkeypatch):
    """`MemoryMax=` is found by either version of control groups, and the machine's memory counts where it is less: a
    service may have no limit, or one that isn't enforced."""
    monkeypatch.setattr(store_size, "CGROUPS", f"{folder}/cgroup")
    monkeypatch.setattr(store_size, "OWN", f"{folder}/own")
    monkeypatch.setattr(store_size, "machine", lambda: 4 << 30)
    group = Path(f"{folder}/cgroup{place}/system.slice/store.service")
    assert store_size.memory() == 4 << 30, "a system without groups"
    Path(f"{folder}/own").write_text(own.format("/system.slice/store.service"))
    group.mkdir(parents=True)
    for level, limit in ((group, none), (group.parent, none)):
        (level / name).write_text(f"{limit}\n")
        assert store_size.memory() == 4 << 30, "no limit"
    for level, limit in ((group, 3 << 30), (group.parent, 2 << 30), (Path(f"{folder}/cgroup{place}"), 1 << 30)):
        (level / name).write_text(f"{limit}\n")
        assert store_size.memory() == limit, "that of the group, and of those above it"


@pytest.mark.parametrize("limit, opened", [(0, 0), (1 << 20, 0), (400_000_000, 100_000_000)])
def test_what_little_memory_opens(limit, opened):
    """docs/OPERATING.md, Growth: 200 MB, the bytes of the file, and its page cache, which has all of a small file."""
    assert store_size.opened_with(limit) == opened


def test_the_limit_by_memory(folder, monkeypatch):
    """The usual limit follows from the memory of the service."""
    Path(f"{folder}/cgroup/system.slice/store.service").mkdir(parents=True)
    Path(f"{folder}/own").write_text("0::/system.slice/store.service\n")
    Path(f"{folder}/cgroup/system.slice/memory.max").write_text("max\n")
    monkeypatch.setattr(store_size, "CGROUPS", f"{folder}/cgroup")
    monkeypatch.setattr(store_size, "OWN", f"{folder}/own")
    monkeypatch.setattr(store_size, "machine", lambda: 4 << 30)
    Path(f"{folder}/cgroup/system.slice/store.service/memory.max").write_text(f"{2 << 30}\n")
    # (docs/OPERATING.md, Growth: with 2 GiB no file of more than about 1.5 GiB is opened)
    part = cache_limit.usual() / (1.5 * (1 << 30))
    assert 0.55 < part < 0.65, ("MemoryMax=2G opens about 1.5 GiB, of which 0.6 are accepted", part)
    Path(f"{folder}/own").write_text("0::/\n")
    assert store_size.memory() == 4 << 30, "a group without a file of limits has none"
    Path(f"{folder}/cgroup/memory.max").write_text(f"{1 << 30}\n")
    assert store_size.memory() == 1 << 30, "the limit of a container is that of its first group"
    for own in ("/system.slice/store.service", "/../other/x", "/system.slice/"):
        Path(f"{folder}/own").write_text(f"1:name=x:/\n0::{own}\n")
        assert store_size.memory() == 1 << 30, f"the least limit counts: {own}"
    Path(f"{folder}/cgroup/memory.max").unlink()
    Path(f"{folder}/own").write_text("0::/system.slice/store.service\n")
    had, own = [1_400_000_000], [103_238_553]
    limit = cache_limit.Limit(None, None, lambda: had[0], lambda: own[0])
    limit.check(1)
    own[0] += 1
    line = "failed: full the server and nixkeep-cache have 1503238554 of 2147483648 bytes of memory: drop roots, "
    with pytest.raises(cache_limit.Full, match=f"^{line}collect, and start it again\n$"):
        limit.check(1)
    had[0] = None
    assert limit.check(1) is None, "without a server nothing is refused for it"


def test_the_memory_of_a_server(program, folder):
    """How much memory a server has is known, so that many small rows don't fill it."""
    async def run():
        child = cache_child.Child(program, f"{folder}/had.db", None)
        before = child.memory()
        await child.open()
        opened.extend(child.opened)
        said = Path(f"/proc/{child.process.pid}/status").read_text()
        running = child.memory(), int(re.search(r"VmRSS:\s+(\d+)", said)[1])
        await child.end()
        return before, running, child.memory()

    opened = []
    before, (had, shown), after = asyncio.run(run())
    assert opened[0] >= opened[1] > 0.8 * had, "what it had when it had opened its file"
    assert before is after is None and 0.8 < had / (1024 * shown) < 1.2
    shown = int(re.search(r"VmRSS:\s+(\d+)", Path("/proc/self/status").read_text())[1])
    assert 0.8 < store_size.resident() / (1024 * shown) < 1.2, "that of nixkeep-cache, too"


def test_a_server_that_is_killed_while_it_is_written_to(folder):
    """It is a line, and no trace of a write that nobody waits for."""
    program, faults = Path(folder, "program"), []
    head = r"HTTP/1.1 404 x\r\ncontent-type: x\r\ncontent-length: 0\r\n\r\n"
    program.write_text(f"#!/bin/sh\nread it\nprintf '{head}'\nexec sleep 100\n")
    program.chmod(0o755)

    async def run():
        asyncio.get_running_loop().set_exception_handler(lambda _, about: faults.append(about))
        child = cache_child.Child(str(program), "none", None)
        _, writer = await child.open()
        writer.write(bytes(5_000_000))
        child.signal(signal.SIGKILL)
        while not writer.transport.is_closing():
            await asyncio.sleep(0.01)
        await asyncio.sleep(0.1)
        await child.end()

    asyncio.run(run())
    gc.collect()
    assert faults == []


def test_sessions(unit, folder):
    """What is uploaded is kept until nothing has come for a while, also when the cache is restarted meanwhile."""
    rng = random.Random(10)
    with unit() as store:
        as_of = lambda user: lambda *words: ask(store.place, user, *words)
        path, archive = some_path(rng, "uploaded"), nar.archive(b"uploaded")
        build = as_of("build")
        build("PUT", f"/nar/{file_name(archive)}", archive)
        given = record(path, archive, file_name(archive))
        assert build("PUT", f"/{path[11:43]}.narinfo", given)[0] == 200, "an upload"
        assert build("GET", "/roots")[1].decode() == f"{{temp:4194304}} {path}\n", "is kept by a session of its user"
        store.end()
        store.start()
        assert as_of("bob")("POST", "/collect")[1] == b"freed 0 paths 0 bytes\n", "also after a restart"
        store.end()
        os.utime(f"{folder}/waiting/sessions/build.session", (time.time() - 3601,) * 2)
        store.start()
        parts.until("the session ends", lambda: not build("GET", "/roots")[1])
        assert path in as_of("bob")("POST", "/collect")[1].decode(), "once it is over it is collected"


def test_paths_kept_in_turns(folder):
    """What clients asked for is kept before a collection, a part at a time, so that others get their turns."""
    exchanges = []

    class Server:
        async def asks(self, requests, first=lambda: ()):
            if len(exchanges) == 2:
                made.remember(ann, "late")
            exchanges.append([request.target for request in (*first(), *requests)])
            return exchanges[-1]

    made, ann = cache_sessions.Sessions(Server(), f"{folder}/kept", 3600), cache_sessions.Caller("ann", None)
    for at in range(250):
        made.remember(ann, f"path{at}")
    collect = cache_sessions.Request(cache_sessions.Caller("bob", None), "POST", "/collect")
    made.remember(ann, None)
    assert asyncio.run(made.before(collect)) == "/collect", "the reply is that to the collection"
    assert [len(exchange) for exchange in exchanges] == [100, 100, 52], "the last with one that is asked for meanwhile"
    asyncio.run(made.before(collect))
    assert exchanges[3] == ["/collect"], "and once"
    made.remember(ann, "ann's")
    for at in range(cache_sessions.MOST + 10):
        made.remember(collect.caller, f"path{at}")
    del exchanges[3:]
    asyncio.run(made.before(collect))
    kept = [cache_sessions.target("ann"), "/collect"]
    assert exchanges[3] == kept, "another user who asks for many makes none forgotten"


def kept_before_a_collection(folder, asked_for):
    """The exchanges with a server of which each first has `asked_for` called, with Sessions and the two users in it."""
    exchanges, (ann, bob) = [], (cache_sessions.Caller(user, None) for user in ("ann", "bob"))

    class Server:
        async def asks(self, requests, first=lambda: ()):
            asked_for(made, len(exchanges), ann)
            exchanges.append([(request.caller.user, request.target) for request in (*first(), *requests)])
            return exchanges[-1]

    made = cache_sessions.Sessions(Server(), f"{folder}/more", 3600)
    for caller in (ann, bob):
        made.remember(caller, None)
    asked_for(made, -1, ann)
    made.remember(bob, "bob's")
    asyncio.run(made.before(cache_sessions.Request(ann, "POST", "/collect")))
    assert exchanges[-1][-1] == ("ann", "/collect") and max(map(len, exchanges)) <= 101
    return exchanges


def test_paths_without_an_end_before_a_deletion(folder):
    """Whoever asks for ever more paths meanwhile keeps the server busy for no longer than for a part of them, and those
    of another user are kept first."""

    def asked_for(made, number, ann):
        for at in range(200):
            made.remember(ann, f"path{number}-{at}")

    exchanges = kept_before_a_collection(folder, asked_for)
    assert ("bob", cache_sessions.target("bob")) in exchanges[0] and len(exchanges) == 101


def test_many_paths_right_before_a_deletion(folder):
    """All are kept, though they come while the last ones wait for their turn."""
    paths = []

    def asked_for(made, number, ann):
        for _ in range(150 if number == 0 else 0):
            paths.append(f"path{len(paths)}")
            made.remember(ann, paths[-1])

    exchanges = kept_before_a_collection(folder, asked_for)
    count = sum(pair == ("ann", cache_sessions.target("ann")) for exchange in exchanges for pair in exchange)
    assert (count, len(paths)) == (300, 300)


@pytest.mark.parametrize("when", ["before its turn", "after its turn", "not at all"])
def test_an_upload_at_the_end_of_a_session(when, folder):
    """What comes while the end of the session waits for its turn is kept, and what comes later has a session."""
    ended = []

    class Server:
        async def asks(self, requests, first):
            if when == "before its turn":
                made.touch("ann")
            ended.extend([*first(), *(request.method for request in requests)])
            if when == "after its turn":
                made.touch("ann")
            return [cache_server.Reply(200, "text/plain", b"")]

    made = cache_sessions.Sessions(Server(), f"{folder}/ends", 3600)
    made.touch("ann")
    os.utime(made.file("ann"), (time.time() - 3601,) * 2)
    asyncio.run(made.expire())
    assert ended == ([] if when == "before its turn" else ["DELETE"])
    assert Path(made.file("ann")).exists() == (when != "not at all")


@contextlib.asynccontextmanager
async def serving(answer, place):
    """Serves requests by a function at a socket."""
    from aiohttp import web

    app = web.Application()
    app.router.add_get("/{target:.*}", answer)
    runner = web.AppRunner(app)
    await runner.setup()
    await web.UnixSite(runner, place, shutdown_timeout=1).start()
    try:
        yield
    finally:
        await runner.cleanup()


def test_replies_that_nobody_reads(folder):
    """Clients that take nothing of a large reply hold up nobody, and a bounded number of replies is in memory."""
    from nixkeep_tools import cache_http

    size, most, held, heads, place = 4 << 20, 16 << 20, [], [], f"{folder}/unread"

    async def run():
        sending = cache_http.Sending(most, 60)

        async def answer(request):
            reply = cache_http.reply(200, bytes(size))
            await sending.room(request, reply)
            held.append(sending.bytes)
            return await sending.send(request, reply)

        async with serving(answer, place):
            silent = [await asyncio.open_unix_connection(place, limit=1000) for _ in range(6)]
            for _, writer in silent:
                writer.write(b"GET / HTTP/1.1\r\nhost: a\r\n\r\n")
                await writer.drain()
            reader, writer = await asyncio.open_unix_connection(place)
            writer.write(b"GET / HTTP/1.1\r\nhost: a\r\nconnection: close\r\n\r\n")
            text = await reader.read(-1)
            head, asks = await asyncio.open_unix_connection(place)
            asks.write(b"HEAD / HTTP/1.1\r\nhost: a\r\nconnection: close\r\n\r\n")
            heads.append(await head.read(-1))
            for _, stream in [*silent, (reader, writer), (head, asks)]:
                stream.close()
            return text.partition(b"\r\n\r\n")[2]

    assert asyncio.run(run()) == bytes(size), "six clients take nothing, and another gets its reply of 4 MiB"
    assert heads[0].endswith(b"\r\n\r\n") and b"Content-Length: %d\r\n" % size in heads[0], ("of HEAD", heads)
    assert max(held) <= most, ("never were there more bytes than there is room", held)


def test_many_slow_clients(folder):
    """A user with many slow clients, which take a little now and then, doesn't hold up another one."""
    from nixkeep_tools import cache_http

    size, whole, place = 4 << 20, [], f"{folder}/crowded"

    async def answer(request):
        request["caller"] = cache_server.Caller(request.headers["store-user"], None)
        async with sending.reserved(request, request.path == "/much"):
            await sending.room(request, reply := cache_http.reply(200, bytes(size)))
            return await sending.send(request, reply)

    async def asks(user, target, piece=-1):
        reader, writer = await asyncio.open_unix_connection(place, limit=1000)
        writer.write(b"GET %s HTTP/1.1\r\nhost: a\r\nstore-user: %s\r\nconnection: close\r\n\r\n" % (target, user))
        count = 0
        with contextlib.suppress(ConnectionError), contextlib.closing(writer.transport):
            while part := await reader.read(piece):
                count += len(part)
                await asyncio.sleep(0.5 if piece > 0 else 0)
            whole.extend([user] if count > size else [])

    async def run():
        async with serving(answer, place):
            slow = [asyncio.ensure_future(asks(b"bob", b"/", 40_000)) for _ in range(24)]
            await asyncio.sleep(1)
            await asyncio.gather(asks(b"ann", b"/"), asks(b"carol", b"/much"))
            served = sorted(whole)
            for task in slow:
                task.cancel()
            await asyncio.gather(*slow, return_exceptions=True)
            return served

    sending = cache_http.Sending(16 * size, 60)
    assert asyncio.run(run()) == [b"ann", b"carol"], "others get their replies"


def test_a_client_that_leaves(folder):
    """Nothing more is read of a large archive for a client that has left."""
    from aiohttp import web
    from nixkeep_tools import cache_blobs, cache_http

    ended, place = [], f"{folder}/left"

    def pieces():
        try:
            while True:
                time.sleep(0.01)
                yield b""
        finally:
            ended.append(True)

    async def run():
        blobs = cache_blobs.Blobs(None, 1, cache_http.Sending(1 << 30, 60))

        async def answer(request):
            return await blobs.streamed(request, pieces(), web.StreamResponse())

        async with serving(answer, place):
            _, writer = await asyncio.open_unix_connection(place)
            writer.write(b"GET / HTTP/1.1\r\nhost: a\r\n\r\n")
            await asyncio.sleep(0.5)
            is_reading = not ended
            writer.close()
            for _ in range(600):
                await asyncio.sleep(0 if ended else 0.1)
        return is_reading, ended, blobs.sending.bytes

    assert asyncio.run(run()) == (True, [True], 0), "it isn't read further"


@pytest.mark.parametrize("target", ["body", "reply"])
def test_what_a_client_that_leaves_had(target, folder):
    """Of a client that has left nothing stays in memory: neither the body that it had sent, nor the rest of its reply.
    (Python looks for what keeps itself when many objects were made, and these have few and large ones.)"""
    from nixkeep_tools import cache, cache_http

    size, ended, place, sending = 8 << 20, [], f"{folder}/left", cache_http.Sending(1 << 30, 60)

    async def handler(request):
        if target == "body":
            return await cache_http.body(request, 2 * size, 60)
        answer = cache_http.reply(200, bytes(size))
        await sending.room(request, answer)
        return await sending.send(request, answer)

    async def answer(request):
        try:
            return await cache.failures(60)(request, handler)
        finally:
            ended.append(True)

    async def run():
        async with serving(answer, place):
            reader, writer = await asyncio.open_unix_connection(place)
            length = size + 1 if target == "body" else 0
            writer.write(f"GET / HTTP/1.1\r\nhost: a\r\ncontent-length: {length}\r\n\r\n".encode())
            writer.write(bytes(max(0, length - 1)))
            await (writer.drain() if length else reader.read(100))
            await asyncio.sleep(0.5)
            before = tracemalloc.get_traced_memory()[0]
            writer.close()
            for _ in range(600):
                await asyncio.sleep(0 if ended else 0.1)
        return before, tracemalloc.get_traced_memory()[0]

    gc.disable()
    tracemalloc.start()
    try:
        before, after = asyncio.run(run())
    finally:
        tracemalloc.stop()
        gc.enable()
    assert (before > size, after < size) == (True, True), (before, after)


def not_read_by(pid):
    """How many bytes of its standard input, a pipe, a process hasn't read."""
    with open(f"/proc/{pid}/fd/0", "rb", buffering=0) as pipe:
        return int.from_bytes(fcntl.ioctl(pipe, termios.FIONREAD, bytes(4)), sys.byteorder)


def test_an_end_with_a_request_under_way(unit):
    """A request that is under way when the cache has to end is answered."""
    with unit() as store:
        ask(store.place, "ann", "POST", "/text", text("first"))
        process = subprocess.Popen(["curl", "-s", "--unix-socket", store.place, "-H", "store-user: ann", "-X", "POST",
                                    "--data-binary", "@-", "http://red/source"], stdin=subprocess.PIPE,
                                   stdout=subprocess.PIPE)
        os.kill(store.server(), signal.SIGSTOP)
        process.stdin.write(body(("name", "late"), payload=nar.archive(b"late")))
        process.stdin.close()
        pid = store.server()
        parts.until("the request has come to the server", lambda: not_read_by(pid))
        store.running.send_signal(signal.SIGTERM)
        time.sleep(0.5)
        os.kill(pid, signal.SIGCONT)
        assert process.stdout.read().endswith(b"-late\n"), "a request in the middle is answered"
        assert store.running.wait() == 0, "and the cache ends well"
        store.running = None


def test_an_end_with_half_a_body(unit):
    """A request whose body comes while the cache ends is answered, and its connection is closed."""
    with unit() as store, socket.socket(socket.AF_UNIX) as client:
        given = text("half-sent")
        client.connect(store.place)
        head = f"POST /text HTTP/1.1\r\nhost: red\r\nstore-user: ann\r\ncontent-length: {len(given)}\r\n\r\n"
        client.sendall(head.encode() + given[:5])
        parts.until("the head is read", lambda: ask(store.place, "ann", "GET", "/paths")[0] == 200)
        store.running.send_signal(signal.SIGTERM)
        time.sleep(1)
        client.settimeout(300)
        reply = b""
        with contextlib.suppress(ConnectionError):
            client.sendall(given[5:])
            reply = b"".join(iter(lambda: client.recv(1000), b""))
        is_done = reply.startswith(b"HTTP/1.1 200") and reply.endswith(b"-half-sent\n")
        assert is_done, ("a body that comes at the end is an add", reply)
        assert store.running.wait() == 0, "and the cache ends well"
        store.running = None


def test_an_end_ahead_of_a_first_request(unit):
    """Whoever has connected as the cache ends sends a request a second later, as on a busy machine, and is answered.
    One who sends nothing holds it up for a few seconds."""
    with unit() as store, socket.socket(socket.AF_UNIX) as client, socket.socket(socket.AF_UNIX) as silent:
        for each in (client, silent):
            each.connect(store.place)
        parts.until("both are accepted", lambda: ask(store.place, "ann", "GET", "/paths")[0] == 200)
        store.running.send_signal(signal.SIGTERM)
        began = time.monotonic()
        time.sleep(1)
        reply = b""
        with contextlib.suppress(ConnectionError):
            client.sendall(b"GET /paths HTTP/1.1\r\nhost: red\r\nstore-user: ann\r\n\r\n")
            reply = client.recv(1000)
        assert reply.startswith(b"HTTP/1.1 200"), reply
        assert store.running.wait() == 0 and time.monotonic() - began < 20
        store.running = None


def test_an_end_that_slow_clients_hold_up(unit):
    """Clients that send or take slowly hold up an end for less than a minute, and it ends well."""
    with unit() as store, contextlib.ExitStack() as held:
        path = ask(store.place, "ann", "POST", "/text", text("long", bytes(8_000_000)))[1].decode().strip()
        requests = ("POST /text HTTP/1.1\r\n{}content-length: 10000\r\n\r\n",
                    f"PUT /nar/{'0' * 52}.nar HTTP/1.1\r\n{{}}content-length: 10000\r\n\r\n",
                    f"GET /nar/{path[11:]} HTTP/1.1\r\n{{}}\r\n")
        clients = [held.enter_context(socket.socket(socket.AF_UNIX)) for _ in requests]
        for client, head in zip(clients, requests):
            client.connect(store.place)
            client.sendall(head.format("host: red\r\nstore-user: ann\r\n").encode())
        parts.until("the heads are read", lambda: ask(store.place, "ann", "GET", "/paths")[0] == 200)
        store.running.send_signal(signal.SIGTERM)
        began, ended = time.monotonic(), threading.Event()

        def move():
            while not ended.wait(1):
                with contextlib.suppress(OSError):
                    clients[0].sendall(b"x")
                    clients[1].sendall(b"x")
                    clients[2].recv(1000)

        moving = threading.Thread(target=move)
        moving.start()
        assert store.running.wait() == 0, "an end that slow clients hold up ends well"
        ended.set()
        moving.join()
        took = time.monotonic() - began
        assert 10 < took < 60, ("after less than a minute", took)
        store.running = None


def test_a_server_that_hangs():
    """A server that doesn't answer is given up and started again. A request waits for that as long as for any start,
    also where it waited for its turn or its first reply before."""
    class Place:
        idle, why, opened = None, "it starts", 0

        async def open(self):
            self.opened += 1
            await asyncio.sleep(0.3)
            reader, text = asyncio.StreamReader(), NOTHING if self.opened > 1 else b""
            reader.feed_data(2 * text)
            return reader, mock.Mock(asyncio.StreamWriter, is_closing=lambda: False)

        def close(self, _):
            pass

    async def run():
        server = cache_server.Server(Place(), 4, 4)
        running = [server.ask(cache_server.Caller(user, None), "POST", "/import") for user in ("ann", "bob")]
        return [reply.status for reply in await asyncio.gather(*running)]

    assert asyncio.run(run()) == [404, 404], "a server that hung is started again, and both requests are answered"


def test_encoded_bodies(unit):
    """A body is what came, whatever it is said to be: none is unpacked, so a small one never fills the memory."""
    with unit() as store:
        peak = lambda: int(re.search(r"VmHWM:\s+(\d+)", Path(f"/proc/{store.running.pid}/status").read_text())[1])
        post = lambda given, *more: ask(store.place, "ann", "POST", "/text", given, *more)
        given = text("packed", zlib.compress(b"hello"))
        plain, before = post(given), peak()
        assert plain[0] == 200, "a text"
        for coding in ("deflate", "gzip", "br", "zstd"):
            assert post(given, "-H", f"content-encoding: {coding}") == plain, f"is the same with the coding {coding}"
        bomb = zlib.compress(text("bomb", bytes(30 << 20)), 9)
        assert post(bomb, "-H", "content-encoding: deflate") == (400, b"refused: 41 bad-body-head\n"), (
            f"{len(bomb)} bytes that unpack to 30 MiB aren't unpacked")
        assert peak() - before < 10_000, ("and take no memory", f"{peak() - before} KiB")
        assert store.lines() == [], "none of it is a fault"
