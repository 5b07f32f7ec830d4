"""Tests of the memory that nixkeep-cache and its server take at the worst: the largest store that takes adds, and
all that requests may have at once with it."""
import asyncio
import contextlib
import os
import re
import subprocess
from pathlib import Path

import pytest

from nixkeep_dev.build.program import HERE
from nixkeep_tools import blob_packing, cache, cache_blobs, cache_fair, cache_http, cache_limit, cache_names
from nixkeep_tools import cache_options, cache_overview, cache_passing, cache_roots, cache_server, cache_signing
from nixkeep_tools import cache_uploads, cache_waiting, nar, overview_source, store_size
from parts import TOOLS

pytestmark = pytest.mark.needs("python3-aiohttp", "python3-zstandard")
UNIT = Path(f"{HERE}/packaging/nixkeep@.service").read_text()
MEMORY = int(re.search(r"^MemoryMax=(\d+)G$", UNIT, re.M)[1]) << 30
# Makes an archive of 16 MB, or a larger one, in a file; a part of it can't be compressed.
MAKE = """import lzma, os, sys, zstandard
from nixkeep_tools.blob_packing import BEGIN
file, size, compression, random = sys.argv[1], int(sys.argv[2]), sys.argv[3], int(sys.argv[4])
data = BEGIN + os.urandom(random)
data += bytes(size - len(data))
if compression == "xz":
    data = lzma.compress(data, filters=[{"id": lzma.FILTER_LZMA2, "preset": 0, "dict_size": 64 << 20}])
if compression == "zstd":
    level = zstandard.ZstdCompressionParameters.from_level(1, window_log=25)
    made = zstandard.ZstdCompressor(compression_params=level).compressobj()
    data = made.compress(data) + made.flush()
open(file, "wb").write(data)
"""
# Does some work, and prints the bytes of memory that it took besides what was there.
TOOK = """import re, sys
from nixkeep_tools import blob_packing, cache_records
memory = lambda key: 1024 * int(re.search(rf"Vm{key}:\\s*(\\d+)", open("/proc/self/status").read())[1])
before, file, name = memory("RSS"), sys.argv[1], sys.argv[2]
%s
print(memory("HWM") - before)
"""
SMALL = """data = open(file, "rb").read()
archive = cache_records.unpacked(name, data)
del data
given = bytes(1_000_000) + archive"""
LARGE = """with open(file, "rb") as given, open(f"{file}.blob", "wb") as out:
    blob_packing.packed(given, name, out, 1)"""


def ran(code, *words):
    """What Python prints, with the memory of malloc as the unit has it."""
    environment = {**os.environ, **dict(re.findall(r"^Environment=(\w+)=(.*)$", UNIT, re.M)), "PYTHONPATH": TOOLS}
    words = ["/usr/bin/python3", "-B", "-c", code, *map(str, words)]
    return subprocess.run(words, check=True, capture_output=True, text=True, env=environment).stdout


def test_the_sum():
    """Each term is how many there are at once, times the bytes that each may have."""
    terms = {
        "replies and readers": cache_http.ROOM,
        "replies that are compressed": cache_http.THREADS * nar.LIMIT,
        "a reply as it is read": 2 * nar.LIMIT,
        "bodies": cache_passing.COMING + 2 * cache_http.BODY,
        "records": cache_uploads.RECORDS,
        "archives that are unpacked": cache_uploads.MANY * cache_uploads.UNPACKED,
        "large archives": cache_blobs.COMING,
        "requests that wait": cache_fair.MOST * cache_fair.EACH,
        "the server": cache_limit.SERVER * nar.LIMIT,
    }
    assert cache_limit.TOGETHER * MEMORY + sum(terms.values()) <= MEMORY, terms
    assert cache_uploads.MANY <= cache_http.THREADS


def test_the_largest_store_takes_adds():
    """A server that has opened the largest file that is accepted has less than the part from which on nothing is."""
    file = cache_limit.ACCEPTED * store_size.opened_with(MEMORY)
    opened = file + store_size.CACHE + store_size.REST
    together = opened + (100 << 20)
    assert together < cache_limit.TOGETHER * MEMORY, "with what nixkeep-cache has without requests"
    assert together < cache_limit.STARTS * MEMORY, "with that, the next start takes no more"


# The bytes that each of these has in the file, in the memory of the server that runs as it comes, and in that of its
# next start at most, the last two without the page cache: as they were measured with many small ones.
ROWS = {"roots": (94, 176, 325), "paths of sessions": (100, 124, 198), "references": (250, 22, 200),
        "texts": (345, 62, 464), "archives": (1, 0, 1)}


@pytest.mark.parametrize("is_add", [True, False])
@pytest.mark.parametrize("first", ROWS)
@pytest.mark.parametrize("kind", ROWS)
def test_what_comes_while_a_server_runs(first, kind, is_add, monkeypatch):
    """The next start has the memory for it, also where some of another kind came before, up to half of the limit."""
    begun, own, most = 13_000_000, 50 << 20, int(cache_limit.ACCEPTED * store_size.opened_with(MEMORY))
    file, had, starts = 4096, begun, begun
    monkeypatch.setattr(cache_limit, "LOOK", -1)
    monkeypatch.setattr(store_size, "used", lambda _: file)
    limit = cache_limit.Limit("it", most, lambda: had + min(file, store_size.CACHE), lambda: own,
                              lambda: (begun, begun, 4096))
    limit.memory = MEMORY
    with pytest.raises(cache_limit.Full):
        while True:
            bytes_of, runs, next_start = ROWS[first if file < most // 2 else kind]
            count = 1_000_000 // bytes_of
            limit.check(count * bytes_of, is_add)
            file, had, starts = (now + count * step for now, step in zip((file, had, starts),
                                                                     (bytes_of, runs, next_start)))
    assert file > (0.9 if {first, kind} == {"archives"} else 0.1) * most
    assert starts + store_size.CACHE + own < MEMORY


def test_the_limit_counts_listings(tmp_path, monkeypatch):
    """What listings of all objects and of all roots take counts with what nixkeep-cache has, by their lengths now."""
    config = tmp_path / "store.toml"
    config.write_text("")
    said = cache_options.read(["--proxied", "--config", str(config), "--waiting", str(tmp_path / "waiting")])
    waiting = cache_waiting.Waiting(said.waiting, said.waiting_count, said.waiting_bytes, said.waiting_seconds)
    server = cache_server.Server(cache_server.Port("127.0.0.1", 9), 1)
    settings = overview_source.settings(said.config)
    parts, *_ = cache.parts_of(said, server, waiting, settings, cache_signing.made(said, settings[0]), None)
    passing, = (part for part in parts if isinstance(part, cache_passing.Passing))
    monkeypatch.setattr(store_size, "resident", lambda: 50)
    for listing in (passing.names, passing.roots):
        before = passing.limit.own()
        listing.size += 1000
        assert passing.limit.own() == before + 1000 * cache_limit.LISTINGS


def test_adds_are_refused_before_roots():
    """Roots are possible before a collection. A server that starts has what it takes."""
    opened = [(2_000_000_000, 1_900_000_000, 0)]
    had, own = [1_900_000_000], 50 << 20
    limit = cache_limit.Limit(None, None, lambda: had[0], lambda: own, lambda: opened[0])
    limit.memory = MEMORY
    had[0] += int(cache_limit.STARTS * MEMORY - own - 2_000_000_000) // 2
    for is_add in (True, False):
        limit.check(1, is_add)
    had[0] += 1 << 20
    limit.check(1, False)
    text = "nixkeep-cache and the server's next start take [0-9]+ of 3221225472 bytes of memory: drop roots, collect,"
    with pytest.raises(cache_limit.Full, match=f"^failed: full {text} and start it again\n$"):
        limit.check(1)
    opened[0] = None
    limit.check(1)
    assert limit.started() == had[0]


@pytest.mark.parametrize("opened, is_full", [(0.66, False), (0.78, True)])
def test_a_warning_of_memory(opened, is_full, folder, capsys):
    """A line comes before adds are refused."""
    Path(file := f"{folder}/store.db").write_bytes(bytes(100))
    size = int(opened * MEMORY)
    limit = cache_limit.Limit(file, 1 << 30, lambda: size - 1000, lambda: MEMORY // 50, lambda: (size, size - 1000, 0))
    limit.memory = MEMORY
    with pytest.raises(cache_limit.Full) if is_full else contextlib.nullcontext():
        limit.check(1)
    line = f"nixkeep-cache: warning: the server's next start takes {size} of {MEMORY} bytes of memory\n"
    assert capsys.readouterr().err == line


@pytest.mark.parametrize("compression, suffix", [("none", ""), ("xz", ".xz"), ("zstd", ".zst")])
def test_an_archive_that_is_unpacked(folder, compression, suffix):
    """The longest archive of the store, in what asks for most memory."""
    ran(MAKE, file := f"{folder}/file", nar.LIMIT, compression, nar.LIMIT // 2)
    assert int(ran(TOOK % SMALL, file, f"{'0' * 52}.nar{suffix}")) <= cache_uploads.UNPACKED


@pytest.mark.parametrize("compression", blob_packing.UNPACKING)
def test_a_large_archive(folder, compression):
    """It takes as much room as memory, whatever its size."""
    # (xz takes a second for each of these MB)
    random = 4 << 20 if compression == "xz" else 50 << 20
    ran(MAKE, file := f"{folder}/file", 100 << 20, compression, random)
    took = int(ran(TOOK % LARGE, file, compression))
    assert took <= blob_packing.memory(compression, 1) <= cache_blobs.COMING


def test_listings_count():
    """A listing of all objects is in memory several times, so its length counts with what lasts: for objects with names
    of one character, and with the longest."""
    for length in (1, 211):
        lines = [b"/nix/store/%032d-%s\n" % (at, b"x" * length) for at in range(100)]
        names = cache_names.Names(None, 30)
        names.added(b"".join(lines))
        assert names.size == len(b"".join(lines))
        names.added(b"".join(lines[:50]))
        names.deleted(b"".join(lines[10:30]) + b"freed 20 paths 20 bytes\n")
        assert names.size == len(b"".join(lines)) * 8 // 10


class Rooted:
    """A server with roots, each of which has a line as in a listing."""

    def __init__(self, lines):
        self.lines, self.listings, self.connections = lines, 0, 1

    def size(self):
        return sum(map(len, self.lines))

    async def ask(self, caller, method, target, body=b""):
        if target == "/roots":
            self.listings += 1
            return cache_server.Reply(200, "text/plain", b"".join(self.lines))
        if method == "DELETE" and target == "/temp/ann/1":
            count = len(self.lines)
            self.lines.clear()
            return cache_server.Reply(200, "text/plain", b"temporary roots %d\n" % count)
        user, name = (word.encode() for word in target.split("/")[3:])
        if method == "DELETE":
            self.lines.pop()
        else:
            self.lines.append(b"gcroots/per-user/%s/%s /nix/store/%s\n" % (user, name, body[6:-2]))
        return cache_server.Reply(200, "text/plain", b"done\n")


def test_roots_count(monkeypatch):
    """A listing of all roots, for which any user may ask, counts as well, however short names are: those that are there
    when a server starts, and those that are set. Those that are dropped don't count for long."""
    monkeypatch.setattr(cache_roots, "AGAIN", 1000)
    ann, server = cache_server.Caller("ann", None), Rooted([b"gcroots/%d /nix/store/x\n" % at for at in range(100)])
    roots = cache_roots.Roots(server, "/nix/store")
    limit = cache_limit.Limit(None, None, lambda: 1, lambda: cache_limit.LISTINGS * roots.size)
    limit.memory = 6 * 30_000 / cache_limit.TOGETHER
    passing = cache_passing.Passing(server, None, None, limit, None, None, [], 60, roots)

    def ask(method, target, text=b""):
        return passing.answered(cache_server.Request(ann, method, target, text))

    def put(name, base):
        return ask("POST", f"/root/user/ann/{name}", b"path: %s\n\n" % base)

    async def drop():
        before = roots.size
        for at in range(300):
            await ask("DELETE", f"/root/user/ann/{at}")
        assert server.size() <= roots.size < before / 1.5
        del server.lines[100:]
        before = roots.size
        for at in range(2):
            await ask("DELETE", "/temp/ann/1")
        assert roots.size == before - 100 * cache_roots.LEAST and not server.lines

    async def run():
        await put("first", b"x")
        assert server.listings == 1 and roots.size >= server.size()
        for at in range(500):
            await put(f"{at:02}", b"0" * (at % 40))
            assert roots.size >= server.size()

    with pytest.raises(cache_limit.Full):
        asyncio.run(run())
    assert 20_000 < server.size() < 30_000 and server.listings < 20
    asyncio.run(drop())
    server.lines += [b"gcroots/%d /nix/store/x\n" % at for at in range(2000)]
    server.connections = 2
    with pytest.raises(cache_limit.Full):
        asyncio.run(put("another", b"x"))


def test_figures_take_what_is_left(monkeypatch):
    """An overview is made where there is memory for its objects and its roots, besides those that were read before."""
    left = [cache_overview.EACH * 10]
    overviews = cache_overview.Overviews(None, "/nix/store", (False, True), None, None, left=lambda: left[0])
    assert overviews.most(0) == 10
    assert overviews.most(5) == 15
    overviews.make_room(400, 400)
    with pytest.raises(cache_http.Answered, match="too much memory"):
        overviews.make_room(401, 400)
    left[0] = 1 << 40
    assert overviews.most(0) == cache_overview.LINES
    with pytest.raises(cache_http.Answered, match="too much memory"):
        overviews.make_room(1 << 15, 1 + (1 << 15))
    monkeypatch.setattr(cache_limit, "TOGETHER", 0.5)
    limit = cache_limit.Limit(None, None, lambda: 100, lambda: 50)
    limit.memory = 400
    assert limit.left() == 50
    assert cache_limit.Limit(None, None).left() is None, "of a server that is elsewhere nothing is known"
