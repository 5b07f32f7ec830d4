"""Tests large archives in nixkeep-cache: the formats of pointers and blobs, what is served, sweeps, uploads by Nix.

test_large_model tries all orders of uploads, sweeps and collections on the code itself, test_large_stops what goes
wrong in an upload, test_large_watch what is watched, and test_large_attacks who may write blobs or takes what others
need.
"""
import contextlib
import errno
import hashlib
import io
import lzma
import os
import random
import sqlite3
import subprocess
import tempfile
import time
from pathlib import Path

import pytest

import parts
from nixkeep_dev.testing import nar
from nixkeep_tools import blob_packing, blobs, blobs_folder, cache_records, pointers
from parts import body, some_path
from tests.tools import cached
from tests.tools.large import LEAST, Team

pytestmark = pytest.mark.needs("curl", "python3-aiohttp", "python3-zstandard")
# A pointer, as docs/POINTERS.md has it: the SHA-256 of "abc" (FIPS 180-2) is that of the archive, and that of "" is
# that of its file. The digits were made by `nix-hash --type sha256 --to-base32`.
EXAMPLE = b"""nixkeep-pointer 1: the archive of this path is in the blobs of nixkeep-cache
path: /nix/store/xv2iccirbrvklck36f1g7vldn5v58vck-myfile
nar-hash: sha256:1b8m03r63zqhnjf7l5wnldhh7c134ap5vpj0850ymkq1iyzicy5s
nar-size: 314572800
file-hash: sha256:0mdqa9w1p6cmli6976v4wi0sw9r4p5prkj7lzfd1877wk11c9c73
file-size: 104857600
compression: zstd
"""
ABC, NOTHING = hashlib.sha256(b"abc").digest(), hashlib.sha256(b"").digest()
PATH = "/nix/store/xv2iccirbrvklck36f1g7vldn5v58vck-myfile"
PADDED = EXAMPLE + b"\n" * (1024 - len(EXAMPLE))
ARCHIVE = nar.strings(b"nix-archive-1", b"(", b"type", b"regular", b"contents", PADDED, b")")


def test_a_pointer_byte_by_byte():
    made = pointers.Pointer(PATH, ABC, 314_572_800, NOTHING, 104_857_600)
    assert pointers.archive(made) == ARCHIVE
    page = Path(f"{parts.ROOT}/docs/POINTERS.md").read_text()
    assert page.split("```\n")[1] == EXAMPLE.decode()
    assert pointers.read(ARCHIVE, PATH) == made
    assert (len(ARCHIVE), pointers.SIZE) == (1136, 1136)
    longest = made._replace(path=f"/{'s' * 199}/{'0' * 32}-{'n' * 211}", nar_size=2**63 - 1, file_size=2**63 - 1)
    assert pointers.read(pointers.archive(longest), longest.path) == longest, "the longest path and the largest sizes"


@pytest.mark.parametrize("old, new", [
    (b"-myfile", b"-mYfile"), (b"pointer 1", b"pointer 2"), (b"compression: zstd", b"compression: none"),
    (b"nar-size: 3", b"nar-size: 0"), (b"sha256:1b8m", b"sha256:1e8m"), (b"sha256:1b8m", b"sha256:zb8m"),
    (b"zstd\n", b"zstd\r"), (ARCHIVE[-20:-19], b"x"), (b"regular", b"regulaR"), (ARCHIVE, ARCHIVE[:-1]),
    (ARCHIVE, ARCHIVE + b"\0"), (ARCHIVE, b"")],
    ids=["another path", "another version", "another compression", "a size that begins with 0",
         "a digit that isn't one of base 32", "a hash above 256 bits", "a carriage return",
         "another byte", "an executable file", "a byte less", "a byte more", "nothing"])
def test_what_is_no_pointer(old, new):
    assert pointers.read(ARCHIVE.replace(old, new, 1), PATH) is None


NOISE = nar.archive(random.Random(1).randbytes(3_000_000) + bytes(9_000_000))


def zstd_of(data):
    import zstandard

    return zstandard.ZstdCompressor(level=3).compress(data)


PACK = {"none": bytes, "xz": lambda data: lzma.compress(data, preset=0), "zstd": zstd_of}


@pytest.mark.parametrize("compression", PACK)
def test_archives_become_blobs(compression):
    """As they are or compressed."""
    import zstandard

    sent, out = PACK[compression](NOISE), io.BytesIO()
    made = blob_packing.packed(io.BytesIO(sent), compression, out, 1)
    file = out.getvalue()
    hashes = [hashlib.sha256(data).digest() for data in (sent, NOISE, file)]
    assert made == (hashes[0], hashes[1], len(NOISE), hashes[2], len(file))
    assert zstandard.ZstdDecompressor().stream_reader(file).read() == NOISE
    assert compression != "zstd" or file == sent, "it stays as it is"


BROKEN = {
    "a cut xz": ("xz", lambda: PACK["xz"](NOISE)[:-9], "ends too early"),
    "two xz": ("xz", lambda: 2 * PACK["xz"](NOISE), "follows its end"),
    "no xz": ("xz", lambda: b"no xz", "can't be unpacked"),
    "a cut zstd": ("zstd", lambda: zstd_of(NOISE)[:-9], "ends too early"),
    "a zstd with more after it": ("zstd", lambda: zstd_of(NOISE) + b"more", "can't be unpacked"),
    "what is no archive": ("none", lambda: b"no archive", "no archive"),
    "nothing": ("none", lambda: b"", "no archive"),
    "64 MiB of zeros in a small file": ("zstd", lambda: zstd_of(bytes(64 << 20)), "no archive"),
}


@pytest.mark.parametrize("what", BROKEN)
def test_broken_archives(what):
    compression, sent, word = BROKEN[what]
    with pytest.raises(cache_records.Bad, match=word):
        blob_packing.packed(io.BytesIO(sent()), compression, io.BytesIO(), 1)


def test_the_ends_of_frames():
    """Whether zstd's frames are whole is known at each byte, as zstandard itself says it of one frame."""
    import zstandard

    def is_whole(data, count):
        source = blob_packing.Frames(io.BytesIO(data))
        while source.read(count):
            pass
        return source.is_whole()

    rng = random.Random(5)
    texts = [b"", b"a", bytes(300), rng.randbytes(300), bytes(140_000), b"abc" * 90_000]
    made = [zstandard.ZstdCompressor(level=level, write_checksum=checked, write_content_size=sized)
            for level in (1, 19) for checked in (False, True) for sized in (False, True)]
    for text in texts:
        for compressor in made:
            data, ends = compressor.compress(text), []
            for end in range(1, len(data) + 1):
                one = zstandard.ZstdDecompressor().decompressobj()
                one.decompress(data[:end])
                ends += [end] if one.eof else []
            assert [end for end in range(1, len(data) + 1) if is_whole(data[:end], 7)] == ends == [len(data)]
    skipped = b"\x5a\x2a\x4d\x18\x05\0\0\0hello"
    data = skipped + b"".join(made[3].compress(part) for part in texts[:4]) + skipped
    bounds = [0, len(skipped)]
    for part in texts[:4]:
        bounds.append(bounds[-1] + len(made[3].compress(part)))
    assert [end for end in range(len(data) + 1) if is_whole(data[:end], 11)] == [*bounds, len(data)]
    sizes = [len(piece) for piece in blob_packing.of_zstd(io.BytesIO(made[0].compress(bytes(64 << 20))))]
    assert (sum(sizes), max(sizes) <= 1 << 20) == (64 << 20, True), "64 MiB in a small file come in pieces"


def test_a_blob_goes_to_the_disk_while_it_is_written(folder, monkeypatch):
    """And a disk that fails then is seen."""
    calls, sent = [], zstd_of(nar.archive(random.Random(9).randbytes(4_000_000)))

    def failing(number):
        calls.append(os.fstat(number).st_size)
        raise OSError(errno.EIO, "no disk")

    def written():
        with open(f"{folder}/synced", "wb") as out:
            return blob_packing.packed(io.BytesIO(sent), "zstd", out, 1)

    monkeypatch.setattr(blob_packing.Synced, "EACH", 1 << 20)
    assert written().file_size == len(sent)
    monkeypatch.setattr(os, "fdatasync", failing)
    with pytest.raises(OSError) as raised:
        written()
    assert raised.value.errno == errno.EIO
    assert calls and 0 < calls[0] < len(sent), "before the end"


def test_a_folder_of_blobs_has_one_process(folder):
    held = blobs_folder.Folder(f"{folder}/once")
    held.begin()
    with pytest.raises(blobs.Failed, match="another nixkeep-cache"):
        blobs_folder.Folder(f"{folder}/once").begin()


# ---- what is served


class Served:
    """A store with a large archive, and what its record was uploaded with."""

    def __init__(self, team):
        rng = random.Random(2)
        self.team, self.rng, self.archive = team, rng, nar.archive(rng.randbytes(300_000))
        self.path, small = some_path(rng, "large"), some_path(rng, "low")
        assert team.upload(small, nar.archive(b"low"))[0] == 200
        self.references, self.deriver = [self.path[11:], small[11:]], some_path(rng, "it.drv")[11:]
        lines = ("References", " ".join(self.references)), ("Deriver", self.deriver)
        assert team.upload(self.path, self.archive, *lines) == (200, f"{self.path}\n".encode())
        self.whole = team, self.path, self.archive


@pytest.fixture(scope="module")
def served(program):
    with tempfile.TemporaryDirectory() as folder, Team(program, folder) as team:
        yield Served(team)


def test_what_is_stored(served):
    """The store's file has a pointer, and the record has the hashes and sizes of the archive."""
    team, path, archive = served.whole
    fields, file = team.fields(path), team.file(archive).read_bytes()
    team.end()
    with contextlib.closing(sqlite3.connect(team.words[team.words.index("--db") + 1])) as conn:
        made = next(row for row in conn.execute("SELECT * FROM object") if row[0] == path[11:])
    team.start()
    pointer = pointers.Pointer(path, hashlib.sha256(archive).digest(), len(archive), hashlib.sha256(file).digest(),
                               len(file))
    assert pointers.archive(pointer) in made and made[-1] is None, "a pointer, and no content address"
    wanted = {"StorePath": path, "Compression": "zstd", "NarSize": str(len(archive)), "FileSize": str(len(file)),
              "NarHash": nar.nar_hash(archive), "FileHash": nar.nar_hash(file),
              "References": " ".join(sorted(served.references)), "Deriver": served.deriver}
    assert {key: fields.get(key) for key in wanted} == wanted
    old = team.fields(path, "-A", "curl/7.74.0 Nix/2.3.16")
    assert [old[key] for key in ("Compression", "FileHash", "FileSize")] == [
        "none", wanted["NarHash"], wanted["NarSize"]], "Nix 2.3, which can't read zstd, gets it as it was"


def test_a_copy_has_the_pointer(served, program, folder):
    """And nothing of the archive."""
    team = served.team
    config = "--config", f"{team.folder}/store.toml"
    ran = subprocess.run([f"{parts.TOOLS}/nixkeep-backup", "fetch", *config, "--program", program, "--server",
                          f"unix:{team.place}", "--to", folder], capture_output=True, text=True)
    assert (ran.returncode, ran.stderr) == (0, "")
    words = [program, *config, "--db", f"{folder}/{os.listdir(folder)[0]}", "--user", "build", "cat-nar", served.path]
    raw = subprocess.run(words, capture_output=True).stdout
    line = team("build", "GET", "/pointers")[1].decode().splitlines()[0]
    assert pointers.read(raw, served.path) == pointers.read_line(line)


def test_both_forms_whole_and_in_ranges(served):
    team, path, archive = served.whole
    url, file = "/" + team.fields(path)["URL"], team.file(archive).read_bytes()
    plain = url.replace("/zstd/", "/none/")
    get = lambda target, *more: team("bob", "GET", target, None, *more)
    assert get(url) == (200, file), "the file"
    assert get(plain) == (200, archive), "the archive as it was"
    for form, whole in ((url, file), (plain, archive)):
        for given, part in [("0-0", whole[:1]), ("100-199", whole[100:200]), ("1000-", whole[1000:]),
                            ("-50", whole[-50:]), (f"10-{len(whole) + 5}", whole[10:]), ("0-", whole)]:
            came = get(form, "-H", f"range: bytes={given}")
            assert (came[0], came[1] == part) == (200 if given == "0-" else 206, True), f"range {given}: its bytes"
        assert get(form, "-H", f"range: bytes={len(whole)}-")[0] == 416, "a range beyond the end"
    tag = nar.digest(archive)
    assert get(plain, "-H", f'if-none-match: "{tag}"')[0] == 304, "who has it is told so"
    assert get(plain, "-H", "range: bytes=5-", "-H", 'if-range: "x"') == (200, archive), "of another archive"
    assert get(url.replace("/large/", f"/large/{'0' * 52}/")[:60] + url[60:])[0] == 404, "another hash isn't there"
    head = subprocess.run(["curl", "-sI", "--unix-socket", team.place, "-H", "store-user: bob", f"http://red{url}"],
                          capture_output=True, text=True).stdout.lower()
    assert f"content-length: {len(file)}\n" in head and " 200 " in head, ("HEAD has its length", head)
    assert team("eve", "GET", url) == (403, b"denied: connect\n"), "a stranger gets nothing"


def test_own_requests_of_the_store_and_of_nix(served):
    """They have what a pointer names."""
    team, path, archive = served.whole
    record = team("bob", "GET", f"/info/{path[11:]}")[1].decode()
    assert f"\nNarSize: {len(archive)}\n" in record, ("info has the real size", record)
    assert team("bob", "GET", f"/nar/{path[11:]}") == (200, archive), "nar has the archive"
    name = nar.digest(archive)
    assert team("bob", "GET", f"/nar/{name}.nar") == (200, archive), "by the record of an upload"
    packed = lzma.compress(other := nar.archive(random.Random(8).randbytes(100_000)), preset=0)
    file, path = cached.file_name(packed, ".xz"), some_path(random.Random(8), "xz")
    assert team("build", "PUT", f"/nar/{file}", packed)[0] == 201, "an upload by xz"
    assert team("build", "HEAD", f"/nar/{file}", None, "-I")[0] == 200, "is there for the next"
    given = cached.record(path, other, file, compression="xz")
    assert team("build", "PUT", f"/{path[11:43]}.narinfo", given)[0] == 200, "its record"
    assert lzma.decompress(team("bob", "GET", f"/nar/{file}")[1]) == other, "its file"


def test_who_may_put_pointers_there(served):
    """And what only looks like one."""
    team, rng = served.team, served.rng
    archive, path = nar.archive(rng.randbytes(200_000)), some_path(rng, "theirs")
    assert team.put(archive, "ann") == (403, b"denied: trusted-import\n"), "who isn't trusted uploads no large archive"
    assert not team.file(archive).exists() and not team.incoming(), "and nothing of it is kept"
    given = [("path", path), ("nar-hash", nar.nar_hash(archive))]
    assert team("ann", "POST", "/import", body(*given, payload=archive)) == (403, b"denied: trusted-import\n")
    assert team("build", "POST", "/import", body(*given, payload=archive)) == (200, f"{path}\n".encode())
    assert team("ann", "GET", f"/nar/{path[11:]}") == (200, archive), "and it is read"
    fake = lambda of: pointers.contents(pointers.Pointer(of, hashlib.sha256(archive).digest(), len(archive),
                                                         hashlib.sha256(b"").digest(), 5))
    digits = nar.text_path("fake", b"x")
    text = team("ann", "POST", "/text", body(("name", "fake"), payload=fake(f"/nix/store/{digits}")))[1]
    text = text.decode().strip()
    assert team("bob", "GET", f"/nar/{text[11:]}")[1] == nar.archive(fake(f"/nix/store/{digits}")), "it is a text"
    mine = some_path(rng, "mine")
    data = nar.archive(fake(mine))
    given = [("path", mine), ("nar-hash", nar.nar_hash(data))]
    assert team("build", "POST", "/import", body(*given, payload=data)) == (403, b"denied: pointer\n")
    assert team.upload(mine, data) == (403, b"denied: pointer\n"), "nor uploads one"
    other = nar.archive(fake(path))
    assert team.upload(some_path(rng, "other"), other)[0] == 200, "the pointer of another path is a file like any other"


def test_a_sweep(served):
    """It deletes what no object names any more and is old enough."""
    (team, path, archive), rng = served.whole, served.rng
    unused = nar.archive(rng.randbytes(150_000))
    assert team.put(unused)[0] == 201, "an archive whose record never comes"
    assert team.tool("sweep")[1][-1].split(",")[0] == "swept 0 blobs 0 bytes", "stays for the time of grace"
    assert team.verify()[0] == 0, "all blobs are whole"
    team.end()
    old = time.time() - 100_000
    for blob in Path(team.blobs).glob("??/*"):
        os.utime(blob, (old, old))
    team.start()
    file, size = team.file(unused), team.file(unused).stat().st_size
    assert team.tool("sweep", "--dry-run") == (0, [f"would delete {file.name[:52]} {size}",
                                                   f"swept 1 blob {size} bytes, kept 3"]), "later it is named"
    assert file.exists(), "by a trial that deletes nothing"
    said = team.tool("sweep", "--grace", "200000")[1][-1]
    assert said == "swept 0 blobs 0 bytes, kept 4", "a longer grace keeps it"
    assert team.tool("sweep") == (0, [f"deleted {file.name[:52]} {size}", f"swept 1 blob {size} bytes, kept 3"])
    assert (file.exists(), team.verify()[0]) == (False, 0), "what objects name is there"
    assert team.record(some_path(rng, "late"), unused)[0] == 400, "its record comes too late"
    team("build", "DELETE", "/temp/build/4194304")
    assert team("build", "POST", "/delete", body(("path", path)))[0] == 200, "an object is deleted"
    assert team.tool("sweep")[1][-1].split(" bytes")[0].split(" ")[:2] == ["swept", "1"], "and its blob by a sweep"
    assert (team.upload(path, archive)[0], team("bob", "GET", f"/nar/{path[11:]}")[1] == archive) == (200, True)


# ---- Nix


@pytest.fixture
def fixed(program, folder):
    """The server of a store, and the address of a cache whose clients are all one user."""
    Path(config := f"{folder}/store.toml").write_text(cached.CONFIG)
    more = "--user", "build", "--blobs", f"{folder}/blobs", "--large-from", str(LEAST)
    with parts.server(program, folder, config, f"{folder}/store.db") as store, \
            parts.cache(folder, store.place, None, *more) as cache:
        yield store, f"http://127.0.0.1:{cache.place}"


needs_nix = pytest.mark.needs("nix", "nix-store")


@needs_nix
@pytest.mark.parametrize("compression", PACK)
def test_a_closure_by_nix(compression, fixed, folder):
    """One that mixes small and large objects is uploaded, and fetched."""
    _, url = fixed
    here, there = parts.Nix(f"{folder}/from"), parts.Nix(f"{folder}/to")
    large = 40_000_000 if compression == "none" else 2_000_000
    made = here.outputs(here.texts(1, compression), [10, large, 200, 150_000], random.Random(3))
    here("nix", "copy", "--to", f"{url}?compression={compression}", made[-1])
    there("nix", "copy", "--from", f"{url}?trusted=true", made[-1])
    assert all(there.archive(stored) == here.archive(stored) for stored in made)
    assert all(there.references(stored) == here.references(stored) for stored in made)
    here.run("nix-store", "--delete", *made[1:])
    here("nix", "copy", "--from", f"{url}?trusted=true", made[-1])
    assert there.archive(made[1]) == here.archive(made[1]), "back in the first, which asks for the files that it sent"
    sizes = there("nix", "path-info", "--size", *made).split()[1::2]
    listed = there("nix", "path-info", "--store", f"{url}?trusted=true", "--size", *made).split()
    assert listed[1::2] == sizes, "the sizes of archives"
    listed = there("nix-store", "--store", url, "--query", "--references", made[-1]).split()
    assert sorted(listed) == here.references(made[-1])


def closure(nix, *words):
    """The status and what nixkeep-closure says, with a store of Nix."""
    words = [f"{parts.TOOLS}/nixkeep-closure", "--nix-store", nix.env["NIX_REMOTE"], *words]
    ran = subprocess.run(words, env=nix.env, capture_output=True, text=True)
    return ran.returncode, ran.stdout + ran.stderr


@needs_nix
def test_large_objects_by_closure_and_remote(fixed, folder, program):
    store, url = fixed
    here, there, rng = parts.Nix(f"{folder}/from"), parts.Nix(f"{folder}/to"), random.Random(3)
    made = here.outputs(here.texts(1, "tools"), [10, 17_000_000, 25_000_000], rng)
    at = "--server", url, "--me", "build"
    status, said = closure(here, *at, "push", "--root", "tools", made[-1])
    assert status == 0 and "pushed 4 objects" in said, said
    status, said = closure(there, *at, "pull", made[-1])
    assert status == 0 and "pulled 4 objects" in said, said
    assert [there.archive(stored) == here.archive(stored) for stored in made] == [True] * 3
    remote = lambda *words, **more: subprocess.run([f"{parts.TOOLS}/nixkeep-remote", *at, *words],
                                                   capture_output=True, **more).stdout
    assert remote("cat-nar", made[2]) == here.archive(made[2])
    assert f"NarSize: {len(here.archive(made[2]))}\n".encode() in remote("info", made[2])
    archive, path = nar.archive(rng.randbytes(30_000_000)), some_path(rng, "remote")
    given = body(("path", path), ("nar-hash", nar.nar_hash(archive)), payload=archive)
    assert remote("import", input=given) == f"{path}\n".encode(), "a body above 20 MiB"
    store.end()
    own = "--db", f"{folder}/store.db"
    more = "--config", f"{folder}/store.toml", "--program", program, "--as", "build"
    status, said = closure(parts.Nix(f"{folder}/alone"), *own, *more, "pull", path)
    line = f"failed: pointer {path}: its archive of 30000112 bytes is in the blobs"
    assert status == 1 and said.startswith(line), "a store without its nixkeep-cache has no large archive"
    page = subprocess.run([f"{parts.TOOLS}/nixkeep-overview", *own], capture_output=True)
    assert b"python3-jinja2" in page.stderr or b"28.6 MiB" in page.stdout, "the overview counts real sizes"
