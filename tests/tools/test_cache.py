"""Tests nixkeep-cache on loopback: its replies by curl, uploads and fetches by Nix, bounds, many clients, a server that
starts again.

test_cache_store has a server that is its child, servers that die, limits and sessions, test_cache_recent records that
are answered from memory, test_cache_at_once those that are answered without aiohttp, test_cache_costs what one user's
requests cost others, test_cache_signatures signatures, and test_cache_watch metrics, health, the record of changes and
the last day.
"""
import concurrent.futures
import contextlib
import http.client
import lzma
import os
import random
import re
import signal
import socket
import subprocess
import tempfile
import time
from pathlib import Path

import pytest

import parts
from nixkeep_dev.testing import nar
from parts import body, curl, some_path
from tests.tools.cached import CONFIG, file_name, record

pytestmark = pytest.mark.needs("curl", "python3-aiohttp")
NOWHERE = "1" * 32


class Client:
    """A user who asks the cache."""

    def __init__(self, port, user):
        self.url, self.user = f"http://127.0.0.1:{port}", ["-H", f"store-user: {user}"] if user else []

    def __call__(self, method, target, given=None, *more):
        sent = ["--data-binary", "@-"] if given is not None else []
        return curl(*self.user, *sent, *more, *(["-I"] if method == "HEAD" else ["-X", method]), "--path-as-is",
                    self.url + target, given=given)

    def upload(self, path, archive, *more, compression="none", data=None):
        data = archive if data is None else data
        name = file_name(data, {"none": "", "xz": ".xz", "zstd": ".zst"}[compression])
        first = self("PUT", f"/nar/{name}", data)
        if first[0] != 201:
            return first
        return self("PUT", f"/{path[11:43]}.narinfo", record(path, archive, name, *more, compression=compression))


class Site:
    """A store's server, nixkeep-cache before it, its users and an object."""

    def __init__(self, server, cache):
        self.server, self.cache, self.port = server, cache, cache.place
        self.ann, self.build, self.eve, self.nobody = (Client(self.port, user)
                                                       for user in ("ann", "build", "eve", None))

    def add(self, name, contents):
        """Adds a text: its path."""
        return self.ann("POST", "/text", body(("name", name), payload=contents))[1].decode().strip()


@contextlib.contextmanager
def started(program, folder):
    """The server of a store."""
    Path(config := f"{folder}/store.toml").write_text(CONFIG)
    with parts.server(program, folder, config, f"{folder}/store.db") as server:
        yield server


@pytest.fixture
def server(program, folder):
    with started(program, folder) as made:
        yield made


@pytest.fixture(scope="module")
def site(program):
    with tempfile.TemporaryDirectory() as folder, started(program, folder) as server, \
            parts.cache(folder, server.place) as cache:
        yield Site(server, cache)


@pytest.fixture(scope="module")
def path(site):
    """The path of a text."""
    return site.add("greeting?a=b+c", b"hello\n")


CONTENTS = nar.archive(b"hello\n")
DIGEST = nar.digest(CONTENTS)


# ---- replies


@pytest.mark.parametrize("target, wanted", [
    ("/nix-cache-info", 200), ("/{digits}.narinfo", 200), ("/nar/{base}", 200), (f"/nar/{DIGEST}/{{base}}", 200),
    (f"/nar/{'0' * 52}/{{base}}", 404), (f"/nar/{DIGEST}/{NOWHERE}-a", 404), (f"/{NOWHERE}.narinfo", 404),
    (f"/nar/{NOWHERE}-a", 404), (f"/nar/{'0' * 52}.nar", 404), ("/nothing", 404), ("/paths", 200)])
def test_head_has_the_head_of_get_and_no_body(target, wanted, site, path):
    heads, target = [], target.format(digits=path[11:43], base=path[11:])
    with contextlib.closing(http.client.HTTPConnection("127.0.0.1", site.port)) as connection:
        for method in ("GET", "HEAD"):
            connection.request(method, target, headers={"store-user": "ann"})
            reply = connection.getresponse()
            text = reply.read()
            fields = ((key.lower(), value) for key, value in reply.getheaders())
            heads.append((reply.status, sorted(field for field in fields if field[0] != "date")))
    assert heads[0] == heads[1] and heads[0][0] == wanted and not text


def test_an_archive(site, path):
    ann, base = site.ann, path[11:]
    text = ann("GET", f"/{path[11:43]}.narinfo")[1].decode()
    assert f"\nURL: nar/{DIGEST}/{base}\n" in text, "the record names it, with its hash"
    assert ann("GET", f"/nar/{DIGEST}/{base}") == (200, CONTENTS)
    assert ann("GET", f"/nar/{base}") == (200, CONTENTS), "by the store's own request, too"
    kept = lambda tag: ann("GET", f"/nar/{DIGEST}/{base}", None, "-H", f"if-none-match: {tag}")[0]
    assert [kept(f'"{DIGEST}"'), kept('"other"')] == [304, 200], "a cache that has it is told so"


def test_what_others_may_keep(site, path):
    """nginx keeps records and archives for a minute, and no cache of others on the way to a client keeps them: who gets
    them has logged in."""
    for target in ("/nix-cache-info", f"/{path[11:43]}.narinfo", f"/nar/{DIGEST}/{path[11:]}"):
        head = site.ann("HEAD", target)[1].lower()
        assert re.findall(rb"^cache-control: (.*)\r", head, re.M) == [b"max-age=60"], target
    assert b"\ncache-control: no-store\r" in site.ann("HEAD", "/paths")[1].lower()


def test_strangers(site, path):
    eve, denied = site.eve, (403, b"denied: connect\n")
    for target in ("/nix-cache-info", f"/{path[11:43]}.narinfo", f"/nar/{path[11:]}", f"/{NOWHERE}.narinfo", "/paths"):
        assert eve("GET", target) == denied, target
    assert eve("PUT", f"/nar/{file_name(b'x')}", b"x") == denied
    bad = 400, b"refused: 20 bad-caller\n"
    assert site.nobody("GET", "/paths") == bad
    assert curl("-H", "store-user: ann", "-H", "store-user: build", f"{site.ann.url}/paths") == bad, "who says it twice"


def test_own_requests_of_the_store(site, path):
    ann, given = site.ann, body(("path", path[11:]))
    assert ann("POST", "/profile/ann/tools", given) == (200, b"generation 1\n")
    assert ann("POST", "/root/permanent/it", given) == (403, b"denied: trusted-permanent-root\n")
    assert ann("DELETE", "/paths") == (405, b"refused: 40 bad-method\n")
    assert [client("GET", "/who") for client in (ann, site.build)] == [
        (200, f"class: {kind}\nconnect: yes\n".encode()) for kind in ("allowed", "trusted")]
    assert ann("POST", "/text", bytes(20_971_521)) == (400, b"refused: 38 too-large\n")
    assert ann("GET", "/info/%61")[1] == b"refused: 14 bad-store-path\n", "a target passes as it is"


ACCEPTED = ["zstd", "br, ZSTD ;q=0.5", "gzip", "zstd;q=0", "zstd; q=0.000", "xzstd", ""]
# Contents, and for whom they are compressed.
TEXTS = {"text": (b"a line of a text\n" * 10_000, ACCEPTED[:2]), "noise": (random.Random(4).randbytes(100_000), []),
         "short": (b"x", None)}


@pytest.mark.needs("python3-zstandard")
@pytest.mark.parametrize("name", TEXTS)
def test_archives_are_compressed_where_that_saves_something(name, site):
    """For a client that reads zstd. curl unpacks it here."""
    contents, packed = TEXTS[name]
    ann, archive, sizes = site.ann, nar.archive(contents), {}
    target = f"/nar/{nar.digest(archive)}/{site.add(name, contents)[11:]}"
    for accepted in ACCEPTED:
        fields = "-H", f"accept-encoding: {accepted}"
        status, came = ann("GET", target, None, *fields, "--raw", "-D", "-")
        head, _, data = came.partition(b"\r\n\r\n")
        sizes[accepted] = len(data)
        assert (status, ann("GET", target, None, *fields, "--compressed")[1]) == (200, archive)
        assert b"vary: accept-enc" in head.lower()
        assert b"content-encoding: zstd" in head.lower() or data == archive
        tag = re.search(rb'^etag: (".*")', head, re.I | re.M)[1].decode()
        assert ann("GET", target, None, *fields, "-H", f"if-none-match: {tag}")[0] == 304, "its tag is confirmed"
    assert ann("GET", target, None, "-H", f'if-none-match: "{target[5:57]}-zstd"')[0] == 200, (
        "the tag of what is compressed isn't that of the archive")
    if packed is not None:
        assert [accepted for accepted in ACCEPTED if sizes[accepted] < 2000] == packed
        assert packed or sizes["zstd"] == sizes[""], "what doesn't get smaller isn't compressed"


def collect(site, *fields):
    """A collection that is asked for with these fields; OWN is the address of the cache."""
    # (curl leaves out a field without a value, but not one that ends with a semicolon)
    lines = [field.replace("OWN", f"http://127.0.0.1:{site.port}") for field in fields]
    lines = ["origin;" if line == "origin: " else line for line in lines]
    return site.ann("POST", "/collect", None, *[word for line in lines for word in ("-H", line)])


@pytest.mark.parametrize("fields", [
    ["origin: http://evil.example"], ["origin: null"], ["origin: "], ["sec-fetch-site: cross-site"],
    ["sec-fetch-site: same-site"], ["origin: OWN", "sec-fetch-site: cross-site"],
    ["origin: OWN", "origin: http://evil.example"], ["origin: OWN0"]], ids=", ".join)
def test_requests_of_pages_of_other_sites(fields, site):
    assert collect(site, *fields) == (403, b"denied: other-site\n")


def test_requests_of_own_pages(site):
    assert collect(site, "origin: OWN", "sec-fetch-site: same-origin")[0] == 200
    assert collect(site, "sec-fetch-site: none")[0] == 200
    origin = "origin: http://evil.example"
    assert site.ann("GET", "/paths", None, "-H", origin)[0] == 200, "a GET isn't asked for its page"


# ---- uploads


ARCHIVE = nar.archive(b"contents")


def test_uploads(site, rng):
    """What is uploaded, and by whom."""
    ann, build, output = site.ann, site.build, some_path(rng, "output")
    source = f"/nix/store/{nar.source_path('source', ARCHIVE)}"
    address = ("CA", f"fixed:r:{nar.nar_hash(ARCHIVE)}")
    assert ann.upload(source, ARCHIVE, address) == (200, f"{source}\n".encode())
    assert ann.upload(output, ARCHIVE) == (403, b"denied: trusted-import\n"), "what has no content address"
    assert ann.upload(output, ARCHIVE, address) == (400, b"refused: 16 ca-mismatch\n")
    references = ("References", f"{output[11:]} {source[11:]}")
    assert build.upload(output, ARCHIVE, references) == (200, f"{output}\n".encode())
    text = build("GET", f"/{output[11:43]}.narinfo")[1].decode()
    assert f"References: {' '.join(sorted([output[11:], source[11:]]))}\n" in text
    unknown = ("CA", f"fixed:{nar.nar_hash(ARCHIVE)}")
    assert build.upload(some_path(rng, "flat"), ARCHIVE, unknown)[0] == 200, "an address of another kind is left out"
    assert ann.upload(some_path(rng, "flat"), ARCHIVE, unknown)[0] == 403, "so only a trusted user uploads it"


@pytest.mark.needs("python3-zstandard")
def test_files_of_uploads(site, rng):
    """A client that has kept its own record gets the file."""
    build, other = site.build, nar.archive(rng.randbytes(100_000))
    sent = lzma.compress(other)
    assert build.upload(some_path(rng, "xz"), other, compression="xz", data=sent)[0] == 200, "xz is unpacked"
    status, file = build("GET", f"/nar/{file_name(sent, '.xz')}")
    assert status == 200 and lzma.decompress(file) == other
    assert build.upload(some_path(rng, "plain"), ARCHIVE)[0] == 200
    assert build("GET", f"/nar/{file_name(ARCHIVE)}") == (200, ARCHIVE), "as it is where it wasn't compressed"
    assert build("GET", f"/nar/{file_name(b'never')}")[0] == 404, "a file that was never sent"
    assert site.eve("GET", f"/nar/{file_name(ARCHIVE)}")[0] == 403, "nor is one for a stranger"


PATH = f"/nix/store/{'2' * 32}-a"
LARGE = nar.archive(bytes(nar.LIMIT))


def put(name, data=b"x"):
    return lambda build: build("PUT", name, data)


def put_record(text, path=PATH):
    return put(f"/{path[11:43]}.narinfo", text)


def upload(*more, archive=ARCHIVE, **how):
    return lambda build: build.upload(PATH, archive, *more, **how)


NEVER = file_name(b"never sent")
REFUSALS = {
    "another compression": (put(f"/nar/{file_name(b'x', '.bz2')}"), b"compression=none"),
    "another name": (put("/nar/x"), b"SHA-256 of its file"),
    "a file that its name doesn't say": (put(f"/nar/{file_name(b'x')}", b"y"), b"another SHA-256"),
    "a longer file than any archive": (put(f"/nar/{file_name(bytes(18 << 20))}", bytes(18 << 20)), b"at most 16777216"),
    "a small file that unpacks to a longer one": (
        upload(archive=LARGE, compression="xz", data=lzma.compress(LARGE, preset=0)), b"at most 16777216"),
    "a file that can't be unpacked": (upload(compression="xz", data=b"no xz"), b"can't be unpacked"),
    "a record before its archive": (put_record(record(PATH, ARCHIVE, NEVER)), b"an archive comes first"),
    "a record of another path": (put_record(record(PATH, ARCHIVE, NEVER), f"/nix/store/{NOWHERE}"), b"isn't that of"),
    "a record of another store": (put_record(record("/gnu/" + PATH[5:], ARCHIVE, NEVER)), b"/nix/store"),
    "a record that leaves its folder": (put_record(record(PATH, ARCHIVE, "../../etc/passwd")), b"nar/FILE is meant"),
    "a record without a path": (put_record(b"URL: nar/a\n"), b"no StorePath"),
    "a record of many lines": (put_record(b"a:\n" * 10_001), b"at most 10000 lines"),
    "anything else that is put": (put("/nix-cache-info", b"StoreDir: /nix/store\n"), b"only records and archives"),
    "an archive with another hash": (upload(("NarHash", f"sha256:{'0' * 52}")), b"25 nar-hash-mismatch"),
    "a reference that isn't there": (upload(("References", f"{NOWHERE}-a")), b"24 missing-reference"),
}


@pytest.mark.parametrize("what", REFUSALS)
def test_what_is_refused(what, site):
    work, word = REFUSALS[what]
    status, text = work(site.build)
    assert status == 400 and word in text


def test_lines_of_a_record():
    """They end where Nix ends them, and nowhere else."""
    from nixkeep_tools import cache_records

    text = b"StorePath: a\r\nURL: b\x0cURL: c\x1cURL: d\rURL: e\nNarHash: f\n\nSig: g\nno line\n"
    assert cache_records.fields(text) == {"StorePath": "a", "URL": "b\x0cURL: c\x1cURL: d\rURL: e", "NarHash": "f",
                                          "Sig": "g"}


# ---- bounds, and many clients


def test_what_waits_is_bounded(server, folder):
    """In number, bytes and time; one user has half of what others leave."""
    limits = ["--waiting-count", "4", "--waiting-bytes", "100000"]
    put = lambda who, data: who("PUT", f"/nar/{file_name(data)}", data)[0]
    names = lambda: [file for file in Path(folder, "waiting").iterdir() if ".nar" in file.name]
    with parts.cache(folder, server.place, None, "--proxied", *limits) as small:
        ann, bob, build = (Client(small.place, user) for user in ("ann", "bob", "build"))
        rng = random.Random("bounds")
        alone = [build.upload(some_path(rng, f"alone{at}"), nar.archive(bytes([at, at])))[0] for at in range(6)]
        assert alone == [200] * 6, "one user alone uploads more objects than may wait"
        assert [put(ann, data) for data in (b"1", b"2", b"3")] == [201, 201, 503], "a third has no room"
        assert put(bob, b"4") == 201, "another user has"
        assert put(bob, bytes(50_001)) == 503, "but not for half of the bytes"
        assert len(names()) == 4, "three wait on the disk, and one that is in the store"
        small.end()
        for file in names():
            os.utime(file, (time.time() - 3601,) * 2)
        small.start()
        assert [put(ann, b"3"), put(ann, b"5")] == [201, 201], "once the time is over there is room again"
        assert len(names()) == 2, "and the old ones are gone"
        more = [build.upload(some_path(rng, f"n{at}"), nar.archive(bytes([at])))[0] for at in range(6)]
        assert more == [200] * 6, "what is in the store makes room"
        assert len(names()) == 3, "and has half of what another user leaves"
    with parts.cache(folder, server.place, None, "--proxied", *limits) as small:
        assert put(Client(small.place, "bob"), b"6") == 201, "also after the next start"
        small.end()
        small.start()
        assert put(Client(small.place, "bob"), b"7") == 503, "where it is known whose files wait"
        assert {name.stat().st_mode & 0o777 for name in names()} == {0o600}, "and nobody else reads them"


def test_many_clients_at_once(site):
    """One of them reads nothing, and the server is killed and starts again meanwhile."""
    ann, rng, place = site.ann, random.Random(1), ("127.0.0.1", site.port)
    archive, large = nar.archive(rng.randbytes(300_000)), some_path(rng, "large")
    assert site.build.upload(large, archive)[0] == 200, "an archive of 300 KB"
    with contextlib.ExitStack() as slow, concurrent.futures.ThreadPoolExecutor(16) as pool:
        head = "host: a\r\nstore-user: ann\r\n"
        for request in [f"GET /nar/{large[11:]} HTTP/1.1\r\n{head}\r\n"] * 3 + [
                f"POST /text HTTP/1.1\r\n{head}content-length: 1000\r\n\r\nname: "]:
            slow.enter_context(socket.create_connection(place)).sendall(request.encode())
        records = [*pool.map(lambda _: ann("GET", f"/{large[11:43]}.narinfo")[0], range(64))]
        assert records == [200] * 64, "64 records for 16 clients, while three read nothing and one sends half a body"
        whole = [*pool.map(lambda _: ann("GET", f"/nar/{large[11:]}")[1] == archive, range(8))]
        assert whole == [True] * 8, "8 clients get the archive at once"
        running = [pool.submit(ann, "POST", "/text", body(("name", f"t{at}"), payload=b"x")) for at in range(40)]
        time.sleep(0.1)
        site.server.end(signal.SIGKILL)
        site.server.start()
        kept = [future.result() for future in running]
    assert {status for status, _ in kept} == {200}, "each add is answered"
    assert {text.strip() for _, text in kept} <= {*ann("GET", "/paths")[1].split()}, "and each is there"


def test_what_is_changed_while_the_server_is_away(site):
    """It is seen."""
    ann, server = site.ann, site.server
    server.end()
    words = [*server.words[: server.words.index("serve")], "--user", "ann", "add-text", "elsewhere"]
    added = subprocess.run(words, input="x", capture_output=True, text=True).stdout.strip()
    server.start()
    is_there = lambda: ann("GET", f"/{added[11:43]}.narinfo")[0]
    assert is_there() == 200, "a path that was added without the cache is found"
    assert ann("POST", "/delete", body(("path", added)))[0] == 200
    assert is_there() == 404, "a path that is deleted isn't, at once"
    assert site.add("elsewhere", b"x") == added
    assert is_there() == 200, "and when it is added again it is"


# ---- Nix


@pytest.fixture
def fixed(server, folder):
    """The address of a cache whose clients are all one user."""
    with parts.cache(folder, server.place, None, "--user", "build") as cache:
        yield f"http://127.0.0.1:{cache.place}"


def test_a_page_whose_name_was_made_to_lead_here(fixed):
    """It gets nothing."""
    at = fixed.removeprefix("http://")
    hosts = at, "localhost", "[::1]:80", "evil.example", at.replace("127.0.0.1", "evil.example")
    assert [curl("-H", f"host: {host}", f"{fixed}/paths")[0] for host in hosts] == [200, 200, 200, 403, 403]


needs_nix = pytest.mark.needs("nix", "nix-store", "python3-zstandard")


@needs_nix
@pytest.mark.parametrize("compression", ["none", "xz", "zstd"])
def test_a_closure_by_nix(compression, fixed, folder):
    """Nix uploads 12 paths, and fetches them into another store and back into the first."""
    here, there = parts.Nix(f"{folder}/from"), parts.Nix(f"{folder}/to")
    made = here.closure(12, ["none", "xz", "zstd"].index(compression), compression)
    here("nix", "copy", "--to", f"{fixed}?compression={compression}", made[-1])
    there("nix", "copy", "--from", f"{fixed}?trusted=true", made[-1])
    here.run("nix-store", "--delete", made[-1])
    here("nix", "copy", "--from", f"{fixed}?trusted=true", made[-1])
    assert all(there.archive(stored) == here.archive(stored) for stored in made)
    assert all(there.references(stored) == here.references(stored) for stored in made)


@needs_nix
def test_another_compression_by_nix(fixed, folder):
    """It has one clear line."""
    here = parts.Nix(f"{folder}/from")
    ran = here.run("nix", "copy", "--to", f"{fixed}?compression=bzip2", *here.texts(1, "bzip2"))
    assert ran.returncode and b"compression=none" in ran.stderr
