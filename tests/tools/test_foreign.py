"""Tests the tools with a server and a bucket that answer what no store and no bucket does."""
import hashlib
import itertools
import time
import types

import pytest

from nixkeep_dev.build.program import HERE
from nixkeep_dev.testing import nar, report
from nixkeep_tools import blob_reading, blobs, blobs_command, http_client, objects, pointers, real_nix
from nixkeep_tools.failures import Stop
from tests.tools import replies
from tests.tools.servers import answering, ran

REMOTE = f"{HERE}/tools/nixkeep-remote"
ARCHIVE = nar.archive(b"x")
# (the bounds of the tools are a million objects and 256 MiB)
OBJECTS, BYTES = 300, 1 << 20
# A title for the terminal's window, a colour, what isn't ASCII, and a carriage return.
ESCAPES = b"/nix/store/\x1b]0;owned\x07\x1b[31m\xff\xc2\x9b\r\n"
# What comes before the number of an object in its base name.
BEFORE = len(f"{'0' * 32}-x")


def base(number):
    return nar.hidden(f"x{number}")


def record(name, refs=(), size=len(ARCHIVE), more=""):
    return (f"StorePath: /nix/store/{name}\nURL: nar/{name}\nCompression: none\nNarHash: {nar.nar_hash(ARCHIVE)}\n"
            f"NarSize: {size}\nReferences: {' '.join(refs)}\n{more}").encode()


def text(status, given):
    return status, "text/plain", given


def store(url):
    made = objects.Store(http_client.Server(http_client.Place(url), {"store-user": "ann"}), "ann", "/nix/store")
    made.session = 1
    return made


def stops(work, wanted):
    """The work ends with a line that has this in it."""
    with pytest.raises(Stop) as raised:
        work()
    assert wanted in raised.value.line and "\n" not in raised.value.line


RECORDS = {
    "references without an end": (lambda name: record(name, [base(int(name[BEFORE:]) + 1)]),
                                  f"more than {OBJECTS} objects"),
    "many of them": (lambda name: record(name, [base(int(name[BEFORE:]) * 4000 + at) for at in range(1, 4001)]),
                     f"more than {OBJECTS} objects"),
    "more references than an object may have": (lambda name: record(name, map(base, range(objects.REFERENCES + 1))),
                                                "isn't the record"),
    "the same one again and again": (lambda name: record(name, [base(int(name[BEFORE:]) + 1)] * 4000),
                                     "more than 20000 references"),
    "a size of 30 digits": (lambda name: record(name, size="9" * 30), "isn't the record"),
    "a size below none": (lambda name: record(name, size=-1), "isn't the record"),
    "a deriver that is no path": (lambda name: record(name, more="Deriver: ../../x\n"), "isn't the record"),
    "bytes that are no text": (lambda name: record(name) + b"\xff", "isn't the record"),
    "one of a store": (lambda name: record(name, [name]), None),
}


@pytest.mark.parametrize("what", RECORDS)
def test_records_of_a_closure(what, monkeypatch):
    """References without an end, records of other sizes and names than a store has."""
    monkeypatch.setattr(objects, "CLOSURE", OBJECTS)
    monkeypatch.setattr(objects, "LINKS", 20_000)
    made, line = RECORDS[what]
    with answering(lambda method, target, _: text(200, made(target[6:]) if method == "GET" else b"done\n")) as url:
        closure = lambda: store(url).closure([base(0)])
        if line:
            stops(closure, line)
        else:
            assert base(0) in repr(closure())


def test_a_large_archive_goes_to_nix_in_pieces():
    """A server says how large it is, so it may have no end. No more than a piece of it is in memory."""
    nix, written = real_nix.Nix.__new__(real_nix.Nix), []
    nix.folder, stdin = "/nix/store", types.SimpleNamespace(write=written.append, flush=lambda: None)
    nix.process, nix.number, nix.valid = types.SimpleNamespace(stdin=stdin), lambda: 1, lambda _: set()

    def pieces():
        for at in range(3):
            yield b"piece %d" % at
            assert written[-1] == b"piece %d" % at, "it is sent before the next one comes"

    assert nix.put(objects.read_record(record(base(0), size=1 << 60).decode()), b"", pieces)
    assert written[-3:] == [b"piece %d" % at for at in range(3)]


def test_replies(monkeypatch):
    """A refusal with a long number, a reply that is too long, and one without an end."""
    with answering(lambda *_: text(400, b"refused: %s x\n" % (b"9" * 5000))) as url:
        stops(lambda: store(url).ask("GET", "/paths"), "failed: proxy")
    with answering(lambda *_: text(200, b"\xff\n")) as url:
        assert store(url).valid(["x"]) == set(), "paths that are no text"
    monkeypatch.setattr(http_client, "MOST_OF_REPLY", BYTES)
    with answering(lambda *_: text(200, b"x" * BYTES)) as url:
        assert store(url).ask("GET", "/paths") == (None, b"x" * BYTES), "one as long as it may be"
    with answering(lambda *_: text(200, b"x" * (BYTES + 1))) as url:
        stops(lambda: store(url).ask("GET", "/paths"), f"more than {BYTES} bytes")
    with answering(lambda *_: text(200, None)) as url:
        stops(lambda: store(url).ask("GET", "/paths"), f"more than {BYTES} bytes")
        stops(store(url).takes_large, f"more than {BYTES} bytes")


@pytest.mark.needs("python3-aiohttp", "python3-jinja2")
def test_an_overview_of_a_server_without_an_end():
    """Nothing of its reply is read. (nixkeep-cache reads the replies of its server in the same way)"""
    with answering(lambda *_: text(200, None)) as url:
        place = url.removeprefix("http://")
        status, _, said = ran([f"{HERE}/tools/nixkeep-overview", "--store", place, "--user", "ann"])
    assert status == 1 and b"a reply of %d bytes" % (1 << 40) in said and said.count(b"\n") == 1


CHUNKED = replies.reply("transfer-encoding: chunked", text=b"1\r\nx\r\n0\r\n")
ENDLESS = {"interim replies": (b"", b"HTTP/1.1 100 Continue\r\n\r\n"),
           "fields after the last chunk": (CHUNKED, b"a: b\r\n"),
           "fields of a head": (b"HTTP/1.1 100 Continue\r\n", b"a: b\r\n"), "a line": (b"", b"x")}


@pytest.mark.parametrize("what", ENDLESS)
def test_heads_without_an_end(what):
    """What a client reads ahead of a text, or after it, has an end."""
    first, more = ENDLESS[what]
    with replies.server([itertools.chain([first], itertools.repeat(more * 1000))]) as url:
        stops(lambda: store(url).ask("GET", "/paths"), "the answer isn't HTTP")


def remote(url, *words):
    return ran([REMOTE, "--server", url, "--as", "ann", "--store-dir", "/nix/store", *words])[:2]


@pytest.mark.parametrize("words", [["list"], ["roots"], ["gc"], ["info", base(0)], ["add-text", "x"]], ids=" ".join)
def test_what_a_terminal_would_take_for_a_command(words):
    """It is printed as an escape."""
    with answering(lambda *_: text(200, ESCAPES)) as url:
        assert remote(url, *words) == (0, b"/nix/store/\\x1b]0;owned\\x07\\x1b[31m\\xff\\xc2\\x9b\\x0d\n")


def test_escapes_elsewhere():
    with answering(lambda *_: text(200, ESCAPES)) as url:
        line = store(url).set_root("root", "x", base(0))
        assert not line.isprintable() and "\x1b" not in line
    with answering(lambda *_: (200, "application/octet-stream", ESCAPES)) as url:
        assert remote(url, "cat-nar", base(0)) == (0, ESCAPES), "an archive is printed as it is"


@pytest.mark.needs("python3-aiohttp", "python3-jinja2")
def test_escapes_in_what_an_overview_is_denied():
    with answering(lambda *_: text(403, b"denied: x \x1b]0;owned\x07\n")) as url:
        came = ran([f"{HERE}/tools/nixkeep-overview", "--store", url.removeprefix("http://"), "--user", "ann"])
    assert came == (1, b"", b"nixkeep-overview: denied: x \\x1b]0;owned\\x07\n")


@pytest.mark.needs("python3-aiohttp")
def test_escapes_in_why_a_bucket_fails(monkeypatch, capfd):
    def place_of(*_):
        raise blobs.Failed("s3://b: \x9b2J\x1b[2J")

    monkeypatch.setattr(blobs, "place_of", place_of)
    with pytest.raises(SystemExit) as ended:
        blobs_command.main(["verify", "--server", "http://127.0.0.1:1", "--user", "ann", "--blobs", "s3://b"])
    assert (ended.value.code, capfd.readouterr().err) == (1, "nixkeep-cache: s3://b: \\x9b2J\\x1b[2J\n")


@pytest.fixture
def bucket(monkeypatch):
    """A bucket at a URL."""
    report.skip_without("python3-boto3")
    from nixkeep_tools import blobs_bucket

    for name, value in (("ACCESS_KEY_ID", "a"), ("SECRET_ACCESS_KEY", "b"), ("DEFAULT_REGION", "us-east-1")):
        monkeypatch.setenv(f"AWS_{name}", value)
    monkeypatch.setattr(blobs_bucket, "TRIES", 1)
    return lambda url: blobs_bucket.Bucket("b", "p", "parts", url)


BLOB, OCTETS = bytes(range(256)), "application/octet-stream"


def part(at):
    return 206, OCTETS, BLOB[at:], ("content-range", f"bytes {at}-255/256")


@pytest.mark.parametrize("reply, is_right", [(part(100), True), ((200, OCTETS, BLOB), False), (part(107), False),
                                             (part(1000), False)],
                         ids=["that part", "all in the place of a part", "another part", "a part of another place"])
def test_parts_of_a_blob_in_a_bucket(reply, is_right, bucket):
    with answering(lambda *_: reply) as url:
        work = lambda: bucket(url).open("0" * 52, 100).read(1000)
        if is_right:
            assert work() == BLOB[100:]
        else:
            with pytest.raises(blobs.Failed, match="another part"):
                work()


def test_a_bucket_that_does_not_answer(bucket, monkeypatch):
    from nixkeep_tools import blobs_bucket

    monkeypatch.setattr(blobs_bucket, "SECONDS", 0.5)
    with answering(lambda *_: time.sleep(2) or text(200, b"")) as url:
        place = bucket(url)
        for work in (place.size, lambda name: place.put(__file__, name)):
            with pytest.raises(blobs.Failed, match="timeout"):
                work("0" * 52)


NAMES = [f"{at:052}" for at in range(1000)]


def listing(keys, more=None):
    """What a bucket lists, and the token of the next page or None."""
    each = "<Contents><Key>%s</Key><Size>5</Size><LastModified>2026-01-01T00:00:00Z</LastModified></Contents>"
    listed = "".join(each % key for key in keys)
    listed += f"<IsTruncated>true</IsTruncated><NextContinuationToken>{more}</NextContinuationToken>" if more else ""
    return 200, "application/xml", f"<ListBucketResult>{listed}</ListBucketResult>".encode()


@pytest.mark.parametrize("status", [200, 403, 404, 500])
def test_answers_of_a_bucket_without_an_end(status, bucket, monkeypatch):
    """What is read whole of a bucket has an end."""
    from nixkeep_tools import blobs_bucket

    monkeypatch.setattr(blobs_bucket, "LONGEST", BYTES)
    with answering(lambda *_: (status, "application/xml", None)) as url:
        place = bucket(url)
        works = [lambda: [*place.list()], lambda: place.delete(NAMES[0])]
        works += [lambda: place.open(NAMES[0])] if status != 200 else []
        for work in works:
            with pytest.raises(blobs.Failed, match=f"more than {BYTES} bytes"):
                work()


def test_a_bucket_that_lists_without_an_end(bucket, monkeypatch):
    from nixkeep_tools import blobs_bucket

    monkeypatch.setattr(blobs_bucket, "MOST", 50)
    count = itertools.count()

    def reply(*_):
        at = next(count)
        return listing([f"p/{blobs.key_of(name)}" for name in NAMES[10 * at : 10 * at + 10]], f"x{at}")

    with answering(reply) as url, pytest.raises(blobs.Failed, match="more than 50 blobs"):
        list(bucket(url).list())
    assert next(count) == 6


def test_blobs_of_other_stores_in_a_bucket(bucket):
    """A prefix may be the beginning of another one."""
    keys = [f"p/{blobs.key_of(NAMES[0])}", f"p/q/{blobs.key_of(NAMES[1])}", f"q/{blobs.key_of(NAMES[2])}",
            f"p/x{blobs.key_of(NAMES[3])}", f"p/{NAMES[4]}.nar.zst", f"p//{blobs.key_of(NAMES[5])}"]
    with answering(lambda *_: listing(keys)) as url:
        assert [blob.name for blob in bucket(url).list()] == NAMES[:1]


def test_a_bucket_that_has_for_a_while_what_was_deleted(bucket, monkeypatch):
    """As one of many machines may. It is gone at once here, and uploaded anew, since it will be gone there, too."""
    from nixkeep_tools import blobs_bucket

    methods = []

    def reply(method, target, _):
        methods.append(method)
        if method == "GET" and "list-type" in target:
            return listing([f"p/{blobs.key_of(name)}" for name in NAMES[:3]])
        return (204, OCTETS, b"") if method == "DELETE" else (200, OCTETS, b"" if method == "PUT" else BLOB)

    monkeypatch.setattr(blobs_bucket, "GONE", 1)
    with answering(reply) as url:
        place = bucket(url)
        assert (place.size(NAMES[0]), place.put(__file__, NAMES[0])) == (len(BLOB), False)
        for name in NAMES[:2]:
            place.delete(name)
        assert [blob.name for blob in place.list()] == [NAMES[0], NAMES[2]], "as many as are remembered"
        assert place.size(NAMES[1]) is None and "PUT" not in methods
        assert place.put(__file__, NAMES[1]) and methods[-1] == "PUT"
        assert place.size(NAMES[1]) == len(BLOB) and not place.put(__file__, NAMES[1])


# What a bucket answers to all.
POINTS = b"<Error><Code>PermanentRedirect</Code></Error>"
BROKEN = {
    "one that points to another, which points again": (301, "application/xml", POINTS),
    "the same for a while": (307, "application/xml", b"<Error><Code>TemporaryRedirect</Code></Error>"),
    "one that names no region": (301, "application/xml", POINTS, ("x-amz-bucket-region", "evil.example/#")),
    "a page": (500, "text/html", b"<html>"),
    "an error of errors": (403, "application/xml", b"<Error><Code><a/></Code></Error>"),
    "bytes": (200, "application/xml", b"\xff\xfe"),
}


@pytest.mark.parametrize("what", BROKEN)
def test_answers_that_no_bucket_gives(what, bucket):
    with answering(lambda *_: BROKEN[what]) as url:
        place, status = bucket(url), BROKEN[what][0]
        for work in [place.size] if status in (301, 307) else [lambda _: [*place.list()], place.delete]:
            with pytest.raises(blobs.Failed):
                work(NAMES[0])


@pytest.mark.parametrize("old, new", [("2026-01-01T00:00:00Z", "99999999999999999999"), ("2026-01-01T00:00:00Z", "x"),
                                      (">5<", f">{'9' * 5000}<"), (">5<", "><"), ("Key>", "Name>")])
def test_listings_that_no_bucket_gives(old, new, bucket):
    status, media, given = listing([f"p/{blobs.key_of(NAMES[0])}"])
    with answering(lambda *_: (status, media, given.replace(old.encode(), new.encode()))) as url:
        with pytest.raises(blobs.Failed):
            list(bucket(url).list())


class Endless:
    """A place whose blob has these bytes, and then others without an end. It says another size."""

    def __init__(self, size, data, more):
        self.said, self.data, self.more = size, data, more

    def size(self, _):
        return self.said

    def open(self, *_):
        return self

    def read(self, count):
        data, self.data = self.data[:count], self.data[count:]
        return data or (self.more * (count // len(self.more) + 1))[:count]

    def close(self):
        pass


@pytest.mark.needs("python3-zstandard")
@pytest.mark.parametrize("more", ["zeros", "frames", "frames of nothing"])
def test_a_blob_without_an_end(more):
    """It is damaged, also for who only takes what it should have."""
    import zstandard

    pack = zstandard.ZstdCompressor(write_checksum=True).compress
    more = {"zeros": bytes(1000), "frames": pack(bytes(1 << 20)), "frames of nothing": pack(b"")}[more]
    file, digest = pack(ARCHIVE), lambda data: hashlib.sha256(data).digest()
    made = pointers.Pointer("/nix/store/x", digest(ARCHIVE), len(ARCHIVE), digest(file), len(file))
    name = nar.base32(made.nar_hash)
    for form in blob_reading.FORMS:
        with pytest.raises(blob_reading.Damaged):
            for _ in blob_reading.pieces(Endless(len(file), file, more), name, made, form):
                pass
    with pytest.raises(blob_reading.Damaged):
        blob_reading.measured(Endless(len(file), file, more), name)
    with pytest.raises(FileNotFoundError):
        blob_reading.measured(Endless(None, file, more), name)
