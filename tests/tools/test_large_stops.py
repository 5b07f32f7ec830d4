"""Tests of what goes wrong with large archives: after each there is no pointer, or a pointer whose blob is whole."""
import concurrent.futures
import os
import random
import signal
import subprocess
import sys
import threading
import time
from pathlib import Path

import pytest

import parts
from nixkeep_dev.testing import nar
from parts import body, some_path
from tests.tools.large import Team, archive_of, blob_key, bucket, is_sound, send_half
from tests.tools.servers import answering

BUCKET = "s3://archives/here"
needs_buckets = pytest.mark.needs("python3-boto3")
pytestmark = pytest.mark.needs("curl", "python3-aiohttp", "python3-zstandard")


@pytest.fixture
def rng():
    return random.Random(4)


@pytest.fixture
def team(program, folder):
    with Team(program, folder) as made:
        yield made


def test_a_damaged_blob(team, rng):
    """A blob that is gone or differs: an error by name, a line in the log, and never a short success."""
    archive, path = archive_of(rng), some_path(rng, "damaged")
    team.upload(path, archive)
    url, file = "/" + team.fields(path)["URL"], team.file(archive)
    plain, whole = url.replace("/zstd/", "/none/"), file.read_bytes()
    get = lambda target, *more: team("ann", "GET", target, None, *more)
    file.write_bytes(whole[:-1])
    came = get(url)
    assert came[0] == 502 and came[1].startswith(f"failed: blob-damaged {path}: ".encode()), came
    for at in (len(whole) // 2, len(whole) - 1, 0):
        file.write_bytes(whole[:at] + bytes([whole[at] ^ 1]) + whole[at + 1 :])
        for target, more in ((url, ()), (plain, ()), (url, ("-H", "range: bytes=9-"))):
            ran = subprocess.run(["curl", "-sf", "--unix-socket", team.place, "-H", "store-user: ann", *more,
                                  f"http://red{target}"], capture_output=True)
            assert ran.returncode != 0, (f"byte {at} differs: {target[:6]} {more}: the reply fails", len(ran.stdout))
    status, lines = team.verify()
    assert status == 1 and lines[0].startswith("damaged") and path in lines[0], ("verify", lines)
    assert team.upload(path, archive)[0] == 200, "an upload replaces it"
    assert (get(plain)[1] == archive, team.verify()[0]) == (True, 0), "and it is whole"
    file.unlink()
    came = team("ann", "GET", url)
    assert came[0] == 502 and came[1].startswith(f"failed: blob-missing {path}: ".encode()), came
    team.end()
    team.start()
    came = get(f"/{path[11:43]}.narinfo")
    assert came[0] == 404 and came[1].startswith(b"failed: blob-missing"), ("its path isn't offered", came)
    file.parent.rename(f"{team.folder}/elsewhere")
    file.parent.symlink_to(file.parent)
    said = get(url)[1], came[1]
    assert not any(team.folder.encode() in text for text in said), ("no reply says where the blobs are", said)
    file.parent.unlink()
    Path(f"{team.folder}/elsewhere").rename(file.parent)
    status, lines = team.verify()
    assert (status, lines[0].split(" ")[0]) == (1, "missing") and path in lines[0], ("verify", lines)
    assert "blob-damaged" in team.said() and "blob-missing" in team.said(), ("the log has both", team.said())
    assert team.upload(path, archive)[0] == 200, "an upload brings it back"
    assert get(plain)[1] == archive, "(whole)"


def test_uploads_that_differ(team, rng):
    """Uploads whose digests differ."""
    archive, other, path = archive_of(rng), archive_of(rng), some_path(rng, "differs")
    name = nar.digest(archive)
    came = team("build", "PUT", f"/nar/{name}.nar", other)
    assert came[0] == 400 and b"another SHA-256" in came[1], ("another archive than its name says", came)
    assert team.put(archive)[0] == 201, "an archive"
    came = team.record(path, archive, ("NarHash", f"sha256:{'0' * 52}"))
    assert came == (400, b"refused: 25 nar-hash-mismatch\n"), "whose record has another hash"
    low = nar.archive(b"low")
    assert team.put(low)[0] == 201, "a small archive"
    came = team.record(path, low, ("NarSize", "many"))
    assert came[0] == 400 and b"NarSize: many" in came[1], ("whose record has no number as its size", came)
    came = team.record(path, archive, ("References", "1" * 32 + "-a"))
    assert came == (400, b"refused: 24 missing-reference\n"), "or a reference that isn't there"
    given = [("path", path), ("nar-hash", nar.nar_hash(other))]
    assert team("build", "POST", "/import", body(*given, payload=archive))[0] == 400, "an import with another hash"
    assert team.fields(path)[0] == 404, "none of them is there"
    assert [record["status"] for record in team.records()[-7:]] == [400, 201, 400, 201, 400, 400, 400]
    is_sound(team)


def test_uploads_at_once(team, rng):
    """Two uploads of one path at once, and of one archive to several paths."""
    archive, path = archive_of(rng, 3_000_000), some_path(rng, "twice")
    many = [path, path, *(some_path(rng, f"more{at}") for at in range(4))]
    with concurrent.futures.ThreadPoolExecutor(6) as pool:
        replies = [*pool.map(lambda target: team.upload(target, archive), many)]
    assert {status for status, _ in replies} == {200}, "six uploads of an archive at once"
    assert len([*Path(team.blobs).glob(f"??/{team.file(archive).name}")]) == 1, "it is there once"
    is_sound(team)


def test_clients_that_leave(team, rng):
    """Clients that leave in the middle."""
    archive, path = archive_of(rng, 5_000_000), some_path(rng, "left")
    name = nar.digest(archive)
    given = body(("path", path), ("nar-hash", nar.nar_hash(archive)), payload=archive)
    for method, target, data in (("PUT", f"/nar/{name}.nar", archive), ("POST", "/import", given * 5)):
        client = send_half(team, method, target, data[:1_000_000], 1 << 30)
        parts.until("a part of 1 GiB has come", team.incoming)
        client.close()
        parts.until("nothing is left of it", lambda: not team.incoming())
        parts.until("it has a line", lambda: team.records()[-1]["target"] == target)
        assert (team.records()[-1]["user"], team.records()[-1]["status"] >= 400) == ("build", True)
    assert team.upload(path, archive)[0] == 200, "an upload"
    client = send_half(team, "GET", "/" + team.fields(path)["URL"], b"", 0)
    client.recv(1000)
    client.close()
    assert team("ann", "GET", f"/nar/{path[11:]}") == (200, archive), "others are served"
    assert "Traceback" not in team.said(), ("no line is a fault of the program", team.said())
    is_sound(team)


def test_kills(team, rng):
    """The cache is killed in the middle of an upload, and between an archive and its record."""
    archive, path = archive_of(rng), some_path(rng, "killed")
    name = nar.digest(archive)
    client = send_half(team, "PUT", f"/nar/{name}.nar", archive[:200_000], len(archive))
    parts.until("a part has come", team.incoming)
    team.end(signal.SIGKILL)
    client.close()
    assert team.incoming(), "(a part is left)"
    team.start()
    is_sound(team)
    assert team.put(archive)[0] == 201, "an archive"
    team.end(signal.SIGKILL)
    team.start()
    assert team.record(path, archive) == (200, f"{path}\n".encode()), "its record after the next start"
    for at in range(6):
        given = archive_of(rng, 2_000_000), some_path(rng, f"kill{at}")
        with concurrent.futures.ThreadPoolExecutor(1) as pool:
            sent = pool.submit(team.upload, given[1], given[0])
            time.sleep(0.02 * at)
            team.end(signal.SIGKILL)
            team.start()
            reply = sent.result()
        is_there = team("ann", "GET", f"/nar/{given[1][11:]}")[1] == given[0]
        assert is_there or reply[0] != 200, ("what was answered is there", reply)
        is_sound(team)


# Runs nixkeep-cache, and kills it ahead of a step of an upload: of a file below a folder that is opened, linked,
# renamed or deleted, a sync, and what is sent to the server or has come from it.
KILLER = """import os, pathlib, runpy, signal, sys
left, folder, begun = int(sys.argv[1]), sys.argv[2], False
sys.argv = sys.argv[3:]
sys.path.insert(0, str(pathlib.Path(sys.argv[0]).parent))
from nixkeep_tools import cache_server

def step():
    global left
    left -= begun
    if left < 0:
        os.kill(os.getpid(), signal.SIGKILL)

def seen(event, words):
    global begun
    if event in ("open", "os.link", "os.mkdir", "os.remove", "os.rename", "os.symlink"):
        begun |= event == "open" and str(words[0]).endswith(".part")
        if folder in str(words):
            step()

def stepped(work):
    return lambda *words: (step(), work(*words))[1]

async def sent(self, messages, usual=cache_server.Server.sent):
    step()
    found = await usual(self, messages)
    step()
    return found

os.fsync, os.fdatasync, cache_server.Server.sent = stepped(os.fsync), stepped(os.fdatasync), sent
sys.addaudithook(seen)
runpy.run_path(sys.argv[0], run_name="__main__")"""


def test_a_kill_ahead_of_each_step(rng, program, folder):
    """The cache is killed ahead of each step of an upload, until an upload has no more steps."""
    with Team(program, folder, before=[sys.executable, "-c", KILLER, "0", f"{folder}/"]) as team:
        made, at = [], 0
        while True:
            archive, path = archive_of(rng, 200_000), some_path(rng, f"step{at}")
            with concurrent.futures.ThreadPoolExecutor(1) as pool:
                sent = pool.submit(team.upload, path, archive)
                parts.until("it ends", lambda: sent.done() or team.running.poll() is not None)
                is_over = sent.done() and sent.result()[0] == 200
                if not is_over:
                    team.running.wait()
                    at += 1
                    team.words[3] = str(at)
                    team.start()
                reply = sent.result()
            made.append((archive, path))
            if is_over or at > 100:
                break
            status, lines = team.verify()
            assert status == 0, (f"killed ahead of step {at}: every pointer has a whole blob", lines)
            assert team.incoming() == [], "no part is left"
            assert reply[0] != 200 or there(team, archive, path) is True, "what was answered is there"
        assert 8 < at < 100 and reply[0] == 200, (f"an upload has {at} steps, and is done without a kill", (at, reply))
        team.end()
        team.words[3] = "1000000"
        team.start()
        again = [(team.upload(path, archive)[0], there(team, archive, path)) for archive, path in made]
        assert again == [(200, True)] * len(made), "all of them are uploaded again"
        is_sound(team)


def there(team, archive, path):
    """Whether a path is read, with this archive. One that isn't there is 404."""
    came = team("ann", "GET", f"/nar/{path[11:]}")
    return came == (200, archive) or came[0] != 404 and came


@pytest.mark.needs("prlimit")
def test_a_full_disk(rng, program, folder):
    """A disk that is full: no file may become larger than 1 MB."""
    with Team(program, folder, before=[parts.place_of("prlimit"), "--fsize=1000000"]) as team:
        came = team.upload(some_path(rng, "full"), archive_of(rng, 3_000_000))
        is_named = came[0] == 507 and came[1].startswith(b"failed: full blobs: ")
        assert is_named and team.folder.encode() not in came[1], ("a full folder: its name, not its place", came)
        assert team.records()[-1]["status"] == 507, "and a line"
        is_sound(team)
        assert team.upload(some_path(rng, "fits"), archive_of(rng))[0] == 200, "what fits is uploaded"


@needs_buckets
@pytest.mark.parametrize("status, code", [(403, "AccessDenied"), (503, "SlowDown")])
def test_a_bucket_that_refuses_or_fails(status, code, rng, program, folder):
    """An error by name, and no pointer."""
    archive, path = archive_of(rng), some_path(rng, code)
    with bucket(status, code) as (url, requests), Team(program, folder, "--blobs-endpoint", url, blobs=BUCKET) as team:
        assert BUCKET in team.said(), "a line at the start"
        assert team.upload(some_path(rng, "low"), nar.archive(b"low"))[0] == 200, "small objects are served"
        came = team.upload(path, archive)
        assert came[0] == 503 and code.encode() in came[1]
        assert any(f"/archives/here/{blob_key(archive)}" in text for text in requests), "the digest is the blob's name"
        assert team.fields(path)[0] == 404, "no pointer"
        assert os.listdir(f"{folder}/waiting/incoming") == [], "and no part"


# Runs nixkeep-cache, whose end looks at its clients after a second.
HASTY = """import pathlib, runpy, sys
sys.argv = sys.argv[1:]
sys.path.insert(0, str(pathlib.Path(sys.argv[0]).parent))
from nixkeep_tools import cache_ending
cache_ending.LOOK = 1
runpy.run_path(sys.argv[0], run_name="__main__")"""


@needs_buckets
def test_a_stop_while_a_bucket_hangs(rng, program, folder):
    """A stop waits for two looks and no longer: the upload is answered as one to be sent again, and there is no
    pointer."""
    archive, path, come, goes_on = archive_of(rng), some_path(rng, "hangs"), threading.Event(), threading.Event()

    def hangs(method, target, _):
        if method == "PUT":
            come.set()
            goes_on.wait(100)
        return 404 if method == "HEAD" and target.endswith(".zst") else 200, "application/xml", b""

    os.environ |= {"AWS_ACCESS_KEY_ID": "a", "AWS_SECRET_ACCESS_KEY": "b", "AWS_DEFAULT_REGION": "us-east-1"}
    with answering(hangs) as url, concurrent.futures.ThreadPoolExecutor(1) as pool:
        how = {"blobs": BUCKET, "before": [sys.executable, "-c", HASTY]}
        with Team(program, folder, "--blobs-endpoint", url, **how) as team:
            sent = pool.submit(team.upload, path, archive)
            assert come.wait(100), "the bucket gets it"
            began = time.monotonic()
            team.end()
            spent = time.monotonic() - began
            goes_on.set()
            status, said = sent.result()
            assert status == 503 and b"try again later" in said, (status, said)
            assert 2 <= spent < 20, "the stop waits for two looks, each of a second here"
            team.start()
            assert team.fields(path)[0] == 404, "no pointer"
            assert os.listdir(f"{folder}/waiting/incoming") == [], "and no part"


@needs_buckets
def test_what_is_no_bucket(program, folder):
    """Answers that are no XML are an error by name, too."""
    with bucket(200, "&") as (url, _), Team(program, folder, "--blobs-endpoint", url, blobs=BUCKET) as team:
        status, text = team("build", "POST", "/sweep", b"\n")
        assert status == 503 and b"isn't that of a bucket" in text
        assert "Traceback" not in team.said(), "is no fault"


