"""Tests of what is watched of large archives: figures of blobs and sweeps in /metrics, and blobs in /health."""
import os
import random
import tempfile
import time
from pathlib import Path

import pytest

import parts
from nixkeep_dev.testing import nar
from parts import some_path
from tests.tools import cached
from tests.tools.large import NO_BLOBS, WELL, Team, archive_of, bucket, health, send_half

pytestmark = pytest.mark.needs("curl", "python3-aiohttp", "python3-zstandard")
needs_metrics = pytest.mark.needs("python3-prometheus_client")


@pytest.fixture(scope="module")
def rng():
    return random.Random(7)


@pytest.fixture(scope="module")
def team(program):
    with tempfile.TemporaryDirectory() as folder, Team(program, folder) as made:
        yield made


def figures(team, *names):
    values = cached.figures(team, "ann")
    return [values.get((f"nixkeep_{name}",)) for name in names]


@needs_metrics
def test_archives_that_come_and_go_and_fail(team, rng):
    """Archives that come and go, and those that fail."""
    puts = "blobs_put_total", "blobs_put_bytes_total", "blobs_put_failed_total"
    sends = "blobs_sent_total", "blobs_sent_bytes_total", "blobs_sent_failed_total"
    assert figures(team, *puts, *sends) == [0] * 6, "before the first large archive all is 0"
    assert figures(team, "sweep_timestamp_seconds", "sweep_left") == [None] * 2, "and no sweep was made"
    made = [(archive_of(rng), some_path(rng, f"counted{at}")) for at in range(2)]
    for archive, path in made:
        assert team.upload(path, archive)[0] == 200, "an upload"
    assert team.upload(some_path(rng, "small"), nar.archive(b"small"))[0] == 200, "a small one"
    name = nar.digest(made[0][0])
    assert team("build", "PUT", f"/nar/{name}.nar", archive_of(rng))[0] == 400, "one of another digest"
    client = send_half(team, "PUT", f"/nar/{name}.nar", made[0][0][:100_000], len(made[0][0]))
    parts.until("a part has come", team.incoming)
    client.close()
    parts.until("one that is broken off", lambda: figures(team, puts[2])[0] == 2)
    size = sum(team.file(archive).stat().st_size for archive, _ in made)
    assert figures(team, *puts) == [2, size, 2], "two archives are blobs, of these bytes, and two failed"
    archive, path = made[0]
    url = f"/large/{name}/none/{path[11:]}"
    assert team("ann", "GET", url) == (200, archive), "a fetch"
    assert team("ann", "GET", url, None, "-H", "range: bytes=0-999")[0] == 206, "a part"
    Path(file := team.file(archive)).write_bytes(file.read_bytes()[:-1])
    assert team("ann", "GET", url)[0] == 502, "a damaged one"
    assert figures(team, *sends) == [2, len(archive) + 1000, 1], "two were sent, with these bytes, and one failed"
    spent = figures(team, "blobs_put_seconds_total", "blobs_sent_seconds_total")
    assert all(seconds > 0 for seconds in spent), ("both took time", spent)


@needs_metrics
def test_a_sweep(team, rng):
    """What a sweep has deleted and left, also after a restart."""
    unused, used = archive_of(rng), archive_of(rng)
    assert team.upload(some_path(rng, "used"), used)[0] == 200, "an archive with a record"
    assert team.put(unused)[0] == 201, "an archive without a record"
    blobs = {*Path(team.blobs).glob("??/*")}
    size, old = team.file(unused).stat().st_size, time.time() - 100_000
    team.end()
    for path in blobs:
        os.utime(path, (old, old))
    team.start()
    assert team.tool("sweep", "--dry-run")[0] == 0, "a sweep that is dry"
    assert figures(team, "sweep_timestamp_seconds", "sweep_deleted_total") == [None, 0], "is none"
    began = time.time()
    assert team.tool("sweep")[0] == 0, "a sweep"
    left = {*Path(team.blobs).glob("??/*")}
    assert blobs - left == {team.file(unused)} and left < blobs and team.file(used) in left
    what_is_left = [len(left), sum(path.stat().st_size for path in left)]
    assert (figures(team, "sweep_deleted_total", "sweep_deleted_bytes_total", "sweep_left", "sweep_left_bytes") ==
            [1, size, *what_is_left]), "one was deleted, and the others are left"
    last = figures(team, "sweep_timestamp_seconds")[0]
    assert began <= last <= time.time(), ("it has its time", (began, last))
    team.end()
    team.start()
    assert figures(team, "sweep_timestamp_seconds", "sweep_left", "sweep_left_bytes") == [last, *what_is_left], (
        "a restart forgets neither it nor what is left")
    team.end()
    Path(f"{team.folder}/waiting/swept.json").write_text('["x"]')
    team.start()
    assert figures(team, "sweep_timestamp_seconds", "sweep_left") == [None] * 2, "a damaged file of it is no figure"


def test_the_health_of_a_folder(team):
    assert health(team) == (200, WELL)
    os.rename(team.blobs, f"{team.blobs}-away")
    parts.until("a folder that is gone doesn't answer", lambda: health(team) == (503, NO_BLOBS))
    os.rename(f"{team.blobs}-away", team.blobs)
    parts.until("it is back", lambda: health(team) == (200, WELL))


@pytest.mark.needs("python3-boto3")
def test_the_health_of_a_bucket_that_refuses(program, folder):
    with bucket(403, "AccessDenied") as (url, _), \
            Team(program, folder, "--blobs-endpoint", url, blobs="s3://archives/here") as denied:
        assert health(denied) == (503, NO_BLOBS)
