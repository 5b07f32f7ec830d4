"""Tries large archives in a bucket of OpenStack Swift, which is started here in a folder of its own.

Archives are uploaded, also in several parts, fetched, damaged, deleted, swept and verified, and Swift is stopped in
between. Needs swift-proxy, swift-account, swift-container, swift-object, python3-boto3, python3-aiohttp,
python3-zstandard and curl, and a temporary folder with extended attributes; without them it is skipped. The last line
is `N passed, M failed`.

usage: bin/run tests/tools/try_swift.py [--program FILE]
"""
import random
import time

import parts
from parts import body, check, same, some_path
from tests.tools import swift
from tests.tools.large import NO_BLOBS, WELL, Team, archive_of, blob_key, health


def fetched(team, servers, rng):
    """An archive in one part and one in several go in and out, and equal ones are there once."""
    for size in (400_000, 40_000_000):
        archive, path, began = archive_of(rng, size), some_path(rng, "object"), time.monotonic()
        same(f"an archive of {size} bytes", team.upload(path, archive), (200, f"{path}\n".encode()))
        middle = time.monotonic()
        same("comes back", team("ann", "GET", f"/nar/{path[11:]}") == (200, archive), True)
        ended = time.monotonic()
        print(f"figure: {size / 1e6 / (middle - began):.0f} MB/s up, {size / 1e6 / (ended - middle):.0f} down")
        url = "/" + team.fields(path)["URL"]
        whole = team("ann", "GET", url)[1]
        part = team("ann", "GET", url, None, "-H", "range: bytes=1000-2999")
        same("and a range of it", (part[0], part[1] == whole[1000:3000]), (206, True))
        same("it is uploaded to another path", team.upload(some_path(rng, "again"), archive)[0], 200)
    keys = [item["Key"] for item in servers.client().list_objects_v2(Bucket=swift.BUCKET)["Contents"]]
    same("two archives at four paths are two objects", len([key for key in keys if key.endswith(".nar.zst")]), 2)
    return archive, path


def damaged(team, servers, archive, path):
    """Objects that are damaged or deleted."""
    client, key, url = servers.client(), f"here/{blob_key(archive)}", "/" + team.fields(path)["URL"]
    whole = client.get_object(Bucket=swift.BUCKET, Key=key)["Body"].read()
    client.put_object(Bucket=swift.BUCKET, Key=key, Body=whole[:-1] + bytes([whole[-1] ^ 1]))
    same("a damaged object breaks the connection", team("ann", "GET", url)[1] == whole, False)
    status, lines = verify(team)
    check("verify says so", status == 1 and lines[0].startswith("damaged") and path in lines[0], lines)
    client.delete_object(Bucket=swift.BUCKET, Key=key)
    came = team("ann", "GET", url)
    check("one that is gone has its name", came[0] == 502 and came[1].startswith(b"failed: blob-missing"), came)
    same("an upload brings it back", (team.upload(path, archive)[0], verify(team)[0]), (200, 0))


def verify(team):
    return team.tool("verify", "--blobs", team.blobs, *team.endpoint)


def away(team, servers, rng):
    """Swift is stopped and started again."""
    archive, path = archive_of(rng), some_path(rng, "away")
    for part in servers.running:
        part.end()
    came = team.upload(path, archive)
    check("without Swift an upload fails by name", came[0] == 503 and team.blobs.encode() in came[1], came)
    same("and leaves no pointer", team.fields(path)[0], 404)
    same("the blobs don't answer", health(team), (503, NO_BLOBS))
    for part in servers.running:
        part.start()
    same("with it the upload is done", team.upload(path, archive)[0], 200)
    parts.until("the blobs answer", lambda: health(team) == (200, WELL))
    same("all is whole", verify(team)[0], 0)


def swept(team, servers, archive, path):
    """What no object names is deleted from the bucket."""
    team("build", "DELETE", "/temp/build/4194304")
    same("objects are deleted", team("build", "POST", "/collect", body())[0], 200)
    time.sleep(2)
    status, lines = team.tool("sweep")
    check("their blobs are swept", status == 0 and lines[-1].startswith("swept 3 blobs "), lines)
    left = servers.client().list_objects_v2(Bucket=swift.BUCKET).get("Contents", [])
    same("and nothing is left in the bucket", [item["Key"] for item in left], [])
    same("an upload begins anew", (team.upload(path, archive)[0], verify(team)[0]), (200, 0))


def main(words):
    rng, servers = random.Random(6), swift.Swift(f"{words.folder}/swift")
    with servers.started():
        endpoint = ["--blobs-endpoint", servers.url]
        with Team(words.program, words.folder, *endpoint, "--grace", "1", blobs=f"s3://{swift.BUCKET}/here") as team:
            team.endpoint = endpoint
            archive, path = fetched(team, servers, rng)
            damaged(team, servers, archive, path)
            away(team, servers, rng)
            swept(team, servers, archive, path)
            check("no line is a fault of the program", "Traceback" not in team.said(), team.said())


if __name__ == "__main__":
    parts.script(__doc__, "archives in a bucket of Swift", main, "curl", "python3-boto3", "python3-aiohttp",
                 "python3-zstandard", *swift.TOOLS)
