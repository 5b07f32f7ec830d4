"""A store with large archives, whose blobs are in a folder or a bucket, and what tests of it share."""
import contextlib
import json
import os
import random
import socket
import subprocess
from collections.abc import Iterable, Iterator
from pathlib import Path

import parts
from nixkeep_dev.testing import nar
from nixkeep_tools import blobs
from parts import curl
from tests.tools import cached
from tests.tools.servers import answering

# An archive above this is large here.
LEAST = 65_536
WELL, NO_BLOBS = ({"store": "answers", "blobs": state} for state in ("answers", "doesn't answer"))


def archive_of(rng: random.Random, size: int = 400_000) -> bytes:
    return nar.archive(rng.randbytes(size))


def blob_key(archive: bytes) -> str:
    digits = nar.digest(archive)
    return f"{digits[:2]}/{digits}.nar.zst"


class Team(parts.Unit):
    """A store with blobs in a folder, as its units run it."""

    def __init__(self, program: str, folder: str, *more: str, blobs: str | None = None, before: Iterable[str] = (),
                 config: str = cached.CONFIG):
        self.folder, self.blobs = folder, blobs or f"{folder}/blobs"
        Path(f"{folder}/store.toml").write_text(config)
        more = ["--proxied", "--blobs", self.blobs, "--large-from", str(LEAST), *more]
        super().__init__(program, folder, f"{folder}/store.toml", f"{folder}/store.db", f"{folder}/socket", *more)
        self.words = [*before, *self.words]

    def __call__(self, user, method, target, given=None, *more):
        return cached.ask(self.place, user, method, target, given, *more)

    def put(self, archive: bytes, user: str = "build") -> tuple:
        """Uploads an archive as Nix does, without its record: the reply."""
        return self(user, "PUT", f"/nar/{cached.file_name(archive)}", archive)

    def record(self, path: str, archive: bytes, *more: tuple[str, str], user: str = "build") -> tuple[int, bytes]:
        """Uploads a record: the reply."""
        given = cached.record(path, archive, cached.file_name(archive), *more)
        return self(user, "PUT", f"/{path[11:43]}.narinfo", given)

    def upload(self, path: str, archive: bytes, *more: tuple[str, str], user: str = "build") -> tuple[int, bytes]:
        put = self.put(archive, user)
        return put if put[0] != 201 else self.record(path, archive, *more, user=user)

    def fields(self, path: str, *more: str) -> dict[str, str] | tuple[int, bytes]:
        """The record of a path as a binary cache gives it."""
        status, text = self("ann", "GET", f"/{path[11:43]}.narinfo", None, *more)
        return dict(line.split(": ", 1) for line in text.decode().splitlines()) if status == 200 else (status, text)

    def file(self, archive: bytes) -> Path:
        """The file of an archive's blob."""
        return Path(self.blobs, blobs.key_of(nar.digest(archive)))

    def tool(self, *words: str) -> tuple[int, list[str]]:
        """The status and the lines of a command of nixkeep-cache, such as sweep."""
        more = ["--server", f"unix:{self.place}", "--config", f"{self.folder}/store.toml"]
        ran = subprocess.run([f"{parts.TOOLS}/nixkeep-cache", *words, *more], capture_output=True, text=True)
        return ran.returncode, ran.stdout.splitlines() or ran.stderr.splitlines()

    def verify(self) -> tuple[int, list[str]]:
        return self.tool("verify", "--blobs", self.blobs)

    def said(self) -> str:
        return Path(self.log).read_text()

    def incoming(self) -> list[str]:
        return os.listdir(f"{self.blobs}/incoming")


def health(team: Team) -> tuple[int, dict]:
    """The status of /health, and what it says."""
    status, said = curl("--unix-socket", team.place, "http://red/health")
    return status, json.loads(said)


def is_sound(team: Team) -> None:
    """Nothing is half there: every pointer has a whole blob, and no part of an upload is left."""
    status, lines = team.verify()
    assert status == 0 and not team.incoming(), (lines, team.incoming())


def send_half(team: Team, method: str, target: str, data: bytes, length: int, user: str = "build") -> socket.socket:
    """A client that sends a part of its body: its connection."""
    client = socket.socket(socket.AF_UNIX)
    client.connect(team.place)
    client.sendall(f"{method} {target} HTTP/1.1\r\nhost: red\r\nstore-user: {user}\r\ncontent-length: {length}\r\n\r\n"
                   .encode() + data)
    return client


@contextlib.contextmanager
def bucket(status: int, code: str) -> Iterator[tuple[str, list[str]]]:
    """A server of S3 that answers everything so, but has no blob: its URL, and what it was asked."""
    os.environ |= {"AWS_ACCESS_KEY_ID": "a", "AWS_SECRET_ACCESS_KEY": "b", "AWS_DEFAULT_REGION": "us-east-1"}
    requests, text = [], f"<Error><Code>{code}</Code><Message>no</Message></Error>".encode()

    def reply_to(method, target, _):
        requests.append(f"{method} {target}")
        return 404 if method == "HEAD" and target.endswith(".zst") else status, "application/xml", text

    with answering(reply_to) as url:
        yield url, requests
