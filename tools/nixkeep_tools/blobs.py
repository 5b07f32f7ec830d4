"""The blobs of a store: archives of any size, each a file compressed by zstd, named by the SHA-256 of the archive.

Blobs are in a folder or in a bucket, each of which is a Place. A name is the SHA-256 in base 32. What a failing disk
or bucket raises is an OSError or Failed.
"""
import collections
import os
import re
from collections.abc import Iterator
from typing import Protocol

NAME = re.compile(r"[0123456789abcdfghijklmnpqrsvwxyz]{52}")
SUFFIX = ".nar.zst"
# `since` is the time of a blob's last change, in seconds.
Blob = collections.namedtuple("Blob", "name size since")


class Failed(Exception):
    """A bucket that fails or refuses, or blobs that can't be used."""


class Source(Protocol):
    """What has bytes to read."""

    def read(self, count: int, /) -> bytes:
        """At most this many bytes, and none at the end."""


class Stream(Source, Protocol):
    """The bytes of a blob."""

    def close(self) -> None: ...


class Place(Protocol):
    """A folder or a bucket with blobs. The calls may take long, so they are made in threads."""

    where: str

    def part(self) -> str:
        """The name of a new file, in which a blob is made."""

    def put(self, part: str, name: str) -> bool:
        """Makes that file the blob, unless it is there, and returns whether it did."""

    def size(self, name: str) -> int | None:
        """The bytes of a blob, or None."""

    def open(self, name: str, at: int = 0) -> Stream:
        """The bytes of a blob from `at` on."""

    def list(self) -> Iterator[Blob]:
        """Each blob."""

    def delete(self, name: str) -> None:
        """Deletes a blob."""

    def begin(self) -> None:
        """Deletes what an earlier process left, and keeps other processes away."""

    def answer(self) -> None:
        """Does nothing, if blobs can be made and read now."""


class Parts:
    """A folder in which blobs are made, one file each. Each process has files of its own names."""

    def __init__(self, folder: str):
        self.folder, self.count = folder, 0

    def begin(self) -> None:
        os.makedirs(self.folder, mode=0o700, exist_ok=True)
        # (a link here would have the files of another folder deleted)
        folder = os.open(self.folder, os.O_RDONLY | os.O_DIRECTORY | os.O_NOFOLLOW)
        try:
            for name in os.listdir(folder):
                os.unlink(name, dir_fd=folder)
        finally:
            os.close(folder)

    def part(self) -> str:
        self.count += 1
        return f"{self.folder}/{self.count}.part"


def named(key: str) -> str | None:
    """The name of the blob in a file or under a key, or None for another one."""
    name = key.rpartition("/")[2].removesuffix(SUFFIX)
    return name if NAME.fullmatch(name) and key == key_of(name) else None


def key_of(name: str) -> str:
    return f"{name[:2]}/{name}{SUFFIX}"


def place_of(where: str, parts: str, endpoint: str | None = None) -> Place:
    """The blobs in a folder, or in a bucket by s3://BUCKET[/PREFIX]. `parts` is a folder where blobs for a bucket are
    made. Raises Failed."""
    if not where.startswith("s3://"):
        from .blobs_folder import Folder

        return Folder(where)
    try:
        from .blobs_bucket import Bucket
    except ModuleNotFoundError as missing:
        raise Failed(f"{missing}: install the Debian package python3-boto3") from None
    bucket, _, prefix = where.removeprefix("s3://").partition("/")
    return Bucket(bucket, prefix, parts, endpoint)
