"""Archives that have been uploaded and wait on the disk until their records come."""
import collections
import contextlib
import hashlib
import os
import time
from collections.abc import AsyncIterable, AsyncIterator
from typing import BinaryIO

from . import cache_records, nar, paths

# The longest file of one: an archive at its limit, and what a compression may add to one that doesn't get smaller. And
# the bytes of one that are read at once, where few of it may be in memory.
LONGEST, PIECE = nar.LIMIT + (1 << 20), 1 << 20

# `bytes` is its length, `since` when it came, `owner` the user who sent it. One that `is_used` is in the store. It
# stays while there is room, since a client sends an archive that two of its paths share only once. On the disk it has
# the name `FILE@OWNER`.
File = collections.namedtuple("File", "bytes since owner is_used")


class Full(Exception):
    """There is no room for one more."""


class Waiting:
    """The files in a folder: at most `count`, `size` bytes in all, each for `seconds`. One user has at most half of the
    room that the files of others leave, so that neither one nor two take it from all others."""

    def __init__(self, folder: str, count: int, size: int, seconds: float):
        self.folder, self.count, self.size, self.seconds = folder, count, size, seconds
        self.files, self.coming = {}, 0
        os.makedirs(folder, mode=0o700, exist_ok=True)
        for entry in os.listdir(folder):
            name, _, owner = entry.partition("@")
            is_file = cache_records.FILE.fullmatch(name)
            if is_file and paths.is_plain_name(owner) and name not in self.files:
                status = os.stat(f"{folder}/{entry}")
                self.files[name] = File(status.st_size, status.st_mtime, owner, False)
            elif is_file or entry.endswith(".part"):
                os.unlink(f"{folder}/{entry}")
        self.expire()

    def expire(self) -> None:
        """Deletes what has waited too long."""
        for name, file in [*self.files.items()]:
            # (a clock may have been ahead)
            if abs(time.time() - file.since) > self.seconds:
                self.delete(name)

    def file(self, name: str) -> str:
        """The file on the disk; one that still comes has a number."""
        return f"{self.folder}/{name}" if name.endswith(".part") else f"{self.folder}/{name}@{self.files[name].owner}"

    def delete(self, name: str) -> None:
        with contextlib.suppress(FileNotFoundError):
            os.unlink(self.file(name))
        del self.files[name]

    def make_room(self, most: int, most_bytes: int, files: list[tuple[str, File]]) -> bool:
        """Deletes used files among these, the oldest first, until they are `most`, of `most_bytes` bytes. Returns
        whether they are no more then."""
        count, size = len(files), sum(file.bytes for _, file in files)
        is_over = lambda: count > most or size > most_bytes
        for name, file in sorted(files, key=lambda pair: pair[1].since):
            if not is_over():
                break
            if file.is_used:
                self.delete(name)
                count, size = count - 1, size - file.bytes
        return not is_over()

    def reserve(self, key: str, file: File) -> None:
        """Keeps room for a file that comes. Raises Full."""
        self.expire()
        self.files[key] = file
        if not (self.make_room(*self.share(file.owner)) and
                self.make_room(self.count, self.size, [*self.files.items()])):
            del self.files[key]
            raise Full

    def share(self, owner: str) -> tuple[int, int, list[tuple[str, File]]]:
        """How many files of how many bytes a user may have, and those that are the user's."""
        others = [file for file in self.files.values() if file.owner != owner and not file.is_used]
        count, size = self.count - len(others), self.size - sum(file.bytes for file in others)
        return count // 2, size // 2, [pair for pair in self.files.items() if pair[1].owner == owner]

    async def take(self, owner: str, name: str, length: int, pieces: AsyncIterable[bytes]) -> None:
        """Writes a file as it comes, and keeps it if it is the one that its name says. Raises Full, or Bad."""
        digits = cache_records.file_named(name)
        if length > LONGEST:
            raise cache_records.Bad(f"nar/{name}: an archive has at most {nar.LIMIT} bytes")
        self.coming += 1
        key, digest, size = f"{self.coming}.part", hashlib.sha256(), 0
        self.reserve(key, File(length, time.time(), owner, False))
        try:
            with open(self.file(key), "xb", opener=lambda file, flags: os.open(file, flags, 0o600)) as out:
                async for piece in pieces:
                    size += len(piece)
                    self.demand(key, name)
                    if size > length:
                        raise cache_records.Bad(f"nar/{name} is longer than was said")
                    digest.update(piece)
                    out.write(piece)
            self.demand(key, name)
            if paths.base32(digest.digest()) != digits:
                raise cache_records.Bad(f"nar/{name} has another SHA-256: sha256:{paths.base32(digest.digest())}")
            if name in self.files:
                self.delete(name)
            self.files[name] = self.files[key]._replace(bytes=size)
            os.rename(self.file(key), self.file(name))
        finally:
            # (unless it has expired)
            if key in self.files:
                self.delete(key)

    def demand(self, key: str, name: str) -> None:
        """Raises Bad for a file that came for so long that its room was given to others."""
        if key not in self.files:
            raise cache_records.Bad(f"nar/{name} took longer than {self.seconds:.0f} seconds")

    def opened(self, name: str) -> BinaryIO:
        """A file that waits. Raises Bad."""
        if name not in self.files:
            raise cache_records.Bad(
                f"nar/{name} isn't here: an archive comes first, and its record within {self.seconds:.0f} seconds"
            )
        return open(self.file(name), "rb")

    def read(self, name: str) -> bytes:
        """The bytes of a file that waits. Raises Bad."""
        with self.opened(name) as file:
            return file.read()

    async def pieces(self, name: str) -> AsyncIterator[bytes]:
        """Yields the bytes of a file that waits, which is opened for the first piece. Raises Bad."""
        with self.opened(name) as file:
            while piece := file.read(PIECE):
                yield piece

    def use(self, name: str) -> None:
        """Says of a file that it is in the store."""
        if name in self.files:
            self.files[name] = self.files[name]._replace(is_used=True)
