"""Blobs in a folder, which may be on a file system that other machines share."""
import contextlib
import fcntl
import os
from collections.abc import Iterator
from pathlib import Path
from typing import BinaryIO

from . import blobs


def synced(folder):
    """Brings the names in a folder to the disk."""
    number = os.open(folder, os.O_RDONLY | os.O_DIRECTORY)
    try:
        os.fsync(number)
    finally:
        os.close(number)


def locking(name, flags):
    """The opener of a lock. Whoever may write its folder can't lead it to another file, nor have that cut off."""
    return os.open(name, flags | os.O_NOFOLLOW | os.O_NONBLOCK, 0o600)


def reading(name, flags):
    """The opener of a blob, which never waits: what isn't a file has no bytes. Root reads blobs to verify them, and is
    led to no device by a link: some act as soon as they are opened."""
    return os.open(name, flags | os.O_NONBLOCK | os.O_NOFOLLOW)


class Folder:
    def __init__(self, folder: str):
        self.where, self.folder, self.lock = folder, folder.rstrip("/") or "/", None
        # The folders of blobs whose names this process has brought to the disk.
        self.known = set()
        self.parts = blobs.Parts(f"{self.folder}/incoming")
        self.part = self.parts.part

    def file(self, name: str) -> str:
        return f"{self.folder}/{blobs.key_of(name)}"

    def begin(self) -> None:
        os.makedirs(self.folder, mode=0o700, exist_ok=True)
        self.lock = open(f"{self.folder}/lock", "ab", opener=locking)
        try:
            fcntl.flock(self.lock, fcntl.LOCK_EX | fcntl.LOCK_NB)
        except BlockingIOError:
            raise blobs.Failed(f"{self.folder}: another nixkeep-cache has these blobs") from None
        self.parts.begin()

    def answer(self) -> None:
        file = f"{self.parts.folder}/answer"
        with contextlib.suppress(FileNotFoundError):
            os.unlink(file)
        with open(file, "xb") as made:
            os.unlink(file)
            # (a full disk makes a file, and no byte of it)
            made.write(b"x")

    def put(self, part: str, name: str) -> bool:
        """The file is on the disk before it has the name of a blob, and the name is before this returns."""
        file = self.file(name)
        folder = Path(file).parent
        with open(part, "rb") as made:
            os.fsync(made.fileno())
        if folder not in self.known or not folder.is_dir():
            folder.mkdir(mode=0o700, parents=True, exist_ok=True)
            synced(self.folder)
            self.known.add(folder)
        try:
            # (a rename would replace what is there)
            os.link(part, file)
        except FileExistsError:
            return False
        finally:
            synced(folder)
        return True

    def size(self, name: str) -> int | None:
        with contextlib.suppress(FileNotFoundError):
            return os.stat(self.file(name)).st_size

    def open(self, name: str, at: int = 0) -> BinaryIO:
        opened = open(self.file(name), "rb", buffering=0, opener=reading)
        if at:
            opened.seek(at)
        return opened

    def list(self) -> Iterator[blobs.Blob]:
        for entry in sorted(os.scandir(self.folder), key=lambda entry: entry.name):
            if len(entry.name) == 2 and entry.is_dir():
                yield from self.listed(entry)

    def listed(self, folder: os.DirEntry[str]) -> Iterator[blobs.Blob]:
        for entry in sorted(os.scandir(folder), key=lambda entry: entry.name):
            if name := blobs.named(f"{folder.name}/{entry.name}"):
                with contextlib.suppress(FileNotFoundError):
                    status = entry.stat(follow_symlinks=False)
                    yield blobs.Blob(name, status.st_size, status.st_mtime)

    def delete(self, name: str) -> None:
        with contextlib.suppress(FileNotFoundError):
            os.unlink(self.file(name))
