"""Uploaded files whose archives are in the store now.

A client that uploads a path keeps the record that it sent, for a month, and asks for the file that this record names.
"""
import contextlib
import os

from . import cache_records

# The files that are known at most; the oldest are forgotten first.
MOST = 100_000


class Stored:
    """Links in a folder, each from the name of an uploaded file to the base name of its object."""

    def __init__(self, folder: str):
        self.folder, self.bases = folder, {}
        os.makedirs(folder, mode=0o700, exist_ok=True)
        names = [name for name in os.listdir(folder) if cache_records.FILE.fullmatch(name)]
        for name in sorted(names, key=lambda file: os.lstat(f"{folder}/{file}").st_mtime):
            self.bases[name] = os.readlink(f"{folder}/{name}")

    def base(self, name: str) -> str | None:
        """The base name of the object that a file became, or None."""
        return self.bases.get(name)

    def forget(self, name: str) -> None:
        if self.bases.pop(name, None):
            with contextlib.suppress(FileNotFoundError):
                os.unlink(f"{self.folder}/{name}")

    def add(self, name: str, base: str) -> None:
        """Says of a file that its archive is that of an object."""
        self.forget(name)
        while len(self.bases) >= MOST:
            self.forget(next(iter(self.bases)))
        self.bases[name] = base
        os.symlink(base, f"{self.folder}/{name}")
