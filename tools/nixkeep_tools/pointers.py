"""Pointers: what a store has at a path whose archive is in the blobs of nixkeep-cache. docs/POINTERS.md has the format.

A pointer counts only as the archive of an object without a content address: only trusted users add such objects.
"""
import collections
import re

from . import nar, paths

FIRST = "nixkeep-pointer 1: the archive of this path is in the blobs of nixkeep-cache"
# The bytes of the contents, and those of the archive, which a record of the store shows.
LENGTH = 1_024
SIZE = LENGTH + len(nar.regular_file(b""))
HASH = r"sha256:[0123456789abcdfghijklmnpqrsvwxyz]{52}"
NUMBER = r"[1-9][0-9]{0,18}"
FORM = re.compile(
    f"{re.escape(FIRST)}\npath: (?P<path>[!-~]+)\nnar-hash: (?P<nar_hash>{HASH})\nnar-size: (?P<nar_size>{NUMBER})\n"
    f"file-hash: (?P<file_hash>{HASH})\nfile-size: (?P<file_size>{NUMBER})\ncompression: zstd\n+"
)

# `path` is a full path. The hashes are 32 bytes: those of the archive, and of its file in the blobs.
Pointer = collections.namedtuple("Pointer", "path nar_hash nar_size file_hash file_size")


def contents(pointer: Pointer) -> bytes:
    """The contents of a pointer: lines, and line feeds up to the fixed length."""
    lines = [
        FIRST,
        f"path: {pointer.path}",
        f"nar-hash: {paths.nar_hash(pointer.nar_hash)}",
        f"nar-size: {pointer.nar_size}",
        f"file-hash: {paths.nar_hash(pointer.file_hash)}",
        f"file-size: {pointer.file_size}",
        "compression: zstd",
    ]
    return "\n".join(lines).encode().ljust(LENGTH, b"\n")


def archive(pointer: Pointer) -> bytes:
    """The archive of a pointer, which the store has at its path."""
    return nar.regular_file(contents(pointer))


def read_line(line: str) -> Pointer:
    """The Pointer in a line of nixkeep-cache's listing of all pointers. Raises ValueError."""
    path, nar_hash, nar_size, file_hash, file_size = line.split(" ")
    unhashed = [paths.unbase32(digest.removeprefix("sha256:"), 32) for digest in (nar_hash, file_hash)]
    return Pointer(path, unhashed[0], int(nar_size), unhashed[1], int(file_size))


def may_be(nar_size: int, address: str | None) -> bool:
    """Whether an object with an archive of this size and this content address, or None, may be a pointer."""
    return nar_size == SIZE and not address


def read(data: bytes, path: str) -> Pointer | None:
    """The Pointer in the archive of an object at this full path, or None for any other archive."""
    if len(data) != SIZE:
        return None
    match = FORM.fullmatch(data[len(nar.regular_file(b"")) - 16 :][:LENGTH].decode("latin-1"))
    if not match or match["path"] != path:
        return None
    try:
        hashes = [paths.unbase32(match[name].removeprefix("sha256:"), 32) for name in ("nar_hash", "file_hash")]
    except paths.Malformed:
        return None
    made = Pointer(path, hashes[0], int(match["nar_size"]), hashes[1], int(match["file_size"]))
    return made if archive(made) == data else None
