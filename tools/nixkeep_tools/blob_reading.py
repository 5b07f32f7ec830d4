"""Archives in blobs on their way out: verified as they are read, so that a damaged one is never sent whole."""
import contextlib
import errno
import hashlib
import lzma
import os
from collections.abc import Iterable, Iterator
from concurrent.futures import ThreadPoolExecutor

from . import blobs, paths
from .blob_packing import HEAD, Digest, Read, of_zstd, unpacked, window_of
from .cache_records import Bad, zstandard
from .pointers import Pointer

PIECE = 1 << 20
# The ways in which an archive is sent: as its file in the blobs, or unpacked.
FORMS = ("zstd", "none")


class Gone(Exception):
    """A pointer whose blob isn't there."""


class Damaged(Exception):
    """A blob that isn't the one that its pointer names."""


class Whole:
    """A stream of a blob that has `left` bytes. A bucket may send more, without an end: then it raises Damaged."""

    def __init__(self, stream: blobs.Stream, left: int, about: str):
        self.stream, self.left, self.about = stream, left, about

    def read(self, count: int) -> bytes:
        data = self.stream.read(count)
        self.left -= len(data)
        if self.left < 0:
            raise Damaged(f"blob-damaged {self.about} in the blobs has more bytes than it says")
        return data

    def close(self) -> None:
        self.stream.close()


def size_of(pointer: Pointer, form: str) -> int:
    return pointer.file_size if form == "zstd" else pointer.nar_size


def hash_of(pointer: Pointer, form: str) -> bytes:
    return pointer.file_hash if form == "zstd" else pointer.nar_hash


def opened(place, name, pointer):
    """A stream of a blob. Raises Gone, or Damaged for one of another size."""
    size = place.size(name)
    if size is None:
        raise Gone(f"blob-missing {pointer.path}: {name} isn't in the blobs")
    if size != pointer.file_size:
        raise Damaged(f"blob-damaged {pointer.path}: {name} in the blobs has {size} bytes, not {pointer.file_size}")
    return Whole(place.open(name), size, f"{pointer.path}: {name}")


def memory(place: blobs.Place, name: str) -> int:
    """The bytes of memory in which a blob is unpacked, or 0 for one that can't be."""
    try:
        with contextlib.closing(place.open(name)) as stream:
            return window_of(stream.read(HEAD))
    except (OSError, blobs.Failed, zstandard.ZstdError):
        # (whoever reads it gets the reason)
        return 0


def pieces(place: blobs.Place, name: str, pointer: Pointer, form: str, start: int = 0,
           end: int | None = None) -> Iterator[bytes]:
    """Yields the bytes of an archive from `start` to `end`, or to its end, and b"" for each piece that is read before
    `start`. Damaged is raised ahead of the last piece where the size or the digest of all of it differs. Raises Gone,
    or Damaged, before the first."""
    is_part = end is not None and end < size_of(pointer, form)
    stream = opened(place, name, pointer)
    if is_part and form == "zstd":
        stream.close()
        stream, start, end = place.open(name, start), 0, end - start
    try:
        source = stream
        if form == "none":
            source = unpacked(stream)
        if is_part:
            yield from part(source, name, pointer, start, end)
        else:
            yield from verified(source, name, pointer, form, start)
    except zstandard.ZstdError as error:
        raise Damaged(f"blob-damaged {pointer.path}: {name} in the blobs can't be unpacked: {error}") from None
    finally:
        stream.close()


def verified(source, name, pointer, form, start):
    digest, at, held = hashlib.sha256(), 0, b""
    while data := source.read(PIECE):
        digest.update(data)
        if at:
            yield held
        held = data[max(0, start - at) :]
        at += len(data)
        if at > size_of(pointer, form):
            break
    if at != size_of(pointer, form) or digest.digest() != hash_of(pointer, form):
        raise Damaged(f"blob-damaged {pointer.path}: {name} in the blobs has another SHA-256 than its pointer")
    if held:
        yield held


def part(source, name, pointer, start, end):
    """Yields the bytes of a part, whose digest nothing says: those who ask for parts verify the whole."""
    at = 0
    while at < end:
        data = source.read(PIECE)
        if not data:
            raise Damaged(f"blob-damaged {pointer.path}: {name} in the blobs ends too early")
        cut = data[max(0, start - at) : end - at]
        at += len(data)
        yield cut


def as_xz(archive: Iterable[bytes]) -> Iterator[bytes]:
    """Yields an archive compressed by xz, and b"" where a piece of it adds nothing yet."""
    compressor = lzma.LZMACompressor(preset=0)
    for data in archive:
        yield compressor.compress(data)
    yield compressor.flush()


def measured(place: blobs.Place, name: str) -> tuple[bytes, int, bytes, int]:
    """The SHA-256 and the size of the archive in a blob, and of its file. Raises Damaged for one that isn't whole, or
    has another archive than its name says."""
    size = place.size(name)
    if size is None:
        raise FileNotFoundError(errno.ENOENT, os.strerror(errno.ENOENT), name)
    try:
        with contextlib.closing(Whole(place.open(name), size, name)) as stream, ThreadPoolExecutor(2) as pool:
            nar, file = Digest(pool), Digest(pool)
            for data in of_zstd(Read(stream, file)):
                nar.add(data)
            figures = nar.end(), nar.size, file.end(), file.size
    except Bad as bad:
        raise Damaged(f"blob-damaged {name} in the blobs: {bad}") from None
    if paths.base32(figures[0]) != name:
        raise Damaged(f"blob-damaged {name} in the blobs: its archive has another SHA-256")
    return figures
