"""Archives of any size on their way into a blob: unpacked, verified and compressed as they come."""
import asyncio
import collections
import hashlib
import lzma
import os
import queue
from collections.abc import Iterator
from concurrent.futures import ThreadPoolExecutor
from typing import BinaryIO

from .blobs import Source
from .cache_records import Bad, zstandard

PIECE = 1 << 20
# What each archive begins with.
BEGIN = (13).to_bytes(8, "little") + b"nix-archive-1"
# The memory that a file compressed by zstd may ask for, also of those who read it; what each frame after the first may
# ask for, which is that of level 19; and the bytes of the longest head of a frame. The memory for xz is that of its
# level 9.
WINDOW, LATER, HEAD, OF_XZ = 32 << 20, 8 << 20, 18, 72 << 20

# The memory in which an archive becomes a blob, besides that of its compression, and that in which it is unpacked.
PACKING, UNPACKING = 44 << 20, {"none": 0, "xz": OF_XZ, "zstd": WINDOW}

# `sent` is the SHA-256 of what came; the others are of the archive, and of its file in the blobs.
Packed = collections.namedtuple("Packed", "sent nar_hash nar_size file_hash file_size")


class Digest:
    """The SHA-256 and the number of the bytes that pass, made in a thread of its own."""

    def __init__(self, pool: ThreadPoolExecutor):
        self.pool, self.made, self.size, self.last = pool, hashlib.sha256(), 0, None

    def add(self, data: bytes) -> None:
        self.wait()
        self.size += len(data)
        self.last = self.pool.submit(self.made.update, data)

    def wait(self) -> None:
        if self.last:
            self.last.result()

    def end(self) -> bytes:
        self.wait()
        return self.made.digest()


class Read:
    """A source whose bytes are counted, and are written to a file where there is one."""

    def __init__(self, source: Source, digest: Digest, out: "Synced | None" = None):
        self.source, self.digest, self.out, self.left, self.at = source, digest, out, b"", 0

    def read(self, count: int = PIECE) -> bytes:
        if self.at == len(self.left):
            self.left, self.at = self.source.read(PIECE), 0
            self.digest.add(self.left)
            if self.out:
                self.out.write(self.left)
        self.at += count
        piece = self.left[self.at - count : self.at]
        self.at = min(self.at, len(self.left))
        return piece


def of_xz(source: Source) -> Iterator[bytes]:
    """The archive in a source that is compressed by xz. Raises Bad."""
    decompressor, data = lzma.LZMADecompressor(lzma.FORMAT_XZ, memlimit=OF_XZ), b""
    try:
        while not decompressor.eof:
            if decompressor.needs_input and not (data := source.read(PIECE)):
                raise Bad("it can't be unpacked: it ends too early")
            yield decompressor.decompress(data if decompressor.needs_input else b"", PIECE)
    except lzma.LZMAError as error:
        raise Bad(f"it can't be unpacked: {error}") from None
    if decompressor.unused_data or source.read(1):
        raise Bad("it can't be unpacked: something follows its end")


class Frames:
    """A source whose bytes are frames of zstd (RFC 8878), of which it knows whether the last one is whole: to the
    reader of zstandard, a frame that is cut off is one that ends."""

    def __init__(self, source: Source):
        self.source, self.left, self.skip, self.head, self.checksum = source, b"", 0, self.frame, 0

    def read(self, count: int) -> bytes:
        piece = self.source.read(count)
        data, at = self.left + piece, 0
        while True:
            step = min(self.skip, len(data) - at)
            at, self.skip = at + step, self.skip - step
            size = 0 if self.skip else self.head(data[at : at + 8])
            if not size:
                break
            at += size
        self.left = data[at:]
        return piece

    def frame(self, head: bytes) -> int:
        """The bytes of a frame's head that are read here, or 0 if there are more to come."""
        if head[1:4] == b"\x2a\x4d\x18" and len(head) == 8:
            self.skip = int.from_bytes(head[4:], "little")
            return 8
        if head[1:4] == b"\x2a\x4d\x18":
            return 0
        if len(head) < 5:
            return 0
        is_single, self.checksum, self.head = head[4] >> 5 & 1, 4 * (head[4] >> 2 & 1), self.block
        self.skip = 1 - is_single + (0, 1, 2, 4)[head[4] & 3] + (is_single, 2, 4, 8)[head[4] >> 6]
        return 5

    def block(self, head):
        """The bytes of a block's head, or 0 if there are more to come."""
        if len(head) < 3:
            return 0
        number = int.from_bytes(head[:3], "little")
        is_last, is_one = number & 1, number >> 1 & 3 == 1
        self.skip = (1 if is_one else number >> 3) + is_last * self.checksum
        self.head = self.frame if is_last else self.block
        return 3

    def is_whole(self) -> bool:
        return not self.skip and not self.left and self.head == self.frame


class Ahead:
    """A source of which something was read ahead."""

    def __init__(self, first: bytes, source: Source):
        self.first, self.source = first, source

    def read(self, count: int) -> bytes:
        piece, self.first = self.first, b""
        return piece or self.source.read(count)


def window_of(head: bytes) -> int:
    """The memory that the first frame of zstd asks for, by its first bytes. Raises ZstdError for what is no frame."""
    return min(WINDOW, zstandard.get_frame_parameters(head).window_size)


def unpacked(source: Source) -> Source:
    """A stream of what a source has compressed by zstd. No frame may ask for much more memory than the first one, by
    which readers are counted."""
    first = b""
    while len(first) < HEAD and (data := source.read(PIECE)):
        first += data
    decompressor = zstandard.ZstdDecompressor(max_window_size=max(LATER, window_of(first)))
    return decompressor.stream_reader(Ahead(first, source), PIECE, read_across_frames=True, closefd=False)


def of_zstd(source: Source) -> Iterator[bytes]:
    """The archive in a source that is compressed by zstd. Raises Bad."""
    frames = Frames(source)
    try:
        stream = unpacked(frames)
        while data := stream.read(PIECE):
            yield data
    except zstandard.ZstdError as error:
        raise Bad(f"it can't be unpacked: {error}") from None
    if not frames.is_whole():
        raise Bad("it can't be unpacked: it ends too early")


def plain(source):
    while data := source.read(PIECE):
        yield data


UNPACKED = {"none": plain, "xz": of_xz, "zstd": of_zstd}


def memory(compression: str, level: int) -> int:
    """The bytes of memory in which an archive, compressed so, becomes a blob of this level."""
    # (two threads compress, and what is between them; one that comes by zstd stays as it is)
    context = zstandard.ZstdCompressionParameters.from_level(level).estimated_compression_context_size()
    return PACKING + UNPACKING[compression] + (0 if compression == "zstd" else 3 * context)


def packed(source: Source, compression: str, out: BinaryIO, level: int) -> Packed:
    """Reads an archive, compressed so, and writes its blob to a file. Raises Bad. One that comes by zstd stays as it
    is."""
    with ThreadPoolExecutor(3) as pool:
        nar, file, sent, synced = Digest(pool), Digest(pool), Digest(pool), Synced(out, pool)
        is_kept = compression == "zstd"
        reader = Read(source, file if is_kept else sent, synced if is_kept else None)
        archive = begun(UNPACKED[compression](reader if compression != "none" else source), source)
        (measure if is_kept else compress)(archive, nar, file, synced, level)
        synced.end()
        figures = nar.end(), nar.size, file.end(), file.size
        of_sent = {"none": figures[0], "zstd": figures[2]}.get(compression)
        return Packed(of_sent or sent.end(), *figures)


def begun(archive, source):
    """The pieces of an archive. Raises Bad for what is none. Few bytes may have many pieces, so a source that is broken
    off ends them."""
    first = b""
    for data in archive:
        if getattr(source, "is_broken", False):
            raise EOFError("the upload was broken off")
        if len(first) < len(BEGIN):
            first += data[: len(BEGIN)]
            if not BEGIN.startswith(first[: len(BEGIN)]):
                break
        yield data
    if first[: len(BEGIN)] != BEGIN:
        raise Bad("it is no archive (NAR)")


def measure(archive, nar, *_):
    for data in archive:
        nar.add(data)


def compress(archive, nar, file, out, level):
    compressor = zstandard.ZstdCompressor(level=level, write_checksum=True, threads=2).compressobj()
    for data in archive:
        nar.add(data)
        put(compressor.compress(data), file, out)
    put(compressor.flush(), file, out)


def put(data, file, out):
    if data:
        file.add(data)
        out.write(data)


class Synced:
    """A file that goes to the disk while it is written, so that little of it is left for the end."""

    EACH = 32 << 20

    def __init__(self, out: BinaryIO, pool: ThreadPoolExecutor):
        self.out, self.pool, self.left, self.last = out, pool, 0, None

    def write(self, data: bytes) -> None:
        self.out.write(data)
        self.left += len(data)
        if self.left >= self.EACH and (not self.last or self.last.done()):
            self.left = 0
            self.end()
            self.last = self.pool.submit(os.fdatasync, self.out.fileno())

    def end(self) -> None:
        """Raises the OSError of a disk that has failed."""
        if self.last:
            self.last.result()


class Feed:
    """Pieces that come to an event loop, for a thread that reads them. Few bytes wait."""

    MOST = 4 << 20

    def __init__(self, loop: asyncio.AbstractEventLoop, freed: asyncio.Event):
        self.loop, self.freed, self.pieces, self.left, self.waiting = loop, freed, queue.SimpleQueue(), b"", 0
        self.is_broken = False

    def give(self, piece: bytes | BaseException) -> None:
        """A piece; b"" is the end, and an exception is what the reader gets."""
        self.waiting += len(piece) if isinstance(piece, bytes) else 0
        self.pieces.put(piece)

    def taken(self, count: int) -> None:
        self.waiting -= count
        self.freed.set()

    def read(self, count: int) -> bytes:
        pieces, size = [self.left], len(self.left)
        while size < count:
            piece = self.pieces.get()
            if not piece or isinstance(piece, BaseException):
                # (the end is there for the next read, too)
                self.pieces.put(piece)
                if piece:
                    raise piece
                break
            pieces.append(piece)
            size += len(piece)
        if taken := size - len(self.left):
            self.loop.call_soon_threadsafe(self.taken, taken)
        data = b"".join(pieces)
        self.left = data[count:]
        return data[:count]
