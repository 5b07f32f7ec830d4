"""Blobs as nixkeep-cache uses them: threads make blobs of archives that come, and blobs are sent to clients."""
import asyncio
import contextlib
import errno
import os
import re
import sys
import time
import weakref
from collections.abc import AsyncIterable, AsyncIterator, Callable, Iterator
from concurrent.futures import ThreadPoolExecutor
from typing import Any, BinaryIO

from aiohttp import web

from . import blob_packing, blob_reading, blobs, cache_limit, paths
from .blob_packing import Packed
from .blob_reading import Damaged, Gone
from .cache_ending import LAST, LOOK
from .cache_counts import Count
from .cache_http import Sending, forget, of_client, reply, shown
from .cache_places import Places
from .cache_records import Bad
from .cache_room import Held, Room, demand_client
from .pointers import Pointer

# The bytes of memory in which all archives that come at once become blobs, and the threads that read blobs.
COMING, READING = 192 << 20, 16
# The replies that take much of a processor for each byte which is sent, at once, those of one user, and those that are
# left for users who have none: archives that are compressed by xz, and parts up to which an archive has to be unpacked.
DEAR = 6, 2, 2
# The seconds in which the last bytes of an archive have to be unpacked, and those that the place of the blobs has for
# an answer once the end has begun: as many as readers have.
LAST_BYTES, LATE = 300, LOOK * LAST
# The bytes that one archive on its way to a client has in memory.
HELD = 3 * blob_reading.PIECE
# The seconds for which a blob that was there is taken to be there, where a record is asked for.
SEEN = 60
FULL = (errno.ENOSPC, errno.EDQUOT, errno.EFBIG)
RANGE = re.compile(r"bytes=([0-9]{0,18})-([0-9]{0,18})")


def say(line: object) -> None:
    print(f"nixkeep-cache: {line}", file=sys.stderr, flush=True)


class Blobs:
    """`place` is a folder or a bucket, `level` that of zstd. `relied` has when a blob was last relied on by a client
    that uploads, so that a sweep leaves it alone. `put` and `sent` count archives that came and that were sent.
    `ends` is an event, if there is one: the end of nixkeep-cache has begun."""

    def __init__(self, place: blobs.Place, level: int, sending: Sending, ends: asyncio.Event | None = None):
        self.place, self.level, self.sending, self.ends = place, level, sending, ends
        self.coming, self.dear, self.locks = Room(COMING), Places(*DEAR), weakref.WeakValueDictionary()
        self.threads = ThreadPoolExecutor(COMING // blob_packing.PACKING + READING, "blobs")
        self.relied, self.seen, self.put, self.sent, self.asking = {}, {}, Count(), Count(), None

    async def apart(self, work: Callable, *words: Any) -> Any:
        return await asyncio.get_running_loop().run_in_executor(self.threads, work, *words)

    async def answered(self, work: Callable, *words: Any) -> Any:
        """The result of work at the place of the blobs. After LATE seconds of an end it is waited for no more, as from
        a bucket that hangs: then an upload has no pointer, and is sent again. A deletion is waited for: one that is
        done later could take what was uploaded meanwhile. Raises Failed."""
        if self.ends is None:
            return await self.apart(work, *words)
        task, late = (asyncio.ensure_future(coroutine) for coroutine in (self.apart(work, *words), self.late()))
        task.add_done_callback(lambda done: done.cancelled() or done.exception())
        try:
            await asyncio.wait({task, late}, return_when=asyncio.FIRST_COMPLETED)
        finally:
            late.cancel()
        if not task.done():
            raise blobs.Failed("the blobs don't answer, and nixkeep-cache ends: try again later")
        return task.result()

    async def late(self):
        await self.ends.wait()
        await asyncio.sleep(LATE)

    def lock(self, name: str) -> asyncio.Lock:
        """The lock of a blob: no two tasks make, name or delete the same one."""
        return self.locks.setdefault(name, asyncio.Lock())

    async def answers(self) -> bool:
        """Whether blobs can be made and read. A place that hangs is asked once."""
        if not self.asking or self.asking.done():
            self.asking = asyncio.ensure_future(self.apart(self.place.answer))
        try:
            await asyncio.shield(self.asking)
            return True
        except (OSError, blobs.Failed):
            return False

    async def size(self, name: str) -> int | None:
        return await self.answered(self.place.size, name)

    async def is_there(self, name: str) -> bool:
        """Whether a blob is there, or was a moment ago."""
        now = time.monotonic()
        if now - self.seen.get(name, -SEEN) < SEEN:
            return True
        if await self.size(name) is None:
            return False
        if len(self.seen) > 10_000:
            self.seen.clear()
        self.seen[name] = now
        return True

    def forget(self, before: float) -> None:
        """Forgets who relied on blobs before that time, for which no sweep asks any more."""
        self.relied = {name: since for name, since in self.relied.items() if since >= before}

    # ---- archives that come

    @contextlib.asynccontextmanager
    async def taken(self, request: web.Request, compression: str,
                    pieces: AsyncIterable[bytes]) -> AsyncIterator[tuple[str, Packed]]:
        """A file with the blob of an archive that comes in pieces, and its Packed, once there is room for it. Raises
        Bad, Left, Full or OSError."""
        part = self.place.part()
        async with self.coming.taken(request, blob_packing.memory(compression, self.level)) as held:
            pieces = moving(pieces, held)
            try:
                with self.put.timed():
                    with open(part, "xb", opener=lambda name, flags: os.open(name, flags, 0o600)) as out:
                        made = await self.fed(pieces, blob_packing.packed, compression, out)
                        await self.apart(out.flush)
                    yield part, made
            except BaseException as error:
                self.put.failed += 1
                if isinstance(error, OSError) and error.errno in FULL:
                    raise cache_limit.Full(f"failed: full blobs: {error.strerror}\n") from error
                raise
            finally:
                with contextlib.suppress(FileNotFoundError):
                    os.unlink(part)

    async def fed(self, pieces: AsyncIterable[bytes], work: Callable, compression: str, out: BinaryIO) -> Packed:
        """The result of work that reads pieces in a thread while they come."""
        freed = asyncio.Event()
        feed = blob_packing.Feed(asyncio.get_running_loop(), freed)
        task = asyncio.ensure_future(self.apart(work, feed, compression, out, self.level))
        task.add_done_callback(lambda _: freed.set())
        try:
            async for piece in pieces:
                feed.give(bytes(piece))
                while feed.waiting > feed.MOST and not task.done():
                    freed.clear()
                    await freed.wait()
                if task.done():
                    break
            feed.give(b"")
            # (no proxy waits for longer)
            await asyncio.wait({task}, timeout=LAST_BYTES)
            if not task.done():
                raise Bad(f"it takes longer than {LAST_BYTES} seconds to unpack what has come")
            return task.result()
        except BaseException:
            feed.is_broken = True
            feed.give(EOFError("the upload was broken off"))
            with contextlib.suppress(BaseException):
                await asyncio.shield(task)
            raise

    async def keep(self, part: str, made: Packed) -> Packed:
        """Makes a file a blob, unless there is one with this archive that is whole. The Packed of the one that is
        there."""
        name = paths.base32(made.nar_hash)
        async with self.lock(name):
            self.relied[name] = time.time()
            if not await self.answered(self.place.put, part, name):
                try:
                    there = await self.answered(blob_reading.measured, self.place, name)
                    made = blob_packing.Packed(made.sent, *there)
                except (Damaged, FileNotFoundError) as damaged:
                    say(f"{damaged}: an upload replaces it")
                    await self.apart(self.place.delete, name)
                    await self.answered(self.place.put, part, name)
        self.put.number, self.put.bytes = self.put.number + 1, self.put.bytes + made.file_size
        return made

    # ---- archives that are sent

    async def send(self, request: web.Request, pointer: Pointer, form: str) -> web.StreamResponse:
        """The reply with an archive, or with the part of it that is asked for."""
        name, whole = paths.base32(pointer.nar_hash), blob_reading.size_of(pointer, form)
        tag = paths.base32(blob_reading.hash_of(pointer, form))
        head = {"content-type": "application/octet-stream", "cache-control": "max-age=60",
                "accept-ranges": "bytes", "etag": f'"{tag}"'}
        if any(known.value == tag for known in request.if_none_match or ()):
            return web.Response(status=304, body=b"", headers=head)
        start, end = ranged(request, tag, whole)
        if start >= whole:
            return reply(416, "", **{"content-range": f"bytes */{whole}"})
        is_part = (start, end) != (0, whole)
        head |= {"content-length": str(end - start)}
        head |= {"content-range": f"bytes {start}-{end - 1}/{whole}"} if is_part else {}
        if request.method == "HEAD":
            if await self.size(name) != pointer.file_size:
                return missing(f"blob-missing {pointer.path}: {name} isn't whole in the blobs")
            return web.Response(status=206 if is_part else 200, body=b"", headers=head)
        given = blob_reading.pieces(self.place, name, pointer, form, start, end)
        answer, is_plain = web.StreamResponse(status=206 if is_part else 200, headers=head), form == "none"
        async with self.dear.taken(request["caller"].user) if start and is_plain else contextlib.nullcontext():
            demand_client(request)
            return await self.streamed(request, given, answer, name if is_plain else None)

    async def streamed(self, request: web.Request, given: Iterator[bytes], answer: web.StreamResponse,
                       name: str | None = None) -> web.StreamResponse:
        """Sends pieces, for which the blob of this name is unpacked, if it is one. A reader is never left with a part
        that looks like the whole: what fails in the middle breaks the connection."""
        more = await self.answered(blob_reading.memory, self.place, name) if name else 0
        held = await self.sending.take(request, HELD + more)
        request["sent"] = 0
        try:
            with self.sent.timed():
                return await self.stream(request, given, answer, held)
        finally:
            self.sending.give(held)
            # (nobody waits for that: all threads may wait for a bucket that hangs)
            self.threads.submit(closed, given)

    async def stream(self, request: web.Request, given: Iterator[bytes], answer: web.StreamResponse,
                     held: Held) -> web.StreamResponse:
        try:
            piece = await self.piece(given, held)
            await answer.prepare(request)
            await self.pieces(request, answer, piece, given, held)
            await answer.write_eof()
            self.sent.number += 1
        except (ConnectionError, TimeoutError) as gone:
            # (the client has closed, or takes nothing: no reply can reach it)
            forget(gone)
            abort(request.transport)
        except (Gone, Damaged, blobs.Failed, OSError, EOFError) as error:
            self.sent.failed += 1
            if not answer.prepared:
                return missing(error)
            say(f"{request.method} {request.raw_path[:300]!r}: {error}")
            abort(request.transport)
        return answer

    async def pieces(self, request: web.Request, answer: web.StreamResponse, piece: bytes | None,
                     given: Iterator[bytes], held: Held) -> None:
        """Writes pieces to a reply. While a client takes one, the next is read."""
        while piece:
            ahead = asyncio.ensure_future(self.piece(given, held))
            try:
                async with of_client(request, self.sending.idle):
                    await answer.write(piece)
                request["sent"] += len(piece)
                self.sent.bytes += len(piece)
                held.moved()
            finally:
                piece = await ahead

    async def piece(self, given: Iterator[bytes], held: Held) -> bytes | None:
        """The next piece that isn't empty, or None. Others get their turns after each piece that is read, and none is
        read for a client that has closed its connection."""
        while (piece := await self.apart(next, given, None)) == b"":
            if not held.transport or held.transport.is_closing():
                raise ConnectionResetError("the client has closed its connection")
            held.moved()
        return piece


async def moving(pieces: AsyncIterable[bytes], held: Held) -> AsyncIterator[bytes]:
    """Yields pieces. Their client has its turn while the next one is waited for, and at no other time."""
    async for piece in pieces:
        held.is_safe = True
        yield piece
        held.moved()
    held.is_safe = True


def closed(given):
    # (a generator that a thread still runs ends by itself)
    with contextlib.suppress(ValueError):
        given.close()


def abort(transport: asyncio.Transport | None) -> None:
    if transport:
        transport.abort()


def missing(error: Exception | str) -> web.Response:
    """The reply where a blob is gone or damaged, with a line in the log."""
    say(error)
    return reply(502, f"failed: {shown(error)}\n")


def ranged(request, tag, whole):
    """The start and the end of the bytes that are asked for. What isn't one range is answered whole."""
    match = RANGE.fullmatch(request.headers.get("range", ""))
    if not match or match[0] == "bytes=-" or request.headers.get("if-range", f'"{tag}"') != f'"{tag}"':
        return 0, whole
    if not match[1]:
        return max(0, whole - int(match[2])), whole
    start, end = int(match[1]), min(whole, int(match[2]) + 1 if match[2] else whole)
    return (start, end) if start < end or start >= whole else (0, whole)
