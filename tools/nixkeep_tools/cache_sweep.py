"""Sweeps: blobs that no object names any more are deleted."""
import contextlib
import json
import os
import re
import time
from collections.abc import AsyncIterator

from aiohttp import web

from . import paths, whole_file
from .backup_restore import ASIDE
from .blobs import Blob, Failed
from .cache_blobs import Blobs, abort, say
from .cache_http import Route, body, of_client, reply
from .cache_pointers import Pointers
from .cache_room import demand_client
from .cache_server import Caller
from .cache_shares import Shares
from .cache_turns import Turns
from .count_of import count_of

SWEEP = re.compile(r"/sweep")
# The folders of files that were there before a restore: that of nixkeep-backup, and `aside` of a restore by hand.
ASIDES = re.compile(rf"{ASIDE}.*|{ASIDE.rstrip('-')}")
# The deletions that fail in one sweep, after which it ends: the others would fail, too.
FAILURES = 20


class Sweep:
    """A blob is deleted if it is older than `grace` seconds, no upload has relied on it for as long, and no pointer
    names it. Pointers are listed after blobs, and asked for again before each deletion. Meanwhile no pointer to that
    blob is imported. A file has when the last sweep ended, and what it has left. `folder` is that of the store's file,
    or None: what a restore has moved aside there may name any blob."""

    def __init__(self, blobs: Blobs, pointers: Pointers, shares: Shares, grace: int, idle: float, file: str,
                 folder: str | None = None):
        self.blobs, self.pointers, self.shares, self.turns, self.folder = blobs, pointers, shares, Turns(), folder
        self.grace, self.idle = grace, idle
        # The number of blobs and of bytes that sweeps have deleted, and when the last one ended, with the number and
        # the bytes of the blobs that it has left.
        self.deleted, self.bytes, self.file = 0, 0, file
        self.last, self.left = read(file)

    def routes(self) -> list[Route]:
        return [Route(("POST",), SWEEP, self.request)]

    async def request(self, request: web.Request) -> web.StreamResponse:
        """A sweep for a longer grace than the usual one, or one that only says what it would delete. A line says each
        deletion, and the last line is a summary."""
        given = await body(request, 1000, self.idle)
        match = re.fullmatch(rb"(grace: (\d{1,12})\n)?(dry-run: true\n)?\n?", given if given is not None else b"?")
        if not match:
            return reply(400, "refused: 41 bad-body-head\n")
        grace, answer = max(self.grace, int(match[2] or 0)), web.StreamResponse(headers={"content-type": "text/plain"})
        # (users take turns, and nothing is done for those who have left)
        async with self.turns.turn(request["caller"].user):
            demand_client(request)
            lines = self.lines(request["caller"], grace, bool(match[3]))
            first = await anext(lines)
            await answer.prepare(request)
            try:
                await self.send_line(request, answer, first)
                async for line in lines:
                    await self.send_line(request, answer, line)
                await answer.write_eof()
            except BaseException:
                # (no other reply can follow one that has begun)
                abort(request.transport)
                raise
        return answer

    async def send_line(self, request: web.Request, answer: web.StreamResponse, line: str) -> None:
        """Writes a line to a reply. A client that takes nothing loses its connection, since others wait for their
        turns."""
        async with of_client(request, self.idle):
            await answer.write(f"{line}\n".encode())

    async def lines(self, caller: Caller, grace: int, is_dry: bool) -> AsyncIterator[str]:
        """Sweeps, and yields a line for each deletion, for each one that fails, and a summary. Raises Denied."""
        before, count, size, failed = time.time() - grace, 0, 0, 0
        counted, gone = self.shares.blobs(), set()
        there = await self.blobs.answered(lambda: [*self.blobs.place.list()])
        listed = await self.pointers.listed(caller)
        named = {paths.base32(pointer.nar_hash) for pointer in (await self.pointers.among(caller, listed)).values()}
        asides = self.asides()
        left = [blob for blob in there if blob.since < before and blob.name not in named and not asides]
        known = {*listed}
        for aside in asides:
            failed += 1
            yield f"failed {aside}: a restore has left this folder, which may name any blob: delete it first"
        for blob in left:
            try:
                if is_dry or await self.delete(caller, blob, before, known):
                    count, size = count + 1, size + blob.size
                    gone.add(blob.name)
                    yield f"{'would delete' if is_dry else 'deleted'} {blob.name} {blob.size}"
            except (OSError, Failed) as error:
                say(f"not swept: {blob.name}: {error}")
                yield f"failed {blob.name}: {error}"
                if (failed := failed + 1) == FAILURES:
                    break
        if not is_dry:
            # (what an object names counts as that object)
            self.shares.drop([*(counted - ({blob.name for blob in there} - named - gone))])
            self.blobs.forget(time.time() - self.grace)
        if not (is_dry or failed):
            self.ended(len(there) - count, sum(blob.size for blob in there) - size)
        yield f"swept {count_of(count, 'blob')} {count_of(size, 'byte')}, kept {len(there) - count}"

    def asides(self) -> list[str]:
        """The folders into which restores have moved the files that were there before, as the way back."""
        with contextlib.suppress(OSError):
            return sorted(filter(ASIDES.fullmatch, os.listdir(self.folder))) if self.folder else []
        return []

    def ended(self, count: int, size: int) -> None:
        """Remembers a sweep that has left so much. What can't be written is lost at a restart."""
        self.last, self.left = time.time(), (count, size)
        with contextlib.suppress(OSError):
            whole_file.write(self.file, json.dumps([self.last, *self.left]), 0o600)

    async def delete(self, caller: Caller, blob: Blob, before: float, listed: set[str]) -> bool:
        """Deletes a blob unless something names it or relies on it by now. Returns whether it did."""
        async with self.blobs.lock(blob.name):
            if self.blobs.relied.get(blob.name, 0) >= before or await self.is_named(caller, blob.name, listed):
                return False
            self.blobs.seen.pop(blob.name, None)
            await self.blobs.apart(self.blobs.place.delete, blob.name)
        self.deleted, self.bytes = self.deleted + 1, self.bytes + blob.size
        say(f"swept {blob.name} {blob.size}")
        return True

    async def is_named(self, caller: Caller, name: str, listed: set[str]) -> bool:
        """Whether an object names a blob that wasn't there when objects were listed."""
        fresh = [base for base in await self.pointers.listed(caller) if base not in listed]
        named = await self.pointers.among(caller, fresh)
        return any(paths.base32(pointer.nar_hash) == name for pointer in named.values())


def read(file):
    """What `ended` has written: a time, and two numbers; None for each where it isn't there."""
    with contextlib.suppress(OSError, ValueError, TypeError):
        with open(file) as text:
            last, count, size = json.load(text)
        return float(last), (int(count), int(size))
    return None, None
