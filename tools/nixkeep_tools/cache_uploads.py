"""What Nix sends to nixkeep-cache: archives, which wait on the disk, and the records that make objects of them."""
import asyncio
import re
from collections.abc import Callable
from typing import Any, NoReturn

from aiohttp import web

from . import cache_changes, cache_records, cache_waiting
from .cache_archives import RECORD
from .cache_http import LARGE, SMALL, Route, body, passed, pieces, reply
from .cache_large import Large
from .cache_limit import Limit
from .cache_names import Names
from .cache_records import Bad
from .cache_room import Room
from .cache_server import Caller, Reply, Request, Server
from .cache_sessions import Sessions
from .cache_shares import Shares
from .cache_signing import Signing
from .cache_stored import Stored
from .cache_turns import Turns

# The longest record: as many references as an object may have, each of a long name.
INFO = 1_200_000
# The archives that are unpacked at once, and the bytes that each has in memory: its file, the archive with what it is
# unpacked in, and once more with its head. The bytes of records in memory, and how many times one is there: as it came,
# its fields, and the head of an import.
MANY, UNPACKED = 3, 60 << 20
RECORDS, TIMES = 32 << 20, 3
ARCHIVE, OTHER = re.compile(r"/nar/(.*)"), re.compile(r".*")


class Uploads:
    def __init__(self, server: Server, names: Names, stored: Stored, waiting: cache_waiting.Waiting, sessions: Sessions,
                 signing: Signing, limit: Limit, shares: Shares, store: str, idle: float, large: Large | None = None):
        self.server, self.names, self.stored, self.waiting = server, names, stored, waiting
        self.sessions, self.signing, self.limit, self.shares = sessions, signing, limit, shares
        self.store, self.idle = store, idle
        self.unpacking, self.large = Room(MANY * UNPACKED), large
        self.records, self.reading = Room(RECORDS), Turns()

    def routes(self) -> list[Route]:
        handlers = [(ARCHIVE, self.archive), (RECORD, self.record), (OTHER, self.other)]
        return [Route(("PUT",), form, handler) for form, handler in handlers]

    async def archive(self, request: web.Request, name: str) -> web.Response:
        """An archive waits for its record."""
        size = cache_waiting.LONGEST if request.content_length is None else request.content_length
        with self.shares.room(request["caller"].user, size):
            if self.large and size > self.large.least:
                await self.large.take(request, name, pieces(request, self.idle))
                return reply(201, "")
            self.limit.check(size)
            await self.waiting.take(request["caller"].user, name, size, pieces(request, self.idle))
            return reply(201, "")

    async def record(self, request: web.Request, digits: str) -> web.Response:
        """The archive that waits for this record is imported with what it says."""
        size = min(request.content_length or 0, INFO)
        async with self.records.taken(request, TIMES * size if size > SMALL else 0) as held:
            text = await body(request, INFO, self.idle, held)
            if text is None:
                raise Bad(f"a record has at most {INFO} bytes")
            return await self.recorded(request, digits, text)

    async def read(self, user: str, work: Callable, *words: Any) -> Any:
        """The result of work on a record. A long one is read in a thread, one at a time, and users take turns."""
        if max(map(len, words)) <= LARGE:
            return work(*words)
        async with self.reading.turn(user):
            return await asyncio.get_running_loop().run_in_executor(None, work, *words)

    async def recorded(self, request: web.Request, digits: str, text: bytes) -> web.Response:
        caller = request["caller"]
        record = await self.read(caller.user, cache_records.fields, text)
        cache_changes.note(request, f"path: {record['StorePath']}\n\n".encode())
        name, base = cache_records.file_of(record), record["StorePath"].rpartition("/")[2]
        head = await self.read(caller.user, lambda _: cache_records.import_head(record, digits, self.store), text)
        if self.large and await self.large.is_large(request, name, record, self.waiting):
            answer = await self.large.recorded(caller, name, record, head)
        else:
            async with self.unpacking.taken(request, UNPACKED, True):
                answer = passed(await self.small(caller, name, base, head))
        if answer.status == 200:
            self.signing.uploaded(text)
            self.waiting.use(name)
            self.stored.add(name, base)
        return answer

    async def small(self, caller, name, base, head):
        """The reply to an import of an archive that waits and that the store itself keeps."""
        data = self.waiting.read(name)
        archive = await asyncio.get_running_loop().run_in_executor(None, cache_records.unpacked, name, data)
        del data
        if self.large:
            self.large.refuse_pointer(b"\nca: " in head, base, archive)
        given = head + archive
        # (so that one copy is in memory)
        del archive
        return await self.imported(caller, base, given)

    async def imported(self, caller: Caller, base: str, given: bytes, size: int | None = None,
                       blob: str | None = None) -> Reply:
        """The reply to an import. The session of the user keeps the object before anybody else is served. `size` is
        that of its archive, where the archive is elsewhere, in a blob."""
        size = len(given) if size is None else size
        with self.shares.room(caller.user, size, blob):
            self.limit.check(len(given))
            keeping = self.sessions.keeping(caller, base)
            answer = (await self.server.asks([Request(caller, "POST", "/import", given), keeping]))[0]
            if answer.status == 200:
                self.shares.drop([blob] if blob else [])
                self.shares.added(caller.user, answer.text, size)
                self.names.added(answer.text)
        return answer

    async def other(self, request: web.Request) -> NoReturn:
        raise Bad(f"PUT {request.raw_path[:300]}: only records and archives are kept")
