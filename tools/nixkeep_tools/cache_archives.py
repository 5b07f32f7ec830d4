"""What Nix fetches from nixkeep-cache: records, archives, and the files of its own uploads."""
import asyncio
import re
from typing import TYPE_CHECKING

from aiohttp import web

from . import cache_encoding, cache_records, pointers
from .cache_http import READ, Route, Sending, passed, reply
from .cache_names import Names
from .cache_recent import Recent
from .cache_server import Request, Server
from .cache_sessions import Sessions
from .cache_signing import Signing
from .cache_stored import Stored
from .cache_turns import Turns
from .cache_waiting import Waiting

if TYPE_CHECKING:
    from .cache_large import Large

DIGITS = "[0-9abcdfghijklmnpqrsvwxyz]"
INFO = re.compile(r"/nix-cache-info")
RECORD = re.compile(rf"/({DIGITS}{{32}})\.narinfo")
FILE = re.compile(r"/nar/([0-9a-z]{52}\.nar[.0-9a-z]*)")
# An archive has its hash in its address, so an address never has other bytes.
ARCHIVE = re.compile(rf"/nar/({DIGITS}{{52}})/({DIGITS}{{32}}-[0-9A-Za-z+._?=-]+)")
# Records and archives are kept for a minute, since an object may be deleted. Then a cache asks whether it is there.
# None is `public`: who gets it has logged in, and a cache of others on the way gives it to nobody else.
MINUTE = "max-age=60"
BYTES = "application/octet-stream"
RECORD_KIND = "text/x-nix-narinfo"


def hash_of(record):
    return re.search(rb"^NarHash: sha256:([0-9a-z]+)$", record, re.M)[1].decode()


def archived(digest, kept, record, archive=None):
    """The reply with an archive of this hash, by the server's replies: with its head alone where there is no archive,
    and without even that where the client has it, by the tag `kept`."""
    head = {"cache-control": MINUTE, "etag": f'"{kept or digest}"', **cache_encoding.VARY}
    if record.status != 200:
        return passed(record)
    if hash_of(record.text) != digest:
        return reply(404, "the path has other contents\n")
    if kept:
        return web.Response(status=304, body=b"", headers=head)
    head |= {"content-type": BYTES}
    if not archive:
        size = re.search(rb"^NarSize: (\d+)$", record.text, re.M)[1].decode()
        return web.Response(body=b"", headers=head | {"content-length": size})
    return web.Response(body=archive.text, headers=head) if archive.status == 200 else passed(archive)


class Archives:
    """`stored` are the uploaded files whose archives are in the store, `waiting` those that wait for their records,
    `sessions` keep the paths for which an uploading client has asked, `signing` signs records."""

    def __init__(self, server: Server, names: Names, stored: Stored, waiting: Waiting, sessions: Sessions,
                 signing: Signing, sending: Sending, store: str, large: "Large | None" = None):
        self.server, self.names, self.stored, self.waiting = server, names, stored, waiting
        self.sessions, self.signing, self.sending, self.store = sessions, signing, sending, store
        self.large, self.packing, self.recent = large, Turns(), Recent(server, signing)

    def routes(self) -> list[Route]:
        handlers = [(INFO, self.info), (RECORD, self.record), (FILE, self.file), (ARCHIVE, self.archive)]
        return [Route(READ, form, handler) for form, handler in handlers]

    async def info(self, _):
        text = f"StoreDir: {self.store}\nWantMassQuery: 1\nPriority: 40\n"
        text += f"LargeFrom: {self.large.least}\n" if self.large else ""
        return reply(200, text, "text/x-nix-cache-info", MINUTE)

    def held(self, digits: str) -> bytes | None:
        """The text of a record that is in memory."""
        base = self.names.known(digits)
        return self.recent.text(base) if base else None

    async def record(self, request: web.Request, digits: str) -> web.StreamResponse:
        """A record, whose archive is at an address with its hash."""
        caller = request["caller"]
        base, failed = await self.names.base(caller, digits)
        if failed:
            return passed(failed)
        if request.method == "HEAD":
            self.sessions.remember(caller, base)
        if not base:
            return reply(404, "no such path\n")
        # (by HEAD a client learns what it has to upload, which the server says)
        if request.method == "GET" and (text := self.recent.text(base)):
            return reply(200, text, RECORD_KIND, MINUTE)
        now = self.recent.now()
        answer = await self.server.ask(caller, "GET", f"/info/{base}")
        if answer.status != 200:
            return passed(answer)
        text, failed = await self.large.record(request, base, answer.text) if self.large else (None, None)
        if failed is not None:
            return failed
        if text:
            return reply(200, self.signing.signed(text), RECORD_KIND, MINUTE, vary="user-agent")
        url = f"URL: nar/{hash_of(answer.text)}/{base}".encode()
        text = self.signing.signed(re.sub(rb"^URL: .*$", lambda _: url, answer.text, count=1, flags=re.M))
        self.recent.add(base, text, now)
        return reply(200, text, RECORD_KIND, MINUTE)

    async def archive(self, request: web.Request, digest: str, base: str) -> web.StreamResponse:
        """An archive, if the object has this hash now. A cache that has it asks by `if-none-match`."""
        caller = request["caller"]
        kept = cache_encoding.tag_kept(request, digest)
        requests = [Request(caller, "GET", f"/info/{base}")]
        requests += [] if kept or request.method == "HEAD" else [Request(caller, "GET", f"/nar/{base}")]
        async with self.sending.reserved(request, len(requests) > 1):
            record, *archive = await self.server.asks(requests)
            answer = await cache_encoding.encoded(request, archived(digest, kept, record, *archive), digest)
            await self.sending.room(request, answer)
            return await self.sending.send(request, answer)

    async def file(self, request: web.Request, name: str) -> web.StreamResponse:
        """An uploaded file. By HEAD a client asks whether it has to send it. By GET one asks that has kept the record
        of its own upload, and gets the archive of the object that the file became, compressed in the same way."""
        if request.method == "HEAD":
            is_there = name in self.waiting.files or self.large and await self.large.is_arrived(name)
            return reply(200 if is_there else 404, b"", BYTES)
        base = self.stored.base(name)
        if not base:
            return reply(404, b"", BYTES)
        async with self.sending.reserved(request):
            answer = await self.server.ask(request["caller"], "GET", f"/nar/{base}")
            if answer.status == 404:
                self.stored.forget(name)
            if answer.status != 200:
                return passed(answer)
            if self.large and len(answer.text) == pointers.SIZE:
                self.sending.resize(request["room"], len(answer.text))
                sent = await self.large.uploaded(request, name, base)
                if sent is not None:
                    return sent
            # (one at a time, so that a user with many has no more than one thread)
            async with self.packing.turn(request["caller"].user):
                packed = await asyncio.get_running_loop().run_in_executor(None, cache_records.packed, name, answer.text)
            answer = reply(200, packed, BYTES)
            await self.sending.room(request, answer)
            return await self.sending.send(request, answer)
