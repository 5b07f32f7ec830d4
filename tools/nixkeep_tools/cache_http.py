"""What the parts of nixkeep-cache share: replies, bodies, and archives on their way to clients."""
import asyncio
import collections
import contextlib
import sys
import types
from collections.abc import AsyncIterator, Awaitable, Callable

from aiohttp import web

from . import nar
from .cache_room import Held, Room
from .cache_server import Reply

# A row of a part's table: the methods, the form of the target, and the handler, which gets the request and the groups
# of the form. Targets are matched as they are, as the server does it: a name may have `?` and `=` in it.
Route = collections.namedtuple("Route", "methods form handler")
# What a middleware calls to have a request answered.
Handler = Callable[[web.Request], Awaitable[web.StreamResponse]]
READ = ("GET", "HEAD")
# The limit of the server.
BODY = 20_971_520
# The bytes from which on a reply, or what is read, counts as large, and the bytes of a reply that are sent at once. And
# those from which on a body needs room: a user may have thousands that wait for one another.
LARGE, PIECE, SMALL = 65_536, 1 << 18, 4096
# The bytes of replies that are in memory while clients take them, and the threads that unpack and compress.
ROOM, THREADS = 144 << 20, 4
# The bytes that are received at once, but for a body that is read: it may wait for its room, as those of a thousand
# others do.
FIRST = 1 << 14
# The room that a reply has while the server makes it, which may be an archive.
UNKNOWN = nar.LIMIT


class Answered(Exception):
    """What isn't done, with the reply that says so."""

    def __init__(self, reply: web.Response):
        super().__init__(reply.text.strip())
        self.reply = reply


def shown(error: Exception | str) -> str:
    """What a client gets of an error: nothing of where this machine has its files."""
    return (error.strerror or type(error).__name__) if isinstance(error, OSError) else str(error)


def reply(status: int, text: str | bytes, kind: str = "text/plain", keep: str = "no-store",
          **fields: str) -> web.Response:
    """A reply with a text whose end is known; `keep` says how long caches may have it."""
    # (a target that is repeated may have bytes that are no text)
    data = text.encode("utf-8", "backslashreplace") if isinstance(text, str) else text
    return web.Response(status=status, body=data, headers={"content-type": kind, "cache-control": keep, **fields})


def passed(answer: Reply, kind: str | None = None, keep: str = "no-store") -> web.Response:
    """A reply of the server's. Only what was done may be kept."""
    if answer.status != 200:
        return reply(answer.status, answer.text)
    return reply(200, answer.text, kind or answer.kind, keep)


def forget(error: BaseException) -> None:
    """Lets go of what the frames of an error have, such as a body. aiohttp keeps the error of a client that has left
    with its request, so the two would keep each other until Python looks for such, which may be much later."""
    error.__traceback__ = None


async def begins(request: web.Request, answer: web.StreamResponse) -> None:
    """Remembers which reply to a request has begun."""
    request["begun"] = answer


@web.middleware
async def alone(request: web.Request, handler: Handler) -> web.StreamResponse:
    """A request has one reply. Where another one would follow, the connection ends: whoever asks next on it would get
    that, who may be another user of a proxy."""
    answer = await handler(request)
    begun = request.get("begun", answer)
    if begun is not answer and request.transport:
        print(f"nixkeep-cache: {request.method} {request.raw_path[:300]!r}: its reply had begun, and {answer.status} "
              "came", file=sys.stderr, flush=True)
        request.transport.abort()
    return begun


@contextlib.asynccontextmanager
async def of_client(request: web.Request, idle: float) -> AsyncIterator[None]:
    """While the client of a request is waited for, `idle` seconds at most. Raises TimeoutError."""
    request["waits"] = True
    try:
        async with asyncio.timeout(idle):
            yield
    finally:
        request["waits"] = False


async def pieces(request: web.Request, idle: float) -> AsyncIterator[bytes]:
    """Yields the body piece by piece. Raises TimeoutError for a client that is silent for `idle` seconds."""
    transport = request.transport or types.SimpleNamespace()
    transport.max_size = PIECE
    try:
        while True:
            async with of_client(request, idle):
                piece = await request.content.readany()
            if not piece:
                return
            yield piece
    finally:
        transport.max_size = FIRST


async def body(request: web.Request, most: int, idle: float, held: Held | None = None) -> bytes | None:
    """The body whole, or None if it is longer than `most` bytes. `held` is the room that it has, if it has any."""
    data = bytearray()
    if (request.content_length or 0) > most:
        return None
    async for piece in pieces(request, idle):
        data += piece
        if len(data) > most:
            return None
        if held:
            held.moved()
    if held:
        held.is_safe = True
    return bytes(data)


class Sending(Room):
    """Replies on their way, of which at most `most` bytes are in memory. A client may be silent for `idle` seconds."""

    def __init__(self, most: int, idle: float):
        super().__init__(most)
        self.idle = idle

    @contextlib.asynccontextmanager
    async def reserved(self, request: web.Request, is_much: bool = True) -> AsyncIterator[None]:
        """Room for a reply that the server makes meanwhile, and that may be large. It is sent in this."""
        async with self.taken(request, UNKNOWN if is_much else 0, True) as request["room"]:
            yield

    async def reserve(self, request: web.Request, size: int) -> None:
        """Waits for room of so many bytes, in the place of what a request has."""
        if held := request.get("room"):
            self.give(held)
        request["room"] = None
        if size > LARGE:
            request["room"] = held = await self.take(request, size)
            held.is_safe = True

    async def room(self, request: web.Request, answer: web.Response) -> None:
        """Waits until there is room for a reply, and takes it, for the `send` that follows."""
        size, held = len(answer.body) if len(answer.body) > LARGE else 0, request.get("room")
        if held:
            self.resize(held, size)
        elif size:
            request["room"] = await self.take(request, size)

    async def send(self, request: web.Request, answer: web.Response) -> web.StreamResponse:
        """Sends a reply that has room. A large one goes in pieces, and its client may be silent for `idle` seconds at
        each."""
        held = request.get("room")
        try:
            is_large = len(answer.body) > LARGE and request.method != "HEAD"
            return await self.stream(request, answer, held) if is_large else answer
        finally:
            if held:
                self.give(held)

    async def stream(self, request: web.Request, answer: web.Response, held: Held) -> web.StreamResponse:
        text, transport = memoryview(answer.body), request.transport
        sent = web.StreamResponse(status=answer.status, headers=answer.headers)
        sent.content_length = len(text)
        held.moved()
        try:
            await sent.prepare(request)
            for at in range(0, len(text), PIECE):
                async with of_client(request, self.idle):
                    await sent.write(text[at : at + PIECE])
                request["sent"] = at
                held.moved()
        except (ConnectionError, TimeoutError) as gone:
            # (the client has closed, or takes nothing: no reply can reach it)
            forget(gone)
            if transport:
                transport.abort()
        return sent
