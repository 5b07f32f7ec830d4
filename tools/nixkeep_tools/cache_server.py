"""The one connection of nixkeep-cache to the store's server.

The server answers one request at a time. So all clients share this connection: each request waits for its turn, is sent
whole, and its reply is read whole. Users take turns. Targets pass unchanged, byte for byte, and many requests can be
sent before the first reply. aiohttp's own client does neither.
"""
import asyncio
import collections
import contextlib
import io
import math
import re
from collections.abc import AsyncIterator, Callable, Iterable, Iterator
from typing import TYPE_CHECKING

from .cache_turns import IS_AWAITED, Turns

if TYPE_CHECKING:
    from .cache_child import Child

# `user` and `group` are plain names; `group` may be None.
Caller = collections.namedtuple("Caller", "user group")
Request = collections.namedtuple("Request", "caller method target body", defaults=(b"",))
Reply = collections.namedtuple("Reply", "status kind text")

# Requests that may be sent once more: they change nothing, or nothing further the second time.
REPEATED = re.compile(r"GET .*|POST /(text|source|import|temp/[^/]+/[0-9]+)")
# The targets of requests that delete objects.
DELETES = ("/collect", "/delete")
# The least status of a reply by which the server fails: what it said before may be true no more.
FAILED = 500
# The bytes of a reply that are read ahead, of which a head has few, and those of the longest one: a listing of millions
# of paths has less.
AHEAD, LONGEST = 1 << 20, 1 << 30
# What a connection that ends, or isn't the server's, raises.
BROKEN = (OSError, EOFError, ValueError, KeyError, IndexError, asyncio.LimitOverrunError)
# The requests that go out together where many are asked at once, and the bytes of a large body that do.
TOGETHER, PIECE = 100, 1 << 18


def bases_in(text: bytes) -> Iterator[str]:
    """Yields the base names in a reply that names a path in each line. A listing of all paths may have hundreds of MB,
    so its lines are read one by one."""
    for line in io.BytesIO(text):
        yield line.rpartition(b"/")[2].rstrip(b"\n").decode()


class Unreachable(Exception):
    """The server couldn't be reached, or the connection ended before its reply."""


def message(request: Request) -> tuple[bytes, bytes]:
    """The head of a request, and its body."""
    caller, method, target, body = request
    fields = ["host: store", f"store-user: {caller.user}", f"content-length: {len(body)}"]
    fields += [f"store-group: {caller.group}"] if caller.group else []
    return "\r\n".join([f"{method} {target} HTTP/1.1", *fields, "", ""]).encode("ascii"), body


def sendable(messages):
    """Yields the bytes of messages: small ones together, and a large body in pieces, which aren't copied."""
    small = bytearray()
    for head, body in messages:
        small += head
        if len(body) <= PIECE:
            small += body
            continue
        yield bytes(small)
        small.clear()
        yield from (memoryview(body)[at : at + PIECE] for at in range(0, len(body), PIECE))
    yield bytes(small)


async def read_reply(reader: asyncio.StreamReader) -> tuple[Reply, bool]:
    """The next reply, and whether the server closes the connection after it."""
    head = (await reader.readuntil(b"\r\n\r\n")).decode("latin-1").split("\r\n")
    fields = dict(line.lower().split(": ", 1) for line in head[1:] if line)
    if (size := int(fields["content-length"])) > LONGEST:
        raise ValueError(f"a reply of {size} bytes")
    text = await reader.readexactly(size)
    return Reply(int(head[0].split(" ")[1]), fields["content-type"], text), fields.get("connection") == "close"


class Port:
    """A server that listens on a port. It closes an idle connection after a minute, so that is closed before."""

    # (of its memory nothing is known)
    idle, refused, opened = 30, 0, None

    def __init__(self, host: str, port: int):
        self.host, self.port, self.why = host, port, "no answer"

    async def open(self) -> tuple[asyncio.StreamReader, asyncio.StreamWriter]:
        """The streams of a new connection. A server that starts again is waited for."""
        while True:
            try:
                return await asyncio.open_connection(self.host, self.port, limit=AHEAD)
            except OSError as error:
                self.why = error
                await asyncio.sleep(0.1)

    def close(self, writer: asyncio.StreamWriter) -> None:
        """Says that a connection was closed."""

    def memory(self) -> None:
        """The bytes of memory that the server has: they aren't known."""

    async def ended(self) -> None:
        """Waits without an end: a server that starts again is another one's."""
        await asyncio.get_running_loop().create_future()

    async def end(self) -> None:
        """Says that there will be no other connection."""


class Server:
    """The server at a place, which is a Port or a Child. All times are in seconds: `patience` is how long it may be
    away, and `longest` how long an answer may take."""

    def __init__(self, place: "Port | Child", patience: float, longest: float = 300):
        self.place, self.patience, self.longest = place, patience, longest
        self.turns, self.reader, self.writer, self.closing = Turns(), None, None, None
        # When the last connection was closed.
        self.lost = -math.inf
        # Each connection may reach another server, over another file: what was learnt by an earlier one is void.
        self.connections, self.denials = 0, {}
        # Whether a deletion is on its way, and how often a reply of the server voided what was learnt of objects.
        self.is_deleting, self.voided = False, 0

    def is_open(self) -> bool:
        return bool(self.writer) and not (self.reader.at_eof() or self.writer.is_closing())

    def age(self) -> tuple[int, int] | None:
        """What was learnt of an object is good while this is the same: each change of the store passes here, since a
        server has one connection at a time. None where it isn't known, and the server has to be asked."""
        is_known = self.is_open() and not self.is_deleting and not self.is_quiet()
        return (self.connections, self.voided) if is_known else None

    def is_quiet(self) -> bool:
        """Whether the connection would soon be closed as an idle one, although clients ask."""
        left = self.closing and self.closing.when() - asyncio.get_running_loop().time()
        return left is not None and left < self.place.idle / 2

    async def ask(self, caller: Caller, method: str, target: str, body: bytes = b"") -> Reply:
        """The reply to a request. Raises Unreachable."""
        return (await self.asks([Request(caller, method, target, body)]))[0]

    async def asks(self, requests: list[Request], first: Callable[[], Iterable[Request]] = lambda: ()) -> list[Reply]:
        """The replies to requests that go out together, so that no other comes between, after those that `first` gives
        once their turn has come. Raises Unreachable. If the connection ends before the replies, they are sent once
        more, where that does no harm."""
        # (a client that closes its connection ends its handler, but not an exchange in the middle)
        return await asyncio.shield(asyncio.ensure_future(self.exchange(requests, first)))

    async def exchange(self, requests, first):
        came = asyncio.get_running_loop().time()
        tries = 2 if all(REPEATED.fullmatch(f"{request.method} {request.target}") for request in requests) else 1
        async with self.turns.turn((requests[0].caller.user, IS_AWAITED.get())):
            while True:
                await self.connect(came)
                messages = [message(request) for request in (*first(), *requests)]
                self.is_deleting = any(request.method == "POST" and request.target in DELETES for request in requests)
                try:
                    async with asyncio.timeout(self.longest):
                        return await self.sent(messages)
                except BROKEN as error:
                    self.close()
                    tries -= 1
                    if not tries:
                        raise Unreachable(f"the server ended the connection before its reply ({error!r})") from error
                    # (a process that was killed may still accept a connection)
                    await asyncio.sleep(0.2)
                except BaseException:
                    self.close()
                    raise
                finally:
                    self.voided += self.is_deleting
                    self.is_deleting = False

    async def gets(self, caller: Caller, route: str, bases: list[str]) -> AsyncIterator[tuple[str, Reply]]:
        """Yields many base names, each with the reply to a GET by that route. Few replies are in memory, and other
        clients get their turns in between."""
        for at in range(0, len(bases), TOGETHER):
            some = bases[at : at + TOGETHER]
            for pair in zip(some, await self.asks([Request(caller, "GET", f"{route}{base}") for base in some])):
                yield pair

    async def sent(self, messages: list[tuple[bytes, bytes]]) -> list[Reply]:
        for data in sendable(messages):
            self.writer.write(data)
            await self.writer.drain()
        replies, ends = [], False
        for _ in messages:
            reply, ends = await read_reply(self.reader)
            self.voided += reply.status >= FAILED
            replies.append(reply)
        if ends:
            self.close()
        elif self.place.idle:
            self.closing = asyncio.get_running_loop().call_later(self.place.idle, self.close)
        return replies

    async def connect(self, came: float) -> None:
        """Opens the connection where it isn't open, for a request that came then. The time that it waited for its turn,
        or for a reply that was lost, takes nothing of the patience."""
        if self.closing:
            self.closing.cancel()
        # (the end of an idle connection is seen before anything is sent on it)
        if self.writer and not self.is_open():
            self.close()
        if not self.writer:
            left = max(came, self.lost) + self.patience - asyncio.get_running_loop().time()
            try:
                async with asyncio.timeout(max(left, 0.1)):
                    self.reader, self.writer = await self.place.open()
            except TimeoutError:
                raise Unreachable(f"the server can't be reached ({self.place.why})") from None
            self.connections += 1
            self.denials.clear()

    def close(self) -> None:
        if self.writer:
            self.writer.close()
            self.place.close(self.writer)
            self.lost = asyncio.get_running_loop().time()
        self.reader = self.writer = None

    async def end(self) -> None:
        """Ends the connection after the exchange that is under way, which may take as long as any. No other follows."""
        with contextlib.suppress(TimeoutError):
            async with asyncio.timeout(self.longest):
                await self.turns.take(None)
        if self.closing:
            self.closing.cancel()
        await self.place.end()
        self.close()

    def is_admitted(self, caller: Caller) -> bool:
        """Whether a caller may connect, and that is known without asking."""
        return self.is_open() and self.denials.get(caller, caller) is None

    async def denial(self, caller: Caller) -> Reply | None:
        """The reply that denies this caller to connect, or None. A server reads its configuration once, so one answer
        is good as long as the connection."""
        if caller not in self.denials or not self.is_open():
            # (a target without a route: whoever may connect gets 404)
            reply = await self.ask(caller, "GET", "/")
            if reply.status not in (403, 404):
                return reply
            if len(self.denials) > 10_000:
                self.denials.clear()
            self.denials[caller] = None if reply.status == 404 else reply
        return self.denials[caller]
