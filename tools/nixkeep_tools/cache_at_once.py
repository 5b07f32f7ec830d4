"""Requests that nixkeep-cache answers at once: those for records that are in memory.

aiohttp makes a task for each request, and for each connection a task and a parser. A record in memory needs none of
them. So a connection begins here, and aiohttp gets it with its first request for anything else, or that isn't whole.
"""
import asyncio
import collections
import functools
import re
import socket
import time
from collections.abc import Callable
from typing import Any

from aiohttp import helpers, http
from aiohttp.http_exceptions import HttpProcessingError

from . import cache_heads
from .cache_archives import DIGITS, MINUTE, RECORD_KIND, Archives
from .cache_ending import Ending
from .cache_fair import Fair
from .cache_http import FIRST, LARGE
from .cache_server import Caller, Server
from .cache_watching import Seen, Watching

LINE = re.compile(rf"GET /({DIGITS}{{32}})\.narinfo HTTP/1\.1".encode())
# The bytes of a head that is read here, and the heads that are remembered, since clients send the same fields again.
LONGEST, HEADS = 4096, 1000
# By these fields a request has more than a head, or asks for another protocol.
MORE = ("content-length", "transfer-encoding", "expect", "upgrade")
# The seconds after which an idle connection is closed, as by aiohttp.
IDLE = 75
# What is read of a head: who asks, whether the connection ends with the reply, and the request as observers see it.
Head = collections.namedtuple("Head", "caller closes request")
# A reply as aiohttp writes it.
REPLY = (f"HTTP/1.1 200 OK\r\ncontent-type: {RECORD_KIND}\r\ncache-control: {MINUTE}\r\nContent-Length: %d\r\n"
         f"Date: %s\r\nServer: {http.SERVER_SOFTWARE}\r\n%s\r\n")


class Request(dict):
    """A request as observers see it, with its `caller`."""

    method = "GET"


def message(fields):
    """The head of a request with these fields, as aiohttp reads it; None where that isn't one head and nothing else."""
    heads = cache_heads.Heads(http.HttpRequestParser(asyncio.BaseProtocol(), None, 2**16))
    try:
        messages, *_ = heads.feed_data(b"GET / HTTP/1.1\r\n" + fields)
    except HttpProcessingError:
        return None
    is_one = len(messages) == 1 and not heads.held
    return messages[0][0] if is_one and not any(field in messages[0][0].headers for field in MORE) else None


class AtOnce:
    """`caller` returns who asks by the head of a request, or None where it is refused."""

    def __init__(self, caller: Callable[[Any], Caller | None], server: Server, archives: Archives,
                 watching: Watching, fair: Fair, ending: Ending):
        self.caller, self.server, self.archives = caller, server, archives
        self.watching, self.fair, self.ending = watching, fair, ending
        self.head = functools.lru_cache(HEADS)(self.read_head)

    def read_head(self, fields: bytes) -> Head | None:
        """The fields of a head, which end with an empty line."""
        head = message(fields)
        caller = head and self.caller(head)
        return Head(caller, head.should_close, Request(caller=caller)) if caller else None

    def reply(self, data: bytes) -> tuple[bytes, bool] | None:
        """The reply to a request, and whether the connection ends with it; None where aiohttp has to answer."""
        began = time.monotonic()
        line, _, fields = data.partition(b"\r\n")
        match = len(data) <= LONGEST and LINE.fullmatch(line)
        head = self.head(fields) if match else None
        if not head or not self.is_admitted(head.caller):
            return None
        text = self.archives.held(match[1].decode())
        # (a client may read nothing of a long one)
        if text is None or len(text) > LARGE:
            return None
        ends = "Connection: close\r\n" if head.closes else ""
        written = (REPLY % (len(text), helpers.rfc822_formatted_time(), ends)).encode() + text
        self.watching.saw(Seen(head.request, None, "record", 200, 0, len(text), time.monotonic() - began))
        return written, head.closes

    def is_admitted(self, caller: Caller) -> bool:
        """Whether a caller may connect, as far as that is known, and has a request left."""
        return self.server.is_admitted(caller) and not self.fair.is_full(caller.user) and not self.ending.begun.is_set()


class Connection(asyncio.Protocol):
    """The connection of a client. `others` makes the protocol of aiohttp that it is passed on to."""

    def __init__(self, at_once: AtOnce, others: Callable[[], asyncio.Protocol]):
        self.at_once, self.others, self.transport = at_once, others, None
        self.until, self.timer = 0, None

    def connection_made(self, transport: asyncio.Transport) -> None:
        self.transport, transport.max_size = transport, FIRST
        self.at_once.ending.connected.add(self)
        connected = transport.get_extra_info("socket")
        if connected is not None and connected.family != socket.AF_UNIX:
            connected.setsockopt(socket.SOL_SOCKET, socket.SO_KEEPALIVE, 1)

    def data_received(self, data: bytes) -> None:
        self.at_once.ending.connected.discard(self)
        answer = self.at_once.reply(data)
        if not answer:
            return self.leave(data)
        self.transport.write(answer[0])
        if answer[1]:
            self.transport.close()
        else:
            self.rest()

    def leave(self, data: bytes) -> None:
        self.stop()
        other = self.others()
        cache_heads.guard(other)
        self.transport.set_protocol(other)
        other.connection_made(self.transport)
        other.data_received(data)

    def rest(self) -> None:
        """Closes the connection once it has been idle for a while."""
        loop = asyncio.get_running_loop()
        self.until = loop.time() + IDLE
        if not self.timer:
            self.timer = loop.call_at(self.until, self.look)

    def look(self) -> None:
        loop, self.timer = asyncio.get_running_loop(), None
        if loop.time() >= self.until:
            self.transport.abort()
        else:
            self.timer = loop.call_at(self.until, self.look)

    def stop(self) -> None:
        if self.timer:
            self.timer.cancel()
        self.timer = None

    def pause_writing(self) -> None:
        """Reads no more of a client that reads nothing: what it sends would fill the memory."""
        self.transport.pause_reading()

    def resume_writing(self) -> None:
        self.transport.resume_reading()

    def connection_lost(self, _: Exception | None) -> None:
        self.at_once.ending.connected.discard(self)
        self.stop()


class Loop(asyncio.SelectorEventLoop):
    """A loop whose listeners accept connections for `at_once`, as soon as there is one."""

    at_once: AtOnce | None = None

    def first(self, others: Callable[[], asyncio.Protocol]) -> Callable[[], asyncio.Protocol]:
        return functools.partial(Connection, self.at_once, others) if self.at_once else others

    async def create_server(self, others: Callable, *words: Any, **more: Any) -> asyncio.Server:
        return await super().create_server(self.first(others), *words, **more)

    async def create_unix_server(self, others: Callable, *words: Any, **more: Any) -> asyncio.Server:
        return await super().create_unix_server(self.first(others), *words, **more)
