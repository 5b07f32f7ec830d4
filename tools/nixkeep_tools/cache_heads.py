"""The heads of requests, which are tested before aiohttp reads them.

aiohttp 3.8 reads a field without a name as a part of the field before or after it, so `store-user` could have another
value than its sender gave. And it reads all requests of a connection ahead, however many wait for their replies.
"""
import asyncio
import re
from typing import Any

from aiohttp.http_exceptions import BadHttpMessage

# How a line after the first one begins: with a name, which is a token (RFC 9110, section 5.6.2), and a colon. Or it is
# empty. And what may become such a beginning.
BEGINS = re.compile(rb"[!#$%&'*+.^_`|~0-9A-Za-z-]+:|\r?\n")
MAY_BEGIN = re.compile(rb"[!#$%&'*+.^_`|~0-9A-Za-z-]*|\r")
# The empty lines ahead of a head.
AHEAD = re.compile(rb"[\r\n]*")
# The bytes of the longest name, and those that wait for an earlier reply before no more of the connection are read.
NAME, MOST = 8190, 1 << 16
# What the server says of such a head.
BAD = "refused: 36 bad-head\n"


class Heads:
    """In the place of `parser`, which is aiohttp's for a connection: it gets one request at a time, and the next one
    once that is answered. A field whose name isn't a token is a bad message, as is the rest of the connection."""

    def __init__(self, parser: Any, protocol: Any = None):
        self.parser, self.protocol, self.held = parser, protocol, b""
        # Where in a request the next byte is: in its first line, at the beginning of another one, or within one; and
        # how many bytes of its body are to come.
        self.is_first, self.is_begun, self.left = True, False, 0
        # Whether a request waits for its reply; whether what comes is no request any more, or is read by aiohttp alone.
        self.is_asked, self.is_bad, self.is_free = False, False, False

    def feed_data(self, data: bytes) -> tuple[list, bool, bytes]:
        """As of aiohttp's parsers: the requests in some bytes. Raises BadHttpMessage."""
        if self.is_free or self.is_bad:
            return self.parser.feed_data(data) if self.is_free else ([], False, b"")
        data, self.held, messages = self.held + data, b"", []
        try:
            while data and not self.is_free and (self.left or not self.is_asked):
                size = min(self.left, len(data)) or self.head(data)
                if not size:
                    break
                messages += self.given(data[:size])
                data = data[size:]
        except Exception:
            self.is_bad = True
            raise
        if data and self.is_free:
            messages += self.parser.feed_data(data)[0]
        elif data:
            self.hold(data)
        return messages, False, b""

    def head(self, data: bytes) -> int:
        """The bytes of a head among these that can be passed on: up to its end, or to a name that isn't whole."""
        at = AHEAD.match(data).end() if self.is_first else 0
        if self.is_first and at < len(data):
            self.is_first, self.is_begun = False, True
        while at < len(data):
            if self.is_begun:
                end = data.find(b"\n", at) + 1
                at, self.is_begun = end or len(data), not end
                continue
            match = BEGINS.match(data, at)
            if not match and MAY_BEGIN.fullmatch(data, at) and len(data) - at <= NAME:
                break
            if not match:
                raise BadHttpMessage(BAD)
            at = match.end()
            if data[at - 1] == 10:
                self.is_first = True
                break
            self.is_begun = True
        return at

    def given(self, data: bytes) -> list:
        """What the parser makes of bytes, which are part of a body, or of a head."""
        if self.left:
            self.left -= len(data)
            return self.parser.feed_data(data)[0]
        messages, is_upgrade, _ = self.parser.feed_data(data)
        # (no other protocol is spoken here)
        if is_upgrade:
            self.parser.set_upgraded(False)
        if bool(messages) != self.is_first and data.strip(b"\r\n"):
            raise BadHttpMessage(BAD)
        for message, _ in messages:
            self.is_asked = True
            self.left = int(message.headers.get("content-length", 0))
            # (such a request is refused, and the last one of its connection)
            self.is_free = "transfer-encoding" in message.headers or message.method == "CONNECT"
        return messages

    def hold(self, data: bytes) -> None:
        self.held = data
        if len(data) > MOST and self.protocol:
            self.protocol.pause_reading()

    def set_upgraded(self, is_upgraded: bool) -> None:
        """aiohttp calls this ahead of each reply: the next request has its turn."""
        self.parser.set_upgraded(is_upgraded)
        self.is_asked = False
        if self.held and self.protocol:
            asyncio.get_running_loop().call_soon(self.go_on)

    def go_on(self) -> None:
        self.protocol.resume_reading()
        self.protocol.data_received(b"")


def guard(protocol: Any) -> None:
    """Has the heads that come to a protocol of aiohttp tested."""
    protocol._request_parser = Heads(protocol._request_parser, protocol)
