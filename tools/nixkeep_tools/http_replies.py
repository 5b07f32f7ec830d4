"""Replies that only HTTP allows and the server doesn't write: in chunks, up to the end of the connection, after an
interim reply, with folded fields, of HTTP/1.0. `http.client` reads them."""
import http.client
import io
import socket
from collections.abc import Callable

from .http_connection import Cut, NotHttp, Reply as PlainReply

# The bytes of a head with all interim replies, and those that come at most for each byte of a text: a chunk of one byte
# has five more. Fields after the last chunk are few.
HEADS, TIMES = 1 << 18, 8


class _Rest(io.RawIOBase):
    """The bytes that were read ahead, and then those of a socket. `left` are the bytes that may still come: a server
    may send interim replies, or fields after the last chunk, without an end, and http.client reads all of them."""

    def __init__(self, sock, ahead):
        super().__init__()
        self.sock, self.ahead, self.is_last, self.left = sock, ahead, False, HEADS

    def readable(self):
        return True

    def readinto(self, room):
        if self.left < 0:
            raise http.client.HTTPException
        if self.ahead:
            count = min(len(room), len(self.ahead))
            room[:count], self.ahead = self.ahead[:count], self.ahead[count:]
        else:
            count = self.sock.recv_into(room)
        self.left -= count
        return count

    def makefile(self, _):
        return io.BufferedReader(self)

    def close(self):
        super().close()
        if self.is_last:
            self.sock.close()


class Reply(PlainReply):
    """A reply that is read from a socket, after the bytes that were read ahead."""

    def __init__(self, sock: socket.socket, ahead: bytes):
        self.sock, self.rest = sock, _Rest(sock, ahead)
        self.response = http.client.HTTPResponse(self.rest)
        self.guard(self.response.begin)
        self.status, self.reason, self.fields = self.response.status, self.response.reason, self.response.headers
        self.length, self.is_last = self.response.length, self.response.will_close
        self.rest.is_last = self.is_last

    def is_read(self) -> bool:
        return self.response.isclosed()

    def read(self, count: int) -> bytes:
        """The next bytes of the text: `count` of them unless it ends before."""
        self.rest.left = HEADS + TIMES * count
        return self.guard(self.response.read, count)

    def guard(self, work: Callable[..., bytes | None], *words: object) -> bytes | None:
        try:
            return work(*words)
        except http.client.RemoteDisconnected:
            raise ConnectionResetError from None
        except http.client.IncompleteRead as cut:
            raise Cut(cut.expected) from None
        except http.client.HTTPException:
            raise NotHttp from None
