"""HTTP/2 over TLS as no client sends it: frames and fields as they are given, without compression (RFC 9113 and
RFC 7541)."""
import contextlib
import socket
import ssl
import struct
from collections.abc import Callable, Iterable

DATA, HEADERS, RESET, SETTINGS, GOAWAY, WINDOW, CONTINUATION = 0, 1, 3, 4, 7, 8, 9
END_STREAM, END_HEADERS, ACK = 1, 4, 1
PREFACE = b"PRI * HTTP/2.0\r\n\r\nSM\r\n\r\n"
# Statuses that have an index of the static table (RFC 7541, appendix A).
STATUSES = {8: 200, 9: 204, 10: 206, 11: 304, 12: 400, 13: 404, 14: 500}


def number(count, bits, first):
    """A number with a prefix of some bits in a byte."""
    most = (1 << bits) - 1
    if count < most:
        return bytes([first | count])
    octets, count = [first | most], count - most
    while count > 127:
        octets.append(count % 128 | 128)
        count //= 128
    return bytes([*octets, count])


def packed(fields: Iterable[tuple[bytes, bytes]]) -> bytes:
    """Fields as literals that aren't indexed."""
    text = lambda data: number(len(data), 7, 0) + data
    return b"".join(b"\0" + text(name) + text(value) for name, value in fields)


def status_of(block):
    """The status of a reply's fields: nginx has it first, by an index, or as a literal whose name has one."""
    while block and block[0] & 0xE0 == 0x20:
        # (the size of the table)
        block = block[1:]
    if block[0] & 128:
        return STATUSES[block[0] & 127]
    size, text = block[1] & 127, block[2 : 2 + (block[1] & 127)]
    return int(text) if not block[1] & 128 else int(digits(text)[:3]) if size else None


def digits(text):
    """Digits of Huffman's code: 0 to 2 have five bits, the others six."""
    bits, decoded = "".join(f"{byte:08b}" for byte in text), ""
    while bits:
        if (short := int(bits[:5], 2)) < 3:
            decoded, bits = decoded + str(short), bits[5:]
        elif len(bits) > 5 and 25 <= int(bits[:6], 2) < 32:
            decoded, bits = decoded + str(int(bits[:6], 2) - 22), bits[6:]
        else:
            break
    return decoded


class Connection:
    """A connection to nginx on a port of this machine. `streams` has the status that came on each, or `reset`,
    `most` how many nginx takes at once, and `taken` the last one that it took before it said that it takes no more."""

    def __init__(self, port: int, authority: str, name: str, settings: bytes = b""):
        tls = ssl.create_default_context(cafile=authority)
        tls.set_alpn_protocols(["h2"])
        self.stream = tls.wrap_socket(socket.create_connection(("127.0.0.1", port)), server_hostname=name)
        self.stream.settimeout(60)
        self.streams, self.last, self.is_closed, self.read = {}, -1, False, b""
        self.most, self.taken = None, None
        self.stream.sendall(PREFACE)
        self.send(SETTINGS, 0, 0, settings)

    def send(self, kind: int, flags: int, stream: int, payload: bytes = b"") -> None:
        head = struct.pack(">I", len(payload))[1:] + bytes([kind, flags]) + struct.pack(">I", stream)
        self.stream.sendall(head + payload)

    def ask(self, fields: Iterable[tuple[bytes, bytes]], *pieces: bytes, ends: bool = True) -> int:
        """Begins a stream with these fields and pieces of a body. Its number."""
        self.last += 2
        self.send(HEADERS, END_HEADERS | (END_STREAM if ends and not pieces else 0), self.last, packed(fields))
        for at, piece in enumerate(pieces, 1):
            self.send(DATA, END_STREAM if ends and at == len(pieces) else 0, self.last, piece)
        return self.last

    def reset(self, stream: int) -> None:
        self.send(RESET, 0, stream, struct.pack(">I", 8))

    def exactly(self, count):
        while len(self.read) < count:
            if not (came := self.stream.recv(65_536)):
                raise EOFError
            self.read += came
        data, self.read = self.read[:count], self.read[count:]
        return data

    def frame(self) -> None:
        """Takes a frame."""
        head = self.exactly(9)
        kind, flags, stream = head[3], head[4], struct.unpack(">I", head[5:])[0]
        payload = self.exactly(int.from_bytes(head[:3], "big"))
        if kind == HEADERS:
            self.streams.setdefault(stream, status_of(payload))
        elif kind == RESET:
            self.streams.setdefault(stream, "reset")
        elif kind == SETTINGS and not flags & ACK:
            named = dict(struct.iter_unpack(">HI", payload))
            self.most = named.get(3, self.most)
            self.send(SETTINGS, ACK, 0)
        elif kind == DATA and payload:
            for ident in (0, stream):
                self.send(WINDOW, 0, ident, struct.pack(">I", len(payload)))
        elif kind == GOAWAY:
            self.is_closed, self.taken = True, struct.unpack(">I", payload[:4])[0]

    def until(self, is_so: Callable[[], bool]) -> bool:
        """Takes frames until something is so or the connection ends."""
        with contextlib.suppress(OSError, EOFError):
            while not is_so():
                self.frame()
            return True
        self.is_closed = True
        return False

    def status(self, fields: Iterable[tuple[bytes, bytes]], *pieces: bytes) -> int | str:
        """What comes to a request: a status, `reset`, or `closed`."""
        stream = self.ask(fields, *pieces)
        self.until(lambda: stream in self.streams or self.is_closed)
        return self.streams.get(stream, "closed")

    def close(self) -> None:
        self.stream.close()
