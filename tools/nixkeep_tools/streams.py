"""Standard input and output. A stream that can't be read or written raises Stop with the line that `nixkeep` prints."""
from __future__ import annotations

import io
import os
import stat

from .failures import Stop, reason

# (for hints alone: see `http_connection`)
TYPE_CHECKING = False
if TYPE_CHECKING:
    from collections.abc import Iterable, Iterator

CHUNK = 65_536
# Bytes of an input from a pipe that are held in memory; a longer one is held in a file.
IN_MEMORY = 1_048_576
# The bytes of a text that are shown as they are.
PLAIN = b"\n" + bytes(range(32, 127))


def keep_closed() -> None:
    """Opens standard streams that are closed, so that no other file gets their numbers. They fail as closed ones do."""
    for number, mode in enumerate((os.O_WRONLY, os.O_RDONLY, os.O_RDONLY)):
        try:
            os.fstat(number)
        except OSError:
            # The lowest free number is this one.
            os.open(os.devnull, mode)


def write(parts: Iterable[bytes], number: int = 1) -> None:
    """Writes bytes to standard output or another open file."""
    try:
        for part in parts:
            left = memoryview(part)
            while left:
                left = left[os.write(number, left) :]
    except OSError:
        raise Stop("failed: output") from None


def printable(text: str) -> str:
    """A text with each character that isn't printable as an escape: a server may have written it, for a terminal."""
    return "".join(char if char.isprintable() or char == "\n" else ascii(char)[1:-1] for char in text)


def shown(parts: Iterable[bytes]) -> Iterator[bytes]:
    """Yields the bytes of a text of a server, which is ASCII, with each byte that doesn't print as an escape: others
    may be meant for a terminal. (re takes longer to load than all else.)"""
    for part in parts:
        for odd in {*part.translate(None, PLAIN)}:
            part = part.replace(bytes([odd]), b"\\x%02x" % odd)
        yield part


def say(line: str) -> bool:
    """Writes a line to standard error, and returns whether that was possible."""
    try:
        write([f"{printable(line)}\n".encode()], 2)
        return True
    except Stop:
        return False


def read(count):
    try:
        return os.read(0, count)
    except OSError:
        raise Stop("failed: input") from None


def received(most: int | None = None) -> Iterator[bytes]:
    """Yields the bytes of standard input, at most `most` of them."""
    while most is None or most > 0:
        part = read(CHUNK if most is None else min(CHUNK, most))
        if not part:
            return
        most = most and most - len(part)
        yield part


def _left_in_file():
    """The number of bytes that are left on standard input if it is a regular file, else None."""
    try:
        seen = os.fstat(0)
        return seen.st_size - os.lseek(0, 0, os.SEEK_CUR) if stat.S_ISREG(seen.st_mode) else None
    except OSError:
        return None


class Input:
    """At most `most` bytes of standard input, with their number, which a request states before its body."""

    def __init__(self, most: int):
        left = _left_in_file()
        self.is_file = left is not None
        if self.is_file:
            self.length = max(0, min(left, most))
            # A file that can't be read is found out before a request is sent.
            self.first = read(min(CHUNK, self.length)) if self.length else b""
            return
        self.length, self.file = 0, io.BytesIO()
        self.take(most)

    def extend(self) -> None:
        """Takes the rest of standard input, too."""
        if self.is_file:
            self.length = len(self.first) + (_left_in_file() or 0)
            return
        self.file.seek(0, io.SEEK_END)
        self.take()

    def take(self, most: int | None = None) -> None:
        """Takes bytes of a pipe, at most `most` of them."""
        try:
            for part in received(most):
                self.length += len(part)
                if self.length > IN_MEMORY:
                    self.keep_in_file()
                self.file.write(part)
            self.file.seek(0)
        except OSError as error:
            # The disk is full.
            raise Stop(f"failed: temporary file: {reason(error)}") from None

    def keep_in_file(self):
        if isinstance(self.file, io.BytesIO):
            import tempfile

            data = self.file.getbuffer()
            self.file = tempfile.TemporaryFile()
            self.file.write(data)

    def parts(self) -> Iterator[bytes]:
        """Yields exactly `length` bytes."""
        if not self.is_file:
            yield from iter(lambda: self.file.read(CHUNK), b"")
            return
        left = self.length - len(self.first)
        if self.first:
            yield self.first
        for part in received(left):
            left -= len(part)
            yield part
        if left:
            # The file became shorter.
            raise Stop("failed: input")


def is_terminal() -> bool:
    """Whether standard error is one; a closed one isn't."""
    try:
        return os.isatty(2)
    except OSError:
        return False
