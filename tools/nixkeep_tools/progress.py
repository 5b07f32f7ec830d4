"""The progress of a transfer: one line on standard error, rewritten as it goes on, if that is a terminal."""
from __future__ import annotations

import time

from . import streams

# (for hints alone: see `http_connection`)
TYPE_CHECKING = False
if TYPE_CHECKING:
    from collections.abc import Iterable, Iterator

# Seconds before the line is first shown, and between two versions of it.
AFTER, EVERY = 0.5, 0.2


def size(count: float) -> str:
    """A number of bytes for people to read, such as `1.5 MiB`."""
    for unit in ("bytes", "KiB", "MiB", "GiB"):
        if count < 1024 or unit == "GiB":
            return f"{count:.1f} {unit}" if unit != "bytes" else f"{count} bytes"
        count /= 1024


def clock(seconds: float) -> str:
    """Seconds as `M:SS` or `H:MM:SS`."""
    minutes, seconds = divmod(round(seconds), 60)
    hours, minutes = divmod(minutes, 60)
    return f"{hours}:{minutes:02}:{seconds:02}" if hours else f"{minutes}:{seconds:02}"


class Progress:
    """The bytes that are done, of `total`, and the objects that are done, of `objects` unless that is None."""

    def __init__(self, what: str, total: int, objects: int | None = None):
        self.what, self.total, self.objects = what, total, objects
        self.bytes = self.done = 0
        self.start = self.last = time.monotonic()
        self.is_shown, self.is_on = False, streams.is_terminal()

    def add(self, count: int, objects: int = 0) -> None:
        self.bytes += count
        self.done += objects
        now = time.monotonic()
        if self.is_on and now - self.start > AFTER and now - self.last > EVERY:
            self.last, self.is_shown = now, True
            self.put(self.line(now))

    def line(self, now: float) -> str:
        parts = [self.what]
        if self.objects is not None:
            parts.append(f"{self.done} of {self.objects} objects,")
        parts.append(f"{size(self.bytes)} of {size(self.total)}")
        if 0 < self.bytes < self.total:
            parts.append(f"{clock((now - self.start) / self.bytes * (self.total - self.bytes))} left")
        return " ".join(parts)

    def put(self, text: str) -> None:
        import shutil

        width = shutil.get_terminal_size().columns - 1
        try:
            streams.write([f"\r\x1b[K{text[:width]}".encode()], 2)
        except streams.Stop:
            self.is_on = False

    def end(self) -> None:
        """Removes the line."""
        if self.is_shown:
            self.put("")
            self.is_shown = False

    def over(self, parts: Iterable[bytes]) -> Iterator[bytes]:
        """Yields parts, and counts their bytes."""
        try:
            for part in parts:
                yield part
                self.add(len(part))
        finally:
            self.end()
