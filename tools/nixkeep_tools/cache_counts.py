"""What nixkeep-cache counts of large archives, for /metrics."""
import contextlib
import time
from collections.abc import Callable, Iterator
from typing import TYPE_CHECKING

if TYPE_CHECKING:
    from .cache_blobs import Blobs
    from .cache_sweep import Sweep

# A source of figures: the name of each, what it is, and its value now, or None.
Figures = Callable[[], list[tuple[str, str, float | None]]]


class Count:
    """Archives in one direction: how many were passed on, their bytes, how many failed, and the seconds of all."""

    def __init__(self):
        self.number, self.bytes, self.failed, self.seconds = 0, 0, 0, 0

    @contextlib.contextmanager
    def timed(self) -> Iterator[None]:
        began = time.monotonic()
        try:
            yield
        finally:
            self.seconds += time.monotonic() - began


def of_blobs(blobs: "Blobs") -> Figures:
    """A source of figures: the large archives that came and that were sent."""

    def figures():
        put, sent = blobs.put, blobs.sent
        return [
            ("blobs_put_total", "Large archives that came and are blobs.", put.number),
            ("blobs_put_bytes_total", "The bytes of these blobs, which are compressed.", put.bytes),
            ("blobs_put_failed_total", "Large archives that came and are none: refused, broken off, or not written.",
             put.failed),
            ("blobs_put_seconds_total", "How long large archives took to come.", put.seconds),
            ("blobs_sent_total", "Large archives, and parts of them, that were sent.", sent.number),
            ("blobs_sent_bytes_total", "The bytes that were sent of large archives.", sent.bytes),
            ("blobs_sent_failed_total", "Large archives that weren't sent to their end, since the blob is missing or "
             "damaged, or couldn't be read.", sent.failed),
            ("blobs_sent_seconds_total", "How long large archives took to be sent.", sent.seconds),
        ]

    return figures


def of_sweep(sweep: "Sweep") -> Figures:
    """A source of figures: the sweeps, and what the last one has left."""

    def figures():
        return [
            ("sweep_timestamp_seconds", "When the last sweep ended.", sweep.last),
            ("sweep_deleted_total", "Blobs that sweeps have deleted.", sweep.deleted),
            ("sweep_deleted_bytes_total", "The bytes of these.", sweep.bytes),
            ("sweep_left", "Blobs that the last sweep has left.", sweep.left and sweep.left[0]),
            ("sweep_left_bytes", "The bytes of these.", sweep.left and sweep.left[1]),
        ]

    return figures
