"""What of a log SQLite, and so nixkeep, doesn't take: the frames after the last commit whose sums are right."""
import collections
import contextlib
import os
from pathlib import Path

from . import store_file
from .count_of import count_of

HEAD, BEFORE_PAGE = 32, 24
# The frames at the end of a log that don't count, and how many of them end a commit.
Ignored = collections.namedtuple("Ignored", "frames commits")


def frames(log, used):
    """Yields for whole frames of a log after the first `used` ones the number of those since then up to this one,
    whether it has the log's salt, and whether it ends a commit. A page isn't read, no frame is kept, and those that
    aren't on the disk are passed over: a log may be as long as its writer likes."""
    number, head, size = log.fileno(), os.pread(log.fileno(), HEAD, 0), os.fstat(log.fileno()).st_size
    if not (page := store_file.page_of_log(head)):
        return
    start, step = HEAD + used * (BEFORE_PAGE + page), BEFORE_PAGE + page
    at = start
    while at + step <= size:
        frame = os.pread(number, BEFORE_PAGE, at)
        if not any(frame):
            at += (data_after(number, at, size) - at) // step * step
            frame = os.pread(number, BEFORE_PAGE, at)
        at += step
        if at <= size:
            yield (at - start) // step, frame[8:16] == head[16:24], frame[4:8] != bytes(4)


def data_after(number, at, size):
    """The place at or after `at` from which on a file has bytes on the disk, or its size."""
    with contextlib.suppress(OSError):
        return os.lseek(number, at, os.SEEK_DATA)
    return size


def ignored(path):
    """What of the log of a file doesn't count, though it was written after the last commit that does.

    Frames from before the log was begun anew have another salt, and so has one that nixkeep has passed over: such ones
    count only if a frame of the log's own salt follows.
    """
    used = max((count for _, _, count in store_file.commits(path)), default=0)
    commits, left = 0, Ignored(0, 0)
    with contextlib.suppress(OSError), store_file.opened(store_file.log_of(path)) as log:
        for count, is_own, is_commit in frames(log, used):
            commits += is_commit
            left = Ignored(count, commits) if is_own else left
    return left


def has_bad_head(path):
    """Whether a log that isn't empty begins with something else than the head of a log."""
    try:
        with store_file.opened(store_file.log_of(path)) as log:
            head = log.read(HEAD)
    except OSError:
        return False
    return len(head) == HEAD and any(head) and not store_file.page_of_log(head)


def line(path: str) -> tuple[str | None, bool]:
    """The line on the log of a file, or None if all of it counts; and whether commits of it may be lost."""
    if has_bad_head(path):
        size = Path(store_file.log_of(path)).stat().st_size
        return f"its log: none of its {size} bytes count: its head is damaged", True
    rest = ignored(path)
    if not rest.frames:
        return None, False
    why = ["a change was stopped there", "a change was stopped there, or the log is damaged"][rest.commits > 0]
    if rest.commits > 1:
        why = "the log is damaged"
    frames_are = "1 frame at its end doesn't" if rest.frames == 1 else f"{rest.frames} frames at its end don't"
    return f"its log: {frames_are} count, with {count_of(rest.commits, 'commit')}: {why}", rest.commits > 0
