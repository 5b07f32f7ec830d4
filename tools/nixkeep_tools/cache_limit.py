"""A limit for the file of a store: what a running server accepts, it has to open at its next start."""
import sys
import time
from collections.abc import Callable

from . import store_size

# The part of the memory's limit that is accepted, and the part of this limit from which on a line warns.
ACCEPTED, WARNED = 0.6, 0.8
# The part of the limit by which roots may go beyond it: they are needed before a collection.
ROOTS = 0.05
# The part of the memory that the server's next start may take together with this process, from which on adds are
# refused. It takes what the last one took, and for what has come since at most its bytes in the file, which it tests,
# and SINCE times the memory that the running server has for it: that of small rows is more while they are read.
STARTS, SINCE = 0.8, 2
# The part of the memory that the server may have together with this process, which has the names of all objects,
# records and figures, and with what listings of all objects and of all roots take.
#
# The rest is for what requests have in memory, and has to be more than the sum of these, which is of the unit's limit
# (packaging/nixkeep@.service), and which tests/tools/test_cache_memory.py makes again:
#
#   replies and readers                    cache_http.ROOM
#   replies that are compressed meanwhile  cache_http.THREADS, each as long as an archive
#   a reply as it is read                  two archives
#   bodies                                 cache_passing.COMING, and two of them once more: as one is put together, and
#                                          as the server has it
#   records                                cache_uploads.RECORDS
#   archives that are unpacked             cache_uploads.MANY, of UNPACKED each
#   large archives that come               cache_blobs.COMING
#   requests that wait                     cache_fair.MOST, of EACH each
#   the server                             SERVER copies of one archive
TOGETHER = 0.7
# The copies of one archive that a server has for a request: as it came, as it is in the database, and as a reply.
SERVER = 4
# How many times a listing of all objects or roots may be in memory, of both processes: as the server makes it, as it
# comes, and as those have it who asked for one: for names, for a client, for pointers and for the overview.
LISTINGS = 6
# The seconds between two looks at the file, and between two warnings.
LOOK, WARN = 1, 3600


class Full(Exception):
    """An add that isn't accepted, with the text of the reply."""


def usual() -> int:
    """The limit where none is asked for: a part of what this service's memory opens."""
    return int(ACCEPTED * store_size.opened_with(store_size.memory()))


class Limit:
    """A limit of `most` bytes for a file. None is no limit. `had` returns the bytes of memory that its server has now,
    and `own` those of this process. `opened` returns three numbers of when the server had opened its file: the most
    bytes of memory that it had had, those that it had, and those of the file. `had` and `opened` return None where
    nothing is known."""

    def __init__(self, file: str | None, most: int | None, had: Callable[[], int | None] = lambda: None,
                 own: Callable[[], int] = store_size.resident,
                 opened: Callable[[], tuple[int, int, int] | None] = lambda: None):
        self.file, self.most, self.used, self.coming, self.looked, self.warned = file, most, 0, 0, -LOOK, -WARN
        self.had, self.own, self.opened, self.memory = had, own, opened, store_size.memory()

    def check(self, size: int, is_add: bool = True) -> None:
        """Counts `size` bytes that come. Raises Full where there is no room for them."""
        if self.file and time.monotonic() - self.looked > LOOK:
            self.look()
        more = 1 if is_add else 1 + ROOTS
        self.check_memory(more)
        if self.most is None:
            return
        allowed = more * self.most
        if self.coming and self.used + self.coming + size > allowed:
            # (what came may not have made the file larger)
            self.look()
        if self.used + self.coming + size > allowed:
            raise Full(f"failed: full {self.used} of {self.most} bytes are used: drop roots, and collect\n")
        self.coming += size

    def check_memory(self, more: float) -> None:
        """Raises Full where the server has too much of the memory, or would have at its next start."""
        if not (has := self.had()):
            return
        own = self.own()
        for who, taken, part in (("the server and nixkeep-cache have", has + own, TOGETHER),
                                 ("nixkeep-cache and the server's next start take", self.started() + own,
                                  more * STARTS)):
            if taken > part * self.memory:
                raise Full(f"failed: full {who} {taken} of {self.memory} bytes of memory: drop roots, collect, and "
                           "start it again\n")

    def started(self) -> int | None:
        """The bytes of memory that the server's next start takes, or None where that isn't known."""
        if not (has := self.had()):
            return None
        # (one that opens its file has what it takes)
        most, then, file = self.opened() or (has, has, self.used)
        return most + max(0, self.used - file) + SINCE * max(0, has - then)

    def near(self) -> list[str]:
        """What is nearly as much as it may be: the file, and the memory of the server's next start."""
        lines, start = [], self.started()
        if self.most is not None and self.used > WARNED * self.most:
            lines.append(f"the store has {self.used} of {self.most} bytes")
        if start and start + self.own() > WARNED * STARTS * self.memory:
            lines.append(f"the server's next start takes {start} of {self.memory} bytes of memory")
        return lines

    def left(self) -> int | None:
        """The bytes of memory that are left for what lasts, such as figures; None where the server's aren't known."""
        has = self.had()
        return max(0, int(TOGETHER * self.memory) - has - self.own()) if has else None

    def figures(self) -> tuple[int | None, int | None]:
        """The bytes of the file, and its limit; each None where it isn't known."""
        if not self.file:
            return None, None
        if time.monotonic() - self.looked > LOOK:
            self.look()
        return self.used, self.most

    def look(self) -> None:
        """Looks at the file, and warns of what is nearly as much as it may be."""
        self.looked, self.coming = time.monotonic(), 0
        try:
            self.used = store_size.used(self.file)
        except FileNotFoundError:
            self.used = 0
        if self.looked - self.warned > WARN:
            for line in self.near():
                self.warned = self.looked
                print(f"nixkeep-cache: warning: {line}", file=sys.stderr, flush=True)
