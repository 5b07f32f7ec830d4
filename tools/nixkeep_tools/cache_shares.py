"""Shares of a store: how many bytes each user has added, of those that are still there."""
import collections
import contextlib
from collections.abc import Collection, Iterable, Iterator

from . import cache_lists, cache_records
from .cache_limit import Full
from .cache_server import bases_in

SUMS = "SELECT user, sum(bytes) FROM added GROUP BY user"


class Shares:
    """A list of who added which object first, in a file of its own. It has blobs, too, by their names: those that no
    object names yet. `each` is the most bytes of one user, or None."""

    def __init__(self, file: str, each: int | None):
        self.each, self.conn, self.used, self.coming = each, None, collections.Counter(), collections.Counter()
        if each is None:
            return
        # (what is lost by a power cut counts for nobody)
        self.conn = cache_lists.opened(file, "added (base TEXT PRIMARY KEY, user TEXT, bytes INTEGER) STRICT")
        self.count()

    def count(self) -> None:
        self.used = collections.Counter(dict(cache_lists.rows(self.conn, SUMS)))

    @contextlib.contextmanager
    def room(self, user: str, size: int, blob: str | None = None) -> Iterator[None]:
        """Counts bytes as the user's while they come, in the place of those of a blob. Raises Full where there is no
        room for them."""
        if not (self.conn and size):
            yield
            return
        used = self.used[user] + self.coming[user] - self.bytes_of(blob, user)
        if used + size > self.each:
            raise Full(f"failed: full {used} of {self.each} bytes are used by {user}: drop roots, and collect\n")
        self.coming[user] += size
        try:
            yield
        finally:
            self.coming[user] -= size

    def bytes_of(self, base: str | None, user: str) -> int:
        query = "SELECT bytes FROM added WHERE base = ? AND user = ?"
        return sum(size for (size,) in cache_lists.rows(self.conn, query, (base, user)))

    def added(self, user: str, text: bytes, size: int) -> None:
        """Follows the reply to an add: a path. One that was there before stays that of its user."""
        self.add(user, text.decode().strip().rpartition("/")[2], size)

    def add(self, user: str, base: str, size: int) -> None:
        """Counts an object or a blob."""
        if self.conn and cache_lists.add(self.conn, "INSERT OR IGNORE INTO added VALUES (?, ?, ?)", (base, user, size)):
            self.used[user] += size

    def deleted(self, text: bytes) -> None:
        """Follows a reply that names the paths which have been deleted, one a line."""
        self.drop([*bases_in(text)])

    def bases(self) -> list[str]:
        return [base for (base,) in cache_lists.rows(self.conn, "SELECT base FROM added")] if self.conn else []

    def blobs(self) -> set[str]:
        """The names of the blobs that are counted."""
        return {base for base in self.bases() if cache_records.DIGEST.fullmatch(base)}

    def listed(self, bases: Iterable[str]) -> None:
        """Follows a listing of all paths: what was deleted elsewhere counts no more."""
        there = set(bases) if self.conn else ()
        self.drop([base for base in self.bases() if base not in there and not cache_records.DIGEST.fullmatch(base)])

    def drop(self, bases: Collection[str]) -> None:
        """Counts these no more. What can't be written is counted until the next listing or sweep."""
        if not (self.conn and bases):
            return
        bases, query = {*bases}, "SELECT user, bytes FROM added WHERE base = ?"
        # (a list may be long, and a deletion of one path takes one row of it)
        gone = [row for base in bases for row in cache_lists.rows(self.conn, query, (base,))]
        if cache_lists.delete(self.conn, "DELETE FROM added WHERE base = ?", [(base,) for base in bases]):
            for user, size in gone:
                self.used[user] -= size
