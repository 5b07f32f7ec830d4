"""Places for uploads that come at once."""
import asyncio
import collections
import contextlib
from collections.abc import AsyncIterator


class Places:
    """At most `most` at once, and at most `each` of one user. The last `kept` places are for users who have none."""

    def __init__(self, most: int, each: int, kept: int):
        self.most, self.each, self.kept = most, each, kept
        # Those that wait, by users, in the order in which they came.
        self.running, self.waiting = collections.Counter(), {}

    @contextlib.asynccontextmanager
    async def taken(self, user: str) -> AsyncIterator[None]:
        """Waits for a place."""
        granted = asyncio.get_running_loop().create_future()
        self.waiting.setdefault(user, {})[granted] = None
        self.grant()
        try:
            await granted
            yield
        finally:
            if granted.done() and not granted.cancelled():
                self.running[user] -= 1
            else:
                self.leave(user, granted)
            self.running += collections.Counter()
            self.grant()

    def leave(self, user: str, granted: asyncio.Future) -> None:
        """Says that one waits no more."""
        mine = self.waiting.get(user, {})
        mine.pop(granted, None)
        if not mine:
            self.waiting.pop(user, None)

    def is_free(self, user: str) -> bool:
        free, has = self.most - self.running.total(), self.running[user]
        return has < self.each and free > (self.kept if has else 0)

    def grant(self) -> None:
        """Gives places to those that wait. Users take turns, and thousands that wait of one user take no time."""
        while user := next(filter(self.is_free, self.waiting), None):
            granted = next(iter(self.waiting[user]))
            self.leave(user, granted)
            # (who has left meanwhile gets none)
            if granted.done():
                continue
            if user in self.waiting:
                self.waiting[user] = self.waiting.pop(user)
            self.running[user] += 1
            granted.set_result(None)
