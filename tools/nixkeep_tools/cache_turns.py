"""Turns at something that one can have at a time."""
import asyncio
import collections
import contextlib
import contextvars
from collections.abc import AsyncIterator, Hashable, Iterator

# Whether others wait for what is being done.
IS_AWAITED = contextvars.ContextVar("is_awaited", default=False)


@contextlib.contextmanager
def awaited() -> Iterator[None]:
    """While something is done for which others wait: it doesn't wait at the server for the other requests of its
    user, who may have hundreds."""
    token = IS_AWAITED.set(True)
    try:
        yield
    finally:
        IS_AWAITED.reset(token)


class Turns:
    """A lock. Those that wait are in groups by a key, and each group gets its turn before one gets a second. So a user
    with a thousand requests delays another one by one request."""

    def __init__(self):
        self.groups, self.is_taken = collections.OrderedDict(), False

    def waiting(self) -> int:
        """The number of those that wait."""
        return sum(not waiter.done() for waiters in self.groups.values() for waiter in waiters)

    @contextlib.asynccontextmanager
    async def turn(self, key: Hashable) -> AsyncIterator[None]:
        await self.take(key)
        try:
            with awaited():
                yield
        finally:
            self.end()

    async def take(self, key: Hashable) -> None:
        if not self.is_taken:
            self.is_taken = True
            return
        waiter = asyncio.get_running_loop().create_future()
        self.groups.setdefault(key, collections.deque()).append(waiter)
        try:
            await waiter
        except asyncio.CancelledError:
            if not waiter.cancelled():
                # (its turn had come)
                self.end()
            raise

    def end(self) -> None:
        """Ends a turn: the first that waits in the next group has it. Those that gave up are left out."""
        while self.groups:
            key, waiters = self.groups.popitem(last=False)
            while waiters and waiters[0].done():
                waiters.popleft()
            if not waiters:
                continue
            waiter = waiters.popleft()
            if waiters:
                self.groups[key] = waiters
            waiter.set_result(None)
            return
        self.is_taken = False
