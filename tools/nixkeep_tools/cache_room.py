"""Room in memory for what clients take or send, which is shared among users."""
import asyncio
import collections
import contextlib
import itertools
from collections.abc import AsyncIterator

from aiohttp import web

# The seconds after which a client can lose its room to another user's, and those between two looks at that.
GRACE, LOOK = 5, 1
# The clients of a user that are looked at among those that wait. A user may have thousands.
AHEAD = 8


class Left(Exception):
    """The client of a request that waited has closed its connection."""


def is_gone(request: web.Request) -> bool:
    """Whether the client of a request has closed its connection, which doesn't end the request."""
    return not request.transport or request.transport.is_closing()


def demand_client(request: web.Request) -> None:
    """Raises Left where the client of a request has closed its connection: nothing more is done for it."""
    if is_gone(request):
        raise Left


class Held:
    """What one client has: `began` and `since` are when it got that, and when it last moved something. It `is_safe`
    while others than the client are at work for it."""

    def __init__(self, request: web.Request, size: int):
        self.user, self.transport, self.size = getattr(request.get("caller"), "user", None), request.transport, size
        self.began = self.since = asyncio.get_running_loop().time()
        self.granted, self.is_lost, self.is_safe = asyncio.Event(), False, False

    def moved(self) -> None:
        """Says that the client has moved something, or that it is its turn to do so."""
        self.since, self.is_safe = asyncio.get_running_loop().time(), False

    def abort(self) -> None:
        self.is_lost = True
        if self.transport:
            self.transport.abort()


class Room:
    """At most `most` bytes. One user has at most half of those that others leave, or what one client needs. Where there
    are none left, the user who has least gets the next that are given back. And a client loses its connection: one that
    has moved nothing for GRACE seconds, or one of the user who has most, if that is more than what the waiting one
    would have. So neither clients that don't move, nor the many slow ones of a user, nor what is at work for a user and
    waits, hold up other users."""

    def __init__(self, most: int):
        self.most, self.bytes, self.held = most, 0, []
        # Those that wait, by users, in the order in which they came.
        self.waiting = {}

    async def take(self, request: web.Request, size: int) -> Held:
        """Waits until there is room for bytes, which are in memory until `give`. Returns the Held. Raises Left."""
        wanted = Held(request, size)
        self.waiting.setdefault(wanted.user, {})[wanted] = None
        self.grant()
        try:
            while not wanted.granted.is_set():
                if wanted in self.first(wanted.user) and not is_gone(request):
                    self.evict(wanted)
                with contextlib.suppress(TimeoutError):
                    async with asyncio.timeout(LOOK):
                        await wanted.granted.wait()
                        break
                demand_client(request)
        except BaseException:
            self.give(wanted)
            raise
        return wanted

    def first(self, user: str | None) -> list[Held]:
        """The first that wait of a user's."""
        return [*itertools.islice(self.waiting.get(user, ()), AHEAD)]

    @contextlib.asynccontextmanager
    async def taken(self, request: web.Request, size: int, is_safe: bool = False) -> AsyncIterator[Held | None]:
        """Room for some bytes; for none there is none to wait for."""
        held = await self.take(request, size) if size else None
        if held:
            held.is_safe = is_safe
        try:
            yield held
        finally:
            if held:
                self.give(held)

    def give(self, held: Held) -> None:
        """Gives back what is held or waited for. It may have been given back before."""
        if held in self.held:
            self.held.remove(held)
            self.bytes -= held.size
        else:
            self.leave(held)
        self.grant()

    def leave(self, held: Held) -> None:
        """Says that one waits no more."""
        mine = self.waiting.get(held.user, {})
        mine.pop(held, None)
        if not mine:
            self.waiting.pop(held.user, None)

    def resize(self, held: Held, size: int) -> None:
        """Says how many bytes it is that are held. They may be more than there is room for."""
        if held in self.held:
            self.bytes += size - held.size
            held.size = size
            self.grant()

    def used(self, held: list[Held]) -> collections.Counter:
        """The bytes of each user among these."""
        sums = collections.Counter()
        for entry in held:
            sums[entry.user] += entry.size
        return sums

    def grant(self) -> None:
        """Gives room to those that wait, as far as there is some."""
        used = self.used(self.held)
        while fitting := [wanted for user in self.waiting for wanted in self.first(user)
                          if self.is_within_share(wanted, used)]:
            first = min(fitting, key=lambda wanted: used[wanted.user])
            if self.bytes and self.bytes + first.size > self.most:
                return
            self.leave(first)
            # (of users who have equally much, those who have got nothing for longest are first)
            if first.user in self.waiting:
                self.waiting[first.user] = self.waiting.pop(first.user)
            self.held.append(first)
            self.bytes += first.size
            used[first.user] += first.size
            first.began = first.since = asyncio.get_running_loop().time()
            first.granted.set()

    def is_within_share(self, wanted, used):
        """Whether a user may have what is wanted, too, while users have so much."""
        has = used[wanted.user]
        return not has or 2 * (has + wanted.size) <= self.most - (used.total() - has)

    def evict(self, wanted):
        """Ends connections until there will be room for what is wanted, where that is just."""
        while there := [held for held in self.held if not held.is_lost]:
            used = self.used(there)
            is_beyond = not self.is_within_share(wanted, used)
            if not is_beyond and used.total() + wanted.size <= self.most:
                return
            # (only the user's own ones make room in the user's share)
            lost = self.victim(wanted, [held for held in there if held.user == wanted.user] if is_beyond else there)
            if not lost:
                return
            lost.abort()

    def victim(self, wanted, there):
        """The one of these that loses its room to another, or None."""
        late, used = asyncio.get_running_loop().time() - GRACE, self.used(there)
        unsafe = [held for held in there if held.began < late and not held.is_safe]
        stuck = [held for held in unsafe if held.since < late]
        if stuck:
            return min(stuck, key=lambda held: held.since)
        user = max(used, key=used.get)
        slow = [held for held in unsafe if held.user == user]
        is_just = used[user] > used[wanted.user] + wanted.size
        return min(slow, key=lambda held: held.began) if slow and is_just else None
