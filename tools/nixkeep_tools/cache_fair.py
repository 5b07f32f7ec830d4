"""How many requests nixkeep-cache answers at once, or has waiting for that."""
import collections

from aiohttp import web

from .cache_http import Handler, reply

# The requests that there are at most, and the bytes that each has in memory while its body or its turn doesn't come.
MOST, EACH = 1024, 1 << 16
# The seconds after which a refused client may try again.
SOON = "1"


class Fair:
    """At most `most` requests. One user has at most half of those that others leave, since other users need some, too;
    or all where there `is_one` user."""

    def __init__(self, most: int, is_one: bool = False):
        self.most, self.parts, self.running = most, 1 if is_one else 2, collections.Counter()

    def is_full(self, user: str | None) -> bool:
        has = self.running[user]
        return self.parts * (has + 1) > self.most - (self.running.total() - has)

    def refused(self, user: str | None) -> web.Response:
        """The reply to a request for which there is no room."""
        if has := self.running[user]:
            whose, status = f"{has} requests of {user}", 429
        else:
            whose, status = f"{self.running.total()} requests", 503
        text = f"failed: busy {whose} are being answered: try again later\n"
        return reply(status, text, **{"retry-after": SOON})

    @web.middleware
    async def counted(self, request: web.Request, handler: Handler) -> web.StreamResponse:
        user = getattr(request.get("caller"), "user", None)
        if self.is_full(user):
            return self.refused(user)
        self.running[user] += 1
        try:
            return await handler(request)
        finally:
            self.running[user] -= 1
            if not self.running[user]:
                del self.running[user]
