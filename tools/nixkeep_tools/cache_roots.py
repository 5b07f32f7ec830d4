"""How long a listing of all roots is. Any user may ask for one, and may set a million roots in a small store. So what a
listing takes counts with what lasts."""
from .cache_server import Caller, Request, Server
from .cache_turns import Turns

# The bytes of a root's line besides the store's directory and what the request says that sets it, and the least that a
# line has besides what the request says that drops it. And those that are set or dropped, besides a part of all, before
# a listing is made again: many requests set a root that is there.
LINE, LEAST, AGAIN, PART = 48, 24, 8 << 20, 0.25


class Roots:
    """`size` is the length of the last listing, and of what was set since."""

    def __init__(self, server: Server, store: str):
        self.server, self.line, self.size, self.turns = server, len(store) + LINE, 0, Turns()
        # Beyond how many bytes of change a listing is made again, and how many there are.
        self.most, self.since, self.connection = 0, 0, None

    async def known(self, caller: Caller) -> None:
        """Asks for a listing, where it isn't known how long one is."""
        async with self.turns.turn(caller.user):
            if self.connection == self.server.connections and self.since <= self.most:
                return
            reply = await self.server.ask(caller, "GET", "/roots")
            if reply.status == 200:
                self.size, self.since, self.connection = len(reply.text), 0, self.server.connections
                self.most = PART * self.size + AGAIN

    def changed(self, request: Request, text: bytes) -> None:
        """Follows a request that has set or dropped roots, and the text of its reply."""
        if request.method == "POST":
            # (there is a line for each, and an empty one)
            size = len(request.target) + len(request.body) + max(1, request.body.count(b"\n") - 1) * self.line
            self.size += size
        else:
            # (the end of a session says how many it has dropped)
            is_end = text.startswith(b"temporary roots ")
            size = int(text.split()[-1]) * LEAST if is_end else len(request.target) + LEAST
            self.size = max(0, self.size - size)
        self.since += size
        if request.target == "/runtime":
            # (it drops all that it doesn't name)
            self.connection = None
