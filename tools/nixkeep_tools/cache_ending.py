"""The end of nixkeep-cache: what has come is answered first."""
import asyncio
import contextlib
import itertools
import time

from aiohttp import web

from .cache_http import Handler
from .cache_room import is_gone

# The seconds in which requests that have come are answered, which an exchange with the server may take; those in which
# what is on its way comes, and those in which a client that has just connected sends its request on a busy machine.
FINISH, LINGER, CONNECTED = 300, 0.2, 3
# The seconds between two looks at the clients that are waited for, the bytes that each has to move meanwhile, and the
# number of looks after which no reply is waited for, however fast its client takes it.
LOOK, LEAST, LAST = 20, 20 << 20, 2


def moved(request):
    """The bytes of its body that have come, and those of its reply that were taken."""
    return getattr(request.content, "total_bytes", 0) + request.get("sent", 0)


class Ending:
    """Counts the requests that are being answered, and has the connections on which nothing has come. Once the end has
    begun each reply closes its connection."""

    def __init__(self):
        self.running, self.begun, self.is_idle = {}, asyncio.Event(), asyncio.Event()
        self.connected = set()
        self.is_idle.set()

    @web.middleware
    async def counted(self, request: web.Request, handler: Handler) -> web.StreamResponse:
        self.running[id(request)] = request
        self.is_idle.clear()
        try:
            answer = await handler(request)
        finally:
            self.left(id(request))
        if self.begun.is_set():
            answer.force_close()
        return answer

    def left(self, key: int) -> None:
        """Says that a request is waited for no more."""
        self.running.pop(key, None)
        if not self.running:
            self.is_idle.set()

    def leave_gone(self) -> None:
        """Waits no more for clients that have left. A user may have thousands of these."""
        for key, request in [*self.running.items()]:
            if is_gone(request):
                self.left(key)

    async def begin(self, _: web.Application) -> None:
        """Waits for what is on its way. aiohttp would cut off a body that hasn't come whole."""
        self.begun.set()
        until = time.monotonic() + CONNECTED
        await asyncio.sleep(LINGER)
        while self.connected and time.monotonic() < until:
            await asyncio.sleep(LINGER)
        self.leave_gone()
        cutting = asyncio.ensure_future(self.cut_slow())
        with contextlib.suppress(TimeoutError):
            async with asyncio.timeout(FINISH):
                await self.is_idle.wait()
        cutting.cancel()

    async def cut_slow(self) -> None:
        """Closes the connections of slow clients, since all others wait for the next start. The archives that a fast
        one takes may be of any size, so it loses its connection as well, but later: Nix asks for the rest then."""
        for look in itertools.count(1):
            before = {key: moved(request) for key, request in self.running.items()}
            await asyncio.sleep(LOOK)
            self.leave_gone()
            for key, request in [*self.running.items()]:
                is_slow = request.get("waits") and moved(request) - before.get(key, 0) < LEAST
                if request.transport and (is_slow or look >= LAST and "sent" in request):
                    request.transport.abort()
                    # (what is read for it may not come either, as from a bucket that hangs)
                    self.left(key)
