"""The store's paths by their 32 digits, which is how clients of a binary cache ask for them."""
import asyncio
import time
from collections.abc import Callable, Iterable, Iterator

from .cache_server import Caller, Reply, Server, bases_in
from .cache_turns import awaited

# The bytes of a line of a listing besides a base name, where the store's directory is that of Nix.
LINE = len("/nix/store/\n")


class Names:
    """The base names of the store's paths.

    They are listed once for each connection to the server. After that each add and each deletion that passes is
    followed. So a path with unknown digits isn't there, and nobody has to be asked. A change that doesn't pass here
    is seen at the next listing; an unknown path causes one, at most once in `every` seconds, for all who ask meanwhile.
    `followers` are called with the base names of each listing.
    """

    def __init__(self, server: Server, every: float, followers: Iterable[Callable[[Iterator[str]], object]] = ()):
        self.server, self.every, self.followers = server, every, followers
        self.bases, self.twins, self.connection, self.listed, self.listing = {}, set(), None, 0, None
        # The bytes of a listing of all paths.
        self.size = 0

    async def base(self, caller: Caller, digits: str) -> tuple[str | None, Reply | None]:
        """The first base name with these digits or None, and the reply of a server that doesn't list its paths or
        None."""
        is_old = digits not in self.bases and time.monotonic() - self.listed > self.every
        if is_old or self.connection != self.server.connections:
            if not self.listing or self.listing.done():
                self.listing = asyncio.ensure_future(self.list(caller))
            if failed := await asyncio.shield(self.listing):
                return None, failed
        return self.bases.get(digits), None

    def known(self, digits: str) -> str | None:
        """The first base name with these digits, where that is known without a listing."""
        return self.bases.get(digits) if self.connection == self.server.connections else None

    async def list(self, caller: Caller) -> Reply | None:
        """Lists the paths. Returns the reply of a server that doesn't, or None."""
        with awaited():
            reply = await self.server.ask(caller, "GET", "/paths")
        if reply.status != 200:
            return reply
        self.bases.clear()
        self.twins.clear()
        self.added(reply.text)
        self.size = len(reply.text)
        for follow in self.followers:
            follow(bases_in(reply.text))
        self.connection, self.listed = self.server.connections, time.monotonic()
        return None

    def added(self, text: bytes) -> None:
        """Follows a reply that names paths which are there, one a line."""
        for base in bases_in(text):
            count = len(self.bases)
            other = self.bases.setdefault(base[:32], base)
            self.size += LINE + len(base) if len(self.bases) > count else 0
            if other != base:
                self.bases[base[:32]] = min(base, other)
                self.twins.add(base[:32])

    def deleted(self, text: bytes) -> None:
        """Follows a reply that names the paths which have been deleted, one a line."""
        for base in bases_in(text):
            digits = base[:32]
            self.size -= LINE + len(base) if self.bases.pop(digits, None) else 0
            if digits in self.twins:
                self.connection = None
