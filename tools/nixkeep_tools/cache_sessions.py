"""Sessions of the store that keep what clients upload, so that no collection deletes the half of a closure."""
import collections
import contextlib
import functools
import os
import time
from collections.abc import Iterable

from .cache_server import TOGETHER, Caller, Reply, Request, Server, Unreachable

# The number of the session of each user. It is the highest, since people begin with low ones.
NUMBER = 4_194_304
# The paths that are remembered at most; the oldest of whoever has most are forgotten first.
MOST = 10_000


def target(user: str) -> str:
    return f"/temp/{user}/{NUMBER}"


class More(Exception):
    """More has come than goes to the server at once, or than what it was to end."""


class Sessions:
    """A user's session keeps what the user uploads, until nothing has come for `seconds`. A file with the user's name
    in a folder is as old as the last upload, so a session is ended also after a restart.

    A client asks by HEAD for all paths of a closure, and uploads those that aren't there. So if one isn't, the others
    are remembered, and the session keeps them from the next collection on.
    """

    def __init__(self, server: Server, folder: str, seconds: float):
        self.server, self.folder, self.seconds = server, folder, seconds
        # When each path was asked for, by callers.
        self.asked_at, self.uploading = collections.defaultdict(collections.OrderedDict), {}
        os.makedirs(folder, mode=0o700, exist_ok=True)

    def is_fresh(self, since):
        # (a file of a clock that was ahead isn't fresh for years)
        return abs(time.time() - since) < self.seconds

    def keeping(self, caller: Caller, base: str) -> Request:
        """The request that keeps an uploaded path. It goes to the server right after the import."""
        self.touch(caller.user)
        return Request(caller, "POST", target(caller.user), f"path: {base}\n\n".encode())

    def file(self, user: str) -> str:
        return f"{self.folder}/{user}.session"

    def touch(self, user: str) -> None:
        file = self.file(user)
        with open(file, "w", opener=lambda name, flags: os.open(name, flags, 0o600)):
            os.utime(file)

    def remember(self, caller: Caller, base: str | None) -> None:
        """Remembers that a client asked for a path by HEAD: `base` is its name, or None if it isn't there."""
        if base is None:
            self.uploading[caller] = time.time()
            return
        self.asked_at[caller].pop(base, None)
        self.asked_at[caller][base] = time.time()
        if sum(map(len, self.asked_at.values())) > MOST:
            max(self.asked_at.values(), key=len).popitem(last=False)

    def forget(self, caller: Caller) -> None:
        """Says that a user has ended the session."""
        for gone in [key for key in self.asked_at if key.user == caller.user]:
            del self.asked_at[gone]

    def remembered(self):
        """What a deletion has to leave and no session keeps yet, each with its caller. The first ones are of all
        callers."""
        self.uploading = {caller: since for caller, since in self.uploading.items() if self.is_fresh(since)}
        entries = [(at, caller, base) for caller, times in self.asked_at.items() if caller in self.uploading
                   for at, (base, since) in enumerate(times.items()) if self.is_fresh(since)]
        return [(caller, base) for _, caller, base in sorted(entries, key=lambda entry: entry[0])]

    def kept(self, keys: Iterable[tuple[Caller, str]]) -> None:
        for caller, base in keys:
            self.asked_at[caller].pop(base, None)

    async def before(self, deletion: Request) -> Reply:
        """The reply to a deletion, before which sessions keep what is remembered. Others get their turns in between,
        but for the last of it, which goes to the server with the deletion. That is a part at most. Of whoever asks for
        ever more paths meanwhile some aren't kept: there are as many turns as paths that are remembered need."""
        last, turns = [], MOST // TOGETHER

        def first():
            last[:] = self.remembered()
            if turns and len(last) > TOGETHER:
                raise More
            del last[TOGETHER:]
            return [self.keeping(*key) for key in last]

        while True:
            keys = self.remembered()[:TOGETHER]
            if turns and len(keys) == TOGETHER:
                await self.server.asks([self.keeping(*key) for key in keys])
                self.kept(keys)
            else:
                with contextlib.suppress(More):
                    answer = (await self.server.asks([deletion], first))[-1]
                    self.kept(last)
                    return answer
            turns -= 1

    async def expire(self) -> None:
        """Ends the sessions of users from whom nothing has come for a while."""
        for user in [file.removesuffix(".session") for file in os.listdir(self.folder) if file.endswith(".session")]:
            if self.is_kept(user):
                continue
            end = Request(Caller(user, None), "DELETE", target(user))
            with contextlib.suppress(Unreachable, More):
                # (an upload may come until its turn, and after it)
                ended = (await self.server.asks([end], functools.partial(self.demand_end, user)))[-1]
                # (a user that has left may not connect; that is tried again)
                if ended.status != 200:
                    self.touch(user)
                elif not self.is_kept(user):
                    os.unlink(self.file(user))

    def is_kept(self, user):
        """Whether something of a user has come a while ago at most."""
        return self.is_fresh(os.stat(self.file(user)).st_mtime)

    def demand_end(self, user: str) -> Iterable[Request]:
        """Raises More if something of a user has come meanwhile. Nothing goes to the server before the end."""
        if self.is_kept(user):
            raise More
        return ()
