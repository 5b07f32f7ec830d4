"""The store's own requests, which nixkeep-cache passes to the server as they are."""
import re
from collections.abc import Awaitable, Callable

from aiohttp import web

from . import cache_changes
from .cache_http import BODY, SMALL, Route, Sending, body, passed, reply
from .cache_limit import Limit
from .cache_listings import Listings
from .cache_names import Names
from .cache_room import Room, demand_client
from .cache_roots import Roots
from .cache_server import DELETES, Caller, Reply, Request, Server
from .cache_sessions import Sessions, target as session_of
from .cache_shares import Shares
from .cache_turns import Turns

TARGET, METHOD, ANY = re.compile(r"/[!-~]*"), re.compile(r"[A-Z]{1,16}"), re.compile(r".*", re.S)
ADDS = ("/text", "/source", "/import")
# What is answered with much: archives and their listings, and those of all of the store, which may have hundreds of MB.
MUCH, ALL = re.compile(r"/(nar|ls)/.*"), re.compile(r"/(paths|live|dead|roots|roots-of/.*)")
# The bytes of large bodies that are in memory.
COMING = 5 * BODY
# What sets or drops roots.
ROOTS = re.compile(r"/(root|profile|generation|temp)/.*|/runtime")
# What may answer a request by its caller and its body; None leaves it to the store.
Look = Callable[[Caller, bytes], Awaitable[web.Response | None]]


class Passing:
    """`followers` are called with the text of each deletion that passes."""

    def __init__(self, server: Server, names: Names, sessions: Sessions, limit: Limit, shares: Shares, sending: Sending,
                 followers: list[Callable[[bytes], object]], idle: float, roots: Roots):
        self.server, self.names, self.sessions, self.sending = server, names, sessions, sending
        self.limit, self.shares, self.roots = limit, shares, roots
        self.followers, self.idle, self.coming, self.listings = followers, idle, Room(COMING), Listings(server)
        # The bytes of the last listings of all of the store, or more where parts of these are longer.
        self.turns, self.lengths = Turns(), {}

    def routes(self) -> list[Route]:
        return [Route(None, ANY, self.request)]

    async def request(self, request: web.Request, look: Look | None = None) -> web.StreamResponse:
        """Any other request is the store's own, and its reply too. `look` may answer by its body in the place of the
        store."""
        target, size = request.raw_path, request.content_length or 0
        method = "GET" if request.method == "HEAD" else request.method
        if not TARGET.fullmatch(target) or not METHOD.fullmatch(method):
            return reply(404, "refused: 39 no-route\n")
        if size > BODY:
            return reply(400, "refused: 38 too-large\n")
        async with self.coming.taken(request, size if size > SMALL else 0) as held:
            given = await body(request, BODY, self.idle, held)
            cache_changes.note(request, given)
            looked = await look(request["caller"], given) if look else None
            if looked is not None:
                return looked
            made = Request(request["caller"], method, target, given)
            async with self.sending.reserved(request, bool(MUCH.fullmatch(target))):
                answer = await self.replied(request, made)
                cache_changes.note(request, given, answer.body)
                if held:
                    self.coming.give(held)
                return await self.sending.send(request, answer)

    async def replied(self, request: web.Request, made: Request) -> web.Response:
        """The reply of the server, once there is room for it. Listings of all of the store are made one at a time. Each
        has its room before, so that nobody waits for the slow readers of another user. Users take turns."""
        await self.listings.demand(request)
        if not (match := ALL.fullmatch(made.target)):
            return await self.roomy(request, made)
        kind = "roots" if match[1].startswith("roots") else "paths"
        try:
            while True:
                await self.sending.reserve(request, size := self.lengths.get(kind, 0))
                async with self.turns.turn(made.caller.user):
                    demand_client(request)
                    # (else another one was longer, meanwhile)
                    if self.lengths.get(kind, 0) <= size:
                        return await self.listed(request, made, kind)
        except BaseException:
            await self.sending.reserve(request, 0)
            raise

    async def listed(self, request: web.Request, made: Request, kind: str) -> web.Response:
        answer = await self.roomy(request, made)
        if answer.status == 200:
            least = 0 if made.target == f"/{kind}" else self.lengths.get(kind, 0)
            self.lengths[kind] = max(least, len(answer.body))
        return answer

    async def roomy(self, request, made):
        answer = passed(await self.answered(made))
        await self.sending.room(request, answer)
        return answer

    async def answered(self, request: Request) -> Reply:
        if request.method == "DELETE" and request.target == session_of(request.caller.user):
            self.sessions.forget(request.caller)
        if request.method in ("POST", "DELETE") and ROOTS.fullmatch(request.target):
            return await self.rooted(request)
        if request.method != "POST":
            return await self.server.ask(*request)
        if request.target in ADDS:
            self.limit.check(len(request.body))
            return await self.added(request)
        is_deletion = request.target in DELETES
        answer = await (self.sessions.before(request) if is_deletion else self.server.ask(*request))
        if answer.status == 200 and is_deletion:
            for follow in self.followers:
                follow(answer.text)
        return answer

    async def rooted(self, request: Request) -> Reply:
        """The reply to a request that sets or drops roots."""
        if request.method == "POST":
            await self.roots.known(request.caller)
            self.limit.check(len(request.body), False)
        answer = await self.server.ask(*request)
        if answer.status == 200:
            self.roots.changed(request, answer.text)
        return answer

    async def added(self, request: Request) -> Reply:
        """The reply to an add."""
        user, size = request.caller.user, len(request.body)
        with self.shares.room(user, size):
            answer = await self.server.ask(*request)
            if answer.status == 200:
                self.names.added(answer.text)
                self.shares.added(user, answer.text, size)
        return answer
