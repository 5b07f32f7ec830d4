"""The page of who keeps how much, as nixkeep-cache serves it."""
import asyncio
import re
import urllib.parse
from collections.abc import Callable, Sequence
from concurrent.futures import ThreadPoolExecutor
from typing import Any

from aiohttp import web

from . import overview, overview_source
from .cache_http import READ, Answered, Route, Sending, passed, reply
from .cache_server import Caller, Server
from .cache_turns import Turns

try:
    from . import overview_page, overview_style
except ModuleNotFoundError:
    overview_page = None

PAGE = re.compile(r"/overview(\?.*)?")
# The seconds for which figures are kept, and the users whose figures are. A page says of when it is.
FRESH, USERS = 5, 8
# The objects times the roots of a store for which figures are made: each object has a bit for each root in memory. And
# how many objects there may be, and how many roots, and the bytes that each has with what was read of it.
MOST, LINES, EACH = 1 << 30, 250_000, 2000
# The threads that make figures and pages.
THREADS = 2


class Overviews:
    """Figures are made once for all who ask meanwhile, and one at a time. A client waits for them for `longest`
    seconds. `name` is what people call the store, and `left` returns the bytes of memory that figures may take, or
    None."""

    def __init__(self, server: Server, store: str, keeps: Sequence[bool], sending: Sending, name: str | None,
                 longest: float = 60, left: Callable[[], int | None] = lambda: None):
        self.store, self.keeps, self.sending, self.name, self.longest = store, keeps, sending, name, longest
        self.left = left
        self.records = overview_source.Records(server, keeps[0], self.most, self.apart)
        self.turns, self.made = Turns(), {}
        # (threads of its own, since archives need the others; and one page at a time, for which users take turns)
        self.threads, self.pages = ThreadPoolExecutor(THREADS, "overview"), Turns()

    def routes(self) -> list[Route]:
        return [Route(READ, PAGE, self.page)]

    async def page(self, request: web.Request, query: str | None) -> web.StreamResponse:
        """A page of who keeps how much, or of why one path is kept; as this caller sees the store's roots."""
        if not overview_page:
            return reply(404, "the overview needs the Debian package python3-jinja2\n")
        why = urllib.parse.parse_qs((query or "")[1:]).get("why", [""])[0].strip().removeprefix(f"{self.store}/")
        try:
            async with asyncio.timeout(self.longest):
                figures = await asyncio.shield(self.figures(request["caller"]))
                async with self.pages.turn(request["caller"].user):
                    text = await self.apart(overview_page.page, figures, self.name, "/overview", why)
        except overview_source.Denied as denied:
            return passed(denied.reply)
        except TimeoutError:
            return reply(503, f"the overview takes longer than {self.longest:.0f} seconds: try again later\n")
        answer = reply(200, text, "text/html; charset=utf-8", **overview_style.FIELDS)
        await self.sending.room(request, answer)
        return await self.sending.send(request, answer)

    def figures(self, caller: Caller) -> asyncio.Task:
        """The Overview of a caller, as a task: the one that is under way or fresh, else a new one."""
        now, kept = asyncio.get_running_loop().time(), self.made.get(caller)
        if kept and (not kept[0].done() or kept[1] > now):
            return kept[0]
        self.made = {key: pair for key, pair in self.made.items() if not pair[0].done() or pair[1] > now}
        while len(self.made) >= USERS:
            del self.made[next(iter(self.made))]
        made = asyncio.ensure_future(self.make(caller))
        self.made[caller] = made, now + FRESH
        made.add_done_callback(lambda task: self.finish(caller, task))
        return made

    def finish(self, caller: Caller, made: asyncio.Task) -> None:
        """Figures are fresh from their end on. What failed is made again."""
        if self.made.get(caller, (None,))[0] is made:
            del self.made[caller]
            if not made.cancelled() and not made.exception():
                self.made[caller] = made, asyncio.get_running_loop().time() + FRESH

    async def make(self, caller: Caller) -> overview.Overview:
        async with self.turns.turn(caller.user):
            try:
                store, live = await self.records.store(caller)
            except overview_source.TooMany as many:
                count, what = many.args
                then = "drop roots" if what == "roots" else "collect"
                text = f"the overview of {count} {what} takes too much memory: {then}\n"
                raise Answered(reply(503, text)) from None
            self.make_room(len(store.objects), len(store.roots))
            return await self.apart(overview.Overview, store, *self.keeps, live)

    def most(self, known: int) -> int:
        """How many objects there may be figures of, or how many roots, where `known` of them are in memory already."""
        left = self.left()
        return LINES if left is None else min(LINES, known + left // EACH)

    def make_room(self, objects: int, roots: int) -> None:
        """Forgets the figures of others where those of one user take much. Raises Answered where they take too much."""
        left = self.left()
        if objects * roots > min(MOST, MOST if left is None else 8 * left):
            text = f"the overview of {objects} objects and {roots} roots takes too much memory: drop roots\n"
            raise Answered(reply(503, text))
        if objects * roots > MOST // USERS or roots > LINES // USERS:
            self.made = {key: pair for key, pair in self.made.items() if not pair[0].done()}

    async def apart(self, work: Callable, *words: Any) -> Any:
        """What takes long is done in a thread, so that other clients are served meanwhile."""
        return await asyncio.get_running_loop().run_in_executor(self.threads, work, *words)
