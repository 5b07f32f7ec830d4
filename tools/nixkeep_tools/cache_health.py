"""Whether the store answers, for who watches it: /health, which needs no login."""
import asyncio
import json
import re

from aiohttp import web

from .cache_child import Refused
from .cache_http import READ, Route, reply
from .cache_server import Caller, Server, Unreachable

TARGET = re.compile(r"/health")
# The seconds for which an answer is good, and those for which the store is waited for.
FRESH, LONGEST = 2, 10


def is_asked(request: web.Request) -> bool:
    return request.method in READ and TARGET.fullmatch(request.raw_path) is not None


class Health:
    """`checks` are coroutines by the names of what they test, each with the answer whether that is well. Other parts
    add theirs. All are asked once for all who ask meanwhile."""

    def __init__(self, server: Server):
        self.server, self.checks, self.asking, self.until = server, {"store": self.store}, None, 0

    def routes(self) -> list[Route]:
        return [Route(READ, TARGET, self.health)]

    async def health(self, _: web.Request) -> web.Response:
        now = asyncio.get_running_loop().time()
        if not self.asking or self.asking.done() and now > self.until:
            self.asking, self.until = asyncio.ensure_future(self.ask()), now + FRESH
        answers = await asyncio.shield(self.asking)
        is_well = all(answers.values())
        text = {key: "answers" if is_up else "doesn't answer" for key, is_up in answers.items()}
        return reply(200 if is_well else 503, json.dumps(text) + "\n", "application/json")

    async def ask(self) -> dict[str, bool]:
        return {key: await self.in_time(check) for key, check in self.checks.items()}

    async def in_time(self, check):
        try:
            async with asyncio.timeout(LONGEST):
                return await check()
        except TimeoutError:
            return False

    async def store(self) -> bool:
        try:
            return (await self.server.ask(Caller("nixkeep-cache", None), "GET", "/")).status in (403, 404)
        except (Unreachable, Refused):
            return False
