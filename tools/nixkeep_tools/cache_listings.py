"""Listings of archives. The server makes each whole, and a line has the whole path of its node. So an archive of 16 MiB
can have a listing of gigabytes, which would fill the memory of all."""
import asyncio
import re

from aiohttp import web

from . import nar
from .cache_http import READ, Answered, passed, reply
from .cache_room import demand_client
from .cache_server import Server
from .cache_turns import Turns

TARGET = re.compile(r"/ls/(.*)")
# The bytes of the longest listing that is asked for, those of a line besides names, and the bytes that aren't escaped.
MOST, LINE, PLAIN = nar.LIMIT, 16, bytes(code for code in range(33, 127) if code != 92)


def shown(text):
    """The length of a name in a listing, where an odd byte has four."""
    return len(text) + 3 * len(text.translate(None, PLAIN))


def is_long(archive):
    """Whether the listing of an archive is longer than MOST, or nearly so. Nothing beyond that is looked at."""
    size = 0
    for node in nar.walk([archive]):
        size += LINE + shown(node.path) + shown(node.target or b"")
        if size > MOST:
            return True
    return False


class Listings:
    def __init__(self, server: Server):
        self.server, self.turns = server, Turns()

    async def demand(self, request: web.Request) -> None:
        """Raises Answered for a listing that is too long, and where there is no archive: one that its user adds right
        after this look has any listing. One archive is looked at at a time, and users take turns."""
        match, caller = TARGET.fullmatch(request.raw_path), request["caller"]
        if not match or request.method not in READ:
            return
        async with self.turns.turn(caller.user):
            demand_client(request)
            answer = await self.server.ask(caller, "GET", f"/nar/{match[1]}")
            if answer.status != 200:
                # (the server says the same of a listing)
                raise Answered(passed(answer))
            if await asyncio.get_running_loop().run_in_executor(None, is_long, answer.text):
                raise Answered(reply(503, "failed: size the listing is longer than an archive may be\n"))
