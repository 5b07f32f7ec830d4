"""Which class a caller has, for clients that have no other request that reads it."""
import re

from aiohttp import web

from .cache_http import READ, Route, passed, reply
from .cache_server import Caller, Reply, Server

TARGET = re.compile(r"/who")
# A root that nobody can have: the reply says the class, and nothing changes.
NOBODYS = "/root/permanent/-"
CLASSES = {b"denied: trusted-permanent-root\n": "allowed", b"refused: 34 bad-root-name\n": "trusted"}


async def class_of(server: Server, caller: Caller) -> tuple[str | None, Reply]:
    """The class of a caller, or None, and the server's reply."""
    answer = await server.ask(caller, "DELETE", NOBODYS)
    return CLASSES.get(answer.text), answer


class Who:
    def __init__(self, server: Server):
        self.server = server

    def routes(self) -> list[Route]:
        return [Route(READ, TARGET, self.answer)]

    async def answer(self, request: web.Request) -> web.Response:
        """What `nixkeep who` prints. A stranger is denied before."""
        known, answer = await class_of(self.server, request["caller"])
        return reply(200, f"class: {known}\nconnect: yes\n") if known else passed(answer)
