"""Which objects of a server are pointers."""
import collections

from . import pointers
from .overview_source import Denied
from .cache_server import Caller, Request, Server, bases_in

# The pointers that are remembered at most.
MOST = 100_000


def fields(text):
    """The fields of a record of the store's."""
    return dict(line.split(": ", 1) for line in text.decode().splitlines())


class Pointers:
    """What was read once is remembered by the hash of its archive, which says all."""

    def __init__(self, server: Server):
        self.server, self.known = server, collections.OrderedDict()

    async def of(self, caller: Caller, base: str, text: bytes) -> tuple[bytes, pointers.Pointer | None]:
        """The record of an object, and its Pointer or None. `text` is the record as the server has just given it."""
        values = fields(text)
        if not pointers.may_be(int(values["NarSize"]), values.get("CA")):
            return text, None
        key = values["StorePath"], values["NarHash"]
        if key in self.known:
            return text, self.known[key]
        # (asked together, so that no other request comes between)
        requests = [Request(caller, "GET", f"/info/{base}"), Request(caller, "GET", f"/nar/{base}")]
        record, archive = await self.server.asks(requests)
        for answer in (record, archive):
            if answer.status != 200:
                raise Denied(answer)
        values = fields(record.text)
        made = pointers.read(archive.text, values["StorePath"]) if not values.get("CA") else None
        self.known[values["StorePath"], values["NarHash"]] = made
        if len(self.known) > MOST:
            self.known.popitem(last=False)
        return record.text, made

    async def at(self, caller: Caller, base: str) -> tuple[bytes, pointers.Pointer | None]:
        """The record of an object, and its Pointer or None. Raises Denied."""
        answer = await self.server.ask(caller, "GET", f"/info/{base}")
        if answer.status != 200:
            raise Denied(answer)
        return await self.of(caller, base, answer.text)

    async def listed(self, caller: Caller) -> list[str]:
        """The base names of all objects."""
        answer = await self.server.ask(caller, "GET", "/paths")
        if answer.status != 200:
            raise Denied(answer)
        return [*bases_in(answer.text)]

    async def among(self, caller: Caller, bases: list[str]) -> dict[str, pointers.Pointer]:
        """The pointers among these objects by base names. Raises Denied."""
        by_base = {}
        async for base, answer in self.server.gets(caller, "/info/", bases):
            if answer.status == 404:
                continue
            if answer.status != 200:
                raise Denied(answer)
            try:
                _, pointer = await self.of(caller, base, answer.text)
            except Denied as denied:
                if denied.reply.status != 404:
                    raise
                # (it was deleted meanwhile)
                pointer = None
            if pointer:
                by_base[base] = pointer
        return by_base


