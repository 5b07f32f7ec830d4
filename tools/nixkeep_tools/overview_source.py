"""What a store holds, for an overview: read from its file, or asked of its server."""
import asyncio
import os.path
import re
import sys
import tomllib
from collections.abc import Awaitable, Callable
from pathlib import Path

from . import drv, nar, paths, pointers, store_file
from .cache_server import Caller, Reply, Server, Unreachable

_LABELS = [
    ("user", re.compile(r"gcroots/per-user/(?P<owner>[^/]+)/(?P<name>[^/]+)")),
    ("permanent", re.compile(r"gcroots/(?P<name>[^/]+)")),
    ("profile", re.compile(r"profiles/per-user/(?P<owner>[^/]+)/(?P<name>.+)-(?P<number>[0-9]+)-link")),
    ("temporary", re.compile(r"\{temp:(?P<number>[0-9]+)\}")),
]
CENSORED = "{censored}"
# The bytes of a line of a listing, beyond which it counts as more than one.
LINE = 400


class Denied(Exception):
    """The server's reply to a caller that may not ask, or that it refuses for another reason."""

    def __init__(self, reply: Reply):
        super().__init__(reply.text.decode().strip())
        self.reply = reply


def settings(file: str | None) -> tuple[str, bool, bool]:
    """The store directory, whether outputs are kept and whether derivers are, by a configuration file or by the
    defaults."""
    table = {}
    if file:
        with open(file, "rb") as config:
            table = tomllib.load(config)
    return table.get("store-dir", paths.STORE), table.get("keep-outputs", False), table.get("keep-derivations", True)


def name_of(config: str | None, file: str | None) -> str | None:
    """What people call a store: the name of its configuration, or else that of its file's folder; None where neither
    says anything."""
    # (abspath: of Path's, one leaves `..` in a path, and the other takes links out of it)
    for part in (config and Path(config).name, file and Path(os.path.abspath(file)).parent.name):
        name = (part or "").removesuffix(".toml")
        if name not in ("", "store", "nixkeep"):
            return name
    return None


def of_file(file: str) -> store_file.Store:
    """The Store in a file that no other process has open."""
    with store_file.open_store(file) as conn:
        store = store_file.read(conn)
        for base in may_be_pointers(store.objects):
            store.objects[base] = sized(store.objects[base], b"".join(store_file.archive(conn, base)),
                                        paths.full(base, store.store_dir))
        return store


def may_be_pointers(objects):
    """The base names of the objects that may be pointers."""
    return [base for base, entry in objects.items() if pointers.may_be(entry.size, entry.address)]


def sized(item, archive, path):
    """An object with the size of the archive that it names, if it is a pointer, else as it is."""
    pointer = pointers.read(archive, path)
    return item._replace(size=pointer.nar_size) if pointer else item


# ---- from a server


def root(label: str, target: str) -> store_file.Root:
    """A root of a line in the listing of roots. A runtime root's label may be any text. One that is hidden from this
    caller is a runtime root's or a session's, which may be their own."""
    if label == CENSORED:
        return store_file.Root("hidden", target, label, None, None, None)
    for kind, form in _LABELS:
        if match := form.fullmatch(label):
            more = {"owner": None, "name": None, "number": None, **match.groupdict()}
            number = int(more["number"]) if more["number"] else None
            return store_file.Root(kind, target, label, more["owner"], more["name"], number)
    return store_file.Root("runtime", target, label, None, None, None)


def item(text):
    """The object of a record, without its outputs, which a record doesn't have."""
    record = dict(line.split(": ", 1) for line in text.decode().splitlines())
    # (one text for all that refer to an object, since there may be millions of references)
    references = [sys.intern(base) for base in record["References"].split()]
    deriver, address = record.get("Deriver"), record.get("CA")
    return store_file.Object(int(record["NarSize"]), None, deriver, address, references, {})


def outputs(archive, store_dir):
    """The outputs of a derivation, from its archive."""
    text = bytearray()
    list(nar.walk([archive], lambda _, part: text.extend(part)))
    return {name: sys.intern(path) for name, path in drv.outputs(bytes(text), store_dir)}


def bases_of(text):
    """The base names that a listing has, and the directory of its first path."""
    lines = text.decode().splitlines()
    return [line.rpartition("/")[2] for line in lines], lines[0].rpartition("/")[0] if lines else paths.STORE


def roots_of(text):
    """The roots that a listing has, each with the base name of its target."""
    roots = (root(*line.split(" ")) for line in text.decode().splitlines())
    return [entry._replace(target=entry.target.rpartition("/")[2]) for entry in roots]


class TooMany(Exception):
    """More than is read, with the number and the word for what it is."""


class Records:
    """The objects of a server, kept from one overview to the next: an object never changes while it is there. `most`
    returns how many objects or roots are read, of which as many are in memory already as it is given; None is no
    limit. `apart` does work in a thread."""

    def __init__(self, server: Server, keeps_outputs: bool, most: Callable[[int], int | None] = lambda _: None,
                 apart: Callable[..., Awaitable] = asyncio.to_thread):
        self.server, self.keeps_outputs, self.objects, self.connection = server, keeps_outputs, {}, None
        self.most, self.apart = most, apart

    def forget(self, text: bytes) -> None:
        """Forgets the paths that a reply names, one a line: they have been deleted."""
        for line in text.decode().splitlines():
            self.objects.pop(line.rpartition("/")[2], None)

    async def ask(self, caller: Caller, target: str) -> bytes:
        reply = await self.server.ask(caller, "GET", target)
        if reply.status != 200:
            raise Denied(reply)
        return reply.text

    def refuse_many(self, text: bytes, what: str, known: int = 0) -> None:
        """Raises TooMany for a listing that isn't read. (A long label takes as much memory as many short ones.)"""
        most, count = self.most(known), text.count(b"\n")
        if most is not None and max(count, len(text) // LINE) > most:
            raise TooMany(count, what)

    async def store(self, caller: Caller) -> tuple[store_file.Store, set[str]]:
        """The Store as a caller sees it, and the set of live paths by the server's own word. Raises Denied, TooMany or
        Unreachable."""
        text = await self.ask(caller, "/paths")
        if self.connection != self.server.connections:
            self.objects, self.connection = {}, self.server.connections
        self.refuse_many(text, "objects", len(self.objects))
        listed, store_dir = await self.apart(bases_of, text)
        await self.read([base for base in listed if base not in self.objects], caller, store_dir)
        objects = {base: self.objects[base] for base in listed if base in self.objects}
        self.objects = objects
        text = await self.ask(caller, "/roots")
        self.refuse_many(text, "roots")
        roots = await self.apart(roots_of, text)
        live, _ = await self.apart(bases_of, await self.ask(caller, "/live"))
        return store_file.Store(
            None, store_dir, objects, [entry for entry in roots if entry.target in objects], {}), {*live}

    async def read(self, bases: list[str], caller: Caller, store_dir: str) -> None:
        # (an object that has been deleted meanwhile is left out)
        infos = self.server.gets(caller, "/info/", bases)
        fresh = {base: item(answer.text) async for base, answer in infos if answer.status == 200}
        async for base, answer in self.server.gets(caller, "/nar/", may_be_pointers(fresh)):
            if answer.status == 200:
                fresh[base] = sized(fresh[base], answer.text, paths.full(base, store_dir))
        self.objects |= fresh
        if self.keeps_outputs:
            for base in [name for name in bases if name.endswith(".drv")]:
                await self.read_outputs(base, caller, store_dir)

    async def read_outputs(self, base, caller, store_dir):
        """Reads a derivation. One may be as long as an archive, so there is one at a time, and others are served
        meanwhile."""
        reply = await self.server.ask(caller, "GET", f"/nar/{base}")
        if reply.status == 200:
            recorded = await self.apart(outputs, reply.text, store_dir)
            # (it may have been deleted by now)
            if base in self.objects:
                self.objects[base] = self.objects[base]._replace(outputs=recorded)


__all__ = ["Denied", "Records", "TooMany", "Unreachable", "of_file", "settings"]
