"""What a store answers to each request, and how its world changes.

A request is a namespace with a kind and that kind's fields. Its paths are base names.
"""
from collections import namedtuple
from collections.abc import Collection, Iterable
from types import SimpleNamespace
from typing import Any

from . import archives, derivations, texts, worlds
from .policy import Caller, broken_rule, class_of
from .texts import Refused, is_label, is_plain_name, refuse

# What came of a request: "done", "denied" or "refused"; the number of a refusal; the whole text.
Reply = namedtuple("Reply", "outcome number text")
REFERENCES, GENERATIONS, SESSIONS = 4096, 9999, 4_194_304


def request_of(kind: str, **fields: Any) -> SimpleNamespace:
    return SimpleNamespace(kind=kind, **fields)


class Store:
    def __init__(self, config: dict, world: worlds.World):
        self.config, self.world = config, world
        self.dir = config["store-dir"]

    def full(self, base: str) -> str:
        return f"{self.dir}/{base}"

    def call(self, caller: Caller, request: SimpleNamespace) -> Reply:
        """The reply to a request; the world changes where it is done."""
        is_trusted = class_of(self.config, caller) == "trusted"
        rule = broken_rule(self.config, caller, request) or self.live_rule(request, is_trusted)
        if rule:
            return Reply("denied", None, f"denied: {rule}\n".encode())
        try:
            text = REQUESTS[request.kind](self, request, is_trusted)
        except Refused as refused:
            return Reply("refused", refused.number, refused.line().encode())
        return Reply("done", None, text if isinstance(text, bytes) else text.encode())

    def live_rule(self, request: SimpleNamespace, is_trusted: bool) -> str | None:
        """The rule on live paths with the first root of the first live path that is to be deleted, or None."""
        if request.kind != "delete":
            return None
        reach = self.world.roots_of(self.config)
        for base in request.paths:
            if base in reach:
                label, target = worlds.seen(reach[base][:1], is_trusted)[0]
                return f"live {label} {self.full(target)}"
        return None

    def paths_text(self, bases: Iterable[str]) -> str:
        return "".join(f"{self.full(base)}\n" for base in sorted(bases))

    def roots_text(self, roots: list, is_trusted: bool) -> str:
        return "".join(f"{label} {self.full(target)}\n" for label, target in worlds.seen(roots, is_trusted))

    def valid(self, base: str) -> str | None:
        refuse(23, base not in self.world.objects)
        return base

    def remove(self, bases: Collection[str]) -> str:
        size = self.world.size(bases)
        text = f"{self.paths_text(bases)}freed {len(bases)} paths {size} bytes\n"
        for base in bases:
            del self.world.objects[base]
        return text

    def add(self, base: str, archive: bytes, references: list[str], deriver: str | None = None,
            address: str | None = None, is_addressed: bool = True) -> str | None:
        """The tests that all adds share, from the one of self references on, and the new object."""
        node = archives.read(archive)
        plain = archives.plain_contents(node)
        refuse(26, is_addressed and base in references)
        if address is not None:
            texts.verify(address, self.dir, base, references, archive, plain)
        outputs = outputs_of(base, node, self.dir)
        if base not in self.world.objects:
            refuse(24, not set(references) <= self.world.objects.keys() | {base})
            self.world.objects[base] = worlds.Object(archive, frozenset(references), deriver, address, outputs)
        return self.full(base) + "\n"


def outputs_of(base: str, node: tuple, store_dir: str) -> list[tuple]:
    """The recorded outputs of an object by its name and its tree."""
    if not base.endswith(".drv"):
        return []
    refuse(17, node[0] != "regular")
    return derivations.outputs(node[2], store_dir)


def plain_names(*names):
    refuse(34, not all(map(is_plain_name, names)))


def few_references(references: Collection[str]) -> None:
    refuse(33, len(references) > REFERENCES)


def checked_text(contents: bytes) -> bytes:
    """The archive of a text, unless it is too large."""
    refuse(8, 112 + len(contents) + -len(contents) % 8 > archives.LIMIT)
    return archives.file_archive(contents)


def add_text(store, request, _):
    few_references(request.references)
    archive = checked_text(request.contents)
    address = "text:sha256:" + texts.base32(texts.sha256(request.contents))
    base = texts.text_path(store.dir, request.name, request.references, request.contents)
    return store.add(base, archive, request.references, address=address)


def add_source(store, request, _):
    few_references(request.references)
    archives.read(request.archive)
    address = "fixed:r:sha256:" + texts.base32(texts.sha256(request.archive))
    base = texts.source_path(store.dir, request.name, request.references, request.archive)
    return store.add(base, request.archive, request.references, address=address)


def add_import(store, request, _):
    few_references(request.references)
    archives.read(request.archive)
    refuse(25, texts.sha256(request.archive) != request.digest)
    return store.add(request.path, request.archive, request.references, request.deriver, request.address,
                     request.address is not None)


def info(store, request, _):
    stored = store.world.objects[store.valid(request.path)]
    digest, size = "sha256:" + texts.base32(texts.sha256(stored.archive)), len(stored.archive)
    lines = [
        ("StorePath", store.full(request.path)),
        ("URL", f"nar/{request.path}"),
        ("Compression", "none"),
        ("FileHash", digest),
        ("FileSize", size),
        ("NarHash", digest),
        ("NarSize", size),
        ("References", " ".join(sorted(stored.references))),
        ("Deriver", stored.deriver),
        ("CA", stored.address),
    ]
    return "".join(f"{key}: {value}\n" for key, value in lines if value is not None)


def archive_of(store, request, _):
    return store.world.objects[store.valid(request.path)].archive


def roots_of(store, request, is_trusted):
    reach = store.world.roots_of(store.config)
    return store.roots_text(reach.get(store.valid(request.path), []), is_trusted)


def report(store, request, _):
    every, dead = store.world.objects.keys(), store.world.dead(store.config)
    rows = [("live", every - dead), ("dead", dead), ("total", every)]
    sums = [("class", "paths", "bytes"), *((word, len(bases), store.world.size(bases)) for word, bases in rows)]
    return "".join(f"{word:<6} {count:>10} {size:>16}\n" for word, count, size in sums)


def set_permanent(store, request, _):
    plain_names(request.name)
    store.world.permanent[request.name] = store.valid(request.path)
    return "done\n"


def set_user_root(store, request, _):
    plain_names(request.owner, request.name)
    store.world.user[request.owner, request.name] = store.valid(request.path)
    return "done\n"


def dropped(roots, key):
    refuse(27, key not in roots)
    del roots[key]
    return "done\n"


def drop_permanent(store, request, _):
    plain_names(request.name)
    return dropped(store.world.permanent, request.name)


def drop_user_root(store, request, _):
    plain_names(request.owner, request.name)
    return dropped(store.world.user, (request.owner, request.name))


def made_current(profile, number):
    profile.current = number
    return f"generation {number}\n"


def set_profile(store, request, _):
    plain_names(request.owner, request.name)
    store.valid(request.path)
    profile = store.world.profiles.get((request.owner, request.name), worlds.Profile({}, 0))
    number = max(profile.generations, default=0)
    if profile.generations.get(number) != request.path:
        number += 1
    refuse(32, number > GENERATIONS)
    profile.generations[number] = request.path
    store.world.profiles[request.owner, request.name] = profile
    return made_current(profile, number)


def profile_of(store, request):
    plain_names(request.owner, request.name)
    refuse(28, (request.owner, request.name) not in store.world.profiles)
    return store.world.profiles[request.owner, request.name]


def rollback(store, request, _):
    profile = profile_of(store, request)
    older = [number for number in profile.generations if number < profile.current]
    refuse(31, not older)
    return made_current(profile, max(older))


def generation_of(store, request):
    """The profile that is named, which has the number that is named."""
    profile = profile_of(store, request)
    refuse(29, request.number not in profile.generations)
    return profile


def delete_generation(store, request, _):
    profile = generation_of(store, request)
    refuse(30, request.number == profile.current)
    del profile.generations[request.number]
    return "done\n"


def replace_runtime(store, request, _):
    refuse(35, not all(is_label(label) for label, _ in request.pairs))
    store.world.runtime = {(label, base) for label, base in request.pairs if base in store.world.objects}
    return f"runtime roots {len(store.world.runtime)}\n"


def session_of(request):
    plain_names(request.owner)
    refuse(42, not 1 <= request.session <= SESSIONS)
    return request.session


def add_temporary(store, request, _):
    store.world.temporary.add((request.owner, session_of(request), store.valid(request.path)))
    return "done\n"


def end_session(store, request, _):
    session = session_of(request)
    ended = {root for root in store.world.temporary if root[:2] == (request.owner, session)}
    store.world.temporary -= ended
    return f"temporary roots {len(ended)}\n"


def delete(store, request, _):
    named = {store.valid(base) for base in request.paths}
    return store.remove(store.world.referrers(named, store.world.objects.keys()))


REQUESTS = {
    "add-text": add_text, "add-source": add_source, "import": add_import, "info": info, "archive": archive_of,
    "listing": lambda store, request, _: archives.listing(archives.read(archive_of(store, request, _))),
    "list": lambda store, request, _: store.paths_text(store.world.objects),
    "live": lambda store, request, _: store.paths_text(store.world.roots_of(store.config)),
    "dead": lambda store, request, _: store.paths_text(store.world.dead(store.config)),
    "roots": lambda store, request, is_trusted: store.roots_text(store.world.roots(), is_trusted),
    "roots-of": roots_of, "report": report, "set-permanent": set_permanent, "drop-permanent": drop_permanent,
    "set-user-root": set_user_root, "drop-user-root": drop_user_root, "set-profile": set_profile, "rollback": rollback,
    "switch": lambda store, request, _: made_current(generation_of(store, request), request.number),
    "delete-generation": delete_generation, "replace-runtime": replace_runtime, "add-temporary": add_temporary,
    "end-session": end_session, "delete": delete,
    "collect": lambda store, request, _: store.remove(store.world.collected(store.config, request.limit)),
}
